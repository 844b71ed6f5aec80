#!/usr/bin/env python3
"""Writes the pages of the manual in man/, in plain roff: tivrenan(1) of what `tivrenan help` says and of docs/STATUSES.md,
and one for each program for offices of what its own --help says. With the word `check`, compares instead of writing, and
ends with status 1 where a page isn't as it would be written.
"""
import os
import re
import subprocess
import sys

TOP = os.path.dirname(os.path.dirname(os.path.abspath(__file__)))
DATE = "2026-11-28"
TABLE = "tools/launcher/commands"
SCRIPTS = "make_batch matter_report take_volume check_report volume_as fetch_volume matter_backup matter_restore matter_audit".split()
NAMES = {f"matter_{name}": f"tivrenan-{name}" for name in ("backup", "restore", "audit")}
PROGRAMS = {NAMES.get(script, f"tivrenan-{script.replace('_', '-')}"): script for script in SCRIPTS}


def said(*words):
    """What a program of the repository prints; as wide as a page."""
    room = {**os.environ, "COLUMNS": "79"}
    return subprocess.run([os.path.join(TOP, words[0]), *words[1:]], capture_output=True, text=True, check=True, env=room).stdout


def plain(text):
    """The text as roff reads it: no letter of it is a sign, and no line a request."""
    text = text.replace("`", "").replace("\\", "\\e").replace("-", "\\-")
    return re.sub(r"^([.'])", r"\\&\1", text, flags=re.MULTILINE)


def paragraph(text):
    return plain(" ".join(text.split()))


def head(name, what):
    version = re.search(r"^version=(\S+)$", text_of("tivrenan"), re.MULTILINE)[1]
    title = name.upper().replace("-", "\\-")
    return [f'.TH {title} 1 {DATE} "tivrenan {version}" "User commands"', ".ad l", ".nh", ".SH NAME", f"{plain(name)} \\- {plain(what)}"]


def text_of(path):
    with open(os.path.join(TOP, path), encoding="utf-8") as file:
        return file.read()


def commands():
    """The names in the table of commands; those of the launcher's own stand together under the first of them."""
    names = re.findall(r"^(command|own) +(\w+)$", text_of(TABLE), re.MULTILINE)
    own = [name for kind, name in names if kind == "own"]
    return [name for kind, name in names if kind == "command"] + own[:1]


def command_of(name):
    """A command by `tivrenan help NAME`: how it is called, what it does, what its words are."""
    usage, _, words = said("tivrenan", "help", name).partition("\n\n")
    lines = []
    for line in usage.replace("usage:", "      ").splitlines():
        call = re.match(r" {7}(tivrenan .*)", line)
        lines += [".TP", f".B {plain(call[1])}"] if call else [plain(line.strip())]
    for told in re.split(r"\n(?=\S)", words.strip()):
        found = re.match(r"(.+?)  +(.*)", told, re.DOTALL)
        if found:
            lines += [".RS", ".TP", f".I {plain(found[1])}", paragraph(found[2]), ".RE"]
    return lines


def statuses():
    """What the page of statuses says under the heading of each, but for what is printed; a row of a table as `command: what stands`."""
    lines = []
    for number, text in re.findall(r"^## (\d+): .*\n((?:(?!## ).*\n)*)", text_of("docs/STATUSES.md"), re.MULTILINE):
        text = re.sub(r"^(Prints .*|\| (Command|---).*|\|---.*)\n", "", text, flags=re.MULTILINE)
        text = re.sub(r"^\| (\S+) \| .* \| (.*) \|$", r"\1: \2.", text, flags=re.MULTILINE)
        lines += [".TP", f".B {number}", paragraph(text)]
    own = {
        "126, 127": "The system could not start the program.",
        "128 and more": "A signal, by this number and 128, ended the program.",
    }
    for number, means in own.items():
        lines += [".TP", f".B {number}", paragraph(means)]
    return lines


def launcher_page():
    lines = head("tivrenan", "makes the volume that a law office hands over")
    lines += [".SH SYNOPSIS", ".B tivrenan", ".I COMMAND", "[\\fIWORD\\fR ..]", ".SH DESCRIPTION"]
    lines.append(paragraph("""tivrenan keeps a matter of scanned documents in the file matter.db of the current folder: it takes
        batches of pages in, serves the desk at which people decide what is withheld or redacted, freezes these decisions, and writes
        the volume: pages with their boxes burned in and their numbers, slip sheets, texts, load files, privilege log. It writes the
        replacement of a volume in which a document went out by mistake, and checks volumes of any producer. It prints one line; what a refusal means and what to do is said on standard error."""))
    lines.append(".SH COMMANDS")
    for name in commands():
        lines += command_of(name)
    lines += [".SH EXIT STATUS", *statuses()]
    for file, what in {
        "matter.db": "the matter of the current folder",
        "matter.db-wal": "the log of the database while a command runs, or after one that was killed",
        "out": "the folder below the current one into which all files are written",
    }.items():
        lines += [".SH FILES"] if file == "matter.db" else []
        lines += [".TP", f".I {plain(file)}", plain(what)]
    lines += [".SH EXAMPLES", ".nf", plain("tivrenan init $(printf %s 'the key of the lead' | sha256sum | cut -c1-64)"),
              plain("tivrenan import CVI_001"), plain("tivrenan serve 1 1000"),
              plain("tivrenan produce R-1 VOL001 ABC 8 1 12 AUTHOR"), plain("tivrenan claw R-1 VOL001B notice.csv"),
              plain("cd out && tivrenan check VOL001/DATA/VOL001.DAT VOL001/DATA/VOL001.OPT VOL001/MANIFEST.TXT"), ".fi"]
    others = [f".BR {plain(name)} (1)," for name in PROGRAMS]
    return lines + [".SH SEE ALSO", *others[:-1], others[-1].rstrip(","), ".PP",
                    plain("An office's guide stands in share/doc/tivrenan/GUIDE.md below the folder that bin stands in.")]


def program_page(name, script):
    """A page of what a program's --help says: its usage, what it does, its options, and more."""
    told = said(f"tools/{script}", "--help")
    usage, *rest = told.strip().split("\n\n")
    what = rest[0].replace("\n", " ")
    lines = head(name, what[0].lower() + what[1:].rstrip("."))
    call = paragraph(usage.removeprefix("usage:").strip().removeprefix(script))
    lines += [".SH SYNOPSIS", f".B {plain(name)}", call]
    lists = [part for part in rest[1:] if re.match(r"(positional arguments|options):", part)]
    lines += [".SH DESCRIPTION"]
    for at, part in enumerate(part for part in rest[1:] if part not in lists):
        lines += [".PP"] if at else []
        lines.append(paragraph(part))
    lines += [".SH OPTIONS"]
    for part in lists:
        for option in re.findall(r"^  (\S.*(?:\n {4,}.*)*)", part, re.MULTILINE):
            word, _, means = re.sub(r"\n +", "  ", option).partition("  ")
            lines += [".TP", f".B {plain(word)}", paragraph(means)]
    return lines + [".SH SEE ALSO", ".BR tivrenan (1)"]


def pages():
    yield "tivrenan.1", launcher_page()
    for name, script in PROGRAMS.items():
        yield f"{name}.1", program_page(name, script)


def main():
    differ = False
    for file, lines in pages():
        path = os.path.join(TOP, "man", file)
        text = "\n".join(lines) + "\n"
        if sys.argv[1:] != ["check"]:
            with open(path, "w", encoding="utf-8") as out:
                out.write(text)
        elif not os.path.exists(path) or text_of(path) != text:
            print(f"write_man.py: man/{file} isn't what would be written: run docs/write_man.py", file=sys.stderr)
            differ = True
    sys.exit(1 if differ else 0)


main()

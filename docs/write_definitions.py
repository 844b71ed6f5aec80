#!/usr/bin/env python3
"""Writes the tables of DEFINITIONS.md from the comments of crates/*/specs: of each crate's part the table, a row for each
public definition, with its file, the comment line above it, and the public source that a line `-- by ..` of it names.
What stands between the tables is kept as it is, and names on standard error each public definition that has no comment. With
the word `check` writes nothing, and ends with status 1 where the page isn't what it would write."""
import pathlib
import re
import sys

TOP = pathlib.Path(__file__).resolve().parent.parent
PAGE = TOP / "docs" / "DEFINITIONS.md"
DEFINED = re.compile(r"^(?:abbrev |unfoldable )?pub (?:record |data )?([^\s(]+)")
OTHER = re.compile(r"^pub (mod|use)\b")


def definitions(path):
    """Name, comment and source of each public definition of a file of specs, in its order."""
    comment, found = [], []
    for line in path.read_text().splitlines():
        if line.startswith("--"):
            comment.append(line[2:].strip())
            continue
        match = DEFINED.match(line)
        if match and not OTHER.match(line):
            says = [part for part in comment if not part.startswith("by ") and not part.startswith("----")]
            source = [part[3:] for part in comment if part.startswith("by ")]
            found.append((match.group(1), " ".join(says), " ".join(source)))
        comment = []
    return found


def cell(text):
    return text.replace("|", "\\|")


def table(crate, lacking):
    rows = ["| Name | File | What it says | Source |", "|---|---|---|---|"]
    for path in sorted((TOP / "crates" / crate / "specs").glob("*.antt")):
        if path.name == "Lib.antt":
            continue
        for name, says, source in definitions(path):
            if not says:
                lacking.append(f"crates/{crate}/specs/{path.name}: {name}")
            rows.append(f"| `{cell(name)}` | `{path.name}` | {cell(says)} | {cell(source)} |")
    return rows


def page(lacking):
    lines, crate, at_table = [], None, False
    for line in PAGE.read_text().splitlines():
        heading = re.match(r"## (bp_\w+)", line)
        if heading:
            crate = heading.group(1)
        if line.startswith("|"):
            if not at_table and crate is not None:
                lines += table(crate, lacking)
                crate = None
            at_table = True
            continue
        at_table = False
        lines.append(line)
    return "\n".join(lines) + "\n"


def main():
    lacking = []
    text = page(lacking)
    if sys.argv[1:] == ["check"]:
        if text != PAGE.read_text():
            sys.exit("docs/DEFINITIONS.md isn't what the specs say: run docs/write_definitions.py")
        return
    for name in lacking:
        print("no comment: " + name, file=sys.stderr)
    PAGE.write_text(text)


main()

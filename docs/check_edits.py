#!/usr/bin/env python3
"""Counts the must-fail edits of each library crate, laws aside, and tests that each edit can be applied: each `old:` line stands
exactly once in its file, and the edit changes something, of a body: no definition, and no constant, which definitions may cite.
Ends with status 1 where one can't, where a library has fewer than five or more than ten, where docs/PROMISES.md names an edit not
at all, or where a column of edits there or in docs/PLANTED.md names one that isn't there. What the prover says of them is asked by
`rt ci`."""
import pathlib
import re
import sys

TOP = pathlib.Path(__file__).resolve().parent.parent
FEWEST, MOST = 5, 10
# libraries that have more. bp_cli: `run` carries all commands, and five of the twelve turn no command but `run` and `serve` whole;
# of the others each turns init, produce, burn or deliver, or what the program hands back.
MORE = {"bp_cli": 12}
# libraries that need fewer, and have theirs in definitions: laws, whose calls have no body that does something
LAWS = {"bp_frozen", "bp_own_volumes"}
NOT_PRODUCT = ("bp_test_", "bp_bench")
CONSTANT = re.compile(r"\s*(pub(\([a-z]+\))? )?(const|static) [A-Z]")


def steps(edit):
    """The pairs of lines of an edit, in order: the file that each changes, its old text and its new one."""
    file, old = "", None
    for line in edit.read_text(encoding="utf-8").splitlines():
        kind, _, text = line.partition(":")
        if kind == "file":
            file = text.strip()
        elif kind == "old":
            old = text.removeprefix(" ")
        elif kind == "new":
            yield file, old, text.removeprefix(" ")
            old = None


def fault(crate, edit):
    """Why the edit can't be applied, or None."""
    before, after = {}, {}
    for file, old, new in steps(edit):
        path = crate / file
        if not old or not path.is_file():
            return f"a line new: has no line old: before it, or names no file: '{file}'"
        if crate.name not in LAWS and (not file.startswith("src/") or CONSTANT.match(old)):
            return f"'{old}' in {file} is no body"
        text = before.setdefault(file, path.read_text(encoding="utf-8"))
        text = after.setdefault(file, text)
        if text.count(old) != 1:
            return f"'{old}' stands {text.count(old)} times in {file}"
        after[file] = text.replace(old, new)
    return None if before != after else "it changes nothing"


def named_in(document):
    """The edits that the columns of edits in a document name."""
    column = None
    for line in (TOP / document).read_text(encoding="utf-8").splitlines():
        cells = [re.sub(r"`[^`]*`", "", cell).strip() for cell in line.split("|")]
        if "Edit" in cells:
            column = cells.index("Edit")
        elif not line.startswith("|"):
            column = None
        elif column is not None and column < len(cells):
            yield from re.findall(r"\b[a-z0-9]+(?:_[a-z0-9]+)+\b", cells[column])


def lost_names(edits):
    """What the documents name and isn't there, and what is there and PROMISES doesn't name."""
    there = {edit.stem for edit in edits}
    named = {document: set(named_in(document)) for document in ("docs/PROMISES.md", "docs/PLANTED.md")}
    yield from (f"{document}: there is no edit {name}" for document, names in named.items() for name in sorted(names - there))
    yield from (f"docs/PROMISES.md names no edit {name}" for name in sorted(there - named["docs/PROMISES.md"]))


def is_counted(crate):
    """Whether it is a library with code of its own."""
    return (crate / "src" / "lib.rt").is_file() and not crate.name.startswith(NOT_PRODUCT) and crate.name not in LAWS


def main():
    counts, wrong = {}, []
    for crate in sorted((TOP / "crates").iterdir()):
        edits = sorted((crate / "must-fail").glob("*.edit"))
        found = [(edit.name, fault(crate, edit)) for edit in edits]
        wrong += [f"{crate.name}/must-fail/{name}: {why}" for name, why in found if why]
        if is_counted(crate):
            counts[crate.name] = len(edits)
    wrong += lost_names(TOP.glob("crates/*/must-fail/*.edit"))
    bounds = {name: range(FEWEST, MORE.get(name, MOST) + 1) for name in counts}
    amiss = {name: count for name, count in counts.items() if count not in bounds[name]}
    wrong += [f"{name}: {count} edits, not {bounds[name][0]} to {bounds[name][-1]}" for name, count in amiss.items()]
    print(f"check_edits.py: {sum(counts.values())} edits of {len(counts)} libraries")
    for line in wrong:
        print(f"check_edits.py: {line}")
    sys.exit(1 if wrong else 0)


if __name__ == "__main__":
    main()

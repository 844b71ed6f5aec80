#!/usr/bin/env python3
"""Gives definitions of specs/ another name, wherever they are used. Each line of the standard input names one: crate, room (the file without
its ending), name, new name. A name stands for the definition in the room itself and in each file that imports it from there, also as
`ROOM.NAME` where that is used whole. Fields of that name, functions of Rust and what another room has under the name stay as they are.

Where a file has the name from two rooms, or the new one already, that is told, and nothing is written. Afterwards: `rt fmt` in the crates
that changed, `docs/write_definitions.py`, `docs/write_headline.py`, `docs/check_edits.py`, and a look at what documents say. A definition
that is named after its function is better renamed by hand, both, with the folder of the proof."""
import pathlib
import re
import sys

TOP = pathlib.Path(__file__).resolve().parent.parent
IMPORT = re.compile(r"\buse\s+Rattle\.([\w.]+?)\.\{([^}]*)\}")
PART = r"[A-Za-z0-9_'◌\-]"


def word(name):
    """The name as a word of its own that no path leads to."""
    return re.compile(rf"(?<!{PART}|\.)" + re.escape(name) + rf"(?!{PART})")


def sources():
    found = (path for path in (TOP / "crates").rglob("*") if path.suffix in (".antt", ".rt") and "out" not in path.parts)
    return {path: path.read_text() for path in found}


def rooms_of(text, name):
    """The rooms from which a file has something under this name."""
    return {room for room, names in IMPORT.findall(text) for each in names.split(",") if each.split()[-1:] == [name]}


def is_of_rust(line, at, name):
    """Whether the word at this place of a line of Rust is Rust's own: a function, its call, a type behind `::`, or within its `use`."""
    return bool(
        re.match(r"\s*(?:pub(?:\(crate\))? )?(?:use|mod) ", line)
        or re.search(r"(?:\b(?:fn|let|mut|struct|enum|trait|impl|for)\s+|::|&(?:mut )?|-> (?:Result<)?)$", line[:at])
        or re.match(r"\(|::|<|\s*\{$", line[at + len(name) :])
    )


def is_field(line, at, name):
    """Whether it is a field that is declared or given its value."""
    before, behind = line[:at], line[at + len(name) :]
    declared = re.fullmatch(r"\s+(?:pub\s+)?", before) and re.match(r"\s+:\s", behind)
    return bool(declared or re.search(r"(?:[{;]\s*|^\s+)$", before) and re.match(r"\s+=\s.*[;}]", behind))


def renamed_line(line, name, new, rust, room):
    code, sign, comment = line.partition("//" if rust else "--")
    if sign:
        return renamed_line(code, name, new, rust, room) + sign + comment
    if (found := IMPORT.search(line)) is not None:
        parts = [each.strip() for each in found[2].split(",")]
        of_room = found[1] == room
        changed = [new + each[len(name) :] if of_room and each.split()[0] == name else each for each in parts if each]
        return line[: found.start(2)] + ", ".join(changed) + line[found.end(2) :]
    keeps = lambda at: is_field(line, at, name) or rust and is_of_rust(line, at, name)
    return word(name).sub(lambda found: name if keeps(found.start()) else new, line)


def renamed(path, text, room, name, new):
    """The text of a file, with the name of that room's definition changed where it stands for it."""
    crate, spec = room.split(".")[0], room.split(".")[-1]
    of_crate = TOP / "crates" / crate in path.parents
    # as a tactic of Rust names it
    text = re.sub(rf"\b({'crate' if of_crate else crate}::specs::{spec}::){re.escape(name)}(?!{PART})", rf"\g<1>{new}", text)
    whole = re.search(rf"^(?:ghost )?use Rattle\.{re.escape(room)} as (\w+)", text, re.M)
    if whole:
        text = re.sub(rf"\b{whole[1]}\.{re.escape(name)}(?!{PART})", f"{whole[1]}.{new}", text)
    if path == TOP / "crates" / crate / "specs" / f"{spec}.antt" or room in rooms_of(text, name):
        return "".join(renamed_line(line, name, new, path.suffix == ".rt", room) for line in text.splitlines(keepends=True))
    lines = text.splitlines(keepends=True)
    return "".join(renamed_line(line, name, new, path.suffix == ".rt", room) if f"Rattle.{room}." in line else line for line in lines)


def rename(texts, crate, spec, name, new):
    """Renames in the texts. Gives how many files changed, and what forbids it."""
    home, room, count = TOP / "crates" / crate / "specs" / f"{spec}.antt", f"{crate}.specs.{spec}", 0
    if not re.search(rf"^(?:abbrev |unfoldable )*pub (?:record |data )?{re.escape(name)}(?!{PART})", texts.get(home, ""), re.M):
        return 0, [f"{crate}/{spec} defines no {name}"]
    reasons = []
    for path, text in texts.items():
        changed = renamed(path, text, room, name, new) if name in text else text
        if changed == text:
            continue
        if word(new).search(text):
            reasons.append(f"{path.relative_to(TOP)} has {new} already")
        if len(rooms_of(text, name)) > 1 or path == home and rooms_of(text, name):
            reasons.append(f"{path.relative_to(TOP)} has {name} from two rooms")
        texts[path], count = changed, count + 1
    return count, reasons


def main():
    before = sources()
    texts, refused = dict(before), False
    for line in sys.stdin:
        count, reasons = rename(texts, *line.split())
        print(f"{line.strip()}: {count} files")
        print("".join(f"  refused: {reason}\n" for reason in reasons), end="")
        refused = refused or bool(reasons)
    if refused:
        sys.exit("nothing was written")
    for path, text in texts.items():
        if text != before[path]:
            path.write_text(text)


main()

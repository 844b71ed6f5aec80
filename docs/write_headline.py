#!/usr/bin/env python3
"""Writes HEADLINE.md: the clauses of `run` that carry the headline, and below them every definition that they reach in
crates/*/specs, with the types and constants of crates/*/src that these name, in an order in which they can be read, and how many
lines that is. What belongs to other commands alone is left out, where a definition goes by cases over the commands. With the word
`check` writes nothing, and ends with status 1 where the page isn't what it would write."""
import pathlib
import re
import sys
import textwrap

TOP = pathlib.Path(__file__).resolve().parent.parent
PAGE = TOP / "docs" / "HEADLINE.md"
RUN = TOP / "crates" / "bp_cli" / "src" / "run.rt"

# from the program down
FLOORS = """bp_cli bp_frozen bp_desk bp_book bp_doors bp_web bp_press bp_burn bp_import bp_rules bp_looks bp_freeze bp_matter bp_keep bp_tiff bp_t6 bp_rows
bp_codes bp_text bp_records bp_load bp_bates bp_shelves bp_outside bp_core""".split()
# what a part begins with, and the names at which it stops
PARTS = [
    (
        "A volume that is written",
        "What `produce` and `press` promise: the files that are added, and that they are the same for every other matter that shows\n"
        "the same. Of the clause `runs` it is the last case, where the words ask neither to serve nor to deliver.",
        [("bp_cli", "RunWords", "RunsCommand")],
        {"init", "burn", "import", "log", "check", "claw", "demo"},
    ),
    (
        "Calls that any desks make",
        "What `serve` promises: one history of calls, and of each production that was frozen in it the volume that it keeps. What stands\n"
        "above isn't said again.",
        [("bp_cli", "RunWords", "RunsServe")],
        {"init", "burn", "import", "log", "check", "claw", "demo"},
    ),
]
BLOCK = re.compile(r"^(?:abbrev |unfoldable )*(?:pub )?(?:record |data )?([^\s(:]+)")
USE = re.compile(r"^use ([^\s{]+?)(?:\.\{(.*)\}|\s+as\s+(\w+))?$")
WORD = re.compile(r"[^\s(){}\[\],;]+")
ITEM = r"^pub(?:\(crate\))? (?:struct|enum|const|static|type) {}\b"


class Room:
    """A file of specs: its definitions, a list of lines each, and what its names stand for."""

    def __init__(self, path):
        self.blocks, self.names, self.rooms = {}, {}, {}
        comment, name, gap = [], None, []
        for line in path.read_text().splitlines():
            if line.startswith("use "):
                self.take_use(line)
            elif line.startswith("--"):
                comment, name = [*comment, line], None
            elif not line.strip():
                # within a definition, where an indented line follows
                comment, gap = [], [""] if name else []
            elif line[0] != " ":
                name = BLOCK.match(line).group(1)
                self.blocks[name] = [*self.blocks.get(name, []), *comment, line]
                comment, gap = [], []
            elif name:
                self.blocks[name] += [*gap, line]
                gap = []

    def take_use(self, line):
        path, names, alias = USE.match(line.replace("use Rattle.", "use ")).groups()
        if alias:
            self.rooms[alias] = path
        for each in (names or "").split(","):
            name, _, other = each.strip().partition(" as ")
            self.names[other or name] = (path, name)

    def reached(self, name, stops):
        """Where each word of the definition leads, in the order in which they stand."""
        code = [line for line in self.kept(name, stops) if not line.startswith("--")]
        for word in WORD.findall(" ".join(code)):
            first, _, rest = word.partition(".")
            if word in self.names:
                yield self.names[word]
            elif first in self.rooms and rest:
                yield self.rooms[first], rest
            elif first in self.names:
                yield self.names[first]
            elif word in self.blocks and word != name:
                yield None, word

    def kept(self, name, stops):
        """The lines of a definition but for the cases of commands at which the part stops."""
        lines, cut = [], False
        for line in self.blocks[name]:
            # a command, in the list of them
            if name == "CommandLine" and re.match(rf"  ({'|'.join(stops)}) :", line):
                continue
            if line and line[0] != " ":
                cut = bool(re.match(rf"{re.escape(name)} \(?(?:Some \()?(?:commands\.)?({'|'.join(stops)})\b", line, re.IGNORECASE))
            if not cut:
                lines.append(line)
        return lines


def rooms():
    found = {}
    for path in sorted(TOP.glob("crates/*/specs/*.antt")):
        if path.stem != "Lib":
            found[path.parts[-3], path.stem] = Room(path)
    return found


def declared(crate, path, name):
    """The lines of a type or a constant of the sources."""
    file = TOP / "crates" / crate / "src" / pathlib.Path(*path)
    for at in (file.with_suffix(".rt"), file / "mod.rt"):
        if not at.exists():
            continue
        lines = at.read_text().splitlines()
        for number, line in enumerate(lines):
            if re.match(ITEM.format(re.escape(name)), line):
                first, last = number, number
                while first and re.match(r"///|#\[", lines[first - 1]):
                    first -= 1
                if not re.search(r"[;}]$", line):
                    while lines[last] not in ("}", "];", ");", "};"):
                        last += 1
                return lines[first : last + 1]
    return None


class Walk:
    """What a part reaches, in the order in which it is met."""

    def __init__(self, every):
        self.every, self.seen, self.found, self.of_kit = every, set(), [], {}

    def follow(self, crate, room, name, stops):
        if (crate, room, name) in self.seen or name not in self.every[crate, room].blocks:
            return
        self.seen.add((crate, room, name))
        self.found.append((crate, f"specs/{room}.antt", name, self.every[crate, room].kept(name, stops)))
        for path, word in self.every[crate, room].reached(name, stops):
            self.lead(crate, room, path, word, stops)

    def lead(self, crate, room, path, word, stops):
        if path is None:
            self.follow(crate, room, word, stops)
            return
        parts = path.split(".")
        if (parts[0], parts[-1]) in self.every and parts[1] == "specs":
            self.follow(parts[0], parts[-1], word, stops)
        elif parts[0].startswith("bp_") and parts[1:3] == ["specs", "declared"]:
            self.declare(parts[0], parts[3:], word)
        else:
            self.of_kit.setdefault(path, set()).add(word)

    def declare(self, crate, path, word):
        *room, last = path
        if last not in ("TheConstants", "TheVariants"):
            word = last
        elif last == "TheVariants":
            *room, word = room
        text = declared(crate, room, word)
        if text and (crate, tuple(room), word) not in self.seen:
            self.seen.add((crate, tuple(room), word))
            self.found.append((crate, f"src/{'/'.join(room)}.rt", word, text))


def clauses():
    """The clauses of `run`, as they stand."""
    lines = RUN.read_text().splitlines()
    first = next(at for at, line in enumerate(lines) if line.startswith("pub fn run<"))
    last = next(at for at in range(first, len(lines)) if lines[at] == "{")
    return lines[first:last]


def shown(found):
    """Floor by floor, room by room, what was met."""
    lines, counted = [], 0
    for crate in FLOORS:
        for file in dict.fromkeys(it[1] for it in found if it[0] == crate):
            blocks = [text for of, at, _, text in found if (of, at) == (crate, file)]
            lines += [f"**`crates/{crate}/{file}`**", "", "```"]
            for at, text in enumerate(blocks):
                lines += ([""] if at else []) + text
            lines += ["```", ""]
            counted += sum(map(len, blocks))
    return lines, counted


def wrapped(part):
    """A paragraph of words, or a point of a list, in lines that aren't too wide."""
    within = {"subsequent_indent": "  " if part.startswith("- ") else "", "break_long_words": False, "break_on_hyphens": False}
    return part if part.startswith("```") else textwrap.fill(part, 120, **within)


def page():
    walk, parts, told = Walk(rooms()), [], []
    for title, says, roots, stops in PARTS:
        before = len(walk.found)
        for crate, room, name in roots:
            walk.follow(crate, room, name, stops)
        lines, counted = shown(walk.found[before:])
        told.append(f"{title.lower()}: {len(walk.found) - before} definitions, {counted} lines")
        parts += [f"## {title}", "", wrapped(says), "", *lines]
    lost = sorted({it[0] for it in walk.found} - {*FLOORS})
    if lost:
        sys.exit(f"docs/write_headline.py has no floor for {lost}")
    kit = [wrapped(f"- `{path}`: {', '.join(f'`{it}`' for it in sorted(words))}") for path, words in sorted(walk.of_kit.items())]
    head = f"""# The headline, to be read

Whoever wants to believe the headline of README has this to read: the clauses of `run`, which are proved, and every definition of this
repository that they reach; the kit's own, of lists, options, texts, SHA-256 and JSON, stand in its libraries. `docs/write_headline.py`
writes this page from the sources, and the gate checks that it is theirs. In all: {'; '.join(told)}.
Cases of commands other than `produce`, `press` and `serve` are left out of definitions that go by cases. What the file `matter.db` is to
the rows is `EndsFiles` of `bp_cli` (`Database.antt`), when a database tells its rows `rows_told` of `bp_keep_sql`, and that a disk tells
no files `Untold` of `bp_outside`: these stand outside this page.

**To read it.** Begin at `RunsCommand`, the first definition below; each name stands further down, room by room from the program to the
ground. `A → B` is a premise and what follows, or the type of a function; `a ≡ b` says that they are equal; `×` and `⊎` are and, or; `λ x. t` is
the function of x; `x ∷ xs` a list with x before xs; a `record` is all of its fields, a `data` one of its cases. Of a lent object `old` and
`new` are before and after the call, `now` is where it isn't changed.

The call that the program makes:

```
"""
    head = "\n\n".join(wrapped(part) for part in head.split("\n\n"))
    return head + "\n".join([*clauses(), "```", "", *parts, "## Words of the kit's library", "", *kit]) + "\n"


def main():
    text = page()
    if sys.argv[1:] == ["check"]:
        if not PAGE.exists() or text != PAGE.read_text():
            sys.exit("docs/HEADLINE.md isn't what the sources say: run docs/write_headline.py")
        return
    PAGE.write_text(text)


main()

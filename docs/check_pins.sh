#!/usr/bin/env bash
# Tests that each number which a definition takes from the code is written out in a worked example: a contract that
# cites a constant follows it, also to a wrong value. Prints each constant of crates/*/src that a file of specs/ cites
# (by its import from a module TheConstants) and that no worked example pins, and ends with status 1 where there is one.
#
# A pin is a line of proofs/*Examples*.antt whose type says `NAME ≡ VALUE`, or the same of a list of names and one of as
# many numbers, or, where the limit stands as a bound, `is_most NAME VALUE ≡ true` (an example at the limit and just past
# it). A table (a constant of an array's type) needs none: a law says of it what it must hold.
set -euo pipefail
cd "$(dirname "$0")/.."

python3 - "$@" <<'SCRIPT'
import pathlib
import re
import sys

# crate, module as a path, name -> file, line and type
CONSTANT = re.compile(r"^\s*(?:pub(?:\([a-z ]+\))?\s+)?(?:const|static)\s+([A-Z][A-Z0-9_]*)\s*:\s*([^=]*?)\s*=", re.M)
IMPORT = re.compile(
    r"^\s*(?:pub\s+)?use\s+Rattle\.(\w+)\.specs\.declared\.((?:\w+\.)*)TheConstants"
    r"(?:\s+as\s+(\w+)|\.\{([^}]*)\})",
    re.M,
)


def module_of(source, crate):
    parts = source.relative_to(crate / "src").with_suffix("").parts
    parts = parts[:-1] if parts[-1] in ("lib", "main", "mod") else parts
    return ".".join(parts)


def constants_of(crate):
    found = {}
    for source in sorted((crate / "src").rglob("*.rt")):
        text = source.read_text()
        for match in CONSTANT.finditer(text):
            line = text.count("\n", 0, match.start(1)) + 1
            key = (crate.name, module_of(source, crate), match.group(1))
            found[key] = (f"{source}:{line}", match.group(2))
    return found


def without_comments(file):
    return re.sub(r"--.*", "", file.read_text())


# the name by which this text writes a constant -> which one it is
def names_in(text, constants):
    names = {}
    for crate, path, alias, members in IMPORT.findall(text):
        module = path.rstrip(".")
        if alias:
            for key in constants:
                if key[:2] == (crate, module):
                    names[f"{alias}.{key[2]}"] = key
        for member in filter(None, (m.strip() for m in members.split(","))):
            name, _, own = member.partition(" as ")
            names[(own or name).strip()] = (crate, module, name.strip())
    return names


def word(name):
    return r"(?<![\w.])" + re.escape(name) + r"(?![\w.])"


def cited_in(text, constants):
    body = IMPORT.sub("", text)
    names = names_in(text, constants)
    return {key for name, key in names.items() if re.search(word(name), body)}


LISTS = re.compile(r"\(((?:[A-Z][A-Z0-9_]*\s*∷\s*)+)\[\]\)\s*≡\s*\(((?:[0-9_]+\s*∷\s*)+)\[\]\)")


# the names of each list that is the same as one of as many numbers
def listed_in(text):
    parts = lambda cells: [cell.strip() for cell in cells.split("∷") if cell.strip()]
    return {name for names, numbers in LISTS.findall(text) if len(parts(names)) == len(parts(numbers)) for name in parts(names)}


def pinned_in(text, constants):
    names, listed = names_in(text, constants), listed_in(text)
    pin = r"%s\s*≡|\bis_most\s+%s\s+[0-9_]+\s*≡\s*true"
    return {key for name, key in names.items() if name in listed or re.search(pin % (word(name), word(name)), text)}


def main():
    crates = sorted(p for p in pathlib.Path("crates").iterdir() if (p / "src").is_dir())
    constants = {}
    for crate in crates:
        constants.update(constants_of(crate))
    cited, pinned = {}, set()
    for crate in crates:
        for file in sorted((crate / "specs").rglob("*.antt")):
            for key in cited_in(without_comments(file), constants):
                cited.setdefault(key, []).append(str(file))
        for file in sorted((crate / "proofs").glob("*Examples*.antt")):
            pinned |= pinned_in(without_comments(file), constants)
    missing = 0
    for key in sorted(cited):
        place, kind = constants.get(key, ("nowhere", ""))
        if key in pinned or kind.startswith("["):
            continue
        missing += 1
        print(f"{key[0]}: {key[2]} ({place}), cited by {', '.join(cited[key])}, is pinned by no worked example")
    sys.exit(1 if missing else 0)


main()
SCRIPT

#!/usr/bin/env python3
"""Counts what makes the product hard to change, over its crates (all but those of tests and benches): cycles of modules, functions with
seven parameters or more, names of definitions with two homes, runs of six and more equal lines in proofs, lines of proof for a line of code.
Prints a line each; with the word `all` also where they are."""
import collections
import pathlib
import re
import sys

TOP = pathlib.Path(__file__).resolve().parent.parent
NOT_PRODUCT = re.compile(r"bp_(?:test_|bench)")
DEFINED = re.compile(r"^(?:abbrev |unfoldable )?pub (?:record |data )?([^\s(:]+)")
RUN = 6


def product():
    return sorted(path for path in (TOP / "crates").iterdir() if not NOT_PRODUCT.match(path.name) and (path / "src").is_dir())


def cycles(crate):
    """Sets of modules of which each uses each other, by what it imports."""
    uses = {}
    for path in (crate / "src").rglob("*.rt"):
        module = "::".join(path.relative_to(crate / "src").with_suffix("").parts)
        text = path.read_text()
        uses[module] = set(re.findall(r"^use crate::([a-z_:]+?)(?:::[A-Z{]|::[a-z_]+[,;}]|;)", text, re.M))
    reached = {module: reach(uses, module) for module in uses}
    found = {frozenset(it for it in uses if it in reached[module] and module in reached[it]) for module in uses}
    return [sorted(each) for each in found if len(each) > 1]


def reach(uses, module):
    seen, todo = set(), [module]
    while todo:
        for each in uses.get(todo.pop(), ()):
            if each not in seen:
                seen.add(each)
                todo.append(each)
    return seen


def long_lists(crate):
    """Functions with seven parameters or more."""
    for path in sorted((crate / "src").rglob("*.rt")):
        text = path.read_text()
        for found in re.finditer(r"^ *(?:pub(?:\(crate\))? )?fn (\w+)", text, re.M):
            count = parameters(text, found.end())
            if count >= 7:
                yield f"{path.relative_to(TOP)}: {found[1]} has {count}"


def parameters(text, at):
    """How many stand between the parentheses of a function, whose type parameters may have some of their own."""
    depth = count = 0
    angle, begun, last = 0, False, ""
    for sign in text[at:]:
        if not begun:
            angle += {"<": 1, ">": -1}.get(sign, 0) if last != "-" else 0
            begun = sign == "(" and angle == 0
        elif sign in "([{<":
            depth += 1
        elif sign in ")]}>" and not (sign == ">" and last in "-="):
            if depth == 0:
                return count + (last not in ",(")
            depth -= 1
        elif sign == "," and depth == 0:
            count += 1
        last = sign if not sign.isspace() else last
    return count


def homes():
    """Names of public definitions that stand in two crates or two files."""
    found = collections.defaultdict(set)
    for crate in product():
        for path in (crate / "specs").glob("*.antt"):
            for line in path.read_text().splitlines():
                match = DEFINED.match(line)
                if match and match[1] not in ("mod", "use"):
                    found[match[1]].add(f"{crate.name}/{path.stem}")
    return {name: sorted(places) for name, places in found.items() if len(places) > 1}


def equal_runs():
    """Runs of lines of proofs that stand in two places: how many lines, and where."""
    places, texts = collections.defaultdict(list), {}
    for crate in product():
        for path in sorted((crate / "proofs").rglob("*.antt")):
            lines = [line.strip() for line in path.read_text().splitlines()]
            texts[path] = lines
            for at in range(len(lines) - RUN + 1):
                window = lines[at : at + RUN]
                if all(window) and not any(line.startswith(("use ", "mod ", "pub mod ")) for line in window):
                    places["\n".join(window)].append((path, at))
    covered, runs = set(), []
    for found in places.values():
        for other in found[1:]:
            first = found[0]
            if (first, other) in covered:
                continue
            length = RUN
            while same(texts, first, other, length):
                length += 1
            for step in range(length - RUN + 1):
                covered.add(((first[0], first[1] + step), (other[0], other[1] + step)))
            runs.append((length, *(f"{path.relative_to(TOP)}:{at + 1}" for path, at in (first, other))))
    return sorted(runs, reverse=True)


def same(texts, one, other, length):
    lines = [texts[path][at + length] if at + length < len(texts[path]) else "" for path, at in (one, other)]
    return lines[0] == lines[1] != ""


def lines_of(part, suffix):
    return sum(len(path.read_text().splitlines()) for crate in product() for path in (crate / part).rglob(f"*.{suffix}"))


def main():
    rows = {
        "cycles of modules": [f"{crate.name}: {', '.join(each)}" for crate in product() for each in cycles(crate)],
        "functions with seven parameters or more": [each for crate in product() for each in long_lists(crate)],
        "names of definitions with two homes": [f"{name}: {', '.join(places)}" for name, places in sorted(homes().items())],
        "of these capital": [name for name in sorted(homes()) if name[0].isupper()],
        f"runs of {RUN} and more equal lines in proofs": [f"{length} lines: {one} and {other}" for length, one, other in equal_runs()],
    }
    for name, found in rows.items():
        print(f"{name}: {len(found)}")
        if sys.argv[1:] == ["all"]:
            print("".join(f"  {each}\n" for each in found), end="")
    code, proofs = lines_of("src", "rt"), lines_of("proofs", "antt")
    print(f"lines of proof for a line of code: {proofs / code:.2f} ({proofs:,} : {code:,})")


main()

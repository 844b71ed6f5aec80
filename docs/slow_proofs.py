#!/usr/bin/env python3
"""Tells which functions of a crate took longest to prove, by the times at which a check with one job kept what it had proved: what stands
between two files is the second's. Where one function takes a tenth of its crate, look at what it lets go of at how many ends (docs/GATE.md).

    slow_proofs.py FOLDER [COUNT]
FOLDER is where the check kept its work, from nothing: `crates/NAME/out/incremental` after `rt check --jobs 1`, or the seed of a crate's edits
while `rt ci` tries them (`rt-edits-*/seed` below the system's folder for temporary files). COUNT is how many are told, 20 where none is named.
"""
import collections
import pathlib
import re
import sys

# the parts of a function's proof, each in a file of its own
PART = re.compile(r"[.](?:Lts|Tie|Code|Mir|Proof|Answers|Invariants|Statement|Met|Kinds[-0-9]*|Reads|Layout|Named|Key|Paired|decls)$")


def function_of(name):
    """The path of the function that a file is of; of a definition or a lemma file its own."""
    name = name.removeprefix("Rattle-").removesuffix(".oantt").replace("-proofs.", "::", 1)
    while PART.search(name):
        name = PART.sub("", name)
    return name


def main(words):
    if not 1 <= len(words) <= 2:
        sys.exit(__doc__)
    files = sorted((path.stat().st_mtime, path.name) for path in pathlib.Path(words[0]).rglob("Rattle-*.oantt"))
    if not files:
        sys.exit(f"slow_proofs.py: {words[0]} has nothing that a check kept")
    took = collections.Counter()
    for (before, _), (now, name) in zip(files, files[1:]):
        took[function_of(name)] += now - before
    print(f"{files[-1][0] - files[0][0]:7.0f} s in all")
    for name, seconds in took.most_common(int(words[1]) if len(words) > 1 else 20):
        print(f"{seconds:7.1f} {name}")


main(sys.argv[1:])

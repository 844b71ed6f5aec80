#!/usr/bin/env python3
"""Refuses each growth of tests in turn: growth_tests.py TESTS [NAME..]

TESTS is a crate's tests as they were built (`rt test` makes out/CRATE_tests). Each test, or each whose name holds a NAME, runs once as it is,
which tells how many growths it has; then the Nth is refused, for each N, by growths.c. It has to pass, or to end with the error that memory ran
out; "the desk did not start" is what the tests of bp_test_desk make of that where Desk::start answers it, and None in the place of a count of
calls where Desk::close does. An assertion that fails is another answer in the place of the right one, but in tests of doors, as four_doors, by
their names: there each reply has to be 200, and 507 is due here, which growths.py looks at. Prints a row for each test, and ends with 1 where
one ended otherwise. Needs cc.
"""
import collections
import os
import re
import subprocess
import sys
import tempfile

HERE = os.path.dirname(os.path.abspath(__file__))
LACKS = re.compile(rb'error: (OutOfMemory|AllocError|AllocFailed \{ \.\. \}|"the desk did not start")\n|failed\n  left: (None)\n right: Some\(')
LIMIT = 60


def run(tests, library, tell, name, at):
    environ = {"LD_PRELOAD": library, "GROWTH_TELL": tell, "GROWTH_REFUSE": str(at)}
    try:
        done = subprocess.run([tests, name], env=environ, stdin=subprocess.DEVNULL, stdout=subprocess.PIPE, stderr=subprocess.STDOUT, timeout=LIMIT)
    except subprocess.TimeoutExpired:
        return f"otherwise, no end within {LIMIT} seconds"
    if done.returncode == 0:
        return "passed"
    found = LACKS.search(done.stdout)
    if found:
        return (found[1] or found[2]).decode()
    if "door" in name and done.stdout.startswith(b"assertion "):
        return "another reply"
    return f"otherwise, {done.returncode}: {done.stdout[:300]!r}"


def row(tests, library, room, name):
    """How many growths, and what became of the test where each was refused."""
    tell = os.path.join(room, "tell")
    if run(tests, library, tell, name, 0) != "passed":
        return 0, {"otherwise, it fails as it is": 1}
    with open(tell, encoding="ascii") as file:
        count = int(file.read().split()[1])
    return count, collections.Counter(run(tests, library, tell, name, at) for at in range(1, count + 1))


def main():
    if len(sys.argv) < 2:
        sys.exit(__doc__)
    tests, words, failed = os.path.abspath(sys.argv[1]), sys.argv[2:], False
    listed = subprocess.run([tests, "--list"], capture_output=True, text=True, check=True).stdout
    names = [line.rpartition(":")[0] for line in listed.splitlines() if line.endswith(": test")]
    with tempfile.TemporaryDirectory() as room:
        library = os.path.join(room, "growths.so")
        subprocess.run(["cc", "-O2", "-shared", "-fPIC", "-o", library, os.path.join(HERE, "growths.c"), "-ldl"], check=True)
        print("| Test | Growths | What became of it |\n|---|---|---|")
        for name in names:
            if not words or any(word in name for word in words):
                count, became = row(tests, library, room, name)
                failed = failed or any(each.startswith("otherwise") for each in became)
                print(f"| {name} | {count} | {', '.join(f'{each}: {times}' for each, times in sorted(became.items()))} |", flush=True)
    sys.exit(1 if failed else 0)


if __name__ == "__main__":
    main()

#!/usr/bin/env python3
"""Tests that every path that a document names exists: what stands between backquotes and begins with a folder or a file of the
repository, or with a crate, each script or document by its name alone, and each target of a link. A name with `*`, `..` or a word in
capitals stands for others, and is left out. Prints each path that isn't there with the line that names it, and ends with status 1
where there is one."""
import os
import pathlib
import re
import subprocess
import sys

TOP = pathlib.Path(__file__).resolve().parent.parent
QUOTED = re.compile(r"`([^`\s]+)`")
LINK = re.compile(r"\]\(([^)#\s]+)")
STANDS_FOR_OTHERS = re.compile(r"[*<>{}$]|\.\.|(?:^|/)[A-Z]{3,}(?:/|$)|NAME|CRATE")
# made by what runs, or on a machine that has it installed
MADE = ("examples/out", "trials/out", "desk_page/tests/out", "dist/", "out/", "bin/", "lib/", "share/", "crates/bp_main/out", "crates/bp_test_codecs/out")


def tracked():
    """Each file that git has or would take, and each folder that holds one."""
    listed = subprocess.run(["git", "ls-files", "-co", "--exclude-standard"], cwd=TOP, capture_output=True, text=True, check=True)
    files = set(listed.stdout.splitlines())
    return files | {str(parent) for file in files for parent in pathlib.PurePath(file).parents} - {"."}


def named(text, first):
    """What a line names that looks like a path of the repository: its first part is one at the top."""
    for found in QUOTED.findall(text):
        found = found.rstrip(".,:;").removeprefix("./")
        found = f"crates/{found}" if found.startswith("bp_") and "/" in found else found
        if "/" in found and found.split("/")[0] in first and not STANDS_FOR_OTHERS.search(found):
            yield found.rstrip("/")


def scripts(text):
    """The scripts and documents that a line names without a folder."""
    return [found for found in QUOTED.findall(text) if re.fullmatch(r"[a-z][\w-]*\.(?:sh|py|md)", found)]


def main():
    paths, lost = tracked(), 0
    first = {path.split("/")[0] for path in paths}
    names = {path.split("/")[-1] for path in paths}
    for document in sorted(path for path in paths if path.endswith(".md")):
        folder = pathlib.PurePath(document).parent
        for number, line in enumerate((TOP / document).read_text().splitlines(), 1):
            wanted = [it for it in named(line, first) if not it.startswith(MADE)]
            wanted += [os.path.normpath(folder / it) for it in LINK.findall(line) if "://" not in it]
            wanted += [it for it in scripts(line) if it not in names]
            for path in wanted:
                if path not in paths and str(folder / path) not in paths:
                    lost += 1
                    print(f"{document}:{number}: there is no {path}")
    sys.exit(1 if lost else 0)


main()

#!/usr/bin/env python3
"""Runs `rt ci`, with the words that it is given, and measures it: every two seconds it looks at each process below, and at the end prints
of each crate the processor minutes of its proof, tests and compiling, those of its edits (their seed with them), and the peak of a single
process, as the table of docs/GATE.md has them; then all together, also as the system counts it, and the clock. Ends with the status of
`rt ci`.

What a process uses between the last look and its end isn't seen: a hundredth, as most go on for minutes."""
import collections
import os
import pathlib
import resource
import subprocess
import sys
import time

TICKS = os.sysconf("SC_CLK_TCK")
PAGE = os.sysconf("SC_PAGE_SIZE")
PAUSE = 2


class Seen:
    """What was seen of one process: its crate, whether it tries an edit, seconds of the processor, bytes at its peak."""

    def __init__(self, crate, is_edit):
        self.crate, self.is_edit, self.seconds, self.peak = crate, is_edit, 0.0, 0


def stat(pid):
    """Its parent, when it began, seconds of the processor, bytes; or None where it has ended."""
    try:
        fields = pathlib.Path(f"/proc/{pid}/stat").read_text().rsplit(")", 1)[1].split()
    except OSError:
        return None
    return int(fields[1]), int(fields[19]), (int(fields[11]) + int(fields[12])) / TICKS, int(fields[21]) * PAGE


def crate_of(pid):
    """The crate that a process works at, and whether at an edit; a program that is run has neither."""
    try:
        words = pathlib.Path(f"/proc/{pid}/cmdline").read_bytes().split(b"\0")
        place = os.readlink(f"/proc/{pid}/cwd")
    except OSError:
        return "", False
    name = words[words.index(b"--crate-name") + 1].decode() if b"--crate-name" in words else ""
    return name, "/rt-edit-" in place


def below(root):
    """The processes below one, itself left out, with what `stat` says of each."""
    stats = {int(name): stat(name) for name in os.listdir("/proc") if name.isdigit()}
    parents = {pid: found[0] for pid, found in stats.items() if found}
    for pid in parents:
        at = parents[pid]
        while at not in (root, 0) and at in parents:
            at = parents[at]
        if at == root:
            yield pid, stats[pid]


def look(root, seen):
    for pid, (_, began, seconds, size) in below(root):
        key = pid, began
        if key not in seen or not seen[key].crate:
            seen[key] = Seen(*crate_of(pid))
        seen[key].seconds = max(seen[key].seconds, seconds)
        seen[key].peak = max(seen[key].peak, size)


def table(seen):
    proofs, edits, peaks = collections.Counter(), collections.Counter(), collections.Counter()
    for each in seen.values():
        (edits if each.is_edit else proofs)[each.crate] += each.seconds / 60
        peaks[each.crate] = max(peaks[each.crate], each.peak / 1e9)
    crates = sorted((name for name in peaks if name), key=lambda name: -proofs[name])
    yield from (f"| `{name}` | {proofs[name]:.1f} | {edits[name]:.1f} | {peaks[name]:.1f} |" for name in crates)
    yield f"together {sum(proofs.values()):.0f} minutes, edits {sum(edits.values()):.0f}"


def main():
    began, seen = time.time(), {}
    gate = subprocess.Popen(["rt", "ci", *sys.argv[1:]])
    while gate.poll() is None:
        look(gate.pid, seen)
        time.sleep(PAUSE)
    print("\n".join(table(seen)))
    used = resource.getrusage(resource.RUSAGE_CHILDREN)
    print(f"by the system {(used.ru_utime + used.ru_stime) / 60:.0f} minutes; by the clock {(time.time() - began) / 60:.0f}")
    sys.exit(gate.returncode)


main()

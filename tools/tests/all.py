#!/usr/bin/env python3
"""Tries what no contract reaches: what installs and packs, the programs for offices, the review page, the guide, many clients at
many desks. .ci/run runs it behind the gate; by hand it is `make check`.

Each part is a script that runs by itself, too, and says what it leaves out where something isn't installed. Here each has so many
minutes: then it, and whatever it began, is ended, and it failed. The parts of a group go one after another, groups side by side where
there are processors for that. Where the system allows that, each group runs in a network of its own that has a loopback alone: no port
is taken there, and nothing goes out. They try the program where it is built from the sources as they stand, else what they can without
it, or a stand-in.

    all.py [--within MINUTES] [PART ..]
                         no part named: all. With --within no part begins after so many minutes, as what runs them may end at a time
                         of its own: .ci/run says so. Ends with 1 where a part failed twice
"""
import multiprocessing
import multiprocessing.connection
import os
import shutil
import signal
import socket
import subprocess
import sys
import tempfile
import threading
import time

sys.dont_write_bytecode = True
import apart  # noqa: E402

HERE = os.path.dirname(os.path.abspath(__file__))
TOP = os.path.dirname(os.path.dirname(HERE))
FIRST_PORT = 48201
PROGRAM = "crates/bp_main/out/bp_main"


class Part:
    """What is run, where ROOM stands for a folder of its own; how many minutes it has, well more than it takes beside other work; and
    what it can't do without: Debian's packages, by a program of each, the built program, and so many desks of it. What a part looks for
    itself isn't named here."""

    def __init__(self, words, minutes, packages=(), desks=0, program=False):
        self.words, self.minutes, self.packages = words.split(), minutes, packages
        self.desks, self.program = desks, program or desks > 0

    def lacks(self):
        """Why it can't be tried here, or None."""
        missing = [package for tool, package in self.packages if not shutil.which(tool)]
        if missing:
            return f"{', '.join(missing)} isn't installed (Debian's packages of these names)"
        if self.program and not is_built():
            return "the program isn't built from the sources as they stand"
        taken = [port for port in range(FIRST_PORT, FIRST_PORT + self.desks) if is_open(port)]
        return f"somebody is at port {taken[0]}" if taken else None


OFFICE = [("curl", "curl"), ("sqlite3", "sqlite3"), ("tifftopnm", "netpbm"), ("tiffinfo", "libtiff-tools")]
PARTS = {
    "manual": Part("docs/write_man.py check", 5),
    "install": Part("tools/tests/install.sh", 10, [("make", "make"), ("bash", "bash")]),
    "folder": Part("tools/tests/folder.py", 10, desks=2),
    "deb": Part("tools/tests/deb.py", 10, [("dpkg-deb", "dpkg")]),
    "backup": Part("tools/tests/backup.py", 5),
    "services": Part("tools/tests/services.py", 15),
    "cluster": Part("tools/tests/cluster.py", 10),
    "reckoned": Part("examples/cluster_figure.py check", 2),
    "office": Part("examples/office.sh", 10, OFFICE, desks=1),
    "deliver": Part("trials/deliver.sh", 10, [("curl", "curl")], desks=1),
    "check": Part("trials/check.sh", 10, OFFICE, desks=1),
    "claw": Part("trials/claw.sh", 10, OFFICE, desks=1),
    "demo": Part("trials/demo.sh", 10, program=True),
    "refusals": Part("trials/refusals.sh", 15, [("tifftopnm", "netpbm")], program=True),
    "clerk": Part("trials/clerk.sh", 5, [("sqlite3", "sqlite3")], program=True),
    "compare": Part("trials/compare.sh", 5, [("tifftopnm", "netpbm")], program=True),
    "stops": Part("trials/stops.sh 20", 10, [("sqlite3", "sqlite3")], program=True),
    "clients": Part("trials/clients.sh", 10, [("curl", "curl"), ("sqlite3", "sqlite3")], desks=1),
    "growths": Part(f"trials/growths.py {PROGRAM} ROOM/growths 60 burn burn_g4 init import produce press claw check serve demo",
                    10, [("cc", "gcc")], desks=1),
    "report": Part("tools/tests/matter_report.py", 10),
    "batch": Part("tools/tests/make_batch.py", 30),
    "take": Part("tools/tests/take_volume.py", 20),
    "faults": Part("tools/tests/check_report.py", 10),
    "forms": Part("tools/tests/volume_as.py", 15),
    "fetch": Part("tools/tests/fetch_volume.py", 10),
    "page": Part("desk_page/tests/run.sh", 35),
    "guide": Part("trials/guide.py", 15),
    "desks": Part("trials/desks.sh", 15, desks=16),
}
# parts that take a folder or a service of the machine from one another stand in one group, in the order in which they need each other
GROUPS = [
    """manual install folder deb backup services cluster reckoned office deliver check claw demo report refusals clerk compare stops
    clients growths""".split(),
    "batch take faults forms fetch guide desks".split(),
    ["page"],
]


def is_built():
    words = [os.path.join(TOP, "tivrenan"), "build", "look"]
    return subprocess.run(words, stdout=subprocess.DEVNULL, stderr=subprocess.DEVNULL, check=False).returncode == 0


def is_open(port):
    try:
        socket.create_connection(("127.0.0.1", port), timeout=1).close()
        return True
    except OSError:
        return False


def say(name, line):
    """One write a line, as groups print side by side."""
    os.write(1, f"{name}: {line.rstrip()}\n".encode(errors="replace"))


def pass_on(name, pipe, left_out):
    """Prints what a part prints, and keeps the lines that say what it leaves out."""
    for line in pipe:
        say(name, line)
        if "not tried" in line.lower():
            left_out.append(f"{name}: {line.strip()}")


def run(name, left_out):
    """The status of a part, or None where it took too long. What it leaves among temporary files goes with it."""
    room = tempfile.mkdtemp(prefix="tivrenan-")
    os.chmod(room, 0o755)  # some things are tried as nobody
    try:
        return run_in(room, name, left_out)
    finally:
        shutil.rmtree(room, ignore_errors=True)


def run_in(room, name, left_out):
    part = PARTS[name]
    words = [os.path.join(TOP, part.words[0]), *[word.replace("ROOM", room) for word in part.words[1:]]]
    try:
        process = subprocess.Popen(words, cwd=TOP, env={**os.environ, "TMPDIR": room}, stdin=subprocess.DEVNULL, stdout=subprocess.PIPE,
                                   stderr=subprocess.STDOUT, text=True, errors="replace", start_new_session=True)
    except OSError as why:
        say(name, f"{words[0]} can't be started: {why}")
        return 127
    reader = threading.Thread(target=pass_on, args=(name, process.stdout, left_out), daemon=True)
    reader.start()
    try:
        status = process.wait(60 * part.minutes)
    except subprocess.TimeoutExpired:
        status = None
    apart.end_begun()
    reader.join(10)
    return status


def is_well(name, tried, left_out, until):
    """Whether a part did what is due, or can't be tried here, or not any more, as its time to begin is over. What was tried, and what
    wasn't, is added to these lists."""
    part = PARTS[name]
    say(name, f"== {' '.join(part.words)}")
    why = part.lacks() if time.monotonic() < until else "the minutes of --within are over"
    if why is not None:
        left_out.append(f"{name}: NOT TRIED: {why}")
        say(name, f"NOT TRIED: {why}")
        return True
    tried.append(name)
    began = time.monotonic()
    status = run(name, left_out)
    if status not in (0, None) and time.monotonic() < until:
        say(name, f"== status {status}; once more, since a browser and many clients go by the moment")
        status = run(name, left_out)
    took = f"{time.monotonic() - began:.0f} s"
    told = {0: f"ok, {took}", None: f"FAILED: it had {part.minutes} minutes, and was ended"}
    say(name, f"== {told.get(status, f'FAILED: status {status}, {took}')}")
    return status == 0


# ---- groups


def try_group(names, until, answer):
    """Tries parts one after another, in a process of its own: what was tried, what wasn't, and what failed."""
    apart.adopt()
    where = "a network of its own" if apart.in_own_network() else "this machine's network, as the system gives no other"
    say("all.py", f"in {where}: {' '.join(names)}")
    tried, left_out = [], []
    try:
        failed = [name for name in names if not is_well(name, tried, left_out, until)]
    finally:
        apart.end_begun()
    answer.send((tried, left_out, failed))


def try_all(groups, until):
    """Tries groups side by side, and leaves a processor to what they try: of each what was tried, what wasn't, and what failed. All
    parts of a group that was ended failed."""
    lanes = max(1, len(os.sched_getaffinity(0)) - 1)
    left, running, answers = list(groups), {}, []
    while left or running:
        while left and len(running) < lanes:
            names = left.pop(0)
            answer, given = multiprocessing.Pipe(duplex=False)
            group = multiprocessing.Process(target=try_group, args=(names, until, given))
            group.start()
            given.close()
            running[answer] = group, names
        for answer in multiprocessing.connection.wait(running):
            group, names = running.pop(answer)
            try:
                answers.append(answer.recv())
            except EOFError:
                answers.append(([], [], names))
            group.join()
    return answers


def asked(words):
    """The minutes in which parts begin, and the parts that are named."""
    minutes = float("inf")
    if words[:1] == ["--within"] and words[1:2] and words[1].isdigit():
        minutes, words = int(words[1]), words[2:]
    if set(words) - set(PARTS):
        sys.exit(f"usage: all.py [--within MINUTES] [{'] ['.join(PARTS)}]")
    return minutes, words


def main(words):
    minutes, names = asked(words)
    apart.adopt()
    for ending in (signal.SIGTERM, signal.SIGHUP):
        signal.signal(ending, lambda number, _: sys.exit(128 + number))
    groups = [[name for name in group if name in (names or PARTS)] for group in GROUPS]
    try:
        answers = try_all([group for group in groups if group], time.monotonic() + 60 * minutes)
    finally:
        apart.end_begun()
    tried, left_out, failed = ([line for answer in answers for line in answer[place]] for place in range(3))
    print("", *left_out, sep="\n")
    print(f"all.py: tried: {' '.join(tried) or 'nothing'}")
    print(f"all.py: FAILED: {' '.join(failed)}" if failed else "all.py: what was tried is as it is due")
    sys.exit(1 if failed else 0)


if __name__ == "__main__":
    main(sys.argv[1:])

#!/usr/bin/env python3
"""What opening `matter.db` and a commit cost, by two programs in turn, as an older one and the one of today, on one disk:
    opens.py OLDER NEWER [ROUNDS] [CALLS] [PAGES] [FOLDER]
OLDER and NEWER are built programs, both proved or both not, and compiled alike. Each has a folder of its own below FOLDER, the
system's for temporary files where none is named, as one doesn't read each file that the other made.
    nothing      `burn` of 8 by 1 pixels where no matter.db is: it is made, opened and closed
    a matter     the same over a matter of so many letter pages
    the tables   `init` over it, which reads its rows and is refused
    a commit     SetCall at a desk, each of which changes a document, less SeeDoc, which commits nothing
    an import    of a page, whole
Of each the milliseconds of the processor and on the clock, the least of all rounds.
Needs examples/letter.tif, and the port 48201 free. ROUNDS is 5, CALLS of a round 200, PAGES 300 where none is named."""
import hashlib
import os
import shutil
import socket
import subprocess
import sys
import tempfile
import time

from runs import least, run

HERE = os.path.dirname(os.path.abspath(__file__))
TOP = os.path.dirname(HERE)
PORT, KEY = 48201, "the key of the lead"
REFUSED = 2
USUAL = ["5", "200", "300"]  # rounds, calls, pages
BURN = ["burn", "white.tif", "0", "0", "8", "1", "b.tif", "plain"]


class Matter:
    """A program, and its folder with a batch of so many letter pages, one of a page, a page of 8 by 1, and a matter."""

    def __init__(self, program, folder, pages):
        self.program, self.folder, self.flips = os.path.abspath(program), folder, 0
        os.makedirs(folder)
        shutil.copyfile(f"{TOP}/crates/bp_main/data/a.tif", f"{folder}/white.tif")
        for name, count in (("B", pages), ("ONE", 1)):
            make = [sys.executable, f"{HERE}/make_import.py", f"{folder}/{name}", str(count), f"{TOP}/examples/letter.tif", "300", "3"]
            subprocess.run(make, check=True)
        self.begin()
        self.costs("import", "B")
        os.rename(f"{folder}/matter.db", f"{folder}/whole.db")

    def costs(self, *words, due=0):
        """Milliseconds of the processor and on the clock."""
        processor, _, wall, _ = run([self.program, *words], due, self.folder)
        return [1000 * processor, 1000 * wall]

    def clear(self):
        for name in ("matter.db", "matter.db-wal", "matter.db-shm"):
            if os.path.exists(f"{self.folder}/{name}"):
                os.remove(f"{self.folder}/{name}")

    def begin(self):
        self.clear()
        self.costs("init", hashlib.sha256(KEY.encode()).hexdigest())

    def take_whole(self):
        self.clear()
        shutil.copyfile(f"{self.folder}/whole.db", f"{self.folder}/matter.db")

    # ---- what is measured

    def nothing(self):
        self.clear()
        return self.costs(*BURN)

    def matter(self):
        self.take_whole()
        return self.costs(*BURN)

    def tables(self):
        self.take_whole()
        return self.costs("init", "0" * 64, due=REFUSED)

    def an_import(self):
        self.begin()
        return self.costs("import", "ONE")

    def calls(self, count, request):
        """What so many exchanges cost a desk, each with the request that follows."""
        self.begin()
        self.costs("import", "ONE")
        desk = subprocess.Popen([self.program, "serve", "1", str(count + 1)], cwd=self.folder, stdout=subprocess.DEVNULL)
        try:
            wait_for_desk()
            began = time.monotonic()
            for _ in range(count):
                exchange(request())
            wall = time.monotonic() - began
            _, status, used = os.wait4(desk.pid, 0)
            desk.returncode = os.waitstatus_to_exitcode(status)
        finally:
            if desk.returncode is None:
                desk.kill()
                desk.wait()
        assert desk.returncode == 0, desk.returncode
        return [1000 * (used.ru_utime + used.ru_stime) / count, 1000 * wall / count]

    def set_call(self):
        """Another decision each time, so that each is kept."""
        self.flips += 1
        return post("/docs/1/call", b'{"responsive":%s,"treatment":"Produce","designation":""}' % (b"true" if self.flips % 2 else b"false"))


def post(path, body):
    return f"POST {path} HTTP/1.1\r\nDesk-Key: {KEY}\r\nContent-Length: {len(body)}\r\n\r\n".encode() + body


def see():
    return f"GET /docs/1 HTTP/1.1\r\nDesk-Key: {KEY}\r\n\r\n".encode()


def exchange(request):
    with socket.create_connection(("127.0.0.1", PORT), timeout=60) as peer:
        peer.sendall(request)
        said = b"".join(iter(lambda: peer.recv(65536), b""))
    assert said.startswith(b"HTTP/1.1 200 "), said[:200]


def wait_for_desk():
    for _ in range(600):
        try:
            return exchange(see())
        except OSError:
            time.sleep(0.1)
    sys.exit("opens.py: no desk opened")


def measure(programs, rounds, count):
    """Of each thing that is measured, for each program the least of each column."""
    seen = {}
    for _ in range(rounds):
        for place, matter in enumerate(programs):
            took = {
                "nothing": matter.nothing(),
                "a matter": matter.matter(),
                "the tables": matter.tables(),
                "an import of a page": matter.an_import(),
                "a call": matter.calls(count, matter.set_call),
                "a look": matter.calls(count, see),
            }
            for what, costs in took.items():
                seen.setdefault(what, ([], []))[place].append(costs)
    return {what: [least(runs) for runs in both] for what, both in seen.items()}


def main(words):
    if len(words) < 2:
        sys.exit(__doc__)
    rounds, count, pages = (int(word) for word in [*words[2:5], *USUAL[len(words[2:5]):]])
    room = tempfile.mkdtemp(dir=words[5] if len(words) > 5 else None)
    try:
        programs = [Matter(program, f"{room}/{place}", pages) for place, program in enumerate(words[:2])]
        size = os.path.getsize(f"{room}/1/whole.db") / 1e6
        seen = measure(programs, rounds, count)
    finally:
        shutil.rmtree(room, ignore_errors=True)
    seen["a commit"] = [[call - look for call, look in zip(*both)] for both in zip(seen["a call"], seen["a look"])]
    print(f"the matter has {pages} pages in {size:.0f} MB; ms of the processor, and on the clock: older, newer, newer / older")
    for what, (older, newer) in seen.items():
        told = [f"{a:10.2f} {b:10.2f} {b / a if a else 0:6.2f}" for a, b in zip(older, newer)]
        print(f"{what:22}{'   '.join(told)}")


main(sys.argv[1:])

#!/usr/bin/env python3
"""What it costs to hand a whole volume over: `deliver` is asked for each of its files once, one connection a request, over documents of
two small pages each, so that files are many and little is in them. The processor's time of the desk stands beside that of `press`,
which writes the same files; from both that of `log` is taken off, which opens the same matter. What comes is compared with the files.
Each is the least of all rounds. Wanted: at most twice the time of `press`.

Words: how many documents, 10,000 where none is given, which make 30,004 files; rounds, 3. Needs the built program, and port 48201 free.
"""
import os
import socket
import subprocess
import sys
import tempfile
import time

HERE = os.path.dirname(os.path.abspath(__file__))
TOP = os.path.dirname(HERE)
sys.path.insert(0, os.path.join(TOP, "tools", "tests"))
from matter_day import PORT, RECEIVER, Matter, why_not  # noqa: E402

PAGES, WORDS = 2, 20  # of a document, of a page
SMALL = b"P4\n64 32\n" + bytes(256)
PATIENCE = 600  # seconds until a desk is open, which reads its matter first


def make(matter, documents):
    """The matter, and its volume in out/, where its database is, too; the paths of the volume."""
    image, batch = (os.path.join(matter.folder, name) for name in ("small.tif", "B"))
    with open(image, "wb") as out:
        subprocess.run([os.path.join(TOP, "trials", "plain_page.py"), "200"], input=SMALL, stdout=out, check=True)
    words = [os.path.join(HERE, "make_import.py"), batch, documents * PAGES, image, WORDS, PAGES]
    subprocess.run([sys.executable, *map(str, words)], check=True)
    matter.begin(batch)
    matter.settle(documents)
    matter.produce(documents)
    with open(os.path.join(matter.folder, "grants.csv"), "w", encoding="utf-8") as grants:
        grants.write("3,R-1\n")  # the receiver comes after the lead and who confirms
    out = os.path.join(matter.folder, "out")
    files = (os.path.relpath(os.path.join(at, name), out) for at, _, names in os.walk(out) for name in names)
    return sorted(path for path in files if not path.startswith("matter.db"))


def begun(matter, *words):
    return subprocess.Popen([matter.program, *words], cwd=matter.folder, stdout=subprocess.DEVNULL)


def seconds(child):
    """Of the processor, once it has ended well."""
    _, status, used = os.wait4(child.pid, 0)
    child.returncode = os.waitstatus_to_exitcode(status)
    if child.returncode:
        sys.exit(f"receive_all.py: this failed: {' '.join(child.args)}")
    return used.ru_utime + used.ru_stime


def handed_over(matter, paths):
    """A desk that is asked for each of these, and ends then."""
    desk = begun(matter, "deliver", str(len(paths)), "grants.csv")
    for path in paths:
        with open(os.path.join(matter.folder, "out", path), "rb") as file:
            if asked(path, desk) != file.read():
                sys.exit(f"receive_all.py: another file was given than the volume has: {path}")
    return desk


def asked(path, desk):
    with connected(desk) as peer:
        peer.sendall(f"GET /granted/R-1/{path} HTTP/1.1\r\nDesk-Key: {RECEIVER}\r\n\r\n".encode())
        pieces = []
        while piece := peer.recv(1 << 20):
            pieces.append(piece)
    head, _, body = b"".join(pieces).partition(b"\r\n\r\n")
    return body if head.startswith(b"HTTP/1.1 200 ") else head


def connected(desk):
    until = time.monotonic() + PATIENCE
    while True:
        try:
            return socket.create_connection(("127.0.0.1", PORT))
        except OSError:
            if time.monotonic() > until or desk.poll() is not None:
                raise
            time.sleep(0.02)


def main():
    documents, rounds = (int(word) for word in (sys.argv[1:] + ["10000", "3"][len(sys.argv) - 1 :]))
    if why := why_not():
        sys.exit(f"receive_all.py: {why}")
    with tempfile.TemporaryDirectory() as room:
        matter = Matter(room)
        paths = make(matter, documents)
        opened = min(seconds(begun(matter, "log", "R-1")) for _ in range(rounds))
        pressed = min(seconds(begun(matter, "press", "R-1")) for _ in range(rounds)) - opened
        received = min(seconds(handed_over(matter, paths)) for _ in range(rounds)) - opened
    print(f"{len(paths)} files: handed over in {received:.2f} s of the desk's processor, pressed in {pressed:.2f} s: "
          f"{received / pressed:.2f} times (at most 2); a file {1000 * received / len(paths):.3f} ms; opening {opened:.2f} s")


main()

#!/usr/bin/env python3
"""Tries what the launcher does beside the program, over the built program: a volume's folder that has files of an earlier run, a
matter.db that a command made and left empty, the log of a desk that a signal ended, who holds a matter, what is said when doors are
open, that a signal to the launcher reaches the program, and what is said of a damaged file.

Runs in a network of its own where the system gives one. Ends with 1 where something isn't as it is due. Needs the built program and
Debian's sqlite3 for one part, which is left out and said where it isn't there.
"""
import contextlib
import hashlib
import json
import os
import pty
import select
import shutil
import signal
import sqlite3
import subprocess
import sys
import tempfile
import time
import urllib.request

sys.dont_write_bytecode = True
import apart  # noqa: E402
import page_sums  # noqa: E402
from counted import Counted  # noqa: E402

TOP = os.path.dirname(os.path.dirname(os.path.dirname(os.path.abspath(__file__))))
TIVRENAN = os.path.join(TOP, "tivrenan")
PORT = 48201
SECONDS = 60
check = Counted("folder.py")


def run(*words):
    """Status, what was printed, what was said."""
    told = subprocess.run([TIVRENAN, *words], capture_output=True, text=True, timeout=SECONDS, check=False, errors="replace")
    return told.returncode, told.stdout, told.stderr


def digest(key):
    return hashlib.sha256(key.encode()).hexdigest()


def ask(path, body=None, key="lead"):
    request = urllib.request.Request(f"http://127.0.0.1:{PORT}{path}", headers={"Desk-Key": key},
                                     data=None if body is None else json.dumps(body).encode())
    with urllib.request.urlopen(request, timeout=SECONDS) as reply:
        return json.load(reply)


@contextlib.contextmanager
def folder(name):
    os.mkdir(name)
    os.chdir(name)
    try:
        yield
    finally:
        os.chdir("..")


def say_until(pipe, text):
    """What is said on a pipe until a text of it came."""
    said, until = "", time.monotonic() + SECONDS
    while text not in said and time.monotonic() < until:
        if select.select([pipe], [], [], 1)[0]:
            some = os.read(pipe.fileno() if hasattr(pipe, "fileno") else pipe, 4096)
            if not some:
                break
            said += some.decode(errors="replace")
    return said


def opened(*words):
    """A desk, and what it said until it was open; it takes an interrupt, as at a terminal."""
    desk = subprocess.Popen([TIVRENAN, *words], stdin=subprocess.DEVNULL, stdout=subprocess.PIPE, stderr=subprocess.PIPE, start_new_session=True,
                            preexec_fn=lambda: signal.signal(signal.SIGINT, signal.SIG_DFL))
    return desk, say_until(desk.stderr, "answered stands\n")


def closed(desk):
    try:
        _, said = desk.communicate(timeout=SECONDS)
    except subprocess.TimeoutExpired:
        os.killpg(desk.pid, signal.SIGKILL)
        return "it didn't end"
    return said.decode()


# ---- what is tried


def volumes():
    """Two runs in one folder, of which the second has fewer files: what is left of the first lies between them."""
    with folder("volumes"):
        run("demo", "7", "40")
        with open("out/DEMO/MANIFEST.TXT", encoding="utf-8") as file:
            first = {line[66:].rstrip("\n") for line in file}
        os.rename("out", "first")
        os.remove("matter.db")
        shutil.rmtree("matter.db-wal", ignore_errors=True)
        for name in os.listdir("."):
            if name.startswith("matter.db"):
                os.remove(name)
        shutil.copytree("first", "out")
        status, line, said = run("demo", "7", "12")
        with open("out/DEMO/MANIFEST.TXT", encoding="utf-8") as file:
            second = {line[66:].rstrip("\n") for line in file}
        left = sorted(first - second)
        check("the first run has files that the second hasn't", left)
        check("files of an earlier run end with 65", status == 65, (status, said))
        check("the line is printed all the same", line.startswith("production DEMO labels "), line)
        check("the first of them is named", f"out/{left[0]}\n" in said, said)
        check("and said what to do", "--clear" in said, said)
        paths = ["DEMO/DATA/DEMO.DAT", "DEMO/DATA/DEMO.OPT", "DEMO/MANIFEST.TXT"]
        os.chdir("out")
        status, line, said = run("check", *paths)
        check("a check passes, and says that there is more", status == 0 and f"{len(left)} files in DEMO aren't in the manifest" in said, said)
        check("and leaves no matter.db", not os.path.exists("matter.db"))
        os.chdir("..")
        status, _, said = run("press", "DEMO", "--clear")
        check("--clear moves them aside", status == 0 and f"{len(left)} files" in said, (status, said))
        aside = {os.path.relpath(os.path.join(at, name), "out/DEMO.unlisted-1") for at, _, names in os.walk("out/DEMO.unlisted-1") for name in names}
        check("all of them, and nothing else", aside == set(left), aside ^ set(left))
        check("as they were", all(open(f"out/DEMO.unlisted-1/{name}", "rb").read() == open(f"first/{name}", "rb").read() for name in left))
        status, _, said = run("press", "DEMO")
        check("then the folder is the volume", status == 0 and said == "", (status, said))
        for name in ("IMAGES/a b", "TEXT/two\nlines", "DATA/-x", "TEXT/\x1b[31mred"):
            open(f"out/DEMO/{name}", "w").close()
        os.symlink("/etc/passwd", "out/DEMO/IMAGES/link")
        status, _, said = run("press", "DEMO")
        check("names with blanks, ends of lines and signs are told", status == 65 and "\x1b" not in said and said.count("    out/DEMO/") == 5, said)
        status, _, said = run("--clear", "press", "DEMO")
        check("and moved, a link as a link", status == 0 and os.path.islink("out/DEMO.unlisted-2/DEMO/IMAGES/link"), said)
        check("nothing is left", run("press", "DEMO")[0] == 0)
        status, line, said = run("check", "--clear", "a", "b")
        check("--clear elsewhere is refused", (status, line) == (1, "words refused\n"), said)


def empty_matters():
    with folder("empty"):
        for words, due in ((("burn", "x", "0", "0", "1", "1", "y", "g4"), 2), (("press", "R-1"), 2), (("check", "a", "b"), 2),
                           (("log", "R-1"), 2), (("serve", "1", "1"), 2), (("serve", "1"), 1), (("import", "B"), 2)):
            status, _, said = run(*words)
            check(f"{words[0]} where there is no matter ends with {due}", status == due, (status, said))
            check(f"{words[0]} leaves nothing", os.listdir(".") == [], os.listdir("."))
            if words[0] in ("press", "log", "serve", "import") and due == 2:
                check("the folder is named", f"there is no matter in {os.getcwd()}" in said, said)
        run("init", digest("lead"))
        check("a matter that is begun stays", os.path.exists("matter.db"))
        run("check", "a", "b")
        check("also after a check beside it", run("init", digest("lead"))[:2] == (2, "refused 42 MatterThere 0 0 0\n"))
    with folder("kept"):
        with sqlite3.connect("matter.db") as other:
            other.execute("CREATE TABLE t(a)")
        other.close()
        before = open("matter.db", "rb").read()
        run("check", "a", "b")
        check("a file that was there stays as it is", open("matter.db", "rb").read() == before)


def begin_matter():
    run("init", digest("lead"))
    shutil.copytree(os.path.join(TOP, "examples", "CVI_001"), "CVI_001")
    check("the batch comes in", run("import", "CVI_001")[0] == 0)


def calls_in(path):
    with contextlib.closing(sqlite3.connect(f"file:{path}?immutable=1", uri=True)) as matter:
        return matter.execute("SELECT count(*) FROM kept WHERE kind = 5").fetchone()[0]


CALL = {"responsive": True, "treatment": "Produce", "designation": ""}


def signals():
    with folder("signals"):
        begin_matter()
        called = 0
        for number, name in ((signal.SIGINT, "INT"), (signal.SIGTERM, "TERM"), (signal.SIGHUP, "HUP")):
            desk, said = opened("serve", "2", "1000")
            due = "tivrenan: 2 desks are open at http://127.0.0.1:48201 to 48202; Ctrl-C ends it, and each call that was answered stands\n"
            check("it says when the doors are open", said == due, said)
            called += 1
            check("the call is answered", ask(f"/docs/{called}/call", CALL) == {"done": True})
            desk.send_signal(number)
            said = closed(desk)
            check(f"{name} to the launcher alone ends both", desk.returncode == 128 + number, (desk.returncode, said))
            check(f"{name} is told", said == f"tivrenan: status {128 + number}: the program was ended by signal {int(number)}, {name}. "
                  "Each call that was answered stands.\n", said)
            check("a copy of matter.db alone has each call", calls_in("matter.db") == called, calls_in("matter.db"))
        desk, _ = opened("serve", "1", "1000")
        ask("/docs/5/call", CALL)
        os.killpg(desk.pid, signal.SIGINT)
        said = closed(desk)
        check("an interrupt to all, as Ctrl-C sends it", desk.returncode == 130 and "signal 2, INT" in said, said)
        check("a copy has that call too", calls_in("matter.db") == called + 1)
        desk, said = opened("serve", "1", "1")
        check("one desk says so", said.startswith("tivrenan: the desk is open at http://127.0.0.1:48201;"), said)
        ask("/docs/6")
        closed(desk)
        check("a desk whose connections are used up ends with 0", desk.returncode == 0, desk.returncode)
        open("grants.csv", "w").close()
        desk, said = opened("deliver", "10", "grants.csv")
        check("deliver says that its door is open", said.startswith("tivrenan: the door is open at http://127.0.0.1:48201;"), said)
        desk.send_signal(signal.SIGINT)
        closed(desk)


def held():
    with folder("held"):
        begin_matter()
        desk, _ = opened("serve", "1", "10")
        status, line, said = run("press", "R-1")
        check("a held matter is refused", (status, line) == (5, "keeper fault\n"), (status, line))
        check("who holds it is told", "matter.db is held by" in said and "bp_main serve 1 10" in said, said)
        desk.send_signal(signal.SIGINT)
        closed(desk)
        if shutil.which("sqlite3"):
            with subprocess.Popen(["sqlite3", "matter.db"], stdin=subprocess.PIPE, stdout=subprocess.PIPE, text=True) as viewer:
                viewer.stdin.write("BEGIN; SELECT count(*) FROM kept;\n")
                viewer.stdin.flush()
                viewer.stdout.readline()
                status, _, said = run("press", "R-1")
                check("a viewer that stays open is told", status == 5 and ": sqlite3 matter.db" in said, (status, said))
                viewer.stdin.close()
            check("once it is closed all is well", run("press", "R-1")[1] == "refused 33 NoProduction 0 0 0\n")
        else:
            print("folder.py: a viewer of databases is NOT TRIED: Debian's sqlite3 isn't installed")
        with open("other", "w", encoding="ascii") as file:
            file.write("no database")
        os.replace("other", "matter.db")
        for name in os.listdir("."):
            if name.startswith("matter.db-"):
                os.remove(name)
        status, _, said = run("press", "R-1")
        check("a file that is none is told", status == 5 and "is no database" in said, (status, said))


def put_away(*names):
    for name in os.listdir("."):
        if name.startswith("matter.db") and name not in names:
            os.remove(name)


def told_of_damage(what, why):
    with open("matter.db", "rb") as file:
        before = file.read()
    status, line, said = run("press", "R-1")
    check(f"{what} is refused", (status, line) == (5, "keeper fault\n"), (status, line))
    check(f"{what} is told", why in said, said)
    check(f"{what}: what to do is said", f"tivrenan-restore COPY {os.getcwd()}" in said, said)
    with open("matter.db", "rb") as file:
        check(f"{what}: the file is as it was", file.read() == before)


def damaged():
    """Each page of the file has a sum, so that one which isn't as it was written is found."""
    with folder("damaged"):
        begin_matter()
        with open("matter.db", "rb") as file:
            whole = file.read()
        count = len(whole) // 4096

        def put(data):
            put_away()
            with open("matter.db", "wb") as file:
                file.write(data)
            return data

        at = 4096 * (count // 2) + 77
        put(whole[:at] + bytes([whole[at] ^ 4]) + whole[at + 1 :])
        told_of_damage("a bit that turned", f"matter.db is damaged: page {count // 2 + 1} of its {count} isn't as it was written")
        put(whole[: 4096 * (count // 2)])
        told_of_damage("a file that was cut off", f"matter.db is damaged: it is cut off: {count // 2} of its {count} pages are there")
        put(whole)
        with contextlib.closing(sqlite3.connect("matter.db", isolation_level=None)) as other:
            other.execute("UPDATE kept SET body = zeroblob(3) WHERE kind = 1")
        told_of_damage("a file that sqlite3 wrote into", "isn't as it was written. The disk failed, or another program wrote into the file")
        put(whole)
        page_sums.drop("matter.db")
        with open("matter.db", "rb") as file:
            plain = file.read()
        put(plain[:8192] + b"x" * 4096 + plain[12288:])
        told_of_damage("a damaged file without sums", "where nobody does, it may be damaged")
        put(whole)
        check("the whole one is taken", run("press", "R-1")[1] == "refused 33 NoProduction 0 0 0\n")


def at_a_terminal():
    """What a person sees: at a terminal of its own."""
    with folder("terminal"):
        begin_matter()
        own, other = pty.openpty()
        desk = subprocess.Popen([TIVRENAN, "serve", "1", "100"], stdin=other, stdout=other, stderr=other, start_new_session=True,
                                preexec_fn=lambda: signal.signal(signal.SIGINT, signal.SIG_DFL))
        os.close(other)
        said = say_until(own, "answered stands")
        check("at a terminal too", "the desk is open at" in said, said)
        os.killpg(desk.pid, signal.SIGINT)
        desk.wait(SECONDS)
        os.close(own)


def main():
    apart.adopt()
    if not apart.in_own_network():
        print("folder.py: in this machine's network, as the system gives no other")
    if subprocess.run([TIVRENAN, "build", "look"], capture_output=True, check=False).returncode:
        print("folder.py: NOT TRIED: the program isn't built from the sources as they stand")
        return
    room = tempfile.mkdtemp(prefix="folder-")
    os.chdir(room)
    try:
        for part in (volumes, empty_matters, signals, held, damaged, at_a_terminal):
            print(part.__name__, flush=True)
            part()
    finally:
        apart.end_begun()
        os.chdir("/")
        shutil.rmtree(room, ignore_errors=True)
    check.end()


main()

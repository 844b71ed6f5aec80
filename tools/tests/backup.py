#!/usr/bin/env python3
"""Tries tivrenan-backup and tivrenan-restore over the built program: a day's calls that stand in the log alone, copies that are cut, altered,
of another matter, of none, without a digest; a matter that somebody works with; what was there is kept. Ends with 1 where something isn't as
it is due."""
import contextlib
import glob
import hashlib
import json
import os
import shutil
import signal
import sqlite3
import subprocess
import sys
import tempfile
import time
import urllib.error
import urllib.request

sys.dont_write_bytecode = True
import apart  # noqa: E402
from counted import Counted  # noqa: E402

TOP = os.path.dirname(os.path.dirname(os.path.dirname(os.path.abspath(__file__))))
PROGRAM = os.path.join(TOP, "crates/bp_main/out/bp_main")
CALL = {"responsive": True, "treatment": "Produce", "designation": ""}
check = Counted("backup.py")


def run(*words, cwd=None):
    told = subprocess.run(words, cwd=cwd, capture_output=True, text=True, timeout=120, check=False, errors="replace")
    return told.returncode, told.stdout, told.stderr


def backup(*words):
    return run(os.path.join(TOP, "tools/matter_backup"), *words)


def restore(*words):
    return run(os.path.join(TOP, "tools/matter_restore"), *words)


def begin(name, key="lead"):
    os.mkdir(name)
    run(PROGRAM, "init", hashlib.sha256(key.encode()).hexdigest(), cwd=name)
    os.symlink(os.path.join(TOP, "examples/CVI_001"), f"{name}/CVI_001")
    check("the batch comes in", run(PROGRAM, "import", "CVI_001", cwd=name)[0] == 0)


@contextlib.contextmanager
def desk(name):
    process = subprocess.Popen([PROGRAM, "serve", "1", "100"], cwd=name, stdout=subprocess.DEVNULL,
                               preexec_fn=lambda: signal.signal(signal.SIGINT, signal.SIG_DFL))
    try:
        yield process
    finally:
        process.kill()
        process.wait()


def call(document, key="lead"):
    for _ in range(100):
        try:
            request = urllib.request.Request(f"http://127.0.0.1:48201/docs/{document}/call", data=json.dumps(CALL).encode(), headers={"Desk-Key": key})
            return json.load(urllib.request.urlopen(request, timeout=20))
        except urllib.error.URLError:
            time.sleep(0.1)
    return None


def calls(path):
    with contextlib.closing(sqlite3.connect(f"file:{path}?immutable=1", uri=True)) as matter:
        return matter.execute("SELECT count(*) FROM kept WHERE kind = 5").fetchone()[0]


def copies():
    """A copy of a matter whose last calls stand in the log alone."""
    with desk("roof"):
        for document in (1, 2, 3):
            check("a call is answered", call(document) == {"done": True})
        status, _, said = backup("roof", "copies")
        check("while somebody works with it nothing is copied", status == 1 and "somebody works with the matter" in said, said)
        check("and nothing is left", os.listdir("copies") == [], os.listdir("copies"))
    check("after a kill the calls stand in the log alone", calls("roof/matter.db") == 0, calls("roof/matter.db"))
    status, line, said = backup("roof", "copies")
    made = glob.glob("copies/roof-*.db")
    check("a copy is made", status == 0 and len(made) == 1 and made[0] in line and "3 documents called" in line, (line, said))
    check("that is one file with each call", calls(made[0]) == 3)
    check("for its owner alone", os.stat(made[0]).st_mode & 0o777 == 0o600)
    check("sha256sum knows it", run("sha256sum", "--quiet", "-c", os.path.basename(made[0]) + ".sha256", cwd="copies")[0] == 0)
    again = backup("roof", "copies")
    check("two in a minute are two", again[0] == 0 and len(glob.glob("copies/roof-*.db")) == 2, again)
    time.sleep(1.1)
    check("one is dropped where two are kept", backup("--keep", "2", "roof", "copies")[0] == 0 and len(glob.glob("copies/roof-*.db")) == 2)
    check("with its digest", len(os.listdir("copies")) == 4, os.listdir("copies"))
    status, _, said = backup("none", "copies")
    check("a folder without a matter is said", status == 1 and "there is no matter.db" in said, said)
    os.mkdir("empty")
    run(PROGRAM, "log", "X", cwd="empty")
    status, _, said = backup("empty", "copies")
    check("one in which none was begun too", status == 1 and "no matter was begun in it" in said, said)
    return sorted(glob.glob("copies/roof-*.db"))[-1]


def refused(what, copy, folder, why, *options):
    before = {name: open(f"{folder}/{name}", "rb").read() for name in os.listdir(folder) if name.startswith("matter.db")}
    status, _, said = restore(*options, copy, folder)
    check(f"{what} is refused", status == 1 and why in said, (status, said))
    after = {name: open(f"{folder}/{name}", "rb").read() for name in os.listdir(folder) if name.startswith("matter.db")}
    check(f"{what}: nothing is changed", before == after and not glob.glob(f"{folder}/replaced-*"), sorted(os.listdir(folder)))


def spoiled(copy, change, digest):
    """A copy that something was done to; with a digest of what it is now, where one is to be there."""
    path = f"copies/spoiled-{change.__name__}.db"
    with open(copy, "rb") as file:
        data = bytearray(file.read())
    data = change(data)
    with open(path, "wb") as file:
        file.write(data)
    if digest == "old":
        shutil.copy(f"{copy}.sha256", f"{path}.sha256")
    elif digest == "new":
        with open(f"{path}.sha256", "w", encoding="ascii") as file:
            file.write(f"{hashlib.sha256(data).hexdigest()}  {os.path.basename(path)}\n")
    return path


def cut(data):
    return data[: len(data) // 2]


def altered(data):
    data[len(data) // 3] ^= 1
    return data


def overwritten(data):
    data[8192:12288] = bytes(4096)
    return data


def text(_):
    return b"no database"


def restored(copy):
    for change in (cut, altered, overwritten, text):
        refused(f"one that is {change.__name__}", spoiled(copy, change, "old"), "roof", "isn't the file that was copied then")
    for change, why in ((cut, "it is damaged: it is cut off"), (altered, "it is damaged: page "), (overwritten, "damaged"), (text, "damaged")):
        refused(f"one that is {change.__name__}, with a digest of that", spoiled(copy, change, "new"), "roof", why)
    refused("one without a digest", spoiled(copy, altered, None) if os.remove("copies/spoiled-altered.db.sha256") is None else "", "roof", "sha256 isn't there")
    refused("one of another matter", copy, "wall", "of another matter: its lead has another key")
    refused("one of a folder that isn't there", "copies/none.db", "roof", "none.db")
    status, line, _ = restore("--look", copy, "roof")
    check("--look says what it has", status == 0 and "3 documents called" in line, line)
    check("and changes nothing", not glob.glob("roof/replaced-*"))
    with desk("roof"):
        for document in (4, 5):
            call(document)
        refused("one for a matter that somebody works with", copy, "roof", "somebody works with the matter")
    os.makedirs("roof/out/VOL009")
    open("roof/out/VOL009/MANIFEST.TXT", "w").close()
    status, line, said = restore(copy, "roof")
    check("it is put back", status == 0 and calls("roof/matter.db") == 3, (line, said))
    aside = glob.glob("roof/replaced-*")
    check("what was there is kept, log and all", len(aside) == 1 and "5 documents called" in line and os.path.exists(f"{aside[0]}/matter.db-wal"), line)
    check("a volume that the copy knows nothing of is named", "VOL009" in line, line)
    check("and the program takes it", run(PROGRAM, "press", "R-1", cwd="roof")[1] == "refused 33 NoProduction 0 0 0\n")
    with open("roof/matter.db", "r+b") as file:
        file.truncate(5000)
    for name in glob.glob("roof/matter.db-*"):
        os.remove(name)
    time.sleep(1.1)
    status, _, said = restore(copy, "roof")
    check("over a matter that can't be read it asks", status == 1 and "--unread" in said, said)
    status, line, said = restore("--unread", copy, "roof")
    check("and takes the copy where that is given", status == 0 and calls("roof/matter.db") == 3, (line, said))
    os.mkdir("new")
    status, line, _ = restore(copy, "new")
    check("a folder without a matter gets it", status == 0 and calls("new/matter.db") == 3, line)


def main():
    apart.adopt()
    if not apart.in_own_network():
        print("backup.py: in this machine's network, as the system gives no other")
    if subprocess.run([os.path.join(TOP, "tivrenan"), "build", "look"], capture_output=True, check=False).returncode:
        print("backup.py: NOT TRIED: the program isn't built from the sources as they stand")
        return
    room = tempfile.mkdtemp(prefix="backup-")
    os.chdir(room)
    try:
        begin("roof")
        begin("wall", "another")
        os.mkdir("copies")
        restored(copies())
    finally:
        apart.end_begun()
        os.chdir("/")
        shutil.rmtree(room, ignore_errors=True)
    check.end()


main()

#!/usr/bin/env python3
"""What services.py runs in a booted system: two matters on one host behind one nginx, a reviewer in each; killed and begun again under load;
one of them with two desks; backup and restore while desks are open; the audit trail; delivery in place of the desks. It changes the system
that it runs in, so it is for a clean root alone."""
import contextlib
import glob
import hashlib
import json
import os
import re
import shutil
import signal
import sqlite3
import subprocess
import sys
import threading
import time

MATTERS = {"roof": 1, "wall": 2}  # and how many desks
SECONDS = 60
NAME = "review.office.example"
checks, failed = 0, 0


def check(name, holds, seen=""):
    global checks, failed
    checks += 1
    if not holds:
        failed += 1
        print(f"services.py: not so: {name} {seen}", flush=True)


def run(*words, due=None, **more):
    told = subprocess.run(words, capture_output=True, text=True, errors="replace", timeout=SECONDS * 3, check=False, **more)
    if due is not None and told.returncode != due:
        check(f"{' '.join(words)} ends with {due}", False, (told.returncode, told.stdout, told.stderr))
    return told


def as_user(matter, *words):
    return run("runuser", "-u", "tivrenan", "--", *words, cwd=f"/srv/matters/{matter}")


def key(matter, who):
    return f"the key of {who} at the {matter}"


def ask(matter, who, path, body=None):
    """Status and body of an answer that came by nginx; status 0 where none came."""
    words = ["curl", "-s", "--cacert", "/etc/ssl/certs/review.pem", "--resolve", f"{NAME}:443:127.0.0.1", "-m", "20", "-w", "\n%{http_code}",
             "-H", f"Desk-Key: {key(matter, who)}", f"https://{NAME}{path}"]
    told = run(*words, *([] if body is None else ["--data-binary", json.dumps(body)]))
    answer, _, status = told.stdout.rpartition("\n")
    return (int(status) if status.isdigit() and told.returncode == 0 else 0), answer


def until(what, holds, seconds=SECONDS):
    end = time.monotonic() + seconds
    while time.monotonic() < end:
        if holds():
            return True
        time.sleep(0.2)
    check(what, False)
    return False


def is_open(matter):
    return ask(matter, "lead", f"/{matter}/desk/docs/1")[0] == 200


# ---- as GUIDE says


def begin():
    run("install", "-d", "-o", "tivrenan", "-g", "tivrenan", "-m", "711", "/srv/matters", due=0)
    for matter in MATTERS:
        run("install", "-d", "-o", "tivrenan", "-g", "tivrenan", "-m", "700", f"/srv/matters/{matter}", due=0)
        run("cp", "-r", "/usr/share/doc/tivrenan/examples/CVI_001", f"/srv/matters/{matter}/CVI_001", due=0)
        run("chown", "-R", "tivrenan:tivrenan", f"/srv/matters/{matter}", due=0)
        digest = hashlib.sha256(key(matter, "lead").encode()).hexdigest()
        check("the matter is made", as_user(matter, "tivrenan", "init", digest).stdout == "matter made\n")
        check("the batch comes in", as_user(matter, "tivrenan", "import", "CVI_001").stdout.startswith("batch CVI_001"))


def serve_page():
    run("openssl", "req", "-x509", "-newkey", "rsa:2048", "-nodes", "-days", "30", "-subj", f"/CN={NAME}", "-addext", f"subjectAltName=DNS:{NAME}",
        "-keyout", "/etc/ssl/private/review.key", "-out", "/etc/ssl/certs/review.pem", due=0)
    run("cp", "-r", "/usr/share/tivrenan/desk_page", "/srv/desk_page", due=0)
    # as GUIDE says
    text = run("sed", r"s#<\(review[.]office[.]example\|/[a-z_/.]*\)>#\1#", "/usr/share/doc/tivrenan/examples/nginx/tivrenan-matters.conf", due=0).stdout
    own = """upstream wall {
    hash $http_desk_key;
    server unix:/run/tivrenan/wall/1.sock max_fails=0;
    server unix:/run/tivrenan/wall/2.sock max_fails=0;
}
"""
    block = text[text.index("    location ~ ^/[A-Za-z0-9_][A-Za-z0-9_-]*/desk/ {"):].rsplit("}", 1)[0]
    of_wall = block.replace("location ~ ^/[A-Za-z0-9_][A-Za-z0-9_-]*/desk/", "location ^~ /wall/desk/")
    of_wall = of_wall.replace("http://unix:/run/tivrenan/$tivrenan_matter/1.sock:$tivrenan_path", "http://wall$tivrenan_path")
    text = own + text.replace(block, of_wall + "\n" + block)
    with open("/etc/nginx/sites-available/matters.conf", "w", encoding="utf-8") as file:
        file.write(text)
    for path in ("/etc/nginx/sites-enabled/default", "/etc/nginx/sites-enabled/matters.conf"):
        if os.path.lexists(path):
            os.remove(path)
    os.symlink("../sites-available/matters.conf", "/etc/nginx/sites-enabled/matters.conf")
    told = run("nginx", "-t")
    check("nginx takes the configuration", told.returncode == 0, told.stderr)
    run("systemctl", "restart", "nginx", due=0)


def open_desks():
    os.makedirs("/etc/tivrenan", exist_ok=True)
    with open("/etc/tivrenan/wall.conf", "w", encoding="ascii") as file:
        file.write("DESKS=2\n")
    run("systemctl", "enable", "--now", "tivrenan-door-2@wall.socket", due=0)
    for matter in MATTERS:
        run("systemctl", "enable", "--now", f"tivrenan-door-1@{matter}.socket", f"tivrenan-desk@{matter}.service", due=0)
    for matter in MATTERS:
        if not until(f"the desk of {matter} is open", lambda: is_open(matter)):
            told = run("journalctl", "-b", "--no-pager", "-n", "60", "-u", f"tivrenan-*@{matter}*")
            print(told.stdout, run("systemctl", "status", "--no-pager", f"tivrenan-desk@{matter}", f"tivrenan-door-1@{matter}").stdout, flush=True)


def apart():
    status, page = ask("roof", "lead", "/roof/")
    check("the page stands at the matter's address", status == 200 and "<title>Review</title>" in page, (status, page[:80]))
    check("its parts too", ask("roof", "lead", "/roof/main.js")[0] == 200)
    check("without the last / one is led there", ask("roof", "lead", "/roof")[0] == 301)
    check("a key of one matter is none in the other", ask("roof", "lead", "/wall/desk/docs/1")[0] in (401, 403), ask("roof", "lead", "/wall/desk/docs/1"))
    check("a matter that isn't there has no desk", ask("roof", "lead", "/none/desk/docs/1")[0] == 502)
    check("other signs in a path are passed on nowhere", ask("roof", "lead", "/roof/desk/docs/1%0d%0aDesk-Key:%20x")[0] == 404)
    check("nor a step aside", ask("roof", "lead", "/roof/desk/%2e%2e/%2e%2e/wall/desk/docs/1")[0] in (400, 401, 403, 404))
    for matter in MATTERS:
        for who, role in (("Ellis", "Reviewer"), ("Marlow", "Second"), ("Hale", "Receiver")):
            digest = hashlib.sha256(key(matter, who).encode()).hexdigest()
            status, answer = ask(matter, "lead", f"/{matter}/desk/staff", {"name": f"{who} of {matter}", "role": role, "digest": digest})
            check("people come in", status == 200, answer)
        process = run("systemctl", "show", "-P", "MainPID", f"tivrenan-desk@{matter}").stdout.strip()
        root = f"/proc/{process}/root"
        seen = os.listdir(f"{root}/srv/matters")
        more = sorted(name for place in ("etc", "home", "root", "var", "run", "srv", "opt", "mnt") for name in
                      (os.listdir(f"{root}/{place}") if os.path.isdir(f"{root}/{place}") else []))
        check("a desk sees its own matter alone", seen == [matter], seen)
        check("and no other file of the machine's own", set(more) <= {"alternatives", "ld.so.cache", "localtime", "matters", "tmp", "systemd", "tivrenan-desk"}, more)
        links = run("nsenter", "-t", process, "-n", "ip", "-o", "link").stdout.splitlines()
        check("and no network but its own loopback", [line.split(": ")[1] for line in links] == ["lo"], links)
        check("as a user of its own", run("ps", "-o", "user=", "-p", process).stdout.strip() == "tivrenan")
        limit = run("systemctl", "show", "-P", "MemoryMax", f"tivrenan-desk@{matter}").stdout.strip()
        check("its memory is bounded", limit.isdigit() and int(limit) <= 8 << 30, limit)


# ---- under load


class Reviewer(threading.Thread):
    """Decides one document again and again, each time with another designation, and keeps what was answered."""

    def __init__(self, matter, document, stop):
        super().__init__()
        self.matter, self.document, self.stopped, self.answered, self.asked, self.calls = matter, document, stop, 0, 0, 0

    def run(self):
        while not self.stopped.is_set():
            self.asked += 1
            body = {"responsive": True, "treatment": "Produce", "designation": f"CALL {self.asked}"}
            status, answer = ask(self.matter, "Ellis", f"/{self.matter}/desk/docs/{self.document}/call", body)
            if status == 200:
                self.answered, self.calls = self.asked, self.calls + 1
            elif status not in (0, 429, 502, 503, 504):
                check("a call is answered, or no desk is there", False, (status, answer))


def designation(body):
    length = int.from_bytes(body[12:16], "little")
    return body[16 : 16 + length].decode()


def kept(path):
    with contextlib.closing(sqlite3.connect(f"file:{path}?immutable=1", uri=True)) as matter:
        return {number: designation(body) for number, body in matter.execute("SELECT k1, body FROM kept WHERE kind = 5")}


def main_process(matter):
    """The program below the desk's unit."""
    told = run("systemctl", "show", "-P", "ControlGroup", f"tivrenan-desk@{matter}").stdout.strip()
    for path in glob.glob(f"/sys/fs/cgroup{told}/cgroup.procs") + glob.glob(f"/sys/fs/cgroup/systemd{told}/cgroup.procs"):
        for process in open(path, encoding="ascii").read().split():
            if open(f"/proc/{process}/comm", encoding="ascii").read().strip() == "bp_main":
                return int(process)
    return None


def load():
    stop = threading.Event()
    people = [Reviewer(matter, document, stop) for matter in MATTERS for document in range(1, 7)]
    for each in people:
        each.start()
    for turn in range(6):
        time.sleep(2)
        for matter in MATTERS:
            process = main_process(matter)
            if turn % 2 and process:
                os.kill(process, signal.SIGKILL)
            else:
                run("systemctl", "restart", f"tivrenan-desk@{matter}")
    for matter in MATTERS:
        until(f"the desk of {matter} is open again", lambda: is_open(matter))
    time.sleep(2)
    stop.set()
    for each in people:
        each.join()
    for matter in MATTERS:
        run("systemctl", "stop", f"tivrenan-desk@{matter}", due=0)
        calls = kept(f"/srv/matters/{matter}/matter.db")
        for each in (each for each in people if each.matter == matter):
            due = {f"CALL {number}" for number in range(each.answered, each.asked + 1)}
            check(f"{matter}: each answered call of document {each.document} is there, in matter.db alone",
                  each.answered > 0 and calls.get(each.document) in due, (calls.get(each.document), each.answered, each.asked))
        run("systemctl", "start", f"tivrenan-desk@{matter}", due=0)
        until(f"{matter} is open once more", lambda: is_open(matter))
    print(f"services.py: {sum(each.calls for each in people)} calls were answered by nginx while desks were killed and begun again "
          f"{6 * len(MATTERS)} times, of {sum(each.asked for each in people)} asked", flush=True)


def used_up():
    """A desk whose connections are used up is opened anew."""
    with open("/etc/tivrenan/roof.conf", "w", encoding="ascii") as file:
        file.write("CONNECTIONS=10\n")
    run("systemctl", "restart", "tivrenan-desk@roof", due=0)
    until("roof is open", lambda: is_open("roof"))
    before = run("systemctl", "show", "-P", "NRestarts", "tivrenan-desk@roof").stdout.strip()
    answers = [ask("roof", "lead", "/roof/desk/docs/1")[0] for _ in range(15)]
    until("roof is open again", lambda: is_open("roof"))
    after = run("systemctl", "show", "-P", "NRestarts", "tivrenan-desk@roof").stdout.strip()
    check("after its connections were used up it was opened anew", int(after) > int(before) and answers.count(200) >= 9, (before, after, answers))
    os.remove("/etc/tivrenan/roof.conf")
    run("systemctl", "reset-failed", "tivrenan-desk@roof")
    run("systemctl", "restart", "tivrenan-desk@roof", due=0)
    until("roof is open", lambda: is_open("roof"))


# ---- copies


def copies():
    ask("roof", "Ellis", "/roof/desk/docs/12/call", {"responsive": True, "treatment": "Produce", "designation": "BEFORE"})
    told = run("systemctl", "start", "tivrenan-backup@roof.service")
    check("a backup is made while the desk is open", told.returncode == 0, told.stderr + run("journalctl", "--no-pager", "-u", "tivrenan-backup@roof").stdout)
    made = glob.glob("/srv/backup/roof/roof-*.db")
    check("it is one file, named by the minute", len(made) == 1 and re.search(r"roof-\d{4}-\d\d-\d\d-\d{4}(\d\d)?\.db$", made[0]), made)
    check("it has the last call", made and kept(made[0]).get(12) == "BEFORE")
    check("the desk is open again", until("open", lambda: is_open("roof")))
    ask("roof", "Ellis", "/roof/desk/docs/12/call", {"responsive": True, "treatment": "Produce", "designation": "AFTER"})
    if not made:
        return
    told = run("tivrenan-restore", made[0], "/srv/matters/roof")
    check("it is put back", told.returncode == 0, told.stdout + told.stderr)
    check("and the desk is open", until("open", lambda: is_open("roof")))
    check("with what was then", '"designation":"BEFORE"' in ask("roof", "Ellis", "/roof/desk/docs/12")[1], ask("roof", "Ellis", "/roof/desk/docs/12"))
    kept_aside = glob.glob("/srv/matters/roof/replaced-*/matter.db")
    check("what was there is kept", len(kept_aside) == 1 and kept(kept_aside[0]).get(12) == "AFTER")
    told = run("tivrenan-restore", made[0], "/srv/matters/wall")
    check("a copy of another matter is refused", told.returncode == 1 and "of another matter" in told.stderr, told.stderr)
    check("and the desks there are open", until("open", lambda: is_open("wall")))
    told = run("systemctl", "enable", "--now", "tivrenan-backup@roof.timer")
    check("a timer makes one each night", told.returncode == 0 and "roof" in run("systemctl", "list-timers", "--no-pager").stdout, told.stderr)


# ---- the trail


def trail():
    path = "/var/log/tivrenan/audit.log"
    with open(path, encoding="utf-8") as file:
        text = file.read()
    lines = [json.loads(line) for line in text.splitlines()]
    check("each line is JSON", lines)
    keys = [key(matter, who) for matter in MATTERS for who in ("lead", "Ellis", "Marlow", "Hale")]
    check("no key is in it", not any(each in text for each in keys))
    digests = [hashlib.sha256(each.encode()).hexdigest() for each in keys]
    of_calls = "".join(line["mark"] for line in lines)
    check("nor is a digest the mark of it", not any(digest[:16] in of_calls for digest in digests))
    check("there are marks of keys", all(re.fullmatch("[0-9a-f]{16}", line["mark"]) for line in lines if line["status"] == "200"))
    copy = sorted(glob.glob("/srv/backup/roof/roof-*.db"))[-1]
    told = run("tivrenan-audit", "--staff", copy, "roof", "12")
    shown = [line for line in told.stdout.splitlines() if "/docs/12/call" in line]
    check("the history of a document names who decided what", len(shown) == 2 and "Ellis of roof, Reviewer, staff 2  POST /docs/12/call  200" in shown[0]
          and '"designation":"BEFORE"' in shown[0].replace(": ", ":") and "AFTER" in shown[1], told.stdout + told.stderr)
    check("nothing of another matter", "wall" not in told.stdout)
    if shutil.which("logrotate"):
        turn(path, copy)
    else:
        print("services.py: NOT TRIED: how the log is turned: logrotate isn't here (Debian's package of that name)", flush=True)


def turn(path, copy):
    told = run("logrotate", "-f", "/etc/logrotate.d/tivrenan")
    check("the log is turned", told.returncode == 0 and os.path.exists(f"{path}.1"), told.stderr)
    time.sleep(2)  # nginx opens its new log a moment after it was asked to
    ask("roof", "Ellis", "/roof/desk/docs/12/call", {"responsive": True, "treatment": "Produce", "designation": "TURNED"})
    until("nginx writes the new one", lambda: os.path.exists(path) and "TURNED" in open(path, encoding="utf-8").read(), 20)
    told = run("tivrenan-audit", "--staff", copy, "roof", "12")
    check("the old one is read before it", told.stdout.count("/docs/12/call") == 3 and "TURNED" in told.stdout.splitlines()[-2], told.stdout)
    mode = os.stat(path).st_mode & 0o777
    check("only root and nginx read it", mode == 0o600, oct(mode))


def delivery():
    run("sh", "-c", ": > /srv/matters/roof/grants.csv && chown tivrenan: /srv/matters/roof/grants.csv", due=0)
    run("systemctl", "start", "tivrenan-deliver@roof", due=0)
    until("the desks end for it", lambda: run("systemctl", "is-active", "tivrenan-desk@roof").stdout.strip() == "inactive", 20)
    until("the door is open", lambda: ask("roof", "Hale", "/roof/desk/granted")[0] == 200)
    check("a receiver comes by nginx", ask("roof", "Hale", "/roof/desk/granted") == (200, "[]"), ask("roof", "Hale", "/roof/desk/granted"))
    run("systemctl", "start", "tivrenan-desk@roof", due=0)
    until("delivery ends for them", lambda: run("systemctl", "is-active", "tivrenan-deliver@roof").stdout.strip() == "inactive", 20)
    until("and the desks stand in its place", lambda: is_open("roof"))
    if failed:
        print(run("systemctl", "status", "--no-pager", "tivrenan-deliver@roof", "tivrenan-desk@roof").stdout, flush=True)


def main():
    for part in (begin, serve_page, open_desks, apart, load, used_up, copies, trail, delivery):
        print(part.__name__, flush=True)
        part()
        if failed and part in (begin, serve_page, open_desks):
            break
    print(f"{checks} checks, {failed} not as expected", flush=True)
    sys.exit(1 if failed else 0)


main()

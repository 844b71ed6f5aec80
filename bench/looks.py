#!/usr/bin/env python3
"""Times looks at a desk of the built program, for looks.sh: looks.py PROGRAM FOLDER EXCHANGES ROUNDS, where FOLDER/B is the batch."""
import hashlib
import http.client
import json
import os
import subprocess
import sys
import time

program, folder = sys.argv[1:3]
exchanges, rounds = int(sys.argv[3]), int(sys.argv[4])
PORT, KEY, WORDS = 48201, "the key of the lead", 1_000_000
TICK = os.sysconf("SC_CLK_TCK")


def run(*words):
    return subprocess.run([program, *words], cwd=folder, check=True, capture_output=True, text=True).stdout


def ask(method, path, body=None):
    peer = http.client.HTTPConnection("127.0.0.1", PORT, timeout=60)
    peer.request(method, path, body and json.dumps(body), {"Desk-Key": KEY})
    reply = peer.getresponse()
    said = reply.read()
    peer.close()
    assert reply.status == 200, said[:200]
    return json.loads(said)


def find(term):
    return lambda: ask("POST", "/find", {"terms": [term], "from": 1, "page": 0})


LOOKS = {
    "staff": lambda: ask("GET", "/staff"),
    "find": find("zzzz"),
    "find_star": find("*zzzz"),
    "find_hits": find("word7"),
    "states": lambda: ask("GET", "/states/1"),
}


def ticks(desk):
    """The seconds of the processor that the desk took, in steps of a hundredth."""
    with open(f"/proc/{desk.pid}/stat", encoding="ascii") as stat:
        fields = stat.read().rpartition(")")[2].split()
    return (int(fields[11]) + int(fields[12])) / TICK


run("init", hashlib.sha256(KEY.encode()).hexdigest())
run("import", "B")
desk = subprocess.Popen([program, "serve", "1", str(len(LOOKS) * (exchanges * rounds + 1) + 100)], cwd=folder, stdout=subprocess.DEVNULL)
try:
    for _ in range(600):
        try:
            ask("GET", "/staff")
            break
        except OSError:
            time.sleep(0.1)
    assert len(LOOKS["find_hits"]()["hits"]) == 500 and LOOKS["find"]()["next"] == 501 and len(LOOKS["states"]()) == 500
    least = {}
    for _ in range(rounds):
        for name, look in LOOKS.items():
            before = ticks(desk)
            for _ in range(exchanges):
                look()
            cost = (ticks(desk) - before) / exchanges
            least[name] = min(cost, least.get(name, cost))
finally:
    desk.kill()
    desk.wait()

base = least["staff"]
for name, what in (("find", "a term without `*`"), ("find_star", "a term with `*` at its front"), ("find_hits", "a term with 500 hits, and the reply")):
    seconds = least[name] - base
    print(f"{what}: {1000 * seconds:.1f} ms of the processor, {WORDS / seconds:,.0f} words a second")
print(f"the states of 500 documents: {1000 * (least['states'] - base):.2f} ms of the processor (the staff alone {1000 * base:.2f})")

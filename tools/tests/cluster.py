#!/usr/bin/env python3
"""Runs examples/cluster.sh over a Slurm of one node, this machine, that it begins for itself: on the loopback, with munge, in a network of its
own. Matters that go through, one whose batch is damaged and one whose batch isn't there: these are run again and named; once mended they go
through, and the others are left as they are. Words: none, or `split PAGES`: so many pages, drawn, of which no matter could take more
than 20,000, as two matters by custodian with prefixes of their own.

Needs root, the built program, and Debian's slurm-wlm, munge and curl; says what is left out."""
import contextlib
import hashlib
import os
import shutil
import subprocess
import sys
import tempfile
import time

sys.dont_write_bytecode = True
import apart  # noqa: E402
from counted import Counted  # noqa: E402

TOP = os.path.dirname(os.path.dirname(os.path.dirname(os.path.abspath(__file__))))
CLUSTER = os.path.join(TOP, "examples/cluster.sh")
BATCH = os.path.join(TOP, "examples/CVI_001")
CONF = """ClusterName=trial
SlurmctldHost=localhost(127.0.0.1)
SlurmUser=root
SlurmdUser=root
AuthType=auth/munge
AuthInfo=socket={room}/munge.socket
CryptoType=crypto/munge
ProctrackType=proctrack/linuxproc
TaskPlugin=task/none
SwitchType=switch/none
MpiDefault=none
ReturnToService=2
StateSaveLocation={room}/state
SlurmdSpoolDir={room}/spool
SlurmctldPidFile={room}/slurmctld.pid
SlurmdPidFile={room}/slurmd.pid
SlurmctldLogFile={room}/slurmctld.log
SlurmdLogFile={room}/slurmd.log
SelectType=select/cons_tres
SelectTypeParameters=CR_Core
SchedulerParameters=sched_interval=1
MinJobAge=30
JobAcctGatherType=jobacct_gather/none
NodeName=localhost NodeAddr=127.0.0.1 CPUs={cpus} State=UNKNOWN
PartitionName=all Nodes=localhost Default=YES MaxTime=INFINITE State=UP
"""
check = Counted("cluster.py")


def digest(key):
    return hashlib.sha256(key.encode()).hexdigest()


@contextlib.contextmanager
def slurm(room):
    """A controller and a node, both this machine."""
    for name in ("state", "spool"):
        os.mkdir(f"{room}/{name}")
    with open(f"{room}/munge.key", "wb") as file:
        file.write(os.urandom(1024))
    os.chmod(f"{room}/munge.key", 0o600)
    with open(f"{room}/slurm.conf", "w", encoding="ascii") as file:
        file.write(CONF.format(room=room, cpus=min(2, os.cpu_count())))
    # where a machine has no address but those of the loopback, Slurm finds no name; this one is for documents (RFC 5737), and leads nowhere
    subprocess.run(["ip", "address", "add", "192.0.2.1/32", "dev", "lo"], check=False)
    around = {**os.environ, "SLURM_CONF": f"{room}/slurm.conf", "PATH": f"{room}/bin:{os.environ['PATH']}:/usr/sbin:/sbin"}
    os.mkdir(f"{room}/bin")
    os.symlink(os.path.join(TOP, "tivrenan"), f"{room}/bin/tivrenan")
    begun = []
    try:
        for words in (["munged", "--foreground", "--force", f"--key-file={room}/munge.key", f"--socket={room}/munge.socket", f"--pid-file={room}/munge.pid",
                       f"--log-file={room}/munge.log", f"--seed-file={room}/munge.seed"], ["slurmctld", "-D", "-f", f"{room}/slurm.conf"],
                      ["slurmd", "-D", "-N", "localhost", "-f", f"{room}/slurm.conf"]):
            begun.append(subprocess.Popen(words, env=around, stdin=subprocess.DEVNULL, stdout=subprocess.DEVNULL, stderr=subprocess.DEVNULL))
            time.sleep(1)
        for _ in range(60):
            told = subprocess.run(["timeout", "5", "sinfo", "-h", "-o", "%T"], env=around, capture_output=True, text=True, check=False)
            if told.stdout.strip() in ("idle", "mixed"):
                break
            time.sleep(0.5)
        else:
            raise OSError(f"Slurm's node doesn't come up: {told.stdout}{told.stderr}")
        yield around
    finally:
        for each in reversed(begun):
            each.terminate()
        for each in begun:
            with contextlib.suppress(subprocess.TimeoutExpired):
                each.wait(10)


def table(path, rows):
    with open(path, "w", encoding="ascii") as file:
        file.write("matter,batches,lead,decide,prefix,width\n" + "".join(",".join(row) + "\n" for row in rows))


def run(around, room, name="table.csv"):
    told = subprocess.run([CLUSTER, f"{room}/{name}", f"{room}/matters"], env=around, capture_output=True, text=True, timeout=3600, check=False)
    return told.returncode, told.stdout, told.stderr


def trial(around, room):
    os.mkdir(f"{room}/matters")
    shutil.copytree(BATCH, f"{room}/damaged/CVI_001")
    image = next(os.path.join(at, name) for at, _, names in os.walk(f"{room}/damaged/CVI_001/IMAGES") for name in names)
    whole = open(image, "rb").read()
    open(image, "wb").write(whole[: len(whole) // 2])
    rows = [(f"M{number}", BATCH, digest(f"key {number}"), "produce", f"P{number}-", "6") for number in range(1, 5)]
    rows.append(("BAD", f"{room}/damaged/CVI_001", digest("key 5"), "produce", "BAD-", "6"))
    rows.append(("NONE", f"{room}/late/CVI_001", digest("key 6"), "produce", "NONE-", "6"))
    table(f"{room}/table.csv", rows)
    for number, (matter, *_) in enumerate(rows, 1):
        with open(f"{room}/matters/{matter}.key", "w", encoding="ascii") as file:
            file.write(f"key {number}\n")
    status, told, said = run(around, room)
    check("what fails ends it with 1", status == 1 and "2 matters aren't done" in said, (status, told, said))
    for number in range(1, 5):
        check(f"M{number} is done", f"M{number}: done: documents=12 pages=31 " in told, told)
    check("what failed was run once more", "once more, as they failed: 5,6" in told, told)
    check("and is named, with why", "BAD: failed: import: refused 81 TiffBounds" in told and "NONE: failed: import: refused 54 FileAbsent" in told, told)
    first = [open(f"{room}/matters/M1/out/VOL001/MANIFEST.TXT", "rb").read(), os.stat(f"{room}/matters/M1/matter.db").st_mtime_ns]
    open(image, "wb").write(whole)
    shutil.copytree(BATCH, f"{room}/late/CVI_001")
    status, told, said = run(around, room)
    check("once mended they go through", status == 0 and "6 matters, of which these lines are to be done: 5,6" in told, (status, told, said))
    check("and the others are left", first == [open(f"{room}/matters/M1/out/VOL001/MANIFEST.TXT", "rb").read(), os.stat(f"{room}/matters/M1/matter.db").st_mtime_ns])
    check("nothing is left of a key but its file", not any(name.endswith(".head") for name in os.listdir(f"{room}/matters")))


def split(around, room, pages):
    """So many drawn pages, by ten custodians, as two matters of five custodians each."""
    os.makedirs(f"{room}/batches")
    os.mkdir(f"{room}/matters")
    names = []
    for custodian in range(10):
        name = f"{room}/batches/CUST{custodian:02}"
        subprocess.run([os.path.join(TOP, "trials/desks_batch.py"), name, str(pages * 10 // 174)], check=True)
        names.append(name)
    count = sum(sum(1 for _ in open(f"{name}/load.opt", encoding="ascii")) for name in names)
    print(f"{count} pages of ten custodians", flush=True)
    whole = [("WHOLE", " ".join(names), digest("key"), "produce", "W-", "8")]
    table(f"{room}/whole.csv", whole)
    halves = [("A-TO-E", " ".join(names[:5]), digest("key"), "produce", "AE-", "8"), ("F-TO-J", " ".join(names[5:]), digest("key"), "produce", "FJ-", "8")]
    table(f"{room}/halves.csv", halves)
    for matter, *_ in whole + halves:
        with open(f"{room}/matters/{matter}.key", "w", encoding="ascii") as file:
            file.write("key\n")
    begun = time.monotonic()
    status, told, said = run(around, room, "halves.csv")
    print(told, said, f"{time.monotonic() - begun:.0f} s on the clock", flush=True)
    check("two matters take them", status == 0 and told.count(": done: ") == 2, (told, said))
    if count > 20000:
        status, told, _ = run(around, room, "whole.csv")
        check("one matter refuses so many", status == 1 and "refused 35 MatterFull" in told, told)
        print(told, flush=True)


def main(words):
    lacking = [package for tool, package in (("slurmctld", "slurm-wlm"), ("munged", "munge"), ("curl", "curl"), ("ip", "iproute2"))
               if not shutil.which(tool, path=os.environ["PATH"] + ":/usr/sbin:/sbin")]
    if lacking or os.geteuid() != 0:
        print(f"cluster.py: NOT TRIED: {', '.join(lacking) + ' is not installed' if lacking else 'needs root'}")
        return
    if subprocess.run([os.path.join(TOP, "tivrenan"), "build", "look"], capture_output=True, check=False).returncode:
        print("cluster.py: NOT TRIED: the program isn't built from the sources as they stand")
        return
    apart.adopt()
    if not apart.in_own_network():
        print("cluster.py: NOT TRIED: the system gives no network of one's own, in which a Slurm of this trial's stands")
        return
    room = tempfile.mkdtemp(prefix="cluster-")
    try:
        with slurm(room) as around:
            if words[:1] == ["split"]:
                split(around, room, int(words[1]))
            else:
                trial(around, room)
    except OSError as why:
        print(f"cluster.py: NOT TRIED: {why}")
        return
    finally:
        apart.end_begun()
        shutil.rmtree(room, ignore_errors=True)
    check.end()


main(sys.argv[1:])

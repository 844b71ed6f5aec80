#!/usr/bin/env python3
"""Tries the package of Debian over the built program: that lintian has no error, that the same commit gives the same package, and that it is
installed, upgraded, removed and purged in a clean root, where a matter goes on being read and stays. Needs root, dpkg-deb and, for
a part that is else left out and said, lintian."""
import os
import shutil
import sqlite3
import subprocess
import sys

sys.dont_write_bytecode = True
import page_sums  # noqa: E402
import rooms  # noqa: E402
from counted import Counted  # noqa: E402

TOP = os.path.dirname(os.path.dirname(os.path.dirname(os.path.abspath(__file__))))
OWN_PLACES = ("/usr/share/tivrenan", "/usr/lib/tivrenan", "/usr/bin/tivrenan", "/etc/logrotate.d/tivrenan", "/usr/share/doc/tivrenan",
              "/lib/systemd/system/tivrenan-desk@.service", "/usr/share/man/man1/tivrenan.1.gz")
check = Counted("deb.py")


def packed(revision):
    told = subprocess.run([os.path.join(TOP, "tools/deb.sh"), revision], capture_output=True, text=True, check=True)
    return os.path.join(TOP, told.stdout.strip())


def lint(path):
    if not shutil.which("lintian"):
        print("deb.py: what lintian says is NOT TRIED: Debian's lintian isn't installed")
        return
    told = subprocess.run(["lintian", "--fail-on", "error", path], capture_output=True, text=True, check=False)
    check("lintian has no error", told.returncode == 0 and "E: " not in told.stdout, told.stdout + told.stderr)


def spoil(path):
    """A matter whose rows are those of another program, a later one perhaps."""
    with sqlite3.connect(path) as matter:
        matter.execute("UPDATE kept SET body = CAST(x'09' || substr(body, 2) AS BLOB) WHERE kind = 1")
    matter.close()
    page_sums.seal(path)


def live(run, root, first, second):
    """What an office does with it, from the first day to the last."""
    for path in (first, second):
        shutil.copy(path, f"{root}/srv/")
    first, second = (f"/srv/{os.path.basename(path)}" for path in (first, second))
    told = run("dpkg", "-i", first)
    check("it installs", told.returncode == 0, told.stdout + told.stderr)
    told = run("tivrenan", "version")
    check("it runs", told.stdout.startswith("tivrenan 0.1, proved with"), told.stdout + told.stderr)
    for user in ("tivrenan", "tivrenan-door"):
        check(f"there is a user {user}", run("getent", "passwd", user).returncode == 0)
    listed = run("dpkg", "-L", "tivrenan").stdout
    check("dpkg lists the program", "/usr/lib/tivrenan/bp_main\n" in listed)
    check("and its files are as they were packed", run("dpkg", "-V", "tivrenan").stdout == "", run("dpkg", "-V", "tivrenan").stdout)
    run("mkdir", "-p", "/srv/matters/roof")
    run("chown", "tivrenan:tivrenan", "/srv/matters/roof")
    as_user = ("setpriv", "--reuid=tivrenan", "--regid=tivrenan", "--clear-groups", "sh", "-c")
    told = run(*as_user, "cd /srv/matters/roof && tivrenan demo 7 20 && tivrenan status")
    check("a matter is made by its user", told.returncode == 0 and "produced   10 documents in 1 productions" in told.stdout, told.stdout + told.stderr)
    line = told.stdout.splitlines()[0] if told.stdout else ""
    told = run("sh", "-c", "for u in /lib/systemd/system/tivrenan-*@.*; do n=${u##*/}; systemd-analyze verify ${n%%@*}@roof.${n##*.} || exit 1; done")
    if shutil.which("systemd-analyze", path=f"{root}/usr/bin"):
        check("systemd-analyze verify is silent of each unit", (told.returncode, told.stdout, told.stderr) == (0, "", ""), told.stdout + told.stderr)
        for unit in ("desk", "deliver", "door-1"):
            told = run("systemd-analyze", "security", "--offline=true", "--threshold=20", f"tivrenan-{unit}@roof.service")
            check(f"systemd-analyze security of {unit} is at most 2.0", told.returncode == 0, told.stdout[-200:] + told.stderr)
    else:
        print("deb.py: units are NOT TRIED: no systemd is in the root")
    told = run("dpkg", "-i", second)
    check("it is upgraded", told.returncode == 0 and "0.1-2" in run("dpkg-query", "-W", "tivrenan").stdout, told.stdout + told.stderr)
    told = run(*as_user, "cd /srv/matters/roof && tivrenan press DEMO")
    check("the old matter is read, and gives the same volume", told.stdout.strip() == line, told.stdout + told.stderr)
    spoil(f"{root}/srv/matters/roof/matter.db")
    told = run(*as_user, "cd /srv/matters/roof && tivrenan press DEMO")
    check("one of another form is refused, with what to do", told.stdout.startswith("refused 90 KeptRowBad") and "Take the last copy" in told.stderr,
          told.stdout + told.stderr)
    told = run("dpkg", "-r", "tivrenan")
    check("it is removed", told.returncode == 0 and not os.path.exists(f"{root}/usr/bin/tivrenan"), told.stdout + told.stderr)
    told = run("dpkg", "-P", "tivrenan")
    check("it is purged", told.returncode == 0, told.stdout + told.stderr)
    left = [path for path in OWN_PLACES if os.path.exists(root + path)]
    check("and nothing of it is left", not left, left)
    check("the matter stays", os.path.exists(f"{root}/srv/matters/roof/matter.db"))


def main():
    if subprocess.run([os.path.join(TOP, "tivrenan"), "build", "look"], capture_output=True, check=False).returncode:
        print("deb.py: NOT TRIED: the program isn't built from the sources as they stand")
        return
    second, first = packed("2"), packed("1")
    kept = open(first, "rb").read()
    check("the same package twice", open(packed("1"), "rb").read() == kept)
    lint(first)
    try:
        with rooms.clean_root() as (root, told), rooms.inside(root) as run:
            print(f"deb.py: in {told}")
            live(run, root, first, second)
    except rooms.NotHere as why:
        print(f"deb.py: installing is NOT TRIED: {why}")
    os.remove(second)
    check.end()


main()

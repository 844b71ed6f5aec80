"""A matter's two files, copied and tried: by the program, which tests all of it and folds its log, and by sqlite."""
import contextlib
import hashlib
import os
import shutil
import sqlite3
import subprocess
import sys
from dataclasses import dataclass

from keep.pages import fault_of
from report.files import NoMatter, has_log
from report.rows import read_matter

HERE = os.path.dirname(os.path.abspath(__file__))
FILE, LOG = "matter.db", "matter.db-wal"


class Refused(Exception):
    """Why nothing is done, in words."""


@dataclass
class Told:
    """What a matter is, as far as its copies are told apart: who leads it, its batches, its productions, and how many calls it has."""

    lead: str  # the digest of the first key, and the name
    batches: list
    productions: list  # (id, volume)
    calls: int

    def in_words(self):
        return f"{len(self.batches)} batches, {self.calls} documents called, {len(self.productions)} productions"


def program():
    """The proved program: beside this clone's launcher, or installed."""
    tools = os.path.dirname(HERE)
    for path in (os.path.join(tools, "../crates/bp_main/out/bp_main"), os.path.join(tools, "../../../lib/tivrenan/bp_main")):
        if os.access(path, os.X_OK):
            return os.path.normpath(path)
    raise Refused("the program isn't there: install tivrenan, or build it")


def damage(path):
    """What is wrong with a file that the program doesn't take."""
    found = None if has_log(path) else fault_of(path)
    return f"it is damaged: {found}" if found else "it is damaged, cut off, or no database"


def tried(folder, name):
    """Opens the matter in a folder, by the program, which tests the whole file and folds its log, and by sqlite; then what it is.
    `name` is how a refusal calls it."""
    told = subprocess.run([program(), "log", "NONE"], cwd=folder, stdin=subprocess.DEVNULL, stdout=subprocess.PIPE, text=True, check=False)
    line = told.stdout.strip()
    if (told.returncode, line) != (2, "refused 33 NoProduction 0 0 0") and told.returncode:
        if line == "keeper fault":
            raise Refused(f"{name}: {damage(os.path.join(folder, FILE))}")
        why = "no matter was begun in it" if line == "refused 43 NoMatter 0 0 0" else f"the program says {line}, status {told.returncode}"
        raise Refused(f"{name}: {why}")
    if has_log(os.path.join(folder, FILE)):
        raise Refused(f"{name}: its log couldn't be folded in")
    try:
        with contextlib.closing(sqlite3.connect(f"file:{os.path.join(folder, FILE)}?mode=ro&immutable=1", uri=True)) as matter:
            answer = matter.execute("PRAGMA integrity_check").fetchone()[0]
            lead = matter.execute("SELECT hex(body) FROM kept WHERE kind = 1 AND k1 = 1").fetchone()
            count = matter.execute("SELECT count(*) FROM kept WHERE kind = 5").fetchone()[0]
        if answer != "ok":
            raise Refused(f"{name}: sqlite says {answer}")
        matter = read_matter(os.path.join(folder, FILE))
    except sqlite3.Error as error:
        raise Refused(f"{name}: sqlite says {error}") from None
    except NoMatter as error:
        raise Refused(str(error).replace(os.path.join(folder, FILE), name)) from None
    return Told(lead[0] if lead else "", [batch for batch, *_ in matter.batches.values()],
                [(each.id, each.volume) for each in matter.productions], count)


def copied(folder, into):
    """Both files of a matter, copied while nobody works with it; refused where they changed meanwhile."""
    def state():
        return [(os.stat(path).st_size, os.stat(path).st_mtime_ns) if os.path.exists(path) else None
                for path in (os.path.join(folder, name) for name in (FILE, LOG))]
    if not os.path.exists(os.path.join(folder, FILE)):
        raise Refused(f"{folder}: there is no {FILE} in it")
    before = state()
    for name in (FILE, LOG):
        path = os.path.join(folder, name)
        if os.path.exists(path):
            shutil.copyfile(path, os.path.join(into, name))
    if state() != before:
        raise Refused(f"{folder}: the matter changed while it was copied")


def holders(folder):
    """The processes that have the matter open, as far as this user may see them."""
    found = []
    for number in filter(str.isdigit, os.listdir("/proc")):
        with contextlib.suppress(OSError):
            names = [os.readlink(f"/proc/{number}/fd/{each}") for each in os.listdir(f"/proc/{number}/fd")]
            if any(name in (os.path.join(folder, FILE), os.path.join(folder, LOG)) for name in names):
                with open(f"/proc/{number}/cmdline", "rb") as file:
                    found.append(f"process {number}, {file.read().replace(bytes(1), b' ').decode(errors='replace').strip()}")
    return found


def must_be_free(folder):
    found = holders(folder)
    if found:
        raise Refused(f"{folder}: somebody works with the matter: {'; '.join(found)}")


def digest_of(path):
    with open(path, "rb") as file:
        return hashlib.file_digest(file, "sha256").hexdigest() if sys.version_info >= (3, 11) else hashlib.sha256(file.read()).hexdigest()


def settled(path):
    """Has what was written below a path reach the disk."""
    for each in (path, os.path.dirname(os.path.abspath(path))):
        number = os.open(each, os.O_RDONLY)
        try:
            os.fsync(number)
        finally:
            os.close(number)

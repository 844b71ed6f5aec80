"""Opens the database of a matter so that nothing of it or beside it is changed, and only while nobody else works with it."""
import contextlib
import fcntl
import os
import shutil
import sqlite3
import struct
import tempfile

HEAD = b"SQLite format 3\0"
# SQLite's own bytes for locks (its file format, and os_unix.c): pending, reserved, and 510 that are shared
FIRST_LOCK, LOCKS = 0x40000000, 512
FLOCK = "@hhqqi0q"
# the head of a log, the head of a page in it, and the least page: a shorter log keeps nothing
LEAST_LOG = 32 + 24 + 512


class NoMatter(Exception):
    """The file is no matter that can be read; says why, in words."""


@contextlib.contextmanager
def opened(path):
    """A connection to the matter, read only. Where a command was killed, its log beside the file is read too, in a copy."""
    check_head(path)
    with open(path, "rb") as file, contextlib.ExitStack() as stack:
        take_lock(path, file)
        if has_log(path):
            path, how = copied(path, stack.enter_context(tempfile.TemporaryDirectory())), "mode=rw"
        else:
            how = "mode=ro&immutable=1"  # without this sqlite makes two files beside it
        with contextlib.closing(sqlite3.connect(uri_of(path, how), uri=True)) as connection:
            yield connection


def check_head(path):
    try:
        with open(path, "rb") as file:
            head = file.read(len(HEAD))
    except FileNotFoundError:
        raise NoMatter(f"{path}: there is no such file; tivrenan keeps a matter in matter.db of its folder") from None
    except OSError as error:
        raise NoMatter(f"{path}: {error.strerror}") from None
    if head != HEAD:
        raise NoMatter(f"{path}: it {'is empty' if not head else 'is no SQLite database'}, so it is no matter")


def take_lock(path, file):
    """Takes a lock that readers share, which ends with the reading; refused where anybody has a lock."""
    asked = struct.pack(FLOCK, fcntl.F_WRLCK, os.SEEK_SET, FIRST_LOCK, LOCKS, 0)
    kind, _, _, _, process = struct.unpack(FLOCK, fcntl.fcntl(file, fcntl.F_GETLK, asked))
    try:
        if kind != fcntl.F_UNLCK:
            raise BlockingIOError
        fcntl.lockf(file, fcntl.LOCK_SH | fcntl.LOCK_NB, LOCKS - 2, FIRST_LOCK + 2)
    except OSError:
        # some locks name no process
        who = f" (process {process})" if kind != fcntl.F_UNLCK and process > 0 else ""
        told = f"it is locked: a desk or another command works with it{who}; try again once that has ended"
        raise NoMatter(f"{path}: {told}") from None


def has_log(path):
    try:
        return os.path.getsize(f"{path}-wal") >= LEAST_LOG
    except OSError:
        return False


def copied(path, room):
    copy = os.path.join(room, "matter.db")
    shutil.copyfile(path, copy)
    shutil.copyfile(f"{path}-wal", f"{copy}-wal")
    return copy


def uri_of(path, how):
    quoted = os.path.abspath(path).replace("%", "%25").replace("?", "%3f").replace("#", "%23")
    return f"file:{quoted}?{how}"

"""Reads the files of a volume as a check does: below a folder, at most so long."""
import errno
import os

from .rule import Rule

LONGEST = 134_217_728  # bytes
NOT_THERE = (errno.ENOENT, errno.ENOTDIR, errno.ENAMETOOLONG, errno.EINVAL)


class Unreadable(Exception):
    """A file that can't be read, for another cause than that it is absent or too long: a check ends there with `source fault`."""


def read_file(folder, path, which):
    """The bytes of a file, or the rule that says that it is absent or too long. Absent is also what can't be there: below a plain file, by a
    name that is too long, or by one with a NUL, which Python refuses with a ValueError."""
    try:
        with open(os.path.join(folder, path), "rb") as file:
            data = file.read(LONGEST + 1)
    except ValueError:
        raise Rule(54, which) from None
    except OSError as why:
        raise (Rule(54, which) if why.errno in NOT_THERE else Unreadable) from None
    if len(data) > LONGEST:
        raise Rule(55, which)
    return data

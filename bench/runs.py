"""Commands run from outside, and what each costs."""
import os
import shutil
import subprocess
import sys
import time


def parted(words):
    """Commands that are parted by --, each a list of words."""
    commands = [[]]
    for word in words:
        if word == "--":
            commands.append([])
        else:
            commands[-1].append(word)
    return commands


def removed(folder):
    """Removes a folder, if there is one; - stands for none."""
    if folder != "-":
        shutil.rmtree(folder, ignore_errors=True)


def emptied(folder):
    """Makes a folder anew; - stands for none."""
    removed(folder)
    if folder != "-":
        os.mkdir(folder)


def run(command, due=0, folder=None):
    """The seconds of processor time, of its user part and of wall time, and the peak memory in MB, of a command that has to end with
    this status, in a folder."""
    start = time.monotonic()
    child = subprocess.Popen(command, stdout=subprocess.DEVNULL, cwd=folder)
    _, status, used = os.wait4(child.pid, 0)
    wall = time.monotonic() - start
    child.returncode = os.waitstatus_to_exitcode(status)
    if child.returncode != due:
        sys.exit(f"{os.path.basename(sys.argv[0])}: this failed: {' '.join(command)}")
    return used.ru_utime + used.ru_stime, used.ru_utime, wall, used.ru_maxrss / 1024


def least(runs):
    """The least of each column."""
    return [min(column) for column in zip(*runs)]

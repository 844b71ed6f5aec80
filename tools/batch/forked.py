"""Work in a copy of this process, which has all that this one knows: what fails there, or never ends, ends nothing here."""
import os
import select
import signal
import time

from .programs import LONGEST_WAIT
from .refused import Refused

PIECE = 1 << 20  # bytes


def answer_of(file, what, work):
    """The bytes that `work` gives; refuses `file` where `what`, which does it, fails or never ends."""
    inside, outside = os.pipe()
    copy = os.fork()
    if not copy:
        give_answer(work, outside)
    os.close(outside)
    told = read_until_end(inside, time.monotonic() + LONGEST_WAIT)
    os.close(inside)
    if told is None:
        os.kill(copy, signal.SIGKILL)
    _, status = os.waitpid(copy, 0)
    if told is None:
        raise Refused(file, f"{what} didn't end within {LONGEST_WAIT} seconds")
    if status:
        raise Refused(file, f"{what} ended with status {os.waitstatus_to_exitcode(status)}")
    return told


def give_answer(work, out):
    """Ends the copy, whatever happens: nothing that this process would do after its work is done twice. What libraries say on standard
    error is not for the user."""
    status = 1
    try:
        signal.signal(signal.SIGTERM, signal.SIG_DFL)
        os.dup2(os.open(os.devnull, os.O_WRONLY), 2)
        with open(out, "wb") as file:
            file.write(work())
        status = 0
    finally:
        os._exit(status)


def read_until_end(inside, end):
    """What the other side writes until it closes the pipe; None where that takes longer than to `end`."""
    pieces = []
    while select.select([inside], [], [], max(0, end - time.monotonic()))[0]:
        piece = os.read(inside, PIECE)
        if not piece:
            return b"".join(pieces)
        pieces.append(piece)
    return None

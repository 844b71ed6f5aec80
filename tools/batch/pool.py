"""Work on many pages by as many processes as there are processors; each begins with what this one knows, and none outlives it."""
import ctypes
import multiprocessing
import os
import signal
from concurrent.futures import ProcessPoolExecutor, ThreadPoolExecutor
from concurrent.futures.process import BrokenProcessPool

from .refused import Refused

END_WITH_PARENT = 1  # prctl(2), PR_SET_PDEATHSIG


def in_threads(jobs, work, items):
    """The answers in the items' order; where one fails, or the user ends all, what hasn't begun is dropped."""
    with ThreadPoolExecutor(jobs) as pool:
        try:
            return list(pool.map(work, items))
        except BaseException:
            pool.shutdown(wait=False, cancel_futures=True)
            raise


def in_processes(jobs, work, count, done, cost):
    """work(number) for the numbers below `count`, in their order; `done` is called after each. What has the highest cost(number) begins
    first, so that no process waits long for the others at the end. The work is a closure: processes are copies of this one. Where the
    user ends all, the processes end with the programs that they run."""
    WORK.append(work)
    pool = ProcessPoolExecutor(max(1, min(jobs, count)), multiprocessing.get_context("fork"), begin, (os.getpid(),))
    try:
        asked = {number: pool.submit(call, number) for number in sorted(range(count), key=cost, reverse=True)}
        for future in asked.values():
            future.add_done_callback(done)
        return [asked[number].result() for number in range(count)]
    except BrokenProcessPool:
        raise Refused("the batch", "a process that made pages was ended, perhaps for lack of memory: take fewer --jobs") from None
    except BaseException:
        for process in multiprocessing.active_children():
            process.terminate()
        raise
    finally:
        pool.shutdown(wait=True, cancel_futures=True)
        WORK.pop()


WORK = []  # what a process works at, since a closure can't be handed to it in another way


def call(number):
    return WORK[-1](number)


def begin(parent):
    """A process and the programs that it runs are a group of their own, which Ctrl-C doesn't reach: it is ended by its parent, or
    with it, and then at once."""
    os.setpgid(0, 0)
    signal.signal(signal.SIGTERM, lambda *_: os.killpg(0, signal.SIGKILL))
    ctypes.CDLL(None).prctl(END_WITH_PARENT, signal.SIGTERM)
    if os.getppid() != parent:
        os._exit(1)

"""How far the work is, and how long it takes yet, at a terminal."""
import sys
import time

EACH = 0.2  # seconds between two lines
FIRST = 3  # pages after which the time left is guessed


class Progress:
    """Says on standard error, at a terminal, how many pages are done, and about how long the others take."""

    def __init__(self, program, what, pages, shown=None):
        self.program, self.what, self.pages, self.done, self.told = program, what, pages, 0, 0.0
        self.shown = sys.stderr.isatty() if shown is None else shown
        self.began = time.monotonic()

    def count(self, *_):
        self.done += 1
        now = time.monotonic()
        if self.shown and (now - self.told >= EACH or self.done == self.pages):
            self.told = now
            left = time_told((now - self.began) / self.done * (self.pages - self.done)) if self.done >= FIRST else ""
            print(f"\r\033[K{self.program}: {self.what} {self.done} of {self.pages}{left}", end="", file=sys.stderr, flush=True)

    def end(self):
        if self.shown:
            print("\r\033[K", end="", file=sys.stderr, flush=True)


def time_told(seconds):
    """About so long, as people say it."""
    if seconds < 90:
        return f", about {round(seconds)} s left"
    if seconds < 90 * 60:
        return f", about {round(seconds / 60)} minutes left"
    return f", about {seconds / 3600:.1f} hours left"

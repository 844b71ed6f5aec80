"""Counts what a trial looks at, says what isn't as expected, a line each, and ends with 1 where there was such a thing."""
import sys


class Counted:
    def __init__(self, script):
        self.script, self.checks, self.failed = script, 0, 0

    def __call__(self, name, holds, seen=""):
        self.checks += 1
        if not holds:
            self.failed += 1
            print(f"{self.script}: not so: {name} {seen}", flush=True)

    def end(self):
        print(f"{self.checks} checks, {self.failed} not as expected")
        sys.exit(1 if self.failed else 0)

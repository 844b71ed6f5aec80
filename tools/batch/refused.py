"""The one way in which a batch isn't made: a file, and why it isn't taken."""
import re
from contextlib import contextmanager

MANY, SHOWN = 5, 3  # more than so many of a kind are counted, and so many of them named


class Refused(Exception):
    """Some files are refused; `reasons` has a pair for each: the file as its user names it, and why."""

    def __init__(self, file, why):
        super().__init__(f"{file}: {why}")
        self.reasons = [(file, why)]

    def __reduce__(self):
        return of_reasons, (self.reasons,)


def of_reasons(reasons):
    refused = Refused(*reasons[0])
    refused.reasons = reasons
    return refused


class Gathered:
    """Takes the refusals of several files, so that their user sees all of them at once."""

    def __init__(self):
        self.reasons = []

    def __enter__(self):
        return self

    def __exit__(self, kind, refusal, trace):
        """One with-block a file: its refusal is kept, and the work goes on with the next file."""
        if isinstance(refusal, Refused):
            self.reasons += refusal.reasons
            return True
        return False

    @contextmanager
    def or_end(self):
        """For what all else needs: where it is refused, all that was gathered is, and the work ends."""
        try:
            yield
        except Refused as refused:
            raise of_reasons(self.reasons + refused.reasons) from None

    def end(self):
        """Refuses all that was gathered, if anything."""
        if self.reasons:
            raise of_reasons(self.reasons)


def lines_of(reasons):
    """What is said of files: the kinds with fewest first, and of a kind with many the first few and how many more there are."""
    kinds = {}
    for file, why in dict.fromkeys(reasons):
        kinds.setdefault(kind_of(why), []).append((file, why))
    for told in sorted(kinds.values(), key=len):
        shown = told if len(told) <= MANY else told[:SHOWN]
        yield from (f"{file}: {why}" for file, why in shown)
        if len(told) > len(shown):
            yield f".. and {len(told) - len(shown)} more likewise, {len(told)} in all"


def kind_of(why):
    """What is said without its numbers and what it quotes of a file or names in it."""
    return re.sub(r"\d+", "0", re.split(" says: |: the folder has no file ", why)[0])

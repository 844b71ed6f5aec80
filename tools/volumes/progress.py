"""Things on their way through a program, counted at a terminal."""
import os
import sys

from batch.progress import Progress


def counted(things, count, what):
    """The same things; at a terminal it is said how many of them have come, and about how long the others take."""
    progress = Progress(os.path.basename(sys.argv[0]), what, count)
    for thing in things:
        progress.count()
        yield thing
    progress.end()

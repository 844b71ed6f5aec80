"""How large the paper of a picture was, where the picture doesn't tell it, or tells what a screen has."""
from .pictures import Resolution

LETTER, A4 = (8.5, 11.0), (8.27, 11.69)  # inches
LONGEST_PAPER = 14.1  # legal is 14 inches long
SCREEN = 100  # pixels to the inch; with fewer, as the 72 and 96 of screens, a page longer than all paper was never measured
FEWEST = 72


def sheet_for(width, height):
    """Letter or A4, whichever the picture's sides are nearer to."""
    ratio = max(width, height) / min(width, height)
    return min((LETTER, A4), key=lambda sheet: abs(sheet[1] / sheet[0] - ratio))


def inch_on_a_sheet(width, height):
    """Pixels to the inch where the picture lies on a sheet, as large as it can."""
    short, long = sheet_for(width, height)
    return max(FEWEST, min(width, height) / short, max(width, height) / long)


def is_measured(width, height, inch):
    """Whether a picture of so many pixels and so many to the inch tells the size of a paper."""
    return bool(inch) and (inch >= SCREEN or max(width, height) / inch <= LONGEST_PAPER)


def resolution_of(inch):
    return Resolution(str(round(inch)), str(round(inch)), "inch")

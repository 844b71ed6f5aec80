"""The words of a page: what is a word's text, which words the page shows, and how their boxes are drawn."""
from dataclasses import dataclass

from .bitmap import area

SOLID = 0.98  # ink that fills so much of its box is a bar and no letters


@dataclass(frozen=True)
class Word:
    """A word, its line's number, and its box: left, top, right, bottom in pixels."""

    line: int
    box: tuple
    text: str


def plain(text):
    """The text without the characters that no word may have."""
    return "".join(letter for letter in text if letter >= " " and letter != "\x7f").strip()


def shown_words(found, bitmap):
    """The words of a text that the page shows, each in the box of its ink, and how many it doesn't show."""
    words = [Word(word.line, seen_box(word, bitmap), word.text) for word in found]
    shown = [word for word in words if word.box]
    return renumbered(shown), len(words) - len(shown)


def inked_words(found, bitmap):
    """The words that were read in the picture, each in the box of its ink."""
    words = [Word(word.line, ink_box(word, bitmap)[0], word.text) for word in found]
    return renumbered([word for word in words if word.box])


def ink_box(word, bitmap):
    """The box of the ink in the word's box, and its pixels; None where it is off the page or without ink."""
    place = bitmap.clipped(word.box)
    return bitmap.ink(place) if place else (None, 0)


def seen_box(word, bitmap):
    """The box of the word's ink; None where it is off the page, without ink, or below a black bar."""
    box, count = ink_box(word, bitmap)
    if not box or count == area(bitmap.clipped(word.box)):
        return None
    return None if is_letters(word.text) and count >= SOLID * area(box) else box


def is_letters(text):
    """Whether ink of this text has gaps: two letters or digits have, one alone, as I, or a dash may have none."""
    return sum(letter.isalnum() for letter in text) >= 2


def renumbered(words):
    """The same words; their lines are counted from 1 without a gap."""
    numbers = {}
    return [Word(numbers.setdefault(word.line, len(numbers) + 1), word.box, word.text) for word in words]

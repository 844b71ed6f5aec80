"""What the black marks of a page are, by their boxes alone. A mark is black pixels that touch each other and no others: a letter, a
dot, a rule; or it has letters in it that touch it, as a frame or a table may."""
from itertools import product
from typing import NamedTuple

LEAST_LETTER = 10  # pixels up; what is lower is a dot or dirt, but where such marks stand beside each other
LEAST_BESIDE = 5  # pixels up
NEAR = 0.8  # of a mark's height: what is no farther off stands beside it
SMALL = 20  # pixels up: lower letters may lose words at half their sides
TALL = 28  # pixels up: a capital where the smallest letters are just no small ones
LARGEST = 120  # pixels, across and up: what is larger may have letters in it
THIN = 10  # pixels: a rule, in which no letter is
DIGIT = 0.55  # across by up: what is narrower is half a quotation mark, or a letter of which there are wider ones beside
COMMA = 0.8  # across by up: what is narrower and stands alone among large letters is a comma
FEW = 0.001  # of all letters: so many that are small and stand beside large ones are dirt
MANY = 0.1  # of all letters: so many at least are tall where the others aren't small; of English it is one in five
CELL = 32  # pixels


class Mark(NamedTuple):
    left: int
    top: int
    width: int
    height: int

    def cells(self):
        """The squares of the page that it lies in."""
        across = range(self.left // CELL, (self.left + self.width - 1) // CELL + 1)
        return product(across, range(self.top // CELL, (self.top + self.height - 1) // CELL + 1))

    def meets(self, other):
        return (self.left < other.left + other.width and other.left < self.left + self.width
                and self.top < other.top + other.height and other.top < self.top + self.height)


class Rows:
    """Marks, and which of them stand beside a mark in its row."""

    def __init__(self, marks):
        self.found = {}
        for mark in marks:
            for cell in mark.cells():
                self.found.setdefault(cell, []).append(mark)

    def has_beside(self, mark):
        near = int(NEAR * mark.height)
        around = Mark(mark.left - near, mark.top, mark.width + 2 * near, mark.height)
        return any(around.meets(other) for cell in around.cells() for other in self.found.get(cell, ()) if other != mark)


def is_print(marks):
    """Whether most are letters, and all others dots and thin rules: no letter is hidden in a mark with others, or in a picture of dots."""
    are_plain = all(max(mark.width, mark.height) <= LARGEST or min(mark.width, mark.height) <= THIN for mark in marks)
    return are_plain and 2 * len(letters_of(marks)) > len(marks)


def letters_of(marks):
    """The marks that are letters."""
    marks = [mark for mark in marks if max(mark.width, mark.height) <= LARGEST]
    return [mark for mark in marks if mark.height >= LEAST_LETTER] + [mark for mark in small_words_of(marks) if mark.height < LEAST_LETTER]


def small_words_of(marks):
    """Small marks that stand beside each other, as the letters of a word or the digits of a number do, and dots don't."""
    small = [mark for mark in marks if LEAST_BESIDE <= mark.height < SMALL and mark.width >= DIGIT * mark.height]
    rows = Rows(small)
    return [mark for mark in small if rows.has_beside(mark)]


def are_large(marks):
    """Whether the letters are large: no word is small, no more than a few letters beside large ones are, and so many are tall as there
    are in print."""
    letters = letters_of(marks)
    if not letters or small_words_of(marks):
        return False
    rows = Rows(letters)
    small = [mark for mark in letters if mark.height < SMALL and mark.width >= COMMA * mark.height]
    tall = sum(letter.height >= TALL for letter in letters)
    return tall >= MANY * len(letters) and sum(map(rows.has_beside, small)) <= FEW * len(letters)

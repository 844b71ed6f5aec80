"""Greys become black and white: paper white and ink black by a local threshold, and dots where a picture has its tones.

The page is looked at in cells, some hundred along its longer side. The brightest of a cell, row by row, tells its paper, where it has
any; paper darkens by STEEPEST a cell at most, as it does in a shadow. A cell that is darker than TONE of the paper around it and lighter
than INK of it has no paper: it lies in a photograph or in a ground of grey or colour. Some such cells together become dots, by error
diffusion; so does a whole page of which most cells are such. All else is black where it is darker than CONTRAST of the mean around it,
within what is ink and what is paper there.
"""
import re

from .programs import run

try:
    import numpy
except ModuleNotFoundError:
    numpy = None  # programs.need says so

CELLS = 100  # along the longer side
LEAST_CELL, MOST_CELL = 8, 64  # pixels
WINDOW = 1  # cells each way, over which the mean is taken
STEEPEST = 5  # of 255, a cell
INK, TONE = 0.3, 0.8  # of the paper's brightness
CONTRAST, DARKEST, BRIGHTEST = 0.8, 0.5, 0.75  # the threshold: of the mean; no less and no more of the paper
LEAST_THRESHOLD = 40  # of 255: a page that is black all over
STEP = 8  # of 255, between thresholds, so that most cells have their neighbour's
EACH_ROW = 2  # every other row of a cell is looked at
LEAST_PAPER, PAPER = 200, 0.9  # of 255: what is paper at all; of that, what is white beside a picture
FEWEST_CELLS = 6  # of a picture
MOST_OF_A_PAGE = 0.5  # toned cells
FULL = 0.5  # toned cells of the box around them, which then is a picture as a whole
GREY_HEAD = re.compile(rb"P5\s(?:#.*\n)*(\d+)\s+(\d+)\s+(\d+)\s")


class Cells:
    """A raw PGM of at most 255 in cells: of each the mean, and how bright its brightest is, row by row."""

    def __init__(self, pgm):
        found = GREY_HEAD.match(pgm)
        self.head, self.body = pgm[: found.end()], pgm[found.end() :]
        self.width, self.height = int(found[1]), int(found[2])
        self.greys = numpy.frombuffer(self.body, numpy.uint8, self.width * self.height).reshape(self.height, self.width)
        self.cell = min(MOST_CELL, max(LEAST_CELL, max(self.width, self.height) // CELLS))
        self.lefts = numpy.arange(0, self.width, self.cell)
        self.widths = numpy.diff(self.lefts, append=self.width)
        looked = [self.look(band[::EACH_ROW]) for band in self.bands()]
        self.means, self.brights = (numpy.stack(values) for values in zip(*looked))

    def bands(self):
        """The rows of pixels of each row of cells."""
        return [self.greys[top : top + self.cell] for top in range(0, self.height, self.cell)]

    def look(self, rows):
        """The means of a row of cells, and how bright their brightest are."""
        sums = numpy.add.reduceat(rows.sum(axis=0, dtype=numpy.uint32), self.lefts)
        brightest = numpy.maximum.reduceat(rows, self.lefts, axis=1)
        return sums / (len(rows) * self.widths), brightest.sum(axis=0, dtype=numpy.uint32) / len(rows)

    def pixels_of(self, values):
        """What each pixel of a row has, of a value a cell."""
        return numpy.repeat(values, self.cell)[: self.width]


def paper_of(brights):
    """How bright paper is at each cell: the brightest around, less STEEPEST a cell on the way."""
    paper = brights.copy()
    for lines in (paper, paper[::-1], paper.T, paper.T[::-1]):
        for before, line in zip(lines, lines[1:]):
            numpy.maximum(line, before - STEEPEST, out=line)
    return paper


def around(values):
    """The mean of each value and those WINDOW around it, by sums of whole rows."""
    return by_columns(by_columns(values))


def by_columns(values):
    """The means over rows around each, turned, so that to do it twice is to do it both ways."""
    near = [values[max(0, at - WINDOW) : at + WINDOW + 1] for at in range(len(values))]
    return numpy.stack([rows.mean(axis=0) for rows in near], axis=1)


def thresholds_of(cells, paper):
    """Of each cell the grey below which a pixel is black."""
    greys = numpy.clip(CONTRAST * around(cells.means), DARKEST * paper, BRIGHTEST * paper)
    return (numpy.rint(numpy.maximum(greys, LEAST_THRESHOLD) / STEP) * STEP).astype(numpy.uint8)


def local_rows(cells, thresholds):
    """The rows of the page, eight pixels a byte."""
    bands = zip(cells.bands(), thresholds)
    return numpy.concatenate([numpy.packbits(band < cells.pixels_of(row), axis=1) for band, row in bands])


def groups_of(toned):
    """The cells in groups, in which each touches another."""
    left = set(zip(*map(numpy.ndarray.tolist, toned.nonzero())))
    while left:
        group, todo = set(), [left.pop()]
        while todo:
            y, x = todo.pop()
            group.add((y, x))
            beside = {(y, x - 1), (y, x + 1), (y - 1, x), (y + 1, x)} & left
            left -= beside
            todo += beside
        yield tuple(numpy.array(sorted(group)).T)


def picture_cells(cells, paper):
    """Which cells become dots: those without paper, and those around them. Of them some are grey, and some as dark as ink."""
    toned = cells.brights < TONE * paper
    grey = toned & (cells.brights >= INK * paper)
    if grey.sum() > MOST_OF_A_PAGE * grey.size:
        return numpy.ones_like(grey)
    chosen = numpy.zeros_like(grey)
    for group in groups_of(toned):
        if grey[group].sum() >= max(FEWEST_CELLS, len(group[0]) / 2):
            chosen[boxed(group)] = True
    return with_neighbours(chosen)


def boxed(group):
    """The group, or the box around it where it fills most of that."""
    box = tuple(slice(places.min(), places.max() + 1) for places in group)
    rows, columns = (places.stop - places.start for places in box)
    return box if len(group[0]) > FULL * rows * columns else group


def with_neighbours(chosen):
    """These cells and all that touch them, at a corner too."""
    down, across = chosen.shape
    wide = numpy.pad(chosen, 1)
    return sum(wide[y : y + down, x : x + across] for y in range(3) for x in range(3)) > 0


def dotted_rows(file, cells, paper):
    """The page in dots, the same ones each time; paper beside a picture has none, where the page's middle cell is paper."""
    white = numpy.sort(paper, axis=None)[paper.size // 2]
    lightest = PAPER * white if white >= LEAST_PAPER else 255
    levels = bytes(255 if grey >= lightest else grey for grey in range(256))
    pbm, _ = run(file, ["pgmtopbm", "-fs", "-randomseed=1"], cells.head + cells.body.translate(levels))
    size = (cells.width + 7) // 8
    return numpy.frombuffer(pbm, numpy.uint8, offset=len(pbm) - size * cells.height).reshape(cells.height, size)


def put_dots(rows, cells, chosen, dots):
    """Gives the chosen cells their dots."""
    for at, row in enumerate(chosen):
        mask = numpy.packbits(cells.pixels_of(row))
        band = slice(at * cells.cell, (at + 1) * cells.cell)
        rows[band] = rows[band] & ~mask | dots[band] & mask


def black_and_white(file, pgm):
    """A raw PBM of a raw PGM of at most 255, and whether it has dots."""
    cells = Cells(pgm)
    paper = paper_of(cells.brights)
    rows = local_rows(cells, thresholds_of(cells, paper))
    chosen = picture_cells(cells, paper)
    has_dots = bool(chosen.any())
    if has_dots:
        put_dots(rows, cells, chosen, dotted_rows(file, cells, paper))
    return b"P4\n%d %d\n" % (cells.width, cells.height) + rows.tobytes(), has_dots

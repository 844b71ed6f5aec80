"""What an import and a matter take at most; tools/tests/make_batch.py compares these with the program's own."""

LONGEST_FILE = 134_217_728  # bytes
LONGEST_SIDE = 20_000  # pixels
MOST_PIXELS = 200_000_000  # of a page
MOST_PIXELS_IN_ALL = 200_000_000_000  # of a matter
MOST_PAGES = 20_000
MOST_DOCUMENTS = 10_000
MOST_FIELDS = 64
LONGEST_COLUMN = 64  # bytes of a column's name

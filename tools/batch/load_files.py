"""The load files of a batch: load.dat (Concordance), load.opt (Opticon), words.csv."""
import csv
import os

from .limits import LONGEST_FILE
from .refused import Refused

QUOTE, SEPARATOR, NEWLINE, MARK = "\u00fe", "\u0014", "\u00ae", "\ufeff"
COLUMNS = ["BEGDOC", "ENDDOC", "BEGATTACH", "ENDATTACH", "FILENAME"]
A_FOLDER = 1000  # images


def write_load_files(folder, name, documents, columns):
    """Writes the three files of a batch whose images stand in its folder already."""
    write(folder, "load.dat", [MARK, dat_line(COLUMNS + columns), *dat_lines(documents)])
    write(folder, "load.opt", opt_lines(name, documents))
    write_words(os.path.join(folder, "words.csv"), documents)
    for file in ("load.dat", "load.opt", "words.csv"):
        size = os.path.getsize(os.path.join(folder, file))
        if size > LONGEST_FILE:
            raise Refused(file, f"it would have {size} bytes, and at most {LONGEST_FILE} come in: make two batches")


def write(folder, file, lines):
    with open(os.path.join(folder, file), "wb") as out:
        out.write("".join(lines).encode())


def dat_line(values):
    return SEPARATOR.join(QUOTE + value.replace("\n", NEWLINE) + QUOTE for value in values) + "\r\n"


def dat_lines(documents):
    first, last = {}, {}
    for document in documents:
        first.setdefault(document.source.family, document.images[0])
        last[document.source.family] = document.images[-1]
    for document in documents:
        family = document.source.family
        ids = [document.images[0], document.images[-1], first[family], last[family]]
        yield dat_line([*ids, document.source.name, *document.values])


def image_path(number, image):
    """Where the image lies in the batch; `number` counts from 0 through the batch."""
    return f"IMAGES/{number // A_FOLDER + 1:04}/{image}.TIF"


def opt_lines(name, documents):
    number = 0
    for document in documents:
        for image in document.images:
            breaks = f"Y,,,{len(document.images)}" if image == document.images[0] else ",,,"
            path = image_path(number, image).replace("/", "\\")
            yield f"{image},{name},{path},{breaks}\r\n"
            number += 1


def write_words(path, documents):
    with open(path, "w", encoding="utf-8", newline="") as file:
        writer = csv.writer(file)
        for document in documents:
            for image, page in zip(document.images, document.pages):
                for word in page.words:
                    left, top, right, bottom = word.box
                    writer.writerow((image, word.line, left, top, right - left, bottom - top, word.text))

"""Runs the programs of Debian that read and write PDFs and pictures, and says which of them, or of its libraries, isn't here."""
import importlib.util
import os
import shutil
import subprocess

from .refused import Refused

PACKAGES = {
    "pdfinfo": "poppler-utils",
    "pdftoppm": "poppler-utils",
    "pdftotext": "poppler-utils",
    "pdfdetach": "poppler-utils",
    "pdfimages": "poppler-utils",
    "tiffinfo": "libtiff-tools",
    "tiffsplit": "libtiff-tools",
    "ppm2tiff": "libtiff-tools",
    "tifftopnm": "netpbm",
    "jpegtopnm": "netpbm",
    "pngtopam": "netpbm",
    "pamflip": "netpbm",
    "pamscale": "netpbm",
    "pamdepth": "netpbm",
    "ppmtopgm": "netpbm",
    "pgmtopbm": "netpbm",
    "pamtotiff": "netpbm",
    "tesseract": "tesseract-ocr",
    "numpy": "python3-numpy",
}
LONGEST_WAIT = 600  # seconds, for one page or one file


def need(tools, what_for):
    """Refuses where one of these programs, or a library of Python's, isn't there, with the package that has it."""
    missing = sorted({tool for tool in tools if not shutil.which(tool) and not importlib.util.find_spec(tool)})
    if missing:
        packages = " ".join(sorted({PACKAGES[tool] for tool in missing}))
        raise Refused(", ".join(missing), f"needed {what_for}, and not here: apt install {packages}")


def run(file, words, given=None, what="", hint="", fine=(0,)):
    """What the program writes and what it says, both as bytes; refuses `file` where it never ends, or with no status of `fine`:
    then `what` is the matter with it, and `hint` what to do. A page goes to the program and comes from it by files in memory, since
    through a pipe it would go in some hundred pieces."""
    with in_memory(given or b"") as taken, in_memory() as written:
        try:
            its_input = None if given is None else taken
            ran = subprocess.run(words, stdin=its_input, stdout=written, stderr=subprocess.PIPE, timeout=LONGEST_WAIT, check=False)
        except subprocess.TimeoutExpired:
            raise Refused(file, f"{words[0]} didn't end within {LONGEST_WAIT} seconds") from None
        if ran.returncode not in fine:
            said = f"{words[0]} {first_line(ran.stderr) or f'ended with status {ran.returncode}'}"
            raise Refused(file, "".join([what and f"{what}, ", said, hint and f"; {hint}"]))
        written.seek(0)
        return written.read(), ran.stderr


def in_memory(data=b""):
    """A file in memory that has these bytes, at its front; it is gone once it is closed."""
    file = open(os.memfd_create("page"), "w+b", buffering=0)
    file.write(data)
    file.seek(0)
    return file


def first_line(said):
    """The first line that a program said of a fault, as part of a sentence; netpbm's also says what it writes."""
    lines = [line.strip() for line in said.decode(errors="replace").splitlines() if line.strip() and " WRITING " not in line]
    return f"says: {lines[0]}" if lines else ""

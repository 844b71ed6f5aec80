"""The list of a volume's images, as OPT (Opticon) or LFP (IPRO), read as far as it can be."""
import re
from dataclasses import dataclass

from .letters import decoded

OPT, LFP = "OPT", "LFP"


@dataclass(frozen=True)
class Image:
    """A line of the list: its number, the image's id, its path, the page of that file (0: not said), whether a document
    begins there, what the line says of the document's pages, and the line as it stands."""

    line: int
    id: str
    volume: str
    path: str
    page: int
    begins: bool
    told: str
    text: str


@dataclass(frozen=True)
class ImageList:
    images: list
    letters: str
    form: str
    passed_over: list  # lines of which nothing is taken: number and text


def read_images(data):
    """The images of an OPT or LFP of any letters."""
    text, letters = decoded(data)
    lines = [(number, line) for number, line in enumerate(re.split("\r?\n|\r", text), 1) if line.strip()]
    form = LFP if any(line.startswith(("IM,", "IO,")) for _, line in lines[:50]) else OPT
    images, passed_over = [], []
    for number, line in lines:
        image = (lfp_image if form == LFP else opt_image)(number, line)
        if image:
            images.append(image)
        elif form == OPT or not re.match("(OF|OT|OC|FT|IS|VN|RD),", line):
            passed_over.append((number, line))
    return ImageList(images, letters, form, passed_over)


def opt_image(number, line):
    """Image id, volume, path, breaks of document, folder and box, pages."""
    fields = [field.strip().strip('"') for field in line.split(",")]
    fields += [""] * (7 - len(fields))
    if not fields[0] or not fields[2] or re.sub("[^a-z]", "", fields[0].lower()) in ("imageid", "imagekey", "alias", "documentid"):
        return None
    return Image(number, fields[0], fields[1], fields[2], 0, fields[3].upper() in ("Y", "YES", "D", "1"), fields[6], line)


def lfp_image(number, line):
    """IM, id, D or C or nothing, the page in its file (0 alone), @volume;folder;file;kind."""
    found = re.match(r"IM,([^,]+),([A-Z ]*),(\d*),@?([^;]*);(.*)", line)
    if not found:
        return None
    id_, breaks, page, volume, rest = found.groups()
    parts = rest.split(";")
    if re.fullmatch(r"\d+(,-?\d+)*", parts[-1].strip()):
        parts.pop()
    path = "\\".join(part.strip("\\/") if at else part.rstrip("\\/") for at, part in enumerate(parts) if part)
    return Image(number, id_.strip(), volume, path, int(page or 0), "D" in breaks, "", line) if path else None

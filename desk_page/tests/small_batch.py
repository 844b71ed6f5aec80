"""A batch of small pages: one that is narrower than its label, and one on which label and designation meet."""
import os
import random
import sys

TOP = os.path.join(os.path.dirname(os.path.abspath(__file__)), "..", "..")
sys.path.insert(0, os.path.join(TOP, "trials"))
sys.dont_write_bytecode = True
from plain_page import plain_page  # noqa: E402

SMALL = "SML_001"
SIDES = ((700, 50), (61, 40))


def make_small_batch(folder):
    chance = random.Random(7)
    os.makedirs(os.path.join(folder, "IMAGES"))
    value = lambda text: f"þ{text}þ"
    lines = ["\x14".join(map(value, ("BEGDOC", "ENDDOC", "BEGATTACH", "ENDATTACH", "AUTHOR")))]
    images = []
    for k, (width, height) in enumerate(SIDES, 1):
        name = f"SML{k:04}"
        stride, unused = (width + 7) // 8, -width % 8
        rows = b"".join((chance.getrandbits(width) << unused).to_bytes(stride, "big") for _ in range(height))
        with open(os.path.join(folder, "IMAGES", f"{name}.TIF"), "wb") as file:
            file.write(plain_page(width, height, 300, rows))
        lines.append("\x14".join(map(value, (name, name, name, name, "Ng"))))
        images.append(f"{name},{SMALL},IMAGES\\{name}.TIF,Y,,,1")
    for name, text in (("load.dat", lines), ("load.opt", images), ("words.csv", [])):
        with open(os.path.join(folder, name), "w", encoding="utf-8", newline="") as file:
            file.write("".join(line + "\r\n" for line in text))

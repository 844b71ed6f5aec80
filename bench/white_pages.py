#!/usr/bin/env python3
"""Memory of a matter of white pages: white_pages.py PROGRAM [PAGES]

A document of PAGES (200) white pages of 20,000 by 10,000 pixels, in Group 4, comes into a new matter; then `log` loads it, to say that it has
no production. As pixels each page would take 25 MB, as a strip it takes 1,253 bytes. Prints the peak of memory of both commands, as the
system tells it, and ends with 1 where one takes as much as a single page of pixels would."""
import os
import pathlib
import struct
import subprocess
import sys
import tempfile

WIDTH, HEIGHT = 20_000, 10_000
PIXELS = WIDTH // 8 * HEIGHT


def page():
    """A white page: T.6 codes each of its rows by one bit, and the end by 24 (ITU-T T.6, sections 2.2 and 2.4)."""
    strip = b"\xff" * (HEIGHT // 8) + bytes.fromhex("001001")
    entries = [(256, 4, WIDTH), (257, 4, HEIGHT), (258, 3, 1), (259, 3, 4), (262, 3, 0), (273, 4, 134), (277, 3, 1), (278, 4, HEIGHT), (279, 4, len(strip)), (293, 4, 0)]
    head = b"II*\0" + struct.pack("<IH", 8, len(entries))
    table = b"".join(struct.pack("<HHII", tag, kind, 1, value) for tag, kind, value in entries)
    return head + table + bytes(134 - len(head) - len(table)) + strip


def peak(words, folder):
    """The peak of memory of a command in bytes, and its line."""
    reader, writer = os.pipe()
    child = os.fork()
    if child == 0:
        os.dup2(writer, 1)
        os.chdir(folder)
        os.execv(words[0], words)
    os.close(writer)
    with os.fdopen(reader, encoding="utf-8") as out:
        line = out.read().strip()
    usage = os.wait4(child, 0)[2]
    return usage.ru_maxrss * 1024, line


def main():
    program, pages = os.path.abspath(sys.argv[1]), int(sys.argv[2]) if len(sys.argv) > 2 else 200
    with tempfile.TemporaryDirectory() as room:
        batch = pathlib.Path(room, "W")
        batch.mkdir()
        (batch / "w.tif").write_bytes(page())
        (batch / "load.dat").write_text("þBEGDOCþ\x14þBEGATTACHþ\nþW1þ\x14þþ\n", encoding="utf-8")
        (batch / "load.opt").write_text("".join(f"W{at},,w.tif,{'Y' if at == 1 else ''}\n" for at in range(1, pages + 1)))
        (batch / "words.csv").write_text("")
        subprocess.run([program, "init", "0" * 64], cwd=room, check=True, stdout=subprocess.DEVNULL)
        failed = False
        for words in (["import", "W"], ["log", "R-1"]):
            most, line = peak([program, *words], room)
            failed = failed or most >= PIXELS
            print(f"{words[0]}: {most / 1e6:.0f} MB at its peak for {pages} pages, {pages * PIXELS / 1e6:,.0f} MB as pixels ({line})")
    sys.exit(1 if failed else 0)


main()

"""What is wrong with the pages of a matter's file, where nobody works with it and no log stands beside it: whether pages are missing, and
whether each is as it was written, where it ends in its sum (as of SQLite's ext/misc/cksumvfs.c). As a program: prints that of the file that
is named, in words, or nothing, and ends with 1 where nothing is seen and the pages have no sums. Some 40 ms a MB."""
import struct
import sys

HEAD = b"SQLite format 3\0"
SUM = 8  # bytes at the end of a page, where byte 20 of the file says so
LOW = 0xFFFFFFFF


def sum_of(body):
    first = second = 0
    for one, other in struct.iter_unpack("<II", body):
        first = first + one + second & LOW
        second = second + other + first & LOW
    return struct.pack("<II", first, second)


def is_right(page):
    return len(page) % SUM == 0 and page[-SUM:] == sum_of(page[:-SUM])


def size_of_pages(head):
    size = int.from_bytes(head[16:18], "big")
    return 65536 if size == 1 else size


def has_sums(path):
    with open(path, "rb") as file:
        head = file.read(21)
    return len(head) == 21 and head[20] == SUM


def pages_of(path):
    """The bytes of each page, the last perhaps cut off."""
    with open(path, "rb") as file:
        size = size_of_pages(file.read(18))
        file.seek(0)
        while size and (page := file.read(size)):
            yield page


def wrong_pages(path):
    """The numbers, from 1, of the pages whose sum isn't right; of a file without sums none."""
    return (number for number, page in enumerate(pages_of(path), 1) if not is_right(page)) if has_sums(path) else iter(())


def fault_of(path):
    """Why a database isn't the file that was written, in words; None where nothing is seen."""
    with open(path, "rb") as file:
        head = file.read(100)
        length = file.seek(0, 2)
    size, count = size_of_pages(head), int.from_bytes(head[28:32], "big")
    if not head.startswith(HEAD) or not size:
        return None
    if length < size * count:
        return f"it is cut off: {length // size} of its {count} pages are there"
    wrong = next(wrong_pages(path), None)
    return wrong and f"page {wrong} of its {count} isn't as it was written"


if __name__ == "__main__":
    fault = fault_of(sys.argv[1])
    print(fault or "", end="")
    sys.exit(0 if fault or has_sums(sys.argv[1]) else 1)

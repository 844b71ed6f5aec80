"""Which letters the bytes of a text are: UTF-8, UTF-16 or the code page of Windows."""
import codecs

MARKS = ((b"\xef\xbb\xbf", "utf-8", "UTF-8"), (b"\xff\xfe", "utf-16-le", "UTF-16"), (b"\xfe\xff", "utf-16-be", "UTF-16"))
UTF_8, UTF_16, WINDOWS = "UTF-8", "UTF-16", "Windows-1252"
A_LOOK = 4000  # bytes from which UTF-16 without a mark is told


def decoded(data):
    """The text without its mark, and the name of its letters."""
    for mark, codec, name in MARKS:
        if data.startswith(mark):
            return data[len(mark) :].decode(codec, "replace"), name
    half = codec_of_halves(data[:A_LOOK])
    if half:
        return data.decode(half, "replace"), UTF_16
    try:
        return data.decode("utf-8"), UTF_8
    except UnicodeDecodeError:
        return codecs.charmap_decode(data, "strict", WINDOWS_LETTERS)[0], WINDOWS


def codec_of_halves(data):
    """UTF-16 without a mark: of western letters every other byte is 0."""
    even, odd = data[::2].count(0), data[1::2].count(0)
    most = len(data) // 2
    if most < 2 or max(even, odd) < 0.4 * most or min(even, odd) > 0.1 * most:
        return None
    return "utf-16-le" if odd > even else "utf-16-be"


def windows_letter(byte):
    """The five bytes that the code page doesn't use stand for themselves."""
    try:
        return bytes([byte]).decode("cp1252")
    except UnicodeDecodeError:
        return chr(byte)


WINDOWS_LETTERS = "".join(map(windows_letter, range(256)))

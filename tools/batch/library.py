"""tesseract's library, and the functions of leptonica's that are found through it, as C declares them."""
import ctypes

NAME = "libtesseract.so.5"
HANDLE, INT, TEXT = ctypes.c_void_p, ctypes.c_int, ctypes.c_char_p
INTS, HANDLES = ctypes.POINTER(ctypes.c_int), ctypes.POINTER(ctypes.c_void_p)
SIDES = (INTS, INTS, INTS, INTS)
AUTOMATIC, LINE, WORD = 3, 2, 3  # PSM_AUTO, RIL_TEXTLINE, RIL_WORD
EIGHT_WAYS = 8  # pixels that touch at a corner belong together
FUNCTIONS = {  # by name: what it gives, and what it is given
    "TessBaseAPICreate": (HANDLE,),
    "TessBaseAPIDelete": (None, HANDLE),
    "TessBaseAPIInit3": (INT, HANDLE, TEXT, TEXT),
    "TessBaseAPISetVariable": (INT, HANDLE, TEXT, TEXT),
    "TessBaseAPISetPageSegMode": (None, HANDLE, INT),
    "TessBaseAPISetImage2": (None, HANDLE, HANDLE),
    "TessBaseAPIRecognize": (INT, HANDLE, HANDLE),
    "TessBaseAPIGetIterator": (HANDLE, HANDLE),
    "TessResultIteratorGetPageIterator": (HANDLE, HANDLE),
    "TessResultIteratorGetUTF8Text": (HANDLE, HANDLE, INT),
    "TessResultIteratorNext": (INT, HANDLE, INT),
    "TessPageIteratorIsAtBeginningOf": (INT, HANDLE, INT),
    "TessPageIteratorBoundingBox": (INT, HANDLE, INT, *SIDES),
    "pixCreate": (HANDLE, INT, INT, INT),
    "pixGetData": (HANDLE, HANDLE),
    "pixEndianByteSwap": (INT, HANDLE),
    "pixReadMemPnm": (HANDLE, TEXT, ctypes.c_size_t),
    "pixClipToForeground": (INT, HANDLE, HANDLES, HANDLES),
    "pixClipRectangle": (HANDLE, HANDLE, HANDLE, HANDLE),
    "pixClearInRect": (INT, HANDLE, HANDLE),
    "pixScaleToGray2": (HANDLE, HANDLE),
    "pixConnCompBB": (HANDLE, HANDLE, INT),
    "boxCreate": (HANDLE, INT, INT, INT, INT),
    "boxGetGeometry": (INT, HANDLE, *SIDES),
    "boxaGetCount": (INT, HANDLE),
    "boxaExtractAsNuma": (INT, HANDLE, *(HANDLES,) * 6, INT),
    "numaGetIArray": (INTS, HANDLE),
}


class Unusable(Exception):
    """Why the library can't be called."""


def load():
    """The library; its functions are attributes."""
    try:
        library = ctypes.CDLL(NAME)
        for name, (gives, *given) in FUNCTIONS.items():
            function = getattr(library, name)
            function.restype, function.argtypes = gives, given
    except OSError:
        raise Unusable(f"its library {NAME} isn't here") from None
    except AttributeError:
        raise Unusable(f"its library {NAME} has no function {name}") from None
    return library


def four_ints(function, *given):
    """The four numbers that a function writes behind what it is given: a box's."""
    numbers = [ctypes.c_int() for _ in range(4)]
    function(*given, *(ctypes.byref(number) for number in numbers))
    return tuple(number.value for number in numbers)


def boxes_in(library, boxa):
    """The left, top, width and height of each box of a list of leptonica's: all of a side at once, as a call takes longer than a box."""
    count = library.boxaGetCount(boxa)
    if not count:
        return []
    sides = [HANDLE() for _ in range(4)]
    left, top, width, height = map(ctypes.byref, sides)
    library.boxaExtractAsNuma(boxa, left, top, None, None, width, height, True)
    return zip(*(library.numaGetIArray(side)[:count] for side in sides))

"""The shared library: how it is found, its functions with their types, and arguments checked before a call.

ctypes cuts a number to the width of its argument without a word: 65,537 becomes 1, which asks another question. So every number is
held to its width here, and a wrong one raises an error that names it.
"""
import ctypes
import os
import pathlib

from .texts import REFUSALS, WORDS

VERSION = "0.4.0"

SIDE = 255  # columns of cells on the chart, and rows
LETTERS = 612  # letters of an outline at most
EDGE_NUMBERS = 200  # numbers of the edges of a taken outline at most, two for each edge
LIST_NUMBERS = 2032  # numbers of a list of edges at most, where one is passed
PARTIES = 2  # of a holder: 0 the knee, 1 the ankle
PLACES = 4  # of a party
LAYERS = 16  # of a pile
IMAGE_BYTES = 622  # of an image
FRAME_BODY = 1024  # bytes that a frame carries at most
FRAME_BYTES = 8  # bytes of a frame besides its body

U8, U16, U64, I16 = ctypes.c_uint8, ctypes.c_uint16, ctypes.c_uint64, ctypes.c_int16
F32 = ctypes.c_float


class Reply(ctypes.Structure):
    """The seven numbers of a reply."""

    _fields_ = [(name, U16) for name in ("number", "word", "place", "piece", "length", "col", "row")]


class HolderMemory(ctypes.Structure):
    """The memory of a holder: 10,416 bytes, as include/robequarry.h has them."""

    _fields_ = [("letters", U8 * 1224), ("rows", U8 * 5100), ("numbers", I16 * 2000), ("heads", U16 * 46)]


class PileMemory(ctypes.Structure):
    """The memory of a pile: 8,164 bytes."""

    _fields_ = [("rows", U8 * 8160), ("state", U16 * 2)]


REPLY = ctypes.POINTER(Reply)
BYTES = ctypes.POINTER(U8)
NUMBERS = ctypes.POINTER(I16)
HEADS = ctypes.POINTER(U16)
FLOATS = ctypes.POINTER(F32)

# The functions of the header that are symbols of the library, with their arguments. What returns something says so behind the arrow.
FUNCTIONS = {
    "rq_version": ([], ctypes.c_uint32),
    "rq_checksum": ([BYTES, U64], ctypes.c_uint32),
    "rq_test": ([U16, U16, BYTES, U64, NUMBERS, U64, REPLY], None),
    "rq_loose_query": ([U16, U16, NUMBERS, U64, U16, U16, REPLY], None),
    "rq_loose_reading": ([U16, U16, NUMBERS, U64, F32, F32, REPLY], None),
    "rq_border": ([U16, U16, NUMBERS, U64, BYTES, U64, REPLY], None),
    "rq_compare": ([U16, U16, NUMBERS, U64, U16, U16, NUMBERS, U64, REPLY], None),
    "rq_witness": ([U16, U16, BYTES, U64, HEADS, U64, REPLY], None),
    "rq_complete": ([U16, U16, BYTES, U64, BYTES, U64, REPLY], None),
    "rq_frame": ([BYTES, U64, BYTES, U64, REPLY], None),
    "rq_unframe": ([BYTES, U64, BYTES, U64, REPLY], None),
    "rq_fresh_parts": ([BYTES, BYTES, NUMBERS, HEADS], None),
    "rq_begin_parts": ([HEADS, U8, U16, U16, REPLY], None),
    "rq_add_parts": ([BYTES, HEADS, U8, U8, REPLY], None),
    "rq_draft_parts": ([HEADS, U8, REPLY], None),
    "rq_drop_parts": ([HEADS, U8, REPLY], None),
    "rq_clear_parts": ([HEADS, U8, U8, REPLY], None),
    "rq_prepare_parts": ([BYTES, BYTES, NUMBERS, HEADS, U8, U8, REPLY], U16),
    "rq_commit_parts": ([HEADS, U8, U8, U16], None),
    "rq_check_parts": ([BYTES, NUMBERS, HEADS, U8, U8, REPLY], None),
    "rq_save_parts": ([BYTES, NUMBERS, HEADS, U8, U8, BYTES, U64, REPLY], None),
    "rq_prepare_image_parts": ([BYTES, NUMBERS, HEADS, U8, U8, BYTES, U64, REPLY], U16),
    "rq_query_parts": ([BYTES, HEADS, U8, U8, U16, U16, REPLY], None),
    "rq_row_parts": ([BYTES, HEADS, U8, U8, U16, REPLY], None),
    "rq_reading_parts": ([NUMBERS, HEADS, U8, U8, F32, F32, REPLY], None),
    "rq_piece_parts": ([NUMBERS, HEADS, U8, U8, U16, FLOATS, REPLY], None),
    "rq_call_parts": ([BYTES, BYTES, NUMBERS, HEADS, BYTES, U64, REPLY], ctypes.c_bool),
    "rq_replay_numbers": ([BYTES, U64, HEADS, U64], U64),
    "rq_pile_fresh_parts": ([BYTES, HEADS], None),
    "rq_pile_set_parts": ([BYTES, HEADS, U8, U16, U16, BYTES, U64, REPLY], None),
    "rq_pile_empty_parts": ([BYTES, HEADS, U8, REPLY], None),
    "rq_pile_check_parts": ([BYTES, HEADS, REPLY], None),
    "rq_pile_check_step_parts": ([BYTES, HEADS, U16, REPLY], None),
    "rq_pile_query_parts": ([BYTES, HEADS, U8, U16, U16, REPLY], None),
    "rq_pile_save_parts": ([BYTES, U8, BYTES, U64, REPLY], None),
    "rq_pile_restore_parts": ([BYTES, HEADS, U8, BYTES, U64, REPLY], None),
}


def find():
    """Where the shared library is: ROBEQUARRY_LIBRARY, beside this module, or where `./build x86_64-linux` writes it."""
    named = os.environ.get("ROBEQUARRY_LIBRARY")
    if named:
        return pathlib.Path(named)
    here = pathlib.Path(__file__).resolve().parent
    for path in (here / "librobequarry.so", here.parents[1] / "target" / "x86_64-linux" / "librobequarry.so"):
        if path.is_file():
            return path
    raise ImportError("librobequarry.so is missing: './build x86_64-linux' at the repository's root writes it")


def load(path):
    """The library at a path, with the types of its functions set, and of this version."""
    try:
        library = ctypes.CDLL(str(path))
    except OSError as error:
        raise ImportError(f"{path} cannot be loaded: {error}") from error
    for name, (arguments, result) in FUNCTIONS.items():
        try:
            function = getattr(library, name)
        except AttributeError:
            raise ImportError(f"{path} has no function {name}: it is not Robequarry {VERSION}") from None
        function.argtypes, function.restype = arguments, result
    number = library.rq_version()
    told = f"{number >> 16}.{number >> 8 & 255}.{number & 255}"
    if told != VERSION:
        raise ImportError(f"{path} is Robequarry {told}, and this package is for {VERSION}")
    return library


LIBRARY = load(find())


# ---- arguments


def whole(value, low, high, name):
    """A whole number within a width."""
    if isinstance(value, bool) or not hasattr(value, "__index__"):
        raise TypeError(f"{name} must be a whole number, not {value!r}")
    number = value.__index__()
    if not low <= number <= high:
        raise ValueError(f"{name} must be from {low} to {high}, not {number}")
    return number


def u8(value, name):
    return whole(value, 0, 255, name)


def u16(value, name):
    return whole(value, 0, 65535, name)


def pair(value, name):
    """Two numbers of 16 bits: a corner or a cell."""
    try:
        col, row = value
    except (TypeError, ValueError):
        raise TypeError(f"{name} must be a pair (col, row), not {value!r}") from None
    return u16(col, f"{name}[0]"), u16(row, f"{name}[1]")


def real(value, name):
    """A number as a float; one of more than single precision is rounded by the call."""
    if isinstance(value, bool) or not (isinstance(value, (int, float)) or hasattr(value, "__float__")) or isinstance(value, str):
        raise TypeError(f"{name} must be a number, not {value!r}")
    number = float(value)
    # Beyond single precision ctypes would make it infinite on some machines and fail on others.
    largest = 3.4028235677973366e38
    if number == number and abs(number) >= largest:
        return float("inf") if number > 0 else float("-inf")
    return number


def letters_of(value, name):
    """Letters as bytes: digits, bytes, or a list of numbers. A letter above 3 is the library's to refuse."""
    if isinstance(value, str):
        if not (value.isascii() and (value.isdigit() or not value)):
            raise ValueError(f"{name} must be digits, not {value!r}")
        return bytes(map(int, value))
    if isinstance(value, (bytes, bytearray, memoryview)):
        return bytes(value)
    try:
        items = list(value)
    except TypeError:
        raise TypeError(f"{name} must be digits, bytes or a list of numbers, not {value!r}") from None
    return bytes(u8(item, f"{name}[{place}]") for place, item in enumerate(items))


def bytes_of(value, name):
    if not isinstance(value, (bytes, bytearray, memoryview)):
        raise TypeError(f"{name} must be bytes, not {value!r}")
    return bytes(value)


def edges_of(value, name):
    """Edges as numbers, two for each: pairs (dx, dy)."""
    numbers = []
    try:
        items = list(value)
    except TypeError:
        raise TypeError(f"{name} must be a list of pairs (dx, dy), not {value!r}") from None
    for place, item in enumerate(items):
        try:
            dx, dy = item
        except (TypeError, ValueError):
            raise TypeError(f"{name}[{place}] must be a pair (dx, dy), not {item!r}") from None
        numbers.append(whole(dx, -32768, 32767, f"{name}[{place}][0]"))
        numbers.append(whole(dy, -32768, 32767, f"{name}[{place}][1]"))
    return numbers


def byte_array(data):
    """Bytes for a call, and their count. An empty list has a good pointer too."""
    return (U8 * max(len(data), 1)).from_buffer_copy(bytes(data) or b"\0"), len(data)


def number_array(numbers):
    return (I16 * max(len(numbers), 1))(*numbers), len(numbers)


# ---- names


def refusal_name(number):
    return REFUSALS[number][0]


def refusal_sentence(number):
    return REFUSALS[number][1]


def word_name(word):
    return WORDS[word][0].lower() if word else ""

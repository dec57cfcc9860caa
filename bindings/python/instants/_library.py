"""The shared library `libinstants.so.0`: where it is found, and its calls."""

from __future__ import annotations

import ctypes
import os
import pathlib

# Numbers of instants.h, with which tools/header_numbers.py compares them: bytes that always suffice for a line's answer and
# its line feed, the greatest limit that the words can name, and the version that these modules are of.
LINE_ROOM = 36
GREATEST_LIMIT = 1_048_576
VERSION = 100

OK, FAILED, REFUSED = 0, 1, 2

# The bytes of an entry: eight of seconds, four of nanoseconds, four of a fault.
ENTRY = 16
# Those of the date of a line: the same, with a reason, and eight each of its start and its end.
DATE_ENTRY = 32

# Why a line has no date, by the numbers of instants.h, in the words of mode `locate`.
REASONS = {
    100: "none",  # NONE
    200: "doubt",  # DOUBT
    201: "goes on",  # GOES_ON
    202: "clock in front",  # CLOCK_IN_FRONT
    203: "skipped by the clock",  # SKIPPED
    204: "twice by the clock",  # REPEATED
    205: "another offset",  # ANOTHER_OFFSET
    206: "another time",  # ANOTHER_TIME
    207: "another year",  # ANOTHER_YEAR
    208: "escape",  # ESCAPE
    600: "year",  # YEAR
}

FILE = "libinstants.so.0"
HOW_TO_GET = (
    "install Debian's package libinstants0, or build the library in its repository (tools/build_library.py) "
    f"and name the file {FILE} in the variable INSTANTS_LIBRARY"
)


def place() -> str:
    """Returns the file that INSTANTS_LIBRARY names, else that of this package, else the name by which the system looks for it."""
    own = pathlib.Path(__file__).with_name(FILE)
    return os.environ.get("INSTANTS_LIBRARY") or (str(own) if own.exists() else FILE)


def told(version: int) -> str:
    """Returns a version as text, as `0.1.0` for 100."""
    return f"{version // 10_000}.{version // 100 % 100}.{version % 100}"


def check_version(found: int) -> None:
    """Raises ImportError unless a library has the major and the minor number of these modules."""
    if found // 100 != VERSION // 100:
        raise ImportError(f"instants: the library {place()} is of version {told(found)}, and this package is of {told(VERSION)}; {HOW_TO_GET}")


class Opened(ctypes.Structure):
    """A handle as C has it: null where it is not open."""

    _fields_ = [("at", ctypes.c_void_p)]


class OpenedLines(ctypes.Structure):
    """A handle for lines as C has it: null where it is not open."""

    _fields_ = [("at", ctypes.c_void_p)]


class Above(ctypes.Structure):
    """What lines take of those above them: all is 0 at the beginning."""

    _fields_ = [("indent", ctypes.c_size_t), ("state", ctypes.c_uint32), ("len", ctypes.c_uint32), ("key", ctypes.c_uint8 * 64)]


def declare(library: ctypes.CDLL) -> None:
    """Says what the calls take and return."""
    read, size, size_at, write = ctypes.c_char_p, ctypes.c_size_t, ctypes.POINTER(ctypes.c_size_t), ctypes.c_void_p
    status, handle = ctypes.c_uint8, ctypes.c_void_p
    for name, takes, returns in (
        ("instants_sentence", (read, size, write, size, size_at), status),
        ("instants_open", (read, size, ctypes.POINTER(Opened)), status),
        ("instants_answer", (handle, read, size, write, size, size_at), status),
        ("instants_answer_moments", (handle, read, size, write, size, size_at), status),
        ("instants_close", (handle,), None),
        ("instants_lines_sentence", (read, size, read, size, write, size, size_at), status),
        ("instants_lines_open", (read, size, read, size, ctypes.POINTER(OpenedLines)), status),
        ("instants_lines_keys", (handle, read, size, write, size, size_at, ctypes.POINTER(Above)), status),
        ("instants_lines_dates", (handle, read, size, write, size, size_at), status),
        ("instants_lines_close", (handle,), None),
    ):
        call = getattr(library, name)
        call.argtypes, call.restype = takes, returns


def load() -> ctypes.CDLL:
    """Returns the library, or raises ImportError."""
    try:
        library = ctypes.CDLL(place())
        version = library.instants_version
        version.argtypes, version.restype = (), ctypes.c_uint32
        check_version(version())
        declare(library)
    except (OSError, AttributeError) as fault:
        raise ImportError(f"instants: no library ({fault}); {HOW_TO_GET}") from fault
    return library


LIBRARY = load()


def version() -> int:
    """Returns the version of the library: ten thousand times the major one, a hundred times the minor one, and the patch."""
    return int(LIBRARY.instants_version())


def sentence(words: bytes) -> str:
    """Returns what is refused of the words."""
    room, length = 0, ctypes.c_size_t(256)
    while room < length.value:
        room = length.value
        output = ctypes.create_string_buffer(room)
        LIBRARY.instants_sentence(words, len(words), output, room, ctypes.byref(length))
    return output.raw[: length.value].decode(errors="replace")


def lines_sentence(words: bytes, zone: bytes) -> str:
    """Returns what is refused of the words for lines and of a zone."""
    room, length = 0, ctypes.c_size_t(256)
    while room < length.value:
        room = length.value
        output = ctypes.create_string_buffer(room)
        LIBRARY.instants_lines_sentence(words, len(words), zone, len(zone), output, room, ctypes.byref(length))
    return output.raw[: length.value].decode(errors="replace")

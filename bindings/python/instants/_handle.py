"""Words that the library has read."""

from __future__ import annotations

import ctypes
import weakref
from typing import Iterable

from ._library import ENTRY, LIBRARY, LINE_ROOM, OK, REFUSED, Opened, sentence
from ._lines import Stream

# Memory for the answer to one line, and for its length.
ROOM = ctypes.c_char * LINE_ROOM


class Refused(ValueError):
    """The words are wrong, or a source among them is no description; with the program's sentence."""


def listed(words: Iterable[str], what: str) -> list[str]:
    """Returns words as a list, or raises TypeError where they are one text, or no texts."""
    if isinstance(words, (str, bytes)):
        raise TypeError(f"{what} are a list of words, as ['rfc3339'], and not one text")
    found = list(words)
    if wrong := [it for it in found if not isinstance(it, str)]:
        raise TypeError(f"a word is a text, and not {type(wrong[0]).__name__}")
    return found


def joined(words: list[str]) -> bytes:
    """Returns words as the library takes them, with a line feed between them."""
    if any("\n" in word for word in words):
        raise Refused("instants: a word has a line feed")
    return "\n".join(words).encode(errors="surrogateescape")


def close(opened: Opened, words: bytes) -> None:
    """Closes a handle on words, which are there until now."""
    LIBRARY.instants_close(opened.at)


class Handle:
    """An open handle on the program's words. It is closed when nobody has it any more, as a call has it until it returns; so it
    is open while it is asked, by several threads too."""

    # (`_opened` is kept since it lets nobody pickle a handle)
    __slots__ = ("_at", "_opened", "__weakref__")

    def __init__(self, words: list[str]) -> None:
        text, self._opened = joined(words), Opened()
        status = LIBRARY.instants_open(text, len(text), ctypes.byref(self._opened))
        if status == REFUSED:
            raise Refused(sentence(text))
        if status != OK:
            raise MemoryError(sentence(text) or "instants: out of memory")
        self._at = self._opened.at
        # (as the interpreter ends other threads may still have it, and the system takes the memory back)
        weakref.finalize(self, close, self._opened, text).atexit = False

    def answer(self, stream: Stream) -> bytes:
        """Returns the answers to the lines of a stream. Other threads run meanwhile."""
        output = bytearray(LINE_ROOM * max(stream.most, 1))
        written = ctypes.c_size_t()
        room = ctypes.byref(ctypes.c_char.from_buffer(output))
        LIBRARY.instants_answer(self._at, stream.text, len(stream.text), room, len(output), ctypes.byref(written))
        return bytes(memoryview(output)[: written.value])

    def moments(self, stream: Stream) -> memoryview:
        """Returns an entry of numbers for each line of a stream: `struct instants_moment` of instants.h. Other threads run
        meanwhile."""
        most = max(stream.most, 1)
        # (the bytes of a bytearray are aligned as those of malloc)
        output = bytearray(ENTRY * most)
        written = ctypes.c_size_t()
        room = ctypes.byref(ctypes.c_char.from_buffer(output))
        LIBRARY.instants_answer_moments(self._at, stream.text, len(stream.text), room, most, ctypes.byref(written))
        return memoryview(output)[: ENTRY * written.value]

    def answer_line(self, line: bytes) -> str:
        """Returns the answer to a line without its line feed."""
        output, written = ROOM(), ctypes.c_size_t()
        # (without a line feed an empty line is none)
        line = line or b"\n"
        LIBRARY.instants_answer(self._at, line, len(line), output, LINE_ROOM, ctypes.byref(written))
        return output.raw[: written.value - 1].decode("ascii")

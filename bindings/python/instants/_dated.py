"""Dates inside lines: the program `instants-lines` in its modes `key` and `carry`."""

from __future__ import annotations

import ctypes
import struct
import weakref
from types import TracebackType
from typing import TYPE_CHECKING, Iterable, NamedTuple

from ._arrays import moments_of_dates
from ._handle import Refused, joined, listed
from ._library import DATE_ENTRY, GREATEST_LIMIT, LIBRARY, OK, REASONS, REFUSED, Above, OpenedLines, lines_sentence
from ._lines import Column, Stream, column_of
from ._zones import zone_bytes

if TYPE_CHECKING:
    from ._arrays import Moments

# Beside the line itself a key, a tab and a line feed need so many bytes at most (INSTANTS_LINES_ROOM of instants.h), and a label
# its own.
KEY_ROOM = 66
# An entry: seconds, nanoseconds, the number of a reason, where the date begins and where it ends.
ENTRY = struct.Struct("<qIIQQ")


class LineDate(NamedTuple):
    """The date inside a line: seconds since 1970 began in UTC and nanoseconds after them, and the bytes of the line that say it, from
    `start` up to `end`. Where there is none the numbers are 0, and `reason` says why, in the words of mode `locate`: `none`, `goes on`,
    `another offset`, ..; the place is then that of the date in doubt."""

    seconds: int
    nanoseconds: int
    start: int
    end: int
    reason: str | None


def close(opened: OpenedLines, words: bytes) -> None:
    """Closes a handle on words, which are there until now."""
    LIBRARY.instants_lines_close(opened.at)


class LinesHandle:
    """An open handle on words. It is closed when nobody has it any more, as a call has it until it returns; so it is open while it is
    asked, by several threads too."""

    __slots__ = ("_at", "_opened", "__weakref__")

    def __init__(self, words: list[str], zone: bytes) -> None:
        text, self._opened = joined(words), OpenedLines()
        status = LIBRARY.instants_lines_open(text, len(text), zone, len(zone), ctypes.byref(self._opened))
        if status == REFUSED:
            raise Refused(lines_sentence(text, zone))
        if status != OK:
            raise MemoryError(lines_sentence(text, zone) or "instants-lines: out of memory")
        self._at = self._opened.at
        # (as the interpreter ends other threads may still have it, and the system takes the memory back)
        weakref.finalize(self, close, self._opened, text).atexit = False

    def keyed(self, stream: Stream, label: int) -> bytes:
        """Returns the lines of a stream after their keys. Other threads run meanwhile."""
        output = bytearray(len(stream.text) + (KEY_ROOM + label) * max(stream.most, 1))
        written, above = ctypes.c_size_t(), Above()
        room = ctypes.byref(ctypes.c_char.from_buffer(output))
        LIBRARY.instants_lines_keys(self._at, stream.text, len(stream.text), room, len(output), ctypes.byref(written), ctypes.byref(above))
        return bytes(memoryview(output)[: written.value])

    def dates(self, stream: Stream) -> memoryview:
        """Returns an entry of numbers for each line of a stream: `struct instants_lines_date` of instants.h. Other threads run
        meanwhile."""
        most = max(stream.most, 1)
        # (the bytes of a bytearray are aligned as those of malloc)
        output = bytearray(DATE_ENTRY * most)
        written = ctypes.c_size_t()
        room = ctypes.byref(ctypes.c_char.from_buffer(output))
        LIBRARY.instants_lines_dates(self._at, stream.text, len(stream.text), room, most, ctypes.byref(written))
        return memoryview(output)[: DATE_ENTRY * written.value]


class Lines:
    """The dates inside lines, by words of the program `instants-lines` that are read once, by several threads at once too.

        >>> with instants.Lines(["rfc3339", "access-log"]) as lines:
        ...     lines.keys(["up at 2021-01-02T04:04:05+01:00", "no date"])
        ['2021-01-02T03:04:05.000000000Z', '! none']

    The sources are those of the program, among them the names of formats, as `syslog`. The others are its words too: the target, the
    assumed offset or the name of a zone (as `Europe/Berlin`, whose file is read below TZDIR or /usr/share/zoneinfo), the limit, the year
    of the first date and the time of day of dates without one, and the member of JSON or the number of the column, with its separator,
    in which alone dates are looked for. With mode `carry` a line without a date takes the one above it.
    """

    def __init__(
        self, sources: Iterable[str], *, mode: str = "key", target: str = "+00:00", assumed: str = "-", limit: int | None = None,
        year: int | None = None, time: str | None = None, field: str | None = None, column: int | None = None,
        separator: str | None = None,
    ) -> None:
        found = listed(sources, "the sources")
        if not found:
            raise Refused("instants-lines: there are no sources: name one at least, as in instants.Lines(['rfc3339'])")
        words = [mode, target, assumed, str(GREATEST_LIMIT if limit is None else limit)]
        for name, word in (("year", year), ("time", time), ("field", field), ("column", column), ("separator", separator)):
            words += [] if word is None else [name, str(word)]
        self._carries = mode == "carry"
        self._handle: LinesHandle | None = LinesHandle(listed([*words, *found], "the words"), zone_bytes(assumed))

    def close(self) -> None:
        """Gives back the memory that the words need, when all calls have returned. Calls that come after it raise ValueError."""
        self._handle = None

    def __enter__(self) -> Lines:
        self._open()
        return self

    def __exit__(self, kind: type[BaseException] | None, fault: BaseException | None, trace: TracebackType | None) -> None:
        self.close()

    def _open(self) -> LinesHandle:
        """Returns the handle, or raises ValueError."""
        handle = self._handle
        if handle is None:
            raise ValueError("instants: the lines are closed")
        return handle

    def keys(self, lines: Column) -> list[str]:
        """Returns the key of each line, as the program writes it: the date-time at the target, `! none`, `! doubt` or `! year`. A line
        that is missing, as None or NaN in a column of pandas, is one without a date."""
        stream, _ = column_of(lines)
        # (a line has a tab after its key, and no line feed)
        return [it.split(b"\t", 1)[0].decode("ascii") for it in self._open().keyed(stream, 0).split(b"\n")[:-1]]

    def dates(self, lines: Column) -> list[LineDate]:
        """Returns the date of each line as numbers, with its place in the bytes of the line, or why there is none. In mode `carry` a line
        that takes the date above it has none of its own."""
        stream, _ = column_of(lines)
        entries = ENTRY.iter_unpack(self._open().dates(stream))
        return [
            LineDate(seconds, nanoseconds, start, end, REASONS.get(reason, str(reason)) if reason else None)
            for seconds, nanoseconds, reason, start, end in entries
        ]

    def to_datetime64(self, lines: Column) -> Moments:
        """Returns the moments of lines, in UTC, as an array of `datetime64[ns]`, with NaT for each line that has none.

        That type reaches from 1677-09-21T00:12:43.145224193 to 2262-04-11T23:47:16.854775807; a moment before or after is NaT. Where a
        line is missing, as None or NaN in a column of pandas, there is NaT, or in mode `carry` what is above it.
        """
        (stream, _), handle = column_of(lines), self._open()
        return moments_of_dates(handle.dates(stream), self._carries)


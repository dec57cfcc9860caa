"""Timelines: lines are answered by words that are read once."""

from __future__ import annotations

import functools
from datetime import datetime
from types import TracebackType
from typing import TYPE_CHECKING, Any, Iterable, Iterator

from ._answers import Answer, datetimes_of, fault_at, may_lack_datetimes, raise_first, raise_first_without_datetime
from ._arrays import moments_of, raise_first_missing
from ._handle import Handle, Refused, listed
from ._library import GREATEST_LIMIT
from ._lines import Column, Line, Lines, Stream, blocks_of, column_of, line_of, stream_of, whole_stream

if TYPE_CHECKING:
    from ._arrays import Moments


class Timeline:
    """The program's words, read once; lines are answered by them until it is closed, by several threads at once too.

        >>> with instants.Timeline(target="+00:00", sources=["rfc3339"]) as timeline:
        ...     timeline.answer("2021-01-02T04:04:05+01:00")
        '2021-01-02T03:04:05.000000000Z'

    The target, the assumed offset, the limit and the sources are the program's words. Without a limit no line is too long, but
    for one of more than GREATEST_LIMIT bytes. With `raising` the first line that has no value raises `Fault`.
    """

    def __init__(self, *, target: str, sources: Iterable[str], assumed: str = "-", limit: int | None = None) -> None:
        words = [target, assumed, str(GREATEST_LIMIT if limit is None else limit), *listed(sources, "the sources")]
        if len(words) == 3:
            raise Refused("instants: there are no sources: name one at least, as in sources=['rfc3339']")
        self._words = target, tuple(words[3:]), assumed, limit
        self._handle: Handle | None = Handle(listed(words, "the words"))

    def close(self) -> None:
        """Gives back the memory that the words need, when all calls have returned. Calls that come after it raise ValueError."""
        self._handle = None

    def __enter__(self) -> Timeline:
        self._open()
        return self

    def __exit__(self, kind: type[BaseException] | None, fault: BaseException | None, trace: TracebackType | None) -> None:
        self.close()

    def __reduce__(self) -> tuple[Any, tuple[str, tuple[str, ...], str, int | None]]:
        self._open()
        return _made, self._words

    def _open(self) -> Handle:
        """Returns the handle, or raises ValueError."""
        handle = self._handle
        if handle is None:
            raise ValueError("instants: the timeline is closed")
        return handle

    def answer(self, line: Line, *, raising: bool = False) -> str:
        """Returns the answer to one line."""
        read = line_of(line)
        text = self._open().answer_line(read)
        if raising and text[0] == "!":
            raise fault_at(read, 0, text[2:])
        return text

    def answers(self, lines: Lines, *, raising: bool = False) -> list[str]:
        """Returns the answers to lines as a list of texts. A line feed at a line's end is no part of it."""
        stream = stream_of(lines)
        answers = self._open().answer(stream).decode("ascii")
        texts = answers.split("\n")
        # (after the last line feed there is no answer)
        texts.pop()
        if raising and "!" in answers:
            raise_first(stream.text, texts)
        return texts

    def iter(self, lines: Lines, *, raising: bool = False) -> Iterator[str]:
        """Returns the same answers one after the other. Lines are read block by block, as answers are asked for, so a file may
        be longer than memory; of a pipe a block is what is there. With `raising` the fault comes after the answers before it.

        An iterator has its answers also where the timeline is closed meanwhile.
        """
        return _iterated(self._open(), blocks_of(lines), raising)

    def parse(self, lines: Lines, *, raising: bool = False) -> list[Answer]:
        """Returns the same answers as values, which tell date-times from faults: `for text, fault in timeline.parse(..)`."""
        return [Answer(it, it[2:] if it[0] == "!" else None) for it in self.answers(lines, raising=raising)]

    def datetimes(self, lines: Lines, *, raising: bool = False) -> list[datetime | None]:
        """Returns the moments of lines, at the target offset, and None for each line that has none.

        A `datetime` has microseconds and the years 1 to 9999: the last three digits of the nanoseconds are cut, and a moment in
        the year 0 is None.
        """
        stream = stream_of(lines)
        answers = self._open().answer(stream).decode("ascii")
        if raising and may_lack_datetimes(answers):
            raise_first_without_datetime(stream.text, answers.split("\n")[:-1])
        return datetimes_of(answers)

    def to_datetime64(self, lines: Column, *, raising: bool = False) -> Moments:
        """Returns the moments of lines, in UTC, as an array of `datetime64[ns]`, with NaT for each line that has none.

        That type reaches from 1677-09-21T00:12:43.145224193 to 2262-04-11T23:47:16.854775807; a moment before or after is NaT.
        Where a line is missing, as None or NaN in a column of pandas, there is NaT, which raises nothing.
        """
        (stream, missing), handle = column_of(lines), self._open()
        moments = moments_of(handle.moments(stream))
        if raising:
            raise_first_missing(handle, stream.text, moments, missing)
        return moments


def _iterated(handle: Handle, blocks: Iterator[Stream], raising: bool) -> Iterator[str]:
    before = 0
    for stream in blocks:
        answers = handle.answer(stream).decode("ascii")
        texts = answers.split("\n")
        texts.pop()
        if raising and "!" in answers:
            place = [text[0] for text in texts].index("!")
            yield from texts[:place]
            raise fault_at(stream.text, place, texts[place][2:], before)
        yield from texts
        before += len(texts)


def _made(target: str, sources: tuple[str, ...], assumed: str, limit: int | None) -> Timeline:
    return Timeline(target=target, sources=sources, assumed=assumed, limit=limit)


# The timelines that were asked last by the calls below, each of which has the words with it.
_kept = functools.lru_cache(maxsize=16, typed=True)(_made)


@functools.lru_cache(maxsize=16)
def _kept_handle(words: tuple[str, ...]) -> Handle:
    return Handle(list(words))


def _timeline(target: str, sources: Iterable[str], assumed: str, limit: int | None) -> Timeline:
    return _kept(target, tuple(listed(sources, "the sources")), assumed, limit)


def answers(
    lines: Lines, *, target: str, sources: Iterable[str], assumed: str = "-", limit: int | None = None, raising: bool = False
) -> list[str]:
    """Returns what `Timeline.answers` does; the words that were given last stay read."""
    return _timeline(target, sources, assumed, limit).answers(lines, raising=raising)


def iter(
    lines: Lines, *, target: str, sources: Iterable[str], assumed: str = "-", limit: int | None = None, raising: bool = False
) -> Iterator[str]:
    """Returns what `Timeline.iter` does; the words that were given last stay read."""
    return _timeline(target, sources, assumed, limit).iter(lines, raising=raising)


def parse(
    lines: Lines, *, target: str, sources: Iterable[str], assumed: str = "-", limit: int | None = None, raising: bool = False
) -> list[Answer]:
    """Returns what `Timeline.parse` does; the words that were given last stay read."""
    return _timeline(target, sources, assumed, limit).parse(lines, raising=raising)


def datetimes(
    lines: Lines, *, target: str = "+00:00", sources: Iterable[str], assumed: str = "-", limit: int | None = None,
    raising: bool = False,
) -> list[datetime | None]:
    """Returns what `Timeline.datetimes` does; the words that were given last stay read."""
    return _timeline(target, sources, assumed, limit).datetimes(lines, raising=raising)


def to_datetime64(
    lines: Column, *, sources: Iterable[str], assumed: str = "-", limit: int | None = None, raising: bool = False
) -> Moments:
    """Returns what `Timeline.to_datetime64` does; the words that were given last stay read."""
    return _timeline("+00:00", sources, assumed, limit).to_datetime64(lines, raising=raising)


def answer_bytes(stream: bytes | bytearray | memoryview, words: Iterable[str]) -> bytes:
    """Returns the answers to the lines of bytes, each with a line feed after it, by the program's words, which stay read."""
    handle = _kept_handle(tuple(listed(words, "the words")))
    return handle.answer(whole_stream(stream if isinstance(stream, bytes) else memoryview(stream).tobytes()))

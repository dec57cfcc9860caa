"""Answers to lines, as values."""

from __future__ import annotations

import sys
from datetime import datetime
from typing import Iterable, NamedTuple

# The bytes of a date-time as far as its microseconds, and those before its offset.
MICROSECONDS, NANOSECONDS = 26, 29
# All texts below this one are faults, which begin with a mark, or date-times in the year 0.
FIRST_DATETIME = "0001"
# The characters of answers that are split at once: few enough that a processor has their texts at hand as they are read.
NEAR = 1 << 15


class Answer(NamedTuple):
    """The answer to a line: a date-time, or a fault after `! `; and the fault, as `component year`, or None."""

    text: str
    fault: str | None

    def __str__(self) -> str:
        return self.text


class Fault(ValueError):
    """A line has no date-time: its place among the lines, from 0, its bytes, and what is wrong with it."""

    def __init__(self, place: int, line: bytes, fault: str) -> None:
        super().__init__(f"line {place + 1}, {line.decode(errors='replace')!r}: {fault}")
        self.place, self.line, self.fault = place, line, fault

    def __reduce__(self) -> tuple[type[Fault], tuple[int, bytes, str]]:
        return Fault, (self.place, self.line, self.fault)


def fault_at(stream: bytes, place: int, fault: str, before: int = 0) -> Fault:
    """Returns the fault of the line at a place of a stream, before which other lines were read."""
    return Fault(before + place, stream.split(b"\n", place + 1)[place], fault)


def raise_first(stream: bytes, texts: list[str]) -> None:
    """Raises the fault of the first line that has one."""
    for place, text in enumerate(texts):
        if text.startswith("!"):
            raise fault_at(stream, place, text[2:])


def raise_first_without_datetime(stream: bytes, texts: list[str]) -> None:
    """Raises the fault of the first line that has one, or whose moment is in the year 0."""
    for place, text in enumerate(texts):
        if text < FIRST_DATETIME:
            raise fault_at(stream, place, text[2:] if text.startswith("!") else "datetime has no year 0")


def may_lack_datetimes(answers: str) -> bool:
    """Returns whether one of several answers may be no `datetime`: a fault, or in the year 0. Nanoseconds before an offset may
    look like that year, which costs a little time."""
    return "!" in answers or "0000-" in answers


def datetime_before_3_11(text: str) -> datetime:
    """Returns the moment of an answer, as `datetime.fromisoformat` does from Python 3.11 on."""
    offset = text[NANOSECONDS:]
    return datetime.fromisoformat(text[:MICROSECONDS] + ("+00:00" if offset == "Z" else offset))


datetime_of = datetime.fromisoformat if sys.version_info >= (3, 11) else datetime_before_3_11


def datetimes_of(answers: str) -> list[datetime | None]:
    """Returns the moments of answers, and None for each that has none as a `datetime`."""
    moments: list[datetime | None] = []
    at = 0
    while at < len(answers):
        end = answers.find("\n", at + NEAR)
        end = len(answers) - 1 if end < 0 else end
        moments += _few_datetimes(answers[at:end])
        at = end + 1
    return moments


def _few_datetimes(answers: str) -> Iterable[datetime | None]:
    texts = answers.split("\n")
    if may_lack_datetimes(answers):
        return [None if it < FIRST_DATETIME else datetime_of(it) for it in texts]
    return map(datetime_of, texts)

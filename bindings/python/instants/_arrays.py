"""Moments as an array of numpy."""

from __future__ import annotations

from typing import TYPE_CHECKING, Any

from ._answers import fault_at
from ._handle import Handle

if TYPE_CHECKING:
    # (a caller may have no numpy)
    import numpy  # type: ignore[import]

    Moments = numpy.ndarray[Any, numpy.dtype[numpy.datetime64]]

# The nanoseconds of a second.
SECOND = 1_000_000_000
# An entry's second number, which has its nanoseconds and above them its fault, is as great as this where it has a fault.
FAULT = 1 << 32
# The reason of a line in which no date is read.
NONE = 100
# The seconds between these are within what `datetime64[ns]` reaches to, with any nanoseconds after them.
FIRST, LAST = -9_223_372_036, 9_223_372_035


def raise_first_missing(handle: Handle, text: bytes, moments: Moments, missing: list[int]) -> None:
    """Raises the fault of the first line that has no moment, but for those at places where there is no line."""
    import numpy

    without = numpy.isnat(moments)
    without[missing] = False
    if without.any():
        place = int(without.argmax())
        answer = handle.answer_line(text.split(b"\n", place + 1)[place])
        raise fault_at(text, place, answer[2:] if answer.startswith("!") else f"datetime64[ns] does not reach to {answer}")


def moments_of_dates(entries: memoryview, carries: bool) -> Moments:
    """Returns the moments, in UTC, of the library's entries of dates; a line without a date may take what is above it."""
    import numpy

    rows = numpy.frombuffer(entries, dtype="<i8").reshape(-1, 4)[:, :2]
    if carries:
        own = (rows[:, 1] >> 32) != NONE
        # (the place of the last line with a date, or with one in doubt, up to each line)
        rows = rows[numpy.maximum.accumulate(numpy.where(own, numpy.arange(len(rows)), 0))]
    return _moments(rows)


def moments_of(entries: memoryview) -> Moments:
    """Returns the moments, in UTC, of the library's entries."""
    import numpy

    return _moments(numpy.frombuffer(entries, dtype="<i8").reshape(-1, 2))


def _moments(rows: Any) -> Moments:
    """Returns the moments of rows of two numbers: seconds, and nanoseconds with what is above them."""
    import numpy

    seconds, others = rows[:, 0], rows[:, 1]
    moments: Any = seconds * SECOND
    moments += others
    missing = others >= FAULT
    if len(rows) and (seconds.min() < FIRST or seconds.max() > LAST):
        # (what does not fit wraps round, and reads back as another second)
        missing |= moments // SECOND != seconds
    moments[missing] = numpy.iinfo(numpy.int64).min
    found: Moments = moments.view("datetime64[ns]")
    return found

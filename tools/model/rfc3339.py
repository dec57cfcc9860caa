"""RFC 3339, section 5.6: a full date, any one byte, a full time, `Z`, `z` or an offset in numbers.

A strict reading refuses each number out of range where it is; one that is not leaves most of them to the moment.
"""

from . import calendar
from .calendar import DAY, Moment
from .components import Record
from .faults import Refused
from .reader import Reader


def read(text: bytes, is_strict: bool) -> tuple[Record, int]:
    """Returns the parts of a date-time at the start of a text, and the place after it."""
    reader = Reader(text)

    def number(name: str, low: int, high: int) -> int:
        return reader.number(2, name, low if is_strict else 0, high if is_strict else 99)

    parts = {"year": reader.number(4, "year", 0, 9999)}
    reader.due(b"-")
    parts["month"] = reader.number(2, "month", 1, 12 if is_strict else 99)
    reader.due(b"-")
    parts["day"] = number("day", 1, 31)
    if not reader.byte():
        raise Refused.component("separator")
    reader.at += 1
    parts["hour_24"] = number("hour", 0, 23)
    reader.due(b":")
    parts["minute"] = number("minute", 0, 59)
    reader.due(b":")
    parts["second"] = number("second", 0, 60)
    if reader.take(b"."):
        run = reader.digit_run()
        if not run:
            raise Refused.component("subsecond")
        parts["subsecond"] = int(run) * 10**9 // 10 ** len(run)
    if reader.take(b"Zz"):
        return {**parts, "offset_hour": 0, "offset_minute": 0, "offset_second": 0}, reader.at
    sign = reader.take(b"+-")
    if not sign:
        raise Refused.component("offset hour")
    factor = -1 if sign == b"-" else 1
    parts["offset_hour"] = factor * reader.number(2, "offset hour", 0, 23)
    reader.due(b":")
    parts["offset_minute"] = factor * number("offset minute", 0, 59)
    return parts, reader.at


def into_record(record: Record, text: bytes) -> tuple[Record, int]:
    """Returns a record with what the prefix of a text says, and the place after it."""
    parts, at = read(text, is_strict=True)
    return {**record, **parts, "leap_second_is_permitted": True}, at


def moment(text: bytes) -> Moment:
    """Returns the moment of a whole text, or raises its first fault: the offset's range, the end, the date, the time, the leap second."""
    parts, at = read(text, is_strict=False)
    offset = calendar.offset_of(parts["offset_hour"], parts["offset_minute"], 0)
    if at < len(text):
        raise Refused("trailing")
    day = calendar.day_of_month(parts["year"], parts["month"], parts["day"])
    second = parts["second"]
    time = calendar.permitted_time_of(True, parts["hour_24"], parts["minute"], second, parts.get("subsecond", 0))
    return calendar.leap_checked(second == 60, Moment(day * DAY + time, offset))

"""A record: the values of all components that were read, by name, and the moment that they name together.

It is a dict. Its keys are `year`, `century`, `last_two` (and the same three after `iso_`), `month`, `day`, `ordinal`, `weekday`
(days since Monday), `iso_week`, `sunday_week`, `monday_week`, `hour_24`, `hour_12`, `is_pm`, `minute`, `second`, `subsecond`
(nanoseconds), `offset_hour`, `offset_minute`, `offset_second`, `unix` (nanoseconds), and four flags that are false where they are
missing: `century_is_negative`, `iso_century_is_negative`, `offset_is_negative`, `leap_second_is_permitted`. What is not there was
not read.
"""

from . import calendar
from .calendar import DAY, SECOND, Moment
from .components import Record
from .faults import Refused

YEAR_PARTS = ("year", "century", "last_two", "iso_year", "iso_century", "iso_last_two")
TIME_PARTS = ("hour_24", "hour_12", "is_pm", "minute", "second", "subsecond")


def cut(number: int, unit: int) -> tuple[int, int]:
    """Returns a quotient rounded to 0, and the remainder with the number's sign."""
    quotient = abs(number) // unit * (1 if number >= 0 else -1)
    return quotient, number - quotient * unit


def hour_and_minute(offset: int) -> tuple[int, int]:
    """Returns the hour and the minute of an offset, both under its sign."""
    return cut(offset, 3600)[0], cut(cut(offset, 60)[0], 60)[1]


def with_offset(record: Record, offset: int) -> Record:
    hour, minute = hour_and_minute(offset)
    return {**record, "offset_hour": hour, "offset_minute": minute}


# ---- the values that a record names


def whole_year(record: Record, prefix: str = "") -> int | None:
    """Returns the year, or the one of a century and its last two digits, which lead backwards in a negative century."""
    if prefix + "year" in record:
        return record[prefix + "year"]
    if prefix + "century" in record and prefix + "last_two" in record:
        digits = record[prefix + "last_two"]
        return record[prefix + "century"] * 100 + (-digits if record.get(prefix + "century_is_negative") else digits)
    return None


def day_named(record: Record) -> int:
    """Returns the day of the first group of parts that is complete."""
    year, iso_year = whole_year(record), whole_year(record, "iso_")
    if year is not None and "ordinal" in record:
        return calendar.day_of_year(year, record["ordinal"])
    if year is not None and "month" in record and "day" in record:
        return calendar.day_of_month(year, record["month"], record["day"])
    if iso_year is not None and "iso_week" in record and "weekday" in record:
        return calendar.day_of_iso_week(iso_year, record["iso_week"], record["weekday"])
    if year is not None and "sunday_week" in record and "weekday" in record:
        return calendar.day_of_week(6, year, record["sunday_week"], record["weekday"])
    if year is not None and "monday_week" in record and "weekday" in record:
        return calendar.day_of_week(0, year, record["monday_week"], record["weekday"])
    raise Refused("insufficient")


def hour_named(record: Record) -> int:
    if "hour_24" in record:
        return record["hour_24"]
    if "hour_12" in record and "is_pm" in record:
        return record["hour_12"] % 12 + 12 * record["is_pm"]
    raise Refused("insufficient")


def time_named(record: Record) -> int:
    """Of minute, second and nanosecond only the finest may be missing; they are 0 then."""
    hour = hour_named(record)
    parts = [record.get(it) for it in ("minute", "second", "subsecond")]
    missing = [it is None for it in parts]
    if missing != sorted(missing):
        raise Refused("insufficient")
    return calendar.permitted_time_of(bool(record.get("leap_second_is_permitted")), hour, *(it or 0 for it in parts))


def offset_named(record: Record) -> int:
    """Minutes and seconds are under the sign of an hour that was read with a minus; seconds count only after minutes."""
    if "offset_hour" not in record:
        raise Refused("insufficient")
    sign = -1 if record.get("offset_is_negative") else 1
    minute = record.get("offset_minute")
    second = 0 if minute is None else record.get("offset_second", 0)
    return calendar.offset_of(record["offset_hour"], sign * (minute or 0), sign * second)


def unix_named(record: Record) -> Moment:
    """A fraction that was read takes the place of the nanosecond of the second."""
    unix = record["unix"]
    if not calendar.is_wall(unix):
        raise Refused.range("timestamp")
    if "subsecond" in record:
        unix = unix // SECOND * SECOND + record["subsecond"]
    return Moment(unix, 0)


def moment_named(record: Record) -> Moment:
    """Returns the moment, or the first refusal: of the date, the time, the offset, the leap second."""
    if "unix" in record:
        return unix_named(record)
    wall = day_named(record) * DAY + time_named(record)
    moment = Moment(wall, offset_named(record))
    is_leap = bool(record.get("leap_second_is_permitted")) and record.get("second", 0) == 60
    return calendar.leap_checked(is_leap, moment)

"""The proleptic Gregorian calendar with a year 0, and moments on it.

Days go from -999999-01-01 to 999999-12-31, and are counted from 1970-01-01. Times are nanoseconds, offsets are seconds.
"""

import datetime
from typing import NamedTuple

from .faults import Refused

GREATEST_YEAR = 999_999
SECOND = 1_000_000_000
DAY = 86_400 * SECOND
# The calendar comes round after 400 years.
CYCLE_YEARS, CYCLE_DAYS = 400, 146_097
EPOCH = datetime.date(1970, 1, 1).toordinal()


def day_number(year: int, month: int, day: int) -> int:
    """Returns the number of a day that the calendar has."""
    like = 2000 + year % CYCLE_YEARS
    return datetime.date(like, month, day).toordinal() - EPOCH + (year - like) // CYCLE_YEARS * CYCLE_DAYS


def date_at(number: int) -> tuple[int, int, int]:
    """Returns the year, month and day of a day's number."""
    cycles, rest = divmod(number, CYCLE_DAYS)
    like = datetime.date.fromordinal(EPOCH + rest)
    return like.year + CYCLE_YEARS * cycles, like.month, like.day


FIRST_DAY, LAST_DAY = day_number(-GREATEST_YEAR, 1, 1), day_number(GREATEST_YEAR, 12, 31)
FIRST_WALL, LAST_WALL = FIRST_DAY * DAY, (LAST_DAY + 1) * DAY - 1


def is_leap_year(year: int) -> bool:
    return year % 4 == 0 and (year % 100 != 0 or year % 400 == 0)


def days_in_month(year: int, month: int) -> int:
    if month == 2:
        return 29 if is_leap_year(year) else 28
    return 30 if month in (4, 6, 9, 11) else 31


def weekday_of(number: int) -> int:
    """Returns the days since Monday."""
    return (number + 3) % 7


# ---- the days that parts of a date name


def checked_year(year: int) -> None:
    if abs(year) > GREATEST_YEAR:
        raise Refused.range("year")


def day_of_month(year: int, month: int, day: int) -> int:
    checked_year(year)
    if not 1 <= month <= 12:
        raise Refused.range("month")
    if not 1 <= day <= days_in_month(year, month):
        raise Refused.range("day")
    return day_number(year, month, day)


def day_of_year(year: int, ordinal: int) -> int:
    checked_year(year)
    if not 1 <= ordinal <= 365 + is_leap_year(year):
        raise Refused.range("ordinal")
    return day_number(year, 1, 1) + ordinal - 1


def day_of_iso_week(year: int, week: int, weekday: int) -> int:
    """A week belongs to the year of its Thursday; the first one has the year's first Thursday."""
    checked_year(year)
    first = day_number(year, 1, 1)
    thursday = next(it for it in range(first, first + 7) if weekday_of(it) == 3) + 7 * (week - 1)
    number = thursday + weekday - 3
    if date_at(thursday)[0] != year or not FIRST_DAY <= number <= LAST_DAY:
        raise Refused.range("week")
    return number


def day_of_week(begin: int, year: int, week: int, weekday: int) -> int:
    """Weeks begin on one day of the week; the days before the first such day of the year are in week 0."""
    checked_year(year)
    first = day_number(year, 1, 1)
    so_far = 0
    for number in range(first, first + 365 + is_leap_year(year)):
        so_far += weekday_of(number) == begin
        if weekday_of(number) == weekday and so_far == week:
            return number
    raise Refused.range("ordinal")


# ---- times of day and offsets


def time_of(hour: int, minute: int, second: int, nanosecond: int) -> int:
    for value, greatest, name in (hour, 23, "hour"), (minute, 59, "minute"), (second, 59, "second"), (nanosecond, SECOND - 1, "nanosecond"):
        if value > greatest:
            raise Refused.range(name)
    return (hour * 3600 + minute * 60 + second) * SECOND + nanosecond


def permitted_time_of(is_permitted: bool, hour: int, minute: int, second: int, nanosecond: int) -> int:
    """Where it is permitted, second 60 stands for the last nanosecond of its minute."""
    if is_permitted and second == 60:
        return time_of(hour, minute, 59, SECOND - 1)
    return time_of(hour, minute, second, nanosecond)


def with_sign_of(coarser: int, finer: int) -> int:
    if coarser == 0:
        return finer
    return abs(finer) if coarser > 0 else -abs(finer)


def offset_of(hours: int, minutes: int, seconds: int) -> int:
    """A finer part takes the sign of the coarser one, unless that is 0."""
    for value, greatest, name in (hours, 25, "hours"), (minutes, 59, "minutes"), (seconds, 59, "seconds"):
        if abs(value) > greatest:
            raise Refused.range(name)
    return hours * 3600 + with_sign_of(hours, minutes) * 60 + with_sign_of(hours, with_sign_of(minutes, seconds))


# ---- moments


class Moment(NamedTuple):
    """What a clock shows, as nanoseconds since 1970 began on it, and the clock's offset."""

    wall: int
    offset: int

    def instant(self) -> int:
        return self.wall - self.offset * SECOND

    def year(self) -> int:
        return date_at(self.wall // DAY)[0]


def is_wall(wall: int) -> bool:
    return FIRST_WALL <= wall <= LAST_WALL


def is_stand_in(moment: Moment) -> bool:
    """Whether it is the last nanosecond of a month in UTC, which stands for a leap second."""
    instant = moment.instant()
    return is_wall(instant) and instant % DAY == DAY - 1 and date_at(instant // DAY + 1)[2] == 1


def leap_checked(is_leap: bool, moment: Moment) -> Moment:
    if is_leap and not is_stand_in(moment):
        raise Refused.range("second")
    return moment


def moment_text(moment: Moment) -> bytes:
    year, month, day = date_at(moment.wall // DAY)
    second, nanosecond = divmod(moment.wall % DAY, SECOND)
    minutes = abs(moment.offset) // 60
    offset = "Z" if moment.offset == 0 else f"{'-' if moment.offset < 0 else '+'}{minutes // 60:02}:{minutes % 60:02}"
    clock = f"{second // 3600:02}:{second // 60 % 60:02}:{second % 60:02}.{nanosecond:09}"
    return f"{year:04}-{month:02}-{day:02}T{clock}{offset}".encode()


def shown_at(target: int, moment: Moment) -> Moment | None:
    """Returns the moment at an offset, or None where its year there is not 0 to 9999."""
    shown = Moment(moment.instant() + target * SECOND, target)
    return shown if is_wall(shown.wall) and 0 <= shown.year() <= 9999 else None


def place_text(target: int, moment: Moment) -> bytes:
    """Returns a moment's date-time at an offset, or `! year`."""
    shown = shown_at(target, moment)
    return moment_text(shown) if shown else b"! year"

"""ISO 8601: a date, a time of day and an offset, each of which may be missing, and each of which is read wholly or not at all."""

from collections.abc import Callable
from typing import TypeVar

from .calendar import SECOND
from .components import Record
from .faults import Refused
from .reader import Reader

MINUTE, HOUR = 60 * SECOND, 3600 * SECOND
Part = TypeVar("Part")


class Absent(Exception):
    """A part that may be missing is not there as a whole."""


def require(condition: object) -> None:
    if not condition:
        raise Absent


def there(value: Part | None) -> Part:
    if value is None:
        raise Absent
    return value


class IsoReader(Reader):
    """Beside the place, the kind of the text: `basic`, which has nothing between numbers, `extended`, or None while it is not known."""

    kind: str | None = None

    # ---- the date

    def date(self) -> Record:
        """Returns what a date sets. Where it is refused nothing was read, but its kind stays once its year was read."""
        start = self.at
        try:
            year = self.year()
            self.kind = "extended" if self.take(b"-") else "basic"
            return self.after_year(year)
        except Refused:
            self.at = start
            raise

    def year(self) -> int:
        sign = self.take(b"+-")
        year = self.digits(6 if sign else 4)
        if year is None:
            raise Refused.component("year")
        return -year if sign == b"-" else year

    def after_year(self, year: int) -> Record:
        """The first form of which all pieces are read is the date, or refuses it."""
        start = self.at
        try:
            month, day = self.month_and_day()
        except Refused as fault:
            self.at = start
            return self.without_month(year, fault)
        if day > 31:
            raise Refused.component("day")
        return {"year": year, "month": month, "day": day}

    def month_and_day(self) -> tuple[int, int]:
        month = self.number(2, "month", 1, 12)
        self.dash()
        return month, self.number(2, "day", 1, 99)

    def without_month(self, year: int, fault: Refused) -> Record:
        ordinal = self.digits(3)
        if ordinal:
            if ordinal > 366:
                raise Refused.component("ordinal")
            return {"year": year, "ordinal": ordinal}
        # (three digits that are 000 are no day of the year, and no week begins with one)
        if ordinal is not None or not self.take(b"W"):
            raise fault
        week = self.number(2, "week", 1, 99)
        self.dash()
        weekday = self.number(1, "weekday", 1, 7)
        if week > 53:
            raise Refused.component("week")
        return {"iso_year": year, "iso_week": week, "weekday": weekday - 1}

    def dash(self) -> None:
        if self.kind == "extended":
            self.due(b"-")

    # ---- the time of day

    def maybe(self, part: Callable[[], Part]) -> Part | None:
        """Returns what a part sets, or None where it is not there as a whole, and then nothing was read."""
        start, kind = self.at, self.kind
        try:
            return part()
        except Absent:
            self.at, self.kind = start, kind
            return None

    def pair(self) -> tuple[int, bytes | None]:
        """Two digits, and those of a fraction after them."""
        value = there(self.digits(2))
        run = None
        if self.take(b".,"):
            run = self.digit_run()
            require(run)
        return value, run

    def has_pair(self) -> tuple[int, bytes | None] | None:
        return self.maybe(self.pair)

    def time(self, has_date: bool) -> Record:
        require(self.take(b"T") or not has_date)
        hour, run = self.pair()
        require(hour <= 23)
        if run:
            return clock(hour, 0, 0, part_of(HOUR, run))
        if self.take(b":"):
            require(self.kind != "basic")
            self.kind = "extended"
        return self.after_hour(hour)

    def after_hour(self, hour: int) -> Record:
        # (a pair whose fraction lacks its digits is none)
        found = self.has_pair()
        if not found:
            require(self.kind != "extended")
            return clock(hour, 0, 0, 0)
        minute, run = found
        require(minute <= 59)
        kind = self.kind or "basic"
        said = clock(hour, minute, 0, part_of(MINUTE, run)) if run else self.after_minute(hour, minute)
        self.kind = kind
        return said

    def after_minute(self, hour: int, minute: int) -> Record:
        if self.kind == "extended":
            found = self.pair() if self.take(b":") else (0, None)
        else:
            found = self.has_pair() or (0, None)
        second, run = found
        nanosecond = rounded_part_of(SECOND, run) if run else 0
        require(second <= 60 and nanosecond < SECOND)
        return {"hour_24": hour, "minute": minute, "second": second, "subsecond": nanosecond}

    # ---- the offset

    def offset(self) -> Record:
        if self.take(b"Z"):
            return {"offset_hour": 0, "offset_minute": 0, "offset_second": 0}
        sign = self.take(b"+-")
        require(sign)
        hour = there(self.digits(2))
        require(hour <= 25)
        if self.kind != "basic":
            self.take(b":")
        minute = self.digits(2) or 0
        require(minute <= 59)
        factor = -1 if sign == b"-" else 1
        return {"offset_hour": factor * hour, "offset_minute": factor * minute}


def part_of(unit: int, run: bytes) -> int:
    """Returns the whole nanoseconds in a fraction of so many, cut."""
    return int(run) * unit // int(10 ** len(run))


def rounded_part_of(unit: int, run: bytes) -> int:
    """Returns the nearest whole number of nanoseconds, the greater of two."""
    parts = int(10 ** len(run))
    return (2 * int(run) * unit + parts) // (2 * parts)


def clock(hour: int, minute: int, second: int, nanoseconds: int) -> Record:
    """Returns a time of day with nanoseconds after it, which stay within the hour."""
    total = (minute * 60 + second) * SECOND + nanoseconds
    return {"hour_24": hour, "minute": total // MINUTE, "second": total // SECOND % 60, "subsecond": total % SECOND}


def into_record(record: Record, text: bytes) -> tuple[Record, int]:
    """Returns a record with what the prefix of a text says, and the place after it."""
    reader, date, fault = IsoReader(text), None, None
    try:
        date = reader.date()
    except Refused as refused:
        fault = refused
    time = reader.maybe(lambda: reader.time(date is not None))
    offset = reader.maybe(reader.offset) if time is not None or date is None else None
    if fault and time is None and offset is None:
        raise fault
    return {**record, "leap_second_is_permitted": True, **(date or {}), **(time or {}), **(offset or {})}, reader.at

"""RFC 2822, section 3.3, with the obsolete years and zones of its section 4.3: weekday, date, time and zone, with comments and white
space between them.

A strict reading refuses each number out of range where it is; one that is not leaves them to the moment.
"""

from collections.abc import Callable

from . import calendar
from .calendar import DAY, Moment
from .components import MONTHS, WEEKDAYS, Record
from .faults import Refused
from .reader import Reader

MONTH_NAMES = [it[:3].lower() for it in MONTHS]
WEEKDAY_NAMES = [it[:3].lower() for it in WEEKDAYS]
# Hours west of Greenwich.
ZONES = {b"est": 5, b"edt": 4, b"cst": 6, b"cdt": 5, b"mst": 7, b"mdt": 6, b"pst": 8, b"pdt": 7, b"gmt": 0}
MOST_LEVELS = 31
# What passes over something at a place of a text: it gives the place after it, or None.
Skip = Callable[[bytes, int], int | None]
BLANKS, WHITE, MARKS = b" \t", b"\r \t", b"\n\r \t"


# ---- white space and comments: each gives the place after it, or None


def passed(text: bytes, at: int, allowed: bytes) -> int:
    """All bytes of a kind, as many as there are."""
    while at < len(text) and text[at] in allowed:
        at += 1
    return at


def is_at(text: bytes, at: int, allowed: bytes) -> bool:
    return at < len(text) and text[at] in allowed


def many(skip: Skip, text: bytes, at: int) -> int:
    after = skip(text, at)
    while after is not None:
        at, after = after, skip(text, after)
    return at


def folded_line(text: bytes, at: int) -> int | None:
    """A line end, and blanks on the next line."""
    if text[at : at + 2] != b"\r\n" or not is_at(text, at + 2, BLANKS):
        return None
    return passed(text, at + 2, BLANKS)


def folding_white_space(text: bytes, at: int) -> int | None:
    """One byte with none of its kind after it; or a folded line; or blanks, with folded lines after them and no line end."""
    if is_at(text, at, WHITE) and not is_at(text, at + 1, MARKS):
        return at + 1
    folded = folded_line(text, at)
    if folded is not None or not is_at(text, at, BLANKS):
        return folded
    after = many(folded_line, text, passed(text, at, BLANKS))
    return None if text[after : after + 2] == b"\r\n" else after


COMMENT_TEXT = bytes([*range(1, 9), 11, 12, *range(14, 32), *range(33, 40), *range(42, 92), *range(93, 128)])
QUOTABLE = bytes([*range(1, 10), 11, 12, *range(14, 128)])
OBSOLETE = bytes(it for it in b"\0" + QUOTABLE if it != ord(")"))


def line_ends(text: bytes, at: int) -> int:
    return passed(text, passed(text, at, b"\n"), b"\r")


def obsolete_byte(text: bytes, at: int) -> int | None:
    return line_ends(text, at + 1) if is_at(text, at, OBSOLETE) else None


def quoted_pair(text: bytes, at: int) -> int | None:
    """A backslash and one byte, or the obsolete text, which may be empty."""
    if not is_at(text, at, b"\\"):
        return None
    if is_at(text, at + 1, QUOTABLE):
        return at + 2
    return many(obsolete_byte, text, line_ends(text, at + 1))


def comment(text: bytes, at: int, levels: int = MOST_LEVELS) -> int | None:
    if levels == 0 or not is_at(text, at, b"("):
        return None

    def content(text: bytes, at: int) -> int | None:
        for skip in folding_white_space, comment_text, quoted_pair:
            after = skip(text, at)
            if after is not None:
                return after
        return comment(text, at, levels - 1)

    after = many(content, text, at + 1)
    return after + 1 if is_at(text, after, b")") else None


def comment_text(text: bytes, at: int) -> int | None:
    return at + 1 if is_at(text, at, COMMENT_TEXT) else None


def white_or_comment(text: bytes, at: int) -> int | None:
    white = folding_white_space(text, at)
    return comment(text, at) if white is None else white


def spaces(text: bytes, at: int) -> int | None:
    """Comments and white space, at least one."""
    after = white_or_comment(text, at)
    return None if after is None else many(white_or_comment, text, after)


# ---- the date


class MailReader(Reader):
    def skip(self, skip: Skip, is_due: bool) -> None:
        after = skip(self.text, self.at)
        if after is not None:
            self.at = after
        elif is_due:
            raise Refused("literal")

    def name(self, names: list[bytes]) -> int | None:
        """Returns the place of a name of three letters in a list, in any case."""
        front = self.text[self.at : self.at + 3].lower()
        if front not in names:
            return None
        self.at += 3
        return names.index(front)

    def spaced_colon(self) -> bool:
        start = self.at
        self.skip(spaces, False)
        if not self.take(b":"):
            self.at = start
            return False
        self.skip(spaces, False)
        return True

    def year(self) -> int:
        year = self.digits(4)
        if year is not None:
            if year < 1900:
                raise Refused.component("year")
            self.skip(folding_white_space, True)
            return year
        year = self.number(2, "year", 0, 99)
        self.skip(spaces, True)
        return year + (2000 if year < 50 else 1900)

    def zone_name(self) -> int:
        """Returns hours west; the names with fewer than three letters are read where fewer than three bytes are left."""
        rest = self.text[self.at :]
        hours = ZONES.get(rest[:3].lower())
        is_letter = len(rest) < 3 and rest[:1].isalpha() and rest[:1].lower() != b"j"
        if hours is None and not is_letter:
            raise Refused.component("offset hour")
        self.at += 3 if hours is not None else 2 if rest.lower() == b"ut" else 1
        return hours or 0


def read(text: bytes, is_strict: bool) -> tuple[Record, int]:
    """Returns the parts of a date at the start of a text, and the place after it."""
    parts: Record = {}
    reader = MailReader(text)

    def number(name: str, low: int, high: int) -> int:
        return reader.number(2, name, low if is_strict else 0, high if is_strict else 99)

    reader.skip(spaces, False)
    weekday = reader.name(WEEKDAY_NAMES)
    if weekday is not None:
        parts["weekday"] = weekday
        reader.due(b",")
        reader.skip(spaces, False)
    count = 2 if reader.text[reader.at + 1 : reader.at + 2].isdigit() else 1
    parts["day"] = reader.number(count, "day", 1 if is_strict else 0, 31 if is_strict else 99)
    reader.skip(spaces, True)
    month = reader.name(MONTH_NAMES)
    if month is None:
        raise Refused.component("month")
    parts["month"] = month + 1
    reader.skip(spaces, True)
    parts["year"] = reader.year()
    parts["hour_24"] = number("hour", 0, 23)
    if not reader.spaced_colon():
        raise Refused("literal")
    parts["minute"] = number("minute", 0, 59)
    if reader.spaced_colon():
        parts["second"] = number("second", 0, 60)
    reader.skip(spaces, True)
    sign = reader.take(b"+-")
    if sign:
        factor = -1 if sign == b"-" else 1
        parts["offset_hour"] = factor * number("offset hour", 0, 25)
        parts["offset_minute"] = factor * number("offset minute", 0, 59)
    else:
        parts.update(offset_hour=-reader.zone_name(), offset_minute=0, offset_second=0)
    reader.skip(spaces, False)
    return parts, reader.at


def into_record(record: Record, text: bytes) -> tuple[Record, int]:
    """Returns a record with what the prefix of a text says, and the place after it."""
    parts, at = read(text, is_strict=True)
    return {**record, **parts, "leap_second_is_permitted": True}, at


def moment(text: bytes) -> Moment:
    """Returns the moment of a whole text, or raises its first fault: the end, the date, the time, the offset, the leap second."""
    parts, at = read(text, is_strict=False)
    if at < len(text):
        raise Refused("trailing")
    day = calendar.day_of_month(parts["year"], parts["month"], parts["day"])
    second = parts.get("second", 0)
    time = calendar.permitted_time_of(True, parts["hour_24"], parts["minute"], second, 0)
    offset = calendar.offset_of(parts["offset_hour"], parts["offset_minute"], 0)
    return calendar.leap_checked(second == 60, Moment(day * DAY + time, offset))

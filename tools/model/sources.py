"""A source: what a line, or the bytes from a place of a line on, say by it."""

from collections.abc import Iterator
from typing import NamedTuple

from . import edges, iso8601, record, rfc2822, rfc3339
from .calendar import Moment
from .components import Component, Compound, Item, Items, Literal, Part, Record, components_of, read_all
from .faults import Refused

# How each format reads a prefix into a record, and how some read the moment of a whole line by themselves.
FORMATS = {"rfc3339": rfc3339.into_record, "rfc2822": rfc2822.into_record, "iso8601": iso8601.into_record}
DIRECT = {"rfc3339": rfc3339.moment, "rfc2822": rfc2822.moment}
SILENT = ("ignore", "end")
MONTHS = ("month", "month_short", "month_long")
WEEKDAYS = ("weekday_short", "weekday_long", "weekday_sunday", "weekday_monday")


class Lengths(NamedTuple):
    """Where in a prefix its date begins and ends, where the word of its zone ends, and whether text before it chose the place."""

    begins: int
    ends: int
    zone: int
    is_chosen: bool


def is_silent(item: Item) -> bool:
    """Whether an item says nothing of a date."""
    return all(it.kind in SILENT for it in components_of(item))


def sure_components(item: Item) -> Iterator[Component]:
    """Yields the components that stand outside of all choices."""
    if isinstance(item, Part):
        yield item.component
    elif isinstance(item, Compound):
        for it in item.items:
            yield from sure_components(it)


class Source:
    """`kind` is a format, or `items` for the items of version 1, version 2 or strftime, or `v3`."""

    def __init__(self, kind: str, items: Items = ()) -> None:
        self.kind, self.items, self.is_three = kind, items, kind == "v3"
        self.kinds = {it.kind for it in components_of(Compound(tuple(items)))}
        self.sure = {it.kind for it in sure_components(Compound(tuple(items)))}
        first = 0
        while first < len(items) and is_silent(items[first]):
            first += 1
        last = len(items)
        while last and is_silent(items[last - 1]):
            last -= 1
        written = last
        while written < len(items) and isinstance(items[written], Literal):
            written += 1
        self.before_first, self.up_to_last, self.with_text = items[:first], items[:last], items[:written]

    # ---- reading

    def into_record(self, start: Record, text: bytes) -> tuple[Record, int]:
        """Returns a record with what the prefix of a text says, and the place after it."""
        if self.kind in FORMATS:
            return FORMATS[self.kind](start, text)
        return read_all(self.items, start, text, 0, self.is_three)

    def moment_of_line(self, assumed: int | None, line: bytes) -> Moment:
        """Returns the moment of a whole line, or raises its fault."""
        if assumed is None and self.kind in DIRECT:
            return DIRECT[self.kind](line)
        start = {} if assumed is None else record.with_offset({}, assumed)
        read, at = self.into_record(start, line)
        if at < len(line):
            raise Refused("trailing")
        return record.moment_named(read)

    def text_for(self, line: bytes, place: int) -> bytes:
        """Returns what the source is given of a line from a place on."""
        text = line[place : place + edges.WINDOW]
        if self.kind == "iso8601":
            return edges.iso_text(text)
        return edges.mail_text(text) if self.kind == "rfc2822" else text

    def front(self, text: bytes) -> tuple[Record, int] | None:
        """Returns the record of the prefix of a text, from no record, and the place after it; or None."""
        # (a mail's date begins with its weekday or its day, and not with white space or a comment)
        if self.kind == "rfc2822" and not text[:1].isalnum():
            return None
        try:
            return self.into_record({}, text)
        except Refused:
            return None

    def lengths(self, text: bytes, at: int) -> Lengths:
        if self.kind in FORMATS:
            long = edges.trimmed_length(text[:at])
            return Lengths(0, long, long, False)
        begins = self.length_of(self.before_first, text)
        ends = edges.trimmed_length(text[: self.length_of(self.up_to_last, text)])
        written = self.length_of(self.with_text, text)
        zone = ends + edges.zone_length(text[ends:written])
        return Lengths(begins + edges.blanks(text[begins:]), ends, zone, begins > 0)

    def length_of(self, items: Items, text: bytes) -> int:
        """Returns how many bytes some items read, 0 where they are refused."""
        try:
            return read_all(items, {}, text, 0, self.is_three)[1]
        except Refused:
            return 0

    # ---- what it lacks

    def may(self, *kinds: str) -> bool:
        """Whether a component of one of these kinds is in it."""
        return bool(self.kinds & set(kinds))

    def always(self, *kinds: str) -> bool:
        """Whether one is in it outside of all choices."""
        return bool(self.sure & set(kinds))

    def lack(self, has_offset: bool, has_year: bool, has_time: bool) -> str | None:
        """Returns what it never names and nobody gives, the first of these, or None. The well-known formats lack nothing."""
        if self.kind in FORMATS or self.may("unix"):
            return None
        has_century, has_last_two = self.may("century", "iso_century"), self.may("last_two", "iso_last_two")
        takes_year = has_year and not self.always("year", "century", "iso_year", "iso_century")
        is_year = self.may("year") or (has_century and has_last_two) or takes_year
        is_iso_year = self.may("iso_year") or (has_last_two and (has_century or takes_year))
        if not (is_year or is_iso_year):
            return "year"
        is_day = self.may("ordinal") or (self.may(*MONTHS) and self.may("day")) or (self.may("week_sunday", "week_monday") and self.may(*WEEKDAYS))
        if not ((is_year and is_day) or (is_iso_year and self.may("week_iso") and self.may(*WEEKDAYS))):
            return "day"
        is_hour = self.may("hour_24") or (self.may("hour_12") and self.may("period"))
        is_gap = (self.always("second") and not self.may("minute")) or (self.always("subsecond") and not self.may("second"))
        takes_time = has_time and not self.always("hour_24", "hour_12", "period", "minute", "second", "subsecond")
        if not ((is_hour and not is_gap) or takes_time):
            return "time of day"
        return None if self.may("offset_hour") or has_offset else "offset"

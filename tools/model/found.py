"""The date of a line: the longest one that stands whole, at the first place at which a source reads one."""

from collections.abc import Sequence
from typing import NamedTuple

from . import edges
from .calendar import SECOND, Moment
from .components import Record
from .faults import Refused
from .record import TIME_PARTS, YEAR_PARTS, moment_named, with_offset
from .sources import Source
from .zones import Zone

LEAST_UNIX, GREATEST_UNIX = 10**17, 10**19


class Given(NamedTuple):
    """What is given for dates that lack it: an offset, a year or the moment of the date above, a time of day in minutes, and the zone
    on whose clock dates are that say no offset. With a zone they are read at the offset 0 first."""

    offset: int | None = None
    year: int | None = None
    above: Moment | None = None
    minutes: int | None = None
    zone: Zone | None = None

    def below(self, moment: Moment) -> "Given":
        """Returns what is given below a date: where a year is given, the date above decides it, with a zone by its own clock."""
        has_year = self.year is not None or self.above is not None
        above = moment._replace(offset=0) if self.zone else moment
        return self._replace(year=None, above=above) if has_year else self


class Date(NamedTuple):
    start: int
    end: int
    source: int
    moment: Moment


class Candidate(NamedTuple):
    """A date that a source reads, how far it reaches for sure, and why it does not stand whole, or None."""

    date: Date
    reach: int
    doubt: str | None


class Settled(NamedTuple):
    """The moment of a date, the offset that is assumed for it, and why its zone's clock names none, or None."""

    moment: Moment
    offset: int | None
    doubt: str | None


class Doubtful(NamedTuple):
    """The line's date is in doubt: none of those that are read there stands whole."""

    read: tuple[Candidate, ...]


# ---- the moment of a prefix


def year_given(year: int, read: Record) -> Record:
    """Returns the year for a record without one; of two digits alone the year of its hundred that is nearest to a given one."""
    parts = [it for it in YEAR_PARTS if it in read]
    if not parts:
        return {"year": year}
    if parts not in (["last_two"], ["iso_last_two"]):
        return {}
    digits = read[parts[0]]
    return {parts[0].replace("last_two", "year"): digits + (year - digits + 49) // 100 * 100}


def moment_in(given: Given, year: int | None, read: Record) -> Moment | None:
    """Returns the moment of a record, with what is given in place of what was not read, or None."""
    record = dict(read)
    if given.minutes is not None and not any(it in read for it in TIME_PARTS):
        record["hour_24"], record["minute"] = divmod(given.minutes, 60)
    if year is not None:
        record.update(year_given(year, read))
    if given.offset is not None and "offset_hour" not in read:
        record = with_offset(record, given.offset)
    try:
        return moment_named(record)
    except Refused:
        return None


def moment_of(given: Given, read: Record) -> Moment | None:
    """Near a moment above, of the three years round its year the one that brings the date nearest, the first of equals."""
    if given.above is None:
        return moment_in(given, given.year, read)
    year, instant = given.above.year(), given.above.instant()
    moments = [it for near in (year - 1, year, year + 1) if (it := moment_in(given, near, read))]
    return min(moments, key=lambda it: abs(it.instant() - instant)) if moments else None


def is_likely(read: Record) -> bool:
    """A number of Unix time inside a line has nine or ten digits of seconds."""
    return "unix" not in read or LEAST_UNIX <= abs(read["unix"]) < GREATEST_UNIX


# ---- a date on the clock of a zone


def is_said(zone: Zone, line: bytes, start: int, ends: int, moment: int) -> bool:
    """Whether the clock has at a moment what the line says after a date, an offset and an abbreviation of the zone, and inside of it,
    each abbreviation of the zone."""
    offset = edges.offset_after(line[ends : ends + edges.REACH])
    inside = all(has_name(zone, line, place, moment) for place in range(start, ends) if edges.is_edge(line, place))
    return inside and has_name(zone, line, ends, moment) and offset in (None, zone.offset_at(moment))


def has_name(zone: Zone, line: bytes, ends: int, moment: int) -> bool:
    word = edges.word_after(line, ends)
    return not zone.is_name(word) or word == zone.name_at(moment)


def settled(given: Given, read: Record, line: bytes, start: int, ends: int, moment: Moment) -> Settled:
    """Returns the moment at which the zone's clock shows a date that says no offset; of two the one of which the line says what the
    clock has there."""
    if given.zone is None or "offset_hour" in read or "unix" in read:
        return Settled(moment, given.offset, None)
    reading = moment.wall // SECOND
    moments = given.zone.moments(reading)
    said = [it for it in moments if is_said(given.zone, line, start, ends, it)]
    if len(moments) == 1:
        doubt = None if has_name(given.zone, line, ends, moments[0]) else "another offset"
        return Settled(Moment(moment.wall, reading - moments[0]), reading - moments[0], doubt)
    if len(moments) == 2 and len(said) == 1:
        return Settled(Moment(moment.wall, reading - said[0]), reading - said[0], None)
    if not moments:
        return Settled(moment, None, "skipped by the clock")
    return Settled(moment, None, "twice by the clock" if said or len(moments) > 2 else "another offset")


# ---- a date at a place


def otherwise(given: Given, read: Record, line: bytes, start: int, begins: int, ends: int, date: Settled) -> str | None:
    """Returns what the line says otherwise beside the date than what was given to it, or None."""
    if "unix" in read:
        return None
    needs_offset = date.offset is not None and "offset_hour" not in read
    needs_time = given.minutes is not None and not any(it in read for it in TIME_PARTS)
    needs_year = (given.year is not None or given.above is not None) and not any(it in read for it in YEAR_PARTS)
    if needs_offset and edges.has_another_offset(line, start, ends, date.offset or 0):
        return "another offset"
    if (needs_offset and "is_pm" not in read and edges.has_half_after(line, ends)) or (needs_time and edges.has_clock_beside(line, begins, ends)):
        return "another time"
    return "another year" if needs_year and edges.has_another_year(line, begins, ends, date.moment.year()) else None


def candidate(given: Given, line: bytes, place: int, number: int, source: Source) -> Candidate | None:
    """Returns the date that a source reads at a place, or None."""
    text = source.text_for(line, place)
    front = source.front(text)
    moment = moment_of(given, front[0]) if front and is_likely(front[0]) else None
    if not (front and moment):
        return None
    read, after = front
    long = source.lengths(text, after)
    begins, ends, zone = place + long.begins, place + long.ends, place + long.zone
    is_edge = edges.is_edge(line, place + edges.trimmed_length(text[:after]))
    if not edges.may_say(line, begins) or ("unix" in read and not is_edge):
        return None
    date = settled(given, read, line, place, ends, moment)
    doubt: str | None
    if not is_edge:
        doubt = "goes on"
    elif not long.is_chosen and edges.has_clock_in_front(line, begins):
        doubt = "clock in front"
    else:
        doubt = date.doubt or otherwise(given, read, line, place, begins, ends, date)
    return Candidate(Date(begins, zone, number, date.moment), edges.reach(line, begins, ends, zone), doubt)


# ---- the date of a line


def at_place(given: Given, sources: Sequence[Source], line: bytes, place: int) -> Date | Doubtful | None:
    if not edges.is_edge(line, place):
        return None
    read = [it for number, source in enumerate(sources) if (it := candidate(given, line, place, number, source))]
    whole = [it for it in read if it.doubt is None]
    if whole:
        return max(whole, key=lambda it: it.reach).date
    return Doubtful(tuple(read)) if read else None


def found(limit: int, given: Given, sources: Sequence[Source], line: bytes) -> Date | Doubtful | None:
    """Returns the date, or that it is in doubt, or None. Of the line no more is looked at than may be of a date or beside it."""
    line = line[: limit + edges.WINDOW + 64]
    for place in range(min(limit, len(line))):
        there = at_place(given, sources, line, place)
        if there:
            return there
    return None

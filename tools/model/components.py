"""What each component of a description reads at a place of a text, and what it sets in a record."""

from collections.abc import Callable, Iterator, Sequence
from dataclasses import dataclass
from typing import NamedTuple

from .calendar import FIRST_WALL, GREATEST_YEAR, LAST_WALL
from .faults import Refused

MONTHS = [b"January", b"February", b"March", b"April", b"May", b"June", b"July", b"August", b"September", b"October", b"November", b"December"]
WEEKDAYS = [b"Monday", b"Tuesday", b"Wednesday", b"Thursday", b"Friday", b"Saturday", b"Sunday"]
UNITS = {"second": (10**9, 14), "millisecond": (10**6, 17), "microsecond": (10**3, 20), "nanosecond": (1, 23)}
DIGITS = range(48, 58)


@dataclass(frozen=True)
class Component:
    """A component by its kind, with the modifiers that matter to it."""

    kind: str
    padding: str = "zero"
    is_signed: bool = False  # a sign is due
    is_extended: bool = False  # the range of a year
    is_cased: bool = True  # the case of letters counts
    is_upper: bool = True  # of AM and PM
    from_one: bool = True  # the first day of the week is 1
    digits: int = 0  # of a fraction; 0 stands for one or more
    count: int = 0  # of bytes to ignore
    unit: str = "second"  # of Unix time
    discards: bool = False  # the end, with all that is left


# The values of components by name, and what a component says: those that it sets, and the place after it.
Record = dict[str, int]
Said = tuple[Record, int] | None
Shape = Callable[[int], tuple[int, int] | None]
ReaderOf = Callable[[Component, bytes, int], Said]


# ---- the shapes: each gives what the longest prefix that has the shape says, and the place after it, or None


def digit_count(text: bytes, at: int, most: int) -> int:
    count = 0
    while count < most and at + count < len(text) and text[at + count] in DIGITS:
        count += 1
    return count


def digits(text: bytes, at: int, least: int, most: int) -> tuple[int, int] | None:
    count = digit_count(text, at, most)
    return (int(text[at : at + count]), at + count) if count >= least else None


def spaced(text: bytes, at: int, least: int, most: int) -> tuple[int, int] | None:
    """Fewer spaces than the least width, and then digits, which fill at least that width."""
    spaces = 0
    while at + spaces < len(text) and text[at + spaces] == 32:
        spaces += 1
    return digits(text, at + spaces, least - spaces, most - spaces) if spaces < least else None


def padded(padding: str, text: bytes, at: int, least: int, most: int) -> tuple[int, int] | None:
    if padding == "zero":
        return digits(text, at, least, most)
    return spaced(text, at, least, most) if padding == "space" else digits(text, at, 1, most)


def signed(text: bytes, at: int, is_due: bool, after_sign: Shape, bare: Shape) -> tuple[bool, int, int] | None:
    """One shape after a sign, and another where there is none; with whether the sign is a minus."""
    if text[at : at + 1] in (b"+", b"-"):
        found = after_sign(at + 1)
        return found and (text[at : at + 1] == b"-", *found)
    found = None if is_due else bare(at)
    return found and (False, *found)


def named(text: bytes, at: int, is_cased: bool, names: Sequence[bytes]) -> tuple[int, int] | None:
    """One of these names; none of them begins another."""
    for place, name in enumerate(names):
        front = text[at : at + len(name)]
        if front == name or (not is_cased and front.lower() == name.lower()):
            return place, at + len(name)
    return None


def fraction(text: bytes, at: int, least: int, most: int) -> tuple[int, int] | None:
    count = digit_count(text, at, most)
    if count < least:
        return None
    return int(text[at : at + count]) * 10**9 // 10**count, at + count


# ---- the components: each gives what it sets, and the place after it, or None


def number(component: Component, text: bytes, at: int, width: int, low: int, high: int, field: str) -> Said:
    found = padded(component.padding, text, at, width, width)
    return ({field: found[0]}, found[1]) if found and low <= found[0] <= high else None


def year(component: Component, text: bytes, at: int, field: str) -> Said:
    p, most = component.padding, 6 if component.is_extended else 4
    found = signed(text, at, component.is_signed, lambda it: padded(p, text, it, 4, most), lambda it: padded(p, text, it, 4, 4))
    if not found or found[1] > GREATEST_YEAR:
        return None
    return {field: -found[1] if found[0] else found[1]}, found[2]


def century(component: Component, text: bytes, at: int, field: str) -> Said:
    p, most = component.padding, 4 if component.is_extended else 2
    found = signed(text, at, component.is_signed, lambda it: padded(p, text, it, 2, most), lambda it: padded(p, text, it, 1, 2))
    if not found:
        return None
    return {field: -found[1] if found[0] else found[1], f"{field}_is_negative": found[0]}, found[2]


def offset_hour(component: Component, text: bytes, at: int) -> Said:
    def bare(place: int) -> tuple[int, int] | None:
        return padded(component.padding, text, place, 2, 2)

    found = signed(text, at, component.is_signed, bare, bare)
    if not found or found[1] > 25:
        return None
    return {"offset_hour": -found[1] if found[0] else found[1], "offset_is_negative": found[0]}, found[2]


def unix(component: Component, text: bytes, at: int) -> Said:
    nanoseconds, most = UNITS[component.unit]

    def bare(place: int) -> tuple[int, int] | None:
        return digits(text, place, 1, most)

    found = signed(text, at, component.is_signed, bare, bare)
    if not found:
        return None
    since = found[1] * nanoseconds * (-1 if found[0] else 1)
    return ({"unix": since}, found[2]) if FIRST_WALL <= since <= LAST_WALL else None


def name(component: Component, text: bytes, at: int, names: Sequence[bytes], field: str, first: int) -> Said:
    found = named(text, at, component.is_cased, names)
    return found and ({field: found[0] + first}, found[1])


def weekday_digit(component: Component, text: bytes, at: int, first_day: int) -> Said:
    """A digit that counts from Monday, which is day 0 after Monday, or from Sunday, which is day 6."""
    found = digits(text, at, 1, 1)
    if not found:
        return None
    place = found[0] - component.from_one
    return ({"weekday": (place + first_day) % 7}, found[1]) if 0 <= place <= 6 else None


def period(component: Component, text: bytes, at: int) -> Said:
    """The case counts only where it counts and is upper."""
    found = named(text, at, component.is_upper and component.is_cased, (b"AM", b"PM"))
    return found and ({"is_pm": found[0]}, found[1])


def subsecond(component: Component, text: bytes, at: int) -> Said:
    found = fraction(text, at, component.digits or 1, component.digits or 32)
    return found and ({"subsecond": found[0]}, found[1])


def ignored(component: Component, text: bytes, at: int) -> Said:
    return ({}, at + component.count) if at + component.count <= len(text) else None


def of_number(width: int, low: int, high: int, field: str) -> ReaderOf:
    return lambda component, text, at: number(component, text, at, width, low, high, field)


def of_name(names: Sequence[bytes], field: str, first: int) -> ReaderOf:
    return lambda component, text, at: name(component, text, at, names, field, first)


# Each kind: the name in a fault, and its reader.
KINDS: dict[str, tuple[str, ReaderOf]] = {
    "year": ("year", lambda c, text, at: year(c, text, at, "year")),
    "century": ("year", lambda c, text, at: century(c, text, at, "century")),
    "last_two": ("year", of_number(2, 0, 99, "last_two")),
    "iso_year": ("year", lambda c, text, at: year(c, text, at, "iso_year")),
    "iso_century": ("year", lambda c, text, at: century(c, text, at, "iso_century")),
    "iso_last_two": ("year", of_number(2, 0, 99, "iso_last_two")),
    "month": ("month", of_number(2, 1, 12, "month")),
    "month_long": ("month", of_name(MONTHS, "month", 1)),
    "month_short": ("month", of_name([it[:3] for it in MONTHS], "month", 1)),
    "day": ("day", of_number(2, 1, 31, "day")),
    "ordinal": ("ordinal", of_number(3, 1, 366, "ordinal")),
    "weekday_long": ("weekday", of_name(WEEKDAYS, "weekday", 0)),
    "weekday_short": ("weekday", of_name([it[:3] for it in WEEKDAYS], "weekday", 0)),
    "weekday_sunday": ("weekday", lambda c, text, at: weekday_digit(c, text, at, 6)),
    "weekday_monday": ("weekday", lambda c, text, at: weekday_digit(c, text, at, 0)),
    "week_iso": ("week number", of_number(2, 1, 53, "iso_week")),
    "week_sunday": ("week number", of_number(2, 0, 53, "sunday_week")),
    "week_monday": ("week number", of_number(2, 0, 53, "monday_week")),
    "hour_24": ("hour", of_number(2, 0, 23, "hour_24")),
    "hour_12": ("hour", of_number(2, 1, 12, "hour_12")),
    "minute": ("minute", of_number(2, 0, 59, "minute")),
    "second": ("second", of_number(2, 0, 60, "second")),
    "period": ("period", period),
    "subsecond": ("subsecond", subsecond),
    "offset_hour": ("offset hour", offset_hour),
    "offset_minute": ("offset minute", of_number(2, 0, 59, "offset_minute")),
    "offset_second": ("offset second", of_number(2, 0, 59, "offset_second")),
    "unix": ("unix_timestamp", unix),
    "ignore": ("ignore", ignored),
}


def read_component(component: Component, text: bytes, at: int, is_three: bool) -> tuple[Record, int]:
    """Returns what a component sets and the place after it; in version 3 no character goes on after bytes that are ignored."""
    if component.kind == "end":
        if component.discards or at == len(text):
            return {}, len(text)
        raise Refused("trailing")
    fault, reader = KINDS[component.kind]
    found = reader(component, text, at)
    is_cut = is_three and component.kind == "ignore" and found and 128 <= (text[found[1] : found[1] + 1] or b"\0")[0] < 192
    if not found or is_cut:
        raise Refused.component(fault)
    return found


# ---- the items of a description, and what they read one after another


class Literal(NamedTuple):
    text: bytes


class Part(NamedTuple):
    component: Component


@dataclass(frozen=True)
class Compound:
    items: tuple["Item", ...]


@dataclass(frozen=True)
class Maybe:
    item: "Item"


@dataclass(frozen=True)
class First:
    items: tuple["Item", ...]


Item = Literal | Part | Compound | Maybe | First
Items = tuple[Item, ...]


def read_all(items: Items, record: Record, text: bytes, at: int, is_three: bool) -> tuple[Record, int]:
    for item in items:
        record, at = read_item(item, record, text, at, is_three)
    return record, at


def read_first(items: Items, record: Record, text: bytes, at: int, is_three: bool) -> tuple[Record, int]:
    """Returns what the first item that reads reads, or raises the fault of the first."""
    fault = None
    for item in items:
        try:
            return read_item(item, record, text, at, is_three)
        except Refused as refused:
            fault = fault or refused
    if fault:
        raise fault
    return record, at


def read_item(item: Item, record: Record, text: bytes, at: int, is_three: bool) -> tuple[Record, int]:
    """Returns the record with what an item says, and the place after it."""
    if isinstance(item, Literal):
        if text[at : at + len(item.text)] != item.text:
            raise Refused("literal")
        return record, at + len(item.text)
    if isinstance(item, Part):
        said, at = read_component(item.component, text, at, is_three)
        return {**record, **said}, at
    if isinstance(item, Compound):
        return read_all(item.items, record, text, at, is_three)
    if isinstance(item, First):
        return read_first(item.items, record, text, at, is_three)
    try:
        return read_item(item.item, record, text, at, is_three)
    except Refused:
        return record, at


def components_of(item: Item) -> Iterator[Component]:
    """Yields the components of an item, nested ones too."""
    if isinstance(item, Part):
        yield item.component
    elif isinstance(item, Maybe):
        yield from components_of(item.item)
    elif isinstance(item, (Compound, First)):
        for it in item.items:
            yield from components_of(it)

"""The clock of a zone: a TZif file of RFC 9636, read into steps, and after its table the steps of its footer's rule up to the year 9999.

Moments and readings are seconds: a moment since 1970 began in UTC, a reading since the clock showed that it began.
"""

import bisect
import functools
import os
import re
import stat
import struct
from typing import NamedTuple

from .calendar import day_number, days_in_month, weekday_of
from .faults import WrongWords

FOLDER = "/usr/share/zoneinfo"
GREATEST_FILE = 65_536
LAST_YEAR = 9999
EARLIEST = -(2**63)
DAY, HOUR = 86_400, 3600
# Each offset is less than that, on either side.
BOUND = 26 * HOUR
LEAST_NAME = 3
HEADER = struct.Struct(">4sc15x6L")
TYPE = struct.Struct(">lBB")

# What is wrong with a file.
LONG = "it has more than 65536 bytes"
NO_HEADER = "it does not begin as one"
VERSION = "its version is not known"
CUT = "it is cut off"
LEAP_SECONDS = "it counts leap seconds; take the zone without right/"
UNKNOWN_TYPE = "a transition is to nothing that is there"
OFFSET = "an offset is 26 hours or more"
ORDER = "its transitions are not in order"
FOOTER = "the rule at its end can't be read"
CROSSING = "by the rule at its end the years are not in order"
DISAGREES = "the rule at its end is not as its last transition"


class BadFile(Exception):
    """A file holds no zone; the text says why."""


def check(holds: bool, why: str) -> None:
    if not holds:
        raise BadFile(why)


class Step(NamedTuple):
    """From a moment on the clock is ahead of UTC by an offset, and has an abbreviation."""

    start: int
    offset: int
    name: bytes


class Zone:
    """What a clock shows: as one step says from ever on, until the next begins. `letters` are its abbreviations, each ended by a 0."""

    def __init__(self, first: Step, steps: list[Step], letters: bytes) -> None:
        self.steps = [first._replace(start=-(10**30)), *steps]
        self.starts = [it.start for it in self.steps]
        parts = letters.split(b"\0")
        self.names = {part[at:] for part in parts for at in range(len(part) - LEAST_NAME + 1)}

    def step_at(self, moment: int) -> Step:
        return self.steps[bisect.bisect_right(self.starts, moment) - 1]

    def offset_at(self, moment: int) -> int:
        return self.step_at(moment).offset

    def name_at(self, moment: int) -> bytes:
        return self.step_at(moment).name

    def is_name(self, word: bytes) -> bool:
        """Whether a word is one of its abbreviations, or an end of one, since a file may hold one in another."""
        return word in self.names

    def moments(self, reading: int) -> list[int]:
        """Returns the moments at which the clock shows a reading, in order."""
        first = bisect.bisect_right(self.starts, reading - BOUND) - 1
        last = bisect.bisect_right(self.starts, reading + BOUND)
        offsets = {it.offset for it in self.steps[max(first, 0) : last]}
        return sorted(it for it in (reading - offset for offset in offsets) if it + self.offset_at(it) == reading)


# ---- a rule: POSIX.1-2024, section 8.3, with the times of RFC 9636, section 3.3


class Change(NamedTuple):
    """The day of a year, as `J59`, `59` or `M3.5.0`, and the seconds from its midnight on."""

    day: bytes
    time: int

    def day_in(self, year: int) -> int:
        """Returns the number of the day in a year."""
        first = day_number(year, 1, 1)
        if self.day[:1] == b"J":
            number = int(self.day[1:])
            return first + number - 1 + (number >= 60 and days_in_month(year, 2) == 29)
        if self.day[:1] != b"M":
            return first + int(self.day)
        month, week, weekday = (int(it) for it in self.day[1:].split(b"."))
        first = day_number(year, month, 1)
        day = first + (weekday - 1 - weekday_of(first)) % 7 + 7 * (week - 1)
        return day if day < first + days_in_month(year, month) else day - 7


class Rule(NamedTuple):
    """The offsets and names of standard and of summer time, and how the latter begins and ends; without a start there is none."""

    offset: int
    name: bytes
    summer_offset: int = 0
    summer_name: bytes = b""
    start: Change | None = None
    end: Change | None = None

    def changes_in(self, year: int) -> list[Step]:
        """Returns how the clock changes in a year: summer time begins by the clock of standard time, and ends by its own."""
        if self.start is None or self.end is None:
            return []
        start = self.start.day_in(year) * DAY + self.start.time - self.offset
        end = self.end.day_in(year) * DAY + self.end.time - self.summer_offset
        changes = [Step(start, self.summer_offset, self.summer_name), Step(end, self.offset, self.name)]
        return changes if start <= end else changes[::-1]


NAME = rb"(?:([A-Za-z]{3,})|<([A-Za-z0-9+-]{3,})>)"
TIME = rb"([+-]?)([0-9]+)(?::([0-9]+)(?::([0-9]+))?)?"
CHANGE = rb",(J[0-9]+|M[0-9]+\.[0-9]+\.[0-9]+|[0-9]+)(?:/" + TIME + rb")?"
RULE = re.compile(NAME + TIME + rb"(?:" + NAME + rb"(?:" + TIME + rb")?" + CHANGE + CHANGE + rb")?")


def time_said(parts: tuple[bytes | None, ...], most_hours: int) -> int:
    """Returns the seconds of a sign, hours, minutes and seconds."""
    hours, minutes, seconds = (int(it or b"0") for it in parts[1:])
    check(hours <= most_hours and minutes <= 59 and seconds <= 59, FOOTER)
    return (hours * HOUR + minutes * 60 + seconds) * (-1 if parts[0] == b"-" else 1)


def change_said(day: bytes, time: tuple[bytes | None, ...]) -> Change:
    numbers = [int(it) for it in re.findall(rb"[0-9]+", day)]
    least, most = {b"J": ((1,), (365,)), b"M": ((1, 1, 0), (12, 5, 6))}.get(day[:1], ((0,), (365,)))
    check(all(low <= it <= high for low, it, high in zip(least, numbers, most)), FOOTER)
    return Change(day, 2 * HOUR if time[1] is None else time_said(time, 167))


def rule_of(text: bytes) -> Rule:
    """Returns the rule that a text says; its offsets say how far the clock is behind UTC."""
    found = RULE.fullmatch(text)
    if not found:
        raise BadFile(FOOTER)
    parts = found.groups()
    name, offset = parts[0] or parts[1], -time_said(parts[2:6], 24)
    if not (parts[6] or parts[7]):
        return Rule(offset, name)
    summer = offset + HOUR if parts[9] is None else -time_said(parts[8:12], 24)
    return Rule(offset, name, summer, parts[6] or parts[7], change_said(parts[12], parts[13:17]), change_said(parts[17], parts[18:22]))


@functools.lru_cache(maxsize=None)
def changes_of(rule: Rule) -> list[Step]:
    """Returns how the clock changes in all years, which may not come before those of the year before."""
    changes = [step for year in range(1, LAST_YEAR + 2) for step in rule.changes_in(year)]
    check(all(one.start <= later.start for one, later in zip(changes, changes[1:-1])), CROSSING)
    return changes[:-2]


def steps_after(rule: Rule, last: Step) -> list[Step]:
    """Returns the steps of all years after the table's last one; a change at which another has begun already is overtaken by it. The
    rule has to say of the last one's moment what that says, where the time before all changes is standard time."""
    changes = changes_of(rule)
    begun = [it for it in changes if it.start <= last.start]
    check((begun[-1].offset if begun else rule.offset) == last.offset, DISAGREES)
    changes = changes[len(begun) :]
    return [one for one, later in zip(changes, changes[1:]) if one.start < later.start] + changes[-1:]


# ---- a file: RFC 9636, section 3


class Block(NamedTuple):
    """How many bytes its instants have, where its parts begin after its header, and its counts."""

    size: int
    place: int
    ut_flags: int
    standard_flags: int
    leap_seconds: int
    steps: int
    types: int
    letters: int

    def lengths(self) -> tuple[int, ...]:
        """Returns the lengths of its parts: instants, numbers of types, types, letters, leap seconds, two rows of flags."""
        return self.steps * self.size, self.steps, self.types * TYPE.size, self.letters, self.leap_seconds * (self.size + 4), self.standard_flags, self.ut_flags

    def part(self, number: int) -> int:
        return self.place + sum(self.lengths()[:number])

    def end(self) -> int:
        return self.part(7)


def block_at(data: bytes, place: int, size: int) -> Block:
    check(len(data) >= place + HEADER.size, CUT)
    magic, _, *counts = HEADER.unpack_from(data, place)
    check(magic == b"TZif", NO_HEADER)
    return Block(size, place + HEADER.size, *counts)


def block_in(data: bytes) -> Block:
    """Returns the block that counts: the only one of version 1, and else the second, with instants of eight bytes."""
    check(len(data) <= GREATEST_FILE, LONG)
    first = block_at(data, 0, 4)
    check(data[4:5] in b"\x00234", VERSION)
    block = first if data[4] == 0 else block_at(data, first.end(), 8)
    check(block.leap_seconds == 0, LEAP_SECONDS)
    check(block.types > 0 and block.letters > 0, NO_HEADER)
    check(all(it in (0, block.types) for it in (block.ut_flags, block.standard_flags)), NO_HEADER)
    check(len(data) >= block.end(), CUT)
    check(data[block.part(4) - 1] == 0, NO_HEADER)
    return block


def type_at(data: bytes, block: Block, number: int, start: int) -> Step:
    check(number < block.types, UNKNOWN_TYPE)
    offset, _, name = TYPE.unpack_from(data, block.part(2) + number * TYPE.size)
    check(name < block.letters, UNKNOWN_TYPE)
    check(abs(offset) < BOUND, OFFSET)
    return Step(start, offset, data[block.part(3) + name : block.part(4)].split(b"\0")[0])


def table_of(data: bytes, block: Block) -> list[Step]:
    """Returns the first type as a step from the earliest instant on, and the transitions."""
    steps = [type_at(data, block, 0, EARLIEST)]
    times = struct.unpack_from(f">{block.steps}{'q' if block.size == 8 else 'l'}", data, block.part(0))
    for at, (start, number) in enumerate(zip(times, data[block.part(1) : block.part(2)])):
        steps.append(type_at(data, block, number, start))
        check(at == 0 or times[at - 1] < start, ORDER)
    return steps


def footer_of(data: bytes, block: Block) -> bytes:
    if block.size == 4:
        return b""
    found = re.match(rb"\n([^\n]*)\n", data[block.end() :])
    if not found:
        raise BadFile(FOOTER)
    return found[1]


def zone_of(data: bytes) -> Zone:
    """Returns the zone of a file, or raises what is wrong with it, the first of these."""
    block = block_in(data)
    first, *steps = table_of(data, block)
    letters, text = data[block.part(3) : block.part(4)], footer_of(data, block)
    if not text:
        return Zone(first, steps, letters)
    rule = rule_of(text)
    steps += steps_after(rule, steps[-1] if steps else first)
    return Zone(first, steps, letters + rule.name + b"\0" + rule.summer_name + b"\0")


# ---- a zone by its name


def no_zone(text: str) -> WrongWords:
    return WrongWords(os.fsencode(text))


@functools.lru_cache(maxsize=None)
def zone_in(folder: str, name: str) -> Zone:
    """Returns the zone of a name below a folder, or raises WrongWords."""
    if not os.path.isdir(folder):
        raise no_zone(f"no zone {name}: there is no folder {folder}; install tzdata, or set TZDIR")
    path = os.path.join(folder, name)
    try:
        is_file = stat.S_ISREG(os.stat(path).st_mode)
    except OSError:
        raise no_zone(f"no zone {name} below {folder}") from None
    if not is_file:
        raise no_zone(f"{path} is no zone's file: it is no plain file")
    with open(path, "rb") as file:
        data = file.read(GREATEST_FILE + 1)
    try:
        return zone_of(data)
    except BadFile as fault:
        raise no_zone(f"{path} is no zone's file: {fault}") from None


def zone_named(name: bytes) -> Zone:
    """Returns the zone of a name, below TZDIR where that is set, or raises WrongWords."""
    return zone_in(os.environ.get("TZDIR") or FOLDER, name.decode())

"""Zones, and moments near the changes of their clocks, made at random, for tools/try_model.py."""

import datetime
import random
from typing import NamedTuple

from model.zones import Step, Zone, zone_named
from sample_dates import Moment

# Zones of all kinds: negative summer time, half an hour, a lost day, two changes more in a year, two hours, one minute past midnight,
# seconds, none, and the rule of a year's end.
WORDS = [
    "Europe/Berlin", "Europe/Berlin", ":CET", "Europe/Dublin", "Europe/London", "Australia/Lord_Howe", "Pacific/Apia", "Africa/Casablanca",
    "Antarctica/Troll", "America/St_Johns", "Asia/Kathmandu", "America/New_York", "America/Sao_Paulo", "Africa/Monrovia", "Etc/UTC", ":UTC",
    ":EST5EDT", "Asia/Gaza", "America/Nuuk", "Pacific/Auckland", "Pacific/Kiritimati", ":Etc/GMT+12", "Europe/Moscow", "Asia/Tehran",
]  # fmt: skip
# Words that are a zone by their looks, or nearly so.
ODD = [
    ":", "/", ":/", "//", "a/b", ":a.b", "a/b.c", "./a/b", "Europe/Berln", ":Europe/Berlin", "Europe//Berlin", "Europe/Berlin/", "Europe/",
    ":Europe", ":leapseconds", ":tzdata.zi", ":zone", "right/Europe/Berlin", "posix/Europe/Berlin", "+1/2", "Z/x", "OFFSET/x", ":+02:00",
    ":-", ":Z", "::CET", ":c\u00e9t", "a/\u00e9", "a/" + "x" * 62, "a/" + "x" * 63, "europe/berlin", "a b/c", "Etc/GMT+1", "%F/%T", "[day]/[month]",
]  # fmt: skip
YEAR = 31_556_952


class Change(NamedTuple):
    """A change of a clock: how it was until then, and how it is from then on."""

    before: Step
    after: Step


def text_of(offset: int, colon: str) -> str:
    minutes = abs(offset) // 60
    return f"{'-' if offset < 0 else '+'}{minutes // 60:02}{colon}{minutes % 60:02}"


class Clock:
    """Moments of a log in a zone, near the changes of its clock, and now and then in order through one."""

    def __init__(self, rng: random.Random, zone: Zone, year: int | None) -> None:
        self.rng, self.zone = rng, zone
        self.changes = [Change(*it) for it in zip(zone.steps, zone.steps[1:])] or [Change(zone.steps[0], zone.steps[0]._replace(start=0))]
        at = (year or 2023) - 1970
        self.near = [it for it in self.changes if (at - 3) * YEAR < it.after.start < (at + 4) * YEAR]
        self.change = rng.choice(self.near or self.changes)
        # (where a log goes in order, how far apart its lines are, and the moment of the last)
        self.pace = rng.choice([0, 0, 60, 600])
        self.last = self.change.after.start - 100 * self.pace

    def reading(self) -> int:
        """Returns what the clock shows at the next moment."""
        rng = self.rng
        if self.pace:
            self.last += rng.randint(0, 2 * self.pace)
            return self.last + self.zone.offset_at(self.last)
        self.change = rng.choice(self.near if self.near and rng.random() < 0.8 else self.changes)
        beside = rng.choice([0, -1, 1, *(rng.randint(-it, it) for it in (3600, 3600, 3600, 9000, 200_000))])
        return self.change.after.start + rng.choice(self.change).offset + beside

    def moment(self) -> Moment:
        """Returns the next moment as a line says it, by an offset before or after the change."""
        days, second = divmod(self.reading(), 86_400)
        # (what a year of four digits can't say is said of another one)
        date = datetime.date.fromordinal((days + 719_162) % 3_652_058 + 1)
        nanosecond = self.rng.choice([0, 500_000_000, self.rng.randrange(10**9)])
        offset = self.rng.choice(self.change).offset // 60
        return Moment(date.year, date.month, date.day, second // 3600, second // 60 % 60, second % 60, nanosecond, offset)

    def tail(self) -> str:
        """Returns what may stand after a date: an abbreviation or an offset, mostly of the last change."""
        rng = self.rng
        step = rng.choice(rng.choice(self.changes) if rng.random() < 0.15 else self.change)
        name, colon = step.name.decode(), rng.choice(["", ":"])
        offset = text_of(step.offset, colon)
        return rng.choice([
            f" {name}", f" {name}", f" {name}", name, f" {name.lower()}", f" {name} {offset}", f"{name}{offset}", f" ({name})", f" {name}x", f"  {name}",
            f" {name[1:]}", f" {name[:3]}", f" {offset}", f"{offset}", f" {offset[:3]}", f" GMT{offset}", f",{rng.randrange(1000):03} {name}", f".5 {name}",
            f"\x1b[0m {name}", f" {offset} {name}", f" {offset} ({name})", " UTC", "Z",
        ])  # fmt: skip


def clock_of(rng: random.Random, word: str | None, year: int | None) -> Clock | None:
    """Returns the clock of the zone that a word names."""
    return Clock(rng, zone_named(word.removeprefix(":").encode()), year) if word else None

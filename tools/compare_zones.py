#!/usr/bin/env python3
"""Compares the keys that `instants-lines` gives dates on the clocks of all installed zones with `zdump` and with Python's zoneinfo.

    tools/compare_zones.py [--program PATH] [--first-year 1900] [--last-year 2500] [--random 1000] [--only TEXT] [--processes N]

For each zone the program is run once, with the zone in place of the assumed offset and a line for each reading of its clock: each
change that zdump says, by the offset before it and by the one after it, with the second before and the second after, and random
readings between the years. A reading that the clock shows at one moment has the key of that moment; one that is skipped or comes
twice is in doubt.

The moments are found twice. One way takes the changes that zdump prints, and looks which offsets show the reading; the other takes
zoneinfo alone: of the moments that its two folds name those count that show the reading again. Where a footer has a day as `n` or
`Jn` zoneinfo is asked nothing, since it counts such days otherwise. Zones with the same file are each run, and their moments are
found once. It needs zdump, and the database where Python looks for it (TZDIR has to be unset, or to name the same folder).
"""

import argparse
import datetime
import multiprocessing
import os
import pathlib
import random
import re
import subprocess
import sys
import zoneinfo
from typing import NamedTuple

sys.dont_write_bytecode = True

from model.zones import Step, Zone
from try_model import BUILT, PROCESSES, ROOT

EPOCH = datetime.datetime(1970, 1, 1)
SOURCE = ("strftime", "%F %T")
DOUBT = "! doubt"
LINE = re.compile(r"\w{3} (\w{3})\s+(\d+) (\d\d:\d\d:\d\d) (-?\d+) UTC? = .* gmtoff=(-?\d+)$")
NUMBERED = re.compile(rb",J?[0-9]")
# How many differences of a zone are printed.
SHOWN = 5


class Task(NamedTuple):
    """The names of zones with the same file, and what is asked of them."""

    names: list[str]
    path: pathlib.Path
    asked: argparse.Namespace


class Count(NamedTuple):
    one: int = 0
    skipped: int = 0
    repeated: int = 0


class Told(NamedTuple):
    """How many readings have how many moments, in all zones of a task, and the differences, one a line."""

    readings: Count
    different: list[str]


def seconds_at(moment: datetime.datetime) -> int:
    return round((moment - EPOCH).total_seconds())


def date_of(seconds: int) -> datetime.datetime:
    return EPOCH + datetime.timedelta(seconds=seconds)


# ---- what zdump says


def dumped(path: pathlib.Path, first_year: int, last_year: int) -> Zone | None:
    """Returns the clock by what zdump prints of the years, the changes of a name among them; None where it prints no change."""
    said = subprocess.run(["zdump", "-v", "-c", f"{first_year},{last_year}", path], capture_output=True, text=True, check=True)
    steps = []
    for line in said.stdout.splitlines():
        found = LINE.search(line)
        if found:
            month, day, clock, year, offset = found.groups()
            at = datetime.datetime.strptime(f"{int(year):04} {month} {day} {clock}", "%Y %b %d %H:%M:%S")
            steps.append(Step(seconds_at(at), int(offset), b""))
    return Zone(steps[0], steps[1:], b"") if steps else None


def near_changes(zone: Zone | None, first: int, last: int) -> set[int]:
    """Returns the readings at the changes between two years."""
    readings: set[int] = set()
    for before, after in zip(zone.steps, zone.steps[1:]) if zone else ():
        if first <= after.start <= last:
            readings.update(after.start + step.offset + by for step in (before, after) for by in (-1, 0, 1))
    return readings


# ---- what zoneinfo says


def by_zoneinfo(zone: zoneinfo.ZoneInfo, reading: int) -> list[int]:
    """Returns the moments that the two folds name and that show the reading again, in order."""
    wall, moments = date_of(reading), set()
    for fold in (0, 1):
        there = wall.replace(tzinfo=zone, fold=fold)
        moment = (wall - (there.utcoffset() or datetime.timedelta())).replace(tzinfo=datetime.timezone.utc)
        if moment.astimezone(zone).replace(tzinfo=None) == wall:
            moments.add(seconds_at(moment.replace(tzinfo=None)))
    return sorted(moments)


# ---- what the program says


def keys_of(program: str, name: str, readings: list[int]) -> list[str]:
    """Returns the keys of the readings as lines, by one run; what else ends it is an error."""
    word = name if "/" in name else f":{name}"
    lines = "".join(f"{date_of(it)}\n" for it in readings)
    ran = subprocess.run([program, "-q", "key", "+00:00", word, *SOURCE], input=lines, capture_output=True, text=True)
    if ran.returncode:
        return [ran.stderr.strip()] * len(readings)
    return [it.partition("\t")[0] for it in ran.stdout.splitlines()]


def key_of(moments: list[int]) -> str:
    return f"{date_of(moments[0]):%Y-%m-%dT%H:%M:%S}.000000000Z" if len(moments) == 1 else DOUBT


def compare(task: Task) -> Told:
    """Compares the keys of the zones of one file."""
    asked, different = task.asked, []
    first, last = (seconds_at(datetime.datetime(year, 1, 1)) for year in (asked.first_year, asked.last_year + 1))
    clock = dumped(task.path, asked.first_year - 1, asked.last_year + 2)
    chance = random.Random(task.names[0])
    readings = sorted(near_changes(clock, first, last) | {chance.randrange(first, last) for _ in range(asked.random)})
    judges = {"zdump": [clock.moments(it) for it in readings]} if clock else {}
    if not NUMBERED.search(task.path.read_bytes().splitlines()[-1]):
        zone = zoneinfo.ZoneInfo(task.names[0])
        judges["zoneinfo"] = [by_zoneinfo(zone, it) for it in readings]
    for name in task.names:
        keys = keys_of(asked.program, name, readings)
        for judge, moments in judges.items():
            wanted = [key_of(it) for it in moments]
            rows = [f"{name}: {date_of(at)}: {key}; by {judge} {want}" for at, key, want in zip(readings, keys, wanted) if key != want]
            different += rows if len(keys) == len(readings) else [f"{name}: {len(keys)} keys of {len(readings)} lines"]
    found = [len(it) for it in next(iter(judges.values()))]
    here = (found.count(1), found.count(0), len(found) - found.count(0) - found.count(1))
    return Told(Count(*(it * len(task.names) for it in here)), different)


def tasks(asked: argparse.Namespace) -> list[Task]:
    """Returns the installed zones, those with the same file together."""
    by_content: dict[bytes, Task] = {}
    for name in sorted(it for it in zoneinfo.available_timezones() if asked.only in it):
        path = next(it for folder in zoneinfo.TZPATH if (it := pathlib.Path(folder) / name).is_file())
        by_content.setdefault(path.read_bytes(), Task([], path, asked)).names.append(name)
    return list(by_content.values())


def main() -> int:
    parser = argparse.ArgumentParser(description=__doc__, formatter_class=argparse.RawDescriptionHelpFormatter)
    parser.add_argument("--program", default=str(BUILT if os.access(BUILT, os.X_OK) else ROOT / "instants-lines"))
    parser.add_argument("--first-year", type=int, default=1900)
    parser.add_argument("--last-year", type=int, default=2500)
    parser.add_argument("--random", type=int, default=1000, help="how many random readings each file has")
    parser.add_argument("--only", default="", help="zones with this text in their names alone")
    parser.add_argument("--processes", type=int, default=PROCESSES)
    asked = parser.parse_args()
    there = tasks(asked)
    counts, different = [Count()], 0
    with multiprocessing.Pool(asked.processes) as pool:
        for told in pool.imap(compare, there):
            counts.append(told.readings)
            different += len(told.different)
            print("".join(f"{it}\n" for it in told.different[:SHOWN]), end="", flush=True)
    one, skipped, repeated = (sum(it) for it in zip(*counts))
    names = sum(len(it.names) for it in there)
    print(f"{names} zones of {len(there)} files, {one + skipped + repeated} readings: {one} of one moment, {skipped} skipped, {repeated} twice; {different} different")
    return int(different > 0)


if __name__ == "__main__":
    sys.exit(main())

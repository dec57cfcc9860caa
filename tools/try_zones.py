#!/usr/bin/env pytest
"""Tries the built program `instants-lines` with zones in place of the assumed offset: logs over a change of summer time, and each
sentence on a zone that is not there.

    tools/try_zones.py [--instants-lines PROGRAM] [-k WORD]    crates/instants_lines_program/out/instants_lines_program where none is named

The zones are files of crates/zones_tests/data in a folder of their own, which TZDIR names, so nothing depends on the database of the
machine. What is right is said by Python's zoneinfo of the same files.
"""

import csv
import datetime
import io
import os
import pathlib
import random
import re
import shutil
import struct
import subprocess
import sys
import zoneinfo
from collections.abc import Iterator
from typing import NamedTuple

sys.dont_write_bytecode = True

import pytest
from model.lines import answer
from model.zones import zone_in
from program import ROOT

DATA = ROOT / "crates" / "zones_tests" / "data"
FILES = {"Europe/Berlin": "Berlin", "CET": "Berlin", "Europe/Dublin": "Dublin", "America/New_York": "New_York", "America/Sao_Paulo": "Sao_Paulo", "Etc/UTC": "UTC"}
PATIENCE, WRONG = 20, 2
STANDARD, SUMMER = (3600, 0, 4), (7200, 1, 8)
LETTERS = b"LMT\0CET\0CEST\0"
PLAIN = ("strftime", "%F %T")


class Zones(NamedTuple):
    """The program, and the folder of its zones."""

    program: pathlib.Path
    folder: pathlib.Path

    def call(self, *words: str, given: str = "", **environment: str) -> tuple[int, list[str], str]:
        """Returns the status of a call, the lines that it writes, and what it says, without the program's name."""
        known = {**os.environ, "TZDIR": str(self.folder), **environment}
        ran = subprocess.run([self.program, "-q", *words], input=given, capture_output=True, text=True, env=known, timeout=PATIENCE)
        return ran.returncode, ran.stdout.splitlines(), ran.stderr.replace("instants-lines: ", "").replace(str(self.folder), "DIR")

    def keys(self, *words: str, lines: list[str]) -> list[str]:
        """Returns what stands before the first tab of each line that is written."""
        status, written, said = self.call(*words, given="".join(f"{it}\n" for it in lines))
        assert (status, said) == (0, "")
        return [it.partition("\t")[0] for it in written]

    def clock(self, name: str) -> zoneinfo.ZoneInfo:
        with open(self.folder / name, "rb") as file:
            return zoneinfo.ZoneInfo.from_file(file, name)


@pytest.fixture
def zones(instants_lines: pathlib.Path, tmp_path: pathlib.Path) -> Iterator[Zones]:
    folder = tmp_path / "zones"
    for name, file in FILES.items():
        (folder / name).parent.mkdir(parents=True, exist_ok=True)
        shutil.copy(DATA / file, folder / name)
    yield Zones(instants_lines, folder)


# ---- a zone that is not there


def tzif(
    times: tuple[int, ...] = (0,), indexes: tuple[int, ...] = (0,), types: tuple[tuple[int, int, int], ...] = (STANDARD,),
    letters: bytes = LETTERS, footer: bytes = b"\n\n", leap_seconds: int = 0, flags: int = 0, version: bytes = b"2",
) -> bytes:  # fmt: skip
    """Returns a file of a zone, right or wrong, whose first block is empty."""
    empty = struct.pack(">4sc15x6L", b"TZif", version, 0, 0, 0, 0, 1, 1) + bytes(7)
    head = struct.pack(">4sc15x6L", b"TZif", version, flags, 0, leap_seconds, len(times), len(types), len(letters))
    body = struct.pack(f">{len(times)}q", *times) + bytes(indexes) + b"".join(struct.pack(">lBB", *it) for it in types)
    return empty + head + body + letters + bytes(12 * leap_seconds + flags) + footer


# A file, and what is wrong with it.
FAULTS = (
    (b"TZif" * 20_000, "it has more than 65536 bytes"),
    (b"TZif" + bytes(65_533), "it has more than 65536 bytes"),
    (b"", "it is cut off"),
    (b"TZif2" + bytes(30), "it is cut off"),
    (b"# zone1970.tab\n" * 9, "it does not begin as one"),
    (tzif(types=()), "it does not begin as one"),
    (tzif(letters=b"CET"), "it does not begin as one"),
    (tzif(flags=3), "it does not begin as one"),
    (tzif(version=b"1"), "its version is not known"),
    (tzif(version=b"5"), "its version is not known"),
    (tzif()[:-5], "it is cut off"),
    (tzif(leap_seconds=1), "it counts leap seconds; take the zone without right/"),
    (tzif(indexes=(1,)), "a transition is to nothing that is there"),
    (tzif(types=((0, 0, 13),)), "a transition is to nothing that is there"),
    (tzif(types=((93_600, 0, 0),)), "an offset is 26 hours or more"),
    (tzif(types=((-93_600, 0, 0),)), "an offset is 26 hours or more"),
    (tzif((5, 5), (0, 0)), "its transitions are not in order"),
    (tzif(footer=b""), "the rule at its end can't be read"),
    (tzif(footer=b"\nCET-1"), "the rule at its end can't be read"),
    (tzif(footer=b"\nCET\n"), "the rule at its end can't be read"),
    (tzif(footer=b"\nCE-1\n"), "the rule at its end can't be read"),
    (tzif(footer=b"\nCET-1CEST\n"), "the rule at its end can't be read"),
    (tzif(footer=b"\nCET-1CEST,M3.6.0,M10.5.0\n"), "the rule at its end can't be read"),
    (tzif(footer=b"\nCET-1CEST,J1/-167,J365/167\n"), "by the rule at its end the years are not in order"),
    (tzif(footer=b"\nEET-2\n"), "the rule at its end is not as its last transition"),
    (tzif((1_782_907_200,), footer=b"\nCET-1CEST,M3.5.0,M10.5.0/3\n"), "the rule at its end is not as its last transition"),
)


@pytest.mark.parametrize("data, why", FAULTS, ids=[f"{number} {why}" for number, (_, why) in enumerate(FAULTS)])
def test_no_zones_file(zones: Zones, data: bytes, why: str) -> None:
    (zones.folder / "Damaged").write_bytes(data)
    assert zones.call("key", "Z", ":Damaged", *PLAIN) == (WRONG, [], f"DIR/Damaged is no zone's file: {why}\n")


@pytest.mark.parametrize(
    "data",
    [tzif(), tzif(version=b"3"), tzif((), ()), tzif(flags=1), tzif(footer=b"\nCET-1\n"), tzif(footer=b"\n<+01>-1CEST,M3.5.0,M10.5.0/3\nmore")],
)
def test_a_zones_file(zones: Zones, data: bytes) -> None:
    (zones.folder / "Sound").write_bytes(data)
    assert zones.keys("key", "Z", ":Sound", *PLAIN, lines=["2026-01-02 12:00:00"]) == ["2026-01-02T11:00:00.000000000Z"]


def damaged(rng: random.Random, whole: bytes) -> bytes:
    """Returns a file with some bytes changed, now and then cut off."""
    data = bytearray(whole[: rng.randrange(len(whole))] if rng.random() < 0.1 else whole)
    # (most of a file are its transitions)
    ends = (len(data), 90, 90 if rng.random() < 0.5 else -90)
    for _ in range(rng.randint(1, 3) if data else 0):
        end = rng.choice(ends)
        at = rng.randrange(len(data)) if abs(end) >= len(data) else rng.randrange(end) if end > 0 else len(data) + rng.randrange(end, 0)
        data[at] = rng.choice([rng.randrange(256), data[at] ^ 1, 0, 10, *b",/-0"])
    return bytes(data)


def test_damaged_files(zones: Zones, pytestconfig: pytest.Config, monkeypatch: pytest.MonkeyPatch) -> None:
    """With a damaged file the program says what the model says (tools/model): what is wrong with it, or the keys of lines by it. A letter
    of a name or an offset that was changed goes unseen, since such files have no sum."""
    monkeypatch.setenv("TZDIR", str(zones.folder))
    rng, sentences = random.Random(1), set()
    lines = "".join(f"{year}-{month:02}-{day} 02:30:00 CEST\n" for year in (1893, 1942, 1980, 2024, 2999, 9999) for month in (3, 10) for day in range(25, 32))
    words = ["key", "Z", ":Damaged", *PLAIN]
    for _ in range(pytestconfig.getoption("--lines") or 300):
        (zones.folder / "Damaged").write_bytes(damaged(rng, (DATA / rng.choice(list(FILES.values()))).read_bytes()))
        zone_in.cache_clear()
        written, said, status = answer([it.encode() for it in words], lines.encode())
        told = said.decode().replace("instants-lines: ", "").replace(str(zones.folder), "DIR")
        assert zones.call(*words, given=lines) == (status, written.decode().splitlines(), told)
        sentences.add(told)
    assert len(sentences) > 5


@pytest.mark.parametrize(
    "word, said",
    [
        ("Europe/Berln", "no zone Europe/Berln below DIR"),
        (":CES", "no zone CES below DIR"),
        ("right/Europe/Berlin", "no zone right/Europe/Berlin below DIR"),
        ("Europe/Berlin/", "no zone Europe/Berlin/ below DIR"),
        (":Europe", "DIR/Europe is no zone's file: it is no plain file"),
        (":", '"": no zone; modes key, carry, replace and locate take one by its name, as Europe/Berlin or :CET'),
        (":zone.tab", '"zone.tab": no zone; modes key, carry, replace and locate take one by its name, as Europe/Berlin or :CET'),
        (":/etc", '"/etc": no zone; modes key, carry, replace and locate take one by its name, as Europe/Berlin or :CET'),
        ("a/" + 63 * "b", f'"a/{63 * "b"}": no zone; modes key, carry, replace and locate take one by its name, as Europe/Berlin or :CET'),
        ("7", '"7": no assumed offset; it must be +HH:MM, -HH:MM, Z, UTC or -, or a zone, as +02:00 or Europe/Berlin'),
        ("../Berlin", 'source 1: "../Berlin": no such source; files are read from standard input: instants-lines .. < FILE'),
    ],
)
def test_no_zone(zones: Zones, word: str, said: str) -> None:
    assert zones.call("key", "Z", word, *PLAIN) == (WRONG, [], f"{said}\n")


def test_no_folder(zones: Zones) -> None:
    said = "no zone Europe/Berlin: there is no folder /no/where; install tzdata, or set TZDIR\n"
    assert zones.call("key", "Z", "Europe/Berlin", *PLAIN, TZDIR="/no/where") == (WRONG, [], said)
    file = zones.folder / "CET"
    assert zones.call("key", "Z", "Europe/Berlin", *PLAIN, TZDIR=str(file))[2].startswith("no zone Europe/Berlin: there is no folder DIR/CET")


def test_the_folder_where_none_is_named(zones: Zones) -> None:
    said = zones.call("key", "Z", "No/Such", *PLAIN, TZDIR="")[2]
    assert said.startswith("no zone No/Such") and " /usr/share/zoneinfo" in said


def test_a_pipe_is_not_waited_for(zones: Zones) -> None:
    os.mkfifo(zones.folder / "Pipe")
    assert zones.call("key", "Z", ":Pipe", *PLAIN) == (WRONG, [], "DIR/Pipe is no zone's file: it is no plain file\n")


def test_a_zone_that_can_not_be_read(zones: Zones) -> None:
    """The memory of a process is a plain file whose first bytes are none."""
    status, written, said = zones.call("key", "Z", ":mem", *PLAIN, TZDIR="/proc/self")
    assert (status, written) == (1, []) and said.startswith("/proc/self/mem: ")


def test_a_link_is_followed(zones: Zones) -> None:
    (zones.folder / "Here").symlink_to("Europe/Berlin")
    assert zones.keys("key", "Z", ":Here", *PLAIN, lines=["2026-07-02 12:00:00"]) == ["2026-07-02T10:00:00.000000000Z"]


def test_what_is_wrong_first(zones: Zones) -> None:
    """Words come before the zone, and the zone before descriptions and what sources lack."""
    assert "no such source" in zones.call("key", "Z", "No/Such", "x")[2]
    assert zones.call("key", "Z", "No/Such", "v3", "[year")[2] == "no zone No/Such below DIR\n"
    assert zones.call("key", "Z", "Europe/Berlin", "v3", "[year")[2] == "source 1: unclosed opening bracket at byte index 0\n"
    assert zones.call("key", "Z", "Europe/Berlin", "syslog")[2].startswith("source 1 names no moment: it has no year\n")


# ---- what a line has


class Row(NamedTuple):
    """A moment of a log, and what the clock shows then."""

    moment: datetime.datetime
    wall: datetime.datetime

    def key(self) -> str:
        return f"{self.moment:%Y-%m-%dT%H:%M:%S}.000000000Z"

    def is_repeated(self) -> bool:
        """Whether the clock shows the same once more."""
        before, after = (self.wall.replace(fold=it).utcoffset() for it in (0, 1))
        return before is not None and after is not None and before > after

    def wanted(self, is_settled: bool) -> str:
        return "! doubt" if self.is_repeated() and not is_settled else self.key()


def rows_from(zone: zoneinfo.ZoneInfo, first: str, count: int, minutes: int) -> list[Row]:
    """Returns so many moments of a log, so far apart."""
    began = datetime.datetime.fromisoformat(first + "+00:00")
    moments = [began + it * datetime.timedelta(minutes=minutes) for it in range(count)]
    return [Row(it, it.astimezone(zone)) for it in moments]


# A bank's zone, its clock's change in 2026, and how its dates are written.
BANKS = (
    ("Europe/Berlin", "2026-10-24T18:00:00", "dmy-dots", "%d.%m.%Y %H:%M:%S"),
    ("Europe/Dublin", "2026-10-24T18:20:00", "dmy", "%d/%m/%Y %H:%M:%S"),
    ("America/New_York", "2026-10-31T23:40:00", "mdy", "%m/%d/%Y %H:%M:%S"),
)


@pytest.mark.parametrize("mark", ["", " %Z"], ids=["plain", "named"])
def test_a_ledger_of_three_banks(zones: Zones, mark: str) -> None:
    """Each bank writes 30 rows over the end of summer time. Those of the hour that comes twice are in doubt unless they say which."""
    text, wanted = io.StringIO(), []
    for number, (zone, first, _, form) in enumerate(BANKS):
        for row in rows_from(zones.clock(zone), first, 30, 30):
            cells = ["", "", ""]
            cells[number] = row.wall.strftime(form + mark)
            csv.writer(text, delimiter=";").writerow([*cells, "12,50"])
            wanted.append(row.wanted(bool(mark)))
    ledger = [it.rstrip("\r\n") for it in text.getvalue().splitlines()]
    keys = []
    for number, (zone, _, source, _) in enumerate(BANKS):
        keys += zones.keys("key", "Z", zone, source, lines=ledger[30 * number : 30 * number + 30])
    assert keys == wanted
    assert wanted.count("! doubt") == (0 if mark else 12)


@pytest.mark.parametrize("first", ["2026-10-24T22:00:00", "2026-03-28T22:00:00"])
def test_a_log_of_postgresql(zones: Zones, first: str) -> None:
    """It writes the zone's abbreviation after the date."""
    rows = rows_from(zones.clock("Europe/Berlin"), first, 60, 7)
    lines = [f"{it.wall:%Y-%m-%d %H:%M:%S}.123 {it.wall:%Z} [{number}] LOG:  duration: 3.217 ms" for number, it in enumerate(rows)]
    assert zones.keys("key", "Z", "Europe/Berlin", "postgres", lines=lines) == [it.key().replace(".000", ".123", 1) for it in rows]


@pytest.mark.parametrize("form", ["%F %T %Z", "%a %d %b %Y %T %Z", "%F %T %z", "%F %T%:z"])
def test_lines_of_date(zones: Zones, form: str) -> None:
    """`date +FORM`: an abbreviation or an offset after the date says which of two moments it is."""
    rows = rows_from(zones.clock("Europe/Berlin"), "2026-10-24T22:00:00", 40, 10)
    said = form.replace("%:z", "%z").replace("%F", "%Y-%m-%d").replace("%T", "%H:%M:%S")
    lines = [it.wall.strftime(said) for it in rows]
    if "%:z" in form:
        lines = [f"{it[:-2]}:{it[-2:]}" for it in lines]
    source = form.partition(" %Z")[0].partition(" %z")[0].partition("%:z")[0]
    assert zones.keys("key", "Z", "Europe/Berlin", "strftime", source, lines=lines) == [it.key() for it in rows]


def test_a_name_inside_a_date(zones: Zones) -> None:
    """Where the abbreviation is text of the description it stands inside of the date, as date(1) has it: it settles the hour that comes
    twice."""
    rows = rows_from(zones.clock("Europe/Berlin"), "2026-10-24T22:00:00", 40, 10)
    sources = [word for name in ("CET", "CEST") for word in ("strftime", f"%a %b %e %T {name} %Y")]
    lines = [it.wall.strftime("%a %b %e %H:%M:%S %Z %Y") for it in rows]
    assert zones.keys("key", "Z", "Europe/Berlin", *sources, lines=lines) == [it.wanted(True) for it in rows]


@pytest.mark.parametrize(
    "date, key, why",
    [
        ("2026-03-29 02:30:00", None, "skipped by the clock"),
        ("2026-03-29 02:30:00 CET", None, "skipped by the clock"),
        ("2026-10-25 02:30:00", None, "twice by the clock"),
        ("2026-10-25 02:30:00 cest", None, "twice by the clock"),
        ("2026-10-25 02:30:00 (CEST)", None, "twice by the clock"),
        ("2026-10-25 02:30:00 EST", None, "another offset"),
        ("2026-10-25 02:30:00 +0300", None, "another offset"),
        ("2026-10-25 02:30:00 CET +0200", None, "another offset"),
        ("2026-07-01 12:00:00 CET", None, "another offset"),
        ("2026-07-01 12:00:00 +0100", None, "another offset"),
        ("2026-07-01 12:00:00 UTC", None, "another offset"),
        ("2026-10-25 02:30:00 CEST", "2026-10-25T00:30:00.000000000Z", ""),
        ("2026-10-25 02:30:00\x1b[0mCET", "2026-10-25T01:30:00.000000000Z", ""),
        ("2026-10-25 02:30:00CET", None, "goes on"),
        ("2026-10-25 02:30:00,250 CET", "2026-10-25T01:30:00.000000000Z", ""),
        ("2026-10-25 02:30:00+02:00", "2026-10-25T00:30:00.000000000Z", ""),
        ("2026-10-25 02:30:00 GMT+1", "2026-10-25T01:30:00.000000000Z", ""),
        ("2026-07-01 12:00:00 MSK", "2026-07-01T10:00:00.000000000Z", ""),
        ("2026-07-01 12:00:00 +0200", "2026-07-01T10:00:00.000000000Z", ""),
    ],
)
def test_locate(zones: Zones, date: str, key: str | None, why: str) -> None:
    """Where a date is in doubt `locate` says why; the date ends before what settles it."""
    want = f"{key}\t1\t1-19" if key else f"! doubt\t1\t1-19\t{why}"
    assert zones.call("locate", "Z", "Europe/Berlin", *PLAIN, given=f"{date}\n") == (0, [want], "")


LOG = "2026-10-25 01:59:59 a\n2026-10-25 02:30:00 b\n  at b\n2026-10-25 03:00:00 c\n"


@pytest.mark.parametrize(
    "mode, written",
    [
        (
            "key",
            [
                "2026-10-24T23:59:59.000000000Z\t2026-10-25 01:59:59 a",
                "! doubt\t2026-10-25 02:30:00 b",
                "! none\t  at b",
                "2026-10-25T02:00:00.000000000Z\t2026-10-25 03:00:00 c",
            ],
        ),
        (
            "carry",
            [
                "2026-10-24T23:59:59.000000000Z\t2026-10-25 01:59:59 a",
                "! doubt\t2026-10-25 02:30:00 b",
                "! doubt\t  at b",
                "2026-10-25T02:00:00.000000000Z\t2026-10-25 03:00:00 c",
            ],
        ),
        ("replace", ["2026-10-24T23:59:59.000000000Z a", "2026-10-25 02:30:00 b", "  at b", "2026-10-25T02:00:00.000000000Z c"]),
        ("locate", ["2026-10-24T23:59:59.000000000Z\t1\t1-19", "! doubt\t1\t1-19\ttwice by the clock", "! none", "2026-10-25T02:00:00.000000000Z\t1\t1-19"]),
    ],
)
def test_modes(zones: Zones, mode: str, written: list[str]) -> None:
    assert zones.call(mode, "Z", "Europe/Berlin", *PLAIN, given=LOG) == (0, written, "")
    assert zones.call(mode, "Z", ":CET", "64", *PLAIN, given=LOG) == (0, written, "")


def test_explain(zones: Zones) -> None:
    """Sources that read a whole line have no zone."""
    said = "no zone; modes key, carry, replace and locate take one by its name, as Europe/Berlin or :CET"
    assert zones.call("explain", "Z", "Europe/Berlin", *PLAIN, given="") == (2, [], f'"Europe/Berlin": {said}\n')


def test_count(zones: Zones) -> None:
    """What the zone was is said at the end."""
    status, written, said = zones.call("--count", "key", "Z", "Europe/Berlin", *PLAIN, given="2026-07-01 12:00:00\n")
    assert (status, written) == (0, ["2026-07-01T10:00:00.000000000Z\t2026-07-01 12:00:00"])
    assert re.search(r"zone Europe/Berlin, tzdata \w+, \d+ bytes", said)


def test_dates_with_an_offset(zones: Zones) -> None:
    """They are read as they are, also where the zone's clock shows them never."""
    lines = ["2026-03-29T02:30:00Z", "2026-03-29T02:30:00+05:30", "1774751400 up"]
    keys = zones.keys("key", "+01:00", "Europe/Berlin", "rfc3339", "unix-time", lines=lines)
    assert keys == ["2026-03-29T03:30:00.000000000+01:00", "2026-03-28T22:00:00.000000000+01:00", "2026-03-29T03:30:00.000000000+01:00"]


def test_a_syslog(zones: Zones) -> None:
    """The year is known of the first line; below, a date is of the year that is nearest on the zone's clock."""
    rows = rows_from(zones.clock("America/New_York"), "2026-03-08T04:50:00", 400, 1437)
    lines = [f"{it.wall:%b} {it.wall.day:2} {it.wall:%H:%M:%S} host cron[7]: run" for it in rows]
    assert zones.keys("key", "Z", "America/New_York", "year", "2026", "syslog", lines=lines) == [it.wanted(False) for it in rows]
    assert rows[-1].wall.year == 2027


def test_near_years_are_compared_on_the_clock(zones: Zones) -> None:
    """Two moments half a year apart are equally near by their clocks, whatever summer time does between them: the earlier year is taken."""
    keys = zones.keys("key", "Z", "Europe/Berlin", "year", "2025", "syslog", lines=["Jul  2 12:00:00 a", "Jan  1 00:00:00 b", "Jul  2 12:00:00 c"])
    assert keys == ["2025-07-02T10:00:00.000000000Z", "2024-12-31T23:00:00.000000000Z", "2024-07-02T10:00:00.000000000Z"]


def test_a_time_of_day(zones: Zones) -> None:
    """At midnight of a day that a clock begins an hour later there is no moment."""
    lines = ["2018-11-03", "2018-11-04", "2018-11-05"]
    keys = zones.keys("key", "Z", "America/Sao_Paulo", "time", "00:00", "strftime", "%F", lines=lines)
    assert keys == ["2018-11-03T03:00:00.000000000Z", "! doubt", "2018-11-05T02:00:00.000000000Z"]


def test_a_label_and_counts(zones: Zones) -> None:
    ran = subprocess.run(
        [zones.program, "--count", "key", "Z", "Europe/Berlin", "label", "web", *PLAIN],
        input=LOG, capture_output=True, text=True, env={**os.environ, "TZDIR": str(zones.folder)},
    )  # fmt: skip
    assert ran.stdout.splitlines()[0] == "2026-10-24T23:59:59.000000000Z\tweb\t2026-10-25 01:59:59 a"
    said = ran.stderr.splitlines()
    assert said[0] == "instants-lines: 2 dated, 1 none, 1 doubt, 0 year, 2026-10-24T23:59:59.000000000Z to 2026-10-25T02:00:00.000000000Z"
    assert re.fullmatch(r"instants-lines: zone Europe/Berlin, tzdata \w+, \d+ bytes", said[1])


if __name__ == "__main__":
    sys.exit(pytest.main([__file__, *sys.argv[1:]]))

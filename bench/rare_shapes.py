#!/usr/bin/env python3
"""Counts what `instants` takes for lines of shapes that few logs have, and for lines that several sources refuse.

    bench/rare_shapes.py [--program PATH] [--lines N]

The package of Debian to install: valgrind. Prints a table of instructions a line, as callgrind counts them, less those of a run
on an empty input.
"""

import argparse
import datetime
import pathlib
import random
import subprocess
import tempfile
from collections.abc import Callable

import lines
from compare_programs import PROGRAM, instructions

LOG = ["strftime", "%d/%b/%Y:%H:%M:%S %z"]
TEN = [word for text in ("[year]-[month]-[day] [hour]:[minute]:[second].[subsecond] UTC",
                         "[year]-[month]-[day] [hour]:[minute]:[second],[subsecond]",
                         "[year]/[month]/[day] [hour]:[minute]:[second]",
                         "[year][month][day]T[hour][minute][second]Z",
                         "[year]-[month]-[day]T[hour]:[minute]Z",
                         "[day]/[month repr:short]/[year]:[hour]:[minute]:[second] [offset_hour sign:mandatory][offset_minute]",
                         "[day].[month].[year] [hour]:[minute]:[second]",
                         "[month]/[day]/[year] [hour]:[minute]:[second]",
                         "[year] [month repr:short] [day padding:space] [hour]:[minute]:[second]",
                         "[year]-[month]-[day]T[hour]:[minute]:[second]Z") for word in ("v3", text)]


def parts(rng: random.Random) -> tuple[datetime.date, tuple[str, str], tuple[str, str], tuple[str, str]]:
    """Returns a day, its names, a time of day in two lengths, and an offset with a colon and without."""
    day, hour, minute, second, _, offset = lines.moment(rng)
    names = lines.DAYS[day.weekday()], lines.MONTHS[day.month - 1]
    clocks = f"{hour:02}:{minute:02}:{second:02}", f"{hour:02}:{minute:02}"
    return day, names, clocks, (lines.offset_text(offset, ":", True), lines.offset_text(offset, "", False))


def digits(rng: random.Random) -> str:
    """Returns ten to twenty digits."""
    return "".join(rng.choices("0123456789", k=rng.randint(10, 20)))


def comment(rng: random.Random) -> str:
    day, names, clocks, offsets = parts(rng)
    return f"{names[0]}, {day.day} {names[1]} {day.year} {clocks[0]} {offsets[1]} (UTC)"


def two_spaces(rng: random.Random) -> str:
    day, names, clocks, offsets = parts(rng)
    return f"{names[0]},  {day.day % 9 + 1} {names[1]} {day.year} {clocks[0]} {offsets[1]}"


def no_seconds(rng: random.Random) -> str:
    day, names, clocks, offsets = parts(rng)
    return f"{names[0]}, {day.day:02} {names[1]} {day.year} {clocks[1]} {offsets[1]}"


def short_year(rng: random.Random) -> str:
    day, names, clocks, offsets = parts(rng)
    return f"{names[0]}, {day.day:02} {names[1]} {day.year % 100:02} {clocks[0]} {offsets[1]}"


def zone_name(rng: random.Random) -> str:
    day, names, clocks, _ = parts(rng)
    return f"{names[0]}, {day.day:02} {names[1]} {day.year} {clocks[0]} GMT"


def iso8601_no_seconds(rng: random.Random) -> str:
    day, _, clocks, offsets = parts(rng)
    return f"{day}T{clocks[1]}{offsets[0]}"


def short_offset(rng: random.Random) -> str:
    day, _, clocks, offsets = parts(rng)
    return f"{day}T{clocks[0]}{offsets[1][:3]}"


def plain_offset(rng: random.Random) -> str:
    day, _, clocks, offsets = parts(rng)
    return f"{day}T{clocks[0]}{offsets[1]}"


def no_offset(rng: random.Random) -> str:
    day, _, clocks, _ = parts(rng)
    return f"{day}T{clocks[0]}"


def comma(rng: random.Random) -> str:
    day, _, clocks, offsets = parts(rng)
    return f"{day}T{clocks[0]},{rng.randrange(1000):03}{offsets[0]}"


def expanded(rng: random.Random) -> str:
    day, _, clocks, offsets = parts(rng)
    return f"+00{day}T{clocks[0]}{offsets[0]}"


def many_digits(rng: random.Random) -> str:
    day, _, clocks, offsets = parts(rng)
    return f"{day}T{clocks[0]}.{digits(rng)}{offsets[0]}"


def optional(rng: random.Random) -> str:
    day, _, clocks, _ = parts(rng)
    return f"{day}T{clocks[0]}{rng.choice(['', f'.{rng.randrange(1000):03}'])}+00:00"


def unpadded(rng: random.Random) -> str:
    day, _, clocks, _ = parts(rng)
    return f"{day.day}.{day.month}.{day.year} {clocks[0]}"


def twelve_hours(rng: random.Random) -> str:
    day, _, clocks, _ = parts(rng)
    return f"{day:%m/%d/%Y} {rng.randint(1, 12):02}{clocks[0][2:]} {rng.choice(['AM', 'PM'])}"


def long_names(rng: random.Random) -> str:
    day, _, clocks, _ = parts(rng)
    return f"{day:%d %B %Y} {clocks[0]}"


def written(letters: str) -> Callable[[random.Random], str]:
    """Returns what makes a line by these letters of strftime."""

    def line(rng: random.Random) -> str:
        day, _, clocks, _ = parts(rng)
        hour, minute, second = (int(number) for number in clocks[0].split(":"))
        return datetime.datetime(day.year, day.month, day.day, hour, minute, second).strftime(letters)

    return line


def zulu_or_offset(rng: random.Random) -> str:
    day, _, clocks, offsets = parts(rng)
    return f"{day}T{clocks[0]}{rng.choice(['Z', offsets[0]])}"


def unix_nanoseconds(rng: random.Random) -> str:
    return f"{lines.unix(rng)}{rng.randrange(10 ** 9):09}"


def unix_negative(rng: random.Random) -> str:
    return f"-{rng.randrange(10 ** 9):09}"


def unix_short(rng: random.Random) -> str:
    return f"{rng.randrange(10 ** 8, 10 ** 9)}"


def unix_fraction(rng: random.Random) -> str:
    return f"{lines.unix(rng)}.{rng.randrange(10 ** 6):06}"


def fixed_before(rng: random.Random) -> str:
    day, _, clocks, _ = parts(rng)
    return f"{day}T{clocks[0]}Z"


def garbage_of_digits(rng: random.Random) -> str:
    day, _, clocks, _ = parts(rng)
    return f"{day}_{clocks[0]}?"


# A title, the offset that is assumed, the sources, and what makes a line.
SHAPES = [
    ("RFC 2822 with `(UTC)`", "-", ["rfc2822"], comment),
    ("RFC 2822 with two spaces", "-", ["rfc2822"], two_spaces),
    ("RFC 2822 without seconds", "-", ["rfc2822"], no_seconds),
    ("RFC 2822 with a year of two digits", "-", ["rfc2822"], short_year),
    ("RFC 2822 with `GMT`", "-", ["rfc2822"], zone_name),
    ("ISO 8601 without seconds", "-", ["iso8601"], iso8601_no_seconds),
    ("RFC 3339, fraction of 10 to 20 digits", "-", ["rfc3339"], many_digits),
    ("ISO 8601, fraction of 10 to 20 digits", "-", ["iso8601"], many_digits),
    ("`[optional [.[subsecond]]]`", "-",
     ["v3", "[year]-[month]-[day]T[hour]:[minute]:[second][optional [.[subsecond]]][offset_hour sign:mandatory]:[offset_minute]"], optional),
    ("`padding:none`", "+00:00", ["v3", "[day padding:none].[month padding:none].[year] [hour]:[minute]:[second]"], unpadded),
    ("`%I..%p`", "+00:00", ["strftime", "%m/%d/%Y %I:%M:%S %p"], twelve_hours),
    ("long names", "+00:00", ["strftime", "%d %B %Y %H:%M:%S"], long_names),
    ("Unix time with a fraction", "-", ["v3", "[unix_timestamp].[subsecond]"], unix_fraction),
    ("ISO 8601 without an offset", "+00:00", ["iso8601"], no_offset),
    ("ISO 8601 with a comma", "-", ["iso8601"], comma),
    ("ISO 8601 with `+hh`", "-", ["iso8601"], short_offset),
    ("ISO 8601, extended, with `+hhmm`", "-", ["iso8601"], plain_offset),
    ("ISO 8601, expanded years", "-", ["iso8601"], expanded),
    ("`%F %R`", "+00:00", ["strftime", "%F %R"], written("%F %R")),
    ("`%d.%m.%Y %H:%M`", "+00:00", ["strftime", "%d.%m.%Y %H:%M"], written("%d.%m.%Y %H:%M")),
    ("`%I:%M %p %d/%m/%Y`", "+00:00", ["strftime", "%I:%M %p %d/%m/%Y"], written("%I:%M %p %d/%m/%Y")),
    ("`%d %B %Y %H:%M`", "+00:00", ["strftime", "%d %B %Y %H:%M"], written("%d %B %Y %H:%M")),
    ("`%-d.%-m.%Y %-H:%M`", "+00:00", ["strftime", "%-d.%-m.%Y %-H:%M"], written("%-d.%-m.%Y %-H:%M")),
    ("`%Y-%j %T`", "+00:00", ["strftime", "%Y-%j %T"], written("%Y-%j %T")),
    ("`%G-W%V-%u %T`", "+00:00", ["strftime", "%G-W%V-%u %T"], written("%G-W%V-%u %T")),
    ("`[first [Z] [offset]]` at the end", "+00:00",
     ["v3", "[year]-[month]-[day]T[hour]:[minute]:[second][first [Z] [[offset_hour sign:mandatory]:[offset_minute]]]"], zulu_or_offset),
    ("Unix time in nanoseconds", "-", ["v3", "[unix_timestamp precision:nanosecond]"], unix_nanoseconds),
    ("Unix time, negative", "-", ["v3", "[unix_timestamp]"], unix_negative),
    ("Unix time of nine digits", "-", ["v3", "[unix_timestamp]"], unix_short),
    ("read by the tenth of ten descriptions", "+00:00", TEN, fixed_before),
    ("refused by all ten", "+00:00", TEN, garbage_of_digits),
    ("refused by three sources", "-", ["rfc3339", "rfc2822", *LOG], lines.garbage),
]


def main() -> None:
    parser = argparse.ArgumentParser()
    parser.add_argument("--program", type=pathlib.Path, default=PROGRAM)
    parser.add_argument("--lines", type=int, default=5_000)
    arguments = parser.parse_args()
    print("| lines | instructions | lines without a moment |\n|---|---|---|")
    with tempfile.TemporaryDirectory() as folder:
        empty, file = pathlib.Path(folder) / "empty", pathlib.Path(folder) / "lines"
        empty.touch()
        for title, assumed, sources, make in SHAPES:
            rng = random.Random(title)
            file.write_text("".join(make(rng) + "\n" for _ in range(arguments.lines)))
            command = [arguments.program, "+00:00", assumed, "200", *sources]
            taken = instructions(command, file) - instructions(command, empty)
            with file.open("rb") as read:
                answers = subprocess.run(command, stdin=read, capture_output=True, check=True).stdout
            faults = sum(line.startswith(b"!") for line in answers.splitlines())
            print(f"| {title} | {round(taken / arguments.lines)} | {faults} of {arguments.lines} |", flush=True)


if __name__ == "__main__":
    main()

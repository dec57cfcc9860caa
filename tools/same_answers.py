#!/usr/bin/env python3
"""Says whether two builds of the programs answer alike: `instants` to lines of all kinds, `instants-lines` to lines with dates.

    tools/same_answers.py BEFORE AFTER [--lines N] [--answers N] [--seed N]
    tools/same_answers.py --lines-programs BEFORE AFTER [..]

Half of the lines are those of bench/lines.py and of the shapes below, and half are changed at random: a byte is replaced, left
out or put in, digits are changed, a piece is cut off or doubled. Both programs answer all of them at five targets, with offsets
assumed or none, by twenty lists of sources, until there are so many answers. The first lines that are answered differently are
printed, with the words.
"""

import argparse
import itertools
import pathlib
import random
import subprocess
import sys
import tempfile
from collections.abc import Iterator

sys.dont_write_bytecode = True
sys.path.insert(0, str(pathlib.Path(__file__).resolve().parent.parent / "bench"))

import lines as bench

TARGETS = ["+00:00", "-03:30", "+14:00", "-12:00", "+05:45"]
ASSUMED = ["-", "+00:00", "-08:00", "+05:30"]

WEB = ["strftime", "%d/%b/%Y:%H:%M:%S %z"]
LISTS = [
    ["rfc3339"],
    ["rfc2822"],
    ["iso8601"],
    WEB,
    ["rfc3339", "rfc2822", *WEB],
    ["iso8601", "rfc2822", *WEB],
    ["v2", "[year]-[month]-[day] [hour]:[minute]:[second].[subsecond] UTC"],
    ["v2", "[year]-[month]-[day] [hour]:[minute]:[second],[subsecond digits:3]"],
    ["strftime", "%Y %b %e %H:%M:%S"],
    ["strftime", "%c"],
    ["strftime", "%s"],
    ["v2", "[unix_timestamp precision:millisecond]"],
    ["v3", "[year]-[month]-[day]T[hour]:[minute]:[second][optional [.[subsecond]]][offset_hour sign:mandatory]:[offset_minute]"],
    ["v2", "[day padding:none] [month repr:long] [year] [hour padding:none]:[minute]:[second]"],
    ["strftime", "%m/%d/%Y %I:%M:%S %p"],
    ["v2", "[weekday], [day] [month repr:short] [year] [hour]:[minute]:[second] [offset_hour sign:mandatory][offset_minute]"],
    ["v2", "[unix_timestamp].[subsecond]"],
    [*WEB, "rfc3339", "strftime", "%c", "rfc2822", "iso8601"],
    ["v2", "[year]-[ordinal] [hour]:[minute]", "v2", "[year]-W[week_number repr:iso]-[weekday repr:monday] [hour]"],
    ["v2", "[year][month][day]T[hour][minute][second]", "v2", "[day].[month].[year] [hour]:[minute]:[second]", "iso8601"],
]

FINDERS = [["rfc3339"], ["rfc3339", *WEB], ["rfc2822"], ["iso8601"], ["strftime", "%Y-%m-%d %H:%M:%S"], WEB,
           ["strftime", "%b %e %H:%M:%S %Y", "strftime", "%s"]]
MODES = ["key", "carry", "replace", "explain"]


def varied(rng: random.Random) -> str:
    """Returns a line of a shape that few have."""
    day, hour, minute, second, _, offset = bench.moment(rng)
    clock = f"{hour:02}:{minute:02}:{second:02}"
    colon, plain = bench.offset_text(offset, ":", True), bench.offset_text(offset, "", False)
    week, month = bench.DAYS[day.weekday()], bench.MONTHS[day.month - 1]
    digits = "".join(rng.choices("0123456789", k=rng.randint(0, 20)))
    return rng.choice([
        f"{week}, {day.day} {month} {day.year} {clock} {plain} (UTC)",
        f"{week},  {day.day} {month} {day.year} {clock} {plain}",
        f"{week}, {day.day:02} {month} {day.year} {hour:02}:{minute:02} {plain}",
        f"{day.day} {month} {day.year % 100:02} {clock} {plain}",
        f"{week}, {day.day:02} {month} {day.year} {clock} {rng.choice(['GMT', 'EST', 'pdt', 'Z', 'UT', 'XYZ'])}",
        f"{day.day} {month.upper()} {day.year}\t{clock} {plain}",
        f"{day}T{hour:02}:{minute:02}{colon}", f"{day}T{hour:02}{colon}", f"{day}T{clock}.{digits}{colon}",
        f"{day}T{clock},{digits}{colon}", f"{str(day).replace('-', '')}T{clock.replace(':', '')}.{digits}{plain}",
        f"{day}T24:00:00{colon}", f"{day}T23:59:60{colon}", f"{day} {clock}{colon}", f"{day}t{clock}z", f"{day}",
        f"{day.day} {day.strftime('%B')} {day.year} {hour}:{minute:02}:{second:02}",
        f"{day.month:02}/{day.day:02}/{day.year} {hour % 12 + 1:02}:{minute:02}:{second:02} {rng.choice(['AM', 'PM', 'am'])}",
        f"{rng.randrange(-10**11, 10**11)}", f"{rng.randrange(10**10)}.{digits}", f"{day} {clock},{digits[:3]}",
        f"{day.strftime('%Y-%j')} {hour:02}:{minute:02}", f"{day.strftime('%G-W%V-%u')} {hour:02}",
        f"{day.strftime('%Y%m%d')}T{clock.replace(':', '')}", f"{day.strftime('%d.%m.%Y')} {clock}",
        f"{rng.randrange(10000):04}-{rng.randrange(14):02}-{rng.randrange(33):02}T{rng.randrange(26):02}:{rng.randrange(62):02}:{rng.randrange(62):02}Z",
        f"{rng.choice(['0000', '9999', '1900', '2000', '2024'])}-02-29T{clock}{colon}",
    ])


def changed(rng: random.Random, line: str) -> str:
    """Returns the line with a mistake or two."""
    for _ in range(rng.randint(1, 2)):
        at = rng.randrange(len(line) + 1)
        kind = rng.randrange(6)
        if kind == 0:
            line = line[:at] + chr(rng.randrange(32, 127)) + line[at + 1:]
        elif kind == 1:
            line = line[:at] + line[at + 1:]
        elif kind == 2:
            line = line[:at] + rng.choice("0123456789-+:.TZ ,/(") + line[at:]
        elif kind == 3:
            line = "".join(rng.choice("0123456789") if c.isdigit() and rng.random() < 0.2 else c for c in line)
        elif kind == 4:
            line = line[:at]
        else:
            line = line[:at] + line[max(0, at - 3):]
    return line


def date_line(rng: random.Random) -> str:
    """Returns a line of any kind."""
    return rng.choice([*bench.FILES[:11], varied, varied, varied, bench.garbage])(rng)


def answered_lines(rng: random.Random, count: int) -> Iterator[str]:
    """Gives lines of all kinds, half of them changed."""
    for number in range(count):
        line = date_line(rng)
        yield changed(rng, line) if number % 2 else line


def dated_lines(rng: random.Random, count: int) -> Iterator[str]:
    """Gives lines of text with a date in them or none, half of them changed."""
    kinds = [bench.access, bench.dateless, bench.trace]
    for number in range(count):
        line = rng.choice(kinds)(rng)
        for _ in range(rng.randrange(3)):
            at = rng.choice([0, rng.randrange(len(line) + 1)])
            line = line[:at] + date_line(rng) + rng.choice(["", " ", "]", ": "]) + line[at:]
        yield changed(rng, line) if number % 2 else line


def first_difference(lines: pathlib.Path, before: pathlib.Path, after: pathlib.Path) -> tuple[bytes, bytes, bytes]:
    """Returns the first line that has two answers, with both."""
    for line, one, other in zip(lines.open("rb"), before.open("rb"), after.open("rb")):
        if one != other:
            return line, one, other
    return b"(the end)", b"", b""


def is_alike(programs: list[str], words: list[str], lines: pathlib.Path, folder: pathlib.Path) -> bool:
    """Says whether both programs give the same output and the same status for the lines."""
    outputs = [folder / "before", folder / "after"]
    ends = []
    for program, output in zip(programs, outputs):
        with lines.open("rb") as read, output.open("wb") as written:
            ends.append(subprocess.run([program, *words], stdin=read, stdout=written, check=False).returncode)
    same = subprocess.run(["cmp", "-s", *outputs], check=False).returncode == 0
    # (2: the words are refused, by both)
    if same and ends[0] == ends[1] and ends[0] in (0, 2):
        return True
    print(f"{' '.join(words)}: statuses {ends}", *first_difference(lines, *outputs), sep="\n    ")
    return False


def all_words(is_lines: bool, rng: random.Random) -> Iterator[list[str]]:
    """Gives the words of runs, in a new order each time."""
    if is_lines:
        runs = [[mode, target, assumed, "65536", *sources] for mode, target, assumed, sources
                in itertools.product(MODES, TARGETS, ASSUMED, FINDERS)]
    else:
        runs = [[target, assumed, "200", *sources] for target, assumed, sources
                in itertools.product(TARGETS, ASSUMED, LISTS)]
    while True:
        rng.shuffle(runs)
        yield from runs


def main() -> int:
    parser = argparse.ArgumentParser()
    parser.add_argument("before")
    parser.add_argument("after")
    parser.add_argument("--lines-programs", action="store_true", help="the programs are instants-lines")
    parser.add_argument("--lines", type=int, default=500_000, help="the lines of one run")
    parser.add_argument("--answers", type=int, default=100_000_000)
    parser.add_argument("--seed", type=int, default=1)
    arguments = parser.parse_args()
    rng = random.Random(arguments.seed)
    make = dated_lines if arguments.lines_programs else answered_lines
    words = all_words(arguments.lines_programs, rng)
    answers, differences = 0, 0
    with tempfile.TemporaryDirectory() as place:
        folder = pathlib.Path(place)
        while answers < arguments.answers and differences < 10:
            lines = folder / "lines"
            lines.write_text("".join(line + "\n" for line in make(rng, arguments.lines)), encoding="latin-1")
            for run in itertools.islice(words, 50):
                if not is_alike([arguments.before, arguments.after], run, lines, folder):
                    differences += 1
                answers += arguments.lines
                if answers >= arguments.answers or differences >= 10:
                    break
    print(f"{answers} answers, {differences} runs with a difference")
    return min(differences, 1)


if __name__ == "__main__":
    sys.exit(main())

#!/usr/bin/env python3
"""Compares the calls for dates inside lines with the program `instants-lines`, on lines that are made at random.

    tools/try_lines.py [--lines N] [--seed S] [--block N] [--program PATH] [--libraries FOLDER]

`bindings/c/keyed.c` is compiled with the library. Each run has words of its own, as those of tools/try_model.py: offsets, a limit, a
year, a time of day, a zone, a field or a column, a label and sources, and a stream of lines with dates of all kinds, changed bytes and odd
ends. In modes `key` and `carry` its output has to be the program's, byte by byte, also where lines are given in small blocks, if no year is
given; and its numbers have to be those that mode `locate` of the program tells: the instant of each key, the first and the last byte, and
the first reason. Of the first run that differs the words and the first line are printed; the status is 1 then. The packages of Debian: gcc.
"""

import argparse
import datetime
import pathlib
import random
import re
import shlex
import subprocess
import sys
import tempfile
import time
from collections.abc import Sequence

sys.dont_write_bytecode = True

import build_library
import sample_lines
import sample_words
from program import ROOT, Program, sure

REASONS = {
    "goes on": 201, "clock in front": 202, "skipped by the clock": 203, "twice by the clock": 204, "another offset": 205, "another time": 206,
    "another year": 207, "escape": 208,
}
NONE, DOUBT, YEAR = 100, 200, 600
ZONES = pathlib.Path("/usr/share/zoneinfo")
# What the program has in place of an offset as it is written.
OFFSET = re.compile(r"([+-])(\d\d):(\d\d)$")
# Blocks of so many bytes, beside the whole stream.
SMALL = "700"
SIGN_OF_LIFE = 100_000


class Difference(Exception):
    """The calls and the program differ; the text says where."""


def output_of(command: Sequence[str | pathlib.Path], stream: bytes) -> bytes:
    """Returns what a command writes that ends well."""
    ran = subprocess.run(command, input=stream, capture_output=True)
    if ran.returncode:
        raise Difference(f"{shlex.join(map(str, command))}: status {ran.returncode}, {ran.stderr.decode(errors='replace')}")
    return ran.stdout


def compare(what: str, words: Sequence[str], stream: bytes, due: Sequence[bytes], found: Sequence[bytes]) -> None:
    """Raises Difference unless two outputs are the same, line by line."""
    if due == found:
        return
    at = next((at for at, pair in enumerate(zip(due, found)) if pair[0] != pair[1]), min(len(due), len(found)))
    lines = stream.split(b"\n")
    text = [f"{what}, words: {shlex.join(words)}", f"line {at + 1}: {lines[at] if at < len(lines) else b''!r}"]
    text += [f"due:   {due[at] if at < len(due) else b''!r}", f"found: {found[at] if at < len(found) else b''!r}"]
    raise Difference("\n".join(text))


def instant_of(key: str) -> tuple[int, int]:
    """Returns the seconds since 1970 and the nanoseconds of a key. Python has no year 0."""
    found, year = OFFSET.search(key), int(key[:4])
    offset = 0 if found is None else (int(found[2]) * 60 + int(found[3])) * (-1 if found[1] == "-" else 1)
    # (the year 0 is as the year 400, 146,097 days before it)
    day = datetime.date(year or 400, int(key[5:7]), int(key[8:10])).toordinal() - (0 if year else 146_097)
    minutes = ((day - datetime.date(1970, 1, 1).toordinal()) * 24 + int(key[11:13])) * 60 + int(key[14:16]) - offset
    return minutes * 60 + int(key[17:19]), int(key[20:29])


def numbers_of(located: bytes) -> bytes:
    """Returns what `keyed -n` writes for a line of mode `locate`."""
    key, *fields = located.decode().split("\t")
    if key == "! none":
        return b"0 0 %d 0 0" % NONE
    start, end = map(int, sure(re.fullmatch(r"(\d+)-(\d+)", fields[1])).groups()) if len(fields) > 1 else (1, 0)
    if key == "! year":
        seconds, nanoseconds, reason = 0, 0, YEAR
    elif key == "! doubt":
        seconds, nanoseconds, reason = 0, 0, REASONS[fields[2]] if len(fields) > 2 else DOUBT
    else:
        (seconds, nanoseconds), reason = instant_of(key), 0
    return b"%d %d %d %d %d" % (seconds, nanoseconds, reason, start - 1, end)


def without_label(words: Sequence[str]) -> list[str]:
    """Returns words without a label, which mode `locate` does not take."""
    if "label" not in words:
        return list(words)
    at = words.index("label")
    return [*words[:at], *words[at + 2 :]]


class Calls:
    """The calls by a program in C, and the program of the words."""

    def __init__(self, keyed: pathlib.Path, program: pathlib.Path) -> None:
        self.keyed, self.program = keyed, program

    def try_run(self, rng: random.Random, lines: int) -> int:
        """Compares one run, and returns how many lines it has."""
        asked = sample_words.right_words(rng, 0.25, 0.25)
        words = [rng.choice(["key", "carry"]), *asked.words[1:]]
        # (in the text of the words a line feed parts two of them)
        if any("\n" in it for it in words):
            return 0
        stream = sample_lines.some_stream(rng, asked, lines)
        if "year" in words and not stream.endswith(b"\n"):
            # (a last part is a block of its own, which begins with that year)
            stream += b"\n"
        ran = subprocess.run([self.program, "-q", *words], input=stream, capture_output=True)
        if ran.returncode:
            return 0
        zone = ["-z", str(ZONES / asked.zone.lstrip(":"))] if asked.zone else []
        due = ran.stdout.split(b"\n")
        compare("keys", words, stream, due, output_of([self.keyed, "-b", str(len(stream) + 1), *zone, *words], stream).split(b"\n"))
        if "year" not in words:
            compare("keys by blocks", words, stream, due, output_of([self.keyed, "-b", SMALL, *zone, *words], stream).split(b"\n"))
        bare = without_label(words[1:])
        told = output_of([self.program, "-q", "locate", *bare], stream).split(b"\n")[:-1]
        numbers = output_of([self.keyed, "-n", "-b", str(len(stream) + 1), *zone, "key", *bare], stream).split(b"\n")[:-1]
        compare("numbers", words, stream, [numbers_of(it) for it in told], numbers)
        return lines


def compiled(library: pathlib.Path, room: str) -> pathlib.Path:
    """Compiles the program in C with the library."""
    made, source = pathlib.Path(room, "keyed"), ROOT / "bindings" / "c" / "keyed.c"
    subprocess.run(["gcc", "-std=c11", "-Wall", "-Wextra", "-Werror", "-O2", f"-I{ROOT / 'include'}", "-o", made, source, library], check=True)
    return made


def main() -> int:
    parser = argparse.ArgumentParser(description=str(__doc__).partition("\n")[0])
    parser.add_argument("--lines", type=int, default=200_000)
    parser.add_argument("--seed", type=int, default=1)
    parser.add_argument("--block", type=int, default=1000)
    parser.add_argument("--program", type=pathlib.Path, default=Program("instants_lines_program", "instants-lines").file)
    parser.add_argument("--libraries", type=pathlib.Path, default=build_library.out())
    given = parser.parse_args()
    done, seed, began = 0, given.seed, time.monotonic()
    with tempfile.TemporaryDirectory() as room:
        calls = Calls(compiled(given.libraries / build_library.ARCHIVE, room), given.program)
        while done < given.lines:
            try:
                more = calls.try_run(random.Random(seed), given.block)
            except Difference as difference:
                print(f"seed {seed}: {difference}")
                return 1
            if (done + more) // SIGN_OF_LIFE > done // SIGN_OF_LIFE:
                print(f"{done + more} lines, {time.monotonic() - began:.0f} s", file=sys.stderr, flush=True)
            done, seed = done + more, seed + 1
    print(f"{done} lines of {seed - given.seed} runs: keys and numbers are the program's")
    return 0


if __name__ == "__main__":
    sys.exit(main())

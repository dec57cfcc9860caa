#!/usr/bin/env python3
"""Measures `instants-lines` on whole lines of logs, and beside `dateconv -S`, which finds dates in lines too.

    bench/dated_lines.py [--rounds N] [--lines N] [--no-count] [--program PATH]

The packages of Debian to install: valgrind, and dateutils for `dateconv`. The program is the one that was built last
(`./instants-lines --build` builds it), or PATH. The lines are those of bench/lines.py: a web server's access log in the
combined format, messages without a date, and Python's traces. The program is asked for RFC 3339 and the web server's
description, in mode `key`. Printed is for each file

  instructions  a line and a byte, as callgrind counts them on the first 20,000 lines, less those of a run on an empty input
  speed         against `dateconv -S` with the web server's format: the processor time that it takes over that of the
                program, in the same round, and of these the median over the rounds; output goes to /dev/null
"""

import argparse
import pathlib
import re
import resource
import shutil
import statistics
import subprocess
import sys
import tempfile

import lines

BENCH = pathlib.Path(__file__).resolve().parent
PROGRAM = BENCH.parent / "crates" / "instants_lines_program" / "out" / "instants_lines_program"
WORDS = ["key", "+00:00", "-", "4096", "rfc3339", "strftime", "%d/%b/%Y:%H:%M:%S %z"]
DATECONV = ["-S", "-i", "%d/%b/%Y:%H:%M:%S", "-f", "%FT%T"]
FILES = {"access": "access log", "dateless": "messages without a date", "trace": "traces"}
COUNTED = 20_000


def instructions(program: pathlib.Path, text: bytes) -> int:
    """Returns how many instructions a run takes."""
    command: list[str | pathlib.Path] = ["valgrind", "--tool=callgrind", "--callgrind-out-file=/dev/null", program, *WORDS]
    said = subprocess.run(command, input=text, stdout=subprocess.DEVNULL, stderr=subprocess.PIPE, check=True).stderr
    found = re.search(rb"Collected : (\d+)", said)
    return int(found[1]) if found else sys.exit(said.decode(errors="replace"))


def seconds(command: list[str | pathlib.Path], file: pathlib.Path) -> float:
    """Returns the processor time of a run on a file."""
    before = resource.getrusage(resource.RUSAGE_CHILDREN)
    with open(file, "rb") as given:
        subprocess.run(command, stdin=given, stdout=subprocess.DEVNULL, stderr=subprocess.DEVNULL, check=False)
    after = resource.getrusage(resource.RUSAGE_CHILDREN)
    return after.ru_utime + after.ru_stime - before.ru_utime - before.ru_stime


def counted(program: pathlib.Path, file: pathlib.Path) -> str:
    """Returns what is printed of the instructions on the first lines of a file."""
    text = b"".join(file.read_bytes().splitlines(keepends=True)[:COUNTED])
    count = instructions(program, text) - instructions(program, b"")
    return f"{count / text.count(10):.0f} instructions a line, {count / len(text):.2f} a byte"


def compared(program: pathlib.Path, other: str, file: pathlib.Path, rounds: int) -> str:
    """Returns what is printed of the speed against the other program."""
    times = [(seconds([program, *WORDS], file), seconds([other, *DATECONV], file)) for _ in range(rounds)]
    return f"{statistics.median(theirs / ours for ours, theirs in times):.1f} times `dateconv -S`"


def main() -> None:
    parser = argparse.ArgumentParser(description=__doc__, formatter_class=argparse.RawDescriptionHelpFormatter)
    parser.add_argument("--rounds", type=int, default=5)
    parser.add_argument("--lines", type=int, default=200_000)
    parser.add_argument("--no-count", action="store_true")
    parser.add_argument("--program", type=pathlib.Path, default=PROGRAM)
    asked = parser.parse_args()
    other = shutil.which("dateutils.dconv") or shutil.which("dateconv")
    with tempfile.TemporaryDirectory(prefix="dated-lines-") as folder:
        lines.write(pathlib.Path(folder), asked.lines)
        for name, title in FILES.items():
            file = pathlib.Path(folder, f"{name}.txt")
            told = [] if asked.no_count else [counted(asked.program, file)]
            told += [compared(asked.program, other, file, asked.rounds)] if other else []
            print(f"{title}: {', '.join(told)}", flush=True)


if __name__ == "__main__":
    main()

#!/usr/bin/env python3
"""Feeds many generated lines of several sources to the program, and looks at what comes out and at its memory.

    bench/soak.py [--lines N] [--program PATH]

A block of ten thousand lines is made once, in a fixed order: times of RFC 3339, of RFC 2822 and of a web server's log,
and lines that name no moment. It is fed again and again. Each block of answers must be, byte for byte, that of the first
block alone, which a run of its own gives. The resident memory is read at each hundredth of the run (Debian's python3-psutil). The last line is
`N passed, M failed`; the status is 1 where something failed.
"""

import argparse
import pathlib
import random
import subprocess
import sys
import threading
from typing import IO

import psutil

ROOT = pathlib.Path(__file__).resolve().parent.parent
PROGRAM = ROOT / "crates" / "instants_program" / "out" / "instants_program"
WORDS = ["+00:00", "-", "100", "rfc3339", "rfc2822", "strftime", "%d/%b/%Y:%H:%M:%S %z"]
BLOCK_LINES = 10_000
MONTHS = "Jan Feb Mar Apr May Jun Jul Aug Sep Oct Nov Dec".split()


def line(rng: random.Random) -> str:
    """Returns one line of one of four kinds."""
    year, month, day = rng.randint(1, 9998), rng.randint(1, 12), rng.randint(1, 28)
    hour, minute, second = rng.randint(0, 23), rng.randint(0, 59), rng.randint(0, 59)
    sign, east = rng.choice("+-"), rng.randint(0, 23)
    kind = rng.randint(0, 9)
    if kind < 4:
        fraction = rng.choice(["", ".5", ".123456", ".123456789"])
        offset = rng.choice(["Z", f"{sign}{east:02}:30"])
        return f"{year:04}-{month:02}-{day:02}T{hour:02}:{minute:02}:{second:02}{fraction}{offset}"
    if kind < 6:
        year = 1900 + year % 8000
        return f"{day:02} {MONTHS[month - 1]} {year:04} {hour:02}:{minute:02}:{second:02} {sign}{east:02}30"
    if kind < 9:
        return f"{day:02}/{MONTHS[month - 1]}/{year:04}:{hour:02}:{minute:02}:{second:02} {sign}{east:02}00"
    return rng.choice(["", "yesterday", "2021-13-01T00:00:00Z", "x" * 101, f"{day:02}/Foo/{year:04}"])


def resident(pid: int) -> int:
    """Returns the resident memory of a process in KiB."""
    return int(psutil.Process(pid).memory_info().rss) // 1024


def feed(pipe: IO[bytes], block: bytes, times: int) -> None:
    """Writes the block so many times, and closes the pipe."""
    with pipe:
        for _ in range(times):
            pipe.write(block)


def main() -> int:
    parser = argparse.ArgumentParser()
    parser.add_argument("--lines", type=int, default=100_000_000)
    parser.add_argument("--program", default=str(PROGRAM))
    arguments = parser.parse_args()
    rng = random.Random(17)
    block = "".join(line(rng) + "\n" for _ in range(BLOCK_LINES)).encode()
    command = [arguments.program] + WORDS
    wanted = subprocess.run(command, input=block, stdout=subprocess.PIPE, check=True).stdout
    if wanted.count(b"\n") != BLOCK_LINES:
        print(f"{wanted.count(10)} answers to {BLOCK_LINES} lines")
        print("0 passed, 1 failed")
        return 1
    times = max(1, arguments.lines // BLOCK_LINES)
    process = subprocess.Popen(command, stdin=subprocess.PIPE, stdout=subprocess.PIPE)
    assert process.stdin and process.stdout
    feeder = threading.Thread(target=feed, args=(process.stdin, block, times), daemon=True)
    feeder.start()
    passed, sizes = 0, []
    for at in range(times):
        if process.stdout.read(len(wanted)) == wanted:
            passed += 1
        if at % max(1, times // 100) == 0:
            sizes.append(resident(process.pid))
    more = process.stdout.read()
    status = process.wait()
    settled = sizes[1:] or sizes
    failed = times - passed + (1 if more or status else 0)
    if max(settled) - min(settled) > 64:
        failed += 1
    print(f"{times * BLOCK_LINES} lines in, {passed * BLOCK_LINES} answered as the first ones, status {status}")
    print(f"resident memory {min(settled)} to {max(settled)} KiB over {len(settled)} looks")
    print(f"{passed} passed, {failed} failed")
    return 1 if failed else 0


if __name__ == "__main__":
    sys.exit(main())

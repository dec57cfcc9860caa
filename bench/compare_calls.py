#!/usr/bin/env python3
"""Measures calls of the library from C, Rust, Python and SQLite beside other libraries, and prints a table.

    bench/compare_calls.py [--lines N]

The packages of Debian: binutils gcc cargo rustc librust-time-dev python3 python3-ciso8601 python3-dateutil
python3-numpy libsqlite3-dev sqlite3.
The library is the one that was built last (`tools/build_library.py` builds it).

Each cell is how many nanoseconds of processor time a line takes, in the quickest of some rounds, in calls of one line, of 100 and of
all 100,000. The lines are of RFC 3339 (`bench/lines.py`), the target is UTC. A call by words looks at them, takes memory and
gives it back, so a call of one line is mostly that; for the row of three sources a description of strftime is read too, each
time. A call by a handle does none of it; the timelines of Rust and Python, Python's other calls and SQLite's function have one.
The crate `time`, `ciso8601` and `python-dateutil` read line by line, whatever a call has; they are measured once. In SQLite
each row is a call, and what a query without it takes is not counted.
"""

import argparse
import os
import pathlib
import re
import shutil
import subprocess
import sys
import tempfile
import time
from collections.abc import Sequence
from typing import Any

import lines as bench_lines
from compare_programs import machine, registry

BENCH = pathlib.Path(__file__).resolve().parent
ROOT = BENCH.parent
OUT = ROOT / "crates" / "instants_c" / "out"
# Debian's own, which has the modules of Debian's packages.
PYTHON = "/usr/bin/python3"
COUNTS = (1, 100, 100_000)
# The nanoseconds for each length of a call, where they were measured.
Cells = list[float | None]
RUST = "bench/calls/rust"
ALONE = ["+00:00", "-", "100", "rfc3339"]
LOG = "%d/%b/%Y:%H:%M:%S %z"
THREE = [*ALONE, "rfc2822", "strftime", LOG]
LOG_CALL = f"instant('+00:00', 'strftime', '{LOG}', line)"


def printed(command: list[str | pathlib.Path], **how: Any) -> float:
    """Returns the number that a command prints."""
    return float(subprocess.run(command, stdout=subprocess.PIPE, check=True, text=True, **how).stdout)


def build(room: pathlib.Path) -> None:
    """Builds what is measured in a folder."""
    flags = ["gcc", "-std=c11", "-O2", f"-I{ROOT / 'include'}"]
    subprocess.run([*flags, "-o", room / "calls", BENCH / "calls" / "calls.c", OUT / "libinstants.a"], check=True)
    extension = ROOT / "bindings" / "sqlite" / "instant.c"
    subprocess.run([*flags, "-fPIC", "-shared", "-o", room / "instant.so", extension, OUT / "libinstants.a"], check=True)
    for crate in (RUST, "bindings/rust"):
        shutil.copytree(ROOT / crate, room / crate, ignore=shutil.ignore_patterns("target", "Cargo.lock"))
    (room / RUST / ".cargo").mkdir()
    config = f'[source.crates-io]\nreplace-with = "debian"\n[source.debian]\ndirectory = "{registry()}"\n'
    (room / RUST / ".cargo" / "config.toml").write_text(config)
    places = {**os.environ, "INSTANTS_LIB_DIR": str(OUT)}
    subprocess.run(["cargo", "build", "--release", "--quiet", "--offline"], cwd=room / RUST, env=places, check=True)


def of_sqlite(room: pathlib.Path, file: pathlib.Path, count: int, call: str) -> float:
    """Returns the nanoseconds that a row takes in SQLite by a call, less those of a query without it."""
    def taken(call: str) -> float:
        script = f".load {room}/instant\nCREATE TABLE lines (line TEXT);\n.import {file} lines\n.timer on\nSELECT count({call}) FROM lines;\n"
        said = subprocess.run(["sqlite3", "-batch", ":memory:"], input=script, stdout=subprocess.PIPE, text=True, check=True).stdout
        return sum(float(it) for it in re.findall(r"(?:user|sys) (\S+)", said)[:2])

    return (min(taken(call) for _ in range(9)) - min(taken("line") for _ in range(9))) / count * 1e9


class Measured:
    """What was built, and the file of lines that the calls are of, with how many these are."""

    def __init__(self, room: pathlib.Path, file: pathlib.Path, count: int) -> None:
        self.room, self.file, self.count = room, file, count

    def in_c(self, how: str, words: list[str]) -> Cells:
        return [printed([self.room / "calls", how, self.file, str(min(it, self.count)), *words]) for it in COUNTS]

    def in_python(self, name: str, counts: Sequence[int]) -> Cells:
        places = dict(os.environ, INSTANTS_LIBRARY=str(OUT / "libinstants.so.0"), PYTHONPATH=str(ROOT / "bindings" / "python"))
        program = BENCH / "calls" / "calls.py"
        return [printed([PYTHON, "-B", program, self.file, str(min(it, self.count)), name, *ALONE], env=places) for it in counts]

    def in_rust(self, counts: Sequence[int | str], *wanted: str) -> Cells:
        return [printed([self.room / RUST / "target" / "release" / "calls", str(it), self.file, *wanted]) for it in counts]

    def in_sqlite(self, lines: pathlib.Path, call: str) -> Cells:
        return [of_sqlite(self.room, lines, self.count, call), None, None]


def rows(of: Measured) -> list[tuple[str, Cells]]:
    """Returns the rows: a title and a cell for each length of a call."""
    return [
        ("C: `instants_answer_lines`, by words, RFC 3339 alone", of.in_c("words", ALONE)),
        ("C: the same, three sources", of.in_c("words", THREE)),
        ("C: `instants_answer`, by a handle, RFC 3339 alone", of.in_c("handle", ALONE)),
        ("C: the same, three sources", of.in_c("handle", THREE)),
        ("C: `instants_answer_moments`, by a handle, RFC 3339 alone", of.in_c("moments", ALONE)),
        ("C: the same, three sources", of.in_c("moments", THREE)),
        ("Rust: `Timeline::append_to`", of.in_rust(COUNTS)),
        ("Rust: `Timeline::moments`", of.in_rust(COUNTS, "moments")),
        ("Rust: the crate `time` 0.3.9, `parse`, `to_offset`, `format_into`", of.in_rust(["time"]) * 3),
        ("Python: `Timeline.answer`", [*of.in_python("Timeline.answer", COUNTS[:1]), None, None]),
        ("Python: `Timeline.answers`", of.in_python("Timeline.answers", COUNTS)),
        ("Python: `answer_bytes`", of.in_python("answer_bytes", COUNTS)),
        ("Python: `answers`", of.in_python("answers", COUNTS)),
        ("Python: `datetimes`", of.in_python("datetimes", COUNTS)),
        ("Python: `ciso8601`, `astimezone`", of.in_python("ciso8601.datetimes", COUNTS[2:]) * 3),
        ("Python: `to_datetime64`, of bytes", of.in_python("to_datetime64", COUNTS)),
        ("Python: `ciso8601`, `astimezone`, `isoformat`", of.in_python("ciso8601", COUNTS[2:]) * 3),
        ("Python: `python-dateutil`, `isoparse`, `astimezone`, `isoformat`", of.in_python("dateutil", COUNTS[2:]) * 3),
        ("SQLite: `instant('+00:00', 'rfc3339', line)`", of.in_sqlite(of.file, "instant('+00:00', 'rfc3339', line)")),
        ("SQLite: the same by `'strftime', '%d/%b/%Y:%H:%M:%S %z'`, of a web server's lines", of.in_sqlite(of.file.with_name("log.txt"), LOG_CALL)),
    ]


def main() -> None:
    words = argparse.ArgumentParser(description=__doc__, formatter_class=argparse.RawDescriptionHelpFormatter)
    words.add_argument("--lines", type=int, default=100_000)
    given = words.parse_args()
    if not (OUT / "libinstants.a").exists():
        sys.exit("compare_calls.py: the library is not built; tools/build_library.py builds it")
    with tempfile.TemporaryDirectory(prefix="calls-") as folder:
        room = pathlib.Path(folder)
        build(room)
        bench_lines.write(room / "lines", given.lines)
        found = rows(Measured(room, room / "lines" / "rfc3339.txt", given.lines))
    date = time.strftime("%Y-%m-%d %H:%M UTC", time.gmtime())
    print(f"{date}, {machine()}, load {os.getloadavg()[0]:.1f}, {given.lines:,} lines, nanoseconds a line:\n")
    print("| call | 1 line | 100 lines | 100,000 lines |\n|---|---|---|---|")
    for title, cells in found:
        print(f"| {title} | {' | '.join('–' if it is None else f'{it:,.0f}' for it in cells)} |")


if __name__ == "__main__":
    main()

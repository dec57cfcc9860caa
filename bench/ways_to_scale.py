#!/usr/bin/env python3
"""Measures ways to put one large file through `instants` on several processors, and prints a table.

    bench/ways_to_scale.py [--megabytes N]

The packages of Debian: parallel python3-distributed. The program is the one that was built last (`./instants --build`).

The lines are mixed ones (bench/lines.py). Each way writes its output to the disk, and joins it where it is in parts, but for the
row that says so; all have the same bytes. A cell is the least of three runs, by the clock. Dask's scheduler and its workers, which talk over TCP, are there
before; GNU parallel and the processes side by side are started in the time that is measured.
"""

import argparse
import contextlib
import os
import pathlib
import random
import shlex
import subprocess
import sys
import tempfile
import time
from collections.abc import Callable

import lines as bench_lines
from compare_programs import machine

ROOT = pathlib.Path(__file__).resolve().parent.parent
sys.dont_write_bytecode = True
sys.path.insert(0, str(ROOT / "tools"))

import build_library
import try_dask
from program import Program

ROUNDS, WORKERS = 3, (1, 2, 4)
# So many mixed lines are made, and repeated.
MADE = 1_000_000
PROGRAM = Program("instants_program", "instants").file
COMMAND = shlex.join([str(PROGRAM), *try_dask.WORDS])
SIDE_BY_SIDE = "for k in $(seq {0}); do split -n l/$k/{0} lines | {1} > part.$k & done; wait"
JOIN = "cat $(seq -f part.%.0f {0}) > output; rm part.*"
PARALLEL = "parallel --will-cite -k -j {0} --pipepart -a lines --block -4 {1} > output"
DASK = """
import sys, time
from distributed import Client
from instants.dask import answer_file
with Client(scheduler_file=sys.argv[1]) as client:
    for _ in range(int(sys.argv[2])):
        began = time.monotonic()
        answer_file(client, sys.argv[3], sys.argv[5:], sys.argv[4])
        print(time.monotonic() - began)
"""


def by_shell(room: pathlib.Path, command: str, after: str = "true") -> float:
    """Returns the seconds that a command of the shell takes, without what comes after it."""
    taken = []
    for _ in range(ROUNDS):
        began = time.monotonic()
        subprocess.run(["bash", "-c", command], cwd=room, check=True)
        taken.append(time.monotonic() - began)
        subprocess.run(["bash", "-c", after], cwd=room, check=True)
    return min(taken)


def by_dask(room: pathlib.Path, workers: int) -> float:
    """Returns the seconds that workers of Dask take."""
    try_dask.WORKERS = workers
    with contextlib.ExitStack() as stack:
        cluster = try_dask.Cluster(room, build_library.out(), stack)
        command: list[str | pathlib.Path] = [try_dask.PYTHON, "-c", DASK, room / "address", str(ROUNDS), room / "lines", room / "output", *shlex.split(COMMAND)]
        said = subprocess.run(command, cwd=room, env=cluster.places, stdout=subprocess.PIPE, text=True, check=True).stdout
    return min(map(float, said.split()))


def write_lines(file: pathlib.Path, megabytes: int) -> int:
    """Writes mixed lines, and returns how many."""
    rng = random.Random(39)
    block = "".join(f"{bench_lines.mixed(rng)}\n" for _ in range(MADE)).encode()
    times = max(1, round(megabytes * 1e6 / len(block)))
    with open(file, "wb") as made:
        for _ in range(times):
            made.write(block)
    return MADE * times


def main() -> None:
    words = argparse.ArgumentParser(description=__doc__, formatter_class=argparse.RawDescriptionHelpFormatter)
    words.add_argument("--megabytes", type=int, default=1_000, metavar="N")
    given = words.parse_args()
    with tempfile.TemporaryDirectory(prefix="scale-", dir="/var/tmp") as folder:
        room = pathlib.Path(folder)
        count = write_lines(room / "lines", given.megabytes)
        due = None
        rows = [("one process", [by_shell(room, f"{COMMAND} < lines > output"), None, None])]
        ways: list[tuple[str, Callable[[int], float]]] = [
            ("`split -n l/K/N`, parts left apart", lambda it: by_shell(room, SIDE_BY_SIDE.format(it, COMMAND), JOIN.format(it))),
            ("`split -n l/K/N`, joined", lambda it: by_shell(room, f"{SIDE_BY_SIDE}; {JOIN}".format(it, COMMAND))),
            ("`parallel --pipepart -k`", lambda it: by_shell(room, PARALLEL.format(it, shlex.quote(COMMAND)))),
            ("Dask, workers over TCP", lambda it: by_dask(room, it)),
        ]
        for title, way in ways:
            due = due or subprocess.run(["cksum", room / "output"], stdout=subprocess.PIPE, check=True).stdout
            rows.append((title, [way(it) for it in WORKERS]))
            if subprocess.run(["cksum", room / "output"], stdout=subprocess.PIPE, check=True).stdout != due:
                sys.exit(f"{title}: another output")
        size = (room / "lines").stat().st_size
    date = time.strftime("%Y-%m-%d %H:%M UTC", time.gmtime())
    print(f"{date}, {machine()}, load {os.getloadavg()[0]:.1f}, {size / 1e9:.2f} GB, {count:,} mixed lines, seconds:\n")
    print(f"| way | {' | '.join(map(str, WORKERS))} |\n|---|{'---|' * len(WORKERS)}")
    for title, cells in rows:
        print(f"| {title} | {' | '.join('–' if it is None else f'{it:.2f}' for it in cells)} |")


if __name__ == "__main__":
    main()

#!/usr/bin/env pytest
"""Tries a file of lines on several processes by Dask distributed, of which one is killed in the run.

    tools/try_dask.py [--lines N] [-k WORD]

The packages of Debian: python3-distributed, python3-psutil. The programs are those that were built last (tools/build_program.py).

A scheduler and four workers are started, which talk over TCP, each a process of its own. `bindings/python/instants/dask.py`
puts a file of mixed lines through `instants` in some thirty parts. While parts are written, a worker is killed (`kill -9`) that
is at work on one. The output is byte for byte that of one process, and beside it nothing is left. The same for `instants-lines`
in mode `carry`, where a part begins with a line that has a date, and for the module as a command, without a kill. A program
that fails fails the whole, and leaves no output; what stands where the parts would is left alone.
"""

import contextlib
import importlib.util
import json
import os
import pathlib
import random
import shutil
import subprocess
import sys
import time
from collections.abc import Callable, Iterator

import pytest

sys.dont_write_bytecode = True

import build_library
from conftest import needed
from program import ENDED_WITH_CALLER, ROOT, Command

sys.path.insert(0, str(ROOT / "bench"))

import lines as bench_lines

psutil = needed("psutil", "python3-psutil")
# Debian's own, which has the modules of Debian's packages.
PYTHON = "/usr/bin/python3"
WORDS = ["+00:00", "-", "1048576", "rfc3339", "rfc2822", "strftime", "%d/%b/%Y:%H:%M:%S %z"]
WORKERS, PARTS = 4, 32
# How long each part takes at least, so that a worker that is killed is at work.
SLOWED = ["sh", "-c", 'sleep 0.2; "$0" "$@"']
# What is waited for, in seconds.
PATIENCE = 60
RUN = """
import sys
from distributed import Client
from instants.dask import answer_file
scheduler, file, output, size, begins, *command = sys.argv[1:]
with Client(scheduler_file=scheduler) as client:
    answer_file(client, file, command, output, int(size), begins.encode() or None)
"""


def until(is_so: Callable[[], bool]) -> bool:
    """Waits until something is so, or patience ends; whether it is."""
    end = time.monotonic() + PATIENCE
    while not is_so():
        if time.monotonic() > end:
            return False
        time.sleep(0.01)
    return True


class Cluster:
    """A scheduler and its workers."""

    def __init__(self, room: pathlib.Path, libraries: pathlib.Path, stack: contextlib.ExitStack) -> None:
        self.room, self.stack = room, stack
        self.places = dict(os.environ, PYTHONPATH=str(ROOT / "bindings" / "python"), PYTHONDONTWRITEBYTECODE="1")
        self.places["INSTANTS_LIBRARY"] = str(libraries / build_library.SHARED)
        (room / "address").unlink(missing_ok=True)
        self.start("scheduler", "--host", "127.0.0.1", "--port", "0", "--no-dashboard")
        self.workers = [self.start("worker", "--no-nanny", "--nthreads", "1", "--no-dashboard") for _ in range(WORKERS)]

    def start(self, what: str, *words: str) -> subprocess.Popen[bytes]:
        """Starts a process, which is killed at the end."""
        command: Command = [*ENDED_WITH_CALLER, PYTHON, "-m", f"distributed.cli.dask_{what}", "--scheduler-file", self.room / "address", *words]
        log = self.stack.enter_context(open(self.room / "log", "ab"))
        started = subprocess.Popen(command, stdout=log, stderr=log, cwd=self.room, env=self.places)
        self.stack.callback(started.wait)
        self.stack.callback(started.kill)
        until(lambda: what != "scheduler" or (self.room / "address").exists())
        return started

    def begin(self, *words: str | pathlib.Path) -> subprocess.Popen[bytes]:
        """Starts a run of Python, and returns its process."""
        command = [*ENDED_WITH_CALLER, PYTHON, *words]
        started = subprocess.Popen(command, cwd=self.room, env=self.places, stderr=subprocess.PIPE)
        self.stack.callback(started.wait)
        self.stack.callback(started.kill)
        return started

    def run(self, file: pathlib.Path, command: Command, size: int, begins: str = "") -> tuple[subprocess.Popen[bytes], pathlib.Path]:
        """Starts to answer a file, and returns the process and its output."""
        output = self.room / "output"
        return self.begin("-c", RUN, self.room / "address", file, output, str(size), begins, *command), output


@pytest.fixture(scope="module")
def cluster(room: pathlib.Path, libraries: pathlib.Path) -> Iterator[Cluster]:
    if not importlib.util.find_spec("distributed"):
        pytest.fail("there is no python3-distributed", pytrace=False)
    with contextlib.ExitStack() as stack:
        yield Cluster(room, libraries, stack)


@pytest.fixture(scope="module")
def file(room: pathlib.Path, pytestconfig: pytest.Config) -> pathlib.Path:
    """A file of mixed lines."""
    file, rng = room / "lines", random.Random(39)
    file.write_text("".join(f"{bench_lines.mixed(rng)}\n" for _ in range(pytestconfig.getoption("--lines") or 1_000_000)))
    return file


def is_at_work(worker: subprocess.Popen[bytes]) -> bool:
    """Returns whether a worker has a program that runs."""
    return bool(psutil.Process(worker.pid).children())


def parts_beside(output: pathlib.Path) -> pathlib.Path:
    """Returns where the parts of an output are before they are joined."""
    return pathlib.Path(f"{output}.parts")


def ends_well(ran: subprocess.Popen[bytes], output: pathlib.Path, command: Command, file: pathlib.Path) -> None:
    """Waits for a run, which has to end with what one process writes for a file, and to leave nothing beside it."""
    _, said = ran.communicate()
    with open(file, "rb") as given:
        due = subprocess.run(command, stdin=given, stdout=subprocess.PIPE, check=True).stdout
    is_same = output.exists() and output.read_bytes() == due
    output.unlink(missing_ok=True)
    assert ran.returncode == 0 and is_same, said.decode(errors="replace")[-2000:]
    assert not parts_beside(output).exists()


def test_a_worker_that_is_killed_at_work(cluster: Cluster, file: pathlib.Path, instants: pathlib.Path) -> None:
    ran, output = cluster.run(file, [*SLOWED, instants, *WORDS], file.stat().st_size // PARTS + 1)
    is_begun = until(lambda: len([it for it in parts_beside(output).glob("*") if "." not in it.name]) > 2)
    killed = cluster.workers[1]
    is_killed = is_begun and until(lambda: is_at_work(killed)) and ran.poll() is None
    killed.kill()
    killed.wait()
    ends_well(ran, output, [instants, *WORDS], file)
    assert is_killed


def test_carry(cluster: Cluster, room: pathlib.Path, instants_lines: pathlib.Path) -> None:
    """Each part begins with a date."""
    file, rng = room / "traces", random.Random(39)
    lines = (f"2024-05-01T{at // 3600 % 24:02}:{at // 60 % 60:02}:{at % 60:02}Z failed\n" + "  at line 7\n" * rng.randrange(5) for at in range(20_000))
    file.write_text("".join(lines))
    command: Command = [instants_lines, "carry", "+00:00", "-", "1048576", "rfc3339"]
    ran, output = cluster.run(file, command, file.stat().st_size // PARTS, r"\d{4}-\d\d-\d\dT")
    ends_well(ran, output, command, file)


def test_the_module_as_a_command(cluster: Cluster, file: pathlib.Path, instants: pathlib.Path) -> None:
    output, scheduler = cluster.room / "output", json.loads((cluster.room / "address").read_text())["address"]
    ran = cluster.begin("-m", "instants.dask", scheduler, file, output, instants, *WORDS)
    ends_well(ran, output, [instants, *WORDS], file)


def test_a_program_that_fails(cluster: Cluster, file: pathlib.Path, instants: pathlib.Path) -> None:
    ran, output = cluster.run(file, [instants, "+25:00", *WORDS[1:]], file.stat().st_size)
    ran.communicate()
    assert ran.returncode != 0 and not output.exists() and not parts_beside(output).exists()


def test_a_folder_that_is_there_already(cluster: Cluster, file: pathlib.Path, instants: pathlib.Path) -> None:
    kept = parts_beside(cluster.room / "output") / "kept"
    kept.parent.mkdir()
    kept.touch()
    ran, output = cluster.run(file, [instants, *WORDS], file.stat().st_size)
    ran.communicate()
    is_kept = kept.exists()
    shutil.rmtree(kept.parent)
    assert ran.returncode != 0 and is_kept and not output.exists()


if __name__ == "__main__":
    sys.exit(pytest.main([__file__, *sys.argv[1:]]))

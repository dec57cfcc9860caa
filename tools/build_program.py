#!/usr/bin/env python3
"""Proves and builds programs of this repository.

    tools/build_program.py CRATE..    as in tools/build_program.py description_check

The build is `rt ci` over a copy of the programs' crates alone, without tests and mutations: it proves them side by side, has
both compilers make each program, and compares what it writes with the stored run. The longest chain of crates, which no
number of processors makes shorter, is proved beside it by runs of its own, and each proof there gets as many processors as
it can use; the other run takes what they leave. What is proved is kept for the repository's own `rt ci` on this machine, and
for later builds. tools/build_all.py builds all programs for users and the library for C in one such run.
"""

import contextlib
import fcntl
import hashlib
import json
import os
import pathlib
import re
import shutil
import subprocess
import sys
import tempfile
import threading
import time
from collections.abc import Iterator, Sequence
from typing import Any

from program import ENDED_WITH_CALLER, PARTS, ROOT, BuildFailed, Program, lines_of_crates, uses

# What of a program's crate its stored run reads.
RUN = ("args", "stdin", "stdout", "status")
# What is known before the first crate is proved: for so many seconds the pace is that of docs/gate.json.
FOREKNOWN = 300
# How long a proof takes that docs/gate.json does not tell of, and from which part of all proofs on one of the longest chain gets
# a run of its own.
USUAL, LARGE = 100, 0.03


def build(*programs: Program) -> None:
    """Proves and builds those of the programs that are not current in one run, one call at a time, or raises BuildFailed."""
    if not shutil.which("rt"):
        raise BuildFailed("there is something to build, and there is no command rt")
    room = room_of_checkout()
    with in_turn(programs, room.with_suffix(".lock")):
        lacking = [it for it in programs if not it.is_current()]
        if not lacking:
            return
        try:
            # (what is changed from here on is newer than the programs)
            began = time.time_ns()
            lay_out(crates_of(lacking), room)
            prove(lacking, room)
            for program in lacking:
                put_in_place(program, room, began)
        finally:
            shutil.rmtree(room, ignore_errors=True)


def crates_of(programs: Sequence[Program]) -> list[str]:
    """Returns the crates of these programs that `rt ci` proves, each after those that it uses."""
    return list(dict.fromkeys(crate for program in programs for crate in program.proved_first()))


def room_of_checkout() -> pathlib.Path:
    """Returns the folder where this checkout builds; what an ended build left there goes with the next one."""
    home = pathlib.Path(tempfile.gettempdir(), f"fuzhelik-{os.getuid()}")
    home.mkdir(mode=0o700, exist_ok=True)
    if home.is_symlink() or home.stat().st_uid != os.getuid():
        raise BuildFailed(f"{home} is not this user's own folder")
    return home / hashlib.sha256(str(ROOT).encode()).hexdigest()[:16]


@contextlib.contextmanager
def in_turn(programs: Sequence[Program], file: pathlib.Path) -> Iterator[None]:
    """Waits while another call builds in this checkout."""
    with open(file, "w") as lock:
        try:
            fcntl.flock(lock, fcntl.LOCK_EX | fcntl.LOCK_NB)
        except BlockingIOError:
            say(programs, "another call is building here; waiting for it")
            fcntl.flock(lock, fcntl.LOCK_EX)
        yield


def say(programs: Sequence[Program], text: str) -> None:
    """Says something of a build of these programs."""
    print(f"{', '.join(it.name for it in programs)}: {text}", file=sys.stderr, flush=True)


def lay_out(crates: list[str], room: pathlib.Path) -> None:
    """Copies the sources of the crates, and the stored run of each program."""
    shutil.rmtree(room, ignore_errors=True)
    # (rt ci wants the top of a repository)
    (room / ".git").mkdir(parents=True)
    said = lines_of_crates()
    (room / "crates.txt").write_text("".join(said[it] for it in crates))
    shutil.copy(ROOT / "HANDLES", room / "HANDLES")
    for crate in crates:
        copy_crate(crate, room)


def copy_crate(crate: str, room: pathlib.Path) -> None:
    """Copies the sources of a crate, and the stored run of a program."""
    for part in (*PARTS, *RUN):
        source, target = ROOT / "crates" / crate / part, room / "crates" / crate / part
        if source.is_dir():
            shutil.copytree(source, target)
        elif source.is_file():
            shutil.copy(source, target)


def prove(programs: Sequence[Program], room: pathlib.Path) -> None:
    """Proves and builds what is laid out there, and tells of each crate."""
    began, progress = time.monotonic(), Progress(programs)
    log: list[str] = []
    how: dict[str, Any] = {"cwd": room, "stdin": subprocess.DEVNULL, "stdout": subprocess.PIPE, "stderr": subprocess.STDOUT, "text": True}
    whole = [*ENDED_WITH_CALLER, "nice", "-n", "10", "rt", "ci"]
    with hurrying(crates_of(programs), room), subprocess.Popen(whole, errors="replace", **how) as ran:
        for line in ran.stdout or ():
            log.append(line)
            proved = re.match(r"rt: (\w+) (?:proved$|is kept: )", line)
            if proved:
                progress.tell(proved[1], time.monotonic() - began)
    if ran.returncode:
        sys.stderr.writelines(log)
        raise BuildFailed("the build failed")


def known_times() -> dict[str, float]:
    """Returns how many seconds each crate's proof took for docs/gate.json."""
    crates = json.loads((ROOT / "docs" / "gate.json").read_text())["crates"]
    return {name: it["proof"] for name, it in crates.items()}


def longest_chain(crates: list[str]) -> list[str]:
    """Returns those of the crates that stand on one another and take longest together, the lowest first."""
    known, used = known_times(), uses()
    chains: dict[str, list[str]] = {}

    def lasts(chain: list[str]) -> float:
        return sum(known.get(it, USUAL) for it in chain)

    for crate in crates:
        chains[crate] = [*max((chains[it] for it in used[crate] if it in chains), key=lasts, default=[]), crate]
    return max(chains.values(), key=lasts)


@contextlib.contextmanager
def hurrying(crates: list[str], room: pathlib.Path) -> Iterator[None]:
    """Proves the longest chain meanwhile, up to each of its long proofs in turn."""
    known, is_over = known_times(), threading.Event()
    least = LARGE * sum(known.get(it, USUAL) for it in crates)

    def hurry() -> None:
        for crate in longest_chain(crates):
            if known.get(crate, USUAL) < least:
                continue
            how: dict[str, Any] = {"cwd": room, "stdin": subprocess.DEVNULL, "stdout": subprocess.DEVNULL, "stderr": subprocess.DEVNULL}
            with subprocess.Popen([*ENDED_WITH_CALLER, "rt", "ci", crate], **how) as ran:
                while ran.poll() is None and not is_over.wait(1):
                    pass
                ran.terminate()
            if is_over.is_set():
                break

    thread = threading.Thread(target=hurry)
    thread.start()
    try:
        yield
    finally:
        is_over.set()
        thread.join()


def put_in_place(program: Program, room: pathlib.Path, began: int) -> None:
    """Puts what was made where it is looked for, as old as what it was made from."""
    folder = program.file.parent
    folder.mkdir(exist_ok=True)
    for name, made in program.made_in(room).items():
        arriving = folder / f"{name}.new"
        shutil.copy(made, arriving)
        os.utime(arriving, ns=(began, began))
        os.replace(arriving, folder / name)


def told(seconds: float) -> str:
    """Returns a length of time in words."""
    return f"{seconds:.0f} s" if seconds < 100 else f"{seconds / 60:.0f} min"


def expected(*programs: Program) -> float:
    """Returns how many seconds a build of the programs from nothing takes on these processors, as the proofs took for docs/gate.json."""
    known = known_times()
    return sum(known.get(it, USUAL) for it in crates_of(programs)) / len(os.sched_getaffinity(0))


class Progress:
    """How far a build is, and how long the rest is likely to take: as the proofs took for docs/gate.json, at the pace so far."""

    def __init__(self, programs: Sequence[Program]) -> None:
        known = known_times()
        self.programs, self.due, self.worked = programs, {it: known.get(it, USUAL) for it in crates_of(programs)}, 0.0
        self.count = len(self.due)
        say(programs, f"proving and building {self.count} crates, in {told(expected(*programs))} or so, or less where they were proved here before")

    def left(self, passed: float) -> float:
        """Returns how many seconds the crates that are due are likely to take."""
        lanes = len(os.sched_getaffinity(0))
        return sum(self.due.values()) * (passed + FOREKNOWN) / (self.worked + FOREKNOWN * lanes)

    def tell(self, crate: str, passed: float) -> None:
        """Says that a crate is proved, so many seconds after the beginning."""
        self.worked += self.due.pop(crate)
        left = f", {told(self.left(passed))} or so left" if self.due else ""
        say(self.programs, f"{crate} is proved, {self.count - len(self.due)} of {self.count} crates, {passed:.0f} s{left}")


if __name__ == "__main__":
    if len(sys.argv) < 2 or not set(sys.argv[1:]) <= set(uses()):
        sys.exit(__doc__)
    try:
        build(*(Program(it, it) for it in sys.argv[1:]))
    except BuildFailed as fault:
        sys.exit(f"{', '.join(sys.argv[1:])}: {fault}")

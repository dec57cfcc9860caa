#!/usr/bin/env pytest
"""Tries what `./instants` does on a clone where nothing is built, and compares a trial's answers with the proved program's.

    tools/try_first_answer.py [--rows FILE] [-k WORD]

FILE, of which there may be several, has a JSON object on each line: `words`, a list, and `stdin`, whose characters are its bytes. All
of them go through one trial of the program (`rt try --cases`) and through the proved program, which is to be built here; what both
write and their statuses have to be the same. Then, in copies of the sources:

- a call without arguments gives the usage at once: within twice as long as a piece of work of a fixed size takes here, just before
  or after;
- the first call answers within 150 times as long as that, which is a minute on processors of 2.5 GHz that have nothing else to do;
  it says on standard error first that it builds a trial, then
  that this is not proved; wrong words get their sentence and status 2;
- a terminal and an input that is too long are refused, with the command that builds the proved program;
- a pipe that is silent for five seconds loses nothing;
- ten calls of `--build` build the program once (this takes as long as a build, unless `rt ci` has kept its proofs);
- a caller that is ended while it tries or builds, by whatever signal, leaves no process after.

It needs Linux, Debian's python3-psutil and some minutes.
"""

import contextlib
import json
import os
import pathlib
import pty
import re
import signal
import statistics
import subprocess
import sys
import time
import uuid
from collections.abc import Sequence
from typing import Any

import pytest

sys.dont_write_bytecode = True

from conftest import needed
from program import ROOT, sure

psutil = needed("psutil", "python3-psutil")
MARK = "FUZHELIK_TRIED"
WORDS = ["+00:00", "-", "100", "rfc3339", "rfc2822"]
LINES = [b"2021-01-02T03:04:05Z\n", b"Fri, 21 Nov 1997 09:55:06 -0600\n", b"x\n"]
ANSWERS = b"2021-01-02T03:04:05.000000000Z\n1997-11-21T15:55:06.000000000Z\n! component year\n"
# What each processor does at once to tell the machine's pace: it prints its seconds.
WORK = "import time; began = time.perf_counter(); sum(it * it % 7 for it in range(3_000_000)); print(time.perf_counter() - began)"
# A first answer is to come within so many times as long as that takes. A free processor of 2.5 GHz needs some 0.4 seconds for it.
MOST_PACES = 150
# What comes within so many times as long as that comes at once.
AT_ONCE = 2


@pytest.fixture(scope="module")
def wrapper(room: pathlib.Path) -> pathlib.Path:
    """The wrapper in a copy of the checkout, as it stands, without what was built."""
    files = subprocess.run(["git", "ls-files", "-co", "--exclude-standard"], cwd=ROOT, capture_output=True, text=True, check=True)
    there = "".join(f"{it}\n" for it in files.stdout.splitlines() if (ROOT / it).is_file())
    subprocess.run(["tar", "-cf", room / "all.tar", "-T", "-"], cwd=ROOT, input=there, text=True, check=True)
    subprocess.run(["tar", "-xf", "all.tar"], cwd=room, check=True)
    return room / "instants"


def call(wrapper: pathlib.Path, words: Sequence[str], marked: str | None = None, stdin: int = subprocess.PIPE) -> subprocess.Popen[bytes]:
    """Starts a call whose processes, and theirs, are told by a mark in their environment."""
    how: dict[str, Any] = {"stdout": subprocess.PIPE, "stderr": subprocess.PIPE, "env": {**os.environ, MARK: marked or uuid.uuid4().hex}}
    return subprocess.Popen([wrapper, *words], stdin=stdin, **how)


def answered(wrapper: pathlib.Path, words: Sequence[str], given: bytes = b"") -> tuple[int, bytes, str]:
    """Returns the status of a call, what it writes and what it says."""
    with call(wrapper, words) as ran:
        out, said = ran.communicate(given)
    return ran.returncode, out, said.decode().strip()


def marked_processes(mark: str) -> list[tuple[int, str]]:
    """Returns the processes that have the mark in their environment, but for those that have ended."""
    found = []
    for it in psutil.process_iter():
        # (one that ends meanwhile, or is another user's, tells nothing)
        with contextlib.suppress(psutil.Error):
            if it.environ().get(MARK) == mark:
                found.append((it.pid, " ".join(it.cmdline())[:80]))
    return found


def pace() -> float:
    """Returns the seconds that the work of a fixed size takes now, where each processor does it."""
    workers = [subprocess.Popen([sys.executable, "-c", WORK], stdout=subprocess.PIPE) for _ in range(os.cpu_count() or 1)]
    return statistics.mean(float(it.communicate()[0]) for it in workers)


def test_rows(request: pytest.FixtureRequest, tmp_path: pathlib.Path) -> None:
    """A trial answers all rows as the proved program does."""
    rows = [json.loads(line) for file in request.config.getoption("--rows") or [] for line in pathlib.Path(file).read_text().splitlines()]
    if not rows:
        pytest.skip("no rows are named")
    instants: pathlib.Path = request.getfixturevalue("instants")
    for at, row in enumerate(rows):
        case, stdin = tmp_path / f"{at:05}", row["stdin"].encode("latin-1")
        ran = subprocess.run([instants, *row["words"]], input=stdin, capture_output=True)
        row["status"] = ran.returncode
        case.write_bytes(stdin)
        case.with_suffix(".args").write_text("".join(f"{it}\n" for it in row["words"]))
        case.with_suffix(".stdout").write_bytes(ran.stdout)
    tried = subprocess.run(["rt", "try", "--cases", tmp_path], cwd=ROOT / "crates" / "instants_program", capture_output=True, text=True, errors="replace")
    said = tried.stdout + tried.stderr
    ended = {int(at): int(status) for at, status in re.findall(r"^case=0*(\d+) .*?status=(\d+)", said, re.M)}
    assert [f"{row['words']} {row['stdin']!r}" for at, row in enumerate(rows) if ended.get(at) != row["status"]] == []
    assert tried.returncode == 0, said[-600:]


def test_no_arguments(wrapper: pathlib.Path) -> None:
    """They give the usage at once."""
    before, began = pace(), time.monotonic()
    said = answered(wrapper, [])
    passed = time.monotonic() - began
    paces = passed / max(before, pace())
    print(f"{passed:.1f} s, or {paces:.1f} times the work of a fixed size")
    assert said == (2, b"", "instants: usage: instants TARGET ASSUMED LIMIT SOURCE...")
    assert paces < AT_ONCE


def test_the_first_call(wrapper: pathlib.Path) -> None:
    """It says first what it does, and then that the answers are not proved, and comes within some time of a fixed work."""
    before, began = pace(), time.monotonic()
    _, out, said = answered(wrapper, WORDS, b"".join(LINES))
    passed = time.monotonic() - began
    # (the machine may be busy only for a while)
    paces = passed / max(before, pace())
    print(f"{passed:.0f} s, or {paces:.0f} times the work of a fixed size")
    first, _, last = said.partition("\n")
    assert out == ANSWERS and "builds a trial" in first and "half a minute" in first and "not proved" in last and "--build" in last
    assert paces < MOST_PACES


def test_wrong_words(wrapper: pathlib.Path) -> None:
    status, out, said = answered(wrapper, [*WORDS[:3], "v1", "[foo"])
    assert (status, out, said.split("\n")[-1]) == (2, b"", "instants: source 1: unclosed opening bracket at byte index 0")


def test_a_terminal(wrapper: pathlib.Path) -> None:
    """It is refused, with the command that builds the program."""
    reads, writes = pty.openpty()
    with call(wrapper, WORDS, stdin=writes) as ran:
        out, said = ran.communicate()
    os.close(reads)
    os.close(writes)
    assert ran.returncode == 1 and not out and b"terminal" in said and b"--build" in said


def test_a_long_input(wrapper: pathlib.Path) -> None:
    """It is refused, with the command that builds the program."""
    status, out, said = answered(wrapper, WORDS, LINES[0] * 40_000)
    assert status == 1 and not out and "MiB" in said and "--build" in said


def test_a_silent_pipe(wrapper: pathlib.Path) -> None:
    """One that is silent for five seconds loses nothing."""
    with call(wrapper, WORDS) as ran:
        given = sure(ran.stdin)
        for line in LINES:
            given.write(line)
            given.flush()
            time.sleep(5)
        out, said = ran.communicate()
    assert (ran.returncode, out) == (0, ANSWERS), said.decode()


@pytest.mark.parametrize("number", [signal.SIGTERM, signal.SIGINT, signal.SIGKILL], ids=lambda it: str(it.name))
@pytest.mark.parametrize("words, seconds", [(WORDS, 8), (["--build"], 3)], ids=["a trial", "a build"])
def test_an_ended_caller(wrapper: pathlib.Path, words: Sequence[str], seconds: float, number: signal.Signals) -> None:
    """It leaves nothing running."""
    mark = uuid.uuid4().hex
    with call(wrapper, words, mark, stdin=subprocess.DEVNULL) as ran:
        time.sleep(seconds)
        were = marked_processes(mark)
        ran.send_signal(number)
        ran.communicate()
    until = time.monotonic() + 10
    while marked_processes(mark) and time.monotonic() < until:
        time.sleep(0.2)
    assert len(were) > 1 and marked_processes(mark) == []


def test_ten_builds(wrapper: pathlib.Path) -> None:
    """Ten calls at once build once, and the program that they built answers."""
    calls = [call(wrapper, ["--build"], stdin=subprocess.DEVNULL) for _ in range(10)]
    told = [it.communicate()[1].decode() for it in calls]
    assert sum("proving and building" in it for it in told) == 1, told
    assert not any(it.returncode for it in calls)
    assert answered(wrapper, WORDS, b"".join(LINES))[1:] == (ANSWERS, "")


if __name__ == "__main__":
    sys.exit(pytest.main([__file__, *sys.argv[1:]]))

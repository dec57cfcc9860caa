#!/usr/bin/env pytest
"""Tries whether the proved programs answer each line as soon as its line feed is there, before the next line is written.

    tools/try_live.py [--instants PROGRAM] [--instants-lines PROGRAM] [-k WORD]

The programs are those that were built last (`./instants --build` builds one), unless others are named; `instants-lines` is tried
in mode `carry`. Each is started with pipes for its input and its output, and asked for one line after the other:

- a hundred lines, each written when the answer to the last one is there;
- lines in two pieces: nothing is answered before the second one;
- two lines at once;
- a line that is longer than the limit, in three pieces;
- of `instants-lines`, a line that goes on far after the limit, whose first piece is handed on before the next one is written;
- at the end of the input a last line without a line feed.

An answer that does not come within ten seconds has failed.
"""

import os
import pathlib
import select
import subprocess
import sys
import time
from collections.abc import Iterator, Sequence

sys.dont_write_bytecode = True

import pytest
from program import sure

WORDS = ["+00:00", "-", "100", "rfc3339"]
# How long an answer may take, and how long it is seen that none comes, in seconds.
PATIENCE, SILENCE = 10, 0.2
PIECES = 10
# More bytes than are looked at of a line with the limit of the words.
FAR = 500


class Live:
    """A program at work, its standard input and output in our hands; and whether a line stands behind its answer."""

    def __init__(self, command: Sequence[str | pathlib.Path], has_lines: bool) -> None:
        self.has_lines = has_lines
        self.program = subprocess.Popen(command, stdin=subprocess.PIPE, stdout=subprocess.PIPE, bufsize=0)
        self.stdin, self.stdout = sure(self.program.stdin), sure(self.program.stdout)

    def read(self, count: int, patience: float = PATIENCE) -> bytes:
        """Returns as many bytes, or those that came in time or before the end."""
        until, taken = time.monotonic() + patience, b""
        while len(taken) < count and select.select([self.stdout], [], [], max(until - time.monotonic(), 0))[0]:
            piece = os.read(self.stdout.fileno(), count - len(taken))
            if not piece:
                break
            taken += piece
        return taken

    def answers(self, lines: bytes, wanted: bytes) -> None:
        """Writes lines, to which exactly these answers come."""
        self.stdin.write(lines)
        assert self.read(len(wanted)) == wanted

    def is_silent_after(self, piece: bytes) -> None:
        """Writes a piece of a line, which is not answered before its line feed."""
        self.stdin.write(piece)
        assert self.read(1, SILENCE) == b""

    def line_and_answer(self, at: int) -> tuple[bytes, bytes]:
        moment = f"2021-01-02T{at // 60 % 24:02}:{at % 60:02}:05"
        line = f"{moment}Z".encode()
        return line + b"\n", f"{moment}.000000000Z".encode() + (b"\t" + line) * self.has_lines + b"\n"


@pytest.fixture(params=["instants", "instants-lines"])
def live(request: pytest.FixtureRequest) -> Iterator[Live]:
    has_lines = request.param == "instants-lines"
    program: pathlib.Path = request.getfixturevalue(request.param.replace("-", "_"))
    live = Live([program, *["carry"] * has_lines, *WORDS], has_lines)
    yield live
    live.program.kill()
    live.program.wait()


def test_lines(live: Live) -> None:
    for at in range(100):
        live.answers(*live.line_and_answer(at))


def test_pieces(live: Live) -> None:
    for at in range(PIECES):
        line, answer = live.line_and_answer(at)
        cut = 1 + at * (len(line) - 2) // (PIECES - 1)
        live.is_silent_after(line[:cut])
        live.answers(line[cut:], answer)


def test_two_lines_at_once(live: Live) -> None:
    live.answers(*(b"".join(it) for it in zip(*(live.line_and_answer(at) for at in (7, 8)))))


def test_a_long_line(live: Live) -> None:
    line, answer = live.line_and_answer(8)
    live.answers(line, answer)
    for _ in range(2):
        live.is_silent_after(b"9" * 60)
    live.answers(b"9\n", answer.split(b"\t")[0] + b"\t" + b"9" * 121 + b"\n" if live.has_lines else b"! long\n")


@pytest.mark.parametrize("live", ["instants-lines"], indirect=True)
def test_a_line_that_goes_on(live: Live) -> None:
    """Each piece far after the limit is handed on."""
    line, answer = live.line_and_answer(11)
    piece = line[:-1] + b" " * FAR
    live.answers(piece, answer.split(b"\t")[0] + b"\t" + piece)
    live.answers(b"8" * 9, b"8" * 9)
    live.answers(b"\n", b"\n")


def test_the_last_line(live: Live) -> None:
    line, answer = live.line_and_answer(9)
    live.stdin.write(line[:-1])
    live.stdin.close()
    assert live.read(len(answer) + 1) == answer
    assert live.program.wait(PATIENCE) == 0


if __name__ == "__main__":
    sys.exit(pytest.main([__file__, *sys.argv[1:]]))

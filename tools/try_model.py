#!/usr/bin/env python3
"""Compares the program `instants-lines` with a model of it (tools/model_lines.py) on lines that are made at random.

    tools/try_model.py [--lines N] [--seed S] [--program PATH] [--block N] [--processes N] [--zones 0.25] [--parts 0.25]
    tools/try_model.py --only SEED [..]    the run of one seed, as a difference names it
    tools/try_model.py --rows              the model beside the stored rows of dated lines (crates/rows), without the program

Each run has words of its own: a mode, offsets, a limit, a year, a time of day and sources, among them descriptions that are made at
random, and a stream of lines with dates of all kinds, changed bytes and odd ends. One run in four names a zone (--zones), and most
of its dates are near a change of that clock; model and program read the zones of this machine. One in four looks for dates in a field
or a column (--parts). One run in twenty has words that are wrong. Output,
status and the sentence on standard error have to be the same, byte by byte. Of the first run that differs the words are printed, the
first line that is answered differently, and both outputs; the status is 1 then.

The program is the one that was built last, and else `./instants-lines`, whose trials take half a minute each: give it --block 4000 or so,
and few lines.
"""

import argparse
import multiprocessing
import os
import pathlib
import random
import re
import shlex
import subprocess
import sys
import time
from collections.abc import Sequence
from typing import NamedTuple

sys.dont_write_bytecode = True

import sample_lines
import sample_words
from model.lines import answer

ROOT = pathlib.Path(__file__).resolve().parent.parent
BUILT = ROOT / "crates" / "instants_lines_program" / "out" / "instants_lines_program"
ROWS, DATED = ROOT / "crates" / "rows" / "stdout", "\n## Dated lines\n"
# What is said beside the sentence of a run: of a trial, what to do, of a description that is literal text alone, and of lines none of
# which is dated.
OF_TRIAL = b"instants-lines: what follows is of a trial"
NOTES = (b"instants-lines: the program is not built", b"instants-lines: the program that is built is older", OF_TRIAL, b"instants-lines: hint: ")
WARNING = re.compile(rb"instants-lines: warning: (?:.*? names no component, as|no line has a date that) [^\n]*\n", re.DOTALL)
# The nearest name of a zone that is not there, which the model does not look for (tools/try_zones.py does).
NEAREST = re.compile(rb"(?<=zoneinfo); there is [^\n]*")
PROCESSES, ZONES, PARTS = 2, 0.25, 0.25
# A list of wrong words costs a run of its own, which takes as long as so many lines.
LINES_OF_A_LIST, WRONG = 10, 2
# After how many lines it is told that the trial goes on.
SIGN_OF_LIFE = 50_000


# The output, the sentence and the status of a run.
Answer = tuple[bytes, bytes, int]


class Difference(Exception):
    """The program and the model differ; the text says where."""


def said_by_program(program: str, words: Sequence[str], stream: bytes) -> Answer:
    """Returns the output, the sentence and the status of the program."""
    ran = subprocess.run([program, *words], input=stream, capture_output=True)
    said = NEAREST.sub(b"", WARNING.sub(b"", ran.stderr)).splitlines(keepends=True)
    if OF_TRIAL in ran.stderr:
        # (a trial ends an output that has no line feed at its end by one among what is said)
        said = [it for it in said if it != b"\n"]
    said = [it for it in said if not it.startswith(NOTES)]
    return ran.stdout, b"".join(said), ran.returncode


def lines_alike(one: Sequence[bytes], other: Sequence[bytes]) -> int:
    """Returns how many lines at the start of two outputs are the same."""
    pairs = enumerate(zip(one, other))
    return next((at for at, (left, right) in pairs if left != right), min(len(one), len(other)))


def first_difference(words: Sequence[str], stream: bytes, program: Answer, model: Answer) -> str:
    """Returns what is printed of two answers that differ."""
    text = [f"words: {shlex.join(words)}"]
    if program[1:] != model[1:]:
        text += [f"program: status {program[2]}, {program[1]!r}", f"model:   status {model[2]}, {model[1]!r}"]
    left, right = program[0].split(b"\n"), model[0].split(b"\n")
    at = lines_alike(left, right)
    if left != right:
        given = stream.split(b"\n")
        text += [f"line {at + 1}: {given[at] if at < len(given) else b''!r}"]
        text += [f"program: {left[at] if at < len(left) else b''!r}", f"model:   {right[at] if at < len(right) else b''!r}"]
        above = model[0].split(b"\n")[max(at - 1, 0) : at]
        text += [f"above:   {it!r}" for it in above]
    return "\n".join(text)


def compare(program: str, words: Sequence[str], stream: bytes) -> Answer:
    """Compares one run, and returns the model's answer, or raises Difference."""
    expected = answer([it.encode() for it in words], stream)
    given = said_by_program(program, words, stream if expected[2] == 0 else b"")
    if given != expected:
        raise Difference(first_difference(words, stream, given, expected))
    return expected


class Task(NamedTuple):
    """A run to compare: how many lines it has, and which share of runs names a zone, and which a part of lines."""

    program: str
    seed: int
    lines: int
    zones: float
    parts: float


class Compared(NamedTuple):
    """The mode of a run, how many lines were compared, of these with a zone and by a part, and how many lists of wrong words."""

    mode: str
    lines: int
    in_zones: int
    in_parts: int
    wrong: int


def compare_block(task: Task) -> Compared:
    """Compares one run with lines, or now and then runs whose words are wrong."""
    rng = random.Random(task.seed)
    if rng.random() < 0.05:
        lists = [sample_words.wrong_words(rng) for _ in range(task.lines // LINES_OF_A_LIST + 1)]
        return Compared("", 0, 0, 0, sum(compare(task.program, it.words, b"")[2] == WRONG for it in lists))
    asked = sample_words.right_words(rng, task.zones, task.parts)
    stream = sample_lines.some_stream(rng, asked, task.lines)
    status = compare(task.program, asked.words, stream)[2]
    lines = task.lines if status == 0 else 0
    return Compared(asked.words[0], lines, lines if asked.zone else 0, lines if asked.part else 0, int(status == WRONG))


# ---- the stored rows


def words_in(text: str) -> list[bytes]:
    """Returns words that are parted by blanks; one with a blank in it is in single quotes."""
    words = shlex.shlex(text, posix=True)
    words.whitespace_split, words.escape, words.quotes, words.commenters = True, "", "'", ""
    return [it.encode() for it in words]


def bytes_in(text: str) -> bytes:
    """Returns the bytes of a stream or an answer: a line feed ends it, unless `\\c` does."""
    is_cut = text.endswith("\\c")
    marks = {"n": b"\n", "r": b"\r", "t": b"\t", "\\": b"\\"}
    parts = re.split(r"\\(x[0-9a-fA-F]{2}|[nrt\\])", text[:-2] if is_cut else text)
    read = b"".join(part.encode() if at % 2 == 0 else marks.get(part) or bytes.fromhex(part[1:]) for at, part in enumerate(parts))
    return read if is_cut else read + b"\n"


def compare_rows() -> int:
    """Compares the model with the stored rows, prints those that differ, and returns how many."""
    rows = [it for it in ROWS.read_text().partition(DATED)[2].splitlines() if it and it[0] != "#"]
    differing = 0
    for row in rows:
        words, _, stream = row.partition("|")
        stream, _, told = stream.removeprefix(" ").partition(" => " if " => " in row else " =>")
        written, said, status = answer(words_in(words), bytes_in(stream))
        is_same = f"{said.decode().strip()} (status {status})" == told if status else written == bytes_in(told)
        if not is_same:
            differing += 1
            print(f"{row}\nmodel: {said or written!r}")
    print(f"{len(rows)} rows, {differing} of them differ")
    return differing


# ---- runs on several processes


def compared(task: Task) -> Compared | str:
    """Returns what `compare_block` says, or the text of a difference."""
    try:
        return compare_block(task)
    except Difference as difference:
        return f"seed {task.seed}\n{difference}"


def compare_many(asked: argparse.Namespace) -> int:
    """Compares runs until so many lines are compared, and returns the status."""
    runs = (asked.lines + asked.block - 1) // asked.block
    tasks = (Task(asked.program, asked.seed * 1_000_000 + it, asked.block, asked.zones, asked.parts) for it in range(runs * 2))
    by_mode: dict[str, int] = {}
    lines, in_zones, in_parts, wrong, began = 0, 0, 0, 0, time.monotonic()
    with multiprocessing.Pool(asked.processes) as pool:
        for said in pool.imap(compared, tasks):
            if isinstance(said, str):
                print(f"after {lines} lines without a difference:\n{said}")
                return 1
            if (lines + said.lines) // SIGN_OF_LIFE > lines // SIGN_OF_LIFE:
                print(f"{lines + said.lines} lines so far", file=sys.stderr, flush=True)
            lines, in_zones, wrong = lines + said.lines, in_zones + said.in_zones, wrong + said.wrong
            in_parts += said.in_parts
            by_mode[said.mode] = by_mode.get(said.mode, 0) + said.lines
            if lines >= asked.lines:
                break
        pool.terminate()
    told = ", ".join(f"{count} in mode {mode}" for mode, count in sorted(by_mode.items()) if count)
    print(f"{lines} lines without a difference in {time.monotonic() - began:.0f} s: {told}; {in_zones} with a zone, {in_parts} in parts; and {wrong} lists of words that are wrong")
    return 0


def main() -> int:
    parser = argparse.ArgumentParser(description=__doc__, formatter_class=argparse.RawDescriptionHelpFormatter)
    parser.add_argument("--lines", type=int, default=500_000)
    parser.add_argument("--seed", type=int, default=1)
    parser.add_argument("--program", default=str(BUILT if os.access(BUILT, os.X_OK) else ROOT / "instants-lines"))
    parser.add_argument("--block", type=int, default=200, help="lines of a run")
    parser.add_argument("--processes", type=int, default=PROCESSES)
    parser.add_argument("--zones", type=float, default=ZONES, help="which share of runs names a zone")
    parser.add_argument("--parts", type=float, default=PARTS, help="which share of runs looks for dates in a field or a column")
    parser.add_argument("--only", type=int, help="compare the run of this seed alone")
    parser.add_argument("--rows", action="store_true", help="compare the model with the stored rows")
    asked = parser.parse_args()
    if asked.rows:
        return 1 if compare_rows() else 0
    if asked.only is not None:
        said = compared(Task(asked.program, asked.only, asked.block, asked.zones, asked.parts))
        print(said if isinstance(said, str) else "no difference")
        return 1 if isinstance(said, str) else 0
    return compare_many(asked)


if __name__ == "__main__":
    sys.exit(main())

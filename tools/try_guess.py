#!/usr/bin/env python3
"""Takes what `instants-lines guess` prints first for logs of a hundred kinds, and dates the logs by it, as it is printed.

    tools/try_guess.py [--lines N] [--seed S] [--program PATH] [-v]

The logs are made by tools/sample_logs.py, so the instant of each line is known. OFFSET is replaced by the offset at which the log is
written, and YEAR by the year of its first line. Of all lines it is counted how many keys are right, in doubt, none, and another instant than
the line's; with -v the proposal and the counts of each kind are printed. The status is 1 where some line has another instant without a word.
"""

import argparse
import pathlib
import random
import shlex
import subprocess
import sys
from collections import Counter

sys.dont_write_bytecode = True

from sample_logs import KINDS, Line, Log, log_of

ROOT = pathlib.Path(__file__).resolve().parent.parent
BUILT = ROOT / "crates" / "instants_lines_program" / "out" / "instants_lines_program"


def ran(program: str, words: list[str], stream: bytes) -> bytes:
    return subprocess.run([program, *words], input=stream, stdout=subprocess.PIPE, stderr=subprocess.DEVNULL).stdout


def proposal(program: str, log: Log, stream: bytes) -> tuple[str, list[str]]:
    """Returns the first line that is printed, and its words, with what the user has to say filled in."""
    printed = ran(program, ["guess"], stream).decode().split("\n")[0]
    words = shlex.split(printed.rpartition(": ")[2]) if ": " in printed else []
    filled = {"OFFSET": log.offset, "YEAR": f"{log.year:04}"}
    return printed, [filled.get(it, it) for it in words]


def key_of(line: Line) -> str:
    return f"{line.moment:%Y-%m-%dT%H:%M:%S}.{line.nanosecond:09}Z"


def verdict(key: str, line: Line) -> str:
    """Returns whether a key is right, and else what it says. A line may say its date twice, once to the second."""
    if key.startswith("! "):
        return key[2:]
    if key == key_of(line):
        return "right"
    return "right to the second" if key == f"{key_of(line)[:19]}.000000000Z" else "wrong"


def counts(program: str, log: Log) -> tuple[str, Counter[str], str]:
    """Returns the proposal for a log, the verdicts on its lines, and a line that is wrong, or nothing."""
    stream = "".join(it.text + "\n" for it in log.lines).encode()
    printed, words = proposal(program, log, stream)
    if not words:
        return printed, Counter({"no proposal": len(log.lines)}), ""
    keys = [it.split("\t")[0] for it in ran(program, ["key", *words], stream).decode("utf-8", "replace").split("\n")[:-1]]
    said = [verdict(key, line) for key, line in zip(keys, log.lines)] or ["refused"] * len(log.lines)
    wrong = next((f"{key} for {line.text}" for key, line in zip(keys, log.lines) if verdict(key, line) == "wrong"), "")
    return printed, Counter(said), wrong


def main() -> int:
    parser = argparse.ArgumentParser(description=__doc__, formatter_class=argparse.RawDescriptionHelpFormatter)
    parser.add_argument("--lines", type=int, default=200, help="lines of a log")
    parser.add_argument("--seed", type=int, default=1)
    parser.add_argument("--program", default=str(BUILT))
    parser.add_argument("-v", action="store_true", help="print each kind")
    asked = parser.parse_args()
    total: Counter[str] = Counter()
    for number, kind in enumerate(KINDS):
        printed, said, wrong = counts(asked.program, log_of(random.Random(asked.seed * 1000 + number), kind, asked.lines))
        total += said
        if asked.v or wrong:
            print(f"{kind[0]}: {dict(said)}\n    {printed}" + (f"\n    wrong: {wrong}" if wrong else ""))
    print(f"{len(KINDS)} logs, " + ", ".join(f"{count} {what}" for what, count in total.most_common()))
    return 1 if total["wrong"] else 0


if __name__ == "__main__":
    sys.exit(main())

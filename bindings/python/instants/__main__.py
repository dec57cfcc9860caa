"""The program `instants` by its library, where the program itself is not installed.

    python3 -m instants TARGET ASSUMED LIMIT SOURCE... < LINES

The arguments are those of the program, and so are the answers to the lines of standard input, what is said of wrong arguments,
and the statuses: 0 after a full run, 2 for a wrong argument, 1 where memory, reading or writing failed.
"""

from __future__ import annotations

import os
import signal
import sys

from . import __version__
from ._handle import Handle, Refused
from ._lines import blocks_of

HELP = str(__doc__).strip()
# What an argument that is alone asks to be shown.
SHOWN = {"-h": HELP, "--help": HELP, "--version": f"instants {__version__}"}


class WritingFailed(Exception):
    """Standard output takes no more."""


def write(answers: bytes) -> None:
    """Writes all of some answers on standard output."""
    left = memoryview(answers)
    try:
        while left:
            left = left[os.write(1, left) :]
    except OSError as fault:
        raise WritingFailed from fault


def answer_input(words: list[str]) -> None:
    """Answers the lines of standard input, those of a pipe as they come."""
    handle = Handle(words)
    with open(0, "rb", buffering=0, closefd=False) as lines:
        for stream in blocks_of(lines):
            write(handle.answer(stream))


def main(words: list[str]) -> tuple[int, str]:
    """Runs the program, and returns its status and what it says of that."""
    shown = SHOWN.get(words[0]) if len(words) == 1 else None
    try:
        if shown:
            write(f"{shown}\n".encode())
        else:
            answer_input(words)
    except Refused as fault:
        return 2, str(fault)
    except MemoryError:
        return 1, "instants: out of memory"
    except WritingFailed:
        return 1, "instants: writing failed"
    except OSError:
        return 1, "instants: reading failed"
    return 0, ""


if __name__ == "__main__":
    # (a run that is interrupted ends as that of a program does)
    signal.signal(signal.SIGINT, signal.SIG_DFL)
    status, said = main(sys.argv[1:])
    if said:
        print(said, file=sys.stderr)
    sys.exit(status)

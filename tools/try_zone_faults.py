#!/usr/bin/env python3
"""Gives many damaged zone files to the built program of crates/zones_tests, all in one process: each is one of its files with another
byte at a place, or with another length. Each has to be answered by a fault, or by `read`, in a line of its own.

    tools/try_zone_faults.py [--rows N] [--seed N] [--program PROGRAM]
"""

import argparse
import collections
import itertools
import pathlib
import random
import re
import subprocess
import sys
from collections.abc import Iterator

sys.dont_write_bytecode = True

from program import ROOT

CRATE = ROOT / "crates" / "zones_tests"
FAULTS = ROOT / "crates" / "zones_file" / "src" / "fault.rt"


def rows(count: int, chance: random.Random) -> Iterator[str]:
    """Returns rows that the program answers: of each ten one changes the length."""
    sizes = {it.name: it.stat().st_size for it in sorted((CRATE / "data").iterdir())}
    names = list(sizes)
    for _ in range(count):
        name = chance.choice(names)
        if chance.randrange(10):
            yield f"{name} byte {chance.randrange(sizes[name])} {chance.randrange(256)}"
        else:
            yield f"{name} length {chance.randrange(2 * sizes[name])}"


def answers() -> set[str]:
    """Returns what a damaged file may be answered by."""
    found = re.search(r"pub enum ZoneFault \{(.*?)\n\}", FAULTS.read_text(), re.DOTALL)
    return {"read", *re.findall(r"^    (\w+),$", found[1] if found else "", re.MULTILINE)}


def main() -> int:
    asked = argparse.ArgumentParser(description=__doc__.split("\n\n")[0])
    asked.add_argument("--rows", type=int, default=1_000_000)
    asked.add_argument("--seed", type=int, default=1)
    asked.add_argument("--program", type=pathlib.Path, default=CRATE / "out" / "zones_tests")
    words = asked.parse_args()
    due = list(rows(words.rows, random.Random(words.seed)))
    text = "".join(f"{row}\n" for row in due)
    ran = subprocess.run([words.program.resolve()], cwd=CRATE / "data", input=text, stdout=subprocess.PIPE, text=True, check=False)
    known = answers()
    # A row without its answer counts as answered by itself.
    counts = collections.Counter(line.removeprefix(f"{row} => ") for row, line in itertools.zip_longest(due, ran.stdout.splitlines(), fillvalue=""))
    wrong = sum(count for answer, count in counts.items() if answer not in known)
    for answer, count in counts.most_common():
        print(f"{count:9} {answer}")
    print(f"{words.rows} damaged files in one process, status {ran.returncode}, {wrong} without an answer that is known")
    return int(wrong > 0 or ran.returncode != 0)


if __name__ == "__main__":
    sys.exit(main())

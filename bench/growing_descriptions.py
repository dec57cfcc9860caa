#!/usr/bin/env python3
"""Instructions a byte for descriptions of growing length, as callgrind counts them.

Usage: bench/growing_descriptions.py [PROGRAM]

PROGRAM is crates/description_check/out/description_check if left out
(`tools/build_program.py description_check` builds it). Each row is one shape of text: what is
repeated, and the instructions a byte at 16, 64 and 256 KiB and at 1 MiB, less those of a run on an
empty text. The last column is the last of these over the first: about 1 where time grows with the
length alone.
"""

import pathlib
import re
import subprocess
import sys
import tempfile
from collections.abc import Callable

TOP = pathlib.Path(__file__).resolve().parent.parent
SIZES = [16 << 10, 64 << 10, 256 << 10, 1 << 20]

LEVELS = 127
DEEP = "[optional [" * LEVELS + "x" + "]]" * LEVELS


def repeated(part: str) -> Callable[[int], str]:
    return lambda size: part * (size // len(part))


def inside(before: str, part: str, after: str) -> Callable[[int], str]:
    return lambda size: before + part * ((size - len(before) - len(after)) // len(part)) + after


SHAPES = [
    ("literal", "v3", repeated("x")),
    ("escapes", "v2", repeated("\\[")),
    ("doubled brackets", "v1", repeated("[[")),
    ("components", "v3", repeated("[day]")),
    ("components with modifiers", "v3", repeated("[month repr:long case_sensitive:false]")),
    ("one long name", "v3", inside("[", "a", "]")),
    ("one long value", "v2", inside("[day padding:", "a", "]")),
    ("white space in an item", "v3", inside("[day", " ", "]")),
    ("one modifier many times", "v2", inside("[day", " padding:zero", "]")),
    ("127 levels, many times", "v3", repeated(DEEP)),
    ("alternatives", "v3", inside("[first ", "[x]", "]")),
    ("alternatives in 126 levels", "v3", inside("[optional [" * 126 + "[first ", "[x]", "]" + "]]" * 126)),
    ("brackets past all levels", "v3", repeated("[optional [")),
    ("a nested item in version 2", "v2", inside("[first ", "[x]", "]")),
    ("no closing bracket", "v3", inside("[day", " ", "")),
    ("letters of strftime", "strftime", repeated("%d%H")),
    ("composites of strftime", "strftime", repeated("%c")),
    ("an unknown letter at the end", "strftime", inside("", "%d", "%Q")),
]


def instructions(program: str, language: str, text: str) -> int:
    with tempfile.TemporaryDirectory() as place:
        counts = pathlib.Path(place) / "counts"
        run = subprocess.run(
            ["valgrind", "--tool=callgrind", f"--callgrind-out-file={counts}", program, language],
            input=text.encode(),
            capture_output=True,
        )
        if run.returncode not in (0, 2):
            sys.exit(run.stderr.decode())
        found = re.search(r"^(?:summary|totals): (\d+)", counts.read_text(), re.MULTILINE)
        return int(found[1]) if found else sys.exit("callgrind counted nothing")


def main() -> None:
    default = TOP / "crates/description_check/out/description_check"
    program = sys.argv[1] if len(sys.argv) > 1 else str(default)
    print("| shape | language | 16 KiB | 64 KiB | 256 KiB | 1 MiB | last by first |")
    print("|---|---|---|---|---|---|---|")
    empty = {}
    for name, language, text_of in SHAPES:
        if language not in empty:
            empty[language] = instructions(program, language, "")
        rates = []
        for size in SIZES:
            text = text_of(size)
            rates.append((instructions(program, language, text) - empty[language]) / len(text))
        cells = " | ".join(f"{rate:.1f}" for rate in rates)
        print(f"| {name} | {language} | {cells} | {rates[-1] / rates[0]:.2f} |", flush=True)


if __name__ == "__main__":
    main()

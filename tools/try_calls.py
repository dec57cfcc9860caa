#!/usr/bin/env python3
"""Calls the library from C, in the gate: what no clause says of it.

    tools/try_calls.py

It proves and builds the library where that is not current (tools/build_library.py), and runs two programs in C with it, by an
allocator of their own. `bindings/c/calls.c` calls each function once, and reads its numbers by the names of the header, so a field
or an argument in another place is found. `bindings/c/memory.c` counts what is allocated and freed, and refuses each allocation in
turn: on each path, at the end of a call or of a handle, nothing is left. The packages of Debian: binutils gcc.

The last line counts what passed; the status is 1 where anything failed. tools/try_bindings.py tries far more.
"""

import pathlib
import subprocess
import sys
import tempfile
from collections.abc import Sequence

sys.dont_write_bytecode = True

import build_library
from program import ROOT, BuildFailed, Command
from tries import report, summary

WRAPPED = "-Wl,--wrap=malloc,--wrap=realloc,--wrap=free"
PROGRAMS: tuple[tuple[str, tuple[str, ...]], ...] = (("calls", ()), ("memory", (WRAPPED,)))


def try_program(name: str, link: Sequence[str], room: str) -> bool:
    """Compiles a program in C with the library, and runs it."""
    made = pathlib.Path(room, name)
    source, library = ROOT / "bindings" / "c" / f"{name}.c", build_library.out() / build_library.ARCHIVE
    flags = ["-std=c11", "-Wall", "-Wextra", "-Werror", "-O2", f"-I{ROOT / 'include'}"]
    commands: tuple[Command, ...] = (["gcc", *flags, "-o", made, source, library, *link], [made])
    for command in commands:
        ran = subprocess.run(command, capture_output=True, text=True)
        if ran.returncode:
            return report(f"bindings/c/{name}.c", False, ran.stdout + ran.stderr)
    return report(f"bindings/c/{name}.c", True)


def main(words: list[str]) -> int:
    if words:
        sys.exit(__doc__)
    try:
        build_library.build()
    except BuildFailed as fault:
        report("the library", False, str(fault))
        return summary()
    with tempfile.TemporaryDirectory() as room:
        for name, link in PROGRAMS:
            try_program(name, link, room)
    return summary()


if __name__ == "__main__":
    sys.exit(main(sys.argv[1:]))

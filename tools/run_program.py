#!/usr/bin/env python3
"""Runs a program of this repository by its arguments, for ./instants and ./instants-lines where they don't know it to be current.

    tools/run_program.py NAME ARGUMENTS..

Where the proved program is current it is run, and the folders that it is made of are written beside it, so that the next call
looks at their files alone. Else it is tried or built (tools/first_answer.py); `--build` alone builds it.
"""

import os
import sys

from program import Program

PROGRAMS = {
    "instants": Program("instants_program", "instants"),
    "instants-lines": Program("instants_lines_program", "instants-lines", repeats_lines=True),
}


def main(name: str, words: list[str]) -> int:
    program = PROGRAMS[name]
    if words != ["--build"] and program.is_current():
        program.keep_folders()
        os.execv(program.file, [program.name, *words])
    # (what this takes is loaded where there is something to build)
    from first_answer import run

    return run(program, words)


if __name__ == "__main__":
    sys.exit(main(sys.argv[1], sys.argv[2:]))

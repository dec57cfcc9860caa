#!/usr/bin/env python3
"""Proves and builds the programs `instants`, `instants-lines` and `description_check`, and the library for C, in one run of the
proofs: tools/build_all.py"""

import sys

sys.dont_write_bytecode = True

from build_library import Library
from build_program import build
from program import BuildFailed, Program

PROGRAMS = (
    Program("instants_program", "instants"),
    Program("instants_lines_program", "instants-lines"),
    Program("description_check", "description_check"),
)

if __name__ == "__main__":
    try:
        build(*PROGRAMS, Library())
    except BuildFailed as fault:
        sys.exit(f"tools/build_all.py: {fault}")

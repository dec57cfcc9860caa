#!/usr/bin/env python3
"""Answers as `instants-lines` does, by a model of it in plain Python (tools/model).

    tools/model_lines.py MODE [TARGET [ASSUMED [LIMIT]]] [year N] [time HH:MM] [field NAME | column N [separator S]] [label TEXT]
                         SOURCE.. < FILE

The model is written from docs/DEFINITIONS.md and the definitions that it names, and not from the code, so it checks the program
independently; tools/try_model.py compares the two. It takes some ten thousand times as long as the program.
"""

import os
import sys

sys.dont_write_bytecode = True

from model.lines import answer


def main() -> int:
    written, said, status = answer([os.fsencode(it) for it in sys.argv[1:]], sys.stdin.buffer.read() if sys.argv[1:] else b"")
    sys.stdout.buffer.write(written)
    sys.stdout.buffer.flush()
    sys.stderr.buffer.write(said)
    return status


if __name__ == "__main__":
    sys.exit(main())

#!/usr/bin/env python3
"""Copies crates of this repository, with all that they use, into another repository, and adds their lines to its crates.txt.

    tools/take_crates.py FOLDER CRATE..    as in tools/take_crates.py ../mine parsing

FOLDER is the top of the other repository. What is copied of a crate are src, specs and proofs; a copy that is there already is
replaced, and its line in crates.txt stays where it is.
"""

import pathlib
import re
import shutil
import sys

sys.path.insert(0, str(pathlib.Path(__file__).resolve().parent))
sys.dont_write_bytecode = True

from program import PARTS, ROOT, Program, uses


def take(top: pathlib.Path, crates: list[str]) -> int:
    """Copies the crates, each after those that it uses, and returns how many they are."""
    used = uses()
    wanted = list(dict.fromkeys(it for crate in crates for it in Program(crate, crate).crates()))
    listed = top / "crates.txt"
    lines = listed.read_text() if listed.exists() else ""
    for crate in wanted:
        for part in PARTS:
            source, target = ROOT / "crates" / crate / part, top / "crates" / crate / part
            shutil.rmtree(target, ignore_errors=True)
            if source.is_dir():
                shutil.copytree(source, target)
        if not re.search(rf"^{crate}( .*)?:", lines, re.M):
            lines += f"{crate}: {' '.join(used[crate])}\n"
    listed.write_text(lines)
    return len(wanted)


def main(words: list[str]) -> int:
    unknown = [it for it in words[1:] if it not in uses()]
    if len(words) < 2 or unknown or not pathlib.Path(words[0]).is_dir():
        print(f"no such crate: {unknown[0]}" if unknown else __doc__.strip(), file=sys.stderr)
        return 2
    print(f"{take(pathlib.Path(words[0]), words[1:])} crates")
    return 0


if __name__ == "__main__":
    sys.exit(main(sys.argv[1:]))

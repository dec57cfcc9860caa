#!/usr/bin/env python3
"""Says what the contracts of the two programs rest on: which definitions of the crates' specs/ and which declarations of their src/
are reached from the clauses of `run_words`, with their lines. It writes the tables into docs/CLAIMS.md, between the lines that
name this tool: for `instants` all of them, for `instants-lines` those beyond. How long the first ones take to read stands in the
sentence there that begins with their number.

It also writes how many checks `rt ci` counts: one for each crate of crates.txt, and one for each file in a `must-fail/`; and how
many mutations the gate tries of all: pairs of an old and a new text, in `must-fail/` and in both folders.

    tools/believed_files.py            writes it
    tools/believed_files.py --check    says whether it is as it would be written, with status 1 where it is not
    tools/believed_files.py --names    prints the names that are reached

A word that is reached and stands nowhere (tools/rattle_words.py says which words do) is told with its place, and the status is 1.
"""

import pathlib
import re
import sys

sys.dont_write_bytecode = True

import program
from program import ROOT
from rattle_files import CRATES, changes_of
from rattle_words import reached_from_call

PAGE, FRONT = ROOT / "docs" / "CLAIMS.md", ROOT / "README.md"
TABLE = re.compile(r"(<!-- tools/believed_files.py begins(?: [a-z ]+)? -->\n).*?(\n<!-- tools/believed_files.py ends -->)", re.S)
# The calls that the tables are of.
CALLS = tuple((CRATES / crate / "src" / "program.rt", "run_words") for crate in ("instants_timeline", "instants_lines"))
# The lines of what is reached, by its file and its name.
Lines = dict[tuple[pathlib.Path, str], list[str]]
LAYERS = {"instants": "lines and answers", "zones": "zones", "parsing": "reading", "description": "descriptions", "datetime": "date-times", "calendar": "calendar", "base": "bytes"}
# How many lines are read in a minute, and the sentence with how long all of them take.
PACE = 15
COUNTED = re.compile(r"\d+ lines of definitions in \d+ files(?: and \d+ lines of declarations in \d+ files)?, some \d+ hours? at \d+ lines a minute")
PASSED = re.compile(r"`\d+ passed, 0 failed`")
TRIED = re.compile(r"\b\d+ of [\d,]+ mutations\b")


def layer_of(crate: str) -> str | None:
    return next((it for it in LAYERS if crate == it or crate.startswith(f"{it}_")), None)


def counts_of(lines: Lines, part: str) -> dict[str, dict[pathlib.Path, int]]:
    """Returns the files of each crate's specs/ or src/ that have some of the lines, each with how many."""
    crates: dict[str, dict[pathlib.Path, int]] = {}
    for (file, _), text in lines.items():
        crate, folder, *_ = file.relative_to(CRATES).parts
        if folder == part:
            files = crates.setdefault(crate, {})
            files[file] = files.get(file, 0) + len(text)
    return crates


def cell(files: dict[pathlib.Path, int]) -> str:
    """Returns the links to some files, each with its number of lines."""
    return ", ".join(f"[{it.stem}](../{it.relative_to(ROOT).as_posix()}) {files[it]}" for it in sorted(files))


def told(files: dict[pathlib.Path, int]) -> str:
    return f"{len(files)} files, {sum(files.values())} lines"


def table(lines: Lines) -> str:
    """Returns the table of definitions and declarations."""
    rows = ["| layer | crate | `specs/`: files, with their lines of definitions | `src/`: files, with their lines of declarations |", "|---|---|---|---|"]
    specs, src = counts_of(lines, "specs"), counts_of(lines, "src")
    for layer, name in LAYERS.items():
        for crate in sorted(it for it in {*specs, *src} if layer_of(it) == layer):
            rows.append(f"| {name} | `{crate}` | {cell(specs.get(crate, {}))} | {cell(src.get(crate, {}))} |")
            name = ""
    sums = (told({file: size for files in part.values() for file, size in files.items()}) for part in (specs, src))
    return "\n".join([*rows, f"| all | {len(rows) - 2} crates | {' | '.join(sums)} |"])


def counted(lines: Lines) -> str:
    """Returns the sentence with how long some lines take to read."""
    sizes = [[size for files in counts_of(lines, part).values() for size in files.values()] for part in ("specs", "src")]
    hours = max(1, round(sum(sum(it) for it in sizes) / PACE / 60))
    (definitions, files), (declarations, others) = ((sum(it), len(it)) for it in sizes)
    return (
        f"{definitions} lines of definitions in {files} files and {declarations} lines of declarations in {others} files, "
        f"some {hours} hour{'s' if hours > 1 else ''} at {PACE} lines a minute"
    )


def pairs_in(*folders: str) -> int:
    """Returns how many pairs of an old and a new text the files of mutations have in some folders of all crates."""
    return sum(len(changes_of(file)) for folder in folders for file in CRATES.glob(f"*/{folder}/*.edit"))


def pages(first: Lines, beyond: Lines) -> dict[pathlib.Path, str]:
    """Returns the pages as they are to be written, each with its file."""
    checks = len(program.uses()) + len([*CRATES.glob("*/must-fail/*")])
    tried = f"{pairs_in('must-fail')} of {pairs_in('must-fail', 'mutations'):,} mutations"
    claims = PAGE.read_text()
    for pattern, due in ((COUNTED, counted(first)), (PASSED, f"`{checks} passed, 0 failed`"), (TRIED, tried)):
        claims = pattern.sub(due, claims)
    tables = iter((table(first), table(beyond)))
    claims = TABLE.sub(lambda it: f"{it[1]}\n{next(tables)}\n{it[2]}", claims)
    return {PAGE: claims, FRONT: TRIED.sub(tried, FRONT.read_text())}


def lacking() -> list[str]:
    """Returns which of the places that this tool writes a page does not have, or has more than once."""
    claims, front = PAGE.read_text(), FRONT.read_text()
    places = ((PAGE, "table", TABLE, 2), (PAGE, "sentence on reading", COUNTED, 1), (PAGE, "last line", PASSED, 1), (PAGE, "number of mutations", TRIED, 1), (FRONT, "number of mutations", TRIED, 1))
    return [f"{page.relative_to(ROOT)} has its {what} {found} times, not {due}" for page, what, pattern, due in places if (found := len(pattern.findall(claims if page == PAGE else front))) != due]


def main(words: list[str]) -> int:
    first, second = (reached_from_call(*it) for it in CALLS)
    beyond = {part: lines for part, lines in second.lines.items() if part not in first.lines}
    if words == ["--names"]:
        for lines in (first.lines, beyond):
            print("\n".join([*sorted(f"{file.relative_to(CRATES)} {name}" for file, name in lines), ""]))
        return 0
    wrong = [*dict.fromkeys([*first.lost, *second.lost]), *lacking()]
    wrong += sorted({f"{crate} is of no layer" for file, _ in second.lines if not layer_of(crate := file.relative_to(CRATES).parts[0])})
    if wrong:
        print("\n".join(wrong))
        return 1
    written = pages(first.lines, beyond)
    if words != ["--check"]:
        for page, text in written.items():
            page.write_text(text)
        return 0
    other = [page for page, text in written.items() if page.read_text() != text]
    for page in other:
        print(f"{page.relative_to(ROOT)} is not as the definitions and the mutations have it")
    if not other:
        print("the tables and numbers of docs/CLAIMS.md and README.md are as the sources have them")
    return int(bool(other))


if __name__ == "__main__":
    sys.exit(main(sys.argv[1:]))

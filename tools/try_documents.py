#!/usr/bin/env pytest
"""Runs the console examples of the documents on the built program, and says which of them print something else.

    tools/try_documents.py                    those of the documents that are listed below, and the crates' pages
    tools/try_documents.py -k GUIDE           those of a part: each is named by its document and the line of its first example
    tools/try_documents.py --document FILE    those of a document, by its place from the top of the repository

An example is what can be copied whole into a shell, and what it prints: a fence of Markdown that begins with ```sh, and one
with ```text right after it; or two displays of the manual page, `.Bd -literal -offset indent` and one at `indent-two`. A
command with nothing after it prints nothing. Standard output and standard error are compared together, byte by byte.

Each section, from a heading to the next one of whatever level, has a folder of its own, in which its examples run in
order, each in a shell `sh` of its own: files pass from one example to the next, and nothing else. At first the folder
has links and no more: `instants` and `instants-lines`, to the built programs, `instants-merge`, which calls the one beside it, and `crates`, `bindings`, `include` and `tools`, to
those of the repository. Commands are looked for in it before all others.

A fence that begins with ```rust or ```antt and a path below `crates/` is written to that file, and has to be as `rt fmt` lays it
out. A section with such a fence has a copy of the crates' sources and of crates.txt in place of the link. Its commands may call
`rt`, which is the only thing for which this tool needs Rattle's kit.

A table of Markdown whose head has the columns `line` and `answer` is of examples too: a row's line is piped into the program
with the row's `arguments`, or with `+00:00 +00:00 100` and the row's `example`, and what it prints is the row's answer. Where the
head has `key` for `answer`, the program is `instants-lines -q` in that mode, and the line stands after its key. Rows without a
line are passed over.

A fence that begins with ```sh with NAME is run where that program is installed, and passed over elsewhere, with what it prints.

A fence that begins with ```sh builds is not run: its commands build, which takes long. A document without an example is an
error, so that none is left out by a slip, and so is a fence of another kind but those of code that the list below names.

The page of each family's crate, the `//!` lines at the head of its `src/lib.rt`, has one fence, whose lines stand one
after the other in the file `src/page.rt` of a crate of tests, which the gate proves and runs.

Without --document it also asks the tools that write pages from the sources, or compare one with them, whether each is current, and
`mandoc -T lint` whether a manual page is malformed; that is passed over where mandoc is not installed.

What is run are the programs and the library as they were built last; `./instants --build`, `tools/build_program.py
description_check` and `tools/build_library.py` build them, and --instants and --instants-lines name others. Calls from other
languages need gcc, cargo and sqlite3.
"""

import os
import pathlib
import re
import shlex
import shutil
import subprocess
import sys
import tempfile
from collections.abc import Iterable, Iterator
from typing import NamedTuple

sys.dont_write_bytecode = True

import pytest
from program import ROOT

DOCUMENTS = (
    "README.md",
    "CONTRIBUTING.md",
    "docs/GUIDE.md",
    "docs/LIBRARIES.md",
    "docs/DESCRIPTIONS.md",
    "docs/FORMATS.md",
    "docs/SCALE.md",
    "docs/PEERS.md",
    "docs/instants.1",
    "docs/instants-lines.1",
)
# The crates with a page, and the crate of tests where its lines stand.
PAGES = {
    "calendar": "datetime_tests",
    "datetime": "datetime_tests",
    "description": "parsing_tests",
    "parsing": "parsing_tests",
    "instants": "instants_tests",
}
# What commands name of what is built, beside the two programs.
BUILT = ("crates/description_check/out/description_check", "crates/instants_c/out/libinstants")
# The tools that say whether a page is as the sources have it.
CHECKS = (
    ("description_page.py", "--check"),
    ("described_words.py",),
    ("calls_page.py", "--check"),
    ("believed_files.py", "--check"),
    ("clause_words.py", "--check"),
    ("header_numbers.py", "--check"),
    ("pictures.py", "--check"),
    ("page_links.py", "--check"),
    ("gate_times.py", "--check"),
    ("formats_page.py", "--check"),
)
SECONDS = 300
# Fences of code that is read and not run.
NOT_RUN = ("sh builds", "rust", "sql", "python", "edit")
# A fence that needs a program.
WITH = re.compile(r"sh with (\S+)")
# A fence that is a file of a crate.
FILE = re.compile(r"(?:rust|antt) (crates/(\w+)/\S+)")
# What a section's folder has of the repository.
LINKED = ("crates", "bindings", "include", "tools")

# What stands in the source of a manual page for a byte.
ESCAPES = {r"\e": "\\", r"\-": "-", r"\&": "", r"\(aq": "'", r"\(dq": '"', r"\(ha": "^", r"\(ti": "~"}


class Piece(NamedTuple):
    """A piece of a document: the kind that its first line names, the number of the line after that, its lines, its section."""

    kind: str
    line: int
    lines: list[str]
    section: int


class Example(NamedTuple):
    """An example: the number of its line, its command, what it is to print, its section."""

    line: int
    command: list[str]
    due: list[str]
    section: int


def pieces_of(lines: list[str], opens: re.Pattern[str], closes: re.Pattern[str], heads: re.Pattern[str]) -> list[Piece]:
    """Returns the pieces between the lines that open and close one; a heading outside of them begins a section."""
    found: list[Piece] = []
    kind: str | None = None
    first, section = 0, 0
    for at, line in enumerate([*lines, None]):
        if kind is not None and (line is None or closes.match(line)):
            found.append(Piece(kind, first + 1, lines[first:at], section))
            kind = None
        elif kind is None and line is not None and (opened := opens.match(line)):
            kind, first = opened[1].strip(), at + 1
        elif kind is None and line is not None and heads.match(line):
            section += 1
    return found


def written(file: re.Match[str], lines: list[str]) -> list[str]:
    """Returns the commands that write a file of a crate, and lay it out."""
    path, crate = file.groups()
    put = [f"mkdir -p {pathlib.Path(path).parent}", f"cat > {path} <<'END_OF_FILE'", *lines, "END_OF_FILE"]
    return [*put, f"cp {path} as_written && (cd crates/{crate} && rt fmt) && cmp as_written {path}"]


def passed_over(pieces: Iterable[Piece]) -> Iterator[Piece]:
    """Yields the pieces without those that need a program which is not installed, each with the printed text after it."""
    is_passed = False
    for piece in pieces:
        needed = WITH.fullmatch(piece.kind)
        is_passed = shutil.which(needed[1]) is None if needed else is_passed and piece.kind == "text"
        if not is_passed:
            yield piece._replace(kind="sh") if needed else piece


def pieces_in(name: str, lines: list[str]) -> tuple[list[tuple[Piece, bool]], list[str]]:
    """Returns the commands and the printed texts of a document, in order, and what is wrong with its other pieces."""
    passed: tuple[str, ...] = ()
    if name.endswith(".md"):
        pieces = pieces_of(lines, re.compile(r"```(.*)"), re.compile(r"```$"), re.compile(r"#+ "))
        commands, printed, passed = "sh", "text", NOT_RUN
    else:
        escaped = re.compile("|".join(map(re.escape, ESCAPES)))
        lines = [escaped.sub(lambda it: ESCAPES[it[0]], line) for line in lines]
        pieces = pieces_of(lines, re.compile(r"\.Bd(.*)"), re.compile(r"\.Ed$"), re.compile(r"\.S[hs] "))
        commands, printed = "-literal -offset indent", "-literal -offset indent-two"
    pieces = [it._replace(kind=commands, lines=written(file, it.lines)) if (file := FILE.fullmatch(it.kind)) else it for it in pieces]
    pieces = [*passed_over(pieces)]
    wrong = [f"{name}:{it.line}: a piece of a kind that is not known: {it.kind}" for it in pieces if it.kind not in (commands, printed, *passed)]
    wrong += [f"{name}:{it.line}: a prompt, which can't be copied" for it in pieces if it.kind == commands and any(row.startswith("$ ") for row in it.lines)]
    return [(it, it.kind == commands) for it in pieces if it.kind in (commands, printed)], wrong


def examples_of(name: str, lines: list[str]) -> tuple[list[Example], list[str]]:
    """Returns the examples of a document's fences or displays, and what is wrong with them."""
    pieces, wrong = pieces_in(name, lines)
    found: list[Example] = []
    for piece, is_command in pieces:
        if is_command:
            found.append(Example(piece.line, piece.lines, [], piece.section))
        elif found and not found[-1].due and found[-1].line + len(found[-1].command) + 3 >= piece.line - 1:
            found[-1].due.extend(piece.lines)
        else:
            wrong.append(f"{name}:{piece.line}: a printed text without a command before it")
    return found, wrong


def cells_of(row: str) -> list[str]:
    """Returns the cells of a table's row, those that are one span of code without their backquotes."""
    cells = [it.strip().replace("\\|", "|") for it in re.split(r"(?<!\\)\|", row.strip())[1:-1]]
    return [it[1:-1] if re.fullmatch(r"`[^`]+`", it) else it for it in cells]


def examples_of_tables(lines: list[str]) -> list[Example]:
    """Returns the examples of the tables that have a line and its answer in each row."""
    found: list[Example] = []
    head: list[str] | None = None
    section = 0
    for at, row in enumerate(lines, 1):
        section += bool(re.match(r"#+ ", row))
        if not row.startswith("|"):
            head = None
        elif head is None:
            head = cells_of(row)
        elif "line" in head and {"answer", "key"} & {*head}:
            cells = dict(zip(head, cells_of(row)))
            if cells["line"].strip() and not re.fullmatch(r"-+", cells["line"]):
                words = cells.get("arguments") or f"+00:00 +00:00 100 {cells['example']}"
                program, answer = ("instants-lines -q key", cells["key"] + "\t" + cells["line"].replace("\\t", "\t")) if "key" in head else ("instants", cells["answer"])
                found.append(Example(at, [f"printf '%b\\n' {shlex.quote(cells['line'])} | {program} {words}"], [answer], section))
    return found


def printed_by(command: str, folder: pathlib.Path) -> bytes:
    """Returns what a command prints in a folder."""
    places = dict(os.environ, PATH=f"{folder}{os.pathsep}{os.environ['PATH']}")
    shell = ["sh", "-c", command]
    try:
        ran = subprocess.run(shell, cwd=folder, env=places, stdin=subprocess.DEVNULL, stdout=subprocess.PIPE, stderr=subprocess.STDOUT, timeout=SECONDS, check=False)
        return ran.stdout
    except subprocess.TimeoutExpired:
        return f"(it still ran after {SECONDS} s)\n".encode()


def copy_crates(folder: pathlib.Path) -> None:
    """Copies the sources of the crates, and crates.txt, into a folder."""
    listed = subprocess.run(["git", "ls-files", "crates", "crates.txt"], cwd=ROOT, capture_output=True, text=True, check=True).stdout
    for name in listed.splitlines():
        (folder / name).parent.mkdir(parents=True, exist_ok=True)
        shutil.copyfile(ROOT / name, folder / name)


def sections_of(name: str) -> tuple[list[list[Example]], list[str]]:
    """Returns the examples of each section of a document, and what is wrong with its other pieces."""
    lines = (ROOT / name).read_text().split("\n")
    examples, wrong = examples_of(name, lines)
    examples += examples_of_tables(lines) if name.endswith(".md") else []
    if not examples:
        wrong.append(f"{name}: no example")
    return [[it for it in examples if it.section == section] for section in sorted({it.section for it in examples})], wrong


def pytest_generate_tests(metafunc: pytest.Metafunc) -> None:
    named = metafunc.config.getoption("--document")
    manual = sorted(it.name for it in (ROOT / "docs").glob("*.[1-9]"))
    rows = {"name": named or DOCUMENTS, "crate": () if named else PAGES, "check": () if named else CHECKS, "manual_page": () if named else manual}
    for it in rows.keys() & {*metafunc.fixturenames}:
        metafunc.parametrize(it, rows[it], ids=lambda row: row if isinstance(row, str) else row[0])
    if "examples" in metafunc.fixturenames:
        sections = {f"{name}:{it[0].line}": it for name in named or DOCUMENTS for it in sections_of(name)[0]}
        metafunc.parametrize("examples", sections.values(), ids=sections)


def test_pieces(name: str) -> None:
    """A document has examples, and no piece of another kind than is known."""
    assert sections_of(name)[1] == []


@pytest.fixture
def folder() -> Iterator[pathlib.Path]:
    with tempfile.TemporaryDirectory(prefix="documents-") as made:
        yield pathlib.Path(made)


def test_section(examples: list[Example], folder: pathlib.Path, instants: pathlib.Path, instants_lines: pathlib.Path) -> None:
    """Each example prints what the document says."""
    commands = ["\n".join(it.command) for it in examples]
    lacking = [it for it in BUILT if any(it in command for command in commands) and not [*ROOT.glob(f"{it}*")]]
    assert not lacking
    os.symlink(instants, folder / "instants")
    os.symlink(instants_lines, folder / "instants-lines")
    # (it calls the program beside it)
    shutil.copy(ROOT / "instants-merge", folder)
    has_files = any("<<'END_OF_FILE'" in command for command in commands)
    for linked in LINKED[has_files:]:
        os.symlink(ROOT / linked, folder / linked)
    if has_files:
        copy_crates(folder)
    differ = []
    for it, command in zip(examples, commands):
        printed, due = printed_by(command, folder), "".join(line + "\n" for line in it.due).encode()
        if printed != due:
            told = [f"line {it.line}: $ {it.command[0]}", "  the document says:", *(f"    {line!r}" for line in due.splitlines(keepends=True))]
            differ += [*told, "  the command prints:", *(f"    {line!r}" for line in printed.splitlines(keepends=True))]
    if differ:
        pytest.fail("\n".join(differ), pytrace=False)


def fences_of_page(crate: str) -> list[list[str]]:
    """Returns the lines of each fence on a crate's page, without their indentation."""
    rows = (ROOT / "crates" / crate / "src" / "lib.rt").read_text().split("\n")
    page = [row[3:].strip() for row in rows if row.startswith("//!")]
    return [it.lines for it in pieces_of(page, re.compile(r"```(.*)"), re.compile(r"```$"), re.compile(r"# "))]


def test_page(crate: str) -> None:
    """The lines of a crate's page stand in the family's tests."""
    fences = fences_of_page(crate)
    assert len(fences) == 1
    rows = [row.strip() for row in (ROOT / "crates" / PAGES[crate] / "src" / "page.rt").read_text().split("\n")]
    due = fences[0]
    assert due and any(rows[at : at + len(due)] == due for at in range(len(rows)))


@pytest.mark.skipif(not shutil.which("mandoc"), reason="there is no mandoc")
def test_manual_page(manual_page: str) -> None:
    """A manual page is well formed."""
    ran = subprocess.run(["mandoc", "-T", "lint", "-W", "warning", ROOT / "docs" / manual_page], stdout=subprocess.PIPE, text=True, check=False)
    assert (ran.returncode, ran.stdout) == (0, "")


def test_check(check: tuple[str, ...]) -> None:
    """A page is as the sources have it."""
    ran = subprocess.run([ROOT / "tools" / check[0], *check[1:]], stdout=subprocess.PIPE, stderr=subprocess.STDOUT, text=True, check=False)
    assert ran.returncode == 0, ran.stdout


if __name__ == "__main__":
    sys.exit(pytest.main([__file__, *sys.argv[1:]]))

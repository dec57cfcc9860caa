#!/usr/bin/env pytest
"""Tries whether the bindings keep the text of a handle's words as long as the handle is open.

    tools/try_kept_words.py [-k WORD]

A handle of the library points into the text of its words. `bindings/c/watched.c` is put between the library and each binding: in
each call by a handle it compares the text with what it was, and aborts where it has changed. With it

- `bindings/c/kept_words.c` in C, which frees its text too early, is aborted: so the watch works;
- Python makes timelines of words that are gone, takes other memory, and asks the timelines;
- the tests of the crate for Rust pass, one of which drops its words;
- SQLite answers rows whose words stay, and rows whose words change;
- the regression test of the extension for PostgreSQL passes.

The library is the one that was built last (tools/build_library.py). The packages of Debian: binutils gcc cargo libsqlite3-dev
sqlite3 postgresql-15 postgresql-server-dev-15; what is not there is passed over.
"""

import os
import pathlib
import shutil
import subprocess
import sys
import tempfile
from typing import Any

sys.dont_write_bytecode = True

import build_library
import pytest
import try_postgres
from program import ROOT, Command

BINDINGS, INCLUDE = ROOT / "bindings", ROOT / "include"
WATCHED = ("open", "answer", "answer_moments", "close", "lines_open", "lines_keys", "lines_dates", "lines_close")
# Debian's own, as the other tools have it.
PYTHON = "/usr/bin/python3"
IN_PYTHON = """
import gc
import instants

def opened(place):
    return instants.Timeline(target="+00:00", sources=["strftime", f"at {place} " + "%F %T %z"])

timelines = [opened(place) for place in range(100)]
gc.collect()
others = [b"x" * length for length in range(200) for _ in range(20)]
inside = [instants.Lines(["strftime", f"at {place} " + "%F %T %z"]) for place in range(100)]
gc.collect()
others += [b"x" * length for length in range(200) for _ in range(20)]
for place, lines in enumerate(inside):
    assert lines.keys([f"x at {place} 2021-01-02 04:04:05 +0100"]) == ["2021-01-02T03:04:05.000000000Z"], place
    lines.close()
for place, timeline in enumerate(timelines):
    assert timeline.answer(f"at {place} 2021-01-02 04:04:05 +0100") == "2021-01-02T03:04:05.000000000Z", place
    timeline.close()
"""
IN_SQL = """
.load ./instant
CREATE TABLE given (words TEXT, line TEXT);
WITH RECURSIVE places (place) AS (SELECT 1 UNION ALL SELECT place + 1 FROM places WHERE place < 1000)
INSERT INTO given SELECT 'at ' || (place % 7) || ' %F %T %z', 'at ' || (place % 7) || ' 2021-01-02 04:04:05 +0100' FROM places;
SELECT count(*) FROM given
WHERE instant('+00:00', 'strftime', words, line) || instant('+00:00', 'strftime', 'at 3 ' || '%F %T %z', 'at 3' || substr(line, 5))
    = '2021-01-02T03:04:05.000000000Z2021-01-02T03:04:05.000000000Z';
"""


def run(command: Command, given: bytes = b"", **how: Any) -> tuple[int, str]:
    """Returns the status of a command, and what it prints."""
    done = subprocess.run(command, input=given, stdout=subprocess.PIPE, stderr=subprocess.STDOUT, check=False, **how)
    return done.returncode, done.stdout.decode(errors="replace")


def needs(command: str) -> pytest.MarkDecorator:
    """Passes over a try where there is no such command."""
    return pytest.mark.skipif(not shutil.which(command), reason=f"there is no {command}")


@pytest.fixture(scope="module")
def watched(room: pathlib.Path, libraries: pathlib.Path) -> pathlib.Path:
    """A folder with both libraries, with the watch in them."""
    shutil.copy(libraries / build_library.ARCHIVE, room / "true.a")
    renamed = [f"--redefine-sym=instants_{it}=true_{it}" for it in WATCHED]
    steps: tuple[Command, ...] = (
        ["objcopy", *renamed, "true.a"],
        ["gcc", "-O2", "-fPIC", f"-I{INCLUDE}", "-c", BINDINGS / "c" / "watched.c"],
        ["ld", "-r", "-o", "whole.o", "watched.o", "--whole-archive", "true.a"],
        ["ar", "rcsD", build_library.ARCHIVE, "whole.o"],
        ["gcc", "-shared", "-o", build_library.SHARED, "whole.o"],
    )
    for step in steps:
        ends_well(step, cwd=room)
    return room


def ends_well(command: Command, **how: Any) -> None:
    """Runs a command, which has to end well."""
    status, said = run(command, **how)
    assert status == 0, said


def test_watch(watched: pathlib.Path) -> None:
    """It lets words be that are kept, and notices those that are freed too early."""
    made = watched / "kept_words"
    ends_well(["gcc", f"-I{INCLUDE}", "-o", made, BINDINGS / "c" / "kept_words.c", watched / build_library.ARCHIVE])
    ends_well([made])
    status, said = run([made, "free"])
    assert status < 0 and "no longer as they were" in said


@needs(PYTHON)
def test_python(watched: pathlib.Path) -> None:
    """Timelines of words that are gone."""
    places = {"INSTANTS_LIBRARY": str(watched / build_library.SHARED), "PYTHONPATH": str(BINDINGS / "python")}
    ends_well([PYTHON, "-B", "-c", IN_PYTHON], env={**os.environ, **places})


@needs("cargo")
def test_rust(watched: pathlib.Path) -> None:
    """The tests of the crate."""
    shutil.copytree(BINDINGS / "rust", watched / "rust", ignore=shutil.ignore_patterns("target", "Cargo.lock"))
    places = {it: text for it, text in os.environ.items() if it != "CARGO_TARGET_DIR"}
    ends_well(["cargo", "test", "--quiet", "--offline"], cwd=watched / "rust", env={**places, "INSTANTS_LIB_DIR": str(watched)})


def answered_in_sql(source: pathlib.Path, room: pathlib.Path, watched: pathlib.Path) -> tuple[int, str]:
    """Compiles the functions for SQLite in a folder, and returns what the shell answers there."""
    ends_well(["gcc", "-shared", "-fPIC", f"-I{INCLUDE}", "-o", room / "instant.so", source, watched / build_library.ARCHIVE])
    return run(["sqlite3", "-batch", "-bail"], IN_SQL.encode(), cwd=room)


@needs("sqlite3")
def test_sqlite(watched: pathlib.Path) -> None:
    """Words that stay, and words that change."""
    assert answered_in_sql(BINDINGS / "sqlite" / "instant.c", watched, watched) == (0, "1000\n")


@needs(str(try_postgres.BIN / "initdb"))
def test_server(watched: pathlib.Path) -> None:
    """The regression test of the extension for PostgreSQL."""
    with tempfile.TemporaryDirectory(prefix="postgres-") as folder:
        server = try_postgres.Server(pathlib.Path(folder))
        try_postgres.build(server, watched / build_library.ARCHIVE, {})
        with server.started():
            try_postgres.passes_regression(server)


if __name__ == "__main__":
    sys.exit(pytest.main([__file__, *sys.argv[1:]]))

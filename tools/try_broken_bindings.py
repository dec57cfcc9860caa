#!/usr/bin/env pytest
"""Breaks copies of the bindings, and finds that what tries them says so.

    tools/try_broken_bindings.py [-k WORD]

Each copy of `bindings/python` has one of the faults below, of which some were once made by hand and not noticed. The tests that are
named with it pass in a copy without the fault, and fail in that which has it. Where words are freed or changed under an open handle,
in Python or in SQLite, the watch of tools/try_kept_words.py ends the process. The library is the one that was built last. The
packages of Debian: binutils gcc libsqlite3-dev python3-numpy sqlite3.
"""

import os
import pathlib
import shutil
import subprocess
import sys
from typing import NamedTuple

sys.dont_write_bytecode = True

import build_library
import pytest
import try_kept_words
from try_kept_words import BINDINGS, IN_PYTHON, PYTHON, answered_in_sql, run


class Fault(NamedTuple):
    """A fault: a file, pairs of what is there and what is put in its place, and the test that fails with it."""

    file: str
    edits: tuple[tuple[str, str], ...]
    test: str


# The library with the watch in it.
watched = try_kept_words.watched
BOUNDS = "FIRST, LAST = -9_223_372_036, 9_223_372_035"
FIRST_TEXT = 'return text.encode(errors="surrogateescape") if isinstance(text, str)'
LIST = '"\\n".join([*lines, ""]).encode(errors="surrogateescape")'
ARRIVING = 'arriving = f"{made}.{socket.gethostname()}.{os.getpid()}"'
PUT = 'os.replace(f"{folder}/whole", output)'
WHOLE = 'with open(f"{folder}/whole", "wb") as whole:'
FAULTS = {
    "the first second of datetime64 one too early": Fault("_arrays.py", ((BOUNDS, "FIRST, LAST = -9_223_372_037, 9_223_372_035"),), "Arrays"),
    "the first second of datetime64 two too early": Fault("_arrays.py", ((BOUNDS, "FIRST, LAST = -9_223_372_038, 9_223_372_035"),), "Arrays"),
    "the last second of datetime64 one too late": Fault("_arrays.py", ((BOUNDS, "FIRST, LAST = -9_223_372_036, 9_223_372_036"),), "Arrays"),
    "the last second of datetime64 two too late": Fault("_arrays.py", ((BOUNDS, "FIRST, LAST = -9_223_372_036, 9_223_372_037"),), "Arrays"),
    "bytes that are no text are lost in a text": Fault("_lines.py", ((FIRST_TEXT, FIRST_TEXT.replace("surrogateescape", "replace")),), "Lines"),
    "and are refused there": Fault("_lines.py", ((FIRST_TEXT, FIRST_TEXT.replace('errors="surrogateescape"', "")),), "Lines"),
    "bytes that are no text are lost in a list": Fault("_lines.py", ((LIST, LIST.replace("surrogateescape", "replace")),), "Lines"),
    "and are refused in it": Fault("_lines.py", ((LIST, LIST.replace('errors="surrogateescape"', "")),), "Lines"),
    "bytes that are no text are lost in words": Fault("_handle.py", (('errors="surrogateescape"', 'errors="replace"'),), "Words"),
    "a part of a file is in its place before it is whole": Fault("dask.py", ((ARRIVING, "arriving = made"),), "Parts"),
    "the output is in its place before it is whole": Fault("dask.py", ((WHOLE, 'with open(output, "wb") as whole:'), (PUT, "pass")), "Parts"),
}


def broken(source: pathlib.Path, made: pathlib.Path, edits: tuple[tuple[str, str], ...]) -> None:
    """Writes a file with some edits, each of which stands once in it."""
    text = source.read_text()
    for before, after in edits:
        assert text.count(before) == 1
        text = text.replace(before, after)
    made.write_text(text)


def run_tests(copy: pathlib.Path, test: str, library: pathlib.Path) -> subprocess.CompletedProcess[str]:
    """Runs tests of a copy of the package."""
    command = [PYTHON, "-B", "test_instants.py", test]
    return subprocess.run(command, cwd=copy, env={**os.environ, "INSTANTS_LIBRARY": str(library)}, capture_output=True, text=True, check=False)


def copied(room: pathlib.Path) -> pathlib.Path:
    return pathlib.Path(shutil.copytree(BINDINGS / "python", room / "python"))


@pytest.mark.parametrize("test", sorted({it.test for it in FAULTS.values()}))
def test_no_fault(tmp_path: pathlib.Path, libraries: pathlib.Path, test: str) -> None:
    """A copy that has none passes, and no test is passed over."""
    tried = run_tests(copied(tmp_path), test, libraries / build_library.SHARED)
    assert tried.returncode == 0 and "skipped" not in tried.stderr, tried.stderr


@pytest.mark.parametrize("fault", FAULTS.values(), ids=FAULTS)
def test_fault(tmp_path: pathlib.Path, libraries: pathlib.Path, fault: Fault) -> None:
    copy = copied(tmp_path)
    broken(BINDINGS / "python" / "instants" / fault.file, copy / "instants" / fault.file, fault.edits)
    tried = run_tests(copy, fault.test, libraries / build_library.SHARED)
    assert tried.returncode == 1 and "\nFAILED (" in tried.stderr, tried.stderr


def test_words_that_are_freed_in_python(tmp_path: pathlib.Path, watched: pathlib.Path) -> None:
    copy = copied(tmp_path)
    broken(BINDINGS / "python" / "instants" / "_handle.py", copy / "instants" / "_handle.py", (("self._opened, text)", 'self._opened, b"")'),))
    status, said = run([PYTHON, "-B", "-c", IN_PYTHON], env={**os.environ, "INSTANTS_LIBRARY": str(watched / build_library.SHARED), "PYTHONPATH": str(copy)})
    assert status < 0 and "no longer as they were" in said


def test_words_that_are_changed_in_sqlite(tmp_path: pathlib.Path, watched: pathlib.Path) -> None:
    end = "return status == INSTANTS_OK;"
    broken(BINDINGS / "sqlite" / "instant.c", tmp_path / "instant.c", ((end, f"reader->words.bytes[0] = 'x';\n    {end}"),))
    status, said = answered_in_sql(tmp_path / "instant.c", tmp_path, watched)
    assert status != 0 and "no longer as they were" in said


if __name__ == "__main__":
    sys.exit(pytest.main([__file__, *sys.argv[1:]]))

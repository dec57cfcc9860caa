#!/usr/bin/env pytest
"""Tries what the built program `instants-lines` says where its call is wrong, a device fails, or a pipe is closed.

    tools/try_wrong_words.py [--instants-lines PROGRAM] [-k WORD]    crates/instants_lines_program/out/instants_lines_program where none is named

The table of wrong arguments is a test of the gate (crates/instants_tests/src/wrong_words.rt); here is what only a process shows:

- each kind of wrong argument by one row, with status 2 and nothing on standard output, and the hints;
- an input that can't be read and an output that is full are told with their reason, with status 1;
- a pipe whose reader has ended is no news: status 1, and nothing on standard error;
- a description that names no component is warned of, before it is refused with status 2;
- packed input is warned of, and lines none of which is dated, where they stand after keys; `-q` keeps this silent;
- `--count` says how many lines have which key, and the least and the greatest, in the modes that write keys, and is refused in others;
- `--help`, `-h` and `--version` alone are answered on standard output with status 0, as ./instants-lines answers them.
"""

import os
import pathlib
import subprocess
import sys
from typing import Any

sys.dont_write_bytecode = True

import pytest
from program import ROOT

SOURCES = "rfc3339, rfc2822, iso8601, v1, v2, v3, strftime, and the names of --help"
NO_COLUMN = "no column; modes key, carry, replace and locate take one from 1 to 1048576, where no field is named"
NO_SEPARATOR = "no separator; after a column it must be one byte and no quotation mark, or tab"
# Arguments, and the sentence after the program's name.
ROWS = (
    ("", "usage: instants-lines MODE [TARGET [ASSUMED [LIMIT]]] [year N] [time HH:MM] [field NAME | column N [separator S]] [label TEXT] SOURCE..."),
    ("keys rfc3339", '"keys": no such mode; there are key, carry, replace, explain, locate'),
    ("key", f"no source is named; there are {SOURCES}"),
    ("key +24:00 rfc3339", '"+24:00": no target offset; it must be +HH:MM, -HH:MM, Z or UTC'),
    ("key Z 7 rfc3339", '"7": no assumed offset; it must be +HH:MM, -HH:MM, Z, UTC or -, or a zone, as +02:00 or Europe/Berlin'),
    ("key Z - 0 rfc3339", '"0": no limit; it must be a number from 1 to 1048576'),
    ("key year 24x rfc3339", '"24x": no year; it must be four digits, as 2024'),
    ("key time 25:00 rfc3339", '"25:00": no time of day; it must be HH:MM'),
    ("explain field a rfc3339", '"a": no field; modes key, carry, replace and locate take one'),
    ("key column 0 rfc3339", f'"0": {NO_COLUMN}'),
    ("key field a column 2 rfc3339", f'"2": {NO_COLUMN}'),
    ("explain column 2 rfc3339", f'"2": {NO_COLUMN}'),
    ("key column 2 separator ;; rfc3339", f'";;": {NO_SEPARATOR}'),
    ("key field a separator ; rfc3339", f'";": {NO_SEPARATOR}'),
    ("key Z - 9 RFC3339", f'source 1: "RFC3339": no such source; there are {SOURCES}'),
    ("key rfc3339 app.log", 'source 2: "app.log": no such source; files are read from standard input: instants-lines .. < FILE'),
    ("key strftime", 'source 1: "strftime" needs a description in the next argument'),
    ("key v3 [year", "source 1: unclosed opening bracket at byte index 0"),
)


Answer = tuple[int, str | None, str]
ORDER = "year N, time HH:MM, field NAME or column N separator S, and label TEXT stand in this order before the sources"
NO_YEAR = "instants-lines: hint: give that of the first line before the sources: year 2024\n"
UNDATED = "instants-lines: warning: no line has a date that these sources read: try instants-lines guess < FILE\n"


def call(program: pathlib.Path, *words: str, **how: Any) -> Answer:
    """Returns the status of a call, its output where that is a pipe of ours, and what it says."""
    how = {"input": "x\n", "stdout": subprocess.PIPE, **how}
    ran = subprocess.run([program, *words], stderr=subprocess.PIPE, text=True, check=False, **how)
    return ran.returncode, ran.stdout, ran.stderr


@pytest.mark.parametrize("words, sentence", ROWS, ids=[words or "no words" for words, _ in ROWS])
def test_refused(instants_lines: pathlib.Path, words: str, sentence: str) -> None:
    status, text, said = call(instants_lines, *words.split())
    assert (status, text, said.split("\n")[0]) == (2, "", f"instants-lines: {sentence}")


@pytest.mark.parametrize(
    "words, hint",
    [
        ("guess x", "guess has no other arguments: instants-lines guess < FILE"),
        ("rfc3339", "a mode stands before the sources: instants-lines key SOURCE.."),
        ("key nginx", "there is a source access-log"),
        ("key access_log", "there is a source access-log"),
        ("key docker", "there is a source docker-json"),
        ("key rfc3339 RFC-2822", "there is a source rfc2822"),
        ("key year syslog rfc3339", "the year of the first line stands after year, as year 2024"),
        ("key time 00:00 year 2024 syslog", ORDER),
        ("key field a field b rfc3339", ORDER),
        ("key column 2 column 3 rfc3339", ORDER),
        ("key +00:00 Z syslog", "give that of the first line before the sources: year 2024"),
        ("key +00:00 Z date", "give one before the sources: time 00:00"),
        ("key mysql", "give one after the target: +00:00 +02:00"),
        ("key strftime %H", "give that of the first line before the sources: year 2024"),
        ("key unknown", ""),
        ("key Z - 0 rfc3339", ""),
    ],
)
def test_hint(instants_lines: pathlib.Path, words: str, hint: str) -> None:
    said = call(instants_lines, *words.split())[2].split("\n")
    assert said[1:] == ([f"instants-lines: hint: {hint}", ""] if hint else [""])


def test_a_folder_as_input(instants_lines: pathlib.Path) -> None:
    folder = os.open("/", os.O_RDONLY)
    how = {"input": None, "stdin": folder}
    assert call(instants_lines, "key", "rfc3339", **how) == (1, "", "instants-lines: reading failed: is a directory\n")
    os.close(folder)


def test_a_full_output(instants_lines: pathlib.Path) -> None:
    with open("/dev/full", "w") as full:
        assert call(instants_lines, "key", "rfc3339", stdout=full) == (1, None, "instants-lines: writing failed: no storage space\n")


def test_a_closed_pipe(instants_lines: pathlib.Path) -> None:
    reads, writes = os.pipe()
    os.close(reads)
    assert call(instants_lines, "key", "rfc3339", stdout=writes) == (1, None, "")
    os.close(writes)


def test_a_description_without_components(instants_lines: pathlib.Path) -> None:
    said = 'instants-lines: warning: v3 "%F" names no component, as [year]\ninstants-lines: source 1 names no moment: it has no year\n' + NO_YEAR
    assert call(instants_lines, "key", "v3", "%F") == (2, "", said)


def test_packed_input(instants_lines: pathlib.Path) -> None:
    said = "instants-lines: warning: the input is packed by bzip2: bunzip2 -c FILE | instants-lines ..\n"
    assert call(instants_lines, "key", "rfc3339", input="BZh9\nBZh9\n") == (0, "! none\tBZh9\n! none\tBZh9\n", said + UNDATED)
    assert call(instants_lines, "-q", "key", "rfc3339", input="BZh9\n") == (0, "! none\tBZh9\n", "")


@pytest.mark.parametrize(
    "words, lines, text, is_told",
    [
        ("key rfc3339", "x\ny\n", "! none\tx\n! none\ty\n", True),
        ("-q key rfc3339", "x\n", "! none\tx\n", False),
        ("carry rfc3339", "2021-01-02T03:04:05Zx\n", "! doubt\t2021-01-02T03:04:05Zx\n", True),
        ("locate rfc3339", "x\n", "! none\n", True),
        ("key rfc3339", "x\n2021-01-02T03:04:05Z\n", "! none\tx\n2021-01-02T03:04:05.000000000Z\t2021-01-02T03:04:05Z\n", False),
        ("key -23:59 rfc3339", "0000-01-01T00:00:00Z\n", "! year\t0000-01-01T00:00:00Z\n", False),
        ("key rfc3339", "", "", False),
        ("replace rfc3339", "x\n", "x\n", False),
        ("explain rfc3339", "x\n", "1\t! component year\n", False),
    ],
)
def test_lines_without_a_date(instants_lines: pathlib.Path, words: str, lines: str, text: str, is_told: bool) -> None:
    assert call(instants_lines, *words.split(), input=lines) == (0, text, UNDATED if is_told else "")


@pytest.mark.parametrize(
    "words, lines, counts",
    [
        ("key rfc3339", "", "0 dated, 0 none, 0 doubt, 0 year"),
        ("key rfc3339", "x\n2021-01-02T03:04:05Zx\n", "0 dated, 1 none, 1 doubt, 0 year"),
        ("key -23:59 rfc3339", "0000-01-01T00:00:00Z\n", "0 dated, 0 none, 0 doubt, 1 year"),
        (
            "carry rfc3339",
            "2021-01-02T03:04:05Z\n2020-01-02T03:04:05Z\nx\n2022-01-02T03:04:05Z",
            "4 dated, 0 none, 0 doubt, 0 year, 2020-01-02T03:04:05.000000000Z to 2022-01-02T03:04:05.000000000Z",
        ),
        (
            "locate +01:00 rfc3339",
            "2021-01-02T03:04:05Z\n",
            "1 dated, 0 none, 0 doubt, 0 year, 2021-01-02T04:04:05.000000000+01:00 to 2021-01-02T04:04:05.000000000+01:00",
        ),
    ],
)
def test_counts(instants_lines: pathlib.Path, words: str, lines: str, counts: str) -> None:
    said = f"instants-lines: {counts}\n"
    assert call(instants_lines, "-q", "--count", *words.split(), input=lines)[::2] == (0, said)
    assert call(instants_lines, "--count", *words.split(), input=lines)[2] in (said, said + UNDATED)


def test_counts_of_many_lines(instants_lines: pathlib.Path) -> None:
    lines = "".join(f"2021-01-02T03:{at // 60 % 60:02}:{at % 60:02}Z {'x' * (at % 777)}\n" for at in range(5000))
    said = "instants-lines: 5000 dated, 0 none, 0 doubt, 0 year, 2021-01-02T03:00:00.000000000Z to 2021-01-02T03:59:59.000000000Z\n"
    assert call(instants_lines, "--count", "key", "rfc3339", input=lines)[::2] == (0, said)


@pytest.mark.parametrize("words", ["guess", "replace rfc3339", "explain rfc3339", ""])
def test_nothing_to_count(instants_lines: pathlib.Path, words: str) -> None:
    said = "instants-lines: --count: modes key, carry and locate have keys to count\n"
    assert call(instants_lines, "--count", *words.split()) == (2, "", said)


def test_quiet_about_a_description(instants_lines: pathlib.Path) -> None:
    assert call(instants_lines, "-q", "key", "v3", "%F") == (2, "", "instants-lines: source 1 names no moment: it has no year\n" + NO_YEAR)


@pytest.mark.parametrize("word", ["--help", "-h", "--version"])
def test_text(instants_lines: pathlib.Path, word: str) -> None:
    status, text, _ = call(instants_lines, word)
    assert status == 0 and text and text.startswith("instants-lines ")
    assert text == call(ROOT / "instants-lines", word)[1]


if __name__ == "__main__":
    sys.exit(pytest.main([__file__, *sys.argv[1:]]))

#!/usr/bin/env pytest
"""Tries the calls from C, Rust, Python and SQLite against the program.

    tools/try_bindings.py [--lines N] [-k WORD]    WORD is c_, rust, python or sqlite, or of a part, as valgrind

The packages of Debian: binutils gcc g++ valgrind cargo rustc mypy pkg-config python3 python3-venv python3-numpy
python3-pandas python3-ciso8601 libsqlite3-dev sqlite3. The program and the library are
those that were built last, or those that --instants and --libraries name; where none is named, and they are not built or older than
their sources, they are proved and built first (tools/build_program.py, tools/build_library.py).

- The numbers, structs and calls of the header are those of the sources and of the other languages (tools/header_numbers.py), it says how much
  stack a call needs, and it is valid C and C++ by itself. `bindings/c/answers.cc` calls it in C++, over strings.
- C: `bindings/c/moments.c` prints the moments and faults of the same lines as numbers, at two targets; they are those that the
  program's answers tell, by Python's calendar and the header's numbers.
- C: `bindings/c/answer.c` answers 100,000 mixed lines (bench/lines.py), with some that are empty, too long, no text or hold a
  NUL, byte for byte as the program does, with the sanitizers of addresses and of what is undefined, and under valgrind, with
  no leak. It refuses words as the program does: by its sentence and its status. `limits.c` ends early in all ways, with the
  sanitizers and under valgrind, `handle.c` answers by handles from four threads, with the sanitizers, under valgrind and under
  helgrind, and prints how long a call of one line takes; `memory.c` refuses each allocation in turn.
- Dates inside lines, by `bindings/c/keyed.c` with the sanitizers and under valgrind, Python and SQLite: lines of an access log, with some that
  have no date, have the keys of `instants-lines`; `lines.c` ends early in all ways and asks from four threads, with the sanitizers,
  under valgrind and under helgrind. tools/try_lines.py compares far more lines.
- Rust: the tests of `bindings/rust`, and its example `answer` as that in C, without the sanitizers. Both crates are packed
  without a network, and what was packed is unpacked and tried outside of the repository, with the library that
  INSTANTS_LIB_DIR names and with that which pkg-config finds; where there is none the build says how to get it.
- Python: `to_datetime64` of the same lines, against the program's answers; `datetimes` takes no longer than ciso8601 with
  `astimezone`, on lines with offsets; the tests of `bindings/python`, by Debian's Python, which has numpy and pandas where their
  packages are there; its types, by `mypy --strict`; the same lines by its calls, by `python3 -m instants`, and one by one by a
  timeline; `pip install`, without a network, into an environment of its own, where the package answers with no variable set; the
  wheel's platform, by the versions that its library needs; the archive of the sources, with a library and without one; and what is
  said where there is no library, or one of another version.
- SQLite: `bindings/sqlite/instant.c` answers the lines that are text as the program does; the answers are the key of a table,
  of an index that SQLite uses, and of generated columns, also where the schema is not trusted; bad calls are errors; words
  that stay from row to row, and words that change, are answered alike; all of it on 2,000 lines under valgrind.
"""

import datetime
import io
import os
import pathlib
import random
import re
import shutil
import subprocess
import sys
from collections.abc import Iterator, Mapping, Sequence
from typing import Any, NamedTuple

sys.dont_write_bytecode = True

import build_library
import build_program
import header_numbers
import pytest
from program import ROOT, Command, Program, sure

sys.path.insert(0, str(ROOT / "bench"))

import lines as bench_lines

BINDINGS, INCLUDE = ROOT / "bindings", ROOT / "include"
LOG = "%d/%b/%Y:%H:%M:%S %z"
SOURCES = ["rfc3339", "rfc2822", "strftime", LOG]
WORDS = ["+00:00", "-", "100", *SOURCES]
GREATEST = str(header_numbers.in_header("GREATEST_LIMIT"))
# Debian's own, which has the modules of Debian's packages.
PYTHON = "/usr/bin/python3"
PEDANTIC = ["-Wall", "-Wextra", "-Wpedantic", "-Werror"]
WARNINGS = ["-std=c11", "-Wall", "-Wextra", "-Werror"]
SANITIZERS = ["-g", "-O1", "-fsanitize=address,undefined", "-fno-sanitize-recover=all"]
VALGRIND = ["valgrind", "--quiet", "--error-exitcode=99", "--leak-check=full", "--errors-for-leak-kinds=all"]
# (Rust's standard output keeps its buffer to the end)
VALGRIND_OF_RUST = [*VALGRIND[:-1], "--errors-for-leak-kinds=definite,indirect,possible"]
HELGRIND = ["valgrind", "--quiet", "--error-exitcode=99", "--tool=helgrind"]
THREADED = ["-pthread"]
WRAPPED = ["-Wl,--wrap=malloc,--wrap=realloc,--wrap=free"]
# Programs in C that say whether all is well, with the compiler's flags, the linker's, and what they run under.
IN_C: dict[str, tuple[str, list[str], list[str], list[str]]] = {
    "early ends with sanitizers": ("limits", SANITIZERS, [], []),
    "early ends under valgrind": ("limits", [], [], VALGRIND),
    "handles with sanitizers": ("handle", SANITIZERS, THREADED, []),
    "handles under valgrind": ("handle", [], THREADED, VALGRIND),
    "handles under helgrind": ("handle", [], THREADED, HELGRIND),
    "each allocation refused": ("memory", [], WRAPPED, []),
    "lines with sanitizers": ("lines", SANITIZERS, THREADED, []),
    "lines under valgrind": ("lines", [], THREADED, VALGRIND),
    "lines under helgrind": ("lines", [], THREADED, HELGRIND),
}
# Words of `instants-lines`, for lines of a log.
LINES_WORDS = ["carry", "rfc3339"]
# Calls of one line that are measured in a round.
CALLS = "200000"
# Lines for valgrind through SQLite, where each is a call of its own.
FEW = 2_000
# Moments as `datetime`, by `datetimes` and by ciso8601 in turns: how many times as long the first takes, on lines of RFC 3339.
RATIO = """
import sys, time
from datetime import timezone
import ciso8601, instants
lines = open(sys.argv[1], encoding="ascii").read().split("\\n")[:-1]
timeline, read = instants.Timeline(target="+00:00", sources=["rfc3339"]), ciso8601.parse_datetime
calls = (lambda: timeline.datetimes(lines), lambda: [read(line).astimezone(timezone.utc) for line in lines])
taken = ([], [])
for _ in range(15):
    for call, rounds in zip(calls, taken):
        began = time.process_time_ns()
        call()
        rounds.append(time.process_time_ns() - began)
assert calls[0]() == calls[1]()
print(f"{min(taken[0]) / min(taken[1]):.2f}")
"""
# A caller in Python, for its types.
CALLER = """
from __future__ import annotations
from datetime import datetime
from typing import Iterator
import instants
texts: list[str] = instants.answers(open("lines"), target="+00:00", sources=["rfc3339"], limit=100)
block: list[str] = instants.answers(memoryview(b""), target="+00:00", sources=("rfc3339",), raising=True)
faults: list[str | None] = [it.fault for it in instants.parse([b"", bytearray()], target="+00:00", sources=["rfc3339"])]
moments: list[datetime | None] = instants.datetimes(["x"], sources=["rfc3339"], assumed="+00:00")
later: Iterator[str] = instants.iter(open("lines", "rb"), target="+00:00", sources=["rfc3339"], raising=True)
version: str = instants.__version__
column: list[str | float | None] = ["x", None, float("nan")]
instants.to_datetime64(column, sources=["rfc3339"])
written: bytes = instants.answer_bytes(b"", ["+00:00", "-", "100", "rfc3339"])
with instants.Timeline(target="+00:00", sources=["rfc3339"], limit=100) as timeline:
    text: str = timeline.answer(b"x", raising=False)
    texts = timeline.answers(open("lines", "rb"))
    later = timeline.iter([b"x"])
    faults = [it.fault for it in timeline.parse("x")]
    moments = timeline.datetimes(["x"], raising=True)
timeline.close()
"""
WRONG_WORDS: tuple[list[str], ...] = (
    [],
    ["+00:00", "-", "100"],
    ["+24:00", "-", "100", "rfc3339"],
    ["+00:00", "?", "100", "rfc3339"],
    ["+00:00", "-", "0", "rfc3339"],
    ["+00:00", "-", "100", "rfc3339", "rfc"],
    ["+00:00", "-", "100", "v1"],
    ["+00:00", "-", "100", "v1", "[day", "v2", "[x]"],
    ["+00:00", "-", "100", "v3", "[optional [[day]]"],
    ["+00:00", "-", "100", "strftime", "%Q"],
)

# Words and lines of SQLite's rows: what changes from row to row are the target, the description, all of it, or nothing.
CHANGING = (
    ("+00:00", "strftime", "%F %T%z", "2021-01-02 04:04:05+0100"),
    ("+00:00", "strftime", "%F %T%z", "30 February"),
    ("+01:00", "strftime", "%F %T%z", "2021-01-02 04:04:05+0100"),
    ("+01:00", "v3", "[unix_timestamp]", "1609556645"),
    ("+01:00", "strftime", "%s", "1609556645"),
    ("+00:00", "strftime", "%F %T%z", "2021-01-02 04:04:05+0100"),
)

# Calls of SQLite's function that are refused, with what is said.
BAD_CALLS: tuple[tuple[list[str], bytes], ...] = (
    (["+00:00", "rfc3339"], b"instant(TARGET, SOURCE.., TEXT)"),
    (["+25:00", "rfc3339", "x"], b"the target offset must be"),
    (["+00:00", "rfc", "x"], b"source 1 is not a known source"),
    (["+00:00", "v1", "[x]", "x"], b"source 1: "),
    (["+00:00", "rfc3339\n", "x"], b"a word has a line feed"),
    (["+00:00", "+25:00", "rfc3339", "x"], b"the assumed offset must be"),
    (["+00:00", "+00:00", "x"], b"usage: "),
)
# Expressions of SQLite, with their values.
EXPRESSIONS = (
    ("instant('+00:00', 'rfc3339', NULL) IS NULL", b"1\n"),
    ("instant('+00:00', 'rfc3339', '')", b"! component year\n"),
    ("instant('+00:00', 'rfc3339', 'a' || char(10) || 'b')", b"! component year\n! component year\n"),
    ("instant('+00:00', 'rfc3339', 'a' || char(10))", b"! component year\n! component year\n"),
    ("length(instant('+00:00', 'rfc3339', replace(hex(zeroblob(50)), '0', char(10))))", b"1716\n"),
    ("instant('+00:00', 'rfc3339', '2021-01-02T03:04:05Z' || char(0))", b"! trailing\n"),
    ("instant('+00:00', 'rfc3339', x'ff')", b"! component year\n"),
    ("instant('+00:00', 'v3', '[unix_timestamp]', 1609556645)", b"2021-01-02T03:04:05.000000000Z\n"),
    ("instant('+00:00', '+00:00', 'strftime', '%F %T', '2021-01-02 03:04:05')", b"2021-01-02T03:04:05.000000000Z\n"),
    ("instant('+01:00', '-', 'strftime', '%F %T%z', '2021-01-02 03:04:05+0100')", b"2021-01-02T03:04:05.000000000+01:00\n"),
    ("instant_fault('+00:00', 'rfc3339', 'yesterday')", b"component year\n"),
    ("instant_fault('+00:00', 'rfc3339', '2021-01-02T03:04:05Z' || char(10) || 'b')", b"component year\n"),
    ("instant_fault('+00:00', 'rfc3339', '2021-01-02T03:04:05Z') IS NULL", b"1\n"),
    ("instant_fault('+00:00', 'rfc3339', NULL) IS NULL", b"1\n"),
    ("instant_key('+00:00', 'rfc3339', 'at 2021-01-02T03:04:05Z up')", b"2021-01-02T03:04:05.000000000Z\n"),
    ("instant_key('+00:00', 'access-log', 'rfc3339', 'x' || char(9) || 'y' || char(10) || '2021-01-02T03:04:05Z')", b"! none\n2021-01-02T03:04:05.000000000Z\n"),
    ("instant_key('+00:00', '+00:00', 'strftime', '%F %T', '2021-01-02 03:04:05')", b"2021-01-02T03:04:05.000000000Z\n"),
    ("instant_key('+00:00', 'rfc3339', '')", b"! none\n"),
    ("instant_key('+00:00', 'rfc3339', NULL) IS NULL", b"1\n"),
)
# Calls whose words are columns, or stay.
CALLS_OF_ROWS = (
    "instant(target, kind, description, line)",
    "instant('+01:00', kind, description, line)",
    "instant(target, 'strftime', '%F %T%z', line)",
    "instant('+01:00', 'strftime', '%F %T%z', line)",
)


def ran(command: Command, given: bytes = b"", **how: Any) -> tuple[int, bytes, bytes]:
    """Returns what a command answers: status, standard output, standard error."""
    done = subprocess.run(command, input=given, capture_output=True, check=False, **how)
    return done.returncode, done.stdout, done.stderr


def ends_well(command: Command, **how: Any) -> None:
    """Runs a command, which has to end well."""
    status, said, wrong = ran(command, **how)
    assert status == 0, (said + wrong).decode(errors="replace")


def same(got: bytes, wanted: bytes) -> None:
    """Answers have to be those that are wanted."""
    due, given = wanted.split(b"\n"), got.split(b"\n")
    at = next((at for at, pair in enumerate(zip(due, given)) if pair[0] != pair[1]), min(len(due), len(given)))
    # (pytest would look for all differences)
    is_same = got == wanted
    assert is_same, f"line {at + 1}: {given[at:at + 1]} in place of {due[at:at + 1]}"


def answers(answer: tuple[int, bytes, bytes], wanted: bytes) -> None:
    """A command has to have ended well, with the answers that are wanted."""
    status, said, wrong = answer
    assert status == 0, wrong.decode(errors="replace")[-2000:]
    same(said, wanted)


def unix_second(text: str, offset: int) -> int:
    """Returns the seconds since 1970 that a date-time tells, at an offset of so many minutes. Python has no year 0."""
    year, month, day = int(text[:4]), int(text[5:7]), int(text[8:10])
    # (the year 0 is as the year 400, 146,097 days before it)
    days = datetime.date(year or 400, month, day).toordinal() - (0 if year else 146_097) - datetime.date(1970, 1, 1).toordinal()
    return ((days * 24 + int(text[11:13])) * 60 + int(text[14:16]) - offset) * 60 + int(text[17:19])


def number_told(answer: str, offset: int) -> str:
    """Returns what bindings/c/moments.c prints for a line with an answer."""
    if not answer.startswith("! "):
        return f"{unix_second(answer, offset)}:{answer[20:29]}"
    kind, _, name = answer[2:].partition(" ")
    component = header_numbers.component_names().index(name) + 1 if name else 0
    return f"! {sure(header_numbers.in_header(f'FAULT_{kind.upper()}')) + component}"


def mixed_lines(count: int) -> bytes:
    """Returns mixed lines, some of them of no text, and the last without a line feed."""
    rng = random.Random(39)
    odd = [b"", b"\0", b"2021-01-02T03:04:05Z\0", b"2021-01-02T03:04:05Z\r", b"9" * 101, b"\xff\xfe", "2021-01-02 03:04:05\N{EM SPACE}Z".encode()]
    read = [rng.choice(odd) if at % 100 == 7 else bench_lines.mixed(rng).encode() for at in range(count)]
    return b"\n".join(read)


class Library:
    """What is tried: the program, the library, the lines, and a folder for what is built."""

    def __init__(self, room: pathlib.Path, program: pathlib.Path, folder: pathlib.Path, count: int) -> None:
        self.room, self.program, self.folder, self.input = room, program, folder, mixed_lines(count)
        self.archive, self.shared = folder / build_library.ARCHIVE, folder / build_library.SHARED
        self.answers = self.answered(self.input, WORDS)

    def answered(self, given: bytes, words: Sequence[str]) -> bytes:
        """Returns what the program answers."""
        return subprocess.run([self.program, *words], input=given, capture_output=True, check=True).stdout

    def is_like(self, command: Command) -> None:
        """A command has to answer, and to refuse words, as the program does."""
        answers(ran([*command, *WORDS], self.input), self.answers)
        for words in WRONG_WORDS:
            assert ran([*command, *words], self.input[:100]) == ran([self.program, *words], self.input[:100])

    def compiled(self, name: str, flags: Sequence[str] = (), link: Sequence[str] = ()) -> pathlib.Path:
        """Compiles a C program of the bindings with the library, and returns its file."""
        made = self.room / f"{name}{len(flags)}"
        source = BINDINGS / "c" / f"{name}.c"
        ends_well(["gcc", *WARNINGS, *(flags or ["-O2"]), f"-I{INCLUDE}", "-o", made, source, self.archive, *link])
        return made


@pytest.fixture(scope="module")
def library(request: pytest.FixtureRequest, room: pathlib.Path) -> Library:
    missing = [it for it in ("gcc", "g++", "valgrind", "cargo", "mypy", "pkg-config", "sqlite3") if not shutil.which(it)]
    if missing:
        pytest.fail(f"there is no command {missing[0]}", pytrace=False)
    if not request.config.getoption("--instants"):
        build_program.build(Program("instants_program", "instants"))
    if not request.config.getoption("--libraries"):
        build_library.build()
    return Library(room, request.getfixturevalue("instants"), request.getfixturevalue("libraries"), request.config.getoption("--lines") or 100_000)


# ---- C


def test_header_numbers() -> None:
    """Numbers, structs and calls, and how much stack a call needs."""
    assert header_numbers.wrong_places() == []
    assert "@STACK@" not in header_numbers.HEADER.read_text()


@pytest.mark.parametrize("language", ["c", "c++"])
def test_header_is_valid(language: str) -> None:
    ends_well(["gcc", "-x", language, *PEDANTIC, "-fsyntax-only", header_numbers.HEADER])


def test_cplusplus(library: Library) -> None:
    made = library.room / "answers"
    ends_well(["g++", "-std=c++17", *PEDANTIC, f"-I{INCLUDE}", "-o", made, BINDINGS / "c" / "answers.cc", library.archive])
    ends_well([made])


def test_c_answers_with_sanitizers(library: Library) -> None:
    library.is_like([library.compiled("answer", SANITIZERS)])


def test_c_answers_under_valgrind(library: Library) -> None:
    answers(ran([*VALGRIND, library.compiled("answer"), *WORDS], library.input), library.answers)


@pytest.mark.parametrize("name, flags, link, wrapper", IN_C.values(), ids=IN_C)
def test_c_program(library: Library, name: str, flags: list[str], link: list[str], wrapper: list[str]) -> None:
    ends_well([*wrapper, library.compiled(name, flags, link)])


def test_c_pace(library: Library) -> None:
    """It prints how long a call of one line takes (pytest -s shows it)."""
    status, said, _ = ran([library.compiled("handle", link=THREADED), CALLS])
    print(said.decode(), end="")
    assert status == 0


@pytest.mark.parametrize("flags", [SANITIZERS, []], ids=["with sanitizers", "without"])
def test_c_moments(library: Library, flags: list[str]) -> None:
    """Moments and faults as numbers, at two targets."""
    moments = library.compiled("moments", flags)
    for target, offset in (("+00:00", 0), ("-05:30", -330)):
        words = [target, *WORDS[1:]]
        told = library.answered(library.input, words).decode("ascii").split("\n")[:-1]
        answers(ran([moments, *words], library.input), "".join(number_told(it, offset) + "\n" for it in told).encode())
    for words in WRONG_WORDS:
        assert ran([moments, *words])[::2] == ran([library.program, *words])[::2]


# ---- dates inside lines


class Log(NamedTuple):
    """Lines of a log, and what the program writes for them after the words."""

    lines: bytes
    keyed: bytes


@pytest.fixture(scope="module")
def log(instants_lines: pathlib.Path) -> Log:
    rng = random.Random(40)
    read = [f"{bench_lines.rfc3339(rng)} {at}" if at % 3 else rng.choice(["", "  trace", "\tat x", "2021-01-02T03:04:05Zulu"]) for at in range(20_000)]
    lines = "\n".join(read).encode()
    return Log(lines, subprocess.run([instants_lines, "-q", *LINES_WORDS], input=lines, capture_output=True, check=True).stdout)


@pytest.mark.parametrize("flags, wrapper", [(SANITIZERS, []), ([], VALGRIND)], ids=["with sanitizers", "under valgrind"])
def test_c_keys(library: Library, log: Log, flags: list[str], wrapper: list[str]) -> None:
    answers(ran([*wrapper, library.compiled("keyed", flags), "-b", "7000", *LINES_WORDS], log.lines), log.keyed)


def test_python_keys(library: Library, log: Log, package: None) -> None:
    import instants

    with instants.Lines(LINES_WORDS[1:], mode=LINES_WORDS[0]) as lines:
        same("\n".join(lines.keys(log.lines)).encode(), b"\n".join(it.split(b"\t")[0] for it in log.keyed.split(b"\n")[:-1]))


def test_sqlite_keys(loaded: Library, log: Log) -> None:
    read = log.lines.split(b"\n")[:FEW]
    text = f"{filled(loaded.room, read)}SELECT instant_key('+00:00', 'rfc3339', line) FROM lines ORDER BY rowid;"
    status, said, wrong = queried(loaded, text, VALGRIND)
    assert status == 0, wrong.decode(errors="replace")
    assert said.count(b"\n") == len(read) and said.count(b"! none") == sum(it in (b"", b"  trace", b"\tat x") for it in read)


# ---- Rust


@pytest.fixture(scope="module")
def places(library: Library) -> dict[str, str]:
    """The environment in which cargo finds the library."""
    kept = {it: text for it, text in os.environ.items() if it != "CARGO_TARGET_DIR"}
    return {**kept, "INSTANTS_LIB_DIR": str(library.folder)}


@pytest.fixture(scope="module")
def crate(library: Library) -> pathlib.Path:
    copy = library.room / "rust"
    return pathlib.Path(shutil.copytree(BINDINGS / "rust", copy, ignore=shutil.ignore_patterns("target", "Cargo.lock")))


def test_rust_crate(crate: pathlib.Path, places: dict[str, str]) -> None:
    """Its tests."""
    ends_well(["cargo", "test", "--quiet", "--offline"], cwd=crate, env=places)


def test_rust_example(library: Library, crate: pathlib.Path, places: dict[str, str]) -> None:
    ends_well(["cargo", "build", "--quiet", "--offline", "--release", "--example", "answer"], cwd=crate, env=places)
    answer = crate / "target" / "release" / "examples" / "answer"
    library.is_like([answer])
    answers(ran([*VALGRIND_OF_RUST, answer, *WORDS], library.input), library.answers)


def packed(name: str, source: pathlib.Path, room: pathlib.Path, places: Mapping[str, str]) -> None:
    """Packs a crate, and unpacks it where cargo finds it in place of a registry."""
    copy = room / "sources" / name
    shutil.copytree(source, copy, ignore=shutil.ignore_patterns("target", "Cargo.lock"))
    ends_well(["cargo", "package", "--quiet", "--offline"], cwd=copy, env=places)
    (made,) = (copy / "target" / "package").glob("*.crate")
    shutil.unpack_archive(made, room / "registry", "gztar")
    (room / "registry" / made.stem / ".cargo-checksum.json").write_text('{"files":{}}')


@pytest.fixture(scope="module")
def unpacked(library: Library, places: dict[str, str]) -> pathlib.Path:
    """The crate as it is packed, in a folder that has a file for pkg-config too."""
    room = library.room / "crates"
    (room / ".cargo").mkdir(parents=True)
    (room / "registry").mkdir()
    config = '[source.crates-io]\nreplace-with = "here"\n[source.here]\ndirectory = "registry"\n'
    (room / ".cargo" / "config.toml").write_text(config)
    packed("instants-sys", BINDINGS / "rust" / "sys", room, places)
    packed("instants", BINDINGS / "rust", room, places)
    (found,) = (room / "registry").glob("instants-[0-9]*")
    pkg_config = (ROOT / "packaging" / "instants.pc.in").read_text().replace("@LIBDIR@", str(library.folder))
    (room / "instants.pc").write_text(pkg_config.replace("@PREFIX@", str(ROOT)).replace("@VERSION@", "0.1.0"))
    return pathlib.Path(shutil.copytree(found, room / "unpacked"))


def test_rust_packed_crates(library: Library, unpacked: pathlib.Path, places: dict[str, str]) -> None:
    """With the library that INSTANTS_LIB_DIR names, with that which pkg-config finds, and with none."""
    test, room = ["cargo", "test", "--quiet", "--offline"], unpacked.parent
    bare = {it: text for it, text in places.items() if it != "INSTANTS_LIB_DIR"}
    ends_well(test, cwd=unpacked, env=places)
    ends_well(test, cwd=unpacked, env={**bare, "PKG_CONFIG_PATH": str(room)})
    status, _, wrong = ran(test, cwd=unpacked, env={**bare, "PKG_CONFIG_LIBDIR": str(room / "registry")})
    assert status != 0 and b"name the folder of libinstants.a in INSTANTS_LIB_DIR" in wrong


# ---- Python


@pytest.fixture(scope="module")
def package(library: Library) -> Iterator[None]:
    """Has this process, and those that it starts, find the package and the library."""
    with pytest.MonkeyPatch.context() as patch:
        patch.setenv("INSTANTS_LIBRARY", str(library.shared))
        patch.syspath_prepend(str(BINDINGS / "python"))
        yield


def test_python_tests(package: None) -> None:
    status, _, said = ran([PYTHON, "-B", BINDINGS / "python" / "test_instants.py", "--verbose"])
    assert status == 0, said.decode(errors="replace")
    # (shown by pytest -s)
    print(*sorted(set(re.findall("skipped '(.*)'", said.decode(errors="replace")))), sep="\n")


def test_python_types(library: Library) -> None:
    ends_well(["mypy", "--strict", "--cache-dir", library.room / "mypy", "instants", "wheel_of_package.py"], cwd=BINDINGS / "python")


def test_python_answers(library: Library, package: None) -> None:
    """Of bytes, of a list, of a block, block by block, line by line, and by the package as a program."""
    import instants

    how: dict[str, Any] = {"target": "+00:00", "sources": SOURCES, "limit": 100}
    lines = library.input.split(b"\n")
    same(instants.answer_bytes(library.input, WORDS), library.answers)
    with instants.Timeline(**how) as timeline:
        by_line = [timeline.answer(line) for line in lines]
    for listed in (instants.answers(lines, **how), instants.answers(library.input, **how), instants.iter(io.BytesIO(library.input), **how), by_line):
        same("\n".join([*listed, ""]).encode(), library.answers)
    answers(ran([PYTHON, "-B", "-m", "instants", *WORDS], library.input, cwd=BINDINGS / "python"), library.answers)


def test_python_arrays(library: Library, package: None) -> None:
    """Moments as an array of numpy."""
    numpy = pytest.importorskip("numpy")
    import instants

    told = library.answers.decode("ascii").split("\n")[:-1]
    nanoseconds = [None if it.startswith("!") else unix_second(it, 0) * 10**9 + int(it[20:29]) for it in told]
    due = [-(2**63) if it is None or abs(it) >= 2**63 else it for it in nanoseconds]
    found = instants.to_datetime64(library.input, sources=SOURCES, limit=100)
    is_same = found.dtype == numpy.dtype("datetime64[ns]") and found.view("int64").tolist() == due
    assert is_same


@pytest.mark.parametrize("in_utc", [False, True], ids=["of lines with offsets", "of lines in UTC"])
def test_python_pace_of_datetimes(library: Library, in_utc: bool) -> None:
    """`datetimes` takes no longer than ciso8601 does with `astimezone`, in turns, on lines with offsets. Lines in UTC that need not
    move: how long they take is printed (pytest -s shows it)."""
    pytest.importorskip("ciso8601", reason="Debian has it as python3-ciso8601")
    rng, file = random.Random(39), library.room / "rfc3339"
    lines = (bench_lines.rfc3339(rng) for _ in range(20_000))
    file.write_text("".join(f"{re.sub('[+-]..:..$', 'Z', it) if in_utc else it}\n" for it in lines))
    places = {"INSTANTS_LIBRARY": str(library.shared), "PYTHONPATH": str(BINDINGS / "python")}
    status, said, wrong = ran([PYTHON, "-B", "-c", RATIO, file], env={**os.environ, **places})
    assert status == 0, wrong.decode(errors="replace")
    print(f"{float(said):.2f} of the time of ciso8601")
    assert in_utc or float(said) <= 1


def is_refused(named: pathlib.Path, printed: bytes) -> None:
    """A library that INSTANTS_LIBRARY names has to be refused with a text."""
    places = {**os.environ, "INSTANTS_LIBRARY": str(named), "PYTHONPATH": str(BINDINGS / "python")}
    status, _, wrong = ran([PYTHON, "-B", "-c", "import instants"], env=places)
    assert status != 0 and b"ImportError: instants: " in wrong and printed in wrong


def test_python_without_a_library(room: pathlib.Path) -> None:
    is_refused(room / "none.so", b"INSTANTS_LIBRARY")


def test_python_with_a_library_of_another_version(room: pathlib.Path) -> None:
    source, made = room / "other.c", room / "other.so"
    source.write_text("unsigned instants_version(void) { return 20000; }\nvoid instants_answer_lines(void) {}\nvoid instants_sentence(void) {}\n")
    ends_well(["gcc", "-shared", "-fPIC", "-o", made, source])
    is_refused(made, b"is of version 2.0.0, and this package is of 0.1.0")


class Environment:
    """An environment of Python's own, in which no variable names the package or the library."""

    def __init__(self, library: Library) -> None:
        self.room = library.room / "venv"
        self.how: dict[str, Any] = {"cwd": library.room, "env": {it: text for it, text in os.environ.items() if it not in ("INSTANTS_LIBRARY", "PYTHONPATH")}}
        # (the wheel takes the library from where it was built, unless another one is named)
        if library.folder != build_library.out():
            self.how["env"]["INSTANTS_LIBRARY"] = str(library.shared)
        ends_well([PYTHON, "-m", "venv", self.room])

    def pip(self, *words: str | pathlib.Path) -> list[str | pathlib.Path]:
        """Returns a command of pip, without a network."""
        return [self.room / "bin" / "pip", words[0], "--no-index", "--no-cache-dir", "--disable-pip-version-check", *words[1:]]


@pytest.fixture(scope="module")
def environment(library: Library) -> Environment:
    return Environment(library)


def test_python_wheel(library: Library, environment: Environment) -> None:
    """Its platform, by what the library in it needs of the C library."""
    told = ran(["objdump", "-p", library.shared])[1].decode()
    versions = [tuple(map(int, it.split("."))) for it in re.findall(r"GLIBC_([\d.]+)", told)]
    assert re.findall(r"NEEDED +(\S+)", told) == ["libc.so.6"] and versions and max(versions) <= (2, 17)
    ends_well(environment.pip("wheel", "--no-deps", "--wheel-dir", library.room, BINDINGS / "python"), **environment.how)
    assert [it.name for it in library.room.glob("*.whl")] == ["instants-0.1.0-py3-none-manylinux2014_x86_64.whl"]


def test_python_archive_of_sources(library: Library, environment: Environment) -> None:
    """It is installed where a library is named, and says so where there is none."""
    code = "import sys, wheel_of_package; print(wheel_of_package.build_sdist(sys.argv[1]))"
    status, made, wrong = ran([PYTHON, "-B", "-c", code, library.room], cwd=BINDINGS / "python")
    assert status == 0, wrong.decode(errors="replace")
    install = environment.pip("install", library.room / made.decode().strip())
    bare = {it: text for it, text in environment.how["env"].items() if it != "INSTANTS_LIBRARY"}
    status, said, wrong = ran(install, cwd=library.room, env=bare)
    told = (said + wrong).decode(errors="replace")
    assert status != 0 and "instants: the package needs its library: " in told and "Traceback" not in told
    ends_well(install, cwd=library.room, env={**bare, "INSTANTS_LIBRARY": str(library.shared)})


def test_python_installed_package(library: Library, environment: Environment) -> None:
    """It answers with no variable set, and a caller's types are right."""
    ends_well(environment.pip("install", "--force-reinstall", BINDINGS / "python"), **environment.how)
    python = environment.room / "bin" / "python"
    code = "import instants, sys; sys.stdout.buffer.write(instants.answer_bytes(sys.stdin.buffer.read(), sys.argv[1:]))"
    bare = {it: text for it, text in environment.how["env"].items() if it != "INSTANTS_LIBRARY"}
    answers(ran([python, "-c", code, *WORDS], library.input, cwd=library.room, env=bare), library.answers)
    (library.room / "caller.py").write_text(CALLER)
    strict: Command = ["mypy", "--strict", "--cache-dir", library.room / "mypy", "--python-executable", python, "caller.py"]
    ends_well(strict, cwd=library.room, env=bare)


# ---- SQLite


def quoted(words: Sequence[str]) -> str:
    return ", ".join("'" + word.replace("'", "''") + "'" for word in words)


def queried(library: Library, text: str, wrapper: Sequence[str] = ()) -> tuple[int, bytes, bytes]:
    """Returns what the shell of SQLite answers, with the function loaded."""
    return ran([*wrapper, "sqlite3", "-batch", "-bail", ":memory:"], f".load {library.room}/instant\n{text}".encode())


def filled(folder: pathlib.Path, read: Sequence[bytes]) -> str:
    """Returns the statements that fill a table with lines."""
    (folder / "lines.ascii").write_bytes(b"\x1e".join(read) + b"\x1e")
    return f"CREATE TABLE lines (line TEXT NOT NULL);\n.import --ascii {folder}/lines.ascii lines\n"


@pytest.fixture(scope="module")
def loaded(library: Library) -> Library:
    """The library, with the function that SQLite loads in its folder."""
    flags = [*WARNINGS, "-O2", "-fPIC", "-shared", f"-I{INCLUDE}"]
    ends_well(["gcc", *flags, "-o", library.room / "instant.so", BINDINGS / "sqlite" / "instant.c", library.archive])
    return library


def columns_of(table: str, call: str) -> str:
    """Returns statements with both functions in generated columns, and an index over one, in a schema that is not trusted."""
    columns = f"moment TEXT AS ({call}) STORED, fault TEXT AS ({call.replace('instant(', 'instant_fault(')}) STORED"
    return f"""PRAGMA trusted_schema = OFF;
{table}CREATE TABLE log (line TEXT NOT NULL, {columns});
CREATE INDEX log_by_moment ON log (moment);
INSERT INTO log (line) SELECT line FROM lines ORDER BY rowid;
SELECT coalesce('! ' || fault, moment) FROM log ORDER BY rowid;
SELECT sum((fault IS NULL) = (moment LIKE '!%')), sum(moment = {call}) = count(*) FROM log;
"""


@pytest.mark.parametrize("wrapper", [[], VALGRIND], ids=["plain", "under valgrind"])
def test_sqlite_lines(loaded: Library, wrapper: list[str]) -> None:
    """Answers as a column, as keys of a table and of an index, and in generated columns."""
    # (the shell gives no text with a NUL, and none that is no UTF-8)
    read = [line for line in loaded.input.split(b"\n") if b"\0" not in line and line == line.decode(errors="ignore").encode()]
    read = read[:FEW] if wrapper else read
    call, table = f"instant('+00:00', {quoted(SOURCES)}, line)", filled(loaded.room, read)
    due = loaded.answered(b"".join(line + b"\n" for line in read), ["+00:00", "-", GREATEST, *SOURCES])
    answers(queried(loaded, f"{table}SELECT {call} FROM lines ORDER BY rowid;", wrapper), due)
    keyed = f"""{table}CREATE TABLE log (moment TEXT PRIMARY KEY, line TEXT NOT NULL) WITHOUT ROWID;
INSERT OR IGNORE INTO log SELECT {call}, line FROM lines;
SELECT moment FROM log;
"""
    answers(queried(loaded, keyed, wrapper), b"".join(sorted({line + b"\n" for line in due.split(b"\n")[:-1]})))
    index = f"{table}CREATE INDEX by_moment ON lines ({call});\nEXPLAIN QUERY PLAN SELECT * FROM lines WHERE {call} > '2021';\n"
    status, said, wrong = queried(loaded, index, wrapper)
    assert status == 0 and b"USING INDEX by_moment" in said, wrong.decode(errors="replace")
    answers(queried(loaded, columns_of(table, call), wrapper), due + b"0|1\n")


@pytest.mark.parametrize("arguments, printed", BAD_CALLS, ids=[" ".join(it[0]) for it in BAD_CALLS])
def test_sqlite_refuses(loaded: Library, arguments: list[str], printed: bytes) -> None:
    status, _, wrong = queried(loaded, f"SELECT instant({quoted(arguments)});")
    assert status != 0 and printed in wrong


@pytest.mark.parametrize("expression, printed", EXPRESSIONS, ids=[it[0] for it in EXPRESSIONS])
def test_sqlite_expression(loaded: Library, expression: str, printed: bytes) -> None:
    answers(queried(loaded, f"SELECT {expression};", VALGRIND), printed)


@pytest.mark.parametrize("encoding", ["UTF-8", "UTF-16le"])
@pytest.mark.parametrize("call", CALLS_OF_ROWS)
def test_sqlite_changing_words(loaded: Library, call: str, encoding: str) -> None:
    """Words that change from row to row, and words that stay, under valgrind."""
    words = re.findall(r"'([^']*)'|(\w+)", call.partition("(")[2])
    due = b""
    for row in CHANGING:
        columns = dict(zip(("target", "kind", "description", "line"), row))
        target, kind, description, line = (constant or columns[column] for constant, column in words)
        due += loaded.answered(line.encode(), [target, "-", GREATEST, kind, description])
    rows = ",\n".join(f"({quoted(it)})" for it in CHANGING)
    table = f"CREATE TABLE given (target TEXT, kind TEXT, description TEXT, line TEXT);\nINSERT INTO given VALUES {rows};\n"
    text = f"PRAGMA encoding = '{encoding}';\n{table}SELECT {call} FROM given ORDER BY rowid;"
    answers(queried(loaded, text, VALGRIND), due)


def test_sqlite_two_places(loaded: Library) -> None:
    """Each has words of its own, under valgrind."""
    places = "instant('+00:00', 'rfc3339', line) || instant_fault('+00:00', 'strftime', '%FT%TZ', line)"
    text = f"WITH given (line) AS (VALUES ('x'), ('2021-01-02T03:04:05Z'), ('y')) SELECT {places} FROM given;"
    due = b"! component yearcomponent year\n2021-01-02T03:04:05.000000000Zinsufficient\n! component yearcomponent year\n"
    answers(queried(loaded, text, VALGRIND), due)


def test_sqlite_words_that_are_refused_at_the_second_row(loaded: Library) -> None:
    status, _, wrong = queried(loaded, "SELECT instant(column1, 'rfc3339', 'x') FROM (VALUES ('+00:00'), ('+25:00'));", VALGRIND)
    assert status == 1 and b"the target offset must be" in wrong


def test_sqlite_example(loaded: Library) -> None:
    due = b"2021-01-02T03:04:06.000000000Z|Sat, 02 Jan 2021 03:04:06 +0000\n2021-01-02T03:04:07.000000000Z|01/Jan/2021:22:04:07 -0500\n"
    due += b"2021-01-02T03:04:05.000000000Z|\n! component year|component year\n"
    answers(ran(["sqlite3", "-batch", "-bail"], (BINDINGS / "sqlite" / "example.sql").read_bytes(), cwd=loaded.room), due)


if __name__ == "__main__":
    sys.exit(pytest.main([__file__, *sys.argv[1:]]))

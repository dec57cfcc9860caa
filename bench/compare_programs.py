#!/usr/bin/env python3
"""Measures the program beside other programs that do the same, and prints two tables.

    bench/compare_programs.py [--tools] [--rounds N] [--lines N] [--no-count] [--program PATH] [--build FOLDER]

The packages of Debian to install: valgrind librust-time-dev librust-chrono-dev rustc cargo gcc, and dateutils for
--tools. Nothing is fetched: the crates are those of the packages, in whatever release they have. The program is the one
that was built last (`./instants` builds it), or PATH. All that this makes lies in a folder `compare_programs` of the
system's temporary folder, or in FOLDER.

The peers (`bench/peers`) are a program over the crate `time`, one over the crate `chrono`, two by hand that read no
ISO 8601, in plain Rust and in C, and one in C by sixteen bytes at a time, for processors with SSE4.2. With --tools, GNU `date` and `dateconv` of the dateutils are run too, on the first
50,000 lines of a file. A cell is `–` for a file that a program does not read, and for figures left out by --no-count.

The files of lines (`bench/lines.py`) are of RFC 3339, of RFC 2822, of ISO 8601, and a mixed one, for which the programs
try RFC 3339, RFC 2822 and `%d/%b/%Y:%H:%M:%S %z` in order. The second table is of logs, which descriptions read: of a
web server (as strftime), PostgreSQL and Python (version 3), a system's log with its year, Unix time in seconds and
milliseconds, and `%c`; there the peers are those that read them. Every program is asked for UTC with nine digits of a
fraction. For each file the table has two figures of a program:

  instructions  a line, as callgrind counts them on the first 20,000 lines, less those of a run on an empty input
  speed         against the crate `time`: the processor time that a line takes there over that which it takes here, in
                the same round, and of these the median over the rounds. In a round the programs read the file one after
                the other; output goes to /dev/null.

Before that the answers to the first 20,000 lines are compared with those of the crate `time`, where all that begin with
`!` are alike. The tools answer a line without a moment each in a way of its own; of theirs the date-times are compared.
Release 0.3.9 of the crate, which Debian 12 has, refuses a byte other than `T` between date and time; 0.3.55 and
`instants` read one, and so 330 of these answers for the mixed file differ. Where a program answers a line as the crate
does once its byte is a `T`, that is counted in a sentence below the table. The status is 1 where an answer of a peer or
of the program differs in another way.
"""

import argparse
import collections
import os
import pathlib
import re
import resource
import shutil
import statistics
import subprocess
import sys
import tempfile
import time
from collections.abc import Sequence
from typing import NamedTuple, NoReturn

import lines

BENCH = pathlib.Path(__file__).resolve().parent
PROGRAM = BENCH.parent / "crates" / "instants_program" / "out" / "instants_program"
FORMATS = {"rfc3339": "RFC 3339", "rfc2822": "RFC 2822", "iso8601": "ISO 8601", "mixed": "mixed"}
LOGS = {
    "log": "web server",
    "postgres": "PostgreSQL",
    "python": "Python",
    "syslog": "system's log",
    "unix": "Unix seconds",
    "unix_ms": "Unix milliseconds",
    "asctime": "`%c`",
}
NAMES = FORMATS | LOGS
COUNTED_LINES = 20_000
TOOL_LINES = 50_000
ENVIRONMENT = dict(os.environ, TZ="UTC0", LC_ALL="C")

# The words for the sources of each file: those of the peers, of the two by hand, of `instants`.
LOG = "%d/%b/%Y:%H:%M:%S %z"
SOURCES = {
    "rfc3339": ["rfc3339"],
    "rfc2822": ["rfc2822"],
    "iso8601": ["iso8601"],
    "mixed": ["rfc3339", "rfc2822", LOG],
    "log": [LOG],
}
SOURCES_BY_HAND = {file: words for file, words in SOURCES.items() if file != "iso8601"}
SOURCES_OF_TIME = {file: [file] for file in LOGS} | SOURCES
SOURCES_OF_INSTANTS = SOURCES | {
    "mixed": ["rfc3339", "rfc2822", "strftime", LOG],
    "log": ["strftime", LOG],
    "postgres": ["v3", "[year]-[month]-[day] [hour]:[minute]:[second].[subsecond] UTC"],
    "python": ["v3", "[year]-[month]-[day] [hour]:[minute]:[second],[subsecond]"],
    "syslog": ["strftime", "%Y %b %e %T"],
    "unix": ["v3", "[unix_timestamp]"],
    "unix_ms": ["v3", "[unix_timestamp precision:millisecond]"],
    "asctime": ["strftime", "%c"],
}
# What has no offset is read as of UTC.
ASSUMED = {file: "+00:00" for file in ("postgres", "python", "syslog", "asctime")}

# What `dateconv` reads. The form with a fraction comes first, as the other one takes such a line too, and drops what is
# after the second. There are none for ISO 8601: forms for all of its dates take some month and day for a day of the
# year, or the other way round.
TOOL_OUTPUT = "%Y-%m-%dT%H:%M:%S.%NZ"
FORMS_OF_RFC3339 = ["%FT%T.%N%Z", "%FT%T%Z"]
FORM_OF_RFC2822 = "%a, %d %b %Y %H:%M:%S %Z"
FORMS = {
    "rfc3339": FORMS_OF_RFC3339,
    "rfc2822": [FORM_OF_RFC2822],
    "mixed": [*FORMS_OF_RFC3339, FORM_OF_RFC2822, "%d/%b/%Y:%H:%M:%S %Z"],
}

# The peers in C, with the flags that they take.
C_PEERS: dict[str, list[str]] = {"c_peer": [], "c_vector_peer": ["-march=x86-64-v2"]}

# The figures of each program by its title, for each file.
Figures = dict[str, dict[str, float]]


class Program(NamedTuple):
    """A program: its row's title, its command for each file that it reads, and whether it is a tool."""

    title: str
    commands: dict[str, list[str]]
    is_tool: bool


def tell(text: str) -> None:
    """Says on standard error how far this is."""
    print(text, file=sys.stderr, flush=True)


def give_up(text: str) -> NoReturn:
    """Ends with a sentence."""
    sys.exit(f"compare_programs.py: {text}")


# What is made


def registry() -> str:
    """Returns the folder in which Debian's packages put crates."""
    listed = subprocess.run(["dpkg", "-L", "librust-time-dev"], capture_output=True, text=True).stdout
    found = re.search(r"^(/.*/registry)/", listed, re.MULTILINE)
    return found[1] if found else give_up("the package librust-time-dev is not installed")


def build_peers(build: pathlib.Path) -> tuple[pathlib.Path, dict[str, str]]:
    """Builds a copy of the peers, and returns the folder of those in Rust and the releases of the crates."""
    copy = build / "peers"
    shutil.rmtree(copy, ignore_errors=True)
    shutil.copytree(BENCH / "peers", copy)
    config = f'[source.crates-io]\nreplace-with = "debian"\n[source.debian]\ndirectory = "{registry()}"\n'
    (copy / ".cargo").mkdir()
    (copy / ".cargo" / "config.toml").write_text(config)
    environment = dict(os.environ, CARGO_TARGET_DIR=str(build / "target"))
    subprocess.run(["cargo", "build", "--release", "--quiet", "--offline"], cwd=copy, env=environment, check=True)
    for name, flags in C_PEERS.items():
        subprocess.run(["gcc", "-O3", *flags, "-o", build / name, copy / name / "main.c"], check=True)
    locked = (copy / "Cargo.lock").read_text()
    return build / "target" / "release", dict(re.findall(r'^name = "(.*)"\nversion = "(.*)"$', locked, re.MULTILINE))


def make_lines(build: pathlib.Path, count: int) -> pathlib.Path:
    """Makes the files of lines where there are none, or older ones than what makes them, and returns their folder."""
    folder = build / f"lines_{count}"
    made = folder / "made"
    if not made.exists() or made.stat().st_mtime < (BENCH / "lines.py").stat().st_mtime:
        tell(f"making files of {count:,} lines")
        lines.write(folder, count)
        for file in NAMES:
            for part in (COUNTED_LINES, TOOL_LINES):
                with open(folder / f"{file}.txt", "rb") as whole, open(folder / f"{file}_{part}.txt", "wb") as front:
                    front.writelines(line for _, line in zip(range(part), whole))
        made.touch()
    return folder


def peer(title: str, path: str | pathlib.Path, sources: dict[str, list[str]]) -> Program:
    """Returns a program that takes the words of `instants`."""
    commands = {file: [str(path), "+00:00", ASSUMED.get(file, "-"), "100", *words] for file, words in sources.items()}
    return Program(title, commands, False)


def tools() -> list[Program]:
    """Returns the tools of the command line."""
    converter = shutil.which("dateutils.dconv") or give_up("the package dateutils is not installed")
    date = ["date", "-f", "-", f"+{TOOL_OUTPUT}"]
    convert = [converter, "-q", "-f", TOOL_OUTPUT]
    converts = {file: convert + [word for form in forms for word in ("-i", form)] for file, forms in FORMS.items()}
    return [
        Program("GNU `date -f -`", {"rfc3339": date, "rfc2822": date}, True),
        Program("`dateconv`", converts, True),
    ]


def programs(arguments: argparse.Namespace) -> list[Program]:
    """Builds the peers, and returns all programs, that over the crate `time` first."""
    rust, releases = build_peers(arguments.build)
    calls = "`parse`, `to_offset`, `format_into`"
    return [
        peer(f"the crate `time` {releases['time']}, {calls}", rust / "time_peer", SOURCES_OF_TIME),
        peer(f"the crate `chrono` {releases['chrono']}", rust / "chrono_peer", SOURCES),
        peer("plain Rust by hand", rust / "plain_peer", SOURCES_BY_HAND),
        peer("C by hand, eight bytes at a time", arguments.build / "c_peer", SOURCES_BY_HAND),
        peer("C by hand, sixteen bytes at a time", arguments.build / "c_vector_peer", SOURCES),
        peer("`instants`", arguments.program, SOURCES_OF_INSTANTS),
    ] + (tools() if arguments.tools else [])


# What is compared


def answers(command: list[str], text: bytes, checked: bool = True) -> list[bytes]:
    """Returns the answers to a text, one beginning with `!` as that alone."""
    run = subprocess.run(command, input=text, capture_output=True, env=ENVIRONMENT, check=checked)
    return [b"!" if answer.startswith(b"!") else answer for answer in run.stdout.splitlines()]


def compare_tool(title: str, got: list[bytes], wanted: list[bytes]) -> list[str]:
    """Returns a sentence on a tool's date-times where they are not those that are wanted, in order."""
    due = [answer for answer in wanted if answer != b"!"]
    if got == due:
        return []
    missing = (collections.Counter(due) - collections.Counter(got)).total()
    others = (collections.Counter(got) - collections.Counter(due)).total()
    return [f"{title}: {missing} of {len(due):,} date-times are missing, and {others} others stand there."]


def compare_peer(title: str, got: list[bytes], wanted: list[bytes], asked: list[bytes], first: list[str]) -> tuple[list[str], bool]:
    """Returns sentences on the answers that differ from those of the first program, and whether some may not."""
    if len(got) != len(wanted):
        return [f"{title}: {len(got):,} ANSWERS TO {len(wanted):,} LINES."], True
    places = [at for at in range(len(got)) if got[at] != wanted[at]]
    mended = answers(first, b"".join(asked[at][:10] + b"T" + asked[at][11:] + b"\n" for at in places))
    known = [at for at, answer in zip(places, mended) if wanted[at] == b"!" and got[at] == answer]
    others = [at for at in places if at not in known]
    reasons = [(known, "differ for a byte other than `T` between date and time"), (others, "DIFFER IN ANOTHER WAY")]
    said = [
        f"{title}: {len(found)} of the first {len(wanted):,} answers {reason}, at first that to line {found[0] + 1}, "
        f"`{asked[found[0]].decode()}`."
        for found, reason in reasons
        if found
    ]
    return said, bool(others)


def compare(all_programs: list[Program], folder: pathlib.Path) -> tuple[list[str], bool]:
    """Compares all answers, and returns sentences on those that differ, and whether some may not."""
    said, bad = [], False
    for file, name in NAMES.items():
        text = (folder / f"{file}_{COUNTED_LINES}.txt").read_bytes()
        first = all_programs[0].commands[file]
        wanted = answers(first, text)
        for program in readers(all_programs[1:], file):
            title = f"{program.title}, {name}"
            got = answers(program.commands[file], text, not program.is_tool)
            if program.is_tool:
                said += compare_tool(title, got, wanted)
            else:
                more, wrong = compare_peer(title, got, wanted, text.splitlines(), first)
                said, bad = said + more, bad or wrong
    return said, bad


# What is measured


def readers(all_programs: list[Program], file: str) -> list[Program]:
    """Returns the programs that read a file."""
    return [program for program in all_programs if file in program.commands]


def seconds_a_line(program: Program, file: str, folder: pathlib.Path, count: int) -> float:
    """Returns the processor time of a run, the user's and the system's, for each of so many lines."""
    path = folder / f"{file}.txt"
    if program.is_tool:
        path, count = folder / f"{file}_{TOOL_LINES}.txt", min(TOOL_LINES, count)
    with open(path, "rb") as read:
        before = resource.getrusage(resource.RUSAGE_CHILDREN)
        subprocess.run(program.commands[file], stdin=read, stdout=subprocess.DEVNULL, stderr=subprocess.DEVNULL,
                       env=ENVIRONMENT, check=not program.is_tool)
        after = resource.getrusage(resource.RUSAGE_CHILDREN)
    return (after.ru_utime - before.ru_utime + after.ru_stime - before.ru_stime) / count


def measure(all_programs: list[Program], file: str, folder: pathlib.Path, arguments: argparse.Namespace) -> tuple[dict[str, float], list[float]]:
    """Returns each reader's speed against the first, by its title, and the loads of the machine."""
    ratios, loads = collections.defaultdict(list), []
    for at in range(arguments.rounds):
        tell(f"{NAMES[file]}: round {at + 1}")
        loads.append(os.getloadavg()[0])
        taken = {
            program.title: seconds_a_line(program, file, folder, arguments.lines)
            for program in readers(all_programs, file)
        }
        for title, seconds in taken.items():
            ratios[title].append(taken[all_programs[0].title] / max(seconds, 1e-12))
    return {title: statistics.median(found) for title, found in ratios.items()}, loads


def instructions(command: Sequence[str | pathlib.Path], path: str | pathlib.Path) -> int:
    """Returns how many instructions a run takes."""
    with open(path, "rb") as read, tempfile.TemporaryDirectory() as place:
        counted = ["valgrind", "--tool=callgrind", f"--callgrind-out-file={place}/counts", *command]
        run = subprocess.run(counted, stdin=read, stdout=subprocess.DEVNULL, stderr=subprocess.PIPE, env=ENVIRONMENT)
    found = re.search(rb"Collected : (\d+)", run.stderr)
    return int(found[1]) if found else give_up(run.stderr.decode(errors="replace"))


def count(all_programs: list[Program], file: str, folder: pathlib.Path, lines_counted: int) -> dict[str, float]:
    """Returns each reader's instructions a line, by its title."""
    found = {}
    for program in readers(all_programs, file):
        tell(f"{NAMES[file]}: instructions of {program.title}")
        command = program.commands[file]
        whole = instructions(command, folder / f"{file}_{COUNTED_LINES}.txt")
        found[program.title] = (whole - instructions(command, os.devnull)) / lines_counted
    return found


# What is printed


def machine() -> str:
    """Returns the processor's name, how many there are, and the release of the Rust compiler."""
    found = re.search(r"^model name\s*: (.*)$", pathlib.Path("/proc/cpuinfo").read_text(), re.MULTILINE)
    rust = subprocess.run(["rustc", "--version"], capture_output=True, text=True, check=True).stdout.split()[1]
    return f"{found[1] if found else 'unknown processor'}, {os.cpu_count()} processors, rustc {rust}"


def cells(title: str, counted: dict[str, float], measured: dict[str, float]) -> list[str]:
    """Returns the two cells of a program and a file; a speed below one has two digits after the point."""
    speed = measured.get(title)
    digits = 1 if speed is None or round(speed, 1) >= 1 else 2
    return [
        f"{counted[title]:.0f}" if title in counted else "–",
        f"{speed:.{digits}f}" if speed is not None else "–",
    ]


def print_table(names: dict[str, str], all_programs: list[Program], counted: Figures, measured: Figures) -> None:
    """Prints a table of the files with these names."""
    print("| program | " + " | ".join(f"{name}, instructions | speed" for name in names.values()) + " |")
    print("|---" * (1 + 2 * len(names)) + "|")
    for program in all_programs:
        row = [cell for file in names for cell in cells(program.title, counted[file], measured[file])]
        if any(it != "–" for it in row):
            print(f"| {program.title} | " + " | ".join(row) + " |")


def words() -> argparse.Namespace:
    """Returns the words of the command line."""
    parser = argparse.ArgumentParser(description="Measures the program beside others, and prints two tables.")
    folder = pathlib.Path(tempfile.gettempdir()) / "compare_programs"
    parser.add_argument("--tools", action="store_true", help="measure GNU date and dateconv too")
    parser.add_argument("--rounds", type=int, default=9, help="how often each program reads each file (9)")
    parser.add_argument("--lines", type=int, default=1_000_000, help="the lines of a file (1000000)")
    parser.add_argument("--no-count", action="store_true", help="count no instructions")
    parser.add_argument("--program", type=pathlib.Path, default=PROGRAM, help="the program to measure")
    parser.add_argument("--build", type=pathlib.Path, default=folder, help="the folder of what is built and made")
    return parser.parse_args()


def main() -> int:
    arguments = words()
    arguments.program, arguments.build = arguments.program.resolve(), arguments.build.resolve()
    if not arguments.program.exists():
        give_up(f"there is no program {arguments.program}; ./instants builds it")
    arguments.build.mkdir(parents=True, exist_ok=True)
    all_programs = programs(arguments)
    folder = make_lines(arguments.build, arguments.lines)
    said, bad = compare(all_programs, folder)
    date, loads, measured, counted = time.strftime("%Y-%m-%d %H:%M UTC", time.gmtime()), [], {}, {}
    for file in NAMES:
        measured[file], seen = measure(all_programs, file, folder, arguments)
        loads += seen
    for file in NAMES:
        lines_counted = min(COUNTED_LINES, arguments.lines)
        counted[file] = {} if arguments.no_count else count(all_programs, file, folder, lines_counted)
    print(f"{date}, {machine()}, load {min(loads):.1f} to {max(loads):.1f}, ", end="")
    print(f"{arguments.rounds} rounds, {arguments.lines:,} lines\n")
    for names in (FORMATS, LOGS):
        print_table(names, all_programs, counted, measured)
        print()
    print("".join(f"{sentence}\n\n" for sentence in said), end="")
    return 1 if bad else 0


if __name__ == "__main__":
    sys.exit(main())

#!/usr/bin/env pytest
"""Tries ./instants-merge over the built program `instants-lines`: the pitfalls of merging logs, one by one, and six long logs.

    tools/try_merge.py [--instants-lines PROGRAM] [--lines N] [-k WORD]

The six logs have 1,200,000 lines (--lines) of which each instant is known: an access log, a syslog without a year, Docker's JSON,
PostgreSQL's log, Spring's with traces, and Python's. Each line has to be written once, traces with their errors, all in the order of
their instants, and in at most one and a half times the time of `carry` for each file side by side and one `sort`, in the same run.
"""

import bz2
import datetime
import gzip
import lzma
import os
import pathlib
import random
import re
import shutil
import signal
import socket
import subprocess
import sys
import time
from collections.abc import Callable, Iterator
from typing import NamedTuple

sys.dont_write_bytecode = True

import pytest
from program import ROOT

WORKER = b"2024-05-01T08:00:00Z no such order\n  at line 7\n2024-05-01T08:00:02Z done\n"
WEB = b"[01/May/2024:10:00:01 +0200] GET /b 500\n[01/May/2024:09:59:59 +0200] GET /a 200\n"
PATIENCE, RATIO = 20, 1.5


class Merge(NamedTuple):
    """The program in a folder of its own, and the folder that its calls are made in."""

    file: pathlib.Path
    room: pathlib.Path

    def start(self, *words: str, **how: object) -> "subprocess.Popen[bytes]":
        how = {"cwd": self.room, "stdin": subprocess.DEVNULL, "stdout": subprocess.PIPE, "stderr": subprocess.PIPE, **how}
        return subprocess.Popen([self.file, *words], **how)  # type: ignore[call-overload, no-any-return]

    def call(self, *words: str, given: bytes | None = None, **how: object) -> tuple[int, bytes, str]:
        """Returns the status of a call, what it writes, and what it says, without the program's name."""
        ran = self.start(*words, **({} if given is None else {"stdin": subprocess.PIPE}), **how)
        written, said = ran.communicate(given)
        return ran.returncode, written, said.decode().replace("instants-merge: ", "")

    def write(self, name: str, text: bytes) -> str:
        (self.room / name).write_bytes(text)
        return name


@pytest.fixture
def merge(instants_lines: pathlib.Path, tmp_path: pathlib.Path) -> Iterator[Merge]:
    top, room = tmp_path / "top", tmp_path / "room"
    room.mkdir()
    (top / "tools").mkdir(parents=True)
    shutil.copy(ROOT / "instants-merge", top)
    shutil.copy(ROOT / "tools" / "follow_logs.py", top / "tools")
    (top / "instants-lines").symlink_to(instants_lines)
    (tmp_path / "tmp").mkdir()
    os.environ["TMPDIR"] = str(tmp_path / "tmp")
    yield Merge(top / "instants-merge", room)
    assert not list((tmp_path / "tmp").iterdir()), "it left what it kept"


def keyed(*lines: str) -> bytes:
    """Lines of a written timeline, without the part of the key that is the same in all: the minute and second first."""
    return b"".join(f"2024-05-01T{line[:5]}:{line[5:7]}.000000000Z\t{line[8:]}\n".encode() for line in lines)


def test_two_logs(merge: Merge) -> None:
    names = merge.write("web", WEB), merge.write("worker", WORKER)
    status, written, said = merge.call("-f", "strftime '%d/%b/%Y:%H:%M:%S %z'", "web", "-f", "guess", "worker")
    assert (status, names) == (0, ("web", "worker"))
    assert written == keyed(
        "07:5959 web\t[01/May/2024:09:59:59 +0200] GET /a 200",
        "08:0000 worker\t2024-05-01T08:00:00Z no such order",
        "08:0000 worker\t  at line 7",
        "08:0001 web\t[01/May/2024:10:00:01 +0200] GET /b 500",
        "08:0002 worker\t2024-05-01T08:00:02Z done",
    )
    assert said.splitlines() == [
        "worker: rfc3339, by guess; first date 2024-05-01T08:00:00.000000000Z",
        "web: 2 dated, 0 none, 0 doubt, 0 year, 2024-05-01T07:59:59.000000000Z to 2024-05-01T08:00:01.000000000Z",
        "worker: 3 dated, 0 none, 0 doubt, 0 year, 2024-05-01T08:00:00.000000000Z to 2024-05-01T08:00:02.000000000Z",
    ]


@pytest.mark.parametrize("name", ["a=b", "a,b", "a b.log", "-x", "é", "'", '"$(x)"'])
def test_names(merge: Merge, name: str) -> None:
    merge.write(name, WORKER)
    label = name.encode()
    assert merge.call("-f", "rfc3339", "--", name)[1].splitlines()[0] == b"2024-05-01T08:00:00.000000000Z\t" + label + b"\t2024-05-01T08:00:00Z no such order"


@pytest.mark.parametrize(
    "words, text, sentence",
    [
        (["log"], b"2024-05-01 10:00:00 up\n", "log: its dates have no offset; say -a +HH:MM before it\n"),
        (["-a", "+02:00", "log"], b"May  1 10:00:00 host cron[1]: run\n", "log: its dates have no year; say -y YYYY, that of its first line, before it\n"),
        (["log"], b"up\n", "log: no format is found, say one by -f before it: no known format dates any of 1 lines\n"),
        (["log"], b"", "log: no format is found, say one by -f before it: no known format dates any of 0 lines\n"),
        (["-a", "Z", "log"], b"01/02/2024 10:00:00 up\n", "log: day and month are not sure; say -f dmy before it, or another format\n"),
        (["-f", "strftime '%F", "log"], b"", "-f strftime '%F: a quotation mark is left open\n"),
        (["-f", "mysql", "log"], b"", "log: source 1 names no moment: it has no offset; say -a +HH:MM before it\n"),
        (["-a", "Z", "-f", "syslog", "log"], b"", "log: source 1 names no moment: it has no year; say -y YYYY before it\n"),
        (["-f"], b"", "-f needs a word after it\n"),
        (["--sinse", "x", "log"], b"", "--sinse: there is no such option; see instants-merge --help\n"),
        ([], b"", "no FILE is named; see instants-merge --help\n"),
        (["--since", "soon", "-f", "rfc3339", "log"], WORKER, "soon: no source reads a moment here, as 2024-05-01T08:00:00Z\n"),
    ],
)
def test_refused(merge: Merge, words: list[str], text: bytes, sentence: str) -> None:
    merge.write("log", text)
    status, written, said = merge.call(*words)
    assert (status, written) == (2, b"") and sentence in said and "hint" not in said


@pytest.mark.parametrize("words, sentence", [(["none"], "none: there is no such file"), (["."], ".: it is a folder")])
def test_no_file(merge: Merge, words: list[str], sentence: str) -> None:
    assert merge.call(*words) == (1, b"", sentence + "\n")


@pytest.mark.parametrize("pack", [gzip.compress, bz2.compress, lzma.compress])
def test_packed(merge: Merge, pack: Callable[[bytes], bytes]) -> None:
    plain = merge.call("-l", "w", merge.write("plain", WORKER))[1]
    assert merge.call("-l", "w", merge.write("packed", pack(WORKER)))[1] == plain != b""


def test_packed_by_zstd(merge: Merge) -> None:
    plain = merge.call("-l", "w", merge.write("plain", WORKER))[1]
    subprocess.run(["zstd", "-q", "plain", "-o", "packed"], cwd=merge.room, check=True)
    assert merge.call("-l", "w", "packed")[1] == plain


def test_a_cut_file(merge: Merge) -> None:
    merge.write("cut", gzip.compress(random.Random(1).randbytes(300_000).hex().encode())[:-40_000])
    status, written, said = merge.call("-f", "rfc3339", "cut", merge.write("worker", WORKER))
    assert (status, written) == (1, b"") and "cut: it was not read to its end" in said


def test_no_unpacker(merge: Merge) -> None:
    merge.write("packed", gzip.compress(WORKER))
    tools = merge.room / "bin"
    tools.mkdir()
    for tool in "sh dirname readlink mktemp head od tr rm cat wc".split():
        (tools / tool).symlink_to(shutil.which(tool) or tool)
    status, written, said = merge.call("packed", env={**os.environ, "PATH": str(tools)})
    assert (status, written, said) == (1, b"", "packed: it is packed by gzip, which is not installed\n")


def test_rotated_files(merge: Merge) -> None:
    merge.write("app.log.2.gz", gzip.compress(b"2024-05-01T08:00:00Z failed\n"))
    merge.write("app.log.1", b"  at a\n2024-05-01T08:00:03Z up\n")
    merge.write("app.log", b"  at b\n")
    merge.write("web", b"2024-05-01T08:00:01Z GET\n")
    _, written, _ = merge.call("-f", "rfc3339", "-j", "app.log.2.gz", "app.log.1", "app.log", "-l", "-", "web")
    assert written == keyed(
        "08:0000 app.log\t2024-05-01T08:00:00Z failed",
        "08:0000 app.log\t  at a",
        "08:0001 web\t2024-05-01T08:00:01Z GET",
        "08:0003 app.log\t2024-05-01T08:00:03Z up",
        "08:0003 app.log\t  at b",
    )


@pytest.mark.parametrize("pack", [bytes, gzip.compress])
def test_a_file_whose_last_line_has_no_end(merge: Merge, pack: Callable[[bytes], bytes]) -> None:
    merge.write("app.log.1", pack(b"2024-05-01T08:00:00Z a\n\n  at a"))
    merge.write("app.log", b"2024-05-01T08:00:01Z b")
    _, written, _ = merge.call("-f", "rfc3339", "-l", "x", "-j", "app.log.1", "app.log")
    assert written == keyed("08:0000 x\t2024-05-01T08:00:00Z a", "08:0000 x\t", "08:0000 x\t  at a", "08:0001 x\t2024-05-01T08:00:01Z b")


def test_equal_instants(merge: Merge) -> None:
    for name in "cab":
        merge.write(name, b"2024-05-01T08:00:00Z one\n  two\n")
    _, written, _ = merge.call("-f", "rfc3339", "c", "a", "b")
    assert written == keyed(*(f"08:0000 {name}\t{line}" for name in "cab" for line in ("2024-05-01T08:00:00Z one", "  two")))


def test_lines_without_a_date(merge: Merge) -> None:
    merge.write("log", b"begins\n2024-05-01T08:00:00Z up\n2024-05-01T08:00:00Zx\n")
    status, written, said = merge.call("-f", "rfc3339", "log")
    assert written == b"! doubt\tlog\t2024-05-01T08:00:00Zx\n! none\tlog\tbegins\n" + keyed("08:0000 log\t2024-05-01T08:00:00Z up")
    assert "log: 1 dated, 1 none, 1 doubt, 0 year" in said and status == 0
    assert merge.call("--strict", "-f", "rfc3339", "log")[:2] == (3, written)
    assert merge.call("--strict", "-f", "rfc3339", merge.write("worker", WORKER))[0] == 0


@pytest.mark.parametrize(
    "words, count",
    [
        (["--since", "2024-05-01T08:00:01Z"], 2),
        (["--until", "2024-05-01T10:00:02+02:00"], 3),
        (["--since", "2024-05-01", "--until", "2024-05-02"], 4),
        (["--since", "2024-05-01 08:01"], 1),
        (["--since", "[01/May/2024:10:00:02 +0200]", "-f", "rfc3339 access-log"], 2),
    ],
)
def test_window(merge: Merge, words: list[str], count: int) -> None:
    merge.write("log", b"begins\n" + WORKER)
    assert len(merge.call("-f", "rfc3339", *words, "log")[1].splitlines()) == count


def test_standard_input(merge: Merge) -> None:
    assert merge.call("-l", "w", "-", given=WORKER)[1] == merge.call("-l", "w", merge.write("log", WORKER))[1]
    assert merge.call("-l", "w", "-", given=gzip.compress(WORKER))[1] == merge.call("-l", "w", "log")[1]
    # (a socket, which can't be opened again by its name)
    ours, theirs = socket.socketpair()
    with ours, theirs:
        ours.sendall(WORKER)
        ours.shutdown(socket.SHUT_WR)
        assert merge.call("-l", "w", "-", stdin=theirs)[1] == merge.call("-l", "w", "log")[1]


def test_a_named_pipe(merge: Merge) -> None:
    os.mkfifo(merge.room / "pipe")
    ran = merge.start("-l", "w", "pipe")
    (merge.room / "pipe").write_bytes(WORKER)
    assert ran.communicate()[0] == merge.call("-l", "w", merge.write("log", WORKER))[1]


def test_a_full_output(merge: Merge) -> None:
    with open("/dev/full", "wb") as full:
        status, _, said = merge.call("-f", "rfc3339", merge.write("log", WORKER * 9999), stdout=full)
    assert status == 1 and said.endswith("sort failed\n")


def test_a_closed_pipe(merge: Merge) -> None:
    ran = merge.start("-f", "rfc3339", merge.write("log", WORKER * 99_999))
    assert ran.stdout and ran.stdout.readline() == b"2024-05-01T08:00:00.000000000Z\tlog\t2024-05-01T08:00:00Z no such order\n"
    ran.stdout.close()
    assert ran.wait() == 1


def small_disk(folder: pathlib.Path) -> bool:
    """Whether a file system of 64 KiB lies in a folder now."""
    return subprocess.run(["mount", "-t", "tmpfs", "-o", "size=64k", "tmpfs", folder], stderr=subprocess.DEVNULL).returncode == 0


def test_a_full_disk(merge: Merge) -> None:
    small = merge.room / "small"
    small.mkdir()
    if not small_disk(small):
        pytest.skip("no file system can be made here")
    try:
        status, written, said = merge.call("-f", "rfc3339", merge.write("log", WORKER * 9999), env={**os.environ, "TMPDIR": str(small)})
    finally:
        subprocess.run(["umount", small], check=True)
    assert (status, written) == (1, b"") and said.startswith("log: it was not read to its end\nno room is left in ")


def test_killed(merge: Merge) -> None:
    for which in (signal.SIGTERM, signal.SIGHUP):
        os.mkfifo(merge.room / f"pipe{which}")
        ran = merge.start("-f", "rfc3339", f"pipe{which}")
        with open(merge.room / f"pipe{which}", "wb") as pipe:
            pipe.write(WORKER)
            pipe.flush()
            ran.send_signal(which)
        written, said = ran.communicate(timeout=PATIENCE)
        assert (ran.returncode, written) == (1, b"") and said == b"instants-merge: ended by a signal\n"


def followed(merge: Merge, *words: str) -> "subprocess.Popen[bytes]":
    return merge.start("--follow=0.5", "-f", "rfc3339", *words)


def line_in_time(ran: "subprocess.Popen[bytes]") -> bytes:
    """Returns the next line that is written, or fails where none comes in time."""
    signal.alarm(PATIENCE)
    assert ran.stdout
    line = ran.stdout.readline()
    signal.alarm(0)
    return line


def test_followed(merge: Merge) -> None:
    merge.write("a", b"2024-05-01T08:00:00Z a0\n  at a\n")
    merge.write("b", b"2024-05-01T07:59:00Z b0\n")
    ran = followed(merge, "a", "b")
    first = [line_in_time(ran).split(b"\t", 1)[1] for _ in range(3)]
    assert first == [b"b\t2024-05-01T07:59:00Z b0\n", b"a\t2024-05-01T08:00:00Z a0\n", b"a\t  at a\n"]
    with open(merge.room / "a", "ab") as log:
        log.write(b"2024-05-01T08:00:01Z a1\n")
    assert line_in_time(ran) == keyed("08:0001 a\t2024-05-01T08:00:01Z a1")
    (merge.room / "b").rename(merge.room / "b.1")
    merge.write("b", b"2024-05-01T08:00:02Z b2\n")
    assert line_in_time(ran) == keyed("08:0002 b\t2024-05-01T08:00:02Z b2")
    ran.terminate()
    written, said = ran.communicate(timeout=PATIENCE)
    assert (ran.returncode, written) == (1, b"") and said == b"instants-merge: ended by a signal\n"


def test_followed_in_a_window(merge: Merge) -> None:
    merge.write("a", b"begins\n2024-05-01T08:00:00Z a0\n2024-05-01T08:00:01Z a1\n2024-05-01T08:00:02Z a2\n")
    ran = followed(merge, "--since", "2024-05-01T08:00:01Z", "--until", "2024-05-01T08:00:02Z", "a")
    assert [line_in_time(ran) for _ in range(2)] == [b"! none\ta\tbegins\n", keyed("08:0001 a\t2024-05-01T08:00:01Z a1")]
    ran.terminate()
    assert ran.communicate(timeout=PATIENCE)[0] == b""


def test_only_plain_files_are_followed(merge: Merge) -> None:
    merge.write("packed", gzip.compress(WORKER))
    for name in ("packed", "-"):
        status, written, said = merge.call("--follow", "-f", "rfc3339", name, given=WORKER)
        assert (status, written) == (2, b"") and said == f"{name}: only a plain file can be followed\n"


def test_help(merge: Merge) -> None:
    assert merge.call("--version") == (0, b"instants-merge 0.1.0\n", "")
    status, text, said = merge.call("--help")
    assert (status, said) == (0, "") and text.startswith(b"instants-merge [OPTIONS] FILE..\n")


# ---- six long logs

START = datetime.datetime(2024, 5, 1, 6)
TRACE = "com.example.Failed: no such order\n\tat com.example.Orders.find(Orders.java:17)\n\tat com.example.Main.main(Main.java:3)\nCaused by: java.io.IOException\n\t... 2 more"
# A log's name, the options before it, its offset in minutes, the form of its dates, digits of a second, and its lines.
LOGS = (
    ("access.log", "-a - -y -", 120, "%d/%b/%Y:%H:%M:%S +0200", 0, '192.0.2.1 - - [{}] "GET /orders/{} HTTP/1.1" 200 512'),
    ("syslog", "-a +02:00 -y 2024", 120, "%b %d %H:%M:%S", 0, "{} host cron[{}]: run"),
    ("docker.json", "-a - -y -", 0, "%Y-%m-%dT%H:%M:%S", 9, '{{"log":"took {1} of 17\\n","stream":"stdout","time":"{0}Z"}}'),
    ("postgresql.log", "-a Z", 0, "%Y-%m-%d %H:%M:%S", 3, "{} UTC [{}] LOG:  duration: 3.217 ms"),
    ("spring.log", "-a +01:00", 60, "%Y-%m-%d %H:%M:%S", 3, "{}  INFO {} --- [           main] c.example.Main : started"),
    ("python.log", "-a +02:00", 120, "%Y-%m-%d %H:%M:%S", -3, "{} INFO order {} until 17:00"),
)


def timeline(rng: random.Random, log: tuple[str, str, int, str, int, str], count: int) -> Iterator[tuple[str, str]]:
    """Gives each line of a log, and its key."""
    name, _, offset, form, digits, line = log
    at, key = START, ""
    for number in range(count):
        if name == "spring.log" and number % 10 < 5 and number >= 10:
            yield key, TRACE.split("\n")[number % 10]
            continue
        at += datetime.timedelta(milliseconds=rng.randint(0, 300))
        second = (at + datetime.timedelta(minutes=offset)).replace(microsecond=0)
        written = f"{second:{form}}".replace(" 0", "  ", 1) if name == "syslog" else f"{second:{form}}"
        fraction = f"{at.microsecond * 1000:09}"[: abs(digits)]
        mark = "," if digits < 0 else "."
        key = f"{at:%Y-%m-%dT%H:%M:%S}.{fraction:0<9}Z"
        yield key, line.format(f"{written}{mark}{fraction}" if digits else written, number)


def seconds_of(merge: Merge, words: list[str]) -> tuple[float, bytes]:
    began = time.monotonic()
    ran = subprocess.run(words, cwd=merge.room, stdout=subprocess.PIPE, stderr=subprocess.DEVNULL, check=True)
    return time.monotonic() - began, ran.stdout


def test_six_logs(merge: Merge, pytestconfig: pytest.Config) -> None:
    count = (pytestconfig.getoption("--lines") or 1_200_000) // len(LOGS)
    lines: list[str] = []
    words: list[str] = []
    for number, log in enumerate(LOGS):
        timed = list(timeline(random.Random(number), log, count))
        merge.write(log[0], "".join(f"{line}\n" for _, line in timed).encode())
        lines += [f"{key}\t{log[0]}\t{line}\n" for key, line in timed]
        words += [*log[1].split(), log[0]]
    wanted = "".join(sorted(lines, key=lambda it: it.partition("\t")[0])).encode()
    status, written, said = merge.call(*words)
    assert (status, written == wanted) == (0, True), said
    formats = dict(re.findall(r"^(\S+): (\S+), by guess", said, re.M))
    carries = []
    for number, (name, options, *_) in enumerate(LOGS):
        given = re.sub(r"-a (\S+)(?: -y -)?", r"\1", options).replace("-y", "year")
        carries.append(f"{merge.file.parent}/instants-lines carry +00:00 {given} label {name} {formats[name]} < {name} > {number}.timed &")
    plain = "\n".join([*carries, "wait", "LC_ALL=C sort -s -t '\t' -k1,1 -S 25% -- ?.timed"])
    times = [(seconds_of(merge, [str(merge.file), *words]), seconds_of(merge, ["sh", "-c", plain])) for _ in range(3)]
    assert all(one[1] == wanted == other[1] for one, other in times)
    ratio = min(one[0] for one, _ in times) / min(other[0] for _, other in times)
    print(f"\n{len(lines):,} lines: {min(one[0] for one, _ in times):.1f} s, {ratio:.2f} times as long as carry and sort")
    assert ratio <= RATIO


if __name__ == "__main__":
    sys.exit(pytest.main([__file__, *sys.argv[1:]]))

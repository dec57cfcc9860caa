#!/usr/bin/env pytest
"""Tries the functions for PostgreSQL in a server of their own, against the programs.

    tools/try_postgres.py [--lines N] [--write] [-k WORD]

The packages of Debian: binutils gcc make postgresql-15 postgresql-server-dev-15. The programs and the library are those that
were built last (tools/build_program.py, tools/build_library.py).

The extension `bindings/postgres` is built, and installed below a folder; a server is started there, which listens to nobody
else, as an ordinary user: the caller, or where that is root the user `postgres`. Then

- the regression test of the extension passes (`make installcheck`): answers, refusals, words that change from row to row, an
  index that is used, a generated column, a condition, a query by several processes; the extension's older version and the way
  from it; moments as `timestamptz`, at both ends, in a generated column and in indexes;
- the answers to mixed lines are those of the program, byte by byte, and so is their order by an index, and so are their moments,
  cut to microseconds;
- the example of docs/LIBRARIES.md runs, and prints what the page says;
- a log is read by `COPY .. FROM PROGRAM 'instants-lines ..'`: by a superuser and by who has the role for it, and by nobody else.

At the end the server is stopped and the folder removed. With --write what the regression test prints becomes what is expected
of it.
"""

import contextlib
import os
import pathlib
import pwd
import re
import shutil
import subprocess
import sys
from collections.abc import Iterator, Mapping
from typing import Any

sys.dont_write_bytecode = True

import build_library
import pytest
from program import ROOT, Command
from try_bindings import INCLUDE, SOURCES, answers, mixed_lines

EXTENSION = ROOT / "bindings" / "postgres"
PAGE = ROOT / "docs" / "LIBRARIES.md"
PG_CONFIG = "/usr/lib/postgresql/15/bin/pg_config"
BIN = pathlib.Path(PG_CONFIG).parent
# What a log has, as bytes: quotes, tabs, backslashes and a carriage return pass through COPY.
LOG = b'2024-05-01T10:00:01+02:00 "GET /b"\ttab \\N \\.\r\n2024-05-01T07:59:59Z first\nno date\n'
ARRAY = "ARRAY[" + ", ".join(f"'{it}'" for it in SOURCES) + "]"
ESCAPES = r"sed 's/\\/\\\\/g; s/\r/\\r/g; s/\t/\\t/2g'"


class Server:
    """A server in a folder, and the user whose it is."""

    def __init__(self, room: pathlib.Path) -> None:
        self.room, self.data, self.installed = room, room / "data", room / "installed"
        self.user = "postgres" if os.geteuid() == 0 else pwd.getpwuid(os.geteuid()).pw_name
        places = {it: text for it, text in os.environ.items() if not it.startswith("PG")}
        self.places = {**places, "PGHOST": str(room), "PGDATABASE": "postgres", "PGUSER": self.user, "LC_ALL": "C"}

    def run(self, command: Command, given: bytes = b"", **places: str) -> tuple[int, bytes]:
        """Runs a command as the server's user, and returns its status and what it prints."""
        how: dict[str, Any] = {"user": self.user, "group": pwd.getpwnam(self.user).pw_gid, "extra_groups": []} if os.geteuid() == 0 else {}
        how |= {"cwd": self.room, "env": {**self.places, **places}}
        done = subprocess.run(command, input=given, stdout=subprocess.PIPE, stderr=subprocess.STDOUT, check=False, **how)
        return done.returncode, done.stdout

    def do(self, command: Command) -> None:
        """Runs a command, which has to end well."""
        status, said = self.run(command)
        assert status == 0, said.decode(errors="replace")

    def tells(self, text: str, wanted: bytes) -> None:
        """Runs a script of SQL, which has to give the rows that are wanted."""
        status, said = self.asked(text)
        answers((status, said, said), wanted)

    def asked(self, text: str, **places: str) -> tuple[int, bytes]:
        """Returns the status and the rows of a script of SQL."""
        return self.run([BIN / "psql", "-X", "-q", "-A", "-t", "-v", "ON_ERROR_STOP=1"], text.encode(), **places)

    @contextlib.contextmanager
    def started(self) -> Iterator[None]:
        """Runs the server meanwhile."""
        settings = {"unix_socket_directories": self.room, "extension_destdir": self.installed, "fsync": "off", "autovacuum": "off"}
        given = "-c listen_addresses= " + " ".join(f"-c {name}={it}" for name, it in settings.items())
        self.do([BIN / "initdb", "-D", self.data, "-A", "trust", "-U", self.user, "-E", "UTF8", "--no-locale", "--no-sync"])
        self.do([BIN / "pg_ctl", "-D", self.data, "-w", "-l", self.room / "log", "-o", given, "start"])
        try:
            yield
        finally:
            self.run([BIN / "pg_ctl", "-D", self.data, "-w", "-m", "fast", "stop"])


def build(server: Server, library: pathlib.Path, programs: Mapping[str, pathlib.Path]) -> None:
    """Builds the extension with the library, and installs it below the server's folder, to which the programs are copied."""
    made = server.room / "extension"
    shutil.copytree(EXTENSION, made)
    for source in (INCLUDE / "instants.h", library):
        shutil.copy(source, made)
    for name, program in programs.items():
        shutil.copy(program, server.room / name)
    if os.geteuid() == 0:
        subprocess.run(["chown", "-R", server.user, server.room], check=True)
    make = ["make", "-C", str(made), "--silent", f"PG_CONFIG={PG_CONFIG}", "INSTANTS_LIB_DIR=.", "INSTANTS_INCLUDE_DIR=.", "with_llvm=no"]
    make += ["COPT=-Werror"]
    server.do(make)
    server.do([*make, f"DESTDIR={server.installed}", "install"])


def passes_regression(server: Server) -> None:
    """Runs the regression test, which has to pass."""
    made = server.room / "extension"
    status, said = server.run(["make", "-C", made, "--silent", f"PG_CONFIG={PG_CONFIG}", "installcheck"])
    differences = made / "regression.diffs"
    assert status == 0, (differences.read_text() if differences.exists() else "") + said.decode(errors="replace")


@pytest.fixture(scope="module")
def server(room: pathlib.Path, libraries: pathlib.Path, instants: pathlib.Path, instants_lines: pathlib.Path) -> Iterator[Server]:
    """The server at work, with the extension installed."""
    server = Server(room)
    build(server, libraries / build_library.ARCHIVE, {"instants": instants, "instants-lines": instants_lines})
    with server.started():
        yield server


@pytest.fixture(scope="module")
def due(server: Server, pytestconfig: pytest.Config) -> bytes:
    """What the program answers to mixed lines, which are put into a table."""
    lines = mixed_lines(pytestconfig.getoption("--lines") or 20_000).split(b"\n")
    read = b"".join(it + b"\n" for it in lines if b"\0" not in it and b"\r" not in it and it == it.decode(errors="ignore").encode())
    (server.room / "lines").write_bytes(read)
    status, said = server.asked(f"""CREATE EXTENSION instants;
CREATE TABLE lines (place serial, line text);
\\copy lines (line) FROM '{server.room}/lines' (FORMAT csv, DELIMITER E'\\x01', QUOTE E'\\x02', NULL E'\\x03')
""")
    assert status == 0, said.decode(errors="replace")
    return subprocess.run([server.room / "instants", "+00:00", "-", "1048576", *SOURCES], input=read, stdout=subprocess.PIPE, check=True).stdout


def test_regression(server: Server, pytestconfig: pytest.Config) -> None:
    """It passes; where asked, what it prints is kept first."""
    try:
        passes_regression(server)
    finally:
        if pytestconfig.getoption("--write"):
            shutil.copyfile(server.room / "extension" / "results" / "instants.out", EXTENSION / "expected" / "instants.out")


def test_answers(server: Server, due: bytes) -> None:
    server.tells(f"SELECT instant('+00:00', {ARRAY}, line) FROM lines ORDER BY place;", due)


def as_timestamp(answer: str) -> str:
    """Returns how the server shows the moment of an answer, or of a fault."""
    if answer.startswith("!"):
        return "none"
    # (the year 0 is the first one before Christ)
    return f"{answer[:26]} AD" if answer[:4] != "0000" else f"0001{answer[4:26]} BC"


def test_moments(server: Server, due: bytes) -> None:
    shown = f"""SET timezone = 'UTC';
SELECT coalesce(to_char(instant_at({ARRAY}, line), 'YYYY-MM-DD"T"HH24:MI:SS.US BC'), 'none') FROM lines ORDER BY place;
"""
    server.tells(shown, "".join(as_timestamp(it) + "\n" for it in due.decode("ascii").splitlines()).encode())


def test_order_by_an_index(server: Server, due: bytes) -> None:
    shown = f"""CREATE INDEX by_moment ON lines (instant('+00:00', {ARRAY}, line) COLLATE "C");
SET enable_seqscan = off;
SELECT instant('+00:00', {ARRAY}, line) FROM lines ORDER BY instant('+00:00', {ARRAY}, line) COLLATE "C";
"""
    server.tells(shown, b"".join(sorted(it + b"\n" for it in due.split(b"\n")[:-1])))


def test_page(server: Server) -> None:
    """The page's example prints what the page says, in a database of its own."""
    (example,) = re.findall(r"^```sql\n(CREATE EXTENSION .*?)^```$", PAGE.read_text(), re.M | re.S)
    server.asked("CREATE DATABASE page;")
    due = "".join(f"{it}\n" for it in re.findall(r"^-- (.*)$", example, re.M)).encode()
    assert due and server.asked(example, PGDATABASE="page") == (0, due)


def test_copy(server: Server) -> None:
    """A log comes in by COPY, for a superuser and for who has the role for it."""
    (server.room / "log.txt").write_bytes(LOG)
    program = f"{server.room}/instants-lines key +00:00 - 1048576 rfc3339 < {server.room}/log.txt | {ESCAPES}"
    copy = f"COPY log FROM PROGRAM $${program}$$;\n"
    shown = "SELECT moment, line FROM log ORDER BY moment;\n"
    due = b"! none|no date\n2024-05-01T07:59:59.000000000Z|2024-05-01T07:59:59Z first\n2024-05-01T08:00:01.000000000Z|" + LOG.partition(b"\n")[0] + b"\n"
    server.asked('CREATE TABLE log (moment text COLLATE "C", line text); CREATE ROLE reader LOGIN; GRANT ALL ON log TO reader;')
    assert server.asked(copy + shown) == (0, due)
    status, said = server.asked(copy, PGUSER="reader")
    assert status != 0 and b"pg_execute_server_program" in said
    server.asked("TRUNCATE log; GRANT pg_execute_server_program TO reader;")
    assert server.asked(copy + shown, PGUSER="reader") == (0, due)


if __name__ == "__main__":
    sys.exit(pytest.main([__file__, *sys.argv[1:]]))

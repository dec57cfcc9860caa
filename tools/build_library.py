#!/usr/bin/env python3
"""Proves and builds the library of calls for C: `libinstants.a` and `libinstants.so.0` in `crates/instants_c/out`.

    tools/build_library.py

The crates below `instants_c` are proved by `rt ci` over a copy of them (tools/build_program.py), so a crate that was proved for
a program is not proved again. Rattle's compiler proves `instants_c` over them and makes an archive of all. That and the kit's
few lines of C, by which Rattle takes memory, become one object, in which the calls of `include/instants.h` are the only names
that others see. Both libraries are made of that. A version script has the shared one export these calls alone, under the version
VERSION, and its build id is a digest of what is in it. The packages of Debian: binutils gcc.
"""

import pathlib
import shutil
import subprocess
import sys
from collections.abc import Sequence

sys.dont_write_bytecode = True

import build_program
from program import ROOT, BuildFailed, Command, Program, uses

CRATE = "instants_c"
CALLS = (
    "instants_answer_lines", "instants_open", "instants_answer", "instants_answer_moments", "instants_close", "instants_sentence",
    "instants_lines_open", "instants_lines_keys", "instants_lines_dates", "instants_lines_close", "instants_lines_sentence",
    "instants_version",
)
ARCHIVE, SHARED = "libinstants.a", "libinstants.so.0"
# The release in which these calls came; a call that comes later has that release's version.
VERSION = "INSTANTS_0.1"


class Library(Program):
    """The library for C, in its two files."""

    def __init__(self) -> None:
        super().__init__(CRATE, "libinstants", SHARED)

    def is_current(self) -> bool:
        # (one that was linked in another way is not)
        return super().is_current() and (out() / ARCHIVE).is_file() and f"{VERSION}\0".encode() in self.file.read_bytes()

    def proved_first(self) -> list[str]:
        return [it for it in self.crates() if it != CRATE]

    def made_in(self, room: pathlib.Path) -> dict[str, pathlib.Path]:
        """Makes both libraries of the crates that `rt ci` proved in a copy of them, and returns them by name."""
        self.say(f"proving and compiling {CRATE}, the last crate, in a minute or two")
        build_program.copy_crate(CRATE, room)
        compile_archive(self.proved_first(), room)
        join(room)
        return {name: room / name for name in (ARCHIVE, SHARED)}


def out() -> pathlib.Path:
    """Returns the folder in which the library is built."""
    return ROOT / "crates" / CRATE / "out"


def run(command: Command, folder: pathlib.Path) -> None:
    """Runs a command, or raises BuildFailed with what it says."""
    ran = subprocess.run(command, cwd=folder, stdin=subprocess.DEVNULL, stdout=subprocess.PIPE, stderr=subprocess.STDOUT, text=True)
    if ran.returncode:
        raise BuildFailed(f"{' '.join(map(str, command))} failed:\n{ran.stdout}")


def kit() -> pathlib.Path:
    """Returns the kit's folder."""
    rt = shutil.which("rt")
    if not rt:
        raise BuildFailed("the library has to be built, and there is no command rt")
    return pathlib.Path(rt).resolve().parent.parent


def compile_archive(crates: Sequence[str], room: pathlib.Path) -> None:
    """Has Rattle's compiler prove the topmost crate over the proved ones below it, and make the archive of all."""
    rlibs = {it: room / "crates" / it / "out" / "rlib" for it in crates}
    used = ["std", *(it for it in uses()[CRATE])]
    externs = [f"{it}={rlibs[it] / it}.rlib" if it in rlibs else f"{it}={kit()}/rlibs/{it}.rlib" for it in used]
    folders = [kit() / "rlibs", *rlibs.values()]
    command: list[str | pathlib.Path] = [kit() / "bin" / "rattle", "build", "--crate-name", CRATE, "src/lib.rt", "--crate-type", "staticlib"]
    command += [word for it in externs for word in ("--extern", it)]
    command += [word for it in folders for word in ("-L", f"dependency={it}")]
    command += ["--antt-project", kit() / "rattle" / "logic" / "antt-project.json", "--logic-built", kit() / "logic_built"]
    command += ["--toolchain", kit() / "toolchain", "--backend", "llvm", "--jobs", "2", "-o", room / "proved.a"]
    run(["nice", "-n", "10", *command], room / "crates" / CRATE)


def join(room: pathlib.Path) -> None:
    """Makes both libraries in the folder room of the archive there."""
    run(["ld", "-r", "-o", "instants.o", "--whole-archive", "proved.a", "--no-whole-archive", kit() / "c" / "liblibc_c.a"], room)
    run(["objcopy", *(f"--keep-global-symbol={it}" for it in CALLS), "instants.o"], room)
    run(["objcopy", "--strip-unneeded", "--remove-section=.comment", "instants.o"], room)
    run(["ar", "rcsD", ARCHIVE, "instants.o"], room)
    link_shared(room)


def link_shared(room: pathlib.Path) -> None:
    """Links the shared library in the folder room of the object there."""
    (room / "instants.map").write_text(f"{VERSION} {{ global: {'; '.join(CALLS)}; local: *; }};\n")
    exported = ["-Wl,--version-script=instants.map", f"-Wl,-soname,{SHARED}", "-Wl,-z,defs"]
    run(["gcc", "-shared", *exported, "-Wl,--build-id=sha1", "-Wl,-z,relro,-z,now", "-o", SHARED, "instants.o"], room)
    run(["strip", "--strip-unneeded", SHARED], room)


def build() -> None:
    """Proves and builds the library unless it is current, or raises BuildFailed."""
    build_program.build(Library())


if __name__ == "__main__":
    try:
        build()
    except BuildFailed as fault:
        sys.exit(f"libinstants: {fault}")

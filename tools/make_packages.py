"""What tools/package.py makes: the folder that is packed, the archive, Debian's packages by debhelper, and the list of these."""

import gzip
import hashlib
import os
import pathlib
import re
import shutil
import subprocess
import sys
import tarfile
import tempfile
from collections.abc import Mapping, Sequence
from typing import IO, NamedTuple, cast

sys.dont_write_bytecode = True

import build_library
import spdx_list
from installed_pages import LINK, installed
from program import ROOT, Command, Program, sure

PACKAGING = ROOT / "packaging"
PROGRAMS = {name: Program(crate, name) for crate, name in (("instants_program", "instants"), ("instants_lines_program", "instants-lines"))}
CHECK = Program("description_check", "description_check")
# What of the documents is for those who use the programs or the library.
DOCUMENTS = ("README.md", "SECURITY.md", "docs/GUIDE.md", "docs/FORMATS.md", "docs/DESCRIPTIONS.md", "docs/LIBRARIES.md", "docs/SCALE.md",
             "docs/CLAIMS.md", "docs/PROMISES.md", "docs/DIFFERENCES.md", "docs/PEERS.md", "docs/SPEED.md")
# The pictures of these documents.
PICTURES = ("docs/speed.svg",)
# The script over the programs, and what it calls.
SCRIPT, HELPERS = "instants-merge", ("follow_logs.py",)
# Which of the bindings are handed on as sources.
SOURCES = ("c", "postgres", "rust", "sqlite")
# What each package has: the licence, and the notice of whose code is in it. The crates for Rust have copies of their own.
TERMS = ("LICENSE", "NOTICE")
CRATES = tuple(ROOT / "bindings" / "rust" / it for it in ("sys", ""))
# The names of files with a licence or a notice.
LICENCE = re.compile(r"(?:licen[cs]e|copying|copyright|notice)\b", re.I)
# The file of the checksums.
SUMS = "SHA256SUMS"


class PackagingFailed(Exception):
    """A package can't be made; the text says why."""


def run(command: Command, cwd: pathlib.Path | None = None, env: Mapping[str, str] | None = None) -> bytes:
    """Returns what a command prints, or raises PackagingFailed."""
    ran = subprocess.run(command, cwd=cwd, env=env, stdin=subprocess.DEVNULL, stdout=subprocess.PIPE, stderr=subprocess.STDOUT, check=False)
    if ran.returncode:
        raise PackagingFailed(f"{' '.join(map(str, command))} failed:\n{ran.stdout.decode(errors='replace')}")
    return ran.stdout


def version() -> str:
    """Returns the version, which the program and the header have to agree upon."""
    parts: tuple[str, ...] = sure(re.search(r'"instants (\d+)\.(\d+)\.(\d+)"', (ROOT / "crates" / "instants_program" / "src" / "help.rt").read_text())).groups()
    number = sum(int(it) * scale for it, scale in zip(parts, (10_000, 100, 1)))
    if f"#define INSTANTS_VERSION {number}\n" not in (ROOT / "include" / "instants.h").read_text():
        raise PackagingFailed(f"the header is not of version {number}")
    return ".".join(parts)


def stale_terms() -> list[str]:
    """Returns the copies of the licence and the notice that a crate for Rust lacks, or that differ from the repository's."""
    copies = [(ROOT / name, crate / name) for crate in CRATES for name in TERMS]
    return [str(copy.relative_to(ROOT)) for of, copy in copies if not copy.is_file() or copy.read_bytes() != of.read_bytes()]


def licences_of_kit() -> list[str]:
    """Returns the files with a licence that the kit's folder has of its own, or of the code that it puts into programs, where a
    kit is there. The notice says that there are none."""
    if not shutil.which("rt"):
        return []
    kit = build_library.kit()
    folders = [kit, kit / "c", *(kit / "rattle" / it for it in ("", "core")), *(kit / "rattle").glob("std*")]
    return [str(it.relative_to(kit)) for folder in folders for it in folder.iterdir() if LICENCE.match(it.name)]


def programs() -> dict[str, Program]:
    """Returns the programs that are packaged, by their names."""
    return {**PROGRAMS, **({CHECK.name: CHECK} if CHECK.is_current() else {})}


def manual() -> list[str]:
    """Returns the manual pages: all that there are, but for that of a program that is not packaged."""
    absent = "" if CHECK.name in programs() else f"{CHECK.name}.1"
    return [it.name for it in sorted((ROOT / "docs").glob("*.[1-9]")) if it.name != absent]


class Commit:
    """The commit that is packaged: when it was made, and by whom."""

    def __init__(self) -> None:
        told = subprocess.run(["git", "log", "-1", "--format=%ct%n%an <%ae>%n%aD"], cwd=ROOT, capture_output=True, text=True, check=True).stdout.splitlines()
        self.time, self.maintainer, self.date = int(told[0]), told[1], told[2]


def put(source: pathlib.Path, target: pathlib.Path) -> None:
    """Copies a file into a folder that is made."""
    target.parent.mkdir(parents=True, exist_ok=True)
    shutil.copyfile(source, target)


def put_text(text: str, target: pathlib.Path) -> None:
    """Writes a text into a folder that is made."""
    target.parent.mkdir(parents=True, exist_ok=True)
    target.write_text(text)


def linked(name: str) -> str:
    """Returns a document as it is installed, in which a link to a page that is not packaged is its words alone."""
    page = ROOT / name

    def kept(link: re.Match[str]) -> str:
        words, to = link[1], link[2]
        is_there = not to or ":" in to or any((page.parent / to).resolve() == ROOT / it for it in (*DOCUMENTS, *PICTURES))
        return link[0] if is_there else words

    fences = re.split(r"(^```.*?^```$)", installed(page.read_text()), flags=re.M | re.S)
    return "".join(it if it.startswith("```") else LINK.sub(kept, it) for it in fences)


def wheel(folder: pathlib.Path, library: pathlib.Path | None) -> None:
    """Makes the wheel for Python, with a library in it, or without one."""
    folder.mkdir(parents=True)
    code = f"import wheel_of_package; wheel_of_package.build_wheel({str(folder)!r})"
    run([sys.executable, "-B", "-c", code], cwd=ROOT / "bindings" / "python", env=dict(os.environ, INSTANTS_LIBRARY=str(library or "")))


def lay_out_documents(folder: pathlib.Path) -> None:
    """Lays out the documents as they are installed."""
    for name in DOCUMENTS:
        put_text(linked(name), folder / name)
    for name in PICTURES:
        put(ROOT / name, folder / name)


def lay_out(top: pathlib.Path) -> None:
    """Lays out the archive's folder."""
    put(PACKAGING / "Makefile", top / "Makefile")
    for file in (PACKAGING / "completions").iterdir():
        put(file, top / "completions" / file.name)
    put_text((PACKAGING / "instants.pc.in").read_text().replace("@VERSION@", version()), top / "instants.pc.in")
    for name, program in programs().items():
        put(program.file, top / "bin" / name)
        run(["strip", "--strip-unneeded", "--remove-section=.comment", top / "bin" / name])
    put(ROOT / SCRIPT, top / "bin" / SCRIPT)
    for name in HELPERS:
        # (where the script looks for them, so that it runs in the archive's folder too)
        put(ROOT / "tools" / name, top / "lib" / "instants" / name)
    for name in (build_library.ARCHIVE, build_library.SHARED):
        put(build_library.out() / name, top / "lib" / name)
    put(ROOT / "include" / "instants.h", top / "include" / "instants.h")
    for name in manual():
        put(ROOT / "docs" / name, top / "man" / name)
    lay_out_documents(top / "doc")
    # (Debian wants no folder of examples among examples)
    for name in run(["git", "ls-files", *(f"bindings/{it}" for it in SOURCES), ":!bindings/rust/examples"], cwd=ROOT).decode().split():
        put(ROOT / name, top / name)
    for name in TERMS:
        put(ROOT / name, top / name)
    wheel(top / "python", top / "lib" / build_library.SHARED)


def settle(top: pathlib.Path, commit: Commit) -> None:
    """Gives all files of a folder the commit's time, and the modes of what is installed."""
    for at, folders, names in os.walk(top, topdown=False):
        for name in [*names, *folders]:
            path = pathlib.Path(at, name)
            # (what a link leads to may be no part of the folder)
            if not path.is_symlink():
                path.chmod(0o755 if path.is_dir() or path.parent.name == "bin" or name == "rules" else 0o644)
            os.utime(path, (commit.time, commit.time), follow_symlinks=False)


def pack(top: pathlib.Path, made: pathlib.Path, commit: Commit) -> None:
    """Makes the archive of a folder."""

    def owned(entry: tarfile.TarInfo) -> tarfile.TarInfo:
        entry.uid = entry.gid = 0
        entry.uname = entry.gname = "root"
        return entry

    with open(made, "wb") as raw, gzip.GzipFile("", "wb", 9, raw, commit.time) as packed:
        with tarfile.open(fileobj=cast(IO[bytes], packed), mode="w", format=tarfile.GNU_FORMAT) as archive:
            for path in [top, *sorted(top.rglob("*"))]:
                archive.add(path, path.relative_to(top.parent), recursive=False, filter=owned)


def debian(top: pathlib.Path, commit: Commit) -> list[pathlib.Path]:
    """Makes Debian's packages of the archive's folder, beside it, and returns their files."""
    shutil.copytree(PACKAGING / "debian", top / "debian")
    control = top / "debian" / "control"
    control.write_text(control.read_text().replace("@MAINTAINER@", commit.maintainer))
    entry = f"instants ({version()}) unstable; urgency=medium\n\n  * The programs, the library, and the package for Python.\n\n -- {commit.maintainer}  {commit.date}\n"
    put_text(entry, top / "debian" / "changelog")
    put_text("3.0 (native)\n", top / "debian" / "source" / "format")
    wheel(top / "debian" / "wheel", None)
    settle(top, commit)
    # (what it is built of is there already)
    run(["dpkg-buildpackage", "--build=binary", "--no-sign", "--no-check-builddeps"], cwd=top)
    return sorted(top.parent.glob("*.deb"))


def glibc_of(files: Sequence[pathlib.Path]) -> str:
    """Returns the oldest version of glibc with which all of the files run, as 2.34."""
    text = run(["objdump", "--dynamic-syms", *files]).decode()
    return ".".join(map(str, max(tuple(map(int, it.split("."))) for it in re.findall(r"\(?GLIBC_([\d.]+)\b", text))))


class Measured:
    """What the README says of the programs in a folder: how large they are, in kB, and which glibc they need."""

    def __init__(self, folder: pathlib.Path) -> None:
        self.sizes = {name: (folder / name).stat().st_size / 1000 for name in PROGRAMS}
        self.glibc = glibc_of([folder / name for name in PROGRAMS])

    def differs(self) -> list[str]:
        """Returns what the README says otherwise; it gives sizes to 10 kB."""
        text, wrong = (ROOT / "README.md").read_text(), []
        for name, size in self.sizes.items():
            said = re.search(rf"`{name}`(?: is)? one(?: file)? of (\d+) kB", text)
            if not said or int(said[1]) != round(size, -1):
                wrong.append(f"{name} has {size:.0f} kB, and not {said and said[1]}")
        if f"glibc {self.glibc} or a later one" not in text:
            wrong.append(f"the programs need glibc {self.glibc}")
        return wrong


class Made(NamedTuple):
    """The files that were made: the archive, Debian's packages, the list of what is in them, and the checksums of all."""

    archive: pathlib.Path
    debian: list[pathlib.Path]
    listed: pathlib.Path
    sums: pathlib.Path

    def packages(self) -> list[pathlib.Path]:
        return [self.archive, *self.debian]

    def files(self) -> list[pathlib.Path]:
        return [*self.packages(), self.listed, self.sums]


def made_in(folder: pathlib.Path) -> Made:
    """Returns what was made in a folder, if all was."""
    name = f"instants-{version()}"
    return Made(folder / f"{name}-x86_64-linux.tar.gz", sorted(folder.glob(f"*_{version()}_*.deb")), folder / f"{name}.spdx.json", folder / SUMS)


def write_sums(files: Sequence[pathlib.Path]) -> pathlib.Path:
    """Writes the checksums of the files of a folder there, as `sha256sum --check` reads them, and returns their file."""
    target = files[0].with_name(SUMS)
    target.write_text("".join(f"{hashlib.sha256(it.read_bytes()).hexdigest()}  {it.name}\n" for it in files))
    return target


def make(folder: pathlib.Path, commit: Commit) -> tuple[Made, Measured]:
    """Makes all packages in a folder, and returns their files and what was measured of the programs."""
    with tempfile.TemporaryDirectory(prefix="package-") as room:
        name = f"instants-{version()}"
        top = pathlib.Path(room, name)
        lay_out(top)
        settle(pathlib.Path(room), commit)
        archive = folder / f"{name}-x86_64-linux.tar.gz"
        pack(top, archive, commit)
        measured = Measured(top / "bin")
        packages = [pathlib.Path(shutil.copy(it, folder)) for it in debian(top, commit)]
        listed = spdx_list.write([archive, *packages], version(), measured.glibc, commit.time)
        return Made(archive, packages, listed, write_sums([archive, *packages, listed])), measured

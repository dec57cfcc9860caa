#!/usr/bin/env pytest
"""Tries the packages that tools/package.py made, as root.

    tools/try_packages.py [--packages FOLDER] [-k WORD]    WORD is Debian or archive, or of a part, as manual

FOLDER has the packages; where it is left out, that is where tools/package.py puts them. `lintian --pedantic` has nothing to say of
Debian's packages, and that of the programs depends on the C library alone. Then these and the archive are installed, tried and
removed in a root of Debian, which debootstrap makes (tools/make_root.py) with neither the kit nor a compiler: by `apt-get install`
without a download, and by `make install`.

- The programs, manual pages and completions answer there (tools/installed_calls.py); those of the archive also where it is
  unpacked;
- a program in C, compiled on this machine with what was installed, by pkg-config, answers there, with the shared library and with
  the static one;
- each link in an installed document leads to a page that is there;
- no command in an installed document names a file of the sources, and those that compile for C, Rust and SQLite print on this
  machine what their page says, with what was installed;
- both libraries have the calls of the header and no other name, the shared one by a version and with a build id;
- the notice of whose code is in it is in the folder of documents of each package;
- after the removal nothing is left.

`sha256sum` finds all files as SHA256SUMS has them. The list of what is in the packages (tools/spdx_list.py) has each file of the
archive, each package with its checksum, and relates nothing but what it has. Both crates for Rust hand on the licence and the
notice (`cargo package --list`). The packages of Debian: binutils cargo debootstrap gcc libsqlite3-dev lintian pkg-config sqlite3.
"""

import hashlib
import json
import os
import pathlib
import re
import shutil
import subprocess
import sys
import tempfile
from collections.abc import Iterator, Mapping, Sequence
from typing import Any

sys.dont_write_bytecode = True

import build_library
import pytest
from header_numbers import of_header
from installed_calls import (ANSWER, LINE, NEEDED, WORDS, Installed, try_absent, try_calls, try_completions, try_first_examples,
                             try_followed, try_manual, try_python)
from installed_pages import OF_SOURCES, commands_in
from make_packages import CRATES, PROGRAMS, TERMS, Made, glibc_of, made_in, run, version
from make_root import make_root, room_for_roots
from page_links import lost_in
from program import ROOT, sure

LIBDIR = "/usr/lib/x86_64-linux-gnu"
# Debian's packages.
PACKAGES = ("instants", "libinstants0", "libinstants-dev", "python3-instants")
# The line of a page's command that compiles.
COMPILING = re.compile(r"^(?:gcc .*-linstants|cargo run).*", re.M)
# Where files come and go beside what is installed: records of packages, and what is thrown away.
PASSING = ("proc", "root", "run", "tmp", "var")
# The linker's flags for the shared library and the static one.
KINDS = {"shared": "-linstants", "static": "-l:libinstants.a"}


# ---- what is tried


def files_in(root: pathlib.Path) -> set[str]:
    """Returns the files that a root has, but for those that come and go."""
    folders = [it for it in root.iterdir() if it.is_dir() and not it.is_symlink() and it.name not in PASSING]
    return {str(it.relative_to(root)) for folder in folders for it in folder.rglob("*") if not it.is_dir()}


def do(it: Installed, command: Sequence[str]) -> None:
    """Runs a command in the root, which has to end well."""
    ran = it.ran(command)
    it.holds(" ".join(command), ran.returncode == 0, f"{ran}")


def nothing_is_left(it: Installed, before: set[str]) -> None:
    """The root has to have the files that it had before."""
    left = files_in(it.root) ^ before
    it.holds("nothing is left", not left, f"{sorted(left)}")


@pytest.fixture(scope="module")
def made(pytestconfig: pytest.Config) -> Made:
    folder = pathlib.Path(pytestconfig.getoption("--packages") or pathlib.Path(tempfile.gettempdir(), "packages"))
    found = made_in(folder.resolve())
    missing = [str(it) for it in found.files() if not it.is_file()]
    if missing or not found.debian:
        pytest.fail(f"{folder} lacks {missing or 'packages for Debian'}; tools/package.py makes all", pytrace=False)
    return found


@pytest.fixture(scope="module")
def root() -> Iterator[pathlib.Path]:
    """A root of Debian."""
    with room_for_roots() as room:
        make_root(room / "root", NEEDED)
        yield room / "root"


@pytest.fixture(scope="module")
def unpacked(root: pathlib.Path, made: Made) -> Installed:
    """The archive where it is unpacked in the root, which is its prefix."""
    name = f"/tmp/instants-{version()}"
    it = Installed("the archive, unpacked", root, name, f"{name}/lib", ())
    shutil.copy(made.archive, root / "tmp")
    do(it, ["tar", "-C", "/tmp", "-xzf", f"/tmp/{made.archive.name}"])
    return it


def debian(root: pathlib.Path, made: Made) -> Iterator[Installed]:
    """Installs Debian's packages in a root, and removes them."""
    it, before = Installed("Debian's packages", root, "/usr", LIBDIR, PACKAGES), files_in(root)
    for file in made.debian:
        shutil.copy(file, root / "tmp")
    do(it, ["apt-get", "install", "--yes", *(f"/tmp/{file.name}" for file in made.debian)])
    yield it
    do(it, ["apt-get", "purge", "--yes", *PACKAGES])
    nothing_is_left(it, before)


def archive(root: pathlib.Path, name: str) -> Iterator[Installed]:
    """Installs the archive of an unpacked folder in a root, and removes it."""
    it, before = Installed("the archive", root, "/usr/local", "/usr/local/lib", ["instants"]), files_in(root)
    do(it, ["make", "-C", name, "install"])
    modules = it.ran(["python3", "-c", "import site; print(site.getsitepackages()[0])"]).stdout.decode().strip()
    do(it, ["sh", "-c", f"python3 -m zipfile -e {name}/python/*.whl {modules}"])
    yield it
    do(it, ["rm", "-r", modules])
    do(it, ["make", "-C", name, "uninstall"])
    nothing_is_left(it, before)


@pytest.fixture(scope="module", params=["Debian", "archive"])
def installed(request: pytest.FixtureRequest, root: pathlib.Path, made: Made) -> Iterator[Installed]:
    """What was installed, which is removed in the end."""
    if request.param == "Debian":
        yield from debian(root, made)
    else:
        yield from archive(root, request.getfixturevalue("unpacked").prefix)


# ---- the files by themselves


def test_lintian(made: Made) -> None:
    said = subprocess.run(["lintian", "--pedantic", "--allow-root", *made.debian], capture_output=True, text=True, check=False)
    assert (said.returncode, said.stdout.strip()) == (0, ""), said.stderr


def test_dependencies(made: Made, unpacked: Installed) -> None:
    """The programs depend on the C library alone."""
    (programs,) = (it for it in made.debian if it.name.startswith("instants_"))
    folder = unpacked.root / unpacked.prefix[1:] / "bin"
    assert run(["dpkg-deb", "--field", programs, "Depends"]).decode().strip() == f"libc6 (>= {glibc_of([folder / it for it in PROGRAMS])})"


def test_checksums(made: Made) -> None:
    checked = subprocess.run(["sha256sum", "--check", "--strict", made.sums.name], cwd=made.sums.parent, capture_output=True, text=True, check=False)
    assert checked.returncode == 0, checked.stdout + checked.stderr
    assert len(checked.stdout.splitlines()) == len(made.files()) - 1


@pytest.mark.parametrize("crate", CRATES, ids=lambda it: str(it.name))
def test_crate(crate: pathlib.Path) -> None:
    """A crate for Rust is packed with the licence and the notice."""
    listed = run(["cargo", "package", "--list", "--offline", "--allow-dirty"], cwd=crate).decode().split("\n")
    assert {*TERMS} - {*listed} == set()


def sums_of(entry: Mapping[str, Any]) -> set[str]:
    """Returns the checksums of an entry of the list."""
    return {it["checksumValue"] for it in entry["checksums"]}


def has_digest(sums: set[str], path: pathlib.Path) -> bool:
    """Returns whether the checksum of a file is among those."""
    return hashlib.sha256(path.read_bytes()).hexdigest() in sums


def test_list(made: Made, unpacked: Installed) -> None:
    """It has each package and each file, and relates what it has, each by a name of its own."""
    told, top = json.loads(made.listed.read_text()), unpacked.root / unpacked.prefix[1:]
    found = {it["packageFileName"]: sums_of(it) for it in told["packages"] if "packageFileName" in it}
    assert found.keys() == {it.name for it in made.packages()} and all(has_digest(found[it.name], it) for it in made.packages())
    files = {f"./{it.relative_to(top)}": it for it in top.rglob("*") if it.is_file()}
    found = {it["fileName"]: sums_of(it) for it in told["files"]}
    assert found.keys() == files.keys() and all(has_digest(found[name], it) for name, it in files.items())
    known = [told["SPDXID"], *(it["SPDXID"] for it in (*told["packages"], *told["files"]))]
    related = {it[end] for it in told["relationships"] for end in ("spdxElementId", "relatedSpdxElement")}
    assert related <= set(known) and len(known) == len(set(known))


def names_in(file: pathlib.Path, how: str) -> set[str]:
    """Returns the names that a library gives to others."""
    rows = (it.split() for it in run(["nm", "--defined-only", how, file]).decode().splitlines())
    return {it[2] for it in rows if len(it) == 3}


def test_libraries(unpacked: Installed) -> None:
    """Both have the header's calls alone, the shared one by a version, and it tells its build."""
    _, calls = of_header()
    folder, version_node = unpacked.root / unpacked.libdir[1:], build_library.VERSION
    shared = folder / build_library.SHARED
    assert names_in(shared, "--dynamic") == {version_node, *(f"{it}@@{version_node}" for it in calls)}
    assert names_in(folder / build_library.ARCHIVE, "--extern-only") == set(calls)
    assert re.search(r"Build ID: [0-9a-f]{40}$", run(["readelf", "--notes", shared]).decode(), re.M)


# ---- in the root


def test_root(root: pathlib.Path) -> None:
    """It has neither the kit nor a compiler."""
    try_absent(root)


def test_unpacked_programs(unpacked: Installed) -> None:
    """They answer where the archive is unpacked."""
    try_calls(unpacked)
    try_followed(unpacked)


def test_programs(installed: Installed) -> None:
    try_calls(installed)
    try_followed(installed)


def test_first_examples(installed: Installed) -> None:
    try_first_examples(installed)


def test_python(installed: Installed) -> None:
    try_python(installed)


def test_manual(installed: Installed) -> None:
    try_manual(installed)


def test_completions(installed: Installed) -> None:
    try_completions(installed)


def test_links(installed: Installed) -> None:
    """Each link of an installed document leads somewhere."""
    documents = sorted(installed.documents().rglob("*.md"))
    assert documents and lost_in(installed.documents(), documents) == []


def test_notice(installed: Installed) -> None:
    """It was installed with each package."""
    for name in installed.packages:
        assert (installed.share() / "doc" / name / "NOTICE").read_bytes() == (ROOT / "NOTICE").read_bytes()


def test_no_command_of_the_sources(installed: Installed) -> None:
    """No command of an installed document names a file of the sources."""
    wrong: list[str] = []
    for page in sorted(installed.documents().rglob("*.md")):
        # (that page tells how the sources are measured)
        if page.name != "SPEED.md":
            wrong += [f"{page.name}: {found[0].strip()}" for command, _ in commands_in(page.read_text()) for found in OF_SOURCES.finditer(command)]
    assert wrong == []


# ---- on this machine, with what was installed


def for_pkg_config(it: Installed) -> dict[str, str]:
    """Returns the variables by which pkg-config finds what was installed."""
    places = {"PKG_CONFIG_SYSROOT_DIR": str(it.root), "PKG_CONFIG_LIBDIR": f"{it.root}{it.libdir}/pkgconfig"}
    # (what is the system's own folder there is none here)
    return {**places, "PKG_CONFIG_ALLOW_SYSTEM_CFLAGS": "1", "PKG_CONFIG_ALLOW_SYSTEM_LIBS": "1"}


@pytest.mark.parametrize("flag", KINDS.values(), ids=KINDS)
def test_c(installed: Installed, flag: str) -> None:
    """A program in C, compiled with what was installed, answers in the root."""
    flags = run(["pkg-config", "--cflags", "--libs", "instants"], env={**os.environ, **for_pkg_config(installed)}).decode()
    made = installed.root / "tmp" / "answer"
    run(["gcc", "-std=c11", "-o", made, ROOT / "bindings" / "c" / "answer.c", *flags.replace("-linstants", flag).split()])
    ran = installed.ran(["/tmp/answer", *WORDS], LINE, LD_LIBRARY_PATH=installed.libdir)
    made.unlink()
    assert (ran.returncode, ran.stdout) == (0, ANSWER), f"{ran}"


def printed(command: str, places: Mapping[str, str]) -> tuple[int, str]:
    """Returns the status of a command of a page, and what it prints."""
    with tempfile.TemporaryDirectory(prefix="command-") as room:
        ran = subprocess.run(["sh", "-c", command], cwd=room, env={**os.environ, **places}, capture_output=True, text=True, check=False)
    return ran.returncode, ran.stdout if ran.returncode == 0 else ran.stderr


@pytest.mark.parametrize("page", ["README.md", "docs/LIBRARIES.md"])
def test_commands_that_compile(installed: Installed, page: str, tmp_path: pathlib.Path) -> None:
    """Those of a page print what it says."""
    # (without the root's others, with which no program of this machine may run)
    for file in (installed.root / installed.libdir[1:]).glob("libinstants.*"):
        shutil.copy(file, tmp_path)
    # (`-linstants`, as where it is the system's own)
    places = {"C_INCLUDE_PATH": f"{installed.root}{installed.prefix}/include", "LIBRARY_PATH": str(tmp_path), "LD_LIBRARY_PATH": str(tmp_path)}
    found = [it for it in commands_in((installed.documents() / page).read_text()) if COMPILING.search(it[0])]
    assert found
    for command, due in found:
        moved = re.sub(rf"(?<=[ \"]){installed.prefix}/share", str(installed.share()), command)
        assert printed(moved, {**places, **for_pkg_config(installed)}) == (0, due), sure(COMPILING.search(command))[0]


if __name__ == "__main__":
    sys.exit(pytest.main([__file__, *sys.argv[1:]]))

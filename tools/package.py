#!/usr/bin/env python3
"""Makes the packages of the proved programs and of the library: those for Debian, and one archive with all.

    tools/package.py [--try] [FOLDER]

They are put into FOLDER (`packages` in the system's temporary folder if left out): by debhelper

- `instants_VERSION_amd64.deb`: the programs `instants` and `instants-lines`, the script `instants-merge`, their manual pages,
  completions of their words for bash, zsh and fish, and the documents; and `description_check` too, where its program is current (tools/build_program.py description_check);
- `libinstants0`: the shared library; `libinstants-dev`: the static one, the header, a file for pkg-config, and as examples
  programs in C and the functions for SQLite and PostgreSQL; `python3-instants`: the package for Python;

and `instants-VERSION-x86_64-linux.tar.gz`, with all of it, `make install PREFIX=`, and a wheel for pip; and
`instants-VERSION.spdx.json`, the list of what is in them and of its licences (tools/spdx_list.py); and `SHA256SUMS`. The README has
the sizes of the programs without their symbols, and which glibc they need; both are compared with what is measured here. NOTICE
says that the kit's folder has no licence of its own; this fails where it has one. The programs and the library are those that
were built last; where they are not, or are older than their sources, they are proved and built first. The same commit gives the
same bytes: each file is as old as the commit, and all is made twice and compared.

A line counts what passed of this. With --try they are then installed and tried as tools/try_packages.py says, by pytest, in a root of
Debian that is downloaded; it has to be root for that. The status is 1 where anything failed.

The packages of Debian: binutils gcc make debhelper dh-python, and for --try python3-pytest and those that tools/try_packages.py names.
"""

import argparse
import pathlib
import subprocess
import sys
import tempfile

sys.dont_write_bytecode = True

import build_library
import build_program
import tries
from make_packages import CHECK, PROGRAMS, Commit, PackagingFailed, licences_of_kit, make, programs, stale_terms
from program import ROOT, BuildFailed


def main() -> int:
    words = argparse.ArgumentParser(description=__doc__, formatter_class=argparse.RawDescriptionHelpFormatter)
    words.add_argument("--try", action="store_true", dest="is_tried")
    words.add_argument("folder", nargs="?", type=pathlib.Path, default=pathlib.Path(tempfile.gettempdir(), "packages"))
    given = words.parse_args()
    given.folder.mkdir(parents=True, exist_ok=True)
    try:
        for program in PROGRAMS.values():
            build_program.build(program)
        build_library.build()
        if CHECK.name not in programs():
            print(f"without {CHECK.name}, whose program is not built, or is older than its sources")
        commit = Commit()
        made, measured = make(given.folder, commit)
        with tempfile.TemporaryDirectory(prefix="again-") as again:
            same = [one.read_bytes() == other.read_bytes() for one, other in zip(made.files(), make(pathlib.Path(again), commit)[0].files())]
        for it, is_same in zip(made.files(), same):
            tries.report(f"{it}: the same bytes twice", is_same)
        wrong = measured.differs()
        tries.report("the README's sizes of the programs, and their glibc", not wrong, "; ".join(wrong))
        stale = stale_terms()
        tries.report("the licence and the notice of the crates for Rust", not stale, f"not as the repository has them: {stale}")
        known = licences_of_kit()
        tries.report("the kit's folder has no licence of its own, as the notice says", not known, f"it has {known}")
    except (BuildFailed, PackagingFailed) as fault:
        sys.exit(f"package: {fault}")
    failed = tries.summary()
    tried = given.is_tried and subprocess.run([ROOT / "tools" / "try_packages.py", "--packages", given.folder], check=False).returncode
    return int(bool(failed or tried))


if __name__ == "__main__":
    sys.exit(main())

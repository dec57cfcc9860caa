#!/usr/bin/env python3
"""Readies a machine to make a release: Debian's packages that the tools call, and Rattle's kit from a folder.

    tools/ready_machine.py KIT

Those packages of which nothing is there are installed by `apt-get`, which takes root. KIT is the kit's folder: it has to be the kit
that the README names. It is used where it is, and keeps what is proved beside it. Its commands are put on the PATH of the steps after
this one in a job of a forge (GITHUB_PATH); elsewhere the line to do that is printed.
"""

import os
import pathlib
import shutil
import subprocess
import sys
from collections.abc import Sequence

sys.dont_write_bytecode = True

from make_packages import PackagingFailed, run
from spdx_list import kit_version

# Commands that the gate and tools/package.py call, and a header, and which package of Debian has each.
NEEDED = {
    "/usr/include/sqlite3ext.h": "libsqlite3-dev",
    "cargo": "cargo",
    "debootstrap": "debootstrap",
    "dh": "debhelper",
    "dh_python3": "dh-python",
    "gcc": "gcc",
    "lintian": "lintian",
    "make": "make",
    "objdump": "binutils",
    "pkg-config": "pkg-config",
    "pytest": "python3-pytest",
    "sqlite3": "sqlite3",
}


def install(packages: Sequence[str]) -> None:
    """Installs packages of Debian."""
    run(["apt-get", "update"])
    run(["apt-get", "install", "--yes", "--no-install-recommends", *packages], env={**os.environ, "DEBIAN_FRONTEND": "noninteractive"})


def try_kit(kit: pathlib.Path) -> None:
    """Finds that a folder has the kit that this repository is proved with, or raises PackagingFailed."""
    if not os.access(kit / "bin" / "rt", os.X_OK):
        raise PackagingFailed(f"{kit} is no kit: it has no command bin/rt")
    found = run([kit / "bin" / "rt", "version"]).decode().strip()
    if found != kit_version():
        raise PackagingFailed(f"{kit} has {found}, and not {kit_version()}")


def put_on_path(folder: pathlib.Path) -> None:
    """Puts a folder on the PATH of later steps, or says how that is done."""
    file = os.environ.get("GITHUB_PATH")
    if file:
        with open(file, "a") as paths:
            paths.write(f"{folder}\n")
    else:
        print(f'export PATH="{folder}:$PATH"')


def main(kit: pathlib.Path) -> None:
    lacking = [package for it, package in NEEDED.items() if not shutil.which(it) and not os.path.exists(it)]
    if lacking:
        install(lacking)
    try_kit(kit)
    put_on_path(kit / "bin")


if __name__ == "__main__":
    if len(sys.argv) != 2:
        sys.exit(__doc__)
    try:
        main(pathlib.Path(sys.argv[1]).resolve())
    except (PackagingFailed, subprocess.SubprocessError) as fault:
        sys.exit(f"ready_machine: {fault}")

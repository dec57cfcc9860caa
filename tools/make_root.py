#!/usr/bin/env python3
"""Makes a root of Debian, with neither Rattle's kit nor a compiler: one file, for an image (packaging/Containerfile).

    tools/make_root.py [--suite NAME] [--mirror URL] [--with PACKAGES] ROOT.tar

debootstrap makes it: Debian's essential packages, apt, and PACKAGES, with commas between their names; where these are left out,
those that `instants-merge` calls for packed files and for files that grow. What tells of this machine, and what was downloaded,
is taken out. It takes root, a minute or two, and some 60 MB from where debootstrap gets packages; --mirror names another place.
tools/try_packages.py installs the packages in such a root. The packages of Debian: debootstrap.

Nothing outside a root is changed: what is removed in it is removed by commands that run there, so that no link leads out of it, and
what is mounted for these, or for debootstrap, is mounted for them alone and ends with them.
"""

import argparse
import contextlib
import pathlib
import shutil
import sys
import tempfile
from collections.abc import Iterator, Sequence

sys.dont_write_bytecode = True

from make_packages import PackagingFailed, run
from program import Command

SUITE = "bookworm"
# What instants-merge calls beside essential packages.
CALLED = ("bzip2", "python3", "xz-utils", "zstd")
# Removes what tells of the machine where a root is made, and what was downloaded for it.
CLEAN = "rm -f /etc/hostname /etc/resolv.conf && find /var/cache/apt /var/lib/apt/lists /var/log -type f -delete"
# Before a command: what it mounts and starts is seen by no other process, and ends with it (util-linux).
APART = ("unshare", "--mount", "--pid", "--fork", "--kill-child")


@contextlib.contextmanager
def room_for_roots() -> Iterator[pathlib.Path]:
    """Gives a folder for roots, which is removed in the end, but for what may be mounted there."""
    room = pathlib.Path(tempfile.mkdtemp(prefix="roots-"))
    try:
        yield room
    finally:
        run(["rm", "-rf", "--one-file-system", room])


def in_root(root: pathlib.Path, command: Command) -> Command:
    """Returns the command that runs another one in a root, with its processes in /proc and without a network."""
    return [*APART, "--net", f"--mount-proc={root / 'proc'}", "chroot", root, *command]


def make_root(root: pathlib.Path, packages: Sequence[str], suite: str = SUITE, mirror: str | None = None) -> None:
    """Makes a root in a folder that is not there yet, or raises PackagingFailed."""
    if not shutil.which("debootstrap"):
        raise PackagingFailed("there is no command debootstrap, which makes a root of Debian")
    named = [f"--include={','.join(packages)}"] if packages else []
    run([*APART, "--mount-proc", "debootstrap", "--variant=minbase", *named, suite, root, *([mirror] if mirror else [])])
    run(in_root(root, ["sh", "-c", CLEAN]))


def main() -> None:
    words = argparse.ArgumentParser(description=__doc__, formatter_class=argparse.RawDescriptionHelpFormatter)
    words.add_argument("--suite", default=SUITE)
    words.add_argument("--mirror")
    words.add_argument("--with", dest="packages", default=",".join(CALLED))
    words.add_argument("file", type=pathlib.Path)
    given = words.parse_args()
    try:
        with room_for_roots() as room:
            root = room / "root"
            make_root(root, [it for it in given.packages.split(",") if it], given.suite, given.mirror)
            run(["tar", "--numeric-owner", "--one-file-system", "--sort=name", "-C", root, "-cf", given.file.resolve(), "."])
    except PackagingFailed as fault:
        sys.exit(f"make_root: {fault}")


if __name__ == "__main__":
    main()

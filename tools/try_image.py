#!/usr/bin/env pytest
"""Builds the image of packaging/Containerfile over a new root, and calls its programs: as root, without a registry or a daemon.

    tools/try_image.py [--packages FOLDER]

FOLDER has the packages that tools/package.py made; where it is left out, that is where this puts them. The root is downloaded
(tools/make_root.py). The packages of Debian: buildah debootstrap.
"""

import pathlib
import shutil
import subprocess
import sys
import tarfile
import tempfile
from collections.abc import Iterator

sys.dont_write_bytecode = True

import pytest
from installed_calls import ANSWER, LINE
from make_packages import PACKAGING, version
from make_root import APART, room_for_roots
from program import ROOT, Command


class Builder:
    """buildah, with what it keeps in a folder of its own, and what it mounts for it alone."""

    def __init__(self, room: pathlib.Path) -> None:
        self.context = room / "context"
        self.command = [*APART, "--mount-proc", "buildah", "--storage-driver", "vfs", "--root", str(room / "kept"), "--runroot", str(room / "running")]

    def call(self, words: Command, given: bytes = b"") -> bytes:
        ran = subprocess.run([*self.command, *words], input=given, capture_output=True, check=False)
        assert ran.returncode == 0, f"{ran}"
        return ran.stdout


@pytest.fixture(scope="module")
def builder(pytestconfig: pytest.Config) -> Iterator[Builder]:
    """A builder that has made a container of the image."""
    folder = pathlib.Path(pytestconfig.getoption("--packages") or pathlib.Path(tempfile.gettempdir(), "packages"))
    package = folder / f"instants_{version()}_amd64.deb"
    if not package.is_file():
        pytest.fail(f"{package} is not there; tools/package.py makes it", pytrace=False)
    with room_for_roots() as room:
        found = Builder(room)
        found.context.mkdir()
        shutil.copy(package, found.context)
        subprocess.run([ROOT / "tools" / "make_root.py", found.context / "root.tar"], check=True)
        found.call(["build", "--isolation", "chroot", "--file", PACKAGING / "Containerfile", "--tag", "instants", found.context])
        found.call(["from", "--pull-never", "--name", "tried", "localhost/instants"])
        yield found


def ran(builder: Builder, *words: str, given: bytes = b"") -> bytes:
    return builder.call(["run", "--isolation", "chroot", "tried", "--", *words], given)


def test_programs(builder: Builder) -> None:
    assert ran(builder, "instants", "+00:00", "-", "100", "rfc3339", given=LINE) == ANSWER
    assert ran(builder, "instants-lines", "key", "rfc3339", given=LINE) == ANSWER[:-1] + b"\t" + LINE
    assert ran(builder, "instants-merge", "-f", "rfc3339", "-l", "here", "-", given=LINE) == ANSWER[:-1] + b"\there\t" + LINE


def test_unpackers(builder: Builder) -> None:
    """What instants-merge calls is there."""
    for name in ("gzip", "bzip2", "xz", "zstd", "python3"):
        assert ran(builder, "sh", "-c", f"command -v {name}")


def test_plain(builder: Builder) -> None:
    """The programs run as nobody, in /logs; neither the kit, a compiler, nor the package's file is there."""
    assert ran(builder, "sh", "-c", "id -un; pwd") == b"nobody\n/logs\n"
    assert ran(builder, "sh", "-c", "for it in rt cc gcc ld as; do command -v $it; done; ls /tmp; true") == b""


def test_root(builder: Builder) -> None:
    """Nothing in the root tells of this machine, or was left by the downloads."""
    with tarfile.open(builder.context / "root.tar") as root:
        files = {it.name for it in root if it.isfile()}
    assert {"./etc/debian_version", "./etc/hostname", "./etc/resolv.conf"} & files == {"./etc/debian_version"}
    assert not [it for it in files if it.startswith(("./var/cache/apt/", "./var/lib/apt/lists/", "./var/log/"))]


if __name__ == "__main__":
    sys.exit(pytest.main([__file__, *sys.argv[1:]]))

"""A program of this repository: the crates that it is made of, and whether what was built of them is current."""

import os
import pathlib
import sys
from collections.abc import Sequence
from typing import TypeVar

ROOT = pathlib.Path(__file__).resolve().parent.parent
PARTS = ("src", "specs", "proofs")
# The words of a command.
Command = Sequence[str | pathlib.Path]
Found = TypeVar("Found")
# Before a command: it is told to end when the process that started it has ended, however that ends (util-linux).
ENDED_WITH_CALLER = ("setpriv", "--pdeathsig", "TERM")


def sure(found: Found | None) -> Found:
    """Returns what has to be there, as a match."""
    if found is None:
        raise LookupError("a text does not have the form that it has to have")
    return found


class BuildFailed(Exception):
    """Something can't be built; the text says why."""


def lines_of_crates() -> dict[str, str]:
    """Returns each crate's line of crates.txt."""
    lines = (ROOT / "crates.txt").read_text().splitlines(keepends=True)
    return {it.split(":")[0].split()[0]: it for it in lines if ":" in it and not it.startswith("#")}


def uses() -> dict[str, list[str]]:
    """Returns what each crate uses, by crates.txt."""
    return {name: it.partition(":")[2].split() for name, it in lines_of_crates().items()}


def crates_for(name: str) -> list[str]:
    """Returns the crate and those that it is made of, each after those that it uses."""
    used = uses()
    taken: list[str] = []

    def take(it: str) -> None:
        if it in used and it not in taken:
            for below in used[it]:
                take(below)
            taken.append(it)

    take(name)
    return taken


class Program:
    """A program, or what else is made of a crate: by the name of the crate, the name that it goes by, and that of its file; and
    whether what it writes has each line in it."""

    def __init__(self, crate: str, name: str, made: str | None = None, repeats_lines: bool = False) -> None:
        self.crate, self.name, self.repeats_lines = crate, name, repeats_lines
        self.file = ROOT / "crates" / crate / "out" / (made or crate)
        # What a trial made of it, which is not proved.
        self.trial = self.file.with_name(f"{self.file.name}.trial")

    def say(self, text: object) -> None:
        print(f"{self.name}: {text}", file=sys.stderr, flush=True)

    def proved_first(self) -> list[str]:
        """Returns the crates that `rt ci` proves for it, each after those that it uses."""
        return self.crates()

    def made_in(self, room: pathlib.Path) -> dict[str, pathlib.Path]:
        """Returns what `rt ci` made of it in a copy of the crates, by name."""
        return {self.file.name: room / "crates" / self.crate / "out" / self.crate}

    def crates(self) -> list[str]:
        """Returns the crates that the program is made of, each after those that it uses."""
        return crates_for(self.crate)

    def is_current(self) -> bool:
        """Returns whether the program is there and none of its sources is newer."""
        return self.is_newest(self.file)

    def is_newest(self, file: pathlib.Path) -> bool:
        """Returns whether a file that is made of the program's sources is there and none of these is newer."""
        try:
            made = file.stat().st_mtime_ns
        except FileNotFoundError:
            return False
        files: list[str | pathlib.Path] = [ROOT / "crates.txt"]
        for folder in (ROOT / "crates" / crate / part for crate in self.crates() for part in PARTS):
            files += [os.path.join(at, it) for at, _, names in os.walk(folder) for it in names]
        return all(os.stat(it).st_mtime_ns <= made for it in files)

    def why_not_run(self) -> str:
        """Returns why the program, which is not current, is not run."""
        return "the program that is built is older than its sources" if self.file.exists() else "the program is not built"

    def keep_folders(self) -> None:
        """Writes beside the program, which is current, the folders of the code that it is made of, for the next call."""
        folders = " ".join(f"crates/{it}/src" for it in self.crates())
        arriving = self.file.with_name(f"{self.file.name}.arriving-{os.getpid()}")
        try:
            arriving.write_text(f"{folders}\n")
            os.replace(arriving, self.file.with_name(f"{self.file.name}.folders"))
        except OSError:
            # (the next call looks again)
            arriving.unlink(missing_ok=True)

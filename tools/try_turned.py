#!/usr/bin/env pytest
"""Tries tools/turned.py on a small crate of which it is known what its mutations come to.

    tools/try_turned.py [-k WORD]

The crate has functions that promise their result, one that promises little, and one that no mutation turns. So some mutations are
refused, one is spared, one applies more than once, and a function is named that none turns; a sample tells each pair. It takes some
minutes.
"""

import pathlib
import re
import shutil
import subprocess
import sys

sys.dont_write_bytecode = True

import pytest
import turned as tool
from program import ROOT, uses

TOOLS = ("turned.py", "program.py", "rattle_files.py")
LIB = """\
//! A small crate.
#![tactic(auto)]
ghost use Rattle.std.specs.Prelude.{◌≡◌, ◌≤◌, ◌+◌, ◌<◌};

/// The number after a small one.
pub fn next(number: u8) -> u8
    requires { number < 255 }
    ensures { result ≡ number + 1 }
{
    number + 1
}

/// A number of which little is promised.
pub fn loose(number: u8) -> u8
    ensures { result ≤ 255 }
{
    number
}

/// The number itself.
pub fn same(number: u8) -> u8
    ensures { result ≡ number }
{
    number
}

/// The number itself, once more.
pub fn again(number: u8) -> u8
    ensures { result ≡ number }
{
    { number }
}
"""
WEAKER = ("a weaker clause", "ensures { result ≤ 255 }", "ensures { result ≤ 256 }")
NEVER = "(?!)"
# Mutations beside one that is refused, what is said of each, and what is not.
CHECKED = {
    "one that applies more than once": (("another number", "-> u8", "-> u16"), r"small/mutations/another\.edit: stands 4 times in src/lib\.rt", NEVER),
    "a clause that does not hold": (("a stronger clause", "ensures { result ≤ 255 }", "ensures { result ≤ 254 }"), r"no mutation turns same\b", "is spared|turns (?!same)"),
    "one that the contract lets through": (WEAKER, r"loose \(src/lib\.rt:\d+\) is spared", NEVER),
}


def written(*changes: tuple[str, str, str]) -> str:
    """Returns the text of a file of mutations."""
    return "file: src/lib.rt\n" + "".join(f"-- {why}\nold: {old}\nnew: {new}\n" for why, old, new in changes)


@pytest.fixture
def room(tmp_path: pathlib.Path) -> pathlib.Path:
    """A repository of the one crate, with this repository's tools."""
    (tmp_path / "tools").mkdir()
    for name in TOOLS:
        shutil.copy(ROOT / "tools" / name, tmp_path / "tools")
    shutil.copy(ROOT / "HANDLES", tmp_path)
    (tmp_path / "crates.txt").write_text("small:\n")
    crate = tmp_path / "crates" / "small"
    for part, text in (("src/lib.rt", LIB), ("must-fail/telling.edit", written(("another number", "    number + 1", "    number")))):
        (crate / part).parent.mkdir(parents=True)
        (crate / part).write_text(text)
    (crate / "mutations").mkdir()
    return tmp_path


def add_mutations(room: pathlib.Path, another: tuple[str, str, str]) -> None:
    """Adds a mutation that is refused, and another one."""
    for name, change in (("a_half", ("a half", "{ number }", "{ number / 2 }")), ("another", another)):
        (room / "crates" / "small" / "mutations" / f"{name}.edit").write_text(written(change))


def turned(room: pathlib.Path, *words: str) -> tuple[int, str]:
    """Returns the status of the tool, and what it prints."""
    ran = subprocess.run([sys.executable, room / "tools" / "turned.py", *words, "small"], capture_output=True, text=True, check=False)
    return ran.returncode, ran.stdout + ran.stderr


def test_functions_that_no_mutation_turns(room: pathlib.Path) -> None:
    status, said = turned(room)
    assert status == 1 and re.findall(r"no mutation turns (\w+)", said) == ["loose", "same", "again"]


@pytest.mark.parametrize("another, due, others", CHECKED.values(), ids=CHECKED)
def test_checked(room: pathlib.Path, another: tuple[str, str, str], due: str, others: str) -> None:
    add_mutations(room, another)
    status, said = turned(room, "--check")
    assert status == 1 and re.search(due, said) and not re.search(others, said)


def test_a_sample(room: pathlib.Path) -> None:
    """It tells each pair, refused or not."""
    add_mutations(room, WEAKER)
    status, said = turned(room, "--sample", "3", "--seed", "1")
    told = re.findall(r"^small/(?:must-fail|mutations)/(\w+)\.edit, pair 1: \w+ is (refused|spared)$", said, re.M)
    assert sorted(told) == [("a_half", "refused"), ("another", "spared"), ("telling", "refused")]
    assert status == 1 and "3 of 3 pairs, by seed 1: 2 refused, 1 not" in said


def test_a_sample_of_more_pairs_than_there_are(room: pathlib.Path) -> None:
    assert turned(room, "--sample", "4", "--seed", "1")[0] == 2


def test_seeds() -> None:
    """A seed draws the same pairs, and another one others."""
    one, again, other = (tool.drawn(uses(), 40, seed) for seed in (1, 1, 2))
    assert one == again != other and sum(map(len, one.values())) == 40


if __name__ == "__main__":
    sys.exit(pytest.main([__file__, *sys.argv[1:]]))

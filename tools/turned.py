#!/usr/bin/env python3
"""Says which public functions of a crate no mutation turns, and whether the prover refuses those that one does.

    tools/turned.py CRATE..             the public functions that no mutation turns
    tools/turned.py --check CRATE..     also tries each mutation on a copy: each function that it turns must be refused
    tools/turned.py --changed [REV]     --check for the crates that differ from REV (none given: from the branch's remote)
    tools/turned.py --sample N --seed S [CRATE..]
                                        tries N pairs of an old and a new text, drawn by a seed from those of all crates, or of these

A crate's mutations stand in two folders of files of one form: must-fail/ has those that tell most, which `rt ci` tries too,
mutations/ all others, a file for each kind of mistake. A file turns several functions of the crate, whose mutated bodies call
none of the others: the prover does not try a function that calls a refused one. `rt ci` says that the crate is refused with
the mutation; this says that each of its functions is, for what it does itself. A refusal that only names what the mutation took
away (a proof file that no longer finds a name) is set apart, since it says little of the contract.

It prints what it misses, and ends with status 1 if there is any. With --jobs N it works on N crates at a time.

A pair that is drawn is tried with all of its file, as some only mean something together. Each function that it turns must be refused
for what it does itself; where it turns none, as a line of `use`, its crate must be. Each pair is told, refused or not. The same
seed draws the same pairs from the same files.
"""

import argparse
import collections
import concurrent.futures
import os
import pathlib
import random
import re
import shutil
import subprocess
import sys
import tempfile
import time
from collections.abc import Iterable
from typing import Any

sys.dont_write_bytecode = True

from program import PARTS, ROOT, crates_for, uses
from rattle_files import Change, Function, Texts, changes_of, edited, functions_of, turned_by

TIERS = ("must-fail", "mutations")
# Which pairs of each file are drawn.
Drawn = dict[pathlib.Path, list[int]]

# What the prover says: of a function or an impl by its path, and where in a file.
VERDICT = re.compile(r"(fn|impl) (\w+)::(\S+): (.*)")
NOTE = re.compile(r"note: (?:\./)?(src/\S+?):(\d+):\d+:")
PROOF = re.compile(r"(?:\./)?proofs/(\S+?)/\w+\.antt:\d+:\d+: error: (.*)")
LOST_NAME = re.compile(r"has no field|is not in scope|has no `|was not admitted|which was rejected|depends? on")


class Refusal:
    """How the prover answers for one function under a mutation."""

    SPARED = "spared"
    WAITS = "not tried, since it calls what is refused"
    NAMES = "refused only for a name that the mutation took away"
    REFUSED = "refused"


def matches(function: Function, path: str) -> bool:
    """Returns whether the prover's path, without the crate's name, is the function's."""
    path, own = path.lower(), function.path.lower()
    return path == own or path.endswith("::" + own) and not function.trait


def answers_in(said: str, functions: list[Function]) -> dict[Function, str]:
    """Returns how the prover answers for each function that it names: the worst that it says of it."""
    answers, notes, proofs = {}, [], collections.defaultdict(list)
    for line in said.split("\n"):
        proof = PROOF.match(line)
        if proof:
            proofs[proof[1].replace("/", "::")].append(not LOST_NAME.search(proof[2]))
    for line in said.split("\n"):
        note, verdict = NOTE.match(line), VERDICT.match(line)
        if note:
            notes.append((note[1], int(note[2])))
        if not verdict:
            continue
        kind, _, path, told = verdict.groups()
        of_impl = kind == "impl"
        for it in functions:
            if matches(it, path) or of_impl and it.trait and it.path.lower().rpartition("::")[0] == path.lower():
                shown = [1 for file, line in notes if file == it.file and it.first <= line <= it.last]
                answer = answer_to(told, bool(shown), proofs.get(path, []))
                if not (of_impl and answer != Refusal.REFUSED):
                    answers[it] = answer
        notes = notes if of_impl else []
    return answers


def answer_to(told: str, has_note: bool, in_proofs: list[bool]) -> str:
    """Returns the answer that a verdict says; in_proofs has each error of the function's proof files, true where it is no lost name."""
    if not told.startswith(("not proved", "no proof")) or "it waits for" in told:
        return Refusal.SPARED
    if "it calls" in told and "did not prove" not in told and not has_note:
        return Refusal.WAITS
    if in_proofs and not any(in_proofs) and not has_note and "did not prove" not in told:
        return Refusal.NAMES
    return Refusal.REFUSED


class Copy:
    """A copy of a crate and those below it, in which the crate's mutations are tried over what has been built."""

    def __init__(self, room: pathlib.Path, name: str) -> None:
        self.crate = room / "crates" / name
        names = crates_for(name)
        shutil.copy(ROOT / "HANDLES", room / "HANDLES")
        lines = (ROOT / "crates.txt").read_text().split("\n")
        kept = [it for it in lines if it.partition(":")[0].partition(" ")[0] in names]
        (room / "crates.txt").write_text("\n".join(kept) + "\n")
        for source in (ROOT / "crates" / it for it in names):
            target = room / "crates" / source.name
            for part in PARTS:
                if (source / part).is_dir():
                    shutil.copytree(source / part, target / part)
            if (source / "out" / "rlib").is_dir():
                shutil.copytree(source / "out" / "rlib", target / "out" / "rlib", copy_function=os.link)
        built = ROOT / "crates" / name / "out" / "incremental"
        if built.is_dir():
            shutil.copytree(built, self.crate / "out" / "incremental")

    def check(self, texts: Texts) -> str:
        """Returns what the prover says of the crate with these texts, which it takes back."""
        for file, (_, now) in texts.items():
            (self.crate / file).write_text(now)
        ran = subprocess.run(["rt", "check", "--jobs", "1"], cwd=self.crate, capture_output=True, text=True, errors="replace")
        for file, (was, _) in texts.items():
            (self.crate / file).write_text(was)
        return ran.stdout + ran.stderr


def tell(name: str, is_checked: bool) -> tuple[int, list[str]]:
    """Returns how much is missed in a crate, and the lines that say so."""
    lines, missed, began = [], 0, time.monotonic()
    crate = ROOT / "crates" / name
    functions = functions_of(crate)
    turned = set()
    mutations = [mutation for tier in TIERS for mutation in sorted((crate / tier).glob("*.edit"))]
    with tempfile.TemporaryDirectory(prefix="turned-") as room:
        copy = Copy(pathlib.Path(room), name) if is_checked and mutations else None
        if copy and "logic=proved" not in copy.check({}):
            return 1, [f"{name}: not proved without any mutation"]
        for mutation in mutations:
            label = mutation.relative_to(ROOT / "crates")
            try:
                texts = edited(crate, changes_of(mutation))
            except ValueError as error:
                lines.append(f"{label}: {error}")
                missed += 1
                continue
            of_edit = turned_by(texts, functions)
            turned.update(of_edit)
            if not copy:
                continue
            said = copy.check(texts)
            answers = answers_in(said, functions)
            wrong = [(it, answers.get(it, Refusal.SPARED)) for it in of_edit]
            wrong = [(it, answer) for it, answer in wrong if answer != Refusal.REFUSED]
            lines += [f"{label}: {it.path} ({it.file}:{it.first}) is {answer}" for it, answer in wrong]
            missed += len(wrong)
            if "logic=not-proved" not in said:
                lines.append(f"{label}: the crate is not refused: {said.strip().splitlines()[-1][:160]}")
                missed += 1
    left = [it for it in functions if it.is_public and it not in turned]
    lines += [f"{name}/{it.file}:{it.first}: no mutation turns {it.path}" for it in left]
    public = sum(it.is_public for it in functions)
    took = f" in {time.monotonic() - began:.0f} s" if is_checked else ""
    lines.append(f"{name}: {len(mutations)} mutations turn {public - len(left)} of {public} public functions{took}")
    return missed + len(left), lines


def pairs_of(crates: Iterable[str]) -> list[tuple[pathlib.Path, int]]:
    """Returns all pairs of the crates' mutations: each with its file, in the order of their paths."""
    files = sorted(it for name in crates for tier in TIERS for it in (ROOT / "crates" / name / tier).glob("*.edit"))
    return [(file, at) for file in files for at in range(len(changes_of(file)))]


def drawn(crates: Iterable[str], count: int, seed: int) -> Drawn:
    """Returns so many pairs of the crates' mutations, drawn by a seed: for each file which of its pairs, in order."""
    found = collections.defaultdict(list)
    for file, at in sorted(random.Random(seed).sample(pairs_of(crates), count)):
        found[file].append(at)
    return found


def turned_by_pair(crate: pathlib.Path, changes: list[Change], at: int, functions: list[Function]) -> list[Function]:
    """Returns the functions that one pair turns, after those that stand before it in its file."""
    file, old, new = changes[at]
    before = edited(crate, changes[:at]).get(file, ("", (crate / file).read_text()))[1]
    return turned_by({file: (before, before.replace(old, new))}, functions)


def try_pairs(name: str, files: Drawn) -> tuple[int, list[str]]:
    """Tries the drawn pairs of a crate. Returns how many are not refused, and a line for each."""
    lines, missed = [], 0
    crate = ROOT / "crates" / name
    functions = functions_of(crate)
    with tempfile.TemporaryDirectory(prefix="turned-") as room:
        copy = Copy(pathlib.Path(room), name)
        if "logic=proved" not in copy.check({}):
            return sum(map(len, files.values())), [f"{name}: not proved without any mutation"]
        for file, places in files.items():
            changes = changes_of(file)
            said = copy.check(edited(crate, changes))
            answers = answers_in(said, functions)
            for at in places:
                turns = turned_by_pair(crate, changes, at, functions)
                told = [(it.path, answers.get(it, Refusal.SPARED)) for it in turns]
                told = told or [("its crate", Refusal.REFUSED if "logic=not-proved" in said else Refusal.SPARED)]
                lines.append(f"{file.relative_to(ROOT / 'crates')}, pair {at + 1}: {', '.join(f'{path} is {answer}' for path, answer in told)}")
                missed += any(answer != Refusal.REFUSED for _, answer in told)
    return missed, lines


def try_sample(crates: Iterable[str], count: int, seed: int, jobs: int) -> int:
    """Tries a sample of the pairs of some crates, and returns the status."""
    began, missed = time.monotonic(), 0
    of: dict[str, Drawn] = collections.defaultdict(dict)
    for file, places in drawn(crates, count, seed).items():
        of[file.parent.parent.name][file] = places
    with concurrent.futures.ThreadPoolExecutor(jobs) as pool:
        for not_refused, lines in pool.map(lambda name: try_pairs(name, of[name]), of):
            print("\n".join(lines), flush=True)
            missed += not_refused
    print(f"{count} of {len(pairs_of(crates)):,} pairs, by seed {seed}: {count - missed} refused, {missed} not, in {time.monotonic() - began:.0f} s")
    return int(bool(missed))


def changed_since(revision: str) -> list[str]:
    """Returns the crates with a file that differs from a revision, those that git does not track among them."""
    how: dict[str, Any] = {"cwd": ROOT, "capture_output": True, "text": True, "check": True}
    base = str(subprocess.run(["git", "merge-base", revision, "HEAD"], **how).stdout).strip()
    found = str(subprocess.run(["git", "diff", "--name-only", base], **how).stdout)
    found += subprocess.run(["git", "ls-files", "--others", "--exclude-standard"], **how).stdout
    names = {it.split("/")[1] for it in found.split("\n") if re.match(r"crates/\w+/", it)}
    return sorted(it for it in names if (ROOT / "crates" / it / "src").is_dir())


def main() -> int:
    words = argparse.ArgumentParser(description=__doc__, formatter_class=argparse.RawDescriptionHelpFormatter)
    words.add_argument("--check", action="store_true")
    words.add_argument("--changed", metavar="REV", nargs="?", const="@{upstream}")
    words.add_argument("--sample", type=int, metavar="N")
    words.add_argument("--seed", type=int, metavar="S")
    words.add_argument("--jobs", type=int, default=1, metavar="N")
    words.add_argument("crates", nargs="*", metavar="CRATE")
    given = words.parse_args()
    if (given.sample is None) != (given.seed is None):
        words.error("a sample has a number and a seed")
    if given.sample is not None:
        try:
            return try_sample(given.crates or [*uses()], given.sample, given.seed, given.jobs)
        except ValueError as error:
            words.error(f"{given.sample}: {error}")
    try:
        crates = given.crates + (changed_since(given.changed) if given.changed else [])
    except subprocess.CalledProcessError as error:
        words.error(f"git knows no {given.changed}: {error.stderr.strip()}")
    if not crates:
        words.error("name a crate" if not given.changed else f"no crate differs from {given.changed}")
    missed = 0
    with concurrent.futures.ThreadPoolExecutor(given.jobs) as pool:
        for count, lines in pool.map(lambda it: tell(it, given.check or bool(given.changed)), crates):
            print("\n".join(lines), flush=True)
            missed += count
    return bool(missed)


if __name__ == "__main__":
    sys.exit(main())

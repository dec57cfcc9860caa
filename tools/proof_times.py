#!/usr/bin/env python3
"""Says which functions of a crate take longest to prove, from nothing, at one job.

    tools/proof_times.py CRATE [COUNT]            of the crate itself
    tools/proof_times.py --test CRATE [COUNT]     of its tests

The check saves each module as it is done with it, and a file's time less that of the one before it is what the module took.
A function's modules are added up: `Lts` is the borrow checker's part, which grows with the steps of the body; `Proof` and
`Tie` are mostly search. The libraries below the crate have to be built (`rt check` in its folder builds them). Times are of
the wall, so nothing else should run.
"""

import collections
import pathlib
import re
import subprocess
import sys
import tempfile
import time

sys.dont_write_bytecode = True

from program import ROOT, uses

# Modules that a function has beside its own name.
PARTS = "Statement Tie Goals Answers Proof Met Code Symbol TheLink Given Lts Kinds Reads Key Mir View Invariants TheImpl Laws Layout Named".split()


def below(crate: str, used: dict[str, list[str]]) -> list[str]:
    """Returns the crates below one, each after those that it uses."""
    found = []
    for it in used[crate]:
        found += [one for one in [*below(it, used), it] if one not in found]
    return list(dict.fromkeys(found))


def command(crate: str, kept: str, of_tests: bool) -> list[str]:
    """Returns the check of a crate, or of its tests, over the libraries that are built, with what it keeps in a folder."""
    kit = pathlib.Path(subprocess.run(["rt", "doc"], capture_output=True, text=True, check=True).stdout.strip()).parent
    used, folder = uses(), ROOT / "crates" / crate
    root = "src/lib.rt" if (folder / "src" / "lib.rt").exists() else "src/main.rt"

    def rlib(it: str) -> str:
        return f"{ROOT}/crates/{it}/out/rlib"

    words = [f"{kit}/bin/rattle", "check", "--crate-name", crate, root, "--extern", f"std={kit}/rlibs/std.rlib", "-L", f"dependency={kit}/rlibs"]
    for it in used[crate]:
        words += ["--extern", f"{it}={rlib(it)}/{it}.rlib"]
    for it in below(crate, used):
        words += ["-L", f"dependency={rlib(it)}"]
    words += ["--antt-project", f"{kit}/rattle/logic/antt-project.json", "--logic-built", f"{kit}/logic_built"]
    return [*words, *["--test"] * of_tests, "--jobs", "1", "--incremental", kept]


def module_times(kept: str, began: float) -> list[tuple[float, str]]:
    """Returns the modules that a check kept, each with the seconds that it took."""
    done = sorted((it.stat().st_mtime, it.stem) for it in pathlib.Path(kept).glob("*/*.oantt"))
    return [(now - before, name) for (before, _), (now, name) in zip([(began, ""), *done], done)]


def function_of(module: str, crate: str) -> str:
    """Returns the function, or the file, that a module belongs to."""
    own = re.sub(rf"^Rattle-{crate}-(?:proofs|specs)\.(?:contracts\.)?", "", module)
    return re.sub(rf"\.(?:{'|'.join(PARTS)})(?:-[\w-]+)?(?:\..*)?$", "", own)


def greatest(sums: dict[str, float], count: int) -> list[tuple[str, float]]:
    """Returns so many of the names with the greatest sums."""
    return sorted(sums.items(), key=lambda it: -it[1])[:count]


def main(crate: str, count: int, of_tests: bool) -> int:
    with tempfile.TemporaryDirectory() as kept:
        began = time.time()
        folder = ROOT / "crates" / crate
        ran = subprocess.run(command(crate, kept, of_tests), cwd=folder, stdout=subprocess.PIPE, stderr=subprocess.STDOUT, text=True, errors="replace")
        times = module_times(kept, began)
    functions: dict[str, float] = collections.defaultdict(float)
    kinds: dict[str, float] = collections.defaultdict(float)
    for seconds, module in times:
        functions[function_of(module, crate)] += seconds
        kinds[re.sub(r"-.*", "", module.rpartition(".")[2])] += seconds
    print("\n".join(f"{seconds:7.1f} {name}" for name, seconds in greatest(functions, count)))
    print("by kind:", ", ".join(f"{name} {seconds:.0f}" for name, seconds in greatest(kinds, 8)))
    print(f"{crate}: {sum(it for it, _ in times):.0f} s, {ran.stdout.strip().split(chr(10))[-1][:80]}")
    return ran.returncode


if __name__ == "__main__":
    words = [it for it in sys.argv[1:] if it != "--test"]
    sys.exit(main(words[0], int(words[1]) if words[1:] else 30, "--test" in sys.argv) if 1 <= len(words) <= 2 else __doc__)

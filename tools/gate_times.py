#!/usr/bin/env python3
"""Runs the gate and says where its time goes: processor seconds for each crate, of its proof, its tests and its mutations.

    tools/gate_times.py             runs `rt ci`, passes on what it prints, then prints the page, and the gate's last line again
    tools/gate_times.py --anew      runs `rt ci --anew`, which proves all from nothing in this one run
    tools/gate_times.py --write     also writes docs/gate.json and the pages from it, where the gate passed
    tools/gate_times.py --page      writes the pages from docs/gate.json
    tools/gate_times.py --check     says whether the pages are as docs/gate.json has them, with status 1 where they are not

The pages are docs/GATE.md, and the minutes of the last run with `--anew` that was written, which stand in README.md, docs/CLAIMS.md and
CONTRIBUTING.md; there it says that they are not measured until there was one.

What a process takes is read from /proc while it runs, since the landing needs no package; what is over between two looks is
counted under `other`, as are rt itself and the programs that it runs. Machines differ, and so does one machine from day to day and within a run: all
that both did of the crates that have not changed since the run in docs/gate.json tells how this run's pace compares with that
one's, and the bounds are at the pace of the run that the first of these files told of.

`rt ci` keeps what it passed on a machine, so a run may do little of the work. What it did not do of a crate whose sources
are as they were is told as it took in the run of docs/gate.json, at this run's pace, and marked by a star: the table, the sum
and the bounds are those of a run from nothing, but for the crates that the page says are not counted. A run with `--anew` does
all, so it has no star and lacks no crate; its minutes are kept in docs/gate.json until the next such run.
"""

import argparse
import datetime
import hashlib
import json
import os
import pathlib
import re
import resource
import subprocess
import sys
import threading
import time
from typing import Any

sys.dont_write_bytecode = True

from program import ENDED_WITH_CALLER, PARTS, ROOT, uses

FIGURES, PAGE = ROOT / "docs" / "gate.json", ROOT / "docs" / "GATE.md"
# Where the minutes of a run from nothing stand, each time once, and how.
TOLD = (ROOT / "README.md", ROOT / "docs" / "CLAIMS.md", ROOT / "CONTRIBUTING.md")
UNMEASURED = "a time that is not measured yet"
MINUTES = re.compile(rf"\b(?:\d+ minutes by the clock, \d+ of a processor|{UNMEASURED})\b")
EVERY = 1
TICKS = os.sysconf("SC_CLK_TCK")
# What the gate does of a crate.
WORK = ("proof", "tests", "mutations")
# The bounds, in minutes of a processor: for everything (75, and 8 each for zones and for fields and the calls for lines), and for a crate with its
# tests and mutations.
BOUND, CRATE_BOUND = 91, 6
# What docs/gate.json has; a crate and what is done of it; what each process works on, with its seconds, by its number and its beginning.
Figures = dict[str, Any]
Work = tuple[str, str]
Seen = dict[tuple[str, str], tuple[Work | None, float]]


class Parts(dict[Work, float]):
    """The seconds of each part of the gate, 0 where nothing was done."""

    def __missing__(self, part: Work) -> float:
        return 0.0


def work_of(words: list[str], folder: str) -> Work | None:
    """Returns the crate and the part of the gate that a command of the prover works on, if it is one."""
    if not any(it.endswith("/rattle") for it in words[:1]) or "--crate-name" not in words:
        return None
    crate = words[words.index("--crate-name") + 1]
    if "/rt-edit-" in folder:
        return crate, "mutations"
    return crate, "tests" if "--test" in words else "proof"


def look(session: int, seen: Seen) -> None:
    """Notes the processor seconds that each process of the session has taken, and what it works on."""
    for entry in os.scandir("/proc"):
        if not entry.name.isdigit():
            continue
        try:
            stat = pathlib.Path(entry.path, "stat").read_text()
            fields = stat[stat.rindex(")") + 2 :].split()
            if int(fields[3]) != session:
                continue
            key = entry.name, fields[19]
            work = seen[key][0] if key in seen else None
            if work is None:
                words = pathlib.Path(entry.path, "cmdline").read_text(errors="replace").split("\0")
                work = work_of(words, os.readlink(f"{entry.path}/cwd"))
            seen[key] = work, (int(fields[11]) + int(fields[12])) / TICKS
        except (OSError, ValueError):
            continue


def run_gate(command: list[str]) -> tuple[int, str, float, float, Parts]:
    """Runs the command and returns its status, its last line, its processor and wall seconds, and the seconds of each part."""
    seen: Seen = {}
    began, last, is_over = time.monotonic(), "", threading.Event()
    how: dict[str, Any] = {"cwd": ROOT, "stdout": subprocess.PIPE, "text": True, "errors": "replace"}
    child = subprocess.Popen([*ENDED_WITH_CALLER, *command], start_new_session=True, **how)

    def watch() -> None:
        while not is_over.wait(EVERY):
            look(child.pid, seen)

    watching = threading.Thread(target=watch, daemon=True)
    watching.start()
    for line in child.stdout or ():
        print(line, end="", flush=True)
        last = line.strip() or last
    is_over.set()
    watching.join()
    status = child.wait()
    used = resource.getrusage(resource.RUSAGE_CHILDREN)
    parts = Parts()
    for work, seconds in seen.values():
        if work:
            parts[work] += seconds
    return status, last, used.ru_utime + used.ru_stime, time.monotonic() - began, parts


def sum_of(crate: str) -> str:
    """Returns a short sum of all that the prover reads of a crate."""
    files = sorted(it for part in PARTS for it in (ROOT / "crates" / crate / part).rglob("*") if it.is_file())
    found = hashlib.sha256()
    for file in files:
        found.update(f"{file.relative_to(ROOT)} {file.stat().st_size}\n".encode() + file.read_bytes())
    return found.hexdigest()[:8]


def mutations_of(crate: str) -> int:
    """Returns how many files of mutations the gate tries of a crate."""
    return len(list((ROOT / "crates" / crate / "must-fail").glob("*.edit")))


def kept_of(before: Figures, parts: Parts, times: float) -> dict[Work, float]:
    """Returns what this run did not do of the crates whose sources are as they were, so many times as long as it took then."""
    listed = uses()
    return {
        (name, work): crate[work] * times
        for name, crate in before["crates"].items()
        if name in listed and crate["sources"] == sum_of(name)
        for work in WORK
        if crate[work] and not parts[name, work] and (work != "mutations" or mutations_of(name))
    }


def pace_of(before: Figures, parts: Parts) -> tuple[Figures, float]:
    """Returns how this run's pace compares with the first one's and with that of the run before, by all that both did of the
    crates that are the same as they were then (proofs alone tell too little: a machine's pace changes while a run goes on),
    with a sentence on it."""
    crates, pace = before["crates"], before["pace"]
    same = [(name, work) for name, crate in crates.items() for work in WORK if parts[name, work] and crate[work] and crate["sources"] == sum_of(name)]
    was, now = sum(crates[name][work] for name, work in same), sum(parts[it] for it in same)
    if not was:
        # (nothing was proved anew)
        return {**pace, "said": f"that of the run before, {pace['times']:.2f} times as long as the run of {pace['first']}."}, 1.0
    times = round(pace["times"] * now / was, 4)
    some = len({name for name, _ in same})
    said = (
        f"{times:.2f} times as long as the run of {pace['first']}, by all that both did of the {some} crates whose sources are as they were at "
        f"{before['commit']} ({was:.0f} s in that commit's run, {now:.0f} s in this one)."
    )
    return {"first": pace["first"], "times": times, "said": said}, now / was


def printed(*words: str) -> str:
    """Returns what a command prints."""
    return subprocess.run(words, cwd=ROOT, capture_output=True, text=True, check=True).stdout.strip()


def figures_of(before: Figures, last: str, total: float, wall: float, parts: Parts, is_anew: bool) -> Figures:
    """Returns the figures of a run from nothing: this run, if it did all anew, and else this run with what was kept."""
    pace, times = pace_of(before, parts)
    kept = {} if is_anew else kept_of(before, parts, times)
    run, whole = total, total + sum(kept.values())
    parts.update(kept)
    crates = {
        name: {**{work: round(parts[name, work]) for work in WORK}, "kept": [work for work in WORK if (name, work) in kept], "files": mutations_of(name), "sources": sum_of(name)}
        for name in sorted({name for name, _ in parts} | (set(uses()) if is_anew else set()), key=lambda it: -sum(parts[it, work] for work in WORK))
    }
    date, commit = str(datetime.date.today()), printed("git", "rev-parse", "--short", "HEAD")
    anew = {"date": date, "commit": commit, "minutes": round(wall / 60), "processor_minutes": round(run / 60)}
    return {
        "date": date,
        "commit": commit,
        "kit": printed("rt", "version"),
        "last_line": last,
        "minutes": round(wall / 60),
        "processors": len(os.sched_getaffinity(0)),
        "load": round(os.getloadavg()[2], 1),
        "seconds_of_the_run": round(run),
        "seconds_from_nothing": round(whole),
        # (kept from an earlier run, with other sources than in the run before)
        "lacking": sorted(name for name in uses() if name not in crates),
        # (the last run that did all anew)
        "from_nothing": anew if is_anew else before.get("from_nothing"),
        "pace": pace,
        "crates": crates,
    }


def minutes_at_first_pace(figures: Figures, seconds: float) -> float:
    return seconds / float(figures["pace"]["times"]) / 60


def bounds_told(figures: Figures) -> str:
    """Returns the sentences on the bounds, at the pace of the first run."""
    minutes = minutes_at_first_pace(figures, figures["seconds_from_nothing"])
    dear = {name: minutes_at_first_pace(figures, sum(crate[work] for work in WORK)) for name, crate in figures["crates"].items()}
    over = sorted((it for it in dear if dear[it] > CRATE_BOUND), key=lambda it: -dear[it])
    longest = max(dear, key=lambda it: dear[it], default="none")
    found = ", ".join(f"`{it}` {dear[it]:.1f}" for it in over)
    return (
        f"Pace: {figures['pace']['said']} At the pace of {figures['pace']['first']} a run from nothing takes {minutes:.0f} processor minutes"
        + (", and more for what is not counted: whether it keeps to" if figures["lacking"] and minutes <= BOUND else f", {'within' if minutes <= BOUND else 'over'}")
        + f" the bound of {BOUND}{' is not known' if figures['lacking'] and minutes <= BOUND else ''}. "
        + (f"Over the bound of {CRATE_BOUND} minutes are {found}." if over else f"No crate is over {CRATE_BOUND} minutes, the longest is `{longest}` with {dear.get(longest, 0):.1f}.")
    )


def table_of(figures: Figures) -> list[str]:
    """Returns the table's lines, the dearest crate first. A star stands after what the run did not do."""
    lines = ["| crate | proof | tests | mutations | files of mutations | together | sources |", "|---|---|---|---|---|---|---|"]
    for name, crate in figures["crates"].items():
        told = " | ".join(f"{crate[it]}{'*' * (it in crate['kept'])}" for it in WORK)
        lines.append(f"| `{name}` | {told} | {crate['files']} | {sum(crate[it] for it in WORK)} | {crate['sources']} |")
    sums = [sum(crate[it] for crate in figures["crates"].values()) for it in WORK]
    lines.append(f"| all crates | {' | '.join(map(str, sums))} | {sum(it['files'] for it in figures['crates'].values())} | {sum(sums)} | |")
    lines.append(f"| other | | | | | {figures['seconds_from_nothing'] - sum(sums)} | |")
    lines.append(f"| the gate | | | | | {figures['seconds_from_nothing']} | |")
    return lines


def minutes_told(figures: Figures) -> str:
    """Returns the minutes of the last run from nothing, as all pages have them."""
    anew = figures.get("from_nothing")
    if not anew:
        return UNMEASURED
    return f"{anew['minutes']} minutes by the clock, {anew['processor_minutes']} of a processor"


def page_of(figures: Figures) -> str:
    """Returns the page that the figures make."""
    run, whole = figures["seconds_of_the_run"], figures["seconds_from_nothing"]
    stars = f" What is marked by a star was kept from earlier runs on this machine: {(whole - run) / 60:.0f} processor minutes more, told as they took in the run before, at this run's pace." if whole > run else ""
    lacking = ", ".join(f"`{it}`" for it in figures["lacking"])
    lacks = f" Not counted, since an earlier run on this machine kept them and the run before had other sources: {lacking}." if lacking else ""
    head = f"""# Where the gate's time goes

Processor seconds of one `rt ci`, crate by crate, from `docs/gate.json`, both written by `tools/gate_times.py --write`: the proof from nothing, the proof and build of the tests, and the mutations in `must-fail/`; where a crate has more than one file of them, the first proves the crate once more. The last column is a short sum of the crate's sources, by which a later run knows those that are as they were. The bounds are {BOUND} processor minutes for everything and {CRATE_BOUND} for a crate, each at the pace of the run of {figures['pace']['first']}, with which all later runs are compared.

{figures['date']}, commit {figures['commit']}, {figures['kit']}: `{figures['last_line']}` after {figures['minutes']} minutes on {figures['processors']} processors (load {figures['load']} at the end), {run / 60:.0f} processor minutes.{stars}{lacks}
"""
    anew = figures.get("from_nothing")
    head += f"\nThe last run from nothing, `rt ci --anew`{' at ' + anew['commit'] + ' on ' + anew['date'] if anew else ''}: {minutes_told(figures)}.\n"
    return head + "\n" + bounds_told(figures) + "\n\n" + "\n".join(table_of(figures)) + "\n"


def pages_of(figures: Figures) -> dict[pathlib.Path, str]:
    """Returns the pages as the figures have them, each with its file."""
    told = {page: MINUTES.sub(minutes_told(figures), page.read_text()) for page in TOLD}
    return {PAGE: page_of(figures), **told}


def write_pages(figures: Figures) -> None:
    for page, text in pages_of(figures).items():
        page.write_text(text)


def check_pages(figures: Figures) -> int:
    """Says which pages are not as the figures have them, and returns the status."""
    wrong = [f"{page.relative_to(ROOT)} is not as docs/gate.json has it" for page, text in pages_of(figures).items() if page.read_text() != text]
    wrong += [f"{page.relative_to(ROOT)} does not have the minutes of the gate once" for page in TOLD if len(MINUTES.findall(page.read_text())) != 1]
    print("\n".join(wrong or ["docs/GATE.md, and the minutes in README.md, docs/CLAIMS.md and CONTRIBUTING.md, are as docs/gate.json has them"]))
    return int(bool(wrong))


def time_gate(command: list[str], is_written: bool) -> int:
    """Runs the gate, prints the page on it, and writes it where that is asked for. Returns the gate's status."""
    status, last, total, wall, parts = run_gate(command)
    try:
        figures = figures_of(json.loads(FIGURES.read_text()), last, total, wall, parts, "--anew" in command)
    except (OSError, ValueError, KeyError, subprocess.SubprocessError) as fault:
        # What the gate says counts also where its times can't be told.
        print(f"gate_times.py: {fault}\n{last}")
        return status
    print(f"{page_of(figures)}\n{last}")
    if is_written and status == 0 and re.fullmatch(r"\d+ passed, 0 failed", last):
        FIGURES.write_text(json.dumps(figures, indent=1) + "\n")
        write_pages(figures)
    return status


def main() -> int:
    words = argparse.ArgumentParser(description=__doc__, formatter_class=argparse.RawDescriptionHelpFormatter)
    words.add_argument("--anew", action="store_true", help="time rt ci --anew")
    words.add_argument("--write", action="store_true")
    words.add_argument("--page", action="store_true")
    words.add_argument("--check", action="store_true")
    words.add_argument("command", nargs="*", help="what to time in place of rt ci")
    given = words.parse_args()
    if not given.page and not given.check:
        return time_gate([*(given.command or ["rt", "ci"]), *(["--anew"] if given.anew else [])], given.write)
    figures = json.loads(FIGURES.read_text())
    if given.check:
        return check_pages(figures)
    write_pages(figures)
    return 0


if __name__ == "__main__":
    sys.exit(main())

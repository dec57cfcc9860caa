#!/usr/bin/env python3
"""Makes the pictures of the documents from what stands in the repository.

    tools/pictures.py            makes those that are not current, and writes the text beside them
    tools/pictures.py --check    says whether each is current, with status 1 where one is not; it takes a second

- docs/crates.svg, by graphviz: the crates of crates.txt, one row for each family, with arrows to the crates on which each stands.
  An arrow is left out where other arrows lead there too. Dashed arrows lead to other families. Crates of tests are left out. The
  crates whose files docs/ARCHITECTURE.md names in its section on the way of a line are bold, and so are the arrows between
  them. An arrow that runs through a box, or nearer than two points to one, is an error. The same arrows stand as text in
  docs/ARCHITECTURE.md.
- docs/speed.svg, by gnuplot: the speeds in the two tables of docs/SPEED.md which bench/compare_programs.py prints, and beside
  them for each file the marks of the programs that have none there.

Each picture begins with a checksum of what graphviz or gnuplot was given, so that `--check` needs neither of them. The packages
of Debian: graphviz, gnuplot-nox.
"""

import hashlib
import pathlib
import re
import subprocess
import sys
from collections.abc import Callable, Iterator

sys.dont_write_bytecode = True

from program import ROOT, sure, uses

DOCS = ROOT / "docs"
ARCHITECTURE, SPEED = DOCS / "ARCHITECTURE.md", DOCS / "SPEED.md"
ROWS = ("programs", "instants", "parsing", "description", "datetime", "zones", "calendar", "base")
PROGRAM = re.compile(r"_program$|_check$|^examples_|^rows$|^instants_c$")
BEGIN, END = "<!-- tools/pictures.py begins -->", "<!-- tools/pictures.py ends -->"
FONT = 'fontname="DejaVu Sans,sans-serif" fontsize=13'
BOX = f'node [shape=box {FONT} height=0.32 margin="0.09,0.04"]'
# Where the first box of a row lies, in points, and how far two rows are apart.
LEFT, GAP = 105, 50
# How far the boxes of a row are apart, how far arrows keep from boxes, and how near an arrow may come, in points, to a box that it
# neither leaves nor reaches.
APART, KEPT, NEAR = "nodesep=0.25; ranksep=0.5", 'esep="+6"; sep="+8"', 2
# How many points of each part of an arrow are looked at.
STEPS = 40
# The marks of the programs in the picture of speeds, in the order of the tables; the first program is the measure.
MARKS = (None, 12, 8, 4, 2, 7, 1, 3)
# The ends of the axis of speeds; and, beyond it, the place of the first mark of a program that has no speed for a file, how many
# times as far each next one is, and the end.
LEAST, MOST, UNMEASURED, STEP, END_OF_MARKS = 0.1, 40, 48, 1.28, 200


# Where each box is in points, and how high and wide it is in inches.
Places = dict[str, tuple[float, float, float, float]]


class PictureFailed(Exception):
    """A picture can't be made; the text says why."""


def run(command: list[str], given: str) -> str:
    """Returns what a command prints."""
    try:
        ran = subprocess.run(command, input=given, capture_output=True, text=True, check=False)
    except FileNotFoundError:
        raise PictureFailed(f"{command[0]} is not installed") from None
    if ran.returncode:
        raise PictureFailed(f"{command[0]}: {ran.stderr}")
    return ran.stdout


def row_of(crate: str) -> str:
    return "programs" if PROGRAM.search(crate) else crate.split("_")[0]


def label_of(crate: str) -> str:
    return crate.removeprefix(row_of(crate) + "_")


class Crates:
    """The crates but those of tests: on which each stands, and on which a line passes."""

    def __init__(self) -> None:
        used = uses()
        self.names = [it for it in used if not it.endswith("_tests")]
        self.used = {it: [below for below in used[it] if below in used] for it in self.names}
        self.below: dict[str, set[str]] = {}
        way = sure(re.search(r"^## The way of a line\n(.*?)^## ", ARCHITECTURE.read_text(), re.M | re.S))[1]
        self.way = [it for it in self.names if re.search(rf"`{it}/src/", way)]

    def below_of(self, crate: str) -> set[str]:
        """Returns all crates below one."""
        if crate not in self.below:
            self.below[crate] = set(self.used[crate]).union(*(self.below_of(it) for it in self.used[crate]))
        return self.below[crate]

    def direct(self, crate: str, among: list[str]) -> list[str]:
        """Returns on which of some crates a crate stands, but those to which it stands by way of another of them."""
        stands = [it for it in self.used[crate] if it in among]
        return [it for it in stands if not any(it in self.below_of(other) for other in stands)]

    def arrows(self) -> list[tuple[str, str, bool]]:
        """Returns the arrows, each with whether a line passes along it."""
        plain = {(it, below) for it in self.names for below in self.direct(it, self.names)}
        bold = {(it, below) for it in self.way for below in self.direct(it, self.way)}
        order = {it: at for at, it in enumerate(self.names)}
        return [(*it, it in bold) for it in sorted(plain | bold, key=lambda it: (order[it[0]], order[it[1]]))]

    def place_row(self, row: str) -> tuple[Places, float]:
        """Returns where dot puts the boxes of a row, in points, and how high and wide they are, in inches."""
        mine = [it for it in self.names if row_of(it) == row]
        lines = [f"digraph {{ rankdir={'TB' if row == 'programs' else 'LR'}; {APART}; {BOX};"]
        lines += [f'{it} [label="{label_of(it)}"];' for it in mine]
        lines += [f"{below} -> {it};" for it in mine for below in self.direct(it, self.names) if below in mine]
        words = [line.split() for line in run(["dot", "-Tplain"], "\n".join([*lines, "}"])).splitlines()]
        places = {it[1]: (float(it[2]) * 72, float(it[3]) * 72, float(it[4]), float(it[5])) for it in words if it[0] == "node"}
        return places, float(words[0][3]) * 72

    def given(self) -> str:
        """Returns what the picture is made of, whatever graphviz makes of it: crates, arrows, the way of a line."""
        return "\n".join([*self.names, *(" ".join(map(str, it)) for it in self.arrows()), *self.way, BOX, APART, KEPT])


def programs_in_order(crates: Crates, places: Places) -> Places:
    """Returns the places of the programs, so that those come first which stand on crates at the left."""
    mine = [it for it in crates.names if row_of(it) == "programs"]
    over = {it: [places[below][0] for below in crates.direct(it, crates.names)] for it in mine}
    x, moved = float(LEFT), {}
    for it in sorted(mine, key=lambda it: sum(over[it]) / len(over[it])):
        width = places[it][2] * 72
        moved[it] = (x + width / 2, *places[it][1:])
        x += width + 14
    return moved


def points_of(path: str) -> Iterator[complex]:
    """Returns points along an arrow of a picture, whose path is a chain of Bezier curves."""
    given = [complex(*map(float, it)) for it in re.findall(r"(-?[\d.]+),(-?[\d.]+)", path)]
    for at in range(0, len(given) - 3, 3):
        begin, near_begin, near_end, end = given[at : at + 4]
        for part in (step / STEPS for step in range(STEPS + 1)):
            rest = 1 - part
            yield begin * rest**3 + 3 * near_begin * part * rest**2 + 3 * near_end * part**2 * rest + end * part**3


def crossed_boxes(picture: str) -> list[str]:
    """Returns what is said of each arrow of a picture that comes too near to a box which it neither leaves nor reaches."""
    boxes, crossed = {}, []
    parts = re.findall(r'class="(node|edge)">\s*<title>(.*?)</title>(.*?)</g>', picture, re.S)
    for name, corners in ((it[1], re.search(r'<polygon [^>]*points="([^"]*)"', it[2])) for it in parts if it[0] == "node"):
        if corners:
            x, y = zip(*(map(float, it.split(",")) for it in corners[1].split()))
            boxes[name] = (min(x) - NEAR, max(x) + NEAR, min(y) - NEAR, max(y) + NEAR)
    for title, path in ((it[1], it[2].split('d="')[1].split('"')[0]) for it in parts if it[0] == "edge"):
        ends, points = title.replace("&#45;&gt;", " ").split(), [*points_of(path)]
        for name, (left, right, low, high) in boxes.items():
            if name not in ends and any(left < it.real < right and low < it.imag < high for it in points):
                crossed.append(f"the arrow from {ends[0]} to {ends[1]} runs through {name}")
    return crossed


def picture_of_crates(crates: Crates) -> str:
    """Returns the picture of the crates."""
    places: Places = {}
    height, labels = 0.0, []
    for row in ROWS:
        placed, high = crates.place_row(row)
        height -= high
        places |= {it: (LEFT + x, height + y, wide, tall) for it, (x, y, wide, tall) in placed.items()}
        labels.append(f'row_{row} [shape=plaintext label=<<b>{row}</b>> pos="45,{height + high / 2:.0f}!"];')
        height -= GAP
    places |= programs_in_order(crates, places)
    lines = [f'digraph crates {{ splines=true; {KEPT}; bgcolor=white; outputorder=edgesfirst; {BOX}; edge [arrowsize=0.7];']
    lines += labels
    for it, (x, y, wide, high) in places.items():
        bold = "penwidth=3" if it in crates.way else ""
        lines.append(f'{it} [label="{label_of(it)}" style=filled fillcolor=white pos="{x:.0f},{y:.0f}!" width={wide:.2f} height={high:.2f} {bold}];')
    for it, below, is_bold in crates.arrows():
        style = "penwidth=3" if is_bold else "style=dashed" if row_of(it) != row_of(below) else ""
        lines.append(f"{it} -> {below} [{style}];")
    picture = run(["neato", "-n2", "-Tsvg"], "\n".join([*lines, "}"]))
    if crossed := crossed_boxes(picture):
        raise PictureFailed("; ".join(crossed))
    return picture


def text_of_crates(crates: Crates) -> str:
    """Returns the arrows of the picture as text, a line for each crate; `*` is before those that a line passes."""
    wide = max(map(len, crates.names)) + 2
    lines = []
    for row in reversed(ROWS):
        for it in (it for it in crates.names if row_of(it) == row):
            below = [other for name, other, _ in crates.arrows() if name == it]
            lines.append(f"{'*' if it in crates.way else ' '} {it:{wide}}{' '.join(below)}".rstrip())
    return "\n".join([BEGIN, "", "```text", *lines, "```", "", END])


def speeds() -> tuple[list[str], list[tuple[str, list[str]]]]:
    """Returns the names of the programs, and for each file its name and the speeds of the programs on it, as SPEED.md has them."""
    tables = re.findall(r"^\| program \|.*\n\|[-|]+\n(?:\|.*\n)+", SPEED.read_text(), re.M)
    names: list[str] = []
    files: list[tuple[str, list[str]]] = []
    for table in tables:
        head, _, *rows = [[cell.strip() for cell in row.strip("|\n").split("|")] for row in table.strip().split("\n")]
        names = names or [re.sub(r"^the crate |`|, `.*", "", row[0]) for row in rows]
        for at in range(2, len(head), 2):
            files.append((head[at - 1].split(",")[0].strip("`"), [row[at] for row in rows] + ["–"] * (len(names) - len(rows))))
    if len(names) != len(MARKS):
        raise PictureFailed(f"SPEED.md has {len(names)} programs in its table in place of {len(MARKS)}")
    return names, files


def script_of_speeds() -> str:
    """Returns what gnuplot is given: a row for each file, a mark for each program, on a logarithmic axis or beside it."""
    names, files = speeds()
    mine = names.index("instants")
    lines = ['set terminal svg size 1040,460 font "DejaVu Sans,sans-serif,13" background "#ffffff"', "set logscale x 10",
             f"set xrange [{LEAST}:{END_OF_MARKS}]", f"set yrange [{len(files) + 0.5}:0.5]", "set grid xtics ytics lt 1 lc rgb '#bbbbbb' lw 0.5",
             f"set object 1 rectangle from {MOST},graph 0 to {END_OF_MARKS},graph 1 behind fc rgb '#dddddd' fs solid noborder",
             f'set label 1 "not measured" at {(MOST * END_OF_MARKS) ** 0.5:.0f},graph 1.04 center',
             'set xtics ("0.1" 0.1, "0.2" 0.2, "0.5" 0.5, "1" 1, "2" 2, "5" 5, "10" 10, "20" 20, "40" 40)',
             f'set xlabel "speed on a logarithmic axis, where that of {names[0]} is 1 (more is faster)\\nthe number after the name of a file is the speed of instants"',
             "set key outside right center vertical Left reverse samplen 1 spacing 1.3",
             "set arrow 1 from 1,graph 0 to 1,graph 1 nohead lw 2 lc rgb '#000000'", "set tics nomirror", "set tmargin 3"]
    marks = ", ".join(f'"{name}: {values[mine]}" {at}'.replace("%", "%%") for at, (name, values) in enumerate(files, 1))
    lines.append(f"set ytics ({marks})")
    plots = []
    # (the marks of others are drawn over the grey ones of `instants`)
    for at in sorted(range(1, len(names)), key=lambda it: it != mine):
        # (`instants` is measured with each file)
        beside = f"{UNMEASURED * STEP ** (at - 1 - (at > mine)):.1f}"
        places = (f"{beside if values[at] == '–' else values[at]} {row}" for row, (_, values) in enumerate(files, 1))
        lines += [f"$p{at} << EOD", *places, "EOD"]
        style = 'ps 1.5 lc rgb "#888888"' if at == mine else 'ps 0.9 lw 1.5 lc rgb "#000000"'
        plots.append(f'$p{at} using 1:2 with points pt {MARKS[at]} {style} title "{names[at]}"')
    return "\n".join([*lines, f"plot {', '.join(plots)}", ""])


def marked(made: str, given: str) -> str:
    """Returns a picture without what depends on the release that made it, after a line with the checksum of what was given."""
    made = re.sub(r"<!--.*?-->\s*|<desc>.*?</desc>\s*|<title>Gnuplot</title>\s*", "", made, flags=re.S)
    head, rest = made.split("<svg", 1)
    return f"{head.strip()}\n<!-- made by tools/pictures.py of {hashlib.sha256(given.encode()).hexdigest()[:16]} -->\n<svg{rest}"


def is_of(picture: pathlib.Path, given: str) -> bool:
    """Returns whether a picture is there and was made of what is given."""
    return picture.exists() and f"tools/pictures.py of {hashlib.sha256(given.encode()).hexdigest()[:16]} -->" in picture.read_text()


def page_with(text: str) -> str:
    """Returns the page of the architecture with the text of the arrows in its place."""
    page = ARCHITECTURE.read_text()
    before, _, rest = page.partition(BEGIN)
    return before + text + rest.partition(END)[2]


def main(words: list[str]) -> int:
    if words not in ([], ["--check"]):
        sys.exit(__doc__)
    crates, script = Crates(), script_of_speeds()
    pictures: dict[pathlib.Path, tuple[str, Callable[[], str]]] = {
        DOCS / "crates.svg": (crates.given(), lambda: picture_of_crates(crates)),
        DOCS / "speed.svg": (script, lambda: run(["gnuplot"], script)),
    }
    old = [it for it, (given, _) in pictures.items() if not is_of(it, given)]
    page = page_with(text_of_crates(crates))
    if words == ["--check"]:
        wrong = [str(it.relative_to(ROOT)) for it in (*old, *([ARCHITECTURE] if ARCHITECTURE.read_text() != page else []))]
        wrong += crossed_boxes((DOCS / "crates.svg").read_text())
        print(f"the pictures are {'not ' if wrong else ''}as the repository has it{': ' if wrong else ''}{', '.join(wrong)}")
        return int(bool(wrong))
    try:
        for it in old:
            given, make = pictures[it]
            it.write_text(marked(make(), given))
    except PictureFailed as fault:
        sys.exit(f"pictures: {fault}")
    ARCHITECTURE.write_text(page)
    return 0


if __name__ == "__main__":
    sys.exit(main(sys.argv[1:]))

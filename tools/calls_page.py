#!/usr/bin/env python3
"""Writes docs/CALLS.md: an index of names; then the public calls and constants of the five named crates, of the programs' crates,
and of crates below those of which docs/PROMISES.md speaks, type by type. Each has the first sentence of its doc comment, and the
clauses of its contract as its source has them.

    tools/calls_page.py            writes it
    tools/calls_page.py --check    says whether it is as it would be written, with status 1 where it is not
"""

import collections
import re
import sys

sys.dont_write_bytecode = True

from page_links import slug
from program import ROOT
from rattle_files import Call, calls_in, exported, name_of

PAGE = ROOT / "docs" / "CALLS.md"
FAMILIES = ("calendar", "datetime", "description", "parsing", "instants", "zones")
# Crates whose calls no named crate gives on, but which have users of their own.
ALONE = (
    "instants_edges",
    "instants_prefixes",
    "instants_found",
    "instants_formats",
    "instants_lines_words",
    "instants_lines",
    "instants_fields",
    "instants_guess",
    "instants_memory",
    "instants_lines_memory",
    "instants_c",
)
# The calls of the crates below these of which PROMISES.md speaks: all that a crate gives on, or some of them.
BELOW = {
    "parsing_combinator": {"above_zeros", "digit_chunk", "nine_digits", "number"},
    "parsing_shapes": {"read_long_numbers"},
    "parsing_values": {"Fields", "Fraction", "Year", "minute_of_day"},
    "parsing_components": {"Record", "read", "read_component", "read_component_v3"},
    "parsing_item_layouts": {"FirstBounds", "FirstBytes"},
    "parsing_item_parts": {"Listed", "ListedAt", "Minutes"},
    "parsing_plan": {"Places", "Plan", "SplitPlaces", "UnixTime", "WholePlaces"},
    "parsing_rfc3339": {"parse_prefix", "read_exact", "begins_with_year", "read_fields", "read_usual_fields", "read_rare_fields", "read_fast"},
    "parsing_rfc2822": {"parse_prefix", "read_exact", "comments_and_white_space", "folding_white_space"},
    "parsing_rfc2822_shapes": {"read_fields", "read_usual_fields", "read_other_fields", "read_fast"},
    "parsing_iso8601": {"parse_prefix"},
    "parsing_iso8601_shapes": {"read_fields", "read_usual_fields", "read_fields_to_minute", "read_rare_fields", "read_fast"},
    "parsing_parsable": {"read_rfc2822", "read_rfc3339", "read_iso8601"},
    "instants_answers": {"Target", "write_fields"},
    "instants_words": {"fault_in_text"},
    "instants_timeline": {"run_over"},
    "instants_stream": {"AnswersLines", "WritesLines", "run_lines", "lines_over", "write_lines"},
    "instants_sources": {"directly_named", "is_no_rfc3339"},
}
# The modules that the crates give on, each with the files or folders where its calls stand.
MODULES = {
    "calendar::util": ("calendar_count/src/util.rt",),
    "calendar::laws": ("calendar/src/laws.rt",),
    "calendar::laws::durations": ("calendar_spans/src/laws.rt",),
    "calendar::laws::times": ("calendar_clock/src/laws.rt",),
    "datetime::laws": ("datetime/src/laws.rt",),
    "description::modifier": ("description_modifiers/src",),
    "description::laws": ("description/src/laws.rt",),
    "description::strftime_laws": ("description_strftime/src/laws.rt",),
    "parsing::laws": ("parsing/src/laws.rt", "parsing/src/node_laws.rt", "parsing/src/two_roads.rt", "parsing/src/descriptions.rt"),
    "parsing_values::date_laws": ("parsing_values/src/date_laws.rt",),
    "parsing_rfc3339::laws": ("parsing_rfc3339/src/laws.rt",),
    "parsing_rfc2822::laws": ("parsing_rfc2822/src/laws.rt",),
    "parsing_parsable::laws": ("parsing_parsable/src/laws.rt",),
    "instants::laws": ("instants/src/laws/lines.rt", "instants/src/laws/moments.rt", "instants_answers/src/laws.rt", "instants_stream/src/laws.rt"),
    "instants_formats::laws": ("instants_formats/src/laws.rt",),
    "instants_found::laws": ("instants_found/src/laws.rt",),
    "instants_lines_words::laws": ("instants_lines_words/src/laws.rt",),
    "instants_lines::laws": ("instants_lines/src/laws.rt",),
    "instants_fields::laws": ("instants_fields/src/laws.rt",),
    "instants_memory::laws": ("instants_memory/src/laws.rt",),
    "zones::laws": ("zones_clock/src/laws.rt",),
}

# The titles of a section with their calls, and the sections by their headings.
Groups = list[tuple[str, list[Call]]]
Sections = list[tuple[str, Groups]]
# The heading of the index.
INDEX = "Index of names"
# The lines of the index are a little longer than this.
WIDTH = 140

HEAD = """\
# The calls, with their contracts

`tools/calls_page.py` writes this page from the sources. First comes the index of names. Then come the five named crates, each with what it re-exports from the crates below it. After them come the crates for dates inside lines, for `instants-lines`, for calls over memory and for C. At the end are those calls of crates below these that [PROMISES.md](PROMISES.md) names.

How to read an entry:

- The line with `///` is the first sentence of the doc comment.
- `requires` is a condition that the caller has to prove. `ensures` is what the call promises. A word after either is the name of the clause.
- `requires*` and `ensures*` are about memory that is lent or handed over. A contract with a `ghost` value holds for every such value.
- `self` and the arguments are the values at the call. `x.now` is what a `&` points to. `x.old` and `x.new` are what a `&mut` points to, before and after the call.
- `≡` is equality, `→` is "implies", `↔` is "if and only if", `×` is "and".
- An entry for an operator has its condition and its result. An entry for `Display` has the bytes that are written where it returns `Ok`. An entry `impl TRAIT for TYPE: fn ..` has what the type promises in addition to the trait.
- A constant has its value here if the value is short; the laws of its crate state the value of the others.

[DEFINITIONS.md](DEFINITIONS.md) explains the words of the clauses. [LIBRARIES.md](LIBRARIES.md) shows how a program uses these crates.
"""


def crates_of(family: str) -> list[str]:
    """Returns the family's crates that have calls of a named crate, that one last."""
    others = re.compile(r"_(tests|rows|bench|check|program)$")
    found = sorted(it.name for it in (ROOT / "crates").glob(f"{family}_*") if not others.search(it.name) and it.name not in ALONE)
    return [*found, family]


def calls_of(crates: list[str], names: set[str]) -> tuple[dict[str, list[Call]], list[Call]]:
    """Returns the calls of crates that are of the named types, by type, and the named calls that are of none."""
    by_type, free = collections.defaultdict(list), []
    for file in [it for crate in crates for it in sorted((ROOT / "crates" / crate / "src").rglob("*.rt"))]:
        for call in calls_in(file):
            if call.of in names:
                by_type[call.of].append(call)
            elif call.of is None and name_of(call) in names:
                free.append(call)
    return by_type, free


def modules_of(crate: str) -> Groups:
    """Returns the modules that a crate gives on, with their calls."""
    named = ((name, [ROOT / "crates" / it for it in places]) for name, places in MODULES.items() if name.split("::")[0] == crate)
    files = ((name, [file for it in places for file in (sorted(it.rglob("*.rt")) if it.is_dir() else [it])]) for name, places in named)
    return [(name, [call for it in found for call in calls_in(it)]) for name, found in files]


def groups_of(family: str) -> Groups:
    """Returns the titles of a family with their calls: its types in order, the calls that are of none, its modules."""
    by_type, free = calls_of(crates_of(family), exported(family))
    groups = [(it, by_type[it]) for it in sorted(by_type)]
    return [*groups, *([(f"{family}::", free)] if free else []), *modules_of(family)]


def groups_alone(crate: str) -> Groups:
    """Returns the same of a crate by itself, whose exports for C are its calls too."""
    exports = {name for it in calls_in(ROOT / "crates" / crate / "src" / "lib.rt") if (name := name_of(it))}
    by_type, free = calls_of([crate], exported(crate) | exports)
    groups = [(f"{crate}::{it}", by_type[it]) for it in sorted(by_type)]
    return [*([(f"{crate}::", free)] if free else []), *groups, *modules_of(crate)]


def groups_below() -> Groups:
    """Returns the same of the crates below, as far as they are spoken of."""
    groups = []
    for crate, names in BELOW.items():
        by_type, free = calls_of([crate], names)
        groups += [*([(f"{crate}::", free)] if free else []), *((f"{crate}::{it}", by_type[it]) for it in sorted(by_type)), *modules_of(crate)]
    return groups


def sections() -> Sections:
    """Returns the page's sections in order, each with its groups."""
    named = [(f"`{it}`", groups_of(it)) for it in FAMILIES]
    alone = [(f"`{it}`", groups_alone(it)) for it in ALONE]
    return [*named, *alone, ("Below these crates", groups_below())]


def entry_of(call: Call) -> list[str]:
    """Returns the page's lines for a call."""
    return [*([f"/// {call.doc}"] if call.doc else []), call.written, *call.clauses]


def blocks_of(head: str, groups: Groups) -> list[str]:
    """Returns the page's lines for a section."""
    lines = [f"## {head}", ""]
    for title, calls in groups:
        lines += [f"### `{title}`", "", "```text", *(line for it in calls for line in entry_of(it)), "```", ""]
    return lines


def places_of(found: Sections) -> dict[tuple[int, int], str]:
    """Returns where the link to each group leads, by the number of its section and its own, as the headings of the page are counted."""
    taken = collections.Counter({slug(HEAD.split("\n")[0][2:]): 1, slug(INDEX): 1})
    places: dict[tuple[int, int], str] = {}

    def place(heading: str) -> str:
        name = slug(heading)
        taken[name] += 1
        return name if taken[name] == 1 else f"{name}-{taken[name] - 1}"

    for at, (head, groups) in enumerate(found):
        place(head)
        places |= {(at, number): place(f"`{title}`") for number, (title, _) in enumerate(groups)}
    return places


def index_of(found: Sections) -> list[str]:
    """Returns the lines of the index: of each section the groups, and then each name with the groups that have it."""
    lines, places = [f"## {INDEX}", ""], places_of(found)
    for at, (head, groups) in enumerate(found):
        links = [f"[`{title}`](#{places[at, number]})" for number, (title, _) in enumerate(groups)]
        having: dict[str, list[tuple[str, str]]] = collections.defaultdict(list)
        for number, (title, calls) in enumerate(groups):
            for name in sorted({name for it in calls if (name := name_of(it))}):
                having[name].append((title, places[at, number]))
        names = [name_link(name, having[name]) for name in sorted(having)]
        lines += [f"**{head}**:", *filled(links, ","), "", *filled(names, " ·"), ""]
    return lines


def filled(pieces: list[str], between: str) -> list[str]:
    """Returns pieces in lines of some length, so that a search shows few of them."""
    lines = [""]
    for at, piece in enumerate(pieces, 1):
        lines[-1] += f"{' ' if lines[-1] else ''}{piece}{between if at < len(pieces) else ''}"
        if len(lines[-1]) > WIDTH:
            lines.append("")
    return lines if lines[-1] else lines[:-1]


def name_link(name: str, having: list[tuple[str, str]]) -> str:
    """Returns the links of a name: itself where one group has it, and otherwise those of the groups after it."""
    if len(having) == 1:
        return f"[{name}](#{having[0][1]})"
    return f"{name} ({', '.join(f'[{title}](#{place})' for title, place in having)})"


def page() -> str:
    found = sections()
    lines = [*index_of(found), *(line for it in found for line in blocks_of(*it))]
    return HEAD + "\n" + "\n".join(lines).rstrip() + "\n"


def main(words: list[str]) -> int:
    written = page()
    if words == ["--check"]:
        is_current = PAGE.exists() and PAGE.read_text() == written
        print(f"{PAGE.relative_to(ROOT)} is {'as' if is_current else 'not as'} the sources have it")
        return int(not is_current)
    PAGE.write_text(written)
    return 0


if __name__ == "__main__":
    sys.exit(main(sys.argv[1:]))

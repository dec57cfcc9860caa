#!/usr/bin/env python3
"""Says which words of the tables of descriptions docs/DESCRIPTIONS.md leaves out, each as the code has it: components; of each
component its modifiers and their values; the letters, flags and refused signs of strftime. It reads the columns that tell what
can be written, not the examples. The status is 1 where a word is missing."""

import collections
import re
import sys
from collections.abc import Iterator

sys.dont_write_bytecode = True

from program import ROOT, sure

TABLES = ROOT / "crates" / "description_tables" / "src"
LETTERS = ROOT / "crates" / "description_strftime" / "src"
PAGE = ROOT / "docs" / "DESCRIPTIONS.md"
EXAMPLES = ("example", "line", "answer")
# The table of values.rt that has a modifier's values.
VALUES = {
    "padding": "PADDINGS",
    "case_sensitive": "FLAGS",
    "one_indexed": "FLAGS",
    "base": "BASES",
    "sign": "SIGNS",
    "range": "RANGES",
    "case": "CASES",
    "digits": "DIGIT_COUNTS",
    "precision": "PRECISIONS",
    "trailing_input": "TRAILING_INPUTS",
}


def named(file: str, kind: str) -> dict[str, str]:
    """Returns the word of each variant of a table, by the variant."""
    return {variant: word for word, variant in re.findall(rf'\("([^"]+)", {kind}::(\w+)\)', (TABLES / file).read_text())}


def values_of(component: str, key: str) -> list[str]:
    """Returns the words that a component's modifier can have."""
    variant = "".join(it.capitalize() for it in component.split("_"))
    begins = rf"Name::{variant} => &\[" if key == "repr" else rf"static {VALUES[key]}: [^=]*= \["
    return re.findall(r'\("([^"]+)", ', sure(re.search(rf"{begins}.*?\](?:,\n|;)", (TABLES / "values.rt").read_text(), re.S))[0])


def modifiers() -> dict[str, list[str]]:
    """Returns the modifiers of each component."""
    names, keys = named("names.rt", "Name"), named("keys.rt", "Key")
    found: dict[str, list[str]] = {}
    body = (TABLES / "keys.rt").read_text().partition("pub fn has_key")[2]
    for key, listed in re.findall(r"Key::(\w+) => matches!\(\s*name,([^)]*)\)", body):
        for name in re.findall(r"Name::(\w+)", listed):
            found.setdefault(names[name], []).append(keys[key])
    return {it: found.get(it, []) for it in names.values()}


def rows_of(text: str) -> list[dict[str, str]]:
    """Returns the rows of the page's tables, each by its columns, without the examples."""
    rows: list[dict[str, str]] = []
    head: list[str] | None = None
    for line in text.split("\n"):
        cells = [it.strip() for it in re.split(r"(?<!\\)\|", line)[1:-1]]
        if not cells or re.fullmatch(r"[-|]+", line):
            head = head if cells else None
        elif head is None:
            head = cells
        else:
            rows.append({key: it for key, it in zip(head, cells) if key not in EXAMPLES})
    return rows


def words_in(text: str) -> set[str]:
    """Returns the words of a text's spans of code."""
    return {word for span in re.findall(r"`([^`]+)`", text) for word in re.findall(r"[a-z_0-9+]+", span)}


def missing_words(rows: list[dict[str, str]]) -> Iterator[str]:
    told: dict[str, str] = collections.defaultdict(str)
    component = ""
    for row in rows:
        if "component" in row:
            component = row["component"].strip("`[]") or component
            told[component] += " ".join(it for key, it in row.items() if key != "component")
    paddings = words_in(" ".join(it.get("`padding`", "") for it in rows))
    for name, keys in modifiers().items():
        if name not in told:
            yield f"component {name}"
        there = words_in(told[name])
        there |= {str(it) for it in range(1, 10)} if "`1` to `9`" in told[name] else set()
        for key in keys:
            if key not in there:
                yield f"modifier {key} of {name}"
            due = [] if key == "count" else values_of(name, key)
            yield from (f"value {it} of {key} of {name}" for it in due if it not in (paddings if key == "padding" else there))


def missing_letters(rows: list[dict[str, str]]) -> Iterator[str]:
    told = " ".join(it.get("letter", "") + it.get("written", "") for it in rows)
    flags = {it["flag"].strip("`") for it in rows if "flag" in it}
    for file in ("letters.rt", "numbers.rt"):
        for letter in re.findall(r"b'(.)'", (LETTERS / file).read_text()):
            if f"%{letter}" not in told and letter not in flags:
                yield f"letter %{letter}"


def missing_nesting(rows: list[dict[str, str]]) -> list[str]:
    told = " ".join(it.get("written", "") for it in rows)
    heads = (ROOT / "crates" / "description_grammar" / "specs" / "Spelling.antt").read_text()
    return [f"nesting {it}" for it in re.findall(r'SpellsNesting v \(codes "(\w+)"\)', heads) if f"[{it} " not in told]


def main() -> int:
    rows = rows_of(PAGE.read_text())
    missing = [*missing_words(rows), *missing_nesting(rows), *missing_letters(rows)]
    print("\n".join([*missing, f"{len(missing)} words missing"]))
    return int(bool(missing))


if __name__ == "__main__":
    sys.exit(main())

#!/usr/bin/env python3
"""Writes the tables of dates inside lines of docs/FORMATS.md from the table of formats that have a name.

    tools/formats_page.py            writes them
    tools/formats_page.py --check    says whether they are as they would be written, with status 1 where they are not

Above each entry of crates/instants_formats/src/table.rt stand the programs that write the format, a line, and the key of that
line. One table has for each format the arguments with its name; the other has the language and the description that the name
stands for, and says what the lines lack, and whether their programs write local time. `\\t` in a line is a tab.
"""

import pathlib
import re
import sys
from collections.abc import Iterator

ROOT = pathlib.Path(__file__).resolve().parent.parent
PAGE = ROOT / "docs" / "FORMATS.md"
TABLE = ROOT / "crates" / "instants_formats" / "src" / "table.rt"
BEGINS, ENDS = "<!-- tools/formats_page.py begins -->", "<!-- tools/formats_page.py ends -->"
ENTRY = re.compile(
    r"((?:    // [^\n]*\n)+)    Format \{\n"
    r'        name: "([^"]*)",\n'
    r'        language: "([^"]*)",\n'
    r'        description: "((?:[^"\\]|\\.)*)",\n'
    r"        lacks: Lacking::(\w+),\n"
    r"    \},\n"
)
NAMES = (
    "A name is the same as the two words that it stands for. Where the lines are local time, a place whose clocks change in spring and autumn needs its "
    "[zone](GUIDE.md#a-zone-in-place-of-an-offset) in place of an offset, as `+00:00 Europe/Berlin syslog`; machines and containers that are set to UTC need `+00:00`."
)
# The arguments before the name, where lines lack something.
GIVEN = {
    "Nothing": "",
    "Utc": "+00:00 +00:00 ",
    "Offset": "+00:00 +00:00 ",
    "YearAndOffset": "+00:00 +00:00 year 2024 ",
    "TimeAndOffset": "+00:00 +00:00 time 00:00 ",
}
# Which time is written where lines lack the offset: local time, that of the clock where the program runs, but for these.
CLOCKS = {
    "cloudfront": "UTC",
    "openssl": "UTC",
    "mysql": "local time, but UTC by IIS and Laravel",
    "php": "the time of a zone that is named after it",
    "cisco-asa": "the time that the device is set to",
    "logcat": "the time of the device's zone",
}
# What lines lack, in words.
LACKING = {
    "Nothing": "",
    "Utc": "the offset, which is +00:00: their text says UTC",
    "Offset": "the offset",
    "YearAndOffset": "the year and the offset",
    "TimeAndOffset": "the time of day and the offset",
}


def entries() -> Iterator[tuple[str, str, str, str, str, str, str]]:
    """Returns of each format its programs, a line, its key, its name, its language, its description, and what its lines lack."""
    text = TABLE.read_text()
    found = ENTRY.findall(text)
    if len(found) != text.count("    Format {"):
        sys.exit(f"{TABLE.name}: an entry has another form")
    for comment, name, language, description, lacks in found:
        lines = [line.removeprefix("    // ") for line in comment.splitlines()]
        key, line = lines.pop().strip(), lines.pop().removeprefix("    ")
        description = re.sub(r"\\(.)", r"\1", description)
        yield " ".join(lines).removesuffix("."), line, key, name, language, description, lacks


def lacking(name: str, lacks: str) -> str:
    """Returns what the lines of a format lack, and which time they write then."""
    is_local = lacks not in ("Nothing", "Utc")
    return f"{LACKING[lacks]}; {CLOCKS.get(name, 'local time')}" if is_local else LACKING[lacks]


def cell(text: str) -> str:
    """Returns a text as code in a cell of a table."""
    return "`" + text.replace("|", "\\|") + "`"


def tables() -> str:
    """Returns the two tables."""
    by_line = ["| format | arguments | line | key |", "|---|---|---|---|"]
    by_name = ["| name | language and description | what its lines do not say |", "|---|---|---|"]
    for programs, line, key, name, language, description, lacks in entries():
        by_line.append(f"| {programs} | {cell(GIVEN[lacks] + name)} | {cell(line)} | {cell(key)} |")
        words = f"{language} '{description}'"
        by_name.append(f"| {cell(name)} | {cell(words)} | {lacking(name, lacks)} |")
    return "\n".join(by_line) + "\n\n" + NAMES + "\n\n" + "\n".join(by_name) + "\n"


def main(words: list[str]) -> int:
    text = PAGE.read_text()
    if text.count(BEGINS) != 1 or text.count(ENDS) != 1:
        sys.exit(f"{PAGE.name}: there is no place for the tables")
    before, rest = text.split(BEGINS)
    new = f"{before}{BEGINS}\n\n{tables()}\n{ENDS}{rest.split(ENDS)[1]}"
    if words == ["--check"]:
        print(f"docs/FORMATS.md is {'as' if new == text else 'not as'} the table of formats has it")
        return int(new != text)
    PAGE.write_text(new)
    return 0


if __name__ == "__main__":
    sys.exit(main(sys.argv[1:]))

#!/usr/bin/env python3
"""Writes the manual page docs/instants-descriptions.7 from docs/DESCRIPTIONS.md.

    tools/description_page.py            writes it
    tools/description_page.py --check    says whether it is as it would be written, with status 1 where it is not
"""

import pathlib
import re
import sys
import textwrap

ROOT = pathlib.Path(__file__).resolve().parent.parent
SOURCE, PAGE = ROOT / "docs" / "DESCRIPTIONS.md", ROOT / "docs" / "instants-descriptions.7"

HEAD = r"""\
.\" Written by tools/description_page.py from docs/DESCRIPTIONS.md.
.Dd November 25, 2026
.Dt INSTANTS-DESCRIPTIONS 7
.Os
.Sh NAME
.Nm instants-descriptions
.Nd what can be written in a description of a line with a date
.Sh DESCRIPTION
"""
TAIL = r"""
.Sh SEE ALSO
.Xr instants 1 ,
.Xr instants-lines 1 ,
.Xr strftime 3
"""


def escaped(text: str) -> str:
    """Returns a text as a manual page writes it."""
    return text.replace("\\", r"\e").replace("-", r"\-").replace("'", r"\(aq").replace("^", r"\(ha").replace("~", r"\(ti").replace("…", "...")


def quoted(text: str) -> str:
    """Returns text as the argument of a macro."""
    text = escaped(text).replace('"', r"\(dq")
    # (a word as %A is a macro's name)
    text = rf"\&{text}" if text.startswith("%") else text
    # (a mark at the end would be taken for one after the argument)
    return f'"{text}{chr(92)}&"' if text[-1:] in ".,:;)]?!" else f'"{text}"'


def prose(text: str) -> list[str]:
    """Returns the lines of a paragraph, each span of code as a literal of its own."""
    text = re.sub(r"\[([^\]]*)\]\([^)]*\)", r"\1", text.replace("**", "")) if "`[" not in text else text.replace("**", "")
    lines: list[str] = []
    pieces = re.split(r"`([^`]+)`", text)
    for at, piece in enumerate(pieces):
        if at % 2:
            # (what follows without a space between belongs to the literal's line)
            behind = re.match(r"[.,:;)]+", pieces[at + 1]) if at + 1 < len(pieces) else None
            marks = " ".join(behind[0]) if behind else ""
            lines.append(f".Ql {quoted(piece)} {marks}".rstrip())
            if behind:
                pieces[at + 1] = pieces[at + 1][behind.end() :]
        elif piece.strip():
            for sentence in re.split(r"(?<=[.:]) (?=[A-Z])", piece.strip()):
                lines += textwrap.wrap(escaped(sentence), 78, break_long_words=False, break_on_hyphens=False)
    return [re.sub(r"^([.'])", r"\\&\1", it) if not it.startswith(".Ql") else it for it in lines]


def cells_of(row: str) -> list[str]:
    return [it.strip() for it in re.split(r"(?<!\\)\|", row.strip())[1:-1]]


def table(rows: list[list[str]]) -> list[str]:
    """Returns a table as a list: a row's first cells as the tag, then what is read, then its example."""
    head, *rows = rows
    lines = [".Bl -tag -width Ds"]
    tags = 2 if "modifiers and values, the default first" in head else 1
    for row in rows:
        cells = dict(zip(head, row))
        tag = [it.replace("`", "") for it in row[:tags] if it]
        lines.append(f".It {quoted('  '.join(tag))}" if tag else ".It \"(the same)\"")
        told = [cells[it] for it in head[tags:] if it not in ("example", "line", "answer") and cells[it]]
        lines += prose("; ".join(told) + ".") if told else []
        if cells.get("example"):
            lines += ["In", f".Ql {quoted(cells['example'].strip('`'))}", "it reads", f".Ql {quoted(cells['line'].strip('`'))} ."]
    return [*lines, ".El"]


def page(text: str) -> str:
    """Returns the page that a text of Markdown makes."""
    lines: list[str] = []
    for block in re.split(r"\n\n+", text.strip())[1:]:
        first = block.split("\n")[0]
        if first.startswith("## "):
            lines.append(f".Ss {first[3:]}")
        elif first.startswith("|"):
            rows = [cells_of(it) for it in block.split("\n")]
            lines += table([rows[0], *rows[2:]])
        else:
            lines += [] if not lines or lines[-1].startswith(".Ss") else [".Pp"]
            lines += prose(" ".join(block.split("\n")))
    return HEAD.removeprefix("\\\n") + "\n".join(lines) + TAIL


def main(words: list[str]) -> int:
    written = page(SOURCE.read_text())
    if words == ["--check"]:
        is_current = PAGE.exists() and PAGE.read_text() == written
        print(f"{PAGE.relative_to(ROOT)} is {'as' if is_current else 'not as'} docs/DESCRIPTIONS.md has it")
        return int(not is_current)
    PAGE.write_text(written)
    return 0


if __name__ == "__main__":
    sys.exit(main(sys.argv[1:]))

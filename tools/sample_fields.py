#!/usr/bin/env python3
"""Rows at random of lines and their fields, with what Python's json and csv find in them: the rows of
crates/instants_fields_tests are drawn from these.

    tools/sample_fields.py members COUNT SEED    LINE<tab>NAME<tab>what stands in the line, or `none`
    tools/sample_fields.py columns COUNT SEED    LINE<tab>NUMBER<tab>SEPARATOR<tab>the column, or `none`
    tools/sample_fields.py dates COUNT SEED      WORDS, with bars between them, <tab>LINE<tab>what mode `locate` writes

The dates are those of crates/instants_tests/src/parts.rt: each line has several, which differ, and the one that is found is that
of the field or the column that Python reads.
"""

import csv
import io
import json
import random
import sys

NAMES = ["time", "ts", "a", "", "t\u00e9", "\U0001f600", 'q"', "b\\", "n\n"]
TEXTS = ["2021-01-02T03:04:05Z", "x", "", "a b", "\u00fc", "tab\t", 'say "so"']


def value(draw: random.Random, levels: int) -> object:
    kind = draw.randrange(8 if levels else 6)
    if kind < 2:
        return draw.choice(TEXTS)
    if kind == 2:
        return draw.choice([0, -1, 1609556645, 1.5, 2e9, -0.25])
    if kind < 6:
        return draw.choice([True, False, None])
    if kind == 6:
        return [value(draw, levels - 1) for _ in range(draw.randrange(3))]
    return {draw.choice(NAMES): value(draw, levels - 1) for _ in range(draw.randrange(3))}


def members(draw: random.Random) -> tuple[str, str, str]:
    pairs = [(draw.choice(NAMES), value(draw, 2)) for _ in range(draw.randrange(4))]
    ascii_only = draw.random() < 0.5
    gap = draw.choice([",", ", ", " ,\t"])
    line = "{" + gap.join(json.dumps(n, ensure_ascii=ascii_only) + ":" + json.dumps(v, ensure_ascii=ascii_only) for n, v in pairs) + "}"
    if draw.random() < 0.3:
        place = draw.randrange(len(line))
        line = line[:place] + draw.choice([",", "}", '"', "\\", "0", ""]) + line[place + 1 :]
    name = draw.choice(NAMES)
    try:
        found = [v for n, v in json.loads(line, object_pairs_hook=lambda p: p) if n == name]
    except (ValueError, TypeError):
        return line, name, "none"
    if not found or isinstance(found[0], (bool, list, dict)) or found[0] is None:
        return line, name, "none"
    return line, name, json.dumps(found[0])


def columns(draw: random.Random) -> tuple[str, str, str]:
    separator = draw.choice(",;|\t")
    cells = [draw.choice(["", "a", 'say "so"', "a,b", "c;d", "2021-01-02 03:04:05", "x|y"]) for _ in range(draw.randrange(1, 5))]
    if separator == "\t":
        line = "\t".join(cells)
        rows = [line.split("\t")]
    else:
        text = io.StringIO()
        csv.writer(text, delimiter=separator, lineterminator="").writerow(cells)
        line = text.getvalue()
        rows = list(csv.reader([line], delimiter=separator, strict=True))
    number = draw.randrange(1, 6)
    found = rows[0][number - 1] if number <= len(rows[0]) else "none"
    return line, f"{number}\t{separator!r}", found


def dated(at: int) -> str:
    return f"2021-01-{at + 1:02}T03:04:05Z"


def found(line: str, text: str) -> str:
    """Returns what is written where the date is found in the text that Python reads."""
    at = [it for it in range(28) if dated(it) in text]
    if not at:
        return "! none"
    start = line.index(dated(at[0]))
    return f"{dated(at[0])[:-1]}.000000000Z\t1\t{start + 1}-{start + len(dated(at[0]))}"


def dates(draw: random.Random) -> tuple[str, str, str]:
    texts = [f"{draw.choice(['', 'x ', 'a, '])}{dated(it)}{draw.choice(['', ' up', ',b'])}" for it in range(draw.randrange(1, 4))]
    if draw.random() < 0.5:
        pairs = [(draw.choice(NAMES[:4]), it) for it in texts]
        line, name = json.dumps(dict(pairs)), draw.choice(NAMES[:4])
        return f"field|{name}|rfc3339", line, found(line, str(json.loads(line).get(name, "")))
    out, separator, number = io.StringIO(), draw.choice(",;"), draw.randrange(1, 4)
    csv.writer(out, delimiter=separator, lineterminator="").writerow(texts)
    row = next(csv.reader([out.getvalue()], delimiter=separator, strict=True))
    return f"column|{number}|separator|{separator}|rfc3339", out.getvalue(), found(out.getvalue(), row[number - 1] if number <= len(row) else "")


SAMPLES = {"members": members, "columns": columns, "dates": dates}


def main() -> None:
    what, count, seed = sys.argv[1], int(sys.argv[2]), int(sys.argv[3])
    draw = random.Random(seed)
    for _ in range(count):
        print("\t".join(repr(part) for part in SAMPLES[what](draw)))


if __name__ == "__main__":
    main()

"""Parts of lines, made at random, for tools/try_model.py: words that name a field or a column, and lines that have it."""

import json
import random
from typing import NamedTuple

NAMES = ["time", "ts", "@timestamp", "eventTime", "", "t\u00e9", "\U0001f600", 'q"', "b\\", "a\nb"]
SEPARATORS = [",", ",", ";", "tab", "|", " ", ":"]
OTHERS = ["", "x", "17", "a, b", "c;d", 'say "so"', "2019-05-01T00:00:00Z", "10:00:00", "x|y", "\u00fc", "tab\there"]


class PartWords(NamedTuple):
    """The words for a part; the name of a field, or the number of a column, from 1, and the byte between columns."""

    words: tuple[str, ...]
    name: str | None
    number: int
    separator: str


def some_part(rng: random.Random) -> PartWords:
    if rng.random() < 0.5:
        name = rng.choice(NAMES)
        return PartWords(("field", name), name, 0, "")
    number, separator = rng.choice([1, 2, 2, 3, 5]), rng.choice(SEPARATORS)
    words = ("column", str(number)) if separator == "," and rng.random() < 0.5 else ("column", str(number), "separator", separator)
    return PartWords(words, None, number, "\t" if separator == "tab" else separator)


# ---- lines in JSON


def string(rng: random.Random, text: bytes) -> bytes:
    """Returns a text as a string of JSON; a quotation mark, a backslash and a control byte are escaped, and others now and then."""
    often = rng.random() < 0.1
    marks = {b: b"\\%c" % b for b in b'"\\'} | {10: b"\\n", 9: b"\\t"}
    said = [marks.get(b) or (b"\\u%04x" % b if b < 32 or (often and b < 128 and rng.random() < 0.1) else bytes([b])) for b in text]
    return b'"' + b"".join(said) + b'"'


def value(rng: random.Random, levels: int) -> bytes:
    kind = rng.randrange(9 if levels else 6)
    if kind < 3:
        return string(rng, rng.choice(OTHERS).encode())
    if kind < 6:
        return rng.choice([b"0", b"-1.5e3", b"1714550400", b"true", b"null", b"1714550400.25"])
    if kind == 6:
        return b"[" + b",".join(value(rng, levels - 1) for _ in range(rng.randrange(3))) + b"]"
    if kind == 7:
        return b"[" * 126 + b"]" * 126 if rng.random() < 0.1 else b"[]"
    return b"{" + b",".join(string(rng, rng.choice(NAMES).encode()) + b":" + value(rng, levels - 1) for _ in range(rng.randrange(3))) + b"}"


def name_of(rng: random.Random, name: str) -> bytes:
    return json.dumps(name, ensure_ascii=rng.random() < 0.3).encode()


def in_field(rng: random.Random, part: PartWords, text: bytes) -> bytes:
    """Returns a line in JSON in which a member of the name has a text as its value, or now and then none or several."""
    gap, colon = rng.choice([b",", b", ", b" ,\t"]), rng.choice([b":", b": ", b" : "])
    pairs = [(name_of(rng, rng.choice(NAMES)), value(rng, 2)) for _ in range(rng.choice([0, 1, 1, 2, 4]))]
    is_number = text.isdigit() and rng.random() < 0.7
    own = (name_of(rng, part.name or ""), text if is_number else string(rng, text))
    for _ in range(rng.choice([0, *[1] * 14, 2])):
        pairs.insert(rng.randrange(len(pairs) + 1), own)
    line = b"{" + gap.join(name + colon + said for name, said in pairs) + b"}"
    return rng.choice([b"", b"", b"", b" ", b"\t"]) + line + rng.choice([b"", b"", b"", b"\r", b" ", b"x"])


# ---- lines in columns


def cell(rng: random.Random, part: PartWords, text: bytes) -> bytes:
    """Returns a text as a column, in quotation marks where it has to be, and now and then where not."""
    separator = part.separator.encode()
    if part.separator == "\t":
        return text.replace(separator, b" ")
    is_marked = separator in text or text[:1] == b'"' or rng.random() < 0.25
    return b'"' + text.replace(b'"', b'""') + b'"' if is_marked else text


def in_column(rng: random.Random, part: PartWords, text: bytes) -> bytes:
    count = part.number - 1 + rng.choice([0, 1, 1, 1, 1, 2, 3])
    cells = [text if at == part.number - 1 else rng.choice(OTHERS).encode() for at in range(count)]
    return part.separator.encode().join(cell(rng, part, it) for it in cells) + rng.choice([b"", b"", b"\r"])


def in_part(rng: random.Random, part: PartWords, text: bytes) -> bytes:
    """Returns a line whose part is mostly this text."""
    if rng.random() < 0.03:
        return text
    line = (in_column if part.name is None else in_field)(rng, part, text).replace(b"\n", b" ")
    if rng.random() < 0.08:
        at = rng.randrange(len(line) + 1)
        line = line[:at] + rng.choice([b'"', b"\\", b",", b"}", b"{", b"\\u00", b"x", b""]) + line[at + rng.randrange(2) :]
    if rng.random() < 0.001:
        line += rng.choice([b" ", b"x"]) * (1_048_576 - len(line) + rng.choice([-1, 0, 1, 2]))
    return line

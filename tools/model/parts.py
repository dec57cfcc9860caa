"""The part of a line in which its date is looked for: the value of a member of an object in JSON, or a column."""

import json
from typing import Any, NamedTuple

LONGEST, LEVELS = 1_048_576, 127
# How many bytes after a date an escape puts it in doubt.
NEAR = 16
SPACE = " \t\n\r"


class Part(NamedTuple):
    """A field by its name, or a column by its number, from 1, and the byte between columns."""

    field: str | None
    number: int = 0
    separator: bytes = b","


class Place(NamedTuple):
    """Where a part lies in a line, and whether another member of its name follows."""

    start: int
    end: int
    repeats: bool = False


# ---- members


def refuse(word: str) -> Any:
    raise ValueError(word)


# Python's own reading; of an object the values alone are kept.
READER = json.JSONDecoder(parse_int=lambda _: 0, parse_float=lambda _: 0.0, parse_constant=refuse, object_pairs_hook=lambda pairs: [it for _, it in pairs])


def depth_of(value: object) -> int:
    return 1 + max((depth_of(it) for it in value), default=0) if isinstance(value, list) else 0


def after_space(text: str, at: int) -> int:
    while at < len(text) and text[at] in SPACE:
        at += 1
    return at


def after_byte(text: str, at: int, byte: str) -> int:
    if text[at : at + 1] != byte:
        raise ValueError(f"no {byte} at {at}")
    return at + 1


def name_at(text: str, at: int) -> tuple[str, int]:
    """Returns the name that begins at a place, and the place after it. A byte that is of no UTF-8 is one of no name."""
    after_byte(text, at, '"')
    end = READER.raw_decode(text, at)[1]
    return json.loads(text[at:end].encode("latin-1").decode("utf-8", "surrogateescape")), end


def members(text: str) -> list[tuple[str, int, int]]:
    """Returns the name of each member of the object that a text is, and where its value begins and ends, or raises ValueError."""
    at, all_of_them = after_space(text, after_byte(text, after_space(text, 0), "{")), []
    is_last = text[at : at + 1] == "}"
    while not is_last:
        name, at = name_at(text, after_space(text, at))
        start = after_space(text, after_byte(text, after_space(text, at), ":"))
        value, at = READER.raw_decode(text, start)
        if depth_of(value) >= LEVELS:
            raise ValueError("too deep")
        all_of_them.append((name, start, at))
        at = after_space(text, at)
        is_last = text[at : at + 1] == "}"
        at = at if is_last else after_byte(text, at, ",")
    if after_space(text, at + 1) != len(text):
        raise ValueError(f"more at {at + 1}")
    return all_of_them


def member(line: bytes, name: str) -> Place | None:
    """Returns where the value of the first member of a name lies, if that is a string or a number."""
    text = line.decode("latin-1")
    try:
        named = [it for it in members(text) if it[0] == name]
    except (ValueError, RecursionError):
        return None
    if not named:
        return None
    _, start, end = named[0]
    if text[start] == '"':
        return Place(start + 1, end - 1, len(named) > 1)
    return Place(start, end, len(named) > 1) if text[start] in "-0123456789" else None


# ---- columns


def after_mark(text: bytes, at: int) -> int | None:
    """Returns the place of the quotation mark that closes a column, or None; two of them are one that belongs to the column."""
    at = text.find(b'"', at)
    while at >= 0 and text[at : at + 2] == b'""':
        at = text.find(b'"', at + 2)
    return at if at >= 0 else None


def column_at(text: bytes, at: int, separator: bytes) -> tuple[Place, int] | None:
    """Returns where a column lies that begins at a place, and the place after it, or None."""
    if separator == b"\t" or text[at : at + 1] != b'"':
        end = text.find(separator, at)
        end = len(text) if end < 0 else end
        return Place(at, end), end
    close = after_mark(text, at + 1)
    return None if close is None else (Place(at + 1, close), close + 1)


def column(line: bytes, number: int, separator: bytes) -> Place | None:
    text, at = line.removesuffix(b"\r"), 0
    for _ in range(number - 1):
        cut = column_at(text, at, separator)
        if cut is None or text[cut[1] : cut[1] + 1] != separator:
            return None
        at = cut[1] + 1
    cut = column_at(text, at, separator)
    return cut[0] if cut and text[cut[1] : cut[1] + 1] in (b"", separator) else None


# ---- a part


def place_of(part: Part, line: bytes) -> Place | None:
    """Returns where a part lies in a line, or None."""
    if len(line) > LONGEST:
        return None
    return column(line, part.number, part.separator) if part.field is None else member(line, part.field)


def has_escape(part: Part, text: bytes, start: int, end: int) -> bool:
    """Whether an escape begins in a date of a field or among the bytes after it."""
    return part.field is not None and b"\\" in text[start : end + NEAR]

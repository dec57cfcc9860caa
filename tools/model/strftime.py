"""Descriptions by the letters of strftime."""

import re
from dataclasses import replace

from .components import Component, Items, Literal, Part
from .faults import Faulty

FLAGS = {b"_": "space", b"-": "none", b"0": "zero"}
# Numbers: the component of each letter, and how it is padded where there is no flag.
NUMBERS = {
    b"d": (Component("day"), "zero"),
    b"e": (Component("day"), "space"),
    b"j": (Component("ordinal"), "zero"),
    b"m": (Component("month"), "zero"),
    b"U": (Component("week_sunday"), "zero"),
    b"V": (Component("week_iso"), "zero"),
    b"W": (Component("week_monday"), "zero"),
    b"C": (Component("century", is_extended=True), "zero"),
    b"g": (Component("iso_last_two"), "zero"),
    b"G": (Component("iso_year", is_extended=True), "zero"),
    b"y": (Component("last_two"), "zero"),
    b"Y": (Component("year", is_extended=True), "zero"),
    b"H": (Component("hour_24"), "zero"),
    b"k": (Component("hour_24"), "space"),
    b"I": (Component("hour_12"), "zero"),
    b"l": (Component("hour_12"), "space"),
    b"M": (Component("minute"), "zero"),
    b"S": (Component("second"), "zero"),
}
UNPADDED = {
    b"a": Component("weekday_short"),
    b"A": Component("weekday_long"),
    b"b": Component("month_short"),
    b"h": Component("month_short"),
    b"B": Component("month_long"),
    b"p": Component("period"),
    b"P": Component("period", is_upper=False),
    b"s": Component("unix"),
    b"u": Component("weekday_monday"),
    b"w": Component("weekday_sunday", from_one=False),
}
TEXTS = {b"n": b"\n", b"t": b"\t", b"%": b"%"}
OFFSET = (Part(Component("offset_hour", is_signed=True)), Part(Component("offset_minute")))
COMPOSITES = {
    b"c": b"%a %b %e %H:%M:%S %Y",
    b"D": b"%m/%d/%y",
    b"x": b"%m/%d/%y",
    b"F": b"%Y-%m-%d",
    b"r": b"%I:%M:%S %p",
    b"R": b"%H:%M",
    b"T": b"%H:%M:%S",
    b"X": b"%H:%M:%S",
}
UNSUPPORTED = {b"E": b"alternative form", b"O": b"alternative form", b"Z": b"zone name", b"^": b"flag", b"#": b"flag"}


def letter_items(flag: str | None, letter: bytes) -> Items | None:
    """Returns the items that a letter stands for under a flag, or None."""
    if letter in NUMBERS:
        component, padding = NUMBERS[letter]
        return (Part(replace(component, padding=flag or padding)),)
    if letter in UNPADDED:
        return (Part(UNPADDED[letter]),)
    if letter in TEXTS:
        return (Literal(TEXTS[letter]),)
    if letter == b"z":
        return OFFSET
    return items_of(COMPOSITES[letter]) if letter in COMPOSITES else None


def refusal(text: bytes, at: int) -> Faulty:
    """Returns the fault of the character at a place, which stands for nothing."""
    letter = text[at : at + 1]
    if letter in UNSUPPORTED:
        return Faulty(UNSUPPORTED[letter] + b" is not supported in strftime", at)
    character = re.compile(rb"(?s:.)[\x80-\xbf]*").match(text, at)
    return Faulty(b"invalid component name `" + (character[0] if character else b"") + b"`", at)


def items_of(text: bytes) -> Items:
    """Returns the items that a whole text spells, or raises its first fault."""
    items: Items = ()
    at = 0
    while at < len(text):
        start = at
        if text[at : at + 1] != b"%":
            at = (text + b"%").index(b"%", at)
            items += (Literal(text[start:at]),)
            continue
        flag = FLAGS.get(text[at + 1 : at + 2])
        at += 2 if flag else 1
        if at == len(text):
            raise Faulty(b"expected component letter", start)
        meant = letter_items(flag, text[at : at + 1])
        if meant is None:
            raise refusal(text, at)
        items, at = items + meant, at + 1
    return items

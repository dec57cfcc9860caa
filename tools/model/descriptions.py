"""Descriptions of versions 1, 2 and 3: the items that a text spells, or its first fault."""

import re
from collections.abc import Container
from dataclasses import dataclass
from typing import Any

from .components import Component, Compound, First, Item, Items, Literal, Maybe, Part
from .faults import Faulty

MOST_LEVELS = 127


@dataclass(frozen=True)
class Word:
    """A word, and the index at which it begins."""

    text: bytes
    index: int


# ---- the tables: the modifiers of each component, and the values of each modifier

FLAGS = {b"true": True, b"false": False}
VALUES: dict[bytes, dict[bytes, Any]] = {
    b"padding": {b"zero": "zero", b"space": "space", b"none": "none"},
    b"case_sensitive": FLAGS,
    b"one_indexed": FLAGS,
    b"base": {b"calendar": False, b"iso_week": True},
    b"sign": {b"automatic": False, b"mandatory": True},
    b"range": {b"standard": False, b"extended": True},
    b"case": {b"upper": True, b"lower": False},
    b"digits": {b"1+": 0, **{b"%d" % it: it for it in range(1, 10)}},
    b"precision": {it.encode(): it for it in ("second", "millisecond", "microsecond", "nanosecond")},
    b"trailing_input": {b"prohibit": False, b"discard": True},
}
REPRS = {
    b"month": (b"numerical", b"long", b"short"),
    b"weekday": (b"long", b"short", b"sunday", b"monday"),
    b"week_number": (b"iso", b"sunday", b"monday"),
    b"year": (b"full", b"century", b"last_two"),
    b"hour": (b"24", b"12"),
}
KEYS = {
    b"day": (b"padding",),
    b"ordinal": (b"padding",),
    b"month": (b"padding", b"repr", b"case_sensitive"),
    b"weekday": (b"repr", b"case_sensitive", b"one_indexed"),
    b"week_number": (b"padding", b"repr"),
    b"year": (b"padding", b"repr", b"base", b"sign", b"range"),
    b"hour": (b"padding", b"repr"),
    b"minute": (b"padding",),
    b"second": (b"padding",),
    b"period": (b"case_sensitive", b"case"),
    b"subsecond": (b"digits",),
    b"offset_hour": (b"padding", b"sign"),
    b"offset_minute": (b"padding",),
    b"offset_second": (b"padding",),
    b"unix_timestamp": (b"sign", b"precision"),
    b"ignore": (b"count",),
    b"end": (b"trailing_input",),
}
# What modifiers choose, by their keys.
Chosen = dict[bytes, Any]
ALL_KEYS = {*VALUES, b"repr", b"count"}


def is_idle(name: bytes, chosen: Chosen, key: bytes) -> bool:
    """Whether a modifier says nothing beside the representation that was chosen."""
    form = chosen.get(b"repr")
    if name == b"month":
        return (key == b"padding" and form in (b"long", b"short")) or (key == b"case_sensitive" and form not in (b"long", b"short"))
    if name == b"weekday":
        return (key == b"case_sensitive" and form in (b"sunday", b"monday")) or (key == b"one_indexed" and form not in (b"sunday", b"monday"))
    return name == b"year" and key in (b"sign", b"range") and form == b"last_two"


def component_made(version: int, name: bytes, chosen: Chosen) -> Component:
    """Returns the component of a name and its chosen values, with the defaults where nothing was chosen."""
    form = chosen.get(b"repr", REPRS.get(name, (b"",))[0]).decode()
    kinds = {
        b"month": {"numerical": "month", "long": "month_long", "short": "month_short"}.get(form, form),
        b"weekday": f"weekday_{form}",
        b"week_number": f"week_{form}",
        b"hour": f"hour_{form}",
        b"year": ("iso_" if chosen.get(b"base") else "") + {"full": "year"}.get(form, form),
        b"unix_timestamp": "unix",
    }
    return Component(
        kind=kinds.get(name, name.decode()),
        padding=chosen.get(b"padding", "zero"),
        is_signed=chosen.get(b"sign", False),
        is_extended=chosen.get(b"range", version != 3),
        is_cased=chosen.get(b"case_sensitive", True),
        is_upper=chosen.get(b"case", True),
        from_one=chosen.get(b"one_indexed", True),
        digits=chosen.get(b"digits", 0),
        count=chosen.get(b"count", 0),
        unit=chosen.get(b"precision", "second"),
        discards=chosen.get(b"trailing_input", False),
    )


class Description:
    """The text of a description, and the place up to which it is read."""

    def __init__(self, version: int, text: bytes) -> None:
        self.version, self.text, self.at = version, text, 0

    def starts(self, front: bytes) -> bool:
        return self.text.startswith(front, self.at)

    def run(self, kind: str) -> Word:
        """Passes the bytes of a kind, as many as there are, and returns them."""
        found = re.compile(rb"[ \t\n\f\r]*" if kind == "space" else rb"[^ \t\n\f\r\[\]]*").match(self.text, self.at)
        assert found
        self.at = found.end()
        return Word(found[0], found.start())

    def looked_up(self, word: Word, table: Container[bytes]) -> bytes | None:
        """Returns the entry of a table that a word names; versions 1 and 2 ignore the case of letters."""
        text = word.text if self.version == 3 else word.text.lower()
        return text if text in table else None

    # ---- items

    def items(self, is_inner: bool, levels: int) -> Items:
        """Reads items up to the end of the text, or up to the bracket that closes them."""
        items: list[Item] = []
        while self.at < len(self.text) and not (is_inner and self.starts(b"]")):
            items.append(self.item(levels))
        return tuple(items)

    def item(self, levels: int) -> Item:
        if self.version == 1 and self.starts(b"[["):
            self.at += 2
            return Literal(b"[")
        if self.starts(b"["):
            return self.bracket(levels)
        if self.version != 1 and self.starts(b"\\"):
            return self.escape()
        found = re.compile(rb"(?s:.)[^\[\]]*" if self.version == 1 else rb"(?s:.)[^\[\]\\]*").match(self.text, self.at)
        assert found
        self.at = found.end()
        return Literal(found[0])

    def escape(self) -> Literal:
        escaped = self.text[self.at + 1 : self.at + 2]
        if escaped not in (b"[", b"]", b"\\"):
            raise Faulty(b"expected valid escape sequence", self.at)
        self.at += 2
        return Literal(escaped)

    def bracket(self, levels: int) -> Item:
        opened = self.at
        self.at += 1
        space, name = self.run("space"), self.run("word")
        if not name.text:
            raise Faulty(b"missing component name", space.index if space.text else opened)
        nesting = self.looked_up(name, (b"optional", b"first"))
        if nesting:
            return self.nesting(nesting, opened, levels)
        modifiers = self.modifiers()
        self.close(opened)
        return Part(self.component(name, modifiers))

    def close(self, opened: int) -> None:
        if not self.starts(b"]"):
            raise Faulty(b"unclosed opening bracket", opened)
        self.at += 1

    # ---- nested items

    def nesting(self, name: bytes, opened: int, levels: int) -> Item:
        if not self.run("space").text:
            raise Faulty(b"expected whitespace after `" + name + b"`", self.at)
        if not self.starts(b"["):
            raise Faulty(b"expected opening bracket", self.at)
        nested = [self.nested(levels)]
        while name == b"first" and self.starts(b"["):
            nested.append(self.nested(levels))
        self.close(opened)
        if self.version != 3:
            raise Faulty(b"nested item is not supported in versions 1 and 2", opened)
        return First(tuple(nested)) if name == b"first" else Maybe(nested[0])

    def nested(self, levels: int) -> Compound:
        if levels == 0:
            raise Faulty(b"nesting past 127 levels is not supported in format descriptions", self.at)
        opened = self.at
        self.at += 1
        items = self.items(True, levels - 1)
        self.close(opened)
        self.run("space")
        return Compound(items)

    # ---- components

    def modifiers(self) -> list[tuple[Word, Word]]:
        modifiers: list[tuple[Word, Word]] = []
        while True:
            self.run("space")
            word = self.run("word")
            if not word.text:
                return modifiers
            modifiers.append(self.modifier(word))

    def modifier(self, word: Word) -> tuple[Word, Word]:
        key, colon, value = word.text.partition(b":")
        if not colon or not key:
            raise Faulty(b"invalid modifier `" + (b"" if colon else word.text) + b"`", word.index)
        if not value:
            raise Faulty(b"invalid modifier ``", word.index + len(word.text))
        return Word(key, word.index), Word(value, word.index + len(key) + 1)

    def component(self, word: Word, modifiers: list[tuple[Word, Word]]) -> Component:
        """The first of these faults: the name, each modifier in turn, in version 3 one that says nothing, a missing count."""
        name = self.looked_up(word, KEYS)
        if not name:
            raise Faulty(b"invalid component name `" + word.text + b"`", word.index)
        chosen: Chosen = {}
        for key, value in modifiers:
            chosen.update(self.chosen(name, chosen, key, value))
        for key, _ in modifiers:
            if self.version == 3 and is_idle(name, chosen, key.text):
                raise Faulty(b"modifier `" + key.text + b"` does not apply to " + name, key.index)
        if name == b"ignore" and b"count" not in chosen:
            raise Faulty(b"missing required modifier `count`", word.index)
        return component_made(self.version, name, chosen)

    def chosen(self, name: bytes, before: Chosen, key_word: Word, value: Word) -> Chosen:
        """Returns what one modifier chooses."""
        key = self.looked_up(key_word, ALL_KEYS)
        if key is None or key not in KEYS[name]:
            raise Faulty(b"invalid modifier `" + key_word.text + b"`", key_word.index)
        if self.version == 3 and key in before:
            raise Faulty(b"duplicate modifier `" + key_word.text + b"`", key_word.index)
        if key == b"count":
            meant = int(value.text) if re.fullmatch(rb"[0-9]+", value.text) else 0
            is_one = 0 < meant < 65536
        else:
            entry = self.looked_up(value, REPRS[name] if key == b"repr" else VALUES[key])
            is_one = entry is not None
            meant = entry if key == b"repr" or entry is None else VALUES[key][entry]
        if not is_one:
            raise Faulty(b"invalid modifier `" + value.text + b"`", value.index)
        return {key: meant}


def items_of(version: int, text: bytes) -> Items:
    """Returns the items that a whole text spells, or raises its first fault."""
    return Description(version, text).items(False, MOST_LEVELS)

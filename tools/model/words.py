"""What the words of a run say, or the first thing wrong with them."""

import pathlib
import re
from collections.abc import Callable
from typing import NamedTuple, TypeVar

from . import descriptions, strftime
from .components import Items
from .faults import Faulty, WrongWords
from .parts import Part
from .pieces import number_said, offset_said, time_said, year_said
from .sources import Source
from .zones import Zone, zone_named

ROOT = pathlib.Path(__file__).resolve().parent.parent.parent
MODES = (b"key", b"carry", b"replace", b"explain", b"locate")
# The modes in which a label stands after the key.
LABELLED = (b"key", b"carry")
FORMATS = (b"rfc3339", b"rfc2822", b"iso8601")
LANGUAGES: dict[bytes, Callable[[bytes], Items]] = {
    b"v1": lambda text: descriptions.items_of(1, text),
    b"v2": lambda text: descriptions.items_of(2, text),
    b"v3": lambda text: descriptions.items_of(3, text),
    b"strftime": strftime.items_of,
}
# What may stand before the sources, in this order, each after its name.
NAMED = (b"year", b"time", b"field", b"column", b"separator", b"label")
SOURCES = b", ".join((*FORMATS, *LANGUAGES)) + b", and the names of --help"
USAGE = b"usage: instants-lines MODE [TARGET [ASSUMED [LIMIT]]] [year N] [time HH:MM] [field NAME | column N [separator S]] [label TEXT] SOURCE..."
NO_ASSUMED = b"no assumed offset; it must be +HH:MM, -HH:MM, Z, UTC or -, or a zone, as +02:00 or Europe/Berlin"
NO_ZONE = b"no zone; modes key, carry, replace and locate take one by its name, as Europe/Berlin or :CET"
NO_FIELD = b"no field; modes key, carry, replace and locate take one"
NO_COLUMN = b"no column; modes key, carry, replace and locate take one from 1 to 1048576, where no field is named"
NO_SEPARATOR = b"no separator; after a column it must be one byte and no quotation mark, or tab"
NO_FILES = b"no such source; files are read from standard input: instants-lines .. < FILE"


def plain(text: str) -> bytes:
    """Returns what a string of definitions stands for."""
    return re.sub(r"\\(.)", r"\1", text).encode()


def named_formats() -> dict[bytes, tuple[bytes, bytes]]:
    """Returns the language and the description that each name of a format stands for, as the table of definitions has them."""
    text = (ROOT / "crates" / "instants_formats" / "specs" / "Table.antt").read_text()
    word = r'codes "((?:[^"\\]|\\.)*)"'
    rows = re.findall(rf"name = {word}; language = {word}; description = {word};", text)
    return {name.encode(): (plain(language), plain(description)) for name, language, description in rows}


SYNONYMS = named_formats()
Value = TypeVar("Value")


class Asked(NamedTuple):
    mode: str
    target: int
    assumed: int | None
    zone: Zone | None
    limit: int
    year: int | None
    minutes: int | None  # of the day
    part: Part | None
    label: bytes | None
    sources: tuple[Source, ...]


# ---- what one word says


def said(word: bytes, reading: Callable[[bytes], Value | None], wrong: bytes) -> Value:
    value = reading(word)
    if value is None:
        raise WrongWords(b'"' + word + b'": ' + wrong)
    return value


def label_said(mode: bytes, word: bytes) -> bytes | None:
    return word if mode in LABELLED and b"\t" not in word and b"\n" not in word else None


def separator_said(word: bytes) -> bytes | None:
    if word == b"tab":
        return b"\t"
    return word if len(word) == 1 and word not in b'"\n\r' else None


def part_said(mode: bytes, field: bytes | None, column: bytes | None, separator: bytes | None) -> Part | None:
    """Returns the part that the words for a field, a column and a separator say, or None."""
    takes_one = mode != b"explain"
    if column is not None:
        number = said(column, lambda it: number_said(1, 1_048_576, 7, it) if takes_one and field is None else None, NO_COLUMN)
        return Part(None, number, said(separator if separator is not None else b",", separator_said, NO_SEPARATOR))
    maybe_said(separator, lambda it: None, NO_SEPARATOR)
    return maybe_said(field, lambda it: Part(it.decode()) if takes_one else None, NO_FIELD)


def maybe_said(word: bytes | None, reading: Callable[[bytes], Value | None], wrong: bytes) -> Value | None:
    return None if word is None else said(word, reading, wrong)


# ---- the words in their order


def is_setting(word: bytes) -> bool:
    return word[:1] in (b"+", b"-") or word[:1].isdigit() or word in (b"Z", b"UTC", b"OFFSET")


def is_file_name(word: bytes) -> bool:
    return b"." in word or word[:1] == b"/"


def is_zone(word: bytes) -> bool:
    """Whether a word is a zone by its looks: a colon is in front, or a slash is in it and it is no file's name."""
    return word[:1] == b":" or (b"/" in word and not is_file_name(word))


def zone_said(mode: bytes, word: bytes) -> bytes | None:
    return word if mode != b"explain" and re.fullmatch(rb"(?!/)[A-Za-z0-9_+/-]{1,64}", word) else None


def as_offset(word: bytes) -> bytes:
    return b"+00:00" if word in (b"Z", b"UTC") else word


def front_settings(words: list[bytes]) -> tuple[list[bytes], list[bytes]]:
    """Returns the target, the assumed offset or a zone, and the limit, as far as they are there, and the words after them."""
    count = 0
    while count < min(3, len(words)) and (is_setting(words[count]) or (count == 1 and is_zone(words[count]))):
        count += 1
    return words[:count], words[count:]


def zone_word(settings: list[bytes]) -> bytes | None:
    """Returns the name of the zone in place of the assumed offset, without the colon in front, or None."""
    is_there = len(settings) > 1 and not is_setting(settings[1])
    return settings[1].removeprefix(b":") if is_there else None


def named_word(name: bytes, words: list[bytes]) -> tuple[bytes | None, list[bytes]]:
    """Returns the word after a name, or None, and the words after both."""
    if words[:1] != [name]:
        return None, words
    return (words[1] if words[1:] else None), words[2:]


def no_such_source(word: bytes, may_be_offset: bool) -> bytes:
    if is_file_name(word):
        return NO_FILES
    offset = b"; an offset before the sources is +HH:MM, -HH:MM, Z or UTC" if may_be_offset else b""
    return b"no such source; there are " + SOURCES + offset


def sources_said(words: list[bytes], is_whole: bool) -> list[tuple[bytes, bytes | None]]:
    """Returns the words of each source, or raises what is wrong with the first that is none."""
    sources: list[tuple[bytes, bytes | None]] = []
    rest = list(words)
    while rest:
        word, rest, place = rest[0], rest[1:], len(sources) + 1
        if word in FORMATS:
            sources.append((word, None))
        elif word in SYNONYMS:
            sources.append(SYNONYMS[word])
        elif word in LANGUAGES and rest:
            sources.append((word, rest[0]))
            rest = rest[1:]
        elif word in LANGUAGES:
            raise WrongWords(b'source %d: "%s" needs a description in the next argument' % (place, word))
        else:
            raise WrongWords(b'source %d: "%s": %s' % (place, word, no_such_source(word, place == 1 and not is_whole)))
    return sources


def source_made(place: int, language: bytes, description: bytes | None) -> Source:
    if description is None:
        return Source(language.decode())
    try:
        return Source("v3" if language == b"v3" else "items", LANGUAGES[language](description))
    except Faulty as fault:
        raise WrongWords(b"source %d: %s" % (place, fault.sentence)) from None


def refuse_lacking(asked: Asked) -> None:
    """A source that never names a moment is refused with what it lacks."""
    for place, source in enumerate(asked.sources, 1):
        lack = source.lack(asked.assumed is not None, asked.year is not None, asked.minutes is not None)
        if lack:
            raise WrongWords(b"source %d names no moment: it has no %s" % (place, lack.encode()))


def settings_said(mode: bytes, settings: list[bytes]) -> tuple[int, int | None, int, bytes | None]:
    """Returns the target, the assumed offset, the limit, and the name of the zone in place of the offset, which is 0 then."""
    target_word, assumed_word, limit_word = settings + [b"+00:00", b"-", b"1048576"][len(settings) :]
    name = zone_word(settings)
    assumed_word = b"+00:00" if name is not None else assumed_word
    target = said(as_offset(target_word), offset_said, b"no target offset; it must be +HH:MM, -HH:MM, Z or UTC")
    assumed = None if assumed_word == b"-" else said(as_offset(assumed_word), offset_said, NO_ASSUMED)
    limit = said(limit_word, lambda it: number_said(1, 1_048_576, 7, it), b"no limit; it must be a number from 1 to 1048576")
    return target, assumed, limit, maybe_said(name, lambda it: zone_said(mode, it), NO_ZONE)


def asked_by(words: list[bytes]) -> Asked:
    """Returns what words ask for, or raises WrongWords."""
    if not words:
        raise WrongWords(USAGE)
    if words[0] not in MODES:
        raise WrongWords(b'"%s": no such mode; there are %s' % (words[0], b", ".join(MODES)))
    settings, rest = front_settings(list(words[1:]))
    named = {}
    for name in NAMED:
        named[name], rest = named_word(name, rest)
    if not rest:
        raise WrongWords(b"no source is named; there are " + SOURCES)
    target, assumed, limit, zone_name = settings_said(words[0], settings)
    year = maybe_said(named[b"year"], year_said, b"no year; it must be four digits, as 2024")
    minutes = maybe_said(named[b"time"], time_said, b"no time of day; it must be HH:MM")
    part = part_said(words[0], named[b"field"], named[b"column"], named[b"separator"])
    label = maybe_said(named[b"label"], lambda it: label_said(words[0], it), b"no label; modes key and carry take one, without tabs and line feeds")
    named_sources = sources_said(rest, len(settings) == 3)
    zone = None if zone_name is None else zone_named(zone_name)
    sources = tuple(source_made(place, *it) for place, it in enumerate(named_sources, 1))
    asked = Asked(words[0].decode(), target, assumed, zone, limit, year, minutes, part, label, sources)
    refuse_lacking(asked)
    return asked

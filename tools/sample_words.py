"""Words of runs of `instants-lines`, made at random, for tools/try_model.py: right ones and wrong ones."""

import random
from typing import NamedTuple

from model.words import SYNONYMS
from sample_dates import WAYS, Way, of, some_letters, some_way
from sample_parts import PartWords, some_part
from sample_zones import ODD as ODD_ZONES
from sample_zones import WORDS as ZONES

MODES = ["key", "key", "carry", "carry", "replace", "replace", "explain", "locate", "locate"]
OFFSETS = ["+00:00", "+00:00", "Z", "UTC", "+02:00", "-03:30", "+05:45", "+14:00", "-12:00", "+23:59", "-23:59", "-00:30"]
LIMITS = ["1", "2", "8", "17", "33", "64", "64", "64", "100", "100", "200", "1000", "4096", "1048576", "0000064"]
TIMES = ["00:00", "12:30", "23:59"]
LABELS = ["web", "", "two words", "\u00e9", "label", "2024", "rfc3339"]
YEARS = ["2024", "2023", "2020", "1970", "0000", "0001", "9999", "0099"]


# How the dates of named formats are written, where that is no pattern of another way.
PATTERNS = {
    "access-log": "[{day:02}/{mon}/{year:04}:{clock} {z}]",
    "go-time": "{year:04}-{month:02}-{day:02} {clock}.{some} {z} CEST",
    "serilog": "{year:04}-{month:02}-{day:02} {clock}.{ms} {zc}",
    "jenkins": "{year:04}-{month:02}-{day:02} {clock}.{ms}{z}",
    "psql": "{year:04}-{month:02}-{day:02} {clock}{zc}",
    "git-log": "{wd} {mon} {day} {clock} {year:04} {z}",
    "twitter": "{wd} {mon} {day:02} {clock} {z} {year:04}",
    "docker-json": '{{"log":"10:00:00","time":"{year:04}-{month:02}-{day:02}T{clock}.{ns}Z"}}',
    "json-time": '{{"msg":"10:00:00","ts":"{year:04}-{month:02}-{day:02}T{clock}.{ms}{zc}"}}',
    "apache-error": "{wd} {mon} {day:02} {clock}.{us} {year:04}",
    "go-log": "{year:04}/{month:02}/{day:02} {clock}.{us}",
    "tomcat": "{day:02}-{mon}-{year:04} {clock}.{ms}",
    "redis": "{day:02} {mon} {year:04} {clock}.{ms}",
    "suricata": "{month:02}/{day:02}/{year:04}-{clock}.{us}",
    "erlang": "{day}-{mon}-{year:04}::{clock}",
    "glog": "I{year:04}{month:02}{day:02} {clock}.{us}",
    "java-logging": "{mon} {day:02}, {year:04} {hour12}:{minute:02}:{second:02} {half}",
    "windows-events": "{month}/{day}/{year:04} {hour12}:{minute:02}:{second:02} {half}",
    "mdy-am-pm": "{month:02}/{day:02}/{year:04} {hour12:02}:{minute:02}:{second:02}.{ms} {half}",
    "dmy-dots": "{day:02}.{month:02}.{year:04} {clock}",
    "dmy": "{day:02}/{month:02}/{year:04} {clock}",
    "mdy": "{month:02}/{day:02}/{year:04} {clock}.{ms}",
    "ctime": "{wd} {mon} {day:2} {clock} {year:04}",
    "date-utc": "{wd} {mon} {day:2} {clock} UTC {year:04}",
    "cloudfront": "{year:04}-{month:02}-{day:02}\t{clock}",
    "apt": "{year:04}-{month:02}-{day:02}  {clock}",
    "mariadb": "{year:04}-{month:02}-{day:02} {hour:2}:{minute:02}:{second:02}",
    "php": "{day:02}-{mon}-{year:04} {clock}",
    "oracle": "{day:02}-{mon}-{year:04} {clock}",
    "cisco-asa": "{mon} {day:2} {year:04} {clock}",
    "openssl": "{mon} {day:2} {clock} {year:04} GMT",
    "unix-fraction": "{unix}.{ms}",
    "unix-micros": "{unix}{us}",
    "klog": "W{month:02}{day:02} {clock}.{us}",
    "logcat": "{month:02}-{day:02} {clock}.{ms}",
    "snort": "{month:02}/{day:02}-{clock}.{us}",
    "syslog-fraction": "{mon} {day:2} {clock}.{us}",
    "spark": "{yy:02}/{month:02}/{day:02} {clock}",
    "dmy-short": "{day:02}/{month:02}/{yy:02} {clock}",
    "ledger": "{year:04}/{month:02}/{day:02}",
}


class Words(NamedTuple):
    """The words of a run, the ways of its sources, its limit, the word for its zone, its year and its part, where they are there."""

    words: tuple[str, ...]
    ways: tuple[Way, ...]
    limit: int
    zone: str | None = None
    year: int | None = None
    part: PartWords | None = None


def offset_of(rng: random.Random, is_needed: bool) -> str:
    return rng.choice(OFFSETS) if is_needed or rng.random() < 0.35 else "-"


def named(words: list[str], name: str) -> int | None:
    """Returns the number after a name, or None."""
    return int(words[words.index(name) + 1]) if name in words else None


def named_formats() -> list[Way]:
    """Returns the ways that have a name: a name is written where its language and description would be."""
    lacking = {"year": ("klog", "logcat", "snort", "syslog-fraction", "syslog", "spark", "dmy-short"), "time": ("ledger", "date")}
    whole = ("access-log", "go-time", "serilog", "jenkins", "psql", "git-log", "twitter", "auditd")
    ways = []
    for word, (language, description) in SYNONYMS.items():
        name = word.decode()
        lacks = tuple(part for part, names in lacking.items() if name in names)
        lacks += () if name in whole or name.startswith("unix") else ("offset",)
        alike = [it for it in WAYS if it.words == (language.decode(), description.decode())]
        ways.append(Way((name,), alike[0].write if alike else of(PATTERNS.get(name, "{year:04}-{month:02}-{day:02} {clock}.{ms}")), lacks))
    return ways


def sources(rng: random.Random) -> list[Way]:
    """Returns one way or more; most runs have few."""
    count = rng.choice([1, 1, 1, 1, 2, 2, 3, 5])
    kind = rng.random()
    if kind < 0.2:
        return [some_way(rng) for _ in range(count)]
    if kind < 0.25:
        return [some_letters(rng)]
    if kind < 0.4:
        return rng.sample(NAMED, k=count)
    ways = rng.sample(WAYS, k=count)
    if rng.random() < 0.3:
        ways[rng.randrange(count)] = WAYS[rng.randrange(3)]
    return ways


NAMED = named_formats()


def right_words(rng: random.Random, zones: float, parts: float) -> Words:
    """Returns words that are accepted, and mostly with all that their sources lack; so many of them name a zone, and so many a part of
    lines."""
    ways, mode = sources(rng), rng.choice(MODES)
    lacks = {it for way in ways for it in way.lacks} if rng.random() < 0.97 else set()
    zone = rng.choice(ZONES) if rng.random() < zones else None
    settings = [rng.choice(OFFSETS), zone or offset_of(rng, "offset" in lacks), rng.choice(LIMITS)]
    if mode == "explain" and rng.random() < 0.7:
        settings[2] = rng.choice(["100", "300", "1000"])
    if rng.random() < 0.1 and "offset" not in lacks:
        settings = settings[: rng.randrange(3)] if settings[1] != "-" or rng.random() < 0.5 else settings[:1]
    words = [mode, *settings]
    if "year" in lacks or rng.random() < 0.1:
        words += ["year", rng.choice(YEARS[:3] if rng.random() < 0.8 else YEARS)]
    if "time" in lacks or rng.random() < 0.06:
        words += ["time", rng.choice(TIMES)]
    part = some_part(rng) if mode != "explain" and rng.random() < parts else None
    words += part.words if part else ()
    if mode in ("key", "carry") and rng.random() < 0.15:
        words += ["label", rng.choice(LABELS)]
    year = named(words, "year")
    words += [it for way in ways for it in way.words]
    limit = int(settings[2]) if len(settings) == 3 else 1_048_576
    return Words(tuple(words), tuple(ways), limit, zone if len(settings) > 1 else None, year, part)


ODD = [
    "", "-", "+", "+00:0", "+24:00", "-23:60", "+0200", "*02:00", "z", "utc", "UTC+1", "Z", "0", "1", "1048576", "1048577", "00000001",
    "12x", "-1", "year", "time", "field", "column", "separator", "tab", ";", "10000", "2024",
    "12:60", "24:00", "1:00", "rfc3339", "rfc2822", "iso8601", "RFC3339", "rfc3339.log", "/var/log/app", "./a", "v1", "v2", "v3", "v4",
    "strftime", "%F %T", "%T", "%Z", "%",
    "%-", "%Ey", "%^b", "%f", "%\u00e9x", "%3S", "%_", "[year]", "[year", "[]", "[ ]", "[yaer]", "[year repr]", "[year repr:]",
    "[year :full]", "[year repr:full repr:full]", "[optional]",
    "[optional [", "[optional [x]", "[first [x] y]", "[optional x]", "[month repr:long padding:zero]", "[ignore]", "[ignore count:0]",
    "[ignore count:65536]", "[ignore count:x]",
    "\\", "\\x", "\\[", "[[", "]", "[first [a][b]]", "[Year]", "[year REPR:full]", "[weekday repr:12]", "[hour repr:12][period]",
    "[end trailing_input:keep]", "[unix_timestamp precision:hour]",
    "[optional [" * 128 + "x" + "]]" * 128, "[optional [" * 127 + "x" + "]]" * 127, "[subsecond digits:10]",
    "[year base:iso_week sign:mandatory range:extended]", "[ \tday\fpadding:none\r]", "[day padding:none ",
    "[year repr:last_two sign:mandatory]", "[weekday one_indexed:true]", "[first ]", "[first []]", "[optional []x]", "key", "carry",
    "explain", "guess", "locate", "label", "syslog", "access-log", "date", "web\tlog", "--help me", "\u00e9", "OFFSET", "YEAR", "24",
    *ZONES, *ODD_ZONES,
]


def wrong_words(rng: random.Random) -> Words:
    """Returns words of which most are wrong: right ones with some changed, left out, put in, or exchanged."""
    words = list(right_words(rng, 0.25, 0.25).words)
    for _ in range(rng.choice([1, 1, 1, 2, 3])):
        at, kind = rng.randrange(len(words) + 1), rng.randrange(4)
        if kind == 0:
            words[at : at + 1] = [rng.choice(ODD)]
        elif kind == 1:
            words[at:at] = [rng.choice(ODD)]
        elif kind == 2:
            del words[at : at + 1]
        else:
            words[at : at + 1] = [with_other_bytes(rng, it) for it in words[at : at + 1]]
    if rng.random() < 0.3:
        words = [rng.choice(MODES), *(["+00:00"] if rng.random() < 0.5 else []), rng.choice(["v1", "v2", "v3", "strftime"]), rng.choice(ODD) + rng.choice(["", rng.choice(ODD)])]
    return Words(tuple(words), tuple(WAYS[:3]), 64)


def with_other_bytes(rng: random.Random, word: str) -> str:
    if not word:
        return "x"
    at = rng.randrange(len(word))
    return rng.choice([word[:at] + rng.choice("[]:%\\ x0+-") + word[at + 1 :], word[:at] + word[at + 1 :], word[:at] + rng.choice("[]:%\\ ") + word[at:], word.swapcase(), word[:at]])

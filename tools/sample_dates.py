"""Dates as logs write them, made at random, for tools/try_model.py: those of the well-known formats and of fixed descriptions, and
those of descriptions that are made at random too."""

import datetime
import random
from collections.abc import Callable, Sequence
from typing import NamedTuple

MONTHS = "January February March April May June July August September October November December".split()
WEEKDAYS = "Monday Tuesday Wednesday Thursday Friday Saturday Sunday".split()
ZONES = "UT GMT EST EDT CST CDT MST MDT PST PDT Z A J y XYZ utc gmt".split()


class Moment(NamedTuple):
    """What a line says. Not each of them is a moment: there are days 31 of any month, hours 24 and seconds 60 among them."""

    year: int
    month: int
    day: int
    hour: int
    minute: int
    second: int
    nanosecond: int
    offset: int  # in minutes

    def date(self) -> datetime.date:
        """Returns a day of Python's calendar that is near it."""
        return datetime.date(min(max(self.year, 1), 9999), self.month, min(self.day, 28)) + datetime.timedelta(days=max(self.day - 28, 0) * (self.year < 9999))

    def digits(self, count: int) -> str:
        return f"{self.nanosecond:09}000"[:count]

    def offset_text(self, colon: str) -> str:
        minutes = abs(self.offset)
        return f"{'-' if self.offset < 0 else '+'}{minutes // 60:02}{colon}{minutes % 60:02}"

    def clock(self, colon: str = ":") -> str:
        return f"{self.hour:02}{colon}{self.minute:02}{colon}{self.second:02}"

    def unix(self) -> int:
        since = (self.date() - datetime.date(1970, 1, 1)).days * 86_400
        return since + self.hour * 3600 + self.minute * 60 + self.second


# What writes a moment in some way; and keys of modifiers with their values.
Write = Callable[[random.Random, Moment], str]
Pairs = Sequence[tuple[str, str | int]]


def some_moment(rng: random.Random) -> Moment:
    kind = rng.random()
    year = rng.randint(2019, 2026)
    if kind < 0.08:
        year = rng.choice([0, 1, 4, 99, 400, 999, 1000, 1582, 1899, 1900, 1949, 1950, 1969, 1970, 2000, 2049, 2050, 2999, 3000, 9998, 9999])
    month, day = rng.randint(1, 12), rng.randint(1, 28)
    if rng.random() < 0.12:
        month, day = rng.choice([(1, 1), (2, 28), (2, 29), (2, 30), (12, 31), (6, 30), (4, 31), (3, 1), (1, 31), (10, 31)])
    hour, minute, second = rng.randint(0, 23), rng.randint(0, 59), rng.randint(0, 59)
    if rng.random() < 0.12:
        hour, minute, second = rng.choice([(0, 0, 0), (23, 59, 59), (23, 59, 60), (24, 0, 0), (12, 0, 0), (0, 59, 60), (22, 59, 60), (25, 0, 0), (10, 60, 1)])
    offset = rng.choice([0, 0, 0, 60, 120, -420, 330, -210, 345, 840, -720, 1439, -30, 899, 900, 1500])
    nanosecond = rng.choice([0, 500_000_000, 250_000_000, rng.randrange(10**9), 999_999_999])
    return Moment(year, month, day, hour, minute, second, nanosecond, offset)


# ---- fixed ways


def rfc3339(rng: random.Random, m: Moment) -> str:
    fraction = rng.choice(["", "", "", ".", f".{m.digits(rng.randint(1, 12))}", f".{m.digits(3)}", f",{m.digits(3)}"])
    offset = rng.choice(["Z", "Z", "z", m.offset_text(":"), m.offset_text(":"), m.offset_text(""), ""])
    return f"{m.year:04}-{m.month:02}-{m.day:02}{rng.choice('TTTTt _ x')}{m.clock()}{fraction}{offset}"


def iso8601(rng: random.Random, m: Moment) -> str:
    dash, colon = rng.choice([("-", ":"), ("-", ":"), ("", ""), ("-", ""), ("", ":")])
    week, date = m.date().isocalendar(), m.date()
    year = rng.choice([f"{m.year:04}", f"{m.year:04}", f"{m.year:04}", f"+{m.year:06}", f"-{m.year:06}", f"{rng.choice('+-')}{rng.choice([999_999, rng.randrange(10**6)]):06}"])
    day = rng.choice([
        f"{year}{dash}{m.month:02}{dash}{m.day:02}", f"{year}{dash}{m.month:02}{dash}{m.day:02}",
        f"{year}{dash}{date.timetuple().tm_yday:03}", f"{week[0]:04}{dash}W{week[1]:02}{dash}{week[2]}", year,
    ])
    mark = rng.choice(".,")
    time = rng.choice([
        m.clock(colon), m.clock(colon), f"{m.clock(colon)}{mark}{m.digits(rng.randint(1, 12))}", f"{m.hour:02}{colon}{m.minute:02}", f"{m.hour:02}",
        f"{m.hour:02}{mark}{m.digits(rng.randint(1, 9))}", f"{m.hour:02}{colon}{m.minute:02}{mark}{m.digits(rng.randint(1, 9))}", f"{m.hour:02}{colon}",
    ])
    offset = rng.choice(["Z", "Z", m.offset_text(colon), m.offset_text(":"), m.offset_text("")[:3], m.offset_text("")[:3] + ":", "", "z"])
    return f"{day}{rng.choice('TTTT t')}{time}{offset}"


def some_comment(rng: random.Random, levels: int = 3) -> str:
    """Returns a comment of RFC 2822, or what is nearly one."""
    parts = ["a", " ", "  ", "\t", "\r", "\0", "\x7f", "\x0b", "\u00e9", "\\)", "\\(", "\\\\", "\\\0", "\\\r", "\\\u00e9", "\\", ")", "(", "x y"]
    inside = "".join(rng.choice(parts) for _ in range(rng.choice([0, 1, 2, 4])))
    if levels and rng.random() < 0.3:
        inside += some_comment(rng, levels - 1)
    depth = rng.choice([1, 1, 1, 1, 1, 1, 1, 30, 31, 32])
    return "(" * depth + inside + ")" * depth


def rfc2822(rng: random.Random, m: Moment) -> str:
    space = rng.choice([" ", " ", " ", " ", "  ", "\t", " (a comment) ", "(b)", " ((c) \\) d) ", "\r", "\r ", some_comment(rng), f" {some_comment(rng)}"])
    day = rng.choice([f"{m.day:02}", f"{m.day}"])
    weekday = rng.choice([f"{WEEKDAYS[m.date().weekday()][:3]},{space}", f"{WEEKDAYS[rng.randrange(7)][:3].upper()}, ", "", f"{WEEKDAYS[0]}, "])
    year = rng.choice([f"{m.year:04}", f"{m.year:04}", f"{m.year % 100:02}"])
    clock = rng.choice([m.clock(), m.clock(), f"{m.hour:02}:{m.minute:02}", m.clock(" : ")])
    month = MONTHS[m.month - 1][:3]
    zone = rng.choice([m.offset_text(""), m.offset_text(""), rng.choice(ZONES), "GMT"])
    return f"{weekday}{day}{space}{rng.choice([month, month, month.upper()])} {year}{rng.choice([' ', space])}{clock} {zone}{rng.choice(['', '', ' (CET)', ' (a'])}"


def of(pattern: str) -> Write:
    """Returns a way by a pattern of Python, of the parts of a moment and of what it computes."""

    def write(rng: random.Random, m: Moment) -> str:
        date = m.date()
        parts = m._asdict()
        parts.update(
            mon=MONTHS[m.month - 1][:3], month_name=MONTHS[m.month - 1], wd=WEEKDAYS[date.weekday()][:3], weekday=WEEKDAYS[date.weekday()],
            clock=m.clock(), z=m.offset_text(""), zc=m.offset_text(":"), ms=m.digits(3), us=m.digits(6), ns=m.digits(9), some=m.digits(rng.randint(1, 9)),
            hour12=(m.hour + 11) % 12 + 1, half="AM" if m.hour % 24 < 12 else "PM", unix=m.unix(), yday=date.timetuple().tm_yday, yy=m.year % 100,
            week=date.isocalendar()[1], wday=date.isocalendar()[2], week_year=date.isocalendar()[0], sunday=int(date.strftime("%U")), monday=int(date.strftime("%W")),
            w=int(date.strftime("%w")), cc=m.year // 100,
        )
        return pattern.format(**parts)

    return write


class Way(NamedTuple):
    """A source's words, and how its dates are written. What it does not say is `lacks`: an `offset`, a `year`, a `time`."""

    words: tuple[str, ...]
    write: Write
    lacks: tuple[str, ...] = ()


OFFSET = ("offset",)
WAYS = [
    Way(("rfc3339",), rfc3339),
    Way(("rfc2822",), rfc2822),
    Way(("iso8601",), iso8601),
    Way(("strftime", "%d/%b/%Y:%H:%M:%S %z"), of("{day:02}/{mon}/{year:04}:{clock} {z}")),
    Way(("strftime", "[%d/%b/%Y:%T %z]"), of("[{day:02}/{mon}/{year:04}:{clock} {z}]")),
    Way(("strftime", "%F %T"), of("{year:04}-{month:02}-{day:02} {clock}"), OFFSET),
    Way(("strftime", "%F %T %z"), of("{year:04}-{month:02}-{day:02} {clock} {z}")),
    Way(("strftime", "%FT%T"), of("{year:04}-{month:02}-{day:02}T{clock}"), OFFSET),
    Way(("strftime", "%F %R"), of("{year:04}-{month:02}-{day:02} {hour:02}:{minute:02}"), OFFSET),
    Way(("strftime", "%F %T UTC"), of("{year:04}-{month:02}-{day:02} {clock} UTC"), OFFSET),
    Way(("strftime", "%F %T CEST"), of("{year:04}-{month:02}-{day:02} {clock} CEST"), OFFSET),
    Way(("strftime", "%Y/%m/%d %T"), of("{year:04}/{month:02}/{day:02} {clock}"), OFFSET),
    Way(("strftime", "%c"), of("{wd} {mon} {day:2} {clock} {year:04}"), OFFSET),
    Way(("strftime", "%a %b %e %T CEST %Y"), of("{wd} {mon} {day:2} {clock} CEST {year:04}"), OFFSET),
    Way(("v3", "[weekday repr:short] [month repr:short] [day padding:space] [hour]:[minute]:[second][ignore count:5][year]"), of("{wd} {mon} {day:2} {clock} CET {year:04}"), OFFSET),
    Way(("strftime", "%b %e %T"), of("{mon} {day:2} {clock}"), ("offset", "year")),
    Way(("strftime", "%m-%d %T"), of("{month:02}-{day:02} {clock}"), ("offset", "year")),
    Way(("strftime", "%F"), of("{year:04}-{month:02}-{day:02}"), ("offset", "time")),
    Way(("strftime", "%d.%m.%Y"), of("{day:02}.{month:02}.{year:04}"), ("offset", "time")),
    Way(("strftime", "%b %e"), of("{mon} {day:2}"), ("offset", "year", "time")),
    Way(("strftime", "%s"), of("{unix}")),
    Way(("strftime", "%-m/%-d/%Y %-I:%M:%S %p"), of("{month}/{day}/{year:04} {hour12}:{minute:02}:{second:02} {half}"), OFFSET),
    Way(("strftime", "%C%y-%m-%d %l:%M %P"), of("{year:04}-{month:02}-{day:02} {hour12:2}:{minute:02} {half}"), OFFSET),
    Way(("strftime", "%G-W%V-%u %k:%M"), of("{week_year:04}-W{week:02}-{wday} {hour:2}:{minute:02}"), OFFSET),
    Way(("strftime", "%Y %U %w %H"), of("{year:04} {sunday:02} {w} {hour:02}"), OFFSET),
    Way(("strftime", "%A %d %B %Y %X"), of("{weekday} {day:02} {month_name} {year:04} {clock}"), OFFSET),
    Way(("strftime", "%Y%m%d%H%M%SZ"), of("{year:04}{month:02}{day:02}{hour:02}{minute:02}{second:02}Z"), OFFSET),
    Way(("strftime", "%Y.%j %H"), of("{year:04}.{yday:03} {hour:02}"), OFFSET),
    Way(("v3", "[year]-[month]-[day] [hour]:[minute]:[second],[subsecond]"), of("{year:04}-{month:02}-{day:02} {clock},{some}"), OFFSET),
    Way(("v3", "[year]-[month]-[day] [hour]:[minute]:[second],[subsecond digits:3]"), of("{year:04}-{month:02}-{day:02} {clock},{ms}"), OFFSET),
    Way(("v3", "[year]-[month]-[day] [hour]:[minute]:[second][optional [.[subsecond]]]"), of("{year:04}-{month:02}-{day:02} {clock}.{some}"), OFFSET),
    Way(("v3", "[year]-[month]-[day] [hour]:[minute]:[second].[subsecond] UTC"), of("{year:04}-{month:02}-{day:02} {clock}.{ms} UTC"), OFFSET),
    Way(("v3", "[year]-[month]-[day] [hour]:[minute][offset_hour sign:mandatory]"), of("{year:04}-{month:02}-{day:02} {hour:02}:{minute:02}+02")),
    Way(("v3", "\\[[day]/[month repr:short]/[year]:[hour]:[minute]:[second].[subsecond]"), of("[{day:02}/{mon}/{year:04}:{clock}.{ms}"), OFFSET),
    Way(("v3", '"time":"[year]-[month]-[day]T[hour]:[minute]:[second]Z"'), of('"time":"{year:04}-{month:02}-{day:02}T{clock}Z"'), OFFSET),
    Way(("v3", "app: [year]-[month]-[day]T[hour]:[minute]:[second]Z"), of("app: {year:04}-{month:02}-{day:02}T{clock}Z"), OFFSET),
    Way(("v3", "audit([unix_timestamp].[subsecond]"), of("audit({unix}.{ms}")),
    Way(("v3", "[unix_timestamp].[subsecond][end trailing_input:discard]"), of("{unix}.{some}")),
    Way(("v3", "[unix_timestamp precision:millisecond]"), of("{unix}{ms}")),
    Way(("v2", "[unix_timestamp precision:microsecond sign:mandatory]"), of("+{unix}{us}")),
    Way(("v3", "[unix_timestamp precision:nanosecond]"), of("{unix}{ns}")),
    Way(("v3", "[unix_timestamp] [ignore count:5]"), of("{unix} {z}")),
    Way(("v3", "[first [[year]-[month]-[day]] [[day].[month].[year]]] [hour]:[minute]"), of("{day:02}.{month:02}.{year:04} {hour:02}:{minute:02}"), OFFSET),
    Way(("v3", "[first [[year]-[month]-[day]T[hour]] [[month repr:short] [day padding:space]]][optional [ [hour]:[minute]]]"), of("{mon} {day:2} {hour:02}:{minute:02}"), ("offset", "year")),
    Way(("v2", "I[month][day] [hour]:[minute]:[second].[subsecond digits:6]"), of("I{month:02}{day:02} {clock}.{us}"), ("offset", "year")),
    Way(("v1", "[[[year]-[month]-[day] [hour]:[minute]:[second]]"), of("[{year:04}-{month:02}-{day:02} {clock}]"), OFFSET),
    Way(("v2", "[year sign:mandatory]-[month]-[day] [hour]:[minute]"), of("+{year:06}-{month:02}-{day:02} {hour:02}:{minute:02}"), OFFSET),
    Way(("v1", "[Weekday Repr:Short] [month repr:short CASE_SENSITIVE:FALSE] [day padding:none] [hour]:[minute]:[second] [year]"), of("{wd} {mon} {day} {clock} {year:04}"), OFFSET),
    Way(("v3", "[hour]:[minute]:[second] [day]/[month]/[year]"), of("{clock} {day:02}/{month:02}/{year:04}"), OFFSET),
    Way(("v3", "[ignore count:3][year]-[month]-[day] [hour]:[minute]:[second]"), of("<6>{year:04}-{month:02}-{day:02} {clock}"), OFFSET),
    Way(("v3", "  [day padding:space] [month repr:long], [year padding:none] at [hour repr:12 padding:none] [period case:lower]"), of("  {day:2} {month_name}, {year} at {hour12} {half}"), OFFSET),
]

# ---- ways made at random


class Piece(NamedTuple):
    """A piece of a description, and what it writes."""

    text: str
    write: Write


def modifiers_of(rng: random.Random, pairs: "Pairs") -> str:
    """Returns some of the modifiers, as they are written in brackets."""
    return "".join(f"{rng.choice([' ', ' ', '  '])}{key}:{value}" for key, value in pairs if value)


def padded(value: int, padding: str, width: int) -> str:
    return str(value).rjust(width) if padding == "space" else str(value) if padding == "none" else str(value).zfill(width)


def number(rng: random.Random, name: str, width: int, value: Callable[[Moment], int], pairs: "Pairs" = ()) -> Piece:
    padding = rng.choice(["", "", "zero", "space", "none"])
    return Piece(f"[{name}{modifiers_of(rng, [*pairs, ('padding', padding)])}]", lambda r, m: padded(value(m), padding, width))


def some_year(rng: random.Random, is_iso: bool = False) -> Piece:
    base = [("base", "iso_week")] if is_iso else []
    value: Callable[[Moment], int] = (lambda m: m.date().isocalendar()[0]) if is_iso else (lambda m: m.year)
    if rng.random() < 0.15:
        century = number(rng, "year", 2, lambda m: value(m) // 100, [*base, ("repr", "century")])
        last_two = number(rng, "year", 2, lambda m: value(m) % 100, [*base, ("repr", "last_two")])
        return Piece(century.text + last_two.text, lambda r, m: century.write(r, m) + last_two.write(r, m))
    sign, span = rng.choice(["", "", "mandatory", "automatic"]), rng.choice(["", "", "standard", "extended"])
    padding = rng.choice(["", "", "", "zero", "space", "none"])
    text = f"[year{modifiers_of(rng, [*base, ('sign', sign), ('range', span), ('padding', padding)])}]"

    def write(r: random.Random, m: Moment) -> str:
        mark = r.choice("++-") if sign == "mandatory" or r.random() < 0.1 else ""
        year = r.randrange(10**6) if mark and r.random() < 0.1 else value(m)
        return mark + padded(year, padding, r.choice([4, 4, 4, 6]) if mark else 4)

    return Piece(text, write)


def some_day(rng: random.Random) -> tuple[list[Piece], bool]:
    """Returns the pieces of a date but the year's, and whether its year is that of weeks."""
    kind = rng.random()
    day = number(rng, "day", 2, lambda m: m.day)
    if kind < 0.35:
        return [number(rng, "month", 2, lambda m: m.month), day], False
    if kind < 0.6:
        form, cased = rng.choice(["short", "long"]), rng.choice(["", "", "true", "false"])
        text = f"[month{modifiers_of(rng, [('repr', form), ('case_sensitive', cased)])}]"
        return [Piece(text, lambda r, m: of_case(r, MONTHS[m.month - 1][: 3 if form == "short" else None])), day], False
    if kind < 0.75:
        return [number(rng, "ordinal", 3, lambda m: m.date().timetuple().tm_yday)], False
    form = rng.choice(["iso", "sunday", "monday"])
    codes = {"iso": "%V", "sunday": "%U", "monday": "%W"}
    week = number(rng, "week_number", 2, lambda m: int(m.date().strftime(codes[form])), [("repr", "" if form == "iso" and rng.random() < 0.5 else form)])
    return [week, some_weekday(rng)], form == "iso"


def of_case(rng: random.Random, text: str) -> str:
    return rng.choice([text, text, text, text.upper(), text.lower()])


def some_weekday(rng: random.Random) -> Piece:
    form = rng.choice(["long", "short", "sunday", "monday"])
    if form in ("long", "short"):
        cased = rng.choice(["", "", "true", "false"])
        text = f"[weekday{modifiers_of(rng, [('repr', form), ('case_sensitive', cased)])}]"
        return Piece(text, lambda r, m: of_case(r, WEEKDAYS[m.date().weekday()][: 3 if form == "short" else None]))
    first = rng.choice(["", "true", "false"])
    text = f"[weekday{modifiers_of(rng, [('repr', form), ('one_indexed', first)])}]"
    return Piece(text, lambda r, m: str((m.date().weekday() + (form == "sunday")) % 7 + (first != "false")))


def part_named(name: str) -> Callable[[Moment], int]:
    return lambda m: int(getattr(m, name))


def some_time(rng: random.Random) -> list[Piece]:
    pieces = [number(rng, "hour", 2, lambda m: m.hour)]
    if rng.random() < 0.2:
        case, cased = rng.choice(["", "upper", "lower"]), rng.choice(["", "true", "false"])
        period = Piece(f"[period{modifiers_of(rng, [('case', case), ('case_sensitive', cased)])}]", lambda r, m: of_case(r, "PM" if m.hour >= 12 else "AM"))
        pieces = [number(rng, "hour", 2, lambda m: (m.hour + 11) % 12 + 1, [("repr", "12")]), period]
    for name in ("minute", "second")[: rng.choice([0, 1, 2, 2, 2])]:
        pieces.append(number(rng, name, 2, part_named(name)))
    if len(pieces) >= 3 and rng.random() < 0.4:
        counts: list[str | int] = ["", "1+", 1, 2, 3, 6, 9]
        count = rng.choice(counts)
        pieces.append(Piece(f"[subsecond{modifiers_of(rng, [('digits', count)])}]", lambda r, m: m.digits(count if isinstance(count, int) else r.randint(1, 9))))
    return pieces


def some_offset(rng: random.Random) -> list[Piece]:
    sign = rng.choice(["", "automatic", "mandatory", "mandatory"])
    hour = number(rng, "offset_hour", 2, lambda m: abs(m.offset) // 60, [("sign", sign)])

    def write(r: random.Random, m: Moment) -> str:
        return ("" if sign != "mandatory" and r.random() < 0.3 else "-" if m.offset < 0 else "+") + hour.write(r, m)

    pieces = [Piece(hour.text, write)]
    for name in ("offset_minute", "offset_second")[: rng.choice([0, 1, 1, 1, 2])]:
        pieces.append(number(rng, name, 2, lambda m: abs(m.offset) % 60))
    return pieces


def always(text: str) -> Write:
    return lambda r, m: text


def joined(rng: random.Random, pieces: list[Piece], version: int, between: list[str]) -> Piece:
    """Returns the pieces one after another, with text between them."""
    parts = [pieces[0]]
    for piece in pieces[1:]:
        text = rng.choice(between)
        parts += [Piece(text.replace("[", "[[" if version == 1 else "\\["), always(text)), piece]
    return Piece("".join(it.text for it in parts), lambda r, m: "".join(it.write(r, m) for it in parts))


def nested(rng: random.Random, piece: Piece) -> Piece:
    """Returns a piece that may be missing, or that is one of two."""
    if rng.random() < 0.5:
        return Piece(f"[optional [{piece.text}]]", lambda r, m: piece.write(r, m) if r.random() < 0.8 else "")
    others = rng.sample([f"[{piece.text}]", "[now]", "[[day]th]", "[]"][: rng.choice([2, 3, 4])], k=2)
    if f"[{piece.text}]" not in others:
        others.append(f"[{piece.text}]")
    return Piece(f"[first {' '.join(others)}]", piece.write)


def some_way(rng: random.Random) -> Way:
    """Returns a way with a description of version 1, 2 or 3 that is made at random."""
    version, lacks = rng.choice([1, 2, 3, 3]), []
    days, is_iso = some_day(rng)
    if rng.random() < 0.85:
        days.insert(rng.choice([0, 0, 0, len(days)]), some_year(rng, is_iso))
    else:
        lacks.append("year")
    groups = [joined(rng, days, version, ["-", "/", ".", " ", "", ", "])]
    if rng.random() < 0.9:
        groups.append(joined(rng, some_time(rng), version, [":", ":", "", ".", "h"]))
    else:
        lacks.append("time")
    if rng.random() < 0.1:
        rng.shuffle(groups)
    if rng.random() < 0.4:
        groups.append(joined(rng, some_offset(rng), version, [":", ""]))
    else:
        lacks.append("offset")
    if version == 3:
        groups = [nested(rng, it) if rng.random() < 0.15 else it for it in groups]
    text, write = joined(rng, groups, version, [" ", "T", " ", "", " at ", "["])
    front, back = rng.choice(["", "", "", "", "<", "t=", " "]), rng.choice(["", "", "", "", "Z", " UTC", ">", " ", "[end]", "[end trailing_input:discard]", "[ignore count:2]"])
    tail = "" if back.startswith("[end") else "é" if back.startswith("[i") else back
    return Way((f"v{version}", f"{front}{text}{back}"), lambda r, m: f"{front}{write(r, m)}{tail}", tuple(lacks))


LETTERS = "YmdHMSbBaAejyCgGVuUwWIplkPszcDxFrRTXhnt%"


def some_letters(rng: random.Random) -> Way:
    """Returns a way with letters of strftime that are drawn at random, and lines that are not meant for it."""
    parts = [f"%{rng.choice(['', '', '', '-', '_', '0'])}{rng.choice(LETTERS)}" for _ in range(rng.randint(1, 7))]
    return Way(("strftime", rng.choice(["-", "/", " ", ":", ""]).join(parts)), rng.choice(WAYS).write, ("offset",))

"""Lines of logs, made at random, for tools/try_model.py: with dates of all kinds in all places, and changed bytes."""

import random
from collections.abc import Sequence
from typing import NamedTuple

from sample_dates import MONTHS, WAYS, Way, some_moment
from sample_parts import in_part
from sample_words import Words
from sample_zones import Clock, clock_of

FIRST = "the a order user request until since at from to by retry port size took GET POST error warning host session job".split()
# What a message has beside words: numbers, clocks, addresses, other dates, quotation marks, colours.
LAST = [
    "42", "3.14", "10:00:59", "10:00", "192.0.2.7", "10.0.1.2:33317", "52:54:00:12:34:56", "::1", "fe80::1:2", "id=1714550400", "1714550400123",
    "0x1f", "-5000 EUR", "v1.2.3", "2027-01-01T00:00:00Z", "2027-01-01 00:00:00", "until 2019-05-01", "\"GET / HTTP/1.1\"", "\"quoted\"", "'a'",
    "[main]", "(x)", "{\"k\":1}", "A", "T", "Z", "W", "a=b", "a;b", "1,2,3", "12,50", "5 ms", "100%", "2024", "\u00e9\u00e8",
    "\u4f60\u597d", "\x1b[31mred\x1b[0m",
    "-", "--", "...", "!", "00:00:00", "23:59:60", "Jan  2 03:04:05", "Mar 30", "1 Jan 2021 10:00 I", "14:02:03.5", "1.2021-01-02", "#", "\t", "\\",
]
# What is after a date.
TAILS = [
    "", "", "", "", "", " ", " up", " up", ": up", "] up", ",", ".", ";", "Z", " Z", " UTC", " GMT", " CET", "UTC", " +0200", " +02:00",
    "+02:00", "+0200", "+02",
    " +02", "-03:30", " -0330", " +00:00", " +0000", "+00:00", " -1500", " +1459", " -5000", ",250", ",250 up", ",250 +0200", ",25 +0200",
    ",1,2", ",250,paid", ",123456", ",250.5",
    ".5", ".500 up", ". up", ":59", ":5", ": 5", " 10:00", " 10:00:00", "  10:00", "-11:00", " 2019", " 2024", "-2019", " 2024-", "/2020",
    "T10", "T10:00:00", "abc", "_x", "\x1b[0m",
    "\x1b[0m +0200", "\x1b[0m,250 +0200", "\x1b[0;1mZ", "\"", "'", ")", "|", " (CET)", " AM", " pm", " I went", "\r", "\0", " UT", " ut;",
    ",,", ".,", "..", ", 2019", "\t2023 ", " Z", "Z up",
    " UTC+2", " UTC +02:00", " GMT-7 up", " GMT+0200 (CEST)", " [+0200]", " (UTC)", "\t+0200", "  -0330", ";+02:00;", "\",\"+02:00\"", "\u221205:00",
    " \u22125", "\\u002B02:00", "\\u002d0330 up", " +02:00[Europe/Berlin]", " Z+1", " utc", " cest+2", " CET 2019", " +0200 2019 x", " CEST 2024",
    " PM", "pm", " p.m.", " a.m. EST", "\u202fPM", "\u00a0am", " PMTA", " ampere", ",AM", " at 10:00:00", " 10h30", " 3pm", " 10.50 EUR", " 10.30.00",
    " +1 (555)", " +49 30", " -7 C", " -12 C", " +3 more",
]
# What is before a date.
HEADS = [
    "", "", "", "", "", "", "[", "(", "<", "{", "\"", "'", "`", "=", "t=", "ts=", " ", "  ", "\t", "17,", "17;", "a|", ":", ",", "-", "--",
    "+", "x", "1", "1.", "a.", ".", "id-", "item",
    "at ", "2024 ", "2019-", "10:00 ", "10:00:00 ", "10:00:00,5 ", "10:00: ", "Mar 30 22:15:10 host app: ", "24/03/30 22:44:26 INFO ",
    "\x1b[2m", "\x1b[01;31m\x1b[K", "\x1b[", "x\x1b[1m",
    "<13>1 ", "{\"msg\":\"retry in 00:00:05\",\"time\":\"", "{\"a\":\"10:00:00\",\"ts\":", "192.0.2.1 - - [", "type=SYSCALL msg=",
    "52:54:00:12:34:56 ", "host\0", "\r", "\u00e9", "01:02:03:04 ",
    "::10:20:30 - - [", "2001:db8::10:20:30 ", "fe80::1:10:20:30 ", "[2019] ", "2019 Wed ", "(2019) Sat, ", "10:00 on ", "3 pm, ", "    ", "   ", "\t\t",
    "12:34:56\"", "12:34:56 \"", "\"x\" 12:34:56 ", "file.log:12:", "112:34:56 ", "9:59:58 ", "12:34:567 ", "12:34:56. ", "Sat, ", "Sat ", "(x) ", "W",
    "T", "Z", "2021-01-02T03:04:05Z ", "1714550400 ",
]
BYTES = [*range(256), *b"0123456789:.,-+ TZW\"" * 6, 0, 9, 13, 27, 27, 40, 41, 92]


def some_text(rng: random.Random) -> str:
    return " ".join(rng.choice(LAST if rng.random() < 0.3 else FIRST) for _ in range(rng.randint(0, 7)))


class Drawn(NamedTuple):
    """What dates are drawn by: ways to write them, and the clock of a zone, or None."""

    ways: Sequence[Way]
    clock: Clock | None


def some_date(rng: random.Random, drawn: Drawn) -> str:
    """Returns a date in one of the ways, or now and then in another one; with a zone mostly near a change of its clock."""
    way = rng.choice(drawn.ways) if rng.random() < 0.85 else rng.choice(WAYS)
    if drawn.clock is None or rng.random() < 0.1:
        return way.write(rng, some_moment(rng))
    date = way.write(rng, drawn.clock.moment())
    return date + drawn.clock.tail() if rng.random() < 0.5 else date


def plain_line(rng: random.Random, drawn: Drawn) -> str:
    """Returns a line as a program writes it."""
    date, text = some_date(rng, drawn), some_text(rng)
    number = rng.randrange(1, 5000)
    return rng.choice([
        f"{date} {text}", f"{date} {text}", f"[{date}] {text}", f"{date}", f"{date}: {text}", f"{text} {date} {text}", f"{date}\t{text}",
        f"192.0.2.{number % 256} - - [{date}] \"GET /{number} HTTP/1.1\" 200 {number}",
        f"{{\"level\":\"info\",\"ts\":\"{date}\",\"msg\":\"{text}\"}}", f"{{\"msg\":\"{text}\",\"ts\":\"{date}\"}}", f"level=info ts={date} msg=\"{text}\"",
        f"{number},{date},{number}.50,paid", f"{number};{date};12,50", f"\"{date}\",\"{text}\"", f"{date},{rng.choice(['25', '250', '123456', '1'])},{text}",
        f"{MONTHS[number % 12][:3]} {number % 28 + 1:2} 0{number % 10}:04:05 host app[{number}]: {date} {text}", f"<{number % 192}>1 {date} host app - - - {text}",
        f"\x1b[2m{date}\x1b[0m {text}", f"app.log:{number}:{date} {text}", f"Date: {date}", f"--{date}--  https://example.com/", f"backup-{date}.log",
        f"type=SYSCALL msg=audit({number + 1714550000}.{number % 1000:03}:{number}): {text}", f"{date} - {some_date(rng, drawn)}", f"{date} {some_date(rng, drawn)} {text}",
        f"I0102 03:04:05.123456 {number} file.go:42] {text} {date}", f"{date} \"{text}\"", f"{date} [{number}] LOG:  {text}",
    ])


def odd_line(rng: random.Random, drawn: Drawn) -> str:
    """Returns a line with something odd before the date and after it."""
    line = f"{rng.choice(HEADS)}{some_date(rng, drawn)}{rng.choice(TAILS)}"
    for _ in range(rng.choice([0, 0, 1, 1, 2])):
        line = f"{rng.choice([some_text(rng), rng.choice(HEADS)])}{rng.choice(['', ' '])}{line}"
    return line + rng.choice(["", f" {some_text(rng)}", f"{rng.choice(TAILS)}{some_date(rng, drawn)}"])


def changed(rng: random.Random, line: bytes) -> bytes:
    """Returns a line, as bytes, with some bytes changed."""
    line = bytearray(line)
    for _ in range(rng.choice([1, 1, 2, 3, 8])):
        at, kind = rng.randrange(len(line) + 1), rng.randrange(7)
        if kind == 0:
            line[at:at] = bytes([rng.choice(BYTES)])
        elif kind == 1:
            line[at : at + 1] = bytes([rng.choice(BYTES)])
        elif kind == 2:
            del line[at : at + rng.randint(1, 4)]
        elif kind == 3:
            line[at:at] = line[at : at + rng.randint(1, 12)]
        elif kind == 4:
            del line[at:]
        elif kind == 5:
            line[at : at + 12] = bytes(rng.choice(b"0123456789") if 48 <= it < 58 else it for it in line[at : at + 12])
        else:
            line[at : at + 8] = line[at : at + 8].swapcase()
    return bytes(line).replace(b"\n", b" ")


def lengthened(rng: random.Random, line: bytes, limit: int) -> bytes:
    """Returns a line with bytes put before its date, in it or after it, so that it meets the limit and what is looked at beyond it."""
    near = limit + rng.choice([0, 0, 0, 256, 320, 321]) + rng.randint(-40, 4)
    fill = rng.choice([b" ", b"x", b"-", b"1", b". ", b"ab ", b"(", b"0", b"\xc3\xa9", b"10:00:00 "])
    where = rng.randrange(3)
    at = 0 if where == 0 else len(line) if where == 1 else rng.randrange(len(line) + 1)
    count = max(near - (at if where else 0), 0) // len(fill)
    return line[:at] + fill * min(count, 4000) + line[at:]


def some_line(rng: random.Random, drawn: Drawn, limit: int, is_whole: bool) -> bytes:
    """Returns a line as bytes, without its line feed; mostly a date alone, where lines are read as a whole."""
    kind = rng.random()
    if is_whole and kind < 0.7:
        line = some_date(rng, drawn).encode()
        return changed(rng, line) if rng.random() < 0.4 else line.replace(b"\n", b" ")
    if kind < 0.05:
        return some_text(rng).encode()
    if kind < 0.07:
        return b""
    if kind < 0.12:
        return some_date(rng, drawn).encode()
    line = (plain_line if kind < 0.5 else odd_line)(rng, drawn).encode()
    if rng.random() < 0.2:
        line = changed(rng, line)
    if rng.random() < (0.12 if limit < 3000 else 0.01):
        line = lengthened(rng, line, limit)
    return line.replace(b"\n", b" ")


def some_stream(rng: random.Random, asked: Words, count: int) -> bytes:
    """Returns so many lines for a run's words as one stream, of which the last now and then has no line feed."""
    drawn = Drawn(asked.ways, clock_of(rng, asked.zone, asked.year))
    lines = [some_line(rng, drawn, asked.limit, asked.words[:1] == ("explain",)) for _ in range(count)]
    if asked.part:
        lines = [in_part(rng, asked.part, it) for it in lines]
    if rng.random() < 0.05:
        lines = [it + b"\r" for it in lines]
    return b"\n".join(lines) + (b"" if rng.random() < 0.3 else b"\n")

#!/usr/bin/env python3
"""Makes the lines of the benchmark: the same ones each time, of fifteen kinds.

    bench/lines.py FOLDER [LINES]

Writes fifteen files of LINES lines (1000000 if left out) to the folder:

    rfc3339.txt   RFC 3339: `Z` or a numeric offset, a fraction of 0 to 9 digits
    iso8601.txt   ISO 8601: calendar, week and ordinal dates, extended and basic, a fraction of 0 to 9 digits
    rfc2822.txt   RFC 2822: `Tue, 01 Jul 2003 10:52:37 +0200` and the like, some with a day of one digit
    mixed.txt     of 100 lines 40 are of RFC 3339, 30 of RFC 2822, 20 as a web server logs them
                  (`01/Jul/2003:10:52:37 +0200`), and 10 name no moment in any of these
    log.txt       as a web server logs it, alone
    postgres.txt  `2003-07-01 10:52:37.123 UTC`
    python.txt    `2003-07-01 10:52:37,123`
    syslog.txt    `2003 Jul  1 10:52:37`
    unix.txt      seconds since 1970-01-01, as `1057049557`
    unix_ms.txt   milliseconds since then, as `1057049557123`
    asctime.txt   `Tue Jul  1 10:52:37 2003`

    zulu.txt      RFC 3339 in UTC with nine digits, as `2003-07-01T10:52:37.123456789Z`

and three of whole lines of logs, in which dates are looked for:

    access.txt    a web server's access log in the combined format, the time in the fourth field, some 200 bytes a line
    dateless.txt  messages with words, numbers, paths and addresses, and no date
    trace.txt     Python's traces, without a date

All years are 1950 to 2099. Each file has a seed of its own, and a short file is the beginning of a long one.
"""

import argparse
import datetime
import pathlib
import random

MONTHS = "Jan Feb Mar Apr May Jun Jul Aug Sep Oct Nov Dec".split()
DAYS = "Mon Tue Wed Thu Fri Sat Sun".split()
FIRST_DAY, LAST_DAY = datetime.date(1950, 1, 2).toordinal(), datetime.date(2099, 12, 30).toordinal()

# Minutes east of Greenwich: zero, which is written `Z` or +00:00, is as likely as eight others.
OFFSETS = [0] * 8 + [60, 120, 180, 330, 345, 480, 540, 570, 600, 765, 840,
                     -60, -180, -210, -300, -360, -420, -480, -570, -720]

FIRST_SEED = 20261122


def moment(rng: random.Random) -> tuple[datetime.date, int, int, int, str, int]:
    """Returns a day, an hour, a minute, a second, the text of a fraction and an offset in minutes."""
    day = datetime.date.fromordinal(rng.randint(FIRST_DAY, LAST_DAY))
    second = rng.randrange(86400)
    digits = rng.randrange(10)
    fraction = "." + "".join(rng.choices("0123456789", k=digits)) if digits else ""
    return day, second // 3600, second // 60 % 60, second % 60, fraction, rng.choice(OFFSETS)


def offset_text(minutes: int, colon: str, zulu: bool) -> str:
    """Returns the text of an offset, with this between hours and minutes; `Z` for zero where that is asked for."""
    if minutes == 0 and zulu:
        return "Z"
    size = abs(minutes)
    return f"{'-' if minutes < 0 else '+'}{size // 60:02}{colon}{size % 60:02}"


def rfc3339(rng: random.Random) -> str:
    """Returns a line of RFC 3339."""
    day, hour, minute, second, fraction, minutes = moment(rng)
    offset = offset_text(minutes, ":", rng.random() < 0.9)
    return f"{day.year:04}-{day.month:02}-{day.day:02}T{hour:02}:{minute:02}:{second:02}{fraction}{offset}"


def iso8601(rng: random.Random) -> str:
    """Returns a line of ISO 8601: a half have a month, a quarter a week, a quarter a day of the year."""
    day, hour, minute, second, fraction, offset = moment(rng)
    dash, colon = ("-", ":") if rng.random() < 0.6 else ("", "")
    kind = rng.randrange(4)
    if kind < 2:
        date = f"{day.year:04}{dash}{day.month:02}{dash}{day.day:02}"
    elif kind == 2:
        year, week, weekday = day.isocalendar()
        date = f"{year:04}{dash}W{week:02}{dash}{weekday}"
    else:
        date = f"{day.year:04}{dash}{day.timetuple().tm_yday:03}"
    return f"{date}T{hour:02}{colon}{minute:02}{colon}{second:02}{fraction}{offset_text(offset, colon, True)}"


def rfc2822(rng: random.Random) -> str:
    """Returns a line of RFC 2822. The weekday always stands: release 0.3.9 of the crate `time` asks for it."""
    day, hour, minute, second, _, offset = moment(rng)
    of_month = f"{day.day:02}" if rng.random() < 0.7 else str(day.day)
    date = f"{DAYS[day.weekday()]}, {of_month} {MONTHS[day.month - 1]} {day.year:04}"
    return f"{date} {hour:02}:{minute:02}:{second:02} {offset_text(offset, '', False)}"


def log(rng: random.Random) -> str:
    """Returns a time as a web server logs it."""
    day, hour, minute, second, _, offset = moment(rng)
    date = f"{day.day:02}/{MONTHS[day.month - 1]}/{day.year:04}"
    return f"{date}:{hour:02}:{minute:02}:{second:02} {offset_text(offset, '', False)}"


def clock(rng: random.Random) -> tuple[datetime.date, str]:
    """Returns a day and the text of a time of day."""
    day, hour, minute, second, _, _ = moment(rng)
    return day, f"{hour:02}:{minute:02}:{second:02}"


def postgres(rng: random.Random) -> str:
    """Returns a time as PostgreSQL logs it."""
    day, time = clock(rng)
    return f"{day} {time}.{rng.randrange(1000):03} UTC"


def python(rng: random.Random) -> str:
    """Returns a time as Python's module `logging` writes it."""
    day, time = clock(rng)
    return f"{day} {time},{rng.randrange(1000):03}"


def syslog(rng: random.Random) -> str:
    """Returns a time as a system's log has it, with its year before."""
    day, time = clock(rng)
    return f"{day.year} {MONTHS[day.month - 1]} {day.day:2} {time}"


def unix(rng: random.Random) -> str:
    """Returns seconds since 1970, of 2001 to 2099."""
    return str(rng.randint(1_000_000_000, 4_099_999_999))


def unix_ms(rng: random.Random) -> str:
    """Returns milliseconds since 1970, of 2001 to 2099."""
    return str(rng.randint(1_000_000_000_000, 4_099_999_999_999))


def asctime(rng: random.Random) -> str:
    """Returns a time as C's `asctime` writes it."""
    day, time = clock(rng)
    return f"{DAYS[day.weekday()]} {MONTHS[day.month - 1]} {day.day:2} {time} {day.year}"


PATHS = ["/", "/index.html", "/api/v1/users/48213/orders", "/static/js/app.3f9c2b71.js", "/img/logo-2x.png",
         "/search?q=time+zones&page=2", "/docs/2.14.1/reference.html", "/wp-login.php"]
AGENTS = ["Mozilla/5.0 (X11; Linux x86_64) AppleWebKit/537.36 (KHTML, like Gecko) Chrome/119.0.0.0 Safari/537.36",
          "Mozilla/5.0 (Windows NT 10.0; Win64; x64; rv:109.0) Gecko/20100101 Firefox/118.0",
          "Mozilla/5.0 (compatible; Googlebot/2.1; +http://www.google.com/bot.html)"]


def address(rng: random.Random) -> str:
    """Returns a network address."""
    return ".".join(str(rng.randrange(256)) for _ in range(4))


def access(rng: random.Random) -> str:
    """Returns a line of an access log in the combined format."""
    request = f"{rng.choice(['GET', 'GET', 'GET', 'POST'])} {rng.choice(PATHS)} HTTP/1.1"
    answer = f"{rng.choice([200, 200, 200, 304, 404, 500])} {rng.randrange(60_000)}"
    referrer = f"https://www.example.org{rng.choice(PATHS)}" if rng.random() < 0.6 else "-"
    return f'{address(rng)} - - [{log(rng)}] "{request}" {answer} "{referrer}" "{rng.choice(AGENTS)}"'


WORDS = """accepted answer batch cache client closed config connection deleted failed from handler host index job
loaded message opened pool queue read request retry row sent server session skipped socket started table thread timeout
to user value worker write""".split()


def dateless(rng: random.Random) -> str:
    """Returns a message without a date."""
    parts = []
    for _ in range(rng.randint(6, 16)):
        kind = rng.randrange(10)
        if kind == 0:
            parts.append(str(rng.randrange(10 ** rng.randint(1, 6))))
        elif kind == 1:
            parts.append(f"{rng.choice(WORDS)}={rng.randrange(1000)}ms")
        elif kind == 2:
            parts.append(f"{address(rng)}:{rng.randrange(65536)}")
        elif kind == 3:
            parts.append(f"/var/lib/{rng.choice(WORDS)}/{rng.choice(WORDS)}-{rng.randrange(100)}.db")
        else:
            parts.append(rng.choice(WORDS))
    return f"{rng.choice(['INFO', 'WARN', 'ERROR'])} " + " ".join(parts)


def trace(rng: random.Random) -> str:
    """Returns a line of a trace of Python."""
    kind = rng.randrange(8)
    if kind == 0:
        return "Traceback (most recent call last):"
    if kind == 1:
        return f"{rng.choice(['ValueError', 'KeyError', 'TimeoutError'])}: {rng.choice(WORDS)} {rng.choice(WORDS)} {rng.randrange(100)}"
    if kind < 5:
        package = f"/srv/app/venv/lib/python3.11/site-packages/{rng.choice(WORDS)}/{rng.choice(WORDS)}.py"
        return f'  File "{package}", line {rng.randrange(1, 2000)}, in {rng.choice(WORDS)}_{rng.choice(WORDS)}'
    return f"    {rng.choice(WORDS)} = self.{rng.choice(WORDS)}({rng.choice(WORDS)}, timeout={rng.randrange(60)})"


def garbage(rng: random.Random) -> str:
    """Returns a line that names no moment, but for those with `!` in place of `T`, which some programs read."""
    kind = rng.randrange(6)
    if kind == 0:
        return "".join(rng.choices("abcdefghijklmnopqrstuvwxyz 0123456789:-/", k=rng.randint(1, 40)))
    if kind == 1:
        return rfc3339(rng).replace("T", "!", 1)
    if kind == 2:
        return rfc3339(rng)[: rng.randint(1, 18)]
    if kind == 3:
        day = moment(rng)[0]
        return f"{day.year:04}-13-{day.day:02}T25:61:61Z"
    if kind == 4:
        return rfc2822(rng).replace(" ", "  x", 1)
    return "GET /index.html HTTP/1.1 200 -"


def mixed(rng: random.Random) -> str:
    """Returns a line of any of these kinds."""
    share = rng.random()
    if share < 0.4:
        return rfc3339(rng)
    if share < 0.7:
        return rfc2822(rng)
    return log(rng) if share < 0.9 else garbage(rng)


def zulu(rng: random.Random) -> str:
    """Returns a line of RFC 3339 in UTC with nine digits."""
    day, hour, minute, second, _, _ = moment(rng)
    return f"{day}T{hour:02}:{minute:02}:{second:02}.{rng.randrange(10 ** 9):09}Z"


FILES = (rfc3339, iso8601, rfc2822, mixed, log, postgres, python, syslog, unix, unix_ms, asctime, access, dateless, trace, zulu)


def write(folder: pathlib.Path, count: int) -> None:
    """Writes the files of so many lines each to the folder."""
    folder.mkdir(parents=True, exist_ok=True)
    for seed, line in enumerate(FILES, FIRST_SEED):
        rng = random.Random(seed)
        with open(folder / f"{line.__name__}.txt", "w", encoding="ascii") as file:
            file.writelines(line(rng) + "\n" for _ in range(count))


def main() -> None:
    parser = argparse.ArgumentParser()
    parser.add_argument("folder", type=pathlib.Path)
    parser.add_argument("lines", type=int, nargs="?", default=1_000_000)
    arguments = parser.parse_args()
    write(arguments.folder, arguments.lines)


if __name__ == "__main__":
    main()

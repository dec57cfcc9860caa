"""What is beside a date in a line: words, signs, clocks, offsets and years. Places count from 0, and past a line's ends is the byte 0."""

import re
from collections.abc import Iterable, Sequence

from .pieces import number_said

WINDOW = 256
REACH = 48
ESCAPE = 27
DIGIT = frozenset(b"0123456789")
LETTER = frozenset(b"ABCDEFGHIJKLMNOPQRSTUVWXYZabcdefghijklmnopqrstuvwxyz")
WORD = DIGIT | LETTER
SIGN = frozenset(b"+-")
BEFORE_SIGN = frozenset(b" \t\n\f\r([{<\"'`=:,;|")
PARAMETER = DIGIT | frozenset(b";")


def at(line: bytes, place: int) -> int:
    return line[place] if 0 <= place < len(line) else 0


# ---- words and clocks that go on over a place


def ends_sequence(line: bytes, place: int) -> bool:
    """Whether a control sequence ends here: `ESC [`, digits and `;`, and a letter."""
    first = place - 1
    if at(line, first) not in LETTER:
        return False
    while at(line, first - 1) in PARAMETER:
        first -= 1
    return at(line, first - 1) == ord("[") and at(line, first - 2) == ESCAPE


def goes_on(line: bytes, place: int) -> bool:
    before, here = at(line, place - 1), at(line, place)
    if before in WORD and here in WORD and not ends_sequence(line, place):
        return True
    if before == ord(".") and at(line, place - 2) in DIGIT and here in WORD:
        return True
    if before in WORD and here == ord(".") and at(line, place + 1) in DIGIT:
        return True
    is_pair = at(line, place - 3) not in DIGIT and at(line, place - 2) in DIGIT and before in DIGIT
    return is_pair and here == ord(":") and at(line, place + 1) in DIGIT


def is_edge(line: bytes, place: int) -> bool:
    return not goes_on(line, place)


def may_say(line: bytes, place: int) -> bool:
    """Whether no sign is here, or one that belongs to a date."""
    return at(line, place) not in SIGN or place == 0 or at(line, place - 1) in BEFORE_SIGN


# ---- words beside a date, by how they are written: a digit of a form is any digit up to it, `+` a sign, a small letter also the capital one

HOURS, HOURS_AND_MINUTES = ("19", "9"), ("19:59", "9:59", "1959")
SIGNS = (b"+", b"\xe2\x88\x92", rb"\u002b", rb"\u002d")
NAMES_OF_UTC = (b"utc", b"gmt", b"ut", b"z")
OTHER_NAMES = (
    b"cet", b"cest", b"eet", b"eest", b"wet", b"west", b"bst", b"ist", b"msk", b"est", b"edt", b"cst", b"cdt", b"mst", b"mdt", b"pst", b"pdt",
    b"jst", b"kst", b"aest", b"aedt", b"nzst", b"nzdt",
)  # fmt: skip
HALVES = (b"am", b"pm", b"a.m", b"p.m", b"a. m", b"p. m", b"a.\xc2\xa0m", b"p.\xc2\xa0m")
CLOCKS = ("29:59", "9:59", "29h59", "9h59", "29.59.59", "29-59-59", "19am", "19pm", "9am", "9pm", "19 am", "19 pm", "9 am", "9 pm")
Form = str | bytes


def fits(mark: int, byte: int) -> bool:
    if mark in DIGIT:
        return byte in DIGIT and byte <= mark
    return byte in SIGN if mark == ord("+") else bytes([byte]).lower() == bytes([mark])


def begin_so(form: Form, text: bytes) -> bool:
    marks = form.encode() if isinstance(form, str) else form
    return len(text) >= len(marks) and all(fits(mark, byte) for mark, byte in zip(marks, text))


def begun(forms: Sequence[Form], text: bytes) -> int:
    """Returns the length of the first form in which a text begins, or 0."""
    return next((len(it) for it in forms if begin_so(it, text)), 0)


def word(forms: Sequence[Form], text: bytes) -> int:
    """The same, where a word ends after it."""
    return next((len(it) for it in forms if begin_so(it, text) and is_edge(text, len(it))), 0)


def signed(numbers: Sequence[Form], text: bytes) -> int:
    """Returns the length of a sign and a number in one of these forms, or 0."""
    sign = begun(SIGNS, text)
    number = word(numbers, text[sign:])
    return sign + number if sign and number else 0


# ---- what is between a date and a word


def near(text: bytes) -> bytes:
    """What is after a colour and a fraction."""
    return re.sub(rb"\A(?:\x1b\[[0-9;]*[A-Za-z])?(?:,[0-9]+)?", b"", text)


def gap(text: bytes) -> int:
    """Returns how many bytes that part are at the start, three at most: of ASCII, no letters, digits, signs or backslashes."""
    count = 0
    while count < min(3, len(text)) and text[count] < 128 and text[count] not in WORD | SIGN | {ord("\\")}:
        count += 1
    return count


def apart(text: bytes) -> bytes:
    return near(text)[gap(near(text)) :]


# ---- an offset beside a date


def said(numbers: Sequence[Form], text: bytes) -> int | None:
    """Returns the offset of a sign and a number in one of these forms, less than fifteen hours, or None."""
    long, sign = signed(numbers, text), begun(SIGNS, text)
    if not long:
        return None
    digits = bytes(it for it in text[sign:long] if it in DIGIT)
    hours, minutes = (int(digits), 0) if len(digits) <= 2 else divmod(int(digits), 100)
    seconds = hours * 3600 + minutes * 60
    is_minus = any(it in b"-dD\xe2" for it in text[:sign])
    return None if seconds >= 54_000 else -seconds if is_minus else seconds


def first_said(offsets: Iterable[int | None]) -> int | None:
    return next((it for it in offsets if it is not None), None)


def said_by_hours(text: bytes) -> int | None:
    """Hours alone are directly after a date, or with two digits over a space and a bracket."""
    over = begun((b" (", b" [", b" "), text)
    return first_said((said(HOURS, text), said(("19",), text[over:]) if over else None))


def said_by_name(text: bytes) -> int | None:
    """The name of a zone with digits after it, or that of UTC alone."""
    name = begun(NAMES_OF_UTC + OTHER_NAMES, text)
    if not name:
        return None
    after = text[name:]
    return first_said((said(HOURS_AND_MINUTES + HOURS, after[begun((b" ",), after) :]), 0 if word(NAMES_OF_UTC, text) else None))


def offset_after(text: bytes) -> int | None:
    return first_said((said_by_hours(near(text)), said(HOURS_AND_MINUTES, apart(text)), said_by_name(apart(text))))


def word_after(line: bytes, ends: int) -> bytes:
    """Returns the word of letters after a date, directly or over a space."""
    text = near(line[ends : ends + REACH])
    text = text[begun((b" ",), text) :]
    return text[: len(text) - len(text.lstrip(bytes(LETTER)))]


def has_name_of_utc(line: bytes, start: int, ends: int) -> bool:
    return any(is_edge(line, it) and word((b"utc", b"gmt", b"z"), line[it:]) for it in range(start, ends))


def has_signed_year(line: bytes, start: int, ends: int) -> bool:
    """Whether a sign with four digits, after no word, is inside of what is read."""
    return any(at(line, it - 1) not in WORD and begin_so("+9999", line[it:]) for it in range(start, ends))


def has_another_offset(line: bytes, start: int, ends: int, given: int) -> bool:
    offset = offset_after(line[ends : ends + REACH])
    is_other = offset is not None and offset != given
    return is_other or (given != 0 and has_name_of_utc(line, start, ends)) or has_signed_year(line, start, ends)


# ---- a time of day beside a date


def has_half_after(line: bytes, ends: int) -> bool:
    after = near(line[ends : ends + REACH])
    return word(HALVES, after[begun((b" ", b"\t", b",", b";", b"\xc2\xa0", b"\xe2\x80\xaf"), after) :]) > 0


def is_clock(line: bytes, place: int) -> bool:
    return is_edge(line, place) and begun(CLOCKS, line[place:]) > 0


def has_clock_beside(line: bytes, begins: int, ends: int) -> bool:
    return any(is_clock(line, it) for it in (*range(max(begins - 16, 0), begins), *range(ends, ends + 16)))


# ---- years beside a date


def year_here(text: bytes) -> int | None:
    return number_said(1000, 2999, 4, text[:4]) if is_edge(text, 4) else None


def zone_word(text: bytes) -> int:
    """Returns the length of a space and the name of a zone in capital letters, or an offset, where a space follows; or 0."""
    after = text[1:]
    capitals = len(after) - len(after.lstrip(b"ABCDEFGHIJKLMNOPQRSTUVWXYZ"))
    long = capitals + signed(HOURS_AND_MINUTES + HOURS, after)
    return 1 + long if text[:1] == b" " and long and after[long : long + 1] == b" " else 0


def is_joint(text: bytes) -> bool:
    """Whether a text is one byte, or parts, or parts round the word of a weekday."""
    rest = text[gap(text) :].lstrip(bytes(LETTER))
    return len(text) == 1 or (gap(text) > 0 and len(rest) == gap(rest))


def year_before(line: bytes, begins: int, far: int) -> int | None:
    start = begins - far
    is_there = start >= 0 and is_edge(line, start) and is_joint(line[start + 4 : start + 4 + far - 4])
    return year_here(line[start:]) if is_there else None


def has_another_year(line: bytes, begins: int, ends: int, year: int) -> bool:
    after = line[ends : ends + REACH]
    years = [year_here(after[far:]) for far in (1, begun((b", ",), after), zone_word(after) + 1)]
    years += [year_before(line, begins, far) for far in range(5, 12)]
    return any(it is not None and it != year for it in years)


# ---- a clock before a date


def is_in_address(line: bytes, place: int) -> bool:
    before = line[:place]
    return before[len(before.rstrip(b"0123456789abcdefABCDEF:")) :].count(b":") > 1


def begins_seconds(line: bytes, place: int) -> bool:
    """Whether hours, minutes and seconds begin here, and no more of a clock or an address."""
    after = at(line, place + 8)
    is_there = at(line, place - 1) not in DIGIT and begin_so("99:99:99", line[place:])
    return is_there and after not in WORD and after != ord(":") and not is_in_address(line, place)


def has_clock_in_front(line: bytes, place: int) -> bool:
    """Whether they do before a place and all quotation marks."""
    quote = line.find(b'"')
    before = line[: place if quote < 0 else min(place, quote)]
    return any(begins_seconds(before, it) for it in range(len(before)))


# ---- what a date of ISO 8601 and one of RFC 2822 may have

# A point, a comma or a colon with no digit after it, or a comma with digits that are no fraction.
STOP = re.compile(rb"[.:](?![0-9])|,(?!(?:[0-9]{9}|[0-9]{6}|[0-9]{3})(?![0-9,]|\.[0-9]))")
# The word `UT`, a word of one letter, or a comment.
MAIL_END = re.compile(rb"(?<![A-Za-z0-9])(?:[Uu][Tt](?![A-Za-z0-9])|[A-Za-z](?![A-Za-z0-9]))|\(")


def iso_text(text: bytes) -> bytes:
    stop = STOP.search(text)
    return text[: stop.start()] if stop else text


def mail_text(text: bytes) -> bytes:
    """The text up to the end of `UT` or `Z`, or up to another word of one letter or a comment."""
    end = MAIL_END.search(text)
    if not end:
        return text
    return text[: end.end() if end[0].lower() in (b"ut", b"z") else end.start()]


# ---- the ends of a date


def blanks(text: bytes) -> int:
    return len(text) - len(text.lstrip(b" \t\n\f\r"))


def trimmed_length(text: bytes) -> int:
    return len(text.rstrip(b" \t\n\f\r"))


def zone_length(text: bytes) -> int:
    """The word of letters at the start, over one space at most."""
    found = re.match(rb" ?[A-Za-z]+", text)
    return found.end() if found else 0


def is_fraction(text: bytes) -> bool:
    return re.match(rb"(?:[0-9]{9}|[0-9]{6}|[0-9]{3})(?![0-9,]|\.[0-9])", text) is not None


def reach(line: bytes, begins: int, ends: int, zone: int) -> int:
    """How far a date reaches for sure: to the comma before digits that may be a field of a list, and else to its zone's end."""
    date = line[begins:ends]
    digits = len(date) - len(date.rstrip(b"0123456789"))
    comma = ends - digits - 1
    is_list = digits + 1 < ends - begins and at(line, comma) == ord(",") and at(line, comma - 1) in DIGIT
    return comma if is_list and not is_fraction(line[ends - digits :]) else zone

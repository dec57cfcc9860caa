"""What one word says, or None where it says nothing."""

import re


def number_said(least: int, greatest: int, most_digits: int, word: bytes) -> int | None:
    is_number = re.fullmatch(rb"[0-9]*", word) and len(word) <= most_digits
    number = int(word or b"0") if is_number else -1
    return number if least <= number <= greatest else None


def offset_said(word: bytes) -> int | None:
    """Returns the seconds of `+HH:MM` or `-HH:MM`, or None."""
    found = re.fullmatch(rb"([+-])([0-9]{2}):([0-9]{2})", word)
    if not found or int(found[2]) > 23 or int(found[3]) > 59:
        return None
    return (int(found[2]) * 3600 + int(found[3]) * 60) * (-1 if found[1] == b"-" else 1)


def time_said(word: bytes) -> int | None:
    found = re.fullmatch(rb"([0-9]{2}):([0-9]{2})", word)
    return int(found[1]) * 60 + int(found[2]) if found and int(found[1]) < 24 and int(found[2]) < 60 else None


def year_said(word: bytes) -> int | None:
    return number_said(0, 9999, 4, word) if len(word) == 4 else None

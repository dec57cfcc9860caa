"""A place in a text, for formats that are read piece by piece."""

from typing import NoReturn

from .components import digit_count
from .faults import Refused


class Reader:
    def __init__(self, text: bytes, at: int = 0) -> None:
        self.text, self.at = text, at

    def byte(self) -> bytes:
        """Returns the next byte as bytes, which are empty at the end."""
        return self.text[self.at : self.at + 1]

    def take(self, allowed: bytes) -> bytes:
        """Passes the next byte where it is one of these, and returns it."""
        byte = self.byte()
        if not byte or byte not in allowed:
            return b""
        self.at += 1
        return byte

    def digits(self, count: int) -> int | None:
        """Returns the number of exactly so many digits, or None."""
        if digit_count(self.text, self.at, count) < count:
            return None
        self.at += count
        return int(self.text[self.at - count : self.at])

    def digit_run(self) -> bytes:
        """Returns all digits that are there, or empty bytes."""
        count = digit_count(self.text, self.at, len(self.text))
        self.at += count
        return self.text[self.at - count : self.at]

    def due(self, allowed: bytes) -> bytes:
        """A byte that has to be there."""
        return self.take(allowed) or refuse("literal")

    def number(self, count: int, name: str, low: int, high: int) -> int:
        """Digits of a component that have to be there, and in a range."""
        value = self.digits(count)
        if value is None or not low <= value <= high:
            raise Refused.component(name)
        return value


def refuse(why: str) -> NoReturn:
    raise Refused(why)

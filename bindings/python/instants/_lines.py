"""Lines, as they are given."""

from __future__ import annotations

import io
import itertools
import math
from typing import IO, Any, Iterable, Iterator, NamedTuple, Union

Line = Union[str, bytes, bytearray, memoryview]
# One text, or one block of bytes, whose lines end in line feeds; a file that is open for reading; or one line after the other.
Lines = Union[Line, IO[str], IO[bytes], Iterable[Line]]
# The same, or a column in which lines may be missing.
Column = Union[Lines, Iterable[Union[Line, float, None]]]
LINE = (str, bytes, bytearray, memoryview)
# The types of what stands in a column for a line that is missing, beside the number NaN: None, and what pandas has.
MISSING = ("NoneType", "NAType", "NaTType")
# What is read at once where lines are read block by block: so much of a file, so many lines of another iterable.
BLOCK, BLOCK_LINES = 1 << 17, 1024


class Stream(NamedTuple):
    """The bytes of lines, with a line feed between them, and a number that is not less than theirs."""

    text: bytes
    most: int


def bytes_of(text: Any) -> bytes:
    """Returns the bytes of a text or of a block of bytes."""
    return text.encode(errors="surrogateescape") if isinstance(text, str) else bytes(text)


def stream_of(lines: Lines) -> Stream:
    """Returns the bytes of lines."""
    whole: Any = lines.read() if hasattr(lines, "read") else lines
    if isinstance(whole, LINE):
        return whole_stream(bytes_of(whole))
    return _stream_of_list(list(whole))


def column_of(lines: Column) -> tuple[Stream, list[int]]:
    """Returns the bytes of lines, and the places of those that are missing, as in a column of pandas: there the bytes have an
    empty line."""
    whole: Any = lines
    if hasattr(whole, "read") or isinstance(whole, LINE):
        return stream_of(whole), []
    listed = list(whole)
    try:
        return _stream_of_list(listed), []
    except TypeError:
        missing = [place for place, line in enumerate(listed) if is_missing(line)]
    for place in missing:
        listed[place] = b""
    return _stream_of_list(listed), missing


def is_missing(line: object) -> bool:
    """Returns whether something stands for a line that is missing."""
    return type(line).__name__ in MISSING or (isinstance(line, float) and math.isnan(line))


def whole_stream(text: bytes) -> Stream:
    """Returns bytes with the number of their lines."""
    return Stream(text, text.count(b"\n") + 1)


def _stream_of_list(lines: list[Any]) -> Stream:
    """Returns the bytes of a list of lines, each with a line feed after it."""
    stream = b""
    try:
        # (as most lists are: all texts or all bytes, and no line feed in any)
        if lines and isinstance(lines[0], str):
            stream = "\n".join([*lines, ""]).encode(errors="surrogateescape")
        elif lines:
            stream = b"\n".join([*lines, b""])
    except TypeError:
        pass
    if stream.count(b"\n") != len(lines):
        stream = b"".join(line_of(line) + b"\n" for line in lines)
    return Stream(stream, len(lines))


def blocks_of(lines: Lines) -> Iterator[Stream]:
    """Reads lines block by block, and no block before it is asked for; of a pipe a block is what is there."""
    if hasattr(lines, "read"):
        return map(whole_stream, _blocks_of_file(lines))
    if isinstance(lines, LINE):
        return map(whole_stream, _blocks_of_file(io.BytesIO(bytes_of(lines))))
    return _blocks_of_iterable(iter(lines))


def _blocks_of_file(file: Any) -> Iterator[bytes]:
    """Yields the bytes of a file in blocks of whole lines."""
    # (of a pipe `read` waits until a block is full; a reader that decodes may have the other call of what it reads)
    read, begun = file.read1 if isinstance(file, io.BufferedIOBase) else file.read, []
    while block := read(BLOCK):
        text = bytes_of(block)
        end = text.rfind(b"\n") + 1
        begun.append(text[:end] if end else text)
        if end:
            yield b"".join(begun)
            begun = [text[end:]]
    if block is None:
        raise BlockingIOError("a file whose reads do not wait has nothing to read")
    if rest := b"".join(begun):
        yield rest


def _blocks_of_iterable(lines: Iterator[Any]) -> Iterator[Stream]:
    while block := list(itertools.islice(lines, BLOCK_LINES)):
        yield _stream_of_list(block)


def line_of(line: Any) -> bytes:
    """Returns the bytes of a line without the line feed at its end."""
    if not isinstance(line, LINE):
        raise TypeError(f"a line is a text or bytes, and not {type(line).__name__}")
    read = bytes_of(line)
    end = read.find(b"\n")
    if end < 0:
        return read
    if end + 1 < len(read):
        raise ValueError("a line has a line feed within it")
    return read[:end]

"""What a run writes: for its words and a stream the output, the sentence on standard error, and the status."""

from . import calendar, edges, parts
from .faults import Refused, WrongWords
from .found import Candidate, Date, Doubtful, Given, found
from .sources import Source
from .words import Asked, asked_by

NONE, DOUBT, LONG = b"! none", b"! doubt", b"! long"


class Run:
    """What a run goes by from line to line: what words ask, what is given for dates, and the key of a line without a date."""

    def __init__(self, asked: Asked) -> None:
        self.asked = asked
        self.given = Given(asked.assumed, asked.year, None, asked.minutes, asked.zone)
        self.key = NONE
        self.indent: int | None = None

    # ---- dates

    def dated(self, line: bytes) -> bytes:
        """Returns the text for a line in a mode that finds dates, and goes on below it. In mode `carry` a line that begins deeper than
        the last one with a date has none of its own."""
        is_below = self.asked.mode == "carry" and self.indent is not None and depth(line) > self.indent
        date = None if is_below else self.date_in(line)
        text = MODES[self.asked.mode](self, line, date)
        if self.asked.mode == "carry":
            self.key = self.key_of(date)
            self.indent = self.indent if date is None else depth(line)
        if isinstance(date, Date):
            self.given = self.given.below(date.moment)
        return text

    def date_in(self, line: bytes) -> Date | Doubtful | None:
        if self.asked.part is None:
            return found(self.asked.limit, self.given, self.asked.sources, line)
        return self.date_in_part(self.asked.part, line)

    def date_in_part(self, part: parts.Part, line: bytes) -> Date | Doubtful | None:
        """Returns what is found in the part alone, by the places of the line. An escape in a date or near behind it puts it in doubt."""
        place = parts.place_of(part, line)
        if place is None:
            return None
        text = line[place.start : place.end]
        date = found(self.asked.limit, self.given, self.asked.sources, text)
        if isinstance(date, Date):
            there = moved(place.start, date)
            return Doubtful((Candidate(there, 0, "escape"),)) if parts.has_escape(part, text, date.start, date.end) else there
        return date and Doubtful(tuple(it._replace(date=moved(place.start, it.date)) for it in date.read))

    def key_of(self, date: Date | Doubtful | None) -> bytes:
        if date is None:
            return self.key
        return DOUBT if isinstance(date, Doubtful) else calendar.place_text(self.asked.target, date.moment)

    def keyed(self, line: bytes, date: Date | Doubtful | None) -> bytes:
        label = b"" if self.asked.label is None else self.asked.label + b"\t"
        return self.key_of(date) + b"\t" + label + line

    def replaced(self, line: bytes, date: Date | Doubtful | None) -> bytes:
        """A line without a date stays, and one whose date is in doubt or whose year is not written."""
        if not isinstance(date, Date):
            return line
        shown = calendar.shown_at(self.asked.target, date.moment)
        return line[: date.start] + calendar.moment_text(shown) + line[date.end :] if shown else line

    def located(self, line: bytes, date: Date | Doubtful | None) -> bytes:
        """The key of the date, the source's number and where the date is; of a date in doubt the same of each source, and why. Last that
        another member of the name follows."""
        place = parts.place_of(self.asked.part, line) if self.asked.part else None
        return self.read_in(date) + (b"\tfirst of several" if place and place.repeats else b"")

    def read_in(self, date: Date | Doubtful | None) -> bytes:
        if isinstance(date, Doubtful):
            return b"\t".join((DOUBT, *(place_of(it.date) + b"\t" + (it.doubt or "").encode() for it in date.read)))
        return NONE if date is None else self.key_of(date) + b"\t" + place_of(date)

    # ---- explained lines

    def said_by(self, number: int, source: Source, line: bytes) -> tuple[bool, bytes]:
        """Returns whether a source names a moment for a whole line, and what it says."""
        try:
            text, is_named = calendar.place_text(self.asked.target, source.moment_of_line(self.asked.assumed, line)), True
        except Refused as refused:
            text, is_named = b"! " + refused.why.encode(), False
        return is_named, b"%d\t%s" % (number, text)

    def explained(self, line: bytes) -> bytes:
        """The answer of the first source that names a moment, and where none does what all say."""
        said = [self.said_by(number, source, line) for number, source in enumerate(self.asked.sources, 1)]
        return next((text for is_named, text in said if is_named), b"\t".join(text for _, text in said))

    # ---- whole lines

    def written(self, line: bytes, end: bytes) -> bytes:
        """Returns what is written for a line, with what ends it. Of a line longer than is looked at its first bytes decide."""
        if self.asked.mode == "explain":
            return (LONG if len(line) > self.asked.limit else self.explained(line)) + (end or b"\n")
        near = 1 + (parts.LONGEST if self.asked.part else self.asked.limit + edges.WINDOW + 64)
        last_end = b"" if self.asked.mode == "replace" else b"\n"
        rest = b"" if self.asked.mode == "locate" else line[near:]
        return self.dated(line[:near]) + rest + (end or last_end)


def depth(line: bytes) -> int:
    """Returns how deep a line begins, in steps of two columns of white space; a tab is eight columns."""
    white = line[: edges.WINDOW]
    white = white[: len(white) - len(white.lstrip(b" \t"))]
    return (white.count(b" ") + 8 * white.count(b"\t")) // 2


def moved(at: int, date: Date) -> Date:
    """Returns a date by the places of a line in which its part begins at a place."""
    return date._replace(start=at + date.start, end=at + date.end)


def place_of(date: Date) -> bytes:
    """Returns the number of a date's source, counted from 1, and the date's first and last byte, counted from 1 too."""
    return b"%d\t%d-%d" % (date.source + 1, date.start + 1, date.end)


MODES = {"key": Run.keyed, "carry": Run.keyed, "replace": Run.replaced, "locate": Run.located}


def output(asked: Asked, stream: bytes) -> bytes:
    """Returns what is written for a whole stream; a last part that no line feed ends is a line if it is not empty."""
    run, lines = Run(asked), stream.split(b"\n")
    written = [run.written(it, b"\n") for it in lines[:-1]]
    if lines[-1]:
        written.append(run.written(lines[-1], b""))
    return b"".join(written)


def answer(words: list[bytes], stream: bytes) -> tuple[bytes, bytes, int]:
    """Returns the output, what is said on standard error, and the status."""
    try:
        return output(asked_by(words), stream), b"", 0
    except WrongWords as wrong:
        return b"", wrong.sentence + b"\n", 2

"""Lines with dates onto one timeline, by calls of the proved library `instants`.

    >>> import instants
    >>> lines = ["2021-01-02T04:04:05+01:00", "01/Jan/2021:22:04:07 -0500", "yesterday"]
    >>> how = {"target": "+00:00", "sources": ["rfc3339", "strftime", "%d/%b/%Y:%H:%M:%S %z"]}
    >>> instants.answers(lines, **how)
    ['2021-01-02T03:04:05.000000000Z', '2021-01-02T03:04:07.000000000Z', '! component year']
    >>> instants.parse(lines, **how)[2].fault
    'component year'
    >>> instants.datetimes(lines, **how)[0]
    datetime.datetime(2021, 1, 2, 3, 4, 5, tzinfo=datetime.timezone.utc)

A timeline has the words, which it reads once, for those who ask with one line at a time:

    >>> with instants.Timeline(**how) as timeline:
    ...     [timeline.answer(line) for line in lines]
    ['2021-01-02T03:04:05.000000000Z', '2021-01-02T03:04:07.000000000Z', '! component year']

A long file is read block by block:

    >>> for answer in instants.iter([b"2021-01-02T04:04:05Z"], **how):
    ...     print(answer)
    2021-01-02T04:04:05.000000000Z

Dates inside lines are found as the program `instants-lines` finds them:

    >>> with instants.Lines(["rfc3339", "access-log"]) as logs:
    ...     logs.keys(["up at 2021-01-02T04:04:05+01:00", "no date"])
    ['2021-01-02T03:04:05.000000000Z', '! none']

Lines are texts or bytes, one after the other, or one text, one block of bytes or an open file that has them. As a command,
`python -m instants`, the package is the program `instants`. The shared library is the file that INSTANTS_LIBRARY names, else
that of this package, else `libinstants.so.0` where the system looks.
"""

from ._answers import Answer, Fault
from ._dated import LineDate, Lines
from ._handle import Refused
from ._library import GREATEST_LIMIT, LINE_ROOM, VERSION, told, version
from ._lines import Line
from ._lines import Lines as SomeLines
from ._timeline import Timeline, answer_bytes, answers, datetimes, parse, to_datetime64

# (not among the names that are imported by a star, where it would hide Python's own)
from ._timeline import iter as iter

__version__ = told(VERSION)

__all__ = [
    "GREATEST_LIMIT",
    "LINE_ROOM",
    "Answer",
    "Fault",
    "Line",
    "LineDate",
    "Lines",
    "Refused",
    "SomeLines",
    "Timeline",
    "__version__",
    "answer_bytes",
    "answers",
    "datetimes",
    "parse",
    "to_datetime64",
    "version",
]

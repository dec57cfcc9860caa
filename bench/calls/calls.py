"""calls.py FILE LINES CALL WORD..: answers a file of lines by calls of Python of so many lines each, and prints the nanoseconds
that a line takes, the least of the rounds.

CALL is `answer_bytes`, `answers`, `datetimes` or `to_datetime64` of the package `instants`, or `Timeline.answer` or
`Timeline.answers`, by one timeline, the first for each line; or `ciso8601` or `dateutil`, which read RFC 3339 and no words: each
line's moment is read, moved to UTC and written with six digits of a fraction, which is all that they keep; or `ciso8601.datetimes`,
which does not write it. `answer_bytes` and `to_datetime64` are given blocks of bytes, the others lists of texts.
"""

import sys
import time

# Rounds at least, and nanoseconds in all.
ROUNDS, BUDGET = 3, 4e9


def moved(parse):
    """Returns a call that answers lines by a function that reads one."""
    from datetime import timezone

    def answer(lines):
        return [parse(line).astimezone(timezone.utc).isoformat(timespec="microseconds") for line in lines]

    return answer


def moved_alone(parse):
    """Returns a call that gives the moments of lines, in UTC, by a function that reads one."""
    from datetime import timezone

    return lambda lines: [parse(line).astimezone(timezone.utc) for line in lines]


def call_named(name, words):
    """Returns the call of this name, over a list of texts."""
    if name.startswith("ciso8601"):
        import ciso8601

        return (moved_alone if name == "ciso8601.datetimes" else moved)(ciso8601.parse_datetime)
    if name == "dateutil":
        from dateutil import parser

        return moved(parser.isoparse)
    import instants

    if name == "answer_bytes":
        return lambda lines: instants.answer_bytes(lines, words)
    target, assumed, limit, *sources = words
    how = {"assumed": assumed, "limit": int(limit), "sources": sources, **({} if name == "to_datetime64" else {"target": target})}
    if name == "Timeline.answers":
        return instants.Timeline(**how).answers
    if name == "Timeline.answer":
        answer = instants.Timeline(**how).answer
        return lambda lines: [answer(line) for line in lines]
    return lambda lines: getattr(instants, name)(lines, **how)


def main(file, count, name, *words):
    with open(file, encoding="ascii") as read:
        lines = read.read().split("\n")[:-1]
    pieces = [lines[at : at + int(count)] for at in range(0, len(lines), int(count))]
    if name in ("answer_bytes", "to_datetime64"):
        pieces = ["".join(line + "\n" for line in piece).encode() for piece in pieces]
    call, taken = call_named(name, words), []
    while len(taken) < ROUNDS or sum(taken) < BUDGET:
        began = time.process_time_ns()
        for piece in pieces:
            call(piece)
        taken.append(time.process_time_ns() - began)
    print(f"{min(taken) / len(lines):.1f}")


if __name__ == "__main__":
    main(*sys.argv[1:])

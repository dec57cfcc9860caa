#!/usr/bin/env python3
"""Writes lines that come by several pipes as one, in the order of their keys, for instants-merge --follow.

    tools/follow_logs.py SECONDS SINCE UNTIL PIPE..

A line is written when so many seconds have passed since it came, after all lines with lesser keys that came until then; of equal
keys the line that came first is first. A line whose key is a date's is left out if the key is less than SINCE, or not less than
UNTIL. What is held is written at the end: when each pipe has ended, or after a signal.
"""

import collections
import heapq
import os
import selectors
import signal
import sys
import time
from typing import Any, NoReturn

BLOCK = 1 << 16
# After all keys.
LAST = b"\xff"


class Window:
    """Lines that are held until their time has come."""

    def __init__(self, seconds: float, since: bytes, until: bytes) -> None:
        self.seconds, self.since, self.until, self.count = seconds, since, until, 0
        # Each line's key, its number and itself; when each key came; and the greatest key whose time has come.
        self.held: list[tuple[bytes, int, bytes]] = []
        self.came: collections.deque[tuple[float, bytes]] = collections.deque()
        self.due = b""

    def add(self, line: bytes) -> None:
        key = line.partition(b"\t")[0]
        if not key.startswith(b"!") and not self.since <= key < self.until:
            return
        self.count += 1
        heapq.heappush(self.held, (key, self.count, line))
        self.came.append((time.monotonic(), key))

    def write(self) -> None:
        """Writes the lines whose time has come, and those that come before them."""
        until = time.monotonic() - self.seconds
        while self.came and self.came[0][0] <= until:
            self.due = max(self.due, self.came.popleft()[1])
        while self.held and self.held[0][0] <= self.due:
            sys.stdout.buffer.write(heapq.heappop(self.held)[2] + b"\n")
        sys.stdout.buffer.flush()

    def write_all(self) -> None:
        self.due = LAST
        self.write()


def ended(*_: Any) -> NoReturn:
    raise KeyboardInterrupt


def follow(window: Window, pipes: list[str]) -> None:
    """Takes lines from all pipes until each has ended."""
    found = selectors.DefaultSelector()
    rest = {}
    for pipe in pipes:
        file = os.open(pipe, os.O_RDONLY)
        rest[file] = b""
        found.register(file, selectors.EVENT_READ)
    while rest:
        for key, _ in found.select(timeout=min(window.seconds, 0.1)):
            block = os.read(key.fd, BLOCK)
            *lines, rest[key.fd] = (rest[key.fd] + block).split(b"\n")
            for line in lines:
                window.add(line)
            if not block:
                if rest[key.fd]:
                    window.add(rest[key.fd])
                found.unregister(key.fd)
                del rest[key.fd]
        window.write()


def main(seconds: str, since: str, until: str, *pipes: str) -> int:
    try:
        window = Window(float(seconds), since.encode(), until.encode())
    except ValueError:
        print(f"instants-merge: --follow={seconds}: it takes a number of seconds", file=sys.stderr)
        return 2
    signal.signal(signal.SIGTERM, ended)
    try:
        follow(window, list(pipes))
    except KeyboardInterrupt:
        return 1
    finally:
        window.write_all()
    return 0


if __name__ == "__main__":
    sys.exit(main(*sys.argv[1:]))

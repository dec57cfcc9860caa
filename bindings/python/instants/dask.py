"""A file of lines on many machines: parts of whole lines, each through a program on a worker of Dask distributed.

    python3 -m instants.dask tcp://SCHEDULER:8786 all.log all.timed instants-lines key +00:00 - 1048576 rfc3339

The file, the output and the program have the same names on all machines. Each worker writes what the program prints for its
part beside the output, by another name until it is whole; so a part that is there is whole, whatever was killed meanwhile, and
Dask gives the part of a worker that is gone to another one. The parts are joined in order.
"""

from __future__ import annotations

import os
import re
import shutil
import socket
import subprocess
import sys
from dataclasses import dataclass
from typing import Any, Sequence

PART_SIZE = 64 << 20


@dataclass(frozen=True)
class Part:
    """The bytes of a file from one place to another: whole lines."""

    start: int
    stop: int


def parts_of(file: str, size: int = PART_SIZE, begins: bytes | None = None) -> list[Part]:
    """Cuts a file after line feeds into parts of some size. With `begins`, the pattern of a line, no part but the first begins
    with another line, as mode `carry` of `instants-lines` asks."""
    end, places = os.path.getsize(file), [0]
    with open(file, "rb") as lines:
        while places[-1] < end:
            lines.seek(min(places[-1] + size, end) - 1)
            lines.readline()
            place = lines.tell()
            while begins and place < end and not re.match(begins, lines.readline()):
                place = lines.tell()
            places.append(place)
    return [Part(*it) for it in zip(places, places[1:])]


def answer_part(file: str, part: Part, command: Sequence[str], folder: str) -> str:
    """Runs a command on a part of a file, and returns the file with what it prints."""
    with open(file, "rb") as lines:
        lines.seek(part.start)
        given = lines.read(part.stop - part.start)
    made = os.path.join(folder, f"{part.start:020}")
    arriving = f"{made}.{socket.gethostname()}.{os.getpid()}"
    with open(arriving, "wb") as output:
        subprocess.run(command, input=given, stdout=output, check=True)
    os.replace(arriving, made)
    return made


def answer_parts(client: Any, file: str, command: Sequence[str], folder: str, size: int = PART_SIZE, begins: bytes | None = None) -> list[str]:
    """Runs a command on the parts of a file, on the workers of a client of Dask distributed, and returns the files with what it
    prints, in order. They are in a folder, which is made, or is empty."""
    os.makedirs(folder, exist_ok=True)
    if os.listdir(folder):
        raise FileExistsError(f"{folder} is not empty")
    parts = parts_of(file, size, begins)
    made: list[str] = client.gather(client.map(lambda part: answer_part(file, part, command, folder), parts, pure=False))
    return made


def answer_file(client: Any, file: str, command: Sequence[str], output: str, size: int = PART_SIZE, begins: bytes | None = None) -> None:
    """The same, with the parts joined in the output. Meanwhile they are in the folder `OUTPUT.parts`, which must not be there."""
    folder = f"{output}.parts"
    os.mkdir(folder)
    try:
        made = answer_parts(client, file, command, folder, size, begins)
        with open(f"{folder}/whole", "wb") as whole:
            for name in made:
                with open(name, "rb") as part:
                    shutil.copyfileobj(part, whole, 1 << 20)
                os.unlink(name)
        os.replace(f"{folder}/whole", output)
    finally:
        shutil.rmtree(folder, ignore_errors=True)


def main(scheduler: str, file: str, output: str, *command: str) -> None:
    from distributed import Client

    with Client(scheduler) as client:
        answer_file(client, os.path.abspath(file), command, os.path.abspath(output))


if __name__ == "__main__":
    if len(sys.argv) < 5:
        sys.exit(__doc__)
    main(*sys.argv[1:])

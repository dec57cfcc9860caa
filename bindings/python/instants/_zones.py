"""The files of zones by their names, as the program `instants-lines` finds them."""

from __future__ import annotations

import os
import pathlib
import re

from ._handle import Refused

# Where the files are, where TZDIR names no other folder; a longer file is none of a zone.
FOLDER, FILE_LIMIT = "/usr/share/zoneinfo", 65_536
# A name has no point, and does not begin with a slash, so that none leads out of the folder.
NAME = re.compile(r"[A-Za-z0-9_+-][A-Za-z0-9_+/-]{0,63}", re.ASCII)


def zone_named(assumed: str) -> str | None:
    """Returns the name of the zone that stands in place of an assumed offset, or None."""
    if assumed.startswith(":"):
        return assumed[1:]
    return assumed if "/" in assumed and not assumed.startswith("/") and "." not in assumed else None


def zone_bytes(assumed: str) -> bytes:
    """Returns the bytes of the file of the zone that stands in place of an assumed offset, and none where none does."""
    name = zone_named(assumed)
    if name is None:
        return b""
    folder = pathlib.Path(os.environ.get("TZDIR") or FOLDER)
    if not folder.is_dir():
        raise Refused(f"instants-lines: no zone {name}: there is no folder {folder}; install tzdata, or set TZDIR")
    file = folder / name
    if not NAME.fullmatch(name) or not file.exists():
        raise Refused(f"instants-lines: no zone {name} below {folder}")
    if not file.is_file():
        raise Refused(f"instants-lines: {file} is no zone's file: it is no plain file")
    with file.open("rb") as opened:
        # (one byte more than a zone may have tells that there are more)
        return opened.read(FILE_LIMIT + 1) or b"\0"

#!/usr/bin/env python3
"""Attaches the files that tools/package.py made to a tag, in a job of a forge (packaging/release.yml).

    tools/attach_files.py FOLDER

The forge has releases as GitHub has them; Gitea and Forgejo do too. It says by variables where it answers (GITHUB_API_URL), which
repository this is (GITHUB_REPOSITORY), the tag (GITHUB_REF_NAME), and a token that allows this (GITHUB_TOKEN). The tag is `v` and the
version. Attached are the files that SHA256SUMS in FOLDER lists, each compared with its checksum before, and SHA256SUMS as the last.
A release that is there already gets the files that it lacks, and ends this where a file there has another size; a new one has the
version's part of CHANGELOG.md as its text.
"""

import hashlib
import json
import os
import pathlib
import re
import sys
import urllib.error
import urllib.parse
import urllib.request
from collections.abc import Mapping
from typing import Any

sys.dont_write_bytecode = True

from make_packages import SUMS, PackagingFailed, version
from program import ROOT

PLACES = ("GITHUB_API_URL", "GITHUB_REPOSITORY", "GITHUB_REF_NAME", "GITHUB_TOKEN")
ABSENT = 404
# How long an answer of the forge is waited for, in seconds.
PATIENCE = 300


class NotAttached(Exception):
    """The files can't be attached; the text says why."""


class Forge:
    """The releases that a forge has of a repository."""

    def __init__(self, api: str, repository: str, token: str) -> None:
        self.releases, self.token = f"{api}/repos/{repository}/releases", token

    def answer(self, url: str, given: bytes | None = None, kind: str = "application/json") -> Any:
        """Returns what the forge answers to a question, or where something is given, to that."""
        heads = {"Accept": "application/json", "Authorization": f"Bearer {self.token}", "Content-Type": kind}
        with urllib.request.urlopen(urllib.request.Request(url, given, heads), timeout=PATIENCE) as told:
            return json.load(told)

    def release(self, tag: str, text: str) -> Any:
        """Returns the release of a tag, made where it is not there."""
        try:
            return self.answer(f"{self.releases}/tags/{tag}")
        except urllib.error.HTTPError as fault:
            if fault.code != ABSENT:
                raise
        return self.answer(self.releases, json.dumps({"tag_name": tag, "name": tag, "body": text}).encode())

    def attach(self, release: Mapping[str, Any], file: pathlib.Path) -> None:
        """Attaches a file to a release."""
        place = release["upload_url"].partition("{")[0]
        self.answer(f"{place}?name={urllib.parse.quote(file.name)}", file.read_bytes(), "application/octet-stream")


def listed_in(folder: pathlib.Path) -> list[pathlib.Path]:
    """Returns the files that the checksums in a folder are of, and that of the checksums, or raises NotAttached."""
    sums = folder / SUMS
    if not sums.is_file():
        raise NotAttached(f"{sums} is not there; tools/package.py {folder} makes it")
    files = []
    for digest, name in (line.split("  ", 1) for line in sums.read_text().splitlines()):
        file = folder / name
        if not file.is_file() or hashlib.sha256(file.read_bytes()).hexdigest() != digest:
            raise NotAttached(f"{file} is not as {SUMS} has it")
        files.append(file)
    return [*files, sums]


def changes_of(number: str) -> str:
    """Returns what CHANGELOG.md says of a version."""
    found = re.search(rf"^## {re.escape(number)}\b.*?\n(.*?)(?=^## |\Z)", (ROOT / "CHANGELOG.md").read_text(), re.M | re.S)
    if not found:
        raise NotAttached(f"CHANGELOG.md says nothing of {number}")
    return found[1].strip()


def attach(folder: pathlib.Path, places: Mapping[str, str]) -> None:
    """Attaches the files of a folder, or raises NotAttached."""
    lacking = [it for it in PLACES if not places.get(it)]
    if lacking:
        raise NotAttached(f"no forge calls this: {', '.join(lacking)} is not set")
    api, repository, tag, token = (places[it] for it in PLACES)
    if tag != f"v{version()}":
        raise NotAttached(f"the tag of this version is v{version()}, and not {tag}")
    files, forge = listed_in(folder), Forge(api, repository, token)
    release = forge.release(tag, changes_of(version()))
    sizes = {it["name"]: it["size"] for it in release.get("assets", ())}
    for file in files:
        if file.name not in sizes:
            forge.attach(release, file)
        elif sizes[file.name] != file.stat().st_size:
            raise NotAttached(f"{file.name} is there already, with {sizes[file.name]} bytes in place of {file.stat().st_size}")
        print(f"{file.name} is {'there already' if file.name in sizes else 'attached'}", flush=True)


if __name__ == "__main__":
    if len(sys.argv) != 2:
        sys.exit(__doc__)
    try:
        attach(pathlib.Path(sys.argv[1]), os.environ)
    except (NotAttached, PackagingFailed, OSError) as fault:
        sys.exit(f"attach_files: {fault}")

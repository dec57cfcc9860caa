#!/usr/bin/env python3
"""Follows each link of the pages, in the repository and in the pages that are installed.

    tools/page_links.py [--check]

- A link in a page of the repository leads to a file that is there; where it names a heading, to a heading of that page.
- A file of a crate that docs/ARCHITECTURE.md names with its crate is there; in the hops of a line's way, it has the named function.
- The pages that tools/package.py installs are laid out as it lays them out. There, too, each link leads to a file that is
  installed, and to a heading of it; a link to a page that is not installed has become plain words, and no picture is left without
  its file.

It prints each link that leads nowhere, and ends with status 1 if there is any. It takes a second, and needs nothing that is built.
"""

import collections
import functools
import pathlib
import re
import subprocess
import sys
import tempfile

sys.dont_write_bytecode = True

from installed_pages import LINK
from make_packages import lay_out_documents

ROOT = pathlib.Path(__file__).resolve().parent.parent
FENCE = re.compile(r"^```.*?^```$", re.M | re.S)


def slug(heading: str) -> str:
    """Returns the name by which a link leads to a heading, before equal ones are counted."""
    words = re.sub(r"\[([^\]]*)\]\([^)]*\)", r"\1", heading).strip().lower()
    return re.sub(r"[^\w\- ]", "", words).replace(" ", "-")


@functools.cache
def headings_of(page: pathlib.Path) -> set[str]:
    """Returns the names of a page's headings."""
    taken: collections.Counter[str] = collections.Counter()
    names = set()
    for heading in re.findall(r"^#+ (.*)$", FENCE.sub("", page.read_text()), re.M):
        name = slug(heading)
        names.add(f"{name}-{taken[name]}" if taken[name] else name)
        taken[name] += 1
    return names


def links_of(text: str) -> list[tuple[str, str]]:
    """Returns the links of a page, outside of fences and of code: pairs of a file and a heading, either of which may be empty."""
    outside = re.sub(r"`[^`\n]+`", "code", FENCE.sub("", text))
    return [(to, at or "") for _, to, at in LINK.findall(outside) if ":" not in to]


def lost_in(folder: pathlib.Path, pages: list[pathlib.Path]) -> list[str]:
    """Returns what is wrong with the links of some pages of a folder."""
    lost = []
    for page in pages:
        text = page.read_text()
        for to, at in links_of(text):
            target = (page.parent / to).resolve() if to else page
            is_there = target.exists() and target.is_relative_to(folder.resolve())
            if not is_there or (at and at[1:] not in headings_of(target)):
                lost.append(f"{page.relative_to(folder)}: {to}{at}")
    return lost


def lost_files() -> list[str]:
    """Returns which files of crates the page of the architecture names that are not there, and which functions they do not have."""
    text = (ROOT / "docs" / "ARCHITECTURE.md").read_text()
    named = set(re.findall(r"`(\w+/(?:src|specs|proofs)/[\w/]+\.(?:rt|antt))`", text))
    lost = [f"docs/ARCHITECTURE.md: {it}" for it in sorted(named) if not (ROOT / "crates" / it).exists()]
    for call, file in re.findall(r"`(?:\w+::)?(\w+)`(?:, | \()`(\w+/src/[\w/]+\.rt)`", text):
        if file in named and (ROOT / "crates" / file).exists() and not re.search(rf"\bfn {call}\b", (ROOT / "crates" / file).read_text()):
            lost.append(f"docs/ARCHITECTURE.md: {call} of {file}")
    return lost


def pages_of_repository() -> list[pathlib.Path]:
    """Returns the pages of the repository that git knows, or would take."""
    listed = ["git", "ls-files", "--cached", "--others", "--exclude-standard", "*.md"]
    names = subprocess.run(listed, cwd=ROOT, capture_output=True, text=True, check=True).stdout.splitlines()
    return [ROOT / it for it in sorted(set(names)) if (ROOT / it).exists()]


def lost_where_installed() -> tuple[list[str], int]:
    """Returns what is wrong with the links of the pages that are installed, and how many pages these are."""
    with tempfile.TemporaryDirectory(prefix="installed-") as room:
        folder = pathlib.Path(room).resolve()
        lay_out_documents(folder)
        pages = sorted(folder.rglob("*.md"))
        return lost_in(folder, pages), len(pages)


def main(words: list[str]) -> int:
    if words not in ([], ["--check"]):
        sys.exit(__doc__)
    pages = pages_of_repository()
    lost = [f"the repository: {it}" for it in (*lost_in(ROOT, pages), *lost_files())]
    installed, count = lost_where_installed()
    lost += [f"where installed: {it}" for it in installed]
    print("\n".join([*lost, f"the links of {len(pages)} pages and of {count} installed ones: {len(lost)} lead nowhere"]))
    return int(bool(lost))


if __name__ == "__main__":
    sys.exit(main(sys.argv[1:]))

#!/usr/bin/env python3
"""Compares four pages of the documents with one another, and prints what is missing.

    tools/clause_words.py --check    with status 1 where anything is missing

- Each definition that a clause on docs/CALLS.md names, and that stands in the specs/ of a crate here, is told in
  docs/DEFINITIONS.md, in a section whose heading names that crate.
- Each call that has a row in docs/PROMISES.md stands on docs/CALLS.md. A row may name a type or a module there, or the prefix of
  the names of some calls, as `replace_`.
- Each call on docs/CALLS.md of the programs' crates, and of the crates below of which it has some, has a row in docs/PROMISES.md.
- Each public call that is handed an allocator is named in the section of docs/CLAIMS.md on what takes memory.

What a word of a clause stands for is known from the `ghost use` lines of the file in which the clause stands.
"""

import functools
import pathlib
import re
import sys
from collections.abc import Iterator

sys.dont_write_bytecode = True

import calls_page
import rattle_files
from program import ROOT, sure
from rattle_declarations import Lost
from rattle_files import CRATES, Call
from rattle_words import part_named

DEFINITIONS, PROMISES, CLAIMS = (ROOT / "docs" / f"{it}.md" for it in ("DEFINITIONS", "PROMISES", "CLAIMS"))
NAME = r"[A-Za-z_]\w*"
# What each word stands for; and what a heading of DEFINITIONS.md names, with the spans of code below it.
Imports = dict[str, tuple[pathlib.Path, str | None]]
Told = tuple[list[str], set[str]]
# Sections of CALLS.md whose calls all have a row in PROMISES.md.
WITH_ROWS = ("instants", *calls_page.ALONE, "Below these crates")
# Crates that are programs or tests.
NO_LIBRARY = re.compile(r"(^rows|^examples_\w+|_tests|_program|_check)$")
# What rows name that is of the kit.
NAMES_OF_KIT = {"Display", "from_str"}


def told_words() -> Iterator[Told]:
    """Returns the words of each section of DEFINITIONS.md: pairs of what its heading names, and the spans of code in it."""
    text = DEFINITIONS.read_text()
    for part in re.split(r"^## ", text, flags=re.M)[1:]:
        head, _, body = part.partition("\n")
        yield re.findall(r"`([^`]+)`", head), {word for span in re.findall(r"`([^`\n]+)`", body) for word in re.split(r"[\s,]+", span)}


def is_told(crate: str, name: str, sections: list[Told]) -> bool:
    """Returns whether a section of a crate tells a name; a heading may name the prefix of several crates' names."""
    return any(name in words for crates, words in sections if any(crate == it or (it.endswith("_") and crate.startswith(it)) for it in crates))


@functools.cache
def imports_of(file: pathlib.Path) -> Imports:
    """Returns what each word of the clauses of a file stands for."""
    # (a list of names may go over some lines)
    text = re.sub(r"ghost use [^;]*;", lambda it: re.sub(r"\s*\n\s*", "", it[0]), file.read_text())
    return rattle_files.imports_in(text, "ghost use")


def definition_of(word: str, imports: Imports) -> tuple[pathlib.Path, str] | None:
    """Returns the file and the name of the definition that a word of a clause is, or of the type of which it is a value."""
    head, _, tail = word.partition(".")
    file, name = imports.get(word) or imports.get(head) or (None, None)
    if f"{head}." in imports and tail:
        file, name = imports[f"{head}."][0], tail.split(".")[0]
    if not (file and name):
        return None
    body = rattle_files.definitions_in(file).get(name)
    if not body:
        # (the file gives it on, or it is told that it does not have it)
        part = part_named(file, name)
        return part if not isinstance(part, str) and part[0].suffix == ".antt" else None
    of = re.match(r"(?:abbrev |unfoldable |opaque )?pub (?:record|data) (\S+)", body[0])
    return file, of[1] if of else name


def definitions_of(call: Call) -> set[tuple[pathlib.Path, str]]:
    """Returns the definitions that a call's clauses name."""
    imports = imports_of(call.file)
    words = rattle_files.words_of("\n".join(call.clauses), imports)
    return {it for it in (definition_of(word, imports) for word in words) if it}


def missing_words(sections: calls_page.Sections) -> list[str]:
    """Returns the definitions that clauses name and DEFINITIONS.md does not tell, each with a call that needs it."""
    told = [*told_words()]
    missing: dict[str, str] = {}
    for _, groups in sections:
        for title, calls in groups:
            for call in calls:
                for file, name in definitions_of(call):
                    crate = file.relative_to(CRATES).parts[0]
                    if not is_told(crate, name, told):
                        call_name = call.written if call.written.startswith("impl") else sure(re.search(r"fn (\w+)", call.written))[1]
                        missing.setdefault(f"{file.relative_to(CRATES)} {name}", f"{title} {call_name}")
    return [f"DEFINITIONS.md lacks {it}, which a clause of {missing[it]} names" for it in sorted(missing)]


def rows_of_promises() -> Iterator[str]:
    """Returns the first cells of the rows on calls and laws in PROMISES.md, but those that go on with the row above."""
    is_of_calls = False
    for line in PROMISES.read_text().split("\n"):
        if not line.startswith("|"):
            is_of_calls = False
        elif re.match(r"\| (call|law)\b", line):
            is_of_calls = True
        elif is_of_calls and not line.startswith("|---"):
            yield re.split(r"(?<!\\)\|", line)[1].strip()


def names_in(cell: str) -> Iterator[tuple[str | None, str]]:
    """Returns the calls that a cell names, each by its last name, and by that of its type where it has one."""
    for span in re.findall(r"`([^`]+)`", cell):
        if re.fullmatch(rf"{NAME}(::{NAME})*", span):
            *before, name = span.split("::")
            yield (before[-1] if before else None), name


def names_on_page(sections: calls_page.Sections) -> tuple[set[str], set[tuple[str | None, str]]]:
    """Returns the names of all calls on CALLS.md, of the types, crates and modules that have some, and calls by their type."""
    names, of = {*NAMES_OF_KIT}, set()
    for crate in (*calls_page.FAMILIES, *calls_page.ALONE, *calls_page.BELOW):
        names |= rattle_files.exported(crate)
    for head, groups in sections:
        names |= set(re.findall(NAME, head))
        for title, calls in groups:
            parts = [it for it in title.split("::") if it]
            names |= {*parts}
            for call in calls:
                name = re.search(r"fn (\w+)", call.written)
                if name:
                    names.add(name[1])
                    of |= {(it, name[1]) for it in (*parts, call.of)}
                    of.add((parts[0], name[1]))
    return names, of


def missing_calls(sections: calls_page.Sections) -> Iterator[str]:
    """Returns the calls that PROMISES.md has rows for and CALLS.md does not have."""
    names, of = names_on_page(sections)
    for cell in rows_of_promises():
        for owner, name in names_in(cell):
            is_front = name.endswith("_") and any(it.startswith(name) for it in names)
            if not is_front and (name not in names or (owner and owner[0].isupper() and (owner, name) not in of)):
                yield f"CALLS.md lacks {owner + '::' if owner else ''}{name}, which has a row in PROMISES.md"


def missing_rows(sections: calls_page.Sections) -> Iterator[str]:
    """Returns the calls of some sections of CALLS.md that PROMISES.md has no row for: none of the call, and none of its type."""
    named = {name for cell in rows_of_promises() for _, name in names_in(cell)}
    for head, groups in sections:
        for title, calls in groups:
            for call in calls if head.strip("`") in WITH_ROWS else ():
                name = re.search(r"fn (\w+)", call.written)
                if name and name[1] not in named and call.of not in named:
                    yield f"PROMISES.md has no row for {title} {name[1]}"


def missing_takers() -> Iterator[str]:
    """Returns the public calls that are handed an allocator and that CLAIMS.md does not name as such."""
    told = sure(re.search(r"^## What takes memory\n(.*?)^## ", CLAIMS.read_text(), re.M | re.S))[1]
    named = set(re.findall(NAME, " ".join(re.findall(r"`([^`]+)`", told))))
    for crate in sorted(it.name for it in CRATES.iterdir() if not NO_LIBRARY.search(it.name)):
        given_on = rattle_files.exported(crate)
        for file in sorted((CRATES / crate / "src").rglob("*.rt")):
            for call in rattle_files.calls_in(file):
                found = re.search(r"fn (\w+)", call.written)
                name = found[1] if found else ""
                is_public = found and (call.of in given_on or (call.of is None and (name in given_on or file.name in ("laws.rt", "lib.rt"))))
                if is_public and re.search(r"\balloc: ", call.written) and name not in named:
                    yield f"CLAIMS.md does not say of {crate} {name} that it takes memory"


def main(words: list[str]) -> int:
    if words != ["--check"]:
        sys.exit(__doc__)
    sections = calls_page.sections()
    try:
        words_missing = missing_words(sections)
    except Lost as fault:
        words_missing = [f"a word of a clause stands nowhere: {fault}"]
    missing = [*words_missing, *missing_calls(sections), *missing_rows(sections), *missing_takers()]
    print("\n".join([*missing, f"the pages lack {len(missing)} words of one another"]))
    return int(bool(missing))


if __name__ == "__main__":
    sys.exit(main(sys.argv[1:]))

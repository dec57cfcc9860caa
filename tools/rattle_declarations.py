"""Reads declarations of src/: where a struct, an enum, a trait, a type or a constant stands that a path of Rust or of definitions names,
what of it is read, and which names of its text are its own."""

import functools
import pathlib
import re
from collections.abc import Sequence

from program import sure
from rattle_files import CRATES, closing

# What Rust has: words that a declaration may have, its own types, and those of std that are there without a `use`.
OF_RUST = set(
    "pub struct enum trait const static fn mut dyn impl for where crate self Self super as ref in unsafe extern type move true false "
    "bool char str u8 u16 u32 u64 u128 usize i8 i16 i32 i64 i128 isize f32 f64 "
    "Option Some None Result Ok Err Vec Box String Copy Clone Sized Send Sync Fn FnMut FnOnce From Into Iterator".split()
)
# Modules of what Rattle makes of a type.
OF_TYPES = ("TheVariants", "TheOpen", "TheFolds", "TheInside", "TheConstants")
# What a word stands for that is of the kit.
OF_KIT = "the kit"
# What a name is: a file with the name there, or OF_KIT.
Part = tuple[pathlib.Path, str] | str
RUST_ITEM = r"^(?:pub(?:\([a-z]+\))? )?(?:const |unsafe )?(struct|enum|trait|const|static|type) {}\b"


class Lost(Exception):
    """A word stands nowhere; the text says why."""


def declared(crate: str, path: Sequence[str], name: str) -> tuple[pathlib.Path, str]:
    """Returns the declaration by the path of its module and its type, or of its module where it is a constant."""
    *modules, of = [it for it in path if it not in OF_TYPES] or [name]
    if "TheConstants" in path and of[:1].islower():
        modules, of = [*modules, of], name
    file = module_file(crate, modules)
    if file and declares(file, of):
        return file, of
    raise Lost(f"src/ of {crate} declares no {'.'.join([*modules, of])}")


@functools.cache
def rust_uses(file: pathlib.Path) -> dict[str, str]:
    """Returns the path of each name that a file of src/ brings in by `use`."""
    found: dict[str, str] = {}

    def take(path: str, rest: str) -> None:
        for it in split_list(rest):
            front, brace, inner = it.partition("{")
            if brace:
                take(path + front, inner[:-1])
                continue
            full, _, here = (path + it).partition(" as ")
            full = full.removesuffix("::self")
            found[here.strip() or full.split("::")[-1]] = full.strip()

    text = re.sub(r"//[^\n]*", "", file.read_text())
    for it in re.findall(r"^ *(?<!ghost )(?:pub(?:\([a-z]+\))? )?use ([^;]+);", text, re.M):
        take("", re.sub(r"\s+", " ", it).strip())
    return found


def split_list(text: str) -> list[str]:
    """Returns the items of a list that is separated by commas, where an item may have a list in braces."""
    items, depth, at = [], 0, 0
    for place, sign in enumerate(text):
        depth += (sign == "{") - (sign == "}")
        if sign == "," and depth == 0:
            items.append(text[at:place])
            at = place + 1
    return [it.strip() for it in (*items, text[at:]) if it.strip()]


def module_file(crate: str, modules: Sequence[str]) -> pathlib.Path | None:
    """Returns the file of a module of src/, by the names of the modules from the root, or None."""
    folder = CRATES / crate / "src"
    files = [folder / f"{'/'.join(modules)}.rt", folder / "/".join(modules) / "mod.rt"] if modules else [folder / "lib.rt", folder / "main.rt"]
    return next((it for it in files if it.exists()), None)


def declares_in(text: str, name: str) -> re.Match[str] | None:
    return re.search(RUST_ITEM.format(re.escape(name)), text, re.M)


def declares(file: pathlib.Path, name: str) -> re.Match[str] | None:
    return declares_in(file.read_text(), name)


@functools.cache
def rust_named(crate: str, path: tuple[str, ...]) -> Part:
    """Returns the declaration that a path of Rust from the root of a crate is, or that it is of the kit."""
    *modules, name = path
    file = module_file(crate, modules)
    if file and declares(file, name):
        return file, name
    if file and name in rust_uses(file):
        return rust_at(crate, rust_uses(file)[name])
    # (in a module inside of a file)
    found = [it for it in sorted((CRATES / crate / "src").rglob("*.rt")) if not file and declares(it, name)]
    if len(found) == 1:
        return found[0], name
    raise Lost(f"src/ of {crate} does not declare it")


def rust_at(crate: str, full: str) -> Part:
    """Returns the declaration that a path of Rust in a file of a crate is, or that it is of the kit."""
    first, *rest = full.split("::")
    if first in ("crate", "self", "super"):
        return rust_named(crate, tuple(rest))
    # (a module of the crate may be called as another crate is)
    root = module_file(crate, [])
    if module_file(crate, [first]) or root and re.search(rf"^(?:pub )?mod {first}\b", root.read_text(), re.M):
        return rust_named(crate, (first, *rest))
    if first in ("std", "core", "alloc"):
        return OF_KIT
    if (CRATES / first).is_dir():
        return rust_named(first, tuple(rest))
    raise Lost(f"{first} is no crate")


def without_notes(text: str) -> list[str]:
    """Returns the lines of a text of src/ but comments, attributes and what it brings in."""
    plain = re.sub(r"^ *(?:pub )?(?:ghost )?use [^;]*;", "", re.sub(r"//[^\n]*", "", text), flags=re.M)
    plain = re.sub(r"^ *#!?\[[^\n]*\]$", "", plain, flags=re.M)
    return [it.rstrip() for it in plain.split("\n") if it.strip()]


def end_of_item(text: str, at: int) -> int:
    """Returns where a declaration ends that begins at a place."""
    brace, dot = text.find("{", at), text.find(";", at)
    if brace < 0 or 0 <= dot < brace:
        return dot + 1
    return closing(text, brace)


def without_bodies(trait: str) -> str:
    """Returns a trait without those of its calls that have a body."""
    kept, at = "", 0
    for begun in re.finditer(r"^    (?:final )?fn ", trait, re.M):
        place = closing(trait, trait.index("(", begun.end()))
        while found := re.compile(r"[^;{]*?\b(?:requires\*?|ensures\*?)\s*\w*\s*\{").match(trait, place):
            place = closing(trait, found.end() - 1)
        brace, semicolon = trait.find("{", place), trait.find(";", place)
        if brace >= 0 and (semicolon < 0 or brace < semicolon):
            kept += trait[at : begun.start()]
            at = closing(trait, brace)
    return kept + trait[at:]


@functools.cache
def declaration(file: pathlib.Path, name: str) -> tuple[list[str], list[str], list[str]]:
    """Returns the lines of a declaration, those of its model apart, and what each of the latter says."""
    text = re.sub(r"//[^\n]*", "", file.read_text())
    begun = sure(declares_in(text, name))
    item = text[begun.start() : end_of_item(text, begun.start())]
    rust = without_notes(without_bodies(item) if begun[1] == "trait" else item)
    model: list[str] = []
    said: list[str] = []
    for head in re.finditer(rf"^impl(?:<[^{{]*?>)? Model for {name}\b[^{{]*\{{", text, re.M):
        block = text[head.start() : closing(text, head.end() - 1)]
        for member in re.finditer(r"^    ghost (?:Value|view|invariant) = \{", block, re.M):
            end = closing(block, member.end() - 1)
            model += without_notes(block[member.start() : end] + ";")
            said.append(block[member.end() : end - 1])
    return rust, model, said


def without_own_names(text: str) -> str:
    """Returns a declaration without the names that it gives: those of variants, fields, arguments, calls and clauses."""
    if re.match(r"(?:pub(?:\([a-z]+\))? )?enum ", text):
        text = re.sub(r"^    (\w+)", "", text, flags=re.M)
    text = re.sub(r"\b(?:fn|ghost) \w+|\b(?:requires\*?|ensures\*?)(?:[ \t]+\w+)?", "", text)
    return re.sub(r"\b\w+: ", "", text)


def rust_name(path: str, file: pathlib.Path, crate: str) -> Part:
    """Returns the declaration that a name of a file of src/ is."""
    head, *rest = path.split("::")
    if declares(file, head):
        return file, head
    if head in rust_uses(file):
        return rust_at(crate, "::".join([rust_uses(file)[head], *rest]))
    if rest or head in ("crate", "self", "super"):
        return rust_at(crate, path)
    raise Lost("it is neither declared nor brought in there")


def generics_in(text: str) -> set[str]:
    """Returns the parameters of a declaration's types and calls."""
    found = set()
    for listed in re.findall(r"(?:struct|enum|trait|fn|type|impl) ?\w*<([^({]*?)>(?=[\s({;:]|$)", text):
        found |= {it.partition(":")[0].strip().removeprefix("const ") for it in split_list(listed)}
    return found

"""Reads the files of Rattle of this repository: the calls of a file of src/ with their contracts, the definitions of a file of
specs/, the functions of a crate by their lines, and the changes of a mutation."""

import functools
import pathlib
import re
from collections.abc import Iterable
from typing import NamedTuple

from program import ROOT, sure

CRATES = ROOT / "crates"

# ---- calls and their contracts


class Call(NamedTuple):
    """A call: the type or trait that it is of, or none; how it is written; its clauses; the file where it stands; the first sentence
    of its doc comment, or an empty text. A constant is one too, without clauses."""

    of: str | None
    written: str
    clauses: list[str]
    file: pathlib.Path
    doc: str


class Source(NamedTuple):
    """A file: its path, and its text."""

    path: pathlib.Path
    text: str


# How a call that is of no type begins, an export for C among them.
FREE = r'pub (?:unsafe )?(?:extern "C" )?fn '

# Where a value is longer than this, a constant stands without it.
SHORT = 40


def doc_before(text: str, at: int) -> str:
    """Returns the first sentence of the doc comment that ends right before a place of a text, or an empty text."""
    lines: list[str] = []
    for line in reversed(text[:at].split("\n")[:-1]):
        if line.strip().startswith("///"):
            lines.insert(0, line.strip()[3:].strip())
        elif lines or not line.strip().startswith(("#[", "//")):
            break
    first = " ".join(lines[: lines.index("")] if "" in lines else lines)
    sentence = re.match(r"(?:[^.!?`]|`[^`]*`|[.!?](?!\s))*[.!?](?=\s|$)", first)
    return sentence[0] if sentence else first


def exported(crate: str) -> set[str]:
    """Returns the names that a crate's page gives on."""
    text = re.sub(r"//.*", "", (ROOT / "crates" / crate / "src" / "lib.rt").read_text())
    names = set()
    for path in re.findall(r"pub use ([^;]+);", text):
        inside = re.search(r"\{([^}]*)\}", path)
        listed = inside[1].split(",") if inside else [path.split("::")[-1]]
        names |= {it.split(" as ")[0].strip() for it in listed if it.strip()}
    return names


def closing(text: str, at: int) -> int:
    """Returns the place after the bracket that closes the one at a place."""
    depth = 0
    for place in range(at, len(text)):
        depth += (text[place] in "{(") - (text[place] in "})")
        if depth == 0:
            return place + 1
    raise ValueError(f"no end of {text[at : at + 60]}")


def clauses_in(text: str) -> list[str]:
    """Returns the clauses that a text begins with, each on a line of its own."""
    clauses, at = [], 0
    while found := re.compile(r"(?:\s|//[^\n]*\n)*(requires\*?|ensures\*?|ghost)\s*(\w*)\s*:?\s*\{").match(text, at):
        at = closing(text, found.end() - 1)
        what = re.sub(r"\s+", " ", text[found.end() : at - 1]).strip()
        clauses.append(f"  {found[1]}{f' {found[2]}' if found[2] else ''}: {what}")
    return clauses


def owner(head: str) -> str | None:
    """Returns the type or the trait of which the calls after a line are, if they are listed there, or none."""
    if head.startswith("pub trait "):
        return sure(re.match(r"pub trait (\w+)", head))[1]
    return sure(re.match(r"impl(?:<[^{]*?>)? (\w+)(?:<.*>)? \{$", head))[1] if " for " not in head else None


def operator_in(block: str, at: int, source: Source) -> list[Call]:
    """Returns what an operator asks and gives, what is printed, or what a wall clock is, as a call of its type, if the block is of one."""
    head = re.match(r"impl(?:<[^{]*?>)? ((?:fmt::)?\w+(?:<.*>)?) for (\w+)(?:<.*>)? \{$", block.split("\n")[0])
    begun = re.finditer(r"^    ghost (can_\w+|\w+_gives|output|styled_output|wall_of|with_wall) = \{", block, re.M) if head else ()
    members = [(it[1], re.sub(r"\s+", " ", block[it.end() : closing(block, it.end() - 1) - 1]).strip()) for it in begun]
    clauses = [f"  {name}: {what}" for name, what in members]
    return [Call(head[2], f"impl {head[1]} for {head[2]}", clauses, source.path, doc_before(source.text, at))] if head and members else []


def call_at(block: str, begun: re.Match[str], of: str | None, at: int, source: Source, of_impl: str = "") -> Call:
    """Returns the call whose head begins at a place of a block, which begins at a place of its file."""
    end = closing(block, block.index("(", begun.end()))
    gives = re.compile(r"\s*->(?:\[[^\]\n]*\]|[^{;\n\[])*").match(block, end)
    end = gives.end() if gives else end
    written = re.sub(r"\s+", " ", block[begun.start() : end]).strip().removeprefix("pub ")
    written = re.sub(r",? \)", ")", re.sub(r"\( ", "(", written))
    return Call(of, of_impl + written, clauses_in(block[end:]), source.path, doc_before(source.text, at + begun.start()))


def own_promises_in(block: str, at: int, source: Source) -> list[Call]:
    """Returns the calls of a trait that promise more for a type than the trait does for all, if the block is of such a type."""
    head = re.match(r"impl(?:<[^{]*?>)? (\w+)(?:<.*>)? for (\w+)(?:<.*>)? \{$", block.split("\n")[0])
    if not head:
        return []
    found = [call_at(block, it, head[2], at, source, f"impl {head[1]} for {head[2]}: ") for it in re.finditer(r"^    fn ", block, re.M)]
    return [it for it in found if it.clauses]


def constants_in(block: str, of: str | None, at: int, source: Source) -> list[Call]:
    """Returns the public constants of a block."""
    found = []
    for begun in re.finditer(r"^ *pub (const (\w+): [^=]+?) = ([^;]+);", block, re.M):
        value = re.sub(r"\s+", " ", begun[3]).replace(", }", " }")
        written = begun[1] + (f" = {value}" if len(value) <= SHORT else "")
        found.append(Call(of, written, [], source.path, doc_before(source.text, at + begun.start())))
    return found


def calls_in(file: pathlib.Path) -> list[Call]:
    """Returns the public calls and constants of a file, in order."""
    source = Source(file, file.read_text())
    found: list[Call] = []
    at = 0
    for block in re.split(rf"^(?=impl\b|pub trait |pub const |{FREE}|fn |mod )", source.text, flags=re.M):
        head = block.split("\n")[0]
        of = owner(head) if head.startswith(("impl", "pub trait ")) else None
        found += [*operator_in(block, at, source), *own_promises_in(block, at, source)]
        if of is not None or head.startswith("pub const "):
            found += constants_in(block, of, at, source)
        if of is not None or re.match(FREE, head):
            written = r"^ *(?:pub |final )?fn " if head.startswith("pub trait ") else rf"^ *{FREE}"
            found += [call_at(block, it, of, at, source) for it in re.finditer(written, block, re.M)]
        at += len(block)
    return found


def name_of(call: Call) -> str | None:
    """Returns the name of a call or of a constant, or none of an operator."""
    name = re.search(r"(?:fn|const) (\w+)", call.written)
    return name[1] if name else None


# ---- definitions

# How an operator binds, as `infixl 10 ◌>>=◌`; a definition may be called `prefix`.
FIXITY = re.compile(r"\s*(?:infix[lr]?|prefix|postfix) \d+ +\S*◌")
WORD = r"[^\s(){}\[\].,;=:λ→]+(?:\.[^\s(){}\[\].,;=:λ→]+)*|◌[^\s(){},;]*◌"


def file_of(path: str) -> pathlib.Path | None:
    """Returns the file of a module of specs/, or none where it is not of this repository or tells what src/ declares."""
    parts = path.split(".")
    if parts[0] != "Rattle" or len(parts) < 4 or parts[2] != "specs" or "declared" in parts:
        return None
    folder = CRATES / parts[1] / "specs"
    file = folder / ("/".join(parts[3:]) + ".antt")
    if file.exists() or not (folder / "Lib.antt").exists():
        return file if file.exists() else None
    # (a crate gives on what another one has)
    given_on = re.search(rf"^pub use (Rattle\.\w+\.specs\.{parts[-1]})$", (folder / "Lib.antt").read_text(), re.M)
    return file_of(given_on[1]) if given_on else None


def imports_in(text: str, keyword: str) -> dict[str, tuple[pathlib.Path, str | None]]:
    """Returns what each name that is brought in stands for: a file, and the name there."""
    found: dict[str, tuple[pathlib.Path, str | None]] = {}
    for path, names, alias in re.findall(rf"^ *{keyword} (Rattle[\w.]+?)(?:\.\{{([^}}]*)\}})?(?: as (\w+))?;?$", text, re.M):
        file = file_of(path)
        if not file:
            continue
        if alias:
            found[f"{alias}."] = (file, None)
        for name in (it.strip() for it in names.split(",")) if names else ():
            there, _, here = name.partition(" as ")
            found[here or there] = (file, there)
    return found


def outside_of_modules(lines: list[str]) -> tuple[list[str], dict[int, str]]:
    """Returns lines with what stands in a module without a name as it would stand outside of it, and the head of its module
    for the number of each such line."""
    plain: list[str] = []
    heads: dict[int, str] = {}
    head: str | None = None
    for line in lines:
        if re.match(r"module _ .*\bwhere$", line):
            head = line
            continue
        head = head if not line or line.startswith("  ") else None
        if head:
            heads[len(plain)] = head
        plain.append(line.removeprefix("  ") if head else line)
    return plain, heads


@functools.cache
def definitions_in(file: pathlib.Path) -> dict[str, list[str]]:
    """Returns the definitions of a file by name, each with its lines. The head of a module without a name is one too, by the
    name that it is as a whole: what stands in the module rests on it."""
    found = {}
    lines = [it for it in file.read_text().split("\n") if not it.strip().startswith("--") and not it.startswith("use ")]
    lines, heads = outside_of_modules(lines)
    found.update({it: [it] for it in heads.values()})
    text = "\n".join(lines)
    # (what stands in a mutual block stands as it would outside of it)
    text = re.sub(r"^(?:abbrev |unfoldable |opaque )?mutual\b.*\n((?:(?:  .*)?\n)*)", lambda it: re.sub(r"^  ", "", it[1], flags=re.M), text, flags=re.M)
    for block in re.split(r"\n(?=(?:abbrev |unfoldable |opaque )?pub )", text):
        head = re.match(r"(?:abbrev |unfoldable |opaque )?pub (?:record |data )?(\S+)", block)
        if head:
            body = [it for it in block.split("\n") if it.strip() and not FIXITY.match(it)]
            found[head[1]] = body
            # (the base of a data type and the fields of a record go with it)
            for name in re.findall(r"^  (?:pub )?(\S+) :", "\n".join(body), re.M):
                found.setdefault(name, [])
                found[name] = found[name] or body
    return found


@functools.cache
def module_heads(file: pathlib.Path) -> dict[str, str]:
    """Returns the head of the module without a name in which each definition of a file stands, for those that stand in one."""
    lines = [it for it in file.read_text().split("\n") if not it.strip().startswith("--")]
    plain, heads = outside_of_modules(lines)
    begun = {at: re.match(r"(?:abbrev |unfoldable |opaque )?pub (?:record |data )?(\S+)", plain[at]) for at in heads}
    return {it[1]: heads[at] for at, it in begun.items() if it}


def words_of(text: str, names: Iterable[str]) -> set[str]:
    """Returns the words of a text, and those operators among the names whose parts it has."""
    found = set(re.findall(WORD, text))
    tokens = set(re.split(r"[\s(){},;]+", text))
    bound = {">>="} if re.search(r"\bdo$", text, re.M) else set()
    return found | {it for it in names if "◌" in it and {part for part in it.split("◌") if part} <= tokens | bound}


# ---- functions by their lines, and mutations

FUNCTION = re.compile(r'( *)(pub(?:\(\w+\))? )?(?:const |final |unsafe )?(?:extern "C" )?fn (\w+)')
IMPL = re.compile(r"impl\b(.*) \{$")
COMMENT = re.compile(r"//[^\n]*|/\*.*?\*/", re.S)
# What a mutation changes: file, old text, new text. What some of them change: each file as it is, and as they leave it.
Change = tuple[str, str, str]
Texts = dict[str, tuple[str, str]]


class Function(NamedTuple):
    """A function: its file, its name, the trait that it is of, its path for the prover, its first line and its last one."""

    file: str
    name: str
    trait: str
    path: str
    is_public: bool
    first: int
    last: int


def without_comments(text: str) -> str:
    """Returns the text with spaces in the place of its comments, line for line."""
    return COMMENT.sub(lambda it: re.sub(r"[^\n]", " ", it[0]), text)


def name_of_type(text: str) -> str:
    """Returns a type as the prover writes it in the name of an impl: `&'a [Item<'a>]` as `RefSliceItem`."""
    text = re.sub(r"'\w+\b", "", text).replace("&", " Ref ").replace("[", " Slice ")
    words = [it for it in re.findall(r"[A-Za-z_]\w*", text.replace("::", ".").replace("fmt.", "")) if it != "mut"]
    return "".join(it[0].upper() + it[1:] for it in words)


def name_of_impl(head: str) -> tuple[str, str]:
    """Returns what the prover calls an impl by its head, as `DateDisplay`, and its trait; or the type's name, and no trait."""
    generic, _, head = sure(re.match(r"\s*(<[^<>]*(?:<[^<>]*>[^<>]*)*>)?(\s*)(.*)", head)).groups()
    trait, is_of_trait, of = head.partition(" for ")
    if not is_of_trait:
        return sure(re.match(r"\w+", head))[0], ""
    bare = re.sub(r"<.*", "", of) if not of.startswith("&") else of
    # (a parameter is not named, nor an argument that is the type itself)
    parameters = re.findall(r"[<,]\s*(\w+)", generic or "")
    shown = trait
    if parameters:
        bare, shown = (re.sub(rf"\b({'|'.join(parameters)})\b", "", it) for it in (bare, shown))
    shown = shown.replace(f"<{of}>", "")
    return name_of_type(bare) + name_of_type(shown), trait


def functions_of(crate: pathlib.Path) -> list[Function]:
    """Returns the crate's functions, each with its lines from its attributes to its end, counted from 1; none of a crate
    of tests, and of a program, which has no callers, only those that promise something.

    The first function of an impl of a trait begins at the impl, whose ghost members speak of it."""
    found: list[Function] = []
    is_program = (crate / "src" / "main.rt").exists()
    for path in sorted((crate / "src").rglob("*.rt") if not crate.name.endswith("_tests") else []):
        if any(it.endswith("tests") for it in path.relative_to(crate / "src").with_suffix("").parts):
            continue
        lines = path.read_text().split("\n")
        file = str(path.relative_to(crate))
        module = "::".join(it for it in path.relative_to(crate / "src").with_suffix("").parts if it not in ("lib", "main"))
        within, trait = "", ""
        opened: int | None = None
        for at, line in enumerate(lines):
            implemented, named = IMPL.match(line), FUNCTION.match(line)
            if implemented:
                within, trait = name_of_impl(implemented[1])
                opened = at if trait else None
            if re.match(r"(pub )?trait (\w+)", line):
                within = sure(re.match(r"(?:pub )?trait (\w+)", line))[1]
            if line == "}":
                within, trait, opened = "", "", None
            if not named:
                continue
            first = at if opened is None else opened
            while lines[first - 1].lstrip().startswith("#["):
                first -= 1
            ends = [named[1] + "}", named[1] + "{}"]
            last = next((it for it in range(at, len(lines)) if lines[it] in ends), at)
            # (the methods of a type are named after its module, wherever their impl stands)
            own = "" if within and not trait else module
            place = "::".join(it for it in (own, within, named[3]) if it)
            # (an empty body without a clause of its own says nothing that could be turned)
            promises = not is_program or any("ensures" in it for it in lines[at:last])
            is_public = (named[2] == "pub " or bool(trait)) and promises and not line.endswith("{}")
            found.append(Function(file, named[3], trait, place, is_public, first + 1, last + 1))
            opened = None
    return found


def changes_of(mutation: pathlib.Path) -> list[Change]:
    """Returns what a mutation changes: file, old text, new text."""
    file, old = "", None
    changes: list[Change] = []
    for line in mutation.read_text().split("\n"):
        word, _, text = line.partition(": ")
        if word == "file":
            file = text.strip()
        elif word == "old":
            old = text
        elif word in ("new", "new:") and old is not None:
            changes.append((file, old, text))
            old = None
    return changes


def edited(crate: pathlib.Path, changes: Iterable[Change]) -> Texts:
    """Returns the files that the changes touch, each as it is and as they leave it."""
    texts: Texts = {}
    for file, old, new in changes:
        text = (crate / file).read_text()
        was, now = texts.get(file, (text, text))
        if now.count(old) != 1:
            raise ValueError(f"stands {now.count(old)} times in {file}: {old}")
        texts[file] = was, now.replace(old, new)
    return texts


def turned_by(texts: Texts, functions: list[Function]) -> list[Function]:
    """Returns the innermost functions whose text changes, comments aside."""
    turned: list[Function] = []
    for file, (was, now) in texts.items():
        lines = zip(without_comments(was).split("\n"), without_comments(now).split("\n"))
        for at, (before, after) in enumerate(lines, 1):
            if before.strip() == after.strip():
                continue
            within = [it for it in functions if it.file == file and it.first <= at <= it.last]
            turned += [it for it in within[-1:] if it not in turned]
    return turned

"""Follows the words of Rattle: from the clauses of a call to all definitions of specs/ and declarations of src/ that they rest on.

Each word of a text that is reached has to be one of these: a name that the text binds, the name of a field or of an implicit argument, a
numeral, a word of the language, a name of the kit, or a definition or a declaration of this repository, which is then reached
too. What is none of them is lost, and said with its place. Names are followed through `pub use` of names and of modules. A bare
word of a pattern that is no case of a type is a variable, as it is for the prover.

A definition counts with its lines, but comments and fixities. Of a struct, an enum or a constant all lines count; of a type with a
model also what the model says of it (`Value`, `view`, `invariant`); of a trait its ghost members and the calls that each type
with the trait has to write, with their clauses: its other calls follow from these.
"""

import collections
import functools
import pathlib
import re
from collections.abc import Callable, Iterable, Mapping, Sequence

from program import sure
from rattle_declarations import OF_KIT, OF_RUST, Lost, Part, declaration, declared, declares, generics_in, rust_name, rust_uses, without_own_names
from rattle_files import CRATES, closing, definitions_in, module_heads

# What the language has: its reserved words, those of a kit's `Prim`, and what stands for a part of a text.
LANGUAGE = set(
    "data record deriving module where use mod pub package open as unfoldable opaque abbrev axiom unfold unfolding ruleset mutual infix infixl infixr "
    "elim let in do λ ∀ Type → × ↦ ← = | : [ ] _ Unit tt absurd ⊥ refl omega".split()
)
# What a word stands for that is bound in the text.
BOUND = "bound"
# What a path of a `use` is: a file of specs/, a crate with a path in its src/, the kit, or none. What is brought in: for each name its
# module and its name there; for each other name of a module that module. A token: a word, or the indentation of a line.
Module = pathlib.Path | tuple[str, tuple[str, ...]] | str | None
Uses = tuple[dict[str, tuple[str, str]], dict[str, str]]
Token = int | str
# The crates of the kit that definitions use.
KIT = ("std",)
TOKEN = re.compile(r'"(?:\\.|[^"\\])*"|\.?[^\s(){}.;,@"«»]+(?:\.[^\s(){}.;,@"«»]+)*|[(){}.;,@]')


# ---- modules and the names that they have


def module_at(path: str) -> Module:
    """Returns what a path of a `use` is: a file of specs/, or a crate with the path of what its src/ declares, or the kit."""
    parts = path.split(".")
    if parts[0] != "Rattle" or parts[1] in KIT:
        return OF_KIT
    if parts[2] != "specs":
        return None
    if parts[3] == "declared":
        return parts[1], tuple(parts[4:])
    file = CRATES / parts[1] / "specs" / ("/".join(parts[3:]) + ".antt")
    if file.exists():
        return file
    lib = CRATES / parts[1] / "specs" / "Lib.antt"
    given_on = re.search(rf"^pub use (Rattle\.\w+\.specs\.{parts[-1]})$", lib.read_text(), re.M) if lib.exists() else None
    return module_at(given_on[1]) if given_on else None


@functools.cache
def uses_in(text: str, keyword: str) -> Uses:
    """Returns what is brought in: for each name its module and its name there; for each other name of a module that module."""
    names: dict[str, tuple[str, str]] = {}
    modules: dict[str, str] = {}
    for path, listed, alias in re.findall(rf"^ *{keyword} ((?:\w+\.)*[\w\-]+?)(?:\.\{{([^}}]*)\}})?(?: as (\w+))?;?$", text, re.M):
        if alias or not listed:
            modules[alias or path.split(".")[-1]] = path
        for it in [word for part in listed.split(",") if (word := part.strip())]:
            there, _, here = it.partition(" as ")
            names[here or there] = path, there
    return names, modules


@functools.cache
def spec_uses(file: pathlib.Path) -> Uses:
    return uses_in(file.read_text(), "(?:pub )?use")


@functools.cache
def own_names(file: pathlib.Path) -> dict[str, str]:
    """Returns the definition that each name of a file is, or is a case of."""
    found = {}
    for name, lines in definitions_in(file).items():
        head = re.match(r"(?:abbrev |unfoldable |opaque )?pub (record |data )?(\S+)", lines[0]) if lines else None
        if head and head[2] == name:
            found[name] = name
            cases = re.findall(r"^ +(\S+) :", "\n".join(lines[1:]), re.M) if head[1] == "data " else []
            found.update({it: name for it in cases})
    return found


@functools.cache
def given_on_by(file: pathlib.Path) -> dict[str, tuple[str, str]]:
    """Returns the names that a file of specs/ gives on, each with its module and its name there."""
    return uses_in(file.read_text(), "pub use")[0]


def part_named(module: Module, name: str) -> Part:
    """Returns the part that a name of a module is, or that it is of the kit."""
    if isinstance(module, str):
        return module
    if module is None:
        raise Lost("its module is not there")
    if isinstance(module, tuple):
        return declared(*module, name)
    if name in own_names(module):
        return module, own_names(module)[name]
    if name in given_on_by(module):
        path, there = given_on_by(module)[name]
        return part_named(module_at(path), there)
    raise Lost(f"{module.relative_to(CRATES)} does not have it")


# ---- the words of a text


def tokens_of(text: str) -> list[Token]:
    """Returns the tokens of a text without comments and strings; a number stands at the start of a line, for its indentation."""
    tokens: list[Token] = []
    for line in text.split("\n"):
        plain = re.sub(r"(?<!\S)--.*", "", line)
        if plain.strip():
            tokens += [len(plain) - len(plain.lstrip()), *(it for it in TOKEN.findall(plain) if not it.startswith('"'))]
    return tokens


def clauses_of(lines: list[str]) -> list[str]:
    """Returns the texts of a definition: its signature and its clauses, each with the lines that go on with it."""
    texts: list[str] = []
    for line in lines:
        if line.startswith(" ") and texts:
            texts[-1] += f"\n{line}"
        else:
            texts.append(line)
    return texts


def end_of_pattern(tokens: list[Token]) -> int:
    """Returns where the patterns of a clause end, before its `=`; 0 where the text is no clause."""
    depth = 0
    for at, token in enumerate(tokens):
        depth += (token in ("(", "{")) - (token in (")", "}"))
        if depth == 0 and token in ("=", ":"):
            return at if token == "=" else 0
    return 0


class Binding:
    """Goes through a text and keeps which of its words it does not bind. What is bound in a bracket is bound up to its end; what a
    line of a `do` block, a field or a case binds, from the next line on that is not indented deeper; what a `let` binds, from
    its `in` on. A word of a pattern is bound unless it is a case of a type."""

    def __init__(self, text: str, is_case: Callable[[str], bool]) -> None:
        self.tokens, self.is_case = tokens_of(text), is_case
        self.free: set[str] = set()
        self.frames: list[tuple[Token, set[str]]] = [("", set())]
        self.waiting: list[tuple[Token, list[Token]]] = []

    def bind(self, words: Iterable[Token], frame: int = -1) -> None:
        for it in words:
            if isinstance(it, str) and it not in "(){}.;,@:":
                (self.free if self.is_case(it) else self.frames[frame][1]).add(it)

    def ahead(self, at: int, signs: Sequence[str]) -> int:
        """Returns the place of the first of some signs on the same line, or that of the line's end."""
        return next((it for it in range(at, len(self.tokens)) if self.tokens[it] in signs or isinstance(self.tokens[it], int)), len(self.tokens))

    def names_before(self, at: int, sign: str) -> tuple[list[Token], int]:
        """Returns the names from a place on that a sign stands behind, and where it stands; or none, and the place before."""
        end = self.ahead(at, (sign,))
        names = self.tokens[at:end]
        is_list = end < len(self.tokens) and self.tokens[end] == sign and all(re.fullmatch(r"[^(){}.;,@→=]+", str(it)) for it in names)
        return (names, end) if is_list and names else ([], at - 1)

    def wait_over(self, mark: Token) -> None:
        """Binds what waited for this."""
        over = [it for it in self.waiting if it[0] == mark or isinstance(mark, int) and isinstance(it[0], int) and it[0] >= mark]
        # (an `in` is that of the last `let`)
        for it in over[-1:] if mark == "in" else over:
            self.waiting.remove(it)
            self.bind(it[1])

    def begin_line(self, at: int) -> int:
        indentation = self.tokens[at]
        self.wait_over(indentation)
        arrow = self.ahead(at + 1, ("←",))
        if arrow < len(self.tokens) and self.tokens[arrow] == "←":
            self.waiting.append((indentation, self.tokens[at + 1 : arrow]))
            return arrow
        # (a signature, a field or a case)
        names, end = self.names_before(at + 1, ":")
        self.waiting.append((indentation, [it for it in names if it not in LANGUAGE]))
        return end

    def begin_bracket(self, at: int) -> int:
        self.frames.append((self.tokens[at], set()))
        names, end = self.names_before(at + 1, ":")
        self.waiting.append(("(" * (len(self.frames) - 1), names))
        return end

    def end_bracket(self) -> None:
        if len(self.frames) > 1:
            self.frames.pop()
            self.wait_over("(" * len(self.frames))

    def step(self, at: int) -> int:
        """Reads the token at a place, and returns the place of the last token that was read with it."""
        token = self.tokens[at]
        behind = self.tokens[at + 1] if at + 1 < len(self.tokens) else ""
        if isinstance(token, int):
            return self.begin_line(at)
        if token in ("(", "{"):
            return self.begin_bracket(at)
        if token in (")", "}"):
            self.end_bracket()
        elif len(self.frames) > 1 and (token == "," or token == ";" and self.frames[-1][0] == "{"):
            self.frames[-1][1].clear()
        elif token == "λ":
            dot = self.tokens.index(".", at)
            self.bind(self.tokens[at + 1 : dot])
            return dot
        elif token == "let":
            sign = self.ahead(at + 1, ("=", ":"))
            self.waiting.append(("in", self.tokens[at + 1 : sign]))
            return sign
        elif token == "in":
            self.wait_over("in")
        elif not (token in ",;@" or token.startswith(".") or behind == "=" and self.frames[-1][0] == "{"):
            self.take(token)
        return at

    def take(self, token: str) -> None:
        if not any(token.partition(".")[0] in names for _, names in self.frames):
            self.free.add(token)


def heads_in(pattern: list[str], scope: "Scope") -> set[str]:
    """Returns the words of a pattern that are given something there, as `Some` in `(Some x)`, and are no case of a type."""
    found = set()
    for bracket, head, behind in zip(pattern, pattern[1:], pattern[2:]):
        if bracket == "(" and head not in "(){}.;,@" and behind not in ("{", ")", ",") and behind not in scope.operators and not scope.is_case(head):
            found.add(head)
    return found


def free_words(text: str, scope: "Scope") -> tuple[set[str], set[str]]:
    """Returns the words of a text that it does not bind, and those that have to be cases of a type and are not."""
    binding = Binding(text, scope.is_case)
    at = end_of_pattern(binding.tokens)
    pattern = [it for it in binding.tokens[:at] if isinstance(it, str)]
    heads = heads_in(pattern, scope)
    binding.bind(pattern)
    while at < len(binding.tokens):
        at = binding.step(at) + 1
    return binding.free, heads


def is_of_language(word: str) -> bool:
    return word in LANGUAGE or re.match(r"\d", word) is not None or word == "◌"


class Scope:
    """What the words of a text stand for."""

    def __init__(self, names: Mapping[str, tuple[str, str]], modules: Mapping[str, str], own: Mapping[str, tuple[pathlib.Path, str]], file: pathlib.Path, crate: str | None = None) -> None:
        self.names, self.modules, self.own, self.file, self.crate = names, modules, own, file, crate
        self.operators = collections.defaultdict(set)
        for name in (*names, *own):
            for part in name.split("◌") if "◌" in name else ():
                self.operators[part].add(name)

    def of(self, name: str) -> Part:
        """Returns the part that a name is."""
        if name in self.names:
            path, there = self.names[name]
            return part_named(module_at(path), there)
        return self.own[name]

    def is_case(self, word: str) -> bool:
        """Returns whether a word is no name of its own where it stands in a pattern: it is a case of a type, or not of specs/."""
        head = word.partition(".")[0]
        if head != word or is_of_language(word):
            return True
        if word in self.own:
            return self.own[word][1] != word
        if word not in self.names:
            return word in self.operators
        path, there = self.names[word]
        part = part_named(module_at(path), there)
        return isinstance(part, str) or part[1] != there or part[0].suffix == ".rt"

    def parts(self, word: str, bound: set[str]) -> list[Part]:
        """Returns the parts that a word is of, with OF_KIT and BOUND for what is none."""
        head, _, tail = word.partition(".")
        if word in self.names or word in self.own:
            return [self.of(word)]
        if tail and head in self.modules:
            return [part_named(module_at(self.modules[head]), tail.split(".")[0])]
        if head in self.names or head in self.own:
            return [self.of(head)]
        operator = head.strip("◌")
        if operator and operator in self.operators:
            return [self.of(it) for it in sorted(self.operators[operator])]
        if head in bound:
            return [BOUND]
        if self.crate and (head in rust_uses(self.file) or declares(self.file, head)):
            return [rust_name(head, self.file, self.crate)]
        if is_of_language(head):
            return [OF_KIT]
        raise Lost("it is bound nowhere, brought in nowhere, and defined nowhere")


class Reached:
    """All that clauses rest on, and the words that stand nowhere."""

    def __init__(self) -> None:
        self.lines: dict[tuple[pathlib.Path, str], list[str]] = {}
        self.lost: list[str] = []

    def take(self, part: Part) -> None:
        if isinstance(part, str) or part in self.lines:
            return
        file, name = part
        if file.suffix == ".antt":
            self.take_definition(file, name)
        else:
            self.take_declaration(file, name)

    def take_definition(self, file: pathlib.Path, name: str) -> None:
        body = definitions_in(file)[name]
        self.lines[file, name] = body
        names, modules = spec_uses(file)
        scope = Scope(names, modules, {it: (file, of) for it, of in own_names(file).items()}, file)
        head, bound = module_heads(file).get(name), {name}
        if head:
            self.lines[file, head] = [head]
            bound.update(*(it.split() for it in re.findall(r"[({]([^:(){}]+) :", head)))
            self.follow(scope, [head.removesuffix(" where").removeprefix("module _ ")], bound, file, "module _")
        self.follow(scope, clauses_of(body), bound, file, name)

    def take_declaration(self, file: pathlib.Path, name: str) -> None:
        crate = file.relative_to(CRATES).parts[0]
        rust, model, said = declaration(file, name)
        self.lines[file, name] = rust + model
        text = "\n".join(rust)
        scope = rust_scope(file, crate)
        own = {name, *generics_in(text)}
        bound = {*own, "Self", "self", "result", *re.findall(r"\bghost (\w+)", text), *re.findall(r"\b(\w+)(?=: )", text)}
        # (clauses and the types of ghost members are read as definitions are)
        braces = [(it.end(), closing(text, it.end() - 1) - 1) for it in re.finditer(r"(?:requires\*?|ensures\*?|ghost)\s*(?:\w+\s*)?:?\s*\{", text)]
        plain, at = "", 0
        for begun, end in braces:
            plain, at = plain + text[at:begun], end
        self.follow_rust(without_own_names(plain + text[at:]), file, crate, own)
        self.follow(scope, [*(text[at:end] for at, end in braces), *said], bound, file, name)

    def follow(self, scope: Scope, texts: Iterable[str], bound: set[str], file: pathlib.Path, name: str) -> None:
        """Takes all that the words of some texts are."""
        words = set()
        for text in texts:
            try:
                free, heads = free_words(text, scope)
                words |= free
                for head in sorted(heads):
                    self.lose(head, file, name, "no case of a type is called so")
            except Lost as fault:
                self.lose("a word of a pattern", file, name, fault)
        if "do" in words:
            # (a `do` that binds no name needs the second one alone)
            steps = {it for it in (">>=", ">>") if it in scope.operators}
            words |= steps
            if not steps:
                self.lose("do", file, name, "no ◌>>=◌ and no ◌>>◌ is brought in")
        for word in sorted(words):
            try:
                for part in scope.parts(word, bound):
                    self.take(part)
            except Lost as fault:
                self.lose(word, file, name, fault)

    def follow_rust(self, text: str, file: pathlib.Path, crate: str, bound: set[str]) -> None:
        """Takes all that the names of a text of Rust are."""
        for path in sorted(set(re.findall(r"(?<![\w'.])[A-Za-z_]\w*(?:::[A-Za-z_]\w*)*", re.sub(r"'\w+", "", text)))):
            head = path.split("::")[0]
            if head in bound or head in OF_RUST or head in ("ghost", "requires", "ensures", "_"):
                continue
            try:
                self.take(rust_name(path, file, crate))
            except Lost as fault:
                self.lose(path, file, "", fault)

    def lose(self, word: str, file: pathlib.Path, name: str, why: object) -> None:
        said = f"{file.relative_to(CRATES)}{f' {name}' if name else ''}: `{word}` stands nowhere: {why}"
        if said not in self.lost:
            self.lost.append(said)


@functools.cache
def ghost_uses(file: pathlib.Path) -> Uses:
    text = re.sub(r"ghost use [^;]*;", lambda it: re.sub(r"\s*\n\s*", " ", it[0]), file.read_text())
    return uses_in(text, "ghost use")


def rust_scope(file: pathlib.Path, crate: str) -> Scope:
    names, modules = ghost_uses(file)
    return Scope(names, modules, {}, file, crate)


def reached_from_call(file: pathlib.Path, call: str) -> Reached:
    """Returns all that the clauses of a function rest on, its arguments' types among them."""
    crate = file.relative_to(CRATES).parts[0]
    text = re.sub(r"//[^\n]*", "", file.read_text())
    begun = sure(re.search(rf"^pub fn {call}\b", text, re.M))
    place = closing(text, text.index("(", begun.end()))
    clauses, at = [], place
    while found := re.compile(r"[^{;]*?\b(?:requires\*?|ensures\*?)\s*\w*\s*\{").match(text, at):
        at = closing(text, found.end() - 1)
        clauses.append(text[found.end() : at - 1])
    returned = re.match(r"\s*->.*?(?=\s(?:requires|ensures)\b)", text[place:], re.S)
    head = text[begun.start() : place] + (returned[0] if returned else "")
    bound = {call, "result", *re.findall(r"\b(\w+)(?=: )", head), *generics_in(head)}
    reached = Reached()
    reached.follow_rust(without_own_names(head), file, crate, {call, *generics_in(head)})
    reached.follow(rust_scope(file, crate), clauses, bound, file, call)
    return reached

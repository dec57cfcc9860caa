#!/usr/bin/env python3
"""Compares include/instants.h with the sources, and with what other languages have of it: the numbers (the room that a line's
answer needs, the greatest limit, the version, faults and components), the fields of each struct and the arguments of each call with
their names, order and types, and what each call returns.

    tools/header_numbers.py --check    with status 1 where one of them differs, or is not found
"""

import ast
import re
import sys
from typing import Any

sys.dont_write_bytecode = True

from program import ROOT, sure

HEADER = ROOT / "include" / "instants.h"
NUMBER = r"(\d[\d_]*)"
FAULTS = ("LITERAL", "COMPONENT", "TRAILING", "INSUFFICIENT", "RANGE", "YEAR", "LONG")
# Reasons of the header, and the doubts of the sources that have their numbers.
DOUBTS = {
    "GOES_ON": "After", "CLOCK_IN_FRONT": "ClockBefore", "SKIPPED": "Skipped", "REPEATED": "Repeated",
    "ANOTHER_OFFSET": "AnotherOffset", "ANOTHER_TIME": "AnotherTime", "ANOTHER_YEAR": "AnotherYear",
}
REASONS = ("NONE", "DOUBT", *DOUBTS, "ESCAPE", "YEAR")
# Where each number of the header stands elsewhere: a file, and what is around it there.
PLACES = (
    ("LINE_ROOM", "crates/instants_memory/src/answers.rt", rf"^pub const LINE_ROOM: usize = {NUMBER};"),
    ("LINE_ROOM", "bindings/rust/sys/src/lib.rs", rf"^pub const LINE_ROOM: usize = {NUMBER};"),
    ("LINE_ROOM", "bindings/python/instants/_library.py", rf"^LINE_ROOM = {NUMBER}$"),
    ("GREATEST_LIMIT", "crates/instants_words/src/pieces.rt", rf"^const GREATEST_LIMIT: u32 = {NUMBER};"),
    ("GREATEST_LIMIT", "crates/instants_words/specs/Pieces.antt", rf"^limit_said word = number_said 1 {NUMBER} 7 word$"),
    ("GREATEST_LIMIT", "crates/instants_faults/specs/ProgramText.antt", rf"the limit must be a number from 1 to {NUMBER}\""),
    ("GREATEST_LIMIT", "bindings/python/instants/_library.py", rf"^GREATEST_LIMIT = {NUMBER}$"),
    ("VERSION", "crates/instants_c/src/lib.rt", rf"^const VERSION: u32 = {NUMBER};"),
    ("GREATEST_LIMIT", "bindings/rust/sys/src/lib.rs", rf"^pub const GREATEST_LIMIT: usize = {NUMBER};"),
    ("VERSION", "bindings/rust/sys/src/lib.rs", rf"^pub const VERSION: u32 = {NUMBER};"),
    ("VERSION", "bindings/python/instants/_library.py", rf"^VERSION = {NUMBER}$"),
    *((f"FAULT_{it}", "bindings/rust/sys/src/lib.rs", rf"^    pub const {it}: u32 = {NUMBER};") for it in FAULTS),
    *((f"FAULT_{it}", "crates/instants_memory/src/numbers.rt", rf"^        LineFault::{it.title()}(?:\(name\))? => {NUMBER}\b") for it in FAULTS),
    *((f"FAULT_{it}", "crates/instants_memory/specs/Numbers.antt", rf"^fault_number \(?{it.lower()}(?: name\))? = {NUMBER}\b") for it in FAULTS),
    *((f"REASON_{it}", "crates/instants_lines/src/line_date.rt", rf"^        Doubt::{doubt} => {NUMBER},") for it, doubt in DOUBTS.items()),
    *((f"REASON_{it}", "crates/instants_lines/specs/LineDates.antt", rf"^doubt_number {doubt} = {NUMBER}$") for it, doubt in DOUBTS.items()),
    ("REASON_NONE", "crates/instants_lines/specs/LineDates.antt", rf"^undated = without_moment {NUMBER} 0 0$"),
    ("REASON_NONE", "crates/instants_lines/src/line_date.rt", rf"^    without_moment\({NUMBER}, 0, 0\)$"),
    ("REASON_DOUBT", "crates/instants_lines/specs/LineDates.antt", rf"^in_doubt at None = without_moment {NUMBER} 0 0$"),
    ("REASON_DOUBT", "crates/instants_lines/src/line_date.rt", rf"None => without_moment\({NUMBER}, 0, 0\)"),
    ("REASON_ESCAPE", "crates/instants_lines/specs/LineDates.antt", rf"^escaped at date = without_moment {NUMBER} "),
    ("REASON_ESCAPE", "crates/instants_lines/src/line_date.rt", rf"without_moment\({NUMBER}, at \+"),
    ("REASON_YEAR", "crates/instants_lines/specs/LineDates.antt", rf"^placed start end \(Err refusal\) = without_moment {NUMBER} "),
    ("REASON_YEAR", "crates/instants_lines/src/line_date.rt", rf"None => without_moment\({NUMBER}, start, end\)"),
    *((f"REASON_{it}", "bindings/rust/sys/src/lib.rs", rf"^    pub const {it}: u32 = {NUMBER};") for it in REASONS),
    *((f"REASON_{it}", "bindings/python/instants/_library.py", rf"^    {NUMBER}: \"[a-z ]+\",  # {it}$") for it in REASONS),
)
# Where the names of components stand in the order of their numbers, which the header has: a file, and what is around them there.
LISTS = (
    ("bindings/rust/sys/src/lib.rs", r"pub const NAMES: \[&str; \d+\] = \[(.*?)\];"),
    ("crates/instants_memory/src/numbers.rt", r"match name \{(.*?)_ => 0"),
    ("crates/instants_memory/specs/Numbers.antt", r"^names =\n(.*?) \[\]$"),
)

# Where the structs and calls of the header stand elsewhere.
EXPORTS, SYS, PYTHON = ROOT / "crates" / "instants_c" / "src", "bindings/rust/sys/src/lib.rs", "bindings/python/instants/_library.py"
# What a struct of the header is called there, and what its pointer is in C.
STRUCTS = {
    "Moment": "instants_moment", "Handle": "instants_handle", "Opened": "instants_handle", "LinesHandle": "instants_lines_handle",
    "OpenedLines": "instants_lines_handle", "Above": "instants_lines_above", "LineDate": "instants_lines_date",
}
# An argument that goes by another name in the header, by its call.
RENAMED = {("instants_sentence", "len"): "sentence_len", ("instants_lines_sentence", "len"): "sentence_len"}
# What a type of Rust is in C. A slice is two arguments: where it begins, and its length. The allocator is none.
C_OF_RUST = {
    "u8": "uint8_t",
    "u32": "uint32_t",
    "i64": "int64_t",
    "usize": "size_t",
    "*const u8": "const void *",
    "*mut u8": "void *",
    "*const c_void": "const void *",
    "*mut c_void": "void *",
    "&mut usize": "size_t *",
    "*mut usize": "size_t *",
    "&mut Handle": "struct instants_handle *",
    "*mut Handle": "struct instants_handle *",
    "*mut Moment": "struct instants_moment *",
    "&mut LinesHandle": "struct instants_lines_handle *",
    "*mut LinesHandle": "struct instants_lines_handle *",
    "&mut Above": "struct instants_lines_above *",
    "*mut Above": "struct instants_lines_above *",
    "*mut LineDate": "struct instants_lines_date *",
    "[u8; 64]": "uint8_t [64]",
}
SLICES = {
    "&[u8]": "const void *", "&'static [u8]": "const void *", "&mut [u8]": "void *", "&mut [Moment]": "struct instants_moment *",
    "&mut [LineDate]": "struct instants_lines_date *",
}
# What a type of Python's ctypes may be in C.
C_OF_PYTHON = {
    "ctypes.c_char_p": ("const void *",),
    "ctypes.c_void_p": ("void *", "const void *", "struct instants_moment *", "struct instants_lines_date *"),
    "ctypes.c_size_t": ("size_t",),
    "ctypes.POINTER(ctypes.c_size_t)": ("size_t *",),
    "ctypes.POINTER(Opened)": ("struct instants_handle *",),
    "ctypes.POINTER(OpenedLines)": ("struct instants_lines_handle *",),
    "ctypes.POINTER(Above)": ("struct instants_lines_above *",),
    "ctypes.c_uint8 * 64": ("uint8_t [64]",),
    "ctypes.c_uint8": ("uint8_t",),
    "ctypes.c_uint32": ("uint32_t",),
    "None": ("void",),
}
# Types and names of fields or arguments.
Parts = list[tuple[str, str]]
SIZES = {"int64_t": 8, "uint32_t": 4, "void *": 8}


def in_header(name: str) -> int | None:
    """Returns a number of the header, or None where it has none of this name."""
    found = re.search(rf"^#define INSTANTS_{name} {NUMBER}$", HEADER.read_text(), re.M)
    return int(found[1]) if found else None


def wrong_numbers() -> list[str]:
    """Returns what is said of each number that is not as the header has it."""
    wrong = []
    for name, file, around in PLACES:
        due = in_header(name)
        found = {int(it) for it in re.findall(around, (ROOT / file).read_text(), re.M)}
        if due is None or found != {due}:
            told = ", ".join(map(str, sorted(found))) or "no number"
            wrong.append(f"{file} has {told} for INSTANTS_{name}, which is {due}")
    return wrong + wrong_names()


def component_names() -> list[str]:
    """Returns the names of components in the header, as the texts of faults have them, in the order of their numbers from 1 on."""
    found = re.findall(rf"^#define INSTANTS_COMPONENT_(\w+) {NUMBER}(?: +/\* `([a-z_ ]+)` \*/)?$", HEADER.read_text(), re.M)
    if [int(number) for _, number, _ in found] != list(range(1, len(found) + 1)):
        return []
    return [told or name.lower() for name, _, told in found]


def wrong_names() -> list[str]:
    """Returns what is said of each list of names that is not as the header has them."""
    due, wrong = component_names(), []
    for file, around in LISTS:
        found = re.search(around, (ROOT / file).read_text(), re.M | re.S)
        if not due or not found or re.findall(r'"([^"]+)"', found[1]) != due:
            wrong.append(f"{file} has other names of components than the header")
    return wrong


# ---- structs and calls


def c_parts(text: str, sign: str) -> Parts:
    """Returns the types and names of fields or arguments as C has them."""
    parts = [
        sure(re.fullmatch(r"(.+?)(\w+)(\[\d+\])?", re.sub(r"\s+", " ", it).strip())) for it in text.split(sign) if it.strip() not in ("", "void")
    ]
    return [(f"{it[1].strip()} {it[3] or ''}".strip(), it[2]) for it in parts]


def of_header() -> tuple[dict[str, Parts], dict[str, tuple[Parts, str]]]:
    """Returns the structs of the header, each with its fields, and the calls, each with its arguments and what it returns."""
    text = re.sub(r"/\*.*?\*/", "", HEADER.read_text(), flags=re.S).split("static __inline__")[0]
    structs = {name: c_parts(fields, ";") for name, fields in re.findall(r"^struct (\w+) \{(.*?)^\};", text, re.M | re.S)}
    calls = {name: (c_parts(takes, ","), returns) for returns, name, takes in re.findall(r"^(\w+) (instants_\w+)\(([^)]*)\);", text, re.M)}
    return structs, calls


def rust_parts(text: str, call: str = "") -> Parts:
    """Returns the types and names of fields or arguments of Rust as C has them."""
    parts = []
    for name, it in re.findall(r"(?:^|,)\s*(?:pub )?(\w+): ([^,]+?)\s*(?=,|$)", text.strip()):
        name = RENAMED.get((call, name), name)
        if it in SLICES:
            parts += [(SLICES[it], name), ("size_t", f"{name}_len")]
        elif it != "Global":
            parts.append((C_OF_RUST.get(it, it), name))
    return parts


def of_rust(text: str) -> tuple[dict[str, Parts], dict[str, tuple[Parts, str]]]:
    """Returns the structs and the calls of a text of Rust as C has them."""
    text = re.sub(r"//[^\n]*", "", text)
    structs = {}
    for name, fields in re.findall(r"^#\[repr\(C\)\]\n(?:#\[[^\n]*\]\n)*pub struct (\w+) \{(.*?)^\}", text, re.M | re.S):
        structs[STRUCTS.get(name, name)] = rust_parts(re.sub(r"^ *(?:pub )?ghost [^\n]*", "", fields, flags=re.M))
    calls = {}
    for name, takes, returns in re.findall(r'^(?:pub (?:unsafe )?extern "C"|    pub) fn (instants_\w+)\(([^)]*)\)(?: -> (\w+))?', text, re.M):
        calls[name] = rust_parts(takes, name), C_OF_RUST.get(returns, returns) or "void"
    return structs, calls


def items_of(node: ast.expr) -> list[ast.expr]:
    """Returns the items of a list or a tuple."""
    return node.elts if isinstance(node, (ast.List, ast.Tuple)) else []


def constant(node: ast.expr) -> Any:
    return node.value if isinstance(node, ast.Constant) else None


def of_python(text: str) -> tuple[dict[str, Parts], dict[str, tuple[list[str], str]], int | None]:
    """Returns the fields of each structure of ctypes, the types of each call's arguments with what it returns, and the bytes of an
    entry."""
    tree, structs, calls, size = ast.parse(text), {}, {}, None
    values: dict[str, str] = {}

    def said(node: ast.expr) -> str:
        return ast.unparse(node) if not isinstance(node, ast.Name) else values.get(node.id, node.id)

    for node in ast.walk(tree):
        if isinstance(node, ast.ClassDef):
            fields = [it.value for it in node.body if isinstance(it, ast.Assign) and ast.unparse(it.targets[0]) == "_fields_"]
            pairs = [[items_of(it) for it in items_of(field)] for field in fields]
            structs.update({STRUCTS.get(node.name, node.name): [(said(kind), constant(name)) for name, kind in it] for it in pairs})
        elif isinstance(node, ast.Assign) and isinstance(node.targets[0], ast.Tuple) and isinstance(node.value, ast.Tuple):
            values.update({ast.unparse(name): ast.unparse(it) for name, it in zip(node.targets[0].elts, node.value.elts)})
        elif isinstance(node, ast.Assign) and ast.unparse(node.targets[0]) == "ENTRY":
            size = constant(node.value)
    for row in (row for node in ast.walk(tree) if isinstance(node, ast.For) and isinstance(node.iter, ast.Tuple) for row in node.iter.elts):
        called, takes, returns = items_of(row)
        calls[constant(called)] = [said(it) for it in items_of(takes)], said(returns)
    return structs, calls, size


def told(parts: Parts) -> str:
    return ", ".join(f"{kind} {name}" for kind, name in parts) or "nothing"


def told_of(structs: dict[str, Parts], calls: dict[str, tuple[Parts, str]]) -> dict[str, str]:
    """Returns each struct and each call by its name, as it is told."""
    fields = {f"the struct {name}": told(it) for name, it in structs.items()}
    return {**fields, **{f"the call {name}": f"{told(takes)} -> {returns}" for name, (takes, returns) in calls.items()}}


def wrong_in_rust(where: str, text: str, is_whole: bool) -> list[str]:
    """Returns what a text of Rust has other than the header, and what it lacks, if it has to have all."""
    wrong, due, found = [], told_of(*of_header()), told_of(*of_rust(text))
    for name in {**found, **(due if is_whole else {})}:
        if name not in found or name not in due:
            wrong.append(f"{where if name not in found else HEADER.relative_to(ROOT)} does not have {name}")
        elif found[name] != due[name]:
            wrong.append(f"{where} has {name} with {found[name]}; the header has {due[name]}")
    return wrong


def wrong_in_python(text: str) -> list[str]:
    """Returns what a text of Python has other than the header."""
    wrong, (structs, calls) = [], of_header()
    found, found_calls, size = of_python(text)
    for name, fields in found.items():
        due = structs.get(name, [])
        if [it for _, it in fields] != [it for _, it in due] or any(c not in C_OF_PYTHON.get(kind, ()) for (kind, _), (c, _) in zip(fields, due)):
            wrong.append(f"{PYTHON} has {name} with {told(fields)}; the header has {told(due)}")
    if not found or not found_calls or size != sum(SIZES.get(kind, 0) for kind, _ in structs["instants_moment"]):
        wrong.append(f"{PYTHON} has {len(found)} structures, {len(found_calls)} calls, and entries of {size} bytes")
    for name, (takes, returns) in found_calls.items():
        due, result = calls[name] if name in calls else ([], "nothing")
        kinds = [*(it for it, _ in due), result]
        if len(takes) != len(due) or any(c not in C_OF_PYTHON.get(kind, ()) for kind, c in zip([*takes, returns], kinds)):
            wrong.append(f"{PYTHON} has {name} with {', '.join(takes)} -> {returns}; the header has {told(due)} -> {result}")
    return wrong


def wrong_declarations() -> list[str]:
    """Returns what is said of each struct and each call that is not as the header has it."""
    structs = "\n".join(it.read_text() for it in sorted((ROOT / "crates").glob("*/src/**/*.rt")) if "repr(C)" in it.read_text() and EXPORTS not in it.parents)
    exports = "\n".join(it.read_text() for it in sorted(EXPORTS.rglob("*.rt")))
    return [
        *wrong_in_rust("crates/", f"{exports}\n{structs}", is_whole=True),
        *wrong_in_rust(SYS, (ROOT / SYS).read_text(), is_whole=True),
        *wrong_in_python((ROOT / PYTHON).read_text()),
    ]


def wrong_places() -> list[str]:
    """Returns all that is not as the header has it."""
    return wrong_numbers() + wrong_declarations()


def main(words: list[str]) -> int:
    if words != ["--check"]:
        sys.exit(__doc__)
    wrong = wrong_places()
    structs, calls = of_header()
    counted = f"{len(PLACES) + len(LISTS)} numbers and lists, {len(structs)} structs and {len(calls)} calls"
    print("\n".join([*wrong, f"{counted}: {len(wrong)} are not as {HEADER.relative_to(ROOT)} has them"]))
    return int(bool(wrong))


if __name__ == "__main__":
    sys.exit(main(sys.argv[1:]))

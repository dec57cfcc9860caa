#!/usr/bin/env pytest
"""Tries tools/believed_files.py on a few small crates, of which it is known what their clauses rest on.

    tools/try_believed.py [-k WORD]

The definitions are reached by a name that is given on, by a module that is given on, and by a definition whose name begins with
`prefix`; beside them stand a fixity, a word that only a pattern binds, and a definition that nothing uses. Then each way to lose a
word is planted, and has to be told. It takes seconds, and proves nothing.
"""

import pathlib
import shutil
import subprocess
import sys

sys.dont_write_bytecode = True

import pytest
from program import ROOT

TOOLS = ("believed_files.py", "rattle_words.py", "rattle_declarations.py", "rattle_files.py", "program.py")
PROGRAM = """\
ghost use Rattle.std.specs.Prelude.{◌≡◌, ◌+◌, Ok};
ghost use Rattle.instants_stream.specs.Text.{prefix_of, tab};
ghost use Rattle.instants_stream.specs.Bytes.{space};
ghost use Rattle.instants_stream.specs.declared.device.Device.{Device};

use crate::fault::Fault;
use instants_stream::Device;

/// Runs.
pub fn run_words(words: &[u8], device: &Device) -> Result<usize, Fault>
    ensures ran { (device : Device) → result ≡ Ok (prefix_of (tab + space) words.now) }
{
    Ok(0)
}
"""
FILES = {
    "crates.txt": "base:\ninstants_stream: base\ninstants_timeline: instants_stream\ninstants_lines: instants_timeline\n",
    "README.md": "It tries 0 of 0 mutations.\n",
    "docs/CLAIMS.md": """\
0 lines of definitions in 0 files, some 0 hours at 15 lines a minute; `0 passed, 0 failed`; 0 of 0 mutations

<!-- tools/believed_files.py begins -->

<!-- tools/believed_files.py ends -->

<!-- tools/believed_files.py begins beyond -->

<!-- tools/believed_files.py ends -->
""",
    "crates/base/src/lib.rt": "//! Bytes.\n",
    "crates/base/specs/Bytes.antt": """\
use Rattle.std.specs.Prelude.{ℕ}

abbrev pub tab : ℕ
tab = 9

abbrev pub space : ℕ
space = 32

abbrev pub unused : ℕ
unused = 10
""",
    "crates/instants_stream/src/lib.rt": "mod device;\n\npub use device::Device;\n",
    "crates/instants_stream/src/device.rt": "/// What is read from.\n#[derive(Clone)]\npub struct Device {\n    /// Bytes.\n    pub held: Held,\n}\n\npub enum Held {\n    All,\n}\n",
    "crates/instants_stream/specs/Lib.antt": "pub mod Text\npub use Rattle.base.specs.Bytes\n",
    "crates/instants_stream/specs/Text.antt": """\
use Rattle.std.specs.Prelude.{ℕ, List, ◌∷◌, [], ◌+◌}
pub use Rattle.base.specs.Bytes.{tab}

infixl 10 ◌then◌
abbrev pub ◌then◌ : ℕ → ℕ → ℕ
(space then other) = space + other

-- only the body of the next one uses it
abbrev pub marked : ℕ → ℕ
marked x = x then 1

abbrev pub prefix_of : ℕ → List ℕ → ℕ
prefix_of n [] = n
prefix_of n (marked ∷ bytes) = prefix_of (marked + n) bytes
prefix_of n other = marked n
""",
    "crates/instants_timeline/src/program.rt": PROGRAM,
    "crates/instants_timeline/src/fault.rt": "pub enum Fault {\n    Memory,\n}\n",
    "crates/instants_timeline/src/lib.rt": "mod fault;\nmod program;\n\npub use fault::Fault;\n",
    "crates/instants_lines/src/program.rt": PROGRAM.replace("tab + space", "tab + last").replace("Bytes.{space}", "Bytes.{unused as last}"),
    "crates/instants_lines/src/fault.rt": "pub use instants_timeline::Fault;\n",
    "crates/instants_lines/src/lib.rt": "mod fault;\nmod program;\n",
    "crates/base/must-fail/telling.edit": "file: src/lib.rt\n-- a\nold: a\nnew: b\n-- b\nold: b\nnew: c\n",
    "crates/base/mutations/telling.edit": "file: src/lib.rt\n-- a\nold: a\nnew: b\n",
}
DUE = """\
base/specs/Bytes.antt space
base/specs/Bytes.antt tab
instants_stream/specs/Text.antt marked
instants_stream/specs/Text.antt prefix_of
instants_stream/specs/Text.antt ◌then◌
instants_stream/src/device.rt Device
instants_stream/src/device.rt Held
instants_timeline/src/fault.rt Fault

base/specs/Bytes.antt unused"""
TEXT, CLAIMS = "crates/instants_stream/specs/Text.antt", "docs/CLAIMS.md"
# What is planted, by file, old and new text, and what is then said.
PLANTED = (
    ("a word that is nowhere", TEXT, "= x then 1", "= x then one", "instants_stream/specs/Text.antt marked: `one` stands nowhere"),
    ("a word of a clause that is nowhere", "crates/instants_timeline/src/program.rt", "result ≡", "results ≡", "instants_timeline/src/program.rt run_words: `results` stands nowhere"),
    ("a name that is no longer given on", TEXT, "pub use Rattle.base.specs.Bytes.{tab}\n", "", "run_words: `tab` stands nowhere: instants_stream/specs/Text.antt does not have it"),
    ("a module that is no longer given on", "crates/instants_stream/specs/Lib.antt", "pub use Rattle.base.specs.Bytes\n", "", "run_words: `space` stands nowhere"),
    ("a case of a type that is no longer brought in", TEXT, "◌∷◌, [], ", "[], ", "prefix_of: `marked` stands nowhere: no case of a type is called so"),
    ("a name that is no longer brought in", TEXT, ", ◌+◌}", "}", "prefix_of: `+` stands nowhere"),
    ("a definition that is no longer there", TEXT, "abbrev pub marked : ℕ → ℕ\nmarked x = x then 1\n", "", "prefix_of: `marked` stands nowhere"),
    ("a declaration that is no longer there", "crates/instants_stream/src/device.rt", "pub enum Held {\n    All,\n}\n", "", "`Held` stands nowhere"),
    ("a name of std that is taken for one of a crate", TEXT, "use Rattle.std.specs.Prelude.{ℕ, List", "use Rattle.base.specs.Bytes.{List}\nuse Rattle.std.specs.Prelude.{ℕ", "`List` stands nowhere: base/specs/Bytes.antt does not have it"),
    ("a file that is left out of the table", CLAIMS, "[Text](../crates/instants_stream/specs/Text.antt) 8", "", "docs/CLAIMS.md is not as"),
    ("a declaration that is left out of the table", CLAIMS, "[fault](../crates/instants_timeline/src/fault.rt) 3", "", "docs/CLAIMS.md is not as"),
    ("a definition of one line more", TEXT, "prefix_of n other", "prefix_of n [] = n\nprefix_of n other", "docs/CLAIMS.md is not as"),
    ("another number of mutations", "README.md", "2 of 3 mutations", "3 of 3 mutations", "README.md is not as"),
    ("a page without the number of mutations", "README.md", "2 of 3 mutations", "mutations", "README.md has its number of mutations 0 times, not 1"),
)


@pytest.fixture
def room(tmp_path: pathlib.Path) -> pathlib.Path:
    """The crates and the pages in a folder, with this repository's tools."""
    (tmp_path / "tools").mkdir()
    for name in TOOLS:
        shutil.copy(ROOT / "tools" / name, tmp_path / "tools")
    for name, text in FILES.items():
        (tmp_path / name).parent.mkdir(parents=True, exist_ok=True)
        (tmp_path / name).write_text(text)
    return tmp_path


def believed(room: pathlib.Path, *words: str) -> tuple[int, str]:
    """Returns the status of the tool, and what it prints."""
    ran = subprocess.run([sys.executable, "-B", room / "tools" / "believed_files.py", *words], capture_output=True, text=True, check=False)
    return ran.returncode, ran.stdout + ran.stderr


@pytest.fixture
def written(room: pathlib.Path) -> pathlib.Path:
    """The folder with its pages written."""
    assert believed(room) == (0, "")
    return room


def test_pages_that_were_not_written(room: pathlib.Path) -> None:
    status, said = believed(room, "--check")
    assert status == 1 and "docs/CLAIMS.md is not as" in said


def test_written_pages(written: pathlib.Path) -> None:
    """They pass, and count the lines of what is reached: what is due, and nothing else."""
    status, said = believed(written, "--check")
    assert status == 0, said
    assert believed(written, "--names")[1].strip() == DUE
    claims = (written / CLAIMS).read_text()
    assert claims.startswith("12 lines of definitions in 2 files and 9 lines of declarations in 2 files, some 1 hour at 15 lines a minute; `5 passed, 0 failed`; 2 of 3 mutations")
    assert "Text.antt) 8 |" in claims and "(../crates/base/specs/Bytes.antt) 4 |" in claims


@pytest.mark.parametrize("file, old, new, due", [it[1:] for it in PLANTED], ids=[it[0] for it in PLANTED])
def test_planted(written: pathlib.Path, file: str, old: str, new: str, due: str) -> None:
    text = (written / file).read_text()
    assert text.count(old) == 1
    (written / file).write_text(text.replace(old, new))
    status, said = believed(written, "--check")
    assert status == 1 and due in said and "Traceback" not in said


if __name__ == "__main__":
    sys.exit(pytest.main([__file__, *sys.argv[1:]]))

#!/usr/bin/env pytest
"""Tries the completions of the programs' words in bash, zsh and fish, those of these that are installed.

    tools/try_completions.py [-k WORD]
"""

import pathlib
import shlex
import shutil
import subprocess
import sys

sys.dont_write_bytecode = True

import pytest
from completions import FOLDER
from program import ROOT

# A line up to the word that is completed, words that are offered there, and words that are not.
ROWS = (
    ("instants-lines ", "key carry replace locate explain guess -q --count", "rfc3339 syslog"),
    ("instants-lines -q ", "key --count", "rfc3339"),
    ("instants-lines ca", "carry", "key"),
    ("instants-lines key ", "+00:00 rfc3339 access-log year", "key"),
    ("instants-lines key +00:00 - 64 ", "rfc3339 syslog year", "key"),
    ("instants-lines key +00:00 - 64 year 2024 rfc3339 ", "syslog v3", "key 64"),
    ("instants-lines key v3 ", "", "rfc3339 key"),
    ("instants-lines key year ", "", "rfc3339 key"),
    ("instants-lines key column ", "", "rfc3339 key"),
    ("instants-lines key column 2 ", "separator rfc3339", "key"),
    ("instants +00:00 ", "- +00:00", "rfc3339"),
    ("instants +00:00 - ", "100 1048576", "rfc3339"),
    ("instants +00:00 - 100 rfc3339 ", "rfc2822 strftime", "syslog"),
    ("instants-merge -f ", "guess rfc3339 access-log", "--since"),
    ("instants-merge --s", "--since --strict", "access-log --until"),
    ("description_check ", "v1 v2 v3 strftime", "rfc3339"),
)
BASH = '. "$0" && COMP_WORDS=("$@") COMP_CWORD=$(($# - 1)) && _instants && printf "%s\\n" "${COMPREPLY[@]}"'
ZSH = 'f() { local -a words=("$@") && local CURRENT=$# PREFIX=${@[-1]} && . "$0" }; compadd() { shift; print -l -- "$@" }; file=$0; f "$@"'


def offered(shell: str, line: str) -> list[str]:
    """Returns what a shell offers in the place of a line's last word."""
    words = [*shlex.split(line), *([""] if line.endswith(" ") else [])]
    command: list[str]
    if shell == "bash":
        command = ["bash", "-c", BASH, str(FOLDER / "instants.bash"), *words]
    elif shell == "zsh":
        command = ["zsh", "-f", "-c", ZSH.replace('"$0"', str(FOLDER / "_instants")), "zsh", *words]
    else:
        command = ["fish", "--no-config", "-c", f"source {FOLDER / 'instants.fish'}; complete -C {shlex.quote(line)}"]
    ran = subprocess.run(command, stdout=subprocess.PIPE, stderr=subprocess.PIPE, text=True, check=False)
    assert not ran.stderr, ran.stderr
    found = [it.partition("\t")[0] for it in ran.stdout.splitlines()]
    # (zsh itself takes those that begin as the word does)
    return [it for it in found if it.startswith(words[-1])]


@pytest.mark.parametrize("shell", ["bash", "zsh", "fish"])
@pytest.mark.parametrize("line, some, none", ROWS)
def test_words(shell: str, line: str, some: str, none: str) -> None:
    if not shutil.which(shell):
        pytest.skip(f"{shell} is not installed")
    found = offered(shell, line)
    assert set(some.split()) <= set(found) and not set(none.split()) & set(found)


@pytest.mark.parametrize("shell", ["bash", "zsh", "fish"])
def test_zones(shell: str, tmp_path: pathlib.Path, monkeypatch: pytest.MonkeyPatch) -> None:
    if not shutil.which(shell):
        pytest.skip(f"{shell} is not installed")
    (tmp_path / "zone.tab").write_text("# zones\nDE\t+5230+01322\tEurope/Berlin\tmost of Germany\nFR\t+4852+00220\tEurope/Paris\n")
    monkeypatch.setenv("TZDIR", str(tmp_path))
    assert set(offered(shell, "instants-lines key +00:00 Eu")) == {"Europe/Berlin", "Europe/Paris"}
    assert offered(shell, "instants-lines key Eu") == offered(shell, "instants-lines key +00:00 +02:00 Eu") == []
    (tmp_path / "zone.tab").unlink()
    assert offered(shell, "instants-lines key +00:00 Eu") == []


def test_made_of_the_sources() -> None:
    ran = subprocess.run([sys.executable, "-B", pathlib.Path(ROOT, "tools", "completions.py"), "--check"], stdout=subprocess.PIPE, text=True, check=False)
    assert (ran.returncode, ran.stdout) == (0, "the completions are as the sources have them\n")


if __name__ == "__main__":
    sys.exit(pytest.main([__file__, *sys.argv[1:]]))

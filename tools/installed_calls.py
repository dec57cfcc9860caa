"""Calls of what was installed in a root of Debian that has neither Rattle's kit nor a compiler, for tools/try_packages.py:

- each program answers, with the examples at the head of the installed README, and `import instants` does;
- `instants-merge --follow` finds what it calls, and writes the lines that two files have;
- `man` finds and shows each manual page, and the documents that it names are there;
- bash, zsh and fish find the completions where they look by themselves, and offer words.
"""

import pathlib
import re
import subprocess
import tempfile
from collections.abc import Sequence
from typing import NamedTuple

from installed_pages import commands_in
from make_packages import CHECK, SCRIPT, programs, version
from make_root import in_root
from program import ROOT, Command, sure

LINE, ANSWER = b"2021-01-02T04:04:05+01:00\n", b"2021-01-02T03:04:05.000000000Z\n"
WORDS = ["+00:00", "-", "100", "rfc3339"]
IN_PYTHON = f"import instants; print(*instants.answers({LINE.decode()!r}, target='+00:00', sources=['rfc3339']))"
# Calls of programs, with their input and what they write.
CALLS: tuple[tuple[str, Sequence[str], bytes, bytes], ...] = (
    ("instants", WORDS, LINE, ANSWER),
    ("instants", ["--version"], b"", f"instants {version()}\n".encode()),
    ("instants-lines", ["key", "rfc3339"], LINE + b"up\n", ANSWER[:-1] + b"\t" + LINE + b"! none\tup\n"),
    ("instants-lines", ["-q", "carry", *WORDS], LINE + b"  at\n", ANSWER[:-1] + b"\t" + LINE + ANSWER[:-1] + b"\t  at\n"),
    ("instants-lines", ["replace", "rfc3339"], b"[2021-01-02T04:04:05+01:00] up\n", b"[" + ANSWER[:-1] + b"] up\n"),
    (SCRIPT, ["-f", "rfc3339", "-l", "here", "-"], LINE, ANSWER[:-1] + b"\there\t" + LINE),
    ("description_check", ["strftime"], b"%F %T %z", b"well formed\n"),
)
# A document in a manual page as it is shown.
DOCUMENT = re.compile(r"[\w./-]*\bdocs/[\w.-]*\w")
# Beginnings of words, and one that is offered there.
BEGUN = (("instants-lines", "ca", "carry"), (SCRIPT, "--st", "--strict"), ("description_check", "strf", "strftime"))
# How a shell is asked what it offers for a program's first word.
SHELLS: dict[str, Sequence[str]] = {
    "bash": ["-c", '. /usr/share/bash-completion/bash_completion && _completion_loader "$1"; COMP_WORDS=("$@") COMP_CWORD=1 COMP_LINE="$*" '
             'COMP_POINT=${#COMP_LINE}; by=$(complete -p "$1") && by=${by#* -F } && ${by%% *} && printf "%s\\n" "${COMPREPLY[@]}"', "bash"],
    "zsh": ["-f", "-c", 'autoload -Uz compinit && compinit -u -D; compadd() { shift; print -l -- "$@" }; '
            'f() { local -a words=("$@"); local CURRENT=2 PREFIX=$2; $_comps[$1] }; f "$@"', "zsh"],
    "fish": ["-c", 'complete -C "$argv"'],
}
# Debian's packages that such calls need in the root, beside essential ones; and commands that it can't have.
NEEDED = ("bash-completion", "fish", "make", "man-db", "python3", "zsh")
ABSENT = ("rt", "rattle", "cc", "gcc", "clang", "tcc", "as", "ld", "cargo", "rustc")
PLACES = {"PATH": "/usr/local/sbin:/usr/local/bin:/usr/sbin:/usr/bin:/sbin:/bin", "HOME": "/tmp", "LC_ALL": "C.UTF-8", "DEBIAN_FRONTEND": "noninteractive",
          "XDG_DATA_DIRS": "/usr/local/share:/usr/share"}
PATIENCE = 60


class Installed(NamedTuple):
    """What was installed, in a root, below a prefix; where its libraries lie; and the packages, each of which has a folder of
    documents."""

    what: str
    root: pathlib.Path
    prefix: str
    libdir: str
    packages: Sequence[str]

    def share(self) -> pathlib.Path:
        return self.root / self.prefix[1:] / "share"

    def documents(self) -> pathlib.Path:
        """Returns the folder with the README and the other documents."""
        return self.share() / "doc" / "instants"

    def holds(self, what: str, is_well: object, why: object = "") -> None:
        """Something has to be so of it."""
        assert is_well, f"{self.what}: {what}{f': {why}' if why else ''}"

    def ran(self, command: Command, given: bytes = b"", **places: str) -> subprocess.CompletedProcess[bytes]:
        return subprocess.run(in_root(self.root, command), input=given, capture_output=True, check=False, env={**PLACES, **places})


def try_absent(root: pathlib.Path) -> None:
    """Tries whether a root has neither the kit nor a compiler."""
    it = Installed("the root", root, "/usr", "/usr/lib", ())
    ran = it.ran(["sh", "-c", 'for it; do command -v "$it"; done; true', "sh", *ABSENT])
    it.holds("it has neither the kit nor a compiler", (ran.returncode, ran.stdout) == (0, b""), f"{ran}")


def try_calls(it: Installed) -> None:
    """Tries calls of the programs."""
    for name, words, given, due in CALLS:
        if name in (*programs(), SCRIPT):
            ran = it.ran([f"{it.prefix}/bin/{name}", *words], given)
            it.holds(f"{name} {words[0]}", (ran.returncode, ran.stdout) == (0, due), f"{ran}")


def try_followed(it: Installed) -> None:
    """Tries whether the script writes the lines of two files that may grow."""
    with tempfile.TemporaryDirectory(dir=it.root / "tmp") as room:
        names = [f"{room}/{name}" for name in "ab"]
        for number, name in enumerate(names):
            pathlib.Path(name).write_bytes(LINE.replace(b":05", f":0{number}".encode()))
        words = [f"{it.prefix}/bin/{SCRIPT}", "--follow=0.1", "-f", "rfc3339", *(f"/{pathlib.Path(name).relative_to(it.root)}" for name in names)]
        command = in_root(it.root, ["timeout", str(PATIENCE), *words])
        with subprocess.Popen(command, stdin=subprocess.DEVNULL, stdout=subprocess.PIPE, stderr=subprocess.PIPE, env=PLACES) as ran:
            found = [sure(ran.stdout).readline().split(b"\t")[0] for _ in names]
            ran.kill()
            said = sure(ran.stderr).read()
    # (which of two files is read first is not said)
    it.holds(f"{SCRIPT} --follow", sorted(found) == [ANSWER[:-1].replace(b":05.", f":0{number}.".encode()) for number in (0, 1)], f"{found} {said!r}")


def try_first_examples(it: Installed) -> None:
    """Tries the examples at the head of the installed README, before the first that compiles."""
    text = (it.documents() / "README.md").read_text()
    due = [(command, said) for command, said in commands_in(text.partition("gcc ")[0].rpartition("```sh")[0]) if said]
    it.holds("the README begins with examples", due)
    for command, said in due:
        ran = it.ran(["sh", "-c", command])
        it.holds(f"the README's example of {command.split()[0]}", (ran.returncode, ran.stdout.decode()) == (0, said), f"{ran}")


def try_python(it: Installed) -> None:
    """Tries the package for Python."""
    ran = it.ran(["python3", "-B", "-c", IN_PYTHON])
    it.holds("Python answers", (ran.returncode, ran.stdout) == (0, ANSWER), f"{ran}")


def try_manual(it: Installed) -> None:
    """Tries whether each manual page is found below the prefix, and shown, and names no document that is not there."""
    for page in sorted(file.name for file in (ROOT / "docs").glob("*.[1-9]")):
        name, _, section = page.rpartition(".")
        if name == CHECK.name and name not in programs():
            continue
        found = it.ran(["man", "--where", section, name]).stdout.decode().strip()
        ran = it.ran(["man", "--pager=cat", section, name])
        is_shown = ran.returncode == 0 and f"{name} \N{EM DASH} ".encode() in ran.stdout
        is_own = found and (it.root / found[1:]).resolve().is_relative_to((it.share() / "man").resolve())
        it.holds(f"the manual page {page}", is_shown and is_own, f"{found} {ran}")
        named = DOCUMENT.findall(ran.stdout.decode())
        lost = [file for file in named if not file.startswith("/") or not (it.root / file[1:]).is_file()]
        it.holds(f"the {len(named)} documents that {page} names", not lost, f"{lost}")


def try_completions(it: Installed) -> None:
    """Tries whether the shells offer words."""
    for name, begun, due in BEGUN:
        for shell, words in SHELLS.items() if name in (*programs(), SCRIPT) else ():
            ran = it.ran([shell, *words, name, begun])
            offered = [line.partition("\t")[0] for line in ran.stdout.decode().splitlines()]
            it.holds(f"{shell} completes {name} {begun}", due in offered and not ran.stderr, f"{ran}")

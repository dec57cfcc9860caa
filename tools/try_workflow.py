#!/usr/bin/env pytest
"""Tries the workflow that attaches files to a tag (packaging/release.yml) on a machine without a forge.

    tools/try_workflow.py                its form, and those of its steps that take seconds, if what the first would install is there
    tools/try_workflow.py --all-steps    all steps, with the gate, and the packages in a root: as long as these take, as root

Each step but the first, which is the forge's own and gets the sources, is one call of a script of the repository. The steps are run as
a forge runs them: one after the other, in a clone, with the variables that it sets. The forge is a server of this try, which keeps
releases and what is attached to them. The packages of Debian: python3-yaml.
"""

import functools
import hashlib
import http.server
import json
import os
import pathlib
import re
import shlex
import shutil
import subprocess
import sys
import threading
import urllib.parse
from collections.abc import Iterator, Mapping
from typing import Any

sys.dont_write_bytecode = True

import pytest
from conftest import needed
from make_packages import SUMS, version
from program import ROOT

yaml = needed("yaml", "python3-yaml")
FILE = ROOT / "packaging" / "release.yml"
SOURCES = "actions/checkout@v4"
# The steps that take long, and what is attached in a try without them.
LONG = (".ci/run", "tools/package.py")
FILES = {"a.deb": b"\0\xff", "b.tar.gz": b"", "a b.json": b"{}\n"}
TOKEN, REPOSITORY = "a token", "some/one"
# What names a host or a machine's own folders.
FOREIGN = re.compile(r"://|\b[\w-]+\.(?:com|org|io|net|dev)\b|(?<![\w.$}])/(?:opt|home|root|srv|work|mnt|usr)\b")


@functools.cache
def workflow() -> Any:
    return yaml.safe_load(FILE.read_text())


def steps() -> list[dict[str, Any]]:
    """Returns the steps of the only job."""
    (job,) = workflow()["jobs"].values()
    return list(job["steps"])


def name_of(step: Mapping[str, Any]) -> str:
    """Returns the script that a step calls."""
    return shlex.split(step["run"])[0] if "run" in step else str(step["uses"])


class Forge(http.server.BaseHTTPRequestHandler):
    """A forge of one repository, whose tags and files the server keeps."""

    server: "Server"

    def told(self, status: int, answer: object) -> None:
        self.send_response(status)
        self.end_headers()
        self.wfile.write(json.dumps(answer).encode())

    def release(self) -> dict[str, object]:
        place = f"{self.server.api}/files{{?name,label}}"
        return {"upload_url": place, "assets": [{"name": it, "size": len(content)} for it, content in self.server.files.items()]}

    def do_GET(self) -> None:
        is_there = self.path == f"/repos/{REPOSITORY}/releases/tags/v{version()}" and self.server.texts
        self.told(*((200, self.release()) if is_there else (404, {})))

    def do_POST(self) -> None:
        given = self.rfile.read(int(self.headers["Content-Length"]))
        place, words = urllib.parse.urlsplit(self.path).path, urllib.parse.parse_qs(urllib.parse.urlsplit(self.path).query)
        if self.headers["Authorization"] != f"Bearer {TOKEN}":
            self.told(401, {})
        elif place == f"/repos/{REPOSITORY}/releases" and json.loads(given)["tag_name"] == f"v{version()}":
            self.server.texts.append(json.loads(given)["body"])
            self.told(201, self.release())
        elif place == "/files" and words["name"][0] not in self.server.files:
            self.server.files[words["name"][0]] = given
            self.told(201, {})
        else:
            self.told(422, {})

    def log_message(self, *_: object) -> None:
        """Says nothing."""


class Server(http.server.ThreadingHTTPServer):
    """A forge at a port of this machine."""

    def __init__(self) -> None:
        super().__init__(("127.0.0.1", 0), Forge)
        self.api, self.texts, self.files = f"http://127.0.0.1:{self.server_port}", list[str](), dict[str, bytes]()


@pytest.fixture
def forge() -> Iterator[Server]:
    with Server() as server:
        thread = threading.Thread(target=server.serve_forever, daemon=True)
        thread.start()
        yield server
        server.shutdown()


class Job:
    """A job of the workflow, in a clone of the repository."""

    def __init__(self, room: pathlib.Path, kit: pathlib.Path, forge: Server) -> None:
        self.top, self.paths, self.values = room / "clone", room / "paths", {"vars.KIT": str(kit), "github.token": TOKEN}
        subprocess.run(["git", "clone", "--quiet", ROOT, self.top], check=True)
        self.paths.touch()
        (job,) = workflow()["jobs"].values()
        names = {"CI": "true", "GITHUB_API_URL": forge.api, "GITHUB_REPOSITORY": REPOSITORY, "GITHUB_REF_NAME": f"v{version()}", "GITHUB_PATH": str(self.paths)}
        self.places = {**os.environ, **names, **self.read(job.get("env", {}))}

    def read(self, places: Mapping[str, str]) -> dict[str, str]:
        """Returns variables with the forge's values in them."""
        return {name: re.sub(r"\$\{\{ ([\w.]+) \}\}", lambda it: self.values[str(it[1])], text) for name, text in places.items()}

    def run(self, step: Mapping[str, Any]) -> "subprocess.CompletedProcess[str]":
        """Runs a step as the forge's runner does."""
        path = os.pathsep.join([*reversed(self.paths.read_text().split()), os.environ["PATH"]])
        places = {**self.places, "PATH": path, **self.read(step.get("env", {}))}
        return subprocess.run(["bash", "-e", "-c", step["run"]], cwd=self.top, env=places, stdin=subprocess.DEVNULL, capture_output=True, text=True, check=False)


@pytest.fixture
def job(tmp_path: pathlib.Path, forge: Server) -> Job:
    rt = shutil.which("rt")
    if not rt:
        pytest.skip("there is no kit")
    return Job(tmp_path, pathlib.Path(rt).resolve().parent.parent, forge)


def write_files(folder: pathlib.Path) -> None:
    """Writes some files with their checksums."""
    folder.mkdir()
    for name, content in FILES.items():
        (folder / name).write_bytes(content)
    (folder / SUMS).write_text("".join(f"{hashlib.sha256(content).hexdigest()}  {name}\n" for name, content in FILES.items()))


def attaching() -> dict[str, Any]:
    (step,) = (it for it in steps() if name_of(it) == "tools/attach_files.py")
    return step


def test_form() -> None:
    """Each step is one call of a script; no host and no machine's folder is named."""
    first, *others = steps()
    assert first == {"uses": SOURCES}
    for step in others:
        assert re.fullmatch(r"[\w./-]+( [\w.-]+| \"\$\w+\")*", step["run"]) and set(step) <= {"name", "run", "env"}
        listed = subprocess.run(["git", "ls-files", "--stage", name_of(step)], cwd=ROOT, capture_output=True, text=True, check=True).stdout
        assert listed.startswith("100755 "), f"{name_of(step)} is no script of the repository"
    assert not FOREIGN.findall(FILE.read_text())


def test_steps(job: Job, forge: Server, pytestconfig: pytest.Config) -> None:
    """The steps run in order; what was made is attached."""
    is_whole = pytestconfig.getoption("--all-steps")
    for step in steps()[1:]:
        if name_of(step) in LONG and not is_whole:
            continue
        if step == attaching() and not is_whole:
            write_files(job.top / "packages")
        ran = job.run(step)
        assert ran.returncode == 0, f"{step['run']}:\n{ran.stdout}{ran.stderr}"
    attached = [f"{hashlib.sha256(content).hexdigest()}  {name}" for name, content in forge.files.items() if name != SUMS]
    assert attached and sorted(attached) == sorted(forge.files[SUMS].decode().splitlines())
    (text,) = forge.texts
    assert "`instants-merge`" in text and "## " not in text


def test_attached_again(job: Job, forge: Server) -> None:
    """A job that ended in the middle is run again: what is there stays, and what is lacking comes."""
    write_files(job.top / "packages")
    forge.texts.append("")
    forge.files["a.deb"] = FILES["a.deb"]
    for _ in range(2):
        assert job.run(attaching()).returncode == 0
        assert {name: forge.files[name] for name in FILES} == FILES and list(forge.files)[-1] == SUMS


@pytest.mark.parametrize(
    "places, sentence",
    [
        ({"GITHUB_REF_NAME": "v0.0.9"}, f"the tag of this version is v{version()}, and not v0.0.9"),
        ({"GITHUB_API_URL": ""}, "no forge calls this: GITHUB_API_URL is not set"),
        ({"GITHUB_REPOSITORY": "some/other"}, "HTTP Error 422: Unprocessable Entity"),
    ],
)
def test_refused(job: Job, places: dict[str, str], sentence: str) -> None:
    write_files(job.top / "packages")
    job.places.update(places)
    ran = job.run(attaching())
    assert (ran.returncode, ran.stderr) == (1, f"attach_files: {sentence}\n")


def test_changed_file(job: Job, forge: Server) -> None:
    """Nothing is attached where a file is not as its checksum says."""
    write_files(job.top / "packages")
    (job.top / "packages" / "a.deb").write_bytes(b"")
    ran = job.run(attaching())
    assert (ran.returncode, ran.stderr, forge.files, forge.texts) == (1, f"attach_files: packages/a.deb is not as {SUMS} has it\n", {}, [])


def test_half_attached_file(job: Job, forge: Server) -> None:
    """A file that is there in part is told of, and nothing is attached after it."""
    write_files(job.top / "packages")
    forge.texts.append("")
    forge.files["a.deb"] = FILES["a.deb"][:1]
    ran = job.run(attaching())
    assert (ran.returncode, ran.stderr) == (1, "attach_files: a.deb is there already, with 1 bytes in place of 2\n")
    assert list(forge.files) == ["a.deb"]


def test_other_kit(job: Job, tmp_path: pathlib.Path) -> None:
    """Another kit than the README names is refused."""
    kit = tmp_path / "kit"
    job.places["KIT"] = str(kit)
    step = steps()[1]
    assert job.run(step).stderr == f"ready_machine: {kit} is no kit: it has no command bin/rt\n"
    (kit / "bin").mkdir(parents=True)
    (kit / "bin" / "rt").write_text("#!/bin/sh\necho another\n")
    (kit / "bin" / "rt").chmod(0o755)
    ran = job.run(step)
    assert ran.returncode == 1 and ran.stderr.startswith(f"ready_machine: {kit} has another, and not rattle-kit-")


if __name__ == "__main__":
    sys.exit(pytest.main([__file__, *sys.argv[1:]]))

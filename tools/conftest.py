"""What the tries that pytest runs share: the built programs, which options may name, and modules of Debian's packages."""

import importlib.util
import os
import pathlib
import sys
import tempfile
from collections.abc import Iterator
from typing import Any

sys.dont_write_bytecode = True

import build_library
import pytest
from program import Program

PROGRAMS = {it.name: it for it in (Program("instants_program", "instants"), Program("instants_lines_program", "instants-lines"))}


def needed(module: str, package: str) -> Any:
    """Returns a module, which Debian has in a package. Another Python than Debian's, as one may stand first on the PATH, may lack it."""
    if not importlib.util.find_spec(module):
        pytest.fail(f"{sys.executable} has no module {module}; Debian's /usr/bin/python3 has it by the package {package}", pytrace=False)
    return importlib.import_module(module)


def pytest_addoption(parser: pytest.Parser) -> None:
    for name in PROGRAMS:
        parser.addoption(f"--{name}", metavar="PROGRAM", help=f"the program {name}, in place of the one that was built last")
    parser.addoption("--libraries", metavar="FOLDER", help="the folder of the library for C, in place of that which was built last")
    parser.addoption("--write", action="store_true", help="keep what the regression test of tools/try_postgres.py prints")
    parser.addoption("--document", metavar="FILE", action="append", help="a document, in place of those that tools/try_documents.py lists")
    parser.addoption("--rows", metavar="FILE", action="append", help="rows that tools/try_first_answer.py compares")
    parser.addoption("--packages", metavar="FOLDER", help="the folder of the packages that tools/package.py made")
    parser.addoption("--all-steps", action="store_true", help="also those steps of the workflow that take long")
    parser.addoption("--lines", type=int, metavar="N", help="how many mixed lines are tried, where there are such")


def built(config: pytest.Config, name: str) -> pathlib.Path:
    """Returns a program that is there."""
    named = config.getoption(f"--{name}")
    file = pathlib.Path(named).resolve() if named else PROGRAMS[name].file
    if not os.access(file, os.X_OK):
        pytest.fail(f"{file} is not built", pytrace=False)
    return file


@pytest.fixture(scope="session")
def instants(pytestconfig: pytest.Config) -> pathlib.Path:
    return built(pytestconfig, "instants")


@pytest.fixture(scope="session")
def instants_lines(pytestconfig: pytest.Config) -> pathlib.Path:
    return built(pytestconfig, "instants-lines")


@pytest.fixture(scope="session")
def libraries(pytestconfig: pytest.Config) -> pathlib.Path:
    """The folder of the library for C."""
    folder = pathlib.Path(pytestconfig.getoption("--libraries") or build_library.out()).resolve()
    for name in (build_library.ARCHIVE, build_library.SHARED):
        if not (folder / name).is_file():
            pytest.fail(f"{folder / name} is not built", pytrace=False)
    return folder


@pytest.fixture(scope="module")
def room() -> Iterator[pathlib.Path]:
    """A folder for the tries of a file, which is removed after them."""
    with tempfile.TemporaryDirectory(prefix="tries-") as folder:
        yield pathlib.Path(folder)

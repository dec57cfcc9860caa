"""Builds the wheel of this package and the archive of its sources (PEP 517), with Python's own library alone, so that nothing is
fetched. The same files give the same bytes.

The shared library goes into the wheel where there is one: the file that INSTANTS_LIBRARY names, or where that is not set the
one that the repository built last. Where there is none, but the system has one, the wheel is for all machines, and its package
looks for the library where it runs. Where INSTANTS_LIBRARY is empty the wheel is one for all machines too, without the licence:
a distribution has both in packages of its own.
"""

from __future__ import annotations

import base64
import ctypes
import gzip
import hashlib
import io
import os
import pathlib
import re
import sys
import tarfile
import zipfile

HERE = pathlib.Path(__file__).resolve().parent
PACKAGE, LIBRARY = "instants", "libinstants.so.0"
# The repository, where this folder is in one.
TOP = HERE / ".." / ".."
BUILT = TOP / "crates" / "instants_c" / "out" / LIBRARY
PROJECT = (HERE / "pyproject.toml").read_text()
LICENCE = ("LICENSE", "NOTICE")
# (the oldest time that a wheel can have, so that the same files give the same bytes)
TIME, SECONDS = (1980, 1, 1, 0, 0, 0), 315_532_800
# The newest version of the C library that all machines of manylinux2014 have.
NEWEST = (2, 17)
NO_LIBRARY = (
    "instants: the package needs its library: install Debian's package libinstants0, or build the library in its repository "
    f"(tools/build_library.py) and name the file {LIBRARY} in the variable INSTANTS_LIBRARY"
)


def field(name: str) -> str:
    """Returns a field of pyproject.toml."""
    (found,) = re.findall(rf'^{name} = "(.*)"$', PROJECT, re.M)
    return str(found)


def listed(name: str) -> list[str]:
    """Returns the texts of a list in pyproject.toml."""
    (found,) = re.findall(rf"^{name} = \[(.*?)\]$", PROJECT, re.M | re.S)
    return re.findall(r'"([^"]*)"', found)


RELEASE = f"{PACKAGE}-{field('version')}"


def authors() -> str:
    """Returns the authors of pyproject.toml, each with an address."""
    found = re.findall(r'\{ name = "([^"]*)", email = "([^"]*)" \}', PROJECT)
    return ", ".join(f"{name} <{address}>" for name, address in found)


def metadata() -> str:
    """Returns the package's METADATA."""
    heads = ["Metadata-Version: 2.1", f"Name: {PACKAGE}", f"Version: {field('version')}", f"Summary: {field('description')}"]
    heads += [f"Author-email: {authors()}", "License: Apache-2.0", f"Keywords: {','.join(listed('keywords'))}"]
    heads += [f"Classifier: {it}" for it in listed("classifiers")]
    heads.append(f"Requires-Python: {field('requires-python')}")
    for extra, needed in re.findall(r'^(\w+) = \["(\w+)"\]$', PROJECT, re.M):
        heads += [f"Provides-Extra: {extra}", f'Requires-Dist: {needed}; extra == "{extra}"']
    heads.append("Description-Content-Type: text/markdown")
    return "\n".join([*heads, "", (HERE / "README.md").read_text()])


def sources() -> dict[str, bytes]:
    """Returns the files of the package."""
    found = (it for it in sorted((HERE / PACKAGE).iterdir()) if it.suffix in (".py", ".typed"))
    return {f"{PACKAGE}/{it.name}": it.read_bytes() for it in found}


def licence() -> dict[str, bytes]:
    """Returns the files of the licence, which are here in an archive of the sources, and else at the top of the repository."""
    top = HERE if (HERE / LICENCE[0]).exists() else TOP
    return {it: (top / it).read_bytes() for it in LICENCE}


def is_on_system() -> bool:
    """Returns whether the system finds the library."""
    try:
        ctypes.CDLL(LIBRARY)
    except OSError:
        return False
    return True


def library() -> bytes | None:
    """Returns the shared library that goes into the wheel, or None where the system has one. Where there is none this ends with
    a sentence."""
    named = os.environ.get("INSTANTS_LIBRARY")
    found = pathlib.Path(named) if named else BUILT
    if found.is_file():
        return found.read_bytes()
    if named:
        sys.exit(f"instants: INSTANTS_LIBRARY names {named}, which is no file in {os.getcwd()}")
    if not is_on_system():
        sys.exit(NO_LIBRARY)
    return None


def platform_of(library: bytes) -> str:
    """Returns the platform of a wheel with a library in it, by the versions that its symbols have in the C library."""
    named = [it.decode() for it in set(re.findall(rb"\bGLIBC_(\w[\w.]*)", library))]
    is_old = all(re.fullmatch(r"\d+(\.\d+)+", it) and tuple(map(int, it.split("."))) <= NEWEST for it in named)
    return "manylinux2014_x86_64" if named and is_old else "linux_x86_64"


def record(files: dict[str, bytes], name: str) -> bytes:
    """Returns the list of the files with their digests, which goes by a name among them."""
    digests = {it: base64.urlsafe_b64encode(hashlib.sha256(text).digest()) for it, text in files.items()}
    rows = [f"{it},sha256={digests[it].decode().rstrip('=')},{len(text)}" for it, text in files.items()]
    return "\n".join([*rows, f"{name},,", ""]).encode()


def files_of_wheel(held: bytes | None, is_distributed: bool, tag: str) -> dict[str, bytes]:
    """Returns the files of a wheel with a library in it, or with none."""
    files, about = sources(), f"{RELEASE}.dist-info"
    if held:
        files[f"{PACKAGE}/{LIBRARY}"] = held
    heads = ["Wheel-Version: 1.0", f"Generator: {__name__}", f"Root-Is-Purelib: {str(not held).lower()}", f"Tag: {tag}"]
    files[f"{about}/METADATA"] = metadata().encode()
    files[f"{about}/WHEEL"] = "\n".join([*heads, ""]).encode()
    if not is_distributed:
        files.update({f"{about}/{name}": text for name, text in licence().items()})
    files[f"{about}/RECORD"] = record(files, f"{about}/RECORD")
    return files


def build_wheel(wheel_directory: str, config_settings: object = None, metadata_directory: str | None = None) -> str:
    """Makes the wheel in a folder, and returns its name."""
    is_distributed = os.environ.get("INSTANTS_LIBRARY") == ""
    held = None if is_distributed else library()
    tag = f"py3-none-{platform_of(held) if held else 'any'}"
    made = f"{RELEASE}-{tag}.whl"
    with zipfile.ZipFile(pathlib.Path(wheel_directory, made), "w") as wheel:
        for name, text in files_of_wheel(held, is_distributed, tag).items():
            entry = zipfile.ZipInfo(name, TIME)
            entry.external_attr = 0o644 << 16
            wheel.writestr(entry, text, zipfile.ZIP_DEFLATED)
    return made


def build_sdist(sdist_directory: str, config_settings: object = None) -> str:
    """Makes the archive of the sources in a folder, and returns its name."""
    files = {"PKG-INFO": metadata().encode(), **licence()}
    for name in ("pyproject.toml", "README.md", "wheel_of_package.py", "test_instants.py"):
        files[name] = (HERE / name).read_bytes()
    files.update(sources())
    made, whole = f"{RELEASE}.tar.gz", io.BytesIO()
    with tarfile.open(fileobj=whole, mode="w", format=tarfile.PAX_FORMAT) as archive:
        for name, text in files.items():
            entry = tarfile.TarInfo(f"{RELEASE}/{name}")
            entry.size, entry.mtime = len(text), SECONDS
            archive.addfile(entry, io.BytesIO(text))
    with open(pathlib.Path(sdist_directory, made), "wb") as raw, gzip.GzipFile("", "wb", 9, raw, SECONDS) as packed:
        packed.write(whole.getvalue())
    return made

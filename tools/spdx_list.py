"""The list of what is in the packages and of its licences, in SPDX 2.3 (JSON): tools/package.py puts it beside them.

It has the archive with each file of it, Debian's packages as they are, the code of Rattle's kit that programs and libraries hold,
and the C library that they are linked with. What it says of licences is what NOTICE says.
"""

import datetime
import hashlib
import json
import pathlib
import re
import tarfile
import uuid
from collections.abc import Sequence
from typing import TypedDict

from program import ROOT, sure

LICENSE, NOBODY_SAYS, NONE = "Apache-2.0", "NOASSERTION", "NONE"
KIT, C_LIBRARY, START = "SPDXRef-Rattle", "SPDXRef-C-library", "SPDXRef-start-up-files"
BY_LINKERS = "start-up files of the GNU C Library, start-up files and functions of GCC"
LINKED = "The LGPL with an exception for what is linked with these files, and the GPL with the GCC Runtime Library Exception."
# What holds the kit's code, and is linked with the C library as it runs.
BINARY = re.compile(r"(?:bin|lib)/(?!instants-merge$)[^/]+$")
Digests = list[dict[str, str]]
Package = dict[str, object]


class File(TypedDict):
    """The entry of a file."""

    SPDXID: str
    fileName: str
    checksums: Digests
    licenseConcluded: str
    copyrightText: str


def digests(content: bytes) -> Digests:
    """Returns the checksums of some bytes."""
    return [{"algorithm": name.upper(), "checksumValue": hashlib.new(name, content).hexdigest()} for name in ("sha1", "sha256")]


def reference(kind: str, name: str) -> str:
    """Returns the name by which an entry goes in the list."""
    return f"SPDXRef-{kind}-{re.sub(r'[^A-Za-z0-9.-]', '-', name)}"


def kit_version() -> str:
    """Returns the version of the kit, as the README has it."""
    return sure(re.search(r"Proved with `([^`]+)`", (ROOT / "README.md").read_text()))[1]


def files_of(archive: pathlib.Path) -> dict[str, File]:
    """Returns an entry for each file of the archive, by its name below the archive's folder."""
    entries: dict[str, File] = {}
    with tarfile.open(archive) as packed:
        for member in filter(tarfile.TarInfo.isfile, packed):
            name = member.name.partition("/")[2]
            entries[name] = {
                "SPDXID": reference("File", name),
                "fileName": f"./{name}",
                "checksums": digests(sure(packed.extractfile(member)).read()),
                "licenseConcluded": NOBODY_SAYS if is_mixed(name) else LICENSE,
                "copyrightText": NOBODY_SAYS if is_mixed(name) else "Copyright 2026 Fuzhelik maintainers",
            }
    return entries


def is_mixed(name: str) -> bool:
    """Returns whether a file of the archive holds the kit's code too."""
    return bool(BINARY.match(name)) or name.endswith(".whl")


def package(name: str, version: str, **others: object) -> Package:
    """Returns the entry of a package."""
    start = {"name": name, "SPDXID": reference("Package", name), "versionInfo": version, "downloadLocation": NOBODY_SAYS, "filesAnalyzed": False}
    return {**start, "licenseConcluded": NOBODY_SAYS, "copyrightText": NOBODY_SAYS, **others}


def of_file(path: pathlib.Path, version: str, **others: object) -> Package:
    """Returns the entry of a package that is a file."""
    own: Package = {"packageFileName": path.name, "checksums": digests(path.read_bytes()), "licenseDeclared": LICENSE}
    return package(path.name, version, **own, comment="NOTICE has whose code is in it.", **others)


def of_archive(path: pathlib.Path, version: str, files: dict[str, File]) -> Package:
    """Returns the entry of the archive, whose files are listed."""
    sums = sorted(it["checksums"][0]["checksumValue"] for it in files.values())
    code = {"packageVerificationCodeValue": hashlib.sha1("".join(sums).encode()).hexdigest()}
    return of_file(path, version, filesAnalyzed=True, packageVerificationCode=code)


def below(version: str) -> list[Package]:
    """Returns the entries of what programs and libraries hold, and are linked with."""
    told = "The kit's folder has no licence of this code. Under which terms it may be passed on, the makers of Rattle have to be asked."
    return [
        package("Rattle's standard library, and its lines of C", kit_version(), SPDXID=KIT, licenseDeclared=NONE, licenseComments=told),
        package("GNU C Library", f"{version} or a later one", SPDXID=C_LIBRARY, licenseDeclared="LGPL-2.1-or-later"),
        package(BY_LINKERS, NOBODY_SAYS, SPDXID=START, licenseDeclared=NOBODY_SAYS, licenseComments=LINKED),
    ]


def relations(packages: Sequence[Package], files: dict[str, File]) -> list[dict[str, object]]:
    """Returns how the entries belong together; the first package is the archive."""
    related: list[tuple[object, str, object]] = [("SPDXRef-DOCUMENT", "DESCRIBES", it["SPDXID"]) for it in packages]
    related += [(packages[0]["SPDXID"], "CONTAINS", it["SPDXID"]) for it in files.values()]
    for name, it in files.items():
        if is_mixed(name):
            related.append((it["SPDXID"], "STATIC_LINK", KIT))
        if BINARY.match(name) and not name.endswith(".a"):
            related += [(it["SPDXID"], "DYNAMIC_LINK", C_LIBRARY), (it["SPDXID"], "STATIC_LINK", START)]
    return [{"spdxElementId": one, "relationshipType": kind, "relatedSpdxElement": other} for one, kind, other in related]


def write(made: Sequence[pathlib.Path], version: str, c_library: str, time: int) -> pathlib.Path:
    """Writes the list of packages, the archive first, beside them, as of a time, and returns its file. The same packages give the
    same bytes."""
    files = files_of(made[0])
    packages = [of_archive(made[0], version, files), *(of_file(it, version) for it in made[1:])]
    digest = hashlib.sha256(b"".join(it.read_bytes() for it in made)).hexdigest()
    created = datetime.datetime.fromtimestamp(time, datetime.timezone.utc)
    text = {
        "spdxVersion": "SPDX-2.3",
        "dataLicense": "CC0-1.0",
        "SPDXID": "SPDXRef-DOCUMENT",
        "name": f"instants-{version}",
        "documentNamespace": uuid.uuid5(uuid.NAMESPACE_OID, digest).urn,
        "creationInfo": {"created": f"{created:%Y-%m-%dT%H:%M:%SZ}", "creators": ["Tool: tools/package.py"]},
        "packages": [*packages, *below(c_library)],
        "files": list(files.values()),
        "relationships": relations(packages, files),
    }
    target = made[0].with_name(f"instants-{version}.spdx.json")
    target.write_text(json.dumps(text, indent=1, ensure_ascii=False) + "\n")
    return target

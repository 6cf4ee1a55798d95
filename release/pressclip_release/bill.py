"""The bill of materials: an SPDX document of what the files are made of, by which tools, and what is trusted."""

from __future__ import annotations

import json
import re
import time
from hashlib import sha1, sha256
from pathlib import Path
from typing import Any

from .source import ALL_PROGRAMS, TOP, NotMade, Source, output_of, toolchain

Json = dict[str, Any]
ROOT = "SPDXRef-pressclip"
# What the promises rest on; docs/PROMISES.md says it whole.
TRUSTED = (
    ("definitions", "The definitions in specs/ of the crates, in whose words the contracts are.", "trusted, reviewed"),
    ("crates' logic", "That the contracts hold of the crates' code is proved by the toolchain, whose prover, compilers"
     " and contracts of C functions are trusted.", "proved, by what is trusted"),
    ("C edge", "bindings/c/edge.c, which stands between the proved calls and programs in C.", "tested"),
    ("services and bindings", "service/, bindings/python and bindings/java.", "tested"),
    ("C library", "glibc: as the system has it, or in the static programs of the package that is named here.",
     "trusted"),
    ("Linux", "The kernel's calls, its threads, and that what is synced is kept.", "trusted"),
)


class Bill:
    """The document of a release, of these files."""

    def __init__(self, source: Source, files: list[Path]) -> None:
        self._source = source
        self._files = files
        self._moment = time.strftime("%Y-%m-%dT%H:%M:%SZ", time.gmtime(source.epoch))
        self._relations: list[Json] = []

    def text(self) -> str:
        """The document as it is written."""
        packages = [self._pressclip(), *self._tools(), *self._crates()]
        files = [self._file(path) for path in self._files]
        self._relate("SPDXRef-DOCUMENT", "DESCRIBES", ROOT)
        name = f"pressclip-{self._source.version}"
        document = {
            "SPDXID": "SPDXRef-DOCUMENT", "spdxVersion": "SPDX-2.3", "dataLicense": "CC0-1.0", "name": name,
            "documentNamespace": f"https://spdx.org/spdxdocs/{name}-{self._source.commit}",
            "creationInfo": {"created": self._moment, "creators": [f"Tool: release/make-{self._source.version}"]},
            "packages": packages, "files": files, "relationships": self._relations,
            "annotations": [self._annotation(*trusted) for trusted in TRUSTED]}
        return json.dumps(document, indent=1, sort_keys=True) + "\n"

    def _relate(self, one: str, how: str, other: str) -> None:
        self._relations.append({"spdxElementId": one, "relationshipType": how, "relatedSpdxElement": other})

    def _annotation(self, what: str, says: str, how: str) -> Json:
        return {"annotationDate": self._moment, "annotationType": "REVIEW",
                "annotator": f"Tool: release/make-{self._source.version}", "comment": f"{what} ({how}): {says}"}

    def _pressclip(self) -> Json:
        return {**package(ROOT, "pressclip", self._source.version, "Apache-2.0"),
                "sourceInfo": f"git commit {self._source.commit}", "primaryPackagePurpose": "APPLICATION"}

    def _tools(self) -> list[Json]:
        """What builds it, and the C library in the static programs."""
        found = []
        for name, version in (("rattle", toolchain()), ("gcc", debians("gcc")), ("binutils", debians("binutils")),
                              ("dpkg", debians("dpkg"))):
            mark = f"SPDXRef-tool-{name}"
            found.append({**package(mark, name, version), "primaryPackagePurpose": "APPLICATION"})
            self._relate(mark, "BUILD_TOOL_OF", ROOT)
        found.append(package("SPDXRef-libc6-dev", "libc6-dev", debians("libc6-dev"), "LGPL-2.1-or-later"))
        self._relate(ROOT, "STATIC_LINK", "SPDXRef-libc6-dev")
        return found

    def _crates(self) -> list[Json]:
        """The crates: those of the repository, and those that the toolchain ships, which are as it is."""
        uses = crates_used()
        found = []
        for name in sorted({*uses, *(one for used in uses.values() for one in used)}):
            is_own = name in uses
            mark = mark_of(name)
            version = self._source.version if is_own else toolchain().split()[0]
            found.append({**package(mark, name, version, "Apache-2.0" if is_own else "NOASSERTION"),
                          "primaryPackagePurpose": "LIBRARY",
                          "comment": "A crate of the repository, proved." if is_own else
                          "A crate that the toolchain ships. What its contracts state is trusted."})
            self._relate(ROOT, "CONTAINS" if is_own else "DEPENDS_ON", mark)
            for below in uses.get(name, []):
                self._relate(mark, "DEPENDS_ON", mark_of(below))
        return found

    def _file(self, path: Path) -> Json:
        content = path.read_bytes()
        mark = "SPDXRef-file-" + re.sub(r"[^A-Za-z0-9.-]", "-", path.name)
        self._relate(ROOT, "CONTAINS", mark)
        return {"SPDXID": mark, "fileName": f"./{path.name}", "fileTypes": ["ARCHIVE"],
                "licenseConcluded": "NOASSERTION", "licenseInfoInFiles": ["NOASSERTION"],
                "copyrightText": "NOASSERTION",
                "checksums": [{"algorithm": "SHA1", "checksumValue": sha1(content).hexdigest()},
                              {"algorithm": "SHA256", "checksumValue": sha256(content).hexdigest()}]}


def package(mark: str, name: str, version: str, licence: str = "NOASSERTION") -> Json:
    """A package of the document."""
    return {"SPDXID": mark, "name": name, "versionInfo": version, "downloadLocation": "NOASSERTION",
            "filesAnalyzed": False, "licenseConcluded": licence, "licenseDeclared": licence,
            "copyrightText": "NOASSERTION"}


def mark_of(crate: str) -> str:
    """The identifier of a crate in the document, which has no underscore."""
    return f"SPDXRef-crate-{crate.replace('_', '-')}"


def debians(name: str) -> str:
    """The version of a package of Debian's that is installed here."""
    return output_of("dpkg-query", "-W", "-f=${Version}", name)


def crates_used() -> dict[str, list[str]]:
    """The crates that the programs and the library are made of, each with those that it uses, by crates.txt."""
    uses: dict[str, list[str]] = {}
    for line in (TOP / "crates.txt").read_text().splitlines():
        name, colon, used = line.partition("#")[0].partition(":")
        if colon:
            uses[name.split()[0]] = used.split()
    found: dict[str, list[str]] = {}
    left = [*ALL_PROGRAMS.values(), "clip_c"]
    while left:
        name = left.pop()
        if name in uses and name not in found:
            found[name] = uses[name]
            left += uses[name]
    if len(found) < 3:
        raise NotMade("crates.txt names no crates")
    return found


def write(source: Source, files: list[Path], into: Path) -> Path:
    """The document, beside the files."""
    path = into / f"pressclip-{source.version}.spdx.json"
    path.write_text(Bill(source, files).text())
    return path

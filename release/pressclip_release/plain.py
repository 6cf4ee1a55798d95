"""What runs without a package manager: a tarball of the static programs, and an image of them."""

from __future__ import annotations

import json
import time
from hashlib import sha256
from pathlib import Path

from .files import PROGRAM, Entry, packed, tar_of
from .source import ALL_PROGRAMS, TOP, Source, static_program

_READ_ME = """pressclip {version}

Standing queries over articles. The programs are linked statically and run on every Linux of x86-64-v2 with nothing
beside them:

    ./pressclip run < requests.jsonl
    echo 'tea AND' | ./pressclip-explain --plain
    ./pressclip-keep journal < requests.jsonl

with these lines as requests.jsonl:

{requests}
service/, the library and the pages are in the Debian package and in the repository.
The licence is in LICENSE, and what the programs contain in the SBOM beside this archive.
"""


def requests() -> str:
    """README's first requests."""
    page = (TOP / "README.md").read_text()
    return page.split("<!-- test: file requests.jsonl -->\n```\n", 1)[1].split("```", 1)[0]


def static_programs(work: Path) -> list[Entry]:
    """The static programs."""
    return [Entry(name, static_program(name, work).read_bytes(), PROGRAM) for name in ALL_PROGRAMS]


def tarball(source: Source, programs: list[Entry], into: Path) -> Path:
    """The tarball of the static programs."""
    folder = f"pressclip-{source.version}"
    words = _READ_ME.format(version=source.version, requests=requests())
    entries = [Entry(f"{folder}/{entry.name}", entry.content, entry.mode) for entry in programs]
    entries += [Entry(f"{folder}/README", words.encode()), Entry(f"{folder}/LICENSE", (TOP / "LICENSE").read_bytes())]
    path = into / f"{folder}-linux-amd64.tar.gz"
    path.write_bytes(packed(tar_of(entries, source.epoch)))
    return path


class Image:
    """An image in the layout of the Open Container Initiative, which buildah, podman, skopeo and docker load."""

    def __init__(self, source: Source) -> None:
        self._source = source
        self._blobs: dict[str, bytes] = {}

    def _add(self, kind: str, content: bytes) -> dict[str, object]:
        digest = sha256(content).hexdigest()
        self._blobs[digest] = content
        return {"mediaType": f"application/vnd.oci.image.{kind}", "digest": f"sha256:{digest}", "size": len(content)}

    def tar(self, programs: list[Entry]) -> bytes:
        """The image as one tar: from nothing, with these programs."""
        layer = tar_of([Entry(f"usr/bin/{entry.name}", entry.content, entry.mode) for entry in programs],
                       self._source.epoch)
        moment = time.strftime("%Y-%m-%dT%H:%M:%SZ", time.gmtime(self._source.epoch))
        labels = {"org.opencontainers.image.title": "pressclip", "org.opencontainers.image.licenses": "Apache-2.0",
                  "org.opencontainers.image.version": self._source.version,
                  "org.opencontainers.image.revision": self._source.commit}
        settings: dict[str, object] = {"Entrypoint": ["/usr/bin/pressclip"], "Cmd": ["run"], "User": "65534:65534",
                                       "Labels": labels, "Env": ["PATH=/usr/bin"]}
        config: dict[str, object] = {
            "architecture": "amd64", "os": "linux", "created": moment, "config": settings,
            "rootfs": {"type": "layers", "diff_ids": [f"sha256:{sha256(layer).hexdigest()}"]},
            "history": [{"created": moment, "created_by": "release/make"}]}
        manifest: dict[str, object] = {
            "schemaVersion": 2, "mediaType": "application/vnd.oci.image.manifest.v1+json",
            "config": self._add("config.v1+json", json_of(config)),
            "layers": [self._add("layer.v1.tar+gzip", packed(layer))]}
        told = self._add("manifest.v1+json", json_of(manifest))
        name = f"pressclip:{self._source.version}"
        named: dict[str, object] = {**told, "annotations": {"org.opencontainers.image.ref.name": name}}
        index: dict[str, object] = {"schemaVersion": 2, "mediaType": "application/vnd.oci.image.index.v1+json",
                                    "manifests": [named]}
        entries = [Entry("oci-layout", json_of({"imageLayoutVersion": "1.0.0"})), Entry("index.json", json_of(index)),
                   *(Entry(f"blobs/sha256/{digest}", content) for digest, content in self._blobs.items())]
        return tar_of(entries, self._source.epoch)


def json_of(value: object) -> bytes:
    """A value as JSON with its members sorted."""
    return json.dumps(value, sort_keys=True, separators=(",", ":")).encode()


def image(source: Source, programs: list[Entry], into: Path) -> Path:
    """The image of the static programs."""
    path = into / f"pressclip-{source.version}-oci.tar"
    path.write_bytes(Image(source).tar(programs))
    return path

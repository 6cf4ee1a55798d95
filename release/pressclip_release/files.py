"""Archives whose bytes depend on what they hold alone: sorted, of one owner, one time and few modes."""

from __future__ import annotations

import gzip
import io
import tarfile
import time
import zipfile
from collections.abc import Iterable, Mapping
from dataclasses import dataclass
from pathlib import Path

FILE, PROGRAM = 0o644, 0o755
# The first time that a zip can have.
_FIRST_OF_ZIP = 315_532_800


@dataclass(frozen=True)
class Entry:
    """A file of an archive, or a link where `target` says to what."""

    name: str
    content: bytes = b""
    mode: int = FILE
    target: str | None = None


def tar_of(entries: Iterable[Entry], epoch: int) -> bytes:
    """A tar of these, with the folders above them."""
    made = {entry.name: entry for entry in entries}
    folders = {str(above) for name in made for above in Path(name).parents if str(above) not in (".", "/")}
    buffer = io.BytesIO()
    with tarfile.open(fileobj=buffer, mode="w", format=tarfile.USTAR_FORMAT) as archive:
        for name in sorted({*made, *folders}):
            info = tarfile.TarInfo(name)
            info.mtime = epoch
            if name not in made:
                info.type, info.mode = tarfile.DIRTYPE, PROGRAM
                archive.addfile(info)
                continue
            entry = made[name]
            info.mode = entry.mode
            if entry.target is not None:
                info.type, info.linkname = tarfile.SYMTYPE, entry.target
            else:
                info.size = len(entry.content)
            archive.addfile(info, io.BytesIO(entry.content))
    return buffer.getvalue()


def packed(content: bytes) -> bytes:
    """What gzip makes of it, without a name and a time."""
    return gzip.compress(content, compresslevel=9, mtime=0)


def zip_of(files: Mapping[str, bytes], epoch: int, first: Iterable[str] = ()) -> bytes:
    """A zip of these: those named first, and the others in the order of their names."""
    moment = time.gmtime(max(epoch, _FIRST_OF_ZIP))[:6]
    front = [name for name in first if name in files]
    buffer = io.BytesIO()
    with zipfile.ZipFile(buffer, "w", zipfile.ZIP_DEFLATED) as archive:
        for name in [*front, *sorted(files.keys() - set(front))]:
            info = zipfile.ZipInfo(name, moment)
            info.external_attr = (0o100000 | FILE) << 16
            info.compress_type = zipfile.ZIP_DEFLATED
            info.create_system = 3
            archive.writestr(info, files[name])
    return buffer.getvalue()


def files_of_zip(path: Path) -> dict[str, bytes]:
    """The files of a zip by their names."""
    with zipfile.ZipFile(path) as archive:
        return {info.filename: archive.read(info) for info in archive.infolist() if not info.is_dir()}

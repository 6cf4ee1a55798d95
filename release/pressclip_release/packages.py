"""The wheel for Python and the jar for Java, with the shared library in each."""

from __future__ import annotations

import base64
import re
import shutil
import sys
from hashlib import sha256
from pathlib import Path

from .files import files_of_zip, zip_of
from .source import TOP, NotMade, Source, glibc_of, output_of, shared_library, stripped

_PYTHON = "/usr/bin/python3"
_TAG = re.compile(r"^Tag: .*$", re.MULTILINE)
_JNA = Path("/usr/share/java/jna.jar")
_MANIFEST = "META-INF/MANIFEST.MF"


def digest_of(content: bytes) -> str:
    """A digest as a wheel's RECORD has it."""
    return "sha256=" + base64.urlsafe_b64encode(sha256(content).digest()).rstrip(b"=").decode()


def platform_of(library: Path) -> str:
    """The manylinux tag of a library: the oldest glibc that has all symbols that it asks for."""
    major, minor = glibc_of(library)
    return f"manylinux_{major}_{minor}_x86_64"


def shortened(version: str) -> str:
    """A version without the zeros at its end, with which it is one version for Python."""
    return re.sub(r"(\.0)+$", "", version)


def sources(work: Path) -> Path:
    """A copy of the Python package beside a library without symbols, so that nothing is left in the checkout."""
    bindings = work / "bindings"
    shutil.copytree(TOP / "bindings" / "python", bindings / "python",
                    ignore=shutil.ignore_patterns("build", "dist", "*.egg-info", "__pycache__", ".*"))
    for name in ("LICENSE", "VERSION"):
        shutil.copy(TOP / name, work)
    (bindings / "c").mkdir()
    shutil.copy(TOP / "bindings" / "c" / "build", bindings / "c")
    stripped(shared_library(), bindings / "c")
    return bindings


def wheel(source: Source, work: Path, into: Path) -> Path:
    """The wheel, as pip makes it of bindings/python without the network; its tag is then that of the library's symbols,
    and its bytes are laid out anew."""
    bindings = sources(work)
    output_of(_PYTHON, "-m", "pip", "wheel", "--quiet", "--no-index", "--no-deps", "--no-build-isolation",
              "--wheel-dir", work, bindings / "python", folder=work)
    [made] = work.glob("*.whl")
    name, version, *_ = made.name.split("-")
    if shortened(version) != shortened(source.version):
        raise NotMade(f"bindings/python is of version {version}, and VERSION says {source.version}")
    tag = f"py3-none-{platform_of(bindings / 'c' / 'libpressclip.so')}"
    info = f"{name}-{version}.dist-info"
    files = files_of_zip(made)
    del files[f"{info}/RECORD"]
    files[f"{info}/WHEEL"] = _TAG.sub(f"Tag: {tag}", files[f"{info}/WHEEL"].decode()).encode()
    rows = [f"{path},{digest_of(content)},{len(content)}" for path, content in sorted(files.items())]
    files[f"{info}/RECORD"] = "".join(f"{row}\n" for row in (*rows, f"{info}/RECORD,,")).encode()
    path = into / f"{name}-{version}-{tag}.whl"
    path.write_bytes(zip_of(files, source.epoch))
    return path


def jar(source: Source, work: Path, into: Path) -> Path | None:
    """The jar, as bindings/java/build makes it, laid out anew; None where that or what it needs is not there."""
    command = TOP / "bindings" / "java" / "build"
    if not command.is_file() or shutil.which("javac") is None or not _JNA.is_file():
        print("release/make: no jar: bindings/java/build, javac or Debian's libjna-java is missing", file=sys.stderr)
        return None
    output_of(command, PRESSCLIP_LIBRARY=str(stripped(shared_library(), work)))
    found = sorted((TOP / "bindings" / "java" / "out").glob("*.jar"))
    if len(found) != 1:
        raise NotMade(f"bindings/java/build left {len(found)} jars, and not one")
    path = into / f"pressclip-{source.version}.jar"
    path.write_bytes(zip_of(files_of_zip(found[0]), source.epoch, first=[_MANIFEST]))
    return path

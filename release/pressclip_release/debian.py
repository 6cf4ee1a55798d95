"""The package for Debian: a tree as it is installed, and dpkg-deb over it."""

from __future__ import annotations

import gzip
import os
import re
import textwrap
import time
from hashlib import md5
from pathlib import Path

from .files import PROGRAM
from .manual import SERVICES, Command, completion, page, written_page
from .source import (ALL_PROGRAMS, KEEPER, LIBRARY, MACHINE, PROGRAMS, TOP, Source, glibc_of, output_of, program,
                     shared_library, stripped)

HERE = TOP / "release" / "debian"
HOME = "usr/lib/pressclip"
TRIPLET = "x86_64-linux-gnu"
PYTHON = "usr/lib/python3/dist-packages/pressclip"
DOC = "usr/share/doc/pressclip"
# What of the examples is for the checkout alone.
OF_TESTS = ("Makefile", "stdout", "tests.rs")
UNITS = TOP / "service" / "units"
INSTALLED_UNITS = ("pressclip-keep.service", "pressclip-door.service")
HARDENED = "hardened.conf"
CONFIGURATION = {"etc/pressclip/door.toml": "door.toml", "etc/default/pressclip-keep": "pressclip-keep.default"}
FOR_ARCHIVES = ("--strip-debug", "--enable-deterministic-archives")
# What of service/ is for who changes it.
NOT_INSTALLED = ("service/bench", "service/test", "service/pressclip_tests/",
                 "service/pressclip_door/page/jsconfig.json")
# A version in CHANGELOG.md, and its day.
_ENTRY = re.compile(r"^## (\S+)(?: \((\d{4}-\d{2}-\d{2})\))?$", re.MULTILINE)


class Tree:
    """Files as they are installed, under a folder."""

    def __init__(self, root: Path) -> None:
        self.root = root

    def put(self, name: str, content: bytes | str, mode: int = 0o644) -> None:
        """A file with this content."""
        path = self.root / name
        path.parent.mkdir(parents=True, exist_ok=True)
        path.write_bytes(content.encode() if isinstance(content, str) else content)
        path.chmod(mode)

    def copy(self, source: Path, name: str, mode: int | None = None) -> None:
        """A file as it is elsewhere; it may be run where it may be there."""
        usual = 0o755 if os.access(source, os.X_OK) else 0o644
        self.put(name, source.read_bytes(), usual if mode is None else mode)

    def link(self, target: str, name: str) -> None:
        """A name for another one."""
        (self.root / name).parent.mkdir(parents=True, exist_ok=True)
        (self.root / name).symlink_to(target)

    def pack(self, content: bytes | str, name: str) -> None:
        """A file that is packed by gzip."""
        whole = content.encode() if isinstance(content, str) else content
        self.put(name, gzip.compress(whole, compresslevel=9, mtime=0))

    def files(self) -> list[str]:
        """The names of all files that are no links, sorted."""
        return sorted(str(path.relative_to(self.root)) for path in self.root.rglob("*")
                      if path.is_file() and not path.is_symlink())


class Package:
    """The package of a checkout, which is laid out in a folder."""

    def __init__(self, source: Source, work: Path) -> None:
        self._source = source
        self._work = work
        self._tree = Tree(work / "root")

    def make(self, into: Path) -> Path:
        """Lays all out, and packs it."""
        self._programs()
        self._services()
        self._library()
        self._pages()
        self._settings()
        self._control()
        path = into / f"pressclip_{self._source.version}_{MACHINE}.deb"
        for one in sorted(self._tree.root.rglob("*")):
            if one.is_dir() and not one.is_symlink():
                one.chmod(0o755)
        self._tree.root.chmod(0o755)
        output_of("dpkg-deb", "--root-owner-group", "-Zxz", "--threads-max=1", "--build", self._tree.root, path)
        return path

    def _programs(self) -> None:
        for name in PROGRAMS:
            self._tree.copy(stripped(program(name), self._work, "--strip-all"), f"usr/bin/{name}", PROGRAM)
            self._manual(written_page(name, self._source), name)
        self._tree.copy(stripped(program(KEEPER), self._work, "--strip-all"), f"{HOME}/{KEEPER}", PROGRAM)

    def _services(self) -> None:
        """The services, in the same folders as in the checkout, and a name for each on the path."""
        self._tree.copy(TOP / "VERSION", f"{HOME}/VERSION")
        for path in self._source.tracked("service"):
            if not str(path).startswith(NOT_INSTALLED):
                self._tree.put(f"{HOME}/{path}", self._by_debians_python((TOP / path).read_bytes()),
                               0o755 if os.access(TOP / path, os.X_OK) else 0o644)
        commands = [Command.installed(self._tree.root / HOME / "service", name) for name in SERVICES]
        for name, command in zip(SERVICES, commands):
            self._tree.link(f"../lib/pressclip/service/{name}", f"usr/bin/pressclip-{name}")
            self._manual(page(command, self._source), f"pressclip-{name}")
        self._tree.put("usr/share/bash-completion/completions/pressclip", completion(commands))
        for name in ("explain", *SERVICES):
            self._tree.link("pressclip", f"usr/share/bash-completion/completions/pressclip-{name}")

    @staticmethod
    def _by_debians_python(text: bytes) -> bytes:
        """A script as Debian starts it, by its own Python."""
        return re.sub(rb"\A#!/usr/bin/env python3\n", b"#!/usr/bin/python3\n", text)

    def _library(self) -> None:
        """The library with what links it, as its Makefile installs it, and the package for Python that loads it."""
        folder = f"usr/lib/{TRIPLET}"
        output_of("make", "--silent", "-C", LIBRARY, "install", f"DESTDIR={self._tree.root}", "PREFIX=/usr",
                  f"LIBDIR=/{folder}", f"VERSION={self._source.version}")
        for name, options in (("libpressclip.so.1", ()), ("libpressclip.a", FOR_ARCHIVES)):
            path = self._tree.root / folder / name
            self._tree.copy(stripped(path, self._work, *options), f"{folder}/{name}", 0o644)
        for path in sorted((self._tree.root / "usr/share/man/man3").iterdir()):
            name = f"usr/share/man/man3/{path.name}.gz"
            if path.is_symlink():
                self._tree.link(f"{path.readlink()}.gz", name)
            else:
                self._tree.pack(path.read_bytes(), name)
            path.unlink()
        for path in self._source.tracked("bindings/python/pressclip"):
            self._tree.copy(TOP / path, f"{PYTHON}/{path.name}", 0o644)
        self._tree.link(f"../../../{TRIPLET}/libpressclip.so.1", f"{PYTHON}/libpressclip.so")

    def _manual(self, words: str, name: str) -> None:
        self._tree.pack(words, f"usr/share/man/man1/{name}.1.gz")

    def _pages(self) -> None:
        """The pages with their pictures, and examples."""
        self._tree.copy(TOP / "README.md", f"{DOC}/README.md")
        self._tree.copy(TOP / "CHANGELOG.md", f"{DOC}/CHANGELOG.md")
        for path in self._source.tracked("docs"):
            if path.suffix in (".md", ".png", ".svg"):
                self._tree.copy(TOP / path, f"{DOC}/{path}", 0o644)
        for path in self._source.tracked("examples"):
            if path.name not in OF_TESTS:
                self._tree.copy(TOP / path, f"{DOC}/{path}")
        self._tree.copy(HERE / "copyright", f"{DOC}/copyright")
        self._tree.pack(changelog(self._source), f"{DOC}/changelog.gz")
        self._tree.copy(HERE / "lintian-overrides", "usr/share/lintian/overrides/pressclip", 0o644)

    def _settings(self) -> None:
        for name in INSTALLED_UNITS:
            self._tree.copy(UNITS / name, f"lib/systemd/system/{name}", 0o644)
            self._tree.copy(UNITS / HARDENED, f"lib/systemd/system/{name}.d/{HARDENED}", 0o644)
        for name, here in CONFIGURATION.items():
            self._tree.copy(HERE / here, name, 0o644)

    def _control(self) -> None:
        """What dpkg reads of the package."""
        files = self._tree.files()
        size = sum((self._tree.root / name).stat().st_size + 1_023 >> 10 for name in files)
        glibc = max(glibc_of(path) for path in (*map(program, ALL_PROGRAMS), shared_library()))
        values = {"VERSION": self._source.version, "MAINTAINER": maintainer(), "SIZE": str(size),
                  "GLIBC": ".".join(map(str, glibc))}
        control = (HERE / "control.in").read_text()
        for name, value in values.items():
            control = control.replace(f"@{name}@", value)
        digests = "".join(f"{md5((self._tree.root / name).read_bytes()).hexdigest()}  {name}\n"
                          for name in files if name not in CONFIGURATION)
        self._tree.put("DEBIAN/control", control)
        self._tree.put("DEBIAN/md5sums", digests)
        self._tree.put("DEBIAN/conffiles", "".join(f"/{name}\n" for name in sorted(CONFIGURATION)))
        self._tree.put("DEBIAN/shlibs", f"libpressclip 1 pressclip (>= {self._source.version})\n")
        self._tree.put("DEBIAN/triggers", "activate-noawait ldconfig\n")
        for name in ("postinst", "prerm", "postrm"):
            self._tree.copy(HERE / name, f"DEBIAN/{name}", PROGRAM)


def maintainer() -> str:
    """Who maintains the package: whoever committed last."""
    return output_of("git", "show", "-s", "--format=%an <%ae>", "HEAD").strip()


def changelog(source: Source) -> str:
    """CHANGELOG.md in the form of Debian's changelogs. A release without a date has that of the commit."""
    page_of = (TOP / "CHANGELOG.md").read_text()
    heads = list(_ENTRY.finditer(page_of))
    parts = []
    for head, after in zip(heads, [*heads[1:], None]):
        told = page_of[head.end():after.start() if after else None].strip("\n")
        moment = time.gmtime(source.epoch) if head[2] is None else time.strptime(head[2], "%Y-%m-%d")
        when = time.strftime("%a, %d %b %Y %H:%M:%S +0000", moment)
        items = [" ".join(item.split()) for item in re.findall(r"(?m)^- ((?:.|\n  )*)", told)]
        lines = [line for item in items
                 for line in textwrap.wrap(item, 76, initial_indent="  * ", subsequent_indent="    ")]
        parts.append("\n".join([f"pressclip ({head[1]}) stable; urgency=medium", "", *lines, "",
                                f" -- {maintainer()}  {when}"]))
    return "\n\n".join(parts) + "\n"

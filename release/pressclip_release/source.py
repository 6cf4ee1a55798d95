"""What a release is made of: the checkout, its version and its commit, and what was built in it."""

from __future__ import annotations

import os
import re
import subprocess
from dataclasses import dataclass
from functools import cache
from pathlib import Path

TOP = Path(__file__).resolve().parents[2]
# Those that the package has on the path, and all. Its name pressclip-keep is that of service/keep, which starts the
# program from beside the services.
PROGRAMS = {"pressclip": "pressclip", "pressclip-explain": "pressclip_explain"}
KEEPER = "pressclip-keep"
ALL_PROGRAMS = {**PROGRAMS, KEEPER: "pressclip_keep"}
BUILT_BY = "./build (after rt ci: ./build --over-gate)"
LIBRARY = TOP / "bindings" / "c"
MACHINE = "amd64"
# Version numbers of glibc's symbols.
_GLIBC = re.compile(r"\bGLIBC_(\d+)\.(\d+)")


class NotMade(Exception):
    """Why a release can't be made."""


def output_of(*command: str | Path, folder: Path = TOP, **more: str) -> str:
    """What a command prints, with more variables in its environment; `NotMade` where it fails or is not there."""
    try:
        done = subprocess.run(command, cwd=folder, stdout=subprocess.PIPE, stderr=subprocess.PIPE, text=True,
                              check=True, env={**environment(), **more})
    except FileNotFoundError:
        raise NotMade(f"{command[0]} is missing") from None
    except subprocess.CalledProcessError as error:
        raise NotMade(f"{' '.join(map(str, command))} ended with status {error.returncode}:\n{error.stderr}") from None
    return done.stdout


def environment() -> dict[str, str]:
    """The environment of what is started: nothing of the user's that could show in the bytes."""
    kept = {name: value for name, value in os.environ.items() if name in ("PATH", "HOME", "TMPDIR", "JAVA_HOME")}
    return {**kept, "LC_ALL": "C.UTF-8", "TZ": "UTC", "COLUMNS": "100",
            "SOURCE_DATE_EPOCH": os.environ["SOURCE_DATE_EPOCH"]}


@dataclass(frozen=True)
class Source:
    """The checkout that is released: its version, and its commit with the time of that in seconds."""

    version: str
    commit: str
    epoch: int

    @staticmethod
    def of_checkout() -> Source:
        """The checkout here. Its commit's time becomes that of each file that is made."""
        os.environ["SOURCE_DATE_EPOCH"] = "0"
        commit = output_of("git", "rev-parse", "HEAD").strip()
        epoch = int(output_of("git", "show", "-s", "--format=%ct", "HEAD"))
        os.environ["SOURCE_DATE_EPOCH"] = str(epoch)
        os.umask(0o022)
        return Source((TOP / "VERSION").read_text().strip(), commit, epoch)

    def tracked(self, folder: str) -> list[Path]:
        """The files of a folder that git has, by their paths from the top."""
        return sorted(Path(name) for name in output_of("git", "ls-files", "-z", folder).split("\0") if name)


def built(path: Path, by: str) -> Path:
    """A file that was built; `NotMade` where it is missing."""
    if not path.is_file():
        raise NotMade(f"{path.relative_to(TOP)} is missing. This makes it: {by}")
    return path


def program(name: str) -> Path:
    """A program as ./build leaves it."""
    return built(TOP / "crates" / ALL_PROGRAMS[name] / "out" / name, BUILT_BY)


def shared_library() -> Path:
    """The library that programs load."""
    return built(LIBRARY / "libpressclip.so", "bindings/c/build")


@cache
def toolchain() -> str:
    """The toolchain's version, as it tells it."""
    return output_of("rt", "version").strip()


@cache
def kit() -> Path:
    """The folder of the toolchain."""
    return Path(output_of("rt", "doc").strip()).parent


def static_program(name: str, into: Path) -> Path:
    """A program with all of the C library that it calls in it, linked of the same proved object file."""
    crate = ALL_PROGRAMS[name]
    objects = built(TOP / "crates" / crate / "out" / f"{crate}.o", BUILT_BY)
    path = into / name
    output_of("gcc", "-static", "-s", "-Wl,--build-id=none", "-Wl,-z,noexecstack", "-o", path, objects,
              kit() / "c" / "libos_c.a", kit() / "c" / "liblibc_c.a")
    return path


def stripped(path: Path, into: Path, *options: str) -> Path:
    """A copy without what only debuggers read."""
    copy = into / path.name
    output_of("strip", *(options or ("--strip-unneeded",)), "--remove-section=.comment", "--remove-section=.note",
              "-o", copy, path)
    return copy


def glibc_of(path: Path) -> tuple[int, int]:
    """The highest version of glibc's symbols that a file asks for, as `readelf -V` tells them."""
    found = [(int(major), int(minor)) for major, minor in _GLIBC.findall(output_of("readelf", "-V", "--wide", path))]
    if not found:
        raise NotMade(f"{path} asks for no symbol of glibc")
    return max(found)

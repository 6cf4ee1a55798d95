"""Puts the shared library into the wheel, beside what pyproject.toml says of the package.

In a checkout it is the one that bindings/c/build has built. PRESSCLIP_LIBRARY names another one, and where that is
empty there is none in the wheel, which then is for all machines and finds the library that `make install` installed.
From a source archive none is put in but one that PRESSCLIP_LIBRARY names. An editable install has none either: it
finds that of the checkout.
"""

from __future__ import annotations

import os
import shutil
from pathlib import Path

from setuptools import Distribution, setup
from setuptools.command.build_py import build_py
from wheel.bdist_wheel import bdist_wheel  # type: ignore[import]

NAME = "libpressclip.so"
HERE = Path(__file__).resolve().parent
OF_CHECKOUT = HERE.parent / "c"
MISSING = """pressclip: {path} is missing. This builds it, in a checkout of pressclip:

    bindings/c/build

Or set PRESSCLIP_LIBRARY to its path, or to nothing for a package without it."""


def bring_files_of_the_checkout() -> None:
    """The licence and the version stand at the top of a checkout, and beside this file in a source archive."""
    for name in ("LICENSE", "VERSION"):
        if (OF_CHECKOUT / "build").exists():
            shutil.copyfile(HERE.parent.parent / name, HERE / name)


def library() -> Path | None:
    """The library that is put in, if any; the program ends where it is missing."""
    named = os.environ.get("PRESSCLIP_LIBRARY")
    if named == "" or (named is None and not (OF_CHECKOUT / "build").exists()):
        return None
    path = OF_CHECKOUT / NAME if named is None else Path(named)
    if not path.is_file():
        raise SystemExit(MISSING.format(path=path))
    return path


class WithLibrary(Distribution):
    """A package that is for one machine where the library is in it."""

    def has_ext_modules(self) -> bool:
        """Whether the library is put in."""
        return library() is not None


class BuildWithLibrary(build_py):
    """Lays out the package, and the library beside its modules."""

    def run(self) -> None:
        """An editable install keeps the modules where they are, and so has no library of its own."""
        super().run()
        if self.editable_mode:
            return
        into, path = Path(self.build_lib, "pressclip", NAME), library()
        into.unlink(missing_ok=True)
        if path is not None:
            shutil.copyfile(path, into)
            into.chmod(0o644)


class WheelWithLibrary(bdist_wheel):  # type: ignore[misc]
    """A wheel for every Python 3, which calls the library by ctypes."""

    def get_tag(self) -> tuple[str, str, str]:
        """The tag that the wheel's name has."""
        platform = super().get_tag()[2]
        return "py3", "none", platform


bring_files_of_the_checkout()
setup(distclass=WithLibrary, cmdclass={"build_py": BuildWithLibrary, "bdist_wheel": WheelWithLibrary})

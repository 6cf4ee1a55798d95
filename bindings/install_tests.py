"""Tests of what bindings/c/Makefile installs, of the names that the shared library gives, and of header and manual."""

from __future__ import annotations

import os
import re
import shlex
import subprocess
import tempfile
from pathlib import Path
from typing import Any, Callable

TOP = Path(__file__).resolve().parent.parent
C = TOP / "bindings" / "c"
HEADER = TOP / "include" / "pressclip.h"
WARNINGS = ["-Wall", "-Wextra", "-Wpedantic", "-Werror"]
VERSION = (TOP / "VERSION").read_text().strip()


def told(*command: str | Path, **named: Any) -> str:
    """What a command prints, which goes well and says nothing of an error."""
    run: subprocess.CompletedProcess[str] = subprocess.run(command, stdout=subprocess.PIPE, stderr=subprocess.PIPE,
                                                           text=True, **named)
    assert (run.returncode, run.stderr) == (0, ""), (command, run.returncode, run.stderr)
    return run.stdout


def install(**variables: str | Path) -> None:
    """`make install` with these variables, by a caller whose files are closed to others."""
    told("make", "-s", "-C", C, "install", *(f"{name}={value}" for name, value in variables.items()),
         umask=0o077)


def declared() -> list[str]:
    """The calls that the header declares."""
    return re.findall(r"\b(pressclip_\w+)\(", re.sub(r"/\*.*?\*/", "", HEADER.read_text(), flags=re.DOTALL))


def the_installed_library_is_found_by_pkg_config() -> None:
    """examples/c/main.c is built by what pkg-config says, wants the library by its soname, and prints its words."""
    with tempfile.TemporaryDirectory() as folder:
        prefix, program = Path(folder, "prefix"), Path(folder, "main")
        install(PREFIX=prefix)
        paths = {**os.environ, "PKG_CONFIG_PATH": str(prefix / "lib" / "pkgconfig"),
                 "LD_LIBRARY_PATH": str(prefix / "lib")}
        assert told("pkg-config", "--modversion", "pressclip", env=paths) == f"{VERSION}\n"
        words = shlex.split(told("pkg-config", "--cflags", "--libs", "pressclip", env=paths))
        told("gcc", "-std=c11", *WARNINGS, TOP / "examples" / "c" / "main.c", *words, "-o", program)
        wanted = re.findall(r"\(NEEDED\).*\[(libpressclip.*)\]", told("readelf", "-d", program))
        assert wanted == ["libpressclip.so.1"], wanted
        assert told(program, env=paths) == (TOP / "examples" / "c" / "stdout").read_text()


def a_staged_install_is_for_its_prefix() -> None:
    """All lies below DESTDIR, may be read by all, and names the places that it is for."""
    with tempfile.TemporaryDirectory() as folder:
        install(PREFIX="/usr", LIBDIR="/usr/lib/here", DESTDIR=folder)
        files = {str(path.relative_to(folder)): path for path in Path(folder).rglob("*") if not path.is_dir()}
        manual = "usr/share/man/man3"
        assert sorted(files) == sorted([
            "usr/include/pressclip.h", "usr/lib/here/libpressclip.a", "usr/lib/here/libpressclip.so",
            "usr/lib/here/libpressclip.so.1", "usr/lib/here/pkgconfig/pressclip.pc", f"{manual}/pressclip.3",
            *(f"{manual}/{call}.3" for call in declared())]), sorted(files)
        assert os.readlink(files["usr/lib/here/libpressclip.so"]) == "libpressclip.so.1"
        assert all(os.readlink(files[f"{manual}/{call}.3"]) == "pressclip.3" for call in declared())
        assert all(path.stat().st_mode & 0o444 == 0o444 for path in Path(folder).rglob("*"))
        assert files["usr/lib/here/pkgconfig/pressclip.pc"].read_text().split("\n")[:3] == [
            "prefix=/usr", "libdir=/usr/lib/here", "includedir=/usr/include"]


def nothing_is_installed_before_a_build() -> None:
    """It says what to do."""
    with tempfile.TemporaryDirectory() as folder:
        Path(folder, "Makefile").write_bytes((C / "Makefile").read_bytes())
        run = subprocess.run(["make", "-C", folder, "install", f"PREFIX={folder}/prefix"], stdout=subprocess.PIPE,
                             stderr=subprocess.PIPE, text=True)
        assert run.returncode == 2 and "This builds it: bindings/c/build\n" in run.stderr, run
        assert os.listdir(folder) == ["Makefile"], os.listdir(folder)


def the_shared_library_gives_its_calls_alone() -> None:
    """Those of the header, the one of bindings/c/python.c, and no other name."""
    lines = told("nm", "-D", "--defined-only", C / "libpressclip.so").splitlines()
    calls = sorted([*declared(), "pressclip_python_found"])
    assert sorted(line.split()[1:] for line in lines) == [["T", call] for call in calls], lines


def the_header_is_clean_in_c() -> None:
    """By all warnings of C11, and included twice."""
    told("gcc", "-std=c11", *WARNINGS, f"-I{HEADER.parent}", "-fsyntax-only", "-x", "c", "-",
         input="#include <pressclip.h>\n#include <pressclip.h>\n")


def the_header_is_clean_in_cpp() -> None:
    """By all warnings of C++17, and a program in C++ links."""
    code = ("#include <pressclip.h>\n#include <pressclip.h>\n"
            "int main() {\n    pressclip *engine;\n    int status = pressclip_open(true, &engine);\n"
            "    pressclip_close(&engine);\n    return status != PRESSCLIP_OK || engine != nullptr;\n}\n")
    with tempfile.TemporaryDirectory() as folder:
        told("g++", "-std=c++17", *WARNINGS, f"-I{HEADER.parent}", "-x", "c++", "-", "-x", "none",
             C / "libpressclip.a", "-o", f"{folder}/main", input=code)
        told(f"{folder}/main")


def the_manual_has_what_the_header_says() -> None:
    """Each comment word by word, and each call with its declaration under its name."""
    page = told(C / "manual")
    plain = " ".join(re.sub(r"\\(?:f[BP]|&)", "", page).replace("\\-", "-").replace("\\e", "\\").split())
    header = HEADER.read_text()
    for comment in re.findall(r"^/\*(.*?)\*/\n", header, re.DOTALL | re.MULTILINE):
        for paragraph in re.split(r"\n \*\n|(?<=\.)\n \* (?=PRESSCLIP_)", comment):
            words = " ".join(re.sub(r"^ \*", "", paragraph, flags=re.MULTILINE).split())
            if words.startswith("pressclip as a library: "):
                words = words.partition(": ")[2].rstrip(".")
            assert words in plain, words
    assert told(C / "manual", "--names").split() == declared()
    for call in declared():
        (code,) = re.findall(rf"^[a-z][^;{{#]*\b{call}\([^;]*;", header, re.MULTILINE)
        assert f".SS {call} .PP .nf {' '.join(code.split())} .fi .PP" in plain, (call, code)


TESTS: tuple[Callable[[], None], ...] = (
    the_installed_library_is_found_by_pkg_config, a_staged_install_is_for_its_prefix,
    nothing_is_installed_before_a_build, the_shared_library_gives_its_calls_alone, the_header_is_clean_in_c,
    the_header_is_clean_in_cpp, the_manual_has_what_the_header_says)
# The tests that want a tool, which not every machine has, and Debian's package of it.
WANTS: dict[Callable[[], None], tuple[str, str]] = {
    the_installed_library_is_found_by_pkg_config: ("pkg-config", "pkgconf"), the_header_is_clean_in_cpp: ("g++", "g++")}

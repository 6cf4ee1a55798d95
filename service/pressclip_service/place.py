"""Where this stands: in a checkout, or where a package has installed it. Both have the file VERSION at the top."""

from __future__ import annotations

import argparse
import re
import sys
from pathlib import Path

TOP = Path(__file__).resolve().parents[2]
IS_CHECKOUT = (TOP / "crates").is_dir()
# The version of all that is released together.
VERSION = (TOP / "VERSION").read_text().strip()
_COMMANDS = "keep|door|articles|connect|grid|press|redis"


def command_name(name: str) -> str:
    """How one of these commands is called: `service/keep` in a checkout, `pressclip-keep` where it is installed."""
    return f"service/{name}" if IS_CHECKOUT else f"pressclip-{name}"


def as_called(text: str) -> str:
    """A text with these commands as they are called here."""
    if IS_CHECKOUT:
        return text
    return re.sub(rf"(?m)service/({_COMMANDS})\b|^  ({_COMMANDS})(?= )",
                  lambda found: f"pressclip-{found[1]}" if found[1] else f"  pressclip-{found[2]}", text)


class CommandLine(argparse.ArgumentParser):
    """A command line whose help names these commands as they are called here."""

    def format_help(self) -> str:
        """The help."""
        return as_called(super().format_help())


def command_line(name: str, text: str | None) -> CommandLine:
    """The command line of a command of this name, which the text describes."""
    return CommandLine(prog=name, description=text, formatter_class=argparse.RawDescriptionHelpFormatter)


def tell_version_alone(name: str) -> None:
    """Prints the version and ends, where that is all that is asked for: also where what the command needs is missing."""
    if sys.argv[1:] == ["--version"]:
        print(f"{name} {VERSION}")
        sys.exit(0)


def add_version(parser: argparse.ArgumentParser) -> None:
    """Lets it print the version, and end."""
    parser.add_argument("--version", action="version", version=f"{parser.prog} {VERSION}",
                        help="print the version, and end")


def program_of(crate: str, name: str) -> str:
    """A program: the file that the checkout builds, or the installed one, which is on the path."""
    return str(TOP / "crates" / crate / "out" / name) if IS_CHECKOUT else name

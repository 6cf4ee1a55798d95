"""Manual pages and the shell's completion of the services, both of what each command says with `--help`."""

from __future__ import annotations

import re
from dataclasses import dataclass
from pathlib import Path

from .source import TOP, Source, output_of

SERVICES = ("articles", "connect", "door", "grid", "keep", "press", "redis")
PAGES = TOP / "release" / "man"
_PYTHON = "/usr/bin/python3"
_OPTION = re.compile(r"(?<![\w-])--[a-z][a-z-]*")
_SUBCOMMAND = re.compile(r"^  {0}(?: \[[^\]]*\])* ([a-z]+)\b", re.MULTILINE)


@dataclass(frozen=True)
class Help:
    """What a command says of itself: how it is used, what it does, and its options."""

    name: str
    usage: str
    text: str
    options: str

    @staticmethod
    def of(name: str, told: str) -> Help:
        """The parts of what `--help` printed."""
        usage, _, rest = told.partition("\n\n")
        found = re.search(r"(?m)^(positional arguments|options):$", rest)
        at = found.start() if found else len(rest)
        return Help(name, " ".join(usage.removeprefix("usage: ").split()), rest[:at].strip("\n"), rest[at:].strip("\n"))

    def words(self) -> list[str]:
        """The options, as the shell completes them."""
        return sorted(set(_OPTION.findall(self.usage + "\n" + self.options)))

    def subcommands(self) -> list[str]:
        """The commands in its first words, as its text lists them."""
        if "REST" not in self.usage and not re.search(r"\b(ROLE|BROKER|COMMAND)\b", self.usage):
            return []
        return sorted(set(re.findall(rf"(?m)^  {self.name} ([a-z]+)\b", self.text)))


@dataclass(frozen=True)
class Command:
    """A command of the services with its subcommands."""

    whole: Help
    parts: tuple[Help, ...]

    @staticmethod
    def installed(folder: Path, service: str) -> Command:
        """The command as it lies in a folder where it is installed."""
        script, name = folder / service, f"pressclip-{service}"
        whole = Help.of(name, output_of(_PYTHON, script, "--help"))
        parts = tuple(Help.of(f"{name} {part}", output_of(_PYTHON, script, part, "--help"))
                      for part in whole.subcommands())
        return Command(whole, parts)


def text(line: str) -> str:
    """A line as troff has it."""
    line = line.replace("\\", "\\e").replace("-", "\\-")
    return "\\&" + line if line.startswith((".", "'")) else line


def paragraphs(told: str) -> list[str]:
    """A description: lines that begin with blanks stay as they are."""
    lines: list[str] = []
    for paragraph in told.split("\n\n"):
        is_plain = paragraph.startswith("  ")
        front, back = ([".nf"], [".fi"]) if is_plain else ([], [])
        lines += [".PP", *front, *map(text, paragraph.split("\n")), *back]
    return lines


def options(told: str) -> list[str]:
    """The options as they are laid out by `--help`."""
    return [".nf", *map(text, told.split("\n")), ".fi"]


def page(command: Command, source: Source) -> str:
    """The manual page of a service."""
    whole = command.whole
    first, _, more = whole.text.partition("\n\n")
    summary = " ".join(first.split()).rstrip(".")
    lines = [f'.TH {text(whole.name.upper())} 1 "" "pressclip {source.version}" "User commands"', ".nh", ".ad l",
             ".SH NAME", f"{text(whole.name)} \\- {text(summary[0].lower() + summary[1:])}", ".SH SYNOPSIS",
             text(whole.usage), ".SH DESCRIPTION", *paragraphs(more or first), ".SH OPTIONS", *options(whole.options)]
    for part in command.parts:
        lines += [f'.SH "{text(part.name)}"', text(part.usage), ".PP", *options(part.options)]
    lines += [".SH FILES", ".TP", ".I /usr/share/doc/pressclip/docs/OPERATING.md", "how the services are run",
              ".SH \"SEE ALSO\"", ".BR pressclip (1)"]
    return "\n".join(lines) + "\n"


def written_page(name: str, source: Source) -> str:
    """The manual page of a program, which release/man has."""
    return (PAGES / f"{name}.1").read_text().replace("@VERSION@", source.version)


def cases(commands: list[Command]) -> list[str]:
    """The lines of the completion that say which words a command takes."""
    lines = []
    for command in commands:
        parts = [part.name.split()[1] for part in command.parts]
        for part in command.parts:
            lines.append(f'        "{part.name}") words="{" ".join(part.words())}" ;;')
        lines.append(f'        "{command.whole.name} "*) words="{" ".join([*command.whole.words(), *parts])}" ;;')
    return lines


def completion(commands: list[Command]) -> str:
    """What bash completes: options and subcommands, what runs behind `--`, and names of files."""
    names = [command.whole.name for command in commands]
    return "\n".join([
        "# Completion of pressclip's commands for bash.",
        "_pressclip() {",
        '    local word="${COMP_WORDS[COMP_CWORD]}" words=""',
        '    case "${COMP_WORDS[0]##*/} ${COMP_WORDS[1]}" in',
        '        "pressclip "*) words="run trace hits" ;;',
        '        "pressclip-explain "*) words="--plain" ;;',
        *cases(commands),
        "    esac",
        '    [ "$word" = -- ] || [ "${COMP_WORDS[COMP_CWORD-1]}" != -- ] || words="pressclip"',
        '    mapfile -t COMPREPLY < <(compgen -W "$words" -- "$word")',
        "}",
        f"complete -o default -F _pressclip pressclip pressclip-explain {' '.join(names)}",
    ]) + "\n"

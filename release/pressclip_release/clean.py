"""A folder with a clean Debian in it, in which nothing was ever built, and what is run there."""

from __future__ import annotations

import os
import shutil
import signal
import subprocess
import time
from collections.abc import Callable, Mapping, Sequence
from pathlib import Path

SUITE = "bookworm"
_KEYRING = "/usr/share/keyrings/debian-archive-keyring.gpg"
_TARGETS = ("apt-get", "indextargets", "--format", "$(ORIGIN) $(CODENAME) $(REPO_URI)", "Created-By: Packages")
_SOURCE = "deb [signed-by={key}] {uri} {suite} main\n"


class Failed(Exception):
    """Something is not as it has to be."""


def need(holds: bool, what: str) -> None:
    """`Failed` where it does not hold."""
    if not holds:
        raise Failed(what)


def sources() -> dict[str, str]:
    """From where this machine has its Debian, by suite; `Failed` where it has none of the suite."""
    told = subprocess.run(_TARGETS, stdout=subprocess.PIPE, text=True, check=True).stdout
    lines = [line.split(" ", 2) for line in told.splitlines()]
    found = {line[1]: line[2].rstrip("/") + "/" for line in lines if line[0] == "Debian" and line[1].startswith(SUITE)}
    need(SUITE in found, f"apt knows no {SUITE} here: apt-get update")
    return found


class Debian:
    """The folder. Its processes see the network and the numbers of processes of who made it, and no files."""

    def __init__(self, root: Path) -> None:
        self.root = root
        self._making: subprocess.Popen[bytes] | None = None

    def begin(self) -> None:
        """Begins to make it."""
        self._making = subprocess.Popen(
            ["debootstrap", "--variant=minbase", f"--keyring={_KEYRING}", SUITE, str(self.root), sources()[SUITE]],
            stdout=subprocess.DEVNULL, stderr=subprocess.PIPE)

    def finish(self) -> None:
        """Waits until it is made, and lets it know where packages come from."""
        assert self._making
        _, told = self._making.communicate()
        need(self._making.returncode == 0, f"debootstrap ended with status {self._making.returncode}: {told.decode()}")
        self.write("etc/apt/sources.list", "".join(
            _SOURCE.format(key=_KEYRING, uri=uri, suite=suite) for suite, uri in sorted(sources().items())))
        subprocess.run(["mount", "-t", "proc", "proc", str(self.root / "proc")], check=True)
        self.run("apt-get", "-qq", "update")

    def end(self) -> None:
        """Takes the folder away."""
        subprocess.run(["umount", str(self.root / "proc")], stderr=subprocess.DEVNULL, check=False)
        shutil.rmtree(self.root, ignore_errors=True)

    def path(self, name: str) -> Path:
        """Where a file of the folder is from outside."""
        return self.root / name.lstrip("/")

    def write(self, name: str, text: str) -> None:
        """Puts a file into the folder."""
        self.path(name).parent.mkdir(parents=True, exist_ok=True)
        self.path(name).write_text(text)

    def copy(self, source: Path, folder: str) -> str:
        """Puts a file into a folder of it, and gives its name there."""
        self.path(folder).mkdir(parents=True, exist_ok=True)
        shutil.copy(source, self.path(folder))
        return f"{folder}/{source.name}"

    def command(self, words: Sequence[str], user: str | None = None) -> list[str]:
        """The command that runs these words in the folder."""
        front = ["setpriv", f"--reuid={user}", f"--regid={user}", "--clear-groups"] if user else []
        return ["chroot", str(self.root), *front, *words]

    @staticmethod
    def environment(more: Mapping[str, str]) -> dict[str, str]:
        """The environment of what runs there: none of ours."""
        return {"PATH": "/usr/sbin:/usr/bin:/sbin:/bin", "HOME": "/root", "LC_ALL": "C.UTF-8",
                "DEBIAN_FRONTEND": "noninteractive", **more}

    def run(self, *words: str, text: str = "", **more: str) -> str:
        """What words print that run in the folder to their end, with more variables in their environment; `Failed`
        where they end with another status than 0."""
        done = subprocess.run(self.command(words), input=text.encode(), stdout=subprocess.PIPE, stderr=subprocess.PIPE,
                              env=self.environment(more), check=False)
        need(done.returncode == 0, f"{' '.join(words)}: status {done.returncode}: {done.stderr.decode()}")
        return done.stdout.decode()

    def shell(self, line: str) -> str:
        """What a line of the shell prints."""
        return self.run("sh", "-c", line)

    def has(self, name: str) -> bool:
        """Whether a command is on the path there."""
        folders = ("usr/bin", "usr/sbin", "usr/local/bin")
        return any(os.path.lexists(self.path(f"{folder}/{name}")) for folder in folders)


class Unit:
    """A unit of systemd's as it is installed in the folder, run as that one would: its command, as its user."""

    def __init__(self, debian: Debian, name: str) -> None:
        self._debian = debian
        lines = debian.path(f"lib/systemd/system/{name}").read_text().splitlines()
        self._settings = [line.partition("=")[::2] for line in lines if "=" in line and not line.startswith("#")]
        self._process: subprocess.Popen[bytes] | None = None
        self._told = debian.path(f"tmp/{name}.told")

    def _values(self, name: str) -> list[str]:
        return [value for key, value in self._settings if key == name]

    def _environment(self) -> dict[str, str]:
        """What the unit and its file of settings say."""
        lines = self._values("Environment")
        for name in self._values("EnvironmentFile"):
            path = self._debian.path(name.lstrip("-"))
            lines += path.read_text().splitlines() if path.exists() else []
        pairs = [line.partition("=") for line in lines if "=" in line and not line.startswith("#")]
        return {name: value for name, _, value in pairs}

    def _words(self) -> list[str]:
        """The command. These units quote with ' alone, and write $$ for a sign of the shell."""
        [line] = self._values("ExecStart")
        pieces = line.split("'")
        words = [word for at, piece in enumerate(pieces) for word in ([piece] if at % 2 else piece.split())]
        return [word.replace("$$", "$") for word in words]

    def start(self) -> None:
        """Starts it, in a group of processes of its own."""
        [user] = self._values("User")
        with self._told.open("wb") as told:
            self._process = subprocess.Popen(
                self._debian.command(self._words(), user), stdin=subprocess.DEVNULL, stdout=told, stderr=told,
                env=self._debian.environment(self._environment()), start_new_session=True)

    def told(self) -> str:
        """What it said."""
        return self._told.read_text()

    def stop(self) -> None:
        """Ends all its processes by SIGTERM, as systemd does, and waits for them."""
        assert self._process
        os.killpg(self._process.pid, signal.SIGTERM)
        self._process.wait(timeout=60)


def wait_for(what: str, seconds: float, holds: Callable[[], bool], told: Callable[[], str]) -> None:
    """Waits until it holds; `Failed` after so many seconds."""
    until = time.monotonic() + seconds
    while not holds():
        need(time.monotonic() < until, f"no {what} after {seconds:.0f} s: {told()}")
        time.sleep(0.05)

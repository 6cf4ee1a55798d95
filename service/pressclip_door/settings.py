"""What the door is told: by `door.toml`, and by its options."""

from __future__ import annotations

import ipaddress
import tomllib
from dataclasses import dataclass, field, fields
from importlib.util import find_spec
from pathlib import Path
from typing import Any, Mapping, Sequence
from urllib.parse import urlsplit

from pressclip_service.errors import STATUS_USAGE, ServiceError

Json = dict[str, Any]
USUAL_PORT = 8_080
CLASSIC, PRESS = "classic", "press"
DIALECTS = (CLASSIC, PRESS)
# Packages of Debian that the press dialect needs, and that are not there.
MISSING = tuple(f"python3-{name}" for name in ("lark", "regex") if find_spec(name) is None)


class BadSettings(ServiceError):
    """The settings can't be used."""

    status = STATUS_USAGE


@dataclass(frozen=True)
class Limits:
    """What one client, and all together, may take."""

    body_bytes: int = 4 << 20
    bodies_bytes: int = 256 << 20
    requests_a_second: float = 2_000.0
    burst: int = 4_000
    connections: int = 4_096
    alert_streams: int = 2_048
    line_streams: int = 64
    lines_in_flight: int = 4_096
    stream_bytes: int = 8 << 20
    unread_bytes: int = 256 << 10
    header_seconds: float = 10.0
    body_seconds: float = 30.0
    unread_seconds: float = 30.0
    drain_seconds: float = 30.0
    alerts_kept: int = 10_000
    alert_bytes_kept: int = 64 << 20
    articles_kept: int = 50
    deliveries_waiting: int = 1_000_000
    first_pause_seconds: float = 1.0
    most_pause_seconds: float = 300.0


@dataclass(frozen=True)
class Delivery:
    """Where the alerts of queries whose ids begin with the prefix go: to a webhook, or by mail."""

    name: str
    prefix: str = ""
    webhook: str | None = None
    secret: Path | None = None
    mail: str | None = None
    sender: str = ""
    smtp: str = "localhost:25"
    starttls: bool = False
    user: str | None = None
    password: Path | None = None
    digest_seconds: float | None = None


@dataclass(frozen=True)
class Settings:
    """All of it. `engine` is the engine's command; `grid` says that it is a grid, with these options; `dialect` is how
    queries are read, of press desks by a profile, or the usual one."""

    host: str = "127.0.0.1"
    port: int = USUAL_PORT
    names: tuple[str, ...] = ()
    engine: tuple[str, ...] = ()
    journal: Path | None = None
    grid: tuple[str, ...] | None = None
    dialect: str = CLASSIC
    profile: Path | None = None
    tokens: Path | None = None
    spool: Path | None = None
    limits: Limits = field(default_factory=Limits)
    deliveries: tuple[Delivery, ...] = ()


def need(holds: bool, what: str) -> None:
    """`BadSettings` where it does not hold."""
    if not holds:
        raise BadSettings(what)


# Each type of a member with the values that are taken for it.
_KINDS: Mapping[str, tuple[type, ...]] = {
    "int": (int,), "float": (int, float), "float | None": (int, float), "str": (str,), "str | None": (str,),
    "bool": (bool,), "Path | None": (str,), "tuple[str, ...]": (list,), "tuple[str, ...] | None": (list,)}


def members_of(form: type, given: Json, place: str, folder: Path) -> Json:
    """The members of a form from a table of the file; `BadSettings` where one is unknown or of another type."""
    kinds = {one.name: str(one.type) for one in fields(form)}
    found: Json = {}
    for name, value in given.items():
        need(name in kinds, f"{place}: there is no setting {name}")
        need(type(value) in _KINDS.get(kinds[name], ()), f"{place}: {name} is of another type")
        if kinds[name] == "Path | None":
            value = folder / value
        elif isinstance(value, list):
            need(all(isinstance(one, str) for one in value), f"{place}: {name} is a list of texts")
            value = tuple(value)
        elif isinstance(value, (int, float)) and not isinstance(value, bool):
            need(value >= 0, f"{place}: {name} is not negative")
        found[name] = value
    return found


def delivery_of(given: Json, place: str, folder: Path) -> Delivery:
    """A delivery from a table of the file."""
    need(isinstance(given.get("name"), str) and given["name"] != "", f"{place}: a delivery has a name")
    delivery = Delivery(**members_of(Delivery, given, place, folder))
    need((delivery.webhook is None) != (delivery.mail is None), f"{place}: a delivery has a webhook or a mail")
    if delivery.webhook is not None:
        need(urlsplit(delivery.webhook).scheme in ("http", "https"), f"{place}: a webhook has an address of HTTP")
        need(delivery.secret is not None, f"{place}: a webhook has a secret, in a file")
        need(delivery.digest_seconds is None, f"{place}: a digest goes by mail")
    else:
        host, _, port = delivery.smtp.rpartition(":")
        need(host != "" and port.isdigit(), f"{place}: smtp is a host, a colon and a port")
        need(delivery.sender != "", f"{place}: mail has a sender")
    return delivery


def read_settings(path: Path) -> Settings:
    """The settings of a file, in which paths count from its folder; `BadSettings` where it is of another form."""
    try:
        given = tomllib.loads(path.read_text())
    except (OSError, UnicodeDecodeError, tomllib.TOMLDecodeError) as error:
        raise BadSettings(f"{path} can't be read: {error}") from None
    folder = path.resolve().parent
    limits, deliveries = given.pop("limits", {}), given.pop("deliveries", [])
    need(isinstance(limits, dict) and isinstance(deliveries, list), f"{path}: limits and deliveries are tables")
    found = tuple(delivery_of(one, f"{path}: delivery {place}", folder) for place, one in enumerate(deliveries, 1))
    need(len({one.name for one in found}) == len(found), f"{path}: two deliveries have one name")
    return Settings(**members_of(Settings, given, str(path), folder), deliveries=found,
                    limits=Limits(**members_of(Limits, limits, f"{path}: limits", folder)))


def is_local(host: str) -> bool:
    """Whether an address is of this machine alone."""
    try:
        return ipaddress.ip_address(host).is_loopback
    except ValueError:
        return host == "localhost"


def check(settings: Settings) -> None:
    """`BadSettings` where they may not be used together."""
    need(is_local(settings.host) or settings.tokens is not None,
         f"to listen at {settings.host} tokens are needed: --tokens FILE, or tokens in door.toml")
    need(not settings.deliveries or settings.spool is not None, "deliveries need a spool: a file for what waits")
    need(settings.journal is None or settings.grid is None, "a grid keeps its queries itself: leave the journal out")
    need(settings.dialect in DIALECTS, f"dialect is {CLASSIC} or {PRESS}")
    is_press = settings.dialect == PRESS
    need(not is_press or not MISSING, f"dialect {PRESS} needs {' and '.join(MISSING)}")
    need(not is_press or settings.grid is None, f"a grid's engines read queries themselves: leave dialect {PRESS} out")
    need(is_press or settings.profile is None, f"a profile is of dialect {PRESS}")
    need(0 <= settings.port < 65_536, "a port is a number below 65536")


def secret_of(path: Path) -> bytes:
    """A secret of a file, without white space around; `BadSettings` where it can't be read or is empty."""
    try:
        secret = path.read_bytes().strip()
    except OSError as error:
        raise BadSettings(f"the secret {path} can't be read: {error.strerror}") from None
    need(len(secret) >= 16, f"the secret {path} has fewer than 16 bytes")
    return secret


def commands_of(settings: Settings, service: Path, usual: Sequence[str]) -> tuple[list[str], list[str] | None]:
    """The command of the engine, and the one that dumps the queries that are there."""
    engine = list(settings.engine) or list(usual)
    journal = [] if settings.journal is None else ["--journal", str(settings.journal)]
    if settings.dialect == PRESS:
        profile = [] if settings.profile is None else ["--profile", str(settings.profile)]
        engine = [str(service / "press"), "run", "--quiet", *journal, *profile, "--", *engine]
    if settings.grid is not None:
        grid = [str(service / "grid"), *settings.grid]
        return [*grid, "submit", "--", *engine], [*grid, "dump"]
    if not journal:
        return engine, None
    keep = [str(service / "keep"), *journal]
    return engine if settings.dialect == PRESS else [*keep, "--", *engine], [*keep, "--dump"]

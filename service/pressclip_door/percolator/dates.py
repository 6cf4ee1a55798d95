"""Dates as Elasticsearch reads them by its usual formats: milliseconds from 1970, and their words."""

from __future__ import annotations

import re
from calendar import monthrange
from datetime import datetime, timedelta, timezone
from typing import Any

from .values import Unfit

ISO, MILLISECONDS, SECONDS = "strict_date_optional_time", "epoch_millis", "epoch_second"
USUAL_FORMAT = f"{ISO}||{MILLISECONDS}"
FORMATS = {ISO, "date_optional_time", MILLISECONDS, SECONDS}
_ISO = re.compile(
    r"(?P<year>\d{4})(?:-(?P<month>\d\d)(?:-(?P<day>\d\d)(?:T(?:(?P<hour>\d\d)(?::(?P<minute>\d\d)(?::(?P<second>\d\d)"
    r"(?:[.,](?P<fraction>\d{1,9}))?)?)?)?(?P<zone>Z|[+-]\d\d(?::?\d\d)?)?)?)?)?", re.ASCII)
_NUMBER = re.compile(r"-?\d{1,17}", re.ASCII)
_DAY_ZERO = datetime(1970, 1, 1, tzinfo=timezone.utc)
_MILLISECOND = timedelta(milliseconds=1)


def known_format(text: str) -> bool:
    """Whether each of the formats is read here."""
    return all(part in FORMATS for part in text.split("||"))


def milliseconds(value: Any, formats: str, is_end: bool = False) -> int:
    """The milliseconds of a date; with `is_end`, of the last one that it names, where parts of it are left out."""
    text = str(value)
    if isinstance(value, bool) or not isinstance(value, (int, str)):
        raise Unfit(f"[{value}] is no date")
    for form in formats.split("||"):
        if form in (MILLISECONDS, SECONDS) and _NUMBER.fullmatch(text):
            return int(text) * (1 if form == MILLISECONDS else 1_000)
        found = _ISO.fullmatch(text) if form not in (MILLISECONDS, SECONDS) else None
        if found:
            return _of_parts(text, found, is_end)
    if "now" in text or "||" in text:
        raise Unfit(f"[{text}] is worked out from another date, which is not served: a query is read once for all time")
    raise Unfit(f"[{text}] is no date of the format [{formats}]")


def _of_parts(text: str, found: re.Match[str], is_end: bool) -> int:
    """The milliseconds of the parts of a date."""
    year, month = int(found["year"]), int(found["month"] or (12 if is_end else 1))
    try:
        day = int(found["day"] or (monthrange(year, month)[1] if is_end else 1))
        fraction = (found["fraction"] or ("999" if is_end else "0"))[:3].ljust(3, "0")
        hour, minute, second = (int(found[name] or (last if is_end else 0))
                                for name, last in (("hour", 23), ("minute", 59), ("second", 59)))
        at = datetime(year, month, day, hour, minute, second, int(fraction) * 1_000, _zone(found["zone"]))
        return (at - _DAY_ZERO) // _MILLISECOND
    except (ValueError, OverflowError) as error:
        raise Unfit(f"[{text}] is no date: {error}") from None


def _zone(text: str | None) -> timezone:
    if text is None or text == "Z":
        return timezone.utc
    digits = text[1:].replace(":", "").ljust(4, "0")
    away = timedelta(hours=int(digits[:2]), minutes=int(digits[2:]))
    return timezone(-away if text[0] == "-" else away)

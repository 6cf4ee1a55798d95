"""Carrying parcels: a webhook that is signed, and mail."""

from __future__ import annotations

import asyncio
import hmac
import json
import smtplib
import time
from dataclasses import dataclass
from email.message import EmailMessage
from email.utils import formatdate
from hashlib import sha256
from pathlib import Path
from typing import Protocol, Sequence

import aiohttp

from .spool import Parcel

SECONDS = 15.0
MOST_LISTED_IN_A_SUBJECT = 60


class NotDelivered(Exception):
    """A parcel was not taken. `is_route` says whether others of the route would fare alike."""

    def __init__(self, why: str, is_route: bool) -> None:
        super().__init__(why)
        self.is_route = is_route


class Carrier(Protocol):
    """What takes parcels to where they go."""

    async def carry(self, parcels: Sequence[Parcel]) -> None:
        """Carries them together; `NotDelivered` where they were not taken."""

    async def close(self) -> None:
        """Lets go of its connections."""


def signature(secret: bytes, at: int, body: bytes) -> str:
    """What a webhook is signed with: HMAC-SHA256 over the time, a dot and the body."""
    return f"t={at},v1={hmac.new(secret, b'%d.%b' % (at, body), sha256).hexdigest()}"


class Webhook:
    """Posts one parcel at a time as JSON; it is delivered once the answer is 2xx."""

    def __init__(self, url: str, secret: bytes) -> None:
        self._url = url
        self._secret = secret
        self._session: aiohttp.ClientSession | None = None

    async def carry(self, parcels: Sequence[Parcel]) -> None:
        """Posts the parcel. A 4xx but 408 and 429 is about this parcel, any other failure about the route."""
        if self._session is None:
            self._session = aiohttp.ClientSession(timeout=aiohttp.ClientTimeout(total=SECONDS))
        for parcel in parcels:
            body = parcel.body.encode()
            headers = {"Content-Type": "application/json", "Pressclip-Delivery": parcel.id,
                       "Pressclip-Signature": signature(self._secret, int(time.time()), body)}
            try:
                async with self._session.post(self._url, data=body, headers=headers, allow_redirects=False) as answer:
                    status = answer.status
            except (aiohttp.ClientError, asyncio.TimeoutError, OSError) as error:
                raise NotDelivered(str(error) or "no answer in time", is_route=True) from None
            if not 200 <= status < 300:
                raise NotDelivered(f"status {status}", is_route=not 400 <= status < 500 or status in (408, 429))

    async def close(self) -> None:
        """Closes its connections."""
        if self._session is not None:
            await self._session.close()


@dataclass(frozen=True)
class Post:
    """Where mail goes, and by which server."""

    to: str
    sender: str
    host: str
    port: int
    starttls: bool = False
    user: str | None = None
    password: Path | None = None


class Mail:
    """Sends parcels as one message; delivered once the server has taken it."""

    def __init__(self, post: Post) -> None:
        self._post = post

    async def carry(self, parcels: Sequence[Parcel]) -> None:
        """Sends them."""
        try:
            await asyncio.to_thread(self._send, message_of(self._post, parcels))
        except (smtplib.SMTPException, OSError) as error:
            raise NotDelivered(f"{type(error).__name__}: {error}", is_route=True) from None

    def _send(self, message: EmailMessage) -> None:
        with smtplib.SMTP(self._post.host, self._post.port, timeout=SECONDS) as server:
            if self._post.starttls:
                server.starttls()
            if self._post.user and self._post.password:
                server.login(self._post.user, self._post.password.read_text().strip())
            server.send_message(message)

    async def close(self) -> None:
        """Has nothing to close."""


def plain(text: str) -> str:
    """A text as it may stand in one line."""
    return "".join(sign if sign.isprintable() else "?" for sign in text)


def message_of(post: Post, parcels: Sequence[Parcel]) -> EmailMessage:
    """The message of some parcels, the same each time they are sent."""
    message = EmailMessage()
    bodies = [json.loads(parcel.body) for parcel in parcels]
    first = bodies[0]
    subject = f"{first['query']} in {first['article']}" if len(bodies) == 1 else f"{len(bodies)} alerts"
    message["Subject"] = plain(subject)[:200]
    message["From"], message["To"] = post.sender, post.to
    message["Date"] = formatdate(parcels[-1].at)
    name = parcels[0].id if len(parcels) == 1 else sha256("".join(one.id for one in parcels).encode()).hexdigest()[:32]
    message["Message-ID"] = f"<{name}@pressclip>"
    message["Auto-Submitted"] = "auto-generated"
    text: list[str] = []
    for body in bodies:
        text.append(f"{plain(body['query'])} in {plain(body['article'])} ({body['id']})")
        text += [f"  {one['field']}: {with_brackets(one['pieces'])}" for one in body["excerpts"]]
    message.set_content("\n".join(text) + "\n")
    return message


def with_brackets(pieces: Sequence[str]) -> str:
    """A marked text in one line, its marks in brackets."""
    return plain("".join(f"[{piece}]" if place % 2 else piece for place, piece in enumerate(pieces)))

"""Tests of `connect`: by librdkafka's own mock broker, and by a mosquitto of the test's own."""

from __future__ import annotations

import fcntl
import getpass
import json
import shutil
import signal
import socket
import subprocess
import tempfile
import time
from pathlib import Path
from random import Random
from typing import Any, Callable, Sequence

from .grid_runs import free_port
from .judge import SERVICE, folder, need
from .keep_runs import command as keep_of
from .processes import ENDED, PATIENCE_SECONDS

CONNECT = SERVICE / "connect"
MOCK = Path(__file__).with_name("mock_kafka.py")
TOPIC_AUTHORIZATION_FAILED = 29
LOCKED = 5
REQUESTS = [b'{"op":"register","queries":[{"id":"q1","query":"+tea pric*"}]}',
            b'{"op":"match","articles":[{"id":"a1","fields":{"text":"Tea prices rise"}}]}\n\n{"op":"count"}']
# By docs/PROTOCOL.md: a blank line has no reply, and counts as a line.
REPLIES = ['{"line":1,"registered":1}', '{"alerts":[{"article":"a1","queries":["q1"]}],"line":2,"notes":[]}',
           '{"count":1,"line":4}']
TAKES_ALL = ["sh", "-c", "cat > /dev/null"]


class Connect:
    """A process of `connect`."""

    def __init__(self, broker: str, options: Sequence[str], command: Sequence[str]) -> None:
        self._told = tempfile.TemporaryFile()
        words = [str(CONNECT), broker, "--requests", "requests", "--replies", "replies", *options, "--", *command]
        self.process = subprocess.Popen(words, stdin=subprocess.DEVNULL, stderr=self._told)

    def told(self) -> str:
        """What was told on standard error so far."""
        self._told.seek(0)
        return self._told.read().decode()

    def hears(self, words: str) -> None:
        """Waits until something is told; `Failed` where it is not."""
        start = time.monotonic()
        while words not in self.told():
            need(time.monotonic() - start < PATIENCE_SECONDS and self.process.poll() is None,
                 f"{words!r} was not told, but: {self.told()}")
            time.sleep(0.05)

    def ends(self, due: int, number: int | None = signal.SIGTERM) -> str:
        """What it told, once it has ended with the status that is due, by a signal or by itself."""
        if number is not None:
            self.process.send_signal(number)
        status = self.process.wait(PATIENCE_SECONDS)
        need(status == due, f"status {status}, and {due} is due: {self.told()}")
        return self.told()


class Kafka:
    """The mock broker."""

    def __init__(self) -> None:
        self._process = subprocess.Popen(["/usr/bin/python3", MOCK], stdin=subprocess.PIPE, stdout=subprocess.PIPE)
        assert self._process.stdin and self._process.stdout
        self._input, self._output = self._process.stdin, self._process.stdout
        self.address = self._output.readline().decode().strip()

    def __enter__(self) -> Kafka:
        return self

    def __exit__(self, *_: object) -> None:
        self._input.close()
        self._process.wait(PATIENCE_SECONDS)

    def ask(self, *words: object) -> Any:
        """What the mock broker answers to a line."""
        self._input.write(json.dumps(words).encode() + b"\n")
        self._input.flush()
        return json.loads(self._output.readline())

    def put(self, *values: bytes) -> None:
        """Puts requests in."""
        need(self.ask("put", "requests", [value.decode() for value in values]) == len(values), "requests are not kept")

    def connect(self, command: Sequence[str], *options: str) -> Connect:
        """A process that is connected to it."""
        return Connect("kafka", ["--brokers", self.address, "--group", "desk", *options], command)


class Mosquitto:
    """A broker of MQTT on a port of its own, which can be ended and started again."""

    def __init__(self, into: Path, *, settings: Sequence[str] = ("allow_anonymous true",),
                 words: Sequence[str] = ()) -> None:
        """A broker with further settings, and words by which its clients are let in."""
        self._config, self._words = into / "mosquitto.conf", words
        self.port = str(free_port())
        self._config.write_text("\n".join((
            f"listener {self.port} 127.0.0.1", "persistence true", f"persistence_location {into}/", "log_type none",
            f"user {getpass.getuser()}", *settings, "")))
        self.start()
        # The session in which the broker holds replies until they are asked for.
        self._client("sub", "-c", "-i", "reader", "-t", "replies", "-E")

    def start(self) -> None:
        """Starts it, and waits until it listens."""
        self._process = subprocess.Popen([mosquitto(), "-c", str(self._config)], stderr=subprocess.DEVNULL)
        start = time.monotonic()
        while socket.socket().connect_ex(("127.0.0.1", int(self.port))) != 0:
            need(time.monotonic() - start < PATIENCE_SECONDS, "mosquitto does not listen")
            time.sleep(0.05)

    def stop(self) -> None:
        """Ends it; it keeps its sessions."""
        self._process.terminate()
        self._process.wait(PATIENCE_SECONDS)

    def put(self, values: Sequence[bytes]) -> None:
        """Puts requests in, which have a line each."""
        self._client("pub", "-t", "requests", "-l", given=b"".join(value + b"\n" for value in values))

    def get(self, count: int) -> list[str]:
        """The next replies, so many or those that come in some seconds."""
        told = self._client("sub", "-c", "-i", "reader", "-t", "replies", "-C", str(count), "-W", "20", is_needed=False)
        return told.decode().splitlines()

    def connect(self, command: Sequence[str], *options: str) -> Connect:
        """A process that is connected to it, once it reads."""
        connect = Connect("mqtt", ["--broker", f"127.0.0.1:{self.port}", "--client", "desk", *options], command)
        connect.hears("reads requests as desk")
        return connect

    def _client(self, kind: str, *words: str, given: bytes = b"", is_needed: bool = True) -> bytes:
        done = subprocess.run([f"mosquitto_{kind}", "-p", self.port, "-q", "1", *self._words, *words], input=given,
                              stdout=subprocess.PIPE, check=is_needed)
        return done.stdout


def mosquitto() -> str:
    """Where Debian puts the broker, which is not on each user's path."""
    return shutil.which("mosquitto") or "/usr/sbin/mosquitto"


def kafka_is_answered_at_once_and_in_order() -> None:
    """Three replies come while nothing else does, and the offset stands behind the two requests."""
    with folder() as name, Kafka() as kafka:
        connect = kafka.connect(keep_of(Path(name) / "j"))
        kafka.put(*REQUESTS)
        replies = kafka.ask("get", "replies", 3)
        need(replies == REPLIES, f"the replies are {replies}")
        connect.ends(0)
        stands = kafka.ask("stands", "desk", "requests")
        need(stands == 2, f"the offset is {stands}")


def an_offset_stands_behind_kept_replies_alone() -> None:
    """With no reply, and with one that Kafka refuses, the request is read again; who owes a reply is told."""
    with Kafka() as kafka:
        kafka.put(b"one")
        connect = kafka.connect(TAKES_ALL)
        connect.hears("waits for sh, which owes 1 replies")
        need("owed 1 replies" in connect.ends(1), "a missing reply is not told")
        need(kafka.ask("stands", "desk", "requests") == -1, "an offset stands behind no reply")
        kafka.ask("refuse", "replies", TOPIC_AUTHORIZATION_FAILED)
        connect = kafka.connect(["cat"])
        need("Kafka refuses a reply of 3 bytes to the request at offset 0" in connect.ends(1, None), "not told")
        need(kafka.ask("stands", "desk", "requests") == -1, "an offset stands behind a refused reply")
        kafka.ask("refuse", "replies", 0)
        connect = kafka.connect(["cat"])
        need(kafka.ask("get", "replies", 1) == ["one"], "the request was not read again")
        connect.ends(0)
        need(kafka.ask("stands", "desk", "requests") == 1, "no offset stands behind a reply")


def a_topic_of_four_partitions_is_refused() -> None:
    """Requests have no order over partitions."""
    with Kafka() as kafka:
        connect = kafka.connect(["cat"], "--requests", "many")
        need("the topic many has 4 partitions" in connect.ends(1, None), connect.told())


def an_offset_that_kafka_has_no_longer_is_told() -> None:
    """Requests that are gone are not passed over: the group stands where there is none."""
    with Kafka() as kafka:
        kafka.put(b"one")
        kafka.ask("stand", "desk", "requests", 7)
        need("the topic requests: " in kafka.connect(["cat"]).ends(1, None), "not told")
        need(kafka.ask("stands", "desk", "requests") == 7, "the group stands elsewhere")


def pairs(count: int) -> list[bytes]:
    """For each number a query, and an article for which it holds and no other does."""
    found: list[bytes] = []
    for number in range(count):
        query = {"id": f"q{number}", "query": f"word{number}"}
        article = {"id": f"a{number}", "fields": {"text": f"word{number}"}}
        found.append(json.dumps({"op": "register", "queries": [query]}).encode())
        found.append(json.dumps({"op": "match", "articles": [article]}).encode())
    return found


def all_alerts_came(replies: Sequence[str], count: int) -> None:
    """Each article was answered by its own query, once or more often, and the first time in order."""
    found: list[str] = []
    for reply in replies:
        for alert in json.loads(reply).get("alerts", []):
            due = ["q" + alert["article"][1:]]
            need(alert["queries"] == due, f"{alert}, and {due} is due")
            found.append(alert["article"])
    firsts = list(dict.fromkeys(found))
    need(firsts == [f"a{number}" for number in range(count)], f"the articles that were answered: {firsts}")


def nothing_is_lost_by_ends_with_kafka() -> None:
    """`connect` is ended by SIGKILL at random places, and started again."""
    dice, count, kills = Random(7), 150, 6
    with folder() as name, Kafka() as kafka:
        for line in pairs(count):
            kafka.put(line)
        for _ in range(kills):
            connect = kafka.connect(keep_of(Path(name) / "j"))
            time.sleep(dice.uniform(0.3, 1.0))
            connect.process.kill()
            connect.process.wait()
            ENDED.append("connect to Kafka")
        connect = kafka.connect(keep_of(Path(name) / "j"))
        while kafka.ask("stands", "desk", "requests") < 2 * count:
            time.sleep(0.2)
            if connect.process.poll() is not None:
                connect.ends(LOCKED, None)
                connect = kafka.connect(keep_of(Path(name) / "j"))
        connect.ends(0)
        all_alerts_came(kafka.ask("get", "replies", 2 * count), count)


def mqtt_is_answered_at_once_and_in_order() -> None:
    """Three replies come while nothing else does."""
    with folder() as name:
        broker = Mosquitto(Path(name))
        try:
            connect = broker.connect(keep_of(Path(name) / "j"))
            broker.put([REQUESTS[0], *REQUESTS[1].split(b"\n\n")])
            replies = broker.get(3)
            need(replies == [*REPLIES[:2], '{"count":1,"line":3}'], f"the replies are {replies}")
            connect.ends(0)
        finally:
            broker.stop()


def nothing_is_lost_by_ends_with_mqtt() -> None:
    """`connect` and the broker are ended in the middle, and started again."""
    count = 60
    with folder() as name:
        broker = Mosquitto(Path(name))
        try:
            connect = broker.connect(keep_of(Path(name) / "j"))
            broker.put(pairs(count)[:count])
            replies = broker.get(1)
            connect.process.kill()
            connect.process.wait()
            ENDED.append("connect to MQTT")
            wait_for_lock(Path(name) / "j")
            connect = broker.connect(keep_of(Path(name) / "j"))
            broker.put(pairs(count)[count:])
            broker.stop()
            broker.start()
            replies += broker.get(2 * count - 1)
            while '"a59"' not in "".join(replies):
                more = broker.get(1)
                need(bool(more), f"after {len(replies)} replies no more come, and one to the last article is due")
                replies += more
            all_alerts_came(replies, count)
            connect.ends(0)
        finally:
            broker.stop()


def wait_for_lock(journal: Path) -> None:
    """Waits until the `keep` whose client was ended has let go of the journal."""
    with open(journal / "lock") as lock:
        fcntl.flock(lock, fcntl.LOCK_EX)


def guarded(into: Path) -> Mosquitto:
    """A broker with a certificate of its own, for those who know a password."""
    subprocess.run(["openssl", "req", "-x509", "-newkey", "ec", "-pkeyopt", "ec_paramgen_curve:P-256", "-nodes",
                    "-days", "2", "-subj", "/CN=127.0.0.1", "-addext", "subjectAltName=IP:127.0.0.1",
                    "-keyout", into / "key", "-out", into / "certificate"], check=True, stderr=subprocess.DEVNULL)
    subprocess.run(["mosquitto_passwd", "-b", "-c", into / "users", "desk", "secret"], check=True,
                   stderr=subprocess.DEVNULL)
    settings = (f"certfile {into}/certificate", f"keyfile {into}/key", f"password_file {into}/users",
                "allow_anonymous false")
    words = ("-h", "127.0.0.1", "--cafile", f"{into}/certificate", "-u", "desk", "-P", "secret")
    return Mosquitto(into, settings=settings, words=words)


def mqtt_asks_for_a_password_and_speaks_tls() -> None:
    """With both the request is answered, and with another password the broker's refusal is told."""
    with folder() as name:
        broker = guarded(Path(name))
        try:
            (Path(name) / "password").write_text("secret\n")
            options = ["--user", "desk", "--authorities", f"{name}/certificate", "--password-file", f"{name}/password"]
            connect = broker.connect(["cat"], *options)
            broker.put([b"one"])
            need(broker.get(1) == ["one"], "another reply")
            connect.ends(0)
            (Path(name) / "password").write_text("another\n")
            connect = Connect("mqtt", ["--broker", f"127.0.0.1:{broker.port}", "--client", "desk", *options], ["cat"])
            need("the broker refuses the connection" in connect.ends(1, None), connect.told())
        finally:
            broker.stop()


def settings_of_kafka_are_handed_on() -> None:
    """Those of a file are taken, and one that there is not is refused by its name."""
    with folder() as name, Kafka() as kafka:
        settings = Path(name) / "settings"
        settings.write_text("# of the desk\n\nclient.id = desk\n")
        connect = kafka.connect(["cat"], "--settings", str(settings))
        kafka.put(b"one")
        need(kafka.ask("get", "replies", 1) == ["one"], "another reply")
        connect.ends(0)
        for line, why in (("no.such=1", "no.such"), ("client.id", "no NAME=VALUE: client.id")):
            settings.write_text(line + "\n")
            need(why in kafka.connect(["cat"], "--settings", str(settings)).ends(1, None), line)


def what_is_waited_for_is_told() -> None:
    """Brokers that are not there are named after some seconds, and SIGTERM ends the wait."""
    with socket.socket() as taken:
        taken.bind(("127.0.0.1", 0))
        address = f"127.0.0.1:{taken.getsockname()[1]}"
        kafka = Connect("kafka", ["--brokers", address, "--group", "desk"], ["cat"])
        mqtt = Connect("mqtt", ["--broker", address, "--client", "desk"], ["cat"])
        kafka.hears(f"waits for Kafka at {address}")
        mqtt.hears(f"waits for MQTT at {address}")
        kafka.ends(0)
        mqtt.ends(0)


def a_command_hands_its_status_on() -> None:
    """Where the command ends first, `connect` ends with its status, by which systemd can tell a broken journal."""
    with Kafka() as kafka:
        need("sh ended with status 3" in kafka.connect(["sh", "-c", "exit 3"]).ends(3, None), "not told")


TESTS: tuple[Callable[[], None], ...] = (
    kafka_is_answered_at_once_and_in_order, an_offset_stands_behind_kept_replies_alone,
    a_topic_of_four_partitions_is_refused, an_offset_that_kafka_has_no_longer_is_told,
    nothing_is_lost_by_ends_with_kafka, mqtt_is_answered_at_once_and_in_order, nothing_is_lost_by_ends_with_mqtt,
    mqtt_asks_for_a_password_and_speaks_tls, settings_of_kafka_are_handed_on, what_is_waited_for_is_told,
    a_command_hands_its_status_on)

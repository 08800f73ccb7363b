"""First lines and requests by chance, mutated from good ones: no traceback, no hang, memory that
stays level."""

import contextlib
import random
import socket
import threading
import time
from collections.abc import Iterator

import pytest

from checks.door import worlds
from checks.door.opened import Opened, Registries
from checks.door.test_irrd import REPLIES
from checks.door.test_whois import ERRORS, FOUND, NATIVE
from checks.running import Failure, Tell, Trial, expect

SECONDS = 60
LINES = [
    line.encode()
    for line in (*REPLIES, *FOUND, *ERRORS, *NATIVE, "help", "PROXY TCP4 192.0.2.1 192.0.2.2 1 43")
]
REQUESTS = [
    b"GET /query/AS1 HTTP/1.1\r\nHost: x\r\n\r\n",
    b"GET /dump HTTP/1.0\r\n\r\n",
    b"POST /submissions HTTP/1.1\r\nContent-Length: 30\r\n\r\npassword: bc\n\nas-set: AS-T\nmn",
    b"GET /status?json HTTP/1.1\r\nAccept: */*\r\n\r\n",
]
PIECES = [
    b"\0",
    b"\xff",
    b"\r",
    b"\n",
    b" ",
    b"\t",
    b"-",
    b"!",
    b",",
    b"%",
    b":",
    b"/",
    b"^",
    b"AS",
    b"9" * 30,
    b"x" * 2_000,
    b"--",
    b"\x1b[0m",
]


@pytest.fixture(scope="module")
def door(trial: Trial) -> Iterator[Opened]:
    with Registries(trial, "registries", worlds.DUMP, replicas=1) as registries:
        with Opened(
            trial, "door", registries.words, "refill = 1000\nburst = 1000\nkeep = 1\n"
        ) as opened:
            yield opened


def mutated(chance: random.Random, text: bytes) -> bytes:
    """A text with a few changes of chance."""
    for _ in range(chance.randrange(4)):
        place = chance.randrange(len(text) + 1)
        way = chance.randrange(4)
        if way == 0:
            text = text[:place] + chance.choice(PIECES) + text[place:]
        elif way == 1:
            text = text[:place] + text[place + chance.randrange(1, 4) :]
        elif way == 2:
            text = text[:place] + bytes([chance.randrange(256)]) + text[place + 1 :]
        else:
            text = text[:place] + chance.choice(LINES) + text[place:]
    return text


class Client(threading.Thread):
    """One who sends such lines for some time, and waits for the end of each answer."""

    def __init__(self, door: Opened, chance: random.Random, last: int, end: float) -> None:
        super().__init__(daemon=True)
        self.door, self.chance, self.last, self.end = door, chance, last, end
        self.sent = 0
        self.hung: list[bytes] = []

    def run(self) -> None:
        while time.monotonic() < self.end:
            is_http = self.chance.randrange(6) == 0
            if is_http:
                port = self.chance.choice([self.door.http_port, self.door.status_port])
                text = mutated(self.chance, self.chance.choice(REQUESTS))
            else:
                port = self.door.whois_port
                lines = [
                    mutated(self.chance, self.chance.choice(LINES))
                    for _ in range(self.chance.randrange(1, 5))
                ]
                text = (
                    self.chance.choice([b"", b"!!\n", b"-k\r\n"])
                    + self.chance.choice([b"\n", b"\r\n"]).join(lines)
                    + b"\n"
                )
            self.talk(port, text)
            self.sent += 1

    def talk(self, port: int, text: bytes) -> None:
        try:
            with contextlib.closing(self.door.connect(port, self.last, 60)) as peer:
                place = self.chance.randrange(len(text) + 1)
                peer.sendall(text[:place])
                peer.sendall(text[place:])
                peer.shutdown(socket.SHUT_WR)
                while peer.recv(1 << 16):
                    pass
        except TimeoutError:
            self.hung.append(text)
        except OSError:
            # The door may end a connection before all of it is there.
            pass


def test_lines_of_chance_end_and_leave_no_trace(trial: Trial, door: Opened, tell: Tell) -> None:
    seconds = trial.pick(20, 600)
    first = door.memory()
    for part in range(2):
        clients = [
            Client(
                door,
                trial.chance(f"mutations {part} {number}"),
                20 + number,
                time.monotonic() + seconds / 2,
            )
            for number in range(4)
        ]
        for client in clients:
            client.start()
        for client in clients:
            client.join(seconds + 120)
        for client in clients:
            if client.hung or client.is_alive():
                raise Failure(f"no end of the answer to {client.hung[:3]!r}")
        if not part:
            middle, sent = door.memory(), sum(client.sent for client in clients)
    last = door.memory()
    reported = door.words_reported()
    expect("Traceback" in reported or "report this" in reported, False, reported[-1_000:])
    expect(door.metrics()["irrdesk_door_faults_total"], 0.0, "faults of the door")
    expect(door.whois("AS1"), worlds.AS1 + b"\n", "a query afterwards")
    state = door.status()
    # What is counted is let go of once nobody has it.
    expect((state["waiting"], state["answers_bytes"] < 1 << 20), (0, True), f"{state}")
    if last > middle * 1.1 + (8 << 20):
        raise Failure(f"memory grows: {first >> 10}, {middle >> 10}, {last >> 10} KiB")
    tell(
        f"{sent + sum(client.sent for client in clients)} connections; "
        f"{first >> 20}, {middle >> 20}, {last >> 20} MiB"
    )

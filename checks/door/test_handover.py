"""One door after another on ports that outlast them, as systemd hands them on: who was let in gets
the whole answer, and who comes between two doors gets that of the next one."""

import contextlib
import fcntl
import os
import signal
import socket
import subprocess
import threading
import time
import urllib.request
from collections import Counter
from collections.abc import Callable, Iterator

import pytest

from checks.door import worlds
from checks.door.opened import Opened, Registries, read_all, wait_until
from checks.running import TOP, Tell, Trial, expect

SECONDS = 30
WAIT = 60
# A process gets its sockets as the descriptors from 3 on, and is told its own number.
START = """
import os, runpy, sys
handed = os.environ["HANDED"].split()
for number, one in enumerate(handed, 3):
    os.dup2(int(one), number)
os.environ |= {"LISTEN_FDS": str(len(handed)), "LISTEN_PID": str(os.getpid())}
sys.argv[0] = "irr"
runpy.run_module("irr", run_name="__main__")
"""
SETTINGS = "refill = 1000\nburst = 1000\n"
AS1 = worlds.AS1 + b"\n"
REPLY = b"A24\n10.0.0.0/16 10.1.0.0/16\nC\n"
GET = b"GET /query/AS1 HTTP/1.1\r\nHost: x\r\n\r\n"


class Ports:
    """The ports of doors that follow one another."""

    def __init__(self, trial: Trial, name: str, registries: Registries) -> None:
        self.door = Opened(trial, name, registries.words, SETTINGS, start=("-c", START))
        door = self.door
        self.sockets = [
            socket.create_server(("127.0.0.1", port), backlog=1_024)
            for port in (door.whois_port, door.http_port, door.status_port)
        ]
        # None of these is one of those that the process gets.
        self.handed = [fcntl.fcntl(one, fcntl.F_DUPFD, 64) for one in self.sockets]
        # The door that was told to end last.
        self.ending = 0
        paths = [os.path.join(TOP, "tools"), os.environ.get("PYTHONPATH", "")]
        self.environment = {
            **os.environ,
            "PYTHONPATH": os.pathsep.join(filter(None, paths)),
            "HANDED": " ".join(map(str, self.handed)),
        }

    def close(self) -> None:
        for one in self.sockets:
            one.close()
        for number in self.handed:
            os.close(number)

    @contextlib.contextmanager
    def served(self) -> Iterator[subprocess.Popen[bytes]]:
        """A door, which ends by itself where a signal asks it to."""
        with open(self.door.reported, "ab") as reported:
            process = subprocess.Popen(
                self.door.words,
                stdin=subprocess.DEVNULL,
                stdout=reported,
                stderr=reported,
                env=self.environment,
                pass_fds=self.handed,
            )
        try:
            yield process
            self.end(process)
            expect(process.wait(WAIT), 0, "how the door ended")
        finally:
            process.kill()
            process.wait()

    def end(self, process: subprocess.Popen[bytes]) -> None:
        """Tells a door to end, once."""
        if process.pid != self.ending:
            self.ending = process.pid
            process.send_signal(signal.SIGTERM)

    def lets_in(self, process: subprocess.Popen[bytes]) -> bool:
        """Whether a door has a port of these still open."""
        numbers = {os.fstat(one.fileno()).st_ino for one in self.sockets}
        folder = f"/proc/{process.pid}/fd"
        # Those that were handed on stay, and what stands from 3 on is the door's own.
        for number in set(os.listdir(folder)) - set(map(str, self.handed)):
            with contextlib.suppress(FileNotFoundError):
                if os.stat(f"{folder}/{number}").st_ino in numbers:
                    return True
        return False


@pytest.fixture(scope="module")
def ports(trial: Trial) -> Iterator[Ports]:
    with Registries(trial, "handed", worlds.DUMP, replicas=1) as registries:
        with contextlib.closing(Ports(trial, "doors", registries)) as made:
            yield made


# Who asks, each in a way of its own: what is sent, in parts, and all that comes.


def in_parts(door: Opened, port: int, last: int, *parts: bytes) -> bytes:
    with contextlib.closing(door.connect(port, last)) as peer:
        peer.setsockopt(socket.IPPROTO_TCP, socket.TCP_NODELAY, 1)
        for number, part in enumerate(parts):
            time.sleep(0.01 if number else 0)
            peer.sendall(part)
        return read_all(peer)


def whole(door: Opened, last: int) -> bool:
    return in_parts(door, door.whois_port, last, b"AS1\r\n") == AS1


def in_two(door: Opened, last: int) -> bool:
    return in_parts(door, door.whois_port, last, b"AS", b"1\r\n") == AS1


def late(door: Opened, last: int) -> bool:
    return in_parts(door, door.whois_port, last, b"", b"AS1\r\n") == AS1


def many(door: Opened, last: int) -> bool:
    peers = [door.connect(door.whois_port, last) for _ in range(10)]
    for peer in peers:
        peer.sendall(b"AS1\r\n")
    answers = [read_all(peer) for peer in peers]
    for peer in peers:
        peer.close()
    return answers == [AS1] * 10


def by_source(door: Opened, last: int) -> bool:
    return AS1 in in_parts(door, door.whois_port, last, b"-s TEST AS1\r\n")


def kept(door: Opened, last: int) -> bool:
    parts = [b"!!\n", *[b"!gAS1\n"] * 5, b"!s-lc\n!q\n"]
    return in_parts(door, door.whois_port, last, *parts) == REPLY * 5 + b"A5\nTEST\nC\n"


def over_http(door: Opened, last: int) -> bool:
    return door.http("GET", "/query/AS1", last=last)[::2] == (200, AS1)


def http_in_two(door: Opened, last: int) -> bool:
    text = GET.replace(b"\r\n\r\n", b"\r\nConnection: close\r\n\r\n")
    reply = in_parts(door, door.http_port, last, text[:20], text[20:])
    return reply.startswith(b"HTTP/1.1 200 OK\r\n") and reply.endswith(b"\r\n\r\n" + AS1)


WAYS = (whole, in_two, late, many, by_source, kept, over_http, http_in_two)


class Asking(threading.Thread):
    """A client that asks in one way until it is told to stop, and what it missed."""

    def __init__(self, ask: Callable[[Opened, int], bool], door: Opened, last: int) -> None:
        super().__init__(daemon=True)
        self.ask, self.door, self.last = ask, door, last
        self.asked, self.missed = 0, Counter[str]()
        self.is_over = False

    def run(self) -> None:
        while not self.is_over:
            try:
                fault = "" if self.ask(self.door, self.last) else "another answer"
            except (OSError, ValueError) as error:
                fault = repr(error)
            self.asked += 1
            if fault:
                self.missed[f"{self.ask.__name__}: {fault}"] += 1


def test_no_answer_is_lost_between_two_doors(trial: Trial, ports: Ports, tell: Tell) -> None:
    clients = [Asking(ask, ports.door, number) for number, ask in enumerate(WAYS * 2, 2)]
    for client in clients:
        client.start()
    count = trial.pick(4, 200)
    for _ in range(count):
        before = [client.asked for client in clients]
        with ports.served():
            wait_until(
                "that all are answered",
                WAIT,
                lambda: all(one.asked > asked for one, asked in zip(clients, before)),
            )
    for client in clients:
        client.is_over = True
    with ports.served():
        for client in clients:
            client.join(WAIT)
    tell(f"{count} times, {sum(client.asked for client in clients)} times asked")
    expect([dict(one.missed) for one in clients if one.missed], [], "what was missed")
    with open(ports.door.reported, encoding="utf-8") as reported:
        expect("Traceback" in reported.read(), False, "whether a door failed")


# What was sent when the door is told to end, what is sent after that, and all that comes.
LATE = {
    "nothing": ("whois", b"", b"AS1\r\n", AS1),
    "a part of a line": ("whois", b"AS", b"1\r\n", AS1),
    "a kept connection": ("whois", b"!!\n", b"!gAS1\n!q\n", REPLY),
    "nothing over HTTP": ("http", b"", GET, AS1),
    "a part of a request": ("http", GET[:20], GET[20:], AS1),
}


@pytest.mark.parametrize("sent", LATE)
def test_who_was_let_in_may_still_ask(ports: Ports, sent: str) -> None:
    name, first, rest, wanted = LATE[sent]
    door = ports.door
    with ports.served() as process, contextlib.ExitStack() as stack:
        expect(door.whois("AS1"), AS1, "an answer")
        port = door.whois_port if name == "whois" else door.http_port
        peer = stack.enter_context(contextlib.closing(door.connect(port)))
        peer.sendall(first)
        # The status has a connection of its own.
        wait_until("that it is let in", WAIT, lambda: door.status()["connections"] == 2)
        ports.end(process)
        wait_until("that nobody is let in", WAIT, lambda: not ports.lets_in(process))
        peer.sendall(rest)
        expect(read_all(peer)[-len(wanted) :], wanted, "the answer")


def test_places_that_were_not_handed_on_are_opened_as_well(trial: Trial, ports: Ports) -> None:
    """That the door answers where its settings say, beside what systemd has open; a place that
    another process has is reported, and keeps nobody else from being answered."""
    door, words = ports.door, list(ports.door.words)
    taken = socket.create_server(("127.0.0.3", door.http_port))
    door.words += [f"--http=127.0.0.{last}:{door.http_port}" for last in (2, 3)]
    door.words.append(f"--status=127.0.0.2:{door.status_port}")
    with contextlib.closing(taken):
        with ports.served():
            wait_until("that it is open", WAIT, lambda: answers(f"127.0.0.1:{door.http_port}"))
            expect(answers(f"127.0.0.2:{door.http_port}"), True, "a place for HTTP beside one")
            for host in "127.0.0.1", "127.0.0.2":
                expect(answers(f"{host}:{door.status_port}", "/status"), True, f"{host}: status")
    door.words = words
    with open(door.reported, encoding="utf-8") as reported:
        line = f"irr door: 127.0.0.3:{door.http_port}: the door cannot listen there: "
        expect(line in reported.read(), True, f"whether it reports {line!r}")


def answers(place: str, path: str = "/query/AS1") -> bool:
    """Whether a place answers a request over HTTP."""
    with contextlib.suppress(OSError):
        with urllib.request.build_opener(urllib.request.ProxyHandler({})).open(
            f"http://{place}{path}", timeout=WAIT
        ) as answer:
            return answer.status == 200
    return False


def test_who_asks_nothing_holds_no_door(ports: Ports) -> None:
    with contextlib.ExitStack() as stack:
        with ports.served():
            expect(ports.door.whois("AS1"), AS1, "an answer")
            for _ in range(3):
                stack.enter_context(contextlib.closing(ports.door.connect(ports.door.whois_port)))

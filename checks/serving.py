"""The program while it serves, and what peers send to it and get from it."""

import contextlib
import fcntl
import functools
import itertools
import os
import socket
import subprocess
import tempfile
import time
from collections.abc import Iterator
from typing import Any, Self

from checks.running import Failure, expect, limited, peak_memory

GIVEN = b"HTTP/1.1 200 OK\r\nContent-Type: text/plain\r\nConnection: close\r\n\r\n"
LONGEST = 700


# Below the ports that Linux gives to whoever asks for none, each process has its own range, also
# beside another run: what a case was given stays its own until it listens there.
FIRST, EACH, RANGES = 10_000, 1_000, 21


@functools.cache
def own_ports() -> Iterator[int]:
    """The ports of this process, over and over. Its range is locked until it ends."""
    for number in range(RANGES):
        path = os.path.join(tempfile.gettempdir(), f"irrdesk-ports-{number}")
        # Of another user's there is no lock to be had.
        with contextlib.suppress(OSError):
            lock = os.open(path, os.O_RDWR | os.O_CREAT, 0o600)
            try:
                fcntl.flock(lock, fcntl.LOCK_EX | fcntl.LOCK_NB)
            except OSError:
                os.close(lock)
                raise
            begin = FIRST + number * EACH
            return itertools.cycle(range(begin, begin + EACH))
    raise Failure(f"{RANGES} processes have all ports from {FIRST} on")


def free_port() -> int:
    """A port of this process that nobody has, and that no case was given lately."""
    for port in itertools.islice(own_ports(), EACH):
        with socket.socket() as probe, contextlib.suppress(OSError):
            probe.bind(("127.0.0.1", port))
            return port
    raise Failure("every port of this process is taken")


def accepted(listener: socket.socket) -> Iterator[socket.socket]:
    """Who connects, one after the other, until nobody can any more."""
    with contextlib.suppress(OSError):
        while True:
            yield listener.accept()[0]


class Listening:
    """A port that nobody else can listen on: this one, or any."""

    def __init__(self, port: int = 0) -> None:
        self.port = port
        self.taken: socket.socket | None = None

    def __enter__(self) -> int:
        # A port that another process has, or that may not be had, is as good.
        with contextlib.suppress(OSError):
            self.taken = socket.create_server(("127.0.0.1", self.port))
        if self.taken is None:
            return self.port
        found: int = self.taken.getsockname()[1]
        return found

    def __exit__(self, *_: object) -> None:
        if self.taken:
            self.taken.close()


class Serving:
    """The program, started by these words, while it serves so many connections; ended by force
    where a case ends before it."""

    def __init__(
        self, words: list[str], folder: str, count: int, port: int | None = None, **limits: Any
    ) -> None:
        self.port, self.count = port or free_port(), count
        self.process = subprocess.Popen(
            [*words, "serve", "s.toml", "--port", str(self.port), "--count", str(count)],
            cwd=folder,
            stdin=subprocess.DEVNULL,
            stdout=subprocess.PIPE,
            stderr=subprocess.PIPE,
            preexec_fn=limited(**limits) if any(limits.values()) else None,
        )
        assert self.process.stdout and self.process.stderr
        first = self.process.stdout.readline()
        if first != b"listening on 127.0.0.1:%d\n" % self.port:
            reported = b"" if first else self.process.stderr.read()
            self.__exit__()
            raise Failure(f"the first line of serve: {first!r}, saying {reported!r}")

    def __enter__(self) -> Self:
        return self

    def __exit__(self, *_: object) -> None:
        if self.process.poll() is None:
            self.process.kill()
        self.process.communicate()


class Server(Serving):
    """The same, and what it is asked by peers that send no more then."""

    def __init__(
        self,
        program: str,
        folder: str,
        count: int,
        stack: int | None = None,
        patience: int = LONGEST,
    ) -> None:
        super().__init__([program], folder, count, stack=stack)
        self.patience, self.memory, self.slowest = patience, 0, 0.0

    def ask(self, text: bytes, cuts: tuple[()] | list[int] = ()) -> bytes:
        """What a peer is answered that sends this, cut at these places, and then no more."""
        start = time.monotonic()
        with contextlib.closing(
            socket.create_connection(("127.0.0.1", self.port), self.patience)
        ) as peer:
            peer.setsockopt(socket.IPPROTO_TCP, socket.TCP_NODELAY, 1)
            places = [0, *sorted(cuts), len(text)]
            for begin, end in zip(places, places[1:]):
                peer.sendall(text[begin:end])
                if end < len(text):
                    time.sleep(0.0005)
            peer.shutdown(socket.SHUT_WR)
            reply = read_all(peer)
        self.slowest = max(self.slowest, time.monotonic() - start)
        return reply

    def page(self, path: bytes, cuts: tuple[()] = ()) -> bytes:
        """The body of a page, whose status has to be 200."""
        reply = self.ask(b"GET %s HTTP/1.1\r\nHost: localhost\r\n\r\n" % path, cuts)
        expect(reply[: len(GIVEN)], GIVEN, f"the head of {path!r}")
        return reply[len(GIVEN) :]

    def expect_end(self, failed: int = 0) -> None:
        """That it ends by itself, once it has served all."""
        printed, reported = self.process.communicate(timeout=LONGEST)
        wanted = b"served %d, failed %d\n" % (self.count - failed, failed)
        expect((self.process.returncode, printed, reported), (0, wanted, b""), "how serve ended")

    def ended(self) -> float:
        """The seconds of the processor that it took, once it has ended by itself with status 0."""
        _, status, usage = os.wait4(self.process.pid, 0)
        self.process.returncode = os.waitstatus_to_exitcode(status)
        expect(self.process.returncode, 0, "the status of serve")
        return float(usage.ru_utime + usage.ru_stime)

    def look(self) -> None:
        """Notes the most memory that it held so far."""
        self.memory = max(self.memory, peak_memory(self.process.pid) or 0)


def read_all(peer: socket.socket, step: int = 65_536, pause: float = 0.0) -> bytes:
    parts = []
    while part := peer.recv(step):
        parts.append(part)
        time.sleep(pause)
    return b"".join(parts)

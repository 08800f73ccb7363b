"""A door that is open on ports of its own, over registries of the program, and clients of it from
addresses of their own."""

import contextlib
import http.client
import json
import os
import shutil
import signal
import socket
import subprocess
import sys
import time
from collections.abc import Callable
from typing import Any, Self

from checks.running import AUTH, PATIENCE, TOP, Failure, Trial, expect, write, write_settings
from checks.serving import Serving, free_port
from checks.worlds import COUNT

PYTHON = "/usr/bin/python3" if os.access("/usr/bin/python3", os.X_OK) else sys.executable
HEAD = f"mntner: ROOT-MNT\nauth: {AUTH}\nmnt-by: ROOT-MNT\nsource: TEST\n\n"
SPACE = "inetnum: 0.0.0.0 - 255.255.255.255\nmnt-by: ROOT-MNT\nsource: TEST\n\n"


class Registries:
    """A registry of some objects and its replicas, each a process of the program."""

    def __init__(
        self, trial: Trial, name: str, dump: str, replicas: int = 2, limit: int = 10_000
    ) -> None:
        self.program, self.folder = trial.program, trial.place(name)
        self.base = os.path.join(self.folder, "base")
        os.mkdir(self.base)
        write_settings(self.base, limit=limit)
        write(self.base, "dump.rpsl", dump.encode())
        words = [self.program, "load", "s.toml", "dump.rpsl"]
        done = subprocess.run(words, cwd=self.base, capture_output=True, check=False)
        if done.returncode:
            raise Failure(f"{name}: {done.stderr.decode()}")
        os.unlink(os.path.join(self.base, "dump.rpsl"))
        self.ports = [free_port() for _ in range(replicas + 1)]
        self.servers: list[Serving | None] = [None] * len(self.ports)

    def __enter__(self) -> Self:
        for number in range(len(self.ports)):
            self.start(number)
        return self

    def __exit__(self, *_: object) -> None:
        for number in range(len(self.ports)):
            self.kill(number)

    def start(self, number: int) -> None:
        folder = os.path.join(self.folder, str(number))
        if not os.path.exists(folder):
            shutil.copytree(self.base, folder)
        self.servers[number] = Serving([self.program], folder, COUNT, self.ports[number])

    def kill(self, number: int) -> None:
        server, self.servers[number] = self.servers[number], None
        if server:
            server.__exit__()

    def pid(self, number: int) -> int:
        return self.servers[number].process.pid

    @property
    def words(self) -> list[str]:
        replicas = [f"--replica=http://127.0.0.1:{port}" for port in self.ports[1:]]
        return [f"--registry=http://127.0.0.1:{self.ports[0]}", *replicas]


class Opened:
    """A door, and what it is asked by."""

    def __init__(
        self,
        trial: Trial,
        name: str,
        words: list[str],
        config: str = "",
        start: tuple[str, ...] = ("-m", "irr"),
    ) -> None:
        self.folder = trial.place(name)
        self.whois_port, self.http_port, self.status_port = free_port(), free_port(), free_port()
        self.log = os.path.join(self.folder, "items.log")
        write(self.folder, "door.toml", config.encode())
        self.words = [
            PYTHON,
            *start,
            "door",
            os.path.join(self.folder, "door.toml"),
            f"--whois=127.0.0.1:{self.whois_port}",
            f"--http=127.0.0.1:{self.http_port}",
            f"--status=127.0.0.1:{self.status_port}",
            f"--log={self.log}",
            *words,
        ]
        if not any(word.startswith("--agent") for word in words):
            # Nobody listens there.
            self.words.append(f"--agent=127.0.0.1:{free_port()}")
        self.reported = os.path.join(self.folder, "reported")

    def __enter__(self) -> Self:
        paths = [os.path.join(TOP, "tools"), os.environ.get("PYTHONPATH", "")]
        environment = {**os.environ, "PYTHONPATH": os.pathsep.join(filter(None, paths))}
        with open(self.reported, "wb") as reported:
            self.process = subprocess.Popen(
                self.words,
                stdin=subprocess.DEVNULL,
                stdout=reported,
                stderr=reported,
                env=environment,
            )
        end = time.monotonic() + 60
        while "open at" not in self.words_reported():
            if self.process.poll() is not None or time.monotonic() > end:
                self.__exit__()
                raise Failure(f"the door does not open: {self.words_reported()[-800:]}")
            time.sleep(0.05)
        wait_until("that it knows its upstreams", 20, lambda: self.status()["source"])
        return self

    def __exit__(self, *_: object) -> None:
        if self.process.poll() is None:
            self.process.terminate()
            try:
                self.process.wait(30)
            except subprocess.TimeoutExpired:
                self.process.kill()
                self.process.wait()

    def words_reported(self) -> str:
        with open(self.reported, encoding="utf-8", errors="replace") as file:
            return file.read()

    def items(self) -> list[dict[str, Any]]:
        if not os.path.exists(self.log):
            return []
        with open(self.log, encoding="utf-8") as file:
            return [json.loads(line) for line in file]

    def seconds(self) -> float:
        """The processor's seconds that it has taken."""
        return seconds_of(self.process.pid)

    def memory(self) -> int:
        """The bytes that it holds."""
        with open(f"/proc/{self.process.pid}/statm", encoding="ascii") as file:
            return int(file.read().split()[1]) * 4_096

    # Clients, each from an address of its own: 127.0.0.LAST.

    def connect(self, port: int, last: int = 1, patience: int = 60) -> socket.socket:
        peer = socket.socket()
        peer.settimeout(patience)
        peer.bind((f"127.0.0.{last}", 0))
        peer.connect(("127.0.0.1", port))
        return peer

    def whois(self, line: str | bytes, last: int = 1, patience: int = 60) -> bytes:
        """All that is answered to a line, or to several."""
        text = line if isinstance(line, bytes) else line.encode() + b"\r\n"
        with contextlib.closing(self.connect(self.whois_port, last, patience)) as peer:
            peer.sendall(text)
            return read_all(peer)

    def http(
        self,
        method: str,
        path: str,
        body: bytes | None = None,
        last: int = 1,
        port: int | None = None,
        **fields: Any,
    ) -> tuple[int, dict[str, str], bytes]:
        """The status, the fields and the body of a reply."""
        connection = http.client.HTTPConnection(
            "127.0.0.1", port or self.http_port, timeout=60, source_address=(f"127.0.0.{last}", 0)
        )
        with contextlib.closing(connection):
            names = {name.replace("_", "-"): value for name, value in fields.items()}
            connection.request(method, path, body, names)
            reply = connection.getresponse()
            return reply.status, dict(reply.headers), reply.read()

    def submit(
        self, text: str | bytes, last: int = 1, **fields: Any
    ) -> tuple[int, dict[str, str], bytes]:
        body = text.encode() if isinstance(text, str) else text
        return self.http("POST", "/submissions", body, last, **fields)

    def status(self) -> Any:
        return json.loads(self.http("GET", "/status?json", port=self.status_port)[2])

    def metrics(self) -> dict[str, float]:
        """Each figure by its name and labels."""
        text = self.http("GET", "/metrics", port=self.status_port)[2].decode()
        lines = [line.rpartition(" ") for line in text.splitlines() if not line.startswith("#")]
        return {name: float(value) for name, _, value in lines}


def has_no_trace(door: Opened) -> None:
    reported = door.words_reported()
    expect("Traceback" in reported or "report this" in reported, False, reported[-600:])
    expect(door.metrics()["irrdesk_door_faults_total"], 0.0, "faults of the door")


def seconds_of(number: int) -> float:
    """The processor's seconds that a process has taken."""
    with open(f"/proc/{number}/schedstat", encoding="ascii") as file:
        return int(file.read().split()[0]) / 1e9


def read_all(peer: socket.socket) -> bytes:
    parts = []
    with contextlib.suppress(ConnectionResetError):
        while part := peer.recv(1 << 16):
            parts.append(part)
    return b"".join(parts)


def wait_until(what: str, seconds: float, is_so: Callable[[], Any]) -> None:
    end = time.monotonic() + seconds
    while not is_so():
        if time.monotonic() > end:
            raise Failure(f"{what}: not within {seconds} s")
        time.sleep(0.05)


class Bridge:
    """The port of a door that refuses what lacks a set, over a registry at an address, in a fork of
    this process, while a `with` block runs: for doors by the hundred."""

    def __init__(self, url: str, **given: Any) -> None:
        self.port, places = free_port(), [f"127.0.0.1:{free_port()}" for _ in range(3)]
        self.given = {
            "whois": [f"127.0.0.1:{self.port}"],
            "http": places[:1],
            "status": places[1],
            "agent": places[2],
            "registry": url,
            "strict": True,
            "burst": 1000.0,
            "refill": 1000.0,
        } | given

    def __enter__(self) -> int:
        self.number = os.fork()
        if not self.number:
            self.serve()
        # It listens, however long a busy machine takes to begin it.
        end = time.monotonic() + PATIENCE
        while not self.sources():
            if time.monotonic() > end or os.waitpid(self.number, os.WNOHANG)[0]:
                raise Failure("the door does not open")
            time.sleep(0.02)
        # Its first look at the registry has to be over, which may not be there.
        end = time.monotonic() + 20
        while time.monotonic() < end and not self.sources().startswith(b"A"):
            time.sleep(0.02)
        return self.port

    def serve(self) -> None:
        status = 70
        try:
            from irr.door import service, settings

            signal.signal(signal.SIGCHLD, signal.SIG_DFL)
            nothing = os.open(os.devnull, os.O_WRONLY)
            os.dup2(nothing, 1)
            service.run(settings.read(None, self.given))
            status = 0
        finally:
            os._exit(status)

    def sources(self) -> bytes:
        """What it says of its sources; nothing where it does not listen yet."""
        with contextlib.suppress(OSError), socket.create_connection(
            ("127.0.0.1", self.port), 10
        ) as peer:
            peer.sendall(b"!s-lc\n")
            return peer.recv(10)
        return b""

    def __exit__(self, *_: object) -> None:
        os.kill(self.number, signal.SIGKILL)
        os.waitpid(self.number, 0)

"""nginx and HAProxy with the files of examples/, on ports and folders of their own, and clients of
them."""

import contextlib
import os
import re
import shutil
import socket
import ssl
import subprocess
import sys
import time
from pathlib import Path
from typing import Self

from checks.running import PATIENCE, TOP, Failure, Trial, write
from checks.serving import free_port, read_all
from checks.worlds import certificate

HOST = "irr.example.net"
WEB = Path(TOP, "web")
PAGE = {
    str(path.relative_to(WEB)): path.read_bytes()
    for path in sorted(WEB.rglob("*"))
    if path.is_file()
}
# A user of the door, and the hash of the password as crypt(5) has it, of few rounds.
USER, PASSWORD = "holder", "a word of the door"


def replaced(text: str, changes: list[tuple[str, str]]) -> str:
    """A text in which each of these was found and replaced, all at once, so that nothing is found
    in what was put in."""
    wanted = dict(changes)
    for old in wanted:
        if old not in text:
            raise Failure(f"{old!r} is not in the example")
    return re.sub(
        "|".join(map(re.escape, sorted(wanted, key=len, reverse=True))),
        lambda found: wanted[found[0]],
        text,
    )


def example(name: str) -> str:
    with open(os.path.join(TOP, "examples", name), encoding="utf-8") as opened:
        return opened.read()


class Door:
    """A proxy that is running before a door, and what both are reached by."""

    def __init__(self, trial: Trial, name: str, primary: int, readers: list[int] | None) -> None:
        self.name, self.folder = name, trial.place(f"door-{name}-{time.monotonic_ns()}")
        self.https, self.http, self.whois_port, self.agent_port = (
            free_port(),
            free_port(),
            free_port(),
            free_port(),
        )
        self.cert, self.key = certificate(trial.work, HOST)
        os.chmod(self.folder, 0o755)
        web = os.path.join(self.folder, "web")
        shutil.copytree(WEB, web)
        self.context = ssl.create_default_context(cafile=self.cert)
        self.door_port, self.status_port = free_port(), free_port()
        self.door = subprocess.Popen(
            self.door_command(primary, readers),
            cwd=self.folder,
            stdin=subprocess.DEVNULL,
            stdout=subprocess.PIPE,
            env={**os.environ, "PYTHONPATH": os.path.join(TOP, "tools")},
        )
        assert self.door.stdout
        if not self.door.stdout.readline().startswith(b"irr door: open"):
            raise Failure("the door does not open")
        self.process = subprocess.Popen(
            self.command(web),
            cwd=self.folder,
            stdin=subprocess.DEVNULL,
            stdout=open(os.path.join(self.folder, "log"), "wb"),
            stderr=subprocess.STDOUT,
        )
        end = time.monotonic() + PATIENCE
        while not self.listens():
            if self.process.poll() is not None or time.monotonic() > end:
                self.__exit__()
                raise Failure(f"{name} does not start: {self.log()[-600:]}")
            time.sleep(0.05)

    def log(self) -> str:
        with open(os.path.join(self.folder, "log"), encoding="utf-8", errors="replace") as opened:
            return opened.read()

    def listens(self) -> bool:
        with contextlib.suppress(OSError), socket.create_connection(("127.0.0.1", self.https), 1):
            return True
        return False

    def __enter__(self) -> Self:
        return self

    def __exit__(self, *_: object) -> None:
        self.process.terminate()
        try:
            self.process.wait(10)
        except subprocess.TimeoutExpired:
            self.process.kill()
            self.process.wait()
        self.door.kill()
        self.door.wait()
        if self.door.stdout:
            self.door.stdout.close()

    def command(self, web: str) -> list[str]:
        """The words that start the proxy."""
        raise NotImplementedError

    def door_command(self, primary: int, readers: list[int] | None) -> list[str]:
        """The door behind the proxy, over a registry and its replicas."""
        python = shutil.which("python3", path="/usr/bin") or sys.executable
        words = [python, "-m", "irr", "door", f"--registry=http://127.0.0.1:{primary}"]
        words += [f"--replica=http://127.0.0.1:{port}" for port in readers or ()]
        for name, port in [
            ("whois", self.whois_port),
            ("http", self.door_port),
            ("status", self.status_port),
            ("agent", self.agent_port),
        ]:
            words.append(f"--{name}=127.0.0.1:{port}")
        return [*words, f"--log={self.folder}/items.log"]

    # Clients, each from an address of its own: 127.0.0.LAST.

    def raw(self, port: int, last: int, patience: int = 60) -> socket.socket:
        peer = socket.socket()
        peer.settimeout(patience)
        peer.bind((f"127.0.0.{last}", 0))
        peer.connect(("127.0.0.1", port))
        return peer

    def connect(
        self, last: int, host: str = HOST, window: int | None = None, patience: int = 60
    ) -> ssl.SSLSocket:
        """A connection with TLS to this host."""
        peer = socket.socket()
        peer.settimeout(patience)
        if window:
            peer.setsockopt(socket.SOL_SOCKET, socket.SO_RCVBUF, window)
        peer.bind((f"127.0.0.{last}", 0))
        peer.connect(("127.0.0.1", self.https))
        return self.context.wrap_socket(peer, server_hostname=host)

    def ask(self, request: bytes, last: int = 1, host: str = HOST, patience: int = 60) -> bytes:
        """All that comes after a request, until its connection ends or nothing comes for so many
        seconds."""
        with contextlib.closing(self.connect(last, host, patience=patience)) as peer:
            parts = []
            with contextlib.suppress(BrokenPipeError, ConnectionResetError, ssl.SSLEOFError):
                peer.sendall(request)
            with contextlib.suppress(ConnectionResetError, ssl.SSLEOFError, TimeoutError):
                while part := peer.recv(65_536):
                    parts.append(part)
            return b"".join(parts)

    def get(
        self, path: str, last: int = 1, host: str = HOST, fields: str = "", method: str = "GET"
    ) -> tuple[int, str, bytes]:
        """The status, the head and the body."""
        reply = self.ask(
            f"{method} {path} HTTP/1.1\r\nHost: {host}\r\n"
            f"Connection: close\r\n{fields}\r\n".encode(),
            last,
        )
        return parsed(reply)

    def post(self, body: bytes, last: int = 1, fields: str = "") -> tuple[int, str, bytes]:
        head = (
            f"POST /submissions HTTP/1.1\r\nHost: {HOST}\r\nConnection: close\r\nContent-Length:"
            f" {len(body)}\r\n{fields}\r\n"
        )
        return parsed(self.ask(head.encode() + body, last))

    def whois(self, query: str, last: int = 1) -> bytes:
        with contextlib.closing(self.raw(self.whois_port, last)) as peer:
            peer.sendall(query.encode() + b"\r\n")
            return read_all(peer)


def parsed(reply: bytes) -> tuple[int, str, bytes]:
    head, _, body = reply.partition(b"\r\n\r\n")
    status = re.match(rb"HTTP/1\.1 (\d{3})", head)
    if re.search(rb"(?i)\r\ntransfer-encoding: chunked", head):
        body = unchunked(body)
    return int(status[1]) if status else 0, head.decode("latin-1"), body


def unchunked(text: bytes) -> bytes:
    parts: list[bytes] = []
    place = 0
    while True:
        end = text.find(b"\r\n", place)
        length = int(text[place:end] or b"0", 16)
        if end < 0 or not length:
            return b"".join(parts)
        parts.append(text[end + 2 : end + 2 + length])
        place = end + 4 + length


def units(name: str) -> list[str]:
    with open(os.path.join(TOP, "units", name), encoding="ascii") as opened:
        return opened.read().splitlines()


class Nginx(Door):
    """nginx with the file of the examples."""

    def command(self, web: str) -> list[str]:
        write(self.folder, "users", f"{USER}:{crypted()}\n".encode())
        text = replaced(
            example("nginx.conf"),
            [
                ("user www-data;\n", ""),
                ("pid /run/nginx.pid", f"pid {self.folder}/pid"),
                ("/var/log/nginx/error.log", f"{self.folder}/log"),
                ("/var/log/nginx/irr.log", f"{self.folder}/access"),
                ("listen 443", f"listen 127.0.0.1:{self.https}"),
                ("listen [::]:443", f"listen [::1]:{self.https}"),
                ("listen 80", f"listen 127.0.0.1:{self.http}"),
                ("listen [::]:80", f"listen [::1]:{self.http}"),
                ("127.0.0.1:4380", f"127.0.0.1:{self.door_port}"),
                ("/etc/letsencrypt/live/irr.example.net/fullchain.pem", self.cert),
                ("/etc/letsencrypt/live/irr.example.net/privkey.pem", self.key),
                ("/usr/share/irrdesk/web", web),
                ("/var/www/html", f"{self.folder}/acme"),
                ("/etc/nginx/irrdesk.users", f"{self.folder}/users"),
            ],
        )
        for kind in ("client_body", "proxy", "fastcgi", "uwsgi", "scgi"):
            text = text.replace("http {", f"http {{\n    {kind}_temp_path {self.folder}/{kind};", 1)
        write(self.folder, "nginx.conf", text.encode())
        return ["nginx", "-c", f"{self.folder}/nginx.conf", "-g", "daemon off;"]


class Haproxy(Door):
    """HAProxy with the file of the examples."""

    def command(self, web: str) -> list[str]:
        with open(os.path.join(self.folder, "both.pem"), "wb") as both:
            for name in (self.cert, self.key):
                with open(name, "rb") as part:
                    both.write(part.read())
        self.acme_port = free_port()
        text = replaced(
            example("haproxy.cfg"),
            [
                ("    user haproxy\n    group haproxy\n", ""),
                ("log /dev/log local0", "log stdout format raw local0"),
                ("bind :::443 v4v6", f"bind 127.0.0.1:{self.https},::1:{self.https}"),
                ("bind :::80 v4v6", f"bind 127.0.0.1:{self.http},::1:{self.http}"),
                ("127.0.0.1:4380", f"127.0.0.1:{self.door_port}"),
                ("127.0.0.1:4388", f"127.0.0.1:{self.acme_port}"),
                ("/etc/haproxy/irr.example.net.pem", f"{self.folder}/both.pem"),
                ("/usr/share/irrdesk/web", web),
                ("userlist holders\n", f"userlist holders\n    user {USER} password {crypted()}\n"),
            ],
        )
        write(self.folder, "haproxy.cfg", text.encode())
        return ["haproxy", "-db", "-f", f"{self.folder}/haproxy.cfg"]


def crypted() -> str:
    made = subprocess.run(
        ["openssl", "passwd", "-6", "-salt", "doorsalt", PASSWORD],
        capture_output=True,
        text=True,
        check=True,
    )
    return made.stdout.strip()

"""The tool `irr` as it is installed, proxies in front of a registry, and servers that answer
wrongly."""

from __future__ import annotations

import contextlib
import itertools
import os
import pty
import re
import select
import shutil
import socket
import ssl
import subprocess
import sys
import threading
import time
from collections.abc import Iterator
from typing import Self

from checks.running import PATIENCE, TOP, Failure, Ran, Trial, expect, write, write_settings
from checks.serving import Server, free_port

NGINX = shutil.which("nginx", path=os.environ["PATH"] + ":/usr/sbin")

COUNT = 1_000_000
A_AUTH = "SHA256-PW k3:ccda736dc82df011aa4a1a69307e8691d784c89481923035847c51743d3da2ca"
B_AUTH = "SHA256-PW m7:956a15818b273c05b3dc940d09a01b18ff24c5e7d49c0927623b9204bfddd308"
WORLD = f"""password: bc
password: one good secret
password: another good secret

mntner: A-MNT
auth: {A_AUTH}
mnt-by: A-MNT
source: TEST
remarks: irr-0123

mntner: B-MNT
auth: {B_AUTH}
mnt-by: B-MNT
source: TEST

as-block: AS64500 - AS64505
mnt-by: ROOT-MNT
mnt-lower: B-MNT
source: TEST

inetnum: 192.0.2.0/24
descr: caf\xe9 \x9b31m
mnt-by: A-MNT
source: TEST

aut-num: AS64496
mnt-by: A-MNT
source: TEST

aut-num: AS64500
mnt-by: B-MNT
source: TEST

route: 192.0.2.0/24
origin: AS64496
mnt-by: A-MNT
mnt-routes: A-MNT, B-MNT {{192.0.2.128/25^26}}
source: TEST

as-set: AS64496:AS-CUSTOMERS
members: AS64496, AS64500, AS-GONE
mbrs-by-ref: B-MNT
mnt-by: A-MNT
source: TEST

route-set: AS64496:RS-OUT
members: AS64496:AS-CUSTOMERS, 192.0.2.0/24^25-26
mnt-by: A-MNT
source: TEST
""".encode(
    "latin-1"
)


class Tool:
    """The tool, packed into one file as it is installed, and the environment that it runs in."""

    def __init__(self, folder: str, program: str, **environment: str) -> None:
        self.path = os.path.join(folder, "irr")
        subprocess.run([os.path.join(TOP, "tools", "build"), self.path], check=True)
        home = os.path.join(folder, "home")
        os.mkdir(home)
        kept = {
            name: value
            for name, value in os.environ.items()
            if name not in ("IRR_SERVER", "NETRC", "NO_COLOR")
        }
        self.environment = (
            kept
            | {
                "HOME": home,
                "IRRDESK": program,
                "LC_ALL": "C.UTF-8",
                "TERM": "xterm",
                "COLUMNS": "130",
            }
            | environment
        )

    def at(self, **environment: str) -> Tool:
        """The same tool in another environment."""
        other = object.__new__(Tool)
        other.path, other.environment = self.path, self.environment | environment
        return other

    def __call__(
        self,
        *words: str | bytes,
        stdin: bytes = b"",
        timeout: int = PATIENCE,
        folder: str | None = None,
    ) -> Ran:
        done = subprocess.run(
            [sys.executable, self.path, *words],
            input=stdin,
            capture_output=True,
            env=self.environment,
            timeout=timeout,
            cwd=folder,
            check=False,
        )
        return Ran(done.returncode, done.stdout, done.stderr, 0, 0)

    def on_terminal(self, *words: str, typed: bytes = b"", folder: str | None = None) -> Ran:
        """What a terminal gets of the tool, and its status. What is typed goes in line by line,
        each once a prompt has come."""
        number, terminal = pty.openpty()
        process = subprocess.Popen(
            [sys.executable, self.path, *words],
            env=self.environment,
            stdin=terminal,
            stdout=terminal,
            stderr=terminal,
            cwd=folder,
            start_new_session=True,
            preexec_fn=lambda: os.close(os.open(os.ttyname(terminal), os.O_RDWR)),
        )
        os.close(terminal)
        seen, waiting, end = (
            b"",
            [line + b"\n" for line in typed.split(b"\n") if line],
            time.monotonic() + PATIENCE,
        )
        with contextlib.closing(os.fdopen(number, "r+b", buffering=0)) as screen:
            while time.monotonic() < end:
                if waiting and seen.endswith(b": "):
                    screen.write(waiting.pop(0))
                if select.select([screen], [], [], 0.05)[0]:
                    try:
                        part = os.read(number, 65_536)
                    except OSError:
                        break
                    if not part:
                        break
                    seen += part
                elif process.poll() is not None:
                    break
            process.kill() if process.poll() is None else None
            status = process.wait()
        return Ran(status, seen.replace(b"\r\n", b"\n"), b"", 0, 0)


class World:
    """A registry of the world above, which is served while a `with` block runs, and the tool that
    asks it."""

    def __init__(self, trial: Trial, tool: Tool, name: str, more: bytes = b"") -> None:
        self.trial, self.folder, self.more = trial, os.path.join(trial.work, name), more
        template = os.path.join(trial.work, "template")
        if not os.path.isdir(template):
            os.mkdir(template)
            write_settings(template)
            for words in ["init", "s.toml"], [
                "submit",
                "s.toml",
                write(template, "first.rpsl", WORLD),
            ]:
                ran = trial.run(template, *words)
                expect((ran.status, ran.reported), (0, b""), " ".join(words))
        shutil.copytree(template, self.folder)
        self.at_all, self.tool, self.url = tool, tool, ""
        self.server: Server

    def copy(self, name: str) -> str:
        """A registry of the same objects that is not served: the folder of one."""
        path = os.path.join(self.trial.work, name)
        shutil.copytree(self.folder, path)
        return path

    def __enter__(self) -> Self:
        self.server = Server(self.trial.program, self.folder, COUNT)
        self.url = f"http://127.0.0.1:{self.server.port}"
        self.tool = self.at_all.at(IRR_SERVER=self.url)
        if self.more:
            ran = self.tool("submit", "-", stdin=self.more)
            expect(ran.status, 0, f"what was submitted first: {ran.printed!r} {ran.reported!r}")
        return self

    def __exit__(self, *_: object) -> None:
        self.server.__exit__()


def expect_line(ran: Ran, status: int, pattern: str, what: str) -> None:
    """That it ended with a status and one line on standard error, and with nothing printed."""
    text = ran.reported.decode()
    if (ran.status, ran.printed) != (status, b"") or not re.fullmatch(
        rf"irr[^\n]*: {pattern}\n", text
    ):
        raise Failure(
            f"{what}: status {ran.status}, printed {ran.printed[:200]!r}, reported {text!r}"
        )


def items(count: int, tail: bytes = b"") -> list[bytes]:
    """Paragraphs that add inetnums."""
    return [
        b"inetnum: 10.%d.%d.%d/27\nmnt-by: ROOT-MNT\nsource: TEST\n%s"
        % (number >> 11, number >> 3 & 255, 32 * (number & 7), tail)
        for number in range(count)
    ]


@contextlib.contextmanager
def nginx(
    folder: str, upstream: str, lines: str = "", tls: tuple[str, str] | None = None
) -> Iterator[str]:
    """The address of nginx in front of a registry, with these lines in its server."""
    port = free_port()
    with open(os.path.join(folder, "nginx.conf"), "w", encoding="ascii") as out:
        out.write(
            f"""daemon off; master_process off;
pid {folder}/nginx.pid; error_log {folder}/nginx.log;
events {{ }}
http {{
    access_log off; client_body_temp_path {folder}/body; proxy_temp_path {folder}/proxy;
    fastcgi_temp_path {folder}/fastcgi;
    uwsgi_temp_path {folder}/uwsgi; scgi_temp_path {folder}/scgi;
    server {{
        listen 127.0.0.1:{port}{" ssl" if tls else ""};
        {f"ssl_certificate {tls[0]}; ssl_certificate_key {tls[1]};" if tls else ""}
        {lines}
        location / {{ proxy_pass {upstream}; }}
    }}
}}
"""
        )
    process = subprocess.Popen(
        [NGINX or "nginx", "-c", f"{folder}/nginx.conf", "-p", folder],
        stdin=subprocess.DEVNULL,
        stderr=subprocess.DEVNULL,
    )
    try:
        wait_for(port, process)
        yield f"http{'s' if tls else ''}://127.0.0.1:{port}"
    finally:
        process.kill()
        process.wait()


def wait_for(port: int, process: subprocess.Popen[bytes]) -> None:
    """Waits until a port is listened on."""
    end = time.monotonic() + PATIENCE
    while time.monotonic() < end:
        if process.poll() is not None:
            raise Failure(f"a server ended with status {process.returncode}")
        with contextlib.suppress(OSError):
            socket.create_connection(("127.0.0.1", port), 1).close()
            return
        time.sleep(0.02)
    raise Failure("a server did not listen in time")


def certificate(folder: str, name: str = "127.0.0.1") -> tuple[str, str]:
    """A certificate of an address or a host, signed by itself, and its key; made once a folder."""
    paths = os.path.join(folder, "own.crt"), os.path.join(folder, "own.key")
    if not os.path.exists(paths[0]):
        words = "req -x509 -newkey ec -pkeyopt ec_paramgen_curve:P-256 -nodes -days 9".split()
        kind = "IP" if name[0].isdigit() else "DNS"
        words += ["-subj", f"/CN={name}", "-addext", f"subjectAltName={kind}:{name}"]
        subprocess.run(
            ["openssl", *words, "-keyout", paths[1], "-out", paths[0]],
            check=True,
            stdin=subprocess.DEVNULL,
            capture_output=True,
        )
    return paths


@contextlib.contextmanager
def answering(
    *replies: bytes, is_reset: bool = False, tls: tuple[str, str] | None = None
) -> Iterator[str]:
    """The address of a server that gives these replies one after the other, and then the last one
    to everybody, whatever is asked, and closes or resets the connection."""
    listener = socket.create_server(("127.0.0.1", 0))
    context: ssl.SSLContext | None = None
    if tls:
        context = ssl.SSLContext(ssl.PROTOCOL_TLS_SERVER)
        context.load_cert_chain(*tls)

    def serve() -> None:
        for reply in itertools.chain(replies, itertools.repeat(replies[-1])):
            try:
                peer, _ = listener.accept()
            except OSError:
                return
            with (
                contextlib.suppress(OSError),
                contextlib.closing(
                    context.wrap_socket(peer, server_side=True) if context else peer
                ) as held,
            ):
                held.settimeout(60)
                asked = held.recv(65_536)
                head, _, body = asked.partition(b"\r\n\r\n")
                length = next(
                    (
                        int(line.split(b":")[1])
                        for line in head.split(b"\r\n")
                        if line.lower().startswith(b"content-length:")
                    ),
                    0,
                )
                while len(body) < length and (more := held.recv(65_536)):
                    body += more
                held.sendall(reply)
                if is_reset:
                    held.setsockopt(socket.SOL_SOCKET, socket.SO_LINGER, b"\1\0\0\0\0\0\0\0")

    threading.Thread(target=serve, daemon=True).start()
    try:
        yield f"http{'s' if tls else ''}://127.0.0.1:{listener.getsockname()[1]}"
    finally:
        listener.close()

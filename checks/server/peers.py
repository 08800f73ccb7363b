"""Cases of the program while it serves, each in a thread of its own, and what peers send to it."""

import contextlib
import socket
import subprocess
from collections.abc import Callable
from typing import Any

from checks.running import expect
from checks.serving import GIVEN, Serving, read_all

INETNUM = "inetnum: {}\nmnt-by: ROOT-MNT\nsource: TEST\n"
ROOT = (
    "mntner:         ROOT-MNT\nauth:           # filtered\nmnt-by:         ROOT-MNT\nsource:       "
    "  TEST\n\n"
)
TEN = "inetnum:        10.0.0.0/8\nmnt-by:         ROOT-MNT\nsource:         TEST\n\n"
GIVEN_HEAD = GIVEN.decode()
LONGEST = 180


class Cases(list[Any]):
    """The cases of a module, as rows for `cases_of`."""

    def case(
        self, name: str, store: str = "small", is_long: bool = False
    ) -> Callable[[Callable[..., Any]], Callable[..., Any]]:
        """Registers a case, which gets the program and a folder with settings and a registry of its
        own."""

        def register(function: Callable[..., Any]) -> Callable[..., Any]:
            self.append((name, (store, function), is_long))
            return function

        return register


def run(program: str, folder: str, *words: str, stdin: None = None) -> tuple[int, str, str]:
    made = subprocess.run(
        [program, *words],
        cwd=folder,
        stdin=stdin or subprocess.DEVNULL,
        capture_output=True,
        text=True,
        timeout=LONGEST,
        check=False,
    )
    return made.returncode, made.stdout, made.stderr


class Server(Serving):
    """The program while it serves so many connections, and its peers."""

    def __init__(self, program: str, folder: str, count: int, **given: Any) -> None:
        super().__init__([program], folder, count, **given)

    def end(self, reported: str = "") -> str:
        """The last line, once it has served all, and reported this."""
        printed, found = (text.decode() for text in self.process.communicate(timeout=LONGEST))
        expect(
            (self.process.returncode, found), (0, reported), "status and standard error of serve"
        )
        return printed

    def expect_end(self, served: int, failed: int, reported: str = "") -> None:
        expect(self.end(reported), f"served {served}, failed {failed}\n", "the last line")

    def connect(self, window: int | None = None) -> socket.socket:
        peer = socket.socket()
        peer.settimeout(LONGEST)
        if window:
            peer.setsockopt(socket.SOL_SOCKET, socket.SO_RCVBUF, window)
        peer.connect(("127.0.0.1", self.port))
        return peer

    def ask(self, text: str | bytes, ends: bool = False) -> str:
        """What a peer is answered that sends this, and then no more where `ends`. A reset is a
        failure of the case."""
        with contextlib.closing(self.connect()) as peer:
            peer.sendall(text.encode() if isinstance(text, str) else text)
            if ends:
                peer.shutdown(socket.SHUT_WR)
            return read_all(peer).decode()


def post(body: bytes, fields: str = "") -> bytes:
    return (
        "POST /submissions HTTP/1.1\r\nHost: localhost\r\nContent-Length:"
        f" {len(body)}\r\n{fields}\r\n".encode() + body
    )

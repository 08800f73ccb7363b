"""Registries of the sweeps of failing calls, and what a peer asks of one."""

import contextlib
import socket

from checks.running import Trial, expect, write, write_settings
from checks.serving import LONGEST
from checks.worked import Submission

LIMIT = 10_000

# The submission whose report, of 139 bytes, is cut at each byte in the short form too.
WRITTEN = "three inetnums"


def made_registry(trial: Trial, name: str, submission: Submission | None = None) -> str:
    """A folder with a new registry, or with that of a submission."""
    folder = trial.place(name)
    write_settings(folder, limit=LIMIT)
    expect(trial.run(folder, "init", "s.toml").status, 0, "init")
    if submission:
        write(folder, "made.rpsl", submission.text)
        expect(
            trial.run(folder, "submit", "s.toml", "made.rpsl").printed,
            submission.report(),
            "the registry that is asked",
        )
    return folder


def ask(port: int, text: bytes) -> bytes:
    """What a peer is answered, as far as it comes where the connection is cut off."""
    parts = []
    with socket.create_connection(("127.0.0.1", port), LONGEST) as peer:
        with contextlib.suppress(OSError):
            peer.sendall(text)
            peer.shutdown(socket.SHUT_WR)
            while part := peer.recv(65_536):
                parts.append(part)
    return b"".join(parts)


def posted(text: bytes) -> bytes:
    return (
        b"POST /submissions HTTP/1.1\r\nHost: localhost\r\nContent-Length: %d\r\n\r\n" % len(text)
        + text
    )

"""What the checks of replicas, backups, history and lost passwords share: a changing object,
processes that run meanwhile, and what becomes of them."""

import contextlib
import os
import re
import shutil
import socket
import subprocess
import time
from collections.abc import Callable, Iterator
from typing import Any

from checks.running import Failure, Ran, Trial, expect, write


QUERIES = [
    "192.0.2.1",
    "AS64496",
    "A-MNT",
    "exact 192.0.2.0/24",
    "less 192.0.2.7",
    "more 0.0.0.0/0",
    "inverse mnt A-MNT",
    "object route 192.0.2.0/24 AS64496",
    "inverse origin AS64496",
    "expand AS64496:AS-CUSTOMERS",
    "prefixes AS64496:RS-OUT",
    "expand AS-NONE",
    "closest nowhere",
]
# What a change may take to be with the replicas, beside the interval: they are made anew beside all
# else that runs.
PATIENCE, SLACK = 120, 45
VERSIONED = (
    "password: bc\n\ninetnum: 198.51.100.0/24\ndescr: version {}\nmnt-by: ROOT-MNT\nsource: TEST\n"
)


def wait_until(what: str, seconds: int, is_so: Callable[..., Any]) -> None:
    end = time.monotonic() + seconds
    while not is_so():
        if time.monotonic() > end:
            raise Failure(f"{what}: not within {seconds} s")
        time.sleep(0.05)


@contextlib.contextmanager
def running(words: list[str], reported: str, **options: Any) -> Iterator[subprocess.Popen[bytes]]:
    """A process while the block runs; what it prints and says goes into a file."""
    with open(reported, "ab") as out:
        process = subprocess.Popen(
            words, stdin=subprocess.DEVNULL, stdout=out, stderr=out, **options
        )
    try:
        yield process
    finally:
        if process.poll() is None:
            process.terminate()
            try:
                process.wait(PATIENCE)
            except subprocess.TimeoutExpired:
                process.kill()
                process.wait()


def reported_by(path: str) -> str:
    with open(path, encoding="utf-8", errors="replace") as file:
        return file.read()


def whois_answer(port: int, query: bytes) -> bytes:
    """What is answered, nothing where nobody listens. A peer that comes at the moment of the end is
    reset before any answer."""
    came = b""
    try:
        with socket.create_connection(("127.0.0.1", port), 30) as peer:
            peer.sendall(query + b"\r\n")
            peer.shutdown(socket.SHUT_WR)
            while part := peer.recv(4_096):
                came += part
    except OSError as error:
        expect(came, b"", f"an answer that was cut, {error!r}")
    return came


def is_served(port: int) -> bool:
    with contextlib.suppress(OSError):
        with socket.create_connection(("127.0.0.1", port), 5) as peer:
            peer.settimeout(5)
            peer.sendall(b"ROOT-MNT\r\n")
            return peer.recv(10).startswith(b"mntner:")
    return False


def restored(trial: Trial, ran: Ran, number: int) -> int:
    """The version that a backup has, both of whose files are restored as they stand."""
    found = re.fullmatch(
        rb"(\S+): [0-9,]+ objects, the database was held for [0-9.]+ s\n", ran.printed
    )
    if not found:
        raise Failure(f"what is printed: {ran.printed!r} {ran.reported!r}")
    place, dumps = found[1].decode(), []
    for path, mode in [
        (place, 0o700),
        *((os.path.join(place, name), 0o600) for name in ("irr.db", "irr.toml", "dump.rpsl")),
    ]:
        expect(os.stat(path).st_mode & 0o777, mode, f"the rights of {path}")
    expect(sorted(os.listdir(place)), ["dump.rpsl", "irr.db", "irr.toml"], "the files of a backup")
    for name in "irr.db", "dump.rpsl":
        work = trial.place(
            f"restored-{os.path.basename(os.path.dirname(place))}-{os.path.basename(place)}"
            f"-{name}-{time.monotonic_ns()}"
        )
        with open(os.path.join(place, "irr.toml"), "rb") as settings:
            text = re.sub(rb"(?m)^store = .*$", b'store = "irr.db"', settings.read())
        write(work, "irr.toml", text)
        if name == "irr.db":
            shutil.copy(os.path.join(place, name), work)
        else:
            loaded = trial.run(work, "load", "irr.toml", os.path.join(place, name))
            expect((loaded.status, loaded.reported), (0, b""), "load")
        dumps.append(trial.run(work, "dump", "irr.toml", "--full").printed)
    expect(dumps[0], dumps[1], "the dumps of both")
    found = re.search(rb"version ([0-9]+)", dumps[0])
    return int(found[1]) if found else number


def state(number: int) -> str:
    with open(f"/proc/{number}/stat", encoding="ascii") as file:
        return file.read().rpartition(")")[2].split()[0]

"""HAProxy before the doors of several machines, with the lines of docs/OPERATING.md."""

import contextlib
import http.client
import os
import shutil
import socket
import subprocess
from pathlib import Path

from checks.door.opened import HEAD, Opened, Registries, read_all, wait_until
from checks.proxied import replaced
from checks.running import TOP, Trial, expect, needs, write
from checks.serving import free_port

FRONT = """defaults
    mode http
    timeout connect 5s
    timeout client 60s
    timeout server 60s
frontend web
    bind 127.0.0.1:{http}
    acl submits path /submissions
"""
# What each of two registries alone has.
NAMES = ["AS-ONE", "AS-TWO"]


def backends(doors: list[Opened], whois: int) -> str:
    """The lines of the page, with the ports of these doors."""
    page = Path(TOP, "docs", "OPERATING.md").read_text(encoding="utf-8")
    text = ""
    for first in "    use_backend first", "frontend whois":
        front, mark, rest = page.partition(f"```text\n{first}")
        text += mark.removeprefix("```text\n") + rest.partition("```")[0]
    changes = [("bind :::43 v4v6\n", f"bind 127.0.0.1:{whois}\n")]
    for number, door in enumerate(doors, 1):
        for port, own in (4380, door.http_port), (43, door.whois_port):
            changes.append(
                (f"192.0.2.{number}:{port}\n", f"127.0.0.1:{own} port {door.status_port}\n")
            )
    first = f"127.0.0.1:{doors[0].http_port} check port {doors[0].status_port} inter"
    changes.append(("192.0.2.1:4380 check port 4381 inter", first))
    return replaced(text, changes)


def asked(port: int, method: str, path: str, body: bytes = b"") -> tuple[int, bytes]:
    """What HAProxy answers: the status, and the body."""
    with contextlib.closing(http.client.HTTPConnection("127.0.0.1", port, timeout=30)) as peer:
        peer.request(method, path, body)
        answer = peer.getresponse()
        return answer.status, answer.read()


def answering(http_port: int, whois_port: int) -> tuple[set[str], set[str]]:
    """Who answers over HTTP, and by whois: the set that each alone has is asked for, twice at once,
    since HAProxy takes them in turn."""
    found: tuple[set[str], set[str]] = set(), set()
    for name in sorted(NAMES * 2):
        with contextlib.suppress(OSError, http.client.HTTPException):
            connection = http.client.HTTPConnection("127.0.0.1", http_port, timeout=30)
            with contextlib.closing(connection):
                connection.request("GET", f"/query/{name}")
                if connection.getresponse().read().startswith(b"as-set:"):
                    found[0].add(name)
        with contextlib.suppress(OSError), socket.create_connection(
            ("127.0.0.1", whois_port), 30
        ) as peer:
            peer.sendall(name.encode() + b"\r\n")
            if read_all(peer).startswith(b"as-set:"):
                found[1].add(name)
    return found


@needs("haproxy")
def test_a_door_whose_registry_is_down_is_left_out(trial: Trial) -> None:
    with contextlib.ExitStack() as stack:
        registries, doors = list[Registries](), list[Opened]()
        for name in NAMES:
            dump = HEAD + f"as-set: {name}\nmnt-by: ROOT-MNT\nsource: TEST\n\n"
            made = stack.enter_context(Registries(trial, f"of-{name}", dump, replicas=0))
            registries.append(made)
            door = Opened(trial, f"door-{name}", made.words, "proxied = true\n")
            doors.append(stack.enter_context(door))
        ports = free_port(), free_port()
        text = FRONT.format(http=ports[0]) + backends(doors, ports[1])
        config = write(trial.place("before-doors"), "haproxy.cfg", text.encode())
        haproxy = shutil.which("haproxy", path=os.environ["PATH"] + ":/usr/sbin")
        assert haproxy
        process = subprocess.Popen([haproxy, "-db", "-f", config])
        stack.callback(process.wait)
        stack.callback(process.terminate)
        both, second = set(NAMES), {"AS-TWO"}
        wait_until("both", 60, lambda: answering(*ports) == (both, both))
        for number in range(4):
            item = f"as-set: AS-NEW{number}\nmnt-by: ROOT-MNT\nsource: TEST\n".encode()
            status, body = asked(ports[0], "POST", "/submissions", b"password: bc\n\n" + item)
            expect((status, b": added\n" in body), (200, True), f"a submission: {body!r}")
            status, body = asked(ports[0], "GET", "/dump")
            found = b"AS-TWO" in body, f"AS-NEW{number}\n".encode() in body
            expect((status, *found), (200, False, True), "the dump: that of the first")
        registries[0].kill(0)
        wait_until("the second alone", 60, lambda: answering(*ports) == (second, second))
        for _ in range(10):
            with socket.create_connection(("127.0.0.1", ports[1]), 30) as peer:
                peer.sendall(b"AS-TWO\r\n")
                expect(read_all(peer)[:7], b"as-set:", "an answer while one is left out")
        for method, path in ("POST", "/submissions"), ("GET", "/dump"):
            expect(asked(ports[0], method, path, b"x")[0], 503, f"{path} without the first")
        registries[0].start(0)
        wait_until("both again", 60, lambda: answering(*ports) == (both, both))

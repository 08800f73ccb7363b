"""Peers that go away, and peers that wait, beside a server."""

import contextlib
import select
import socket
import struct
import time
from collections.abc import Callable
from concurrent.futures._base import Future
from typing import Any

import pytest

from checks.heads import refusal
from checks.pace import pace
from checks.running import Failure, cases_of, expect, peak_memory
from checks.server.peers import GIVEN_HEAD, INETNUM, LONGEST, ROOT, TEN, Cases, Server, post
from checks.serving import read_all

SECONDS = 200
CASES = Cases()
case = CASES.case


def expect_within(found: float, least: float, most: float, what: str) -> None:
    """That it took so many seconds: more above the least where others have the processors."""
    most = least + (most - least) * pace(time.monotonic)
    if not least <= found <= most:
        raise Failure(f"{what}: {found:.1f} s and not {least} to {most} s")


def reset(peer: socket.socket) -> None:
    """Closes a connection by a reset."""
    peer.setsockopt(socket.SOL_SOCKET, socket.SO_LINGER, struct.pack("ii", 1, 0))
    peer.close()


# Peers that go away.


@case("a reset in mid-body: the connection failed, and the next is served")
def reset_in_a_body(program: str, folder: str) -> None:
    with Server(program, folder, 2) as server:
        peer = server.connect()
        peer.sendall(post(b"password: bc\n\n" + b"x" * 100_000)[:50_000])
        time.sleep(0.5)
        reset(peer)
        expect(server.ask("root-mnt\n"), ROOT, "the next answer")
        server.expect_end(1, 1)


@case("a reset before the first line is whole: the connection failed, and the next is served")
def reset_in_a_line(program: str, folder: str) -> None:
    with Server(program, folder, 2) as server:
        peer = server.connect()
        peer.sendall(b"root-")
        time.sleep(0.5)
        reset(peer)
        expect(server.ask("root-mnt\n"), ROOT, "the next answer")
        server.expect_end(1, 1)


@case("a hundred resets leave no connection open: a program that may have 24 files goes on")
def many_resets(program: str, folder: str) -> None:
    with Server(program, folder, 101, most_files=24) as server:
        for turn in range(100):
            peer = server.connect()
            peer.sendall(
                [b"root-", b"POST /submissions HTTP/1.1\r\nContent-Length: 9\r\n\r\nx"][turn % 2]
            )
            time.sleep(0.02)
            reset(peer)
        expect(server.ask("root-mnt\n"), ROOT, "the next answer")
        server.expect_end(1, 100)


@case("peers that reset the connection once they have asked: the program goes on", store="large")
def reset_while_answered(program: str, folder: str) -> None:
    with Server(program, folder, 4) as server:
        peer = server.connect()
        peer.sendall(b"root-mnt\n")
        reset(peer)
        for wanted in [1, 100_000]:
            peer = server.connect()
            peer.sendall(b"GET /dump HTTP/1.1\r\n\r\n")
            while wanted > 0:
                wanted -= len(peer.recv(wanted))
            reset(peer)
        expect(server.ask("root-mnt\n"), ROOT, "the next answer")
        last = server.end()
        expect(
            last in ("served 2, failed 2\n", "served 1, failed 3\n"),
            True,
            f"the last line, {last!r}",
        )


# Peers that wait.


@case("a peer that says nothing is cut off after 10 seconds, and another one is served then")
def silent_peer(program: str, folder: str) -> None:
    with Server(program, folder, 2) as server:
        start = time.monotonic()
        with contextlib.closing(server.connect()) as silent:
            expect(server.ask("root-mnt\n"), ROOT, "the other one's answer")
            expect_within(time.monotonic() - start, 9, 30, "until it was answered")
            expect(silent.recv(1), b"", "what the silent one got")
        server.expect_end(1, 1)


@case(
    (
        "a peer that sends a byte at a time is cut off after 60 seconds, and another one "
        "is served then"
    ),
)
def dripping_peer(program: str, folder: str) -> None:
    with Server(program, folder, 2) as server:
        start = time.monotonic()
        with (
            contextlib.closing(server.connect()) as slow,
            contextlib.closing(server.connect()) as other,
        ):
            other.sendall(b"root-mnt\n")
            while not select.select([other], [], [], 3)[0] and time.monotonic() - start < LONGEST:
                with contextlib.suppress(OSError):
                    slow.sendall(b"a")
            expect(read_all(other).decode(), ROOT, "the other one's answer")
            expect_within(time.monotonic() - start, 58, 74, "until it was answered")
        server.expect_end(1, 1)


@case(
    (
        "a body that comes too slowly: what stands of it is told after 60 seconds, and "
        "the reply is not lost to a reset"
    ),
)
def slow_body(program: str, folder: str) -> None:
    body = ("password: bc\n\n" + INETNUM.format("11.0.0.0/8") + "\n").encode()
    with Server(program, folder, 2) as server:
        start = time.monotonic()
        with contextlib.closing(server.connect()) as slow:
            slow.sendall(post(body + b"%" * 1_000)[:-1_000])
            while not select.select([slow], [], [], 0.2)[0] and time.monotonic() - start < LONGEST:
                slow.sendall(b"%")
            # What it still sends meets a program that has answered.
            with contextlib.suppress(OSError):
                for _ in range(5):
                    slow.sendall(b"%")
                    time.sleep(0.05)
            reply = read_all(slow).decode()
        expect(
            reply,
            GIVEN_HEAD + "1 inetnum 11.0.0.0 - 11.255.255.255: added\n% read fault after 1 items\n",
            "the reply",
        )
        expect_within(time.monotonic() - start, 58, 74, "until it was answered")
        expect(server.ask("exact 11.0.0.0/8\n"), TEN.replace("10.", "11."), "what stands")
        server.expect_end(1, 1)


@case(
    (
        "a peer that takes nothing of a long reply is cut off after 60 to 100 seconds, "
        "and another one is served then"
    ),
    store="large",
)
def peer_that_takes_nothing(program: str, folder: str) -> None:
    with Server(program, folder, 2) as server:
        start = time.monotonic()
        with contextlib.closing(server.connect(window=4_096)) as stuck:
            stuck.sendall(b"GET /dump HTTP/1.1\r\n\r\n")
            expect(server.ask("root-mnt\n"), ROOT, "the other one's answer")
            expect_within(time.monotonic() - start, 59, 120, "until it was answered")
        server.expect_end(1, 1)


@case(
    (
        "a peer that stops in the middle of a long reply is cut off after 90 seconds, "
        "and another one is served then"
    ),
    store="large",
)
def peer_that_stops(program: str, folder: str) -> None:
    with Server(program, folder, 2) as server:
        with contextlib.closing(server.connect(window=65_536)) as stopped:
            stopped.sendall(b"GET /dump HTTP/1.1\r\n\r\n")
            taken = 0
            while taken < 4_000_000:
                taken += len(stopped.recv(65_536))
            start = time.monotonic()
            expect(server.ask("root-mnt\n"), ROOT, "the other one's answer")
            expect_within(time.monotonic() - start, 85, 120, "until it was answered")
        server.expect_end(1, 1)


@case("a reader of 32 KiB a second gets a dump of 4 MB whole", store="medium")
def steady_reader(program: str, folder: str) -> None:
    with Server(program, folder, 1) as server:
        with contextlib.closing(server.connect(window=16_384)) as slow:
            slow.sendall(b"GET /dump HTTP/1.1\r\n\r\n")
            head, _, dump = read_all(slow, step=16_384, pause=0.5).decode().partition("\r\n\r\n")
        expect(
            (head + "\r\n\r\n", dump.endswith("\n\n% end 68\n")),
            (GIVEN_HEAD, True),
            "the dump's head, and whether it is whole",
        )
        server.expect_end(1, 0)


@case(
    "a reader of 4 KiB a second is cut off in a long dump, and another one is served then",
    store="large",
    is_long=True,
)
def dripping_reader(program: str, folder: str) -> None:
    with Server(program, folder, 2) as server:
        start, taken = time.monotonic(), 0
        with (
            contextlib.closing(server.connect(window=4_096)) as slow,
            contextlib.closing(server.connect()) as other,
        ):
            slow.sendall(b"GET /dump HTTP/1.1\r\n\r\n")
            slow.settimeout(1)
            other.sendall(b"root-mnt\n")
            while not select.select([other], [], [], 0.25)[0] and time.monotonic() - start < 600:
                with contextlib.suppress(OSError):
                    taken += len(slow.recv(1_024))
            waited = time.monotonic() - start
            expect(read_all(other).decode(), ROOT, "the other one's answer")
        expect_within(waited, 75, 450, "until it was answered")
        expect(
            taken < 4_000_000,
            True,
            f"whether the {taken} bytes that it took are a small part of the dump",
        )
        server.expect_end(1, 1)


@case("a slow reader gets a long dump whole", store="large")
def slow_reader(program: str, folder: str) -> None:
    with Server(program, folder, 2) as server:
        with contextlib.closing(server.connect(window=65_536)) as slow:
            slow.sendall(b"GET /dump HTTP/1.1\r\n\r\n")
            head, _, dump = read_all(slow, step=65_536, pause=0.05).decode().partition("\r\n\r\n")
        expect(
            (head + "\r\n\r\n", dump.endswith("\n\n% end 204\n")),
            (GIVEN_HEAD, True),
            "the dump's head, and whether it is whole",
        )
        expect(len(dump) > 12_000_000, True, f"whether its {len(dump)} bytes are many")
        expect(server.ask("root-mnt\n"), ROOT, "the next answer")
        server.expect_end(2, 0)


@case("a long answer is not made whole in memory before it is sent", store="large")
def answer_in_parts(program: str, folder: str) -> None:
    with Server(program, folder, 1) as server:
        before = peak_memory(server.process.pid)
        with contextlib.closing(server.connect(window=4_096)) as peer:
            peer.sendall(b"inverse mnt ROOT-MNT\n")
            expect(peer.recv(10).decode(), ROOT[:10], "its first bytes")
            more = peak_memory(server.process.pid) - before
        expect(more < 4_000, True, f"whether {more} KiB are few beside the 12,000 of it")


@case("a peer that never ends its side after the reply does not hold the port")
def peer_that_never_ends(program: str, folder: str) -> None:
    with Server(program, folder, 2) as server:
        with contextlib.closing(server.connect()) as first:
            first.sendall(b"root-mnt\n")
            expect(read_all(first).decode(), ROOT, "its answer")
            start = time.monotonic()
            expect(server.ask("root-mnt\n"), ROOT, "the next answer")
            expect_within(time.monotonic() - start, 0, 9, "until the next one was answered")
        server.expect_end(2, 0)


@case("a peer that goes on sending for a while after its refusal meets no reset")
def peer_that_goes_on(program: str, folder: str) -> None:
    with Server(program, folder, 1) as server:
        with contextlib.closing(server.connect()) as peer:
            peer.sendall(b"POST /dump HTTP/1.1\r\n\r\n")
            for _ in range(4):
                time.sleep(0.05)
                peer.sendall(b"%" * 10_000)
            expect(read_all(peer), refusal(405, "GET"), "the reply")
        server.expect_end(1, 0)


@case("a hundred peers at once are served one after the other")
def many_peers(program: str, folder: str) -> None:
    with Server(program, folder, 100) as server:
        peers = [server.connect() for _ in range(100)]
        for peer in reversed(peers):
            peer.sendall(b"root-mnt\n")
            peer.shutdown(socket.SHUT_WR)
        for peer in peers:
            expect(read_all(peer).decode(), ROOT, "an answer")
            peer.close()
        server.expect_end(100, 0)


# The run.


@pytest.mark.parametrize("check", cases_of(CASES))
def test_peers_get_what_they_should(
    running: dict[Callable[..., Any], Future[Any]], check: tuple[str, Callable[..., Any]]
) -> None:
    running[check[1]].result()

"""Connections by themselves: those who send more than is answered, or take less than is sent, and
how an answer ends."""

import contextlib
import os
import socket
from collections.abc import Iterator

import pytest

from checks.door import worlds
from checks.door.opened import Opened, Registries, read_all, wait_until
from checks.running import Trial, expect
from checks.serving import free_port
from irr.door.exchange import Exchange
from irr.door.settings import Place
from irr.door.sockets import IN, Watch
from irr.door.wire import Port, Wire

ANSWERED = 'irrdesk_door_queries_total{dialect="help",outcome="answered"}'
COUNT = 5_000


def test_who_takes_no_answers_is_given_no_more_of_them(door: Opened) -> None:
    text, seen = door.whois("help"), [-1.0]

    def stands() -> bool:
        seen.append(door.metrics()[ANSWERED])
        return seen[-1] == seen[-2]

    with contextlib.closing(socket.socket()) as peer:
        peer.setsockopt(socket.SOL_SOCKET, socket.SO_RCVBUF, 4_096)
        peer.settimeout(60)
        peer.connect(("127.0.0.1", door.whois_port))
        peer.sendall(b"!!\n" + b"help\n" * COUNT + b"!q\n")
        wait_until("that it is given no more", 60, stands)
        expect(1 < seen[-1] < COUNT, True, f"{seen[-1]} answers of {COUNT}")
        expect(read_all(peer) == text * COUNT, True, "all of them once they are taken")


class Silent:
    """Who lets somebody in, and says nothing by itself."""

    wire: Wire
    came = b""

    def connection_made(self, wire: Wire, address: str) -> None:
        self.wire = wire

    def data_received(self, data: bytes) -> None:
        self.came += data

    def eof_received(self) -> None:
        pass

    def sent(self) -> None:
        pass

    def connection_lost(self) -> None:
        pass


@contextlib.contextmanager
def connected() -> Iterator[tuple[Silent, socket.socket, Watch]]:
    """Who lets in, who was let in, and what watches both."""
    watch, silent = Watch(), Silent()
    with socket.create_server(("127.0.0.1", 0)) as listener:
        address = listener.getsockname()
        port = Port(watch, listener, lambda: silent)
        with contextlib.closing(socket.create_connection(address, 60)) as peer:
            peer.sendall(b"one")
            for _ in range(60):
                if not silent.came:
                    watch.select(1)
            yield silent, peer, watch
        silent.wire.close()
        port.close()
    watch.loop.close()


def test_who_sends_more_than_is_read_gets_its_answer() -> None:
    with connected() as (silent, peer, _):
        peer.sendall(b"two")
        silent.wire.write(b"answer", True)
        silent.wire.close()
        expect((silent.came, read_all(peer)), (b"one", b"answer"), "what was read, and sent")


def test_a_socket_has_nothing_of_one_that_was_closed_meanwhile() -> None:
    """Two are ready, and the first one ends the second, whose number a third one gets."""
    watch, seen, others = Watch(), [], []
    first, second = socket.socketpair(), socket.socketpair()

    def ready(own: socket.socket, other: socket.socket) -> None:
        seen.append("first")
        watch.forget(other.fileno())
        number = other.fileno()
        other.close()
        others.append(os.dup2(own.fileno(), number))
        watch.add(number, IN, lambda events: seen.append("another"))

    watch.add(first[0].fileno(), IN, lambda events: ready(first[0], second[0]))
    watch.add(second[0].fileno(), IN, lambda events: ready(second[0], first[0]))
    for _, peer in first, second:
        peer.send(b"x")
    watch.select(0)
    expect(seen, ["first"], "what was done")
    for number in others:
        os.close(number)
    for one in (*first, *second):
        one.close()
    watch.loop.close()


@pytest.mark.parametrize("way,wanted", [("ended", None), ("late", None), ("reset", "ECONNRESET")])
def test_the_end_of_an_answer_is_not_taken_for_a_fault(way: str, wanted: str | None) -> None:
    """Whether both have come at once, or the end comes after what was sent."""
    watch = Watch()
    parts: list[bytes] = []
    ends: list[str | None] = []
    with socket.create_server(("127.0.0.1", 0)) as listener:
        place = Place(*listener.getsockname())
        Exchange(watch, place, b"AS1\r\n", parts.append, ends.append)
        peer = listener.accept()[0]
        expect(peer.recv(5), b"AS1\r\n", "what was asked")
        peer.sendall(b"an answer\n")
        if way == "late":
            watch.select(60)
            expect((parts, ends), ([b"an answer\n"], []), "what came, and that it goes on")
        if way == "reset":
            peer.setsockopt(socket.SOL_SOCKET, socket.SO_LINGER, b"\1\0\0\0\0\0\0\0")
        peer.close()
        for _ in range(60):
            if not ends:
                watch.select(1)
    expect((parts, ends), ([b"an answer\n"], [wanted]), "what came, and how it ended")
    watch.loop.close()


def test_one_place_takes_clients_of_both_versions(trial: Trial, registries: Registries) -> None:
    """As `[::]:43` does: and one of IPv4 is the same client there as elsewhere."""
    port = free_port()
    words = [*registries.words, f"--whois=[::]:{port}"]
    with Opened(trial, "both-versions", words, "of_client = 2\n") as door:
        held = [door.connect(port, 7) for _ in range(2)]
        for peer in held:
            peer.sendall(b"!!\n!s-lc\n")
            expect(peer.recv(64), b"A5\nTEST\nC\n", "an answer over IPv4")
        told = b"% too many connections of yours; come again later\n"
        expect(door.whois("AS1", 7), told, "one more at another place")
        with socket.create_connection(("::1", port), 30) as peer:
            peer.sendall(b"AS1\r\n")
            expect(read_all(peer), worlds.AS1 + b"\n", "an answer over IPv6")
        for peer in held:
            peer.close()

"""Questions that are sent on while their answers are not taken, and connections that end with their
answers."""

import asyncio
import time
from typing import Any

import pytest

from checks.door import inside, worlds
from checks.running import expect
from irr.door.cache import Answer
from irr.door.service import Service

COUNT = 1_000
# What a connection may hold of answers that are not taken.
MOST = 1 << 19
NUMBERS = b"A90001\n" + b"AS1 AS2 " * 11_250 + b"\nC\n"


def keep(door: Service, question: bytes, text: bytes) -> None:
    answer = Answer(text, 1.0, door.pool.ledger)
    door.pool.cache.put(question, answer, door.pool.cache.state, asyncio.get_running_loop().time())


def test_who_takes_nothing_is_answered_no_more() -> None:
    """Thousands of questions whose answers are kept: the door goes on as they are taken, and all of
    them come."""

    async def ask() -> tuple[int, int]:
        async with inside.opened(lambda line: b"% no entries\n") as (door, _):
            keep(door, b"!iAS-X,1", NUMBERS)
            peer = await inside.connected(door.settings.whois[0])
            loop, text = asyncio.get_running_loop(), b"!!\n" + b"!iAS-X,1\n" * COUNT
            sending = asyncio.create_task(loop.sock_sendall(peer, text + b"!q\n"))
            await inside.until(lambda: len(door.door.connections) == 1)
            (connection,) = door.door.connections
            most = got = 0
            while piece := await loop.sock_recv(peer, 1 << 16):
                got += len(piece)
                most = max(most, len(connection.transport.rest))
            await sending
            peer.close()
            return most, got

    most, got = inside.run(ask())
    expect(got, len(NUMBERS) * COUNT, "bytes of all answers")
    expect(most < MOST, True, f"{most} bytes that wait for the client")


def test_a_connection_that_ends_once_its_answer_is_taken_leaves_no_trace() -> None:
    """Answers of many sizes: one of them ends just as the client makes room."""

    async def ask() -> None:
        sizes = range(300_000, 1_500_000, 100_000)
        texts = {b"AS%d" % size: b"remarks: x\n" * (size // 11) + b"\n" for size in sizes}
        async with inside.opened(lambda line: texts[line]) as (door, _):
            for line, text in texts.items():
                peer = await inside.connected(door.settings.whois[0])
                loop = asyncio.get_running_loop()
                await loop.sock_sendall(peer, line + b"\r\n")
                parts = []
                while piece := await loop.sock_recv(peer, 1 << 16):
                    parts.append(piece)
                peer.close()
                expect(b"".join(parts) == text, True, line.decode())

    inside.run(ask())


def test_who_has_more_than_a_share_of_the_answers_makes_room_at_once() -> None:
    """One client takes none of what it asked for; another one has its long answer all the same."""

    async def ask() -> tuple[int, bytes]:
        text = b"remarks: x\n" * 180_000 + b"\n"
        settings: dict[str, Any] = {"answers": 16 << 20, "keep": 0}
        async with inside.opened(lambda line: text, **settings) as (door, _):
            loop, peers = asyncio.get_running_loop(), []
            client = door.pool.clients.of("192.0.2.1", loop.time())
            for number in range(7):
                peers.append(await inside.connected(door.settings.whois[0]))
                await loop.sock_sendall(peers[-1], b"AS%d\r\n" % number)
                await inside.until(lambda: len(door.door.taking) == number + 1)
            for one in door.door.connections:
                one.client = client
            answer = await inside.asked(door.settings.whois[0], b"AS9")
            for peer in peers:
                peer.close()
            return len(answer) - len(text), answer[:10]

    expect(inside.run(ask()), (0, b"remarks: x"), "the answer of another one")


@pytest.mark.parametrize("text, seconds", [(b"!!\n!s-lc\n", 30), (b"!!\n!t700\n", 700)])
def test_a_kept_connection_may_be_silent_for_as_long_as_it_asked(text: bytes, seconds: int) -> None:
    async def ask() -> float:
        async with inside.opened(lambda line: b"% no entries\n") as (door, _):
            peer = await inside.connected(door.settings.whois[0])
            loop = asyncio.get_running_loop()
            await loop.sock_sendall(peer, text)
            await loop.sock_recv(peer, 100)
            (connection,) = door.door.connections
            left = connection.deadline - time.monotonic()
            peer.close()
            return left

    found = inside.run(ask())
    expect(seconds - 20 < found <= seconds, True, f"{found} s are left, of {seconds}")


def test_a_connection_of_a_proxy_counts_as_its_clients_while_it_is_answered() -> None:
    """And as its own while it is kept; none of them is counted once it has ended."""

    async def ask() -> list[tuple[int, int]]:
        may_answer = asyncio.Event()

        async def late(line: bytes, writer: asyncio.StreamWriter) -> None:
            if line.startswith(b"AS1"):
                await may_answer.wait()
            writer.write(worlds.ALL + b"\n")

        async with inside.answering(late) as at:
            async with inside.opened(lambda _: b"", registry=at, keep=0) as (door, _):
                counts = list[tuple[int, int]]()
                loop, clients = asyncio.get_running_loop(), door.pool.clients
                client, proxy = (clients.of(one, loop.time()) for one in ("192.0.2.7", "127.0.0.1"))

                def count() -> None:
                    counts.append((client.connections, proxy.connections))

                peer = await inside.connected(door.settings.http[0])
                text = b"GET /query/AS1 HTTP/1.1\r\nX-Forwarded-For: 192.0.2.7\r\n\r\n"
                for _ in range(2):
                    may_answer.clear()
                    await loop.sock_sendall(peer, text)
                    await inside.until(lambda: client.connections)
                    count()
                    may_answer.set()
                    await loop.sock_recv(peer, 1_000)
                    await inside.until(lambda: not client.connections)
                    count()
                peer.close()
                await inside.until(lambda: not door.door.connections)
                count()
                return counts

    expect(inside.run(ask()), [(1, 0), (0, 1)] * 2 + [(0, 0)], "the client's, and the proxy's own")

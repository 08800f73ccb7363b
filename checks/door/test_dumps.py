"""Dumps that are taken slowly while the registry changes: their files have a bound, and the others
wait in turn."""

import asyncio
import os
import socket
import tempfile

from checks.door import inside, worlds
from checks.running import expect
from irr.door import dumps
from irr.door.http import Http

COUNT = 8
DUMP = b"".join(b"aut-num: AS%d\nremarks: %s\n\n" % (n, b"x" * 2_000) for n in range(1_000))
REPLY = b"HTTP/1.1 200 OK\r\n\r\n" + DUMP + b"% end 1000\n"


def files() -> int:
    """The files without a name that this process has open."""
    found = 0
    for name in os.listdir("/proc/self/fd"):
        try:
            path = os.readlink(f"/proc/self/fd/{name}")
            found += path.startswith(tempfile.gettempdir()) and path.endswith("(deleted)")
        except OSError:
            continue
    return found


async def begin(place: str) -> socket.socket:
    peer = await inside.connected(place)
    text = b"GET /dump HTTP/1.1\r\nConnection: close\r\n\r\n"
    await asyncio.get_running_loop().sock_sendall(peer, text)
    return peer


async def taken(peer: socket.socket) -> bytes:
    parts = []
    while part := await asyncio.get_running_loop().sock_recv(peer, 1 << 16):
        parts.append(part)
    peer.close()
    return b"".join(parts).partition(b"\r\n\r\n")[2]


def answer(line: bytes) -> bytes:
    return REPLY if line.startswith(b"GET /dump ") else worlds.AS1 + b"\n"


def test_files_of_dumps_are_few_and_all_who_wait_get_one() -> None:
    """Each asks in another state, and nobody takes anything before all have asked."""

    async def ask() -> tuple[int, int, set[bytes]]:
        async with inside.opened(answer) as (door, upstream):
            before, peers = files(), []
            for number in range(COUNT):
                peers.append(await begin(door.settings.http[0]))
                await inside.until(
                    lambda: sum(one.held is not None for one in door.door.connections)
                    + len(door.dumps.waiting)
                    == number + 1
                )
                door.pool.cache.renew()
            most, asked = files() - before, len(upstream.lines)
            # Who waits is answered once one of the others has all of it.
            got = {await taken(peer) for peer in peers}
            await inside.until(lambda: files() <= before + 1)
            return most, asked, got

    most, asked, got = inside.run(ask())
    expect((most, asked), (dumps.MOST, dumps.MOST), "files, and dumps of the registry")
    expect(got == {REPLY.partition(b"\r\n\r\n")[2]}, True, "whether all dumps are whole")


def test_who_takes_a_dump_too_slowly_makes_room() -> None:
    async def ask() -> bytes:
        async with inside.opened(answer) as (door, _):
            peers = []
            for number in range(dumps.MOST):
                peers.append(await begin(door.settings.http[0]))
                await inside.until(
                    lambda: sum(one.held is not None for one in door.door.connections) == number + 1
                )
                door.pool.cache.renew()
            for one in door.door.connections:
                if isinstance(one, Http):
                    # As if a minute had passed, in which it took hardly anything.
                    one.begun -= 60
            found = await taken(await begin(door.settings.http[0]))
            for peer in peers:
                peer.close()
            return found

    expect(inside.run(ask()).endswith(b"% end 1000\n"), True, "the dump of one who waits")


def test_a_dump_of_an_earlier_state_is_not_kept() -> None:
    async def ask() -> int:
        async with inside.opened(answer) as (door, upstream):
            upstream.may_answer.clear()
            early = await begin(door.settings.http[0])
            await inside.until(lambda: upstream.lines)
            door.pool.cache.renew()
            upstream.may_answer.set()
            await taken(early)
            await taken(await begin(door.settings.http[0]))
            return len(upstream.lines)

    expect(inside.run(ask()), 2, "dumps of the registry")

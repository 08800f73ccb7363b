"""Upstreams that answer without end, or so slowly that they never end, and an agent that says what
none does: they take no memory, and keep nobody waiting."""

import asyncio
import gc
import json
import resource
import socket
import time
from typing import Any

import pytest

from checks.door import inside, worlds
from checks.door.inside import LOOK, answering
from checks.running import expect
from checks.serving import free_port
from irr.door import pool
from irr.door.upstreams import MOST

ANSWER = worlds.AS1 + b"\n"
PIECE = b"x" * (1 << 16)
# The most seconds that anybody waits, on a machine that does other things.
SOON = 30


async def drip(text: bytes, writer: asyncio.StreamWriter) -> None:
    """Sends a byte every tenth of a second, and never all."""
    place = 0
    while True:
        writer.write(text[place % len(text) :][:1])
        await writer.drain()
        await asyncio.sleep(0.1)
        place += 1


async def good(line: bytes, writer: asyncio.StreamWriter) -> None:
    writer.write(worlds.ALL + b"\n" if line == LOOK else ANSWER)


def test_an_answer_to_a_look_has_a_bound() -> None:
    """It is asked for every half second, and would be memory that nobody counts."""
    sent: list[int] = []

    async def flood(line: bytes, writer: asyncio.StreamWriter) -> None:
        sent.append(0)
        if line == LOOK:
            while True:
                writer.write(PIECE)
                await writer.drain()
                sent[-1] += len(PIECE)

    async def ask() -> bytes:
        async with answering(flood) as strange:
            async with inside.opened(lambda line: ANSWER, replica=[strange]) as (door, _):
                async with asyncio.timeout(SOON):
                    await inside.until(lambda: len(sent) > 2)
                expect(door.pool.replicas[0].is_up, False, "whether it is asked")
                return await inside.asked(door.settings.whois[0], b"AS1")

    expect(inside.run(ask()), ANSWER, "the answer of another one")
    # What the kernel holds of both ends is sent as well.
    expect(max(sent) < MOST + (16 << 20), True, f"{sent} bytes of looks")


NOTHING = b"% no entries\n"
DUMPED = b"HTTP/1.1 200 OK\r\n\r\n" + ANSWER + b"aut-num:        AS2\n"


@pytest.mark.parametrize("dumped", [DUMPED + b"% end 2\n", DUMPED * 100_000])
def test_a_registry_without_the_inetnum_of_everything_tells_its_name(dumped: bytes) -> None:
    """By the first object of its dump, of which no more is read; as a registry has it that was
    loaded without that inetnum, and whose answer to a look is none."""
    lines: list[bytes] = []

    async def bare(line: bytes, writer: asyncio.StreamWriter) -> None:
        lines.append(line)
        writer.write(dumped if line == b"GET /dump HTTP/1.1\r\n" else NOTHING)

    async def ask() -> tuple[bytes, bool]:
        async with answering(bare) as registry:
            async with inside.opened(lambda line: ANSWER, registry=registry) as (door, _):
                async with asyncio.timeout(SOON):
                    await inside.until(lambda: lines.count(LOOK) > 2)
                return (
                    await inside.asked(door.settings.whois[0], b"!s-lc"),
                    door.pool.registry.is_up,
                )

    expect(inside.run(ask()), (b"A5\nTEST\nC\n", True), "its name, and whether it is asked")
    expect(len(lines) - lines.count(LOOK), 1, "how often the dump is asked for")


@pytest.mark.parametrize(
    "look, dumped, is_asked",
    [
        (NOTHING, b"HTTP/1.1 404 Not Found\r\n\r\n", True),
        (NOTHING, DUMPED[:-40], True),
        (b"% nothing here\n", DUMPED, False),
        (b"% no entries", DUMPED, False),
        (b"% empty\n", DUMPED, False),
        (b"", DUMPED, False),
    ],
)
def test_an_answer_without_objects_is_a_registrys_or_none(
    look: bytes, dumped: bytes, is_asked: bool
) -> None:
    looks: list[bytes] = []

    async def odd(line: bytes, writer: asyncio.StreamWriter) -> None:
        looks.append(line)
        writer.write(look if line == LOOK else dumped)

    async def ask() -> tuple[bool, bool]:
        async with answering(odd) as strange:
            async with inside.opened(lambda line: ANSWER, replica=[strange]) as (door, _):
                async with asyncio.timeout(SOON):
                    await inside.until(lambda: looks.count(LOOK) > 1)
                return door.pool.replicas[0].is_up, door.pool.replicas[0].is_named

    expect(inside.run(ask()), (is_asked, False), "whether it is asked, and has told a name")


def test_an_upstream_that_drips_is_left_out() -> None:
    """One whose look never ends, though something always comes."""

    async def dripping(_: bytes, writer: asyncio.StreamWriter) -> None:
        await drip(worlds.ALL, writer)

    async def ask() -> bytes:
        async with answering(dripping) as strange:
            async with inside.opened(lambda line: ANSWER, replica=[strange]) as (door, _):
                async with asyncio.timeout(SOON):
                    return await inside.asked(door.settings.whois[0], b"AS1")

    expect(inside.run(ask()), ANSWER, "the answer of another one")


def test_an_answer_that_drips_is_asked_elsewhere() -> None:
    dripped: list[bytes] = []

    async def dripping(line: bytes, writer: asyncio.StreamWriter) -> None:
        if line == LOOK:
            await good(line, writer)
        else:
            dripped.append(line)
            await drip(ANSWER, writer)

    async def ask() -> list[bytes]:
        async with answering(dripping) as strange, answering(good) as other:
            settings: dict[str, Any] = {"replica": [strange, other], "keep": 0}
            async with inside.opened(lambda line: ANSWER, **settings) as (door, _):
                found: list[bytes] = []
                async with asyncio.timeout(SOON):
                    while not dripped or len(found) < 5:
                        found.append(await inside.asked(door.settings.whois[0], b"AS1"))
                return found

    expect(set(inside.run(ask())), {ANSWER}, "the answers")


def test_an_answer_that_drips_from_the_only_one_ends(monkeypatch: pytest.MonkeyPatch) -> None:
    monkeypatch.setattr(pool, "ANSWERING", 0.5)

    async def dripping(line: bytes, writer: asyncio.StreamWriter) -> None:
        await (good(line, writer) if line == LOOK else drip(ANSWER, writer))

    async def ask() -> bytes:
        async with answering(dripping) as strange:
            async with inside.opened(lambda line: ANSWER, registry=strange) as (door, _):
                async with asyncio.timeout(SOON):
                    return await inside.asked(door.settings.whois[0], b"AS1")

    expect(inside.run(ask()), b"% the registry does not answer\n", "the answer")


# What an agent says, each a whole reply: the door goes on with what it knew.
STATES = {
    "nothing": b"",
    "no JSON": b"x\n",
    "too deep": b"[" * 100_000,
    "another thing": b"[]\n",
    "no replicas": b'{"replicas": 7}\n',
    "no port": b'{"replicas": [{"ready": true, "state": "", "seen": 0}]}\n',
    "an endless port": b'{"replicas": [{"port": Infinity, "ready": true, "state": "", "seen": 0}]}',
    "a port too far": b'{"replicas": [{"port": 99999, "ready": true, "state": "", "seen": 0}]}',
    "no time": b'{"replicas": [{"port": 1, "ready": true, "state": "", "seen": "x"}]}',
}


@pytest.mark.parametrize("name", STATES)
def test_an_agent_that_says_what_none_does_is_asked_again(
    monkeypatch: pytest.MonkeyPatch, name: str
) -> None:
    monkeypatch.setattr("irr.door.upstreams.ASKING", 0.05)
    monkeypatch.setattr("irr.door.upstreams.ASKING_AGAIN", 0.05)
    state, count = [STATES[name]], [0]

    async def report(line: bytes, writer: asyncio.StreamWriter) -> None:
        count[0] += line == b"state\n"
        writer.write(state[0])

    async def ask() -> tuple[bytes, list[str]]:
        async with answering(report) as strange, answering(good) as other:
            place = strange.removeprefix("http://")
            async with inside.opened(lambda line: ANSWER, agent=place) as (door, _):
                async with asyncio.timeout(SOON):
                    await inside.until(lambda: count[0] > 2)
                    found = await inside.asked(door.settings.whois[0], b"AS1")
                    port = int(other.rpartition(":")[2])
                    entry = {"port": port, "ready": True, "state": "a", "seen": 1.0}
                    state[0] = json.dumps({"replicas": [entry], "fault": ""}).encode() + b"\n"
                    names = [f"replica 127.0.0.1:{port}"]
                    await inside.until(lambda: [one.name for one in door.pool.replicas] == names)
                return found, names

    expect(inside.run(ask())[0], ANSWER, "the answer of the registry")


def test_replicas_stand_in_the_order_in_which_the_agent_names_them() -> None:
    """Not in one that is another each time that the door begins."""
    ports = [4000 + number for number in range(8)]
    entries = [{"port": port, "ready": True, "state": "a", "seen": 1.0} for port in ports]

    async def ask() -> list[int]:
        async with inside.opened(lambda line: ANSWER) as (door, _):
            door.pool.heard({"replicas": entries})
            return [one.place.port for one in door.pool.replicas]

    expect(inside.run(ask()), ports, "the ports")


def test_a_replica_that_the_agent_no_longer_names_is_forgotten(
    monkeypatch: pytest.MonkeyPatch,
) -> None:
    """Else the door would have it for one that does not answer, for as long as it runs."""
    monkeypatch.setattr("irr.door.upstreams.ASKING", 0.05)
    named: list[str] = []

    async def report(_: bytes, writer: asyncio.StreamWriter) -> None:
        entries = [
            {
                "port": int(one.rpartition(":")[2]),
                "ready": True,
                "state": "a",
                "seen": time.time(),
            }
            for one in named
        ]
        writer.write(json.dumps({"replicas": entries, "fault": ""}).encode() + b"\n")

    async def ask() -> tuple[list[str], bytes]:
        async with answering(report) as strange, answering(good) as other:
            gone = f"http://127.0.0.1:{free_port()}"
            place = strange.removeprefix("http://")
            named.extend([other, gone])
            async with inside.opened(lambda line: ANSWER, agent=place) as (door, _):
                async with asyncio.timeout(SOON):
                    await inside.until(lambda: len(door.pool.replicas) == 2)
                    await inside.until(lambda: door.status.faults())
                    named.remove(gone)
                    await inside.until(lambda: len(door.pool.replicas) == 1)
                    await inside.until(lambda: door.pool.replicas[0].is_up)
                    return door.status.faults(), await inside.asked(door.settings.whois[0], b"AS1")

    expect(inside.run(ask()), ([], ANSWER), "what is wrong, and the answer")


@pytest.mark.parametrize(
    "said, why",
    [
        (b"% error 6\n", "its database has failed"),
        (b"% error 1\n", "its answer is none of a registry"),
    ],
)
def test_a_registry_whose_database_has_failed_is_told_from_what_is_none(
    said: bytes, why: str
) -> None:
    """By the status, to who has to mend it."""

    replies = [worlds.ALL + b"\n"]

    async def fails(line: bytes, writer: asyncio.StreamWriter) -> None:
        writer.write(replies[-1])

    async def ask() -> list[str]:
        async with answering(fails) as registry:
            async with inside.opened(lambda line: ANSWER, registry=registry) as (door, _):
                replies.append(said)
                async with asyncio.timeout(SOON):
                    await inside.until(lambda: door.pool.registry.why != "")
                return door.status.faults()

    expect([fault.rpartition(": ")[2] for fault in inside.run(ask())], [why], "what is wrong")


ROUTES = b"".join(b"aut-num: AS%d\nremarks: %s\n\n" % (n, b"x" * 2_000) for n in range(1_000))
REPLY = b"HTTP/1.1 200 OK\r\n\r\n" + ROUTES + b"% end 1000\n"
GET = b"GET /dump HTTP/1.1\r\nConnection: close\r\n\r\n"


def test_a_dump_that_the_disk_does_not_take_is_refused() -> None:
    """It is never handed out in part, and the next one is whole once there is room."""

    async def dumped(place: str) -> bytes:
        host, _, port = place.rpartition(":")
        reader, writer = await asyncio.open_connection(host, int(port))
        writer.write(GET)
        reply = await reader.read()
        writer.close()
        return reply

    def answer(line: bytes) -> bytes:
        return REPLY if line.startswith(b"GET /dump ") else ANSWER

    async def ask() -> tuple[bytes, bytes, bool]:
        async with inside.opened(answer) as (door, _):
            soft, hard = resource.getrlimit(resource.RLIMIT_FSIZE)
            resource.setrlimit(resource.RLIMIT_FSIZE, (1 << 19, hard))
            try:
                async with asyncio.timeout(SOON):
                    refused = await dumped(door.settings.http[0])
            finally:
                resource.setrlimit(resource.RLIMIT_FSIZE, (soft, hard))
            is_up = door.pool.registry.is_up
            return refused, await dumped(door.settings.http[0]), is_up

    refused, whole, is_up = inside.run(ask())
    expect(refused[:12], b"HTTP/1.1 503", f"what is said: {refused[:300]!r}")
    expect(is_up, True, "whether the registry is blamed for it")
    expect(whole.endswith(b"\r\n\r\n" + REPLY.partition(b"\r\n\r\n")[2]), True, "the next one")


def test_a_sender_who_goes_away_leaves_no_trace() -> None:
    """Though the registry then stops in the middle of the report."""

    async def ask() -> int:
        may_end = asyncio.Event()

        async def stop(line: bytes, writer: asyncio.StreamWriter) -> None:
            if line.startswith(b"POST "):
                writer.write(b"HTTP/1.1 200 OK\r\n\r\n1 as-set AS-X: added\n")
                await may_end.wait()
            else:
                await good(line, writer)

        async with answering(stop) as strange:
            async with inside.opened(lambda line: ANSWER, registry=strange) as (door, _):
                peer = await inside.connected(door.settings.http[0])
                text = b"POST /submissions HTTP/1.1\r\nContent-Length: 4\r\n\r\nfoo\n"
                async with asyncio.timeout(SOON):
                    await asyncio.get_running_loop().sock_sendall(peer, text)
                    await inside.until(lambda: door.submissions.running)
                    await inside.until(lambda: door.counters.submissions["added"])
                    peer.setsockopt(socket.SOL_SOCKET, socket.SO_LINGER, b"\1\0\0\0\0\0\0\0")
                    peer.close()
                    await inside.until(lambda: not door.door.connections)
                    may_end.set()
                    await inside.until(lambda: not door.submissions.running)
                gc.collect()
                await asyncio.sleep(0)
                return door.counters.submissions["cut"]

    expect(inside.run(ask()), 1, "submissions that were cut")

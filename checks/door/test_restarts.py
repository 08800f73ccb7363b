"""What comes while the registry is down, or as soon as it was started: it waits for an answer."""

import asyncio
import contextlib
import time
from collections.abc import AsyncIterator, Awaitable, Callable

import pytest

from checks.door import inside, worlds
from checks.running import Each, expect
from checks.serving import free_port
from irr.door import pool, service, submissions

IN_MEMORY = True

REPORT = b"1 -: refused E01\n% items 1\n"


class Restarted:
    """A registry of the door in this process, which is stopped and started again."""

    def __init__(self) -> None:
        self.port = free_port()
        self.server: asyncio.Server = None
        # Whether whoever asks is kept waiting, and then gets no answer.
        self.is_stuck = False

    async def start(self) -> None:
        self.server = await asyncio.start_server(self.serve, "127.0.0.1", self.port)

    async def serve(self, reader: asyncio.StreamReader, writer: asyncio.StreamWriter) -> None:
        line = await reader.readline()
        if line.startswith(b"POST"):
            await reader.readuntil(b"\r\n\r\nfoo")
            writer.write(b"HTTP/1.1 200 OK\r\n\r\n" + REPORT)
        elif line == inside.LOOK:
            writer.write(worlds.ALL + b"\n")
        elif line:
            await inside.until(lambda: not self.is_stuck)
            writer.write(worlds.AS1 + b"\n")
        writer.close()

    def stop(self) -> None:
        self.server.close()

    @contextlib.asynccontextmanager
    async def behind_a_door(self) -> AsyncIterator[service.Service]:
        await self.start()
        url = f"http://127.0.0.1:{self.port}"
        async with inside.opened(lambda line: b"", registry=url) as (door, _):
            yield door
        self.stop()


@pytest.fixture
def restarted(monkeypatch: pytest.MonkeyPatch) -> Restarted:
    """Who asks the door waits for two seconds while it is down."""
    for module in pool, submissions:
        monkeypatch.setattr(module, "DOWN", 2.0)
    return Restarted()


async def looked_at(door: service.Service) -> None:
    """Waits until the door has looked at its registry once more."""
    registry = door.pool.registry
    before = registry.looked
    await inside.until(lambda: registry.looked > before and registry.exchange is None)


def test_what_comes_first_after_a_start_is_answered(restarted: Restarted, each: Each) -> None:
    """The registry was down for long, and the door has not looked at it since it was started."""

    async def first(ask: Callable[[service.Service], Awaitable[bytes]]) -> tuple[bytes, bytes]:
        async with restarted.behind_a_door() as door:
            restarted.stop()
            refused = await ask(door)
            await looked_at(door)
            await restarted.start()
            return refused, await ask(door)

    with each("a submission"):
        refused, answer = inside.run(first(lambda door: inside.submitted(door, "a")))
        expect(refused[:12], b"HTTP/1.1 503", "while it is down")
        expect(REPORT in answer, True, f"after the start: {answer!r}")
    with each("a query"):
        whois = lambda door: inside.asked(door.settings.whois[0], b"AS1")
        refused, answer = inside.run(first(whois))
        expect(refused, b"% the registry does not answer\n", "while it is down")
        expect(answer, worlds.AS1 + b"\n", "after the start")


def test_a_submission_waits_for_each_restart(restarted: Restarted, each: Each) -> None:
    """Whatever came of the one before it, and whatever the registry did when it was stopped."""

    async def again() -> bytes:
        async with restarted.behind_a_door() as door:
            restarted.stop()
            await inside.submitted(door, "a")
            await restarted.start()
            await inside.until(lambda: door.pool.registry.is_up)
            restarted.stop()
            door.pool.registry.fall("nobody listens there", time.monotonic())
            waiting = asyncio.create_task(inside.submitted(door, "b"))
            await looked_at(door)
            await restarted.start()
            return await waiting

    async def in_a_query() -> bytes:
        async with restarted.behind_a_door() as door:
            restarted.is_stuck = True
            query = asyncio.create_task(inside.asked(door.settings.whois[0], b"AS1"))
            await inside.until(lambda: door.pool.registry.request)
            waiting = asyncio.create_task(inside.submitted(door, "a"))
            await inside.until(lambda: door.submissions.turns.count)
            restarted.stop()
            door.pool.registry.exchange.end("ECONNRESET")
            await looked_at(door)
            restarted.is_stuck = False
            await restarted.start()
            await query
            return await waiting

    with each("after one that was refused"):
        answer = inside.run(again())
        expect(REPORT in answer, True, f"{answer!r}")
    with each("in the middle of a query"):
        answer = inside.run(in_a_query())
        expect(REPORT in answer, True, f"{answer!r}")

"""Upstreams that are silent at a query before its first byte, as one that is stopped is, and one
that works at what is dear: what another one is asked meanwhile, and who pays for both."""

import asyncio
import contextlib
import socket
import time
from collections.abc import AsyncIterator
from typing import Any

import pytest

from checks.door import inside, worlds
from checks.door.inside import LOOK, Answering, Timed, answering, left, submitted
from checks.running import expect
from irr.door.service import Service

CHEAP, DEAR = b"AS1", b"prefixes AS-X"
TEXT = worlds.AS1 + b"\n"
# The most seconds that anybody waits, on a machine that does other things; without another one
# that is asked it would be a minute.
SOON = 30
BURST = 10.0


class Silent(Timed):
    """A replica that says nothing to any query until it may."""

    def __init__(self) -> None:
        super().__init__()
        self.may_answer.clear()

    async def __call__(self, line: bytes, writer: asyncio.StreamWriter) -> None:
        if line not in (LOOK, b""):
            self.lines.append(line.strip())
            await self.may_answer.wait()
            writer.write(self.text)
        else:
            await super().__call__(line, writer)


@contextlib.asynccontextmanager
async def opened(
    registry: Answering, *replicas: Answering, cost: float = 0.1, **given: Any
) -> AsyncIterator[Service]:
    """A door over these, which knows what the dear query has cost."""
    async with contextlib.AsyncExitStack() as stack, asyncio.timeout(SOON):
        urls = [await stack.enter_async_context(answering(one)) for one in (registry, *replicas)]
        settings: dict[str, Any] = {"burst": BURST, "refill": 0.001, "keep": 0, **given}
        door, _ = await stack.enter_async_context(
            inside.opened(lambda _: TEXT, registry=urls[0], replica=urls[1:], **settings)
        )
        for _ in range(2):
            door.pool.costs.learn(DEAR.upper(), "prefixes", cost)
        yield door


async def asked(door: Service, line: bytes, last: int = 2) -> bytes:
    return await inside.asked(door.settings.whois[0], line, last)


def is_idle(door: Service) -> bool:
    """Whether no query is on its way."""
    return not any(one.request for one in door.pool.all())


@pytest.mark.parametrize("line", [CHEAP, DEAR], ids=["cheap", "dear"])
def test_what_a_replica_is_silent_at_is_asked_of_another_one_too(line: bytes) -> None:
    """Cheap or dear; and the one that was silent is left out from then on."""

    async def ask() -> tuple[bytes, list[int], int]:
        registry, silent = Timed(), Silent()
        async with opened(registry, silent) as door:
            found = await asked(door, line)
            await inside.until(lambda: not door.pool.replicas[0].is_up)
            return found, [len(silent.lines), len(registry.lines)], door.pool.replicas[0].failed

    found, counts, failed = inside.run(ask())
    expect((found, counts, failed), (TEXT, [1, 1], 1), "the answer, who was asked, what failed")


def test_the_replica_that_is_left_for_cheap_queries_is_not_asked_what_is_dear() -> None:
    """While the registry can be."""

    async def ask() -> tuple[bytes, list[int]]:
        registry, silent = Timed(), [Silent(), Silent()]
        async with opened(registry, *silent) as door:
            found = await asked(door, DEAR)
            return found, [sum(len(one.lines) for one in silent), len(registry.lines)]

    expect(inside.run(ask()), (TEXT, [1, 1]), "the answer, and who was asked")


@pytest.mark.parametrize("waiting", [0, 1])
def test_the_last_replica_is_asked_what_is_dear_if_nobody_waits(waiting: int) -> None:
    """Without a registry that answers."""

    async def ask() -> int:
        silent = [Silent(), Silent()]
        async with opened(Timed(), *silent) as door:
            door.pool.registry.is_up = False
            door.pool.registry.looked = time.monotonic() + SOON
            others = [asyncio.create_task(asked(door, DEAR))]
            await inside.until(lambda: any(one.lines for one in silent))
            for number in range(waiting):
                others.append(asyncio.create_task(asked(door, DEAR + b"%d" % number, 3)))
            await inside.until(lambda: door.pool.turns.count == waiting)
            await asyncio.sleep(2)
            count = sum(len(one.lines) for one in silent)
            for one in silent:
                one.may_answer.set()
            await asyncio.gather(*others)
            return count

    expect(inside.run(ask()), 2 - waiting, "how often it was asked")


def test_one_that_is_slow_stays_and_its_client_pays_for_both() -> None:
    async def ask() -> tuple[bytes, list[int], float, list[bool]]:
        registry, slow = Timed(1.5), Timed(1.5)
        async with opened(registry, slow) as door:
            found = await asked(door, DEAR)
            await inside.until(lambda: is_idle(door))
            ups = [one.is_up and not one.failed for one in door.pool.all()]
            counts = [len(slow.lines), len(registry.lines)]
            return found, counts, BURST - left(door, "127.0.0.2"), ups

    found, counts, paid, ups = inside.run(ask())
    expect((found, counts), (TEXT, [1, 1]), "the answer, and who was asked")
    expect(paid > 2.9, True, f"{paid} s were paid for twice 1.5 s")
    expect(ups, [True, True], "whether they are taken to answer")


@pytest.mark.parametrize(
    ("has", "cost"),
    [(0.5, 0.1), (BURST, 1.0)],
    ids=["who cannot pay for two", "what takes as long as it did"],
)
def test_one_alone_is_asked(has: float, cost: float) -> None:
    async def ask() -> tuple[bytes, int]:
        registry, slow = Timed(), Timed(1.5)
        async with opened(registry, slow, cost=cost) as door:
            door.pool.clients.of("127.0.0.2", time.monotonic()).left = has
            return await asked(door, DEAR), len(registry.lines)

    expect(inside.run(ask()), (TEXT, 0), "the answer, and how often another one was asked")


def test_who_had_nothing_left_is_answered_once_it_has_all_again() -> None:
    async def ask() -> tuple[bytes, int]:
        registry, silent = Timed(), Silent()
        async with opened(registry, silent, burst=1.0, refill=0.5) as door:
            door.pool.clients.of("127.0.0.2", time.monotonic()).left = 0.01
            return await asked(door, DEAR), len(registry.lines)

    expect(inside.run(ask()), (TEXT, 1), "the answer, and how often another one was asked")


@pytest.mark.parametrize("line", [CHEAP, DEAR], ids=["cheap", "dear"])
def test_no_third_one_is_asked(line: bytes) -> None:
    async def ask() -> int:
        silent = [Silent(), Silent(), Silent()]
        async with opened(*silent) as door:
            asking = asyncio.create_task(asked(door, line))
            await asyncio.sleep(3)
            count = sum(len(one.lines) for one in silent)
            for one in silent:
                one.may_answer.set()
            await asking
            return count

    expect(inside.run(ask()), 2, "how often it was asked")


def test_nobody_is_asked_for_who_has_gone() -> None:
    async def ask() -> int:
        registry, silent = Timed(), Silent()
        async with opened(registry, silent) as door:
            peer = await inside.connected(door.settings.whois[0])
            await asyncio.get_running_loop().sock_sendall(peer, DEAR + b"\r\n")
            await inside.until(lambda: silent.lines)
            peer.setsockopt(socket.SOL_SOCKET, socket.SO_LINGER, b"\1\0\0\0\0\0\0\0")
            peer.close()
            await inside.until(lambda: not door.door.connections)
            await asyncio.sleep(2)
            return len(registry.lines)

    expect(inside.run(ask()), 0, "how often another one was asked")


def test_a_registry_that_is_held_for_a_submission_is_not_asked(
    monkeypatch: pytest.MonkeyPatch,
) -> None:
    """Though nothing is on its way to it yet."""

    async def ask() -> tuple[int, bytes]:
        registry, silent = Timed(), Silent()
        async with opened(registry, silent) as door:
            # No submission takes it, and none lets it go.
            monkeypatch.setattr(door.submissions, "turn", lambda: None)
            door.pool.freed, door.pool.is_held = lambda: None, True
            asking = asyncio.create_task(asked(door, DEAR))
            await asyncio.sleep(2)
            count, door.pool.is_held = len(registry.lines), False
            return count, await asking

    expect(inside.run(ask()), (0, TEXT), "how often it was asked meanwhile, and the answer")


def test_a_replica_that_is_looked_at_does_nothing_dear() -> None:
    """Though a dear query was its last: else no other one would be begun meanwhile."""

    async def ask() -> bool:
        replicas = [Timed(), Timed()]
        async with opened(Timed(), *replicas) as door:
            await asked(door, DEAR)
            await inside.until(lambda: is_idle(door))
            one = door.pool.replicas[0 if replicas[0].lines else 1]
            look: Any = object()
            one.exchange, before = look, one.exchange
            _, may_be_dear = door.pool.free()
            one.exchange = before
            return may_be_dear

    expect(inside.run(ask()), True, "whether what is dear may be begun")


def test_a_registry_that_has_a_submission_is_asked_once_that_is_over() -> None:
    async def ask() -> tuple[int, bytes]:
        registry, silent = Timed(), Silent()
        may_report = asyncio.Event()

        async def submitting(line: bytes, writer: asyncio.StreamWriter) -> None:
            if line.startswith(b"POST "):
                await may_report.wait()
            await registry(line, writer)

        async with opened(submitting, silent) as door:
            sending = asyncio.create_task(submitted(door, "one"))
            await inside.until(lambda: door.submissions.running)
            asking = asyncio.create_task(asked(door, DEAR))
            await asyncio.sleep(2)
            count = len(registry.lines)
            registry.report = b"1 as-set AS-X: unchanged\n% items 1\n"
            may_report.set()
            await sending
            return count, await asking

    expect(inside.run(ask()), (0, TEXT), "how often it was asked meanwhile, and the answer")


@pytest.mark.parametrize("stops", ["first", "second"])
def test_halves_of_two_are_never_joined(stops: str) -> None:
    """Where the first one goes on once the second is asked, and one of both stops in the middle."""
    whole = TEXT * 1_000
    is_second_asked, may_end = asyncio.Event(), asyncio.Event()

    def upstream(name: str) -> Any:
        async def answer(line: bytes, writer: asyncio.StreamWriter) -> None:
            if line in (LOOK, b""):
                await Timed()(line, writer)
                return
            if name == "second":
                is_second_asked.set()
            await is_second_asked.wait()
            writer.write(whole[: len(whole) // 2] if name == stops else whole)
            if name == stops:
                await may_end.wait()

        return answer

    async def ask() -> bytes:
        async with opened(upstream("second"), upstream("first")) as door:
            found = await asked(door, DEAR)
            may_end.set()
            return found

    expect(inside.run(ask()) == whole, True, "whether the answer is the whole one")

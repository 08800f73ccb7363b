"""What each client pays for, what is left for cheap queries, and how long a kept answer lasts: over
upstreams that take as long as they are told."""

import asyncio
import contextlib
import time
from types import SimpleNamespace
from typing import Any

import pytest

from checks.door import inside, worlds
from checks.door.inside import Timed, answering, left, submitted
from checks.running import expect
from irr.door import submissions
from irr.door.cache import DEAR
from irr.door.pool import QUEUED, TRUSTED
from irr.door.queries import HANDING
from irr.door.service import Service

CHEAP = worlds.AS1 + b"\n"
LONG = b"remarks: x\n" * 100_000 + b"\n"
# The most seconds that anybody waits, on a machine that does other things.
SOON = 60


def test_who_asks_what_is_dear_pays_and_nobody_else() -> None:
    async def ask() -> tuple[float, float]:
        timed = Timed(0.4)
        settings: dict[str, Any] = {"burst": 1.0, "refill": 0.001}
        async with answering(timed) as at:
            async with inside.opened(lambda _: CHEAP, registry=at, **settings) as (door, _):
                place = door.settings.whois[0]
                await inside.asked(place, b"prefixes AS-X", 2)
                await inside.asked(place, b"AS1", 3)
                return left(door, "127.0.0.2"), left(door, "127.0.0.3")

    dear, cheap = inside.run(ask())
    expect(dear < 0.65, True, f"{dear} s are left to the first one")
    expect(cheap > dear + 0.2, True, f"{cheap} s to the other one")


def test_a_kept_answer_that_is_long_is_paid_by_each_who_takes_it() -> None:
    async def ask() -> tuple[list[bytes], float, float]:
        timed = Timed(2 * DEAR, LONG)
        settings: dict[str, Any] = {"burst": 10.0, "refill": 0.001}
        async with answering(timed) as at:
            async with inside.opened(lambda _: CHEAP, registry=at, **settings) as (door, _):
                place = door.settings.whois[0]
                await inside.asked(place, b"expand AS-X", 2)
                before = left(door, "127.0.0.3")
                await inside.asked(place, b"expand AS-X", 3)
                return timed.lines, before, left(door, "127.0.0.3")

    lines, before, after = inside.run(ask())
    expect(len(lines), 1, "queries of the registry")
    paid = len(LONG) * HANDING
    expect(0.9 * paid < before - after < 1.1 * paid, True, f"{before - after} s, of {paid}")


@pytest.mark.parametrize("replicas", [2, 3])
def test_of_two_or_more_replicas_one_is_left_for_cheap_queries(replicas: int) -> None:
    """While many clients ask what is dear, and all of it is begun that may be."""

    async def ask() -> tuple[int, bytes]:
        made = [Timed() for _ in range(replicas)]
        for one in made:
            one.may_answer.clear()
        async with contextlib.AsyncExitStack() as stack:
            urls = [await stack.enter_async_context(answering(one)) for one in made]
            async with inside.opened(lambda _: CHEAP, replica=urls, keep=0) as (door, _):
                place = door.settings.whois[0]
                dear = [
                    asyncio.create_task(inside.asked(place, b"prefixes AS-X%d" % n, 2 + n))
                    for n in range(6)
                ]
                async with asyncio.timeout(SOON):
                    await inside.until(lambda: door.pool.turns.count + replicas - 1 == 6)
                    found = await inside.asked(place, b"AS1", 20)
                begun = sum(line.startswith(b"prefixes") for one in made for line in one.lines)
                for one in made:
                    one.may_answer.set()
                await asyncio.gather(*dear)
                return begun, found

    expect(inside.run(ask()), (replicas - 1, CHEAP), "what is begun of dear ones; the cheap one")


async def opened_pair(
    stack: contextlib.AsyncExitStack, **given: Any
) -> tuple[Service, list[Timed]]:
    """A door over two replicas."""
    made = [Timed(), Timed()]
    urls = [await stack.enter_async_context(answering(one)) for one in made]
    settings: dict[str, Any] = {"replica": urls, "keep": 0, **given}
    door, _ = await stack.enter_async_context(inside.opened(lambda _: CHEAP, **settings))
    return door, made


def count_of(made: list[Timed], line: bytes) -> int:
    return sum(one.lines.count(line) for one in made)


def test_who_has_asked_what_is_cheap_may_ask_what_is_not_known() -> None:
    """In the place that is left for cheap queries, and nobody else may."""

    async def ask() -> tuple[int, bool]:
        async with contextlib.AsyncExitStack() as stack, asyncio.timeout(SOON):
            door, made = await opened_pair(stack)
            place, tasks = door.settings.whois[0], list[asyncio.Task[bytes]]()

            def begin(line: bytes, last: int) -> None:
                tasks.append(asyncio.create_task(inside.asked(place, line, last)))

            known = door.pool.clients.of("127.0.0.3", time.monotonic())
            known.cheap = TRUSTED
            for one in made:
                one.may_answer.clear()
            begin(b"prefixes AS-A", 2)
            await inside.until(lambda: count_of(made, b"prefixes AS-A"))
            begin(b"prefixes AS-B", 4)
            await inside.until(lambda: door.pool.turns.count == 1)
            stranger = count_of(made, b"prefixes AS-B")
            begin(b"prefixes AS-C", 3)
            await inside.until(lambda: count_of(made, b"prefixes AS-C"))
            for one in made:
                one.may_answer.set()
            await asyncio.gather(*tasks)
            # What surprised is paid by those who come after it.
            door.pool.surprise = -1.0
            one_more = door.pool.may_surprise(known, time.monotonic())
            return stranger, one_more

    expect(inside.run(ask()), (0, False), "what a stranger began, and who surprised too much")


def test_a_replica_that_is_about_to_stop_is_asked_nothing(monkeypatch: pytest.MonkeyPatch) -> None:
    monkeypatch.setattr("irr.door.upstreams.ASKING", 0.02)

    async def ask() -> list[int]:
        made = [Timed(), Timed()]
        async with contextlib.AsyncExitStack() as stack, asyncio.timeout(SOON):
            urls = [await stack.enter_async_context(answering(one)) for one in made]

            async def report(_: bytes, writer: asyncio.StreamWriter) -> None:
                entry = '{"port": %s, "ready": %s, "state": "a", "seen": %s}'
                ready = zip(urls, ("false", "true"))
                entries = [
                    entry % (url.rpartition(":")[2], word, time.time()) for url, word in ready
                ]
                writer.write(f'{{"replicas": [{", ".join(entries)}]}}\n'.encode())

            agent = (await stack.enter_async_context(answering(report))).removeprefix("http://")
            door, _ = await stack.enter_async_context(
                inside.opened(lambda _: CHEAP, agent=agent, keep=0)
            )
            await inside.until(lambda: [one.is_up for one in door.pool.replicas] == [True] * 2)
            for _ in range(10):
                await inside.asked(door.settings.whois[0], b"AS1")
            return [len(one.lines) for one in made]

    expect(inside.run(ask()), [0, 10], "queries of the one that stops, and of the other one")


# What is said in each dialect to a client that has used up its waits too.
TOLD = {
    b"AS1": b"% you have asked for too much; ask again later\n",
    b"!gAS1": b"F you have asked for too much; ask again later\n",
    b"-r AS1": b"%ERROR:201: access denied",
}


def test_only_a_client_far_over_its_budget_is_refused() -> None:
    async def ask() -> tuple[dict[bytes, bytes], bytes, bytes, int]:
        timed = Timed(0.4)
        settings: dict[str, Any] = {"burst": 0.2, "refill": 0.001, "keep": 0}
        async with answering(timed) as at:
            async with inside.opened(lambda _: CHEAP, registry=at, **settings) as (door, _):
                place = door.settings.whois[0]
                await inside.asked(place, b"prefixes AS-X", 2)
                found = {line: await inside.asked(place, line, 2) for line in TOLD}
                other = await inside.asked(place, b"AS1", 3)
                get = b"GET /query/AS1 HTTP/1.0\r\nX-Forwarded-For: 127.0.0.2\r\n"
                over_http = await inside.asked(door.settings.http[0], get)
                return found, other, over_http, door.pool.refused["budget"]

    found, other, over_http, count = inside.run(ask())
    for line, words in TOLD.items():
        expect(words in found[line], True, f"{line!r}: {found[line]!r}")
    expect(other, CHEAP, "another client's answer")
    expect((over_http[:12], b"\r\nRetry-After: " in over_http), (b"HTTP/1.1 429", True), "HTTP")
    expect(count, len(TOLD) + 1, "what is counted")


def test_queries_of_a_client_that_wait_have_a_bound() -> None:
    async def ask() -> tuple[int, bytes]:
        timed = Timed()
        timed.may_answer.clear()
        settings: dict[str, Any] = {"of_client": 200, "keep": 0}
        async with answering(timed) as at:
            async with inside.opened(lambda _: CHEAP, registry=at, **settings) as (door, _):
                place = door.settings.whois[0]
                tasks = [asyncio.create_task(inside.asked(place, b"prefixes AS-X", 2))]
                async with asyncio.timeout(SOON):
                    await inside.until(lambda: timed.lines)
                    for number in range(QUEUED + 5):
                        line = b"prefixes AS-X%d" % number
                        tasks.append(asyncio.create_task(inside.asked(place, line, 2)))
                    await inside.until(lambda: sum(one.done() for one in tasks) == 5)
                    other = asyncio.create_task(inside.asked(place, b"AS1", 3))
                    await inside.until(lambda: door.pool.turns.count == QUEUED + 1)
                    timed.may_answer.set()
                    found = await asyncio.gather(*tasks)
                    return sum(b"too much" in one for one in found), await other

    expect(inside.run(ask()), (5, CHEAP), "those that are refused; another client's answer")


def test_submissions_of_a_sender_that_wait_have_a_bound() -> None:
    async def ask() -> list[bytes]:
        timed = Timed()
        timed.report = b"1 as-set AS-X: unchanged\n% items 1\n"
        may_report = asyncio.Event()

        async def late(line: bytes, writer: asyncio.StreamWriter) -> None:
            if line.startswith(b"POST "):
                await may_report.wait()
            await timed(line, writer)

        async with answering(late) as at:
            async with inside.opened(lambda _: CHEAP, registry=at) as (door, _):
                async with asyncio.timeout(SOON):
                    tasks = [asyncio.create_task(submitted(door, "one")) for _ in range(20)]
                    await inside.until(lambda: sum(one.done() for one in tasks) == 3)
                    may_report.set()
                    return [reply[:12] for reply in await asyncio.gather(*tasks)]

    found = inside.run(ask())
    refused = 20 - 1 - submissions.QUEUED
    expect(found.count(b"HTTP/1.1 429"), refused, "those that are refused")
    expect(found.count(b"HTTP/1.1 200"), 20 - refused, "those that are not")


REPORTS = {"added": 2, "changed": 2, "deleted": 2, "unchanged": 1, "refused E11": 1}


@pytest.mark.parametrize("word", REPORTS)
def test_a_kept_answer_lasts_until_a_submission_changes_something(word: str) -> None:
    async def ask() -> int:
        timed = Timed(2 * DEAR)
        timed.report = b"1 as-set AS-X: %s\n%% items 1\n" % word.encode()
        async with answering(timed) as at:
            async with inside.opened(lambda _: CHEAP, registry=at) as (door, _):
                place = door.settings.whois[0]
                await inside.asked(place, b"expand AS-X")
                await inside.asked(place, b"expand AS-X")
                expect(len(timed.lines), 1, "queries before")
                expect(word.encode() in await submitted(door, "one"), True, "the report")
                await inside.asked(place, b"expand AS-X")
                return len(timed.lines)

    expect(inside.run(ask()), REPORTS[word], "queries after")


def test_a_kept_answer_lasts_as_long_as_it_is_set(monkeypatch: pytest.MonkeyPatch) -> None:
    """By a clock that is put on, with which it is looked for."""
    later = [0]
    clock = SimpleNamespace(monotonic=lambda: time.monotonic() + later[0])
    monkeypatch.setattr("irr.door.queries.time", clock)

    async def ask() -> list[int]:
        timed, counts = Timed(2 * DEAR), list[int]()
        async with answering(timed) as at:
            async with inside.opened(lambda _: CHEAP, registry=at, keep=2 * SOON) as (door, _):
                for later[0] in 0, SOON, 2 * SOON:
                    await inside.asked(door.settings.whois[0], b"expand AS-X")
                    counts.append(len(timed.lines))
        return counts

    expect(inside.run(ask()), [1, 1, 2], "queries, at once, within its time and after it")


def test_a_kept_answer_lasts_until_a_replica_is_renewed(monkeypatch: pytest.MonkeyPatch) -> None:
    monkeypatch.setattr("irr.door.upstreams.ASKING", 0.02)
    state = ["a"]

    async def ask() -> list[int]:
        timed = Timed(2 * DEAR)
        async with answering(timed) as at:
            port = at.rpartition(":")[2]

            async def report(_: bytes, writer: asyncio.StreamWriter) -> None:
                entry = '{"port": %s, "ready": true, "state": "%s", "seen": %s}'
                text = '{"replicas": [%s]}\n' % (entry % (port, state[0], time.time()))
                writer.write(text.encode())

            async with answering(report) as agent:
                named = agent.removeprefix("http://")
                async with inside.opened(lambda _: CHEAP, agent=named) as (door, _):
                    place, counts = door.settings.whois[0], list[int]()
                    async with asyncio.timeout(SOON):
                        await inside.until(
                            lambda: [one.is_up for one in door.pool.replicas] == [True]
                        )
                        for _ in range(2):
                            for _ in range(2):
                                await inside.asked(place, b"expand AS-X")
                            counts.append(len(timed.lines))
                            state[0] = "b"
                            await inside.until(lambda: door.pool.replicas[0].state == "b")
                    return counts

    expect(inside.run(ask()), [1, 2], "queries, before it is renewed and after")


def test_who_guesses_passwords_pays_for_each_submission() -> None:
    """However fast the registry refuses them."""

    async def ask() -> float:
        timed = Timed()
        timed.report = b"1 as-set AS-X: refused E11\n% items 1\n"
        settings: dict[str, Any] = {"burst": 10.0, "refill": 0.001}
        async with answering(timed) as at:
            async with inside.opened(lambda _: CHEAP, registry=at, **settings) as (door, _):
                await submitted(door, "one")
                now, senders = time.monotonic(), door.submissions.senders
                return senders.left(senders.of("user one", now), now)

    found = inside.run(ask())
    expect(found <= 10.0 - submissions.GUESS + 0.01, True, f"{found} s are left")


def test_users_behind_one_proxy_have_a_budget_each() -> None:
    """One that has used up its own waits, and another one does not."""

    async def ask() -> tuple[bytes, bool]:
        timed = Timed()
        settings: dict[str, Any] = {"burst": 0.2, "refill": 0.005}
        async with answering(timed) as at:
            async with inside.opened(lambda _: CHEAP, registry=at, **settings) as (door, _):
                timed.report = b"1 as-set AS-X: refused E11\n% items 1\n"
                await submitted(door, "one")
                second = asyncio.create_task(submitted(door, "one"))
                await inside.until(lambda: door.submissions.turns.count)
                async with asyncio.timeout(SOON):
                    found = await submitted(door, "another")
                waits = not second.done()
                second.cancel()
                await asyncio.wait([second])
                await inside.until(lambda: not door.submissions.turns.count)
                return found[:12], waits

    expect(
        inside.run(ask()), (b"HTTP/1.1 200", True), "the other's report; whether the first waits"
    )

"""Queries that several clients ask at the same time."""

import asyncio
import gc

import pytest

from checks.door import inside, worlds
from checks.running import expect
from irr.door.exchange import Exchange

SET = worlds.canonical("as-set: AS-X\nmembers: AS1, AS2\nmnt-by: A-MNT") + b"\n"
ANSWERS = {
    b"AS1": worlds.AS1 + b"\n",
    b"AS2": worlds.AS2 + b"\n",
    b"EXPAND AS-X": b"AS1\nAS2\n",
    b"PREFIXES AS-X": b"10.0.0.0/16\n",
    b"OBJECT AS-SET AS-X": SET,
    b"INVERSE ORIGIN AS1": worlds.ONE + b"\n",
    b"INVERSE MNT A-MNT": worlds.AS1 + b"\n",
}


@pytest.mark.parametrize(
    "line",
    ["AS1", "expand AS-X", "!iAS-X,1", "!iAS-X", "!aAS-X", "!gAS1", "!oA-MNT", "-i mnt-by A-MNT"],
)
@pytest.mark.parametrize("keep", [0, 60])
def test_what_many_ask_at_once_is_asked_once(line: str, keep: int) -> None:
    """While the registry does something else, so that all of them wait for it."""

    async def ask() -> tuple[list[bytes], set[bytes]]:
        def answer(query: bytes) -> bytes:
            return ANSWERS[query.upper()]

        async with inside.opened(answer, keep=keep) as (door, upstream):
            place = door.settings.whois[0]
            upstream.may_answer.clear()
            first = asyncio.create_task(inside.asked(place, b"AS2"))
            await inside.until(lambda: upstream.lines)
            others = [asyncio.create_task(inside.asked(place, line.encode())) for _ in range(8)]
            await inside.until(lambda: len(door.door.connections) == 9)
            await inside.until(lambda: not door.door.silent)
            upstream.may_answer.set()
            found = {await one for one in others}
            await first
            return upstream.lines, found

    lines, found = inside.run(ask())
    expect((len(lines), len(found)), (2, 1), f"queries of the registry: {lines}")
    expect(len(found.pop()) > 5, True, "the answer")


def test_nothing_of_an_exchange_outlives_it() -> None:
    """Its pieces would be memory that nobody counts, until those are looked for that know one
    another."""

    async def ask() -> int:
        async with inside.opened(lambda query: ANSWERS[query.upper()]) as (door, _):
            before = exchanges()
            for _ in range(20):
                await inside.asked(door.settings.whois[0], b"AS1")
            return exchanges() - before

    gc.collect()
    gc.disable()
    try:
        expect(inside.run(ask()) <= 1, True, "exchanges that are kept")
    finally:
        gc.enable()


def exchanges() -> int:
    return sum(isinstance(one, Exchange) for one in gc.get_objects())

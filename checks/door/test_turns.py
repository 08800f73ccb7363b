"""Long work of the door: no turn of its loop does more than a piece of it, whoever asks for how
much."""

import asyncio
import gc
import io
import sys
import threading
import time
from pathlib import Path
from types import FrameType
from typing import Any

import pytest

from checks.door import inside
from checks.door.opened import read_all
from checks.running import Trial, expect
from irr.door.budget import Client, Clients
from irr.door.scheduler import Scheduler
from irr.door.queries import Asker
from irr.local import serials

COUNT = 4_000
# Calls of functions that a turn may make: some 20 ms of them.
MOST = 40_000
ROUTES = b"".join(
    b"route:          10.%d.%d.0/24\norigin:         AS%d\nmember-of:      RS-REF\n"
    b"mnt-by:         A-MNT\nsource:         TEST\n\n" % (n >> 8, n & 255, n % 7 + 1)
    for n in range(COUNT)
)
SET = (
    b"route-set:      RS-REF\nmembers:        %s\nmbrs-by-ref:    A-MNT\nmnt-by:         A-MNT\n"
    b"source:         TEST\n\n"
    % b" ".join(b"10.%d.%d.0/24" % (n >> 8, n & 255) for n in range(3_000))
)
MANY = b"".join(
    b"route:          10.0.0.0/24\norigin:         AS%d\nmnt-by:         A-MNT\n"
    b"source:         TEST\n\n" % n
    for n in range(1, COUNT)
)
ANSWERS = {
    b"MORE 0.0.0.0/0": ROUTES,
    b"MORE 10.0.0.0/8": ROUTES,
    b"MORE 10.0.0.0/14": ROUTES[: ROUTES.find(b"route:          10.4.")],
    b"EXACT 10.0.0.0/24": MANY,
    b"INVERSE ORIGIN AS1": ROUTES,
    b"INVERSE MNT A-MNT": SET + ROUTES,
    b"OBJECT ROUTE-SET RS-REF": SET,
    b"EXPAND AS-X": b"".join(b"AS%d\n" % n for n in range(1, 20_000)),
    b"EXPAND RS-X": b"".join(b"10.%d.%d.0/24^25-26\n" % (n >> 8, n & 255) for n in range(COUNT)),
    b"PREFIXES AS-X": b"".join(b"10.%d.%d.0/24\n" % (n >> 8, n & 255) for n in range(COUNT)),
}
LINES = [
    "!gAS1",
    "!iAS-X,1",
    "!iRS-X,1",
    "!aAS-X",
    "!iRS-REF",
    "!oA-MNT",
    "!r10.0.0.0/8,M",
    "!r10.0.0.0/24,o",
    "-M 0.0.0.0/0",
    "-m 0.0.0.0/0",
    "-F -M 0.0.0.0/0",
    "-K -m 0.0.0.0/0",
    "-F -i mnt-by A-MNT",
    "-i " + ",".join(["mnt-by"] * 100) + " A-MNT",
    "-i member-of RS-REF",
]


class Work:
    """The calls of functions in this thread, and the most of them in a turn of the loop; and of
    these the calls that open a file."""

    def __init__(self) -> None:
        self.calls = self.most = self.all = self.opened = self.most_opened = 0
        self.loop = asyncio.get_running_loop()
        self.is_over = False

    def __enter__(self) -> "Work":
        sys.setprofile(self.note)
        self.loop.call_soon(self.turn)
        return self

    def __exit__(self, *_: object) -> None:
        sys.setprofile(None)
        self.is_over = True

    def note(self, frame: FrameType, event: str, told: Any) -> None:
        self.calls += event in ("call", "c_call")
        self.opened += event == "c_call" and told is io.open

    def turn(self) -> None:
        self.all += self.calls
        self.most, self.calls = max(self.most, self.calls), 0
        self.most_opened, self.opened = max(self.most_opened, self.opened), 0
        if not self.is_over:
            self.loop.call_soon(self.turn)


async def worked(line: str, count: int) -> tuple[int, int, int]:
    """The most calls in a turn while so many clients ask a line, the queries that reached the
    registry, and the bytes of the answer."""
    async with inside.opened(lambda query: ANSWERS[query.upper()], keep=60) as (door, upstream):
        place = door.settings.whois[0]
        with Work() as work:
            found = await asyncio.gather(
                *(inside.asked(place, line.encode()) for _ in range(count))
            )
        expect(len(set(found)), 1, "answers")
        return work.most, len(upstream.lines), len(found[0])


@pytest.mark.parametrize("line", LINES)
def test_a_long_answer_is_made_in_many_turns(line: str) -> None:
    most, _, size = inside.run(worked(line, 1))
    expect((most <= MOST, size > 10_000), (True, True), f"{most} calls, {size} bytes")


def test_many_who_ask_at_once_make_no_turn_longer() -> None:
    most, asked, _ = inside.run(worked("-F -M 10.0.0.0/14", 3))
    expect((most <= MOST, asked), (True, 1), f"{most} calls, {asked} queries")


def test_of_what_a_client_asks_for_one_after_the_other_is_made() -> None:
    """And who has used less comes first."""
    made: list[str] = []

    async def work(scheduler: Scheduler, client: Client, name: str) -> None:
        for number in range(3):
            await scheduler.turn(client, number > 0)
            made.append(name)

    async def all_of_it() -> None:
        clients = Clients(0.5, 3.0)
        scheduler = Scheduler(asyncio.get_running_loop(), clients)
        now = time.monotonic()
        one, other = clients.of("192.0.2.1", now), clients.of("192.0.2.2", now)
        clients.charge(one, 1_000.0, now)
        names = [(one, "a"), (one, "b"), (other, "c")]
        await asyncio.gather(*(work(scheduler, client, name) for client, name in names))

    asyncio.run(all_of_it())
    expect(made, list("cccaaabbb"), "whose turn it was")


def test_what_is_being_made_is_counted() -> None:
    async def ask() -> tuple[int, int, int]:
        async with inside.opened(lambda query: ROUTES) as (door, _):
            pool = door.pool
            asker = Asker(pool, pool.clients.of("192.0.2.1", 0.0))
            before, most = pool.ledger.used, 0
            async for _ in asker.pieces(ROUTES, b"\n\n"):
                most = max(most, pool.ledger.used)
            gc.collect()
            return before, most, pool.ledger.used

    before, most, after = inside.run(ask())
    expect((before, most, after), (0, len(ROUTES), 0), "bytes that are counted")


# Files that a turn may open: some milliseconds of them.
MOST_FILES = 150


@pytest.fixture(scope="module")
def history(trial: Trial) -> Path:
    """A history of as many states as are kept, each of one change."""
    folder = Path(trial.place("history"))
    (folder / "serials").mkdir()
    for last in range(1, serials.MOST_STATES + 1):
        numbered = serials.Numbered("TEST", last, last, 0, "0" * 40, "0" * 64)
        text = b"\nADD %d\n\naut-num: AS%d\nsource: TEST\n" % (last, last)
        serials.Serials(folder).path(last).write_bytes(numbered.head() + text)
    return folder


def taken(place: str, line: bytes, found: list[bytes]) -> None:
    """A client in a thread of its own, which takes what comes as fast as it can."""
    with inside.plain(place) as peer:
        peer.sendall(line)
        found.append(read_all(peer))


def test_a_long_range_of_serials_is_answered_in_many_turns(history: Path) -> None:
    async def ask() -> tuple[int, int, list[bytes]]:
        given: dict[str, Any] = {"history": str(history), "mirrors": ["127.0.0.1"]}
        async with inside.opened(lambda line: b"% no entries\n", **given) as (door, _):
            found: list[bytes] = []
            words = (door.settings.whois[0], b"-g TEST:3:1-LAST\r\n", found)
            thread = threading.Thread(target=taken, args=words)
            with Work() as work:
                thread.start()
                await inside.until(lambda: found)
            thread.join()
            return work.most, work.most_opened, found

    most, opened, (answer,) = inside.run(ask())
    expect((answer.count(b"\nADD "), answer[-12:]), (5_000, b"\n%END TEST\n\n"), "the answer")
    expect(most <= MOST, True, f"{most} calls in a turn")
    expect(opened <= MOST_FILES, True, f"{opened} files opened in a turn")


def test_a_long_answer_that_is_taken_at_once_leaves_room_for_others() -> None:
    """However fast a client takes it, no turn sends more than some of it."""
    text = b"remarks: x\n" * (2 << 20) + b"\n"

    async def ask() -> tuple[int, int]:
        async with inside.opened(lambda line: text, keep=60) as (door, _):
            found: list[bytes] = []
            words = (door.settings.whois[0], b"AS1\r\n", found)
            thread = threading.Thread(target=taken, args=words)
            sent: list[int] = []
            most = 0

            def turn() -> None:
                nonlocal most
                places = [one.place for one in door.door.connections]
                sent.append(max(places, default=0))
                if len(sent) > 1:
                    most = max(most, sent[-1] - sent[-2])
                if not found:
                    door.loop.call_soon(turn)

            thread.start()
            turn()
            await inside.until(lambda: found)
            thread.join()
            return most, len(found[0])

    most, size = inside.run(ask())
    expect(size, len(text), "bytes of the answer")
    expect(most <= 1 << 21, True, f"{most} bytes in a turn")

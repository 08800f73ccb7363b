"""The one layer that all dialects ask by: a query of the registry, and its whole answer, in words
that a dialect can turn into its own."""

import asyncio
import re
import time
from typing import AsyncIterator, Iterable, Iterator, Optional, Sequence, TypeVar

from irr.door.budget import Client
from irr.door.cache import DEAR, Answer, Full
from irr.door.pool import BEHIND, FULL, TOO_MUCH, Answered, Pending, Pool, Refused, awaited
from irr.registry import queries
from irr.rpsl import keys, syntax

One = TypeVar("One")
VERBS = (b"OBJECT", b"EXACT", b"CLOSEST", b"LESS", b"MORE", b"INVERSE", b"EXPAND", b"PREFIXES")
NOTHING, EMPTY = b"% no entries\n", b"% empty\n"
ERROR = re.compile(rb"% error ([0-9]+)\n")
# What stands after the name of an attribute in canonical text, with the lines that go on with it.
VALUE = rb":([^\n]*(?:\n[ +][^\n]*)*)"
# The bytes of a kept answer that cost nothing, and the seconds that each byte of a longer one is
# taken to cost.
FREE, HANDING = 1 << 18, 0.02 / (1 << 20)
# Bytes of an answer that are turned at once, while others wait: some milliseconds; and those of one
# that is turned as it comes.
PIECE, SHORT = 1 << 14, 1 << 12
# The items of a list that are turned at once.
SOME = 250
OTHERS = "the view has other sources now, or another order; ask again"


def normal(query: bytes) -> bytes:
    """A query in the one spelling by which it is known: the registry heeds neither letter case nor
    how many blanks there are."""
    return b" ".join(queries.WORD.findall(query)).upper()


def kind_of(key: bytes) -> str:
    """The kind of a query, by which its cost is guessed."""
    words = key.split(b" ", 2)
    if len(words) == 1 or words[0] not in VERBS:
        return "word"
    if words[0] == b"INVERSE" and words[1] in (b"MNT", b"ORIGIN"):
        return f"inverse {words[1].decode().lower()}"
    return words[0].decode().lower()


def is_native(line: bytes) -> bool:
    """Whether a line of whois is for the registry itself: one of its queries, or one word that it
    looks up."""
    words = queries.WORD.findall(line)
    if not words:
        return True
    if len(words) > 1:
        return words[0].upper() in VERBS
    # The word that is asked most is told by itself.
    return keys.read_as(words[0]) is not None or queries.one_word(words[0]).fits is not None


class Asker:
    """Asks for one client; by sources, if it has named these."""

    __slots__ = ("pool", "client", "address", "sources")

    def __init__(self, pool: Pool, client: Client, address: str = "", sources: str = "") -> None:
        self.pool, self.client, self.address, self.sources = pool, client, address, sources

    def is_of_sources(self) -> bool:
        """Whether what is asked is of the sources that were named, and has not changed since."""
        return not self.sources or self.pool.views.chosen(self.sources) is self.pool

    def kept(self, key: bytes) -> Optional[Answer]:
        """An answer that is kept, which costs nothing."""
        return self.pool.cache.get(key, time.monotonic()) if self.is_of_sources() else None

    def begin(self, query: bytes, answered: Answered) -> "Answer | Pending":
        """The answer to a query where it is known, else what is waited for until it is told;
        Refused if it is not asked."""
        if queries.BAD_BYTE.search(query) or len(query) > queries.LONGEST:
            # The registry would answer the same, but a line with such a byte may be two.
            return self.own(b"% error 2\n" if len(query) > queries.LONGEST else b"% error 1\n")
        key = normal(query)
        kept = self.kept(key)
        if kept is None:
            return self.pool.ask(self.client, key, query + b"\r\n", kind_of(key), answered)
        wait = self.charge(len(kept.text))
        return self.pool.loop.call_later(wait, answered, kept) if wait > 0 else kept

    async def ask(self, query: bytes) -> Answer:
        """The answer to a query; Refused if there is none."""
        answer = await awaited(lambda answered: self.begin(query, answered))
        if not self.is_of_sources():
            raise Refused("down", f"{self.sources}: {OTHERS}")
        assert isinstance(answer, Answer)
        return answer

    def charge(self, size: int) -> float:
        """Has the client pay for a kept answer of this size, if that is long; the seconds that it
        has to wait, while it has nothing left."""
        if size <= FREE:
            return 0.0
        clients, now = self.pool.clients, time.monotonic()
        wait = clients.wait(self.client, now)
        if wait > BEHIND:
            self.pool.count("budget")
            raise Refused("budget", TOO_MUCH, int(wait) + 1)
        clients.charge(self.client, size * HANDING, now)
        return wait

    async def pay(self, size: int) -> None:
        """The same, and waits so long."""
        wait = self.charge(size)
        if wait > 0:
            await asyncio.sleep(wait)

    def own(self, text: bytes, cost: float = 0.0) -> Answer:
        """An answer that was made here."""
        try:
            return Answer(text, cost, self.pool.ledger)
        except Full:
            raise Refused("full", FULL) from None

    def keep(self, key: bytes, answer: Answer, state: int) -> None:
        """Keeps what was made of an answer that cost enough."""
        if answer.cost >= DEAR:
            self.pool.cache.put(key, answer, state, time.monotonic())

    async def pieces(self, text: bytes, end: bytes) -> AsyncIterator[bytes]:
        """A long answer in pieces that end with `end`, each in a turn of its own."""
        if len(text) <= SHORT:
            yield text
            return
        # What is made of a piece takes about as much memory as the piece.
        room = self.own(b"")
        async for piece in self.paced(cut(text, end)):
            try:
                self.pool.ledger.take(len(piece), room.counted)
            except Full:
                raise Refused("full", FULL) from None
            room.counted += len(piece)
            yield piece

    async def some(self, items: Sequence[One]) -> AsyncIterator[Sequence[One]]:
        """The items of a list, some in a turn."""
        if len(items) <= SOME // 4:
            yield items
            return
        async for part in self.paced(
            items[place : place + SOME] for place in range(0, len(items), SOME)
        ):
            yield part

    async def paced(self, pieces: Iterable[One]) -> AsyncIterator[One]:
        """Pieces of work, each in a turn of its own; the client pays for the time."""
        for number, piece in enumerate(pieces):
            await self.pool.scheduler.turn(self.client, number > 0)
            begun = time.perf_counter()
            yield piece
            seconds = time.perf_counter() - begun
            self.pool.clients.charge(self.client, seconds, time.monotonic())


def cut(text: bytes, end: bytes) -> Iterator[bytes]:
    """A text in pieces, each up to an `end`."""
    if len(text) <= PIECE:
        yield text
        return
    place = 0
    while place < len(text):
        stop = text.find(end, place + PIECE)
        stop = len(text) if stop < 0 else stop + len(end)
        yield text[place:stop]
        place = stop


# What is in the answers.


def is_objects(text: bytes) -> bool:
    return text[:1] != b"%"


def blocks(text: bytes) -> list[bytes]:
    """The objects of an answer, each with its last line feed, without the empty line after it."""
    return [block + b"\n" for block in text.removesuffix(b"\n\n").split(b"\n\n")] if text else []


def class_of(block: bytes) -> bytes:
    return block[: block.find(b":")]


def error_of(text: bytes) -> int:
    """The number of `% error n`; 0 for any other answer."""
    found = ERROR.fullmatch(text)
    return int(found[1]) if found else 0


def value_of(block: bytes, name: bytes) -> bytes:
    """What the first attribute of a name says."""
    found = re.search(rb"^" + name + VALUE, block, re.M)
    return meaning_of(found[1]) if found else b""


def meaning_of(value: bytes) -> bytes:
    """What a value says that stands on these lines."""
    first, *more = value.split(b"\n")
    return syntax.Attribute(b"", [first, *(line[1:] for line in more)]).meaning()


def prefix_of(block: bytes) -> Optional[keys.Prefix]:
    """The prefix of a route."""
    return keys.read_prefix(value_of(block, b"route"))

"""Answers that are kept, the memory that all answers take, and what queries have cost."""

from collections import OrderedDict
from typing import Callable, Optional

# The seconds from which on an answer is worth to be kept, and a query is dear.
DEAR = 0.05
# How many queries are remembered by what they cost.
REMEMBERED = 16_384
UNKNOWN = float("inf")
# The bytes of a short answer. An eighth of the memory of answers is for these alone.
SHORT = 1 << 16
# What kinds of which nothing was measured yet are taken to cost: those whose answer grows with what
# is registered may be dear.
GUESSES = {
    kind: 1.0 for kind in ("expand", "prefixes", "inverse mnt", "inverse origin", "inverse", "more")
}


class Full(Exception):
    """The answers in memory have no room for more."""


class Ledger:
    """The bytes that answers take in all. Where there is no room, the `makers` make some, one thing
    each time, and say whether they had anything to give up."""

    __slots__ = ("most", "used", "makers")

    def __init__(self, most: int) -> None:
        self.most, self.used = most, 0
        self.makers: list[Callable[[], bool]] = []

    def take(self, size: int, before: int = 0) -> None:
        """Takes more bytes for an answer that has some."""
        most = self.most if before + size <= SHORT else self.most - self.most // 8
        while self.used + size > most:
            if size > most or not any(make_room() for make_room in self.makers):
                raise Full
        self.used += size

    def release(self, size: int) -> None:
        self.used -= size


class Answer:
    """A whole answer: its bytes, which are counted until nobody has it any more, and the seconds
    that it cost."""

    __slots__ = ("text", "cost", "ledger", "counted")

    def __init__(
        self, text: bytes, cost: float, ledger: Ledger, counted: Optional[int] = None
    ) -> None:
        """What is `counted` of it was taken from the ledger before; else all of it is taken
        here."""
        self.counted = 0
        self.text, self.cost, self.ledger = text, cost, ledger
        if counted is None:
            ledger.take(len(text))
            counted = len(text)
        self.counted = counted

    def __del__(self) -> None:
        self.ledger.release(self.counted)


class Cache:
    """Answers by what was asked, the least used gone first. `renew` makes all of them old."""

    def __init__(self, most: int, seconds: float) -> None:
        self.most, self.seconds, self.size, self.hits, self.misses = most, seconds, 0, 0, 0
        self.entries: OrderedDict[bytes, tuple[Answer, float]] = OrderedDict()
        # The state that answers are of: one that was asked in an earlier one is not kept.
        self.state = 0

    def get(self, key: bytes, now: float) -> Optional[Answer]:
        entry = self.entries.get(key)
        if entry is None:
            self.misses += 1
            return None
        answer, end = entry
        if now >= end:
            self.drop(key)
            self.misses += 1
            return None
        self.entries.move_to_end(key)
        self.hits += 1
        return answer

    def put(self, key: bytes, answer: Answer, state: int, now: float) -> None:
        """Keeps an answer of a state, if that is still the state."""
        if state != self.state or len(answer.text) > self.most or self.seconds <= 0:
            return
        self.drop(key)
        self.entries[key] = answer, now + self.seconds
        self.size += len(answer.text)
        while self.size > self.most:
            self.drop(next(iter(self.entries)))

    def drop(self, key: bytes) -> None:
        entry = self.entries.pop(key, None)
        if entry is not None:
            self.size -= len(entry[0].text)

    def shrink(self) -> bool:
        """Gives up the answer that was used least of late. Whether there was one."""
        if not self.entries:
            return False
        self.drop(next(iter(self.entries)))
        return True

    def renew(self) -> None:
        self.state += 1
        self.entries.clear()
        self.size = 0


class Costs:
    """What queries cost before: each by itself, and those of a kind.

    Of a query the lesser of its last two costs counts: a machine that does other things makes one
    answer late now and then, and none early."""

    def __init__(self) -> None:
        self.queries: OrderedDict[bytes, tuple[float, float]] = OrderedDict()
        self.kinds: dict[str, float] = dict(GUESSES)

    def learn(self, key: bytes, kind: str, seconds: float) -> None:
        _, last = self.queries.get(key, (0.0, UNKNOWN))
        self.queries[key] = last, seconds
        self.queries.move_to_end(key)
        if len(self.queries) > REMEMBERED:
            self.queries.popitem(last=False)
        before = self.kinds.get(kind, 0.0)
        # A dear one is remembered for some dozens of cheap ones.
        self.kinds[kind] = max(seconds, before * 0.95)

    def known(self, key: bytes) -> Optional[float]:
        """What this very query costs; None as long as that is not sure."""
        before, last = self.queries.get(key, (UNKNOWN, UNKNOWN))
        least = min(before, last)
        return least if least < DEAR or max(before, last) < UNKNOWN else None

    def expected(self, key: bytes, kind: str) -> float:
        """What a query is taken to cost: what it is known to, else what its kind does."""
        found = self.known(key)
        return self.kinds.get(kind, 0.0) if found is None else found

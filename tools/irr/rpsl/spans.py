"""Which of many spans cross an earlier one, where of two that cross the first stays."""
import heapq
from bisect import bisect_left, bisect_right
from typing import Sequence

Pair = tuple[int, int]
NOTHING = 1 << 64


class Least:
    """The least of the values at a run of places."""

    def __init__(self, size: int) -> None:
        self.size, self.nodes = size, [NOTHING] * (2 * size)

    def lower(self, place: int, value: int) -> None:
        """Puts a value at a place, unless a lesser one is there."""
        place += self.size
        while place and self.nodes[place] > value:
            self.nodes[place] = value
            place >>= 1

    def of(self, first: int, end: int) -> int:
        """The least value from a first place to before an end."""
        best, first, end = NOTHING, first + self.size, end + self.size
        while first < end:
            if first & 1:
                best = min(best, self.nodes[first])
                first += 1
            if end & 1:
                end -= 1
                best = min(best, self.nodes[end])
            first, end = first >> 1, end >> 1
        return best


def beginning_inside(spans: Sequence[Pair]) -> set[int]:
    """The places of the spans that begin inside another one, after its first number, and end after
    it."""
    found: set[int] = set()
    open_ends: list[int] = []
    waiting: list[int] = []
    start = None
    for place in sorted(range(len(spans)), key=spans.__getitem__):
        first, last = spans[place]
        if first != start:
            # Those with the same first number cross none of one another.
            for end in waiting:
                heapq.heappush(open_ends, end)
            waiting, start = [], first
            while open_ends and open_ends[0] < first:
                heapq.heappop(open_ends)
        if open_ends and open_ends[0] < last:
            found.add(place)
        waiting.append(last)
    return found


def crossing(spans: Sequence[Pair]) -> list[int]:
    """The places of the spans that cross one before them that stays."""
    # Whoever crosses none at all stays, and is in nobody's way.
    some = sorted(
        beginning_inside(spans) | beginning_inside([(-last, -first) for first, last in spans])
    )
    firsts, lasts = sorted({spans[place][0] for place in some}), sorted(
        {spans[place][1] for place in some}
    )
    first_by_last, last_by_first = Least(len(lasts)), Least(len(firsts))
    gone = []
    for place in some:
        first, last = spans[place]
        before = first_by_last.of(bisect_left(lasts, first), bisect_left(lasts, last))
        after = -last_by_first.of(bisect_right(firsts, first), bisect_right(firsts, last))
        if before < first or after > last:
            gone.append(place)
        else:
            first_by_last.lower(bisect_left(lasts, last), first)
            last_by_first.lower(bisect_left(firsts, first), -last)
    return gone

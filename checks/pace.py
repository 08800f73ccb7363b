"""How much slower the machine is, here and now, than the one on which the figures of the pages were
taken. What else runs slows each kind of work by a factor of its own. On a busy machine digests were
seen to take 1.8 times as long, queries and sorting 1.55 times; at the best moments beside three
processes that copy memory, 1.0, 1.15 and 1.17 times."""

import hashlib
import random
import time
from collections.abc import Callable

Work = Callable[[], None]
CHANCE = random.Random(1)
SCATTERED = [CHANCE.getrandbits(60) for _ in range(100_000)]


def digesting() -> None:
    """Arithmetic."""
    for number in range(50_000):
        hashlib.sha256(b"s%d" % number).digest()


def sorting() -> None:
    """Comparisons of what lies anywhere in memory, like those of a query."""
    for _ in range(3):
        sorted(SCATTERED)


# What each takes there, where nothing else runs.
SECONDS: dict[Work, float] = {digesting: 0.042, sorting: 0.1}


def pace(clock: Callable[[], float] = time.process_time, work: Work = digesting) -> float:
    """How many times as long a piece of work takes by a clock, never less than once: by that of the
    processor on a slower machine, by the wall's also while others have the processors."""
    start = clock()
    work()
    return max(1.0, (clock() - start) / SECONDS[work])

"""What the door reports of itself: counters, `/metrics` in Prometheus's text, and `/status` in JSON
and in lines for people."""

import json
import time
import traceback
from collections import Counter
from typing import Any, Callable, Iterator, Mapping

from irr import VERSION
from irr.door import upstreams
from irr.door.pool import Pool
from irr.door.settings import Settings
from irr.door.upstreams import Upstream
from irr.terminal import texts


class Counters:
    """What is counted as it happens."""

    def __init__(self) -> None:
        self.queries: Counter[tuple[str, str]] = Counter()
        self.connections: Counter[str] = Counter()
        # An alert looks for the first one, which has to be seen at 0 before.
        self.submissions: Counter[str] = Counter({"E91": 0})
        self.faults = 0
        self.begun = time.monotonic()

    def query(self, dialect: str, outcome: str) -> None:
        self.queries[dialect, outcome] += 1

    def connection(self, what: str) -> None:
        self.connections[what] += 1

    def fault(self, what: str, error: Exception) -> None:
        """A fault of the door itself, which the journal has with where it happened, and without
        what was sent."""
        self.faults += 1
        frames = traceback.extract_tb(error.__traceback__)
        where = f"{frames[-1].filename.rpartition('/')[2]}:{frames[-1].lineno}" if frames else "?"
        texts.note(f"irr door: {what}: {type(error).__name__} ({where}); report this")


class Status:
    """The state of a door."""

    def __init__(
        self,
        settings: Settings,
        pool: Pool,
        counters: Counters,
        connections: Callable[[], int],
        waiting: Callable[[], int],
    ) -> None:
        self.settings, self.pool, self.counters = settings, pool, counters
        # How many connections there are, and how many submissions wait.
        self.connections, self.waiting = connections, waiting

    def upstream(self, one: Upstream) -> dict[str, Any]:
        age = one.age()
        return {
            "name": one.name,
            "up": one.is_up,
            "serves": one.serves(self.settings.oldest),
            "draining": one.is_draining,
            "state": one.state or None,
            "age": None if age is None else round(age, 1),
            "asked": one.asked,
            "failed": one.failed,
            "seconds": round(one.seconds, 3),
            "why": one.why or None,
        }

    def faults(self) -> list[str]:
        """What is wrong, in lines for people."""
        found = [f"{one.name}: {one.why}" for one in self.pool.all() if not one.is_up]
        for one in self.pool.replicas:
            age = one.age()
            if one.is_up and age is not None and age > self.settings.oldest:
                found.append(f"{one.name}: its state is {texts.counted(int(age), 'second')} old")
        found += upstreams.not_renewed("replicas are", self.pool.reported, self.pool.replicas)
        found += upstreams.ahead(self.pool.replicas)
        return found + self.pool.mirrors.faults() + self.pool.views.faults()

    def all(self) -> dict[str, Any]:
        pool, counters = self.pool, self.counters
        return {
            "version": VERSION,
            "source": pool.source or None,
            "well": not self.faults() and pool.answers,
            "serves": pool.answers,
            "faults": self.faults(),
            "running": round(time.monotonic() - counters.begun, 1),
            "connections": self.connections(),
            "waiting": pool.turns.count,
            "submissions_waiting": self.waiting(),
            "upstreams": [self.upstream(one) for one in pool.all()],
            "views": [
                {**view.status(), "upstreams": [self.upstream(one) for one in view.all()]}
                for view in pool.views.pools
            ],
            "answers_bytes": pool.ledger.used,
            "cache": {
                "answers": len(pool.cache.entries),
                "bytes": pool.cache.size,
                "hits": pool.cache.hits,
                "misses": pool.cache.misses,
            },
            "refused": dict(pool.refused),
            "serials": pool.mirrors.status(),
        }

    def json(self) -> bytes:
        return json.dumps(self.all(), indent=2).encode() + b"\n"

    def line(self) -> bytes:
        """A line for people, and one for each fault."""
        state = self.all()
        word = "well" if state["well"] else "in part" if state["serves"] else "DOWN"
        serving = [one for one in state["upstreams"] if one["serves"]]
        ages = [one["age"] for one in serving if one["age"] is not None]
        up = sum(one["serves"] for one in state["upstreams"][1:])
        first = (
            f"{word}: {state['source'] or 'no registry'}, {texts.counted(up, 'replica')}"
            + (f" at most {max(ages):.0f} s old" if ages else "")
            + f", {texts.counted(state['connections'], 'connection')}, {state['waiting']} waiting"
        )
        return "".join(f"{texts.shown_line(line)}\n" for line in [first, *state["faults"]]).encode()

    def metrics(self) -> bytes:
        return "".join(f"{line}\n" for line in self.samples()).encode()

    def samples(self) -> Iterator[str]:
        """Each figure with what it is (the text format of Prometheus, 0.0.4)."""
        pool, counters = self.pool, self.counters
        ups = {f'upstream="{one.place.text()}"': one for one in pool.all()}
        ages = {label: one.age() for label, one in ups.items()}
        yield from family(
            "queries_total",
            "Queries by dialect and outcome.",
            {
                f'dialect="{dialect}",outcome="{outcome}"': count
                for (dialect, outcome), count in sorted(counters.queries.items())
            },
        )
        by_word: list[tuple[str, str, str, Mapping[str, float]]] = [
            (
                "registry_seconds_total",
                "Seconds of upstreams by the kind of query.",
                "kind",
                pool.seconds,
            ),
            ("refused_total", "Queries that got no answer, by why.", "why", pool.refused),
            (
                "submissions_total",
                "Items and submissions, by outcome.",
                "outcome",
                counters.submissions,
            ),
            (
                "connections_total",
                "Connections by port, refused, and late.",
                "what",
                counters.connections,
            ),
        ]
        for name, what, label, found in by_word:
            yield from family(
                name, what, {f'{label}="{word}"': found[word] for word in sorted(found)}
            )
        for name, what, value in (
            ("waiting", "Queries that wait for their turn.", pool.turns.count),
            ("submissions_waiting", "Submissions that wait.", self.waiting()),
            ("connections", "Connections now.", self.connections()),
            ("cache_bytes", "Bytes of answers that are kept.", pool.cache.size),
            ("cache_hits_total", "Queries answered by a kept answer.", pool.cache.hits),
            ("answers_bytes", "Bytes of all answers in memory.", pool.ledger.used),
            ("faults_total", "Faults of the door itself.", counters.faults),
            ("serial", "The last serial that mirrors can follow; 0 for none.", pool.mirrors.last()),
            (
                "renewal_failed",
                "Whether replicas can't be renewed.",
                int(bool(pool.reported.get("fault"))),
            ),
        ):
            yield from family(name, what, {"": value})
        yield from family(
            "upstream_up",
            "Whether an upstream answers.",
            {label: int(one.is_up) for label, one in ups.items()},
        )
        yield from family(
            "upstream_age_seconds",
            "Seconds since the registry had the state that is served.",
            {label: age for label, age in ages.items() if age is not None},
        )
        yield from family(
            "upstream_seconds_total",
            "Seconds for which an upstream was asked.",
            {label: one.seconds for label, one in ups.items()},
        )


def family(name: str, what: str, samples: Mapping[str, float]) -> Iterator[str]:
    """A figure with its name, its meaning and its samples; what ends in `_total` only grows."""
    kind = "counter" if name.endswith("_total") else "gauge"
    yield f"# HELP irrdesk_door_{name} {what}"
    yield f"# TYPE irrdesk_door_{name} {kind}"
    for labels, value in samples.items():
        yield f"irrdesk_door_{name}{'{' + labels + '}' if labels else ''} {value:.10g}"

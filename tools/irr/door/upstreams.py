"""The registry and its replicas: which of them answer, and of what state."""

import asyncio
import json
import time
from typing import Any, Callable, Optional

from irr.door.budget import REMEMBERED
from irr.door.exchange import Exchange
from irr.door.settings import Place
from irr.door.sockets import Watch
from irr.registry import answers
from irr.rpsl import keys, syntax
from irr.terminal import texts

# The query that each is asked to see that it answers: one object, and the registry's name in it.
PROBE, NOTHING = b"less 0.0.0.0/0\r\n", b"% no entries\n"
# What a registry answers from then on whose database has failed.
STOPPED = b"% error 6\n"
# What has an object where that inetnum is not registered: the beginning of the dump.
DUMP = b"GET /dump HTTP/1.1\r\nHost: 127.0.0.1\r\nConnection: close\r\n\r\n"
# Seconds between two such looks at one that answers, and at one that does not; and for the answer
# to come.
EVERY, AGAIN, ANSWERING = 2.0, 0.5, 2.0
# The bytes of that answer that are read: more are no reason to think that it does not answer.
MOST = 1 << 22
# The most seconds that a look is taken to need.
MOST_IDLE = 0.05
# Seconds between two looks at what the agent of the replicas says, and for it to say it.
ASKING, ASKING_AGAIN, AGENT = 1.0, 5.0, 2.0
# How many seconds in the future a state may be dated, as `irr check` has it by default.
AHEAD = 300.0


class Upstream:
    """A registry or a replica at a place. It has one exchange at a time."""

    def __init__(self, place: Place, is_registry: bool = False) -> None:
        self.place, self.is_registry = place, is_registry
        self.name = ("registry " if is_registry else "replica ") + place.text()
        self.exchange: Optional[Exchange] = None
        # What it is asked, if that is a query; whether a submission has it.
        self.request: Any = None
        self.is_held = False
        # Whether it has told the registry's name since it answers.
        self.is_named = False
        # Whether what it does now is a dear query.
        self.is_dear = False
        self.is_up, self.is_draining, self.why = True, False, "not asked yet"
        self.looked = 0.0
        # When the last look that is over was begun: what has come since waits for the next one, for
        # it may have been started meanwhile.
        self.judged = 0.0
        # The state that it serves, and when the registry was last seen to have that state: by the
        # clock, and by one that nobody sets.
        self.state, self.seen, self.since = "", 0.0, 0.0
        self.asked, self.failed, self.seconds = 0, 0, 0.0
        # What a look at it takes, which nobody pays for: a machine that is busy makes all of it
        # slower.
        self.idle = 0.0

    def age(self) -> Optional[float]:
        """The seconds since the registry was seen in the state that is served; None if nobody
        tells."""
        return time.monotonic() - self.since if self.seen else None

    def see(self, at: float) -> None:
        """Takes in when the registry was seen in that state, by the clock. One that is set later
        makes no state older or newer."""
        if at != self.seen:
            self.seen, self.since = at, time.monotonic() - max(0.0, time.time() - at)

    @property
    def answers(self) -> bool:
        return self.is_up and not self.is_draining

    def serves(self, oldest: float) -> bool:
        """Whether it answers, and its state is not too old."""
        return self.answers and (not self.seen or time.monotonic() - self.since <= oldest)

    def fall(self, why: str, now: float) -> None:
        """Leaves it out until it answers again."""
        self.is_up, self.why, self.looked, self.is_named = False, why, now, False

    def look(
        self,
        watch: Watch,
        done: Callable[[], None],
        found: Callable[[bytes], None],
    ) -> None:
        """Asks it whether it answers; `found` gets an object of it."""
        now = time.monotonic()
        self.looked = now

        def ended(text: bytes, fault: Optional[str]) -> None:
            self.judged = now
            has_end = text.endswith(b"\n\n") or fault == "long"
            is_good = has_end and answers.looks_like_objects(text) or text == NOTHING
            if is_good and fault in (None, "long"):
                self.is_up, self.why = True, ""
                self.idle = min(MOST_IDLE, (self.idle + time.monotonic() - now) / 2)
                if text == NOTHING and not self.is_named:
                    self.ask(watch, DUMP, begun, b"\n\n")
                    return
                self.is_named = True
                found(text)
            else:
                self.fall(why_of(fault, text), time.monotonic())
            done()

        def begun(text: bytes, _: Optional[str]) -> None:
            first = first_of_dump(text)
            if answers.looks_like_objects(first):
                self.is_named = True
                found(first)
            done()

        self.ask(watch, PROBE, ended)

    def ask(
        self,
        watch: Watch,
        request: bytes,
        ended: Callable[[bytes, Optional[str]], None],
        last: bytes = b"",
    ) -> None:
        """Asks it until the answer ends, is long, or has the last bytes that are wanted of it."""
        parts: list[bytes] = []

        def take(piece: bytes) -> None:
            parts.append(piece)
            if exchange.size > MOST or last and last in piece:
                raise ValueError("long")

        def over(fault: Optional[str]) -> None:
            self.exchange = None
            ended(b"".join(parts), fault)

        exchange = Exchange(watch, self.place, request, take, over)
        if not exchange.is_over:
            self.exchange = exchange


class Changes:
    """When the registry last decided an item of each client: replicas of an earlier state may lack
    what that changed, or what it was decided by. One of which nobody tells the age is taken to have
    both."""

    def __init__(self) -> None:
        self.at: dict[str, float] = {}

    def add(self, client: str, now: float) -> None:
        self.at.pop(client, None)
        self.at[client] = now
        if len(self.at) > REMEMBERED:
            del self.at[next(iter(self.at))]

    def had_by(
        self, free: list[Upstream], client: str, registry: Optional[Upstream]
    ) -> list[Upstream]:
        """Of the upstreams that are free those of no earlier state than the last decision for a
        client; where there is none, the registry, if it is free too."""
        decided = self.at.get(client, 0.0)
        found = [one for one in free if not one.seen or one.since >= decided]
        if found or registry is None or registry.exchange is not None or not registry.is_up:
            return found or free
        return [registry]


def first_of_dump(answer: bytes) -> bytes:
    """The first object of a dump over HTTP; nothing where it is not whole."""
    first, end, _ = answer.partition(b"\r\n\r\n")[2].partition(b"\n\n")
    return first + end if end else b""


def why_of(fault: Optional[str], text: bytes = b"") -> str:
    """Why one is left out, in words."""
    if fault == "ECONNREFUSED":
        return "nobody listens there"
    if text == STOPPED:
        return "its database has failed"
    return f"it does not answer ({fault})" if fault else "its answer is none of a registry"


def source_in(text: bytes) -> str:
    """The registry's name in the first object of an answer; nothing if there is none."""
    first = text.partition(b"\n\n")[0]
    try:
        source = keys.as_text(syntax.read_any(first).value(b"source")) if first[:1] != b"%" else ""
    except syntax.TextFault:
        return ""
    return keys.read_source(source) or ""


async def reported_by(agent: Place) -> Optional[dict[str, Any]]:
    """What the agent of `irr mirror` says of its replicas; None if there is none."""
    try:
        async with asyncio.timeout(AGENT):
            reader, writer = await asyncio.open_connection(agent.host, agent.port)
            try:
                writer.write(b"state\n")
                text = await reader.read(1 << 20)
            finally:
                writer.close()
        found = json.loads(text)
        return found if isinstance(found, dict) else None
    except (OSError, ValueError, RecursionError):
        return None


def not_renewed(what: str, reported: dict[str, Any], replicas: list[Upstream]) -> list[str]:
    """A line for people on what can't be renewed, by what its agent reported; none where it can
    be."""
    since = texts.since(one.seen for one in replicas)
    return [f"{what} not renewed{since}: {reported['fault']}"] if reported.get("fault") else []


def ahead(replicas: list[Upstream]) -> list[str]:
    """A line for people on the replicas whose states are dated in the future, as `irr check` has
    it; none where none is. The clock is looked at only if an agent tells of states."""
    late = [one for one in replicas if one.seen and one.seen > time.time() + AHEAD]
    names, times = [one.name for one in late], [one.seen for one in late]
    return [f"{', '.join(names)}: {texts.ahead(times, time.time())}"] if late else []

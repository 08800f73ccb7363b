"""What the page for people asks beside queries, in JSON: what is served here, why a prefix is in a
set, and what an object was.

To find out why takes long: it is done between what others ask, in slices, and by a few clients at
once. Who asks pays for the time as it was measured.
"""

import asyncio
import contextlib
import json
import time
from pathlib import Path
from typing import Any, AsyncIterator, Optional
from urllib.parse import parse_qs, unquote

from irr.door import queries
from irr.door.budget import Client, Turn, Turns
from irr.door.cache import Answer
from irr.door.history import BadKey, History, Hung, Long
from irr.door.pool import BEHIND, BUSY, TOO_MUCH, WAITING, Pool, Refused
from irr.door.queries import Asker
from irr.door.settings import Settings
from irr.door.views import ViewPool
from irr.errors import Failure
from irr.registry import references
from irr.registry.references import MOST_CHAINS, Node, Reached, Steps
from irr.rpsl import keys, syntax
from irr.rpsl.keys import Prefix
from irr.rpsl.syntax import Paragraph

# How many look why, and how many at the past, at once; and how many of a client wait.
AT_ONCE, QUEUED = 2, 4
# The processor's seconds in a slice, and the most that one question has of them; the seconds for
# all of it.
SLICE, MOST_WORK, LASTS = 0.004, 3.0, 60.0
# The bytes of all answers that one question takes, of which objects make eight times as many at
# most, and of its own.
MOST_READ, LARGEST = 1 << 23, 1 << 20
# The most fields after the `?` of a path.
FIELDS = 8
NO_PLACE = "write /why/PREFIX/SET, as /why/192.0.2.0/24/AS64496:AS-CUSTOMERS"
NO_HISTORY = "no history is kept here"
LONG = "this takes more than the door gives to one question; ask of a set that it lists"


def is_asked(path: str) -> bool:
    """Whether a path is one of these."""
    return path == "/about" or path.startswith(("/why/", "/history/"))


class Work(Turn):
    """Long work that waits for its turn."""

    __slots__ = ("future",)

    def __init__(self, client: Client) -> None:
        super().__init__(client)
        self.future: "asyncio.Future[None]" = asyncio.get_running_loop().create_future()


class Places:
    """Places for long work. Whose turn it is next is as with queries."""

    def __init__(self, pool: Pool) -> None:
        self.pool, self.free = pool, AT_ONCE
        self.turns: Turns[Work] = Turns(pool.clients)
        self.wake: Optional[asyncio.TimerHandle] = None

    @contextlib.asynccontextmanager
    async def one(self, client: Client) -> AsyncIterator[None]:
        """A place, once it is the client's turn; Refused if that takes too long."""
        wait = self.pool.clients.wait(client, time.monotonic())
        if wait > BEHIND or self.turns.waiting(client) >= QUEUED:
            self.pool.count("budget")
            raise Refused("budget", TOO_MUCH, int(wait) + 1)
        work = Work(client)
        self.turns.add(work)
        try:
            self.turn()
            try:
                async with asyncio.timeout(WAITING):
                    await work.future
            except TimeoutError:
                self.pool.count("busy")
                raise Refused("busy", BUSY, 10) from None
            yield
        finally:
            if not self.turns.remove(work):
                self.free += 1
            self.turn()

    def turn(self) -> None:
        """Gives away what is free."""
        now = time.monotonic()
        while self.free and self.turns.count:
            work = self.turns.next(now)
            if work is None:
                if self.wake is None:
                    seconds = self.turns.soonest(now) or 0.0
                    self.wake = self.pool.loop.call_later(min(seconds, 1.0) + 0.01, self.woken)
                return
            self.free -= 1
            if not work.future.done():
                work.future.set_result(None)

    def woken(self) -> None:
        self.wake = None
        self.turn()


class Slices:
    """The time that a question takes of the door, which its client pays for."""

    def __init__(self, asker: Asker) -> None:
        self.asker, self.worked, self.read = asker, 0.0, 0
        self.begun = time.thread_time()

    def end(self) -> None:
        """Ends a slice."""
        now = time.thread_time()
        spent, self.begun = now - self.begun, now
        self.worked += spent
        self.asker.pool.clients.charge(self.asker.client, spent, time.monotonic())
        if self.worked > MOST_WORK:
            raise Refused("long", LONG)

    async def rest(self) -> None:
        """Lets others go first, if the slice was long enough."""
        if time.thread_time() - self.begun >= SLICE:
            self.end()
            await asyncio.sleep(0)
            self.begun = time.thread_time()

    async def result(self, steps: Steps[Any]) -> Any:
        """What steps come to."""
        try:
            query = next(steps)
            while True:
                objects: list[Paragraph] = []
                if query is not None:
                    objects = await self.objects(query)
                await self.rest()
                query = steps.send(objects)
        except StopIteration as end:
            return end.value

    async def objects(self, query: str) -> list[Paragraph]:
        """The objects that are answered to a query."""
        self.end()
        answer = await self.asker.ask(query.encode())
        self.begun = time.thread_time()
        self.read += len(answer.text)
        if self.read > MOST_READ:
            raise Refused("long", LONG)
        found: list[Paragraph] = []
        if answer.text == queries.NOTHING:
            return found
        if not queries.is_objects(answer.text):
            raise Refused("down", "the registry answers with an error; ask again later")
        for piece in queries.cut(answer.text, b"\n\n"):
            found += syntax.paragraphs([piece])
            await self.rest()
        return found

    async def encoded(self, found: dict[str, Any]) -> bytes:
        """What was found, as JSON."""
        parts: list[str] = []
        size = 0
        for part in json.JSONEncoder().iterencode(found):
            parts.append(part)
            size += len(part)
            if size > LARGEST:
                raise Refused("long", LONG)
            await self.rest()
        return "".join([*parts, "\n"]).encode()


class Page:
    """What the page asks."""

    def __init__(self, settings: Settings, pool: Pool) -> None:
        self.pool = pool
        self.states = History(Path(settings.history))
        self.whys, self.pasts = Places(pool), Places(pool)

    async def answer(self, client: Client, path: str) -> Answer:
        """What is answered to a path; Refused if there is no answer."""
        place, _, words = path.partition("?")
        given = fields(words)
        if place == "/about":
            return self.json(client, self.about())
        _, kind, rest = place.split("/", 2)
        rest = unquote(rest, "latin-1")
        if kind == "why":
            return await self.why(client, rest, given.get("view", ""))
        return await self.history(client, rest, given)

    def json(self, client: Client, found: dict[str, Any]) -> Answer:
        return Asker(self.pool, client).own(json.dumps(found).encode() + b"\n")

    # What is served here.

    def about(self) -> dict[str, Any]:
        """The registry and its views, with their sources and how old they are, and whether a
        history is kept."""
        return {
            "name": self.pool.source or None,
            "why": True,
            "history": self.states.is_there,
            "views": [view_as_json(one) for one in self.pool.views.pools if one.name],
        }

    # Why a prefix is in a set.

    async def why(self, client: Client, rest: str, view: str) -> Answer:
        place, _, name = rest.rpartition("/")
        prefix, start = keys.read_place(place), references.read_start(name)
        if prefix is None or start is None:
            raise Refused("bad", NO_PLACE)
        views = self.pool.views
        pool = views.chosen(view) if view else views.main
        if pool is None:
            raise Refused("nothing", f"there is no such view; {views.known()}")
        asker, state = Asker(pool, client, sources=view), pool.cache.state
        # No query begins with a small letter where answers are kept.
        key = f"why {prefix.text()} {references.shown(start)}".encode()
        kept = asker.kept(key)
        if kept is not None:
            await asker.pay(len(kept.text))
            return kept
        try:
            async with asyncio.timeout(LASTS), self.whys.one(client):
                answer = await self.found(asker, prefix, start)
        except TimeoutError:
            raise Refused("busy", BUSY, 10) from None
        except Failure as failure:
            word = "nothing" if isinstance(failure, references.NotRegistered) else "long"
            raise Refused(word, str(failure)) from None
        asker.keep(key, answer, state)
        return answer

    async def found(self, asker: Asker, prefix: Prefix, start: Node) -> Answer:
        """What is found, slice by slice."""
        slices = Slices(asker)
        pool = asker.pool
        sources = pool.sources.split(",") if isinstance(pool, ViewPool) else []
        text = await slices.encoded(await slices.result(tracing(prefix, start, sources)))
        slices.end()
        return asker.own(text, slices.worked)

    # What an object was.

    async def history(self, client: Client, rest: str, given: dict[str, str]) -> Answer:
        if not self.states.is_there:
            raise Refused("nothing", NO_HISTORY)
        try:
            key, words = self.states.read(rest, given.get("from", ""), given.get("to", ""))
        except BadKey as bad:
            raise Refused("bad", str(bad)) from None
        async with self.pasts.one(client):
            begun = time.monotonic()
            try:
                found = await self.states.found(key, *words)
            except Hung:
                raise Refused("busy", "the history does not answer; ask again later", 10) from None
            except Long:
                raise Refused("long", "the history of this object is too long") from None
            except Failure as failure:
                raise Refused("down", failure.what) from None
            finally:
                now = time.monotonic()
                self.pool.clients.charge(client, now - begun, now)
        return self.json(client, found)


def fields(words: str) -> dict[str, str]:
    """What stands after the `?` of a path."""
    try:
        found = parse_qs(words, encoding="latin-1", max_num_fields=FIELDS)
    except ValueError:
        raise Refused("bad", f"a path has at most {FIELDS} fields") from None
    return {name: values[-1] for name, values in found.items()}


def view_as_json(view: ViewPool) -> dict[str, Any]:
    """What everybody may know of a view: its sources in their order, each with its state and how
    many seconds ago it was seen."""
    ages = [age for one in view.replicas if (age := one.age()) is not None]
    now = time.time()
    return {
        "name": view.name,
        "serves": view.answers,
        "age": round(min(ages), 1) if ages else None,
        "sources": [
            {
                "name": one.get("name"),
                "state": one.get("state"),
                "serial": one.get("serial"),
                "age": round(max(0.0, now - one["seen"]), 1) if "seen" in one else None,
                "stands": bool(one.get("fault")),
            }
            for one in view.reported.get("view", {}).get("sources", [])
        ],
    }


def tracing(prefix: Prefix, start: Node, sources: list[str]) -> Steps[dict[str, Any]]:
    """Finds what `irr why --json` prints; the sources are those of a view."""
    reached = Reached(prefix, start, sources)
    yield from reached.gather()
    chains = yield from reached.chaining(MOST_CHAINS)
    nearest = [] if chains.first else (yield from reached.nearing())
    near = [] if chains.first else (yield from reached.nearly())
    return references.as_json(prefix, start, chains, nearest, near)

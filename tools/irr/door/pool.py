"""Who asks which upstream when: each has one request at a time, and what fails is asked again
elsewhere."""

import time
import asyncio
import contextlib
from typing import TYPE_CHECKING, Any, Callable, Optional, Protocol, Union

from irr.door import upstreams
from irr.door.budget import Client, Clients, Turn, Turns
from irr.door.cache import DEAR, Answer, Cache, Costs, Ledger
from irr.door.exchange import Exchange, listens
from irr.door.nrtm import Mirrors
from irr.door.scheduler import Scheduler
from irr.door.responses import Collected, Dump, Dumped
from irr.door.settings import Place, Settings, place, upstream
from irr.door.sockets import Watch
from irr.door.upstreams import Upstream
from irr.errors import Failure

if TYPE_CHECKING:
    from irr.door.views import Views

# Seconds without a byte in the middle of an answer, and before the first one, after which another
# upstream is asked; before the first one also twice what the query is taken to cost.
STALLED, SILENT = 0.5, 0.7
# Seconds for an answer to come, for a turn to come, and for some upstream to answer again.
ANSWERING, WAITING, DOWN = 60.0, 60.0, 5.0
# Seconds that a client may be behind with its budget and still wait, and how many of its queries
# wait at most.
BEHIND, QUEUED = 30.0, 64
# Bytes from which on an answer may have come in several writes, so that its end may be that of the
# process.
WRITTEN = 4_096
# The kind of a request for the dump, which is no query.
DUMP = "dump"
# Seconds between two looks at all that is on its way.
TICK = 0.2
# How many cheap answers somebody has had who may ask what is unknown in place of what is cheap.
TRUSTED = 20
# Seconds of surprises, a second and at once, that the replica that is kept for cheap queries may
# have: queries that nobody knows.
SURPRISE, SURPRISES = 0.02, 1.0


class Refused(Exception):
    """A query that gets no answer: a word for what it was refused for, a sentence, and the seconds
    after which to ask again."""

    def __init__(self, word: str, sentence: str, seconds: int = 0) -> None:
        super().__init__(sentence)
        self.word, self.sentence, self.seconds = word, sentence, seconds


def over(largest: int) -> Refused:
    return Refused("long", f"the answer has over {largest >> 10} KiB; ask for less, or take /dump")


NOBODY = "the registry does not answer"
BUSY = "the registry is busy; ask again later"
TOO_MUCH = "you have asked for too much; ask again later"
FULL = "the door has no room for more answers; ask again later"


# What comes of a query, and who gets it.
Found = Union[Answer, Dump, Refused]
Answered = Callable[[Found], None]


class Pending(Protocol):
    """What is waited for, and may be let go."""

    def cancel(self) -> object:
        ...


class Waiting:
    """One who waits for what comes of a query."""

    __slots__ = ("pool", "request", "answered")

    def __init__(self, pool: "Pool", request: "Request", answered: Answered) -> None:
        self.pool, self.request, self.answered = pool, request, answered

    def cancel(self) -> None:
        """Waits no longer."""
        self.answered = lambda found: None
        self.pool.forget(self)


async def awaited(begin: Callable[[Answered], "Answer | Pending"]) -> "Answer | Dump":
    """What comes of a query that `begin` asks; Refused if there is no answer."""
    future: "asyncio.Future[Answer | Dump]" = asyncio.get_running_loop().create_future()

    def answered(found: Found) -> None:
        if future.done():
            return
        if isinstance(found, Refused):
            future.set_exception(found)
        else:
            future.set_result(found)

    known = begin(answered)
    if isinstance(known, Answer):
        return known
    try:
        return await future
    except asyncio.CancelledError:
        known.cancel()
        raise


class Request(Turn):
    """A query on its way: who pays for it, what it is taken to cost, and those who wait for its
    answer."""

    __slots__ = (
        "key",
        "line",
        "kind",
        "is_guess",
        "is_dear",
        "is_over",
        "cost",
        "since",
        "state",
        "waiting",
        "tried",
        "tries",
        "running",
    )

    def __init__(
        self, client: Client, key: bytes, line: bytes, kind: str, since: float, state: int
    ) -> None:
        super().__init__(client)
        self.key, self.line, self.kind, self.since, self.state = key, line, kind, since, state
        self.is_guess = self.is_dear = self.is_over = False
        # The seconds that it is taken to cost, and has cost once it is answered.
        self.cost = 0.0
        self.waiting: list[Waiting] = []
        self.tried: set[str] = set()
        # The exchanges that ask it now, and those that were begun.
        self.running = self.tries = 0

    def end(self, found: Found) -> None:
        """Ends it, with the answer or why there is none."""
        self.is_over = True
        waiting, self.waiting = self.waiting, []
        for one in waiting:
            try:
                one.answered(found)
            except Exception as error:
                one.pool.on_fault("handing on what was found", error)


class Queue(Turns[Request]):
    """The queries that wait for their turn, also by what they ask."""

    def __init__(self, clients: Clients) -> None:
        super().__init__(clients)
        self.alike: dict[bytes, list[Request]] = {}

    def add(self, one: Request) -> None:
        super().add(one)
        self.alike.setdefault(one.key, []).append(one)

    def remove(self, one: Request) -> bool:
        alike = self.alike.get(one.key, [])
        if one in alike:
            alike.remove(one)
            if not alike:
                del self.alike[one.key]
        return super().remove(one)

    def join(self, request: Request) -> None:
        """Has all who wait with the same query get the answer to one that begins now."""
        for other in list(self.alike.get(request.key, ())):
            self.remove(other)
            request.waiting += other.waiting
            for one in other.waiting:
                one.request = request


class Pool:
    """The upstreams, those who wait for them, and the answers that are kept."""

    # What else is served: it is put together once all pools are there.
    views: "Views"

    def __init__(self, watch: Watch, settings: Settings) -> None:
        self.watch, self.loop, self.settings = watch, watch.loop, settings
        self.registry = Upstream(upstream(settings.registry), True)
        self.replicas = [Upstream(upstream(text)) for text in settings.replica]
        self.agent: Optional[Place] = place(settings.agent) if settings.agent else None
        self.clients = Clients(settings.refill, settings.burst)
        self.scheduler = Scheduler(self.loop, self.clients)
        self.mirrors, self.changes = Mirrors(settings), upstreams.Changes()
        self.turns = Queue(self.clients)
        self.running: dict[bytes, Request] = {}
        self.costs, self.ledger = Costs(), Ledger(settings.answers)
        self.cache = Cache(settings.cache, settings.keep)
        self.ledger.makers.append(self.cache.shrink)
        self.source = ""
        self.surprise, self.surprised = SURPRISES, time.monotonic()
        self.seconds: dict[str, float] = {}
        # Prometheus sees no growth of what it never saw at 0.
        self.refused = dict.fromkeys(("budget", "busy", "down", "full", "long"), 0)
        # What the agent reported last, and whether it was asked.
        self.reported: dict[str, Any] = {}
        self.is_agent_asked = self.is_held = self.is_closing = False
        self.wake: Optional[asyncio.TimerHandle] = None
        self.since_down: Optional[float] = None
        self.tasks: set[asyncio.Task[None]] = set()
        # Who waits for the registry to be free, for a submission.
        self.freed: Callable[[], None] = lambda: None
        # What is reported of a fault of the door itself.
        self.on_fault: Callable[[str, Exception], None] = lambda what, error: None

    # What upstreams there are, and which of them may be asked.

    def all(self) -> list[Upstream]:
        return [self.registry, *self.replicas]

    def serving(self) -> list[Upstream]:
        """Those that queries go to: the replicas that answer, else the registry, else replicas
        whose state is old: what they answer is better than nothing."""
        found = [one for one in self.replicas if one.serves(self.settings.oldest)]
        if found:
            return found
        if self.registry.is_up:
            # Nothing but a submission keeps a query from the registry.
            return [] if self.is_held else [self.registry]
        return [one for one in self.replicas if one.answers]

    @property
    def answers(self) -> bool:
        """Whether queries are answered, now or once a submission is over."""
        return any(one.answers for one in self.all())

    def is_known(self) -> bool:
        """Whether the agent and all upstreams were asked once what they are."""
        return self.is_agent_asked and all(
            one.looked and one.exchange is None for one in self.all()
        )

    def start(self) -> None:
        for work in self.tick(), self.follow():
            task = self.loop.create_task(work)
            self.tasks.add(task)

    async def close(self) -> None:
        self.is_closing = True
        for task in self.tasks:
            task.cancel()
        for one in self.all():
            if one.exchange:
                one.exchange.close()

    # Asking.

    def ask(
        self, client: Client, key: bytes, line: bytes, kind: str, answered: Answered
    ) -> Waiting:
        """Asks a query, a line of whois, or for the dump. What comes of it is told later; Refused
        if it is not asked."""
        now = time.monotonic()
        request = self.running.get(key)
        if request is None or request.state != self.cache.state:
            wait = self.clients.wait(client, now)
            if wait > BEHIND or self.turns.waiting(client) >= QUEUED:
                self.count("budget")
                raise Refused("budget", TOO_MUCH, int(wait) + 1)
            request = Request(client, key, line, kind, now, self.cache.state)
            request.cost = self.costs.expected(key, kind)
            request.is_dear = kind == DUMP or request.cost >= DEAR
            if request.is_dear and self.costs.known(key) is None and self.may_surprise(client, now):
                request.is_dear, request.is_guess = False, True
        waiting = Waiting(self, request, answered)
        request.waiting.append(waiting)
        if not request.running:
            self.queue(request, now)
        return waiting

    def queue(self, request: Request, now: float) -> None:
        """Begins a query that was asked just now, if nobody waits before it."""
        if not self.turns.count and request.client.left > 0 and not self.is_closing:
            free, may_be_dear = self.free()
            if free and (may_be_dear or not request.is_dear):
                self.begin(request, self.chosen(free, request))
                return
        self.turns.add(request)
        self.turn(now)

    def forget(self, waiting: Waiting) -> None:
        """Lets a query go for which nobody waits any more, if it was not begun."""
        request = waiting.request
        if waiting in request.waiting:
            request.waiting.remove(waiting)
            if not request.waiting:
                self.turns.remove(request)

    def free(self) -> tuple[list[Upstream], bool]:
        """The upstreams that are free, and whether one of them may be asked what is dear: of two or
        more one is left for what is cheap."""
        serving = self.serving()
        free = [one for one in serving if one.exchange is None]
        if len(serving) < 2:
            return free, True
        return free, sum(one.is_dear for one in serving if one.exchange) < len(serving) - 1

    def turn(self, now: Optional[float] = None) -> None:
        """Begins all that can be begun now."""
        if not self.turns.count or self.is_closing:
            return
        now = time.monotonic() if now is None else now
        while self.turns.count:
            free, may_be_dear = self.free()
            request = self.turns.next(now, None if may_be_dear else False) if free else None
            if request is None:
                break
            if not request.waiting:
                continue
            # What was asked just now was looked up just now.
            kept = self.cache.get(request.key, now) if request.since < now else None
            if kept is not None:
                request.end(kept)
            else:
                request.state = self.cache.state
                self.turns.join(request)
                self.begin(request, self.chosen(free, request))
        self.wake_later(now)

    def may_surprise(self, client: Client, now: float) -> bool:
        """Whether a query of a dear kind, of which nothing is known, is taken for a cheap one: for
        those who have asked what is cheap before, and as long as few of them surprise."""
        self.surprise = min(SURPRISES, self.surprise + (now - self.surprised) * SURPRISE)
        self.surprised = now
        return self.surprise > 0 and client.cheap >= TRUSTED and not client.left < 0

    def chosen(self, free: list[Upstream], request: Request) -> Upstream:
        """One that has what was decided for its client, if it is cheap, and that has not failed at
        it, if there is one; of these the one that was asked least of late."""
        may_be_asked = not (self.is_held or request.is_dear or request.is_guess)
        registry = self.registry if may_be_asked else None
        free = self.changes.had_by(free, request.client.name, registry)
        if len(free) == 1:
            return free[0]
        fresh = [one for one in free if one.name not in request.tried] or free
        return min(fresh, key=lambda one: one.seconds)

    def wake_later(self, now: float) -> None:
        """Looks again when the first budget allows it."""
        if self.turns.count and self.wake is None:
            seconds = self.turns.soonest(now)
            if seconds is not None and seconds > 0:
                self.wake = self.loop.call_later(min(seconds, 1.0) + 0.001, self.woken)

    def woken(self) -> None:
        self.wake = None
        self.turn()

    def begin(self, request: Request, one: Upstream) -> None:
        """Asks an upstream, and reads the whole answer before anybody gets it."""
        found: "Dumped | Collected" = (
            Dumped() if request.kind == DUMP else Collected(self.settings.largest, self.ledger)
        )
        one.asked += 1
        one.request, one.is_dear = request, request.is_dear or request.is_guess
        request.running += 1
        request.tries += 1
        request.tried.add(one.name)
        self.running[request.key] = request
        one.exchange = Exchange(
            self.watch,
            one.place,
            request.line,
            found.take,
            lambda fault: self.ended(request, one, found, fault),
        )

    def ended(
        self,
        request: Request,
        one: Upstream,
        found: "Dumped | Collected",
        fault: Optional[str],
    ) -> None:
        """Has those who wait get what came, or asks again."""
        now, exchange = time.monotonic(), one.exchange
        assert exchange is not None
        one.exchange, one.request, one.is_dear = None, None, False
        request.running -= 1
        one.seconds += now - exchange.begun
        seconds = max(0.0, now - exchange.begun - one.idle)
        if fault not in (None, "long", "full"):
            # That an upstream fails is nobody's fault, but for who asks what it fails at.
            seconds = min(seconds, self.settings.burst)
        if not request.is_over:
            self.learn(request, seconds, now)
        elif fault is None:
            # Two have done it.
            self.pay(request, seconds, now)
        if fault is None and exchange.size >= WRITTEN and not listens(one.place):
            fault = "ECONNREFUSED"
        answer = None
        if fault is not None or request.is_over:
            found.drop()
        else:
            answer = found.whole(seconds)
            fault = None if answer is not None else "cut"
        if answer is not None:
            self.running.pop(request.key, None)
            request.cost = seconds
            if seconds >= DEAR and isinstance(answer, Answer):
                self.cache.put(request.key, answer, request.state, now)
            if not self.source and isinstance(answer, Answer):
                self.named(answer.text)
            request.end(answer)
        elif fault is not None:
            self.failed(request, one, fault, now)
        self.turn()
        if one.is_registry:
            self.freed()

    def pay(self, request: Request, seconds: float, now: float) -> None:
        """Has the one who asked pay."""
        self.clients.charge(request.client, seconds, now)
        self.seconds[request.kind] = self.seconds.get(request.kind, 0.0) + seconds

    def learn(self, request: Request, seconds: float, now: float) -> None:
        """Has the one who asked pay, and remembers what it cost."""
        self.pay(request, seconds, now)
        self.costs.learn(request.key, request.kind, seconds)
        if seconds < DEAR:
            request.client.cheap += 1
        elif request.is_guess:
            self.surprise -= seconds
            request.client.cheap = 0

    def failed(self, request: Request, one: Upstream, fault: str, now: float) -> None:
        """Asks again elsewhere, unless another answer is on its way or the fault is the answer's
        own."""
        if fault not in ("long", "full"):
            one.failed += 1
            one.fall(upstreams.why_of(fault), now)
        if request.is_over or (request.running and fault not in ("long", "full")):
            return
        self.running.pop(request.key, None)
        if fault == "long":
            self.give_up(request, over(self.settings.largest))
        elif fault == "full":
            self.give_up(request, Refused("full", FULL))
        elif request.tries > 2 * len(self.all()):
            self.give_up(request, Refused("down", NOBODY))
        elif request.waiting:
            self.turns.add(request)

    def give_up(self, request: Request, why: Refused) -> None:
        self.count(why.word)
        request.end(why)

    def count(self, word: str) -> None:
        self.refused[word] = self.refused.get(word, 0) + 1

    # What is looked at from time to time.

    async def tick(self) -> None:
        """Looks at what takes too long, and whether all upstreams answer."""
        while True:
            try:
                self.look()
            except Exception as error:
                self.on_fault("looking at the replicas", error)
            await asyncio.sleep(TICK)

    def look(self) -> None:
        now = time.monotonic()
        for one in self.all():
            if one.exchange is not None:
                self.hurry(one, one.exchange, now)
            elif not (one.is_registry and self.is_held):
                if now - one.looked >= (upstreams.EVERY if one.is_up else upstreams.AGAIN):
                    one.look(self.watch, self.looked(one), self.named)
        self.since_down = None if any(one.is_up for one in self.all()) else self.since_down or now
        is_down = self.since_down is not None and now - self.since_down >= DOWN
        judged = min((one.judged for one in self.all()), default=now) if is_down else 0.0
        for request in list(self.turns.all()):
            is_lost = request.since <= judged
            if is_lost or now - request.since > WAITING:
                self.turns.remove(request)
                why = Refused("down", NOBODY) if is_lost else Refused("busy", BUSY, 10)
                self.give_up(request, why)
        self.turn()

    def looked(self, one: Upstream) -> Callable[[], None]:
        """What follows a look at an upstream."""

        def done() -> None:
            self.turn()
            if one.is_registry:
                self.freed()

        return done

    def named(self, text: bytes) -> None:
        self.source = upstreams.source_in(text) or self.source

    def hurry(self, one: Upstream, exchange: Exchange, now: float) -> None:
        """Ends an exchange that has stalled, or has little come of it, and asks a second upstream
        where the first is silent for longer than its query is taken to cost."""
        silence, request = now - exchange.heard, one.request
        if request is None:
            # A look; a submission has bounds of its own.
            if not one.is_held and exchange.has_lasted(upstreams.ANSWERING, exchange.begun, now):
                exchange.end("ETIMEDOUT")
            return
        if silence > ANSWERING or exchange.has_lasted(ANSWERING, exchange.begun, now):
            exchange.end("ETIMEDOUT")
            return
        if exchange.size:
            # Once another one has answered, this one is left out until it answers a look.
            has_stalled = silence > STALLED or exchange.has_lasted(STALLED, exchange.since, now)
            if has_stalled and (request.is_over or self.others(one)):
                exchange.end("silent" if request.is_over else "stalled")
        elif silence > max(SILENT, 2 * request.cost):
            if request.is_over:
                exchange.end("silent")
            elif request.waiting and request.running == 1:
                self.begin_second(one, request, silence, now)

    def begin_second(self, one: Upstream, request: Request, silence: float, now: float) -> None:
        """Asks another upstream beside one that may be stopped, or only slow. So what is dear is
        asked of no replica that is left for cheap queries, unless nobody waits and there is no
        other; and only if its client can pay for both."""
        others = self.others(one)
        if one.is_dear:
            if self.clients.left(request.client, now) < min(silence, self.clients.burst):
                return
            if not self.free()[1]:
                spare = [other for other in others if other.is_registry]
                others = spare or ([] if self.turns.count else others)
        if others:
            # Nothing dear takes the place of what one can't do that is stopped.
            one.is_dear = True
            self.begin(request, others[0])

    def others(self, one: Upstream) -> list[Upstream]:
        """Those that can be asked now in place of one."""
        serving = self.serving()
        if self.registry.is_up and not self.is_held and self.registry not in serving:
            serving = [*serving, self.registry]
        return [other for other in serving if other is not one and other.exchange is None]

    async def follow(self) -> None:
        """Follows what the agent says of the replicas, and makes answers old that are of an earlier
        state."""
        while True:
            if self.agent is not None:
                reported = await upstreams.reported_by(self.agent)
                if reported is None:
                    self.reported = {}
                else:
                    # What none of its agents says is no news.
                    with contextlib.suppress(
                        KeyError, TypeError, ValueError, OverflowError, Failure
                    ):
                        self.heard(reported)
            self.is_agent_asked = True
            await asyncio.sleep(upstreams.ASKING if self.reported else upstreams.ASKING_AGAIN)

    def heard(self, reported: dict[str, Any]) -> None:
        """Takes in what the agent says."""
        entries = {
            place(f"127.0.0.1:{int(entry['port'])}"): (
                not entry["ready"],
                str(entry["state"]),
                float(entry["seen"]),
            )
            for entry in reported["replicas"]
        }
        self.reported = reported
        states = {one.state for one in self.replicas}
        if not self.settings.replica:
            # One that is still asked is forgotten once it has answered.
            self.replicas = [one for one in self.replicas if one.place in entries or one.exchange]
            known = {one.place for one in self.replicas}
            for at in (at for at in entries if at not in known):
                one = Upstream(at)
                one.is_up = False
                self.replicas.append(one)
                # It was not asked yet, so who asks now waits for it.
                self.since_down = None
        for one in self.replicas:
            if one.place in entries:
                one.is_draining, one.state, seen = entries[one.place]
                one.see(seen)
        if {one.state for one in self.replicas} != states:
            self.cache.renew()

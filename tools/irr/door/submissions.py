"""Submissions: bounded before the registry sees them, one at a time, to the registry alone, and in
turn by who sends them.

A long one goes in parts, so that others have their turn between two of them. The registry judges
item by item, so the report is the same: the numbers of a later part go on from those before it.
"""

import time
import asyncio
import re
from typing import Any, Callable, Optional

from irr.door.budget import Client, Clients, Turn, Turns
from irr.door.exchange import Exchange
from irr.door.journal import Journal, Who
from irr.door.pool import ANSWERING, DOWN, NOBODY, Pool, Refused
from irr.door.queries import PIECE
from irr.door.settings import Settings
from irr.door.status import Counters
from irr.errors import Failure
from irr.registry import answers
from irr.registry.submissions import Item, Part, given
from irr.rpsl import keys, syntax

PASSWORD = re.compile(rb"^password[ \t\r]*:", re.I | re.M)
# An attribute `mnt-by`, with the lines that go on with it.
MNT_BY = re.compile(rb"^mnt-by[ \t\r]*:[^\n]*(?:\n[ \t\r+#%][^\n]*)*", re.I | re.M)
# The items that the registry gets at once.
AT_ONCE = 50
# Seconds that a submission may wait for its turn, and for the registry to answer at all.
WAITING = 300.0
# Submissions of one sender that wait at most.
QUEUED = 16
# The least seconds that its sender pays for one in which a password did not fit (E11): who guesses
# is slowed down.
GUESS = 0.25
# Of how many refused submissions of a sender the journal has a line: a second, and at once.
TOLD, TOLD_AT_ONCE = 1.0, 60.0
CHANGES = frozenset(("added", "changed", "deleted"))


class TooMuch(Exception):
    """A submission over a bound: which one it is."""

    def __init__(self, what: str, count: int, most: int) -> None:
        words = {
            "size": f"a submission has at most {most:,} bytes, and this one {count:,}",
            "items": f"a submission has at most {most:,} items, and this one {count:,}",
            "passwords": f"a submission has at most {most:,} lines of passwords, "
            f"and this one {count:,}",
        }
        super().__init__(f"% {words[what]}; send it in parts\n")
        self.what = what


class Submission(Turn):
    """A submission on its way: its parts, and how many items were decided before the first of
    them."""

    __slots__ = (
        *("who", "items", "parts", "before", "since", "reported", "future"),
        *("is_begun", "has_guess"),
    )

    def __init__(self, client: Any, who: Who, items: list[Item], parts: list[bytes]) -> None:
        super().__init__(client)
        self.who, self.items, self.parts, self.before = who, items, parts, 0
        self.since = time.monotonic()
        self.reported: Callable[[bytes], None] = lambda text: None
        self.future: "asyncio.Future[None]" = asyncio.get_running_loop().create_future()
        self.is_begun = self.has_guess = False


class Submissions:
    """The submissions that wait, and the one that the registry has."""

    def __init__(
        self,
        loop: asyncio.AbstractEventLoop,
        settings: Settings,
        pool: Pool,
        counters: Counters,
        journal: Journal,
    ) -> None:
        self.loop, self.settings, self.pool, self.counters, self.journal = (
            loop,
            settings,
            pool,
            counters,
            journal,
        )
        self.senders = Clients(settings.refill, settings.burst)
        # What the journal still takes of a sender's refused submissions, and how many it has not.
        self.tellers, self.untold = Clients(TOLD, TOLD_AT_ONCE), 0
        self.turns: Turns[Submission] = Turns(self.senders)
        self.running: Optional[Submission] = None
        # Since when the registry is down for those who wait.
        self.down: Optional[float] = None
        self.wake: Optional[asyncio.TimerHandle] = None
        pool.freed = self.turn

    def bound(self, who: Who, what: str, count: int, most: int) -> None:
        """TooMuch if there are more than `most`."""
        if count > most:
            self.refused(who, f"413 {what}", count if what == "items" else None)
            raise TooMuch(what, count, most)

    def refused(self, who: Who, outcome: str, items: Optional[int] = None) -> None:
        """Counts a submission that the registry did not get, and has the journal know; one that
        sends many of them pushes no other lines out of it."""
        self.counters.submissions[outcome] += 1
        now = time.monotonic()
        teller = self.tellers.of(who.name, now)
        if self.tellers.left(teller, now) < 1:
            self.untold += 1
            return
        self.tellers.charge(teller, 1, now)
        self.journal.refused(who, outcome, items, self.untold)
        self.untold = 0

    async def check(self, who: Who, sender: Client, body: bytes) -> tuple[list[Item], list[bytes]]:
        """The items of a submission, and the parts in which it is sent; TooMuch if it is over a
        bound."""
        settings = self.settings
        self.bound(who, "size", len(body), settings.size)
        self.bound(who, "passwords", len(PASSWORD.findall(body)), settings.passwords)
        blocks: list[Item] = []
        items: list[Item] = []
        looked = 0
        for block in syntax.blocks([body], syntax.LARGEST + 1):
            item = Item("", block)
            blocks.append(item)
            if item.is_item:
                items.append(item)
            # An item has the weight of some lines, however short it is.
            looked += block.size + 100
            if looked >= PIECE:
                looked = 0
                await self.pool.scheduler.turn(sender)
        self.bound(who, "items", len(items), settings.items)
        # Without the end of its last line an object could be a byte longer than replicas take.
        body = body if body.endswith(b"\n") else body + b"\n"
        return items, [body] if len(items) <= AT_ONCE else parts(blocks)

    async def submit(self, who: Who, body: bytes, reported: Callable[[bytes], None]) -> None:
        """Hands a submission on once its turn has come; `reported` gets its report as it comes.
        Refused if that does not come whole."""
        sender = self.senders.of(who.name, time.monotonic())
        items, sent = await self.check(who, sender, body)
        now = time.monotonic()
        if self.turns.waiting(sender) >= QUEUED:
            self.refused(who, "429", len(items))
            raise Refused(
                "budget",
                "you have sent too much; send it again later",
                int(self.senders.wait(sender, now)) + 10,
            )
        submission = Submission(sender, who, items, sent)
        submission.reported = reported
        self.turns.add(submission)
        self.turn()
        while True:
            try:
                async with asyncio.timeout(WAITING):
                    return await asyncio.shield(submission.future)
            except asyncio.CancelledError:
                # What was begun goes on to its end, and the journal has it.
                submission.reported = lambda text: None
                submission.future.add_done_callback(lambda future: future.exception())
                if not submission.is_begun:
                    self.turns.remove(submission)
                raise
            except TimeoutError:
                if not submission.is_begun:
                    self.turns.remove(submission)
                    self.refused(who, "503", len(items))
                    raise Refused("busy", "the registry is busy; send it again later", 30) from None

    def turn(self) -> None:
        """Begins the next submission, if the registry is free."""
        pool, registry = self.pool, self.pool.registry
        if self.running is not None or pool.is_closing:
            return
        now = time.monotonic()
        if registry.is_up:
            self.down = None
        if not self.turns.count:
            pool.is_held = False
            return
        if not registry.is_up:
            self.give_up(now)
            return
        if registry.exchange is not None:
            # No query goes there before it.
            pool.is_held = True
            return
        submission = self.turns.next(now)
        if submission is None:
            pool.is_held = False
            if self.wake is None:
                seconds = self.turns.soonest(now) or 0.0
                self.wake = self.loop.call_later(min(seconds, 1.0) + 0.01, self.woken)
            return
        pool.is_held = registry.is_held = True
        self.running = submission
        self.begin(submission)

    def give_up(self, now: float) -> None:
        """Refuses those that wait while the registry is down for long, but for those that have come
        since the last look: it may have been started since."""
        self.down = self.down or now
        # Nobody looks at a registry that is held.
        self.pool.is_held = False
        if now - self.down >= DOWN:
            for submission in list(self.turns.all()):
                if submission.since <= self.pool.registry.judged:
                    self.turns.remove(submission)
                    self.fail(submission, "cut" if submission.before else "503", NOBODY)
        if self.turns.count:
            self.look_again()

    def fail(self, submission: Submission, outcome: str, why: str) -> None:
        self.refused(submission.who, outcome, len(submission.items) - submission.before)
        submission.future.set_exception(Refused("down", why))

    def look_again(self) -> None:
        if self.wake is None:
            self.wake = self.loop.call_later(0.2, self.woken)

    def woken(self) -> None:
        self.wake = None
        self.turn()

    def begin(self, submission: Submission) -> None:
        """Sends the next part of a submission, and hands on what comes."""
        submission.is_begun = True
        report, body = Handed(self, submission), submission.parts[0]
        head = (
            "POST /submissions HTTP/1.1\r\nHost: 127.0.0.1\r\nConnection: close\r\n"
            f"Content-Length: {len(body)}\r\n\r\n"
        )
        registry = self.pool.registry

        def ended(fault: Optional[str]) -> None:
            now = time.monotonic()
            seconds = now - exchange.begun
            registry.exchange = None
            registry.is_held = self.pool.is_held = False
            registry.seconds += seconds
            paid = seconds
            if report.has_guess and not submission.has_guess:
                submission.has_guess, paid = True, max(seconds, GUESS)
            self.senders.charge(submission.client, paid, now)
            self.pool.seconds["submission"] = self.pool.seconds.get("submission", 0.0) + seconds
            self.running = None
            if report.has_changed:
                self.pool.cache.renew()
            if report.report.seen:
                # What was refused may have been so for a change that the registry alone has.
                self.pool.changes.add(submission.who.client, now)
            if fault == "ECONNREFUSED" and not exchange.size:
                # Nothing was sent.
                registry.fall("nobody listens there", now)
                submission.is_begun = bool(submission.before)
                self.turns.again(submission)
            else:
                if fault is not None:
                    registry.fall(f"it does not answer ({fault})", now)
                submission.parts.pop(0)
                if report.goes_on:
                    submission.before += report.report.count
                    self.turns.again(submission)
                else:
                    self.finish(submission, report)
            self.pool.turn()
            self.turn()

        registry.asked += 1
        watch, sent = self.pool.watch, head.encode() + body
        exchange = Exchange(watch, registry.place, sent, report.take, ended)
        registry.exchange = exchange

    def finish(self, submission: Submission, report: "Handed") -> None:
        if report.status not in (0, 200):
            words = (
                "the registry's database has failed"
                if report.status == 503
                else f"the registry answers status {report.status}"
            )
            self.fail(submission, str(report.status), words)
        elif not report.last_line:
            words = "the registry did not answer; look what came of it, and send it again"
            self.fail(submission, "cut", words)
        else:
            submission.future.set_result(None)

    def slow(self) -> None:
        """Ends a submission that the registry does not answer."""
        exchange = self.pool.registry.exchange
        if self.running and exchange and time.monotonic() - exchange.heard > ANSWERING:
            exchange.end("ETIMEDOUT")


class Handed:
    """A report that is handed on, line by line, and what the journal has of it."""

    def __init__(self, submissions: Submissions, submission: Submission) -> None:
        self.submissions, self.submission = submissions, submission
        self.head, self.status = b"", 0
        self.report = answers.Report(submission.before)
        self.has_next = len(submission.parts) > 1
        self.has_changed = self.has_guess = False

    @property
    def goes_on(self) -> bool:
        """Whether this part is over, and another one follows."""
        return self.report.is_whole and self.has_next

    @property
    def last_line(self) -> str:
        """The line that ends the report of all parts; nothing where that has no end yet."""
        count, end = self.report.before + self.report.count, self.report.end
        if end == "items":
            return f"% items {count}" if self.report.is_whole and not self.has_next else ""
        line = f"% {end} after {count} items"
        return line if answers.END.fullmatch(line) else ""

    def take(self, piece: bytes) -> None:
        if not self.status:
            self.head += piece
            front, mark, piece = self.head.partition(b"\r\n\r\n")
            if not mark:
                if len(self.head) > 8_192:
                    raise ValueError("EPROTO")
                return
            words = front.split(b" ", 2)
            if len(words) < 3 or not words[1].isdigit():
                raise ValueError("EPROTO")
            self.status = int(words[1])
        if self.status != 200 or not piece:
            return
        lines: list[str] = []
        try:
            for line in self.report.read(piece):
                lines.append(line.text())
                self.note(line)
        except Failure:
            raise ValueError("EPROTO") from None
        lines += [self.last_line] if self.last_line else []
        if lines:
            self.submission.reported("".join(f"{line}\n" for line in lines).encode())

    def note(self, line: answers.Item) -> None:
        """Counts an item, and has the journal know who did it."""
        outcome = line.code or line.word
        self.has_changed = self.has_changed or line.word in CHANGES
        self.has_guess = self.has_guess or line.code == "E11"
        self.submissions.counters.submissions[outcome] += 1
        items = self.submission.items
        item = items[line.number - 1] if line.number <= len(items) else None
        self.submissions.journal.item(
            self.submission.who, line, maintainers(item.block.text) if item else []
        )


def maintainers(text: bytes) -> list[str]:
    """The names in the `mnt-by` of an item; none where anything there is no name, which may be a
    password that stands in an odd place."""
    try:
        items = syntax.read_any(b"\n".join(MNT_BY.findall(text))).items(b"mnt-by")
    except syntax.TextFault:
        return []
    names = [keys.read_maintainer(one) for one in items]
    return [] if None in names or "PASSWORD" in names else [name for name in names if name]


def parts(blocks: list[Item]) -> list[bytes]:
    """A submission in parts of some items each, with the passwords before them: they count for all
    that follows."""
    found: list[bytes] = []
    passwords: dict[bytes, bytes] = {}
    part, count = Part([], passwords), 0
    for block in blocks:
        if count == AT_ONCE and block.is_item:
            found.append(part.body())
            passwords = passwords | given(part.items)
            part, count = Part([], passwords), 0
        part.items.append(block)
        count += block.is_item
    return [*found, part.body()]

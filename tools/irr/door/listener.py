"""Connections of clients: how many there may be, how long each may take, and answers that are
handed out as fast as they are taken."""

import time
import asyncio
from collections import Counter, OrderedDict
from typing import Optional

from irr.door import dialects, irrd, proxy_protocol, ripe
from irr.door.budget import Client, client_name
from irr.door.cache import Answer
from irr.door.dialects import Reply
from irr.door.pool import Found, Pending, Pool
from irr.door.queries import Asker
from irr.door.responses import Dump, InMemory, Source
from irr.door.settings import Settings, is_in, networks, plain
from irr.door.status import Counters
from irr.door.wire import Wire

# Seconds that a kept connection may be silent.
IDLE = 30.0
# Seconds after which one that asks nothing ends with the door.
QUIET = 4.0
# The longest line, and the most bytes of lines that are read ahead.
LONGEST, AHEAD = 1_100, 1 << 16
# Bytes that are written at once, and how often before others have their turn; and lines that are
# answered at once.
PIECE, PIECES, IN_A_TURN = 1 << 17, 8, 100
MANY = b"% too many connections; come again later\n"
TOO_MANY = b"% too many connections of yours; come again later\n"
UNNAMED = b"% the proxy does not say whose connection this is; see proxied in irr-door(1)\n"
# The port of the status, and how many connections it has at most.
STATUS, WATCHING = "status", 50
# Seconds after which one that takes its answer slowly makes room for others.
SLOW = 10.0
# Of how many clients each may have as much of the answers in memory, where others lack room.
SHARES = 4
# What the registry answers to a line that is too long, and what stands round one for no reason.
LONG_LINE, BLANKS = b"% error 2\n", b" \t\r"


class Door:
    """What all connections share."""

    def __init__(
        self, loop: asyncio.AbstractEventLoop, settings: Settings, pool: Pool, counters: Counters
    ) -> None:
        self.loop, self.settings, self.pool, self.counters = loop, settings, pool, counters
        self.trusted = networks(settings.trusted, "trusted")
        self.connections: set["Connection"] = set()
        # Those that have asked nothing yet, the longest silent first.
        self.silent: OrderedDict["Connection", None] = OrderedDict()
        # Those that take a long answer, the longest at it first, and since when.
        self.taking: OrderedDict["Connection", float] = OrderedDict()
        pool.ledger.makers.append(self.drop_slow)
        self.number = 0
        # How many ask for the status: they have room of their own.
        self.watching = 0
        # Whether nobody else is let in.
        self.is_closing = False
        self.kept_dump: Optional[tuple[Dump, int, float]] = None

    def dump(self) -> Optional[Dump]:
        """The dump that was made of this state, if it is not too old."""
        if self.kept_dump is not None:
            dump, state, end = self.kept_dump
            if state == self.pool.cache.state and time.monotonic() < end:
                return dump
            self.kept_dump = None
        return None

    def keep_dump(self, dump: Dump, state: int) -> None:
        """Keeps a dump of a state, if that is still the state."""
        if state == self.pool.cache.state and self.dump() is None:
            end = time.monotonic() + self.settings.keep
            self.kept_dump = dump, state, end

    def trusts(self, address: str) -> bool:
        """Whether an address is that of a proxy that says who its client is."""
        return is_in(address, self.trusted)

    def admit(self, connection: "Connection") -> Optional[bytes]:
        """Takes a connection in; a line that says why not."""
        client = connection.client
        if client.connections >= self.settings.of_client and not connection.is_trusted:
            self.counters.connection("refused")
            return TOO_MANY
        if not (self.has_place(connection) or self.make_room(connection)):
            self.counters.connection("refused")
            return MANY
        client.connections += 1
        self.watching += connection.port == STATUS
        self.connections.add(connection)
        self.silent[connection] = None
        self.number += 1
        connection.number = self.number
        return None

    def has_place(self, connection: "Connection") -> bool:
        if connection.port == STATUS:
            return self.watching < WATCHING
        return len(self.connections) - self.watching < self.settings.connections

    def make_room(self, connection: "Connection") -> bool:
        """Ends the connection that is silent for longest; without one a connection of the client
        that has most, if that has more than this one. Whether there was one."""
        if connection.port == STATUS:
            return False
        client = connection.client
        for oldest in self.silent:
            if oldest.port != STATUS:
                del self.silent[oldest]
                oldest.abort()
                return True
        others = [one for one in self.connections if not one.is_trusted or one.admitted != one.own]
        most = max(others, key=lambda one: one.admitted.connections, default=None)
        if most is None or most.admitted.connections <= client.connections + 1:
            return False
        self.counters.connection("pushed out")
        most.abort()
        self.dismiss(most)
        return True

    def drop_slow(self) -> bool:
        """Ends the connection that has taken longest to take a long answer. Whether there was one
        that took too long for others to lack room, or whose client has more than its share."""
        now, share = time.monotonic(), self.pool.ledger.most // SHARES
        holding: Counter[Client] = Counter()
        for connection in self.taking:
            holding[connection.client] += connection.held.size() if connection.held else 0
        for connection, since in self.taking.items():
            if now - since < SLOW and holding[connection.client] <= share:
                continue
            self.counters.connection("slow")
            connection.abort()
            connection.held = None
            self.taking.pop(connection, None)
            return True
        return False

    def count_as(self, connection: "Connection", client: Client) -> bool:
        """Counts a proxy's connection as one of the client that it is for, which pays for what is
        asked there. Whether that may have one more."""
        connection.client = client
        if client is connection.admitted:
            return True
        if client is not connection.own and client.connections >= self.settings.of_client:
            self.counters.connection("refused")
            return False
        connection.admitted.connections -= 1
        client.connections += 1
        connection.admitted = client
        return True

    def dismiss(self, connection: "Connection") -> None:
        if connection in self.connections:
            self.connections.discard(connection)
            self.watching -= connection.port == STATUS
            self.silent.pop(connection, None)
            self.taking.pop(connection, None)
            connection.admitted.connections -= 1

    async def sweep(self) -> None:
        """Ends each second what has lasted too long."""
        while True:
            await asyncio.sleep(1)
            now = time.monotonic()
            for connection in [
                one for one in self.connections if one.deadline and now > one.deadline
            ]:
                self.counters.connection("late")
                connection.abort()


class Connection:
    """A connection of a client: its deadline, and the answer that it takes."""

    __slots__ = (
        "door",
        "transport",
        "client",
        "own",
        "admitted",
        "number",
        "is_trusted",
        "deadline",
        "held",
        "place",
        "is_ending",
        "buffer",
        "task",
        "has_ended",
        "is_full",
        "address",
        "ahead",
        "heard",
    )
    port = ""

    def __init__(self, door: Door) -> None:
        self.door = door
        self.number, self.place, self.deadline = 0, 0, 0.0
        self.held: Optional[Source] = None
        self.is_ending = self.has_ended = self.is_trusted = self.is_full = False
        self.buffer = b""
        # The bytes that are read before what they say is answered.
        self.ahead = AHEAD
        # What answers the request that is on its way.
        self.task: Optional[Pending] = None

    def connection_made(self, wire: Wire, address: str) -> None:
        self.transport, self.address, door = wire, plain(address), self.door
        # When it last sent something, or was given something.
        self.heard = now = time.monotonic()
        # Who asks; who is connected; and as whose connection this one counts.
        self.client = self.own = self.admitted = door.pool.clients.of(client_name(address), now)
        self.is_trusted = self.is_believed(address)
        self.deadline = now + door.settings.patience
        line = door.admit(self)
        if line is not None:
            self.is_ending = True
            wire.skip()
            self.refuse(line)
            return
        door.counters.connection(self.port)

    def is_believed(self, address: str) -> bool:
        return False

    def refuse(self, line: bytes) -> None:
        self.transport.write(line)
        self.transport.close()

    def connection_lost(self) -> None:
        self.is_ending, self.held = True, None
        if self.task is not None:
            self.task.cancel()
        self.door.dismiss(self)

    def abort(self) -> None:
        self.is_ending = True
        self.transport.abort(self.held is not None)

    def eof_received(self) -> None:
        """A client may end its side, and still take its answer."""
        self.has_ended = True
        if self.is_ending and self.held is None:
            self.transport.close()
        else:
            self.pump()

    def is_done(self, now: float) -> bool:
        """Whether it has all that it asked for, and does not go on to ask."""
        return self.is_free() and now > self.heard + QUIET

    def leave(self) -> None:
        """Ends it, where the door ends."""
        self.is_ending = True
        self.transport.close()

    def is_free(self) -> bool:
        """Whether what comes next is answered now; one that takes no answers gets no more of
        them."""
        return not (
            self.task is not None or self.held is not None or self.is_ending or self.transport.rest
        )

    def data_received(self, data: bytes) -> None:
        if self.is_ending:
            return
        self.buffer += data
        self.heard = time.monotonic()
        self.pump()
        if len(self.buffer) > self.ahead and not self.is_full and not self.is_ending:
            self.is_full = True
            self.transport.pause_reading()

    def pump(self) -> None:
        """Answers what has come."""
        raise NotImplementedError

    def read_on(self) -> None:
        if self.is_full and len(self.buffer) <= self.ahead and not self.is_ending:
            self.is_full = False
            self.transport.resume_reading()

    # Handing out.

    def give(self, head: bytes, text: bytes, answer: Optional[Answer], is_last: bool) -> None:
        """Hands out a head and a text, a long one as fast as it is taken; `given` follows once all
        of it is on its way, and ends the connection if it `is_last`."""
        if len(text) <= PIECE:
            self.transport.write(head + text if head else text, is_last)
        else:
            self.hand(head, InMemory(text, answer))

    def hand(self, head: bytes, source: Source) -> None:
        if head:
            self.transport.write(head)
        self.held, self.place = source, 0
        if isinstance(source, InMemory):
            self.door.taking[self] = time.monotonic()
        self.flow()

    def flow(self) -> None:
        wire = self.transport
        for _ in range(PIECES):
            if self.held is None or wire.rest or wire.closes:
                return
            piece = self.held.piece(self.place, PIECE)
            self.place += len(piece)
            if self.place >= self.held.size():
                self.held = None
                self.door.taking.pop(self, None)
            wire.write(piece)
        if self.held is not None and not wire.rest and not wire.closes:
            # It is taken as fast as it is sent.
            self.door.loop.call_soon(self.flow_on)

    def flow_on(self) -> None:
        if self.held is not None:
            self.flow()
            if self.held is None:
                self.given()

    def sent(self) -> None:
        if self.held is None:
            self.pump()
            return
        self.flow()
        if self.held is None:
            self.given()

    def given(self) -> None:
        """Goes on after a long answer."""
        raise NotImplementedError


class Whois(Connection):
    """A connection to port 43."""

    __slots__ = ("asker", "session", "stays", "idle", "is_named")
    port = "whois"

    def __init__(self, door: Door) -> None:
        super().__init__(door)
        # Who asks for it, once a line has come, and what its lines with `!` have in common.
        self.asker: Optional[Asker] = None
        self.session: Optional[irrd.Session] = None
        self.stays = False
        self.idle = IDLE
        self.is_named = False

    def is_believed(self, address: str) -> bool:
        return self.door.settings.proxied and self.door.trusts(address)

    def pump(self) -> None:
        if self.is_trusted and not self.is_named and not self.is_ending:
            self.name()
            if not self.is_named:
                return
        for _ in range(IN_A_TURN):
            if not self.is_free():
                return
            line, mark, rest = self.buffer.partition(b"\n")
            if not mark:
                if len(line) > LONGEST:
                    self.end(self.too_long(line), "error")
                elif self.has_ended:
                    if line or self.asker is None:
                        # Who ends without a word has asked nothing that is a query.
                        self.buffer = b""
                        self.answer(line)
                    else:
                        self.end(b"", "")
                return
            self.buffer = rest
            self.read_on()
            self.answer(line.removesuffix(b"\r"))
        self.door.loop.call_soon(self.pump)

    def name(self) -> None:
        """Takes the header in which a proxy says whose connection this is."""
        try:
            header = proxy_protocol.read(self.buffer)
        except proxy_protocol.Bad:
            self.end(UNNAMED, "error")
            return
        if header is None:
            if self.has_ended:
                self.end(b"", "")
            return
        self.buffer, self.is_named = self.buffer[header.size :], True
        if header.address is not None:
            self.address = plain(header.address)
            name = client_name(header.address)
            if not self.door.count_as(self, self.door.pool.clients.of(name, time.monotonic())):
                self.end(TOO_MANY, "budget")

    def end(self, text: bytes, outcome: str) -> None:
        """Says a last word."""
        self.is_ending = True
        if text:
            self.door.counters.query("none", outcome)
            self.transport.write(text)
        self.transport.close()

    def answer(self, line: bytes) -> None:
        self.door.silent.pop(self, None)
        if len(line) > LONGEST:
            self.end(self.too_long(line), "error")
            return
        if self.asker is None:
            self.asker = Asker(self.door.pool.views.default(), self.client, self.address)
        if line[:1] in b" \t" and line.strip(BLANKS)[:1] == b"!":
            line = line.strip(BLANKS)
        if line[:1] == b"!":
            line = line.rstrip(BLANKS)
            if self.session is None:
                self.session = irrd.Session(self.asker, self.door.settings.strict)
            quick = self.session.at_once(line)
            if quick is not None:
                self.reply(dialects.IRRD, quick, quick.stays)
                return
        elif self.stays and not line.strip():
            return
        self.deadline = 0.0
        dialect = dialects.dialect_of(line)
        if dialect == dialects.NATIVE:
            self.ask(self.asker, line)
        else:
            self.task = self.door.loop.create_task(self.work(self.asker, dialect, line))

    def too_long(self, line: bytes) -> bytes:
        """What is said of a line that is longer than any question, in its dialect."""
        if line[:1] == b"!":
            return self.session.too_long().text if self.session else irrd.fault(irrd.TOO_LONG)
        return ripe.too_long(self.door.pool.source) if line[:1] == b"-" else LONG_LINE

    def ask(self, asker: Asker, line: bytes) -> None:
        """Has the registry itself answer a line: no task has to wait for that."""
        found = dialects.native(asker, line, self.answered)
        if isinstance(found, Reply):
            self.reply(dialects.NATIVE, found, self.stays)
        else:
            self.task = found

    def answered(self, found: Found) -> None:
        self.task = None
        self.reply(dialects.NATIVE, dialects.native_reply(found), self.stays)

    async def work(self, asker: Asker, dialect: str, line: bytes) -> None:
        """Answers a line for which the registry may be asked several times."""
        try:
            reply = await self.find(asker, dialect, line)
        except asyncio.CancelledError:
            raise
        except Exception as error:
            self.door.counters.fault(f"a question of {dialect}", error)
            reply = Reply(faulty(dialect), "fault")
        self.task = None
        self.reply(dialect, reply, reply.stays)
        self.pump()

    async def find(self, asker: Asker, dialect: str, line: bytes) -> Reply:
        if dialect == dialects.IRRD:
            assert self.session is not None
            return await self.session.answer(line)
        if dialect == dialects.RIPE:
            return await ripe.answer(asker, line, self.stays)
        return Reply(dialects.help_text(self.door.pool.source), "answered", self.stays)

    def reply(self, dialect: str, reply: Reply, stays: bool) -> None:
        self.door.counters.query(dialect, reply.outcome)
        if self.is_ending or self.transport.closes:
            return
        self.stays = stays
        self.idle = self.session.seconds or IDLE if self.session is not None else IDLE
        self.deadline = time.monotonic() + self.door.settings.patience
        if reply.body is not None:
            self.hand(b"", reply.body)
        elif reply.text:
            self.give(b"", reply.text, reply.source, not stays)
        if self.held is None:
            self.given()

    def given(self) -> None:
        if not self.stays:
            self.is_ending = True
            self.transport.close()
            return
        self.heard = time.monotonic()
        self.deadline = self.heard + max(self.idle, 1.0)
        if self.task is None and self.buffer:
            self.door.loop.call_soon(self.pump)
        elif self.has_ended and not self.buffer:
            self.is_ending = True
            self.transport.close()


def faulty(dialect: str) -> bytes:
    """What is said where the door itself failed."""
    words = b"the door failed at this; tell the registry's operator"
    if dialect == dialects.IRRD:
        return irrd.fault(words.decode())
    return (
        b"%%ERROR:100: internal software error\n%%\n%% %s\n\n" % words
        if dialect == dialects.RIPE
        else b"% " + words + b"\n"
    )

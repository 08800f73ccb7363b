"""The process: its sockets, which systemd may have handed on, its signals, and all parts put
together."""

import time
import asyncio
import gc
import os
import resource
import signal
import socket
from typing import Any, Callable

from irr.door.dumps import Dumps
from irr.door.http import Http, StatusHttp, drop_slow
from irr.door.journal import Journal
from irr.door.listener import Door, Whois
from irr.door.page import Page
from irr.door.pool import Pool
from irr.door.settings import Place, Settings, place
from irr.door.sockets import Watch
from irr.door.status import Counters, Status
from irr.door.submissions import Submissions
from irr.door.views import Views
from irr.door.wire import Peer, Port
from irr.errors import SETTINGS, Failure
from irr.system.units import notify
from irr.terminal import texts

# The first descriptor that systemd hands on.
FIRST = 3
BACKLOG = 1_024
# The files that it opens beside those of connections: for upstreams, dumps, git and the status.
OTHERS = 256
# Seconds for upstreams to tell what they are before the door opens, and for what is on its way when
# it ends.
KNOWING, ENDING = 3.0, 10.0


def handed(settings: Settings) -> dict[str, list[socket.socket]]:
    """The sockets that systemd handed on (sd_listen_fds), by what is answered at their ports."""
    ports = {
        place(text).port: name
        for name, texts_of in (("http", settings.http), ("status", (settings.status,)))
        for text in texts_of
        if text
    }
    found: dict[str, list[socket.socket]] = {}
    if os.environ.get("LISTEN_PID") == str(os.getpid()):
        for number in range(int(os.environ.get("LISTEN_FDS", "0"))):
            one = socket.socket(fileno=FIRST + number)
            found.setdefault(ports.get(one.getsockname()[1], "whois"), []).append(one)
    return found


def bound(at: Place) -> socket.socket:
    """A socket that listens at a place; `[::]` takes IPv4 as well."""
    family = socket.AF_INET6 if ":" in at.host else socket.AF_INET
    host = at.host
    if host == "::" and not socket.has_ipv6:
        family, host = socket.AF_INET, "0.0.0.0"
    try:
        opened = socket.socket(family, socket.SOCK_STREAM)
    except OSError:
        if host != "::":
            raise Failure(
                at.text(), "this machine has no such addresses; give another place"
            ) from None
        host, opened = "0.0.0.0", socket.socket(socket.AF_INET, socket.SOCK_STREAM)
    try:
        opened.setsockopt(socket.SOL_SOCKET, socket.SO_REUSEADDR, 1)
        if opened.family == socket.AF_INET6:
            opened.setsockopt(socket.IPPROTO_IPV6, socket.IPV6_V6ONLY, 0 if host == "::" else 1)
        opened.bind((host, at.port))
        opened.listen(BACKLOG)
    except OSError as error:
        opened.close()
        raise Failure(
            at.text(), f"the door cannot listen there: {error.strerror}; give another place"
        ) from None
    return opened


def sockets_of(given: list[socket.socket], places: list[Place], name: str) -> list[socket.socket]:
    """The sockets that were handed on, and those of the places at which none of them listens. The
    door may not open the ports of whois itself, so these are as they were handed on."""
    if not given:
        return [bound(at) for at in places]
    found = list(given)
    for at in places if name != "whois" else ():
        if not any(listens_at(one, at) for one in given):
            try:
                found.append(bound(at))
            except Failure as failure:
                texts.note(f"irr door: {failure}, or have irrdesk-door.socket open it")
    return found


def listens_at(opened: socket.socket, at: Place) -> bool:
    """Whether a socket has the connections to a place."""
    host, port = opened.getsockname()[:2]
    is_any = host == "::" or host == "0.0.0.0" and ":" not in at.host
    return bool(port == at.port) and (is_any or host == at.host)


class Service:
    """A door that is open."""

    def __init__(self, watch: Watch, settings: Settings) -> None:
        self.watch, self.loop, self.settings = watch, watch.loop, settings
        self.counters = Counters()
        self.pool = Pool(watch, settings)
        self.views = Views(self.pool, settings)
        for one in (self.pool, *self.views.all):
            one.on_fault = self.counters.fault
        self.journal = Journal(settings)
        self.door = Door(self.loop, settings, self.pool, self.counters)
        self.page = Page(settings, self.pool)
        self.dumps = Dumps(self.door, lambda: drop_slow(self.door))
        self.submissions = Submissions(self.loop, settings, self.pool, self.counters, self.journal)
        self.status = Status(
            settings,
            self.pool,
            self.counters,
            lambda: len(self.door.connections),
            lambda: self.submissions.turns.count,
        )
        self.ports: list[Port] = []
        self.ended = asyncio.Event()

    async def run(self, put: Callable[[str], None]) -> None:
        """Serves until a signal ends it, and then who was let in before."""
        self.loop.set_exception_handler(self.failed)
        for number in signal.SIGTERM, signal.SIGINT:
            self.loop.add_signal_handler(number, self.ended.set)
        listening = self.listening()
        pools = [self.pool, *self.views.all]
        for one in pools:
            one.start()
        sweep = self.loop.create_task(self.sweep())
        await self.know(pools)
        self.ports = [Port(self.watch, opened, make) for opened, make in listening]
        put(f"irr door: open at {', '.join(port.place().text() for port in self.ports)}")
        notify("READY=1")
        gc.freeze()
        await self.ended.wait()
        notify("STOPPING=1")
        for port in self.ports:
            port.close()
        await self.drain()
        sweep.cancel()
        await asyncio.wait([sweep])
        for one in pools:
            await one.close()

    async def know(self, pools: list[Pool]) -> None:
        """Waits until all upstreams have told what they are, or do not answer: who comes first asks
        by the names of sources too."""
        end = time.monotonic() + KNOWING
        while time.monotonic() < end and not all(one.is_known() for one in pools):
            await asyncio.sleep(0.01)

    def failed(self, _: asyncio.AbstractEventLoop, context: dict[str, Any]) -> None:
        """A fault that nobody else has seen, which the journal would have as a traceback."""
        error = context.get("exception")
        self.counters.fault(
            str(context.get("message", "")), error if isinstance(error, Exception) else Exception()
        )

    async def sweep(self) -> None:
        work = asyncio.create_task(self.door.sweep())
        try:
            while True:
                await asyncio.sleep(1)
                self.submissions.slow()
                self.submissions.turn()
                self.journal.look()
        finally:
            work.cancel()
            await asyncio.wait([work])

    async def drain(self) -> None:
        """Waits until all who were let in have the answers that they asked for, or have been
        silent for so long that they may as well ask the next door."""
        self.door.is_closing = True
        end = time.monotonic() + ENDING
        while self.door.connections and time.monotonic() < end:
            now = time.monotonic()
            for connection in [one for one in self.door.connections if one.is_done(now)]:
                connection.leave()
            await asyncio.sleep(0.02)

    def listening(self) -> "list[tuple[socket.socket, Callable[[], Peer]]]":
        """The sockets that listen, each with what has the connections of those who come."""
        door, submissions, page, dumps = self.door, self.submissions, self.page, self.dumps
        given = handed(self.settings)
        wanted: list[tuple[str, tuple[str, ...], Callable[[], Peer]]] = [
            ("whois", self.settings.whois, lambda: Whois(door)),
            ("http", self.settings.http, lambda: Http(door, submissions, page, dumps)),
        ]
        if self.settings.status:
            at, status = self.settings.status, self.status
            wanted.append(
                ("status", (at,), lambda: StatusHttp(door, submissions, page, dumps, status))
            )
        return [
            (opened, make)
            for name, places, make in wanted
            for opened in sockets_of(given.get(name, []), [place(text) for text in places], name)
        ]


def run(settings: Settings) -> None:
    """Opens the door, and returns when a signal has closed it."""
    soft, hard = resource.getrlimit(resource.RLIMIT_NOFILE)
    wanted = settings.connections + OTHERS
    if hard != resource.RLIM_INFINITY and hard < wanted:
        raise Failure(
            "connections",
            f"the door may open {hard:,} files, and needs {wanted:,} for {settings.connections:,} "
            "connections; set fewer, or raise LimitNOFILE",
            SETTINGS,
        )
    if soft < wanted:
        resource.setrlimit(resource.RLIMIT_NOFILE, (wanted, hard))
    watch = Watch()
    asyncio.set_event_loop(watch.loop)

    async def main() -> None:
        service = Service(watch, settings)
        await service.run(put)

    try:
        watch.loop.run_until_complete(main())
    finally:
        watch.loop.close()


def put(line: str) -> None:
    print(texts.shown_line(line), flush=True)

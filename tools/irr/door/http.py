"""HTTP: queries, the dump and submissions, as a proxy in front hands them on; and the status, for
this machine."""

import time
import asyncio
import re
from typing import Optional
from urllib.parse import unquote_to_bytes, urlsplit

from irr.door.budget import client_name
from irr.door.cache import Answer
from irr.door.dialects import outcome_of
from irr.door.dumps import Dumps
from irr.door.journal import Who
from irr.door.listener import AHEAD, SLOW, STATUS, TOO_MANY, Connection, Door
from irr.door.page import Page, is_asked
from irr.door.pool import Refused
from irr.door.queries import Asker
from irr.door.responses import Dump, InMemory
from irr.door.status import Status
from irr.door.submissions import Submissions, TooMuch
from irr.door.views import ViewPool
from irr.rpsl import keys

# The longest head, its most fields, and the bytes of it that name a path.
HEAD, FIELDS = 8_192, 64
# A line may end without a carriage return, as for the registry; alone none stands anywhere.
LINE_END, HEAD_END, BAD_BYTE = re.compile("\r?\n"), re.compile(b"\r?\n\r?\n"), re.compile("[\0\r]")
IDLE = 60.0
# The bytes of a dump that a client takes each second at least.
SLOWEST = 1 << 18
# Seconds for which what still comes after a request that was refused is read, and not looked at.
LINGERING = 10.0
REASONS = {
    200: "OK",
    400: "Bad Request",
    403: "Forbidden",
    404: "Not Found",
    405: "Method Not Allowed",
    411: "Length Required",
    413: "Content Too Large",
    422: "Unprocessable Content",
    429: "Too Many Requests",
    431: "Request Header Fields Too Large",
    500: "Internal Server Error",
    501: "Not Implemented",
    503: "Service Unavailable",
}
# The status for what a query was refused for.
STATUSES = {"bad": 400, "nothing": 404, "long": 422, "budget": 429}
PLAIN, JSON = "text/plain", "application/json"


class Bad(Exception):
    """A request that is answered by a status, after which its connection ends."""

    def __init__(self, status: int, fields: str = "", text: str = "") -> None:
        super().__init__(status)
        self.status, self.fields, self.text = status, fields, text


def is_query(path: str) -> bool:
    """Whether one segment follows `/query/`, as the registry has it."""
    start, mark, query = path.partition("/query/")
    return bool(mark and query) and not start and "/" not in query


class Request:
    """The head of a request."""

    __slots__ = ("method", "target", "path", "fields", "is_kept", "is_new", "length")

    def __init__(self, head: bytes) -> None:
        lines = LINE_END.split(head.decode("latin-1"))
        words = lines[0].split(" ")
        if (
            len(words) != 3
            or not words[2].startswith("HTTP/1.")
            or any(map(BAD_BYTE.search, lines))
        ):
            raise Bad(400)
        self.method, self.target = words[0], words[1]
        self.path = self.target.partition("?")[0]
        self.is_new = words[2] != "HTTP/1.0"
        if len(lines) > FIELDS + 1:
            raise Bad(431)
        self.fields: dict[str, str] = {}
        for line in lines[1:]:
            name, colon, value = line.partition(":")
            name, value = name.lower(), value.strip(" \t")
            if (
                not colon
                or not name
                or name != name.strip()
                or (name == "content-length" and name in self.fields)
            ):
                raise Bad(400)
            self.fields[name] = f"{self.fields[name]}, {value}" if name in self.fields else value
        tokens = [word.strip().lower() for word in self.fields.get("connection", "").split(",")]
        self.is_kept = "close" not in tokens if self.is_new else "keep-alive" in tokens
        if "transfer-encoding" in self.fields:
            raise Bad(501)
        length = self.fields.get("content-length")
        number = 0 if length is None else keys.read_number(length, 0, 10**15)
        if number is None:
            raise Bad(400)
        self.length = number


class Http(Connection):
    """A connection over HTTP."""

    __slots__ = ("request", "submissions", "page", "dumps", "begun")
    port = "http"

    def __init__(self, door: Door, submissions: Submissions, page: Page, dumps: Dumps) -> None:
        super().__init__(door)
        self.submissions, self.page, self.dumps = submissions, page, dumps
        # When a dump was begun that it takes.
        self.begun = 0.0
        self.request: Optional[Request] = None

    def is_believed(self, address: str) -> bool:
        return self.door.trusts(address)

    def is_done(self, now: float) -> bool:
        """One that was answered, and sends no further request, is; proxies are used to that."""
        is_kept = self.request is None and not self.buffer and self not in self.door.silent
        return super().is_done(now) or (is_kept and self.is_free())

    def refuse(self, line: bytes) -> None:
        self.transport.write(reply_head(503, len(line), False) + line)
        self.transport.close()

    # Requests.

    def pump(self) -> None:
        while self.is_free():
            try:
                if self.request is None and not self.read_head():
                    return
                request = self.request
                assert request is not None
                if len(self.buffer) < request.length:
                    if self.has_ended:
                        raise Bad(400)
                    self.read_on()
                    return
            except Bad as bad:
                self.end(bad)
                return
            body, self.buffer = self.buffer[: request.length], self.buffer[request.length :]
            self.request, self.ahead = None, AHEAD
            self.read_on()
            self.deadline = 0.0
            self.task = self.door.loop.create_task(self.work(request, body))

    def read_head(self) -> bool:
        """Reads the head of a request, once it is there."""
        if self.buffer[:1] in (b"\r", b"\n"):
            self.buffer = self.buffer.lstrip(b"\r\n")
        end = HEAD_END.search(self.buffer)
        if end is None or end.start() > HEAD:
            if len(self.buffer) > HEAD:
                raise Bad(431)
            if self.has_ended:
                if self.buffer:
                    raise Bad(400)
                self.is_ending = True
                self.transport.close()
            return False
        self.door.silent.pop(self, None)
        self.deadline = self.late()
        request = Request(self.buffer[: end.start()])
        request.is_kept = request.is_kept and not self.door.is_closing
        rest = self.buffer = self.buffer[end.end() :]
        self.check(request)
        if (
            request.is_new
            and request.fields.get("expect", "").lower() == "100-continue"
            and len(rest) < request.length
        ):
            self.transport.write(b"HTTP/1.1 100 Continue\r\n\r\n")
        self.request, self.ahead = request, max(AHEAD, request.length)
        return True

    def check(self, request: Request) -> None:
        """Refuses by its head what nobody answers."""
        _, path = self.door.pool.views.at(request.path)
        allowed = (
            "POST"
            if path == "/submissions"
            else "GET"
            if path == "/dump"
            or is_query(path)
            or path == "/state" != request.path
            or is_asked(path)
            else ""
        )
        if not allowed or not path:
            raise Bad(404)
        if request.method != allowed:
            raise Bad(405, f"Allow: {allowed}\r\n")
        name = client_name(self.origin_of(request))
        if not self.door.count_as(self, self.door.pool.clients.of(name, time.monotonic())):
            raise Bad(429, "Retry-After: 10\r\n", TOO_MANY.decode())
        if allowed == "GET":
            if request.length > HEAD:
                raise Bad(413)
            return
        if "content-length" not in request.fields:
            raise Bad(411)
        origin, host = request.fields.get("origin"), request.fields.get("host", "").lower()
        if origin is not None and (not host or site_of(origin) != host):
            # A browser names the site whose page sends a request. Pages of other sites may not
            # submit.
            self.submissions.refused(self.who(request), "403")
            raise Bad(403, text="% a page of another site may not submit here\n")
        try:
            size = self.door.settings.size
            self.submissions.bound(self.who(request), "size", request.length, size)
        except TooMuch as too_much:
            raise Bad(413, text=str(too_much)) from None

    def end(self, bad: Bad) -> None:
        """Answers what is no request, and ends the connection."""
        self.door.counters.query("http", "error")
        self.is_ending = True
        self.door.silent.pop(self, None)
        self.transport.write(failed(bad.status, bad.fields, bad.text, False))
        if self.has_ended:
            self.transport.close()
            return
        # Who still sends would take a closed connection for no reply.
        self.transport.write_eof()
        self.deadline = time.monotonic() + LINGERING

    async def work(self, request: Request, body: bytes) -> None:
        try:
            if request.path == "/submissions":
                await self.submit(request, body)
                return
            if request.path == "/dump":
                await self.dump(request)
                return
            if is_asked(request.path):
                self.end_page(request, await self.page.answer(self.client, request.target))
                return
            pool, path = self.door.pool.views.at(request.path)
            if isinstance(pool, ViewPool) and path == "/state":
                text = pool.made_of()
                self.begin_reply("http", "answered")
                head = reply_head(200, len(text), request.is_kept)
                self.finish(request, head, InMemory(text))
                return
            query, front = unquote_to_bytes(path[7:]), request.path.removesuffix(path)
            asker = Asker(pool, self.client, sources=front.removeprefix("/views/"))
            answer = await asker.ask(query)
            self.begin_reply("http", outcome_of(answer.text))
            self.finish(
                request,
                reply_head(200, len(answer.text), request.is_kept),
                InMemory(answer.text, answer),
            )
        except asyncio.CancelledError:
            raise
        except Refused as refused:
            self.begin_reply("http", refused.word)
            fields = f"Retry-After: {refused.seconds}\r\n" if refused.seconds else ""
            status = STATUSES.get(refused.word, 503)
            self.finish(request, failed(status, fields, f"% {refused.sentence}\n", request.is_kept))
        except Exception as error:
            self.door.counters.fault("a request over HTTP", error)
            self.begin_reply("http", "fault")
            request.is_kept = False
            self.finish(request, failed(500, "", "", False))

    def end_page(self, request: Request, answer: Answer) -> None:
        """Hands out what the page asked for."""
        self.begin_reply("page", "answered")
        head = reply_head(200, len(answer.text), request.is_kept, JSON)
        self.finish(request, head, InMemory(answer.text, answer))

    def origin_of(self, request: Request) -> str:
        """The address of the client: that of the connection, or the one that the proxy names."""
        address = self.address
        if not self.is_trusted:
            return address
        for name in reversed(request.fields.get("x-forwarded-for", "").split(",")):
            if name.strip():
                address = name.strip()
                if not self.door.trusts(address):
                    break
        return address

    def who(self, request: Request) -> Who:
        """Who sends a submission, as the proxy says."""
        user = request.fields.get("x-remote-user", "") if self.is_trusted else ""
        return Who(client_name(self.origin_of(request)), user, self.number)

    def begin_reply(self, dialect: str, outcome: str) -> None:
        self.door.counters.query(dialect, outcome)
        self.deadline = self.late()

    def late(self) -> float:
        """When what is sent now has to be taken."""
        return time.monotonic() + self.door.settings.patience

    def finish(
        self, request: Request, head: bytes, source: "Optional[InMemory | Dump]" = None
    ) -> None:
        """Hands out the reply, and goes on with the next request, if the connection stays."""
        self.task = None
        if self.transport.is_closing():
            return
        self.is_ending = not request.is_kept or self.is_ending
        if source is None:
            self.transport.write(head)
        elif isinstance(source, InMemory):
            self.give(head, source.text, source.answer, self.is_ending)
        else:
            self.hand(head, source)
        if self.held is None:
            self.given()

    def given(self) -> None:
        if self.is_ending:
            self.transport.close()
            return
        # What a proxy keeps open is nobody's but its own.
        self.door.count_as(self, self.own)
        self.deadline = time.monotonic() + IDLE
        if self.task is None and (self.buffer or self.has_ended):
            self.door.loop.call_soon(self.pump)

    # What takes longer.

    async def dump(self, request: Request) -> None:
        """The public dump, out of a file that is made anew with each state."""
        found = await self.dumps.get(self.client)
        self.begin_reply("dump", "answered")
        # It is in a file, and holds no memory: a slow line may take it.
        self.deadline += found.size() / SLOWEST
        self.begun = time.monotonic()
        self.finish(request, reply_head(200, found.size(), request.is_kept), found)

    async def submit(self, request: Request, body: bytes) -> None:
        """Hands a submission on, and its report as it comes."""
        has_begun = False

        def reported(text: bytes) -> None:
            nonlocal has_begun
            if self.transport.is_closing():
                return
            if not has_begun:
                has_begun = True
                self.begin_reply("submission", "answered")
                self.transport.write(report_head(request))
            is_behind = bool(self.transport.rest)
            self.transport.write(b"%x\r\n%s\r\n" % (len(text), text) if request.is_new else text)
            if not is_behind:
                # Who has taken all lines may wait for the next ones.
                self.deadline = self.late() if self.transport.rest else 0.0

        try:
            await self.submissions.submit(self.who(request), body, reported)
        except TooMuch as too_much:
            self.begin_reply("submission", "large")
            self.finish(request, failed(413, "", str(too_much), request.is_kept))
            return
        except Refused:
            if not has_begun:
                raise
            # The report was cut: so is the reply.
            self.task = None
            self.abort()
            return
        self.task, self.deadline = None, self.late()
        if request.is_new:
            self.transport.write(b"0\r\n\r\n")
        self.is_ending = self.is_ending or not request.is_kept or not request.is_new
        self.given()


class StatusHttp(Http):
    """A connection to the port that tells the state of the door."""

    __slots__ = ("status",)
    port = STATUS

    def __init__(
        self, door: Door, submissions: Submissions, page: Page, dumps: Dumps, status: Status
    ) -> None:
        super().__init__(door, submissions, page, dumps)
        self.status = status

    def is_believed(self, address: str) -> bool:
        return True

    def check(self, request: Request) -> None:
        if request.path not in ("/status", "/metrics"):
            raise Bad(404)
        if request.method != "GET":
            raise Bad(405, "Allow: GET\r\n")
        if request.length > HEAD:
            raise Bad(413)

    async def work(self, request: Request, body: bytes) -> None:
        words = request.target.partition("?")[2]
        serves, kind = True, f"{PLAIN}; version=0.0.4"
        if request.path == "/metrics":
            text = self.status.metrics()
        elif "json" in words or "json" in request.fields.get("accept", ""):
            text, kind, serves = (
                self.status.json(),
                JSON,
                self.door.pool.answers,
            )
        else:
            text, kind, serves = self.status.line(), PLAIN, self.door.pool.answers
        self.deadline = self.late()
        head = reply_head(200 if serves else 503, len(text), request.is_kept, kind)
        self.finish(request, head, InMemory(text))


def drop_slow(door: Door) -> None:
    """Ends connections that take a dump more slowly than is asked of them."""
    now = time.monotonic()
    for one in list(door.connections):
        if isinstance(one, Http) and isinstance(one.held, Dump):
            if one.place < (now - one.begun - SLOW) * SLOWEST:
                door.counters.connection("slow")
                one.abort()
                one.held = None


def site_of(origin: str) -> str:
    """The host and port that an origin names; nothing where it names none."""
    try:
        return urlsplit(origin).netloc.lower()
    except ValueError:
        return ""


def reply_head(
    status: int, length: int, is_kept: bool, kind: str = PLAIN, fields: str = ""
) -> bytes:
    word = "keep-alive" if is_kept else "close"
    return (
        f"HTTP/1.1 {status} {REASONS[status]}\r\n"
        f"Content-Type: {kind}\r\nContent-Length: {length}\r\n"
        f"Connection: {word}\r\nX-Content-Type-Options: nosniff\r\n{fields}\r\n"
    ).encode("latin-1")


def report_head(request: Request) -> bytes:
    """The head of a report, whose length is not known yet."""
    word = "keep-alive" if request.is_kept and request.is_new else "close"
    fields = "Transfer-Encoding: chunked\r\n" if request.is_new else ""
    return (
        f"HTTP/1.1 200 OK\r\nContent-Type: {PLAIN}\r\n{fields}Connection: {word}\r\n"
        "X-Content-Type-Options: nosniff\r\n\r\n"
    ).encode()


def failed(status: int, fields: str, text: str, is_kept: bool) -> bytes:
    body = (text or f"{status} {REASONS[status]}\n").encode()
    return reply_head(status, len(body), is_kept, PLAIN, fields) + body

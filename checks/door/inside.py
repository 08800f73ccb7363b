"""A door in this process, over an upstream that answers as it is told: for what is counted between
the turns of its loop."""

import asyncio
import contextlib
import socket
import time
from collections.abc import AsyncIterator, Awaitable, Callable
from contextvars import ContextVar
from typing import Any

from checks.door import worlds
from checks.running import expect
from checks.serving import free_port
from irr.door import service, settings
from irr.door.sockets import Watch


# The look that the door has at each upstream.
LOOK = b"less 0.0.0.0/0\r\n"
# What an upstream does once it has read a line.
Answering = Callable[[bytes, asyncio.StreamWriter], Awaitable[None]]
# What watches the sockets of the door that runs.
WATCH: ContextVar[Watch] = ContextVar("WATCH")


class Upstream:
    """A registry that answers each line by `answers`, and remembers the lines."""

    def __init__(self, answers: Callable[[bytes], bytes]) -> None:
        self.answers, self.lines = answers, list[bytes]()
        # Nobody gets an answer before this is set.
        self.may_answer = asyncio.Event()
        self.may_answer.set()

    async def serve(self, reader: asyncio.StreamReader, writer: asyncio.StreamWriter) -> None:
        with contextlib.suppress(ConnectionError):
            line = await reader.readline()
            if not line:
                # A look whether anybody listens.
                pass
            elif line == LOOK:
                writer.write(worlds.ALL + b"\n")
            else:
                self.lines.append(line.strip())
                await self.may_answer.wait()
                writer.write(self.answers(line.strip()))
            await writer.drain()
        writer.close()


class Timed:
    """An upstream whose dear answers take as long as it is told, or until they may be given."""

    def __init__(self, seconds: float = 0.0, text: bytes = worlds.AS1 + b"\n") -> None:
        self.seconds, self.text, self.lines = seconds, text, list[bytes]()
        self.report = b""
        self.may_answer = asyncio.Event()
        self.may_answer.set()

    async def __call__(self, line: bytes, writer: asyncio.StreamWriter) -> None:
        if line == LOOK:
            writer.write(worlds.ALL + b"\n")
        elif line.startswith(b"POST "):
            writer.write(b"HTTP/1.1 200 OK\r\n\r\n" + self.report)
        elif line.strip():
            self.lines.append(line.strip())
            if line.startswith((b"prefixes", b"expand")):
                await asyncio.sleep(self.seconds)
                await self.may_answer.wait()
            writer.write(self.text)


@contextlib.asynccontextmanager
async def opened(
    answers: Callable[[bytes], bytes], /, **given: Any
) -> AsyncIterator[tuple[service.Service, Upstream]]:
    """A door that is open over such an upstream, and its settings."""
    upstream, port = Upstream(answers), free_port()
    server = await asyncio.start_server(upstream.serve, "127.0.0.1", port)
    ports = [f"127.0.0.1:{free_port()}" for _ in range(4)]
    words = {
        "registry": f"http://127.0.0.1:{port}",
        "whois": [ports[0]],
        "http": [ports[1]],
        "status": ports[2],
        "agent": ports[3],
        "burst": 1_000.0,
        "refill": 1_000.0,
    }
    door = service.Service(WATCH.get(), settings.read(None, {**words, **given}))
    troubles: list[dict[str, Any]] = []
    reported: list[str] = []
    running = asyncio.create_task(door.run(reported.append))
    await until(lambda: reported and door.pool.source or running.done())
    asyncio.get_running_loop().set_exception_handler(lambda _, context: troubles.append(context))
    try:
        yield door, upstream
    finally:
        door.ended.set()
        server.close()
        await running
    expect((troubles, door.counters.faults), ([], 0), "faults of the door")


@contextlib.asynccontextmanager
async def answering(answer: Answering) -> AsyncIterator[str]:
    """The address of an upstream that does this with each line."""

    async def serve(reader: asyncio.StreamReader, writer: asyncio.StreamWriter) -> None:
        with contextlib.suppress(ConnectionError):
            await answer(await reader.readline(), writer)
            await writer.drain()
        writer.close()

    port = free_port()
    server = await asyncio.start_server(serve, "127.0.0.1", port)
    try:
        yield f"http://127.0.0.1:{port}"
    finally:
        server.close()


def left(door: service.Service, name: str) -> float:
    """The seconds that a client may use now."""
    clients, now = door.pool.clients, time.monotonic()
    return clients.left(clients.of(name, now), now)


async def until(is_so: Callable[[], object]) -> None:
    """Waits for a condition."""
    async with asyncio.timeout(60):
        while not is_so():
            await asyncio.sleep(0.001)


def plain(text: str) -> socket.socket:
    """A client of a place, in a thread of its own."""
    host, _, port = text.rpartition(":")
    return socket.create_connection((host, int(port)), 60)


async def connected(text: str) -> socket.socket:
    """A client of a place, with little room for what it is sent."""
    host, _, port = text.rpartition(":")
    peer = socket.socket()
    peer.setsockopt(socket.SOL_SOCKET, socket.SO_RCVBUF, 1 << 14)
    peer.setblocking(False)
    await asyncio.get_running_loop().sock_connect(peer, (host, int(port)))
    return peer


async def asked(text: str, line: bytes, last: int = 1) -> bytes:
    """The whole answer to a line of whois, or a request, from the address 127.0.0.LAST."""
    host, _, port = text.rpartition(":")
    reader, writer = await asyncio.open_connection(
        host, int(port), local_addr=(f"127.0.0.{last}", 0)
    )
    writer.write(line + b"\r\n")
    answer = await reader.read()
    writer.close()
    return answer


async def submitted(door: service.Service, user: str) -> bytes:
    """The reply to a submission of a user."""
    text = b"POST /submissions HTTP/1.1\r\nX-Remote-User: %s\r\nConnection: close\r\n"
    body = b"Content-Length: 4\r\n\r\nfoo"
    return await asked(door.settings.http[0], text % user.encode() + body)


def run(work: Awaitable[Any]) -> Any:
    """Does something in a loop of its own."""
    watch = Watch()

    async def main() -> Any:
        WATCH.set(watch)
        return await work

    with asyncio.Runner(loop_factory=lambda: watch.loop) as runner:
        return runner.run(main())

"""Connections of clients as the kernel has them: who is let in, what comes, and what is sent as
fast as it is taken."""

import contextlib
import socket
import struct
from typing import Callable, Protocol, Union

from irr.door.settings import Place
from irr.door.sockets import IN, OUT, Watch

# The most bytes that are read at once.
PIECE = 1 << 15
# No call waits, whatever the mode of the socket: to set it would be one call more.
AT_ONCE = socket.MSG_DONTWAIT
WITH_END = AT_ONCE | socket.MSG_MORE
# Bytes that the kernel holds of an answer; it takes twice as many for them.
SENDING = 1 << 17
# That a connection ends without a wait for what is on its way.
NO_WAIT = struct.pack("ii", 1, 0)
# Seconds for which nobody is let in where there is no descriptor or no memory for it.
NO_ROOM = 1.0


class Peer(Protocol):
    """Who has the other end of a wire."""

    def connection_made(self, wire: "Wire", address: str) -> None:
        """It was let in, and comes from this address."""

    def data_received(self, data: bytes) -> None:
        """This came."""

    def eof_received(self) -> None:
        """Nothing more comes; it may still take what is sent."""

    def sent(self) -> None:
        """What did not go at once has gone by now."""

    def connection_lost(self) -> None:
        """The wire is closed."""


class Wire:
    """A connection that was let in."""

    __slots__ = (
        "watch",
        "socket",
        "number",
        "peer",
        "rest",
        "events",
        "reads",
        "ends",
        "closes",
        "is_over",
    )

    def __init__(self, watch: Watch, opened: socket.socket, peer: Peer) -> None:
        self.watch, self.socket, self.number, self.peer = watch, opened, opened.fileno(), peer
        # What could not be sent yet, and what the socket is watched for.
        self.rest, self.events = bytearray(), 0
        # Whether what comes is read, and what ends once all is sent: its own side, or all of it.
        self.reads, self.ends, self.closes, self.is_over = True, False, False, False

    def begin(self, address: str) -> None:
        self.peer.connection_made(self, address)
        # A line mostly comes with the connection.
        self.ready(IN)

    def look(self) -> None:
        """Has the socket watched for what is waited for."""
        events = (IN if self.reads and not self.closes else 0) | (OUT if self.rest else 0)
        if events == self.events or self.is_over:
            return
        if not self.events:
            self.watch.add(self.number, events, self.ready)
        elif events:
            self.watch.change(self.number, events)
        else:
            self.watch.remove(self.number)
        self.events = events

    def ready(self, events: int) -> None:
        try:
            if self.rest and events & ~IN:
                self.flush()
            if self.reads and not self.closes and events & ~OUT:
                self.receive()
        except Exception:
            self.abort(True)
            raise

    # What comes.

    def receive(self) -> None:
        try:
            data = self.socket.recv(PIECE, AT_ONCE)
        except (BlockingIOError, InterruptedError):
            self.look()
            return
        except OSError:
            self.finish()
            return
        if data:
            self.peer.data_received(data)
        else:
            self.reads = False
            self.peer.eof_received()
        self.look()

    def pause_reading(self) -> None:
        self.reads = False
        self.look()

    def resume_reading(self) -> None:
        self.reads = True
        self.look()

    def skip(self) -> None:
        """Takes what has come, unread: the kernel ends a connection that is closed before with an
        error, and what was sent there is lost."""
        with contextlib.suppress(OSError):
            self.socket.recv(PIECE, AT_ONCE)

    # What is sent.

    def write(self, data: Union[bytes, memoryview], is_last: bool = False) -> None:
        """Sends this; if it `is_last`, in one packet with the end of this side."""
        if self.closes:
            return
        if self.rest:
            self.rest += data
            return
        try:
            sent = self.socket.send(data, WITH_END if is_last else AT_ONCE)
            if is_last and sent == len(data):
                self.socket.shutdown(socket.SHUT_WR)
        except (BlockingIOError, InterruptedError):
            sent = 0
        except OSError:
            # Who writes has still to end what it is at.
            self.closes = True
            self.watch.loop.call_soon(self.finish)
            return
        if sent < len(data):
            self.rest += data[sent:]
            self.look()

    def flush(self) -> None:
        try:
            sent = self.socket.send(self.rest, AT_ONCE)
        except (BlockingIOError, InterruptedError):
            return
        except OSError:
            self.finish()
            return
        del self.rest[:sent]
        if self.rest:
            return
        if self.closes:
            self.finish()
            return
        if self.ends:
            self.write_eof()
        self.peer.sent()
        self.look()

    # Its end.

    def is_closing(self) -> bool:
        return self.closes

    def write_eof(self) -> None:
        """Ends this side once all is sent."""
        self.ends = True
        if not self.rest:
            with contextlib.suppress(OSError):
                self.socket.shutdown(socket.SHUT_WR)

    def close(self) -> None:
        """Ends it once all is sent."""
        if self.closes:
            return
        self.closes = True
        if self.rest:
            self.look()
        else:
            self.finish()

    def abort(self, is_behind: bool) -> None:
        """Ends it now, and where its peer `is_behind` in the kernel as well, which would go on else
        with what was not taken."""
        if (is_behind or self.rest) and not self.is_over:
            with contextlib.suppress(OSError):
                self.socket.setsockopt(socket.SOL_SOCKET, socket.SO_LINGER, NO_WAIT)
        self.finish()

    def finish(self) -> None:
        if self.is_over:
            return
        self.is_over = self.closes = True
        if self.events:
            self.watch.forget(self.number)
        self.socket.close()
        # Neither keeps the other, so that both are let go at once.
        peer = self.peer
        del self.peer
        peer.connection_lost()


class Port:
    """A socket that listens, and what has the connections of those who come."""

    __slots__ = ("watch", "socket", "number", "make", "is_open")

    def __init__(self, watch: Watch, opened: socket.socket, make: Callable[[], Peer]) -> None:
        self.watch, self.socket, self.number, self.make = watch, opened, opened.fileno(), make
        opened.setblocking(False)
        # Those who are let in have the same.
        opened.setsockopt(socket.SOL_SOCKET, socket.SO_SNDBUF, SENDING)
        opened.setsockopt(socket.IPPROTO_TCP, socket.TCP_NODELAY, 1)
        self.is_open = True
        self.listen()

    def place(self) -> Place:
        return Place(*self.socket.getsockname()[:2])

    def listen(self) -> None:
        if self.is_open:
            self.watch.add(self.number, IN, self.accept)

    def accept(self, _: int) -> None:
        """Lets one in: who comes with others has his turn after what else is ready."""
        try:
            taken, address = self.socket.accept()
        except (BlockingIOError, InterruptedError, ConnectionAbortedError):
            return
        except OSError:
            self.watch.remove(self.number)
            self.watch.loop.call_later(NO_ROOM, self.listen)
            return
        Wire(self.watch, taken, self.make()).begin(address[0])

    def close(self) -> None:
        """Lets nobody in any more. Others may have the same socket: who waits is theirs."""
        if self.is_open:
            self.is_open = False
            if self.number in self.watch.ready:
                self.watch.remove(self.number)
            self.socket.close()

"""One request to an upstream: a connection, what is sent, and all that comes until the other side
ends it."""

import time
import errno
import socket
from typing import Callable, Optional

from irr.door.settings import Place
from irr.door.sockets import END, FAULT, IN, OUT, Watch

# The first piece is mostly the whole answer; a long one comes in larger ones.
FIRST, PIECE = 1 << 14, 1 << 18
# The bytes that come in a second at least, on the average: fewer are no answer of a process that
# runs.
SLOWEST = 1 << 14


class Exchange:
    """A request that is on its way. `take` gets each piece that comes, and may raise ValueError to
    end it; `ended` is called once, with None at the end of the answer, else with why there is
    none."""

    __slots__ = (
        "watch",
        "socket",
        "number",
        "rest",
        "take",
        "ended",
        "begun",
        "since",
        "heard",
        "size",
        "is_over",
    )

    def __init__(
        self,
        watch: Watch,
        place: Place,
        data: bytes,
        take: Callable[[bytes], None],
        ended: Callable[[Optional[str]], None],
    ) -> None:
        self.watch, self.take, self.ended, self.rest = watch, take, ended, data
        # When it was begun, when its first piece came, and when its last one did.
        self.begun = self.since = self.heard = time.monotonic()
        self.size, self.is_over = 0, False
        family = socket.AF_INET6 if ":" in place.host else socket.AF_INET
        self.socket = socket.socket(family, socket.SOCK_STREAM | socket.SOCK_NONBLOCK)
        self.number = self.socket.fileno()
        code = self.socket.connect_ex((place.host, place.port))
        if code not in (0, errno.EINPROGRESS):
            # Whoever asked has still to learn that it is on its way.
            watch.loop.call_soon(self.end, errno.errorcode.get(code, "fault"))
            return
        # On one machine the connection stands by now: what is sent is sent at once.
        if self.send():
            watch.add(self.number, IN | END, self.receive)
        elif not self.is_over:
            watch.add(self.number, OUT, self.write)

    def send(self) -> bool:
        """Sends what is left. Whether all of it went."""
        try:
            sent = self.socket.send(self.rest, socket.MSG_NOSIGNAL)
        except (BlockingIOError, InterruptedError):
            return False
        except OSError as error:
            if error.errno == errno.ENOTCONN:
                return False
            self.watch.loop.call_soon(self.end, word_of(error))
            return False
        self.rest = self.rest[sent:]
        return not self.rest

    def write(self, _: int) -> None:
        if self.send():
            self.watch.remove(self.number)
            self.watch.add(self.number, IN | END, self.receive)

    def receive(self, events: int) -> None:
        has_ended = events & (END | FAULT) == END
        for _ in range(8):
            most = PIECE if self.size else FIRST
            try:
                piece = self.socket.recv(most)
            except (BlockingIOError, InterruptedError):
                return
            except OSError as error:
                self.end(word_of(error))
                return
            if not piece:
                self.end(None)
                return
            self.heard = time.monotonic()
            if not self.size:
                self.since = self.heard
            self.size += len(piece)
            try:
                self.take(piece)
            except ValueError as error:
                self.end(str(error))
                return
            if has_ended and len(piece) < most:
                # It was all that came before the end.
                self.end(None)
            if self.is_over or len(piece) < most:
                return

    def has_lasted(self, seconds: float, since: float, now: float) -> bool:
        """Whether more than these seconds have passed since a time, beside those that what came may
        have taken."""
        return now - since > seconds + self.size / SLOWEST

    def end(self, fault: Optional[str]) -> None:
        """Ends it, once."""
        if not self.is_over:
            self.close()
            self.ended(fault)

    def close(self) -> None:
        """Lets go of the connection without a word to anybody."""
        if not self.is_over:
            self.is_over = True
            self.watch.forget(self.number)
            self.socket.close()


def word_of(error: OSError) -> str:
    return errno.errorcode.get(error.errno or 0, "fault")


def listens(place: Place) -> bool:
    """Whether somebody listens at a place of this machine now: one that was killed in an answer
    does not."""
    family = socket.AF_INET6 if ":" in place.host else socket.AF_INET
    with socket.socket(family, socket.SOCK_STREAM | socket.SOCK_NONBLOCK) as probe:
        if probe.connect_ex((place.host, place.port)) not in (0, errno.EINPROGRESS):
            return False
        return probe.getsockopt(socket.SOL_SOCKET, socket.SO_ERROR) == 0

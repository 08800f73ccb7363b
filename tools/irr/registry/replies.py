"""Replies over HTTP, within bounds of time and size, as long as they were announced."""
import http.client
import io
import re
import socket
import time
from typing import TYPE_CHECKING, NamedTuple

if TYPE_CHECKING:
    from _typeshed import WriteableBuffer

# Seconds until the next bytes come: others may be served first.
WAITING = 150
# Seconds in which what follows a whole answer, and should not, is looked for.
LINGERING = 1
LENGTH = re.compile("[0-9]{1,18}")


class Bounds(NamedTuple):
    """What an answer may take: so many seconds, one more for each `rate` bytes of it if there is a
    rate, and so many bytes."""

    seconds: float
    most: int
    rate: int = 0


# The report of a submission comes as its items are decided, and a dump may have millions of
# objects.
ANSWER, REPORT, DUMP = (
    Bounds(600, 512 << 20),
    Bounds(1_800, 64 << 20),
    Bounds(600, 16 << 30, 16_384),
)


class Beyond(Exception):
    """An answer takes more than its bounds."""


class Bounded(io.RawIOBase):
    """What comes of a connection, as long as it is within bounds."""

    def __init__(self, connection: socket.socket, bounds: Bounds) -> None:
        self.connection, self.source, self.bounds = connection, connection.makefile("rb", 0), bounds
        # Only the time counts in which the other side is waited for: who takes the answer may take
        # longer.
        self.waited, self.count = 0.0, 0

    def readable(self) -> bool:
        return True

    def close(self) -> None:
        self.source.close()
        super().close()

    def readinto(self, buffer: "WriteableBuffer") -> int:
        seconds = self.bounds.seconds + (self.count // self.bounds.rate if self.bounds.rate else 0)
        left, begun = seconds - self.waited, time.monotonic()
        late = Beyond(f"the answer was not whole after {seconds:,.0f} seconds; ask again later")
        if left <= 0:
            raise late
        self.connection.settimeout(min(WAITING, left))
        try:
            size = self.source.readinto(buffer) or 0
        except TimeoutError:
            if left < WAITING:
                raise late from None
            raise
        finally:
            self.waited += time.monotonic() - begun
        self.count += size
        if self.count > self.bounds.most:
            raise Beyond(
                f"the answer has over {self.bounds.most:,} bytes; ask for less, "
                "or look who answers there"
            )
        return size


class Reply(http.client.HTTPResponse):
    """A reply of a server, within bounds."""

    def __init__(self, connection: socket.socket, method: str | None, bounds: Bounds) -> None:
        super().__init__(connection, method=method)
        self.fp.close()
        self.bounded = Bounded(connection, bounds)
        self.fp = io.BufferedReader(self.bounded)

    def has_good_length(self) -> bool:
        """Whether its length is one number, if it is announced. What http.client can't read it
        takes for none."""
        lengths = {length.strip() for length in self.headers.get_all("Content-Length", [])}
        if lengths and "Transfer-Encoding" in self.headers:
            return False
        return len(lengths) <= 1 and all(map(LENGTH.fullmatch, lengths))

    def has_more(self) -> bool:
        """Whether more came than the length that was announced, all of which was read."""
        self.bounded.bounds = Bounds(self.bounded.waited + LINGERING, self.bounded.count + 1)
        try:
            return bool(self.fp.read1(1))
        except (OSError, Beyond):
            return self.bounded.count > self.bounded.bounds.most


def within(bounds: Bounds) -> type[Reply]:
    """Replies within these bounds, as http.client makes them."""

    class Within(Reply):
        def __init__(
            self,
            sock: socket.socket,
            debuglevel: int = 0,
            method: str | None = None,
            url: str | None = None,
        ) -> None:
            super().__init__(sock, method, bounds)

    return Within

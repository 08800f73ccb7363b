"""What comes of an upstream, whole before anybody gets it: in memory, or a dump in a file."""

import contextlib
import tempfile
from typing import IO, Optional, Protocol

from irr.door.cache import Answer, Full, Ledger
from irr.registry import answers


class Source(Protocol):
    """What can be handed out in pieces."""

    def piece(self, place: int, size: int) -> "bytes | memoryview":
        ...

    def size(self) -> int:
        ...


class InMemory:
    """A text that is in memory, and what keeps it counted."""

    __slots__ = ("text", "view", "answer")

    def __init__(self, text: bytes, answer: Optional[Answer] = None) -> None:
        self.text, self.view, self.answer = text, memoryview(text), answer

    def piece(self, place: int, size: int) -> memoryview:
        return self.view[place : place + size]

    def size(self) -> int:
        return len(self.view)


class Collected:
    """An answer that is collected, of at most `largest` bytes, all counted in the ledger."""

    __slots__ = ("largest", "ledger", "parts", "taken")

    def __init__(self, largest: int, ledger: Ledger) -> None:
        self.largest, self.ledger = largest, ledger
        self.parts: list[bytes] = []
        self.taken = 0

    def take(self, piece: bytes) -> None:
        if self.taken + len(piece) > self.largest:
            raise ValueError("long")
        try:
            self.ledger.take(len(piece), self.taken)
        except Full:
            raise ValueError("full") from None
        self.taken += len(piece)
        self.parts.append(piece)

    def whole(self, seconds: float) -> Optional[Answer]:
        """The answer; None if it was cut."""
        text = self.parts[0] if len(self.parts) == 1 else b"".join(self.parts)
        if not text.endswith(b"\n"):
            self.drop()
            return None
        return Answer(text, seconds, self.ledger, self.taken)

    def drop(self) -> None:
        self.ledger.release(self.taken)
        self.taken = 0


class Dump:
    """A public dump in a file that has no name."""

    def __init__(self, file: IO[bytes], length: int) -> None:
        self.file, self.length = file, length

    def piece(self, place: int, size: int) -> bytes:
        self.file.seek(place)
        return self.file.read(size)

    def size(self) -> int:
        return self.length


class Dumped:
    """A dump that is collected out of a reply over HTTP, and is whole if it says how many objects
    it has."""

    def __init__(self) -> None:
        self.file: Optional[IO[bytes]] = None
        self.head, self.tail = b"", b""
        self.is_in_body, self.taken, self.objects = False, 0, 0

    def take(self, piece: bytes) -> None:
        if not self.is_in_body:
            self.head += piece
            front, mark, piece = self.head.partition(b"\r\n\r\n")
            if not mark:
                if len(self.head) > 8_192:
                    raise ValueError("EPROTO")
                return
            if not front.startswith(b"HTTP/1.1 200 "):
                raise ValueError("EPROTO")
            self.is_in_body = True
        joined = self.tail[-1:] + piece
        self.objects += joined.count(b"\n\n")
        self.tail = (self.tail + piece)[-64:]
        self.taken += len(piece)
        try:
            self.file = self.file or tempfile.TemporaryFile(prefix="irr-door-")
            self.file.write(piece)
            self.file.flush()
        except OSError:
            # The disk is full, or there is no room for another file.
            raise ValueError("full") from None

    def whole(self, _: float) -> Optional[Dump]:
        end = answers.DUMP_END.fullmatch(self.tail[self.tail.rfind(b"\n", 0, -1) + 1 :])
        if not end or int(end[1]) != self.objects or self.file is None:
            self.drop()
            return None
        return Dump(self.file, self.taken)

    def drop(self) -> None:
        if self.file is not None:
            # What could not be written is tried once more, and lost.
            with contextlib.suppress(OSError):
                self.file.close()

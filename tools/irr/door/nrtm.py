"""Mirrors: who follows the registry by NRTM, version 3, as RIPE tells it, and what they are told.

A range may be asked for up to `LAST`; where that would be too long an answer, it ends before, as
its first line says, and the mirror asks on.
"""

import contextlib
import re
import time
from itertools import repeat
from pathlib import Path
from typing import TYPE_CHECKING, Optional

from irr.door.flags import Bad
from irr.door.settings import Settings, is_in, networks
from irr.errors import Failure
from irr.local.serials import Numbered, Part, Serials

if TYPE_CHECKING:
    from irr.door.queries import Asker

# Seconds for which what everybody may ask is taken as it was.
KEPT = 1.0
# How many mirrors are remembered.
MOST = 1_000
ASKED = re.compile(r"([A-Za-z][A-Za-z0-9_-]*):([0-9]{1,9}):([0-9]{1,18})-([0-9]{1,18}|LAST)", re.I)
# The files that are read for a piece of an answer.
FILES = 16
NO_NEWER = b"% Warning: there are no newer updates available\n\n"


class Mirrors:
    """What mirrors are told, and who they are."""

    def __init__(self, settings: Settings) -> None:
        self.allowed = networks(settings.mirrors, "mirrors")
        self.most = settings.largest
        self.serials = Serials(Path(settings.history))
        self.seen: Optional[Numbered] = None
        self.looked = 0.0
        # What could not be read of the serials when they were last asked for.
        self.unread = ""
        # The last serial that each mirror asked for, and when.
        self.asked: dict[str, tuple[int, float]] = {}

    def allows(self, address: str) -> bool:
        """Whether a client may mirror."""
        return is_in(address, self.allowed)

    def range(self) -> Optional[Numbered]:
        """The serials that are kept; None where none are."""
        now = time.monotonic()
        if now > self.looked + KEPT:
            self.looked = now
            try:
                self.seen = self.serials.range()
            except (OSError, Failure):
                self.seen = None
        return self.seen

    def serials_of(self, source: str) -> Optional[tuple[int, int]]:
        """The serials of a registry, from which to which; the first is the last one where no change
        is kept yet. None where no serials are kept."""
        found = self.range()
        if found is None or found.source != source:
            return None
        return min(found.first, found.last), found.last

    def last(self) -> int:
        """The last serial; 0 where none is kept."""
        found = self.range()
        return found.last if found else 0

    async def answer(self, word: str, asker: "Asker") -> "bytes | Changes":
        """What `-g` and its word are answered; Bad where that is an error."""
        address = asker.address
        if not self.allows(address):
            raise Bad(402, f"not authorised to mirror the database from IP address {address}")
        asked = ASKED.fullmatch(word)
        if asked is None:
            raise Bad(405, "syntax error: write -g SOURCE:3:FIRST-LAST, the word LAST for the last")
        name, version, begin, end = asked.groups()
        self.looked = 0.0
        found = self.range()
        if found is None:
            raise Bad(401, "invalid range: no serials are kept here")
        if found.source != name.upper():
            raise Bad(403, f"unknown source {name.upper()}")
        if version != "3":
            raise Bad(405, f"syntax error: version {version} is not known here, and 3 is")
        first, is_open = int(begin), end.upper() == "LAST"
        last = found.last if is_open else int(end)
        self.note(address, first, is_open)
        if is_open and first == found.last + 1:
            return NO_NEWER
        if not found.first <= first <= last <= found.last:
            raise Bad(401, f"invalid range: Not within {found.first}-{found.last}")
        self.unread = ""
        try:
            return Changes(found.source, first, await self.cut(asker, first, last, is_open))
        except FileNotFoundError:
            raise Bad(401, f"invalid range: {first} is no longer kept") from None
        except (OSError, Failure) as error:
            self.unread = str(error)
            raise Bad(401, "invalid range: its serials can't be read here") from None

    async def cut(self, asker: "Asker", first: int, last: int, is_open: bool) -> list[Part]:
        """The parts of a range, as many as one answer has."""
        parts: list[Part] = []
        size = 0
        steps = self.serials.parts(first, last)
        async for _ in asker.paced(repeat(None)):
            some = next(steps, None)
            for part in some or ():
                size += part.end - part.begin
                if is_open and parts and size > self.most:
                    return parts
                parts.append(part)
            if some is None:
                break
        return parts

    def note(self, address: str, first: int, is_open: bool) -> None:
        """Remembers what a mirror asked for. One that asks for a range of old changes, to compare
        them with what it has, is as far as it was."""
        before, _ = self.asked.pop(address, (0, 0.0))
        self.asked[address] = first if is_open else max(first, before), time.monotonic()
        if len(self.asked) > MOST:
            del self.asked[next(iter(self.asked))]

    def faults(self) -> list[str]:
        """What is wrong, in lines for people. A mirror that has more than was told follows serials
        that were lost: once these come again, it takes others for its own."""
        if not self.allowed:
            return []
        found = self.range()
        if found is None:
            return [f"mirrors have no serials in {self.serials.folder}: look at irrdesk-history"]
        if self.unread:
            return [f"the serials for mirrors can't be read: {self.unread}"]
        return [
            f"mirror {one} asks for serial {serial}, and the last is {found.last}: if it is not in"
            f" error, serials went back; remove {self.serials.folder}, so that mirrors begin anew"
            for one, (serial, _) in self.asked.items()
            if serial > found.last + 1
        ][:1]

    def status(self) -> Optional[dict[str, object]]:
        """What is told of them: the serials, and how far each mirror is; None without serials."""
        found, now = self.range(), time.monotonic()
        if found is None:
            return None
        return {
            "first": min(found.first, found.last),
            "last": found.last,
            "mirrors": {
                address: {"serial": serial - 1, "age": round(now - when, 1)}
                for address, (serial, when) in self.asked.items()
            },
        }


class Changes:
    """An answer of NRTM, which is read from the files of the serials as it is taken."""

    def __init__(self, source: str, first: int, parts: list[Part]) -> None:
        head = f"%START Version: 3 {source} {first}-{parts[-1].last}\n".encode()
        foot = f"\n%END {source}\n\n".encode()
        self.parts: list[bytes | Part] = [head, *parts, foot]
        self.ends: list[int] = []
        for part in self.parts:
            size = len(part) if isinstance(part, bytes) else part.end - part.begin
            self.ends.append((self.ends[-1] if self.ends else 0) + size)
        self.at = 0

    def piece(self, place: int, size: int) -> bytes:
        """The bytes from a place on, which never goes back: of few files, however short they
        are."""
        pieces: list[bytes] = []
        for _ in range(FILES):
            pieces.append(self.one(place, size))
            place += len(pieces[-1])
            size -= len(pieces[-1])
            if not size or place >= self.size():
                break
        return b"".join(pieces)

    def one(self, place: int, size: int) -> bytes:
        """Those of one file."""
        while place >= self.ends[self.at]:
            self.at += 1
        part, begun = self.parts[self.at], self.ends[self.at - 1] if self.at else 0
        if isinstance(part, bytes):
            return part[place - begun :]
        found = b""
        with contextlib.suppress(OSError), open(part.path, "rb") as file:
            file.seek(part.begin + place - begun)
            found = file.read(min(size, self.ends[self.at] - place))
        if not found:
            # It is kept no longer: the answer ends without its last line, so the mirror asks again.
            self.ends = [place]
        return found

    def size(self) -> int:
        return self.ends[-1]

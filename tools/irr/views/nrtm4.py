"""What a registry publishes by NRTM, version 4 (draft-ietf-grow-nrtm-v4): a notification file,
which is signed, names a snapshot of all objects and the changes of each version after it."""
import hashlib
import json
import os
import re
import time
import uuid
from datetime import datetime
from pathlib import Path
from typing import Any, BinaryIO, Iterator, NamedTuple, TypeVar
from urllib.parse import urljoin

from irr.errors import Failure
from irr.local import nrtm4
from irr.local.nrtm4 import Record
from irr.migrate import dumps
from irr.rpsl import syntax
from irr.system import files, sequences, signing
from irr.views import downloads, nrtm
from irr.views.settings import Source, is_address

# The most bytes of a notification file; of a file that it names, packed and unpacked.
LONGEST, MOST, MOST_TEXT = 1 << 23, 1 << 31, 1 << 34
HASH = re.compile("[0-9a-f]{64}", re.I)
# A part that ends so was not cut off.
END = b"\n% end\n"
Value = TypeVar("Value")


class Trust(NamedTuple):
    """Which keys a source is trusted by: the one that the settings gave, the one that signs now,
    and the next one, if it was told; and when the newest notification file was made."""

    given: str
    now: str
    next: str
    made: float


class Named(NamedTuple):
    """A file that is named: its version, where it is, and its SHA-256."""

    version: int
    place: str
    hash: str


class Notification(NamedTuple):
    """What a notification file says; its changes are of all versions from the first one to the
    last."""

    session: str
    version: int
    made: float
    next_key: str
    snapshot: Named
    deltas: list[Named]

    def has_all_after(self, version: int) -> bool:
        """Whether it names the changes of all versions after one."""
        return bool(self.deltas) and self.deltas[0].version <= version + 1

    def after(self, version: int) -> list[Named]:
        """The changes of the versions after one."""
        return [one for one in self.deltas if one.version > version]


class Follower:
    """Reads what a source publishes. Which keys it is trusted by stands in a file."""

    def __init__(self, source: Source, kept: Path) -> None:
        self.source, self.kept, self.thing = source, kept, source.nrtm4

    # The notification file.

    def notification(self, session: str) -> Notification:
        """What the notification file says, if it is signed by a key that is trusted, of now, and
        not older than one of another session before it."""
        part = self.kept.with_name("notification")
        downloads.taken(self.thing, self.source.plain, "", part, LONGEST)
        trust = self.trust()
        text, by = self.signed(part.read_bytes(), trust)
        notification = self.read(text)
        if session and notification.session != session and notification.made < trust.made:
            raise Failure(self.thing, "it is of a session before the one that was seen last")
        if abs(notification.made - time.time()) > nrtm4.CHANGES:
            raise Failure(
                self.thing,
                f"it is stale: it was made at {shown(notification.made)}, over"
                f" {nrtm4.CHANGES // 3_600} hours from now; ask its registry, or set the clock",
            )
        if notification.made >= trust.made:
            new = Trust(trust.given, by, notification.next_key, notification.made)
            files.put(self.kept, json.dumps(new._asdict()).encode(), files.PRIVATE)
        return notification

    def trust(self) -> Trust:
        """The keys that are trusted: those that were told, as long as the settings give the key
        that they began with."""
        given = signing.public_in(files.read(self.source.key), self.source.key)
        if self.kept.exists():
            found = Trust(**json.loads(self.kept.read_bytes()))
            if found.given == given:
                return found
        return Trust(given, given, "", 0)

    def signed(self, text: bytes, trust: Trust) -> tuple[bytes, str]:
        """What was signed, and the key that it was signed by."""
        for key in filter(None, (trust.now, trust.next)):
            found = signing.verified(text, key)
            if found is not None:
                return found, key
        raise Failure(
            self.thing,
            f"it is signed by no key that is trusted; give the registry's key in {self.source.key}",
        )

    def read(self, text: bytes) -> Notification:
        try:
            found = json.loads(text)
        except (ValueError, RecursionError):
            found = None
        if not isinstance(found, dict):
            raise self.other("JSON")
        session, version = self.head(found, "notification", self.thing)
        deltas = sorted(self.named(one) for one in self.field(found, "deltas", list, []))
        versions = [one.version for one in deltas]
        snapshot = self.named(self.field(found, "snapshot", dict))
        if versions != list(range(version + 1 - len(versions), version + 1)):
            raise self.other("changes of each version up to the last")
        if snapshot.version > version or snapshot.version < version - len(versions):
            raise self.other("a snapshot, and the changes of each version after it")
        next_key = self.field(found, "next_signing_key", str, "")
        if next_key:
            next_key = signing.public_in(next_key.encode("ascii", "replace"), self.thing)
        return Notification(session, version, self.made(found), next_key, snapshot, deltas)

    def made(self, found: Record) -> float:
        try:
            made = datetime.fromisoformat(self.field(found, "timestamp", str))
            if made.tzinfo:
                return made.timestamp()
        except (ValueError, OverflowError):
            pass
        raise self.other("`timestamp`")

    def head(self, found: Record, kind: str, thing: str) -> tuple[str, int]:
        """The session and the version that a file is of, which says what it is."""
        source = self.field(found, "source", str, thing=thing)
        version = self.field(found, "version", int, thing=thing)
        session = self.field(found, "session_id", str, thing=thing)
        if (found.get("nrtm_version"), found.get("type")) != (4, kind):
            raise Failure(thing, f"it is not a {kind} file of NRTM, version 4")
        if source.upper() != self.source.name:
            raise Failure(thing, f"it is of {source}, and not of {self.source.name}")
        try:
            return str(uuid.UUID(session)), positive(version)
        except ValueError:
            raise self.other("`session_id` and `version`", thing) from None

    def named(self, found: Any) -> Named:
        """A file that is named, which stands beside the notification file or below it."""
        if not isinstance(found, dict):
            raise self.other("files")
        url, version = self.field(found, "url", str), self.field(found, "version", int)
        place = beside(self.thing, url)
        if not place:
            raise Failure(self.thing, f"it names {url}, which is not beside it")
        value = self.field(found, "hash", str)
        if not HASH.fullmatch(value) or version < 1:
            raise self.other("`version` and `hash` of a file")
        return Named(version, place, value.lower())

    def field(
        self,
        found: Record,
        name: str,
        kind: type[Value],
        default: Value | None = None,
        thing: str = "",
    ) -> Value:
        value = found.get(name, default)
        if type(value) is not kind:
            raise self.other(f"`{name}`", thing)
        return value

    def other(self, what: str, thing: str = "") -> Failure:
        words = f"it has not {what} as NRTM, version 4, has it; look at `nrtm4`"
        return Failure(thing or self.thing, words)

    # The files that it names.

    def snapshot(self, notification: Notification, part: Path) -> None:
        """Writes all objects as the text of a dump."""
        thing = notification.snapshot.place
        with open(part, "wb") as out:
            for record in self.records(notification, notification.snapshot, "snapshot"):
                lines = nrtm4.object_in(record)
                text = syntax.one_block(lines) if lines else b""
                if not text:
                    raise Failure(thing, "it has a record that is not an object")
                out.write(text + b"\n")
            out.write(END)
            out.flush()
            os.fsync(out.fileno())

    def changes(self, notification: Notification, named: Named, out: BinaryIO) -> None:
        """Writes the changes of a version."""
        for record in self.records(notification, named, "delta"):
            found = nrtm4.change_in(record, self.source.name)
            if not found or not nrtm.put(out, found[0].encode(), syntax.one_block(found[1])):
                raise Failure(named.place, "it has a record that is not a change")

    def records(self, notification: Notification, named: Named, kind: str) -> Iterator[Record]:
        """The records of a file after its head, which is of the session and the version."""
        part, place = self.kept.with_name("fetched"), named.place
        downloads.taken(place, self.source.plain, "", part, MOST)
        with open(part, "rb") as file:
            found = hashlib.file_digest(file, "sha256").hexdigest()
        if found != named.hash:
            raise Failure(place, "it is cut off, or not the one that was named; it is asked again")
        records = sequences.read(bounded(dumps.pieces_of(str(part)), place), place)
        if self.head(next(records), kind, place) != (notification.session, named.version):
            raise Failure(place, "it is of another session or version than it is named by")
        yield from records
        part.unlink()


def beside(place: str, url: str) -> str:
    """The place of a file that is named at another, if it is in the same folder or below it;
    nothing where it is not."""
    try:
        if is_address(place):
            folder, found = urljoin(place, "."), urljoin(place, url)
        else:
            folder = os.path.join(os.path.dirname(os.path.abspath(place)), "")
            found = os.path.normpath(os.path.join(folder, url))
    except ValueError:
        return ""
    return found if found.startswith(folder) and "\0" not in found else ""


def bounded(pieces: Iterator[bytes], thing: str) -> Iterator[bytes]:
    """The pieces of a file that is unpacked, up to the most bytes."""
    size = 0
    try:
        for piece in pieces:
            size += len(piece)
            if size > MOST_TEXT:
                raise Failure("", f"it has over {MOST_TEXT >> 30} GiB unpacked; look what it is")
            yield piece
    except Failure as failure:
        raise Failure(thing, failure.what) from None


def positive(number: int) -> int:
    if not 0 < number < 1 << 62:
        raise ValueError
    return number


def shown(made: float) -> str:
    return time.strftime("%Y-%m-%dT%H:%M:%SZ", time.gmtime(made))

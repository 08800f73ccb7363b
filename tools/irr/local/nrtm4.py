"""The public states of a registry as files, by which mirrors follow it: NRTM, version 4
(draft-ietf-grow-nrtm-v4).

A notification file, which is signed, names the last snapshot and the changes of the last day, each
with its hash. It is put in place last, and what it no longer names stays for an hour: who reads it
finds all that it names.
"""
import contextlib
import gzip
import hashlib
import itertools
import json
import os
import secrets
import time
import uuid
from pathlib import Path
from typing import Any, Iterable, NamedTuple

from irr.errors import ARGUMENTS, Failure, reading
from irr.local.changes import ADD, DEL, Change
from irr.local.history import Repository, State
from irr.local.serials import Numbered, Serials
from irr.registry import answers
from irr.rpsl import keys
from irr.rpsl.keys import Key
from irr.system import files, sequences
from irr.system.signing import Keys, payload_of, public

NOTIFICATION = "update-notification-file.jose"
STATE = "state.json"
# Seconds for which changes are named, after which a snapshot is made anew if anything changed,
# after which the notification is signed anew in any case, and for which a file stays that is no
# longer named.
CHANGES = SNAPSHOT = 86_400
SIGNED = LEFT = 3_600
Record = dict[str, Any]


class File(NamedTuple):
    """A file that is named: its version, its name, its SHA-256, and when it was made."""

    version: int
    url: str
    hash: str
    made: float

    def record(self) -> Record:
        return {"version": self.version, "url": self.url, "hash": self.hash}


class Published(NamedTuple):
    """What is published: the registry, the session and the version; the last serial that it has,
    and the commit of it; the files."""

    source: str
    session: str
    version: int
    serial: int
    commit: str
    snapshot: File
    deltas: list[File]

    def head(self, kind: str) -> Record:
        return {
            "nrtm_version": 4,
            "type": kind,
            "source": self.source,
            "session_id": self.session,
            "version": self.version,
        }

    def notification(self, next_key: str) -> Record:
        """What the notification says, but for its time."""
        key = {"next_signing_key": next_key} if next_key else {}
        deltas = [one.record() for one in self.deltas]
        return (
            self.head("notification") | key | {"snapshot": self.snapshot.record(), "deltas": deltas}
        )

    def names(self) -> set[str]:
        return {one.url for one in (self.snapshot, *self.deltas)}


@reading("the state of NRTM, version 4")
def published_in(folder: Path) -> Published | None:
    """What was published last; None before the first time."""
    path = folder / STATE
    if not path.exists():
        return None
    found = json.loads(path.read_bytes())
    found["snapshot"] = File(**found["snapshot"])
    found["deltas"] = [File(**one) for one in found["deltas"]]
    return Published(**found)


def was_restored(old: Published, notification: Record) -> bool:
    """Whether more was published than is kept of it, in its session or in another one, as after a
    restored backup: mirrors may have other changes of the next version. Nobody knows where there is
    no notification."""
    return (
        not notification
        or notification["session_id"] != old.session
        or notification["version"] > old.version
    )


class Publisher:
    """Publishes the last state of a history in a folder, signed by keys of this machine, of which
    it keeps what it published."""

    def __init__(self, history: Path, out: Path, signers: Keys) -> None:
        self.history, self.out, self.signers = history, out, signers
        self.serials = Serials(history)

    def publish(self) -> Published:
        last = self.serials.now()
        if last is None:
            raise Failure(
                str(self.history), "it has no serials; let `irr history` fetch a state", ARGUMENTS
            )
        if not self.signers.now.exists():
            self.signers.make("EdDSA")
        old, before = published_in(self.signers.folder), self.published()
        is_known = old and self.is_known(old) and not was_restored(old, before)
        state = self.followed(old, last) if old and is_known else self.begun(last)
        next_key = public(self.signers.next) if self.signers.next.exists() else ""
        self.keep(before, state)
        if state != old:
            text = json.dumps(
                state._asdict()
                | {
                    "snapshot": state.snapshot._asdict(),
                    "deltas": [one._asdict() for one in state.deltas],
                }
            )
            files.put(self.signers.folder / STATE, text.encode(), files.PRIVATE)
        self.notify(before, state.notification(next_key))
        self.prune(state)
        return state

    def begun(self, last: Numbered) -> Published:
        """A session of a state, and of none before it."""
        session, none = str(uuid.uuid4()), File(0, "", "", 0)
        state = Published(last.source, session, 1, last.last, last.commit, none, [])
        return state._replace(snapshot=self.snapshot(state, last))

    def followed(self, old: Published, last: Numbered) -> Published:
        """The state after one that was published."""
        now, deltas = time.time(), list(old.deltas)
        while deltas and not self.is_kept(deltas[0], now):
            del deltas[0]
        if not all(map(self.is_there, deltas)):
            deltas = []
        state = old._replace(serial=last.last, commit=last.commit)
        if changes := self.changes(old, last):
            state = state._replace(version=old.version + 1)
            deltas.append(self.write(state.head("delta"), changes))
        state = state._replace(deltas=deltas)
        first = deltas[0].version if deltas else state.version + 1
        is_old = state.version > old.snapshot.version and now >= old.snapshot.made + SNAPSHOT
        if is_old or old.snapshot.version < first - 1 or not self.is_there(old.snapshot):
            state = state._replace(snapshot=self.snapshot(state, last))
        return state

    def is_known(self, old: Published) -> bool:
        """Whether the changes since what was published are kept: its serial is, and is of the same
        state, and of none in the place of lost ones."""
        kept = old.serial in self.serials.kept()
        return kept and self.serials.at(old.serial).commit == old.commit

    def is_kept(self, file: File, now: float) -> bool:
        return file.made > now - CHANGES and self.is_there(file)

    def is_there(self, file: File) -> bool:
        return (self.out / file.url).exists()

    # What is written.

    def snapshot(self, state: Published, last: Numbered) -> File:
        """Writes all objects."""
        head = state.head("snapshot")
        dump = answers.dumped(self.serials.dump(last), str(self.history))
        records = ({"object": text_of(paragraph.text())} for _, paragraph in dump)
        return self.write(head, records)

    def changes(self, old: Published, last: Numbered) -> list[Record]:
        """What changed after what was published, of each object the last."""
        name = str(self.history)
        last_of: dict[Key, Change] = {}
        several: set[Key] = set()
        for change in self.serials.changes(old.serial + 1, last.last):
            key = keys.key_of(answers.read(change.text, name))
            if key is None:
                raise answers.Strange(name)
            if last_of.pop(key, None):
                several.add(key)
            last_of[key] = change
        # What is as it was is not told: it came and went, or was changed and changed back.
        was = Repository(self.history).texts_of(State(old.commit, 0, ""), several)
        same = {key for key in several if last_of[key].becomes() == was.get(key, b"")}
        return [record(key, change) for key, change in last_of.items() if key not in same]

    def write(self, head: Record, records: Iterable[Record]) -> File:
        """Writes a text sequence (RFC 7464) under a name that nobody guesses before it is named."""
        parts = (head["type"], head["version"], head["source"], head["session_id"])
        name = f"nrtm-{'.'.join(map(str, parts))}.{secrets.token_hex(16)}.json.gz"
        with files.written(self.out / name) as file:
            with gzip.GzipFile(filename="", mode="wb", fileobj=file, mtime=0) as out:
                for text in sequences.written(itertools.chain([head], records)):
                    out.write(text)
        with open(self.out / name, "rb") as file:
            found = hashlib.file_digest(file, "sha256").hexdigest()
        return File(head["version"], name, found, time.time())

    @reading("the notification file")
    def published(self) -> Record:
        """What the notification says that is in place; nothing where there is none."""
        path = self.out / NOTIFICATION
        found: Record = json.loads(payload_of(path.read_bytes())) if path.exists() else {}
        return found

    def notify(self, before: Record, wanted: Record) -> None:
        """Puts the notification in place where it says anything new, or was signed long ago."""
        path, now = self.out / NOTIFICATION, time.time()
        named = {name: value for name, value in before.items() if name != "timestamp"}
        signed = path.stat().st_mtime if before else 0
        is_rolled = before and self.signers.now.stat().st_mtime >= signed
        if named == wanted and abs(now - signed) < SIGNED and not is_rolled:
            return
        stamp = {"timestamp": time.strftime("%Y-%m-%dT%H:%M:%SZ", time.gmtime(now))}
        files.put(path, self.signers.sign(json.dumps(wanted | stamp).encode()))

    # What is no longer named.

    def keep(self, before: Record, state: Published) -> None:
        """Lets what is named still, and not by the next notification, stay for its time from now
        on."""
        named = [before["snapshot"], *before["deltas"]] if before else []
        for one in named:
            if one["url"] not in state.names():
                with contextlib.suppress(FileNotFoundError):
                    os.utime(self.out / one["url"])

    def prune(self, state: Published) -> None:
        """Removes what was named long ago, or is left of a run that was stopped."""
        for path in self.out.iterdir():
            is_left = path.name.startswith((".nrtm-", f".{NOTIFICATION}"))
            is_old = path.name.startswith("nrtm-") and path.name not in state.names()
            if is_left or is_old and path.stat().st_mtime < time.time() - LEFT:
                path.unlink()


def record(key: Key, change: Change) -> Record:
    """A change as it is told."""
    if change.word == ADD:
        return {"action": "add_modify", "object": text_of(change.text)}
    name = key.text.replace(" ", "") if key.kind == "route" else key.text
    return {"action": "delete", "object_class": key.kind, "primary_key": name}


def object_in(found: Record) -> list[bytes] | None:
    """The lines of the object that a record of a snapshot is; None where it is none."""
    match found:
        case {"object": str(text)}:
            return lines_of(text)
    return None


def change_in(found: Record, source: str) -> tuple[str, list[bytes]] | None:
    """The word and the lines of the change that a record tells; None where it tells none. Of what
    is deleted there is just what tells it from others."""
    match found:
        case {"action": "add_modify", "object": str(text)}:
            return ADD, lines_of(text)
        case {"action": "delete", "object_class": str(kind), "primary_key": str(name)}:
            front, mark, number = name.upper().rpartition("AS")
            origin = ""
            if kind.lower() == "route" and mark:
                name, origin = front, f"\norigin: AS{number}"
            lines = lines_of(f"{kind}: {name}{origin}\nsource: {source}")
            return (DEL, lines) if len(lines) == 2 + bool(origin) else None
    return None


def lines_of(text: str) -> list[bytes]:
    """The lines of a text that was one of JSON."""
    return text.encode("utf-8", "replace").split(b"\n")


def text_of(text: bytes) -> str:
    """An object as text: what is not UTF-8 is taken for Latin-1."""
    body = text.removesuffix(b"\n")
    try:
        return body.decode()
    except UnicodeDecodeError:
        return body.decode("latin-1")

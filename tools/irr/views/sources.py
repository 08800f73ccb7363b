"""What was taken of each source of a view: its dumps as they came, and the changes told since; and
how it is renewed."""
import contextlib
import hashlib
import json
import os
import re
import shutil
from pathlib import Path
from typing import Any, BinaryIO, Iterator, NamedTuple

from irr.errors import Failure
from irr.migrate import dumps
from irr.registry.server import Server
from irr.rpsl import keys, syntax
from irr.rpsl.syntax import Block
from irr.system import files
from irr.views import downloads, nrtm
from irr.views.downloads import Gone
from irr.views.nrtm4 import Follower, Notification
from irr.views.settings import Source, is_address

# So many bytes of changes are kept beside a dump, until it is taken anew.
MOST_CHANGES = 1 << 26
# How often a notification file is read where what it names is gone.
TRIES = 3
# What tells of a dump that it is whole, in words for people: in so many bytes at its end.
LINE_END, EOF, TAIL = "line end", "`# EOF`", 200
EOF_LINE = re.compile(rb"[#%]+ *EOF", re.I)
# That serials were seen to go back; and that a dump was seen since.
BACK, PAST = 1, 2


class State(NamedTuple):
    """What was taken of a source, in a folder: where it was taken from, what told its dumps from
    earlier ones, their digests, the serial of the last change that is in it, and how many objects
    of each class it had once it was merged; and the digest of the changes since the dumps. By NRTM,
    version 4, the serial is the version of a session, of whose snapshot and changes it has the
    hashes that were named. It is left where the source told of no changes after it. Of the dumps
    from which nothing led on it has the short names: they are refused, whatever is told later. It
    has what tells of each dump that it is whole, and the last changes that were told up to its
    serial; why it may be other than the source, where that was known as it was taken; and whether
    serials were seen to go back since, and a dump after that."""

    folder: Path
    origin: str
    stamps: list[str]
    digests: list[str]
    serial: int | None
    counts: list[int]
    session: str = ""
    hash: str = ""
    snapshot: str = ""
    deltas: dict[str, str] = {}
    is_left: bool = False
    refused: list[str] = []
    ends: list[list[str]] = []
    told: nrtm.Told = {}
    doubt: str = ""
    back: int = 0

    @property
    def file(self) -> Path:
        return self.folder / "state.json"

    @property
    def parts(self) -> list[Path]:
        return [self.folder / str(place) for place in range(len(self.digests))]

    @property
    def changes(self) -> Path:
        return self.folder / "changes"

    def has_room(self) -> bool:
        """Whether more changes can be kept."""
        return not self.changes.exists() or self.changes.stat().st_size < MOST_CHANGES

    def mark(self) -> str:
        """What tells it from other states."""
        return json.dumps([self.digests, self.serial, *filter(None, [self.session, self.hash])])

    def digest(self) -> str:
        """A short name of it."""
        return hashlib.sha256(self.mark().encode()).hexdigest()[:16]

    def names(self, serial: int | None) -> set[str]:
        """Short names of its dumps, whatever their serial is, and of their serial if it is not
        after another one, since a registry may renew one of both long before the other."""
        is_old = (self.serial or 0) <= (serial or 0)
        parts = [json.dumps(self.digests), *([str(self.serial)] if is_old else [])]
        return {hashlib.sha256(one.encode()).hexdigest()[:16] for one in parts}

    def seen(self) -> float:
        """When the source was last seen to have it, in seconds since 1970."""
        return self.file.stat().st_mtime

    def see(self) -> None:
        os.utime(self.file)

    def put(self) -> None:
        fields = {**self._asdict(), "folder": ""}
        # An older version can't read a field that it does not know.
        for name, value in self._field_defaults.items():
            if fields[name] == value:
                del fields[name]
        files.put(self.file, json.dumps(fields).encode(), files.PRIVATE)

    def note(self, **fields: Any) -> None:
        """Keeps something of it without having seen it."""
        seen = self.file.stat().st_mtime_ns
        self._replace(**fields).put()
        os.utime(self.file, ns=(seen, seen))

    def leave(self, dump: "State | None" = None) -> None:
        """Keeps that nothing leads on from it, nor from a dump. If serials went back, that of the
        dump may be from before, whatever dump it stands beside."""
        serial = dump.serial if dump and self.back == BACK else self.serial
        names = {*self.refused, *(dump.names(serial) if dump else [])}
        back = PAST if dump and self.back else self.back
        self.note(is_left=True, refused=sorted(names), back=back)

    def at(self, serial: int, told: nrtm.Told | None = None) -> "State":
        """The same with the changes up to a serial, which are written."""
        last = nrtm.last_of({**self.told, **(told or {})})
        return self._replace(serial=serial, hash=digest(self.changes), told=last, doubt="")

    def is_named(self, notification: Notification) -> bool:
        """Whether a notification file names its version, and none that led to it otherwise. A
        registry that was restored may tell other changes by the same numbers."""
        snapshot = notification.snapshot
        named = {str(one.version): one.hash for one in notification.deltas}
        pairs = [(named[one], self.deltas[one]) for one in named.keys() & self.deltas.keys()]
        if snapshot.version == self.serial and self.snapshot:
            pairs.append((snapshot.hash, self.snapshot))
        return not self.is_left and bool(pairs) and all(one == other for one, other in pairs)

    def changed(self) -> Iterator[tuple[bool, Block]]:
        """The changes since the dumps: whether each is an object that there is, and its text."""
        if not self.changes.exists():
            return
        with open(self.changes, "rb") as file:
            word = b""
            for block in syntax.blocks(syntax.chunks(file), syntax.LARGEST << 4):
                if word:
                    yield word == b"ADD", block
                    word = b""
                    continue
                word = block.text.strip()
                if word not in (b"ADD", b"DEL"):
                    raise Failure(
                        str(self.changes),
                        f"it has no change in line {block.line}; remove {self.folder}, so that all "
                        "of the source is taken anew",
                    )


def state_in(folder: Path) -> State | None:
    """The state that a folder has, if it has one."""
    if not (folder / "state.json").exists():
        return None
    found: dict[str, Any] = json.loads((folder / "state.json").read_bytes())
    # Version 2.0.0 did not note where it was taken from.
    found = {"origin": "", **found, "folder": folder}
    return State(**found)


def noted(state: State | None) -> State | None:
    """A state with what was noted of it in its folder since it was read."""
    return state_in(state.folder) if state else None


def renewed(
    source: Source, old: State | None, work: Path, is_refused: bool = False
) -> State | None:
    """What a source has now, in a new folder; None where that is what was taken of it before.
    Nothing is left of what was taken elsewhere. From what was refused since, no changes lead on."""
    empty(work)
    if old and old.origin != source.origin():
        old = None
    if source.nrtm4:
        return published(source, old, work)
    state: State | None = None
    gap: nrtm.Behind | None = None
    if old and source.nrtm and old.serial is not None:
        try:
            is_same = need_same(source, old, old.serial)
            if not is_refused and not old.has_room():
                gap = nrtm.Behind(why=f"over {MOST_CHANGES >> 20} MiB of changes are kept")
            elif not is_refused:
                state = led_to(source, old, old.serial, work, is_same)
                if not old.is_left:
                    return state
                # Serials went back, so these changes may be of another state.
                gap = nrtm.Behind()
        except nrtm.Behind as behind:
            # Before the first change there is none to miss, unless the serial tells of one.
            is_new = isinstance(behind, nrtm.Empty) and not (old.told or old.is_left)
            is_back = bool(behind.why) or behind.is_anew(old.serial) and not is_new
            if is_back or not is_refused:
                gap = None if is_new and serial_of(source) == old.serial else behind
            if is_back:
                # A dump that is there already may be from before, but for new serials after a gap.
                back = BACK if behind.why or not old.refused else PAST
                old.note(is_left=True, back=old.back or back)
                old = noted(old)
        except Failure:
            # Where it is refused, a dump is looked at in any case.
            if not is_refused:
                raise
        empty(work)
    state = taken(source, old, work, gap)
    if state is None or not source.nrtm or state.serial is None:
        return state
    before, now = (old.serial if old else None) or 0, state.serial
    try:
        state = begun(source, state, now)
    except nrtm.Behind as behind:
        # Serials may have begun anew. Otherwise the dump has to be newer than what there was, and
        # not ahead of what is told.
        if old and (behind.is_anew(now) or now < before and not behind.is_anew(before)):
            raise unfollowed(source, old, state) from None
        state.changes.unlink()
        # Serials may have gone back behind it too, and pass it with others.
        doubt = f"nrtm://{source.nrtm}: it tells no changes after {now}"
        state = state._replace(doubt=doubt, is_left=True, refused=sorted(state.names(now)))
    except Failure as failure:
        if old and gap and gap.is_anew(now):
            # It is ahead of what was told just now.
            raise unfollowed(source, old, state) from None
        if now < before:
            raise
        state.changes.unlink()
        state = state._replace(doubt=str(failure))
    state.put()
    return state


def need_same(source: Source, old: State, serial: int) -> bool | None:
    """Whether the last changes up to a state are told as before; None where they are told no more.
    Behind where others are, or where serials went back: that is known before a fault of the dump
    or of its serial."""
    is_same = nrtm.is_same(source.place(), source.name, serial, old.told)
    if is_same is False:
        raise nrtm.Behind(why=f"it tells other changes up to {serial} than before")
    if is_same is None:
        with contextlib.suppress(nrtm.Unread), open(os.devnull, "wb") as out:
            nrtm.follow(source.place(), source.name, serial, out, {})
    return is_same


def led_to(
    source: Source, old: State, serial: int, work: Path, is_same: bool | None
) -> State | None:
    """What the changes since a state lead to, or those since a dump of now."""
    if is_same is None and all(old.stamps) and serial_of(source) == serial:
        # What is told no more may be other than before, which a dump of that serial shows. One that
        # nothing tells from the one before is not fetched for its serial alone.
        state = newer(source, old, work)
        if state:
            return state
        empty(work)
    try:
        return followed(source, old, serial, work)
    except nrtm.Unread:
        # So it is however often it is asked, until a dump is of after it.
        empty(work)
        state = newer(source, old, work) if serial_of(source) > serial else None
        if state is None:
            raise
        return state


def newer(source: Source, old: State, work: Path) -> State | None:
    """A dump that is another one, with the changes after it; None where they do not lead on from
    it. One that is ahead of what is told may be from before a restore: it is refused from then
    on."""
    state = taken(source, old, work, None)
    if state is None or state.serial is None:
        return None
    serial = state.serial
    try:
        state = begun(source, state, serial)
    except nrtm.Behind as behind:
        if behind.is_anew(serial):
            old.note(refused=sorted({*old.refused, *state.names(serial)}))
        return None
    state.put()
    return state


def begun(source: Source, dump: State, serial: int) -> State:
    """A dump with the changes after its serial; those before it are asked for so that they are
    known once more."""
    told: nrtm.Told = {}
    last = serial
    with appended(dump.changes) as out, contextlib.suppress(nrtm.Empty):
        last = nrtm.follow(source.place(), source.name, serial, out, told)
    before = nrtm.told_before(source.place(), source.name, serial)
    return dump.at(last, {**before, **told})


def unfollowed(source: Source, old: State, dump: State, gap: nrtm.Behind | None = None) -> Failure:
    """What is wrong where nothing leads on from a state, nor from a dump, which is refused then."""
    old.leave(dump)
    serial, now = old.serial or 0, dump.serial or 0
    why = gap.why if gap and gap.why else f"it tells no changes after {serial}"
    is_same = now > serial and old.digests == dump.digests
    its = "is the one of before" if is_same else f"has serial {now}"
    return Failure(f"nrtm://{source.nrtm}", f"{why}, and the dump {its} still")


def empty(folder: Path) -> None:
    shutil.rmtree(folder, ignore_errors=True)
    folder.mkdir(mode=0o700, parents=True)


def followed(source: Source, old: State, serial: int, work: Path) -> State | None:
    """The changes since a state, by NRTM."""
    state = continued(old, work)
    told: nrtm.Told = {}
    with appended(state.changes) as out:
        last = nrtm.follow(source.place(), source.name, serial, out, told)
    if not old.told:
        # Version 2.4.0 did not note it.
        told = {**nrtm.told_before(source.place(), source.name, serial), **told}
    if last == serial:
        if told:
            old.note(told=nrtm.last_of(told))
        return None
    state = state.at(last, told)
    state.put()
    return state


def continued(old: State, work: Path) -> State:
    """A state in another folder, to which changes are added."""
    for part in old.parts:
        os.link(part, work / part.name)
    state = old._replace(folder=work)
    if old.changes.exists():
        shutil.copyfile(old.changes, state.changes)
    return state


@contextlib.contextmanager
def appended(path: Path) -> Iterator[BinaryIO]:
    """A file that grows, and is on the disk before what says so of it."""
    with open(path, "ab") as out:
        yield out
        out.flush()
        os.fsync(out.fileno())


def published(source: Source, old: State | None, work: Path) -> State | None:
    """What is published by NRTM, version 4. The notification file is read again where a file that
    it names is no longer there."""
    follower = Follower(source, work.parent / "trusted.json")
    notification = follower.notification(old.session if old else "")
    try:
        for _ in range(TRIES - 1):
            try:
                return noticed(source, old, work, follower, notification)
            except Gone:
                before = notification
                notification = follower.notification(old.session if old else "")
                if notification == before:
                    raise
                empty(work)
        return noticed(source, old, work, follower, notification)
    except Failure:
        # A snapshot of a later version makes up for changes that can't be taken.
        is_later = old and notification.snapshot.version > (old.serial or 0)
        if not old or not is_later or old.session != notification.session:
            raise
        empty(work)
        return noticed(source, None, work, follower, notification)


def noticed(
    source: Source, old: State | None, work: Path, follower: Follower, notification: Notification
) -> State | None:
    """The changes since a state, if the notification file names all of them; else all objects, and
    the changes after these."""
    if old and old.session == notification.session:
        serial = old.serial or 0
        if notification.version < serial:
            old.leave()
            raise Failure(
                source.nrtm4,
                f"it went back from version {serial} to {notification.version}; ask its registry,"
                f" and remove {old.folder} if all of it is to be taken anew",
            )
        is_named = old.is_named(notification)
        if is_named and notification.version == serial:
            return None
        is_followed = is_named and notification.has_all_after(serial) and old.has_room()
    else:
        is_followed = False
    if old and is_followed:
        state = continued(old, work)
    else:
        part = work / "0"
        follower.snapshot(notification, part)
        serial, counts = notification.snapshot.version, old.counts if old else []
        state = State(
            work, source.origin(), [""], [digest(part)], serial, counts, notification.session
        )
    with appended(state.changes) as out:
        for named in notification.after(state.serial or 0):
            follower.changes(notification, named, out)
    version, snapshot = notification.version, notification.snapshot
    state = state.at(version)._replace(
        snapshot=snapshot.hash if snapshot.version == version else "",
        deltas={str(one.version): one.hash for one in notification.deltas},
    )
    state.put()
    return state


def taken(source: Source, old: State | None, work: Path, gap: nrtm.Behind | None) -> State | None:
    """The dumps of a source. Its serial is read before them, so that changes are told twice rather
    than never. A Failure where they are those of before, and nothing leads on from them."""
    serial = serial_of(source) if source.serial else None
    places = [source.registry] if source.registry else list(source.dump)
    stamps, digests, ends = [], [], []
    for number, place in enumerate(places):
        part = work / str(number)
        is_old = old is not None and number < len(old.digests)
        stamp = old.stamps[number] if old and is_old else ""
        try:
            if source.registry:
                files.put(part, Server(place, source.plain).dump(), files.PRIVATE)
            else:
                stamp = downloads.taken(place, source.plain, stamp, part)
        except downloads.Unchanged:
            assert old
            os.link(old.parts[number], part)
            # Version 2.3.0 did not note how they end.
            ends.append(old.ends[number] if old.ends else ending(part, place))
        else:
            ends.append(ending(part, place))
        stamps.append(stamp)
        digests.append(digest(part))
    counts = old.counts if old else []
    state = State(work, source.origin(), stamps, digests, serial, counts, ends=ends)
    if old and source.nrtm:
        # The first dump that is seen after serials went back may be from before. One that was there
        # is of its serial of then, whatever serial is told now.
        is_first = old.back == BACK
        # Where others are told up to a serial, a dump of an earlier one may be from before too.
        is_before = old.back and gap and gap.why and (serial or 0) < (old.serial or 0)
        is_known = gap and old.digests == digests
        names = {state.digest(), *state.names(serial)}
        if is_first or is_before or is_known or names & {*old.refused}:
            raise unfollowed(source, old, state, gap)
    if old and old.digests == digests and not gap and (source.nrtm or old.serial == serial):
        old.note(stamps=stamps, ends=ends)
        return None
    state.put()
    return state


def serial_of(source: Source) -> int:
    """The serial of the dumps."""
    if is_address(source.serial):
        with downloads.opened(source.serial, source.plain) as reply:
            text = reply.read(64)
    else:
        text = files.read(source.serial)
    serial = keys.read_number(keys.as_text(text.strip()), 0, 10**18 - 1)
    if serial is None:
        raise Failure(source.serial, "it has no serial; correct `serial`")
    return serial


def digest(part: Path) -> str:
    with open(part, "rb") as file:
        return hashlib.file_digest(file, "sha256").hexdigest()


def ending(part: Path, name: str) -> list[str]:
    """What tells of a dump that it is whole, which has to be read to its end."""
    tail = b""
    try:
        for piece in dumps.pieces_of(str(part)):
            tail = (tail + piece)[-TAIL:]
    except Failure as failure:
        raise Failure(name, failure.what) from None
    last = tail.rstrip().splitlines()[-1:] or [b""]
    is_told = {LINE_END: tail.endswith((b"\n", b"\r")), EOF: EOF_LINE.fullmatch(last[0])}
    return [words for words, found in is_told.items() if found]


def cut(source: Source, old: State, state: State) -> str:
    """How a dump lacks what told of the one before that it was whole; no words where none does."""
    for place, before, now in zip(source.dump, old.ends, state.ends):
        lost = [words for words in before if words not in now]
        if lost and EOF not in now:
            return (
                f"{place} ends without the {lost[-1]} that it had; look whether it is cut off, and "
                f"remove {old.folder} if it is whole"
            )
    return ""

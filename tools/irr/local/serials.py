"""The serials of a registry's public changes, by which mirrors follow it: in the folder `serials`
of a history, a file for each of its last states, which is named by its last serial.

A file begins with a line of what it is, and has the changes as NRTM tells them. That of a state
from which mirrors can only begin has none. All of them are made of the commits of the history, so
what a stop left out is made up for by the next run.
"""
import errno
import hashlib
import itertools
import mmap
import os
import re
from bisect import bisect_left
from pathlib import Path
from typing import BinaryIO, Generator, Iterator, NamedTuple

from irr.errors import Failure, reading
from irr.local import changes
from irr.local.changes import Change
from irr.local.history import Repository, State
from irr.registry import answers
from irr.system import files

# What is kept: so many states, of so many bytes in all, and the last one in any case.
MOST_STATES, MOST_BYTES = 5_000, 1 << 28
HEAD = re.compile(
    rb"% ([A-Z][A-Z0-9_-]*) ([0-9]+)-([0-9]+) since ([0-9]+) ([0-9a-f]{40}) ([0-9a-f]{64})\n"
)
# A serial that begins is the time in such steps, so that a folder that was lost is followed by
# higher ones, as long as there was no more than one change in each.
STEP = 10
# The files that are looked at, and the bytes that are searched, before others have their turn.
AT_ONCE, STRETCH = 100, 1 << 20


class Numbered(NamedTuple):
    """A state of which the serials are kept: the registry's name, the serials of its changes, which
    are none where the first is after the last, the serial that mirrors could begin from, and the
    commit and the digest of the public dump."""

    source: str
    first: int
    last: int
    since: int
    commit: str
    dump: str

    def head(self) -> bytes:
        return (
            f"% {self.source} {self.first}-{self.last} since {self.since} {self.commit} {self.dump}"
            "\n"
        ).encode()


class Part(NamedTuple):
    """The changes of one file, or some of them: from which byte on to which, and the last serial of
    them."""

    path: Path
    begin: int
    end: int
    last: int


class Serials:
    """The serials of the history in a folder."""

    def __init__(self, history: Path) -> None:
        self.folder = history / "serials"

    def path(self, last: int) -> Path:
        return self.folder / f"{last:010}"

    def kept(self) -> list[int]:
        """The last serials of the states that are kept, in order."""
        try:
            return sorted(int(name) for name in os.listdir(self.folder) if name.isdigit())
        except FileNotFoundError:
            return []

    @reading("the serials")
    def at(self, last: int) -> Numbered:
        """The state of a last serial."""
        path = self.path(last)
        with open(path, "rb") as file:
            found = HEAD.match(file.readline())
        if not found:
            raise Failure(
                str(path), "it has no serials; remove its folder, so that mirrors begin anew"
            )
        source, first, final, since, commit, dump = (part.decode() for part in found.groups())
        return Numbered(source, int(first), int(final), int(since), commit, dump)

    def now(self) -> Numbered | None:
        """The last state; None where no serials are kept."""
        kept = self.kept()
        return self.at(kept[-1]) if kept else None

    def range(self) -> Numbered | None:
        """The last state, with the first of all serials that are kept."""
        kept = self.kept()
        if not kept:
            return None
        last = self.at(kept[-1])
        try:
            oldest = self.at(next(one for one in kept if one >= last.since))
        except FileNotFoundError:
            # It was removed since its name was read.
            return self.range()
        return last._replace(first=oldest.first)

    def parts(self, first: int, last: int) -> Iterator[list[Part]]:
        """Where the changes of a range that is kept stand, some at a time: what is done before the
        next ones takes some milliseconds."""
        kept, wanted = self.kept(), first
        found = kept[bisect_left(kept, first) : bisect_left(kept, last) + 1]
        for place in range(0, len(found), AT_ONCE):
            parts: list[Part] = []
            for one in found[place : place + AT_ONCE]:
                numbered = self.at(one)
                if numbered.first > wanted:
                    # It was removed since the range was looked at.
                    raise FileNotFoundError(errno.ENOENT, "it is removed", self.path(wanted))
                wanted = numbered.last + 1
                path, begin = self.path(one), len(numbered.head())
                end = path.stat().st_size
                if first > numbered.first or last < numbered.last:
                    with open(path, "rb") as file, mapped(file) as all:
                        if first > numbered.first:
                            begin = yield from place_of(all, first)
                        if last < numbered.last:
                            end = yield from place_of(all, last + 1)
                parts.append(Part(path, begin, end, min(last, numbered.last)))
            yield parts

    def changes(self, first: int, last: int) -> Iterator[Change]:
        """The changes of a range that is kept, in order."""
        for part in itertools.chain.from_iterable(self.parts(first, last)):
            with open(part.path, "rb") as file:
                file.seek(part.begin)
                words = file.read(part.end - part.begin).strip(b"\n").split(b"\n\n")
            for word, text in zip(words[::2], words[1::2], strict=True):
                yield Change(word.split()[0].decode(), text + b"\n")

    def dump(self, numbered: Numbered) -> Iterator[bytes]:
        """The public dump of a state, which has to be the one that was fetched."""
        history, digest, count = self.folder.parent, hashlib.sha256(), 0
        for piece in Repository(history).objects(State(numbered.commit, 0, numbered.dump)):
            digest.update(piece)
            count += 1
            yield piece
        end = f"% end {count}\n".encode()
        digest.update(end)
        if digest.hexdigest() != numbered.dump:
            raise Failure(
                str(history),
                f"commit {numbered.commit} does not give the dump that it was made of; the"
                " repository was changed: take it from a backup",
            )
        yield end

    # What is written, by one process at a time, which holds the history.

    def update(self, repository: Repository, now: int) -> None:
        """Gives serials to the changes of each commit that has none yet."""
        states = repository.states()
        if not states:
            return
        files.folder(self.folder)
        for name in os.listdir(self.folder):
            if name.startswith("."):
                (self.folder / name).unlink()
        last = self.now()
        places = [place for place, one in enumerate(states) if last and one.commit == last.commit]
        if last is None or not places:
            # Nobody knows what was between: mirrors begin anew, from the last state.
            last = self.begin(repository, states[0], max(now // STEP, last.last + 1 if last else 1))
            places = [0]
        for place in reversed(range(places[0])):
            last = self.follow(repository, states[place + 1], states[place], last, now)
        self.prune(last.since)

    def begin(self, repository: Repository, state: State, serial: int) -> Numbered:
        """Lets mirrors begin from a state, and from none before it."""
        first = next(repository.objects(state))
        source = source_of(first[:-1], repository)
        numbered = Numbered(source, serial + 1, serial, serial, state.commit, state.dump)
        files.put(self.path(serial), numbered.head())
        return numbered

    def follow(
        self, repository: Repository, before: State, state: State, last: Numbered, now: int
    ) -> Numbered:
        """Gives serials to what a state changed of the one before it."""
        added, changed, deleted = repository.between(before, state)
        name = str(repository.folder)
        for text in [*added, *changed][:1]:
            if source_of(text, repository) != last.source:
                # Another registry is in the place of the one that mirrors have.
                return self.begin(repository, state, max(now // STEP, last.last + 1))
        found = list(changes.in_order(added, changed, deleted, name))
        numbered = last._replace(
            first=last.last + 1,
            last=last.last + len(found),
            commit=state.commit,
            dump=state.dump,
        )
        files.put(self.path(numbered.last), pieces(numbered, found))
        return numbered

    def prune(self, since: int) -> None:
        """Removes what is from before the serial that mirrors could begin from, and what is more
        than is kept."""
        room = MOST_BYTES
        for count, last in enumerate(reversed(self.kept())):
            room -= self.path(last).stat().st_size
            if last < since or count and (count >= MOST_STATES or room < 0):
                self.path(last).unlink()


def source_of(text: bytes, repository: Repository) -> str:
    """The name of an object's registry, which objects spell in any letter case."""
    return answers.source_of(text, str(repository.folder)).upper()


def pieces(numbered: Numbered, found: list[Change]) -> Iterator[bytes]:
    yield numbered.head()
    for serial, change in enumerate(found, numbered.first):
        yield b"\n%s %d\n\n%s" % (change.word.encode(), serial, change.text)


def mapped(file: BinaryIO) -> mmap.mmap:
    return mmap.mmap(file.fileno(), 0, prot=mmap.PROT_READ)


def place_of(text: mmap.mmap, serial: int) -> Generator[list[Part], None, int]:
    """Where the change of a serial begins in a file that has it; nothing comes of each step of the
    search but the last."""
    heads = [b"\n\n%s %d\n\n" % (word.encode(), serial) for word in (changes.ADD, changes.DEL)]
    for begin in range(0, len(text), STRETCH):
        end = begin + STRETCH + len(heads[0])
        for head in heads:
            place = text.find(head, begin, end)
            if place >= 0:
                return place + 1
        yield []
    raise Failure(f"serial {serial}", "its file lacks it; remove the folder of the serials")

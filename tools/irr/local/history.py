"""The public states of a registry in a git repository without a working copy: a file for each
object, a commit for each change."""
import hashlib
import os
import re
import subprocess
from datetime import datetime, timezone
from pathlib import Path
from typing import Collection, Iterable, Iterator, NamedTuple

from irr.errors import ARGUMENTS, Failure, reading
from irr.registry import answers
from irr.rpsl import keys, syntax
from irr.rpsl.keys import CLASSES, Key
from irr.terminal import texts

BRANCH = "refs/heads/main"
CHANGE = re.compile(rb":[0-7]{6} [0-7]{6} ([0-9a-f]{40}) ([0-9a-f]{40}) ([AMD])\t")
DELETED = "deleted"
WORDS = {"A": "added", "M": "changed", "D": DELETED}
WHO = "irr <irr@localhost>"
# How many files are asked for at once.
TOGETHER = 10_000
# What a git that was killed may leave, which keeps others out, or takes room.
LEFT = (
    "*.lock",
    "refs/**/*.lock",
    "objects/info/**/*.lock",
    "objects/pack/*.lock",
    "packed-refs.new",
    "gc.pid",
    "objects/pack/tmp_*",
    "objects/*/tmp_obj_*",
    "fast_import_crash_*",
)


class State(NamedTuple):
    """A commit: its name, its time in seconds, and the digest of the public dump that it is of."""

    commit: str
    time: int
    dump: str


class Version(NamedTuple):
    """What happened to an object: when, which word of added, changed and deleted, and its text
    after it."""

    time: int
    word: str
    text: bytes


@reading("the history")
def shown_time(seconds: float) -> str:
    return datetime.fromtimestamp(int(seconds), timezone.utc).strftime("%Y-%m-%dT%H:%M:%SZ")


@reading("the history")
def read_time(text: str) -> int:
    """A time as ISO 8601 writes it, in UTC if no zone is given."""
    try:
        found = datetime.fromisoformat(text)
        return int((found if found.tzinfo else found.replace(tzinfo=timezone.utc)).timestamp())
    except (ValueError, OverflowError):
        raise Failure(
            text, "this is not a time; write it as 2026-11-26 or 2026-11-26T12:00:00Z", ARGUMENTS
        ) from None


def path_of(key: Key) -> str:
    """The file of an object. Folders of a hash keep each of them small."""
    name = re.sub("[ /]", "_", key.text)
    return f"{key.kind}/{hashlib.sha256(key.text.encode()).hexdigest()[:2]}/{name}"


def blob_of(text: bytes) -> str:
    """The name that git has for a file's bytes."""
    return hashlib.sha1(b"blob %d\0" % len(text) + text).hexdigest()


class Seen(NamedTuple):
    """The same without the text: the commit that has it, and the name that git has for it."""

    commit: str
    time: int
    word: str
    blob: str


class Repository:
    """The repository of a folder. What holds the folder is handed to git, which may live longer
    than who started it."""

    def __init__(self, folder: Path, locks: Collection[int] = ()) -> None:
        self.folder, self.looked, self.locks = folder, folder / "looked", locks

    def command(self, *words: str) -> list[str]:
        """A command of git in the repository."""
        set_here = (
            "safe.directory=*",
            "core.hooksPath=/dev/null",
            "core.fsync=committed,loose-object",
            "gc.autoDetach=false",
            "init.defaultBranch=main",
        )
        settings = [word for each in set_here for word in ("-c", each)]
        return ["git", *settings, f"--git-dir={self.folder}", *words]

    def git(self, *words: str, given: bytes | None = None) -> bytes:
        """What a command of git prints."""
        try:
            done = subprocess.run(
                self.command(*words),
                input=given if given is not None else b"",
                capture_output=True,
                env=environment(),
                check=False,
                pass_fds=self.locks,
            )
        except FileNotFoundError:
            raise Failure("git", "it is not installed; install it") from None
        if done.returncode:
            reported = (
                " ".join(done.stderr.decode("utf-8", "replace").split())
                or f"status {done.returncode}"
            )
            raise Failure(str(self.folder), f"git {words[0]}: {reported}")
        return done.stdout

    @property
    def is_there(self) -> bool:
        return (self.folder / "HEAD").exists()

    def begin(self) -> None:
        """Makes the repository where there is none, or where git was killed while it made it."""
        for pattern in LEFT:
            for left in self.folder.glob(pattern):
                # Of a git that was killed: who holds the folder alone works here.
                if left.name != ".lock":
                    left.unlink()
        head = self.folder / "HEAD"
        if head.exists() and not head.stat().st_size:
            head.unlink()
        self.git("init", "--quiet", "--bare", "--object-format=sha1")

    @reading("the history")
    def states(self) -> list[State]:
        """All commits, the last one first."""
        if not self.git("for-each-ref", "--format=%(objectname)", BRANCH).strip():
            return []
        lines = (
            self.git("log", "--format=%H %ct %(trailers:key=Dump,valueonly,separator=%x2C)", BRANCH)
            .decode()
            .splitlines()
        )
        return [State(commit, int(time), dump) for commit, time, dump in map(str.split, lines)]

    def state(self, before: int | None = None) -> State | None:
        """The last commit, or the last one that is not after a time."""
        return next((one for one in self.states() if before is None or one.time <= before), None)

    def first(self) -> int:
        """The time of the first commit."""
        return int(self.git("log", "--reverse", "--format=%ct", BRANCH).split()[0])

    def blobs(self, state: State | None) -> dict[str, str]:
        """The names of the objects' files at a commit, by their paths."""
        if state is None:
            return {}
        lines = self.git("ls-tree", "-r", "-z", state.commit).decode().split("\0")[:-1]
        return {path: head.split()[2] for head, _, path in (line.partition("\t") for line in lines)}

    @reading("the history")
    def texts(self, names: Iterable[str]) -> Iterator[bytes]:
        """The bytes of files, in the order of their names."""
        names = list(names)
        out, place = (
            self.git("cat-file", "--batch", given="".join(f"{name}\n" for name in names).encode()),
            0,
        )
        for _ in names:
            end = out.index(b"\n", place)
            size = int(out[place:end].split()[2])
            yield out[end + 1 : end + 1 + size]
            place = end + size + 2

    @reading("the history")
    def record(
        self,
        blocks: Iterable[syntax.Block],
        digest: str,
        now: int,
        name: str = "the dump",
    ) -> str:
        """Commits a public dump, and gives what changed in words, nothing where nothing did. A dump
        with the digest of the last one is not read."""
        self.begin()
        last = self.state()
        if last and last.dump == digest:
            self.look(now)
            return ""
        known, seen, changes, added = self.blobs(last), set(), [], 0
        for block in blocks:
            key = keys.key_of(answers.read(block.text, name))
            if key is None:
                raise Failure(
                    name, "it has an object of no class or key of this irr; take a newer one"
                )
            path = path_of(key)
            seen.add(path)
            if known.get(path) != blob_of(block.text):
                added += path not in known
                changes.append(
                    b'M 100644 inline "%s"\ndata %d\n%s\n'
                    % (path.encode(), len(block.text), block.text)
                )
        gone = [path for path in known if path not in seen]
        changed = len(changes) - added
        changes += [b'D "%s"\n' % path.encode() for path in gone]
        if not changes:
            self.look(now)
            return ""
        counts = f"{added:,} added, {changed:,} changed, {len(gone):,} deleted"
        message = f"{counts}\n\nObjects: {len(seen)}\nDump: {digest}\n".encode()
        time = max(now, last.time if last else 0)
        if time > now:
            texts.note(
                f"irr history: {self.folder}: the state before is dated {shown_time(time)}, and the"
                f" clock says {shown_time(now)}; this one gets the later time: look whether the"
                " clock is right"
            )
        head = (
            f"feature done\ncommit {BRANCH}\ncommitter {WHO} {time} +0000\n"
            f"data {len(message)}\n".encode() + message + b"\n"
        )
        parent = f"from {last.commit}\n".encode() if last else b""
        self.git(
            "fast-import",
            "--quiet",
            "--date-format=raw",
            given=b"".join([head, parent, *changes, b"\ndone\n"]),
        )
        self.git("gc", "--auto", "--quiet")
        self.look(now)
        return counts

    def look(self, now: int) -> None:
        """Notes when the dump was last fetched."""
        self.looked.touch()
        os.utime(self.looked, (now, now))

    @reading("the history")
    def versions(self, key: Key) -> Iterator[Version]:
        """What happened to an object, the oldest first."""
        if not self.state():
            return
        found = list(read_log(self.git(*log_of(key, "--reverse"))))
        bodies = self.texts(one.blob for one in found if one.word != DELETED)
        for one in found:
            yield Version(one.time, one.word, next(bodies) if one.word != DELETED else b"")

    @reading("the history")
    def objects(self, state: State) -> Iterator[bytes]:
        """The objects of a commit, each with an empty line after it, in the order of a dump."""
        blobs = self.blobs(state)
        order = sorted(blobs, key=order_of)
        for place in range(0, len(order), TOGETHER):
            for text in self.texts(blobs[path] for path in order[place : place + TOGETHER]):
                yield text + b"\n"

    def files(self, before: State, state: State) -> list[tuple[bytes, bytes, bytes]]:
        """The files in which a commit differs from one before it: the names of both, and the letter
        of what happened."""
        out = self.git(
            "diff-tree", "-r", "--no-renames", "--no-abbrev", "--raw", before.commit, state.commit
        )
        changes = map(CHANGE.match, out.split(b"\n"))
        return [(found[1], found[2], found[3]) for found in changes if found]

    @reading("the history")
    def between(self, before: State, state: State) -> tuple[list[bytes], list[bytes], list[bytes]]:
        """The objects that a commit added to those of the one before it, those that it changed, as
        they became, and those that it deleted, as they were."""
        seen = self.files(before, state)
        bodies = self.texts((old if kind == b"D" else new).decode() for old, new, kind in seen)
        found: dict[bytes, list[bytes]] = {b"A": [], b"M": [], b"D": []}
        for (_, _, kind), text in zip(seen, bodies):
            found[kind].append(text)
        return found[b"A"], found[b"M"], found[b"D"]

    @reading("the history")
    def pairs(self, before: State, state: State) -> Iterator[tuple[bytes, bytes]]:
        """The objects in which two commits differ, as they were and became; nothing where there was
        none, or is none."""
        seen = self.files(before, state)
        was = self.texts(old.decode() for old, _, kind in seen if kind != b"A")
        became = self.texts(new.decode() for _, new, kind in seen if kind != b"D")
        for _, _, kind in seen:
            yield b"" if kind == b"A" else next(was), b"" if kind == b"D" else next(became)

    def texts_of(self, state: State, wanted: Iterable[Key]) -> dict[Key, bytes]:
        """The objects of some keys that a commit has."""
        wanted = list(wanted)
        names = "".join(f"{state.commit}:{path_of(key)}\n" for key in wanted)
        lines = self.git("cat-file", "--batch-check=%(objectname)", given=names.encode())
        found = [
            (key, line.decode())
            for key, line in zip(wanted, lines.split(b"\n"))
            if not line.endswith(b" missing")
        ]
        texts = self.texts(name for _, name in found)
        return {key: text for (key, _), text in zip(found, texts)}


def environment() -> dict[str, str]:
    """What git is run with. Settings of the user or the machine have no part in it."""
    kept = {name: value for name, value in os.environ.items() if not name.startswith("GIT_")}
    return kept | {
        "GIT_CONFIG_NOSYSTEM": "1",
        "GIT_CONFIG_GLOBAL": os.devnull,
        "LC_ALL": "C",
        "TZ": "UTC",
    }


def log_of(key: Key, *options: str) -> list[str]:
    """The command of git that tells what happened to an object."""
    form = ("--no-renames", "--no-abbrev", "--raw", "--format=commit %H %ct")
    return ["log", *options, *form, BRANCH, "--", path_of(key)]


def read_log(out: bytes) -> Iterator[Seen]:
    """What that command prints."""
    commit, time = "", 0
    for line in out.split(b"\n"):
        change = CHANGE.match(line)
        if line.startswith(b"commit "):
            _, commit, seconds = line.decode().split()
            time = int(seconds)
        elif change:
            yield Seen(commit, time, WORDS[change[3].decode()], change[2].decode())


def order_of(path: str) -> tuple[int, list[int], str]:
    """What the paths of objects are in order of in a dump: the numbers or the name of a key stand
    in its path."""
    kind, _, name = path.split("/")
    return keys.order(Key(kind, name))


@reading("the history")
def read_keys(words: list[str]) -> list[Key]:
    """The keys that words spell: one in the class that they begin with, otherwise one in each class
    that reads them. A maintainer may be called as an AS number is."""
    text, kinds = " ".join(words), list(CLASSES)
    if words[0] in CLASSES and len(words) > 1:
        kinds, words = [words[0]], words[1:]
    found = [
        keys.read_key(kind, *(words if kind == "route" else [" ".join(words)]))
        for kind in kinds
        if kind != "route" or len(words) == 2
    ]
    if any(found):
        return [key for key in found if key]
    raise Failure(
        text,
        (
            "this is not a class and a key; write it as a report prints it, such as route"
            " 192.0.2.0/24 AS64496"
        ),
        ARGUMENTS,
    )


@reading("the history")
def printed(version: Version) -> bytes:
    """A version for people and programs: a line with its time, and the object."""
    return f"% {shown_time(version.time)} {version.word}\n".encode() + version.text + b"\n"


def note_of_age(repository: Repository, time: int) -> None:
    """Says so if the dump was not fetched after a time that is asked about."""
    looked = repository.looked.stat().st_mtime if repository.looked.exists() else 0
    if time > looked:
        texts.note(
            f"irr history: the dump was last fetched at {shown_time(looked)}; what changed after"
            " that is not known"
        )

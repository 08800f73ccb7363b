"""Registries of this machine by their settings: held alone or held still while their files are
copied, and opened from copies."""
import argparse
import contextlib
import errno
import fcntl
import filecmp
import glob
import os
import re
import select
import signal
import socket
import stat
import struct
import subprocess
import tempfile
import time
from pathlib import Path
from typing import IO, BinaryIO, Iterable, Iterator, NamedTuple

from irr.errors import DATABASE, SETTINGS, Failure, reading, system_words
from irr.local import program
from irr.rpsl import keys, syntax
from irr.system import files

DEFAULT = "/etc/irrdesk/irr.toml"
# The name of a backup, by its time.
STAMP = "%Y%m%dT%H%M%SZ"
# The bytes of a database, and of its write-ahead log, that a program which has it open locks
# (SQLite).
LOCKED, LOCKED_LENGTH = 0x4000_0000, 512
FLOCK = "hhqqi4x"
LOCK = struct.pack(FLOCK, fcntl.F_WRLCK, os.SEEK_SET, LOCKED, LOCKED_LENGTH, 0)
# What SQLite puts after a database's name for its write-ahead log, and for the journal of a
# program that keeps none.
LOG, JOURNAL = "-wal", "-journal"
# A write-ahead log without a whole record has fewer bytes: its head, and the head of a record.
EMPTY_LOG = 32 + 24
# Clones a file where the file system can.
FICLONE = 0x4004_9409
AUTH = re.compile("[ !#-Z^-~]+")
END = re.compile(rb"% end [0-9]+\n")
# What `irrdesk load` says of an object that it can't read at its length.
TOO_LONG = re.compile(
    rb": nothing is loaded, because paragraph [0-9]+ is not RPSL, or over 65536 bytes: mend it\n$"
)


def add_option(parser: argparse.ArgumentParser) -> None:
    """The option of each command that works on a registry of this machine: `options.settings`."""
    parser.add_argument(
        "--settings",
        metavar="FILE",
        default=DEFAULT,
        help=f"read the registry's settings from this file, by default {DEFAULT}",
    )


class TooLong(Failure):
    """An object is too long for `irrdesk load`, or no RPSL."""


class Settings(NamedTuple):
    """The settings of a registry, and where they and its database stand."""

    path: Path
    source: str
    root: str
    auth: str
    limit: int
    store: Path

    @classmethod
    @reading("a file of the registry")
    def read(cls, path: str, folder: Path = Path()) -> "Settings":
        """Reads a file. A relative `store` is in the folder, or else in that of this process."""
        import tomllib

        try:
            with open(path, "rb") as file:
                found = tomllib.load(file)
            fields = [found[name] for name in ("source", "root", "auth", "limit", "store")]
        except OSError as error:
            raise Failure(
                path,
                f"the settings cannot be read: {system_words(error)}; correct the path",
                SETTINGS,
            ) from None
        except KeyError as error:
            raise Failure(
                path, f"the settings lack `{error.args[0]}`; put it in", SETTINGS
            ) from None
        except (ValueError, RecursionError):
            raise Failure(
                path, "these are not settings of irrdesk; correct the path", SETTINGS
            ) from None
        source, root, auth, limit, store = fields
        if (
            not all(isinstance(field, str) for field in (source, root, auth, store))
            or type(limit) is not int
            or "\0" in store
        ):
            raise Failure(path, "these are not settings of irrdesk; correct the path", SETTINGS)
        # They are written again, for copies of the registry.
        for name, is_good in [
            ("source", keys.read_source(source)),
            ("root", keys.read_maintainer(root)),
            ("auth", AUTH.fullmatch(auth)),
        ]:
            if not is_good:
                raise Failure(
                    path,
                    f"`{name}` is not what irrdesk takes; correct it, see irr.toml(5)",
                    SETTINGS,
                )
        return cls(
            Path(path).resolve(), source, root, auth, limit, real(os.path.join(folder, store))
        )

    def text(self) -> str:
        """The same settings for a database beside them."""
        return program.SETTINGS.format(
            source=self.source, root=self.root, auth=self.auth, limit=self.limit
        )

    @property
    def log(self) -> Path:
        return beside(self.store, LOG)


def real(path: str) -> Path:
    """A database by its own path. SQLite keeps the write-ahead log beside what a link leads to,
    not beside the link."""
    return Path(os.path.realpath(path))


def beside(store: Path, suffix: str) -> Path:
    return store.with_name(store.name + suffix)


def give_back(settings: Settings) -> None:
    """Gives the service a database that root put into its folder, which it could not open."""
    owner = os.stat(settings.store.parent)
    for path in (settings.store, settings.log, beside(settings.store, JOURNAL)):
        # What is not there, and a link, is left to what reads it.
        with contextlib.suppress(OSError):
            number = os.open(path, os.O_RDONLY | os.O_NOFOLLOW | os.O_NONBLOCK)
            try:
                found = os.fstat(number)
                # A file with another name may be one that root has elsewhere.
                is_own = stat.S_ISREG(found.st_mode) and found.st_nlink == 1
                if is_own and found.st_uid == 0 != owner.st_uid:
                    os.fchown(number, owner.st_uid, owner.st_gid)
            finally:
                os.close(number)


class Copy:
    """A registry in a folder of its own, `irr.toml` and `irr.db`, run by the installed
    `irrdesk`. What that reports of the database is reported of the one that it is a copy of, if
    that is given."""

    def __init__(self, folder: Path, settings: str, original: Path | None = None) -> None:
        self.program, self.folder, self.original = (
            program.find(),
            folder,
            original or folder,
        )
        self.store = folder / "irr.db"
        folder.mkdir(mode=0o700, exist_ok=True)
        with files.named(folder / "irr.toml"):
            (folder / "irr.toml").write_text(settings, encoding="ascii")

    def run(self, command: str, *words: str | os.PathLike[str], output: Path | None = None) -> None:
        """Runs a command of `irrdesk` whose output goes into a new file; a Failure with the
        program's words if it fails."""
        with contextlib.ExitStack() as stack:
            out: int | IO[bytes] = subprocess.DEVNULL
            if output:
                out = stack.enter_context(open(output, "xb"))
            done = subprocess.run(
                [self.program, command, "irr.toml", *words],
                cwd=self.folder,
                stdin=subprocess.DEVNULL,
                stdout=out,
                stderr=subprocess.PIPE,
                check=False,
                preexec_fn=program.bound(),
            )
        if done.returncode:
            kind = TooLong if TOO_LONG.search(done.stderr) else Failure
            is_original = done.returncode == DATABASE and b": the disk " not in done.stderr
            raise kind(
                str(self.original if is_original else self.folder),
                f"irrdesk {command}: {program.reported(done)}",
                DATABASE,
            )

    @reading("a file of the registry")
    def load(self, dump: Path) -> None:
        self.run("load", dump.resolve())

    @reading("a file of the registry")
    def dump(self, output: Path, full: bool = False) -> None:
        self.run("dump", *(["--full"] if full else []), output=output)


def copied(source: Path, target: Path) -> None:
    """A new file with the bytes of another one, by a clone where the file system can."""
    with open(opened(source), "rb") as old, files.named(target), open(target, "xb") as new:
        try:
            fcntl.ioctl(new.fileno(), FICLONE, old.fileno())
        except OSError:
            while piece := read(old, source):
                new.write(piece)


def opened(path: Path, flags: int = os.O_RDONLY) -> int:
    """A file of a registry. What is none, such as a pipe, is refused: it may have no end."""
    try:
        number = os.open(path, flags | os.O_CLOEXEC | os.O_NONBLOCK)
    except OSError as error:
        advice = remedy(
            error,
            "let the link lead to its file again" if os.path.islink(path) else "correct the path",
        )
        if error.errno == errno.EROFS:
            advice += ", or, if nobody serves it, give it to `irr backup` by --copy"
        raise Failure(
            str(path), f"the database cannot be opened: {system_words(error)}; {advice}", DATABASE
        ) from None
    if not stat.S_ISREG(os.fstat(number).st_mode):
        os.close(number)
        raise Failure(str(path), "it is not a file; give the path of a database", DATABASE)
    return number


def remedy(error: OSError, otherwise: str) -> str:
    """What to do about a fault of the system: of other words, unless it is a lack of rights."""
    if error.errno == errno.EROFS:
        return "let this user write there (ReadWritePaths=)"
    return (
        "run this as its user, or as root"
        if error.errno in (errno.EACCES, errno.EPERM)
        else otherwise
    )


def read(file: BinaryIO, path: Path) -> bytes:
    with files.named(path):
        return file.read(1 << 20)


@contextlib.contextmanager
def working(place: Path, prefix: str) -> Iterator[Path]:
    """A folder in another one, which goes with the block. What fails in it is reported of the other
    one."""
    inside = os.path.abspath(place / prefix)
    try:
        with tempfile.TemporaryDirectory(prefix=prefix, dir=place) as work:
            yield Path(work)
    except OSError as error:
        if not os.path.abspath(str(error.filename)).startswith(inside):
            raise
        advice = remedy(error, "make room, or look at its disk")
        raise Failure(
            str(place), f"it cannot be written: {system_words(error)}; {advice}"
        ) from None
    except Failure as failure:
        if not os.path.abspath(failure.thing).startswith(inside):
            raise
        raise Failure(str(place), failure.what, failure.status) from None


def clear(place: Path, prefix: str) -> None:
    """Removes the working folders that runs have left which were killed."""
    for left in place.glob(f"{glob.escape(prefix)}*"):
        try:
            files.remove(left)
        except OSError as error:
            raise Failure(
                str(left),
                f"what an earlier run left cannot be removed: {system_words(error)}; remove it",
            ) from None


def parts(store: Path, *suffixes: str) -> list[str]:
    """What the files of a database end with: nothing, and those of the suffixes that are there. A
    link that leads nowhere is there: its write-ahead log is missing, and a database without one
    is another."""
    return ["", *(suffix for suffix in suffixes if os.path.lexists(beside(store, suffix)))]


def copied_store(store: Path, copy: Copy) -> None:
    """The files of a database beside one another, as they stand. With a journal, which `irrdesk`
    refuses, it is none without it."""
    for suffix in parts(store, LOG, JOURNAL):
        copied(beside(store, suffix), beside(copy.store, suffix))


@contextlib.contextmanager
def alone(settings: Settings) -> Iterator[bool]:
    """Whether nobody has the database open, which stays so while the block runs: `irrdesk` is
    refused meanwhile."""
    with contextlib.ExitStack() as stack:
        yield all(
            lock(beside(settings.store, suffix), stack) for suffix in parts(settings.store, LOG)
        )


def lock(path: Path, stack: contextlib.ExitStack) -> bool:
    number = opened(path, os.O_RDWR)
    stack.callback(os.close, number)
    try:
        fcntl.fcntl(number, fcntl.F_OFD_SETLK, LOCK)
    except (BlockingIOError, PermissionError):
        return False
    return True


@contextlib.contextmanager
def unlocked(store: Path) -> Iterator[None]:
    """Copies a database in the block that this user need not be able to lock: nobody has it open
    before, nor afterwards."""
    need_unlocked(store)
    yield
    need_unlocked(store)


def need_unlocked(store: Path) -> None:
    for suffix in parts(store, LOG):
        path = beside(store, suffix)
        with open(opened(path), "rb") as file:
            try:
                found = fcntl.fcntl(file, fcntl.F_OFD_GETLK, LOCK)
            except OSError as error:
                raise Failure(
                    str(path),
                    (
                        f"whether it is in use cannot be seen: {system_words(error)}; copy it and"
                        " its write-ahead log to a disk of this machine, and give that copy"
                    ),
                    DATABASE,
                ) from None
        if struct.unpack(FLOCK, found)[0] != fcntl.F_UNLCK:
            raise Failure(
                str(path),
                (
                    "another process has the database open; leave out --copy, or give a snapshot of"
                    " the file system"
                ),
                DATABASE,
            )


@contextlib.contextmanager
def still(settings: Settings, seconds: float) -> Iterator[None]:
    """Lets nobody write into the database while the block runs: it is held alone, or the process
    that serves it is held still, for these seconds at most."""
    with contextlib.ExitStack() as stack:
        if not stack.enter_context(alone(settings)):
            stack.enter_context(stopped(server_of(settings), seconds, settings))
        yield


@reading("a file of the registry")
def server_of(settings: Settings) -> int:
    """The process that serves the registry."""
    found = [
        number
        for name in os.listdir("/proc")
        if name.isdigit() and serves(number := int(name), settings)
    ]
    if len(found) != 1:
        raise Failure(
            str(settings.store),
            (
                "another process has the database open, which is not `irrdesk serve` with these"
                " settings; try again when it has ended"
            ),
            DATABASE,
        )
    return found[0]


@reading("a file of the registry")
def serves(number: int, settings: Settings) -> bool:
    """Whether a process is `irrdesk serve` with these settings. What it has open shows it; where
    that is hidden, its words do, unless they name the settings from a folder that is hidden too."""
    try:
        words = Path(f"/proc/{number}/cmdline").read_bytes().split(b"\0")
        if words[1:2] != [b"serve"]:
            return False
        try:
            wanted = os.stat(settings.store)
            places = [os.stat(entry.path) for entry in os.scandir(f"/proc/{number}/fd")]
            return any(
                (place.st_dev, place.st_ino) == (wanted.st_dev, wanted.st_ino) for place in places
            )
        except PermissionError:
            path = os.fsdecode(words[2])
            return os.path.isabs(path) and os.path.realpath(path) == str(settings.path)
    except (OSError, IndexError):
        return False


@contextlib.contextmanager
def stopped(number: int, seconds: float, settings: Settings) -> Iterator[None]:
    """Holds a process still. It goes on when the block ends, after these seconds, or when this
    process has ended in any way; where it went on before the block ended, that is a Failure."""
    try:
        process = os.pidfd_open(number)
    except ProcessLookupError:
        raise Failure(str(settings.store), "the server has just ended; try again") from None
    if not serves(number, settings):
        raise Failure(str(settings.store), "the server has just ended; try again")
    own, other = socket.socketpair()
    guard = os.fork()
    if guard == 0:
        own.close()
        watch(process, other, seconds)
    other.close()
    end = time.monotonic() + seconds
    try:
        if not own.recv(1):
            raise Failure(str(settings.store), "who lets the server go on has ended; try again")
        signal.pidfd_send_signal(process, signal.SIGSTOP)
        while not is_still(number):
            if time.monotonic() > end:
                raise Failure(
                    str(settings.store),
                    f"the server could not be held still within {seconds:g} s; try again",
                )
            time.sleep(0.001)
        yield
        if time.monotonic() > end or not is_still(number):
            raise Failure(
                str(settings.store),
                (
                    f"copying took longer than the {seconds:g} s for which the server is held"
                    " still; give it more by --hold, or copy from a snapshot by --copy"
                ),
            )
    except PermissionError:
        raise Failure(
            str(settings.store), "the server is another user's; run this as that user"
        ) from None
    finally:
        with contextlib.suppress(OSError):
            signal.pidfd_send_signal(process, signal.SIGCONT)
        own.close()
        os.waitpid(guard, 0)
        os.close(process)


def watch(process: int, other: socket.socket, seconds: float) -> None:
    """What the guard does: it lets the process go on after these seconds, or once the other end is
    closed. What ends a group of processes does not end it."""
    try:
        os.setsid()
        for kind in (signal.SIGTERM, signal.SIGINT, signal.SIGHUP):
            signal.signal(kind, signal.SIG_IGN)
        other.send(b"!")
        select.select([other], [], [], seconds)
        signal.pidfd_send_signal(process, signal.SIGCONT)
    finally:
        os._exit(0)


def is_still(number: int) -> bool:
    try:
        return "\nState:\tT" in Path(f"/proc/{number}/status").read_text(
            encoding="utf-8", errors="replace"
        )
    except OSError:
        return False


@reading("a file of the registry")
def sqlite_copy(source: Path, target: Path, name: str) -> None:
    """One file with all that a database and its write-ahead log have, made and looked through by
    SQLite. The name is that of the registry's database, of which these are copies."""
    import sqlite3

    try:
        with (
            contextlib.closing(sqlite3.connect(source)) as old,
            contextlib.closing(sqlite3.connect(target)) as new,
        ):
            old.backup(new)
            found = new.execute("PRAGMA integrity_check").fetchall()
    except sqlite3.Error as error:
        if getattr(error, "sqlite_errorcode", sqlite3.SQLITE_ERROR) & 0xFF in (
            sqlite3.SQLITE_FULL,
            sqlite3.SQLITE_IOERR,
        ):
            raise Failure(
                str(target),
                f"SQLite cannot copy the database: {error}; make room, or look at its disk",
                DATABASE,
            ) from None
        raise Failure(
            name,
            f"SQLite finds no whole database in the copy: {error}; see BACKUP.md, 'Failures'",
            DATABASE,
        ) from None
    if found != [("ok",)]:
        raise Failure(
            name,
            f"SQLite finds the database damaged: {found[0][0]}; see BACKUP.md, 'Failures'",
            DATABASE,
        )


@reading("a file of the registry")
def blocks_of(path: Path) -> Iterator[bytes]:
    """The objects of a dump as they stand, each with the empty line after it."""
    with open(path, "rb") as file:
        for block in syntax.blocks(syntax.chunks(file)):
            yield block.text + b"\n"


def pressed(pieces: Iterable[bytes]) -> Iterator[bytes]:
    """The objects of a full dump for `irrdesk load`, and the end: one that is too long for it has
    as few bytes as can be."""
    count = 0
    for piece in pieces:
        count += 1
        if len(piece) > syntax.LARGEST:
            piece = (
                b"".join(
                    attribute.short_text() for attribute in syntax.read_any(piece[:-1]).attributes
                )
                + b"\n"
            )
        yield piece
    yield b"%% end %d\n" % count


def same(first: Path, second: Path) -> bool:
    return filecmp.cmp(first, second, shallow=False)


def is_maintainer(piece: bytes, name: str) -> bool:
    return (
        piece.startswith(b"mntner:")
        and keys.read_maintainer(syntax.read_any(piece[:-1]).value(b"mntner")) == name
    )

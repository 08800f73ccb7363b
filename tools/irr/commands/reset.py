"""`irr reset NAME`: another password for a maintainer of a registry that is stopped."""
import argparse
import contextlib
import os
import signal
from pathlib import Path
from typing import Any, Iterator

from irr.commands import auth as auths
from irr.errors import ARGUMENTS, DATABASE, DONE, Failure, system_words
from irr.local import databases
from irr.local.databases import Copy, Settings
from irr.registry import submissions
from irr.rpsl import hashes, keys, syntax
from irr.rpsl.syntax import Attribute, Paragraph
from irr.system import files, services
from irr.terminal import prompts, texts

EXAMPLES = f"""
irr reset EXAMPLE-MNT --auth 'SHA256-PW k3:ccda..'     the line that its holder made by `irr auth`
irr reset EXAMPLE-MNT --save new.password              a new password, in a file for you alone
irr reset EXAMPLE-MNT --settings irr.toml              a new password, which the terminal shows
irr reset EXAMPLE-MNT --service                        stop the service for that, as root

The server has to be stopped, which --service does. All `auth` lines of the maintainer are replaced
by the new one. Make sure that you deal with the holder: anybody who has the new password controls
everything that the maintainer holds.
{prompts.WORTH}"""


def arguments(parser: argparse.ArgumentParser) -> None:
    databases.add_option(parser)
    parser.add_argument(
        "--service",
        action="store_true",
        help="stop irrdesk.service meanwhile, and start it again if it ran; run this as root",
    )
    how = parser.add_mutually_exclusive_group()
    how.add_argument(
        "--auth",
        metavar="VALUE",
        help="use this value for the new `auth` line, as `irr auth` prints it",
    )
    how.add_argument(
        "--ask",
        action="store_true",
        help="ask for the new password, twice; by default, one of 96 random bits is generated",
    )
    how.add_argument(
        "--save",
        metavar="FILE",
        help="write the new password into a new file that only you can read, as a `password:` line",
    )
    prompts.add_short(parser)
    parser.add_argument("name", metavar="NAME", help="the maintainer")


def run(options: argparse.Namespace) -> int:
    name = keys.need_maintainer(options.name)
    os.umask(0o077)
    with services.stopped() if options.service else contextlib.nullcontext():
        replace(options, name)
    then = "the service is as it was" if options.service else "start the server again"
    print(texts.shown_line(f"mntner {name}: its auth is replaced, and nothing else; {then}"))
    return DONE


def replace(options: argparse.Namespace, name: str) -> None:
    folder = services.folder() if options.service else None
    settings = Settings.read(options.settings, folder or Path())
    if not settings.store.exists():
        raise Failure(
            str(settings.store),
            (
                "there is no database; correct `store`, or run this in the folder that the program"
                " runs in"
            ),
            DATABASE,
        )
    if folder:
        databases.give_back(settings)
    settle(settings, folder)
    with alone_in_work(settings) as work:
        if os.path.lexists(settings.log) and settings.log.stat().st_size >= databases.EMPTY_LOG:
            raise Failure(
                str(settings.log), "this write-ahead log is not empty; try again", DATABASE
            )
        before = Copy(work / "before", settings.text())
        databases.copied_store(settings.store, before)
        full, wanted = work / "full.rpsl", work / "wanted.rpsl"
        before.dump(full, full=True)
        if not any(databases.is_maintainer(piece, name) for piece in databases.blocks_of(full)):
            raise Failure(name, "there is no such maintainer; correct the name", ARGUMENTS)
        value, password = new_auth(options)
        files.put(wanted, ended(replaced(full, name, value)), files.PRIVATE)
        single = made_of(settings, wanted, work)
        with handed_over(options, password, single):
            put_in_place(settings, single)


@contextlib.contextmanager
def alone(settings: Settings) -> Iterator[None]:
    """Nobody else has the database open while the block runs."""
    with databases.alone(settings) as is_alone:
        if not is_alone:
            raise Failure(
                str(settings.store),
                "another process has the database open; stop the server first",
                DATABASE,
            )
        yield


@contextlib.contextmanager
def alone_in_work(settings: Settings) -> Iterator[Path]:
    """A working folder beside the database, which nobody else has open while the block runs."""
    prefix = f".{settings.store.name}.irr-reset-"
    with alone(settings):
        databases.clear(settings.store.parent, prefix)
        with databases.working(settings.store.parent, prefix) as work:
            yield work


def settle(settings: Settings, folder: Path | None) -> None:
    """Has the program open the registry and close it, which writes the write-ahead log into the
    database. In the folder of the service it runs as the service does, which could not open a
    database that root made."""
    import subprocess
    from irr.local import program

    done = subprocess.run(
        [program.find(), "query", str(settings.path), settings.root],
        stdin=subprocess.DEVNULL,
        capture_output=True,
        check=False,
        cwd=folder,
        **(owner_of(settings) if folder else {}),
    )
    if done.returncode > 1:
        path = str(settings.path)
        raise Failure(path, program.reported(done, path), done.returncode)


def owner_of(settings: Settings) -> dict[str, Any]:
    """What has a program run as the owner of the database."""
    was = settings.store.stat()
    return {"user": was.st_uid, "group": was.st_gid, "extra_groups": []}


def new_auth(options: argparse.Namespace) -> tuple[bytes, str]:
    """The value of the new `auth` line, and its password if it is not the holder's."""
    if options.auth is not None:
        value = options.auth.removeprefix("auth:").strip()
        if not lets_in(value):
            raise Failure(
                "--auth",
                "this is not an auth line that lets anybody in; take what `irr auth` prints",
                ARGUMENTS,
            )
        return value.encode("ascii"), ""
    if options.save is not None:
        files.need_new(options.save)
    password = (
        prompts.ask_new("new password", options.short) if options.ask else hashes.new_password()
    )
    item = submissions.password_item(password, "new password")
    return (
        hashes.auth_of(submissions.secret_of(item.passwords()[0]), hashes.new_salt()).encode(),
        password,
    )


@contextlib.contextmanager
def handed_over(options: argparse.Namespace, password: str, single: Path) -> Iterator[None]:
    """Saves or shows the new password before the block puts the new database in place. A saved one
    goes again if that did not happen."""
    is_saved = False
    try:
        if options.save is not None:
            with undisturbed():
                files.put_new(
                    options.save,
                    submissions.password_item(password, "new password").block.text + b"\n",
                )
                is_saved = True
        elif password and not options.ask:
            auths.show(password)
        yield
    except BaseException:
        # It is renamed in one step: where it still is, the old database counts.
        if is_saved and single.exists():
            Path(options.save).unlink(missing_ok=True)
        raise


@contextlib.contextmanager
def undisturbed() -> Iterator[None]:
    """Lets the signals that end a command come after the block."""
    was = signal.pthread_sigmask(signal.SIG_BLOCK, {signal.SIGTERM, signal.SIGHUP, signal.SIGINT})
    try:
        yield
    finally:
        signal.pthread_sigmask(signal.SIG_SETMASK, was)


def lets_in(value: str) -> bool:
    """Whether it is the scheme, a salt, and a digest (profile)."""
    import re

    return bool(re.fullmatch("SHA256-PW [A-Za-z0-9]{1,16}:[0-9a-fA-F]{64}", value))


def replaced(full: Path, name: str, value: bytes) -> Iterator[bytes]:
    """The objects of a full dump, with another `auth` for one maintainer, where its first one
    stood."""
    for piece in databases.blocks_of(full):
        if databases.is_maintainer(piece, name):
            attributes = syntax.read_any(piece[:-1]).attributes
            first = next(
                place for place, attribute in enumerate(attributes) if attribute.name == b"auth"
            )
            kept = [
                Attribute(b"auth", [value]) if place == first else attribute
                for place, attribute in enumerate(attributes)
                if place == first or attribute.name != b"auth"
            ]
            piece = Paragraph(kept).text() + b"\n"
        yield piece


def ended(pieces: Iterator[bytes]) -> Iterator[bytes]:
    count = 0
    for count, piece in enumerate(pieces, 1):
        yield piece
    yield b"%% end %d\n" % count


def made_of(settings: Settings, wanted: Path, work: Path) -> Path:
    """One file with the registry of a full dump, which gives that dump byte by byte."""
    made, loadable, seen, single = (
        Copy(work / "made", settings.text()),
        work / "loadable.rpsl",
        work / "seen.rpsl",
        work / "single.db",
    )
    files.put(loadable, databases.pressed(databases.blocks_of(wanted)), files.PRIVATE)
    made.load(loadable)
    databases.sqlite_copy(made.store, single, str(settings.store))
    tried = Copy(work / "tried", settings.text())
    databases.copied(single, tried.store)
    tried.dump(seen, full=True)
    if not databases.same(wanted, seen):
        raise Failure(
            str(settings.store),
            (
                "the new registry has other objects than it should; nothing was changed, tell it as"
                " a fault of irr"
            ),
            DATABASE,
        )
    return single


def put_in_place(settings: Settings, single: Path) -> None:
    """Puts the new database into the place of the old one. The old write-ahead log, which has
    nothing, goes first: it must not lie beside the new one."""
    was = settings.store.stat()
    with files.named(single), open(single, "r+b") as file:
        os.fchmod(file.fileno(), was.st_mode & 0o777)
        if (was.st_uid, was.st_gid) != (os.geteuid(), os.getegid()):
            os.fchown(file.fileno(), was.st_uid, was.st_gid)
        os.fsync(file.fileno())
    settings.log.unlink(missing_ok=True)
    os.replace(single, settings.store)
    try:
        files.sync_folder(settings.store.parent)
    except OSError as error:
        raise Failure(
            str(settings.store),
            (
                f"the new auth is in it, but may not be on the disk: {system_words(error)}; look at"
                " the disk"
            ),
            DATABASE,
        ) from None

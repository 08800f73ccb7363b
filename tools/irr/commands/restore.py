"""`irr restore FOLDER`: a backup in the place of a registry."""
import argparse
import contextlib
import os
import stat
import tempfile
import time
from pathlib import Path
from typing import Iterator

from irr.commands import backup as backups
from irr.commands import reset
from irr.errors import DATABASE, DONE, SETTINGS, Failure, reading, system_words
from irr.local import databases
from irr.local.databases import JOURNAL, LOG, Copy, Settings
from irr.registry import server
from irr.system import files, services
from irr.terminal import texts

EXAMPLES = """
irr restore /var/lib/irrdesk-backup/20261128T031502Z       the service's registry, as root
irr restore --settings irr.toml backups/20261128T031502Z   one whose server you have stopped

The backup is tested first: a copy of it is opened, and its dump compared. A replaced database that
had other objects is kept in a folder beside the new one, which `irr restore --over` takes, too. If
there are no settings, those of the backup are restored.
"""
# Where the package has the database, for a backup whose settings have a path without a folder.
STORE = "/var/lib/irrdesk/irr.db"
OF_GROUP = 0o640
# How a folder is called in which a replaced database is kept.
KEPT = "replaced-"


def arguments(parser: argparse.ArgumentParser) -> None:
    parser.add_argument(
        "--settings",
        metavar="FILE",
        help="restore the registry with these settings, whose server is stopped; "
        f"by default the service's, {databases.DEFAULT}",
    )
    parser.add_argument(
        "--over",
        action="store_true",
        help="replace even a registry that has other objects than the backup",
    )
    parser.add_argument(
        "folder", metavar="FOLDER", help="a backup that `irr backup` made, or what a restore kept"
    )


def run(options: argparse.Namespace) -> int:
    os.umask(0o077)
    backup, is_service = Path(options.folder), options.settings is None
    need_backup(backup)
    with services.stopped() if is_service else contextlib.nullcontext():
        settings = settings_for(options.settings, backup)
        if not settings.store.parent.is_dir():
            folder = str(settings.store.parent)
            raise Failure(folder, "there is no such folder; make it, or correct `store`", DATABASE)
        if is_service:
            databases.give_back(settings)
        prefix = f".{settings.store.name}.irr-restore-"
        with alone(settings, prefix), databases.working(settings.store.parent, prefix) as work:
            tried(backup, settings, work)
            kept = put_in_place(settings, work, options.over)
            count = texts.counted(backups.count_of(work / "full.rpsl"), "object")
            public = (work / "public.rpsl").read_bytes() if is_service else b""
    if is_service:
        services.start()
        need_same(public)
    print(
        texts.shown_line(
            f"{settings.store}: {count} of {backup}"
            + (f"; remove what was there, once nobody needs it: {kept}" if kept else "")
        )
    )
    return DONE


def need_backup(folder: Path) -> None:
    """That it may be a backup, which has settings, or what a restore kept, which has none."""
    if has_settings(folder) or is_kept(folder):
        return
    if not folder.is_dir():
        raise Failure(str(folder), "there is no such folder; name one that `irr backup` made")
    made = sorted(one for one in folder.iterdir() if has_settings(one))
    # What is named by the future was made by a wrong clock.
    now = time.strftime(databases.STAMP, time.gmtime())
    made = [one for one in made if one.name <= now] or made
    inside = f"; name one of those in it, such as {made[-1]}" if made else ""
    raise Failure(str(folder), f"it has no irr.toml, so it is not a backup{inside}")


def has_settings(folder: Path) -> bool:
    return os.path.lexists(folder / "irr.toml")


def is_kept(folder: Path) -> bool:
    return folder.resolve().name.startswith(KEPT)


@reading("the settings")
def settings_for(path: str | None, backup: Path) -> Settings:
    """The settings of the registry. Where there are none yet, those of the backup are put there."""
    folder = services.folder() if path is None else Path()
    if not has_settings(backup):
        return Settings.read(path or databases.DEFAULT, folder)
    of_backup = Settings.read(str(backup / "irr.toml"))
    place = path or databases.DEFAULT
    if is_blank(place):
        text = (backup / "irr.toml").read_bytes()
        if path is None and not os.path.isabs(stored(text)):
            text = of_backup.text().replace('"irr.db"', f'"{STORE}"').encode("ascii")
        files.put(place, text, files.PRIVATE)
    if path is None:
        let_service_read(place)
    settings = Settings.read(place, folder)
    if settings.source != of_backup.source:
        raise Failure(
            place,
            f"this registry is {settings.source}, and the backup one of {of_backup.source}; give"
            " the settings of the right one",
            SETTINGS,
        )
    return settings


def let_service_read(place: str) -> None:
    """Gives the settings the group of their folder, the service's, which a copy may have lost."""
    group, found = os.stat(os.path.dirname(os.path.abspath(place))).st_gid, os.stat(place)
    if found.st_gid != group or not found.st_mode & stat.S_IRGRP:
        os.chown(place, 0, group)
        os.chmod(place, OF_GROUP)


def stored(text: bytes) -> str:
    import tomllib

    return str(tomllib.loads(text.decode())["store"])


def is_blank(path: str) -> bool:
    """Whether there are no settings yet, or those of the package, which lack `auth`."""
    import tomllib

    try:
        with open(path, "rb") as file:
            return tomllib.load(file).get("auth") == ""
    except FileNotFoundError:
        return True
    except (OSError, ValueError):
        return False


@contextlib.contextmanager
def alone(settings: Settings, prefix: str) -> Iterator[None]:
    """Nobody opens the database while the block runs, if there is one. What a restore left that was
    killed goes."""
    with contextlib.ExitStack() as stack:
        if os.path.lexists(settings.store):
            stack.enter_context(reset.alone(settings))
            databases.clear(settings.store.parent, prefix)
        yield


def tried(backup: Path, settings: Settings, work: Path) -> None:
    """Opens a copy of the backup, and writes its dumps into the working folder. Its own dump has
    to be the same."""
    made, pressed = Copy(work / "made", settings.text(), backup), work / "pressed.rpsl"
    is_backup = has_settings(backup)
    if is_backup:
        databases.copied(databases.real(str(backup / "irr.db")), work / "single.db")
        databases.copied(work / "single.db", made.store)
    else:
        # What was kept may have a write-ahead log, which goes into the database as it is opened.
        databases.copied_store(backup / settings.store.name, made)
    made.dump(work / "full.rpsl", full=True)
    made.dump(work / "public.rpsl")
    if not is_backup:
        log = databases.beside(made.store, LOG)
        if has_records(log):
            raise Failure(str(log), "this write-ahead log is not empty; try again", DATABASE)
        databases.copied(made.store, work / "single.db")
    dump = backup / "dump.rpsl"
    if not dump.exists():
        texts.note(f"irr restore: {backup}: it has no dump.rpsl to compare its database with")
        return
    files.put(pressed, databases.pressed(databases.blocks_of(work / "full.rpsl")), files.PRIVATE)
    if not databases.same(pressed, dump):
        raise Failure(
            str(backup),
            "its irr.db and its dump.rpsl have other objects; take another backup",
            DATABASE,
        )


def put_in_place(settings: Settings, work: Path, is_meant: bool) -> Path | None:
    """Puts the database of the working folder into the place of the old one, in one step: wherever
    this is killed, one of the two stands there whole. Where the old one has other objects, or can't
    be opened, its files are kept, and their folder is given."""
    owner, mode, kept = os.stat(settings.store.parent), files.PRIVATE, None
    single, logs = work / "single.db", [settings.log, databases.beside(settings.store, JOURNAL)]
    with contextlib.ExitStack() as stack:
        others = ""
        if settings.store.exists():
            owner, mode = os.stat(settings.store), os.stat(settings.store).st_mode & 0o777
            others = what_others(settings, work)
            if others and not is_meant and others != UNREADABLE:
                raise Failure(
                    str(settings.store),
                    f"this registry has other objects than the backup: {others}; to lose them,"
                    " add --over",
                    DATABASE,
                )
            if others != UNREADABLE:
                settle(settings, work, owner, mode, stack)
        own(single, owner, mode)
        old = [path for path in (settings.store, *logs) if os.path.lexists(path)]
        if others or old and not settings.store.exists():
            kept = keep(settings, work, old, owner)
        # A write-ahead log must not lie beside a database that is not its own.
        for path in logs:
            path.unlink(missing_ok=True)
        files.sync_folder(settings.store.parent)
        os.replace(single, settings.store)
    try:
        files.sync_folder(settings.store.parent)
    except OSError as error:
        raise Failure(
            str(settings.store),
            f"it is restored, but may not be on the disk: {system_words(error)}; look at the disk",
            DATABASE,
        ) from None
    return kept


def settle(
    settings: Settings,
    work: Path,
    owner: os.stat_result,
    mode: int,
    stack: contextlib.ExitStack,
) -> None:
    """Has the old database have all that its write-ahead log has: the copy into which the
    program has written that takes its place, which nobody else opens until the block ends. Then
    it may go: read once more, it says the same."""
    standing = work / "standing" / "irr.db"
    if not has_records(settings.log):
        return
    if has_records(databases.beside(standing, LOG)):
        raise Failure(str(settings.log), "this write-ahead log is not empty; try again", DATABASE)
    own(standing, owner, mode)
    databases.lock(standing, stack)
    os.replace(standing, settings.store)
    files.sync_folder(settings.store.parent)


def has_records(log: Path) -> bool:
    return os.path.lexists(log) and log.stat().st_size >= databases.EMPTY_LOG


def keep(settings: Settings, work: Path, old: list[Path], owner: os.stat_result) -> Path:
    """A new folder beside the database, with the old files."""
    made = work / "kept"
    made.mkdir(mode=0o700)
    chown(made, owner)
    for path in old:
        try:
            os.link(path, made / path.name, follow_symlinks=False)
        except OSError:
            databases.copied(path, made / path.name)
            own(made / path.name, owner, files.PRIVATE)
    files.sync_folder(made)
    name = time.strftime(f"{KEPT}%Y%m%dT%H%M%SZ-", time.gmtime())
    # It takes the place of the empty one.
    kept = Path(tempfile.mkdtemp(prefix=name, dir=settings.store.parent))
    os.rename(made, kept)
    return kept


def own(path: Path, owner: os.stat_result, mode: int) -> None:
    """Gives a file an owner and rights, and has it on the disk."""
    with files.named(path), open(path, "r+b") as file:
        os.fchmod(file.fileno(), mode)
        chown(file.fileno(), owner)
        os.fsync(file.fileno())


def chown(what: Path | int, owner: os.stat_result) -> None:
    if (owner.st_uid, owner.st_gid) != (os.geteuid(), os.getegid()):
        os.chown(what, owner.st_uid, owner.st_gid)


UNREADABLE = "it cannot be opened"


def what_others(settings: Settings, work: Path) -> str:
    """In what the registry that is there differs from the backup; nothing if it does not."""
    standing = Copy(work / "standing", settings.text(), settings.store)
    databases.copied_store(settings.store, standing)
    try:
        standing.dump(work / "standing.rpsl", full=True)
    except Failure:
        return UNREADABLE
    if databases.same(work / "standing.rpsl", work / "full.rpsl"):
        return ""
    there, here = (set(databases.blocks_of(work / name)) for name in ("standing.rpsl", "full.rpsl"))
    return (
        f"{texts.counted(len(there - here), 'object')} of it,"
        f" {texts.counted(len(here - there), 'object')} of the backup"
    )


def need_same(public: bytes) -> None:
    """That the service answers the public dump of the backup."""
    place = server.Server.from_options(services.server(), True)
    if b"".join(place.dump()) != public:
        raise Failure(
            place.url,
            "the service answers another dump than the backup's; look what listens there",
            DATABASE,
        )

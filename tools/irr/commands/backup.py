"""`irr backup FOLDER`: a tried copy of a registry, served or not."""
import argparse
import contextlib
import os
import re
import time
from pathlib import Path

from irr.errors import ARGUMENTS, DATABASE, DONE, Failure
from irr.local import databases
from irr.local.databases import Copy, Settings
from irr.rpsl import keys, syntax
from irr.system import files
from irr.terminal import texts

EXAMPLES = """
irr backup /var/backups/irrdesk                       the registry of /etc/irrdesk/irr.toml
irr backup --settings irr.toml --keep 30 backups
irr backup --copy /snapshot/irr.db backups            from a snapshot of the file system

To restore a backup, run irr restore FOLDER, or load its dump.rpsl as a new registry.
"""
NAME = re.compile("[0-9]{8}T[0-9]{6}Z")
# What the name of a folder begins with that is no backup yet, or no longer.
UNFINISHED = ".new-"


def arguments(parser: argparse.ArgumentParser) -> None:
    databases.add_option(parser)
    parser.add_argument(
        "--keep",
        metavar="COUNT",
        type=keys.number,
        default=7,
        help="keep this many backups, by default 7",
    )
    parser.add_argument(
        "--hold",
        metavar="SECONDS",
        type=keys.decimal,
        default=30,
        help="suspend a server for at most this long while its database is copied, by default 30",
    )
    parser.add_argument(
        "--copy",
        metavar="FILE",
        help="copy this database and the write-ahead log beside it, both from a snapshot",
    )
    parser.add_argument(
        "folder",
        metavar="FOLDER",
        help="where the backups are kept, each in a folder named after its time",
    )


def run(options: argparse.Namespace) -> int:
    if options.keep < 1 or not 0 < options.hold <= 300:
        raise Failure(
            "",
            "--keep takes a number from 1, and --hold seconds up to 300; correct them",
            ARGUMENTS,
        )
    if options.copy == "":
        raise Failure("--copy", "the path is empty; give that of a database", ARGUMENTS)
    os.umask(0o077)
    settings = Settings.read(options.settings)
    place = files.folder(options.folder, 0o700)
    if place.stat().st_mode & 0o077:
        raise Failure(
            options.folder, "others may enter the folder, and backups hold each hash; chmod 700 it"
        )
    with files.locked(place):
        # What cannot be removed is reported once there is a new backup.
        with contextlib.suppress(Failure):
            databases.clear(place, UNFINISHED)
        with databases.working(place, UNFINISHED) as work:
            made, held = make(settings, options, work)
            name = time.strftime(databases.STAMP, time.gmtime())
            if os.path.lexists(place / name):
                raise Failure(str(place / name), "there is a backup of this second; try again")
            why = tried(work, settings, made)
            os.rename(made.folder, place / name)
            files.sync_folder(place)
        for later in retire(place, name, options.keep, not why):
            texts.note(
                f"irr backup: {later}: its name is of the future, so it is neither counted nor"
                " removed; look whether the clock is right, and remove it, or rename it to the"
                " time it is of"
            )
    if why:
        raise Failure(
            str(place / name),
            f"its irr.db is good, but it has no dump, because that cannot be loaded: {why}",
            DATABASE,
        )
    objects = texts.counted(count_of(place / name / "dump.rpsl"), "object")
    print(texts.shown_line(f"{place / name}: {objects}, the database was held for {held:.2f} s"))
    return DONE


def make(settings: Settings, options: argparse.Namespace, work: Path) -> tuple[Copy, float]:
    """The backup in a folder of the working one: SQLite's copy of the database as it stands, and
    settings for it. And the seconds for which the database was held."""
    held, made = Copy(work / "held", settings.text()), Copy(work / "made", settings.text())
    store, start = (
        settings.store if options.copy is None else databases.real(options.copy),
        time.monotonic(),
    )
    if options.copy is not None:
        with databases.unlocked(store):
            databases.copied_store(store, held)
        seconds = 0.0
    else:
        with databases.still(settings, options.hold):
            databases.copied_store(store, held)
        seconds = time.monotonic() - start
    # SQLite writes the write-ahead log into the file when it closes; what it copies is what
    # both had.
    as_it_was = Copy(work / "as-it-was", settings.text(), store)
    databases.copied_store(held.store, as_it_was)
    databases.sqlite_copy(held.store, made.store, str(store))
    as_it_was.dump(work / "full.rpsl", full=True)
    return made, seconds


def tried(work: Path, settings: Settings, made: Copy) -> str:
    """Opens the backup and compares it with the copy; loads its dump and compares that too. The
    words of the program if the dump of a good copy has an object that is too long to be loaded,
    else nothing."""
    full = work / "full.rpsl"
    opened = Copy(work / "opened", settings.text())
    databases.copied(made.store, opened.store)
    opened.dump(work / "opened.rpsl", full=True)
    if not databases.same(full, work / "opened.rpsl"):
        raise Failure(
            str(settings.store),
            "SQLite's backup has other objects than the database; look at the disk",
            DATABASE,
        )
    dump, loaded = made.folder / "dump.rpsl", Copy(work / "loaded", settings.text())
    files.put(dump, databases.pressed(databases.blocks_of(full)), files.PRIVATE)
    why = ""
    try:
        loaded.load(dump)
    except databases.TooLong as failure:
        # The same is reported of a text that a disk has spoilt.
        if max(map(len, databases.blocks_of(dump)), default=0) <= syntax.LARGEST + 1:
            raise
        why = (
            failure.what.partition(": ")[2].partition("dump.rpsl")[2].lstrip(":, ") or failure.what
        )
        dump.unlink()
    else:
        loaded.dump(work / "loaded.rpsl", full=True)
        if not databases.same(full, work / "loaded.rpsl"):
            raise Failure(
                str(settings.store),
                (
                    "the dump gives other objects than the database when it is loaded; tell it as a"
                    " fault of irr"
                ),
                DATABASE,
            )
    # What the registry has, with the path of its database.
    files.put(made.folder / "irr.toml", settings.path.read_bytes(), files.PRIVATE)
    for path in made.folder.iterdir():
        with files.named(path), open(path, "rb") as file:
            os.fsync(file.fileno())
    files.sync_folder(made.folder)
    return why


def retire(place: Path, new: str, keep: int, is_whole: bool) -> list[Path]:
    """Removes what is outdated, and gives the folders whose names are later than that of the new
    backup. Each is renamed first: what is left of a backup if this is killed does not count as one
    without a dump, and goes with the next run."""
    found = backups(place)
    for old in outdated([entry for entry in found if entry.name <= new], keep, is_whole):
        os.rename(old, place / (UNFINISHED + old.name))
    databases.clear(place, UNFINISHED)
    return [entry for entry in found if entry.name > new]


def backups(place: Path) -> list[Path]:
    """The backups by name. A link to one that was moved elsewhere is not counted."""
    return sorted(
        entry
        for entry in place.iterdir()
        if NAME.fullmatch(entry.name) and entry.is_dir() and not entry.is_symlink()
    )


def outdated(found: list[Path], keep: int, is_whole: bool) -> list[Path]:
    """The backups before the last ones that are kept. One without a dump takes the place of none
    that has it: is_whole tells of the new one whether it has."""
    whole = [entry for entry in found if (entry / "dump.rpsl").exists()]
    return [
        *(whole[:-keep] if is_whole else []),
        *[entry for entry in found if entry not in whole][:-keep],
    ]


def count_of(dump: Path) -> int:
    with open(dump, "rb") as file:
        file.seek(max(0, dump.stat().st_size - 64))
        return int(file.read().rpartition(b"% end ")[2])

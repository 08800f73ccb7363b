"""Migration of old and changed databases."""

import contextlib
import sqlite3

from checks.commands import (
    ADDRESSES,
    BLOCK,
    NO_DATABASE,
    NO_SETTINGS,
    OTHERS,
    OTHER_SOURCE,
    OWNED,
    ROOT,
    TEN,
    Commands,
    of,
)
from checks.databases.rows import LATER, LATER_OLD, OLDER
from checks.databases.spoilt import dumped

SECONDS = 20
OTHER_ROWS = (
    "irrdesk: changed.db, table named: its rows are not those of a registry: restore a backup, or"
    " mend the table"
)
NEW_KEYS = (
    "irrdesk: changed.db, table meta: `meta` says version 1, and the keys are of version 2: restore"
    " a backup, or set the value to 2 in a copy"
)
# A database with the tables and rows of version 1.
VERSION_1 = f"""CREATE TABLE meta (name TEXT NOT NULL PRIMARY KEY, value TEXT NOT NULL) STRICT;
CREATE TABLE object (class INTEGER NOT NULL CHECK (class >= 1 AND class <= 7),
    okey TEXT NOT NULL, body BLOB NOT NULL, PRIMARY KEY (class, okey)) STRICT;
CREATE TABLE named (maintainer TEXT NOT NULL, class INTEGER NOT NULL, okey TEXT NOT NULL,
    PRIMARY KEY (maintainer, class, okey)) STRICT;
INSERT INTO meta VALUES ('version', 'VERSION');
INSERT INTO object VALUES (1, 'ROOT-MNT', CAST('{ROOT}' AS BLOB)),
    (2, '0000-ffff', CAST('{BLOCK}
' AS BLOB)), (4, '00000000-ffffffff', CAST('{ADDRESSES}
' AS BLOB));
INSERT INTO named VALUES ('ROOT-MNT', 1, 'ROOT-MNT'), ('ROOT-MNT', 2, '0000-ffff'),
    ('ROOT-MNT', 4, '00000000-ffffffff');
"""


def version(case: Commands, store: str, number: int) -> None:
    """A database with the tables and rows of version 1, made by SQLite's own program, that says it
    is of this version."""
    case.sh('rm -f "$store" "$store"-*', store=store)
    case.sh(
        'sqlite3 "$store" "$statements"',
        store=store,
        statements=VERSION_1.replace("VERSION", str(number)),
    )


def changed(case: Commands, text: str) -> None:
    """A copy of the registry that sqlite3 changed so."""
    case.sh(
        'rm -f changed.db*; cp irr.db changed.db; sqlite3 changed.db "$statements"', statements=text
    )


def test_old_and_changed_databases_are_migrated_or_reported(case: Commands) -> None:
    dumped(case)
    case.run("migrate", "none.toml").gives(
        "a migration with settings that are missing",
        3,
        NO_SETTINGS,
        "",
    )
    case.settings("missing.db")
    case.run("migrate", "s.toml").gives(
        "a migration of a database that is missing",
        4,
        of("missing.db", NO_DATABASE),
        "",
    )
    case.settings("old.db")
    version(case, "old.db", 1)
    case.run("dump", "s.toml").gives(
        "a database of version 1",
        4,
        of("old.db", OLDER),
        "",
    )
    case.settings("old.db", 'root = "OTHER-MNT"')
    case.run("migrate", "s.toml").gives(
        "a migration without the root",
        4,
        (
            "irrdesk: old.db: the root of the settings is not a maintainer of the registry: let"
            " `root` name one that is"
        ),
        "",
    )
    case.settings("old.db", 'source = "OTHER"')
    case.run("migrate", "s.toml").gives(
        "a migration of another source",
        4,
        of("old.db", OTHER_SOURCE),
        "",
    )
    case.settings("old.db")
    case.run("migrate", "s.toml").gives("a migration", 0, "", "migrated to version 2")
    case.run("dump", "s.toml", "--full").gives(
        "the dump of what was migrated",
        0,
        "",
        f"{ROOT}\n{BLOCK}\n\n{OTHERS}\n\n{ADDRESSES}\n\n% end 4",
    )
    case.run("migrate", "s.toml").gives(
        "a migration that was done",
        4,
        (
            "irrdesk: old.db: the tables of the database are of version 2, as this program reads"
            " them: there is nothing to migrate"
        ),
        "",
    )
    version(case, "old.db", 1)
    case.run("migrate", "s.toml", to="/dev/full").gives(
        "a migration that cannot be told",
        5,
        "irrdesk: standard output: the write failed: the disk is full: make room",
    )
    case.run("query", "s.toml", "exact", "10.0.0.0/8").gives(
        "a migration stands where it could not be told", 0, "", "% no entries"
    )
    version(case, "old.db", 3)
    case.run("query", "s.toml", "AS1").gives(
        "a database of version 3",
        4,
        of("old.db", LATER),
        "",
    )
    case.run("migrate", "s.toml").gives(
        "a migration of version 3",
        4,
        of("old.db", LATER_OLD),
        "",
    )
    version(case, "old.db", 1)
    case.sh(
        "sqlite3 old.db \"UPDATE object SET body = CAST('inetnum: 0/0' AS BLOB) WHERE class = 4\""
    )
    case.run("migrate", "s.toml").gives(
        "a migration of rows that were changed",
        4,
        (
            "irrdesk: old.db, class 4, okey 00000000-ffffffff: the row is not as irrdesk writes"
            ' one: restore a backup, or go by "A damaged file" in docs/BACKUP.md'
        ),
        "",
    )
    version(case, "old.db", 1)
    case.sh("sqlite3 old.db 'DROP TABLE named'")
    case.run("migrate", "s.toml").gives(
        "a migration without a table",
        4,
        "irrdesk: old.db: the database has no tables of version 1: look at `store`",
        "",
    )
    version(case, "old.db", 1)
    case.sh("sqlite3 old.db 'CREATE INDEX some ON object (okey) WHERE class = 3'")
    case.run("migrate", "s.toml").gives(
        "a migration of tables with a partial index",
        4,
        (
            "irrdesk: old.db, index some of object: it keeps the tables of the registry from being"
            " read: take it out"
        ),
        "",
    )
    case.sh("sqlite3 old.db 'DROP INDEX some; CREATE UNIQUE INDEX one_class ON object (class)'")
    case.run("migrate", "s.toml").gives(
        "a migration that a rule forbids",
        4,
        (
            "irrdesk: old.db: a rule that was added to the tables forbids the change: take the"
            " rule out"
        ),
        "",
    )
    case.sh("sqlite3 old.db 'DROP INDEX one_class'")
    case.run("migrate", "s.toml").gives(
        "a migration once the rule is out", 0, "", "migrated to version 2"
    )
    case.sh(
        """rm -f wide.db mended.db
    { echo "PRAGMA encoding = 'UTF-16';"
sqlite3 irr.db .dump
} | sqlite3 wide.db"""
    )
    case.settings("wide.db")
    case.run("query", "s.toml", "exact", "10.0.0.0/8").gives(
        "a database in UTF-16",
        4,
        (
            "irrdesk: wide.db: its text is UTF-16: `umask 077; sqlite3 OLD .dump | sqlite3 NEW`"
            " makes it UTF-8; OLD is the database, NEW the new `store`"
        ),
        "",
    )
    case.sh(
        """(umask 077
sqlite3 wide.db .dump | sqlite3 mended.db)"""
    )
    case.settings("mended.db")
    case.run("query", "s.toml", "exact", "10.0.0.0/8").gives(
        "what the commands of that line make", 0, "", TEN
    )
    case.sh("cp irr.db changed.db")
    case.settings("changed.db")
    case.sh('sqlite3 changed.db "DELETE FROM named WHERE class = 4"')
    case.run("query", "s.toml", "AS1").gives("a query of rows that were changed", 4, OTHER_ROWS, "")
    case.run("dump", "s.toml").gives("a dump of rows that were changed", 4, OTHER_ROWS, "")
    changed(
        case,
        (
            "UPDATE meta SET value = '3'; DROP TABLE object; CREATE TABLE object (class INTEGER,"
            " okey TEXT, body BLOB, note TEXT)"
        ),
    )
    case.run("query", "s.toml", "AS1").gives(
        "tables of a later version, with another column",
        4,
        of("changed.db", LATER),
        "",
    )
    (case.folder / "changed.db").unlink()
    with (
        contextlib.closing(sqlite3.connect(case.folder / "irr.db")) as old,
        contextlib.closing(sqlite3.connect(case.folder / "changed.db")) as new,
    ):
        new.executescript("\n".join(old.iterdump()))
    case.run("query", "s.toml", "AS1").gives(
        "tables in the order of iterdump of Python",
        4,
        (
            "irrdesk: changed.db: the tables of the registry are not first and in order: `umask"
            " 077; sqlite3 OLD '.dump meta' '.dump object' '.dump named' | sqlite3 NEW` lays them"
            " so; OLD is the database, NEW the new `store`"
        ),
        "",
    )
    case.sh(
        """rm -f mended.db
    (umask 077
sqlite3 changed.db '.dump meta' '.dump object' '.dump named' | sqlite3 mended.db)"""
    )
    case.settings("mended.db")
    case.run("dump", "s.toml", "--full")
    mended = case.printed
    case.settings("irr.db")
    case.run("dump", "s.toml", "--full")
    case.check(
        "the commands of that line make a database that is read, of the same registry",
        case.printed == mended,
    )
    case.check("which its owner alone may read", '[ "$(stat -c %a mended.db)" = 600 ]')
    case.sh("cp irr.db changed.db")
    case.settings("changed.db")
    case.sh(
        "sqlite3 changed.db \"UPDATE object SET okey = '00000001' WHERE class = 4 AND okey ="
        " '00000000-ffffffff'\""
    )
    case.run("query", "s.toml", "AS1").gives(
        "a row with another key",
        4,
        (
            "irrdesk: changed.db, class 4, okey 00000001: the row is not as irrdesk writes one:"
            ' restore a backup, or go by "A damaged file" in docs/BACKUP.md'
        ),
        "",
    )
    case.sh(
        """cp irr.db changed.db
sqlite3 changed.db 'DELETE FROM object WHERE class = 1; DELETE FROM named WHERE class = 1'"""
    )
    case.run("query", "s.toml", "AS1").gives(
        "a row whose maintainer is not there",
        4,
        (
            "irrdesk: changed.db, class 2, okey 00000000-0000ffff: the object of the row names a"
            ' maintainer who is not there: restore a backup, or go by "A damaged file" in'
            " docs/BACKUP.md"
        ),
        "",
    )
    changed(
        case,
        (
            "INSERT INTO object VALUES (4, '09ff0000-0a00ffff', CAST('inetnum:        9.255.0.0 -"
            f" 10.0.255.255\n{OWNED}\n' AS BLOB)); INSERT INTO named VALUES ('ROOT-MNT', 4,"
            " '09ff0000-0a00ffff')"
        ),
    )
    case.run("query", "s.toml", "AS1").gives(
        "a row whose range crosses",
        4,
        (
            "irrdesk: changed.db, class 4, okey 0a000000-0affffff: the object of the row has a"
            " range that overlaps one before it: restore a backup, or take one of the two out of"
            " `object` and `named`"
        ),
        "",
    )
    changed(
        case,
        (
            "UPDATE object SET body = CAST(replace(CAST(body AS TEXT), 'TEST', 'REST') AS BLOB)"
            " WHERE okey = '0a000000-0affffff'"
        ),
    )
    case.run("query", "s.toml", "AS1").gives(
        "a row of another source",
        4,
        (
            "irrdesk: changed.db, class 4, okey 0a000000-0affffff: the object of the row is of"
            " another source: restore a backup, or correct it or `source`"
        ),
        "",
    )
    changed(case, "UPDATE meta SET value = '1'")
    case.run("query", "s.toml", "AS1").gives("version 1, and keys of version 2", 4, NEW_KEYS, "")
    case.run("migrate", "s.toml").gives("the same, to be migrated", 4, NEW_KEYS, "")
    case.sh("sqlite3 changed.db \"UPDATE meta SET value = '2'\"")
    case.run("query", "s.toml", "exact", "10.0.0.0/8").gives(
        "the same as that line mends it", 0, "", TEN
    )
    version(case, "changed.db", 2)
    case.run("query", "s.toml", "AS1").gives(
        "version 2, and keys of version 1",
        4,
        (
            "irrdesk: changed.db, table meta: `meta` says version 2, and the keys are of version 1:"
            " restore a backup, or set the value to 1 in a copy, and migrate that"
        ),
        "",
    )
    case.sh("sqlite3 changed.db \"UPDATE meta SET value = '1'\"")
    case.run("migrate", "s.toml").gives(
        "the same as that line mends it", 0, "", "migrated to version 2"
    )
    version(case, "changed.db", 1)
    case.sh("sqlite3 changed.db 'DELETE FROM object; DELETE FROM named'")
    case.run("migrate", "s.toml").gives(
        "a migration without objects",
        4,
        (
            "irrdesk: changed.db: the database has no objects: restore a backup, or let `store`"
            " name another one"
        ),
        "",
    )
    case.sh(
        """rm -f changed.db*
sqlite3 irr.db .dump | sed 's/) STRICT;/);/' | sqlite3 changed.db"""
    )
    case.run("query", "s.toml", "AS1").gives(
        "tables without STRICT",
        4,
        (
            'irrdesk: changed.db: the tables of the registry were not made by irrdesk: "A damaged'
            ' file" in docs/BACKUP.md makes a registry of their rows'
        ),
        "",
    )
    # The journal that a program of SQLite leaves that is killed as it writes.
    changed(case, "")
    case.sh(
        """python3 -c '
import os
import sqlite3
held = sqlite3.connect("changed.db")
held.execute("PRAGMA journal_mode = DELETE")
held.execute("PRAGMA cache_size = 1")
held.execute("BEGIN")
held.execute("UPDATE object SET body = CAST(body || hex(zeroblob(20000)) AS BLOB)")
held.execute("UPDATE named SET maintainer = maintainer || hex(zeroblob(20000))")
os.kill(os.getpid(), 9)
' 2>/dev/null || true"""
    )
    case.run("query", "s.toml", "exact", "10.0.0.0/8").gives(
        "a database with a journal",
        4,
        (
            "irrdesk: changed.db: a program of SQLite left a journal (`-journal`): copy both"
            " elsewhere, and run `sqlite3 DATABASE 'PRAGMA integrity_check'`, which applies it"
        ),
        "",
    )
    case.check("what that line says", "[ \"$(sqlite3 changed.db 'PRAGMA integrity_check')\" = ok ]")
    case.run("query", "s.toml", "exact", "10.0.0.0/8").gives(
        "the same as that line mends it", 0, "", TEN
    )
    # A journal that begins with a zero stops nothing, and is not what is at fault.
    case.write("changed.db-journal", bytes(512))
    case.run("query", "s.toml", "exact", "10.0.0.0/8").gives(
        "a database with a zeroed journal", 0, "", TEN
    )
    case.sh("ln changed.db second")
    case.run("query", "s.toml", "exact", "10.0.0.0/8").gives(
        "a second name, beside a zeroed journal",
        4,
        (
            "irrdesk: changed.db: the database cannot be opened or made: look at its folder, its"
            " links, its permissions and the limit on open files"
        ),
        "",
    )
    case.sh("rm -f second changed.db-journal")
    name = "changed\u202e.db"
    case.sh('cp irr.db "$name"', name=name)
    case.settings(name)
    case.sh(
        """sqlite3 "$name" "DELETE FROM object WHERE class = 4 AND okey <> '00000000-ffffffff'\"""",
        name=name,
    )
    case.run("query", "s.toml", "AS1").gives(
        "a name without an object, in a database whose name may not be seen",
        4,
        (
            "irrdesk: changed\\u{202E}.db, class 4, okey 0a000000-0affffff: `named` has a row of"
            " this class and okey, and `object` has none: restore a backup, or take that row out"
        ),
        "",
    )
    case.settings("irr.db")

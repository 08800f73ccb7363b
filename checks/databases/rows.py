"""What is reported of databases whose rows, keys or tables were changed, and SQL that changes
them."""

import os

from checks.commands import Commands
from checks.running import TOP

INETNUM = os.path.join(TOP, "examples", "inetnum.rpsl")
TEN = "okey = '0a000000-0affffff'"
REPORT = "1 inetnum 10.0.0.0 - 10.255.255.255: {}\n% items 1"
# Tables of another version; the last is reported by a migration.
OLDER = (
    "irrdesk: DATABASE: the tables of the database are of version 1, and this program reads version"
    " 2: `irrdesk migrate SETTINGS` turns them into that"
)
LATER = (
    "irrdesk: DATABASE: the tables of the database are of version 3, and this program reads version"
    " 2: take a newer irrdesk, which wrote them"
)
LATER_OLD = (
    "irrdesk: DATABASE: the tables of the database are of version 3, and what is migrated is"
    " version 1: take a newer irrdesk, which wrote them"
)
NEW_KEYS = (
    "irrdesk: DATABASE, table meta: `meta` says version 1, and the keys are of version 2: restore a"
    " backup, or set the value to 2 in a copy"
)
OTHERWISE = (
    'irrdesk: DATABASE: the tables of the registry were not made by irrdesk: "A damaged file" in'
    " docs/BACKUP.md makes a registry of their rows"
)
UNORDERED = (
    "irrdesk: DATABASE: the tables of the registry are not first and in order: `umask 077; sqlite3"
    " OLD '.dump meta' '.dump object' '.dump named' | sqlite3 NEW` lays them so; OLD is the"
    " database, NEW the new `store`"
)
TABLES = "meta object named"
ORDERS = [
    "meta named object",
    "object meta named",
    "object named meta",
    "named meta object",
    "named object meta",
]


def other_rows(table: str) -> str:
    """What is reported if this table has other rows than the objects need."""
    return (
        f"irrdesk: DATABASE, table {table}: its rows are not those of a registry: restore a backup,"
        " or mend the table"
    )


def bad_row(kind: int, key: str) -> str:
    """What is reported of the row of an object that is none."""
    return (
        f"irrdesk: DATABASE, class {kind}, okey {key}: the row is not as irrdesk writes one:"
        ' restore a backup, or go by "A damaged file" in docs/BACKUP.md'
    )


def unnamed(kind: int, key: str) -> str:
    """What is reported of a row whose object names a maintainer who is not there."""
    return (
        f"irrdesk: DATABASE, class {kind}, okey {key}: the object of the row names a maintainer who"
        ' is not there: restore a backup, or go by "A damaged file" in docs/BACKUP.md'
    )


def of_another(kind: int, key: str) -> str:
    """What is reported of a row whose object is of another source."""
    return (
        f"irrdesk: DATABASE, class {kind}, okey {key}: the object of the row is of another source:"
        " restore a backup, or correct it or `source`"
    )


def obstacle(part: str) -> str:
    """What is reported if this was added to a table."""
    return (
        f"irrdesk: DATABASE, {part}: it keeps the tables of the registry from being read: take"
        " it out"
    )


def added(kind: int, key: str, maintainer: str, text: str) -> str:
    """SQL that adds an object, whose canonical text begins so, and that it names its maintainer."""
    return (
        f"INSERT INTO object VALUES ({kind}, '{key}', CAST('{text}\nmnt-by:        "
        f" {maintainer}\nsource:         TEST\n' AS BLOB)); INSERT INTO named VALUES"
        f" ('{maintainer}', {kind}, '{key}');"
    )


def ask(case: Commands, database: str, text: str) -> str:
    """What sqlite3 answers, a line for each row."""
    return case.sh(
        'sqlite3 -batch -bail "$database" "$statements" 2>&1 || true',
        database=database,
        statements=text.replace("TEN", TEN),
    )


def begun(case: Commands) -> None:
    """A registry with the inetnum of the examples."""
    case.settings("irr.db")
    case.run("init", "s.toml")
    case.run("submit", "s.toml", INETNUM)


def mended(case: Commands, database: str) -> None:
    """Lays the tables of a database anew, as the message of unordered tables says."""
    case.sh(
        """sqlite3 "$database" '.dump meta' '.dump object' '.dump named' | sqlite3 mended.db
        mv mended.db "$database\"""",
        database=database,
    )

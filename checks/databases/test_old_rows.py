"""Tables of version 1, laid by sqlite3 with the texts of the program's own, and their migration."""


from checks.commands import AUTH_LINE, OTHER_SOURCE, UNREAD, Commands, of
from checks.databases.rows import (
    LATER_OLD,
    NEW_KEYS,
    OLDER,
    ORDERS,
    OTHERWISE,
    TABLES,
    UNORDERED,
    added,
    ask,
    bad_row,
    begun,
    mended,
    obstacle,
    of_another,
    other_rows,
    unnamed,
)
from checks.running import needs

pytestmark = needs("sqlite3")
IN_MEMORY, SECONDS = True, 20
NO_OLD_TABLES = "irrdesk: DATABASE: the database has no tables of version 1: look at `store`"
OLD_CHANGES = [
    ("nothing is changed", "migrated to version 2", 0, "2", ""),
    (
        "keys of version 2",
        NEW_KEYS,
        4,
        "1",
        (
            "UPDATE object SET okey = '00000001' WHERE class = 3; UPDATE named SET okey ="
            " '00000001' WHERE class = 3"
        ),
    ),
    (
        "keys of version 2, and a bad row",
        NEW_KEYS,
        4,
        "1",
        "UPDATE object SET okey = '00000001' WHERE class = 3; "
        + added(4, "0a000000-0afffffe", "ROOT-MNT", "inetnum:        10.0.0.0/8"),
    ),
    (
        "a key of version 2",
        bad_row(3, "00000001"),
        4,
        "1",
        "UPDATE object SET okey = '00000001' WHERE class = 3; UPDATE named SET okey = '00000001'"
        " WHERE class = 3; " + added(3, "0002", "ROOT-MNT", "aut-num:        AS2"),
    ),
    (
        "a 32-bit AS number",
        bad_row(3, "00010000"),
        4,
        "1",
        added(3, "00010000", "ROOT-MNT", "aut-num:        AS65536"),
    ),
    (
        "the greatest AS number",
        bad_row(3, "ffffffff"),
        4,
        "1",
        added(3, "ffffffff", "ROOT-MNT", "aut-num:        AS4294967295"),
    ),
    (
        "a block with a 32-bit AS number",
        bad_row(2, "0000ffff-00010000"),
        4,
        "1",
        added(2, "0000ffff-00010000", "ROOT-MNT", "as-block:       AS65535 - AS65536"),
    ),
    (
        "a route of a 32-bit AS number",
        bad_row(5, "0a000000/08-00010000"),
        4,
        "1",
        added(
            5,
            "0a000000/08-00010000",
            "ROOT-MNT",
            "route:          10.0.0.0/8\norigin:         AS65536",
        ),
    ),
    (
        "a set below a 32-bit AS number",
        bad_row(6, "AS70000:AS-X"),
        4,
        "1",
        added(6, "AS70000:AS-X", "ROOT-MNT", "as-set:         as70000:as-x"),
    ),
    (
        "a text with fewer blanks",
        bad_row(3, "0001"),
        4,
        "1",
        (
            "UPDATE object SET body = CAST(replace(CAST(body AS TEXT), 'aut-num:        ',"
            " 'aut-num: ') AS BLOB) WHERE class = 3"
        ),
    ),
    (
        "another source in one object",
        of_another(3, "0001"),
        4,
        "1",
        (
            "UPDATE object SET body = CAST(replace(CAST(body AS TEXT), 'TEST', 'REST') AS BLOB)"
            " WHERE class = 3"
        ),
    ),
    (
        "another source in all",
        OTHER_SOURCE,
        4,
        "1",
        "UPDATE object SET body = CAST(replace(CAST(body AS TEXT), 'TEST', 'REST') AS BLOB)",
    ),
    (
        "a maintainer who is not there",
        unnamed(3, "0002"),
        4,
        "1",
        added(3, "0002", "GONE-MNT", "aut-num:        AS2"),
    ),
    ("a name that is missing", other_rows("named"), 4, "1", "DELETE FROM named WHERE class = 3"),
    ("another setting", other_rows("meta"), 4, "1", "INSERT INTO meta VALUES ('note', 'x')"),
    (
        "a later version, and another column",
        LATER_OLD,
        4,
        "3",
        (
            "UPDATE meta SET value = '3'; DROP TABLE object; CREATE TABLE object (class INTEGER,"
            " okey TEXT, body BLOB, note TEXT)"
        ),
    ),
    (
        "no version, and keys of version 2",
        other_rows("meta"),
        4,
        "",
        "DELETE FROM meta; " + added(3, "00000002", "ROOT-MNT", "aut-num:        AS2"),
    ),
    (
        "another column",
        obstacle("column note of object"),
        4,
        "1",
        "ALTER TABLE object ADD COLUMN note TEXT",
    ),
    (
        "tables without STRICT",
        OTHERWISE,
        4,
        "1",
        (
            "PRAGMA writable_schema = on; UPDATE sqlite_schema SET sql = replace(sql, ') STRICT',"
            " ')') WHERE type = 'table'"
        ),
    ),
    (
        "a default",
        obstacle("default of column value of meta"),
        4,
        "1",
        (
            "PRAGMA writable_schema = on; UPDATE sqlite_schema SET sql = replace(sql, 'value TEXT"
            " NOT NULL', 'value TEXT NOT NULL DEFAULT 7') WHERE name = 'meta'"
        ),
    ),
    (
        "a default that is computed",
        obstacle("default of column value of meta"),
        4,
        "1",
        (
            "PRAGMA writable_schema = on; UPDATE sqlite_schema SET sql = replace(sql, 'value TEXT"
            " NOT NULL', 'value TEXT NOT NULL DEFAULT (upper(''a''))') WHERE name = 'meta'"
        ),
    ),
    (
        "a default that is the time",
        obstacle("default of column value of meta"),
        4,
        "1",
        (
            "PRAGMA writable_schema = on; UPDATE sqlite_schema SET sql = replace(sql, 'value TEXT"
            " NOT NULL', 'value TEXT NOT NULL DEFAULT CURRENT_TIMESTAMP') WHERE name = 'meta'"
        ),
    ),
    (
        "a collation",
        obstacle("collation of column value of meta"),
        4,
        "1",
        (
            "PRAGMA writable_schema = on; UPDATE sqlite_schema SET sql = replace(sql, 'value TEXT"
            " NOT NULL', 'value TEXT NOT NULL COLLATE NOCASE') WHERE name = 'meta'"
        ),
    ),
    (
        "a column that is generated",
        NO_OLD_TABLES,
        4,
        "1",
        (
            "PRAGMA writable_schema = on; UPDATE sqlite_schema SET sql = replace(sql, 'value TEXT"
            " NOT NULL', 'value TEXT NOT NULL, made TEXT AS (name)') WHERE name = 'meta'"
        ),
    ),
    ("a column that is missing", NO_OLD_TABLES, 4, "1", "ALTER TABLE object DROP COLUMN body"),
    (
        "a trigger",
        obstacle("trigger noted of named"),
        4,
        "1",
        "CREATE TRIGGER noted AFTER INSERT ON named BEGIN SELECT 1; END",
    ),
    (
        "a trigger on a table in other letters",
        obstacle("trigger noted of NAMED"),
        4,
        "1",
        "CREATE TRIGGER noted AFTER INSERT ON NAMED BEGIN SELECT 1; END",
    ),
    (
        "a trigger beside an index with parentheses in its name",
        obstacle("trigger noted of object"),
        4,
        "1",
        (
            'CREATE INDEX "i(1)" ON object (okey); CREATE TRIGGER noted AFTER INSERT ON object'
            " BEGIN SELECT 1; END"
        ),
    ),
    (
        "a partial index",
        obstacle("index some of object"),
        4,
        "1",
        "CREATE INDEX by_key ON object (okey); CREATE INDEX some ON object (okey) WHERE class = 3",
    ),
    (
        "an index over an expression",
        obstacle("index sums of object"),
        4,
        "1",
        "CREATE INDEX sums ON object (class + 1)",
    ),
    (
        "a foreign key",
        obstacle("foreign key to meta of note"),
        4,
        "1",
        "CREATE TABLE note (name REFERENCES meta (name))",
    ),
    (
        "a foreign key of a table of the three",
        obstacle("foreign key to note of named"),
        4,
        "1",
        (
            "CREATE TABLE note (text TEXT PRIMARY KEY); INSERT INTO note SELECT DISTINCT okey FROM"
            " named; PRAGMA writable_schema = on;\n    UPDATE sqlite_schema SET sql = replace(sql,"
            " 'PRIMARY KEY (maintainer, class, okey)', 'PRIMARY KEY (maintainer, class, okey),"
            " FOREIGN KEY (okey) REFERENCES note (text)') WHERE name = 'named'"
        ),
    ),
    (
        "a column that is added with a default",
        UNREAD,
        4,
        "1",
        "ALTER TABLE meta ADD COLUMN note TEXT DEFAULT 'x'",
    ),
    (
        "a foreign key in other letters",
        obstacle("foreign key to OBJECT of note"),
        4,
        "1",
        (
            "CREATE TABLE note (class, okey, FOREIGN KEY (class, okey) REFERENCES OBJECT (class,"
            " okey))"
        ),
    ),
]


# Tables of version 1, laid by sqlite3 with the texts of the program's own.


def old(case: Commands, rows: str, tables: str = TABLES) -> None:
    """old.db, with the rows that SQL adds to tables of version 1, which are made in this order."""
    case.sh("rm -f old.db old.db-wal old.db-shm")
    texts = [
        ask(case, "irr.db", f"SELECT sql || ';' FROM sqlite_schema WHERE name = '{table}'")
        for table in tables.split()
    ]
    ask(case, "old.db", "\n".join([*texts, "INSERT INTO meta VALUES ('version', '1');", rows]))


def migrated(case: Commands, name: str, wanted: str, status: int = 0, version: str = "2") -> None:
    """That the migration of old.db ends so, and the version of its tables then."""
    case.run("migrate", "s.toml")
    found = ask(case, "old.db", "SELECT value FROM meta WHERE name = 'version'")
    printed, reported = ("", of("old.db", wanted)) if status else (wanted, "")
    case.gives(name, status, reported, printed)
    case.check(f"{name}: its version then", found == version)


MIGRATED = "migrated to version 2"
OLD_ROWS = [
    (1, "ROOT-MNT", "ROOT-MNT", f"mntner:         ROOT-MNT\n{AUTH_LINE}"),
    (1, "A-MNT", "A-MNT", f"mntner:         A-MNT\n{AUTH_LINE.replace(' a:', ' ab:')}"),
    (1, "B-MNT", "B-MNT", f"mntner:         B-MNT\n{AUTH_LINE.replace(' a:', ' :')}"),
    (2, "0000-ffff", "ROOT-MNT", "as-block:       AS0 - AS65535"),
    (3, "0001", "A-MNT", "aut-num:        AS1"),
    (3, "0002", "B-MNT", "aut-num:        AS2"),
    (4, "00000000-ffffffff", "ROOT-MNT", "inetnum:        0.0.0.0 - 255.255.255.255"),
    (4, "0a000000-0affffff", "ROOT-MNT", "inetnum:        10.0.0.0/8"),
    (5, "0a000000/08-0002", "B-MNT", "route:          10.0.0.0/8\norigin:         AS2"),
    (5, "0a010000/16-0001", "A-MNT", "route:          10.1.0.0/16\norigin:         AS1"),
    (2, "000a-0014", "ROOT-MNT", "as-block:       AS10 - AS20"),
    (4, "0a010003-0a010009", "A-MNT", "inetnum:        10.1.0.3-10.1.0.9"),
    (6, "AS1:AS-X", "A-MNT", "as-set:         as01:as-x"),
    (7, "RS-C", "A-MNT", "route-set:      RS-C"),
]
NUMBERS = """password: bc
password: c

aut-num: AS65536
mnt-by: A-MNT
source: TEST

as-block: AS4294967295 - AS4294967295
mnt-by: ROOT-MNT
source: TEST

aut-num: AS4294967296
mnt-by: A-MNT
source: TEST

aut-num: AS4294967295
mnt-by: A-MNT
source: TEST

route: 10.1.0.0/16
origin: AS65536
mnt-by: A-MNT
source: TEST

as-set: as65536:as-x
mnt-by: A-MNT
source: TEST
"""
NUMBERS_REPORT = """1 aut-num AS65536: added
2 as-block AS4294967295 - AS4294967295: added
3 -: refused E03
4 aut-num AS4294967295: added
5 route 10.1.0.0/16 AS65536: added
6 as-set AS65536:AS-X: added
% items 6"""
NUMBERS_FOUND = [
    "2|ffffffff-ffffffff",
    "3|00010000",
    "3|ffffffff",
    "5|0a010000/16-00010000",
    "6|AS65536:AS-X",
]
NEW_KEYS_FOUND = [
    "1|A-MNT",
    "1|B-MNT",
    "1|ROOT-MNT",
    "2|00000000-0000ffff",
    "2|0000000a-00000014",
    "2|00010000-ffffffff",
    "3|00000001",
    "3|00000002",
    "4|00000000-ffffffff",
    "4|0a000000-0affffff",
    "4|0a010003-0a010009",
    "5|0a000000/08-00000002",
    "5|0a010000/16-00000001",
    "6|AS1:AS-X",
    "7|RS-C",
]
NEW_NAMES_FOUND = [
    "A-MNT|1|A-MNT",
    "A-MNT|3|00000001",
    "A-MNT|4|0a010003-0a010009",
    "A-MNT|5|0a010000/16-00000001",
    "A-MNT|6|AS1:AS-X",
    "A-MNT|7|RS-C",
    "B-MNT|1|B-MNT",
    "B-MNT|3|00000002",
    "B-MNT|5|0a000000/08-00000002",
    "ROOT-MNT|1|ROOT-MNT",
    "ROOT-MNT|2|00000000-0000ffff",
    "ROOT-MNT|2|0000000a-00000014",
    "ROOT-MNT|2|00010000-ffffffff",
    "ROOT-MNT|4|00000000-ffffffff",
    "ROOT-MNT|4|0a000000-0affffff",
]


def test_tables_of_version_1_are_migrated(case: Commands) -> None:
    begun(case)
    case.settings("old.db")
    old(case, "".join(added(*row) for row in OLD_ROWS))
    case.run("query", "s.toml", "AS1").gives(
        "tables of version 1",
        4,
        of("old.db", OLDER),
        "",
    )
    migrated(case, "they are migrated", MIGRATED)
    found = ask(case, "old.db", "SELECT class, okey FROM object ORDER BY class, okey")
    case.check("the keys of version 2", found.split("\n") == NEW_KEYS_FOUND)
    found = ask(
        case, "old.db", "SELECT maintainer, class, okey FROM named ORDER BY maintainer, class, okey"
    )
    case.check("who names which in version 2", found.split("\n") == NEW_NAMES_FOUND)
    case.check("a sound file of version 2", ask(case, "old.db", "PRAGMA integrity_check") == "ok")
    case.write("octets.rpsl", NUMBERS)
    case.run("submit", "s.toml", "octets.rpsl").gives("32-bit numbers in it", 1, "", NUMBERS_REPORT)
    found = ask(case, "old.db", "SELECT class, okey FROM object ORDER BY class, okey")
    added_keys = [key for key in found.split("\n") if key not in NEW_KEYS_FOUND]
    case.check("the keys of 32-bit numbers", added_keys == NUMBERS_FOUND)
    ask(case, "old.db", "INSERT INTO meta VALUES ('note', 'x')")
    migrated(case, "another setting beside version 2 is not migrated", other_rows("meta"), 4)
    ask(case, "old.db", "DELETE FROM meta WHERE name = 'note'")
    migrated(
        case,
        "it is not migrated again",
        (
            "irrdesk: old.db: the tables of the database are of version 2, as this program reads"
            " them: there is nothing to migrate"
        ),
        4,
    )
    old(case, added(*OLD_ROWS[1]))
    migrated(
        case,
        "tables of version 1 without the root",
        (
            "irrdesk: old.db: the root of the settings is not a maintainer of the registry: let"
            " `root` name one that is"
        ),
        4,
        "1",
    )
    old(case, "")
    migrated(
        case,
        "tables of version 1 without objects",
        (
            "irrdesk: old.db: the database has no objects: restore a backup, or let `store` name"
            " another one"
        ),
        4,
        "1",
    )


FEW_ROWS = added(*OLD_ROWS[0]) + added(3, "0001", "ROOT-MNT", "aut-num:        AS1")


def test_rows_of_version_1_that_were_changed_are_reported_and_stay(case: Commands) -> None:
    begun(case)
    case.settings("old.db")
    for name, wanted, status, version, text in OLD_CHANGES:
        old(case, f"{FEW_ROWS}\n{text};")
        migrated(case, f"{name}, in version 1", wanted, status, version)
    for table, column, other in [("object", "body", "BODY"), ("meta", "value", "valu")]:
        old(case, f"{FEW_ROWS}\nALTER TABLE {table} RENAME COLUMN {column} TO {other};")
        case.run("migrate", "s.toml").gives(
            f"a column that is called {other}", 4, of("old.db", NO_OLD_TABLES), ""
        )
    for tables in ORDERS:
        old(case, FEW_ROWS, tables)
        migrated(case, f"the order {tables}, in version 1", UNORDERED, 4, "1")
        mended(case, "old.db")
        migrated(case, f"mended as the message says: the order {tables}, in version 1", MIGRATED)

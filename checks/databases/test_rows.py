"""Databases that the program wrote, read by the stock sqlite3, and what the program says of them
once sqlite3 has changed them."""


from checks.commands import (
    ADDRESSES,
    BLOCK,
    OTHERS,
    OTHER_SOURCE,
    OWNED,
    ROOT,
    UNREAD,
    Commands,
    of,
)
from checks.databases.rows import (
    INETNUM,
    LATER,
    NEW_KEYS,
    REPORT,
    added,
    ask,
    bad_row,
    begun,
    of_another,
    other_rows,
    unnamed,
)
from checks.running import needs

pytestmark = needs("sqlite3")
IN_MEMORY, SECONDS = True, 20
# What the inetnum of the examples is, as it is answered, and in the rows; TEN stands for that
# below.
RANGE = f"inetnum:        10.0.0.0 - 10.255.255.255\n{OWNED}"
WHOLE = f"{ROOT}\n{BLOCK}\n\n{OTHERS}\n\n{ADDRESSES}\n\n{RANGE}\n\n% end 5"
WHOLE_AND_ONE = WHOLE.replace("% end 5", f"inetnum:        10.1.0.0/16\n{OWNED}\n\n% end 6")
OF_32_BITS = (
    f"{ROOT}\nas-block:       AS65535 - AS65536\n{OWNED}\n\n{ADDRESSES}\n\n{RANGE}\n\n"
    f"as-set:         as70000:as-x\n{OWNED}\n\n% end 5"
)
# What is reported of a database; DATABASE stands for its name.
CROSSING = (
    "irrdesk: DATABASE, class 4, okey 0a000000-0affffff: the object of the row has a range that"
    " overlaps one before it: restore a backup, or take one of the two out of `object` and `named`"
)
OLD_KEYS = (
    "irrdesk: DATABASE, table meta: `meta` says version 2, and the keys are of version 1: restore a"
    " backup, or set the value to 1 in a copy, and migrate that"
)


def no_object(kind: int, key: str) -> str:
    """What is reported of a row of names without an object."""
    return (
        f"irrdesk: DATABASE, class {kind}, okey {key}: `named` has a row of this class and okey,"
        " and `object` has none: restore a backup, or take that row out"
    )


def rekeyed(key: str) -> str:
    """SQL that gives the inetnum this key."""
    return f"UPDATE object SET okey = {key} WHERE TEN; UPDATE named SET okey = {key} WHERE TEN"


# What sqlite3 finds of the registry with the inetnum of the examples.
FOUND = [
    ("a sound file", "ok", "PRAGMA integrity_check"),
    ("a log written ahead", "wal", "PRAGMA journal_mode"),
    (
        "three tables, in their order",
        "meta\nobject\nnamed",
        "SELECT name FROM sqlite_schema WHERE type = 'table' ORDER BY rowid",
    ),
    (
        "the columns of the settings",
        "name|TEXT|1|1\nvalue|TEXT|1|0",
        "SELECT name, type, \"notnull\", pk FROM pragma_table_info('meta')",
    ),
    (
        "the columns of the objects",
        "class|INTEGER|1|1\nokey|TEXT|1|2\nbody|BLOB|1|0",
        "SELECT name, type, \"notnull\", pk FROM pragma_table_info('object')",
    ),
    (
        "the columns of the names",
        "maintainer|TEXT|1|1\nclass|INTEGER|1|2\nokey|TEXT|1|3",
        "SELECT name, type, \"notnull\", pk FROM pragma_table_info('named')",
    ),
    (
        "tables that hold to their types",
        "meta|1\nnamed|1\nobject|1",
        (
            "SELECT name, strict FROM pragma_table_list WHERE schema = 'main' AND name NOT LIKE"
            " 'sqlite%' ORDER BY name"
        ),
    ),
    ("the version", "version|2", "SELECT name, value FROM meta"),
    (
        "the keys of the objects",
        "1|ROOT-MNT\n2|00000000-0000ffff\n2|00010000-ffffffff\n4|00000000-ffffffff\n"
        "4|0a000000-0affffff",
        "SELECT class, okey FROM object ORDER BY class, okey",
    ),
    (
        "who names which",
        "ROOT-MNT|1|ROOT-MNT\nROOT-MNT|2|00000000-0000ffff\nROOT-MNT|2|00010000-ffffffff\n"
        "ROOT-MNT|4|00000000-ffffffff\nROOT-MNT|4|0a000000-0affffff",
        "SELECT maintainer, class, okey FROM named ORDER BY maintainer, class, okey",
    ),
    ("the text of the inetnum", RANGE, "SELECT CAST(body AS TEXT) FROM object WHERE TEN"),
]
# What is reported of a copy that sqlite3 changed; WHOLE is its dump where nothing is wrong.
CHANGES = [
    ("nothing is changed", WHOLE, ""),
    ("another version", LATER, "UPDATE meta SET value = '3'"),
    (
        "another version, beside another setting",
        LATER,
        "UPDATE meta SET value = '3'; INSERT INTO meta VALUES ('note', 'x')",
    ),
    (
        "another version, and another column",
        LATER,
        (
            "UPDATE meta SET value = '3'; DROP TABLE object; CREATE TABLE object (class INTEGER,"
            " okey TEXT, body BLOB, note TEXT)"
        ),
    ),
    ("another version, with a leading zero", other_rows("meta"), "UPDATE meta SET value = '03'"),
    ("a version that is no number", other_rows("meta"), "UPDATE meta SET value = 'x'"),
    ("a version with a leading zero", other_rows("meta"), "UPDATE meta SET value = '02'"),
    ("no version", other_rows("meta"), "DELETE FROM meta"),
    (
        "no version, and keys of version 1",
        other_rows("meta"),
        (
            "DELETE FROM meta; UPDATE object SET okey = '0000-ffff' WHERE okey ="
            " '00000000-0000ffff'; UPDATE named SET okey = '0000-ffff' WHERE okey ="
            " '00000000-0000ffff'"
        ),
    ),
    ("another setting", other_rows("meta"), "INSERT INTO meta VALUES ('note', 'x')"),
    ("a name that is missing", other_rows("named"), "DELETE FROM named WHERE TEN"),
    (
        "a name too many",
        other_rows("named"),
        "INSERT INTO named VALUES ('A-MNT', 4, '0a000000-0affffff')",
    ),
    (
        "a text with fewer blanks",
        bad_row(4, "0a000000-0affffff"),
        (
            "UPDATE object SET body = CAST(replace(CAST(body AS TEXT), 'inetnum:        ',"
            " 'inetnum: ') AS BLOB) WHERE TEN"
        ),
    ),
    ("no text", bad_row(4, "0a000000-0affffff"), "UPDATE object SET body = x'' WHERE TEN"),
    (
        "a text without its last line end",
        bad_row(4, "0a000000-0affffff"),
        "UPDATE object SET body = substr(body, 1, length(body) - 1) WHERE TEN",
    ),
    (
        "a text with an empty line behind",
        bad_row(4, "0a000000-0affffff"),
        "UPDATE object SET body = CAST(CAST(body AS TEXT) || char(10) AS BLOB) WHERE TEN",
    ),
    (
        "a text with a line without a colon",
        bad_row(4, "0a000000-0affffff"),
        "UPDATE object SET body = CAST(CAST(body AS TEXT) || 'no colon' || char(10) AS BLOB)"
        " WHERE TEN",
    ),
    (
        "a block and a set of 32-bit AS numbers",
        OF_32_BITS,
        "DELETE FROM object WHERE class = 2; DELETE FROM named WHERE class = 2; "
        + added(2, "0000ffff-00010000", "ROOT-MNT", "as-block:       AS65535 - AS65536")
        + added(6, "AS70000:AS-X", "ROOT-MNT", "as-set:         as70000:as-x"),
    ),
    ("another key", bad_row(4, "0a000000-0afffffe"), rekeyed("'0a000000-0afffffe'")),
    (
        "an inetnum inside",
        WHOLE_AND_ONE,
        added(4, "0a010000-0a01ffff", "ROOT-MNT", "inetnum:        10.1.0.0/16"),
    ),
    (
        "an inetnum that crosses",
        CROSSING,
        added(4, "09ff0000-0a00ffff", "ROOT-MNT", "inetnum:        9.255.0.0 - 10.0.255.255"),
    ),
    (
        "a maintainer who is not there",
        unnamed(4, "0a010000-0a01ffff"),
        added(4, "0a010000-0a01ffff", "GONE-MNT", "inetnum:        10.1.0.0/16"),
    ),
    (
        "another source in one object",
        of_another(4, "0a000000-0affffff"),
        (
            "UPDATE object SET body = CAST(replace(CAST(body AS TEXT), 'TEST', 'REST') AS BLOB)"
            " WHERE TEN"
        ),
    ),
    (
        "another source in half of all objects",
        of_another(2, "00000000-0000ffff"),
        (
            added(4, "0a010000-0a01ffff", "ROOT-MNT", "inetnum:        10.1.0.0/16")
            + " UPDATE object SET body = CAST(replace(CAST(body AS TEXT), 'TEST', 'REST') AS BLOB)"
            " WHERE class = 2 OR TEN"
        ),
    ),
    (
        "another source in all but a row without an object",
        OTHER_SOURCE,
        (
            "UPDATE object SET body = CAST(replace(CAST(body AS TEXT), 'TEST', 'REST') AS BLOB);"
            " UPDATE object SET body = x'00' WHERE TEN"
        ),
    ),
    (
        "another source in one object, before a row without one",
        bad_row(4, "0a000000-0affffff"),
        (
            "UPDATE object SET body = CAST(replace(CAST(body AS TEXT), 'TEST', 'REST') AS BLOB)"
            " WHERE class = 1; UPDATE object SET body = x'00' WHERE TEN"
        ),
    ),
    (
        "another source in all",
        OTHER_SOURCE,
        "UPDATE object SET body = CAST(replace(CAST(body AS TEXT), 'TEST', 'REST') AS BLOB)",
    ),
    (
        "a key that is no text",
        bad_row(4, "0a\\xFF\\xC3(\\xE2\\x82"),
        rekeyed("CAST(x'3061ffc328e282' AS TEXT)"),
    ),
    (
        "a key that turns the line round",
        bad_row(4, "\\u{202E}\\u{85}\\u{200B}\\u{2028}\\u{1B}[31m\\u{A}\\\\é"),
        rekeyed("char(8238, 133, 8203, 8232, 27) || '[31m' || char(10, 92, 233)"),
    ),
    (
        "a key of letters that are seen, and of others",
        bad_row(4, "Яß한ひ中\\u{AD}\\u{5D0}\\u{301}\\u{483}\\u{7F}"),
        rekeyed("'Яß한ひ中' || char(173, 1488, 769, 1155, 127)"),
    ),
    ("a key with a backslash", bad_row(4, "\\\\u{A}"), rekeyed("char(92) || 'u{A}'")),
    ("a key that is long", bad_row(4, "0" * 80 + ".."), rekeyed("hex(zeroblob(100000))")),
    ("a key of 80 characters", bad_row(4, "0" * 80), rekeyed("hex(zeroblob(40))")),
    ("no object, and names", no_object(1, "ROOT-MNT"), "DELETE FROM object"),
    ("a name without an object", no_object(4, "0a000000-0affffff"), "DELETE FROM object WHERE TEN"),
    (
        "version 1, and another setting",
        other_rows("meta"),
        "UPDATE meta SET value = '1'; INSERT INTO meta VALUES ('note', 'x')",
    ),
    (
        "keys of version 1",
        OLD_KEYS,
        (
            "UPDATE object SET okey = '0000-ffff' WHERE okey = '00000000-0000ffff';\n    UPDATE"
            " named SET okey = '0000-ffff' WHERE okey = '00000000-0000ffff'; DELETE FROM object"
            " WHERE okey = '00010000-ffffffff'; DELETE FROM named WHERE okey = '00010000-ffffffff'"
        ),
    ),
    (
        "keys of version 1, and a bad row",
        OLD_KEYS,
        (
            "UPDATE object SET okey = '0000-ffff' WHERE okey = '00000000-0000ffff';\n    DELETE"
            " FROM object WHERE okey = '00010000-ffffffff'; UPDATE object SET body = x'00'"
            " WHERE TEN"
        ),
    ),
    (
        "one key of version 1",
        bad_row(2, "0000-ffff"),
        "UPDATE object SET okey = '0000-ffff' WHERE okey = '00000000-0000ffff'",
    ),
    ("version 1, and keys of version 2", NEW_KEYS, "UPDATE meta SET value = '1'"),
    (
        "version 1, keys of version 2, and a bad row",
        NEW_KEYS,
        "UPDATE meta SET value = '1'; UPDATE object SET body = x'00' WHERE TEN",
    ),
    (
        "a trigger with the name of a table",
        UNREAD,
        "CREATE TRIGGER object AFTER INSERT ON named BEGIN SELECT 1; END",
    ),
    (
        "a trigger on a view",
        UNREAD,
        (
            "CREATE VIEW seen AS SELECT 1 AS one; CREATE TRIGGER noted INSTEAD OF INSERT ON seen"
            " BEGIN SELECT 1; END"
        ),
    ),
    ("a virtual table", UNREAD, "CREATE VIRTUAL TABLE words USING fts5 (text)"),
    ("auto_vacuum", UNREAD, "PRAGMA auto_vacuum = full; VACUUM"),
    (
        "no root",
        unnamed(2, "00000000-0000ffff"),
        "DELETE FROM object WHERE class = 1; DELETE FROM named WHERE class = 1",
    ),
]


def test_the_rows_are_what_the_pages_say_of_them(case: Commands) -> None:
    case.settings("irr.db")
    case.run("init", "s.toml").gives("a new registry", 0, "", "created 4 objects")
    case.run("submit", "s.toml", INETNUM).gives(
        "the inetnum of the examples", 0, "", REPORT.format("added")
    )
    for name, wanted, text in FOUND:
        case.check(name, ask(case, "irr.db", text).rstrip("\n") == wanted)
    refused = ask(case, "irr.db", "INSERT INTO object (class, okey, body) VALUES (8, 'X', x'00')")
    case.check("no class but the seven", "CHECK constraint failed" in refused)


def test_the_rows_follow_changes_and_deletions(case: Commands) -> None:
    begun(case)
    submission = "password: bc\n\ninetnum: 10.0.0.0 - 10.255.255.255\n"
    case.write("changed.rpsl", f"{submission}descr: again\nmnt-by: ROOT-MNT\nsource: TEST\n")
    case.run("submit", "s.toml", "changed.rpsl").gives(
        "the inetnum is changed", 0, "", REPORT.format("changed")
    )
    text = ask(case, "irr.db", "SELECT CAST(body AS TEXT) FROM object WHERE TEN").rstrip("\n")
    case.check("its new text", text == RANGE.replace("\nmnt-by", "\ndescr:          again\nmnt-by"))
    case.write("deleted.rpsl", f"{submission}mnt-by: ROOT-MNT\nsource: TEST\ndelete: no more\n")
    case.run("submit", "s.toml", "deleted.rpsl").gives(
        "the inetnum is deleted", 0, "", REPORT.format("deleted")
    )
    counts = ask(
        case, "irr.db", "SELECT (SELECT count(*) FROM object), (SELECT count(*) FROM named)"
    )
    case.check("its rows are gone", counts == "4|4")
    case.check("a sound file still", ask(case, "irr.db", "PRAGMA integrity_check") == "ok")
    made = ask(case, "irr.db", "CREATE TABLE note (text TEXT); INSERT INTO note VALUES ('kept')")
    case.check("another table", made == "")
    case.run("submit", "s.toml", INETNUM).gives(
        "the inetnum, beside another table", 0, "", REPORT.format("added")
    )
    case.check("the row of the other table", ask(case, "irr.db", "SELECT text FROM note") == "kept")


def test_rows_that_were_changed_are_reported(case: Commands) -> None:
    begun(case)
    case.settings("changed.db")
    for name, wanted, text in CHANGES:
        case.sh("rm -f changed.db changed.db-wal changed.db-shm; cp irr.db changed.db")
        ask(case, "changed.db", text)
        case.run("dump", "s.toml", "--full")
        if wanted.startswith("irrdesk: "):
            case.gives(name, 4, of("changed.db", wanted), "")
        else:
            case.gives(name, 0, "", wanted)

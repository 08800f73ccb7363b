"""Loads of dumps: how each ends, and what it leaves."""

from checks.command_line.given import FULL, sets
from checks.commands import (
    ADDRESSES,
    BLOCK,
    NO_FILE,
    NO_SETTINGS,
    OWNED,
    ROOT,
    TEN,
    UNREAD,
    Commands,
    of,
)


def refuses(case: Commands, name: str, place: str, fault: str) -> None:
    """Loads bad.rpsl, in which the paragraph at the place has the fault."""
    case.run("load", "s.toml", "bad.rpsl").gives(
        name, 5, f"irrdesk: bad.rpsl{place}: nothing is loaded, because paragraph {fault}", ""
    )


def dumped(case: Commands) -> None:
    """None, beside a public dump of that and a full one."""
    sets(case)
    case.run("dump", "s.toml", to="public.rpsl")
    case.run("dump", "s.toml", "--full", to="full.rpsl")


def test_loads_are_whole_or_reported(case: Commands) -> None:
    dumped(case)
    case.fresh("new.db")
    case.run("load", "none.toml", "full.rpsl").gives(
        "a load with settings that are missing",
        3,
        NO_SETTINGS,
        "",
    )
    case.settings("none/new.db")
    case.run("load", "s.toml", "none.rpsl").gives(
        "a load into no folder, before its file",
        4,
        "irrdesk: none/new.db: the folder of the database is missing: make it, or correct `store`",
        "",
    )
    case.write("text.db", "some words that are no database\n")
    case.settings("text.db")
    case.run("load", "s.toml", "full.rpsl").gives(
        "a load into a file that is no database",
        4,
        of("text.db", UNREAD),
        "",
    )
    case.settings("new.db")
    case.run("load", "s.toml", "none.rpsl").gives(
        "a dump that is missing",
        5,
        NO_FILE,
        "",
    )
    case.run("load", "s.toml", ".").gives(
        "a dump that is a folder",
        5,
        (
            "irrdesk: .: the dump could not be read to its end, and nothing is loaded: it is a"
            " folder: name a file"
        ),
        "",
    )
    case.write("bad.rpsl", case.read("public.rpsl"))
    refuses(
        case,
        "a dump that is not full",
        ", line 1, mntner ROOT-MNT",
        (
            "1 is not an object: E05, an attribute has a bad value, as `auth` in a dump that is not"
            " full, or is `password` or `delete`, which no dump has: load a full one, or mend it"
        ),
    )
    case.write("bad.rpsl", f"{ROOT}password: bc\n")
    refuses(
        case,
        "a dump with a password",
        ", line 1, mntner ROOT-MNT",
        (
            "1 is not an object: E05, an attribute has a bad value, as `auth` in a dump that is not"
            " full, or is `password` or `delete`, which no dump has: load a full one, or mend it"
        ),
    )
    case.write("bad.rpsl", f"{ROOT}delete: x\n")
    refuses(
        case,
        "a dump with a deletion",
        ", line 1, mntner ROOT-MNT",
        (
            "1 is not an object: E05, an attribute has a bad value, as `auth` in a dump that is not"
            " full, or is `password` or `delete`, which no dump has: load a full one, or mend it"
        ),
    )
    case.write("bad.rpsl", FULL * 2)
    refuses(
        case,
        "a dump twice over",
        f", line {FULL.count(chr(10)) + 1}, mntner ROOT-MNT",
        "8 has the key of one before it: take one of the two out",
    )
    case.write("bad.rpsl", f"{BLOCK}\n")
    refuses(
        case,
        "a dump without a maintainer",
        ", line 1, as-block AS0 - AS65535",
        "1 names a maintainer who is not in the dump: add its mntner, or take the name out",
    )
    name = "bad\x85.rpsl"
    case.write(name, f"{BLOCK}\n")
    case.run("load", "s.toml", name).gives(
        "a dump whose name may not be seen",
        5,
        (
            "irrdesk: bad\\u{85}.rpsl, line 1, as-block AS0 - AS65535: nothing is loaded, because"
            " paragraph 1 names a maintainer who is not in the dump: add its mntner, or take the"
            " name out"
        ),
        "",
    )
    case.write(
        "bad.rpsl",
        (
            f"{ROOT}\n# a line that is skipped\n\n\n# and one before an inetnum\ninetnum: 9.0.0.0 -"
            f" 10.0.0.0\n{OWNED}\n\n{TEN}\n"
        ),
    )
    refuses(
        case,
        "a dump with spans that cross",
        ", line 14, inetnum 10.0.0.0 - 10.255.255.255",
        "3 has a range that overlaps one before it: mend one of the two",
    )
    case.write("bad.rpsl", f"{ROOT}\n\nperson: X\n")
    refuses(
        case,
        "a class that is unknown",
        ", line 7",
        "2 is not an object: E02, its class is unknown: take it out",
    )
    case.write("bad.rpsl", f"{ROOT}\ninetnum: 10.0.0.0/40\n{OWNED}\n")
    refuses(
        case, "a key that is bad", ", line 6", "2 is not an object: E03, its key is bad: mend it"
    )
    case.write("bad.rpsl", f"{ROOT}\nroute: 10.0.0.0/8\norigin: AS1\nsource: TEST\n")
    refuses(
        case,
        "an attribute that is missing",
        ", line 6, route 10.0.0.0/8 AS1",
        (
            "2 is not an object: E04, an attribute that it needs is missing, empty or repeated:"
            " mend it"
        ),
    )
    case.write("bad.rpsl", f"{ROOT}\naut-num: AS7\nmnt-by: ROOT-MNT\nsource: OTHER\n")
    refuses(
        case,
        "another source",
        ", line 6, aut-num AS7",
        "2 is not an object: E06, its `source` is not that of the settings: let both be the same",
    )
    case.write("bad.rpsl", f"{ROOT}\nno colon\n\nperson: X\n")
    refuses(
        case,
        "a line that is no attribute",
        ", line 6",
        "2 is not RPSL, or over 65536 bytes: mend it",
    )
    case.write("bad.rpsl", f"inetnum: 10.0.0.0/40\n{OWNED}\n\nno colon\n")
    refuses(
        case,
        "a bad key before a line that is no attribute",
        ", line 1",
        "1 is not an object: E03, its key is bad: mend it",
    )
    three = f"{ROOT}\n{BLOCK}\n\n{ADDRESSES}\n\n% end 3"
    case.write("bad.rpsl", f"{three}\nno colon\n")
    refuses(
        case,
        "a line that is no attribute behind three objects",
        ", line 15",
        "4 is not RPSL, or over 65536 bytes: mend it",
    )
    tables = case.sh("sqlite3 new.db 'SELECT count(*) FROM sqlite_schema'")
    case.check("dumps that are refused make no table", tables == "0")
    case.write("bad.rpsl", f"{three}\n")
    case.run("load", "s.toml", "bad.rpsl").gives(
        "a load where dumps were refused", 0, "", "loaded 3 objects"
    )
    case.fresh("new.db")
    case.write("bad.rpsl", f"{BLOCK}\n")
    ended = case.sh(
        'cat bad.rpsl | { set +e; "$program" load s.toml /dev/stdin >printed 2>reported; echo $?; }'
    )
    case.ended(int(ended), case.read("printed"), case.read("reported"))
    case.gives(
        "a dump in a pipe, which is not read twice",
        5,
        (
            "irrdesk: /dev/stdin: nothing is loaded, because paragraph 1 names a maintainer who is"
            " not in the dump: add its mntner, or take the name out"
        ),
        "",
    )
    case.run("load", "s.toml", "full.rpsl", to="/dev/full").gives(
        "a load that cannot be told",
        5,
        "irrdesk: standard output: the write failed: the disk is full: make room",
    )
    case.run("load", "s.toml", "full.rpsl").gives(
        "a load where it stands all the same",
        4,
        "irrdesk: new.db: the database has a registry already: take a new one",
        "",
    )
    case.run("load", "s.toml", "public.rpsl").gives(
        "a dump with a fault, before a registry that is there",
        5,
        (
            "irrdesk: public.rpsl, line 1, mntner ROOT-MNT: nothing is loaded, because paragraph 1"
            " is not an object: E05, an attribute has a bad value, as `auth` in a dump that is not"
            " full, or is `password` or `delete`, which no dump has: load a full one, or mend it"
        ),
        "",
    )
    case.run("dump", "s.toml", "--full").gives(
        "the dump of what was loaded", 0, "", FULL.rstrip(chr(10))
    )
    case.fresh("newer.db")
    case.run("load", "s.toml", "full.rpsl").gives("a load", 0, "", "loaded 7 objects")
    case.fresh("newer.db")
    case.write("empty.rpsl", "")
    case.run("load", "s.toml", "empty.rpsl").gives("a load of nothing", 0, "", "loaded 0 objects")

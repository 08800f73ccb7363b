"""Databases that cannot be used, or whose owner, limits or other processes stand in the way."""

import os
import re
import subprocess
import time
from collections.abc import Sequence
from typing import Any

import pytest

from checks.commands import (
    IN_USE,
    NO_DATABASE,
    NO_REGISTRY,
    OTHER_SOURCE,
    UNREAD,
    Commands,
    of,
    within,
)
from checks.databases.spoilt import LARGE, dumped
from checks.running import PATIENCE
from checks.serving import Listening, free_port

SECONDS = 20
MISSING = (
    "irrdesk: irr.db: there is no such database, but its write-ahead log or journal (`-wal`,"
    " `-journal`): put the database back, or move that elsewhere and restore a backup"
)
EMPTY = (
    "irrdesk: irr.db: it is empty, but not its write-ahead log or journal (`-wal`, `-journal`):"
    " move that elsewhere, and restore a backup"
)
DENIED = (
    "irrdesk: hidden.db: permission is denied for the database, its write-ahead log or its folder:"
    " let the user who runs irrdesk own and write them"
)
AS_NOBODY = ["setpriv", "--reuid=65534", "--regid=65534", "--clear-groups"]


def modes(case: Commands, name: str, wanted: str, store: str) -> None:
    """The permissions of a database, and of its log while a submission has it open."""
    waiting, log = case.folder / "waiting", case.folder / f"{store}-wal"
    waiting.unlink(missing_ok=True)
    os.mkfifo(waiting)
    running = subprocess.Popen(
        [case.program, "submit", "s.toml", "waiting"], cwd=case.folder, stdout=subprocess.DEVNULL
    )
    with open(waiting, "wb"):
        end = time.monotonic() + PATIENCE
        while not log.exists() and time.monotonic() < end:
            time.sleep(0.05)
        found = [f"{os.stat(path).st_mode & 0o777:o}" for path in (case.folder / store, log)]
    running.wait(PATIENCE)
    case.check(f"{name}: permissions {wanted}", " ".join(found) == wanted)


def as_other_files(case: Commands) -> None:
    """Files that the user of this run may not read."""
    case.sh("cp s.toml hidden.toml; chmod 000 hidden.toml")
    case.run("init", "hidden.toml").gives("settings that may not be read", 3, HIDDEN, "")
    case.settings("hidden.db")
    case.run("init", "s.toml")
    case.sh("chmod 000 hidden.db")
    case.run("query", "s.toml", "AS1").gives("a database that may not be read", 4, DENIED, "")


HIDDEN = (
    "irrdesk: hidden.toml: the settings cannot be read: permission is denied: ask for it, or take"
    " another file or port"
)


def as_nobody(case: Commands) -> None:
    """Files of root's that another user may not read."""
    case.sh('chmod 755 .; cp "$program" copied; install -m 600 s.toml hidden.toml')
    other: dict[str, Any] = {"before": AS_NOBODY, "program": "./copied"}
    case.run("init", "hidden.toml", **other).gives("settings that may not be read", 3, HIDDEN, "")
    case.settings("hidden.db")
    case.run("init", "s.toml")
    case.write("hidden.db-journal", "")
    for hidden in ["hidden.db", "hidden.db-wal", "hidden.db-journal"]:
        case.sh(
            "chmod 666 hidden.db hidden.db-wal hidden.db-journal; chmod 600 $hidden", hidden=hidden
        )
        case.run("query", "s.toml", "AS1", **other).gives(
            f"a database of which {hidden} may not be read", 4, DENIED, ""
        )
    # No database is made beside a log or journal that its maker may not use.
    for rest in ["wal", "journal"]:
        case.sh(
            "rm -f hidden.db*; : >hidden.db-$rest; chmod 600 hidden.db-$rest; chmod 777 .",
            rest=rest,
        )
        case.run("init", "s.toml", **other)
        case.sh("chmod 755 .")
        case.gives(f"a -{rest} that may not be read, without a database", 4, DENIED, "")
        case.check("none is made", "[ ! -e hidden.db ]")
    case.sh("rm -f hidden.db*")


def lines(first: int, end: int, word: str) -> str:
    """Those of the report on LARGE."""
    return "".join(
        f"{number + 1} inetnum 10.{number}.0.0 - 10.{number}.255.255: {word}\n"
        for number in range(first, end)
    )


def within_each(case: Commands, option: str, limits: Sequence[int], *words: str) -> None:
    """The program within each of these limits of `ulimit`: it ends by itself, with a line at a
    status above 1, and at the last limit it is done."""
    wrong = []
    for limit in limits:
        case.run(*words, preexec=within(option, limit))
        count = case.reported.count("\n")
        is_good = case.status in (0, 1) and not count or case.status in (3, 4, 5) and count == 1
        if not is_good or "does not say why" in case.reported:
            wrong.append((limit, case.status, case.reported))
    case.check(
        f"{' '.join(words)} within ulimit {option} {limits[-1]} and less",
        not wrong and case.status == 0,
    )


def test_a_database_that_cannot_be_used_is_reported(case: Commands) -> None:
    case.settings("none/irr.db")
    case.run("init", "s.toml").gives(
        "a database in no folder",
        4,
        "irrdesk: none/irr.db: the folder of the database is missing: make it, or correct `store`",
        "",
    )
    case.settings("no\u202ene/irr.db")
    case.run("init", "s.toml").gives(
        "a database whose name may not be seen",
        4,
        (
            "irrdesk: no\\u{202E}ne/irr.db: the folder of the database is missing: make it, or"
            " correct `store`"
        ),
        "",
    )
    case.settings(":memory:")
    case.run("init", "s.toml").gives(
        "a database in memory",
        4,
        (
            "irrdesk: :memory:: the database cannot be opened or made: look at its folder, its"
            " links, its permissions and the limit on open files"
        ),
        "",
    )
    case.settings("text.db")
    case.write("text.db", "some words that are no database\n")
    case.run("init", "s.toml").gives(
        "a file that is no database",
        4,
        of("text.db", UNREAD),
        "",
    )
    case.settings("irr.db")
    case.run("submit", "s.toml", "added.rpsl").gives(
        "a database that is missing",
        4,
        of("irr.db", NO_DATABASE),
        "",
    )
    case.write("irr.db", "")
    case.run("submit", "s.toml", "added.rpsl").gives(
        "a database without a registry",
        4,
        of("irr.db", NO_REGISTRY),
        "",
    )
    case.check("it stays empty, and has no log", "[ ! -s irr.db ] && [ ! -e irr.db-wal ]")
    # A log that has a commit is not touched, by whatever command, nor is a journal that is to be
    # applied.
    case.write("with", "x" * 8_192)
    for rest in ["irr.db-wal", "irr.db-journal"]:
        case.write(rest, "x" * 8_192)
        for words in [
            "init s.toml",
            "load s.toml added.rpsl",
            "submit s.toml added.rpsl",
            "query s.toml AS1",
            "dump s.toml",
            "migrate s.toml",
            "probe s.toml",
        ]:
            case.write("irr.db", "")
            case.run(*words.split()).gives(f"{words}: an empty database with {rest}", 4, EMPTY, "")
            case.sh("rm irr.db")
            case.run(*words.split()).gives(f"{words}: {rest} without its database", 4, MISSING, "")
            case.check("it stays", "[ ! -e irr.db ] && cmp -s with $rest", rest=rest)
        case.sh("rm -f irr.db*")
        # Where a link leads to an empty database or to none, they lie beside that.
        case.sh(
            """mkdir far near
: >far/irr.db
cp with far/$rest
ln -s ../far/irr.db near/on
ln -s near/on irr.db""",
            rest=rest,
        )
        case.run("init", "s.toml").gives(f"a link to an empty database with {rest}", 4, EMPTY, "")
        case.check("it stays", "[ ! -s far/irr.db ] && cmp -s with far/$rest", rest=rest)
        case.sh("rm far/irr.db")
        for words in ["init s.toml", "query s.toml AS1"]:
            case.run(*words.split()).gives(
                f"{words}: a link to no database with {rest}", 4, MISSING, ""
            )
            case.check("it stays", "[ ! -e far/irr.db ] && cmp -s with far/$rest", rest=rest)
        case.sh("rm -r far near irr.db")
        # What is no file there lets no database be made.
        for kind in ["folder", "pipe", "link"]:
            case.sh(
                {"folder": "mkdir $rest", "pipe": "mkfifo $rest", "link": "ln -s nowhere $rest"}[
                    kind
                ],
                rest=rest,
            )
            case.run("init", "s.toml").gives(
                f"a {kind} in the place of {rest}, without a database", 4, MISSING, ""
            )
            case.check("none is made", "[ ! -e irr.db ]")
            case.write("irr.db", "")
            case.run("init", "s.toml").gives(
                f"a {kind} in the place of {rest}, with an empty database", 4, EMPTY, ""
            )
            case.sh("rm -r irr.db $rest", rest=rest)
    case.run("init", "s.toml").gives("a new registry", 0, "", "created 4 objects")
    case.run("init", "s.toml").gives(
        "a registry that is there",
        4,
        "irrdesk: irr.db: the database has a registry already: take a new one",
        "",
    )
    case.settings("irr.db", 'source = "OTHER"')
    case.run("submit", "s.toml", "added.rpsl").gives(
        "a registry of another source",
        4,
        of("irr.db", OTHER_SOURCE),
        "",
    )
    case.settings("a\\u0000b")
    case.run("init", "s.toml").gives(
        "a database whose name has a zero byte",
        4,
        (
            "irrdesk: a\\u{0}b: the database cannot be opened or made: no file has such a name:"
            " correct the path"
        ),
        "",
    )
    case.settings("full.db")
    case.run("init", "s.toml", to="/dev/full").gives(
        "a new registry that cannot be told",
        5,
        "irrdesk: standard output: the write failed: the disk is full: make room",
    )
    case.run("init", "s.toml").gives(
        "a new registry where it stands all the same",
        4,
        "irrdesk: full.db: the database has a registry already: take a new one",
        "",
    )


def test_what_is_made_is_its_owners_alone(case: Commands) -> None:
    """What is made is readable by its owner alone, whatever the umask; an older database keeps its
    permissions."""
    dumped(case)
    old = os.umask(0)
    case.fresh("open.db")
    case.run("init", "s.toml").gives(
        "a registry that is made without a umask", 0, "", "created 4 objects"
    )
    modes(case, "it is readable by its owner alone, as its log", "600 600", "open.db")
    os.chmod(case.folder / "open.db", 0o640)
    modes(
        case,
        "a database that others may read stays so, and its log is not widened",
        "640 600",
        "open.db",
    )
    case.fresh("open.db")
    case.run("load", "s.toml", "full.rpsl").gives(
        "a load without a umask", 0, "", "loaded 7 objects"
    )
    modes(case, "what was loaded is readable by its owner alone", "600 600", "open.db")
    os.umask(old)


def test_files_limits_and_other_processes_are_reported(case: Commands) -> None:
    dumped(case)
    case.fresh("limits.db")
    case.run("init", "s.toml/none").gives(
        "settings below a file",
        3,
        (
            "irrdesk: s.toml/none: the settings cannot be read: a part of the path is not a folder:"
            " correct the path"
        ),
        "",
    )
    case.sh("ln -s loop loop")
    case.run("init", "loop").gives(
        "settings that are a link to itself",
        3,
        (
            "irrdesk: loop: the settings cannot be read: the path leads through too many links:"
            " correct the path"
        ),
        "",
    )
    case.run("init", "0" * 300).gives(
        "settings whose name is too long",
        3,
        f"irrdesk: {'0' * 300}: the settings cannot be read: the name is too long: shorten it",
        "",
    )
    case.write("long.toml", "#" * 1_048_577)
    case.run("init", "long.toml").gives(
        "settings that are too long",
        3,
        "irrdesk: long.toml: the settings are longer than 1048576 bytes: shorten them",
        "",
    )
    if os.getuid():
        as_other_files(case)
    elif case.holds(f"{' '.join(AS_NOBODY)} true"):
        as_nobody(case)
    else:
        with case.each("settings that may not be read"):
            pytest.skip("setpriv does not work here")
    case.settings("limits.db")
    case.run("init", "s.toml").gives("a registry for limits", 0, "", "created 4 objects")
    case.write("large.rpsl", LARGE)
    case.run("submit", "s.toml", "large.rpsl", preexec=within("-f", 500))
    stopped = re.search(r"^% stopped after (\d+) items$", case.printed, re.M)
    items = int(stopped[1]) if stopped else 0
    report = lines(0, items, "added") + lines(items, items + 1, "refused E91")
    case.gives(
        "a file that may not grow",
        4,
        (
            "irrdesk: limits.db: the database failed, so submit the whole text again: the disk"
            " cannot be read or written: look at its health, and keep a copy of the database;"
            f" items decided before that: {items}"
        ),
        f"{report}% stopped after {items} items",
    )
    report = lines(0, items, "unchanged") + lines(items, 10, "added")
    case.run("submit", "s.toml", "large.rpsl").gives(
        "the same text once it may grow", 0, "", f"{report}% items 10"
    )
    case.run("--help", to="small", preexec=within("-f", 1))
    case.gives(
        "help in a file that may not grow",
        5,
        (
            "irrdesk: standard output: the write failed: no file may grow so large: raise the"
            " limit, as `ulimit -f` shows it"
        ),
    )
    case.sh("cp irr.db rule.db")
    case.settings("rule.db")
    case.sh(
        """sqlite3 rule.db 'CREATE UNIQUE INDEX one_name ON named (class, okey)'
    """
    )
    case.write(
        "rule.rpsl",
        "password: bc\n\nmntner: NEW-MNT\nauth: NONE\nmnt-by: NEW-MNT, ROOT-MNT\nsource: TEST\n",
    )
    case.run("submit", "s.toml", "rule.rpsl").gives(
        "a row that an index of another program refuses",
        4,
        (
            "irrdesk: rule.db: the database failed, so submit the whole text again: a rule that was"
            " added to the tables forbids the change: take the rule out; items decided before"
            " that: 0"
        ),
        "1 mntner NEW-MNT: refused E91\n% stopped after 0 items",
    )
    case.settings("tables.db")
    case.sh("sqlite3 tables.db 'CREATE TABLE note (text TEXT)'")
    case.run("init", "s.toml").gives(
        "a registry among other tables",
        4,
        (
            "irrdesk: tables.db: the database has other tables, or refuses those of a registry:"
            " take a new one"
        ),
        "",
    )
    case.run("load", "s.toml", "full.rpsl").gives(
        "a load among other tables",
        4,
        (
            "irrdesk: tables.db: the database has other tables, or refuses those of a registry:"
            " take a new one"
        ),
        "",
    )
    # A submission from a pipe that nobody writes to holds its database, and a socket of Python's
    # its port.
    case.settings("irr.db")
    os.mkfifo(case.folder / "held")
    holder = subprocess.Popen(
        [case.program, "submit", "s.toml", "held"], cwd=case.folder, stdout=subprocess.DEVNULL
    )
    held = open(case.folder / "held", "wb")
    case.run("query", "s.toml", "AS1").gives(
        "a database that another process has open",
        4,
        of("irr.db", IN_USE),
        "",
    )
    case.run("init", "s.toml").gives(
        "a new registry where another process has one open",
        4,
        of("irr.db", IN_USE),
        "",
    )
    held.close()
    holder.wait(PATIENCE)
    with Listening() as port:
        case.run("serve", "s.toml", "--port", str(port), "--count", "1").gives(
            "a port that is taken",
            5,
            (
                f"irrdesk: 127.0.0.1:{port}: it cannot listen: the address is in use: end what"
                " has it, or take another port"
            ),
            "",
        )
    case.settings("limits.db")
    case.run("init", "/proc/self/mem").gives(
        "settings that the system cannot read",
        3,
        (
            "irrdesk: /proc/self/mem: the settings cannot be read: input/output error: look at the"
            " disk, or take another file (system error 5)"
        ),
        "",
    )
    long = "x" * 300 + ".db"
    case.settings(long)
    case.run("init", "s.toml").gives(
        "a database whose name is too long",
        4,
        f"irrdesk: {long}: the database cannot be opened or made: the name is too long: shorten it",
        "",
    )
    case.sh('cp "$program" running')
    case.settings("running")
    case.run("init", "s.toml", program="./running")
    case.gives(
        "a database that is a program that runs",
        4,
        (
            "irrdesk: running: the database cannot be opened or made: another program uses it: end"
            " that, or try again later"
        ),
        "",
    )
    case.settings("limits.db")
    case.run("query", "s.toml", "AS1", preexec=within("-n", 4))
    case.gives(
        "a database within few open files",
        4,
        (
            "irrdesk: limits.db: the database cannot be opened or made: look at its folder, its"
            " links, its permissions and the limit on open files"
        ),
        "",
    )
    within_each(case, "-n", range(4, 17), "probe", "s.toml")
    # A server that has as many open files as it needs to listen, and no more, serves nothing.
    port = free_port()
    for number in range(4, 33):
        if case.run(
            "serve", "s.toml", "--port", str(port), "--count", "2", preexec=within("-n", number)
        ).printed:
            break
    case.gives(
        "a server without a file for a connection",
        5,
        (
            f"irrdesk: 127.0.0.1:{port}: no connection could be accepted: the program has too many"
            " open files: raise the limit, as `ulimit -n` shows it (system error 24)"
        ),
        f"listening on 127.0.0.1:{port}\nserved 0, failed 2",
    )
    within_each(case, "-n", range(4, 17), "submit", "s.toml", "large.rpsl")

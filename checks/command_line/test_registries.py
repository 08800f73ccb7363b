"""Submissions, queries and dumps: how each command ends, and what it prints."""

from checks.command_line.given import FULL, added, fresh, sets
from checks.commands import (
    ADDRESSES,
    AUTH_LINE,
    BLOCK,
    NO_DATABASE,
    NO_FILE,
    NO_SETTINGS,
    OTHERS,
    OWNED,
    TEN,
    Commands,
    of,
)
from checks.running import needs


def test_submissions_are_reported_with_their_faults(case: Commands) -> None:
    fresh(case)
    case.run("submit", "s.toml", "none.rpsl").gives(
        "a file that is missing",
        5,
        NO_FILE,
        "",
    )
    case.run("submit", "none.toml", "none.rpsl").gives(
        "settings that are missing, before a file",
        3,
        NO_SETTINGS,
        "",
    )
    case.settings("missing.db")
    case.run("submit", "s.toml", "none.rpsl").gives(
        "a database that is missing, before a file",
        4,
        of("missing.db", NO_DATABASE),
        "",
    )
    case.settings("irr.db")
    case.run("submit", "s.toml", ".").gives(
        "a file that is a folder",
        5,
        (
            "irrdesk: .: the submission could not be read to its end, so submit the whole text"
            " again: it is a folder: name a file; items decided before that: 0"
        ),
        "% read fault after 0 items",
    )
    case.run("submit", "s.toml", "/proc/self/mem").gives(
        "a file that the system does not give",
        5,
        (
            "irrdesk: /proc/self/mem: the submission could not be read to its end, so submit the"
            " whole text again: input/output error: look at the disk, or take another file (system"
            " error 5); items decided before that: 0"
        ),
        "% read fault after 0 items",
    )
    case.run("submit", "s.toml", "/dev/zero").gives(
        "a file without end",
        5,
        (
            "irrdesk: /dev/zero: the submission could not be read to its end, so submit the whole"
            " text again: it has no end within 16777216 reads: name a whole file; items decided"
            " before that: 0"
        ),
        "% read fault after 0 items",
    )
    case.run("submit", "s.toml", ".", to="/dev/full").begins(
        "a folder, and a report that cannot be written",
        5,
        (
            "irrdesk: .: the submission could not be read to its end, so submit the whole text"
            " again: it is a folder: name a file; "
        ),
    )
    case.run("submit", "s.toml", "refused.rpsl").gives(
        "a file whose item is refused",
        1,
        "",
        "1 inetnum 10.0.0.0 - 10.255.255.255: refused E11\n% items 1",
    )
    case.run("submit", "s.toml", "added.rpsl").gives(
        "a file whose item is added", 0, "", "1 inetnum 10.0.0.0 - 10.255.255.255: added\n% items 1"
    )
    case.run("submit", "s.toml", "added.rpsl").gives(
        "the same file again", 0, "", "1 inetnum 10.0.0.0 - 10.255.255.255: unchanged\n% items 1"
    )
    case.write("blanks.rpsl", case.read("refused.rpsl"))
    case.write(" blanks.rpsl ", case.read("added.rpsl"))
    case.run("submit", "s.toml", " blanks.rpsl ").gives(
        "a file whose name has a blank at either end, beside one without",
        0,
        "",
        "1 inetnum 10.0.0.0 - 10.255.255.255: unchanged\n% items 1",
    )
    case.run("submit", "s.toml", "added.rpsl", to="/dev/full").gives(
        "a report on a file that cannot be written",
        5,
        (
            "irrdesk: standard output: the report could not be written, so submit the whole text"
            " again: the disk is full: make room; items decided before that: 1"
        ),
    )


@needs("strace")
def test_a_file_is_opened_once(case: Commands) -> None:
    """The writer of a pipe may be gone at a second time."""
    sets(case)
    case.run("dump", "s.toml", "--full", to="full.rpsl")
    for command, name in [("submit", "added.rpsl"), ("load", "full.rpsl")]:
        if command == "load":
            case.fresh("new.db")
        case.run(command, "s.toml", name, before=["strace", "-qqfe", "/open", "-o", "calls"])
        case.check(f"{command} is done", case.status == 0)
        case.check(f"{command} opens its file once", case.read("calls").count(f'"{name}"') == 1)


def test_queries_are_answered_and_faults_reported(case: Commands) -> None:
    added(case)
    case.run("query", "none.toml", "AS1").gives(
        "a query with settings that are missing",
        3,
        NO_SETTINGS,
        "",
    )
    case.run("query", "s.toml").gives(
        "a query of no words",
        2,
        (
            "irrdesk: the following required arguments were not provided: <WORD>...; usage: irrdesk"
            " query <SETTINGS> <WORD>...: `irrdesk help` lists the commands"
        ),
        "",
    )
    case.run("query", "s.toml", "10.1.2.3").gives("a query of one word", 0, "", TEN)
    case.run("query", "s.toml", "EXACT", " 10.0.0.0/8 ").gives(
        "a query of two words, with blanks", 0, "", TEN
    )
    case.run("query", "s.toml", "exact", "11.0.0.0/8").gives(
        "a query to which nothing answers", 0, "", "% no entries"
    )
    case.run("query", "s.toml", "inverse", "mnt", "ROOT-MNT").gives(
        "a query for what names a maintainer, without secrets",
        0,
        "",
        (
            "mntner:         ROOT-MNT\nauth:           #"
            f" filtered\n{OWNED}\n\n{BLOCK}\n\n{OTHERS}\n\n{ADDRESSES}\n\n{TEN}"
        ),
    )
    case.run("query", "s.toml", "exact", "10.0.0.0/33").gives(
        "a query that is none", 1, "", "% error 1"
    )
    case.run("query", "s.toml", "").gives("an empty query", 1, "", "% error 1")
    case.run("query", "s.toml", "--help").gives(
        "a query that begins with a dash", 1, "", "% error 1"
    )
    case.run("query", "s.toml", *[""] * 1_000, "ROOT-MNT").gives(
        "a query of 1001 words, the last of which alone is not empty",
        0,
        "",
        f"mntner:         ROOT-MNT\nauth:           # filtered\n{OWNED}",
    )
    case.run("query", "s.toml", "ROOT-MNT" + " " * 1_016).gives(
        "a query of 1024 bytes",
        0,
        "",
        f"mntner:         ROOT-MNT\nauth:           # filtered\n{OWNED}",
    )
    case.run("query", "s.toml", "ROOT-MNT" + " " * 1_017).gives(
        "a query of 1025 bytes", 1, "", "% error 2"
    )
    case.run("submit", "s.toml", "sets.rpsl").gives(
        "sets", 0, "", "1 as-set AS-A: added\n2 as-set AS-A:AS-B: added\n% items 2"
    )
    case.run("query", "s.toml", "expand", "as-a").gives(
        "the members of a set", 0, "", "AS1\nAS2\n% missing AS-NONE"
    )
    case.settings("irr.db", "limit = 2")
    case.run("query", "s.toml", "expand", "as-a").gives("a set over the limit", 1, "", "% error 3")
    case.settings("irr.db")
    case.run("query", "s.toml", "AS1", to="/dev/full").gives(
        "an answer that cannot be written",
        5,
        "irrdesk: standard output: the write failed: the disk is full: make room",
    )
    case.settings("missing.db")
    case.run("query", "s.toml", "AS1").gives(
        "a query of a database that is missing",
        4,
        of("missing.db", NO_DATABASE),
        "",
    )
    case.settings(".")
    case.run("query", "s.toml", "AS1").gives(
        "a database that is a folder",
        4,
        "irrdesk: .: the database cannot be opened or made: it is a folder: name a file",
        "",
    )
    case.settings("irr.db")


def test_dumps_are_whole_or_reported(case: Commands) -> None:
    sets(case)
    case.run("dump", "s.toml", to="public.rpsl").gives("a dump", 0, "")
    case.check(
        "a dump has no secrets",
        case.read("public.rpsl") == FULL.replace(AUTH_LINE, "auth:           # filtered"),
    )
    case.run("dump", "s.toml", "--full", to="full.rpsl").gives("a full dump", 0, "")
    case.check("a full dump has all", case.read("full.rpsl") == FULL)
    case.run("dump", "s.toml", "full").gives(
        "a dump with an argument too many",
        2,
        (
            "irrdesk: unexpected argument 'full' found; usage: irrdesk dump [OPTIONS] <SETTINGS>:"
            " `irrdesk help` lists the commands"
        ),
        "",
    )
    ended = case.sh(
        '{ set +e; "$program" dump s.toml 2>reported; echo $? >ended; } | sleep 0; cat ended'
    )
    case.ended(int(ended), "", case.read("reported"))
    if case.status:
        case.gives(
            "a dump whose reader has ended",
            5,
            (
                "irrdesk: standard output: the dump is not whole, so dump again: its reader has"
                " ended: let it read to the end"
            ),
        )
    else:
        case.gives("a dump that fits into the pipe", 0, "")
    case.run("dump", "s.toml", to="/proc/self/oom_score_adj").gives(
        "a dump to a file that takes none",
        5,
        (
            "irrdesk: standard output: the dump is not whole, so dump again: the system does not do"
            " that with it: take another file (system error 22)"
        ),
    )
    case.run("dump", "s.toml", to="/dev/full").gives(
        "a dump that cannot be written",
        5,
        (
            "irrdesk: standard output: the dump is not whole, so dump again: the disk is full: make"
            " room"
        ),
    )
    case.settings("missing.db")
    case.run("dump", "s.toml").gives(
        "a dump of a database that is missing",
        4,
        of("missing.db", NO_DATABASE),
        "",
    )

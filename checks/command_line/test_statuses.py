"""Arguments, settings, streams and help: how each command ends."""

import contextlib
import re
import socket
from pathlib import Path

from checks.command_line.given import added, fresh
from checks.commands import NO_SETTINGS, Commands
from checks.running import TOP

# Keys of settings, and lines of theirs that are bad.
SPOILT = [
    ("source", "source = 7"),
    ("source", 'source = "T-"'),
    ("root", 'root = "AS-X"'),
    ("auth", 'auth = "SHA256-PW a:ba78"'),
    ("auth", 'auth = "CRYPT-PW x"'),
    ("limit", "limit = 1000001"),
    ("limit", "limit = -1"),
    ("limit", "limit = 100.0"),
    ("limit", 'limit = "100"'),
    ("store", "store = true"),
]


def version() -> str:
    text = Path(TOP, "crates/rr_arguments/src/grammar.rt").read_text(encoding="utf-8")
    return re.search(r'^const VERSION: &str = "(.*)";', text, re.M)[1]


def without(case: Commands, key: str) -> None:
    """The settings in s.toml lose the line of this key."""
    case.settings("irr.db")
    lines = case.read("s.toml").splitlines(keepends=True)
    case.write("s.toml", "".join(line for line in lines if not line.startswith(f"{key} ")))


def test_objects_are_read_from_standard_input_without_arguments(case: Commands) -> None:
    case.run(given="added.rpsl").gives(
        "an item that is added", 0, "", "1 inetnum 10.0.0.0 - 10.255.255.255: added\n% items 1"
    )
    case.run(given="refused.rpsl").gives(
        "an item that is refused",
        1,
        "",
        "1 inetnum 10.0.0.0 - 10.255.255.255: refused E11\n% items 1",
    )
    case.run(given=".").gives(
        "input that cannot be read",
        5,
        (
            "irrdesk: standard input: the submission could not be read to its end, so submit the"
            " whole text again: it is a folder: name a file; items decided before that: 0"
        ),
        "% read fault after 0 items",
    )
    case.run(closed=(0,)).gives(
        "input that is closed",
        5,
        (
            "irrdesk: standard input: the submission could not be read to its end, so submit the"
            " whole text again: it is closed: leave it open (system error 9); items decided before"
            " that: 0"
        ),
        "% read fault after 0 items",
    )
    case.run(given="/proc/self/mem").gives(
        "input that the system does not give",
        5,
        (
            "irrdesk: standard input: the submission could not be read to its end, so submit the"
            " whole text again: input/output error: look at the disk, or take another file (system"
            " error 5); items decided before that: 0"
        ),
        "% read fault after 0 items",
    )
    case.run(given="added.rpsl", to="/dev/full").gives(
        "a report that cannot be written",
        5,
        (
            "irrdesk: standard output: the report could not be written, so submit the whole text"
            " again: the disk is full: make room; items decided before that: 1"
        ),
    )


def test_wrong_arguments_are_reported_with_their_usage(case: Commands) -> None:
    case.run("start").gives(
        "an unknown command",
        2,
        (
            "irrdesk: unrecognized subcommand 'start'; usage: irrdesk <COMMAND>: `irrdesk help`"
            " lists the commands"
        ),
        "",
    )
    case.run("sumbit").gives(
        "a command that is like one",
        2,
        (
            "irrdesk: unrecognized subcommand 'sumbit'; tip: a similar subcommand exists: 'submit';"
            " usage: irrdesk <COMMAND>: `irrdesk help` lists the commands"
        ),
        "",
    )
    case.run("serve", "s.toml", "--prot", "4343", "--count", "1").gives(
        "an option that is like one",
        2,
        (
            "irrdesk: unexpected argument '--prot' found; tip: a similar argument exists: '--port';"
            " usage: irrdesk serve --port <PORT> --count <N> <SETTINGS>: `irrdesk help` lists the"
            " commands"
        ),
        "",
    )
    case.run("help", "sumbit").gives(
        "help on a command that is like one",
        2,
        (
            "irrdesk: unrecognized subcommand 'sumbit'; tip: a similar subcommand exists: 'submit';"
            " usage: irrdesk <COMMAND>: `irrdesk help` lists the commands"
        ),
        "",
    )
    case.run("serve", "s.toml", "--port", "1", "--count").gives(
        "an option without its value",
        2,
        (
            "irrdesk: a value is required for '--count <N>' but none was supplied; usage: irrdesk"
            " serve --port <PORT> --count <N> <SETTINGS>: `irrdesk help` lists the commands"
        ),
        "",
    )
    case.run("init", "s.toml", "--full").gives(
        "an option of another command",
        2,
        (
            "irrdesk: unexpected argument '--full' found; usage: irrdesk init <SETTINGS>: `irrdesk"
            " help` lists the commands"
        ),
        "",
    )
    case.run(b"\xff").gives(
        "an argument that is no text",
        2,
        "irrdesk: an argument is not UTF-8 text: write it as such",
        "",
    )
    case.run("init").gives(
        "an argument that is missing",
        2,
        (
            "irrdesk: the following required arguments were not provided: <SETTINGS>; usage:"
            " irrdesk init <SETTINGS>: `irrdesk help` lists the commands"
        ),
        "",
    )
    case.run("init", "a", "b").gives(
        "an argument too many",
        2,
        (
            "irrdesk: unexpected argument 'b' found; usage: irrdesk init <SETTINGS>: `irrdesk help`"
            " lists the commands"
        ),
        "",
    )
    case.run("st\nart\u202e\\n\u00e9").gives(
        "an argument that may not be seen",
        2,
        (
            "irrdesk: unrecognized subcommand 'st\\u{A}art\\u{202E}\\\\né'; usage: irrdesk"
            " <COMMAND>: `irrdesk help` lists the commands"
        ),
        "",
    )
    case.run("serve", "s.toml", "--port", "43\x1b4", "--count", "1").gives(
        "a port that may not be seen",
        2,
        "irrdesk: 43\\u{1B}4: a port is a number from 1 to 65535",
        "",
    )
    case.run("--help").gives("help", 0, "")
    case.run("--version").gives("the version", 0, "", f"irrdesk {version()}")
    for line in [
        "help start",
        "init",
        "init a.toml b.toml",
        "init --full a.toml",
        "submit a.toml",
        "query",
        "query a.toml",
        "query -x a.toml AS1",
        "dump",
        "dump a.toml --full --full",
        "dump a.toml full",
        "load a.toml",
        "migrate a.toml 2",
        "a.toml init",
        "serve a.toml",
        "serve a.toml --port 4343",
        "serve a.toml --port 0 --count 1",
        "serve a.toml --port 65536 --count 1",
        "serve a.toml --port +43 --count 1",
        "serve a.toml --port 4343 --count 0",
        "serve a.toml --port 4343 --count 1000001",
        "serve a.toml --port 4343 --count 1.5",
        "probe",
    ]:
        case.run(*line.split()).begins(f"the arguments {line}", 2, "irrdesk: ")


def test_settings_are_read_or_their_fault_is_reported(case: Commands) -> None:
    case.run("init", "none.toml").gives(
        "settings that are missing",
        3,
        NO_SETTINGS,
        "",
    )
    case.run("init", "no\x1b[31m\u202ene\\.toml").gives(
        "settings whose name may not be seen",
        3,
        (
            "irrdesk: no\\u{1B}[31m\\u{202E}ne\\\\.toml: the settings cannot be read: there is none"
            " of that name: correct the path"
        ),
        "",
    )
    case.run("init", "0" * 5_000).gives(
        "settings whose name is cut",
        3,
        f"irrdesk: {'0' * 4_096}..: the settings cannot be read: the name is too long: shorten it",
        "",
    )
    case.run("init", ".").gives(
        "settings that are a folder",
        3,
        "irrdesk: .: the settings cannot be read: it is a folder: name a file",
        "",
    )
    with contextlib.chdir(case.folder), socket.socket(socket.AF_UNIX) as bound:
        bound.bind("named")
    case.run("init", "named").gives(
        "settings that are a socket",
        3,
        "irrdesk: named: the settings cannot be read: system error 6",
        "",
    )
    case.write("s.toml", b"\xff")
    case.run("init", "s.toml").gives(
        "settings that are no text",
        3,
        "irrdesk: s.toml: the settings are not UTF-8 text: save them as such",
        "",
    )
    case.settings("irr.db", "auth = x")
    case.run("init", "s.toml").gives(
        "settings that are no TOML", 3, "irrdesk: s.toml: the settings are not TOML: see line 1", ""
    )
    case.write("s.toml", "# a comment\n" * 6 + "auth = x\n")
    case.run("init", "s.toml").gives(
        "settings that are no TOML further down",
        3,
        "irrdesk: s.toml: the settings are not TOML: see line 7",
        "",
    )
    case.settings("irr.db", "limit = 0")
    case.run("init", "s.toml").gives(
        "a setting out of its bounds",
        3,
        "irrdesk: s.toml: `limit` is missing or bad: it is a whole number from 1 to 1000000",
        "",
    )
    case.settings("")
    case.run("init", "s.toml").gives(
        "no path of a database",
        3,
        "irrdesk: s.toml: `store` is missing or bad: it is the path of the database",
        "",
    )
    for key in ["source", "root", "auth", "limit", "store"]:
        without(case, key)
        case.run("init", "s.toml").begins(
            f"no setting {key}", 3, f"irrdesk: s.toml: `{key}` is missing or bad: "
        )
    case.write("s.toml", "")
    case.run("init", "s.toml").begins(
        "no settings at all", 3, "irrdesk: s.toml: `source` is missing or bad: "
    )
    for key, line in SPOILT:
        case.settings("irr.db", line)
        case.run("init", "s.toml").begins(
            f"the setting {line}", 3, f"irrdesk: s.toml: `{key}` is missing or bad: "
        )


def test_a_closed_stream_is_no_empty_text(case: Commands) -> None:
    """What is named and stands for a standard stream that is closed is no empty text."""
    fresh(case)
    case.fresh("closed.db")
    for place in ["/dev/stdin", "/dev/fd/0"]:
        case.run("load", "s.toml", place, closed=(0,)).gives(
            f"a load of {place}, which is closed",
            5,
            (
                f"irrdesk: {place}: the dump could not be read to its end, and nothing is loaded:"
                " it is a folder: name a file"
            ),
            "",
        )
    case.run("load", "s.toml", "/dev/stderr", closed=(2,)).gives(
        "a load of standard error, which is closed", 5, "", ""
    )
    case.settings("irr.db")
    case.run("submit", "s.toml", "/dev/stdin", closed=(0,)).gives(
        "a submission of /dev/stdin, which is closed",
        5,
        (
            "irrdesk: /dev/stdin: the submission could not be read to its end, so submit the whole"
            " text again: it is a folder: name a file; items decided before that: 0"
        ),
        "% read fault after 0 items",
    )
    case.run("query", "s.toml", "AS1", closed=(1,)).gives(
        "an answer to a standard output that is closed",
        5,
        "irrdesk: standard output: the write failed: it is closed: leave it open (system error 9)",
    )


def test_a_terminal_shows_how_far_a_command_is(case: Commands) -> None:
    """How far a command is, which a terminal shows after a second, and nothing else. The terminal
    is one of script(1)."""
    added(case)
    case.settings("irr.db")
    case.sh(
        """mkfifo slow
        script -qec "'$program' submit s.toml slow >report" shown </dev/null >/dev/null &
        exec 8>slow
        cat added.rpsl >&8
        echo >&8
        sleep 1.2
        cat added.rpsl >&8
        exec 8>&-
        wait"""
    )
    shown = case.read("shown").replace("\n", "")
    case.check(
        "a long submission is shown on a terminal, and taken away",
        shown.count("2 items so far\r\x1b[K") == 1,
    )
    unchanged = "".join(
        f"{number} inetnum 10.0.0.0 - 10.255.255.255: unchanged\n" for number in (1, 2)
    )
    case.check("nothing of that is in the report", case.read("report") == f"{unchanged}% items 2\n")
    case.sh("""script -qec "'$program' >report" shown </dev/null >/dev/null""")
    line = "irrdesk: objects are read from this terminal: `irrdesk help` lists the commands"
    case.check(
        "a terminal is told what is read from it",
        line in case.read("shown").replace("\r", "").split("\n")
        and case.read("report") == "% items 0\n",
    )
    case.sh("""script -qec "'$program' <added.rpsl >report" shown </dev/null >/dev/null""")
    case.check(
        "it is told nothing where a file is read",
        "irrdesk" not in case.read("shown").replace(case.program, "")
        and case.read("report") == "1 inetnum 10.0.0.0 - 10.255.255.255: added\n% items 1\n",
    )


def test_help_is_the_same_both_ways_and_has_examples(case: Commands) -> None:
    case.run("help").gives("help as a command", 0, "")
    helped = case.printed
    for words in ["--help", "help --help", "help -h"]:
        case.check(f"it is that of {words}", case.run(*words.split()).printed == helped)
    for command in ["init", "submit", "query", "dump", "load", "migrate", "serve", "probe"]:
        helped = case.run(command, "--help").gives(f"help on {command}", 0, "").printed
        case.check(
            f"help {command} is {command} --help", case.run("help", command).printed == helped
        )
        case.check(
            f"help on {command} has an example",
            re.search(rf"irrdesk {command} (irr|new)\.toml", helped) is not None,
        )

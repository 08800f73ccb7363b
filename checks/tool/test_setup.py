"""A first registry, made by options and by questions, and gone on with where that was stopped."""

import os
import re
import shutil
import signal
import stat
import subprocess
import sys
from pathlib import Path

import pytest

from checks.keeping import wait_until
from checks.running import TOP, Ran, Trial, expect, write
from checks.worlds import Tool, expect_line

IN_MEMORY = True
AS_ROOT = pytest.mark.skipif(os.geteuid() != 0, reason="it takes root")
PASSWORD = re.compile(rb"[a-z2-7]{5}(?:-[a-z2-7]{5}){3}")
OWNER = 12_345
INETNUM = b"\ninetnum: 192.0.2.0/24\nmnt-by: ROOT-MNT\nsource: TEST\n"
# It notes what it is asked, and fails once for the unit whose name is in the file `fails`.
SYSTEMCTL = """#!/bin/sh
cd "$(dirname "$0")" && echo "$*" >>asked
[ "${3:-$2}" != "$(cat fails 2>/dev/null)" ] || { rm fails; echo 'Job failed.' >&2; exit 1; }
"""
# The program, but for one run of the command in the file `fails`, which ends before it or after it,
# or does it and then waits to be ended.
PROGRAM = """#!/bin/sh
here=$(dirname "$0")
if [ "$1" = "$(cat "$here/fails" 2>/dev/null)" ]; then
    how=$(cat "$here/how")
    rm "$here/fails"
    [ "$how" = before ] || {program} "$@" >/dev/null
    [ "$how" != interrupt ] || {{ >"$here/waits"; exec sleep 600; }}
    echo 'irrdesk: it fails here' >&2
    exit 4
fi
exec {program} "$@"
"""
# What systemctl is asked: the check is told of no timer before what it starts has run.
ASKED = [
    "enable --now irrdesk.service",
    "enable --now irrdesk-check.timer",
    "enable --now irrdesk-mirror.service",
    "enable --now irrdesk-door.socket",
    "enable --now irrdesk-door.service",
    "start irrdesk-backup.service",
    "enable --now irrdesk-backup.timer",
    "start irrdesk-history.service",
    "enable --now irrdesk-history.timer",
]
# What haproxy.cfg says with the file of those who may submit.
HAPROXY = """defaults
    mode http
    timeout connect 5s
    timeout client 5s
    timeout server 5s
frontend web
    bind 127.0.0.1:1
    acl may_submit src -f {}
    http-request deny unless may_submit
"""
WORDS = ["--source", "TEST", "--maintainer", "OPS-MNT", "--history", "--save", "root.password"]
WORDS += ["--maintainer-save", "ops.password"]


def registered(trial: Trial, settings: str, folder: str) -> bytes:
    ran = trial.run(folder, "dump", settings, "--full")
    expect((ran.status, ran.reported), (0, b""), "a dump of what was made")
    return ran.printed


def lets_sign(trial: Trial, settings: str, folder: str, password: bytes) -> None:
    """That a text with this password may add in the root's name."""
    path = write(folder, "text.rpsl", password + INETNUM)
    ran = trial.run(folder, "submit", settings, path)
    expect(b": added\n" in ran.printed, True, f"what the root signs: {ran.printed!r}")


def test_a_registry_in_a_folder_is_made_by_options(trial: Trial, tool: Tool) -> None:
    """That the settings are whole, the passwords in files for their owner alone, and that there is
    no second registry in the same place."""
    place = trial.place("by-options")
    words = ["setup", "--folder", "made", "--yes", "--source", "test", "--save", "root.password"]
    more = ["--maintainer", "ops-mnt", "--maintainer-save", "ops.password", "--limit", "5000"]
    ran = tool(*words, *more, "--door", folder=place)
    expect((ran.status, ran.reported), (0, b""), f"its end: {ran.printed!r}")
    folder, settings = Path(place, "made"), os.path.join(place, "made", "irr.toml")
    expect(stat.S_IMODE(folder.stat().st_mode), 0o700, "who may enter the folder")
    made = sorted(path.name for path in folder.iterdir())
    expect(made, ["door.toml", "irr.db", "irr.db-wal", "irr.toml"], "what is in it")
    dump = registered(trial, settings, place)
    for name in "root.password", "ops.password":
        saved = Path(place, name)
        expect(stat.S_IMODE(saved.stat().st_mode), 0o600, f"who reads {name}")
        expect(bool(PASSWORD.search(saved.read_bytes())), True, f"a password of 96 bits in {name}")
    expect(b"limit = 5000\n" in Path(settings).read_bytes(), True, "the limit")
    expect(dump.count(b"mntner:"), 2, "maintainers")
    lets_sign(trial, settings, place, Path(place, "root.password").read_bytes())
    ops = Path(place, "ops.password").read_bytes()
    path = write(place, "own.rpsl", ops + b"\nas-set: AS-OPS\nmnt-by: OPS-MNT\nsource: TEST\n")
    ran = trial.run(place, "submit", settings, path)
    expect(b"added" in ran.printed, True, f"what the first maintainer signs: {ran.printed!r}")
    dump = registered(trial, settings, place)
    again = [*words[:-1], "another.password"]
    named = f".*irr.db: a registry is here, and .*; to change this one, edit {settings}, .*--folder"
    expect_line(tool(*again, folder=place), 4, named, "a second one")
    # Before there is a terminal to ask at.
    expect_line(tool("setup", "--folder", "made", folder=place), 4, named, "without --yes")
    kept = Path(settings).read_bytes()
    Path(settings).unlink()
    removed = ".*irr.db: a registry is here, and .*see Removal in OPERATING.md; .*--folder"
    expect_line(tool(*again, folder=place), 4, removed, "without its settings")
    Path(settings).write_bytes(kept)
    expect(registered(trial, settings, place) == dump, True, "whether the registry stays")
    expect(os.path.exists(os.path.join(place, "another.password")), False, "a second password")


def test_questions_are_asked_until_they_are_answered(trial: Trial, tool: Tool) -> None:
    """That each bad answer is asked for again, that what is proposed is taken, and that the
    password which the terminal shows is that of the root."""
    place = trial.place("asked")
    answers = b"not a name!\nTEST\nAS-ROOT\n \n \n0\n \nmaybe\nno\nnone\nyes"
    ran = tool.on_terminal("setup", "--folder", "made", typed=answers, folder=place)
    expect(ran.status, 0, f"its end: {ran.printed.decode()}")
    for reported in (
        b"not a registry's name",
        b"not a maintainer's name",
        b"from 1 to",
        b"yes or no",
    ):
        expect(
            reported in ran.printed,
            True,
            f"whether {reported!r} is printed: {ran.printed.decode()}",
        )
    shown = PASSWORD.findall(ran.printed)
    expect(len(shown), 1, "passwords that are shown")
    lets_sign(trial, "made/irr.toml", place, b"password: " + shown[0] + b"\n")


def maintainers(trial: Trial, place: str) -> list[bytes]:
    return re.findall(rb"^mntner: +(\S+)$", registered(trial, "made/irr.toml", place), re.M)


def test_yes_and_no_are_names_if_they_are_typed_twice(trial: Trial, tool: Tool) -> None:
    """Who types one at a question for a name has most likely mistaken it for another question."""
    place = trial.place("slips")
    slips = b"y\nTEST\nYes\n \nno\n \n \nno\nyes\nn\nnone\nyes"
    ran = tool.on_terminal("setup", "--folder", "made", typed=slips, folder=place)
    expect(ran.status, 0, f"its end: {ran.printed.decode()}")
    for word in b"y", b"Yes", b"no", b"yes", b"n":
        line = b"\n  %s: this question asks for a name; type it again if it is the name\n" % word
        expect(line in ran.printed, True, f"{word!r} in {ran.printed.decode()}")
    expect(maintainers(trial, place), [b"ROOT-MNT"], "the maintainers")
    expect(os.listdir(place), ["made"], "what was made")

    place = trial.place("twice")
    meant = b"TEST\n \n \n \nno\nyes\nyes\n \nyes"
    ran = tool.on_terminal("setup", "--folder", "made", typed=meant, folder=place)
    expect(ran.status, 0, f"its end: {ran.printed.decode()}")
    expect(maintainers(trial, place), [b"ROOT-MNT", b"YES"], "with the one that was typed twice")

    place = trial.place("given")
    words = ["--source", "no", "--save", "y", "--maintainer", "yes", "--maintainer-save", "n"]
    ran = tool("setup", "--folder", "made", "--yes", *words, folder=place)
    expect((ran.status, ran.reported), (0, b""), "by options")
    expect(maintainers(trial, place), [b"ROOT-MNT", b"YES"], "with the one of an option")


def test_nothing_is_made_where_the_questions_are_not_answered_to_their_end(
    trial: Trial, tool: Tool
) -> None:
    place = trial.place("unanswered")
    answers = [b"TEST\n \n \n \n \nnone\nno", b"TEST\n \n\x04", b"TEST\n \n\x03"]
    for typed in answers:
        ran = tool.on_terminal("setup", "--folder", "made", typed=typed, folder=place)
        expect(ran.status in (2, -2), True, f"its end after {typed!r}: {ran.printed!r}")
        expect(os.listdir(place), [], f"what is left after {typed!r}")
    alone = ["setup", "--folder", "made"]
    expect_line(tool(*alone, folder=place), 2, "there is no terminal to ask at; .*", "no terminal")
    expect_line(tool(*alone, "--yes", folder=place), 2, "--source: it is missing.*", "no name")
    for words, pattern in [
        (["--limit", "0"], "limit: it takes a number from 1 .*"),
        (["--mirror", "192.0.2.1"], "--mirror: a registry in a folder has no units.*"),
        (["--maintainer", "ROOT-MNT"], "ROOT-MNT: this is the root maintainer; .*"),
        (["--maintainer", "A-MNT", "--maintainer-save", "p"], ".*/p: two passwords need .*"),
        (["--save", "none/p"], "none/p: there is no such folder; .*"),
    ]:
        ran = tool(*alone, "--yes", "--source", "TEST", "--save", "p", *words, folder=place)
        expect_line(ran, 2, pattern, str(words))
    expect(os.listdir(place), [], "what is left")


class Service:
    """The folders of a service's registry as the package has them, and the commands that setup
    runs."""

    def __init__(self, trial: Trial, tool: Tool, name: str) -> None:
        self.place = Path(trial.place(name))
        for path in self.place.parents:
            if path.is_relative_to(trial.work):
                path.chmod(0o711)
        self.place.chmod(0o711)
        self.etc, self.store = self.place / "etc", self.place / "lib"
        for folder in self.etc, self.store, self.place / "bin":
            folder.mkdir()
        os.chown(self.store, OWNER, OWNER)
        os.chown(self.etc, 0, OWNER)
        self.etc.chmod(0o750)
        shutil.copy(os.path.join(TOP, "units", "door.toml"), self.etc)
        text = Path(TOP, "units", "irr.toml").read_text(encoding="ascii")
        self.settings = self.etc / "irr.toml"
        self.settings.write_text(text.replace("/var/lib/irrdesk", str(self.store)))
        self.settings.chmod(0o640)
        program = shutil.copy(trial.program, self.place / "irrdesk.real")
        for where, text in (
            ("bin/systemctl", SYSTEMCTL),
            ("bin/irrdesk", PROGRAM.format(program=program)),
        ):
            (self.place / where).write_text(text, encoding="ascii")
            (self.place / where).chmod(0o755)
        for name in "bin", "irrdesk.real":
            (self.place / name).chmod(0o755)
        first = str(self.place / "bin")
        self.tool = tool.at(PATH=f"{first}:{os.environ['PATH']}", IRRDESK=f"{first}/irrdesk")

    def setup(self, *words: str) -> Ran:
        return self.tool(
            "setup", "--settings", str(self.settings), "--yes", *words, folder=str(self.place)
        )

    def full(self, *words: str) -> Ran:
        """All that the tests ask for."""
        return self.setup(*WORDS, *words)

    def interrupted(self) -> Ran:
        """The same, which gets control-C while the program waits."""
        words = ["setup", "--settings", str(self.settings), "--yes", *WORDS]
        process = subprocess.Popen(
            [sys.executable, self.tool.path, *words],
            cwd=self.place,
            env=self.tool.environment,
            stdout=subprocess.PIPE,
            stderr=subprocess.PIPE,
        )
        try:
            waits = self.place / "bin" / "waits"
            wait_until("that the program waits", 60, waits.exists)
            process.send_signal(signal.SIGINT)
            printed, reported = process.communicate(timeout=60)
        finally:
            process.kill()
        return Ran(process.returncode, printed, reported, 0, 0)

    def asked(self) -> list[str]:
        """What systemctl was asked since then."""
        path = self.place / "bin" / "asked"
        found = path.read_text(encoding="ascii").splitlines() if path.exists() else []
        path.unlink(missing_ok=True)
        return found

    def fails(self, what: str, how: str = "before") -> None:
        """Has the next run of a command, or the start of a unit, fail."""
        for name, text in ("fails", what), ("how", how):
            (self.place / "bin" / name).write_text(text, encoding="ascii")
            os.chown(self.place / "bin" / name, OWNER, OWNER)
        # The program runs as the owner of the database, and has to take it away.
        os.chown(self.place / "bin", OWNER, OWNER)

    def made(self, trial: Trial) -> None:
        """That all is there, and nothing of a run that was stopped."""
        place = str(self.place)
        dump = registered(trial, str(self.settings), place)
        expect(dump.count(b"mntner:"), 2, "maintainers")
        expect(dump.count(b"auth:           SHA256-PW"), 2, "passwords")
        lets_sign(trial, str(self.settings), place, (self.place / "root.password").read_bytes())
        names = sorted(path.name for path in self.etc.iterdir())
        made = ["door.toml", "irr.toml", "submitters.acl", "submitters.conf"]
        expect(names, made, "what is beside the settings")
        found = self.settings.stat()
        expect((found.st_gid, stat.S_IMODE(found.st_mode)), (OWNER, 0o640), "who reads them")
        for name in made[0], *made[2:]:
            mode = stat.S_IMODE((self.etc / name).stat().st_mode)
            expect(f"{mode:o}", "644", f"who reads {name}")
        expect((self.store / "irr.db").stat().st_uid, OWNER, "whose the database is")


@AS_ROOT
def test_a_service_is_made_of_the_files_of_the_package(trial: Trial, tool: Tool) -> None:
    """That the settings keep their comments, that the units are enabled in their order and what
    timers start runs once before, and that who may submit is said in the words of each proxy."""
    service = Service(trial, tool, "service")
    before = service.settings.read_text(encoding="ascii").splitlines()
    submitters = ["users", "127.0.0.1", "198.51.100.0/24"]
    words = [*(word for who in submitters for word in ("--submit", who)), "--mirror", "192.0.2.10"]
    ran = service.full(*words)
    expect((ran.status, ran.reported), (0, b""), f"its end: {ran.printed!r}")
    for word in b"apache2-utils", b"MIRRORING.md":
        expect(word in ran.printed, True, f"what is next: {ran.printed!r}")
    more = ["start irrdesk-export.service", "enable --now irrdesk-export.timer"]
    expect(service.asked(), [*ASKED, *more], "the units")
    service.made(trial)
    after = service.settings.read_text(encoding="ascii").splitlines()
    changed = [line.split()[0] for line, old in zip(after, before, strict=True) if line != old]
    expect(changed, ["source", "auth"], "the lines that differ")
    door = (service.etc / "door.toml").read_text(encoding="ascii")
    shipped = Path(TOP, "units", "door.toml").read_text(encoding="ascii")
    expect(door, shipped.replace("mirrors = []", 'mirrors = ["192.0.2.10"]'), "door.toml")
    lines = (service.etc / "submitters.conf").read_text(encoding="ascii").splitlines()[1:]
    expect(
        lines,
        [
            "satisfy any;",
            "allow 127.0.0.1;",
            "allow 198.51.100.0/24;",
            "deny all;",
            "auth_basic registry;",
            "auth_basic_user_file /etc/nginx/irrdesk.users;",
        ],
        "who may submit",
    )
    told = (service.etc / "submitters.acl").read_text(encoding="ascii").splitlines()[1:]
    expect(told, ["127.0.0.1", "198.51.100.0/24"], "who may submit through HAProxy")
    text = HAPROXY.format(service.etc / "submitters.acl")
    config = write(str(service.place), "haproxy.cfg", text.encode())
    read = subprocess.run(["haproxy", "-c", "-f", config], capture_output=True, check=False)
    expect(read.returncode, 0, f"whether HAProxy reads them: {read.stderr.decode()}")
    named = f"edit {service.settings} and run `systemctl restart irrdesk`, or door.toml beside it"
    expect_line(service.full(), 4, f".*a registry is here, and .*{named} .*", "a second one")
    expect(service.asked(), [], "what a second one asks of systemd")
    example = Path(TOP, "examples", "nginx.conf").read_text(encoding="ascii")
    place = re.search(r"location = /submissions \{\n(.*?)\}", example, re.DOTALL)
    stands = re.findall(r"^ *([a-z_]+) ", place[1], re.MULTILINE) if place else []
    stands = stands[: stands.index("auth_basic_user_file") + 1]
    expect(set(stands), {line.split()[0] for line in lines}, "the lines that they replace")
    said = b"in place of the lines from `satisfy`\n    to `auth_basic_user_file`"
    expect(said in ran.printed, True, f"whether it says so: {ran.printed!r}")


@AS_ROOT
def test_a_history_takes_git(trial: Trial, tool: Tool) -> None:
    """That the question says so where git is missing, and asks again, so that no answer is lost."""
    service = Service(trial, tool, "without-git")
    first = str(service.place / "bin")
    for name in "sh", "curl", "python3":
        os.symlink(str(shutil.which(name)), f"{first}/{name}")
    alone = tool.at(PATH=first, IRRDESK=f"{first}/irrdesk")
    words = ["setup", "--settings", str(service.settings)]
    answers = b"TEST\n \n \n \n \n \n \n \nyes\nno\n \nno"
    ran = alone.on_terminal(*words, typed=answers, folder=str(service.place))
    expect(ran.status, 2, f"its end: {ran.printed.decode()}")
    for said in (
        b"in git, which is not installed [no]: ",
        b"  git: a history takes it; install it, or do without",
        b"nothing was made",
    ):
        expect(said in ran.printed, True, f"whether {said!r} is printed: {ran.printed.decode()}")
    expect(ran.printed.count(b"irrdesk-history"), 0, "its timer among the units")
    ran = alone(*words, "--yes", *WORDS, folder=str(service.place))
    expect_line(ran, 2, "git: a history takes it; .*", "with --history")
    expect(service.asked(), [], "what was asked of systemd")


@AS_ROOT
def test_the_examples_are_those_beside_the_tool(trial: Trial, tool: Tool) -> None:
    """That what is next names the example where the tool is installed, if it is there."""
    service = Service(trial, tool, "prefix")
    place = service.place / "share/doc/irrdesk/examples"
    place.mkdir(parents=True)
    (place / "nginx.conf").touch()
    service.tool = service.tool.at()
    service.tool.path = shutil.copy(tool.path, service.place / "bin" / "irr")
    ran = service.full()
    expect(f"{place}/nginx.conf" in ran.printed.decode(), True, f"what is next: {ran.printed!r}")


@AS_ROOT
def test_what_somebody_has_set_is_not_replaced_without_a_word(trial: Trial, tool: Tool) -> None:
    """That settings which are neither the package's nor what is asked for are kept, unless told;
    and that an `auth` which is there already stays."""
    service = Service(trial, tool, "set-by-others")
    text = service.settings.read_text(encoding="ascii").replace("10000\n", "777\n", 1)
    service.settings.write_text(text, encoding="ascii")
    ran = service.full("--limit", "888", "--no-door")
    expect_line(ran, 3, ".*has limit = 777, which becomes 888: .*--replace", "another limit")
    left = sorted(path.name for path in service.place.iterdir())
    expect(left, ["bin", "etc", "irrdesk.real", "lib"], "what is left")
    expect(service.settings.read_text(encoding="ascii"), text, "the settings")
    door = service.etc / "door.toml"
    door.write_text(door.read_text("ascii").replace("mirrors = []", 'mirrors = ["192.0.2.9"]'))
    ran = service.full("--mirror", "192.0.2.10")
    expect_line(ran, 3, '.*mirrors = ."192.0.2.9"., which becomes .*', "other mirrors")
    lines = 'mirrors = [\n    "192.0.2.9",\n]\n'
    door.write_text(re.sub("mirrors = .*\n", lines, door.read_text("ascii")), encoding="ascii")
    ran = service.full("--mirror", "192.0.2.10")
    expect_line(ran, 3, ".*mirrors = .* can't be put in; write it there by hand", "other lines")
    expect(sorted(path.name for path in service.place.iterdir()), left, "what is left then")
    auth = f'auth = "SHA256-PW a:{"0" * 64}"'
    service.settings.write_text(text.replace('auth = ""', auth), encoding="ascii")
    ran = service.setup("--source", "TEST", "--save", "p", "--no-door")
    expect_line(ran, 2, "--save: .*has an `auth` already; .*", "a second password")
    ran = service.setup("--source", "TEST", "--limit", "888", "--mirror", "192.0.2.9", "--replace")
    expect((ran.status, ran.reported), (0, b""), f"when told to: {ran.printed!r}")
    after = service.settings.read_text(encoding="ascii")
    expect((auth in after, "limit = 888\n" in after), (True, True), "the settings then")
    expect(lines in door.read_text(encoding="ascii"), True, "mirrors that are the same")


STOPS = [
    ("init", "before"),
    ("init", "after"),
    ("init", "interrupt"),
    ("submit", "before"),
    ("submit", "after"),
    ("submit", "interrupt"),
    ("irrdesk.service", "before"),
    ("irrdesk-door.socket", "before"),
    ("irrdesk-history.timer", "before"),
    ("irrdesk-history.service", "before"),
]


@AS_ROOT
@pytest.mark.parametrize("what, how", STOPS)
def test_a_run_that_was_stopped_is_gone_on_with(
    trial: Trial, tool: Tool, what: str, how: str
) -> None:
    """That a failure or control-C at a step says what is left, and that the next run ends with the
    same as one that nothing stopped."""
    service = Service(trial, tool, f"stopped-{what}-{how}")
    service.fails(what, how)
    ran = service.interrupted() if how == "interrupt" else service.full()
    expect(
        ran.status in ((-2,) if how == "interrupt" else (4, 5)), True, f"its end: {ran.reported!r}"
    )
    reported = b"setup.json" in ran.reported and b"run irr setup again" in ran.reported
    expect(reported, True, f"whether it says what is left: {ran.reported!r}")
    expect(
        b"root.password" in ran.reported, True, f"whether the password is named: {ran.reported!r}"
    )
    expect_line(
        service.setup("--source", "OTHER"), 2, "--source: the run that was stopped had .*", "other"
    )
    ran = service.setup("--save", "other")
    expect_line(ran, 2, "--save: the run that was stopped had .*", "another file")
    service.asked()
    if what == "init" and not (service.store / "irr.db").exists():
        # A program that is stopped as it begins leaves an empty database.
        for name in "irr.db", "irr.db-wal":
            (service.store / name).touch()
            os.chown(service.store / name, OWNER, OWNER)
    ran = service.setup()
    expect(ran.status, 0, f"the run after it: {ran.reported!r}")
    # The run that was stopped may have started the registry that it made.
    stop = "stop irrdesk-check.timer irrdesk.service"
    expect(service.asked(), [stop, *ASKED], "the units")
    service.made(trial)


@AS_ROOT
def test_what_can_not_be_written_is_once_it_can(trial: Trial, tool: Tool) -> None:
    """That the run after one which could not write a file goes on with the same password."""
    service = Service(trial, tool, "unwritten")
    # What is no file is not replaced.
    service.etc.joinpath("submitters.conf").mkdir()
    ran = service.full()
    expect((ran.status, b"left behind" in ran.reported), (3, True), f"its end: {ran.reported!r}")
    password = (service.place / "root.password").read_bytes()
    settings = service.settings.read_bytes()
    service.etc.joinpath("submitters.conf").rmdir()
    expect(service.setup().status, 0, "the run after it")
    expect((service.place / "root.password").read_bytes(), password, "the password")
    expect(service.settings.read_bytes(), settings, "the settings")
    service.made(trial)


def test_the_service_takes_root(trial: Trial, tool: Tool) -> None:
    user = ["setpriv", "--reuid=65534", "--clear-groups"] if os.geteuid() == 0 else []
    done = subprocess.run(
        [*user, "/usr/bin/python3", "-", "setup", "--yes"],
        input=f"import sys; sys.path.insert(0, {os.path.join(TOP, 'tools')!r}); sys.dont_write_"
        "bytecode = True\nfrom irr.main import main; sys.exit(main())",
        capture_output=True,
        text=True,
        check=False,
        env=tool.environment,
    )
    expect((done.returncode, "takes root" in done.stderr), (2, True), f"its end: {done.stderr!r}")


def test_the_line_of_a_root_is_made_before_there_is_a_server(trial: Trial, tool: Tool) -> None:
    """That `irr auth ROOT-MNT` takes the registry's name from the settings beside it, and asks for
    the name where there are none."""
    place = trial.place("before")
    at = tool.at(IRR_SERVER="http://127.0.0.1:1")
    words = ["auth", "ROOT-MNT", "--save", "root.password"]
    if not os.path.exists("/etc/irrdesk/irr.toml"):
        expect_line(at(*words, folder=place), 5, ".*--source NAME", "without settings")
        expect(os.listdir(place), [], "what is left")
    shutil.copy(os.path.join(TOP, "units", "irr.toml"), place)
    ran = at(*words, folder=place)
    expect(
        (ran.status, b"source:         EXAMPLE\n" in ran.printed), (0, True), f"{ran.reported!r}"
    )
    expect(
        b"nothing listens; EXAMPLE is the registry of irr.toml" in ran.reported, True, "its note"
    )

"""What is wrong with a registry of this machine: a line a fault, each with its remedy."""

import contextlib
import json
import os
import re
import shutil
import stat
import subprocess
import time
from collections.abc import Callable, Iterator
from pathlib import Path
from typing import Any

import pytest

from checks.running import TOP, Ran, Trial, expect, write
from checks.serving import free_port
from checks.worlds import Tool, World, answering, certificate
from irr.local import health
from irr.local.health import REMEDIES, UNITS
from irr.local.history import Repository

IN_MEMORY = True
GOOD = b"HTTP/1.1 200 OK\r\nContent-Length: 0\r\n\r\n"
HOST = "irr.example.net"
# What it is asked is noted; what it shows is in a file.
SYSTEMCTL = '#!/bin/sh\ncat "$(dirname "$0")/shown"\n'
MEBIBYTE = 1 << 20


def reply(body: bytes, status: bytes = b"200 OK") -> bytes:
    return b"HTTP/1.1 %s\r\nContent-Length: %d\r\n\r\n%s" % (status, len(body), body)


def agent(fault: str = "", age: float = 5) -> bytes:
    """What the agent of a mirror tells of one replica."""
    one = {"port": 4345, "ready": True, "state": "0", "seen": time.time() - age}
    return json.dumps({"replicas": [one], "fault": fault}).encode() + b"\n"


def serials(serial: int, first: int = 1) -> bytes:
    """What a door tells of one mirror."""
    told = {"first": first, "last": 20_000, "mirrors": {"192.0.2.1": {"serial": serial, "age": 1}}}
    return reply(json.dumps({"serials": told}).encode())


def unit(name: str, **more: object) -> dict[str, object]:
    """A unit that is as it should be, but for this."""
    return {"Id": name, "ActiveState": "active", "UnitFileState": "enabled"} | more


class Machine:
    """What the check looks at: a registry that answers, and files."""

    def __init__(self, trial: Trial, tool: Tool, name: str) -> None:
        self.place = Path(trial.place(name))
        self.backups, self.history = self.place / "backups", self.place / "history"
        for folder in self.backups, self.history, self.place / "bin":
            folder.mkdir()
        self.backup(1)
        self.looked(60)
        (self.place / "irr.db").touch()
        self.settings = self.place / "irr.toml"
        self.settings.write_text(f'store = "{self.place}/irr.db"\n', encoding="ascii")
        systemctl = write(str(self.place / "bin"), "systemctl", SYSTEMCTL.encode())
        os.chmod(systemctl, 0o755)
        self.units(unit("irrdesk.service"))
        self.tool = tool.at(PATH=f"{self.place}/bin:{os.environ['PATH']}")
        self.words = ["--settings", str(self.settings), "--backups", str(self.backups)]
        self.words += ["--history", str(self.history)]
        self.url = ""

    def backup(self, hours: float) -> None:
        """A backup of so many hours ago, and no other."""
        shutil.rmtree(self.backups)
        self.one_backup(hours)

    def one_backup(self, hours: float) -> Path:
        """One more."""
        stamp = time.strftime("%Y%m%dT%H%M%SZ", time.gmtime(time.time() - hours * 3_600))
        (self.backups / stamp).mkdir(parents=True)
        (self.backups / stamp / "irr.db").write_bytes(b"SQLite format 3")
        return self.backups / stamp

    def state(self, seconds: float) -> None:
        """Gives the history a state that is so old."""
        repository = Repository(self.history)
        repository.begin()
        head = f"commit refs/heads/main\ncommitter a <a> {time.time() - seconds:.0f} +0000\n"
        repository.git("fast-import", "--quiet", given=f"{head}data 0\n".encode())

    def looked(self, seconds: float) -> None:
        """The dump was fetched so many seconds ago."""
        (self.history / "looked").touch()
        when = time.time() - seconds
        os.utime(self.history / "looked", (when, when))

    def units(self, *told: dict[str, object]) -> None:
        """What systemd says."""
        blocks = ["".join(f"{key}={value}\n" for key, value in one.items()) for one in told]
        (self.place / "bin" / "shown").write_text("\n".join(blocks), encoding="ascii")

    def __call__(self, *words: str, **environment: str) -> Ran:
        at = self.tool.at(**environment)
        return at("check", "--url", self.url, *self.words, *words, folder=str(self.place))


@contextlib.contextmanager
def standing(trial: Trial, tool: Tool, name: str, *replies: bytes) -> Iterator[Machine]:
    """A machine whose registry answers so, or well."""
    machine = Machine(trial, tool, name)
    with answering(*(replies or (GOOD,))) as url:
        machine.url = f"{url}/query/ROOT-MNT"
        yield machine


def place_of(url: str) -> str:
    return url.removeprefix("http://").removeprefix("https://")


# Each fault by its word: what is done to a machine that is well, and the words that it is checked
# with.
Case = Callable[[Machine, contextlib.ExitStack], list[str]]
CASES: dict[str, list[Case]] = {word: [] for word in REMEDIES}


def case(word: str) -> Callable[[Case], Case]:
    def noted(function: Case) -> Case:
        CASES[word].append(function)
        return function

    return noted


@case("registry-down")
def refused(machine: Machine, stack: contextlib.ExitStack) -> list[str]:
    machine.url = f"http://127.0.0.1:{free_port()}/query/ROOT-MNT"
    return []


@case("registry-down")
def ended_at_once(machine: Machine, stack: contextlib.ExitStack) -> list[str]:
    starting = {"ActiveState": "activating", "NRestarts": "3"}
    machine.units(unit("irrdesk.service", **starting))
    return refused(machine, stack)


@case("registry-failed")
def failed(machine: Machine, stack: contextlib.ExitStack) -> list[str]:
    machine.url = stack.enter_context(answering(reply(b"", b"503 Service Unavailable"))) + "/x"
    return []


@case("registry-slow")
def cut(machine: Machine, stack: contextlib.ExitStack) -> list[str]:
    machine.url = stack.enter_context(answering(GOOD.replace(b" 0", b" 9") + b"mntner")) + "/x"
    return []


@case("registry-slow")
def silent(machine: Machine, stack: contextlib.ExitStack) -> list[str]:
    machine.url = stack.enter_context(answering(b"")) + "/x"
    return []


@case("registry-other")
def other(machine: Machine, stack: contextlib.ExitStack) -> list[str]:
    machine.url = stack.enter_context(answering(reply(b"", b"404 Not Found"))) + "/x"
    return []


@case("mirror-down")
def without_agent(machine: Machine, stack: contextlib.ExitStack) -> list[str]:
    return ["--agent", f"127.0.0.1:{free_port()}"]


@case("mirror-down")
def talking_agent(machine: Machine, stack: contextlib.ExitStack) -> list[str]:
    return ["--agent", place_of(stack.enter_context(answering(b"ready\n")))]


@case("replicas-not-renewed")
def not_renewed(machine: Machine, stack: contextlib.ExitStack) -> list[str]:
    return ["--agent", place_of(stack.enter_context(answering(agent("other objects"))))]


@case("replicas-not-renewed")
def view_not_renewed(machine: Machine, stack: contextlib.ExitStack) -> list[str]:
    machine.units(unit("irrdesk-view@all.service", StatusText="RADB is not renewed since 2026"))
    return []


@case("replica-old")
def old_replica(machine: Machine, stack: contextlib.ExitStack) -> list[str]:
    return ["--agent", place_of(stack.enter_context(answering(agent(age=700))))]


@case("door-down")
def without_door(machine: Machine, stack: contextlib.ExitStack) -> list[str]:
    return ["--door", f"127.0.0.1:{free_port()}"]


@case("door-in-part")
def part(machine: Machine, stack: contextlib.ExitStack) -> list[str]:
    return ["--door", place_of(stack.enter_context(answering(reply(b"in part: TEST\nwhy\n"))))]


@case("door-in-part")
def door_of_the_settings(machine: Machine, stack: contextlib.ExitStack) -> list[str]:
    url = stack.enter_context(answering(reply(b"DOWN: TEST\n", b"503 Service Unavailable")))
    write(str(machine.place), "door.toml", f'status = "{place_of(url)}"\n'.encode())
    machine.units(unit("irrdesk.service"), unit("irrdesk-door.service"))
    return []


@case("mirror-behind")
def behind(machine: Machine, stack: contextlib.ExitStack) -> list[str]:
    told = stack.enter_context(answering(reply(b"well: TEST\n"), serials(9_000)))
    return ["--door", place_of(told)]


@case("mirror-behind")
def beyond(machine: Machine, stack: contextlib.ExitStack) -> list[str]:
    told = stack.enter_context(answering(reply(b"well: TEST\n"), serials(15_000, 15_002)))
    return ["--door", place_of(told)]


@case("unit-failed")
def failed_unit(machine: Machine, stack: contextlib.ExitStack) -> list[str]:
    machine.units(unit("irrdesk-filter.service", ActiveState="failed", Result="exit-code"))
    return []


@case("unit-failed")
def failed_socket(machine: Machine, stack: contextlib.ExitStack) -> list[str]:
    machine.units(unit("irrdesk-door.socket", ActiveState="failed", Result="resources"))
    return []


@case("unit-failed")
def closed_socket(machine: Machine, stack: contextlib.ExitStack) -> list[str]:
    # By systemd, after too many starts of the door.
    limit = "service-start-limit-hit"
    machine.units(unit("irrdesk-door.socket", ActiveState="failed", Result=limit))
    return []


@case("unit-stopped")
def stopped_unit(machine: Machine, stack: contextlib.ExitStack) -> list[str]:
    machine.units(unit("irrdesk-backup.timer", ActiveState="inactive"))
    return []


@case("backup-old")
def old_backup(machine: Machine, stack: contextlib.ExitStack) -> list[str]:
    machine.backup(27)
    return []


@case("backup-old")
def empty_backup(machine: Machine, stack: contextlib.ExitStack) -> list[str]:
    machine.backup(27)
    (machine.one_backup(1) / "irr.db").write_bytes(b"")
    return []


@case("backup-old")
def no_backup(machine: Machine, stack: contextlib.ExitStack) -> list[str]:
    shutil.rmtree(machine.backups)
    machine.backups.mkdir()
    return []


@case("backup-old")
def no_folder_of_backups(machine: Machine, stack: contextlib.ExitStack) -> list[str]:
    # As on a new machine: the unit makes the folder.
    shutil.rmtree(machine.backups)
    return []


@case("history-old")
def old_history(machine: Machine, stack: contextlib.ExitStack) -> list[str]:
    machine.looked(3_700)
    return []


@case("certificate-ends")
def ends(machine: Machine, stack: contextlib.ExitStack) -> list[str]:
    # It is made for nine days.
    return shown_to(machine, stack, is_known=True)


@case("certificate-bad")
def unknown(machine: Machine, stack: contextlib.ExitStack) -> list[str]:
    return shown_to(machine, stack, is_known=False)


@case("certificate-bad")
def not_shown(machine: Machine, stack: contextlib.ExitStack) -> list[str]:
    return ["--certificate", place_of(stack.enter_context(answering(GOOD)))]


def shown_to(machine: Machine, stack: contextlib.ExitStack, is_known: bool) -> list[str]:
    """A proxy that shows a certificate, which the machine knows or doesn't."""
    tls = certificate(str(machine.place), HOST)
    url = stack.enter_context(answering(GOOD, tls=tls))
    machine.tool = machine.tool.at(SSL_CERT_FILE=tls[0] if is_known else os.devnull)
    return ["--certificate", f"{HOST}:{url.rpartition(':')[2]}"]


@case("disk-full")
def no_room(machine: Machine, stack: contextlib.ExitStack) -> list[str]:
    return ["--disk", "999999999"]


@case("clock-ahead")
def future(machine: Machine, stack: contextlib.ExitStack) -> list[str]:
    machine.looked(-90_000)
    return []


def timer(hours: float) -> dict[str, object]:
    """The check's timer, which started a minute ago by a clock that went ahead since by so many
    hours."""
    stamp = time.strftime("%a %Y-%m-%d %H:%M:%S UTC", time.gmtime(time.time() - 60 - hours * 3_600))
    passed = time.clock_gettime(time.CLOCK_BOOTTIME) - 60
    began = {"ActiveEnterTimestamp": stamp, "ActiveEnterTimestampMonotonic": int(passed * 1e6)}
    return unit("irrdesk-check.timer", **began)


def synchronised(machine: Machine, says: str) -> None:
    """What the system says of its clock."""
    told = write(str(machine.place / "bin"), "timedatectl", f"#!/bin/sh\necho {says}\n".encode())
    os.chmod(told, 0o755)


@case("clock-jumped")
def set_ahead(machine: Machine, stack: contextlib.ExitStack) -> list[str]:
    synchronised(machine, "no")
    machine.units(unit("irrdesk.service"), timer(48))
    return []


def test_a_clock_that_may_be_right_is_no_fault(trial: Trial, tool: Tool) -> None:
    """One that a time server set, one that was set back, and one that nobody set."""
    with standing(trial, tool, "clock") as machine:
        for says, hours in ("yes", 48), ("no", -48), ("no", 0):
            synchronised(machine, says)
            machine.units(unit("irrdesk.service"), timer(hours))
            ran = machine()
            expect((ran.status, ran.printed), (0, b""), f"{hours} hours ahead, {says}")
        synchronised(machine, "no")
        machine.units(unit("irrdesk.service"), timer(48))
        wanted = b"clock-jumped: the clock: it went ahead by 48.0 hours more than passed since"
        expect(machine().printed[: len(wanted)], wanted, "two days ahead")


@case("memory-full")
def no_memory(machine: Machine, stack: contextlib.ExitStack) -> list[str]:
    held = {"MemoryCurrent": 95 * MEBIBYTE, "MemoryMax": 100 * MEBIBYTE}
    machine.units(unit("irrdesk.service", **held))
    return []


def test_each_fault_is_provoked() -> None:
    assert not [word for word, cases in CASES.items() if not cases]


@pytest.mark.parametrize(
    "word, provoke",
    [
        pytest.param(word, one, id=f"{word}-{one.__name__}")
        for word, cases in CASES.items()
        for one in cases
    ],
)
def test_a_fault_is_one_line_with_its_remedy(
    trial: Trial, tool: Tool, word: str, provoke: Case
) -> None:
    """That the line begins with the word, ends with what to do, and is the only one."""
    with standing(trial, tool, f"{word}-{provoke.__name__}") as machine:
        with contextlib.ExitStack() as stack:
            ran = machine(*provoke(machine, stack))
        lines = ran.printed.decode().splitlines()
        expect((ran.status, len(lines)), (1, 1), f"status and lines: {lines} {ran.reported!r}")
        is_case = provoke in (ended_at_once, failed_socket)
        remedy = health.CASES[word][1] if is_case else REMEDIES[word]
        is_line = lines[0].startswith(f"{word}: ") and lines[0].endswith(f"; {remedy}")
        expect(is_line, True, lines[0])


def test_a_proxy_that_is_down_is_to_be_started(trial: Trial, tool: Tool) -> None:
    port = free_port()
    with standing(trial, tool, "proxy-down") as machine:
        printed = machine("--certificate", f"{HOST}:{port}").printed.decode()
    wanted = f"certificate-bad: {HOST}:{port}: nothing listens at port {port}; start the proxy\n"
    expect(printed, wanted, "what is said of it")


def test_what_is_dated_in_the_future_is_a_line_for_each_remedy(trial: Trial, tool: Tool) -> None:
    """Replicas and the database get new dates, and anything else has to be removed."""
    told = json.loads(agent(age=-90_000))
    told["replicas"] += [told["replicas"][0] | {"port": 4346}]
    with standing(trial, tool, "ahead") as machine:
        machine.looked(-90_000)
        machine.state(-90_000)
        for hours in 30, 60:
            machine.one_backup(-hours)
        os.utime(machine.place / "irr.db", (time.time() + 900_000,) * 2)
        with answering(json.dumps(told).encode() + b"\n") as url:
            lines = machine("--agent", place_of(url)).printed.decode().splitlines()
    stamp = "[0-9]{4}-[-0-9T:]+Z"
    clock = f"and the clock says {stamp}"
    files = (
        f"2 backups in {machine.backups}, {machine.history}/looked, history {machine.history}:"
        f" dated {stamp} to {stamp}, {clock}"
    )
    replicas = (
        "replica 127.0.0.1:4345, replica 127.0.0.1:4346,"
        f" {machine.place}/irr.db: dated {stamp} to {stamp}, {clock}"
    )
    remedies = REMEDIES["clock-ahead"], health.CASES["clock-ahead"][1]
    for line, what, remedy in zip(lines, (files, replicas), remedies, strict=True):
        is_line = re.fullmatch(f"clock-ahead: {what}; {re.escape(remedy)}", line)
        expect(bool(is_line), True, line)


def test_replicas_are_not_renewed_since_the_oldest_was(trial: Trial, tool: Tool) -> None:
    """One that was never renewed counts for nothing."""
    now, told = time.time(), json.loads(agent("other objects"))
    stamp = time.strftime(" since %Y-%m-%dT%H:%M:%SZ", time.gmtime(now - 9))
    for times, since in [((now - 7, now - 9, 0), stamp), ((0, 0), "")]:
        told["replicas"] = [told["replicas"][0] | {"seen": seen} for seen in times]
        with standing(trial, tool, f"renewed-{len(times)}") as machine:
            with answering(json.dumps(told).encode() + b"\n") as url:
                printed = machine("--agent", place_of(url)).printed.decode()
        place, what = place_of(url), f"not renewed{since}: other objects"
        wanted = f"replicas-not-renewed: {place}: {what}; {REMEDIES['replicas-not-renewed']}\n"
        expect(printed, wanted, f"replicas of {times}")


def test_nothing_is_reported_of_a_registry_that_is_well(trial: Trial, tool: Tool) -> None:
    """That all of it is looked at, and each bound is one of the settings, too."""
    well = answering(*[reply(b"well: TEST\n"), serials(19_999)] * 2)
    with World(trial, tool, "well") as world, standing(trial, tool, "all") as machine:
        with well as door, answering(agent()) as replicas:
            machine.url = f"{world.url}/query/ROOT-MNT"
            # What the system keeps of files is not held.
            cache = MEBIBYTE * 60
            (machine.place / "memory.stat").write_text(f"anon 1\nfile {cache}\n", "ascii")
            held = {"MemoryCurrent": 95 * MEBIBYTE, "MemoryMax": 100 * MEBIBYTE}
            group = os.path.join("/../../..", str(machine.place).lstrip("/"))
            machine.units(
                unit("irrdesk.service", ControlGroup=group, **held),
                unit("irrdesk-door.service", MemoryCurrent="[not set]", MemoryMax="infinity"),
                unit("irrdesk-dump.service", ActiveState="inactive", UnitFileState="static"),
                unit("irrdesk-mirror.service"),
            )
            words = ["--door", place_of(door), "--agent", place_of(replicas)]
            ran = machine(*words)
            expect((ran.status, ran.printed, ran.reported), (0, b"", b""), "what is reported")
            told = json.loads(machine(*words, "--json").printed)
            expect(told, {"well": True, "faults": [], "unseen": []}, "the same as JSON")


def test_bounds_are_those_of_the_settings_unless_given(trial: Trial, tool: Tool) -> None:
    with standing(trial, tool, "bounds") as machine:
        text = machine.settings.read_text(encoding="ascii")
        machine.backup(5)
        machine.looked(90)
        table = "[check]\nbackup_age = 4\nhistory_age = 0.01\n"
        machine.settings.write_text(text + table, encoding="ascii")
        words = [line.split(b":")[0] for line in machine().printed.splitlines()]
        expect(words, [b"backup-old", b"history-old"], "by the settings")
        ran = machine("--backup-age", "6", "--history-age", "2")
        expect((ran.status, ran.printed), (0, b""), "by the options")
        told = json.loads(machine("--json").printed)
        found = [(one["check"], one["remedy"]) for one in told["faults"]]
        wanted = [(word, REMEDIES[word]) for word in ("backup-old", "history-old")]
        expect((told["well"], found), (False, wanted), "as JSON")
        for line, pattern in [
            ("backupage = 4\n", "check.backupage: there is no such key"),
            ('disk = "full"\n', "check.disk: it takes a number"),
            ("certificate = 4\n", "check.certificate: it takes a list"),
        ]:
            machine.settings.write_text(f"{text}[check]\n{line}", encoding="ascii")
            ran = machine()
            expect(
                (ran.status, pattern in ran.reported.decode()),
                (3, True),
                f"{line}: {ran.reported!r}",
            )


def test_irrdesk_takes_settings_with_bounds_of_the_check(trial: Trial) -> None:
    """That the program passes over the table."""
    folder = trial.place("program")
    text = Path(TOP, "examples", "irr.toml").read_text(encoding="ascii")
    lines = [
        f"{name} = {json.dumps(list(value) if isinstance(value, tuple) else value)}"
        for name, value in vars(health.Bounds()).items()
    ]
    write(folder, "s.toml", f"{text}\n[check]\n{chr(10).join(lines)}\n".encode())
    ran = trial.run(folder, "init", "s.toml")
    expect((ran.status, ran.reported), (0, b""), "what it says")


def test_what_a_user_may_not_see_is_no_fault(trial: Trial, tool: Tool) -> None:
    """That a check without rights says what it could not see, and goes on."""
    with standing(trial, tool, "unseen") as machine:
        write(str(machine.place / "bin"), "shown", b"")
        if os.geteuid():
            machine.backups.chmod(0)
        ran = machine()
        expect((ran.status, ran.printed), (0, b""), "what is wrong")
        expect(
            b"systemd: it cannot be asked" in ran.reported, True, f"what it says: {ran.reported!r}"
        )
        machine.backups.chmod(0o700)


def test_a_wrong_line_of_the_door_is_reported_once(trial: Trial, tool: Tool) -> None:
    """The place of the agent and that of the status are both in door.toml."""
    with standing(trial, tool, "wrong") as machine:
        names = "irrdesk.service", "irrdesk-mirror.service", "irrdesk-door.service"
        machine.units(*map(unit, names))
        (machine.place / "door.toml").write_text("status = \n", encoding="ascii")
        lines = machine().reported.decode().splitlines()
        found = [line for line in lines if "door.toml" in line]
        expect(len(found), 1, f"how often it is reported: {found}")
        told = json.loads(machine("--json").printed)["unseen"]
        expect(len([line for line in told if "door.toml" in line]), 1, f"as JSON: {told}")


@pytest.mark.parametrize(
    "url, door, status, of_script",
    [(200, 200, 0, 0), (503, 200, 10, 1), (200, None, 11, 2), (503, None, 12, 1), (404, 200, 1, 3)],
)
def test_the_status_says_what_a_restart_mends(
    trial: Trial, tool: Tool, url: int, door: int | None, status: int, of_script: int
) -> None:
    """For the unit, and for one of before that names the script."""
    name = f"restarts-{status}"
    with standing(trial, tool, name, reply(b"", b"%d Word" % url)) as machine:
        with answering(reply(b"well: TEST\n")) as told:
            place = place_of(told) if door else f"127.0.0.1:{free_port()}"
            expect(machine("--door", place, "--restarts").status, status, "of irr check")
            prefix = machine.place / "prefix"
            for folder in "bin", "lib/irrdesk":
                (prefix / folder).mkdir(parents=True)
            shutil.copy(tool.path, prefix / "bin" / "irr")
            script = shutil.copy(
                os.path.join(TOP, "units", "irrdesk-check"), prefix / "lib/irrdesk"
            )
            done = subprocess.run(
                [script, machine.url, place, "60"],
                env=machine.tool.environment,
                capture_output=True,
                check=False,
            )
            expect(done.returncode, of_script, f"of irrdesk-check: {done.stdout!r}")
            expect(bool(done.stdout), bool(status), "whether it says what is wrong")


def test_the_unit_runs_it_and_restarts_what_its_status_says() -> None:
    text = Path(TOP, "units", "irrdesk-check.service").read_text(encoding="ascii")
    text = text.replace("\\\n", " ")
    lines: dict[str, Any] = dict(re.findall(r"^(Exec\w+)=(.*)$", text, re.M))
    assert lines["ExecStart"] == "/usr/bin/irr check --restarts"
    script = re.search(r"'(.*)'", lines["ExecStopPost"])[1].replace("$$", "$")
    for status, wanted in [
        (0, ""),
        (1, ""),
        (10, "irrdesk.service"),
        (11, "irrdesk-door.service"),
        (12, "irrdesk.service irrdesk-door.service"),
    ]:
        asked = subprocess.run(
            ["/bin/sh", "-c", f'systemctl() {{ echo "$@"; }}; {script}'],
            env={"EXIT_STATUS": str(status)},
            capture_output=True,
            text=True,
            check=True,
        )
        expect(asked.stdout.strip(), f"--no-block try-restart {wanted}" * bool(wanted), str(status))


def test_it_knows_each_unit() -> None:
    """Each unit of the package but itself."""
    units = [path.name for path in Path(TOP, "units").glob("irrdesk*.*")]
    wanted = {name.replace("@", "@*") for name in units} - {"irrdesk-check.service"}
    expect(set(UNITS), wanted, "the units")
    expect(bool(Path(TOP, "units", "irrdesk-check").stat().st_mode & stat.S_IXUSR), True, "x")

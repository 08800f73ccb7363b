"""What stands round the program: the manual, scripts/install, and the units."""

import contextlib
import os
import re
import shlex
import shutil
import socket
import subprocess
import time
from pathlib import Path
from typing import Any

import pytest

from checks.running import PATIENCE, TOP, Failure, Tell, Trial, expect, short, write, write_settings
from checks.serving import Serving, free_port, read_all
from checks.texts import item
from irr.local.replicas import Replica

SECONDS = 50


MANUAL = os.path.join(TOP, "man", "irrdesk.1")
UNITS = os.path.join(TOP, "units")
LIMIT = 10_000
NOBODY = 65_534
# So many objects are opened, and the least that is saved then, in kB.
OBJECTS, SAVED = 20_000, 400


def done(command: list[str], **options: Any) -> str:
    """What a command prints that has to end with status 0."""
    made = subprocess.run(
        command, capture_output=True, text=True, timeout=120, check=False, **options
    )
    if made.returncode:
        raise Failure(f"{command[0]}: status {made.returncode}, {short(made.stdout + made.stderr)}")
    return made.stdout


def working(*commands: list[str]) -> Any:
    """Skips a check where one of these commands is not there, or may not do its work."""

    def works(command: list[str]) -> bool:
        if shutil.which(command[0]) is None:
            return False
        return subprocess.run(command, capture_output=True, check=False).returncode == 0

    missing = [command[0] for command in commands if not works(command)]
    return pytest.mark.skipif(bool(missing), reason=f"{' and '.join(missing)} does not work here")


systemd = working(["systemd-analyze", "syscall-filter"])
limiting = working(["strace", "-o", "/dev/null", "true"], ["setpriv", "true"], ["prlimit", "true"])


# The manual.


def test_mandoc_finds_nothing_in_the_manual(tell: Tell) -> None:
    """That mandoc and groff find no fault in any page; which pages of others the index of manuals
    lacks doesn't matter."""
    pages = sorted(os.listdir(os.path.dirname(MANUAL)))
    for name in pages:
        path = os.path.join(os.path.dirname(MANUAL), name)
        for command in ["mandoc", "-Tlint", path], ["groff", "-ww", "-mdoc", "-Tutf8", "-z", path]:
            if shutil.which(command[0]):
                made = subprocess.run(
                    command, capture_output=True, text=True, timeout=PATIENCE, check=False
                )
                reported = [
                    line
                    for line in (made.stdout + made.stderr).splitlines()
                    if "mandoc.db" not in line and "referenced manual not found" not in line
                ]
                expect(reported, [], f"what {command[0]} says of {name}")
    tell(f"mandoc -Tlint and groff of {len(pages)} pages")


def test_the_manual_and_the_help_say_the_same(trial: Trial, tell: Tell) -> None:
    """That the manual and the help name the same commands, and the manual each status."""
    with open(MANUAL, encoding="ascii") as opened:
        manual = opened.read()
    listed = done([trial.program, "--help"]).partition("Commands:\n")[2].partition("\n\n")[0]
    commands = set(re.findall(r"^  ([a-z]+) ", listed, re.MULTILINE)) - {"help"}
    expect(
        set(re.findall(r"^\.It Cm ([a-z]+) Ar settings", manual, re.MULTILINE)),
        commands,
        "the commands",
    )
    expect(re.findall(r"^\.It ([0-9])$", manual, re.MULTILINE), list("012345"), "the statuses")
    tell(f"{len(commands)} commands")


# scripts/install.


def tree(folder: str) -> list[str]:
    return sorted(
        os.path.relpath(os.path.join(path, name), folder)
        for path, folders, names in os.walk(folder)
        for name in [*folders, *names]
    )


def test_what_is_installed_works_and_is_taken_away_again(trial: Trial, tell: Tell) -> None:
    """That what is put in place works from there, and is taken away to the last folder, and nothing
    else."""
    prefix, script = trial.place("prefix"), os.path.join(TOP, "scripts", "install")
    os.makedirs(os.path.join(prefix, "share", "man"))
    write(prefix, "bystander", b"kept\n")
    before = tree(prefix)
    for _ in range(2):
        done([script, prefix, trial.program])
    expect(
        done([os.path.join(prefix, "bin", "irrdesk"), "--version"]),
        done([trial.program, "--version"]),
        "the version",
    )
    expect(
        done([os.path.join(prefix, "bin", "irr"), "--help"]).splitlines()[0],
        "usage: irr COMMAND [WORD ...]",
        "the help of irr",
    )
    for shell, path in [
        ("bash", "bash-completion/completions/irr"),
        ("fish", "fish/vendor_completions.d/irr.fish"),
        ("zsh", "zsh/site-functions/_irr"),
    ]:
        with open(os.path.join(prefix, "share", path), encoding="utf-8") as file:
            expect(
                file.read(),
                done([os.path.join(prefix, "bin", "irr"), "completion", shell]),
                f"what {shell} completes by",
            )
    count = len(tree(prefix))
    done([script, "--undo", prefix])
    expect(tree(prefix), before, "what is left")
    again = subprocess.run([script, "--undo", prefix], capture_output=True, text=True, check=False)
    expect(
        (again.returncode, again.stderr),
        (1, f"install: nothing is installed in {prefix}\n"),
        "undone once more",
    )
    tell(f"{count} files and folders")


# Units.


@systemd
def test_systemd_finds_no_fault_in_the_units(trial: Trial, tell: Tell) -> None:
    """That systemd-analyze accepts the units, the programs that they start being in place."""
    folder = trial.place("units")
    units = [
        name
        for name in sorted(os.listdir(UNITS))
        if name.endswith((".service", ".socket", ".timer"))
    ]
    for name in units:
        with open(os.path.join(UNITS, name), encoding="ascii") as opened:
            text = opened.read()
        for installed, here in [
            ("/usr/bin/irrdesk", trial.program),
            ("/usr/bin/irr ", f"{packed(trial)} "),
            ("/usr/lib/irrdesk", UNITS),
        ]:
            text = text.replace(installed, here)
        write(folder, name, text.encode())
    made = subprocess.run(
        ["systemd-analyze", "verify", "--man=no", *units],
        cwd=folder,
        capture_output=True,
        text=True,
        timeout=PATIENCE,
        check=False,
    )
    reported = [line for line in made.stderr.splitlines() if any(name in line for name in units)]
    expect((made.returncode, reported), (0, []), "what systemd-analyze says")
    tell(f"{len(units)} units")


def allowed_calls() -> set[str]:
    """The system calls that the unit's filter lets through."""
    groups: dict[str, set[str]] = {}
    for line in done(["systemd-analyze", "syscall-filter"]).splitlines():
        line = re.sub(r"\x1b\[[0-9;]*m", "", line)
        if line.startswith("@"):
            calls = groups[line.strip()] = set()
        elif line.strip() and not line.strip().startswith("#"):
            calls.add(line.strip())

    def calls_of(group: str) -> set[str]:
        return set().union(
            *(calls_of(call) if call.startswith("@") else {call} for call in groups[group])
        )

    return calls_of("@default") | calls_of("@system-service") - calls_of("@privileged") - calls_of(
        "@resources"
    )


def unit_lines(name: str) -> dict[str, str]:
    """The settings of a unit; a backslash at its end continues a line."""
    text = Path(UNITS, name).read_text(encoding="ascii").replace("\\\n", " ")
    return dict(re.findall(r"^([A-Z]\w+)=(.*)$", text, re.M))


@systemd
@limiting
def test_the_command_of_the_unit_does_within_its_limits(trial: Trial, tell: Tell) -> None:
    """The unit's command, as a user without capabilities and within the unit's limits: what it asks
    of the system is allowed."""
    folder = trial.place("unit")
    os.chmod(folder, 0o777)
    program = shutil.copy(trial.program, os.path.join(folder, "irrdesk"))
    os.chmod(program, 0o755)
    port = free_port()
    write_settings(folder, limit=LIMIT)
    command = unit_lines("irrdesk.service")["ExecStart"].split()
    command = [
        {"/etc/irrdesk/irr.toml": "s.toml", "4343": str(port), "1000000": "3"}.get(word, word)
        for word in command[1:]
    ]
    user = (
        [f"--reuid={NOBODY}", f"--regid={NOBODY}", "--clear-groups", "--bounding-set=-all"]
        if os.geteuid() == 0
        else []
    )
    within = ["prlimit", "--core=0", "setpriv", "--no-new-privs", "--inh-caps=-all", *user]
    done([*within, program, "init", "s.toml"], cwd=folder, umask=0o077)
    seen = os.path.join(folder, "seen")
    traced = [*within, "strace", "-f", "-o", seen, program, *command]
    process = subprocess.Popen(
        traced, cwd=folder, stdout=subprocess.PIPE, stderr=subprocess.PIPE, umask=0o077
    )
    try:
        expect(process.stdout.readline(), b"listening on 127.0.0.1:%d\n" % port, "its first line")
        body = b"password: bc\n\n" + item(b"inetnum", b"10.0.0.0/8")
        posted = b"POST /submissions HTTP/1.1\r\nContent-Length: %d\r\n\r\n" % len(body) + body
        for text in [b"ROOT-MNT\n", b"GET /dump HTTP/1.1\r\n\r\n", posted]:
            with contextlib.closing(socket.create_connection(("127.0.0.1", port), 30)) as peer:
                peer.sendall(text)
                expect(
                    read_all(peer)[:1] in (b"m", b"H"), True, f"whether {text[:20]!r} is answered"
                )
        printed, reported = process.communicate(timeout=PATIENCE)
        expect(
            (process.returncode, printed, reported), (0, b"served 3, failed 0\n", b""), "its end"
        )
    finally:
        process.kill()
    with open(seen, encoding="ascii") as opened:
        calls = set(re.findall(r"^[0-9]+ +([a-z_0-9]+)\(", opened.read(), re.MULTILINE))
    expect(sorted(calls - allowed_calls()), [], "calls that the unit refuses")
    expect(
        os.stat(os.path.join(folder, "irr.db")).st_mode & 0o077, 0, "who else may read the database"
    )
    tell(f"{len(calls)} calls of the system, all allowed")


def test_an_opening_gives_back_memory_with_the_environment_of_the_unit(
    trial: Trial, tell: Tell, monkeypatch: pytest.MonkeyPatch
) -> None:
    """That a server holds less with the unit's environment, and a replica as little."""
    folder = trial.place("memory")
    write_settings(folder, limit=LIMIT)
    done([trial.program, "init", "s.toml"], cwd=folder)
    first = done([trial.program, "dump", "s.toml", "--full"], cwd=folder)
    os.remove(os.path.join(folder, "irr.db"))
    sets = b"\n".join(item(b"as-set", b"AS-S%05d" % number) for number in range(OBJECTS))
    write(folder, "full.rpsl", first.encode() + b"\n" + sets)
    done([trial.program, "load", "s.toml", "full.rpsl"], cwd=folder)
    monkeypatch.setenv("IRRDESK", trial.program)
    replica = Replica(Path(folder), free_port())
    replica.folder.mkdir()
    shutil.copy(os.path.join(folder, "s.toml"), replica.folder / "irr.toml")
    shutil.copy(os.path.join(folder, "irr.db"), replica.folder)
    with Serving([trial.program], folder, 1) as server:
        without = held(server.process)
    environment = unit_lines("irrdesk.service")["Environment"]
    with Serving(["env", environment, trial.program], folder, 1) as server:
        within = held(server.process)
    replica.start()
    assert replica.process
    copied = held(replica.process)
    replica.kill()
    seen = f"{without} kB, {within} in the unit, {copied} in a replica"
    expect(max(within, copied) + SAVED < without, True, seen)
    tell(seen)


def held(process: "subprocess.Popen[bytes]") -> int:
    """What a process has in memory, in kB."""
    status = Path(f"/proc/{process.pid}/status").read_text(encoding="ascii")
    return int(re.findall(r"^VmRSS:\s+(\d+) kB$", status, re.M)[0])


def waiting(process: subprocess.Popen[str], port: int) -> subprocess.Popen[bytes]:
    """The helper of the unit, which waits until this process listens at this port."""
    return subprocess.Popen(
        [os.path.join(UNITS, "irrdesk-ready"), str(process.pid), str(port)],
        stderr=subprocess.PIPE,
    )


def test_a_start_has_ended_when_the_port_answers(trial: Trial, tell: Tell) -> None:
    """That the unit's helper waits while a registry is opened, ends once its own process listens,
    and fails where that ends: also where another process has the port."""
    folder, port = trial.place("ready"), free_port()
    write_settings(folder, limit=LIMIT)
    done([trial.program, "init", "s.toml"], cwd=folder)
    serve = [trial.program, "serve", "s.toml", "--port", str(port), "--count", "1"]
    opening = subprocess.Popen(
        ["sh", "-c", f"sleep 2; exec {shlex.join(serve)}"], cwd=folder, text=True
    )
    start = time.monotonic()
    try:
        helper = waiting(opening, port)
        expect((helper.communicate(timeout=PATIENCE)[1], helper.returncode), (b"", 0), "its end")
        seconds = time.monotonic() - start
        expect(seconds > 2, True, f"whether it waited: {seconds:.1f} s")
        other = subprocess.Popen(["sh", "-c", "sleep 2; exit 4"], text=True)
        helper = waiting(other, port)
        other.wait(PATIENCE)
        expect((helper.communicate(timeout=PATIENCE)[1], helper.returncode), (b"", 1), "beside it")
        with contextlib.closing(socket.create_connection(("127.0.0.1", port), 30)) as peer:
            peer.sendall(b"ROOT-MNT\n")
            expect(read_all(peer)[:6], b"mntner", "whether the helper took no connection")
        expect(opening.wait(PATIENCE), 0, "the server's end")
    finally:
        opening.kill()
    tell(f"after {seconds:.1f} s, of which 2 s were waited for")


def test_each_unit_is_bounded_and_may_be_stopped() -> None:
    """That each service has a bound of memory, and that none which is stopped has failed: `irr`
    ends by status 143 then, what runs once or waits by the signal."""
    for path in sorted(Path(UNITS).glob("*.service")):
        lines = unit_lines(path.name)
        expect("MemoryMax" in lines, True, f"whether {path.name} has a bound of memory")
        # While the registry's unit starts, a command waits for its port.
        is_once = lines["Type"] == "oneshot" or path.name == "irrdesk.service"
        wanted = "143 SIGTERM" if is_once else "143"
        expect(lines.get("SuccessExitStatus"), wanted, f"the ends of {path.name}")
        if lines.get("Restart") == "always":
            # Clients wait for a door that can't start.
            limit = ("2min", "10") if path.name == "irrdesk-door.service" else ("1h", "100")
            found = lines.get("StartLimitIntervalSec"), lines.get("StartLimitBurst")
            expect(found, limit, f"the starts of {path.name}")


def test_the_ports_of_the_door_are_those_that_an_upgrade_keeps_open() -> None:
    """An upgrade restarts no socket. If this one changes, docs/UPGRADING.md has to say that it is
    to be restarted."""
    text = Path(UNITS, "irrdesk-door.socket").read_text(encoding="ascii")
    kept = ["ListenStream=43", "ListenStream=127.0.0.1:4380", "ListenStream=127.0.0.1:4381"]
    section = text.partition("[Socket]\n")[2].partition("\n\n")[0].splitlines()
    expect(section, [*kept, "BindIPv6Only=both", "Backlog=1024"], "the socket of 2.0.0")


def test_each_unit_may_read_its_settings() -> None:
    """That what a unit reads of /etc/irrdesk, which only the registry's user may enter, is bound
    into the sandbox of each unit of another user."""
    for path in sorted(Path(UNITS).glob("*.service")):
        lines = unit_lines(path.name)
        if lines.get("User") != "irrdesk":
            bound = [word.lstrip("-") for word in lines.get("BindReadOnlyPaths", "").split()]
            for named in re.findall(r"/etc/irrdesk/\S+", lines["ExecStart"]):
                held = [at for at in bound if named == at or named.startswith(f"{at}/")]
                expect(len(held), 1, f"{path.name}: whether {named} is bound, of {bound}")
                expect("TemporaryFileSystem" in lines, True, f"whether {path.name} may enter it")


def packed(trial: Trial) -> str:
    """The path of the tool, packed as it is installed."""
    path = os.path.join(trial.work, "irr")
    if not os.path.exists(path):
        done([os.path.join(TOP, "tools", "build"), path])
    return path

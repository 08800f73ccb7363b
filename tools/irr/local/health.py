"""How a registry of this machine is, and what stands round it: what is wrong, each with a word and
its remedy. docs/WATCHING.md has a row for each word."""

import calendar
import contextlib
import dataclasses
import functools
import http.client
import json
import os
import socket
import time
from collections import Counter
from pathlib import Path
from typing import Any, Iterator, NamedTuple
from urllib.parse import urlsplit

from irr.errors import SETTINGS, Failure, system_words
from irr.local import databases
from irr.local.history import Repository, shown_time
from irr.rpsl import keys
from irr.system import services, tomls
from irr.terminal import texts

# What is to be done about each fault.
REMEDIES = {
    "registry-down": "wait while the database is opened, or see `systemctl status irrdesk`",
    "registry-failed": "`irrdesk-check.service` restarts it; `journalctl --unit irrdesk` says why",
    "registry-slow": "`irrdesk-check.service` restarts it; see in `irr log`, or in the proxy's log,"
    " which clients keep it busy",
    "registry-other": "see with `ss -ltnp`, as root, which program listens there",
    "mirror-down": "see `systemctl status irrdesk-mirror`",
    "replicas-not-renewed": "fix the cause, unless the next attempt is good; the replicas that are"
    " there answer meanwhile",
    "replica-old": "see `systemctl status irrdesk-mirror`",
    "door-down": "`irrdesk-check.service` restarts it, unless it was stopped; see"
    " `journalctl --unit irrdesk-door`; if it refuses its settings, correct door.toml, then run"
    " `systemctl reset-failed irrdesk-door.service irrdesk-door.socket; systemctl start"
    " irrdesk-door.socket irrdesk-door.service`",
    "door-in-part": "see http://127.0.0.1:4381/status",
    "unit-failed": "fix what its journal reports, and start it",
    "unit-stopped": "start it, or disable it",
    "backup-old": "run `systemctl start irrdesk-backup`; if that fails, `journalctl --unit"
    " irrdesk-backup` says why",
    "history-old": "`journalctl --unit irrdesk-history` says why",
    "mirror-behind": "tell its operator that it may need a new dump; if it no longer follows the"
    " registry, restart the door",
    "certificate-ends": "renew it, and reload the proxy",
    "certificate-bad": "correct the proxy's certificate, or the name; add a certificate authority"
    " of your own with `update-ca-certificates`",
    "disk-full": "make room: a full disk stops the registry",
    "clock-ahead": "correct the clock, and remove or rename what is dated in the future",
    "clock-jumped": "correct the clock; if it is right now, run `systemctl restart"
    " irrdesk-check.timer`",
    "memory-full": "remove unwanted objects, or raise its `MemoryMax`: see OPEN.md",
}
# Where a fault has another remedy in one case: which case that is, and what is to be done then.
CASES = {
    "registry-down": (
        "if its unit has failed, or is started again and again",
        "`journalctl --unit irrdesk` says why",
    ),
    "unit-failed": (
        "if it is irrdesk-door.socket (resources)",
        "see with `ss -ltnp`, as root, which program has its port, end it, and start the socket",
    ),
    "certificate-bad": ("if nothing listens at its port", "start the proxy"),
    "clock-ahead": (
        "for replicas and the database",
        "correct the clock; replicas renew themselves; never remove the database, but `touch` it",
    ),
}
# What a start of a unit mends, by the fault.
RESTARTED = {
    "registry-failed": "irrdesk.service",
    "registry-slow": "irrdesk.service",
    "door-down": "irrdesk-door.service",
}
VIEW = "irrdesk-view@"
UNITS = (
    *("irrdesk.service", "irrdesk-check.timer", "irrdesk-mirror.service"),
    *("irrdesk-door.socket", "irrdesk-door.service"),
    *("irrdesk-backup.timer", "irrdesk-backup.service"),
    *("irrdesk-history.timer", "irrdesk-history.service"),
    *("irrdesk-export.timer", "irrdesk-export.service"),
    *("irrdesk-nrtm4.timer", "irrdesk-nrtm4.service"),
    *("irrdesk-dump.timer", "irrdesk-dump.service"),
    *("irrdesk-filter.timer", "irrdesk-filter.service"),
    *("irrdesk-notify.timer", "irrdesk-notify.service"),
    f"{VIEW}*.service",
)
PROPERTIES = (
    "Id,ActiveState,NRestarts,StatusText,UnitFileState,Result,ControlGroup,MemoryCurrent,MemoryMax,"
    "ActiveEnterTimestamp,ActiveEnterTimestampMonotonic"
)
# After so many restarts by systemd, a unit that starts does so in vain.
AGAIN = 3
WANTED = "/etc/systemd/system"
GROUPS = "/sys/fs/cgroup"
HOUR, DAY, MEBIBYTE = 3_600, 86_400, 1 << 20
# Seconds for a proxy's certificate, and OpenSSL's number of one whose time has not begun.
SHOWING, NOT_YET_VALID = 10, 9
# The most seconds for the door's status and for the agent's state: both answer from memory. While
# the door refuses its settings, systemd keeps its ports open, and whoever asks there waits.
AT_ONCE = 20
MOST = 1 << 22


class Fault(NamedTuple):
    """What is wrong: its word, the thing, and what of it; and whether it is the case of its word
    that has a remedy of its own."""

    word: str
    thing: str
    what: str
    is_case: bool = False

    @property
    def remedy(self) -> str:
        return CASES[self.word][1] if self.is_case else REMEDIES[self.word]

    def line(self) -> str:
        return texts.shown_line(f"{self.word}: {self.thing}: {self.what}; {self.remedy}")

    def as_json(self) -> dict[str, str]:
        return {
            "check": self.word,
            "thing": self.thing,
            "what": self.what,
            "remedy": self.remedy,
        }


@dataclasses.dataclass(frozen=True)
class Bounds:
    """From when on something is a fault: options of `irr check`, and keys of `[check]` in
    irr.toml."""

    seconds: float = 300
    replica_age: float = 600
    backup_age: float = 26
    history_age: float = 1
    behind: float = 10_000
    certificate: tuple[str, ...] = ()
    certificate_days: float = 14
    disk: float = 512
    clock: float = 300
    memory: float = 90


@dataclasses.dataclass(frozen=True)
class Places:
    """Where it is looked."""

    url: str = "http://127.0.0.1:4343/query/ROOT-MNT"
    door: str = ""
    agent: str = ""
    settings: str = databases.DEFAULT
    backups: str = "/var/lib/irrdesk-backup"
    history: str = "/var/lib/irrdesk-history"


def bounds(path: str, given: dict[str, Any]) -> tuple[Bounds, dict[str, Any], list[str]]:
    """The bounds of the settings' table `check`, with what is given over them; the settings; and
    that this user may not read them."""
    unseen: list[str] = []
    found: dict[str, Any] = {}
    try:
        with contextlib.suppress(FileNotFoundError), open(path, "rb"):
            found = tomls.parsed(path, tomls.text_of(path))
    except PermissionError:
        unseen.append(f"{path}: this user may not read the settings")
    table = found.get("check", {})
    fields = {field.name: field.default for field in dataclasses.fields(Bounds)}
    if not isinstance(table, dict):
        raise Failure(f"{path}: check", "this is not a table; write [check]", SETTINGS)
    values: dict[str, Any] = {}
    for name, value in table.items():
        if name not in fields:
            raise Failure(
                f"{path}: check.{name}", "there is no such key; see irr.toml(5)", SETTINGS
            )
        values[name] = checked(f"{path}: check.{name}", value, fields[name])
    values |= {name: value for name, value in given.items() if value is not None}
    return Bounds(**values), found, unseen


def checked(thing: str, value: Any, default: Any) -> Any:
    """A value of the kind that the default has."""
    if isinstance(default, tuple):
        if not isinstance(value, list) or not all(isinstance(one, str) for one in value):
            raise Failure(thing, 'it takes a list of names, such as ["irr.example.net"]', SETTINGS)
        return tuple(value)
    if isinstance(value, bool) or not isinstance(value, (int, float)) or not 0 <= value <= 1e9:
        raise Failure(thing, "it takes a number from 0; correct it", SETTINGS)
    return float(value)


class Unasked(Exception):
    """Why something did not answer."""


def words_of(error: Exception) -> str:
    return system_words(error) if isinstance(error, OSError) else str(error)


class Health:
    """What is looked at, one after the other."""

    def __init__(self, places: Places, bounds: Bounds, settings: dict[str, Any]) -> None:
        self.places, self.bounds, self.settings = places, bounds, settings
        self.faults: list[Fault] = []
        # What could not be looked at, and why.
        self.unseen: list[str] = []
        # Times that things are dated, and those of replicas and of the database.
        self.dated: list[tuple[str, float]] = []
        self.replicas: list[tuple[str, float]] = []
        self.states: dict[str, dict[str, str]] = {}
        self.enabled: set[str] = set()
        self.now = time.time()

    def look(self) -> None:
        """All of it."""
        self.ask_systemd()
        # A wrong clock makes other things look wrong, so that it is said first.
        self.look_at_clock()
        self.ask_registry()
        self.ask_agent()
        self.ask_door()
        self.look_at_backups()
        self.look_at_history()
        for name in self.bounds.certificate:
            self.look_at_certificate(name)
        self.look_at_disk()
        self.look_at_memory()
        self.look_at_dates()

    def fault(self, word: str, thing: str, what: str, is_case: bool = False) -> None:
        self.faults.append(Fault(word, thing, what, is_case))

    @contextlib.contextmanager
    def seeing(self, thing: str | Path) -> Iterator[None]:
        """What this user may not see is no fault."""
        try:
            yield
        except OSError as error:
            self.unseen.append(f"{thing}: it cannot be read: {system_words(error)}")

    def metrics(self) -> str:
        """How many faults there are of each word, and when that was, for Prometheus."""
        count = Counter(fault.word for fault in self.faults)
        lines = [
            "# HELP irrdesk_check_faults Faults that irr check found, by their word.",
            "# TYPE irrdesk_check_faults gauge",
            *(f'irrdesk_check_faults{{check="{word}"}} {count[word]}' for word in REMEDIES),
            "# HELP irrdesk_check_time_seconds When irr check looked.",
            "# TYPE irrdesk_check_time_seconds gauge",
            f"irrdesk_check_time_seconds {self.now:.0f}",
        ]
        return "".join(f"{line}\n" for line in lines)

    # Units.

    def ask_systemd(self) -> None:
        """The states of the units."""
        with self.seeing(WANTED):
            links = Path(WANTED).glob("*.wants/irrdesk*")
            self.enabled = {path.name for path in links if os.path.lexists(path)}
        try:
            done = services.systemctl(
                "show", f"--property={PROPERTIES}", *UNITS, *sorted(self.enabled)
            )
        except Failure as failure:
            self.unseen.append(str(failure))
            return
        if done.returncode or not done.stdout.strip():
            why = " ".join(done.stderr.split()) or "it says nothing"
            self.unseen.append(f"systemd: it cannot be asked: {why}")
            return
        for block in done.stdout.strip().split("\n\n"):
            state = dict(line.partition("=")[::2] for line in block.splitlines())
            if state.get("Id"):
                self.states[state["Id"]] = state
        self.enabled |= {
            name for name, state in self.states.items() if state.get("UnitFileState") == "enabled"
        }
        for name, state in self.states.items():
            if state.get("ActiveState") == "failed":
                result = state.get("Result")
                is_taken = name.endswith(".socket") and result == "resources"
                self.fault("unit-failed", name, f"it has failed ({result})", is_taken)
            elif name in self.enabled and state.get("ActiveState") == "inactive":
                self.fault("unit-stopped", name, "it is enabled, and does not run")
            elif name.startswith(VIEW) and "not renewed" in state.get("StatusText", "").lower():
                # The door says so only of the views that it serves.
                what = state["StatusText"].replace("NOT RENEWED", "not renewed", 1)
                self.fault("replicas-not-renewed", name, what)

    # Who answers.

    def ask_registry(self) -> None:
        """One query over HTTP. An operator's own submission may hold the server for minutes."""
        url, name = self.places.url, "irrdesk.service"
        state = self.states.get(name, {})
        is_off = state.get("ActiveState") == "inactive" and name not in self.enabled
        if is_off and url == Places.url:
            return
        try:
            status, _ = fetched(url, self.bounds.seconds)
        except ConnectionRefusedError:
            restarts = state.get("NRestarts", "0")
            how = state.get("ActiveState")
            is_again = how == "activating" and restarts.isdigit() and int(restarts) >= AGAIN
            self.fault("registry-down", url, "nothing listens", is_again or how == "failed")
        except Unasked as why:
            self.fault("registry-slow", url, f"no whole answer within {self.seconds} s ({why})")
        except (OSError, ValueError) as error:
            self.fault("registry-other", url, f"it cannot be asked ({error})")
        else:
            if status == 503:
                self.fault("registry-failed", url, "status 503, the database has failed")
            elif status != 200:
                self.fault("registry-other", url, f"status {status} and not 200")

    @property
    def seconds(self) -> str:
        return f"{self.bounds.seconds:g}"

    @property
    def at_once(self) -> float:
        """How long those may take who answer from memory."""
        return min(self.bounds.seconds, AT_ONCE)

    def ask_agent(self) -> None:
        """What the agent of the mirror says of its replicas."""
        place = self.places.agent
        if not place and "irrdesk-mirror.service" in self.enabled:
            place = str(self.door_settings.get("agent", "127.0.0.1:4340"))
        if not place:
            return
        try:
            text = exchanged(place, b"state\n", self.at_once)
            state = json.loads(text)
            fault, replicas = str(state["fault"]), list(state["replicas"])
            found = [(str(one["port"]), bool(one["ready"]), float(one["seen"])) for one in replicas]
        except (OSError, Unasked) as why:
            self.fault("mirror-down", place, f"the agent does not answer ({words_of(why)})")
            return
        except (ValueError, KeyError, TypeError):
            self.fault("mirror-down", place, "another program answers: `ss -ltnp` says which")
            return
        if fault:
            since = texts.since(seen for _, _, seen in found)
            self.fault("replicas-not-renewed", place, f"not renewed{since}: {fault}")
        for port, is_ready, seen in found:
            thing, age = f"replica 127.0.0.1:{port}", self.now - seen
            self.replicas += [(thing, seen)] * bool(seen)
            if seen and age > self.bounds.replica_age:
                self.fault("replica-old", thing, f"its state is {age:.0f} s old")
            elif not is_ready and not fault:
                self.unseen.append(f"{thing}: it is about to be renewed")

    @functools.cached_property
    def door_settings(self) -> dict[str, Any]:
        """The settings of the door, if they are to be read."""
        path = str(Path(self.places.settings).parent / "door.toml")
        try:
            return tomls.parsed(path, tomls.text_of(path))
        except Failure as failure:
            self.unseen.append(str(failure))
            return {}

    def ask_door(self) -> None:
        """How the door is, and how far those are who mirror the registry."""
        place = self.places.door
        if not place and "irrdesk-door.service" in self.enabled:
            place = str(self.door_settings.get("status", "127.0.0.1:4381"))
        if not place:
            return
        try:
            _, text = fetched(f"http://{place}/status", self.at_once)
        except (OSError, ValueError, Unasked) as why:
            self.fault("door-down", place, f"the door does not answer ({words_of(why)})")
            return
        lines = text.decode("utf-8", "replace").splitlines()
        if not lines:
            self.fault("door-down", place, "the door answers nothing")
        elif not lines[0].startswith("well"):
            self.fault("door-in-part", place, "; ".join(lines))
        with contextlib.suppress(OSError, ValueError, KeyError, TypeError, Unasked):
            _, text = fetched(f"http://{place}/status?json", self.at_once)
            self.look_at_mirrors(json.loads(text)["serials"] or {})

    def look_at_mirrors(self, serials: dict[str, Any]) -> None:
        """How many serials each mirror is behind, and whether it can still follow."""
        last, first = int(serials.get("last", 0)), int(serials.get("first", 0))
        for address, one in serials.get("mirrors", {}).items():
            behind = last - int(one["serial"])
            if int(one["serial"]) + 1 < first:
                self.fault("mirror-behind", address, "what it lacks is no longer kept")
            elif behind > self.bounds.behind:
                self.fault("mirror-behind", address, f"it is {behind:,} serials behind")

    # What is kept.

    def look_at_backups(self) -> None:
        """How old the newest backup is. The unit makes the folder with its first backup."""
        place = Path(self.places.backups)
        if "irrdesk-backup.timer" not in self.enabled and place == Path(Places.backups):
            return
        with self.seeing(place):
            names: list[str] = []
            with contextlib.suppress(FileNotFoundError):
                names = [name for name in os.listdir(place) if (place / name / "irr.db").is_file()]
            names = [name for name in names if (place / name / "irr.db").stat().st_size]
            times = sorted(filter(None, map(backup_time, names)))
            past = [when for when in times if when <= self.now + self.bounds.clock]
            late = times[len(past) :]
            self.dated += [(f"{texts.counted(len(late), 'backup')} in {place}", at) for at in late]
            if not past:
                self.fault("backup-old", str(place), "there is no backup")
            elif (age := self.now - past[-1]) > self.bounds.backup_age * HOUR:
                self.fault("backup-old", str(place), f"the newest is {age / HOUR:.0f} hours old")

    def look_at_history(self) -> None:
        """When the public dump was last fetched."""
        looked = Path(self.places.history) / "looked"
        if "irrdesk-history.timer" not in self.enabled and str(looked.parent) == Places.history:
            return
        with self.seeing(looked):
            if not looked.exists():
                return
            when = looked.stat().st_mtime
            self.dated += [(str(looked), when), *self.last_state(looked.parent)]
            if (age := self.now - when) > self.bounds.history_age * HOUR:
                self.fault("history-old", str(looked.parent), f"it is {age / HOUR:.0f} hours old")

    def last_state(self, place: Path) -> list[tuple[str, float]]:
        """The time of the last state of the history, which later ones never precede."""
        with contextlib.suppress(Failure, ValueError):
            return [(f"history {place}", float(Repository(place).git("log", "-1", "--format=%ct")))]
        return []

    def look_at_certificate(self, name: str) -> None:
        """When the certificate ends that the proxy of this machine shows for a name."""
        import ssl

        host, _, digits = name.partition(":")
        context = ssl.create_default_context()
        try:
            port = int(digits or 443)
            with socket.create_connection(("127.0.0.1", port), SHOWING) as plain:
                with context.wrap_socket(plain, server_hostname=host) as secure:
                    ends = ssl.cert_time_to_seconds(str((secure.getpeercert() or {})["notAfter"]))
        except ssl.SSLCertVerificationError as error:
            is_over = "expired" in error.verify_message
            word = "certificate-ends" if is_over else "certificate-bad"
            is_early = error.verify_code == NOT_YET_VALID
            mend = ": correct the clock, or renew it" if is_early else ""
            self.fault(word, name, error.verify_message + mend)
        except ConnectionRefusedError:
            self.fault("certificate-bad", name, f"nothing listens at port {port}", True)
        except (OSError, ValueError, KeyError) as error:
            self.fault("certificate-bad", name, f"there is none to be seen ({error})")
        else:
            days = (ends - self.now) / DAY
            if days < self.bounds.certificate_days:
                self.fault("certificate-ends", name, f"it ends at {shown_time(ends)}")

    # The machine.

    @property
    def store(self) -> Path:
        path = Path(str(self.settings.get("store", "/var/lib/irrdesk/irr.db")))
        is_service = self.places.settings == databases.DEFAULT and not path.is_absolute()
        return services.folder() / path if is_service else path

    def look_at_disk(self) -> None:
        """The room where the database is."""
        folder = self.store.parent
        with self.seeing(folder):
            if not folder.exists():
                return
            found = os.statvfs(folder)
            free = found.f_bavail * found.f_frsize / MEBIBYTE
            if free < self.bounds.disk:
                self.fault("disk-full", str(folder), f"{free:.0f} MiB are free")
            elif found.f_files and not found.f_favail:
                self.fault("disk-full", str(folder), "there is no room for another file")

    def look_at_memory(self) -> None:
        """What the units hold of what they may, without what the system can take back."""
        for name, state in self.states.items():
            most = keys.read_number(state.get("MemoryMax", ""), 1, 10**18 - 1)
            if state.get("ActiveState") != "active" or most is None:
                continue
            held = keys.read_number(state.get("MemoryCurrent", ""), 0, 10**18 - 1)
            with contextlib.suppress(OSError, ValueError):
                group = Path(f"{GROUPS}{state.get('ControlGroup', '')}")
                rows = (group / "memory.stat").read_text(encoding="ascii").splitlines()
                kept = dict(row.split() for row in rows)
                held = max(0, (held or 0) - int(kept["file"]))
            if held is not None and 100 * held > self.bounds.memory * most:
                self.fault("memory-full", name, f"{held // MEBIBYTE} MiB of {most // MEBIBYTE}")

    def look_at_dates(self) -> None:
        """Whether anything is dated later than the clock says: one fault for each remedy."""
        for path in (self.store, databases.beside(self.store, databases.LOG)):
            with contextlib.suppress(OSError):
                self.replicas.append((str(path), path.stat().st_mtime))
        for dated, is_case in (self.dated, False), (self.replicas, True):
            late = [(thing, at) for thing, at in dated if at > time.time() + self.bounds.clock]
            if late:
                things, times = zip(*late)
                what = texts.ahead(times, self.now)
                self.fault("clock-ahead", ", ".join(dict.fromkeys(things)), what, is_case)

    def look_at_clock(self) -> None:
        """Whether the clock went further since the timer of the check was started than the time
        that passed, suspensions included."""
        unit = "irrdesk-check.timer"
        state = self.states.get(unit, {})
        began = keys.read_number(state.get("ActiveEnterTimestampMonotonic", ""), 1, 10**18 - 1)
        if state.get("ActiveState") != "active" or began is None:
            return
        with contextlib.suppress(ValueError):
            _, *day_and_time, _ = state.get("ActiveEnterTimestamp", "").split()
            said = calendar.timegm(time.strptime(" ".join(day_and_time), "%Y-%m-%d %H:%M:%S"))
            passed = time.clock_gettime(time.CLOCK_BOOTTIME) - began / 1e6
            jump = time.time() - said - passed
            if jump > self.bounds.clock and not services.is_synchronised():
                what = f"{jump / HOUR:.1f} hours more than passed since {unit} was started"
                self.fault("clock-jumped", "the clock", f"it went ahead by {what}")


def backup_time(name: str) -> float | None:
    """The time of the backup of a name; None for what is no backup."""
    try:
        return calendar.timegm(time.strptime(name, databases.STAMP))
    except ValueError:
        return None


# How a place is asked.


def fetched(url: str, seconds: float) -> tuple[int, bytes]:
    """The status and the body of an answer over HTTP, which has to be whole in these seconds."""
    parts = urlsplit(url)
    if parts.scheme != "http" or not parts.hostname:
        raise ValueError("this is not an address such as http://127.0.0.1:4343/query/ROOT-MNT")
    end = time.monotonic() + seconds
    with contextlib.closing(
        http.client.HTTPConnection(parts.hostname, parts.port, timeout=seconds)
    ) as asked:
        with telling():
            asked.connect()
        with telling():
            words = {"Connection": "close"}
            asked.request(
                "GET", parts.path + (f"?{parts.query}" if parts.query else ""), headers=words
            )
            answer = asked.getresponse()
            body = b""
            while piece := answer.read1(65_536):
                body += piece
                if time.monotonic() > end or len(body) > MOST:
                    raise Unasked("it goes on and on")
            if answer.length:
                raise Unasked("it was cut off")
            return answer.status, body


@contextlib.contextmanager
def telling() -> Iterator[None]:
    """Says why there was no whole answer; that nobody listens is reported as it is."""
    try:
        yield
    except ConnectionRefusedError:
        raise
    except TimeoutError:
        raise Unasked("it is silent") from None
    except ConnectionError as error:
        raise Unasked(system_words(error)) from None
    except http.client.HTTPException as error:
        raise Unasked(str(error) or type(error).__name__) from None


def exchanged(place: str, asked: bytes, seconds: float) -> bytes:
    """What a place answers to a line, until it ends."""
    host, _, port = place.rpartition(":")
    end, text = time.monotonic() + seconds, b""
    with telling(), socket.create_connection((host.strip("[]"), int(port)), seconds) as peer:
        peer.sendall(asked)
        while piece := peer.recv(65_536):
            text += piece
            if time.monotonic() > end or len(text) > MOST:
                raise Unasked("it goes on and on")
    return text

"""A first registry, made step by step of a plan that is kept until all is done: each step finds out
what an earlier run did of it, so that what was interrupted is gone on with."""

import contextlib
import dataclasses
import json
import os
import re
import subprocess
from pathlib import Path
from typing import Any, Callable, Iterator

from irr.errors import DATABASE, FAILED, SETTINGS, Failure
from irr.local import databases, program
from irr.rpsl import hashes
from irr.rpsl.syntax import Attribute, Paragraph
from irr.system import files, services, tomls
from irr.terminal import texts

OF_GROUP = 0o640
# What the package has in its files: what differs from it somebody has set.
PACKAGED: dict[str, Any] = {
    "source": "EXAMPLE",
    "root": "ROOT-MNT",
    "auth": "",
    "limit": 10_000,
    "store": "/var/lib/irrdesk/irr.db",
}
PACKAGED_DOOR: dict[str, Any] = {
    "mirrors": [],
    "log": "/var/log/irrdesk-door/items.log",
}
HEAD = "# Settings of a registry, made by irr setup. Each key has to be there; see irr.toml(5).\n"
DOOR_HEAD = "# Settings of the door, made by irr setup. All of them are in irr-door(1).\n"
USERS = "/etc/nginx/irrdesk.users"
# What timers start, and what first runs before they do: serials come of the history.
FIRST = ["irrdesk-backup", "irrdesk-history", "irrdesk-export"]


@dataclasses.dataclass
class Plan:
    """What a registry is to be. Nothing in it is secret."""

    settings: str
    source: str
    root: str
    limit: int
    store: str
    # Whether it is the service's, or one in a folder of its own.
    is_service: bool
    # The files of the root's password and of the first maintainer's; the terminal shows one that
    # has none.
    save: str = ""
    maintainer: str = ""
    maintainer_save: str = ""
    door: bool = False
    # Who may submit through the proxy: `nobody`, `users`, `anybody`, or addresses.
    submit: list[str] = dataclasses.field(default_factory=lambda: ["nobody"])
    replicas: bool = False
    backups: bool = False
    history: bool = False
    mirrors: list[str] = dataclasses.field(default_factory=list)

    @property
    def folder(self) -> Path:
        return Path(self.settings).parent

    @property
    def door_settings(self) -> str:
        return str(self.folder / "door.toml")

    @property
    def submitters(self) -> dict[str, str]:
        """Who may submit, in the words of nginx and of HAProxy: the text of each file."""
        folder = self.folder
        return {
            str(folder / "submitters.conf"): for_nginx(self.submit),
            str(folder / "submitters.acl"): for_haproxy(self.submit),
        }

    @property
    def values(self) -> dict[str, Any]:
        """What irr.toml has to have, but for `auth`."""
        return {name: getattr(self, name) for name in ("source", "root", "limit", "store")}

    @property
    def door_values(self) -> dict[str, Any]:
        """What door.toml has to have."""
        if self.is_service:
            return {"mirrors": self.mirrors} if self.mirrors else {}
        return {
            "whois": ["127.0.0.1:4300"],
            "log": str(self.folder / "items.log"),
            "history": str(self.folder / "history"),
            "mirrors": self.mirrors,
        }

    @property
    def units(self) -> list[str]:
        """The units that are enabled and started, in their order."""
        if not self.is_service:
            return []
        found = ["irrdesk.service", "irrdesk-check.timer"]
        found += ["irrdesk-mirror.service"] * self.replicas
        found += ["irrdesk-door.socket", "irrdesk-door.service"] * self.door
        found += ["irrdesk-backup.timer"] * self.backups
        found += ["irrdesk-history.timer"] * self.history
        return found + ["irrdesk-export.timer"] * bool(self.mirrors)


def kept_at(settings: str) -> Path:
    """Where the plan of the settings is kept until all is done."""
    return Path(settings).parent / "setup.json"


def kept(settings: str) -> Plan | None:
    """The plan of a run that did not come to its end."""
    path = kept_at(settings)
    if not path.exists():
        return None
    try:
        found: dict[str, Any] = json.loads(files.read(str(path)))
        return Plan(**found)
    except (ValueError, TypeError):
        raise Failure(
            str(path),
            "this is not what irr setup leaves; remove it, and look what else is there",
            SETTINGS,
        ) from None


def set_by_others(plan: Plan) -> Iterator[tuple[str, str, Any, Any]]:
    """The settings that are neither what the package has nor what is to be: each with its file, its
    name, what it is and what it is to be."""
    for path, wanted, packaged in (
        (plan.settings, plan.values, PACKAGED),
        (plan.door_settings, plan.door_values if plan.door else {}, PACKAGED_DOOR),
    ):
        text = tomls.text_of(path)
        found = tomls.parsed(path, text)
        # That they can be put in, before anything is made.
        tomls.changed(path, text, wanted)
        for name, value in wanted.items():
            was = found.get(name, value)
            if name == "store":
                # A relative path begins where the service runs.
                was = os.path.join(os.path.dirname(PACKAGED["store"]), str(was))
            if was not in (value, packaged.get(name, value)):
                yield path, name, found[name], value


# What SQLite puts beside a database, and the bytes of one without a table: its first page.
ENDS = databases.LOG, databases.JOURNAL, "-shm"
PAGE = 4_096
# What systemd says of a unit that it enables.
LINKED = "Created symlink "
# Where it says to look, in place of which the message has its own remedy.
SEE = re.compile('See "[^"]*"( and "[^"]*")? for details\\.?')


class Made:
    """The steps. What each one has done is printed, and is left where a later one fails."""

    def __init__(self, plan: Plan, show: Callable[[str, str], None]) -> None:
        self.plan, self.show = plan, show
        self.program = program.find()
        self.left: list[str] = []

    def do(self) -> None:
        """All of it."""
        plan = self.plan
        try:
            self.keep()
            self.put_settings()
            self.put_door()
            self.make_registry()
            self.register()
            self.enable()
        except BaseException as error:
            if self.left:
                left = ", ".join(dict.fromkeys(self.left))
                error.add_note(
                    f"left behind: {left}; run irr setup again, and it goes on from there"
                )
            raise
        kept_at(plan.settings).unlink()

    def done(self, what: str, thing: str) -> None:
        """Says what was done."""
        self.left.append(thing)
        print(texts.shown_line(f"{thing}: {what}"), flush=True)

    def keep(self) -> None:
        """Keeps the plan, for a run that goes on."""
        path = kept_at(self.plan.settings)
        if not path.exists():
            if not self.plan.is_service:
                files.folder(self.plan.folder, 0o700)
            files.put_new(str(path), json.dumps(dataclasses.asdict(self.plan)).encode() + b"\n")
        self.left.append(str(path))

    # Settings.

    def put_settings(self) -> None:
        """irr.toml, with the `auth` of a new password where there is none yet."""
        plan = self.plan
        text = tomls.text_of(plan.settings)
        found, values = tomls.parsed(plan.settings, text), plan.values
        if not found.get("auth"):
            password = self.password(plan.save, f"the password of {plan.root}")
            values["auth"] = hashes.auth_of(password.encode(), hashes.new_salt())
        self.put(plan.settings, text or HEAD, values, files.PRIVATE)
        if plan.is_service:
            os.chown(plan.settings, -1, os.stat(plan.folder).st_gid)
            os.chmod(plan.settings, OF_GROUP)

    def password(self, path: str, name: str) -> str:
        """A new password, shown once or written into a file of its own; that of the file where an
        earlier run wrote it."""
        if path and os.path.exists(path):
            found = hashes.password_in(files.read(path))
            if not found:
                raise Failure(path, "it has no password of irr setup; move it away")
            return found
        password = hashes.new_password()
        if path:
            files.put_new(path, hashes.password_line(password))
            self.done(f"{name}, for you alone", path)
        else:
            self.show(name, password)
        return password

    def put(self, path: str, text: str, values: dict[str, Any], mode: int) -> None:
        """A file with these values, if it differs from what is there."""
        made = tomls.changed(path, text, values)
        if made != tomls.text_of(path):
            files.put(path, made.encode(), mode)
            self.done("written", path)

    def put_door(self) -> None:
        """door.toml, and who may submit through a proxy."""
        plan = self.plan
        if not plan.door:
            return
        text = tomls.text_of(plan.door_settings)
        self.put(plan.door_settings, text or DOOR_HEAD, plan.door_values, files.PUBLIC)
        if plan.is_service:
            for path, made in plan.submitters.items():
                if made != tomls.text_of(path):
                    files.put(path, made.encode(), files.PUBLIC)
                    self.done("who may submit through the proxy", path)
            for path in plan.door_settings, *plan.submitters:
                os.chmod(path, files.PUBLIC)

    # The registry.

    def run(self, *words: str, given: bytes = b"") -> "subprocess.CompletedProcess[bytes]":
        """Runs `irrdesk` with the settings, as the owner of the database's folder."""
        owner = os.stat(Path(self.plan.store).parent)
        as_owner: dict[str, Any] = (
            {"user": owner.st_uid, "group": owner.st_gid, "extra_groups": []}
            if self.plan.is_service
            else {}
        )
        # Another user may open it by its name, as it may no pipe of root's.
        with open(os.memfd_create("submission"), "w+b") as stdin:
            stdin.write(given)
            stdin.seek(0)
            return subprocess.run(
                [self.program, words[0], self.plan.settings, *words[1:]],
                stdin=stdin,
                capture_output=True,
                check=False,
                cwd="/",
                umask=0o077,
                **as_owner,
            )

    def make_registry(self) -> None:
        """The database with its initial objects."""
        store = Path(self.plan.store)
        if os.path.lexists(store):
            if self.plan.is_service:
                # The earlier run may have started it, and only one process opens the database.
                services.systemctl("stop", "irrdesk-check.timer", services.UNIT)
            done = self.run("probe")
            if not done.returncode:
                self.left.append(str(store))
                return
            if store.stat().st_size > PAGE:
                raise Failure(
                    str(store),
                    f"what is there can't be opened: {program.reported(done)}; move it away",
                    DATABASE,
                )
            # An `init` that was stopped, or found no room, leaves one without a table.
            for path in store, *(databases.beside(store, end) for end in ENDS):
                path.unlink(missing_ok=True)
        done = self.run("init")
        if done.returncode:
            raise Failure(
                self.plan.settings, f"irrdesk init: {program.reported(done)}", done.returncode
            )
        self.done(done.stdout.decode("ascii", "replace").strip(), str(store))

    def register(self) -> None:
        """The first maintainer, who needs nobody's password but its own."""
        plan = self.plan
        if not plan.maintainer or self.is_registered(plan.maintainer):
            return
        password = self.password(plan.maintainer_save, f"the password of {plan.maintainer}")
        auth = hashes.auth_of(password.encode(), hashes.new_salt())
        attributes = [
            (b"mntner", plan.maintainer),
            (b"auth", auth),
            (b"mnt-by", plan.maintainer),
            (b"source", plan.source),
        ]
        text = Paragraph([Attribute(name, [value.encode()]) for name, value in attributes]).text()
        given = hashes.password_line(password) + b"\n" + text
        done = self.run("submit", "/dev/stdin", given=given)
        if done.returncode:
            reported = (done.stdout or done.stderr).decode("utf-8", "replace").splitlines()
            why = reported[0] if reported else f"irrdesk ended with status {done.returncode}"
            raise Failure(f"mntner {plan.maintainer}", f"it can't be registered: {why}", DATABASE)
        self.done("registered", f"mntner {plan.maintainer}")

    def is_registered(self, maintainer: str) -> bool:
        return self.run("query", "object", "mntner", maintainer).stdout.startswith(b"mntner:")

    def enable(self) -> None:
        """The units, now and at each start of the machine. What a timer of FIRST starts runs once
        before it: a first backup, the first state of the history, and the first dump with serials.
        So the check never sees the timer of backups without a backup."""
        for unit in self.plan.units:
            name, _, kind = unit.rpartition(".")
            if kind == "timer" and name in FIRST:
                self.systemctl("start", f"{name}.service")
                self.done("run once", f"{name}.service")
            self.systemctl("enable", "--now", unit)
            self.done("enabled and started", unit)

    def systemctl(self, *words: str) -> None:
        done = services.systemctl(*words)
        if done.returncode:
            unit = words[-1]
            lines = [SEE.sub("", line) for line in done.stderr.splitlines()]
            told = [line.rstrip(". ") for line in lines if line and not line.startswith(LINKED)]
            is_socket = unit.endswith(".socket")
            port = "see with `ss -ltnp` whether another program has its port; " if is_socket else ""
            raise Failure(
                unit,
                f"it does not start: {' '.join(' '.join(told).split()) or 'nothing is reported'};"
                f" {port}mend what `journalctl --unit {unit}` says",
                FAILED,
            )


def submitting_from(who: list[str]) -> list[str]:
    """The addresses from which anybody may submit: this machine's own, and those given."""
    given = [one for one in who if one not in ("nobody", "users", "anybody")]
    return list(dict.fromkeys(["127.0.0.1", *given]))


def for_haproxy(who: list[str]) -> str:
    """The addresses from which anybody may submit, one a line, for `acl may_submit src -f`."""
    all_of_them = ["0.0.0.0/0", "::/0"] if "anybody" in who else []
    head = "# Who may submit, made by irr setup: for `acl may_submit src -f` of haproxy.cfg."
    return "\n".join([head, *submitting_from(who), *all_of_them, ""])


def for_nginx(who: list[str]) -> str:
    """Who may submit, in nginx's words for `location = /submissions`."""
    lines = ["# Who may submit, made by irr setup: for `location = /submissions` of nginx.conf."]
    if who != ["anybody"]:
        is_for_users = "users" in who
        lines += ["satisfy any;"] * is_for_users
        lines += [f"allow {one};" for one in submitting_from(who)]
        lines += ["deny all;"]
        if is_for_users:
            lines += ["auth_basic registry;", f"auth_basic_user_file {USERS};"]
    return "\n".join([*lines, ""])


def need_new(plan: Plan, has_auth: bool) -> None:
    """That no registry is here, and that its folder is that of a user who may have one. One whose
    settings are here too, with an `auth`, is served by them; a purge removes them."""
    if os.path.lexists(plan.store):
        if not has_auth:
            to_do = "to serve this one, see Removal in OPERATING.md"
        elif plan.is_service:
            to_do = (
                f"to change this one, edit {plan.settings} and run `systemctl restart irrdesk`, or"
                " door.toml beside it and run `systemctl restart irrdesk-door`"
            )
        else:
            to_do = f"to change this one, edit {plan.settings}, and start its server again"
        if not plan.is_service:
            to_do += "; for a new one, name another folder by --folder"
        raise Failure(
            plan.store,
            f"a registry is here, and irr setup makes only a first one; {to_do}",
            DATABASE,
        )
    if plan.is_service:
        need_owner(plan)


def need_owner(plan: Plan) -> None:
    folder = Path(plan.store).parent
    with contextlib.suppress(FileNotFoundError):
        if os.stat(folder).st_uid == 0:
            raise Failure(
                str(folder),
                "it belongs to root, and the service runs as another user; chown it",
                SETTINGS,
            )
        return
    raise Failure(str(folder), "there is no such folder; install the package, or make it", SETTINGS)

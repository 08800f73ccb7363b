"""What is done in one machine: the package by apt, its registry under systemd, and
what goes wrong there."""

import json
import os
import re
import tempfile
from collections.abc import Callable, Iterator
from typing import Any

from checks.machine.contained import Contained
from checks.machine.guest import Guest, Image, found
from checks.model.queries import answer
from checks.model.registry import Registry, load
from checks.package.packages import older_package
from checks.running import AUTH, DIGEST, TOP, Failure, Trial, expect, short
from checks.sums import sum_of
from checks.texts import changing_items, summed_fronts

LIMIT = 10_000
URL = "http://127.0.0.1:4343"
AS_OWNER = "runuser -u irrdesk --"
SETTINGS = "/etc/irrdesk/irr.toml"
# As docs/OPERATING.md has it; the name is that of the model's registries.
EDITED = f"sed -i 's/^auth = .*/auth = \"SHA256-PW a:{DIGEST}\"/; s/EXAMPLE/TEST/' {SETTINGS}"
BEGUN = (
    f"{AS_OWNER} irrdesk init {SETTINGS} && systemctl enable --now irrdesk.service"
    " irrdesk-check.timer"
)
# A view of the registry alone, at ports 4445 and 4446.
VIEW = b"""name = "ALL"
folder = "/var/lib/irrdesk-view/all"
[[source]]
name = "TEST"
registry = "http://127.0.0.1:4343"
"""
VIEWED = "install -D -m 644 /run/given/view.toml /etc/irrdesk/views/all.toml && systemctl enable"
VIEWED += " --now irrdesk-view@all"
ASKED = f"curl --silent --fail {URL}/query/ROOT-MNT"
# Whether a timer has had its unit run.
TRIGGERED = "systemctl show --property=LastTriggerUSec --value {}.timer | grep -q ."
# Four connections at once from each of sixteen addresses; then a fifth beside four of one.
CLIENTS = """import concurrent.futures, json, socket
def connect(address):
    return socket.create_connection(("127.0.0.1", 43), 240, source_address=(address, 0))
def ask(peer):
    peer.sendall(b"ROOT-MNT\\r\\n")
    with peer, peer.makefile("rb") as answer:
        return answer.read().decode()
peers = [connect(f"127.0.0.{number // 4 + 2}") for number in range(64)]
with concurrent.futures.ThreadPoolExecutor(64) as pool:
    answers = list(pool.map(ask, peers))
held = [connect("127.0.0.99") for _ in range(50)]
with connect("127.0.0.99") as another:
    refused = another.recv(100).startswith(b"% too many connections of yours")
print(json.dumps([sorted(set(answers)), len(answers), refused]))
"""
# Small, because a body over HTTP has a limit.
SIZES = [0, 20, 300]


def files_of_package() -> Iterator[Any]:
    """The mode and path of each file that dist/files names by itself, without what it names by a
    pattern."""
    with open(os.path.join(TOP, "dist", "files"), encoding="ascii") as opened:
        listed = [line.split() for line in opened if line.strip() and not line.startswith("#")]
    for mode, source, path in listed:
        if "*" in source:
            continue
        name = os.path.basename(source) if path.endswith("/") else ""
        yield mode, (path if path.startswith("/") else f"/usr/{path}") + name


class Service:
    """A machine with the package, and the registry that it serves."""

    def __init__(
        self, trial: Trial, image: Image, package: str, machine: Callable[..., Guest | Contained]
    ) -> None:
        self.trial, self.image, self.machine = trial, image, machine
        self.guest: Guest | Contained | None = None
        self.folder = tempfile.mkdtemp(prefix="service-", dir=trial.work)
        self.disk = os.path.join(self.folder, "disk")
        self.registry = Registry(auth=AUTH.encode())
        with open(os.path.join(TOP, "examples", "first.rpsl"), "rb") as opened:
            self.first = opened.read()
        self.texts = changing_items(trial.chance("machine"), 1_000, SIZES)
        self.fronts = summed_fronts(self.texts)
        self.given = {
            "irrdesk.deb": package,
            "before.deb": older_package(package, self.folder),
            "first.rpsl": self.first,
            "clients": CLIENTS.encode(),
            "view.toml": VIEW,
            "items.rpsl": b"\n".join(self.texts),
        }

    def boot(self) -> str:
        """A new machine, as Debian left it."""
        self.guest = self.machine(self.image, self.folder, self.disk, self.given)
        state = self.guest.ended("systemctl is-system-running --wait", seconds=600).printed.strip()
        expect(
            state,
            "running",
            f"the state of the machine: {short(self.guest.ended('systemctl --failed').printed)}",
        )
        return (
            f"systemd {self.guest.done('systemctl --version').split()[1]}, after"
            f" {self.guest.seconds:.0f} s"
        )

    def end(self) -> None:
        if self.guest:
            self.guest.cut()

    # What cases do over and over.

    def show(self, unit: str, value: str) -> str:
        return self.guest.done(f"systemctl show --property={value} --value {unit}").strip()

    def journal(self, unit: str) -> str:
        return self.guest.done(f"journalctl --quiet --no-pager --output=cat --unit={unit}")

    def serves(self, what: str) -> None:
        self.guest.until(ASKED, f"{what}: that the registry answers")

    def dump(self) -> bytes:
        return self.guest.done(f"curl --silent --fail {URL}/dump").encode("latin-1")

    def full_dump(self) -> bytes:
        """The whole registry, for which the server has to be stopped."""
        self.guest.done("systemctl stop irrdesk")
        dump = self.guest.done(f"{AS_OWNER} irrdesk dump {SETTINGS} --full").encode("latin-1")
        self.guest.done("systemctl start irrdesk")
        self.serves("after a dump")
        return dump

    def changed(self, words: str) -> None:
        """Gives the unit another line, until the next of these; without words its own."""
        place = "/run/systemd/system/irrdesk.service.d"
        made = f"mkdir -p {place}; cat > {place}/trial.conf" if words else f"rm -rf {place}"
        self.guest.done(f"{made}; systemctl daemon-reload", given=words.encode())

    # The package.

    def installed(self) -> str:
        """That apt installs the package on the plain system, with these files, and starts
        nothing."""
        guest = self.guest
        expect(
            guest.ended("command -v rt || command -v gcc || command -v irrdesk").status,
            1,
            "whether the system is a plain one",
        )
        printed = guest.done("apt-get install --yes /run/given/irrdesk.deb")
        expect(
            "no registry yet" in printed,
            True,
            f"whether apt says what is next: {short(printed[-600:])}",
        )
        expect(guest.ended("dpkg --verify irrdesk").printed, "", "what dpkg finds changed")
        files = {path: mode for mode, path in files_of_package()}
        owners = {
            SETTINGS: "root:irrdesk",
            "/etc/irrdesk": "root:irrdesk",
            "/var/lib/irrdesk": "irrdesk:irrdesk",
        }
        modes = {**files, "/etc/irrdesk": "750", "/var/lib/irrdesk": "700"}
        seen = guest.done(f"stat --format='%n %U:%G %a' {' '.join(sorted(modes))}").splitlines()
        expect(
            seen,
            [f"{path} {owners.get(path, 'root:root')} {modes[path]}" for path in sorted(modes)],
            "who owns what",
        )
        others = guest.done(
            "dpkg --listfiles irrdesk | grep -v /etc/irrdesk | xargs stat --format='%U:%G %A %n'"
        ).splitlines()
        expect(
            [line for line in others if not re.match(r"root:root .{5}-..-.", line)],
            [],
            "files of others, or that others may write",
        )
        units = guest.done("cd /usr/lib/systemd/system; grep -l '^.Install' irrdesk*").split()
        on = guest.ended(f"systemctl is-enabled {' '.join(units)}").printed.split()
        expect(set(on), {"disabled"}, "which units are enabled")
        expect(
            guest.done("systemctl list-units --plain --no-legend 'irrdesk*'"),
            "",
            "which units are there",
        )
        ended = guest.ended(f"{AS_OWNER} irrdesk init {SETTINGS}")
        expect(
            (ended.status, "`auth`" in ended.reported),
            (3, True),
            f"init before the settings are edited: {ended.reported!r}",
        )
        return f"{len(guest.done('dpkg --listfiles irrdesk').split())} files and folders"

    def removed_empty(self) -> str:
        """That a purge without a registry leaves nothing, and no user."""
        guest = self.guest
        guest.done("apt-get purge --yes irrdesk")
        expect(guest.ended("getent passwd irrdesk").status, 2, "whether the user is there")
        left = guest.ended(
            "ls -d /etc/irrdesk /var/lib/irrdesk /usr/bin/irr* /usr/lib/systemd/system/irrdesk*"
        ).printed
        expect(left, "", "what is left")
        expect(
            guest.done("find /etc/systemd -name 'irrdesk*'"), "", "which links of units are left"
        )
        return "nothing is left"

    def set_up(self) -> str:
        """That irr setup makes a registry of the package as it is installed, and starts what it
        was told; that the check, in the sandbox of its unit, sees all of it and finds nothing
        wrong."""
        guest = self.guest
        guest.done("apt-get install --yes /run/given/irrdesk.deb")
        saved = (
            "--save /root/root.password --maintainer OPS-MNT --maintainer-save /root/ops.password"
        )
        guest.done(f"irr setup --yes --source TRIAL {saved} --no-replicas", seconds=600)
        wanted = ["irrdesk.service", "irrdesk-check.timer", "irrdesk-door.service"]
        wanted += ["irrdesk-backup.timer", "irrdesk-history.timer"]
        seen = [self.show(unit, "ActiveState") for unit in wanted]
        expect(seen, ["active"] * len(wanted), f"the states of {' '.join(wanted)}")
        owned = f"stat -c '%U:%G %a' {SETTINGS} /var/lib/irrdesk/irr.db /root/root.password"
        expect(
            guest.done(owned).splitlines(),
            ["root:irrdesk 640", "irrdesk:irrdesk 600", "root:root 600"],
            "who owns what",
        )
        text = b"inetnum: 192.0.2.0/24\nmnt-by: OPS-MNT\nsource: TRIAL\n"
        signed = "irr submit /root/root.password /root/ops.password -"
        printed = guest.done(signed, given=text)
        expect("added" in printed, True, f"what both sign: {printed}")
        # The door looks at the registry again after a moment.
        guest.until("systemctl start irrdesk-check", "that the check finds nothing wrong")
        reported = self.journal("irrdesk-check")
        expect(
            "not checked" in reported, False, f"whether there is what it could not see: {reported}"
        )
        expect("backup-old" in reported, False, f"whether it ever lacked a backup: {reported}")
        again = guest.ended("irr setup")
        expect((again.status, f" edit {SETTINGS} " in again.reported), (4, True), "a second one")
        printed = guest.done("dpkg --purge irrdesk")
        kept = re.findall(r"^  (/var/\S+)$", printed, re.MULTILINE)
        names = ["lib/irrdesk", "lib/irrdesk-backup", "lib/irrdesk-history"]
        expect(kept[:3], [f"/var/{name}" for name in names], "what a purge keeps")
        guest.done(f"rm -r {' '.join(kept)} /root/*.password; ! test -e /etc/irrdesk")
        return f"{len(wanted)} units"

    def upgraded(self) -> str:
        """That a registry of an older package, which is served, is served by the newer one: its
        settings and links stay."""
        guest = self.guest
        guest.done("apt-get install --yes /run/given/before.deb")
        guest.done(f"{EDITED}; {BEGUN}")
        self.serves("the older package")
        expect(self.show("irrdesk", "Description"), "as it was before", "the older unit")
        settings = guest.done(f"cat {SETTINGS}; stat -c '%U:%G %a' {SETTINGS}")
        before = self.show("irrdesk", "MainPID")
        expect(
            guest.ended("cmp /proc/{0}/exe /usr/bin/irrdesk".format(before)).status,
            0,
            "the program that serves",
        )
        ended = guest.ended("apt-get install --yes /run/given/irrdesk.deb")
        expect(
            (ended.status, "no registry yet" in ended.printed),
            (0, False),
            f"the upgrade: {short(ended.printed + ended.reported)}",
        )
        self.serves("the upgrade")
        expect(
            guest.done(f"cat {SETTINGS}; stat -c '%U:%G %a' {SETTINGS}"), settings, "the settings"
        )
        after = self.show("irrdesk", "MainPID")
        expect(
            (after != before, self.show("irrdesk", "Description")),
            (True, "Internet routing registry"),
            "the newer unit",
        )
        expect(
            guest.ended(f"cmp /proc/{after}/exe /usr/bin/irrdesk && dpkg --verify irrdesk").status,
            0,
            "the program that serves",
        )
        on = guest.done("systemctl is-enabled irrdesk.service irrdesk-check.timer").split()
        expect(on, ["enabled", "enabled"], "what is enabled")
        return (
            f"from {guest.done('dpkg-deb -f /run/given/before.deb Version').strip()} to"
            f" {guest.done('irrdesk --version').split()[1]}"
        )

    def taken_away(self) -> str:
        """That a removal keeps settings and registry, a purge the registry, and that a new
        installation serves it again."""
        guest, dump = self.guest, self.dump()
        guest.done(VIEWED)
        guest.done("apt-get remove --yes irrdesk")
        expect(guest.ended(ASKED).status, 7, "whether the port answers")
        expect(
            guest.ended("grep -l irrdesk /proc/[0-9]*/comm").printed, "", "which processes are left"
        )
        guest.done(
            f"test -f {SETTINGS} && test -f /var/lib/irrdesk/irr.db && ! test -e /usr/bin/irrdesk"
        )
        guest.done("rm -r /etc/irrdesk/views; apt-get purge --yes irrdesk")
        guest.done("! test -e /etc/irrdesk && getent passwd irrdesk")
        guest.done("test -f /var/lib/irrdesk/irr.db")
        expect(
            guest.done("find /etc/systemd -name 'irrdesk*'"), "", "which links of units are left"
        )
        printed = guest.done("apt-get install --yes /run/given/irrdesk.deb")
        expect("which nothing serves" in printed, True, f"whether it says so: {printed}")
        guest.done(f"{EDITED}; systemctl enable --now irrdesk")
        self.serves("the package installed again")
        expect(self.dump() == dump, True, "whether the registry is the same")
        return "the registry stays"

    # The registry.

    def served(self) -> str:
        """Whois, HTTP, a submission and the dump, beside the model."""
        guest, lines = self.guest, self.registry.submit(self.first)
        printed = guest.done(
            f"curl --silent --data-binary @/run/given/first.rpsl {URL}/submissions"
        )
        expect(printed.splitlines(), lines, "the report")
        for query in ["ROOT-MNT", "192.0.2.1", "AS64496", "inverse mnt HOLDER-MNT"]:
            wanted = answer(self.registry, query.encode(), LIMIT)
            for asked in [
                f"whois -h 127.0.0.1 -p 4343 '{query}'",
                f"curl --silent '{URL}/query/{query.replace(' ', '%20')}'",
            ]:
                expect(guest.done(asked).encode("latin-1").strip(), wanted.strip(), asked)
        expect(self.dump(), self.registry.dump(full=False), "the dump")
        return f"{len(lines) - 1} items, 8 queries, a dump"

    def stopped_midway(self) -> str:
        """That a restart in the middle of a submission leaves each item whose line came, and at
        most one more."""
        guest, count = self.guest, len(self.texts)
        guest.done(
            "systemctl stop irrdesk; mkdir /root/kept; mv /var/lib/irrdesk/irr.db* /root/kept"
        )
        guest.done(f"{AS_OWNER} irrdesk init {SETTINGS}; systemctl start irrdesk")
        self.serves("a new registry")
        wanted = self.trial.chance("restart").randrange(20, 200)
        # All of it may take less than a second: nothing is begun between the line and the signal.
        guest.done(
            "server=$(systemctl show --property=MainPID --value irrdesk);"
            f" curl --silent --no-buffer --data-binary @/run/given/items.rpsl {URL}/submissions |"
            f' {{ for n in {{1..{wanted}}}; do read -r line; echo "$line"; done; kill $server;'
            " systemctl restart irrdesk; cat; } > report"
        )
        self.serves("the restart")
        reported = len(
            re.findall(
                r"^\d+ .*: (?:added|changed|deleted)$", guest.done("cat report"), re.MULTILINE
            )
        )
        stands = self.fronts.get(sum_of(self.full_dump()), [])
        if not wanted <= reported < count or not {reported, reported + 1} & set(stands):
            raise Failure(
                f"{reported} lines were reported of {count}, and the rows are those of"
                f" {stands} items"
            )
        guest.done(
            "systemctl stop irrdesk; rm /var/lib/irrdesk/irr.db*; mv /root/kept/* /var/lib/irrdesk;"
            " rmdir /root/kept; systemctl start irrdesk"
        )
        self.serves("the first registry again")
        return f"{reported} reported, {stands[0]} stand"

    def counted(self) -> str:
        """That a server which comes to the end of its count is started again."""
        with open(os.path.join(TOP, "units", "irrdesk.service"), encoding="ascii") as opened:
            command = found(r"^ExecStart=(.*)$", opened.read(), "the unit's command")
        self.changed(
            f"[Service]\nExecStart=\nExecStart={re.sub('--count [0-9]+', '--count 3', command)}\n"
        )
        self.guest.done("systemctl restart irrdesk")
        self.serves("with a count")
        before = self.show("irrdesk", "NRestarts")
        for _ in range(4):
            self.serves("after the count")
        expect(
            int(self.show("irrdesk", "NRestarts")) > int(before),
            True,
            "whether it was started again",
        )
        expect(
            "served 3, failed 0" in self.journal("irrdesk"), True, "whether the journal has its end"
        )
        self.changed("")
        self.guest.done("systemctl restart irrdesk")
        self.serves("without it")
        return "after 3 connections"

    def wrong_settings(self) -> str:
        """That a server with wrong settings stays down, and the journal says why."""
        guest = self.guest
        guest.done(f"sed -i 's/^limit = .*/limit = 0/' {SETTINGS}; ! systemctl restart irrdesk")
        guest.done("sleep 3")
        state = [
            self.show("irrdesk", value) for value in ["ActiveState", "ExecMainStatus", "NRestarts"]
        ]
        expect(state, ["failed", "3", "0"], "the unit's state, status and starts")
        reported = found(
            rf"^(irrdesk: {SETTINGS}.*limit.*)$", self.journal("irrdesk"), "what the journal says"
        )
        guest.done(f"sed -i 's/^limit = .*/limit = {LIMIT}/' {SETTINGS}; systemctl start irrdesk")
        self.serves("after the settings are right again")
        return reported

    def held(self) -> str:
        """That a server whose database another process has says so, and goes on trying until it is
        free."""
        guest = self.guest
        guest.done("systemctl stop irrdesk")
        guest.done(
            f"systemd-run --quiet --unit=other --uid=irrdesk irrdesk serve {SETTINGS} --port 4999"
            " --count 1000"
        )
        guest.until(
            "journalctl --quiet --output=cat --unit=other | grep -q listening", "the other process"
        )
        expect(guest.ended("systemctl start irrdesk").status, 1, "a start beside it")
        guest.until(
            (
                "journalctl --quiet --output=cat --unit=irrdesk | grep -q 'in use, most likely by"
                " the running server'"
            ),
            "what the journal says",
        )
        guest.until(
            "test $(systemctl show --property=NRestarts --value irrdesk) -ge 2",
            "that it goes on trying",
        )
        self.changed("[Unit]\nStartLimitBurst=5\n")
        guest.until(
            "systemctl list-units --failed | grep -q irrdesk.service", "that its limit ends it"
        )
        self.changed("")
        guest.done("systemctl stop other; systemctl reset-failed irrdesk; systemctl start irrdesk")
        guest.done(ASKED)
        return "listed as failed, and served once it is free"

    def disk_full(self) -> str:
        """A disk that fills up while a registry is served: the check starts it again, and says so,
        and nothing that was reported is lost."""
        guest = self.guest
        guest.done(
            "systemctl stop irrdesk; truncate -s 16M /root/small; mkfs.ext4 -q -m 0 /root/small"
        )
        guest.done(
            "mount -o loop /root/small /var/lib/irrdesk; chown irrdesk: /var/lib/irrdesk; chmod 700"
            " /var/lib/irrdesk"
        )
        guest.done(f"{AS_OWNER} irrdesk init {SETTINGS}; systemctl start irrdesk")
        self.serves("on a small disk")
        guest.done(
            "fallocate -l $(($(stat -f -c '%a*%S' /var/lib/irrdesk) - 700000))"
            " /var/lib/irrdesk/filler"
        )
        submit = f"curl --silent --data-binary @/run/given/items.rpsl {URL}/submissions"
        report = guest.done(submit, seconds=600)
        decided = int(found(r"^% stopped after (\d+) items$", report, "the report's end"))
        expect("E91" in report, True, "whether an item is refused by E91")
        status = guest.ended(
            f"curl --silent --output /dev/null --write-out '%{{http_code}}' {URL}/query/ROOT-MNT"
        ).printed
        expect(status, "503", "what a query is answered")
        before = self.show("irrdesk", "MainPID")
        guest.done("systemctl start irrdesk-check; true", seconds=600)
        self.serves("the check")
        expect(
            self.show("irrdesk", "MainPID") != before, True, "whether the server was started again"
        )
        reported = found(
            r"^registry-failed: (.* status 503.*)$",
            self.journal("irrdesk-check"),
            "what the check says",
        )
        stood = self.full_dump()
        expect(
            decided in self.fronts.get(sum_of(stood), []),
            True,
            f"whether the {decided} items decided stand",
        )
        guest.done("rm /var/lib/irrdesk/filler")
        again = load(stood, b"TEST")
        expect(
            guest.done(submit, seconds=600).splitlines(),
            again.submit(b"\n".join(self.texts)),
            "the report once there is room",
        )
        expect(self.full_dump() == again.dump(), True, "whether the registry is then whole")
        guest.done("systemctl stop irrdesk; umount /var/lib/irrdesk; systemctl start irrdesk")
        self.serves("the first registry again")
        return f"after {decided} items: {reported}"

    def checked(self) -> str:
        """That the timer has the check run, and a look that begins now finds nothing wrong."""
        self.guest.until(TRIGGERED.format("irrdesk-check"), "that the timer runs the check")
        self.guest.done("systemctl restart irrdesk-check", seconds=600)
        expect(self.show("irrdesk-check", "Result"), "success", "the check")
        return self.guest.done("systemctl list-timers --no-legend irrdesk-check.timer").strip()

    def door(self) -> str:
        """64 clients at once on port 43; one more of an address beside fifty is told so. Clients
        that ask while the door is started again are answered too."""
        guest = self.guest
        guest.done("systemctl enable --now irrdesk-door.socket irrdesk-door.service")
        wanted = answer(self.registry, b"ROOT-MNT", LIMIT).decode("latin-1")
        expect(
            guest.done("whois -h 127.0.0.1 -p 43 ROOT-MNT", seconds=120).strip(),
            wanted.strip(),
            "one query",
        )
        expect(
            guest.done("python3 /run/given/clients", seconds=600).strip(),
            json.dumps([[wanted], 64, True]),
            "what the clients get",
        )
        asking = "for n in $(seq 40); do whois -h 127.0.0.1 -p 43 ROOT-MNT | grep -c ^mntner; done"
        printed = guest.done(
            (
                f"({asking}) > /tmp/asked & sleep 1; systemctl restart irrdesk-door; wait; sort"
                " /tmp/asked | uniq -c"
            ),
            seconds=600,
        )
        expect(printed.split(), ["40", "1"], "answers while the door is started again")
        expect(self.show("irrdesk-door.service", "ActiveState"), "active", "the door")
        guest.done("systemctl restart irrdesk-check", seconds=600)
        return "64 answers from 16 addresses, and 40 while the door was started again"

    def past(self) -> str:
        """The door has git tell what an object was, with what its unit leaves both of them."""
        guest, kept = self.guest, "/var/lib/irrdesk-history"
        guest.done("systemctl start irrdesk-history.service", seconds=300)
        asked = "curl --silent --show-error --fail-with-body http://127.0.0.1:4380"
        expect(
            json.loads(guest.done(f"{asked}/about"))["history"], True, "whether a history is told"
        )
        found = json.loads(guest.done(f"{asked}/history/mntner/ROOT-MNT"))
        expect([one["word"] for one in found["states"]], ["added"], "the states of an object")
        state = found["states"][0]["state"]
        lines = json.loads(guest.done(f"{asked}/history/mntner/ROOT-MNT?to={state}"))["lines"]
        expect(lines[0], ["+", "mntner:         ROOT-MNT"], "the first line of a state")
        ended = guest.ended(f"{asked}/history/mntner/ROOT-MNT?to={'0' * 40}")
        expect("the history does not have it" in ended.printed, True, f"another: {ended.printed}")
        guest.done(f"rm -r {kept}")
        return f"{len(lines)} lines of {state[:12]}"

    def analysed(self) -> str:
        """That systemd-analyze accepts all units, and rates the server as docs/OPERATING.md
        says."""
        guest = self.guest
        units = guest.done("cd /usr/lib/systemd/system; ls irrdesk*").split()
        ended = guest.ended(
            f"systemd-analyze verify --man=no {' '.join(unit.replace('@', '@1') for unit in units)}"
        )
        faults = [line for line in ended.reported.splitlines() if "irrdesk" in line]
        expect((ended.status, faults), (0, []), "what systemd-analyze verify says")
        with open(os.path.join(TOP, "docs", "OPERATING.md"), encoding="utf-8") as opened:
            wanted = found(
                r"exposure of the\s+server at (\d+\.\d)",
                opened.read(),
                "the rating in docs/OPERATING.md",
            )
        rated = guest.done("systemd-analyze security --no-pager irrdesk.service")
        expect(
            found(r"Overall exposure level for irrdesk.service: (\d+\.\d)", rated, "the rating"),
            wanted,
            "the exposure",
        )
        return f"{len(units)} units, {wanted}"

    def rebooted(self) -> str:
        """That the machine comes up again with the registry, its socket and its timer, after a
        shutdown by the system."""
        dump = self.dump()
        self.guest.power_off()
        self.guest = self.machine(self.image, self.folder, self.disk, self.given)
        self.serves("after a reboot")
        expect(self.dump() == dump, True, "whether the registry is the same")
        # Each unit has begun by then, the door too, which is ready a second after its start.
        expect(
            self.guest.ended("systemctl is-system-running --wait", seconds=600).printed.strip(),
            "running",
            "the machine",
        )
        for unit in ["irrdesk.service", "irrdesk-door.service", "irrdesk-check.timer"]:
            expect(self.show(unit, "ActiveState"), "active", unit)
        return f"after {self.guest.seconds:.0f} s"

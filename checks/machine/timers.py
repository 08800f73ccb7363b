"""What runs beside a registry by timers and sockets of its package, once round in one machine."""

import os
import re
from pathlib import Path

from checks.machine.guest import found
from checks.machine.service import AS_OWNER, ASKED, SETTINGS, TRIGGERED, VIEWED, Service
from checks.package import packages
from checks.pages.text import text_of
from checks.running import AUTH, TOP, expect
from checks.sums import sum_of
from irr.local.health import REMEDIES

# The example's filter by bgpq4, of an AS that the registry has; its number is one for
# documentation, which bgpq4 takes with -p.
FILTERS = (
    'sed -i \'/^make/d; s/^# make = "bgpq4 /make = "bgpq4 -p /;'
    " s/ AS64496:AS-CUSTOMERS/ AS64496/' /etc/irrdesk/filters.toml"
)
# A mail server that keeps what it is given, and a maintainer that wants mail.
SENDMAIL = b"#!/bin/sh\ncat >> /var/lib/irrdesk-notify/mail\n"
MAILED = f"""password: bc

mntner: MAILED-MNT
auth: {AUTH}
mnt-by: MAILED-MNT
upd-to: up@example.net
source: TEST
""".encode()
SOON = "/run/systemd/system/irrdesk-backup.timer.d"
# How long a unit may stay failed that ran while the registry was stopped: its timer has it run
# again after five minutes.
AGAIN = 600


class Timers:
    """The units of the package that are started by a timer, or beside the server."""

    def __init__(self, service: Service) -> None:
        self.service = service

    def ran(self, unit: str) -> None:
        """That a timer had its unit run, and with success."""
        guest = self.service.guest
        guest.until(TRIGGERED.format(unit), f"that the timer runs {unit}", seconds=400)
        ended = (
            f"systemctl show --property=ActiveState --value {unit} | grep -qx -e inactive -e failed"
        )
        guest.until(ended, f"the end of {unit}", seconds=600)
        expect(
            self.service.show(unit, "Result"),
            "success",
            f"{unit}: {self.service.journal(unit)[-400:]}",
        )

    def backup(self) -> str:
        """A backup by its timer, at the next minute and not in the night, while the registry is
        served."""
        service, guest = self.service, self.service.guest
        wanted = service.full_dump()
        guest.done(
            (
                f"mkdir {SOON}; cat > {SOON}/trial.conf; systemctl daemon-reload; systemctl enable"
                " --now irrdesk-backup.timer"
            ),
            given=b"[Timer]\nOnCalendar=\nOnCalendar=minutely\nRandomizedDelaySec=0\n",
        )
        self.ran("irrdesk-backup")
        # One that is enabled has to run, as the check sees it.
        guest.done("systemctl disable --now irrdesk-backup.timer")
        place = guest.done("ls -d /var/lib/irrdesk-backup/2* | head -n 1").strip()
        expect(
            guest.done(f"sqlite3 {place}/irr.db 'PRAGMA integrity_check'").strip(),
            "ok",
            "what sqlite3 says",
        )
        expect(
            guest.done(f"cat {place}/dump.rpsl").encode("latin-1"), wanted, "the dump of the backup"
        )
        expect(
            guest.done(f"stat -c '%U %a' {place} {place}/irr.db").split(),
            ["irrdesk", "700", "irrdesk", "600"],
            "who may read it",
        )
        service.serves("after the backup")
        return f"{len(wanted)} bytes of dump"

    def restored(self) -> str:
        """A backup over the same registry, over a damaged one, and where settings are missing; a
        password that is reset. The service is as it was after each."""
        service, guest = self.service, self.service.guest
        wanted, settings = service.dump(), guest.done(f"cat {SETTINGS}")
        place = guest.done("ls -d /var/lib/irrdesk-backup/2* | tail -n 1").strip()
        for change, is_kept in [
            ("true", False),
            (f"sed -i 's/^auth = .*/auth = \"\"/' {SETTINGS}", False),
            # As a copy by scp brings them.
            (f"chown root:root {SETTINGS}", False),
            (
                "systemctl stop irrdesk; cd /var/lib/irrdesk; rm -f irr.db-wal; printf damage"
                " | dd of=irr.db bs=1 seek=4096 conv=notrunc; ! systemctl start irrdesk",
                True,
            ),
        ]:
            printed = guest.done(f"({change}) > /dev/null 2>&1; irr restore {place}", seconds=600)
            expect("replaced-" in printed, is_kept, f"whether something is kept: {printed}")
            expect(service.dump() == wanted, True, f"whether the registry is the same: {change}")
            expect(guest.done(f"cat {SETTINGS}"), settings, "the settings")
        owned = f"stat -c '%U:%G %a' {SETTINGS} /var/lib/irrdesk/irr.db"
        expect(
            guest.done(owned).splitlines(), ["root:irrdesk 640", "irrdesk:irrdesk 600"], "who owns"
        )
        line = found(r"^auth: +(SHA256-PW k3:\w+)$", service.first.decode(), "the holder's line")
        before = service.show("irrdesk", "MainPID")
        guest.done(f"irr reset --service HOLDER-MNT --auth '{line}'", seconds=600)
        guest.done("rm -r /var/lib/irrdesk/replaced-*")
        # The door looks at the registry again after a moment.
        guest.until("systemctl start irrdesk-check", "that the check finds nothing wrong", AGAIN)
        expect(service.show("irrdesk", "MainPID") != before, True, "whether it was stopped")
        expect(service.dump() == wanted, True, "whether the registry is the same")
        return "over the same, a damaged one, and without settings; a reset"

    def moved(self) -> str:
        """The lines of docs/BACKUP.md, on this machine and a second one, which has a backup from
        the start, while a replica here answers all the time. Then this one is the registry's
        again."""
        service, guest = self.service, self.service.guest
        with open(os.path.join(TOP, "docs", "BACKUP.md"), encoding="utf-8") as opened:
            text = opened.read().partition("## Move to another machine\n")[2]
        lines = re.findall(r"^```sh\n(.*?)^```$", text, re.MULTILINE | re.DOTALL)[:2]
        wanted, settings = service.full_dump(), guest.done(f"cat {SETTINGS}")
        listed = "ls /etc/systemd/system/*.wants | grep ^irrdesk"
        units = guest.done(f"systemctl enable irrdesk-backup.timer; {listed}")
        # What was made while the clock was ahead is not the last backup.
        ahead = "/var/lib/irrdesk-backup/29991231T235959Z"
        replica = "curl --silent --fail http://127.0.0.1:4345/query/ROOT-MNT || echo none"
        asking = f"until test -e over; do {replica}; sleep 0.2; done > asked"
        guest.done(
            f"systemd-run --quiet --unit=asking --working-directory=/root bash -c '{asking}'"
        )
        guest.done(f"mkdir {ahead}; touch {ahead}/irr.db; set -e; {lines[0]}", seconds=600)
        guest.done(f"rm -r {ahead}")
        packed = guest.done("tar -C /root -c moved | base64").encode()
        disk = f"{service.disk}-second"
        with service.machine(
            service.image, service.trial.place("second"), disk, service.given
        ) as new:
            new.done("apt-get install --yes /run/given/irrdesk.deb")
            new.done("base64 -d | tar -C /root -x", given=packed)
            new.done(f"set -e; {lines[1]}", seconds=600)
            new.done(ASKED)
            expect(new.done(f"cat {SETTINGS}"), settings, "the settings")
            expect(new.done(listed), units, "which units are enabled")
            new.until("systemctl start irrdesk-check", "that the check finds nothing wrong", AGAIN)
            said = new.done("journalctl --quiet --output=cat --unit=irrdesk-check")
            expect("backup-old" in said, False, f"whether it ever lacked a backup: {said}")
            stands = new.done("cat /var/lib/irrdesk-backup/2*/dump.rpsl").encode("latin-1")
            expect(stands == wanted, True, "whether the registry moved whole")
            expect(
                new.ended("systemctl --failed --plain --no-legend").printed, "", "what has failed"
            )
        guest.done("xargs systemctl enable --now < /root/units; rm -r /root/units /root/moved")
        guest.done("systemctl disable --now irrdesk-backup.timer")
        guest.done("touch over; while systemctl is-active --quiet asking; do sleep 0.2; done")
        none = guest.done("grep --count --line-regexp none asked || true").strip()
        count = guest.done("grep --count ^mntner asked; rm over asked").strip()
        expect(none, "0", "how often no replica answered meanwhile")
        guest.until("systemctl start irrdesk-check", "that the check finds nothing wrong", AGAIN)
        return f"{len(wanted)} bytes of dump, while a replica answered {count} times"

    def asked_on(self) -> str:
        """Clients that ask at the door while the package is upgraded: no port is closed."""
        service, guest = self.service, self.service.guest
        main = service.show("irrdesk-door", "MainPID")
        asking = "until test -e over; do whois -h 127.0.0.1 -p 43 ROOT-MNT; done > asked 2>&1"
        install = "apt-get install --reinstall --yes /run/given/irrdesk.deb > /dev/null"
        guest.done(f"({asking}) & {install}; touch over; wait; rm over", seconds=600)
        expect(service.show("irrdesk-door", "MainPID") != main, True, "whether the door is new")
        told = guest.done("grep -m 1 'Connection re' asked || true")
        expect(told, "", "whether a port was closed meanwhile")
        guest.until("systemctl start irrdesk-check", "that the check finds nothing wrong", AGAIN)
        return f"{guest.done('grep -c ^mntner asked').strip()} answers"

    def dumped(self) -> str:
        service, guest = self.service, self.service.guest
        guest.done("systemctl enable --now irrdesk-dump.timer")
        self.ran("irrdesk-dump")
        expect(
            guest.done("cat /var/cache/irrdesk/dump").encode("latin-1") == service.dump(),
            True,
            "whether the file is the dump",
        )
        return "the dump as a file"

    def history(self) -> str:
        guest = self.service.guest
        guest.done("systemctl enable --now irrdesk-history.timer")
        self.ran("irrdesk-history")
        commits = guest.done(
            "runuser -u irrdesk-public -- git -C /var/lib/irrdesk-history log --oneline"
        ).splitlines()
        shown = guest.done("irr history show mntner ROOT-MNT", seconds=120)
        expect((len(commits), "mntner:         ROOT-MNT" in shown), (1, True), "the history")
        return commits[0]

    def ports(self) -> list[str]:
        """Those of the replicas."""
        return self.service.guest.done(
            "systemctl cat irrdesk-mirror | grep -o -e '--port [0-9]*' | cut -d ' ' -f 2"
        ).split()

    def mirror(self) -> str:
        """Replicas, which go on while the registry is stopped."""
        service, guest = self.service, self.service.guest
        wanted = service.dump()
        guest.done("systemctl enable --now irrdesk-mirror")
        ports = self.ports()
        for port in ports:
            guest.until(
                f"curl --silent --fail http://127.0.0.1:{port}/query/ROOT-MNT",
                f"the replica at {port}",
            )
        guest.done("systemctl stop irrdesk")
        for port in ports:
            expect(
                guest.done(f"curl --silent http://127.0.0.1:{port}/dump").encode("latin-1")
                == wanted,
                True,
                f"the dump of {port}",
            )
        guest.done("systemctl stop irrdesk-mirror")
        expect(
            service.show("irrdesk-mirror", "ActiveState"), "inactive", "a mirror that is stopped"
        )
        guest.done("systemctl start irrdesk-mirror irrdesk")
        service.serves("after the replicas")
        return f"ports {' and '.join(ports)}"

    def view(self) -> str:
        """A view by its unit, with its settings where docs/VIEWS.md puts them; it sees nothing else
        of the folder in which the registry's hashes are. An upgrade restarts it."""
        guest, unit = self.service.guest, "irrdesk-view@all"
        guest.done(VIEWED)
        asked = "curl --silent --fail http://127.0.0.1:4445/query/ROOT-MNT"
        guest.until(asked, f"the view: {self.service.journal(unit)[-400:]}")
        main = self.service.show(unit, "MainPID")
        inside = guest.done(f"ls /proc/{main}/root/etc/irrdesk").split()
        expect(inside, ["views"], "what the unit sees of /etc/irrdesk")
        guest.done("apt-get install --reinstall --yes /run/given/irrdesk.deb")
        guest.until(asked, "the view after an upgrade")
        expect(self.service.show(unit, "MainPID") != main, True, "whether the view was restarted")
        guest.done(f"systemctl disable --now {unit}; rm -r /etc/irrdesk/views")
        left = "/var/lib/irrdesk-view /var/lib/private/irrdesk-view"
        guest.done(f"rm -r {left}; test -d /etc/irrdesk")
        return "by irrdesk-view@all"

    def filters(self) -> str:
        """Filters by bgpq4, through the door, while the replicas are there too."""
        service, guest = self.service, self.service.guest
        guest.done(
            "cp /usr/share/doc/irrdesk/examples/filters.toml /etc/irrdesk; chmod 644"
            f" /etc/irrdesk/filters.toml; {FILTERS}"
        )
        guest.done(
            "systemctl enable --now irrdesk-door.socket irrdesk-door.service irrdesk-filter.timer"
        )
        self.ran("irrdesk-filter")
        made = guest.done("cat /var/lib/irrdesk-filters/customers.conf")
        expect("192.0.2.0/24" in made, True, f"whether the filter has the route: {made}")
        expect(
            service.show("irrdesk-mirror", "NRestarts"),
            "0",
            "how often the replicas were started again",
        )
        return f"{len(made.splitlines())} lines for BIRD"

    def mirrors(self) -> str:
        """What a mirror begins from, and the serials that the door tells of, as another user."""
        guest = self.service.guest
        guest.done("systemctl enable --now irrdesk-export.timer; systemctl start irrdesk-export")
        names = guest.done("ls /var/cache/irrdesk-export").split()
        expect((names[0][-13:], len(names)), ("CURRENTSERIAL", 9), f"what is exported: {names}")
        serial = guest.done("cat /var/cache/irrdesk-export/*.CURRENTSERIAL").strip()
        asked = "exec 3<>/dev/tcp/127.0.0.1/43; echo '-q sources' >&3; cat <&3"
        printed = guest.done(f'bash -c "{asked}"')
        expect(f"-{serial}\n" in printed, True, f"whether serial {serial} is told: {printed}")
        return f"serial {serial}"

    def mailed(self) -> str:
        """That `irr log` tells who submitted what without any option, and that what the door was
        refused is mailed by the unit, as the package has both."""
        guest = self.service.guest
        guest.done("cat > /usr/sbin/sendmail; chmod 755 /usr/sbin/sendmail", given=SENDMAIL)
        lines = found(
            r"^```sh\n(mkdir /etc/systemd/system/irrdesk-notify(?:.*\n)*?)```$",
            text_of("docs/OPERATING.md"),
            "the lines of docs/OPERATING.md",
        )
        guest.done(f"set -e\n{lines}systemctl start irrdesk-history irrdesk-notify", seconds=300)
        door = "irr submit -s http://127.0.0.1:4380 -"
        guest.ended(door, given=MAILED)
        # The tool sees that this password does not fit, and sends it only so.
        guest.ended(f"{door} --anyway", given=MAILED.replace(b"password: bc", b"password: no"))
        # The door writes a line once it has answered.
        guest.until("irr log --maintainer MAILED-MNT | grep -q E11", "the line of a refusal")
        told = guest.done("irr log --maintainer MAILED-MNT")
        wanted = ["mntner MAILED-MNT: added", "mntner MAILED-MNT: refused E11"]
        seen = [line.partition(": ")[2] for line in told.splitlines()]
        expect(seen, wanted, f"what irr log tells: {told}")
        guest.done("systemctl start irrdesk-history irrdesk-notify", seconds=300)
        mail = guest.done("cat /var/lib/irrdesk-notify/mail")
        expect("To: up@example.net" in mail and "refused E11" in mail, True, f"the mail: {mail}")
        ended = guest.ended("runuser -u irrdesk-public -- irr log")
        expect((ended.status, ended.printed), (3, ""), f"who else reads it: {ended.reported}")
        guest.done(
            "systemctl disable --now irrdesk-notify.timer;"
            " rm -r /etc/systemd/system/irrdesk-notify.service.d; systemctl daemon-reload"
        )
        return f"{len(mail.splitlines())} lines of mail"

    def refused(self) -> str:
        """That a door which refuses its settings names them as their reader does, and that the
        check says so within a minute, while clients wait and after systemd has closed the ports;
        what the remedy runs opens them again."""
        service, guest, place = self.service, self.service.guest, "/etc/irrdesk/door.toml"
        guest.done(f"cp {place} /run/door.toml; echo 'unheard_of = 1' >> {place}")
        asking = "timeout 2 whois -h 127.0.0.1 -p 43 ROOT-MNT"
        guest.done(f"systemctl restart irrdesk-door; {asking}; true", seconds=600)
        self.door_is_down("while clients wait")
        # A client that went away still waits in the socket's queue.
        closed = "systemctl show --property=Result --value irrdesk-door.socket"
        guest.until(f"{closed} | grep -qx service-start-limit-hit", "that the ports close", AGAIN)
        self.door_is_down("after the ports are closed")
        reported = found(f"^(irr door: {place}.*)$", service.journal("irrdesk-door"), "its words")
        mending = found("run `([^`]+)`$", REMEDIES["door-down"], "what the remedy runs")
        guest.done(f"cat /run/door.toml > {place}; {mending}", seconds=600)
        asked = "whois -h 127.0.0.1 -p 43 ROOT-MNT | grep -q ^mntner"
        guest.until(asked, "an answer after its settings are right again")
        guest.until("systemctl start irrdesk-check", "that all is well again", AGAIN)
        return reported

    def door_is_down(self, when: str) -> None:
        """That the check says within a minute that the door does not answer."""
        ended = self.service.guest.ended("timeout 60 irr check")
        seen = ended.status, "door-down: " in ended.printed
        expect(seen, (1, True), f"the check {when}: {ended.printed}{ended.reported}")

    def released(self, is_short: bool = False) -> str:
        """A package of each released version in the place of this one, and this one again: the
        registry, its settings and what is enabled stay, and whoever asks at the door is answered.
        The short form takes the last one of each minor version."""
        service, guest = self.service, self.service.guest
        looked = f"cat {SETTINGS}; stat -c '%U:%G %a' {SETTINGS}; ls /etc/systemd/system/*.wants"
        before, wanted = guest.done(looked), service.dump()
        paths = packages.released(service.trial.place("released"))
        versions = {os.path.basename(path).partition("-")[2]: path for path in paths}
        if is_short:
            kept = {name.rpartition(".")[0].rpartition(".")[0]: name for name in versions}
            versions = {name: versions[name] for name in kept.values()}
        for name, path in versions.items():
            guest.done("cat > /root/older.deb", given=Path(path).read_bytes())
            install = "apt-get install --yes --allow-downgrades"
            guest.done(f"{install} /root/older.deb", seconds=600)
            service.serves(name)
            expect(service.dump() == wanted, True, f"whether {name} has the same registry")
            guest.done(f"{install} /run/given/irrdesk.deb", seconds=600)
            # As docs/UPGRADING.md says of timers that the older one lacks.
            guest.done(
                "systemctl list-units --failed --plain --no-legend 'irrdesk-*.timer'"
                " | cut -d ' ' -f 1 | xargs --no-run-if-empty systemctl start"
            )
            service.serves(f"the upgrade from {name}")
            expect(service.dump() == wanted, True, f"whether it is the same after {name}")
            expect(guest.done(looked), before, f"settings and what is enabled after {name}")
            asked = "whois -h 127.0.0.1 -p 43 ROOT-MNT | grep -q ^mntner"
            guest.until(asked, f"an answer at the door after {name}")
            guest.until("systemctl start irrdesk-check", f"that all is well after {name}", AGAIN)
        return f"{len(versions)} packages, and back"

    def untouched(self) -> str:
        """That nothing of all this changed the registry, or failed."""
        service, guest = self.service, self.service.guest
        expect(
            sum_of(service.full_dump()), sum_of(service.registry.dump()), "the registry in the end"
        )
        expect(guest.ended("systemctl --failed --plain --no-legend").printed, "", "what has failed")
        expect(
            guest.done(f"{AS_OWNER} test ! -w {SETTINGS} && echo kept").strip(),
            "kept",
            "the settings",
        )
        return "the registry is as it was"

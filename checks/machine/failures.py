"""What goes wrong round a registry, brought about in a machine one after the other: each is seen by
what is watched within a minute, and is over once its remedy was followed."""

import json
import re
import shutil
import subprocess
import tempfile
import time
from pathlib import Path

from checks.machine.guest import found
from checks.machine.service import SETTINGS, Service
from checks.machine.timers import Timers
from checks.mirrors.client import Mirror
from checks.mirrors.client4 import NOTIFICATION, Mirror4
from checks.pages.test_alerts import ALERTS, promtool
from checks.pages.text import text_of
from checks.running import Skipped, expect

HOST = "irr.example.net"
NODE = "/var/lib/prometheus/node-exporter"
# Fewer than the usual ones: a minute, and not ten; a mirror behind by 20 changes; MiB on a small
# disk.
CHECK = f"""
[check]
certificate = ["{HOST}"]
replica_age = 60
behind = 20
disk = 4
"""
MINUTE, HOUR, DAY = 60, 3_600, 86_400
STATUS = "curl --silent --fail 'http://127.0.0.1:4381/status?json'"
# Whether the oldest state of a replica, as the door tells of it, is above a minute, or below.
AGE = (
    f'{STATUS} | python3 -c \'import json, sys; told = json.load(sys.stdin)["upstreams"];'
    ' sys.exit(not max(one["age"] or 0 for one in told) {} 60)\''
)
STARTED = (
    "systemctl reset-failed irrdesk-check.service; systemctl list-units --failed --plain"
    " --no-legend 'irrdesk-*.service' | cut -d ' ' -f 1 | xargs --no-run-if-empty systemctl start"
)
SOON = "/run/systemd/system/{}.timer.d"
SOONER = {
    "irrdesk-backup": "RandomizedDelaySec=0",
    "certbot": "RandomizedDelaySec=0",
    "irrdesk-nrtm4": "OnUnitInactiveSec=10s",
}
# The authority, as Debian has it: its settings, and those of what asks it.
PEBBLE = {
    "listenAddress": "127.0.0.1:14000",
    "managementListenAddress": "127.0.0.1:15000",
    "certificate": "/root/pebble/own.pem",
    "privateKey": "/root/pebble/own.key",
    "httpPort": 80,
    "tlsPort": 443,
    "ocspResponderURL": "",
    "externalAccountBindingRequired": False,
}
CERTBOT = """server = https://localhost:14000/dir
agree-tos = true
register-unsafely-without-email = true
non-interactive = true
"""
TRUSTED = "/usr/local/share/ca-certificates"
OWN = (
    "mkdir -p /root/pebble; cd /root/pebble; openssl req -x509 -newkey rsa:2048 -nodes -days 3650"
    " -subj /CN=localhost -addext subjectAltName=DNS:localhost -keyout own.key -out own.pem"
    f" 2> /dev/null; cp own.pem {TRUSTED}/pebble.crt; update-ca-certificates 2> /dev/null"
)
# What a web server hands out to mirrors, and the months of the year in which the next key is
# announced, and signs.
EXPORT = "/var/cache/irrdesk-export"
KEYS = {5: "--new", 6: "--roll"}
# How many minutes Prometheus has read the figures of before, and those of now.
BEFORE, NOW = 30, 8
FIGURE = re.compile(r"^(irrdesk_\w+(?:\{[^}]*\})?) (\S+)$", re.MULTILINE)
TIME = "irrdesk_check_time_seconds"


def fired(before: str, now: str, wanted: set[str]) -> None:
    """That the alerts of examples/alerts.yml which Prometheus raises of these figures are the
    wanted ones, and others only where some are wanted."""
    was, after = dict(FIGURE.findall(before)), dict(FIGURE.findall(now))
    series = []
    for name in was.keys() | after.keys():
        values = [
            f"{was[name]}x{BEFORE}" if name in was else f"_x{BEFORE + 1}",
            f"{after[name]}x{NOW - 1}" if name in after else f"_x{NOW}",
        ]
        # Prometheus's test begins in 1970.
        whole = "0+60x" + str(BEFORE + NOW) if name == TIME else " ".join(values)
        series.append({"series": name, "values": whole})
    names = "|".join(sorted(wanted)) or ".*"
    told = [{"labels": f'{{alertname="{name}"}}', "value": 1} for name in sorted(wanted)]
    asked = f'group by (alertname) (ALERTS{{alertstate="firing",alertname=~"{names}"}})'
    when = f"{BEFORE + NOW}m"
    test = {
        "interval": "1m",
        "input_series": series,
        "promql_expr_test": [{"expr": asked, "eval_time": when, "exp_samples": told}],
    }
    made = {"rule_files": [str(ALERTS)], "evaluation_interval": "1m", "tests": [test]}
    with tempfile.TemporaryDirectory() as folder:
        path = Path(folder, "story.yml")
        path.write_text(json.dumps(made), "utf-8")
        promtool("test", "rules", path)


def sets(name: str, count: int, size: int = 0) -> bytes:
    """So many sets of the root, each with so many bytes of remarks, and its password."""
    text = "\nas-set: AS-{}{}\nmnt-by: ROOT-MNT\nsource: TEST\nremarks: {}\n"
    many = "".join(text.format(name, number, "x" * size) for number in range(count))
    return b"password: bc\n" + many.encode()


class Failures:
    """A machine with all that stands round a registry, to which something happens."""

    def __init__(self, service: Service) -> None:
        self.service = service
        # Seconds that one look of the check takes there.
        self.look = 0.0

    # What is watched.

    def figures(self) -> str:
        """What Prometheus reads: of the door, and of the node exporter's file, by the line of
        docs/WATCHING.md."""
        line = found(r"^\* \* \* \* \*  (irr check .*)$", text_of("docs/WATCHING.md"), "the line")
        guest = self.service.guest
        guest.ended(f"mkdir -p {NODE}; {line}")
        return guest.done(f"curl --silent --fail http://127.0.0.1:4381/metrics; cat {NODE}/*.prom")

    def cursor(self) -> str:
        told = self.service.guest.done("journalctl --quiet --lines=1 --show-cursor")
        return found(r"^-- cursor: (.*)$", told, "the journal's end")

    def told(self, since: str, word: str) -> str:
        """Waits until the check's unit says a word in the journal after that."""
        asked = f"journalctl --quiet --output=cat --unit=irrdesk-check --after-cursor='{since}'"
        return self.service.guest.until(f"{asked} | grep -m 1 '^{word}: '", word).strip()

    def seen(self, word: str, cause: str, *alerts: str, seconds: int = 300) -> str:
        """Brings something about. That the check's timer has it said within a minute, with its
        remedy, and that Prometheus raises these alerts."""
        before = self.figures()
        since = self.cursor()
        self.service.guest.done(cause, seconds=seconds)
        return self.watched(word, since, before, alerts)

    def watched(self, word: str, since: str, before: str, alerts: tuple[str, ...]) -> str:
        start = time.monotonic()
        line = self.told(since, word)
        took = time.monotonic() - start
        expect(took <= MINUTE + self.look, True, f"whether {word} is seen in time: {took:.0f} s")
        if shutil.which("promtool"):
            fired(before, self.figures(), {"CheckFault", *alerts})
        return f"after {took:.0f} s: {line.partition('; ')[0]}"

    def well(self, what: str) -> None:
        """That nothing is wrong any more, as far as the check sees: units that failed meanwhile are
        started, as the remedy says."""
        guest = self.service.guest
        try:
            guest.until(f"{STARTED}; systemctl start irrdesk-check", what, seconds=400)
        finally:
            guest.ended("systemctl reset-failed irrdesk-check.service")

    # The machine.

    def exposed(self) -> str:
        """The lines of docs/OPEN.md, with a test authority in place of a known one: what is served
        has a certificate of it, and is renewed by the timer's unit."""
        guest = self.service.guest
        guest.done(f"{OWN}; echo 127.0.0.1 {HOST} >> /etc/hosts")
        self.authority(90)
        guest.done("systemctl unmask nginx.service certbot.timer; systemctl enable --now nginx")
        guest.done("cat > /etc/letsencrypt/cli.ini", given=CERTBOT.encode())
        text = text_of("docs/OPEN.md").partition("\n## The door\n")[2]
        lines = found(
            r"^```sh\n((?:.*\n)*?)```$", text, "the commands of docs/OPEN.md"
        ).splitlines()
        kept = [line for line in lines if not re.match("apt install|editor", line)]
        expect(len(lines) - len(kept), 2, "what is not done: nginx is here, and edited below")
        guest.done("set -e\n" + "\n".join(kept), seconds=600)
        guest.done("systemctl enable --now certbot.timer")
        asked = f"curl --silent --fail https://{HOST}"
        told = guest.done(f"{asked}/query/ROOT-MNT; {asked}/ | head -n 1")
        expect("mntner:         ROOT-MNT" in told, True, f"what TLS answers: {told}")
        expect("<!doctype html>" in told.lower(), True, f"whether the page is there: {told}")
        number = f"openssl x509 -noout -serial -in /etc/letsencrypt/live/{HOST}/cert.pem"
        first = guest.done(number)
        guest.done("certbot renew --force-renewal --quiet --no-random-sleep-on-renew", seconds=600)
        second = guest.done(number)
        expect(second != first, True, "whether it was renewed")
        # nginx lets its older processes go on for a moment.
        guest.until(
            f"openssl s_client -connect 127.0.0.1:443 -servername {HOST} < /dev/null 2> /dev/null"
            f" | openssl x509 -noout -serial | grep -qx '{second.strip()}'",
            "that the new certificate is shown",
        )
        return f"{second.strip()}, after {first.strip()}"

    def authority(self, days: int) -> None:
        """A new authority, which is trusted, and whose certificates are good for so many days."""
        guest = self.service.guest
        settings = json.dumps({"pebble": {**PEBBLE, "certificateValidityPeriod": days * DAY}})
        guest.done("cat > /root/pebble/settings.json", given=settings.encode())
        guest.ended("systemctl stop pebble-trial")
        guest.done(
            "systemd-run --quiet --unit=pebble-trial --setenv=PEBBLE_VA_NOSLEEP=1"
            " --setenv=PEBBLE_WFE_NONCEREJECT=0 pebble -config /root/pebble/settings.json"
        )
        root = "curl --silent --fail https://localhost:15000/roots/0"
        guest.until(f"{root} > {TRUSTED}/root.crt", "the authority")
        guest.done("update-ca-certificates --fresh 2> /dev/null")

    def certified(self) -> None:
        """A new certificate, of the authority that there is."""
        # An account is known to one authority alone.
        guest = self.service.guest
        guest.done("rm -rf /etc/letsencrypt/accounts")
        guest.done(
            f"certbot certonly --webroot -w /var/www/html -d {HOST} --force-renewal --quiet"
            " --deploy-hook 'systemctl reload nginx'",
            seconds=600,
        )

    def prepared(self) -> str:
        """All that stands round a registry is enabled: nothing is wrong, no alert is raised, and
        nothing is left unchecked."""
        guest = self.service.guest
        guest.done(
            f"rm -rf {SOON.format('irrdesk-backup')}; cat >> {SETTINGS}",
            given=CHECK.encode(),
        )
        guest.done("sed -i 's/^mirrors = .*/mirrors = [\"127.0.0.1\"]/' /etc/irrdesk/door.toml")
        guest.done(
            "systemctl daemon-reload; systemctl enable --now irrdesk.service irrdesk-check.timer"
            " irrdesk-door.socket irrdesk-door.service irrdesk-mirror.service"
            " irrdesk-backup.timer irrdesk-history.timer; systemctl restart irrdesk-door"
        )
        guest.done("systemctl start irrdesk-backup irrdesk-history", seconds=600)
        self.well("that nothing is wrong")
        start, since = time.monotonic(), self.cursor()
        guest.done("systemctl start irrdesk-check", seconds=600)
        self.look = time.monotonic() - start
        asked = f"journalctl --quiet --output=cat --unit=irrdesk-check --after-cursor='{since}'"
        unseen = guest.done(
            f"{asked} | grep -v -e ^Starting -e ^Finished -e ^irrdesk-check || true"
        )
        expect("not checked" in unseen, False, f"whether there is what it could not see: {unseen}")
        if shutil.which("promtool"):
            figures = self.figures()
            fired(figures, figures, set())
        return f"a look takes {self.look:.1f} s"

    # What goes wrong.

    def certificate(self) -> str:
        """A certificate that was not renewed, and ends in nine days."""
        self.authority(9)
        before, since = self.figures(), self.cursor()
        self.certified()
        told = self.watched("certificate-ends", since, before, ())
        self.authority(90)
        self.certified()
        self.well("a new certificate")
        return told

    def backup(self) -> str:
        """A newest backup of 27 hours ago."""
        guest, place = self.service.guest, "/var/lib/irrdesk-backup"
        old = "$(date --utc --date='27 hours ago' +%Y%m%dT%H%M%SZ)"
        told = self.seen(
            "backup-old",
            f"cd {place}; new=$(ls -d 2* | tail -n 1); ls -d 2* | head -n -1"
            f" | xargs --no-run-if-empty rm -r; mv $new {old}",
        )
        guest.done("systemctl start irrdesk-backup", seconds=600)
        self.well("a new backup")
        return told

    def clock(self) -> str:
        """A clock that is set two days ahead, and put right; and a backup that was made meanwhile,
        and takes no place of a later one."""
        guest, place = self.service.guest, "/var/lib/irrdesk-backup"
        timers = "irrdesk-backup.timer irrdesk-history.timer"
        guest.done(f"systemctl stop {timers}")
        jumped = self.seen("clock-jumped", "date --set '2 days'")
        guest.done(f"date --set '2 days ago'; systemctl start {timers}")
        self.well("the right clock")
        ahead = "$(date --utc --date='2 days' +%Y%m%dT%H%M%SZ)"
        told = self.seen("clock-ahead", f"cd {place}; cp -a $(ls -d 2* | tail -n 1) {ahead}")
        future = guest.done(f"ls -d {place}/2* | tail -n 1").strip()
        before = guest.done(f"ls {place}").split()
        guest.done("systemctl start irrdesk-backup", seconds=600)
        made = set(guest.done(f"ls {place}").split()) - set(before)
        expect(len(made), 1, f"the backup of now: {made}")
        guest.done(f"rm -r {future}")
        self.well("once what is of the future is gone")
        return f"{jumped}; {told}"

    def replica(self) -> str:
        """Replicas that can't be renewed, because their registry is stopped: they answer, and are
        old after a while."""
        guest = self.service.guest
        before, since = self.figures(), self.cursor()
        guest.done("systemctl stop irrdesk")
        self.told(since, "replicas-not-renewed")
        guest.until(AGE.format(">"), "that a replica is old", seconds=400)
        told = self.watched("replica-old", since, before, ("UpstreamDown",))
        whois = guest.done("whois -h 127.0.0.1 -p 43 ROOT-MNT", seconds=120)
        expect("mntner:" in whois, True, f"whether the door answers of them: {whois}")
        guest.done("systemctl start irrdesk")
        self.well("the registry is there again")
        return told

    def mirror(self) -> str:
        """A mirror that has not asked while more was changed than it may be behind."""
        self.changed("first", 1)
        follow = f"-g TEST:3:{self.serial()}-LAST"
        self.asked(follow)
        before, since = self.figures(), self.cursor()
        self.changed("more", 30)
        told = self.watched("mirror-behind", since, before, ())
        expect(": 127.0.0.1: it is " in told, True, f"who is told of: {told}")
        self.asked(follow)
        self.asked(f"-g TEST:3:{self.serial()}-LAST")
        self.well("the mirror has followed")
        # It never asks again, and the door that is started now knows of no mirror.
        self.service.guest.done("systemctl restart irrdesk-door")
        return told

    def asked(self, words: str) -> str:
        """What the door answers to a line of a mirror."""
        ask = f"exec 3<>/dev/tcp/127.0.0.1/43; printf -- '%s\\n' '{words}' >&3; cat <&3"
        return self.service.guest.done(f'bash -c "{ask}"')

    def serial(self) -> int:
        """The last one that the door tells a mirror of."""
        return int(found(r"^TEST:3:Y:\d+-(\d+)$", self.asked("-q sources"), "serials"))

    def changed(self, name: str, count: int) -> None:
        """So many sets more, of the root, and a state of the history with them."""
        guest = self.service.guest
        told = guest.done("irr submit -", given=sets(name, count), seconds=600)
        expect(told.count(": added"), count, f"what is added: {told[-300:]}")
        guest.done("systemctl start irrdesk-history", seconds=600)

    def disk(self) -> str:
        """A disk that is full: what is submitted is refused, the check starts the registry again,
        and the disk is told of. Then there is room."""
        service, guest, place = self.service, self.service.guest, "/var/lib/irrdesk"
        guest.done("cat > /root/sets", given=sets("FULL", 80, 2_500))
        guest.done(
            "systemctl stop irrdesk; truncate -s 16M /root/small; mkfs.ext4 -q -m 0 /root/small;"
            f" cp -a {place} /root/kept; mount -o loop /root/small {place};"
            f" cp -a /root/kept/. {place}; chown irrdesk: {place}; chmod 700 {place};"
            " rm -r /root/kept; systemctl start irrdesk"
        )
        self.well("a small disk")
        fill = (
            f"fallocate -l $(($(stat -f -c '%a*%S' {place}) - 600000)) {place}/filler;"
            " curl --silent --data-binary @/root/sets http://127.0.0.1:4380/submissions | grep E91"
        )
        told = self.seen("disk-full", fill, "DatabaseFailed", seconds=600)
        guest.done(f"rm {place}/filler")
        service.serves("with room")
        self.well("there is room")
        guest.done(
            f"systemctl stop irrdesk; mkdir /root/kept; cp -a {place}/irr.db* /root/kept; umount"
            f" {place}; rm {place}/irr.db*; mv /root/kept/* {place}; rm -r /root/kept /root/small;"
            " systemctl start irrdesk"
        )
        self.well("the first disk again")
        return told

    def memory(self) -> str:
        """A registry that strangers fill up to the bound of its memory."""
        service, guest = self.service, self.service.guest
        group = "/sys/fs/cgroup$(systemctl show --property=ControlGroup --value irrdesk)"
        held = guest.ended(f"cat {group}/memory.current")
        if held.status:
            raise Skipped("a container has no memory of its own")
        guest.done("systemctl restart irrdesk")
        service.serves("a start")
        file = found(r"^file (\d+)$", guest.done(f"cat {group}/memory.stat"), "memory.stat")
        most = int(guest.done(f"cat {group}/memory.current")) - int(file) + (3 << 20)
        guest.done(f"systemctl set-property --runtime irrdesk.service MemoryMax={most}")
        self.well("a bound of memory")
        before, since = self.figures(), self.cursor()
        for number in range(40):
            junk = sets(f"JUNK{number}X", 400, 60)
            guest.done("irr submit - > /dev/null", given=junk, seconds=600)
            if guest.ended("irr check | grep -q ^memory-full").status == 0:
                break
        told = self.watched("memory-full", since, before, ())
        guest.done("systemctl set-property --runtime irrdesk.service MemoryMax=75%")
        self.well("more memory")
        return f"{told}; {number + 1} submissions of 400 sets"

    # A year.

    def year(self) -> str:
        """A year in steps of four weeks by a clock that is set, each with a submission through the
        door: timers make up for the time, the certificate is renewed, what is kept for a while
        goes, and mirrors follow. Of a container, which has no clock of its own, it is a month."""
        guest, place = self.service.guest, "/var/lib/irrdesk-backup"
        is_set = not guest.ended("date --set=@$(date +%s)").status
        serials, files = self.mirrors()
        # What a timer missed it makes up for after its random delay, from the machine's start on.
        for timer, line in SOONER.items():
            guest.done(
                f"mkdir -p {SOON.format(timer)}; cat > {SOON.format(timer)}/trial.conf;"
                f" systemctl daemon-reload; systemctl restart {timer}.timer",
                given=f"[Timer]\n{line}\n".encode(),
            )
        first = serials.serial, files.version, files.key
        for month in range(13 if is_set else 1):
            if is_set:
                ahead = f"date --set=@$(($(date +%s) + {28 * DAY})) > /dev/null"
                # The remedy for a clock that went ahead and is right.
                guest.done(f"{ahead}; systemctl restart irrdesk-check.timer")
            guest.until(f"ls {place} | grep -q ^$(date --utc +%Y%m%dT)", "a backup by its timer")
            self.signed(KEYS.get(month, ""))
            submit = "irr submit -s http://127.0.0.1:4380 -"
            told = guest.done(submit, given=sets(f"MONTH{month}X", 1))
            expect("added" in told, True, f"a submission in month {month}: {told}")
            guest.done("systemctl start irrdesk-history", seconds=600)
            self.well(f"month {month}")
            self.mirrored(f"AS-MONTH{month}X0", serials, files, is_set)
            far = serials.serial, files.version
            expect(far, (first[0] + month + 1, first[1] + month + 1), "the serial and the version")
        if not is_set:
            raise Skipped("a container has no clock of its own: it was one month of the year")
        expect(files.key != first[2], True, "whether the next key signs")
        kept = guest.done(f"ls -d {place}/2*").split()
        expect(len(kept), 14, "backups that are kept")
        left = f"openssl x509 -checkend {30 * DAY} -in /etc/letsencrypt/live/{HOST}/cert.pem"
        guest.done(left)
        lines = [json.loads(line) for line in guest.done("irr log --json").splitlines()]
        # The door looks at the age of its files by a clock that nobody sets.
        months = {one["key"] for one in lines if (one.get("key") or "").startswith("AS-MONTH")}
        expect(months, {f"AS-MONTH{month}X0" for month in range(13)}, "who submitted what")
        shown = guest.done("irr history show as-set AS-MONTH0X0", seconds=120)
        expect("AS-MONTH0X0" in shown, True, "what was registered a year ago")
        expect(guest.ended("systemctl --failed --plain --no-legend").printed, "", "what has failed")
        return f"{len(kept)} backups, {len(lines)} lines of the log, serial {serials.serial}"

    def mirrors(self) -> tuple[Mirror, Mirror4]:
        """What mirrors take, enabled by the lines of docs/MIRRORING.md, and two that begin with it:
        one by serials, and one by NRTM 4, which is given the key."""
        guest = self.service.guest
        guest.done("systemctl start irrdesk-history", seconds=600)
        Timers(self.service).mirrors()
        page = text_of("docs/MIRRORING.md")
        lines = found(r"^apt install openssl\n((?:.*\n)*?)```$", page, "the commands of the page")
        shown = guest.done(f"set -e\n{lines}", seconds=600)
        key = found(r"^(-----BEGIN(?:.*\n)*?-----END.*\n)", shown, "the key")
        place = self.service.trial.place("exported")
        self.exported(place)
        serials, files = Mirror("TEST"), Mirror4("TEST", f"{place}/nrtmv4", key)
        serials.begin(place)
        files.follow()
        return serials, files

    def exported(self, place: str) -> None:
        """Fetches what mirrors take into a folder here, in the place of what is in it."""
        packed = self.service.guest.done(f"tar -C {EXPORT} -c .").encode("latin-1")
        shutil.rmtree(place)
        Path(place).mkdir()
        subprocess.run(["tar", "-C", place, "--no-same-owner", "-x"], input=packed, check=True)

    def signed(self, change: str) -> None:
        """That the notification is signed anew though nothing has changed, by its timer; then a
        change of the key."""
        guest, path = self.service.guest, f"{EXPORT}/nrtmv4/{NOTIFICATION}"
        young = f"test $(($(date +%s) - $(stat -c %Y {path}))) -lt {HOUR}"
        guest.until(young, "a notification of the last hour")
        if change:
            keys = f"runuser -u irrdesk-public -- irr nrtm4 {change} /var/lib/irrdesk-nrtm4"
            guest.until(keys, f"irr nrtm4 {change}")

    def mirrored(self, name: str, serials: Mirror, files: Mirror4, is_later: bool) -> None:
        """That the replicas, the dump and both mirrors have a set that is new, and nothing else
        is; and that all that the door tells of them is of now."""
        guest, timers = self.service.guest, Timers(self.service)
        ports = timers.ports()
        for port in ports:
            replica = f"curl --silent http://127.0.0.1:{port}/query/{name}"
            guest.until(f"{replica} | grep -q '^as-set: *{name}$'", f"{name} at the replica {port}")
        guest.until(AGE.format("<"), "that the replicas are young")
        # The hour of its timer is not waited for.
        guest.done("systemctl start irrdesk-history irrdesk-export", seconds=600)
        version = files.version + 1
        delta = f"ls {EXPORT}/nrtmv4/nrtm-delta.{version}.*"
        guest.until(delta, f"version {version}, by its timer", seconds=400)
        timers.ran("irrdesk-nrtm4")
        place, dump = str(files.folder.parent), Mirror("TEST")
        self.exported(place)
        dump.begin(place)
        expect(("as-set", name) in dump.objects, True, f"whether the dump has {name}")
        follow = [serials.take(self.asked(f"-g TEST:3:{serials.serial + 1}-LAST")) for _ in "12"]
        expect((follow, serials.serial), ([1, 0], dump.serial), "changes by serials")
        expect(serials.objects == dump.objects, True, "whether they give the objects of the dump")
        state = json.loads(guest.done(STATUS))
        told, one = state["serials"], state["serials"]["mirrors"]["127.0.0.1"]
        seen = told["last"], one["serial"], one["age"] < MINUTE, self.serial()
        expect(seen, (dump.serial, dump.serial, True, dump.serial), "what the door tells")
        aged = [one["name"] for one in state["upstreams"] if one["age"] is not None]
        expect(len(aged), len(ports), f"replicas whose age it tells: {aged}")
        expect((files.follow(), files.version), (True, version), "changes by files")
        age = int(guest.done("date +%s")) - files.made.timestamp()
        expect(0 <= age < HOUR, True, f"whether the notification is young: {age:.0f} s")
        # One that is new needs no change after a snapshot that was renewed.
        new = Mirror4("TEST", str(files.folder), files.key)
        new.follow()
        expect((new.version, new.deltas), (version, 0 if is_later else 1), "a new mirror")
        for mirror in files, new:
            expect(mirror.objects == dump.objects, True, "whether the files give them too")
        left = {int(path.name.split(".")[1]) for path in files.folder.glob("nrtm-*")}
        named = [one["version"] for one in files.notification()["deltas"]]
        expect((left, named), ({version - 1, version}, [version]), "the changes that are left")

    def over(self) -> str:
        """What was enabled for all this is as it was."""
        guest = self.service.guest
        guest.done(f"sed -i '/^\\[check\\]/,$d' {SETTINGS}; systemctl stop nginx certbot.timer")
        guest.done("systemctl disable --now irrdesk-backup.timer irrdesk-nrtm4.timer")
        guest.done(f"rm -rf {' '.join(map(SOON.format, SOONER))}; systemctl daemon-reload")
        expect(guest.ended("systemctl --failed --plain --no-legend").printed, "", "what has failed")
        return "nothing has failed"

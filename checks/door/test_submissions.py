"""Submissions through the door: bounds, reports, who did what, and that old answers do not outlive
a change."""

import contextlib
import http.client
import json
import os
import random
import socket
import subprocess
import sys
import threading
import time
from collections.abc import Iterator
from pathlib import Path
from typing import Any, Self

import pytest

from checks.door import worlds
from checks.door.opened import PYTHON, Opened, Registries, read_all, wait_until
from checks.running import TOP, Each, Trial, expect
from checks.worlds import answering

ITEM = "password: bc\n\nas-set: {}\nmnt-by: ROOT-MNT\nsource: TEST\n"


@pytest.fixture(scope="module")
def door(trial: Trial) -> Iterator[Opened]:
    with Registries(trial, "registries", worlds.DUMP, replicas=0) as registries:
        with Opened(
            trial, "door", registries.words, 'trusted = ["127.0.0.1", "127.0.0.9"]\n'
        ) as opened:
            yield opened


def test_a_report_comes_whole_and_is_written_down(door: Opened) -> None:
    text = (
        ITEM.format("AS-ONE")
        + "\nroute: 10.5.0.0/16\norigin: AS1\nmnt-by: A-MNT\nsource: TEST\n\nfoo\n"
    )
    status, _, report = door.submit(text, X_Forwarded_For="192.0.2.7", X_Remote_User="holder")
    wanted = b"1 as-set AS-ONE: added\n2 route 10.5.0.0/16 AS1: refused E11\n3 -: refused E01\n"
    wanted += b"% items 3\n"
    expect((status, report), (200, wanted), "the report")
    entries = door.items()[-3:]
    expect(
        [(one["item"], one["class"], one["key"], one["outcome"]) for one in entries],
        [
            (1, "as-set", "AS-ONE", "added"),
            (2, "route", "10.5.0.0/16 AS1", "E11"),
            (3, None, None, "E01"),
        ],
        "what is written down",
    )
    expect(
        {(one["client"], one["user"], one["connection"]) for one in entries},
        {("192.0.2.7", "holder", entries[0]["connection"])},
        "who",
    )
    expect(entries[1]["mnt-by"], ["A-MNT"], "the maintainers")
    with open(door.log, encoding="utf-8") as file:
        expect("bc" in file.read().replace("abc", ""), False, "a password")


def test_only_trusted_addresses_name_clients_and_users(door: Opened) -> None:
    door.submit(ITEM.format("AS-TWO"), last=5, X_Forwarded_For="192.0.2.7", X_Remote_User="holder")
    expect((door.items()[-1]["client"], door.items()[-1]["user"]), ("127.0.0.5", None), "who")
    door.submit(ITEM.format("AS-TWO"), last=9, X_Forwarded_For="203.0.113.1, 192.0.2.8, 127.0.0.1")
    expect(door.items()[-1]["client"], "192.0.2.8", "the last that no proxy is")
    door.submit(ITEM.format("AS-TWO"), last=9, X_Forwarded_For="2001:db8:0:1ff::1")
    expect(door.items()[-1]["client"], "2001:db8:0:100::/56", "a client of version 6")


def test_each_bound_is_a_413_that_says_which(door: Opened, each: Each) -> None:
    many = "password: bc\n\n" + "as-set: AS-T\nmnt-by: ROOT-MNT\nsource: TEST\n\n" * 1_001
    for what, text in [
        ("262,144 bytes", "remarks: " + "x" * 262_144),
        ("1,000 items", many),
        ("32 lines of passwords", "password: x\n" * 33 + "\n" + ITEM.format("AS-T")),
        ("32 lines of passwords", "\n\n".join(f"PassWord \t: {number}" for number in range(33))),
    ]:
        with each(what):
            status, _, body = door.submit(text)
            expect((status, what.encode() in body), (413, True), f"{body!r}")
    expect(door.submit("password: x\n" * 31 + "\n" + ITEM.format("AS-T"))[0], 200, "32 passwords")


def test_a_submission_that_is_refused_is_written_down(door: Opened) -> None:
    before = len(door.items())
    many = "as-set: AS-T\nmnt-by: ROOT-MNT\nsource: TEST\n\n" * 1_001
    fields: dict[str, Any] = {"X_Forwarded_For": "192.0.2.40", "X_Remote_User": "refused"}
    door.submit(many, **fields)
    door.submit("password: secret\n" * 33, **fields)
    door.submit("x" * 300_000, **fields)
    door.submit("x", Origin="https://evil.example", Host="irr.example.net", **fields)
    entries = door.items()[before:]
    expect(
        [(one["outcome"], one["items"], one["client"], one["user"]) for one in entries],
        [
            ("413 items", 1_001, "192.0.2.40", "refused"),
            ("413 passwords", None, "192.0.2.40", "refused"),
            ("413 size", None, "192.0.2.40", "refused"),
            ("403", None, "192.0.2.40", "refused"),
        ],
        "what is written down",
    )
    expect("secret" in str(entries), False, "a password")
    printed = irr(door, "log", "--file", door.log, "--client", "refused")[1]
    expect(
        b"192.0.2.40 (refused): a submission of 1,001 items: refused 413 items" in printed,
        True,
        f"{printed!r}",
    )
    expect(b"192.0.2.40 (refused): a submission: refused 413 size" in printed, True, f"{printed!r}")


def test_who_sends_what_is_refused_pushes_no_lines_out(door: Opened) -> None:
    before, begun = len(door.items()), time.monotonic()
    for _ in range(100):
        door.submit("password: x\n" * 33, last=77)
    written, took = len(door.items()) - before, time.monotonic() - begun
    expect(60 <= written <= 61 + took, True, f"{written} lines of 100 in {took:.1f} s")
    time.sleep(1.5)
    door.submit("password: x\n" * 33, last=77)
    entries = door.items()[before:]
    untold = sum(entry["untold"] for entry in entries)
    expect(untold + len(entries), 101, "lines, and what there is none of")


class Chance:
    """Submissions of items by chance: good ones, bad ones, deletions, passwords between them."""

    def __init__(self, chance: random.Random) -> None:
        self.chance = chance

    def item(self) -> str:
        chance = self.chance
        if chance.randrange(100) == 0:
            return f"remarks: {'x' * 66_000}\n"
        name = f"AS-P{chance.randrange(40)}"
        return chance.choice(
            [
                f"as-set: {name}\nmembers: AS{chance.randrange(5)}\nmnt-by: ROOT-MNT\n"
                "source: TEST\n",
                f"as-set: {name}\nmnt-by: ROOT-MNT\nsource: TEST\npassword: bc\n",
                f"as-set: {name}\nmnt-by: ROOT-MNT\nsource: TEST\nDelete: x\n",
                "password: wrong\n",
                "PASSWORD : b\n c\n",
                "# a line that is skipped\n",
                "route: 10.7.0.0/16\n# skipped\norigin: AS1\nmnt-by: ROOT-MNT\nsource: TEST\n",
                "foo: bar\n",
                "\tnothing\n",
                "as-set: AS-Q\r\nmnt-by: ROOT-MNT\r\nsource: OTHER\r\n",
            ]
        )

    def text(self) -> str:
        count = self.chance.choice([3, 60, 120, 200])
        text, size = "", 0
        while count and size < 190_000:
            item = self.item()
            count, size = count - 1, size + len(item)
            text += item + self.chance.choice(["\n", "\n\n", "\r\n", " \n"])
        return text


def test_a_submission_in_parts_has_the_report_of_one(trial: Trial) -> None:
    """The report of a registry that gets the whole, byte for byte, and the same objects after
    it."""
    with Registries(trial, "parts", worlds.DUMP, replicas=0) as through:
        with Registries(trial, "whole", worlds.DUMP, replicas=0) as alone:
            with Opened(
                trial, "parts-door", through.words, "burst = 100\npasswords = 1000\n"
            ) as door:
                chance = Chance(trial.chance("parts"))
                for _ in range(trial.pick(12, 300)):
                    text = chance.text().encode()
                    wanted = direct(alone.ports[0], text)
                    status, _, report = door.submit(text)
                    expect((status, report), (200, wanted), f"{text[:300]!r}")
                expect(dump_of(through.ports[0]), dump_of(alone.ports[0]), "the objects")


def direct(port: int, text: bytes) -> bytes:
    connection = http.client.HTTPConnection("127.0.0.1", port, timeout=60)
    with contextlib.closing(connection):
        connection.request("POST", "/submissions", text)
        return connection.getresponse().read()


def dump_of(port: int) -> bytes:
    connection = http.client.HTTPConnection("127.0.0.1", port, timeout=60)
    with contextlib.closing(connection):
        connection.request("GET", "/dump")
        return connection.getresponse().read()


def test_others_are_served_between_the_parts_of_a_long_one(trial: Trial) -> None:
    """Another sender has its turn after the part that was under way when it came, and not after all
    of them."""
    with Slow() as slow:
        with Opened(trial, "slow-parts", [f"--registry=http://127.0.0.1:{slow.port}"]) as door:
            many = "".join(f"as-set: AS-M{n}\nmnt-by: A-MNT\nsource: TEST\n\n" for n in range(400))
            reports: dict[str, Any] = {}
            long = threading.Thread(target=lambda: reports.update(long=door.submit(many, 2)))
            long.start()
            wait_until("a part", 20, lambda: len(slow.sizes) > 1)
            slow.may_answer.clear()
            wait_until("a part that is held", 20, lambda: slow.is_held)
            begun, one = len(slow.sizes) + 1, ITEM.format("AS-T")
            other = threading.Thread(target=lambda: reports.update(other=door.submit(one, 3)))
            other.start()
            wait_until("another one", 20, lambda: door.status()["submissions_waiting"] == 1)
            slow.may_answer.set()
            for thread in other, long:
                thread.join()
            expect(reports["other"][0], 200, "another one")
            expect((slow.sizes[begun], slow.sizes.count(1)), (1, 1), f"its turn, of {slow.sizes}")
            expect(reports["long"][2].splitlines()[-1], b"% items 400", "the end of the long one")
            lines = reports["long"][2].splitlines()[:-1]
            expect([int(line.split()[0]) for line in lines], list(range(1, 401)), "its numbers")
            expect(max(slow.sizes) <= 50, True, f"the parts {slow.sizes}")


def test_the_lines_of_a_report_come_as_soon_as_they_are_decided(trial: Trial) -> None:
    """Those of the parts that are over, while the registry has the next one."""
    with Slow() as slow:
        with Opened(trial, "line-by-line", [f"--registry=http://127.0.0.1:{slow.port}"]) as door:
            many = "".join(f"as-set: AS-M{n}\nmnt-by: A-MNT\nsource: TEST\n\n" for n in range(400))
            head = b"POST /submissions HTTP/1.1\r\nHost: x\r\nConnection: close\r\n"
            head += b"Content-Length: %d\r\n\r\n" % len(many)
            with contextlib.closing(door.connect(door.http_port)) as peer:
                peer.sendall(head + many.encode())
                wait_until("a part", 20, lambda: slow.sizes)
                slow.may_answer.clear()
                wait_until("a part that is held", 20, lambda: slow.is_held)
                count, came = sum(slow.sizes), b""
                while b"\n%d as-set AS-M%d: added\n" % (count, count - 1) not in came:
                    piece = peer.recv(1 << 16)
                    expect(bool(piece), True, f"whether the connection stays: {came[-200:]!r}")
                    came += piece
                expect(sum(slow.sizes), count, "the items of the parts that are over")
                slow.may_answer.set()
                came += read_all(peer)
    expect((came.count(b": added"), b"% items 400" in came), (400, True), "the report")


def test_a_registry_that_goes_away_between_two_parts_cuts_the_report(trial: Trial) -> None:
    with Slow(parts=2) as slow:
        with Opened(trial, "cut-parts", [f"--registry=http://127.0.0.1:{slow.port}"]) as door:
            many = "".join(f"as-set: AS-M{n}\nmnt-by: A-MNT\nsource: TEST\n\n" for n in range(400))
            with pytest.raises((http.client.IncompleteRead, ConnectionResetError)):
                door.submit(many)
            wait_until("a line", 10, lambda: "untold" in door.items()[-1])
            entry = door.items()[-1]
            expect((entry["outcome"], entry["items"]), ("cut", 300), "what is written down")


def test_a_report_that_lasts_longer_than_a_client_may_be_slow_comes_whole(trial: Trial) -> None:
    """The registry takes its time for each part, and the client takes each line as it comes."""
    with Slow() as slow:
        words = [f"--registry=http://127.0.0.1:{slow.port}"]
        with Opened(trial, "long-report", words, "patience = 1\nburst = 1000\n") as door:
            many = "".join(f"as-set: AS-M{n}\nmnt-by: A-MNT\nsource: TEST\n\n" for n in range(400))
            status, _, report = door.submit(many)
            expect(
                (status, report.splitlines()[-1]), (200, b"% items 400"), "the end of the report"
            )


class Slow:
    """A registry that takes its time for each submission, and adds all of its items; after some of
    them nobody listens there."""

    def __init__(self, parts: int = 1_000) -> None:
        self.parts = parts
        self.sizes: list[int] = []
        # Nobody gets a report before this is set; whether somebody waits for that.
        self.may_answer, self.is_held = threading.Event(), False
        self.may_answer.set()
        self.listener = socket.create_server(("127.0.0.1", 0))
        self.port = self.listener.getsockname()[1]

    def __enter__(self) -> Self:
        threading.Thread(target=self.serve, daemon=True).start()
        return self

    def __exit__(self, *_: object) -> None:
        self.listener.close()

    def serve(self) -> None:
        while len(self.sizes) < self.parts:
            try:
                peer, _ = self.listener.accept()
            except OSError:
                return
            with peer:
                text = peer.recv(1 << 16)
                if not text.startswith(b"POST"):
                    peer.sendall(worlds.ALL + b"\n")
                    continue
                head, _, body = text.partition(b"\r\n\r\n")
                length = int(head.rpartition(b"Content-Length: ")[2])
                while len(body) < length:
                    body += peer.recv(1 << 16)
                names = [line[8:].decode() for line in body.split(b"\n") if line[:7] == b"as-set:"]
                time.sleep(0.5)
                self.is_held = not self.may_answer.is_set()
                self.may_answer.wait()
                lines = [f"{n} as-set {name}: added\n" for n, name in enumerate(names, 1)]
                report = "".join([*lines, f"% items {len(names)}\n"])
                if len(self.sizes) + 1 == self.parts:
                    self.listener.close()
                self.sizes.append(len(names))
                peer.sendall(b"HTTP/1.1 200 OK\r\n\r\n" + report.encode())


def test_a_body_of_any_allowed_size_is_taken(door: Opened, each: Each) -> None:
    """However it comes: at once, in pieces, or behind another request."""
    for size in 1_000, 60_000, 70_000, 262_144:
        body = (ITEM.format("AS-LONG") + "\n#").encode()
        body += b"x" * (size - len(body))
        head = b"POST /submissions HTTP/1.1\r\nHost: x\r\nContent-Length: %d\r\n" % size
        for way in "at once", "in pieces", "behind another one":
            with each(f"{size} bytes {way}"), contextlib.closing(
                door.connect(door.http_port, patience=20)
            ) as peer:
                if way == "behind another one":
                    peer.sendall(head + b"\r\n" + body)
                text = head + b"Connection: close\r\n\r\n" + body
                for place in range(0, size, 10_000) if way == "in pieces" else ():
                    peer.sendall(text[place : place + 10_000])
                    time.sleep(0.01)
                peer.sendall(text[place + 10_000 :] if way == "in pieces" else text)
                expect(b"% items 1\n" in read_all(peer), True, "the report")


def test_a_long_body_is_refused_before_it_is_sent(door: Opened) -> None:
    with socket.create_connection(("127.0.0.1", door.http_port), 30) as peer:
        peer.sendall(
            b"POST /submissions HTTP/1.1\r\nHost: x\r\nContent-Length: 99999999\r\n"
            b"Expect: 100-continue\r\n\r\n"
        )
        expect(read_all(peer)[:12], b"HTTP/1.1 413", "the status")


def test_a_page_of_another_site_submits_nothing(door: Opened) -> None:
    status, _, _ = door.submit(
        ITEM.format("AS-EVIL"), Origin="https://evil.example", Host="irr.example.net"
    )
    expect(status, 403, "another site")
    status, _, _ = door.submit(
        ITEM.format("AS-GOOD"), Origin="https://irr.example.net", Host="irr.example.net"
    )
    expect(status, 200, "its own page")


def test_a_change_is_seen_at_once(door: Opened) -> None:
    expect(door.whois("AS-NEW"), b"% no entries\n", "before")
    door.submit(ITEM.format("AS-NEW"))
    expect(door.whois("AS-NEW")[:7], b"as-set:", "after")


@contextlib.contextmanager
def with_older_replicas(trial: Trial, name: str) -> Iterator[tuple[Registries, Opened]]:
    """A registry with two replicas that stay as they are, and a door that knows how old these
    are."""
    with contextlib.ExitStack() as stack:
        made = stack.enter_context(Registries(trial, name, worlds.DUMP, replicas=2))
        seen = time.time()
        replicas = [
            {"port": port, "ready": True, "state": "a", "seen": seen} for port in made.ports[1:]
        ]
        told = stack.enter_context(answering(json.dumps({"replicas": replicas}).encode()))
        words = [made.words[0], f"--agent={told.removeprefix('http://')}"]
        door = stack.enter_context(Opened(trial, f"{name}-door", words))
        known = "that it knows the replicas"
        wait_until(known, 20, lambda: sum(one["serves"] for one in door.status()["upstreams"]) > 2)
        yield made, door


def need_seen_by_who_submitted(door: Opened) -> None:
    """That client 2 is answered by nobody of an earlier state, and client 3 is as before."""
    for _ in range(4):
        expect(door.whois("AS-SOON", last=2)[:7], b"as-set:", "who submitted, by whois")
        found = door.http("GET", "/query/AS-SOON", last=2)[2]
        expect(found[:7], b"as-set:", "who submitted, over HTTP")
        expect(door.whois("AS-SOON", last=3), b"% no entries\n", "another client")
        expect(door.whois("AS1", last=2), worlds.AS1 + b"\n", "another object")


def test_who_changes_something_sees_it_before_the_replicas_have_it(trial: Trial) -> None:
    with with_older_replicas(trial, "older") as (_, door):
        door.submit(ITEM.format("AS-SOON"), last=2)
        need_seen_by_who_submitted(door)


def test_who_is_refused_sees_what_the_registry_refused_it_by(trial: Trial) -> None:
    """Somebody else has changed the registry past the door, and no replica has that yet."""
    with with_older_replicas(trial, "past") as (made, door):
        direct(made.ports[0], ITEM.format("AS-SOON").encode())
        wrong = ITEM.format("AS-SOON").replace("bc", "wrong")
        report = door.submit(wrong + "members: AS1\n", last=2)[2]
        expect(report, b"1 as-set AS-SOON: refused E11\n% items 1\n", "the report")
        need_seen_by_who_submitted(door)


def irr(door: Opened, *words: str, stdin: bytes = b"") -> tuple[int, bytes, bytes]:
    """The status of `irr`, what it prints, and what it says."""
    environment = {
        **os.environ,
        "PYTHONPATH": os.path.join(TOP, "tools"),
        "IRR_SERVER": f"http://127.0.0.1:{door.http_port}",
    }
    ran = subprocess.run(
        [PYTHON, "-m", "irr", *words],
        input=stdin,
        capture_output=True,
        env=environment,
        check=False,
    )
    return ran.returncode, ran.stdout, ran.stderr


def test_irr_submits_and_reads_the_log_through_it(door: Opened) -> None:
    status, printed, reported = irr(door, "submit", "-", stdin=ITEM.format("AS-TOOL").encode())
    expect((status, b"as-set AS-TOOL: added" in printed), (0, True), f"{printed!r} {reported!r}")
    many = "password: bc\n\n" + "".join(
        f"as-set: AS-M{n}\nmnt-by: ROOT-MNT\nsource: TEST\n\n" for n in range(2_500)
    )
    status, printed, reported = irr(door, "submit", "-", stdin=many.encode())
    expect(
        (status, b"2500 as-set AS-M2499: added" in printed),
        (0, True),
        f"{printed[-200:]!r} {reported!r}",
    )
    expect(irr(door, "query", "AS-TOOL")[1][:7], b"as-set:", "a query")
    expect(
        irr(door, "dump")[1].rstrip().rpartition(b"\n")[2].startswith(b"% end "), True, "the dump"
    )
    log = ["log", "--file", door.log]
    expect(len(irr(door, *log)[1].splitlines()), len(door.items()), "all lines")
    expect(irr(door, *log, "--key", "AS-TOOL")[1].count(b"as-set AS-TOOL: added"), 1, "by key")
    expect(
        b"192.0.2.7 (holder): route 10.5.0.0/16 AS1: refused E11"
        in irr(door, *log, "--maintainer", "A-MNT")[1],
        True,
        "by maintainer",
    )
    expect(len(irr(door, *log, "--client", "holder")[1].splitlines()), 3, "by user")
    expect(irr(door, *log, "--until", "2000-01-01")[0], 1, "by time")
    entry = json.loads(irr(door, *log, "--json", "--key", "AS-TOOL")[1].splitlines()[0])
    expect(irr(door, *log, "--since", entry["time"], "--key", "AS-TOOL")[0], 0, "since then")


def test_a_registry_that_is_down_takes_nothing(trial: Trial) -> None:
    with Registries(trial, "down", worlds.DUMP, replicas=1) as registries:
        with Opened(trial, "down-door", registries.words) as door:
            registries.kill(0)
            begun = time.monotonic()
            status, _, body = door.submit(ITEM.format("AS-T"))
            expect((status, body), (503, b"% the registry does not answer\n"), "the status")
            expect(time.monotonic() - begun < 15, True, "how soon it is told")
            expect(door.whois("AS1"), worlds.AS1 + b"\n", "a query")
            registries.start(0)
            wait_until("a submission", 30, lambda: door.submit(ITEM.format("AS-T"))[0] == 200)


def test_files_of_the_log_are_bounded(trial: Trial) -> None:
    sys.path.append(os.path.join(TOP, "tools"))
    from irr.door import journal, settings
    from irr.registry.answers import Item

    folder = trial.place("journal")
    path = os.path.join(folder, "items.log")
    made = journal.Journal(settings.Settings(log=path, log_size=4_096, log_files=3))
    for number in range(400):
        who = journal.Who("192.0.2.1", "", 1)
        made.item(who, Item(number + 1, f"as-set AS-{number}", "added", ""), ["A-MNT"])
    files = journal.files_of(Path(path))
    expect(3 <= len(files) <= 5, True, f"{len(files)} files")
    expect(all(os.path.getsize(one) <= 4_400 for one in files), True, "their sizes")
    with open(files[-1], encoding="utf-8") as file:
        expect(json.loads(file.read().splitlines()[-1])["key"], "AS-399", "the last line")

"""Mail to those who are concerned: what changed, by `notify` and `mnt-nfy`, and what was refused,
by `upd-to`."""

import asyncio
import email
import email.message
import email.policy
import json
import os
import sys
import threading
import time
from collections.abc import Iterator
from pathlib import Path

import pytest

from checks.mirrors.test_serials import States
from checks.running import Ran, Trial, expect
from checks.serving import free_port
from checks.worlds import Tool
from irr.local import notices
from irr.system import mail

FROM = "irr@example.net"
STAND_IN = """#!{python}
import json, os, sys
folder = os.path.dirname(os.path.abspath(__file__))
text = sys.stdin.buffer.read().decode()
status = 0
for line in open(os.path.join(folder, "statuses")):
    address, _, number = line.partition(" ")
    if address == sys.argv[-1]:
        status = int(number)
        sys.stderr.write("no such mailbox\\n")
if not status:
    with open(os.path.join(folder, "mails"), "a") as out:
        out.write(json.dumps([sys.argv[1:], text]) + "\\n")
sys.exit(status)
"""
MAINTAINERS = [
    "mntner:         A-MNT\nauth:           # filtered\nmnt-nfy:        a@example.net\n"
    "upd-to:         up@example.net\nmnt-by:         A-MNT\nsource:         TEST\n",
    "mntner:         B-MNT\nauth:           # filtered\nmnt-nfy:        b@example.net\n"
    "mnt-by:         B-MNT\nsource:         TEST\n",
]


def route(third: int, by: str, *lines: str) -> str:
    more = "".join(f"{line}\n" for line in lines)
    return (
        f"route:          192.0.{third}.0/24\norigin:         AS64496\n{more}"
        f"mnt-by:         {by}\nsource:         TEST\n"
    )


def read(text: bytes) -> email.message.EmailMessage:
    found = email.message_from_bytes(text, policy=email.policy.default)
    assert isinstance(found, email.message.EmailMessage)
    return found


class Mailed:
    """A history, and who gets mail of it through a stand-in for sendmail."""

    def __init__(self, trial: Trial, tool: Tool, folder: str) -> None:
        self.tool, self.folder = tool, Path(folder)
        self.states = States(os.path.join(folder, "history"))
        self.program = self.folder / "sendmail"
        self.program.write_text(STAND_IN.format(python=sys.executable))
        self.program.chmod(0o755)
        self.statuses = self.folder / "statuses"
        self.statuses.write_text("")
        (self.folder / "history").mkdir(exist_ok=True)

    def commit(self, *objects: str) -> None:
        self.states.commit(*MAINTAINERS, *objects)

    def run(self, *words: str) -> Ran:
        given = ["--from", FROM, "--history", str(self.folder / "history")]
        given += ["--sendmail", str(self.program), *words, str(self.folder / "sent")]
        return self.tool("notify", *given)

    def mails(self) -> list[tuple[str, email.message.EmailMessage]]:
        """The mails since this was asked last: to whom, and each message."""
        path = self.folder / "mails"
        if not path.exists():
            return []
        found = [json.loads(line) for line in path.read_text().splitlines()]
        path.unlink()
        for words, _ in found:
            expect(words[:4], ["-i", "-f", FROM, "--"], "the words for sendmail")
        return [(words[4], read(text.encode())) for words, text in found]

    def sent(self, *words: str) -> dict[str, str]:
        """The text for each address of a run without a fault."""
        ran = self.run(*words)
        expect((ran.status, ran.reported), (0, b""), "a run")
        return {address: message.get_content() for address, message in self.mails()}


@pytest.fixture
def mailed(trial: Trial, tool: Tool, request: pytest.FixtureRequest) -> Mailed:
    return Mailed(trial, tool, trial.place(request.node.name))


def test_each_state_is_mailed_once_to_those_concerned(mailed: Mailed) -> None:
    mailed.commit(route(1, "A-MNT"))
    expect(mailed.sent(), {}, "the first run begins")
    expect(mailed.sent(), {}, "nothing changed")
    mailed.commit(route(1, "B-MNT", "notify:         old@example.org"), route(2, "B-MNT"))
    sent = mailed.sent()
    expect(set(sent), {"a@example.net", "b@example.net", "old@example.org"}, "to whom")
    for line in "-mnt-by:         A-MNT", "+mnt-by:         B-MNT", "AS64496: changed":
        expect(line in sent["a@example.net"], True, f"whether {line!r} is told")
    expect("192.0.2.0/24" in sent["a@example.net"], False, "whether others' objects are told")
    expect("+route:          192.0.2.0/24" in sent["b@example.net"], True, "what was added")
    mailed.commit(route(2, "B-MNT"))
    sent = mailed.sent()
    expect(set(sent), {"b@example.net", "old@example.org"}, "to whom a deletion is told")
    expect("-notify:         old@example.org" in sent["old@example.org"], True, "what went")
    expect(mailed.sent(), {}, "told once")


def test_states_since_the_last_run_are_mailed_one_by_one(mailed: Mailed) -> None:
    mailed.commit(route(1, "A-MNT"))
    mailed.sent()
    mailed.commit(route(1, "A-MNT", "descr:          one"))
    mailed.commit(route(1, "A-MNT", "descr:          two"))
    ran = mailed.run()
    expect((ran.status, ran.reported), (0, b""), "a run")
    found = mailed.mails()
    expect([address for address, _ in found], ["a@example.net"] * 2, "two mails")
    for (_, message), word in zip(found, ("one", "two")):
        expect(f"+descr:          {word}" in message.get_content(), True, word)
        expect(str(message["Subject"]), "[TEST] route 192.0.1.0/24 AS64496: changed", "subject")
        expect(str(message["Auto-Submitted"]), "auto-generated", "that no machine answers")


def test_no_more_goes_within_an_hour_than_may(mailed: Mailed) -> None:
    mailed.commit()
    mailed.sent()
    several = [route(n, "ROOT-MNT", f"notify:         n{n}@example.org") for n in range(5)]
    mailed.commit(*several)
    ran = mailed.run("--most", "3")
    expect((ran.status, b"the rest goes with a later run" in ran.reported), (0, True), "the bound")
    first = [address for address, _ in mailed.mails()]
    expect(len(first), 3, "mails")
    expect((mailed.run("--most", "3").status, mailed.mails()), (0, []), "within the hour")
    noted = mailed.folder / "sent" / "sent.json"
    found = json.loads(noted.read_text())
    found["times"] = [one - 3_600 for one in found["times"]]
    noted.write_text(json.dumps(found))
    expect(mailed.run("--most", "3").status, 0, "a run an hour later")
    rest = [address for address, _ in mailed.mails()]
    expect(sorted(first + rest), [f"n{n}@example.org" for n in range(5)], "each has its mail once")


def test_a_mail_server_that_fails_loses_nothing(mailed: Mailed) -> None:
    mailed.commit(route(1, "A-MNT"))
    mailed.sent()
    mailed.commit(route(1, "A-MNT", "notify:         gone@example.org"), route(2, "B-MNT"))
    mailed.statuses.write_text("gone@example.org 67\nb@example.net 75\n")
    ran = mailed.run()
    expect(ran.status, 5, "the status where it is to be tried again")
    expect(
        b"gone@example.org: no such mailbox; passed over" in ran.reported, True, "who has no mail"
    )
    mailed.statuses.write_text("gone@example.org 67\n")
    rest = mailed.run()
    expect(rest.status, 0, "the next run")
    expect(sorted(address for address, _ in mailed.mails()), ["a@example.net", "b@example.net"], "")


def test_what_was_refused_goes_to_upd_to(mailed: Mailed) -> None:
    mailed.commit(route(1, "A-MNT"))
    log = mailed.folder / "items.log"
    log.write_text("")
    mailed.sent("--log", str(log))

    def stamp(moment: float) -> str:
        return time.strftime("%Y-%m-%dT%H:%M:%S+00:00", time.gmtime(moment))

    def entry(second: float, outcome: str, **more: object) -> str:
        at = stamp(time.time() + second)
        entry = {"time": at, "client": "192.0.2.7", "item": 1, "class": "route"}
        return json.dumps(entry | {"key": "192.0.1.0/24 AS1", "outcome": outcome} | more) + "\n"

    log.write_text(
        entry(-9_000, "E13", **{"mnt-by": ["A-MNT"], "key": "long ago"})
        + "no entry\n"
        + entry(-1, "E13", **{"mnt-by": ["a-mnt", "NONE-MNT"]})
        + entry(-1, "added", **{"mnt-by": ["A-MNT"], "key": "10.0.0.0/8 AS1"})
        + entry(-1, "E11", **{"class": "mntner", "key": "A-MNT"})
        + entry(-1, "E11", **{"mnt-by": ["B-MNT"]})
    )
    noted = mailed.folder / "sent" / "sent.json"
    found = json.loads(noted.read_text())
    noted.write_text(json.dumps(found | {"since": time.time() - 60}))
    found = mailed.sent("--log", str(log))
    expect(set(found), {"up@example.net"}, "to whom")
    for words, there in (
        ("192.0.2.7: route 192.0.1.0/24 AS1: refused E13", True),
        ("mntner A-MNT: refused E11", True),
        ("10.0.0.0/8", False),
        ("long ago", False),
    ):
        expect(words in found["up@example.net"], there, f"whether it tells {words!r}")
    expect(mailed.sent("--log", str(log)), {}, "told once")
    # Of the moment up to which all was told, and of the one after it.
    last = int(time.time()) - 30
    noted.write_text(json.dumps(json.loads(noted.read_text()) | {"since": float(last)}))
    log.write_text(
        entry(0, "E13", **{"mnt-by": ["A-MNT"], "key": "told before", "time": stamp(last)})
        + entry(0, "E13", **{"mnt-by": ["A-MNT"], "key": "not yet", "time": stamp(last + 1)})
    )
    (text,) = mailed.sent("--log", str(log)).values()
    expect(("told before" in text, "not yet" in text), (False, True), "what is told then")


def test_another_history_begins_anew(mailed: Mailed) -> None:
    mailed.commit(route(1, "A-MNT"))
    mailed.sent()
    noted = mailed.folder / "sent" / "sent.json"
    noted.write_text(json.dumps(json.loads(noted.read_text()) | {"commit": "0" * 40}))
    mailed.commit(route(1, "B-MNT"))
    ran = mailed.run()
    expect((ran.status, b"another history" in ran.reported), (0, True), "what is reported")
    expect((mailed.mails(), mailed.sent()), ([], {}), "no mail")


def test_a_dry_run_prints_and_notes_nothing(mailed: Mailed) -> None:
    mailed.commit(route(1, "A-MNT"))
    mailed.sent()
    mailed.commit(route(1, "A-MNT", "descr:          new"))
    ran = mailed.run("--dry-run")
    expect((ran.status, b"To: a@example.net" in ran.printed, mailed.mails()), (0, True, []), "dry")
    expect(set(mailed.sent()), {"a@example.net"}, "the run after it")


def test_what_cannot_be_done_is_reported(mailed: Mailed) -> None:
    mailed.commit(route(1, "A-MNT"))
    for words, reported in (
        (["--from=-oQ/tmp"], b"give the address"),
        (["--from", "irr@example.net\nBcc: x@example.net"], b"give the address"),
        (["--most", "0"], b"--most"),
        (["--log", "x", "--journal"], b"--journal"),
        (["--history", "/nowhere"], b"there is no history"),
    ):
        ran = mailed.run(*words)
        expect(
            (ran.status, reported in ran.reported, ran.reported.count(b"\n")),
            (2, True, 1),
            words[0],
        )


@pytest.mark.parametrize(
    "text,is_one",
    [
        ("a@example.net", True),
        ("first.last+irr@sub.example.net", True),
        ("-oQ/tmp@example.net", False),
        ("a@example", False),
        ("a b@example.net", False),
        ("a@example.net, b@example.net", False),
        ("a..b@example.net", False),
        ("a@-example.net", False),
        ("a@example.net\nBcc: b@example.net", False),
        ("x" * 65 + "@example.net", False),
    ],
)
def test_mail_goes_to_plain_addresses_alone(text: str, is_one: bool) -> None:
    assert mail.is_address(text) == is_one


def test_a_long_mail_names_what_it_has_no_room_for() -> None:
    many = [notices.Notice(f"route {n}: changed", "x" * 99_999) for n in range(1_500)]
    text = notices.text_of(many)
    assert len(text) < notices.MOST_TEXT + 100_000
    assert "route 1001: changed\n" in text and text.endswith("and 498 more objects\n")
    # Two are told whole, and a thousand by their lines.
    assert notices.text_of(many[:1_003]).endswith("route 1001: changed\nand 1 more object\n")
    assert notices.text_of(many[:1_002]).endswith("route 1001: changed\n")


class Sink:
    """A mail server that takes all, as a thread of its own."""

    def __init__(self) -> None:
        self.port, self.mails = free_port(), list[bytes]()
        self.loop, self.is_open = asyncio.new_event_loop(), threading.Event()
        self.thread = threading.Thread(target=self.run, daemon=True)

    def run(self) -> None:
        async def main() -> None:
            self.server = await asyncio.start_server(self.serve, "127.0.0.1", self.port)
            self.is_open.set()

        self.loop.run_until_complete(main())
        self.loop.run_forever()

    async def serve(self, reader: asyncio.StreamReader, writer: asyncio.StreamWriter) -> None:
        writer.write(b"220 sink\r\n")
        while line := await reader.readline():
            if line.upper().startswith(b"DATA"):
                writer.write(b"354 go on\r\n")
                self.mails.append(await reader.readuntil(b"\r\n.\r\n"))
            writer.write(b"250 sink\r\n")
            if line.upper().startswith(b"QUIT"):
                break
        writer.close()


@pytest.fixture
def sink() -> Iterator[Sink]:
    made = Sink()
    made.thread.start()
    assert made.is_open.wait(60)
    yield made
    made.loop.call_soon_threadsafe(made.loop.stop)
    made.thread.join()


def test_a_mail_server_of_debian_takes_it(mailed: Mailed, sink: Sink) -> None:
    settings = mailed.folder / "msmtprc"
    settings.write_text(f"account default\nhost 127.0.0.1\nport {sink.port}\nfrom {FROM}\n")
    settings.chmod(0o600)
    mailed.program.write_text(f'#!/bin/sh\nexec msmtp -C "{settings}" "$@"\n')
    mailed.commit(route(1, "A-MNT"))
    mailed.sent()
    mailed.commit(route(1, "A-MNT", "descr:          \N{SNOWMAN}"))
    mailed.sent()
    expect(len(sink.mails), 1, "mails")
    message = read(sink.mails[0])
    expect(message["To"], "a@example.net", "to whom")
    expect("+descr:          \N{SNOWMAN}" in message.get_content(), True, "its text")

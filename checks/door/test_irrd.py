"""IRRd's questions at the door: golden replies, kept connections, and IRRd's clients unchanged."""

import asyncio
import json
import shutil
import socket
import subprocess
import time
from types import SimpleNamespace
from typing import Any

import pytest

from checks.door import inside, worlds
from checks.door.opened import Opened, Registries, read_all
from checks.running import Each, Trial, expect
from checks.serving import free_port
from irr.door import irrd, pool
from irr.door.cache import Answer, Cache, Ledger
from irr.door.queries import Asker

SECONDS = 30


def data(text: bytes) -> bytes:
    return b"A%d\n%s\nC\n" % (len(text) + 1, text)


def joined(*objects: bytes) -> bytes:
    return data(b"\n".join(objects)[:-1])


RANGES = b"10.0.0.0/16^24-24 10.1.0.0/16^16-32"
REPLIES = {
    "!!": b"",
    "!nclient": b"C\n",
    "!t30": b"C\n",
    "!gAS1": data(b"10.0.0.0/16 10.1.0.0/16"),
    "!gas2": data(b"10.0.0.0/16 10.1.2.0/24"),
    "!gAS9": b"D\n",
    "!6AS1": b"D\n",
    "!6as1": b"D\n",
    "!6foo": b"F Invalid AS number: foo\n",
    "!aAS-X": data(b"10.0.0.0/16 10.1.0.0/16 10.1.2.0/24"),
    "!a4AS-Y": data(b"10.0.0.0/16 10.1.2.0/24"),
    "!a6AS-Y": b"D\n",
    "!a6": b"F Missing required set name for A query\n",
    "!a4": b"F Missing required set name for A query\n",
    "!aRS-X": data(RANGES),
    "!aAS-EMPTY": b"D\n",
    "!aAS-NONE": b"D\n",
    "!a": b"F Missing required set name for A query\n",
    "!iAS-X": data(b"AS1 AS-Y AS-GONE"),
    "!iAS-X,1": data(b"AS1 AS2"),
    "!iAS-REF": data(b"AS1"),
    "!iAS-OPEN": data(b"AS1 AS2"),
    "!iAS-OPEN,1": data(b"AS1 AS2"),
    "!iAS-EMPTY": b"D\n",
    "!iAS-NONE,1": b"D\n",
    "!iRS-X": data(RANGES),
    "!iRS-X,1": data(RANGES),
    "!iRS-REF": data(b"10.1.0.0/16"),
    "!iRS-OPEN": data(b"10.1.2.0/24"),
    "!jTEST": data(b"TEST:N:-"),
    "!j-*": data(b"TEST:N:-"),
    "!jRIPE": data(b"RIPE:X:Database unknown"),
    "!maut-num,AS1": joined(worlds.AS1),
    "!maut-num,as9": b"D\n",
    "!mroute,10.1.0.0/16AS1": joined(worlds.ONE),
    "!mroute,10.1.0.0/16 AS1": joined(worlds.ONE),
    "!minetnum,10.1.0.0 - 10.1.255.255": joined(worlds.TEN_ONE),
    "!mas-set,AS-Y": joined(worlds.Y),
    "!mmntner,A-MNT": joined(worlds.A_MNT),
    "!mperson,X": b"D\n",
    "!mfoo,X": b"F Invalid object class: foo\n",
    "!maut-num": b"F Invalid argument for object lookup: aut-num\n",
    "!oNONE-MNT": b"D\n",
    "!r10.0.0.0/16": joined(worlds.ZERO_1, worlds.ZERO_2),
    "!r10.0.0.0/16,o": data(b"AS1 AS2"),
    "!r10.1.2.0/24,l": joined(worlds.ONE),
    "!r10.1.2.0/24,L": joined(worlds.ONE, worlds.LONG),
    "!r10.1.0.0/16,M": joined(worlds.LONG),
    "!r10.9.0.0/16": b"D\n",
    "!r2001:db8::/32": b"D\n",
    "!r2001:db8::1": b"D\n",
    "!r2001:db8::/32,o": b"D\n",
    "!r2001:db8::/32,L": b"D\n",
    "!rfoo:bar": b"F Invalid input for route search: foo:bar\n",
    "!mroute6,2001:db8::/32AS1": b"D\n",
    "!minet6num,2001:db8::/32": b"D\n",
    "!rfoo": b"F Invalid input for route search: foo\n",
    "!r10.0.0.0/16,x": b"F Invalid route search option: x\n",
    "!s-lc": data(b"TEST"),
    "!stest": b"C\n",
    "!sTEST,TEST": b"C\n",
    "!stest, TEST": b"C\n",
    "!sTEST,RIPE": b"F One or more selected sources are unavailable: TEST,RIPE; there is TEST\n",
    "!fno-rpki-filter": data(b"Nothing is left out of answers here by RPKI"),
    "!FNO-RPKI-FILTER": data(b"Nothing is left out of answers here by RPKI"),
    "!fno-scope-filter": data(b"Nothing is left out of answers here by scope"),
    "!fno-route-preference-filter": data(
        b"Nothing is left out of answers here by route preference"
    ),
    "!fno-such-filter": b"F Unrecognised command: fno-such-filter\n",
    "!f": b"F Unrecognised command: f\n",
    "!e": b"F Unrecognised command: e\n",
    "!x": b"F Unrecognised command: x\n",
    "!": b"F Missing IRRD command\n",
    **{f"!{one}": b"F Missing parameter for %c query\n" % ord(one.upper()) for one in "tg6ijmnors"},
    "!t0": b"F Invalid value for timeout: 0\n",
    "!m" + "x" * 1_050: b"F a question has at most 1024 bytes\n",
    "!m" + "x" * 2_000: b"F a question has at most 1024 bytes\n",
    "!q": b"",
}
# What stands round a question for no reason.
BLANKS = {"before it": b" \t%s\n", "after it": b"%s \t\n", "both": b" %s \r\n"}
FORMATS: dict[str, list[str]] = {
    "plain": [],
    "bird": ["-b"],
    "openbgpd": ["-B"],
    "json": ["-j"],
    "junos": ["-J"],
    "ios xr": ["-X"],
    "nokia": ["-N"],
    "huawei": ["-U"],
    "eos": ["-e"],
    "routeros": ["-K"],
    "aggregated": ["-A"],
    "more specific": ["-R", "24"],
    "limited": ["-L", "3"],
    "of a source": ["-S", "TEST"],
    "without indirect ones": ["-T"],
    "numbers": ["-f", "1"],
    "a set of numbers": ["-t", "-b"],
}


def test_each_question_has_its_reply(door: Opened, each: Each) -> None:
    for question, wanted in REPLIES.items():
        with each(question):
            expect(door.whois(question), wanted, question)
            if wanted[:1] != b"F":
                both = door.whois(b"!!\n" + question.encode() + b"\n!gAS1\n!q\n")
                after = b"" if question == "!q" else REPLIES["!gAS1"]
                expect(both, wanted + after, f"{question} in a kept connection")


@pytest.mark.parametrize("name", BLANKS)
def test_blanks_round_a_question_say_nothing(door: Opened, name: str) -> None:
    text = b"".join(BLANKS[name] % line for line in (b"!!", b"!gAS1", b"!s-lc", b"!q"))
    expect(door.whois(text), REPLIES["!gAS1"] + REPLIES["!s-lc"], "the replies")


def test_a_client_that_calls_itself_bgpq_stops_at_a_line_that_is_too_long(door: Opened) -> None:
    text = b"!!\n!nbgpq4\n!i" + b"x" * 2_000 + b"\n"
    expect(door.whois(text), b"C\n%\nF a question has at most 1024 bytes\n", "the replies")


def test_objects_of_a_maintainer_come_in_one_reply(door: Opened) -> None:
    reply = door.whois("!oA-MNT")
    head, _, text = reply.partition(b"\n")
    expect(reply.endswith(b"\nC\n") and int(head[1:]) == len(text) - 2, True, "the framing")
    expect(text[:-2].count(b"source:"), 14, "objects that A-MNT maintains")
    expect(b"AS2" in text.split(b"members")[0], False, "an object of another")


def test_the_status_is_json_and_the_version_says_what_is_skipped(door: Opened) -> None:
    expect(b'"authoritative": true' in door.whois("!J-*"), True, "!J")
    expect(b"missing sets are skipped" in door.whois("!v"), True, "!v")


def test_a_view_that_was_made_with_roas_is_not_answered_without_them() -> None:
    view = {"name": "ALL", "sources": [{"name": "A"}, {"name": "B"}], "roas": "made"}
    session = b"!!\n!sALL\n!fno-rpki-filter\n!fno-scope-filter\n!sTEST\n!fno-rpki-filter\n!q"

    async def report(_: bytes, writer: asyncio.StreamWriter) -> None:
        writer.write(json.dumps({"replicas": [], "view": view}).encode() + b"\n")

    async def ask() -> bytes:
        async with inside.answering(report) as agent, asyncio.timeout(SECONDS):
            place = agent.removeprefix("http://")
            async with inside.opened(lambda _: b"", view=[place]) as (door, _):
                await inside.until(lambda: door.pool.views.pools[0].name)
                return await inside.asked(door.settings.whois[0], session)

    wanted = b"C\nF the view ALL was made with ROAs, and no query can change that\n"
    wanted += REPLIES["!fno-scope-filter"] + b"C\n" + REPLIES["!fno-rpki-filter"]
    expect(inside.run(ask()), wanted, "the replies")


def test_a_view_answers_as_soon_as_the_door_has_heard_of_its_replicas() -> None:
    """However long there were none before."""
    view = {"name": "ALL", "sources": [{"name": "A"}, {"name": "B"}]}

    async def answer(line: bytes, writer: asyncio.StreamWriter) -> None:
        writer.write((worlds.ALL if line == inside.LOOK else worlds.AS1) + b"\n")

    async def ask() -> bytes:
        async with inside.answering(answer) as replica, asyncio.timeout(SECONDS):
            agent, port = f"127.0.0.1:{free_port()}", int(replica.rpartition(":")[2])
            async with inside.opened(lambda _: b"", view=[agent]) as (door, _):
                one = door.pool.views.pools[0]
                await inside.until(lambda: one.since_down)
                assert one.since_down
                one.since_down -= pool.DOWN
                entry = {"port": port, "ready": True, "state": "", "seen": time.time()}
                one.heard({"replicas": [entry], "view": view})
                return await inside.asked(door.settings.whois[0], b"!!\n!sALL\n!maut-num,AS1\n!q")

    expect(inside.run(ask()), b"C\n" + joined(worlds.AS1), "the replies")


def test_a_strict_door_refuses_what_lacks_a_set(trial: Trial, registries: Registries) -> None:
    with Opened(trial, "strict", registries.words, "strict = true\n") as door:
        for question in "!aAS-X", "!iAS-X,1":
            expect(b"F AS-X: sets that it reaches" in door.whois(question), True, question)
            reply = door.whois(b"!!\n!nbgpq4\n" + question.encode() + b"\n!gAS1\n!q\n")
            # It would go on after that, and make a list that lacks something.
            expect((reply[:6], reply.count(b"\n")), (b"C\n%\nF ", 3), f"{reply!r}")
        expect(b"missing sets are refused" in door.whois("!v"), True, "!v")


@pytest.mark.parametrize("name", FORMATS)
@pytest.mark.parametrize("what", ["AS-X", "AS1", "RS-X"])
def test_bgpq4_prints_what_the_registry_has(door: Opened, name: str, what: str) -> None:
    if not shutil.which("bgpq4"):
        pytest.skip("bgpq4 is not here")
    words = ["bgpq4", "-h", f"127.0.0.1:{door.whois_port}", "-4", *FORMATS[name], what]
    if what == "RS-X" and name in ("numbers", "a set of numbers"):
        pytest.skip("a route-set has no numbers")
    ran = subprocess.run(words, capture_output=True, text=True, timeout=60, check=False)
    expect((ran.returncode, ran.stderr), (0, ""), " ".join(words))
    expect("1" in ran.stdout and len(ran.stdout) > 10, True, ran.stdout)


def test_bgpq3_and_peval_style_sessions_work(door: Opened) -> None:
    if not shutil.which("bgpq3"):
        pytest.skip("bgpq3 is not here")
    words = ["bgpq3", "-h", f"127.0.0.1:{door.whois_port}", "-4", "-l", "N", "AS-X"]
    ran = subprocess.run(words, capture_output=True, text=True, timeout=60, check=False)
    expect(ran.returncode, 0, ran.stderr)
    for prefix in "10.0.0.0/16", "10.1.0.0/16", "10.1.2.0/24":
        expect(f"permit {prefix}" in ran.stdout, True, prefix)
    session = b"!!\n!iAS-X,1\n!gas1\n!man,x\n!q\n"
    expect(
        door.whois(session),
        REPLIES["!iAS-X,1"] + REPLIES["!gAS1"] + b"F Invalid object class: an\n",
        "",
    )


def test_socat_keeps_a_connection(door: Opened) -> None:
    if not shutil.which("socat"):
        pytest.skip("socat is not here")
    ran = subprocess.run(
        ["socat", "-t5", "-", f"TCP4:127.0.0.1:{door.whois_port}"],
        input=b"!!\n!gAS1\nAS1\n-K AS1\n!gAS2\n!q\n",
        capture_output=True,
        timeout=60,
        check=False,
    )
    expect(ran.stdout.startswith(REPLIES["!gAS1"] + worlds.AS1 + b"\n"), True, "the first replies")
    expect(ran.stdout.endswith(REPLIES["!gas2"]), True, "the last reply")


def test_questions_that_come_in_one_piece_or_byte_by_byte_are_answered_in_order(
    door: Opened,
) -> None:
    lines = [b"!gAS1", b"!gAS2", b"!iAS-X,1", b"!r10.1.0.0/16,o"]
    wanted = b"".join(
        REPLIES[line.decode().replace("AS2", "as2") if line == b"!gAS2" else line.decode()]
        if line != b"!r10.1.0.0/16,o"
        else data(b"AS1")
        for line in lines
    )
    text = b"!!\r\n" + b"\r\n".join(lines * 20) + b"\r\n!q\r\n"
    expect(door.whois(text), wanted * 20, "in one piece")
    with socket.create_connection(("127.0.0.1", door.whois_port), 30) as peer:
        for byte in b"!!\n!gAS1\n!q\n":
            peer.sendall(bytes([byte]))
        expect(read_all(peer), REPLIES["!gAS1"], "byte by byte")


@pytest.mark.parametrize(
    "item, text",
    [
        (b"AS02", "AS2"),
        (b"as-x", "AS-X"),
        (b"AS02:AS-C", "AS2:AS-C"),
        (b"as02:rs-c^25", "AS2:RS-C^25"),
        (b"AS02^+", "AS2^+"),
    ],
)
def test_members_are_spelled_as_those_of_an_expansion(item: bytes, text: str) -> None:
    """bgpq4's EXCEPT compares texts: `AS02` would not be taken out by `EXCEPT AS2`."""
    assert irrd.member_text(item) == text


@pytest.mark.parametrize(
    ("maintainer", "joins"), [(b"A-MNT", True), (b"B-MNT", True), (b"C-MNT", False), (None, True)]
)
def test_who_joins_a_set_is_found_in_any_letter_case(maintainer: bytes, joins: bool) -> None:
    """And over several lines, with comments that say nothing."""
    block = b"aut-num:        as01\nmember-of:      as-y, # AS-Z\n                as01:as-x\n"
    block += b"mnt-by:         a-Mnt # C-MNT\n+\nmnt-by:         b-mnt\n"
    assert irrd.joins(block, "AS1:AS-X", maintainer) is joins
    assert not irrd.joins(block, "AS-Z", maintainer)


class Dear(Asker):
    """Asks a registry that takes a second to answer, so that answers are kept."""

    def __init__(self, text: bytes) -> None:
        pool: Any = SimpleNamespace(cache=Cache(1 << 20, 60.0), ledger=Ledger(1 << 20))
        client: Any = SimpleNamespace()
        super().__init__(pool, client)
        self.text, self.count = text, 0

    async def ask(self, query: bytes) -> Answer:
        self.count += 1
        return self.own(self.text, 1.0)


@pytest.mark.parametrize("options", ["lL", "Ll"])
def test_options_of_routes_that_differ_by_letter_case_are_kept_apart(options: str) -> None:
    asker = Dear(worlds.ONE + b"\n" + worlds.LONG + b"\n")
    wanted = {option: REPLIES[f"!r10.1.2.0/24,{option}"] for option in options}
    for option in options * 2:
        question = f"!r10.1.2.0/24,{option}"
        reply = asyncio.run(irrd.Session(asker).answer(question.encode()))
        expect(reply.text, wanted[option], question)
    expect(asker.count, 2, "queries of the registry")


def test_what_is_kept_answers_names_of_any_letter_case_and_the_same_command_alone() -> None:
    asker = Dear(worlds.ONE + b"\n")
    for question in b"!gAS1", b"!gas1":
        reply = asyncio.run(irrd.Session(asker).answer(question))
        expect((reply.text, asker.count), (data(b"10.1.0.0/16"), 1), f"{question!r}")
    reply = asyncio.run(irrd.Session(asker).answer(b"!GAS1"))
    expect(reply.text, b"F Unrecognised command: GAS1\n", "!GAS1")

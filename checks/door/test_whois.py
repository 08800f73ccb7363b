"""The registry's own queries and RIPE's flags at the door, and Debian's whois with its own
flags."""

import asyncio
import shutil
import socket
import subprocess
from collections.abc import AsyncIterator
from typing import cast

import pytest

from checks.door import worlds
from checks.door.opened import Opened, Registries, read_all
from checks.running import Each, expect
from irr.door import ripe
from irr.door.queries import Asker
from irr.rpsl import grammar

NATIVE = [
    "AS1",
    "as2",
    "10.0.0.1",
    "10.0.0.0/16",
    "AS-X",
    "RS-X",
    "A-MNT",
    "closest 10.1.2.3",
    "exact 10.0.0.0/16",
    "less 10.1.2.0/24",
    "more 10.0.0.0/8",
    "object route 10.1.0.0/16 AS1",
    "inverse mnt A-MNT",
    "inverse origin AS1",
    "expand AS-X",
    "prefixes AS-X",
    "expand AS-NONE",
    "prefixes",
    "closest nowhere",
    "  less\t10.1.2.0/24 ",
    "object foo bar",
    "AS4294967295",
    "NONE-MNT",
    "",
]
# What RIPE's flags find, without the lines that begin with `%`.
FOUND = {
    "-r AS1": [worlds.AS1],
    "-B -G AS1": [worlds.AS1],
    "-rBG -T aut-num AS1": [worlds.AS1],
    "-T route 10.0.0.0/16": [worlds.ZERO_1, worlds.ZERO_2],
    "-T inetnum,route 10.1.2.3": [worlds.TEN_ONE, worlds.LONG],
    "-T route -T inetnum 10.1.2.3": [worlds.TEN_ONE, worlds.LONG],
    "-L 10.1.2.0/24": [worlds.ALL, worlds.TEN, worlds.TEN_ONE, worlds.ONE, worlds.LONG],
    "-l 10.1.2.0/24": [worlds.TEN_ONE, worlds.ONE],
    "-M 10.1.0.0/16": [worlds.LONG],
    "-M 10.0.0.0/8": [worlds.TEN_ONE, worlds.ZERO_1, worlds.ZERO_2, worlds.ONE, worlds.LONG],
    "-m 10.0.0.0/8": [worlds.TEN_ONE, worlds.ZERO_1, worlds.ZERO_2, worlds.ONE],
    "-x 10.1.0.0/16": [worlds.TEN_ONE, worlds.ONE],
    "-x 10.1.0.0 - 10.1.255.255": [worlds.TEN_ONE, worlds.ONE],
    "-T inetnum -l 10.1.0.0 - 10.1.255.255": [worlds.TEN],
    "10.0.0.0 - 10.1.255.255": [worlds.TEN],
    "10.1.0.0/16AS1": [worlds.ONE],
    "10.1.0.0/16 AS1": [worlds.ONE],
    "-i origin AS1": [worlds.ZERO_1, worlds.ONE],
    "-i or AS1": [worlds.ZERO_1, worlds.ONE],
    "-i mb -T in A-MNT": [worlds.TEN, worlds.TEN_ONE],
    "-T rt 10.0.0.0/16": [worlds.ZERO_1, worlds.ZERO_2],
    "-i mnt-routes A-MNT": [worlds.TEN],
    "-i mbrs-by-ref -T as-set A-MNT": [
        worlds.canonical("as-set: AS-REF\nmbrs-by-ref: A-MNT\nmnt-by: A-MNT")
    ],
    "-i mnt-by -T inetnum A-MNT": [worlds.TEN, worlds.TEN_ONE],
    "-i member-of AS-REF": [worlds.AS1],
    "-i member-of RS-REF": [worlds.ONE],
    "--inverse origin AS1": [worlds.ZERO_1, worlds.ONE],
    "--all-less -T inetnum 10.1.0.0/16": [worlds.ALL, worlds.TEN, worlds.TEN_ONE],
    "-s TEST AS1": [worlds.AS1],
    "-s TEST,test AS1": [worlds.AS1],
    "-s TEST -s TEST AS1": [worlds.AS1],
    "-a AS1": [worlds.AS1],
    "-V Md5.5.15 AS1": [worlds.AS1],
    "-K 10.1.0.0/16AS1": [b"route:          10.1.0.0/16\norigin:         AS1\n"],
    "-K AS-Y": [b"as-set:         AS-Y\nmembers:        AS2\n"],
    "-F AS1": [b"*an: AS1\n*mo: AS-REF\n*mb: A-MNT\n*so: TEST\n"],
}
ERRORS = {
    "2001:db8::1": 101,
    "-T person Smith": 101,
    "-T inet6num 10.0.0.0/8": 101,
    "-i admin-c X-TEST": 101,
    "-r 192.0.2.0/24,x": 101,
    "someone@example.net": 101,
    "example.net": 101,
    "-x 10.0.0.0/9": 101,
    "-s RIPE AS1": 102,
    "-T foo AS1": 103,
    "-t foo": 103,
    "-i foo AS1": 104,
    "-i descr AS1": 105,
    "-i ms AS1": 105,
    "-T pn Smith": 101,
    "-r " + "x" * 1_050: 107,
    "-r " + "x" * 2_000: 107,
    "-r": 106,
    "-L -M 10.0.0.0/8": 109,
    "-i origin -i origin AS1": 110,
    "-z AS1": 111,
    "--nonsense AS1": 111,
    "-T": 111,
    "-g TEST:3:1-LAST": 402,
}


def objects(answer: bytes) -> list[bytes]:
    """The objects of an answer in RIPE's form."""
    lines = [line for line in answer.split(b"\n") if line[:1] != b"%"]
    return [
        block.strip(b"\n") + b"\n" for block in b"\n".join(lines).split(b"\n\n") if block.strip()
    ]


def test_what_joins_a_set_is_of_its_maintainers(monkeypatch: pytest.MonkeyPatch) -> None:
    """By `mnt-by`, each once: as the set stands for them."""
    form = "aut-num: AS{}\nmember-of: AS-A\nmnt-by: {}\nmnt-lower: {}\nsource: TEST\n"
    found = {
        "object as-set AS-A": ["as-set: AS-A\nmbrs-by-ref: B-MNT, C-MNT\n"],
        "inverse mnt B-MNT": [
            form.format(1, "A-MNT", "B-MNT"),
            form.format(3, "C-MNT, B-MNT", "X-MNT"),
        ],
        "inverse mnt C-MNT": [
            form.format(3, "C-MNT, B-MNT", "X-MNT"),
            form.format(4, "C-MNT", "X-MNT"),
        ],
    }

    async def objects(_: object, query: str) -> AsyncIterator[tuple[bytes, float]]:
        for text in found[query]:
            yield text.encode(), 0.0

    async def joined() -> list[bytes]:
        asker = cast(Asker, None)
        return [text.split(b"\n")[0] async for text, _ in ripe.joined(asker, "AS-A")]

    monkeypatch.setattr(ripe, "objects", objects)
    expect(asyncio.run(joined()), [b"aut-num: AS3", b"aut-num: AS4"], "what is in it")


def test_the_registrys_own_queries_are_answered_byte_for_byte(
    door: Opened, registries: Registries, each: Each
) -> None:
    for query in NATIVE:
        with each(query or "an empty line"):
            with_line = query.encode() + b"\r\n"
            wanted = Peer(registries.ports[0]).ask(with_line)
            expect(door.whois(with_line), wanted, query)
            path = "/query/" + "".join(f"%{byte:02X}" for byte in query.encode())
            # A path of HTTP has no empty query.
            answer = (200, wanted) if query else (404, b"404 Not Found\n")
            expect(door.http("GET", path)[::2], answer, f"{query} over HTTP")


class Peer:
    def __init__(self, port: int) -> None:
        self.port = port

    def ask(self, text: bytes) -> bytes:
        with socket.create_connection(("127.0.0.1", self.port), 30) as peer:
            peer.sendall(text)
            return read_all(peer)


def test_what_is_http_submits_nothing_on_port_43(door: Opened, registries: Registries) -> None:
    body = b"password: bc\n\nas-set: AS-HIDDEN\nmnt-by: ROOT-MNT\nsource: TEST\n"
    for text in (
        b"GET /dump HTTP/1.1\r\n\r\n",
        b"POST /submissions HTTP/1.0\r\nContent-Length: %d\r\n\r\n" % len(body) + body,
        b"inverse HTTP/1.1 x\r\n\r\n",
    ):
        expect(door.whois(text)[:2], b"% ", f"{text!r}")
    expect(Peer(registries.ports[0]).ask(b"AS-HIDDEN\n"), b"% no entries\n", "what came of it")


def test_who_ends_without_a_word_is_answered_as_by_the_registry(door: Opened) -> None:
    with door.connect(door.whois_port) as peer:
        peer.shutdown(socket.SHUT_WR)
        expect(read_all(peer), b"% error 1\n", "the answer")
    with door.connect(door.whois_port) as peer:
        peer.sendall(b"AS1")
        peer.shutdown(socket.SHUT_WR)
        expect(read_all(peer), worlds.AS1 + b"\n", "a line without its end")


def test_flags_find_what_ripe_says_they_do(door: Opened, each: Each) -> None:
    for line, wanted in FOUND.items():
        with each(line):
            answer = door.whois(line)
            expect(objects(answer), wanted, line)
            expect(answer.startswith(b"% This is the TEST registry"), True, "the head")
            expect(answer.endswith(b"\n\n\n"), True, "the end")


def test_what_is_not_here_has_ripes_number(door: Opened, each: Each) -> None:
    for line, number in ERRORS.items():
        with each(line):
            answer = door.whois(line)
            expect(f"%ERROR:{number}: ".encode() in answer, True, f"{line}: {answer!r}")
            expect(all(row[:1] in (b"%", b"") for row in answer.split(b"\n")), True, "its lines")


def test_what_there_is_can_be_asked(door: Opened) -> None:
    expect(b"\nTEST:3:N:0-0\n" in door.whois("-q sources"), True, "the sources")
    expect(
        b"\nmntner\nas-block\naut-num\ninetnum\nroute\nas-set\nroute-set\n"
        in door.whois("-q types"),
        True,
        "",
    )
    expect(b"irrdesk" in door.whois("-q version"), True, "the version")
    expect(
        door.whois("-t route").split(b"\n\n")[1],
        b"route:          [mandatory]  [single]    [primary/lookup key]\n"
        b"origin:         [mandatory]  [single]    [primary/inverse key]\n"
        b"member-of:      [optional]   [multiple]  [inverse key]\n"
        b"mnt-lower:      [optional]   [multiple]  [inverse key]\n"
        b"mnt-routes:     [optional]   [multiple]  [inverse key]\n"
        b"mnt-by:         [mandatory]  [multiple]  [inverse key]\n"
        b"source:         [mandatory]  [single]    [ ]",
        "a template",
    )
    for kind, rules in grammar.TABLE.items():
        rows = door.whois(f"-t {kind}").split(b"\n\n")[1].split(b"\n")
        names = [row.partition(b":")[0].decode() for row in rows]
        expect(names, [kind, *rules], f"the attributes of {kind}")
    expect(door.whois("help"), door.whois("?"), "help")
    expect(b"prefixes SET" in door.whois("help"), True, "help")


def test_templates_have_short_names_too(door: Opened) -> None:
    expect(door.whois("-t rt"), door.whois("-t route"), "a template")


def test_k_keeps_a_connection(door: Opened) -> None:
    answer = door.whois(b"-k\r\n-r AS1\r\n-K AS-Y\r\n!gAS9\r\n-k\r\n")
    expect(objects(answer.replace(b"D\n", b""))[:1], [worlds.AS1], "the first")
    expect(b"D\n" in answer and b"AS-Y" in answer, True, "all answers")
    expect(door.whois(b"-k -r AS1\r\n-k\r\n").count(b"aut-num:"), 1, "-k with a query")


@pytest.mark.parametrize(
    "words,wanted",
    [
        (["AS1"], worlds.AS1),
        (["10.1.2.3"], worlds.LONG),
        (["A-MNT"], worlds.A_MNT),
        (["-r", "-T", "route", "10.1.2.0/24"], worlds.LONG),
        (["-i", "origin", "AS1"], worlds.ONE),
        (["-L", "10.1.2.0/24"], worlds.ALL),
        (["-K", "AS-Y"], b"AS2"),
        (["-B", "-G", "-s", "TEST", "AS1"], worlds.AS1),
        (["-t", "route"], b"origin:"),
        (["-q", "sources"], b"TEST:3:N"),
        (["-x", "10.1.0.0/16"], worlds.TEN_ONE),
        (["--", "-M 10.1.0.0/16"], worlds.LONG),
    ],
)
def test_debians_whois_works_with_its_own_flags(
    door: Opened, words: list[str], wanted: bytes
) -> None:
    if not shutil.which("whois"):
        pytest.skip("whois is not here")
    command = ["whois", "-h", "127.0.0.1", "-p", str(door.whois_port), *words]
    ran = subprocess.run(command, capture_output=True, timeout=60, check=False)
    expect(
        wanted in ran.stdout.replace(b"\r", b""), True, f"{words}: {ran.stdout!r} {ran.stderr!r}"
    )

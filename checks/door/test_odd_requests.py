"""Requests over HTTP as no client of good will sends them: each has its answer, and none leaves a
trace in the journal."""

import contextlib
import http.client
import select
import socket
from collections.abc import Iterator

import pytest

from checks.door import worlds
from checks.door.opened import Opened, Registries, has_no_trace, read_all
from checks.running import Each, expect

POST = b"POST /submissions HTTP/1.1\r\nHost: irr.example\r\nConnection: close\r\n"
GET = b"GET /query/AS1 HTTP/1.1\r\nHost: irr.example\r\nConnection: close\r\n"
BODY = b"Content-Length: 4\r\n\r\nfoo\n"
ORIGINS = [
    b"http://[",
    b"http://[::1",
    b"http://]",
    b"http://[v1.a]",
    b"//",
    b"",
    b"null",
    b"http://\xff\xfe",
    b"http://irr.example.evil",
    b"http://irr.example@evil",
    b"http://evil#irr.example",
    b"irr.example",
]
# Fields whose values somebody reads.
FIELDS = [
    b"X-Forwarded-For",
    b"X-Remote-User",
    b"Content-Length",
    b"Expect",
    b"Connection",
    b"Host",
    b"Accept",
    b"Transfer-Encoding",
    b"Origin",
]
VALUES = [
    b"",
    b"[",
    b"::",
    b"::1%",
    b"fe80::1%" + b"x" * 300,
    b"::ffff:1.2.3.4",
    b"::ffff:1.2.3.4%1",
    b"1.2.3",
    b"\xb2",
    b"\xff" * 40,
    b",,,,",
    b"%00%",
    b"http://[",
    b"-1",
    b"1" * 400,
    b"\x1b[0m",
    b"a, b, c",
]
TARGETS = [
    b"//",
    b"//[",
    b"http://[/query/AS1",
    b"*",
    b"/query/",
    b"/query/%",
    b"/query/%zz%0d%0a",
    b"/query/%ff%00",
    b"/query/" + b"%41" * 2_000,
    b"/views/",
    b"/views/[/query/AS1",
    b"/views/TEST/query/AS1",
    b"/views/TEST/state",
    b"/views/\xff/state",
    b"/dump?x",
    b"/submissions/",
    b"/status",
    b"/metrics",
    b"/status?json",
]
AS_THE_REGISTRY = [
    b"/",
    b"/?/dump",
    b"/query",
    b"/query/",
    b"/query/?AS1",
    b"/query//",
    b"/query/AS1/",
    b"/query/less%20192.0.2.0/26",
    b"/query/less%20192.0.2.0%2F26",
    b"/query/AS1",
    b"/query/AS1?",
    b"/query/AS1?x/y?z",
    b"/query/%3F",
    b"/query/%",
    b"/dump",
    b"/dump?",
    b"/dump?x",
    b"/dump/",
    b"/submissions",
    b"/submissions?x",
    b"/submissions/x",
]


def asked(door: Opened, text: bytes, port: int = 0) -> bytes:
    with contextlib.closing(door.connect(port or door.http_port)) as peer:
        with contextlib.suppress(OSError):
            peer.sendall(text)
            peer.shutdown(socket.SHUT_WR)
        return read_all(peer)


def test_an_origin_that_is_none_submits_nothing(door: Opened, each: Each) -> None:
    for origin in ORIGINS:
        with each(repr(origin)):
            reply = asked(door, POST + b"Origin: " + origin + b"\r\n" + BODY)
            expect(reply[:12], b"HTTP/1.1 403", "the status")
    reply = asked(door, POST.replace(b"Host: irr.example\r\n", b"") + b"Origin: null\r\n" + BODY)
    expect(reply[:12], b"HTTP/1.1 403", "of a request without a host")
    reply = asked(door, POST + b"Origin: https://IRR.example\r\n" + BODY)
    expect(reply[:12], b"HTTP/1.1 200", "of its own page")
    has_no_trace(door)


@pytest.mark.parametrize("name", FIELDS)
def test_a_field_of_any_value_has_an_answer(door: Opened, name: bytes) -> None:
    for value in VALUES:
        for text in (
            GET + name + b": " + value + b"\r\n\r\n",
            POST + name + b": " + value + b"\r\n" + BODY,
        ):
            reply = asked(door, text)
            expect(reply[:9], b"HTTP/1.1 ", f"{text!r}: {reply[:80]!r}")
    has_no_trace(door)


def test_a_target_of_any_form_has_an_answer(door: Opened, each: Each) -> None:
    for target in TARGETS:
        for port in door.http_port, door.status_port:
            with each(repr(target[:40])):
                text = GET.replace(b"/query/AS1", target) + b"\r\n"
                expect(asked(door, text, port)[:9], b"HTTP/1.1 ", "the reply")
    for target in b"/status", b"/metrics", b"/status?json":
        reply = asked(door, GET.replace(b"/query/AS1", target) + b"\r\n")
        expect(reply[:12], b"HTTP/1.1 404", f"{target!r} at the port of everybody")
    has_no_trace(door)


def test_a_target_is_that_of_the_registry(door: Opened, registries: Registries, each: Each) -> None:
    methods = {b"/submissions": b"POST", b"/submissions?x": b"POST"}
    for target in AS_THE_REGISTRY:
        method = methods.get(target, b"GET")
        text = GET.replace(b"GET /query/AS1", method + b" " + target)
        text += b"Content-Length: 0\r\n\r\n" if method == b"POST" else b"\r\n"
        replies = [asked(door, text, port) for port in (door.http_port, registries.ports[0])]
        found = [(reply[:12], reply.partition(b"\r\n\r\n")[2]) for reply in replies]
        # A report comes in chunks; what a refusal says is their own.
        if method == b"POST" or found[1][0][9:] != b"200":
            found = [(status, b"") for status, _ in found]
        with each(repr(target)):
            expect(found[0], found[1], "the status, and what is answered")


# Requests that are refused by their heads, each with far more of a body than is read at once, and
# the status.
BODY_OF_MANY = [b"x" * 32_000] * 60
UNREAD = {
    "chunked": ("POST", "/submissions", {"Transfer-Encoding": "chunked"}, 501),
    "too long": ("POST", "/submissions", {"Content-Length": "1920000"}, 413),
    "of no length": ("POST", "/submissions", {"Connection": "close"}, 411),
    "from another site": (
        "POST",
        "/submissions",
        {"Content-Length": "200000", "Origin": "http://evil"},
        403,
    ),
    "to nothing": ("POST", "/nothing", {"Content-Length": "1920000"}, 404),
    "to a query": ("POST", "/query/AS1", {"Content-Length": "1920000"}, 405),
    "with a query": ("GET", "/query/AS1", {"Content-Length": "1920000"}, 413),
    "of absurd length": ("POST", "/submissions", {"Content-Length": "9" * 30}, 400),
}


@pytest.mark.parametrize("name", UNREAD)
def test_who_sends_a_body_that_is_refused_gets_the_reply(door: Opened, name: str) -> None:
    """Though it reads nothing before it has sent all."""
    method, path, fields, status = UNREAD[name]
    for _ in range(12):
        peer = http.client.HTTPConnection("127.0.0.1", door.http_port, timeout=60)
        with contextlib.closing(peer):
            peer.putrequest(method, path)
            for field, value in fields.items():
                peer.putheader(field, value)
            peer.endheaders()
            for piece in BODY_OF_MANY:
                peer.send(piece)
            expect(peer.getresponse().status, status, "the status")
    has_no_trace(door)


# Lines that end as those of no client of good will, and the status: as the registry has it.
ENDS = {
    "line feeds alone": (b"GET /query/AS1 HTTP/1.1\nConnection: close\n\n", 200),
    "both": (b"GET /query/AS1 HTTP/1.1\r\nConnection: close\nA: b\r\n\n", 200),
    "empty lines before it": (b"\r\n\n\r\n\r\nGET /query/AS1 HTTP/1.0\r\n\r\n", 200),
    "a return alone": (b"GET /query/AS1 HTTP/1.0\r\nA: b\rContent-Length: 5\r\n\r\n", 400),
    "a NUL": (b"GET /query/AS1 HTTP/1.0\r\nA: \0b\r\n\r\n", 400),
    "a body after line feeds": (
        POST.replace(b"\r\n", b"\n") + b"Content-Length: 4\n\nfoo\n",
        200,
    ),
}


@pytest.mark.parametrize("name", ENDS)
def test_lines_of_a_head_end_as_for_the_registry(door: Opened, name: str) -> None:
    text, status = ENDS[name]
    for cut in range(0, len(text), 7):
        with contextlib.closing(door.connect(door.http_port, patience=10)) as peer:
            peer.setsockopt(socket.IPPROTO_TCP, socket.TCP_NODELAY, 1)
            peer.sendall(text[:cut])
            peer.sendall(text[cut:])
            expect(read_all(peer)[:12], b"HTTP/1.1 %d" % status, f"the status, cut at {cut}")
    has_no_trace(door)


def test_a_flood_of_fields_is_answered_once_it_is_sent(door: Opened) -> None:
    for _ in range(12):
        with contextlib.closing(door.connect(door.http_port)) as peer:
            peer.sendall(b"GET /query/AS1 HTTP/1.1\r\n")
            for number in range(200):
                peer.sendall(b"X-%d: %s\r\n" % (number, b"y" * 8_000))
            peer.sendall(b"\r\n")
            expect(read_all(peer)[:12], b"HTTP/1.1 431", "the status")
    has_no_trace(door)


CONTINUE = b"HTTP/1.1 100 Continue\r\n\r\n"
ITEM = b"password: bc\n\nas-set: AS-ODD\nmnt-by: ROOT-MNT\nsource: TEST\n"


@contextlib.contextmanager
def posting(door: Opened, head: bytes) -> Iterator[socket.socket]:
    with contextlib.closing(door.connect(door.http_port)) as peer:
        peer.sendall(head)
        yield peer


def test_who_expects_to_be_asked_for_a_body_is(door: Opened) -> None:
    fields = b"Content-Length: %d\r\nExpect: 100-continue\r\n\r\n"
    with posting(door, POST + fields % len(ITEM)) as peer:
        expect(peer.recv(100), CONTINUE, "what comes before the body")
        peer.sendall(ITEM[:20])
        peer.sendall(ITEM[20:])
        reply = read_all(peer)
        expect((reply[:12], b"AS-ODD: added" in reply), (b"HTTP/1.1 200", True), f"{reply!r}")
    with posting(door, POST + fields % len(ITEM) + ITEM) as peer:
        expect(read_all(peer)[:12], b"HTTP/1.1 200", "of one that did not wait")
    with posting(door, POST + fields % 10**7) as peer:
        expect(read_all(peer)[:12], b"HTTP/1.1 413", "of one that is too long")
    old = POST.replace(b"HTTP/1.1", b"HTTP/1.0")
    with posting(door, old + fields % len(ITEM)) as peer:
        expect(select.select([peer], [], [], 0.5)[0], [], "what comes before the body")
        peer.sendall(ITEM)
        expect(read_all(peer)[:12], b"HTTP/1.1 200", "of HTTP/1.0, which knows no such reply")
    has_no_trace(door)


def test_requests_on_one_connection_are_answered_in_turn(door: Opened) -> None:
    """Submissions and queries that are sent at once, cut anywhere, with a last one that is cut
    short."""
    kept = POST.replace(b"Connection: close\r\n", b"")
    get = GET.replace(b"Connection: close\r\n", b"") + b"\r\n"
    post = kept + b"Content-Length: %d\r\n\r\n" % len(ITEM) + ITEM
    text = get + post + get + b"\r\n" + post + get + post[:-9]
    for place in range(1, len(text), 97):
        with contextlib.closing(door.connect(door.http_port)) as peer:
            peer.sendall(text[:place])
            peer.sendall(text[place:])
            peer.shutdown(socket.SHUT_WR)
            reply = read_all(peer)
        words = [part[:3] for part in reply.split(b"HTTP/1.1 ")[1:]]
        expect(words, [b"200"] * 5 + [b"400"], f"the statuses, cut after {place} bytes")
        expect(reply.count(worlds.AS1), 3, "answers to the query")
    has_no_trace(door)

"""Stock clients, bytes as they are written, and how a server ends, by whois, curl and sockets."""

import os
import socket
import subprocess
import time
from collections.abc import Callable
from concurrent.futures._base import Future
from typing import Any

import pytest

from checks.running import DIGEST, SETTINGS, cases_of, expect
from checks.server.peers import GIVEN_HEAD, INETNUM, LONGEST, ROOT, TEN, Cases, Server, post, run
from checks.serving import free_port
from checks.worked import DISK_FAILED, SERVED_IN_VAIN

UNWRITTEN = "irrdesk: standard output: the write failed: {}\n"
BODY_SIZE = 1_048_576
CASES = Cases()
case = CASES.case


def refusal(status: str, allow: str | None = None) -> str:
    allowed = f"Allow: {allow}\r\n" if allow else ""
    return (
        f"HTTP/1.1 {status}\r\nContent-Type: text/plain\r\nContent-Length:"
        f" {len(status) + 1}\r\nConnection: close\r\n{allowed}\r\n{status}\n"
    )


def curl(server: Server, path: str, *options: str) -> tuple[str, str]:
    """The head's first line and the body that curl gets."""
    made = subprocess.run(
        [
            "curl",
            "-sS",
            "--noproxy",
            "*",
            "--max-time",
            "60",
            "-i",
            *options,
            f"http://127.0.0.1:{server.port}{path}",
        ],
        capture_output=True,
        timeout=LONGEST,
        check=False,
    )
    expect((made.returncode, made.stderr.decode()), (0, ""), f"curl's status and words at {path}")
    head, _, body = made.stdout.decode().rpartition("\r\n\r\n")
    return head.split("\r\n\r\n")[-1].split("\r\n")[0], body


def whois(server: Server, query: str) -> str:
    made = subprocess.run(
        ["whois", "-h", "127.0.0.1", "-p", str(server.port), "--", query],
        capture_output=True,
        text=True,
        timeout=LONGEST,
        check=False,
    )
    expect(made.returncode, 0, f"whois' status at {query}")
    return made.stdout


def skipped_lines(size: int) -> bytes:
    """A submission of so many bytes without an item."""
    line = b"% " + b"x" * 61 + b"\n"
    return (line * (size // len(line) + 1))[: size - 1] + b"\n"


# Stock clients.


@case("whois")
def stock_whois(program: str, folder: str) -> None:
    with Server(program, folder, 3) as server:
        expect(whois(server, "root-mnt"), ROOT, "the answer to a name")
        expect(whois(server, "closest 10.1.0.0/16"), TEN, "the answer to a prefix")
        expect(whois(server, "C-MNT"), "% no entries\n", "the answer to what is not there")
        server.expect_end(3, 0)


@case("curl, each page and each refusal")
def stock_curl(program: str, folder: str) -> None:
    with Server(program, folder, 10) as server:
        ok = "HTTP/1.1 200 OK"
        expect(curl(server, "/query/ROOT-MNT"), (ok, ROOT), "a query")
        expect(curl(server, "/query/exact%2010.0.0.0%2F8"), (ok, TEN), "a query with escapes")
        expect(curl(server, "/query/%2E"), (ok, "% error 1\n"), "a bad query")
        expect(curl(server, "/query/%2541"), (ok, "% error 1\n"), "an escaped escape")
        status, dump = curl(server, "/dump")
        expect(
            (status, dump.endswith("\n\n% end 5\n"), dump.count("# filtered"), DIGEST in dump),
            (ok, True, 1, False),
            "a dump",
        )
        expect(curl(server, "/nothing"), ("HTTP/1.1 404 Not Found", "404 Not Found\n"), "no page")
        refused = ("HTTP/1.1 405 Method Not Allowed", "405 Method Not Allowed\n")
        expect(curl(server, "/dump", "-X", "PUT"), refused, "PUT")
        expect(curl(server, "/submissions"), refused, "GET of a submission")
        expect(curl(server, "/dump", "--head")[0], refused[0], "HEAD")
        chunked = curl(
            server, "/submissions", "-H", "Transfer-Encoding: chunked", "--data-binary", "x"
        )
        expect(chunked[0], "HTTP/1.1 501 Not Implemented", "chunks")
        server.expect_end(10, 0)


@case("curl submits a file, with Expect and without")
def stock_submission(program: str, folder: str) -> None:
    path = os.path.join(folder, "new.rpsl")
    with open(path, "w", encoding="ascii") as out:
        out.write(
            "password: bc\n\n" + INETNUM.format("11.0.0.0/8") + "\n" + INETNUM.format("11.0.0.0/40")
        )
    with Server(program, folder, 3) as server:
        report = curl(server, "/submissions", "--data-binary", f"@{path}")
        expect(
            report,
            (
                "HTTP/1.1 200 OK",
                "1 inetnum 11.0.0.0 - 11.255.255.255: added\n2 -: refused E03\n% items 2\n",
            ),
            "the report",
        )
        report = curl(
            server, "/submissions", "-H", "Expect: 100-continue", "--data-binary", f"@{path}"
        )
        expect(
            report[1],
            "1 inetnum 11.0.0.0 - 11.255.255.255: unchanged\n2 -: refused E03\n% items 2\n",
            "the same again",
        )
        expect(
            whois(server, "exact 11.0.0.0/8").split("\n")[0],
            "inetnum:        11.0.0.0/8",
            "what was added",
        )
        server.expect_end(3, 0)


@case("curl sends a body of 1 MiB, and one of a byte more")
def stock_large_bodies(program: str, folder: str) -> None:
    path = os.path.join(folder, "large.rpsl")
    with Server(program, folder, 4) as server:
        for size, wanted in [
            (BODY_SIZE, ("HTTP/1.1 200 OK", "% items 0\n")),
            (BODY_SIZE + 1, ("HTTP/1.1 413 Payload Too Large", "413 Payload Too Large\n")),
        ]:
            with open(path, "wb") as out:
                out.write(skipped_lines(size))
            for fields in ["Expect:", "Expect: 100-continue"]:
                expect(
                    curl(server, "/submissions", "-H", fields, "--data-binary", f"@{path}"),
                    wanted,
                    f"{size} bytes, {fields}",
                )
        server.expect_end(4, 0)


# Bytes as they are written.


@case("queries by hand: without LF, of no bytes, too long, refused")
def bare_queries(program: str, folder: str) -> None:
    with Server(program, folder, 6) as server:
        expect(server.ask("root-mnt\r\n"), ROOT, "CR LF")
        expect(server.ask("root-mnt", ends=True), ROOT, "no LF")
        expect(server.ask("", ends=True), "% error 1\n", "no bytes")
        expect(server.ask("root-mnt" + " " * 1_017 + "\n"), "% error 2\n", "1,025 bytes")
        expect(server.ask("x" * 8_192), "% error 2\n", "8,192 bytes without LF")
        expect(server.ask("object\n"), "% no entries\n", "a maintainer named object")
        server.expect_end(6, 0)


@case("heads by hand: each status, byte for byte")
def bare_heads(program: str, folder: str) -> None:
    with Server(program, folder, 11) as server:
        expect(server.ask("GET /query/root-mnt HTTP/1.0\r\n\r\n"), GIVEN_HEAD + ROOT, "200")
        expect(
            server.ask("GET /dump HTTP/1.1\nHost:x\n\n")[: len(GIVEN_HEAD)],
            GIVEN_HEAD,
            "200 with bare LFs",
        )
        expect(
            server.ask("POST /submissions HTTP/1.1\r\n\r\n"), refusal("411 Length Required"), "411"
        )
        expect(
            server.ask("POST /submissions HTTP/1.1\r\nContent-Length: 1048577\r\n\r\n"),
            refusal("413 Payload Too Large"),
            "413",
        )
        expect(
            server.ask("POST /submissions HTTP/1.1\r\nContent-Length: +1\r\n\r\n"),
            refusal("400 Bad Request"),
            "400",
        )
        expect(
            server.ask("GET /dump HTTP/1.1\r\nHost", ends=True),
            refusal("400 Bad Request"),
            "400 of a head cut short",
        )
        expect(server.ask("GET /nothing HTTP/1.1\r\n\r\n"), refusal("404 Not Found"), "404")
        expect(
            server.ask("PUT /dump HTTP/1.1\r\n\r\n"),
            refusal("405 Method Not Allowed", "GET"),
            "405 of a page to get",
        )
        expect(
            server.ask("GET /submissions HTTP/1.1\r\n\r\n"),
            refusal("405 Method Not Allowed", "POST"),
            "405 of a page to post",
        )
        expect(
            server.ask("GET /dump HTTP/1.1\r\nTransfer-Encoding: chunked\r\n\r\n"),
            refusal("501 Not Implemented"),
            "501",
        )
        expect(
            server.ask("GET /dump HTTP/1.1\r\nA: " + "x" * 8_192),
            refusal("431 Request Header Fields Too Large"),
            "431",
        )
        server.expect_end(11, 0)


@case(
    (
        "two requests on one connection: the first is answered, and the connection ends "
        "without a reset"
    ),
)
def two_requests(program: str, folder: str) -> None:
    with Server(program, folder, 1) as server:
        request = "GET /query/root-mnt HTTP/1.1\r\nHost: localhost\r\n\r\n"
        expect(server.ask(request * 2), GIVEN_HEAD + ROOT, "the reply")
        server.expect_end(1, 0)


@case("bytes behind a body are not read as a part of it, and lose no reply")
def bytes_behind_a_body(program: str, folder: str) -> None:
    body = ("password: bc\n\n" + INETNUM.format("11.0.0.0/8")).encode()
    added = "1 inetnum 11.0.0.0 - 11.255.255.255: added\n% items 1\n"
    with Server(program, folder, 2) as server:
        expect(
            server.ask(post(body) + b"\n" + INETNUM.format("12.0.0.0/8").encode() * 2_000),
            GIVEN_HEAD + added,
            "the report",
        )
        expect(server.ask("exact 12.0.0.0/8\n"), "% no entries\n", "what stood behind the body")
        server.expect_end(2, 0)


@case("a refused body of 1 MiB that is sent whole loses no reply")
def refused_body(program: str, folder: str) -> None:
    with Server(program, folder, 2) as server:
        expect(
            server.ask(post(skipped_lines(BODY_SIZE + 1))),
            refusal("413 Payload Too Large"),
            "a byte too many",
        )
        expect(
            server.ask(b"PUT /dump HTTP/1.1\r\n\r\n" + skipped_lines(BODY_SIZE)),
            refusal("405 Method Not Allowed", "GET"),
            "PUT",
        )
        server.expect_end(2, 0)


@case("a body that ends too soon: its complete paragraphs count, and it is served")
def short_body(program: str, folder: str) -> None:
    body = (
        "password: bc\n\n" + INETNUM.format("11.0.0.0/8") + "\n" + INETNUM.format("12.0.0.0/8")
    ).encode()
    with Server(program, folder, 2) as server:
        reply = server.ask(post(body + b"x")[:-1], ends=True)
        expect(
            reply,
            GIVEN_HEAD + "1 inetnum 11.0.0.0 - 11.255.255.255: added\n% read fault after 1 items\n",
            "the report",
        )
        expect(
            server.ask("exact 12.0.0.0/8\n"),
            "% no entries\n",
            "the paragraph that was not complete",
        )
        server.expect_end(2, 0)


# The desk, and the ends of the program.


@case("a server that is started again at once listens on the port that it had")
def started_again(program: str, folder: str) -> None:
    port = None
    for _ in range(2):
        with Server(program, folder, 1, port=port) as server:
            port = server.port
            expect(server.ask("root-mnt\n"), ROOT, "an answer")
            server.expect_end(1, 0)


@case(
    (
        "a desk that its disk stops answers `% error 6` and 503, and its program says so "
        "and ends as ever"
    ),
)
def stopped_desk(program: str, folder: str) -> None:
    items = "\n".join(
        INETNUM.format(f"11.{n}.0.0/16") + "descr: " + "x" * 50_000 + "\n" for n in range(20)
    )
    with Server(program, folder, 6, most_bytes=600_000) as server:
        report = (
            server.ask(post(("password: bc\n\n" + items).encode()))
            .partition("\r\n\r\n")[2]
            .splitlines()
        )
        added = len(report) - 2
        expect(0 < added < 20, True, f"whether {added} of 20 items were added")
        stop = f"{added + 1} inetnum 11.{added}.0.0 - 11.{added}.255.255: refused E91"
        expect(report[-2:], [stop, f"% stopped after {added} items"], "the end of the report")
        expect(server.ask("root-mnt\n"), "% error 6\n", "a query")
        expect(server.ask("x" * 2_000 + "\n"), "% error 2\n", "a query that is too long")
        for request in ["GET /query/root-mnt HTTP/1.1\r\n\r\n", "GET /dump HTTP/1.1\r\n\r\n"]:
            expect(server.ask(request), refusal("503 Service Unavailable"), request)
        expect(server.ask(post(b"x")), refusal("503 Service Unavailable"), "a submission")
        server.expect_end(6, 0, SERVED_IN_VAIN.format(DISK_FAILED))
    status, printed, _ = run(program, folder, "probe", "s.toml")
    expect((status, printed), (0, ROOT), "the registry opened again")


@case("probe prints the root maintainer")
def probe_root(program: str, folder: str) -> None:
    expect(run(program, folder, "probe", "s.toml"), (0, ROOT, ""), "status and streams")


@case("probe of a root that is not registered prints that there are no entries")
def probe_missing_root(program: str, folder: str) -> None:
    with open(os.path.join(folder, "s.toml"), "w", encoding="ascii") as out:
        out.write(SETTINGS.format(limit=10_000, store="irr.db").replace("ROOT-MNT", "OTHER-MNT"))
    expect(run(program, folder, "probe", "s.toml"), (0, "% no entries\n", ""), "status and streams")


@case("a port that is taken: status 5")
def taken_port(program: str, folder: str) -> None:
    with socket.socket() as taken:
        taken.bind(("127.0.0.1", 0))
        taken.listen()
        port = taken.getsockname()[1]
        reported = (
            f"irrdesk: 127.0.0.1:{port}: it cannot listen: the address is in use: end what"
            " has it, or take another port\n"
        )
        expect(
            run(program, folder, "serve", "s.toml", "--port", str(port), "--count", "1"),
            (5, "", reported),
            "status and streams",
        )


@case("standard output that cannot be written: status 5, and nobody is served")
def no_output(program: str, folder: str) -> None:
    with open("/dev/full", "w", encoding="ascii") as full:
        made = subprocess.run(
            [program, "serve", "s.toml", "--port", str(free_port()), "--count", "1"],
            cwd=folder,
            stdout=full,
            stdin=subprocess.DEVNULL,
            stderr=subprocess.PIPE,
            text=True,
            timeout=LONGEST,
            check=False,
        )
    expect(
        (made.returncode, made.stderr),
        (5, UNWRITTEN.format("the disk is full: make room")),
        "status and words",
    )


@case("standard output that nobody reads at the end: status 5, and no signal ends the program")
def closed_output(program: str, folder: str) -> None:
    with Server(program, folder, 1) as server:
        server.process.stdout.close()
        # The children of other cases hold the stream until they become the program.
        time.sleep(5)
        expect(server.ask("root-mnt\n"), ROOT, "an answer")
        reported = server.process.stderr.read().decode()
        status = server.process.wait(LONGEST)
        expect(
            (status, reported),
            (5, UNWRITTEN.format("its reader has ended: let it read to the end")),
            "status and words",
        )


@case("wrong words: status 2; wrong settings: 3; no database: 4; each before the port is looked at")
def wrong_words(program: str, folder: str) -> None:
    port = str(free_port())
    for words in [
        ["serve"],
        ["serve", "s.toml"],
        ["serve", "s.toml", "--port", port],
        ["serve", "s.toml", "--count", "1"],
        ["serve", "s.toml", "--port", "0", "--count", "1"],
        ["serve", "s.toml", "--port", "65536", "--count", "1"],
        ["serve", "s.toml", "--port", "+80", "--count", "1"],
        ["serve", "s.toml", "--port", port, "--count", "0"],
        ["serve", "s.toml", "--port", port, "--count", "1000001"],
        ["serve", "s.toml", "--port", port, "--count", "x"],
        ["serve", "s.toml", "t.toml", "--port", port, "--count", "1"],
        ["probe"],
        ["probe", "s.toml", "t.toml"],
    ]:
        status, printed, reported = run(program, folder, *words)
        expect(
            (status, printed, reported.startswith("irrdesk: "), reported.count("\n")),
            (2, "", True, 1),
            " ".join(words),
        )
    for words in [["serve", "none.toml", "--port", port, "--count", "1"], ["probe", "none.toml"]]:
        expect(run(program, folder, *words)[:2], (3, ""), " ".join(words))
    for name in os.listdir(folder):
        if name.startswith("irr.db"):
            os.remove(os.path.join(folder, name))
    for words in [["serve", "s.toml", "--port", port, "--count", "1"], ["probe", "s.toml"]]:
        expect(run(program, folder, *words)[:2], (4, ""), " ".join(words))


# The run.


@pytest.mark.parametrize("check", cases_of(CASES))
def test_peers_get_what_they_should(
    running: dict[Callable[..., Any], Future[Any]], check: tuple[str, Callable[..., Any]]
) -> None:
    running[check[1]].result()

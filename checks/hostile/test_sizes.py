"""Sizes at each limit of the program: one below, at it, and one above."""

import os
from collections.abc import Callable
from typing import Any

import pytest

from checks.heads import refusal
from checks.model.queries import answer
from checks.model.registry import Registry
from checks.running import (
    AUTH,
    DIGEST,
    Tell,
    Trial,
    cases_of,
    expect,
    run_in_pieces,
    write,
    write_settings,
)
from checks.serving import GIVEN, Listening, Server

MOST_READS = 16_777_216
OWNED = b"mnt-by: ROOT-MNT\nsource: TEST\n"
CASES = []
IN_MEMORY = True


def case(name: str, is_long: bool = False) -> Callable[..., Any]:
    """Registers a case, which gives words for its line; one that takes minutes
    is of the long form alone."""

    def register(function: Callable[..., Any]) -> Callable[..., Any]:
        CASES.append((name, function, is_long))
        return function

    return register


def opened() -> Registry:
    return Registry(auth=AUTH.encode())


def outcome(trial: Trial, paragraph: bytes) -> str:
    """What is reported of one item with the root's password."""
    ran = trial.run(trial.work, stdin=b"password: bc\n\n" + paragraph)
    return ran.printed.partition(b"\n")[0].rpartition(b": ")[2].decode()


def expect_outcomes(trial: Trial, about: str, cases: list[tuple[bytes, str]]) -> str:
    for text, wanted in cases:
        expect(outcome(trial, text), wanted, f"{about}, {text[:60]!r} of {len(text)} bytes")
    return f"{len(cases)} sizes"


def inetnum(extra: bytes) -> bytes:
    return b"inetnum: 10.0.0.0/8\n" + extra + OWNED


def filled(size: int, byte: bytes = b"x") -> bytes:
    """An inetnum of so many bytes."""
    front, end = b"inetnum: 10.0.0.0/8\ndescr: ", b"\n" + OWNED
    return front + byte * (size - len(front) - len(end)) + end


@case("paragraphs")
def paragraphs(trial: Trial) -> str:
    sizes = [
        (size, byte)
        for size in (65_535, 65_536, 65_537)
        for byte in (b"x", b",", b"#", b" ", b"\xff")
    ]
    cases = [
        (filled(size, byte), "added" if size <= 65_536 else "refused E07") for size, byte in sizes
    ]
    comment = b"# " + b"c" * 5_000 + b"\n"
    cases += [
        (comment + filled(65_536), "added"),
        (filled(65_536 - 5_003) + comment, "added"),
        (filled(65_536 - 5_002) + comment, "refused E07"),
        (filled(65_536) + b"\n" + comment, "added"),
        (b"nocolon\n" + b"x" * 65_536 + b"\n", "refused E07"),
    ]
    return expect_outcomes(trial, "paragraphs", cases)


@case("names")
def names(trial: Trial) -> str:
    cases = [
        (inetnum(b"n" * size + b": x\n"), "added" if size <= 64 else "refused E01")
        for size in (1, 63, 64, 65)
    ]
    for size in (79, 80, 81):
        mntner = b"mntner: %s\nauth: NONE\n%s" % (b"M" * size, OWNED)
        cases.append((mntner, "added" if size <= 80 else "refused E03"))
        cases.append(
            (
                b"as-set: AS-%s\n%s" % (b"X" * (size - 3), OWNED),
                "added" if size <= 80 else "refused E03",
            )
        )
    for size in (254, 255, 256):
        name = b":".join([b"AS-" + b"X" * 77, b"AS-" + b"Y" * 77, b"AS0000000001:AS1:AS-"])
        name += b"Z" * (size - len(name))
        cases.append(
            (
                b"as-set: AS-Z\nmembers: %s\n%s" % (name, OWNED),
                "added" if size <= 255 else "refused E05",
            )
        )
    return expect_outcomes(trial, "names", cases)


@case("numbers")
def numbers(trial: Trial) -> str:
    cases = [
        (b"aut-num: %s\n%s" % (number, OWNED), wanted)
        for number, wanted in [
            (b"AS0", "added"),
            (b"AS4294967294", "added"),
            (b"AS4294967295", "added"),
            (b"AS4294967296", "refused E03"),
            (b"AS0000000001", "added"),
            (b"AS00000000001", "refused E03"),
            (b"AS9999999999", "refused E03"),
            (b"AS", "refused E03"),
        ]
    ]
    cases += [
        (b"inetnum: %s\n%s" % (key, OWNED), wanted)
        for key, wanted in [
            (b"255.255.255.255/32", "added"),
            (b"10.0.0.0/31", "added"),
            (b"10.0.0.0/33", "refused E03"),
            (b"10.0.0.0/032", "refused E03"),
            (b"10.0.0.0/09", "added"),
            (b"010.000.000.000/8", "added"),
            (b"0010.0.0.0/8", "refused E03"),
            (b"256.0.0.0/8", "refused E03"),
            (b"10.0.0.1 - 10.0.0.1", "added"),
            (b"10.0.0.1 - 10.0.0.0", "refused E03"),
            (b"0.0.0.0/0", "changed"),
        ]
    ]
    cases += [
        (b"route-set: RS-X\nmembers: 10.0.0.0/8%s\n%s" % (operator, OWNED), wanted)
        for operator, wanted in [
            (b"^32", "added"),
            (b"^33", "refused E05"),
            (b"^0-32", "added"),
            (b"^9-8", "refused E05"),
            (b"^000", "refused E05"),
            (b"^08-09", "added"),
            (b"^", "refused E05"),
            (b"^+^+", "refused E05"),
        ]
    ]
    return expect_outcomes(trial, "numbers", cases)


@case("secrets")
def secrets(trial: Trial) -> str:
    def mntner(auth: bytes) -> bytes:
        return b"mntner: A-MNT\nauth: %s\n%s" % (auth, OWNED)

    digest = DIGEST.encode()
    cases = [
        (
            mntner(b"SHA256-PW %s:%s" % (b"s" * size, digest)),
            "added" if size <= 16 else "refused E05",
        )
        for size in (0, 1, 15, 16, 17)
    ]
    cases += [
        (mntner(b"SHA256-PW a:" + (digest + b"0")[:size]), "added" if size == 64 else "refused E05")
        for size in (0, 63, 64, 65)
    ]
    long = b"password: " + b"p" * (65_536 - 11) + b"\n"
    cases += [
        (long + b"\n" + mntner(b"NONE"), "added"),
        (b"password: " + b"p" * 65_526 + b"\n\n" + mntner(b"NONE"), "refused E07"),
    ]
    return expect_outcomes(trial, "secrets", cases)


def made(trial: Trial, name: str, text: bytes = b"", limit: int = 10_000) -> str:
    folder = trial.place(name)
    write_settings(folder, limit=limit)
    expect(trial.run(folder, "init", "s.toml").status, 0, "init")
    if text:
        write(folder, "text.rpsl", text)
        expect(trial.run(folder, "submit", "s.toml", "text.rpsl").status, 0, "submit")
    return folder


@case("queries")
def queries(trial: Trial) -> str:
    folder, registry = made(trial, "size-queries"), opened()
    asked = [
        b"ROOT-MNT".ljust(size, byte)
        for size in (1_023, 1_024, 1_025)
        for byte in (b" ", b"x", b"\t")
    ]
    lines = [b"x" * size for size in (8_190, 8_191, 8_192, 8_193, 100_000)]
    with Server(trial.program, folder, len(asked) * 3 + len(lines) * 2) as server:
        for query in asked:
            wanted = answer(registry, query, 10_000)
            for end in (b"\n", b"\r\n"):
                expect(server.ask(query + end), wanted, f"whois of {len(query)} bytes")
            path = b"/query/" + query.replace(b" ", b"%20").replace(b"\t", b"%09")
            expect(server.page(path), wanted, f"HTTP of {len(query)} bytes")
        for line in lines:
            expect(server.ask(line), b"% error 2\n", f"a line of {len(line)} bytes")
            expect(
                server.ask(line + b"\n"), b"% error 2\n", f"a line of {len(line)} bytes with an end"
            )
        server.expect_end()
    for query in asked:
        ran = trial.run(folder, "query", "s.toml", query.decode())
        expect(ran.printed, answer(registry, query, 10_000), f"`query` of {len(query)} bytes")
    return f"{len(asked)} queries, {len(lines)} first lines"


@case("heads and bodies")
def heads(trial: Trial) -> str:
    folder = made(trial, "size-heads")
    wanted = GIVEN + answer(opened(), b"ROOT-MNT", 10_000)
    cases = []
    for size in (8_191, 8_192, 8_193):
        for end in (b"\r\n", b"\n"):
            front = b"GET /query/ROOT-MNT HTTP/1.1" + end + b"X: "
            head = front + b"y" * (size - len(front) - 2 * len(end)) + end + end
            cases.append((head, wanted if size <= 8_192 else refusal(431)))
    for count in (0, 1, 63, 64, 65, 200):
        head = b"GET /query/ROOT-MNT HTTP/1.1\r\n" + b"X: y\r\n" * count + b"\r\n"
        cases.append((head, wanted if count <= 64 else refusal(400)))
    for size in (0, 1, 1_048_575, 1_048_576, 1_048_577):
        body = (b"% " + b"x" * 61 + b"\n") * (size // 64) + b"\n" * (size % 64)
        cases.append(
            (
                b"POST /submissions HTTP/1.1\r\nContent-Length: %d\r\n\r\n%s" % (size, body),
                GIVEN + b"% items 0\n" if size <= 1_048_576 else refusal(413),
            )
        )
    with Server(trial.program, folder, len(cases)) as server:
        for sent, reply in cases:
            expect(server.ask(sent), reply, f"{sent[:40]!r} of {len(sent)} bytes")
        server.look()
        server.expect_end()
        return f"{len(cases)} requests, {server.memory} KiB"


@case("expansions")
def expansions(trial: Trial) -> str:
    chain = b"".join(
        b"as-set: AS-%d\nmembers: AS-%d, AS%d\n%s\n" % (n, n + 1, n, OWNED) for n in range(9)
    )
    chain += b"as-set: AS-9\n" + OWNED
    ranges = b"\nroute-set: RS-X\nmembers: RS-Y, 10.0.0.0/8, 11.0.0.0/8\n" + OWNED
    ranges += b"\nroute-set: RS-Y\nmembers: 12.0.0.0/8\n" + OWNED
    folder = made(trial, "size-sets", b"password: bc\n\n" + chain + ranges)
    for limit in (3, 4, 5, 9, 10, 11):
        write_settings(folder, limit=limit)
        # The one reaches 10 names; the other has 4 pairs of a set and a range.
        for word, holds in [("AS-0", limit >= 10), ("RS-X", limit >= 4)]:
            ran = trial.run(folder, "query", "s.toml", "expand", word)
            wanted = (0, False) if holds else (1, True)
            expect(
                (ran.status, ran.printed == b"% error 3\n"),
                wanted,
                f"expand {word} with the limit {limit}",
            )
    for limit, status in [(0, 3), (1, 0), (999_999, 0), (1_000_000, 0), (1_000_001, 3)]:
        write_settings(folder, limit=limit)
        expect(trial.run(folder, "query", "s.toml", "AS1").status, status, f"the limit {limit}")
    return "12 expansions, 5 limits"


@case("settings and words")
def settings(trial: Trial) -> str:
    folder = made(trial, "size-settings")
    with open(os.path.join(folder, "s.toml"), "rb") as opened_file:
        text = opened_file.read()
    for size, status in [(1_048_575, 0), (1_048_576, 0), (1_048_577, 3), (2_000_000, 3)]:
        write(folder, "f.toml", text + b"#" * (size - len(text)))
        expect(
            trial.run(folder, "query", "f.toml", "AS1").status, status, f"settings of {size} bytes"
        )
    with Listening() as port, Listening(1) as first, Listening(65_535) as last:
        asked = [
            ((port, 1), 5),
            ((port, 1_000_000), 5),
            ((port, 0), 2),
            ((port, 1_000_001), 2),
            ((first, 1), 5),
            ((last, 1), 5),
            ((0, 1), 2),
            ((65_536, 1), 2),
        ]
        for words, status in asked:
            ran = trial.run(
                folder, "serve", "s.toml", "--port", str(words[0]), "--count", str(words[1])
            )
            expect(ran.status, status, f"a port and a count {words}")
    return f"4 sizes of settings, {len(asked)} pairs of a port and a count"


@case("dumps")
def dumps(trial: Trial) -> str:
    """A dump whose last paragraph is one below, at and above the most bytes."""
    folder, registry = trial.place("size-dumps"), opened()
    write_settings(folder)
    for size in (65_535, 65_536, 65_537):
        write(folder, "d.rpsl", registry.dump() + b"\n" + filled(size))
        ran = trial.run(folder, "load", "s.toml", "d.rpsl")
        expect(
            (ran.status, ran.printed),
            (0, b"loaded 5 objects\n") if size <= 65_536 else (5, b""),
            f"a paragraph of {size} bytes",
        )
        if size <= 65_536:
            os.remove(os.path.join(folder, "irr.db"))
    return "3 sizes"


@case("reads", is_long=True)
def reads(trial: Trial) -> str:
    """A submission and a dump in pieces of one byte each: they may be read so often, and no
    more."""
    for size, whole in [(MOST_READS - 1, True), (MOST_READS, False)]:
        text = b"\n" * size
        ran = run_in_pieces([trial.program], trial.work, text, [1], timeout=600)
        wanted = (0, b"% items 0\n") if whole else (5, b"% read fault after 0 items\n")
        expect(
            (ran.status, ran.printed),
            wanted,
            f"a submission in {size} pieces, saying {ran.reported!r}",
        )
    folder = trial.place("reads")
    write_settings(folder)
    ran = run_in_pieces(
        [trial.program, "load", "s.toml", "/dev/stdin"],
        folder,
        b"\n" * MOST_READS,
        [1],
        timeout=600,
    )
    reported = (
        b"irrdesk: /dev/stdin: the dump has no end within 16777216 reads: name a whole dump\n"
    )
    expect((ran.status, ran.reported), (5, reported), "a dump in too many pieces")
    return f"submissions of {MOST_READS - 1} and {MOST_READS} pieces, and a dump"


@pytest.mark.parametrize("check", cases_of(CASES))
def test_sizes_at_a_limit_are_taken_and_beyond_it_refused(
    trial: Trial, check: Callable[..., Any], tell: Tell
) -> None:
    tell(check(trial))

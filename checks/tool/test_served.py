"""A served registry, asked by the tool without a proxy and behind nginx, beside the model and what
irrdesk prints."""

import contextlib
import json
import os
import re
from collections.abc import Callable, Iterator
from typing import Any

import pytest

from checks.chances import any_query
from checks.model.queries import answer
from checks.model.registry import Registry
from checks.model.text import blocks
from checks.running import AUTH, Skipped, Tell, Trial, expect, write
from checks.worlds import A_AUTH, NGINX, WORLD, Tool, World, expect_line, items, nginx
from irr.registry.codes import TABLE as CODES

IN_MEMORY, SECONDS = True, 60


@contextlib.contextmanager
def alone(_trial: Trial, world: World) -> Iterator[Tool]:
    yield world.tool


@contextlib.contextmanager
def proxied(trial: Trial, world: World) -> Iterator[Tool]:
    if NGINX is None:
        raise Skipped("nginx is not there")
    with nginx(world.folder, world.url, "client_max_body_size 1m;") as url:
        yield world.tool.at(IRR_SERVER=url)


KINDS = [("alone", alone), ("behind-nginx", proxied)]


@pytest.mark.parametrize("kind, wrapped", KINDS, ids=[kind for kind, _ in KINDS])
def test_each_query_is_answered_as_the_model_does(
    trial: Trial, tool: Tool, kind: str, wrapped: Callable[..., Any], tell: Tell
) -> None:
    """Each query as the model answers it, some as `irrdesk query` does too, and the dump."""
    world, model = World(trial, tool, f"answers-{kind}"), Registry(auth=AUTH.encode())
    model.submit(WORLD)
    plain, chance = world.copy(f"plain-{kind}"), trial.chance(kind)
    queries = [
        b"192.0.2.1",
        b"AS64496",
        b"a-mnt",
        b"exact 192.0.2.0/24",
        b"less 192.0.2.7",
        b"more 0.0.0.0/0",
        b"inverse mnt A-MNT",
        b"object route 192.0.2.0/24 AS64496",
        b"inverse origin AS64496",
        b"expand AS64496:AS-CUSTOMERS",
        b"AS-NONE",
        b"%41%20",
        b"prefixes AS64496:RS-OUT",
        b"expand AS-NONE",
        b"expand RS-ANY",
        b"nonsense here",
        b"x" * 1_025,
        b"x" * 9_000,
        b"..",
        b"+",
        b"\xff",
        b"a/b?c#d",
        b"--",
    ]
    queries += [
        query
        for query in (any_query(chance) for _ in range(trial.pick(30, 1_000)))
        if query and b"\0" not in query
    ]
    with world, wrapped(trial, world) as tool:
        for query in queries:
            wanted = answer(model, query, 10_000)
            is_error = wanted.startswith(b"% error")
            ran = tool("query", *([] if chance.random() < 0.5 else ["--raw"]), "--", query)
            expect((ran.status, ran.printed), (int(is_error), wanted), f"{query!r}")
        for option, lines in [("--raw", 0), ("--", 1)]:
            expect(
                tool("query", option, "nonsense").reported.count(b"\n"),
                0,
                "words of an answer that is none",
            )
            expect(
                tool("query", option, "non", "sense").reported.count(b"\n"),
                lines,
                f"words of an error, {option}",
            )
        expect(
            tool("query", "inverse", "mnt", "A-MNT").printed,
            answer(model, b"inverse mnt A-MNT", 10_000),
            "a query of several words",
        )
        for words in ["dump"], ["dump", "--raw"]:
            expect(tool(*words).printed, model.dump(full=False), "the dump")
        expect(
            tool("dump", "-o", "d.rpsl", folder=world.folder).printed,
            b"",
            "what is printed of a dump that goes to a file",
        )
        with open(os.path.join(world.folder, "d.rpsl"), "rb") as made:
            expect(made.read(), model.dump(full=False), "the dump in a file")
        through_links(world.folder, tool)
    for query in queries[:3]:
        expect(
            trial.run(plain, "query", "s.toml", query).printed,
            answer(model, query, 10_000),
            f"irrdesk query {query!r}",
        )
    tell(f"{len(queries)} queries")


def through_links(folder: str, tool: Tool) -> None:
    """What a link leads to is replaced, and the link stays; but not what is open, nor by a link
    that another user may have planted."""
    os.mkdir(os.path.join(folder, "there"))
    for name, *words in [
        ("dump", "dump", "-o"),
        ("filter", "filter", "bird", "OUT", "AS64496"),
        ("map", "tree", "192.0.2.0/24", "--svg"),
    ]:
        link, path = os.path.join(folder, f"{name}.link"), write(folder, f"there/{name}", b"old")
        os.symlink(f"there/{name}", link)
        expect(tool(*words, link).status, 0, f"{name} through a link")
        with open(path, "rb") as made:
            expect(
                (os.path.islink(link), made.read() == b"old"),
                (True, False),
                f"{name}: whether the link is there and the file is old",
            )
    os.symlink("/dev/stdout", os.path.join(folder, "open.link"))
    for path in "open.link", "/dev/fd/1", "/proc/self/fd/1":
        expect_line(
            tool("dump", "-o", path, folder=folder),
            5,
            ".*: it is not a file that can be replaced; .*",
            path,
        )
    if os.geteuid() == 0:
        os.mkdir(of_all := os.path.join(folder, "of-all"))
        os.chmod(of_all, 0o1777)
        os.symlink("../there/dump", planted := os.path.join(of_all, "planted"))
        os.chown(planted, 12_345, 12_345, follow_symlinks=False)
        os.chmod(path := write(folder, "there/dump", b"kept"), 0o600)
        expect_line(
            tool("dump", "-o", planted),
            5,
            f"{planted}: {planted} is another user's link, in a folder where anybody .*; .*",
            "a link of another user",
        )
        with open(path, "rb") as file:
            expect(
                (file.read(), os.stat(path).st_mode & 0o777), (b"kept", 0o600), "what it leads to"
            )


@pytest.mark.parametrize("kind, wrapped", KINDS, ids=[kind for kind, _ in KINDS])
def test_json_says_what_the_text_says(
    trial: Trial, tool: Tool, kind: str, wrapped: Callable[..., Any], tell: Tell
) -> None:
    """Objects as JSON say what the text says."""
    with World(trial, tool, f"json-{kind}") as world, wrapped(trial, world) as tool:
        dumped = [json.loads(line) for line in tool("dump", "--json").printed.splitlines()]
        texts = [b"".join(block).decode("latin-1") for block in blocks(tool("dump").printed)]
        for found, text in zip(dumped, texts, strict=True):
            lines = [line.partition(":") for line in text.splitlines()]
            expect(
                [tuple(pair) for pair in found["attributes"]],
                [(name, value.strip()) for name, _, value in lines],
                "attributes",
            )
            expect(found["class"], lines[0][0], "a class")
        expect(
            [found["key"] for found in dumped if found["class"] == "route"],
            ["192.0.2.0/24 AS64496"],
            "the key of a route",
        )
        members = tool("query", "--json", "expand", "AS64496:AS-CUSTOMERS").printed.splitlines()
        expect(
            [json.loads(line) for line in members],
            [{"member": "AS64496"}, {"member": "AS64500"}, {"missing": "AS-GONE"}],
            "members",
        )
        ran = tool("query", "--json", "no", "query")
        expect((ran.status, ran.printed), (1, b"% error 1\n"), "an error")
    tell(f"{len(dumped)} objects")


@pytest.mark.parametrize("kind, wrapped", KINDS, ids=[kind for kind, _ in KINDS])
def test_a_long_submission_is_answered_as_irrdesk_submit_does(
    trial: Trial, tool: Tool, kind: str, wrapped: Callable[..., Any], tell: Tell
) -> None:
    """A submission that no server takes at once is answered as `irrdesk submit` answers it."""
    tail = b"descr: %s\n" % (b"x" * 2_000)
    parts = items(trial.pick(2_600, 26_000), tail)
    parts[0] = b"password: bc\n" + parts[0]
    parts[7] += (
        b"password: second one\n+ # with a line\n\n"
        + b"# skipped\n\nnocolon\n\n"
        + b"y: "
        + b"z" * 70_000
        + b"\n"
    )
    parts[9] += (
        b"\n" + b"password:\n+ kept\n\n" + b"descr: x\n password: no\n\npassword: lost\n  \x01\n"
    )
    parts[-1] = (
        b"mntner: C-MNT\nauth: "
        + AUTH.encode()
        + b"\nmnt-by: C-MNT\nsource: TEST\npassword: bc\n\nroute: 1.0.0.0/8"
    )
    text = b"\n".join(parts)
    world = World(trial, tool, f"long-{kind}")
    plain = world.copy(f"long-plain-{kind}")
    wanted = trial.run(plain, "submit", "s.toml", write(plain, "long.rpsl", text))
    with world, wrapped(trial, world) as tool:
        ran = tool("submit", "--raw", "--anyway", write(world.folder, "long.rpsl", text))
        expect(
            (ran.status, ran.printed == wanted.printed, ran.reported.count(b"\n")),
            (wanted.status, True, 1),
            "the report of a file",
        )
        expect(
            b"line 64, `descr`: its line reads as a password" in ran.reported, True, "the caution"
        )
        again = tool("submit", "--raw", "--anyway", "-", stdin=text)
        expect(
            (again.status, again.printed.count(b": unchanged\n")),
            (1, len(parts)),
            "what is unchanged the second time",
        )
        dump = tool("dump").printed
    expect(dump, trial.run(plain, "dump", "s.toml").printed, "what is registered")
    tell(f"{len(text) / 1e6:.1f} MB")


MISTAKES = f"""mntner: A-MNT
auth: {A_AUTH}
mnt-by: A-MNT
source: TEST

password: bc

aut-num AS1

person: Jo

inetnum: 10.1/16
mnt-by: A-MNT
source: TEST

aut-num: AS1
mnt-by: ROOT-MNT

aut-num: AS1
mnt-by: ANY
source: TEST

aut-num: AS1
mnt-by: ROOT-MNT
source: RIPE

aut-num: AS1
mnt-by: ROOT-MNT, GONE-MNT
source: TEST

as-set: AS1:AS-GONE:AS-X
mnt-by: ROOT-MNT
source: TEST

as-set: AS64496:AS-X
mnt-by: ROOT-MNT
source: TEST

inetnum: 192.0.2.0 - 192.0.2.9
mnt-by: ROOT-MNT
source: TEST

aut-num: AS64501
mnt-by: ROOT-MNT
source: TEST

route: 192.0.2.0/25
origin: AS64499
mnt-by: ROOT-MNT
source: TEST

route: 192.0.2.0/25
origin: AS64500
mnt-by: ROOT-MNT
source: TEST

inetnum: 192.0.2.128 - 192.0.3.7
mnt-by: ROOT-MNT
source: TEST

as-block: AS64505 - AS64600
mnt-by: ROOT-MNT
source: TEST

mntner: ROOT-MNT
delete: x

route: 192.0.2.0/24
origin: AS64500
delete: x

password: another good secret

route: 192.0.2.0/26
origin: AS64500
mnt-by: B-MNT
source: TEST
"""
DECIDED = [
    "1 E11 The registered object has `mnt-by: A-MNT`: it takes a password of this one. No"
    " password was given before this item.",
    "2 E01 mistakes.rpsl: line 8: it has a line without a colon.",
    "3 E02 mistakes.rpsl: line 10, `person`: this registry keeps no such class; it keeps mntner, "
    "as-block, aut-num, inetnum, route, as-set, route-set.",
    "4 E03 mistakes.rpsl: line 12, `inetnum`: `10.1/16` is not a range of addresses; write a range "
    "of addresses, as 192.0.2.0/24 or 192.0.2.0 - 192.0.2.255.",
    "5 E04 mistakes.rpsl: line 16, `aut-num`: `source` is missing.",
    "6 E05 mistakes.rpsl: line 20, `mnt-by`: `ANY` is not a maintainer's name; the word is "
    "reserved.",
    "7 E06 mistakes.rpsl: line 25, `source`: `RIPE` is not this registry, which is TEST.",
    "8 E10 GONE-MNT is not registered.",
    "9 E12 Its parent as-set AS1:AS-GONE is not registered.",
    "10 E13 aut-num AS64496 decides: A-MNT may add below it.",
    "11 E13 inetnum 192.0.2.0 - 192.0.2.255 decides: A-MNT may add below it.",
    "12 E13 as-block AS64500 - AS64505 decides: B-MNT may add below it.",
    "13 E14 AS64499 is not registered.",
    "14 E15 aut-num AS64500 decides: B-MNT may add a route 192.0.2.0/25 of it.",
    "15 E16 It overlaps inetnum 192.0.2.0 - 192.0.2.255 of A-MNT.",
    "16 E16 It overlaps as-block AS64500 - AS64505 of ROOT-MNT.",
    "17 E17 It is named by as-block AS0 - AS65535, as-block AS64500 - AS64505, as-block "
    "AS65536 - AS4294967295, inetnum 0.0.0.0 - 255.255.255.255.",
    "18 E18",
    "19 E13 route 192.0.2.0/24 AS64496 decides: A-MNT may add a route 192.0.2.0/26.",
    "20 E07 mistakes.rpsl: line 79: it has 70,009 bytes.",
]


@pytest.mark.parametrize("kind, wrapped", KINDS, ids=[kind for kind, _ in KINDS])
def test_each_refusal_has_its_words_remedy_and_what_decided(
    trial: Trial, tool: Tool, kind: str, wrapped: Callable[..., Any], tell: Tell
) -> None:
    """Each refusal with its code in words, the remedy, and what decided; the same in a dry run."""
    explained = {known.code: (known.sentence, known.causes, known.remedy) for known in CODES}
    text = MISTAKES.encode() + b"\naut-num: AS1\ndescr: " + b"x" * 69_988 + b"\n"
    with World(trial, tool, f"reasons-{kind}") as world, wrapped(trial, world) as tool:
        write(world.folder, "mistakes.rpsl", text)
        dry = tool(
            "submit",
            "--dry-run",
            "--anyway",
            "--whose",
            "ROOT-MNT",
            "--whose",
            "B-MNT",
            "mistakes.rpsl",
            folder=world.folder,
        )
        ran = tool("submit", "--anyway", "mistakes.rpsl", folder=world.folder)
        raw = tool("submit", "--anyway", "--raw", "mistakes.rpsl", folder=world.folder)
    reported = (
        b"irr submit: mistakes.rpsl: line 1: no password that is given here fits the new `auth` of"
        b" A-MNT; give its new password too\n"
    )
    expect((ran.status, ran.reported), (1, reported), "status and standard error")
    expect((dry.status, dry.printed), (1, ran.printed), "the dry run")
    found = re.findall(
        r"^(\d+) [^\n]*: refused (E\d\d)\n((?:    [^\n]*\n)*)", ran.printed.decode(), re.M
    )
    wanted = DECIDED
    expect(len(found), len(wanted), "how many are refused")
    for (number, code, words), line in zip(found, wanted):
        front, _, decided = line.partition(f" {code}")
        sentence = " ".join(words.split())
        wanted_words = [explained[code][0], decided.strip(), explained[code][2]]
        expect(
            (number, sentence),
            (front, " ".join(words for words in wanted_words if words)),
            f"item {number}",
        )
    expect(
        raw.printed,
        b"".join(line + b"\n" for line in ran.printed.splitlines() if not line.startswith(b"    ")),
        "--raw",
    )
    tell(f"{len(found)} refusals of {len(set(code for _, code, _ in found))} codes")


def test_a_proxy_that_takes_short_submissions_alone_gets_parts(
    trial: Trial, tool: Tool, tell: Tell
) -> None:
    """A proxy that takes 64 KiB alone is sent parts of that length; a single paragraph above it
    ends in words."""
    world = World(trial, tool, "length")
    plain = world.copy("length-plain")
    text = b"password: bc\n\n" + b"\n".join(items(3_000))
    wanted = trial.run(plain, "submit", "s.toml", write(plain, "s.rpsl", text))
    with world, nginx(world.folder, world.url, "client_max_body_size 64k;") as url:
        tool = tool.at(IRR_SERVER=url)
        ran = tool("submit", "-", stdin=text)
        expect(
            (ran.status, ran.printed == wanted.printed, ran.reported), (0, True, b""), "the report"
        )
        ran = tool(
            "submit",
            "-",
            stdin=b"password: bc\n\n"
            + items(1)[0]
            + b"\naut-num: AS1\ndescr: "
            + b"x" * 65_480
            + b"\nmnt-by: ROOT-MNT\nsource: TEST\n",
        )
        expect(
            (ran.status, ran.printed),
            (5, b"1 inetnum 10.0.0.0 - 10.0.0.31: unchanged\n"),
            "a paragraph that is too long",
        )
        expect(
            b"status 413" in ran.reported and ran.reported.count(b"\n") == 1,
            True,
            f"its line {ran.reported!r}",
        )
    tell(f"{len(text):,} bytes")

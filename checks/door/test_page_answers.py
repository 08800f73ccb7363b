"""What the page asks at the door beside queries: golden answers, and words for all that is none."""

import asyncio
import contextlib
import json
import os
import socket
import time
from collections.abc import Iterator
from pathlib import Path
from types import SimpleNamespace
from typing import Any

import pytest

from checks.door import worlds
from checks.door.opened import Bridge, Opened, Registries, read_all, wait_until
from checks.running import Each, Trial, expect, needs, write
from checks.serving import free_port
from irr.door import history, page
from irr.door.budget import Clients
from irr.door.history import History, Hung, Long
from irr.door.pool import Refused
from irr.door.queries import Asker
from irr.local.history import Repository
from irr.rpsl.keys import Key

SECONDS = 20
ROUTE = Key("route", "10.0.0.0/16 AS1")
STATES = 1_000
DIFF = "/history/route/10.0.0.0%2F16%20AS1"


def state_of(number: int) -> Iterator[bytes]:
    """The public objects of a registry at a time: one of them says which."""
    yield b"mntner:         ROOT-MNT\nauth:           # filtered\nsource:         TEST\n"
    if number != 3:
        yield b"route:          10.0.0.0/16\norigin:         AS1\n" + (
            b"descr:          state %d\nsource:         TEST\n" % number
        )


class Block:
    """An object as a dump has it."""

    def __init__(self, text: bytes) -> None:
        self.text = text


def recorded(folder: Path, count: int) -> Path:
    """A history of so many states."""
    folder.mkdir(parents=True)
    repository = Repository(folder)
    for number in range(1, count + 1):
        blocks: Any = [Block(text) for text in state_of(number)]
        repository.record(blocks, f"{number:064}", 1_700_000_000 + number)
    return folder


def long_history(folder: Path, count: int) -> Path:
    """The same of an object that changed with each of many states, made in one step."""
    repository = recorded(folder, 1)
    lines = [b"feature done\n"]
    for number in range(2, count + 1):
        text = b"route:          10.0.0.0/16\ndescr:          state %d\n" % number
        path = repository_path()
        lines.append(
            b"commit refs/heads/main\ncommitter irr <irr@localhost> %d +0000\ndata 0\n%s"
            b"M 100644 inline %s\ndata %d\n%s\n"
            % (
                1_700_000_000 + number,
                b"from refs/heads/main^0\n" if number == 2 else b"",
                path.encode(),
                len(text),
                text,
            )
        )
    Repository(repository).git("fast-import", "--quiet", given=b"".join([*lines, b"done\n"]))
    return folder


def repository_path() -> str:
    from irr.local.history import path_of

    return path_of(ROUTE)


@pytest.fixture(scope="module")
def told(trial: Trial, registries: Registries) -> Iterator[Opened]:
    """A door that has a history of a few states."""
    folder = recorded(Path(trial.place("kept"), "history"), 4)
    with Opened(trial, "told", registries.words, f'history = "{folder}"\n') as opened:
        yield opened


def asked(door: Opened, path: str, **fields: Any) -> Any:
    """The JSON that is answered to a path."""
    status, head, body = door.http("GET", path, **fields)
    expect((status, head["Content-Type"]), (200, "application/json"), f"{path}: {body!r}")
    return json.loads(body)


def test_about_says_what_is_served(door: Opened, told: Opened) -> None:
    plain = {"name": "TEST", "why": True, "history": False, "views": []}
    expect(asked(door, "/about"), plain, "a door without more")
    expect(asked(told, "/about?json"), plain | {"history": True}, "one with a history")


def step(name: str, says: str, held: str | None, by: str = "A-MNT") -> dict[str, Any]:
    return {"object": name, "mnt-by": [by], "says": says, "range": held}


def test_why_has_the_chains_of_a_prefix(door: Opened) -> None:
    found = asked(door, "/why/10.1.2.0/24/AS-X")
    chain = [
        step("as-set AS-X", "members: AS-Y", "10.1.2.0/24"),
        step("as-set AS-Y", "members: AS2", "10.1.2.0/24"),
        step("aut-num AS2", "origin", "10.1.2.0/24", "ROOT-MNT"),
        step("route 10.1.2.0/24 AS2", "", "10.1.2.0/24", "ROOT-MNT"),
    ]
    wanted = {
        "prefix": "10.1.2.0/24",
        "set": "AS-X",
        "found": True,
        "chains": [chain],
        "more": 0,
        "all": True,
        "nearest": [],
        "near": [],
    }
    expect(found, wanted, "the answer")
    for path in (
        "/why/10.1.2.0%2F24/as-x",
        "/why/10.1.2.0%2f24/As-X?view=test",
        "/why/%31%30.1.2.0/24/AS-X?",
    ):
        expect(asked(door, path), wanted, path)
    expect(asked(door, "/why/10.1.2.1/AS2")["found"], False, "an address, and an AS")


def test_why_has_what_is_near(door: Opened) -> None:
    found = asked(door, "/why/10.1.9.0/24/AS-X")
    expect(found["found"], False, "whether it is in the set")
    expect([one["object"] for one in found["nearest"]][-1], "route 10.1.0.0/16 AS1", "the nearest")
    near = [(one["object"], one["mnt-by"], one["why"]) for one in found["near"]]
    expect(near, [("as-set AS-GONE", None, "as-set AS-X lists it")], "what is near")


LONG = "A" * 7_000
WORDS = {
    "/why": 404,
    "/why/": 400,
    "/why/10.0.0.0/8": 400,
    "/why/10.0.0.0/33/AS1": 400,
    "/why/10.0.0.0/8/": 400,
    "/why/10.0.0.0/8/A-MNT": 400,
    "/why/10.0.0.0/8/AS1/AS1": 400,
    "/why/10.0.0.0/8/..": 400,
    "/why/../../etc/passwd": 400,
    "/why/%2e%2e/%2e%2e": 400,
    "/why/10.0.0.0/8/AS1%00": 400,
    "/why/10.0.0.0/8/AS1%0d%0aX": 400,
    "/why/%00": 400,
    "/why/%": 400,
    "/why/%ff%fe/AS1": 400,
    "/why/%F0%9F%98%80/%F0%9F%98%80": 400,
    "/why/<script>/AS1": 400,
    f"/why/10.0.0.0/8/{LONG}": 400,
    f"/why/{LONG}/AS1": 400,
    f"/why/10.0.0.0/8/AS-{'A' * 300}": 400,
    "/why/10.0.0.0/8/AS-NONE": 404,
    "/why/10.0.0.0/8/AS1?view=RADB": 404,
    "/why/10.0.0.0/8/AS1?view=..": 404,
    "/why/10.0.0.0/8/AS1?view=%00": 404,
    f"/why/10.0.0.0/8/AS1?view={LONG}": 404,
    "/why/10.0.0.0/8/AS1?" + "&".join(["view=A"] * 20): 400,
    "/views/TEST/why/10.0.0.0/8/AS1": 404,
    "/about/": 404,
    "/about/..": 404,
    "/abouts": 404,
    "/history": 404,
    "/history/": 400,
    "/history/route": 400,
    "/history/route/": 400,
    "/history/route/10.0.0.0%2F16": 400,
    "/history/route/10.0.0.0%2F16%20AS1%20AS1": 400,
    "/history/person/X": 400,
    "/history/AS1/AS1": 400,
    "/history/mntner/..": 400,
    "/history/mntner/../../objects": 400,
    "/history/mntner/%00": 400,
    "/history/mntner/--help": 400,
    f"/history/mntner/{LONG}": 400,
    f"{DIFF}?from=HEAD&to=HEAD": 400,
    f"{DIFF}?to=--help": 400,
    f"{DIFF}?from={'0' * 40}": 400,
    f"{DIFF}?to={'0' * 40}": 503,
    f"{DIFF}?from={'0' * 40}&to={'1' * 40}": 503,
}


def test_what_is_none_ends_in_words(told: Opened, each: Each) -> None:
    for path, wanted in WORDS.items():
        with each(path[:60]):
            status, head, body = told.http("GET", path)
            expect((status, head["Content-Type"]), (wanted, "text/plain"), f"{path[:80]}: {body!r}")
            expect(len(body) < 300 and body.endswith(b"\n"), True, f"{path[:80]}: {body!r}")
    for method in "POST", "HEAD", "PUT":
        expect(told.http(method, "/why/10.0.0.0/8/AS1", b"")[0], 405, method)
    expect(
        "Traceback" in told.words_reported() or "report this" in told.words_reported(),
        False,
        "faults",
    )


def test_a_history_has_the_states_of_an_object(told: Opened) -> None:
    found = asked(told, DIFF)
    words = [(one["word"], one["time"][-9:], one["serial"]) for one in found["states"]]
    expect(
        words,
        [
            ("added", "22:13:24Z", None),
            ("deleted", "22:13:23Z", None),
            ("changed", "22:13:22Z", None),
            ("added", "22:13:21Z", None),
        ],
        "the states, the last first",
    )
    expect((found["class"], found["key"], found["more"]), ("route", ROUTE.text, False), "the key")
    last, gone, second, first = (one["state"] for one in found["states"])
    lines = asked(told, f"{DIFF}?from={first}&to={second}")["lines"]
    expect(
        lines,
        [
            [" ", "route:          10.0.0.0/16"],
            [" ", "origin:         AS1"],
            ["-", "descr:          state 1"],
            ["+", "descr:          state 2"],
            [" ", "source:         TEST"],
        ],
        "what a change changed",
    )
    for path, signs in [
        (f"?to={first}", "++++"),
        (f"?from={second}&to={gone}", "----"),
        (f"?from={gone}&to={last}", "++++"),
        (f"?from={first}&to={first}", ""),
    ]:
        found = asked(told, DIFF + path)
        expect("".join(sign for sign, _ in found["lines"]), signs, path)
    expect(asked(told, "/history/mntner/root-mnt")["states"][0]["word"], "added", "another one")
    expect(asked(told, "/history/mntner/NO-MNT")["states"], [], "one that was never seen")
    expect(told.http("GET", "/history/mntner/NO-MNT")[0], 200, "its status")


def test_without_a_history_there_is_none(door: Opened) -> None:
    status, _, body = door.http("GET", DIFF)
    expect((status, body), (404, b"% no history is kept here\n"), "the reply")


@needs("git")
def test_a_history_of_1000_states_and_of_more(trial: Trial, each: Each) -> None:
    kept = History(long_history(Path(trial.place("long"), "history"), STATES + 5))
    with each("the last ones are told"):
        found = asyncio.run(kept.found(ROUTE))
        expect((len(found["states"]), found["more"]), (STATES, True), "how many are told")
        times = [one["time"] for one in found["states"]]
        expect(times, sorted(times, reverse=True), "their order")
    with each("the ends of it"):
        first, last = found["states"][-1]["state"], found["states"][0]["state"]
        lines = asyncio.run(kept.found(ROUTE, first, last))["lines"]
        signs = [sign for sign, _ in lines]
        expect(signs, [" ", "-", "+"], "what differs between the first and the last")
    with each("one that says too much"):
        with pytest.MonkeyPatch.context() as patch:
            patch.setattr(history, "MOST_BYTES", 1_000)
            with pytest.raises(Long):
                asyncio.run(kept.found(ROUTE))


def test_states_have_the_serials_that_mirrors_know(trial: Trial) -> None:
    folder = recorded(Path(trial.place("serials"), "history"), 2)
    commits = [one.commit for one in Repository(folder).states()]
    (folder / "serials").mkdir()
    for last, commit in [(7, commits[1]), (9, commits[0])]:
        head = f"% TEST {last - 1}-{last} since 5 {commit} {'0' * 64}\n"
        write(str(folder / "serials"), f"{last:010}", head.encode())
    write(str(folder / "serials"), "0000000011", b"nothing\n")
    kept = History(folder)
    for turn in 1, 2:
        found = asyncio.run(kept.found(ROUTE))
        expect([one["serial"] for one in found["states"]], [9, 7], f"the serials, turn {turn}")
    (folder / "serials" / f"{7:010}").unlink()
    found = asyncio.run(kept.found(ROUTE))
    expect([one["serial"] for one in found["states"]], [9, None], "one that is kept no longer")


GIT = """#!/bin/sh
echo $$ > {folder}/pid
exec sleep 600
"""


def test_a_git_that_hangs_is_ended(trial: Trial, monkeypatch: pytest.MonkeyPatch) -> None:
    folder = trial.place("hangs")
    kept = History(recorded(Path(folder, "history"), 1))
    stand_in = Path(folder, "git")
    stand_in.write_text(GIT.format(folder=folder))
    stand_in.chmod(0o755)
    monkeypatch.setenv("PATH", f"{folder}:{os.environ['PATH']}")
    monkeypatch.setattr(history, "LASTS", 0.3)
    with pytest.raises(Hung):
        asyncio.run(kept.found(ROUTE))
    # It may have been ended before it had said who it is.
    if number := reported_by(Path(folder, "pid")):
        wait_until("that it is gone", 60, lambda: not is_running(number))
    # Who does not wait for it has it ended too.
    monkeypatch.setattr(history, "LASTS", 600)
    Path(folder, "pid").unlink(missing_ok=True)
    number = asyncio.run(left_alone(kept, Path(folder, "pid")))
    wait_until("that the other one is gone", 60, lambda: not is_running(number))


def reported_by(pid: Path) -> int:
    """The number that the stand-in has written; 0 before."""
    text = pid.read_text() if pid.exists() else ""
    return int(text) if text.endswith("\n") else 0


async def left_alone(kept: History, pid: Path) -> int:
    """Asks, and goes away once git runs: the number of that."""
    task = asyncio.create_task(kept.found(ROUTE))
    async with asyncio.timeout(60):
        while not reported_by(pid):
            await asyncio.sleep(0.01)
    task.cancel()
    with contextlib.suppress(asyncio.CancelledError):
        await task
    return reported_by(pid)


def is_running(number: int) -> bool:
    """Whether there is such a process, which is not over."""
    try:
        state = Path(f"/proc/{number}/stat").read_text().rpartition(") ")[2]
    except OSError:
        return False
    return state[:1] != "Z"


def test_without_git_there_is_no_history(trial: Trial, monkeypatch: pytest.MonkeyPatch) -> None:
    kept = History(recorded(Path(trial.place("no-git"), "history"), 1))
    expect(kept.is_there, True, "with git")
    monkeypatch.setenv("PATH", trial.place("empty"))
    expect(kept.is_there, False, "without it")


def test_a_history_that_is_damaged_ends_in_words(
    trial: Trial, registries: Registries, each: Each
) -> None:
    folder = recorded(Path(trial.place("damaged"), "history"), 1)
    write(str(folder), "refs/heads/main", b"nothing\n")
    with Opened(trial, "of-damage", registries.words, f'history = "{folder}"\n') as door:
        for path in DIFF, f"{DIFF}?to={'2' * 40}":
            with each(path):
                status, _, body = door.http("GET", path)
                words = b"% the history does not have it, or can't be read\n"
                expect((status, body), (503, words), "the reply")
        expect("report this" in door.words_reported(), False, door.words_reported())


def wide(deep: int, across: int) -> str:
    """Sets in layers, each of which lists all of the next layer; the last ones list AS1."""
    found = []
    for layer in range(deep):
        below = [f"AS-L{layer + 1}-{n}" for n in range(across)] if layer + 1 < deep else ["AS1"]
        for n in range(across):
            members = ", ".join(below)
            found.append(f"as-set: AS-L{layer}-{n}\nmembers: {members}\nmnt-by: ROOT-MNT")
    return worlds.objects(*found)


@pytest.fixture(scope="module")
def deep(trial: Trial) -> Iterator[Registries]:
    """A registry of sets that all list those of the next layer."""
    with Registries(trial, "deep", worlds.DUMP + wide(8, 6), replicas=0) as made:
        yield made


def test_why_is_bounded_and_others_are_answered_meanwhile(
    trial: Trial, deep: Registries, each: Each
) -> None:
    """Of sets of many ways, by many at once."""
    settings = "refill = 1000\nburst = 1000\n"
    with Opened(trial, "of-deep", deep.words, settings) as door:
        with each("the chains of many ways"):
            found = asked(door, "/why/10.0.0.0/16/AS-L0-0")
            expect((len(found["chains"]), found["all"]), (10, False), "what is told")
            expect({len(chain) for chain in found["chains"]}, {10}, "how long they are")
        with each("others meanwhile"):
            peers = [door.connect(door.http_port, 2) for _ in range(6)]
            line = b"GET /why/10.1.0.0/16/AS-L0-%d HTTP/1.1\r\nConnection: close\r\n\r\n"
            for number, peer in enumerate(peers):
                peer.sendall(line % number)
            expect(door.whois("AS1", 3), worlds.AS1 + b"\n", "an answer to somebody else")
            replies = [read_all(peer)[:12] for peer in peers]
            for peer in peers:
                peer.close()
            expect(set(replies) <= {b"HTTP/1.1 200", b"HTTP/1.1 429"}, True, f"{replies}")
            expect(b"HTTP/1.1 200" in replies, True, f"{replies}")
        with each("clients that leave"):
            for _ in range(20):
                with contextlib.closing(door.connect(door.http_port, 4)) as peer:
                    peer.sendall(line % 5)
            expect(asked(door, "/why/10.0.0.0/16/AS-L7-0", last=5)["found"], True, "afterwards")
        expect("report this" in door.words_reported(), False, door.words_reported())


@pytest.mark.parametrize("bound", ["MOST_WORK", "MOST_READ", "LARGEST"])
def test_what_is_over_a_bound_is_refused(
    registries: Registries, monkeypatch: pytest.MonkeyPatch, bound: str
) -> None:
    monkeypatch.setattr(page, bound, 0)
    port = free_port()
    with Bridge(f"http://127.0.0.1:{registries.ports[0]}", http=[f"127.0.0.1:{port}"]):
        reply = http_get(port, "/why/10.1.2.0/24/AS-X")
    expect(reply.partition(b"\r\n")[0], b"HTTP/1.1 422 Unprocessable Content", "the status")
    expect(b"% this takes more than the door gives" in reply, True, f"{reply!r}")


def test_a_machine_that_does_other_things_makes_no_question_long() -> None:
    """What counts is what the door itself has worked."""
    clients = Clients(0.5, 3.0)
    asker: Any = SimpleNamespace(client=clients.of("192.0.2.1", 0.0))
    asker.pool = SimpleNamespace(clients=clients)
    slices = page.Slices(asker)
    time.sleep(0.3)
    slices.end()
    expect(slices.worked < 0.2, True, f"{slices.worked} s of work")


def http_get(port: int, path: str) -> bytes:
    with socket.create_connection(("127.0.0.1", port), 60) as peer:
        peer.sendall(f"GET {path} HTTP/1.0\r\n\r\n".encode())
        return read_all(peer)


class Shared:
    """What long work needs of a pool."""

    def __init__(self) -> None:
        self.loop = asyncio.get_running_loop()
        self.clients, self.refused = Clients(0.001, 1.0), list[str]()

    def count(self, word: str) -> None:
        self.refused.append(word)


def test_who_asks_why_pays_for_the_time() -> None:
    async def work() -> None:
        pool: Any = Shared()
        client = pool.clients.of("192.0.2.1", time.monotonic())
        slices = page.Slices(Asker(pool, client))
        while slices.worked < 0.01:
            slices.end()
        # But for what it was given meanwhile, a thousandth of the time.
        expect(abs(1 - slices.worked - client.left) < 0.01, True, f"{client.left} s are left")
        places = page.Places(pool)
        pool.clients.charge(client, 2.0, time.monotonic())
        with pytest.raises(Refused):
            async with places.one(client):
                raise AssertionError("it has nothing left")
        async with places.one(pool.clients.of("192.0.2.2", time.monotonic())):
            expect(pool.refused, ["budget"], "who was refused")

    asyncio.run(work())


def test_long_work_has_few_places_whose_turns_go_round() -> None:
    """Two at once, four that wait of one client, and another client before the rest of these."""

    async def work() -> None:
        pool: Any = Shared()
        places, order, go = page.Places(pool), list[str](), asyncio.Event()

        async def one(name: str) -> None:
            async with places.one(pool.clients.of(name, time.monotonic())):
                order.append(name)
                await go.wait()

        tasks = [asyncio.create_task(one("a")) for _ in range(2)]
        await asyncio.sleep(0)
        tasks += [asyncio.create_task(one("a")) for _ in range(page.QUEUED)]
        await asyncio.sleep(0)
        with pytest.raises(Refused):
            await one("a")
        late = asyncio.create_task(one("b"))
        await asyncio.sleep(0)
        expect(order, ["a", "a"], "who has a place")
        # One that leaves, with a place and without, leaves it to others.
        for gone in tasks[0], tasks[-1]:
            gone.cancel()
            with contextlib.suppress(asyncio.CancelledError):
                await gone
        pool.clients.charge(pool.clients.of("a", time.monotonic()), 0.5, time.monotonic())
        go.set()
        async with asyncio.timeout(60):
            await asyncio.gather(*tasks[1:-1], late)
        expect(sorted(order), ["a"] * 5 + ["b"], "who had one")
        expect("b" in order[:4], True, f"the turn of the other one: {order}")
        expect((places.free, places.turns.count), (page.AT_ONCE, 0), "what is left over")

    asyncio.run(work())

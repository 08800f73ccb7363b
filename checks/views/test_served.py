"""A view that is served: by its replicas, and through the door by its sources, while each part is
stopped."""
import contextlib
import json
import os
import shutil
import signal
import socket
import subprocess
import sys
from collections.abc import Iterator
from pathlib import Path
from typing import Any

import pytest

from checks.door.opened import Opened
from checks.keeping import PATIENCE, running, reported_by, wait_until, whois_answer
from checks.running import Each, Tell, Trial, expect
from checks.serving import free_port
from checks.views.serving import Files, Nrtm
from checks.views.test_sources import route
from checks.worlds import Tool, World

BGPQ4 = shutil.which("bgpq4")
OWN = b"""password: bc

aut-num: AS1
mnt-by: ROOT-MNT
source: TEST

aut-num: AS2
mnt-by: ROOT-MNT
source: TEST

route: 198.51.100.0/24
origin: AS2
mnt-by: ROOT-MNT
source: TEST

as-set: AS1:AS-JOINED
mbrs-by-ref: ROOT-MNT
mnt-by: ROOT-MNT
source: TEST

route: 203.0.113.128/25
origin: AS1
member-of: AS1:AS-JOINED
mnt-by: ROOT-MNT
source: TEST

as-set: AS1:AS-ALL
members: AS2, AS3
mnt-by: ROOT-MNT
source: TEST
"""
AS_X = b"as-set: AS-X\nmembers: AS3\nmnt-by: B-MNT\nsource: RIPE\n\n"
AS_ALL = b"as-set: AS1:AS-ALL\nmembers: AS3\nmnt-by: B-MNT\nsource: RIPE\n\n"
STATE = "/views/ALL/state"
AS_FAR = b"as-set: AS1:AS-FAR\nmembers: RIPE::AS-X\nmnt-by: B-MNT\nsource: RIPE\n\n"


class Served:
    """A registry, one that is fetched and followed, a view of both, and a door."""

    def __init__(self, trial: Trial, tool: Tool, default: str = "") -> None:
        self.trial, self.tool, self.default = trial, tool, default
        self.files, self.nrtm = Files(), Nrtm("RIPE", 1)
        self.ports, self.agent = [free_port(), free_port()], free_port()

    @contextlib.contextmanager
    def open(self) -> Iterator["Served"]:
        with contextlib.ExitStack() as stack:
            self.world = stack.enter_context(
                World(self.trial, self.tool, f"view-world{self.default}")
            )
            stack.enter_context(self.files)
            stack.enter_context(self.nrtm)
            ran = self.world.tool("submit", "-", stdin=OWN)
            expect(ran.status, 0, f"the registry: {ran.printed!r}")
            self.nrtm.publish([("ADD", route(1, 3))])
            self.files.texts["/ripe.db"] = AS_X + AS_FAR + route(1, 3).encode()
            self.files.texts["/SERIAL"] = b"1\n"
            self.folder = Path(self.world.folder)
            self.settings = self.folder / "view.toml"
            self.settings.write_text(
                f"""
name = "ALL"
folder = "{self.folder}/view"
port = {self.ports}
agent = {self.agent}
every = 1
pause = 1
[[source]]
name = "TEST"
registry = "{self.world.url}"
[[source]]
name = "RIPE"
dump = "{self.files.url}/ripe.db"
serial = "{self.files.url}/SERIAL"
nrtm = "{self.nrtm.place}"
"""
            )
            self.log = str(self.folder / "view.log")
            words = [sys.executable, self.tool.path, "view", str(self.settings)]
            self.process = stack.enter_context(
                running(words, self.log, env=self.world.tool.environment)
            )
            wait_until("the view", PATIENCE, lambda: "the replicas have" in reported_by(self.log))
            config = f'view = ["127.0.0.1:{self.agent}"]\ndefault = "{self.default}"\n'
            self.door = Opened(
                self.trial, f"view-door{self.default}", [f"--registry={self.world.url}"], config
            )
            stack.enter_context(self.door)
            wait_until("that the door knows it", PATIENCE, lambda: self.status().get("name"))
            yield self

    def status(self) -> dict[str, Any]:
        found: dict[str, Any] = self.door.status()["views"][0]
        return found

    def whois(self, line: str) -> str:
        found: bytes = self.door.whois(line)
        return found.decode("latin-1")

    def asked(self, sources: str, question: str) -> str:
        """The reply to a question of IRRd's after its sources were named."""
        lines = f"!!\n!s{sources}\n{question}\n!q\n"
        found: bytes = self.door.whois(lines.encode())
        return found.decode("latin-1")


@pytest.fixture(scope="module")
def served(trial: Trial, tool: Tool) -> Iterator[Served]:
    with Served(trial, tool).open() as one:
        yield one


def has_changed(port: int) -> bool:
    """Whether a replica of the view has the route that came by NRTM."""
    answer: bytes = whois_answer(port, b"prefixes AS1:AS-ALL")
    return answer.split(b"\n")[0] == b"10.0.2.0/24"


def is_of_ripe(port: int) -> bool:
    """Whether a replica of the view has RIPE's form of a set that TEST has too."""
    answer: bytes = whois_answer(port, b"object as-set AS1:AS-ALL")
    return b"ALL # RIPE" in answer


def framed(words: str) -> str:
    return f"A{len(words) + 1}\n{words}\nC\n"


def bgpq4(port: int, *words: str) -> "subprocess.CompletedProcess[str]":
    assert BGPQ4
    return subprocess.run(
        [BGPQ4, "-h", f"127.0.0.1:{port}", "-4", "-l", "X", *words],
        capture_output=True,
        text=True,
        check=False,
    )


def test_the_sources_are_chosen_by_name(served: Served, each: Each) -> None:
    one, known = served, "there is TEST and ALL (TEST,RIPE)"
    with each("IRRd's questions"):
        own, both = framed("198.51.100.0/24"), framed("10.0.1.0/24 198.51.100.0/24")
        for sources, wanted in [("TEST", own), ("TEST,RIPE", both), ("all", both)]:
            expect(one.asked(sources, "!a4AS1:AS-ALL"), "C\n" + wanted, sources)
        expect(one.whois("!a4AS1:AS-ALL"), own, "no source")
        for sources in "RIPE", "RIPE,TEST", "TEST,RADB":
            answer = one.asked(sources, "!s-lc")
            words = f"F One or more selected sources are unavailable: {sources}; {known}\n"
            expect(answer, words + framed("TEST"), sources)
        expect(one.asked("ALL", "!s-lc"), "C\n" + framed("TEST,RIPE"), "what is asked")
        joined = framed("203.0.113.128/25")
        for sources in "TEST", "ALL":
            # A route that names an as-set, which an irrdesk counts.
            expect(one.asked(sources, "!a4AS1:AS-JOINED"), "C\n" + joined, sources)
        expect(one.asked("ALL", "!a4AS1:AS-FAR"), "C\n" + framed("10.0.1.0/24"), "a scope")
    with each("RIPE's flags"):
        for words, there in [
            ("-s ALL AS-X", True),
            ("-s TEST,RIPE AS-X", True),
            ("-s TEST AS-X", False),
            ("-r AS-X", False),
        ]:
            answer = one.whois(words)
            expect("source:         ALL # RIPE\n" in answer, there, f"{words}: {answer!r}")
            expect("%ERROR:101:" in answer, not there, f"{words}: {answer!r}")
        answer = one.whois("-s RIPE AS-X")
        expect(f"'RIPE' is not a known source; {known}." in answer, True, answer)
        expect("TEST:3:N:0-0\n" in one.whois("-q sources"), True, "the serials")
    with each("HTTP"):
        for path, status in [
            ("/views/ALL/query/AS-X", 200),
            ("/views/TEST,RIPE/query/AS-X", 200),
            ("/views/TEST/query/AS-X", 200),
            ("/views/RIPE/query/AS-X", 404),
            ("/views/ALL/dump", 404),
            ("/views/ALL", 404),
            ("/views/TEST/state", 404),
            ("/views/ALL/submissions", 404),
            ("/state", 404),
        ]:
            found, _, text = one.door.http("GET", path)
            expect(found, status, path)
            expect(b"ALL # RIPE" in text, status == 200 and "TEST/" not in path, path)
    with each("the page"):
        (view,) = json.loads(one.door.http("GET", "/about")[2])["views"]
        names = [(source["name"], source["stands"]) for source in view["sources"]]
        expect((view["name"], view["serves"]), ("ALL", True), f"{view}")
        expect(names, [("TEST", False), ("RIPE", False)], f"{view}")
        expect(all(source["age"] is not None for source in view["sources"]), True, f"{view}")
        for words, found in [("?view=ALL", True), ("?view=TEST,RIPE", True), ("", False)]:
            text = one.door.http("GET", f"/why/10.0.1.0/24/AS1:AS-ALL{words}")[2]
            expect(json.loads(text)["found"], found, f"{words}: {text!r}")
        steps = json.loads(one.door.http("GET", "/why/10.0.1.0/24/AS1:AS-ALL?view=all")[2])
        first, *_, last = steps["chains"][0]
        expect((first["source"], last["source"]), ("TEST", "RIPE"), f"{steps}")
    with each("a door whose registry is a port of the view"):
        place, config = f"http://127.0.0.1:{one.ports[0]}", f'view = ["127.0.0.1:{one.agent}"]\n'
        with Opened(one.trial, "own-view", [f"--registry={place}"], config) as door:
            wait_until("its state", PATIENCE, lambda: door.http("GET", STATE)[0] == 200)
            said: bytes = door.whois(b"!!\n!sALL\n!s-lc\n!q\n")
            expect(said.decode(), "C\n" + framed("TEST,RIPE"), "what is asked")
    with each("irr"):
        place = f"http://127.0.0.1:{one.door.http_port}/views/ALL"
        ran = one.tool("filter", "-s", place, "frr", "X", "AS1:AS-ALL", "-")
        expect((ran.status, ran.printed.count(b" permit ")), (0, 2), f"{ran.reported!r}")
        states = {source["name"]: source["state"] for source in one.status()["sources"]}
        head = [
            f"! Made by irr filter of AS1:AS-ALL at {place}",
            f"! source TEST, state {states['TEST']}",
            f"! source RIPE, state {states['RIPE']}, serial {one.nrtm.last}",
        ]
        expect(ran.printed.decode().splitlines()[:3], head, "what it was made of")
        ran = one.tool("why", "-s", place, "10.0.1.0/24", "AS1:AS-ALL")
        expect(ran.status, 0, f"{ran}")
        for name in "as-set AS1:AS-ALL (TEST)", "route 10.0.1.0/24 AS3 (RIPE)":
            expect(name in ran.printed.decode(), True, f"{name}: {ran.printed!r}")


@pytest.mark.skipif(not BGPQ4, reason="bgpq4 is not here")
def test_bgpq4_takes_sources(served: Served) -> None:
    port = served.door.whois_port
    lines = {
        ("-S", "TEST"): ["198.51.100.0/24"],
        ("-S", "TEST,RIPE"): ["10.0.1.0/24", "198.51.100.0/24"],
        ("-S", "ALL"): ["10.0.1.0/24", "198.51.100.0/24"],
        (): ["198.51.100.0/24"],
    }
    for words, wanted in lines.items():
        done = bgpq4(port, *words, "AS1:AS-ALL")
        found = [line.split(" ")[-1] for line in done.stdout.splitlines() if " permit " in line]
        expect((done.returncode, found), (0, wanted), f"{words}: {done}")
    done = bgpq4(port, "-S", "RADB,TEST", "AS1:AS-ALL")
    expect(done.returncode != 0 and " permit " not in done.stdout, True, f"others: {done}")


def test_no_filter_is_made_of_what_is_not_known(served: Served) -> None:
    """While a view is held still its replicas answer, and nobody says of which states."""
    one, place = served, f"http://127.0.0.1:{served.door.http_port}/views/ALL"
    path = one.folder / "made.frr"
    words = ["filter", "-s", place, "frr", "X", "AS1:AS-ALL", str(path)]
    one.process.send_signal(signal.SIGSTOP)
    try:
        wait_until("that it is silent", PATIENCE, lambda: one.door.http("GET", STATE)[0] == 503)
        status = one.door.http("GET", "/views/ALL/query/prefixes%20AS1:AS-ALL")[0]
        ran = one.tool(*words)
        expect((status, ran.status, path.exists()), (200, 5, False), f"meanwhile: {ran.reported!r}")
    finally:
        one.process.send_signal(signal.SIGCONT)
    wait_until("that it tells", PATIENCE, lambda: one.door.http("GET", STATE)[0] == 200)
    ran = one.tool(*words)
    expect(ran.status, 0, f"then: {ran.reported!r}")
    heads = [line.partition(", state ")[0] for line in path.read_text().splitlines()[1:3]]
    expect(heads, ["! source TEST", "! source RIPE"], "what it was made of")


def test_a_view_goes_on_while_its_sources_are_gone(served: Served, tell: Tell) -> None:
    """What is new is told after each renewal; a source that fails stays, and status says so."""
    one = served

    def answer() -> str:
        return one.asked("ALL", "!a4AS1:AS-ALL").removeprefix("C\n")

    one.nrtm.publish([("ADD", route(2, 3)), ("DEL", route(1, 3))])
    wait_until("a change", PATIENCE, lambda: answer() == framed("10.0.2.0/24 198.51.100.0/24"))
    expect(one.door.status()["faults"], [], "what is wrong")
    one.nrtm.most = 10
    wait_until("a fault", PATIENCE, lambda: one.door.status()["faults"])
    faults = one.door.status()["faults"]
    expect("view ALL: RIPE is not renewed since 20" in faults[0], True, faults[0])
    text = b"password: bc\n\nroute: 203.0.113.0/24\norigin: AS2\nmnt-by: ROOT-MNT\nsource: TEST\n"
    expect(one.world.tool("submit", "-", stdin=text).status, 0, "a route")
    three = framed("10.0.2.0/24 198.51.100.0/24 203.0.113.0/24")
    wait_until("the other source", PATIENCE, lambda: answer() == three)
    one.nrtm.most = None
    wait_until("that all is well", PATIENCE, lambda: not one.door.status()["faults"])
    # A stop of the view: it serves what it had before its sources answer.
    one.process.send_signal(signal.SIGKILL)
    one.process.wait()
    one.nrtm.most = 10
    words = [sys.executable, one.tool.path, "view", str(one.settings)]
    with running(words, one.log, env=one.world.tool.environment):
        wait_until("that it is back", PATIENCE, lambda: answer() == three)
        # The second replica follows the first, which answers by then.
        for port in one.ports:
            wait_until(f"the replica at {port}", PATIENCE, lambda: has_changed(port))
        count = reported_by(one.log).count("irr view: RIPE: ")
    expect(os.path.exists(one.folder / "view" / "sources" / "RIPE" / "now"), True, "its folder")
    tell(f"{count} renewals")


def test_a_view_may_be_what_is_asked_without_a_source(trial: Trial, tool: Tool) -> None:
    with Served(trial, tool, "ALL").open() as one:
        expect(one.whois("!s-lc"), framed("TEST,RIPE"), "what is asked")
        expect("AS-X" in one.whois("object as-set AS-X"), True, "the registry's own query")
        expect(one.asked("TEST", "!s-lc"), "C\n" + framed("TEST"), "one that is named")


def test_a_list_of_sources_is_answered_by_these_alone(trial: Trial, tool: Tool) -> None:
    """While one replica has them in another order than the other one, and after that: also those
    that were named before."""
    with Served(trial, tool, "TEST").open() as one:
        first, other = framed("10.0.1.0/24 198.51.100.0/24"), framed("10.0.1.0/24")
        asked = "!a4AS1:AS-ALL"
        question = f"{asked}\n".encode()
        with socket.create_connection(("127.0.0.1", one.door.whois_port)) as peer:
            lines = peer.makefile("rb")

            def told() -> bytes:
                return b"".join(iter(lines.readline, b"C\n"))

            peer.sendall(b"!!\n!sTEST,RIPE\n" + question)
            expect((told(), told()), (b"", first.encode()[:-2]), "the sources in their order")
            one.process.kill()
            one.process.wait()
            one.files.texts["/ripe.db"] = AS_X + AS_FAR + AS_ALL + route(1, 3).encode()
            head, own, ripe = one.settings.read_text().split("[[source]]")
            head = head.replace("pause = 1", "pause = 3600")
            one.settings.write_text("[[source]]".join([head, ripe, own]))
            shutil.rmtree(one.folder / "view/sources/RIPE")
            view = [sys.executable, one.tool.path, "view", str(one.settings)]
            with running(view, one.log, env=one.world.tool.environment):
                moved = one.ports[0]
                wait_until("one that has moved", PATIENCE, lambda: is_of_ripe(moved))
                expect(is_of_ripe(one.ports[1]), False, "the other one")
                known = "there is TEST and ALL (its sources change just now)"
                for sources in "TEST,RIPE", "RIPE,TEST":
                    words = f"F One or more selected sources are unavailable: {sources}; {known}\n"
                    own = framed("198.51.100.0/24")
                    expect(one.asked(sources, asked), words + own, sources)
                    status = one.door.http("GET", f"/views/{sources}/query/AS-X")[0]
                    expect(status, 404, f"{sources} by HTTP")
                expect(one.door.http("GET", STATE)[0], 503, "its state")
                expect(one.door.http("GET", "/views/ALL/query/AS-X")[0], 200, "by its name")
                peer.sendall(question)
                expect(lines.readline()[:14], b"F TEST,RIPE: t", "what was named before")
            one.settings.write_text(one.settings.read_text().replace("3600", "1"))
            with running(view, one.log, env=one.world.tool.environment):
                wait_until("the order", PATIENCE, lambda: other in one.asked("RIPE,TEST", asked))
                peer.sendall(question)
                expect(lines.readline()[:14], b"F TEST,RIPE: t", "once all have moved")

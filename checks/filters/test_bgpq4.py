"""What bgpq4 makes of a registry through the door, in each format; that routers read it."""

import contextlib
import os
import shutil
import signal
import threading
from collections.abc import Callable, Iterator
from typing import Any

import pytest

from checks.door.opened import Bridge
from checks.filters.filtering import (
    FORMATS,
    SET,
    TAIL,
    Canned,
    address,
    ask,
    bgpq4,
    bridge_of,
    expect_refused,
    inside,
    of_lists,
    path_numbers,
    program,
    sets_of_chance,
    worked,
)
from checks.model.registry import Registry
from checks.running import AUTH, Ran, Skipped, Tell, Trial, expect, run, write, write_settings
from checks.serving import Server, free_port
from checks.worlds import COUNT, Tool

IN_MEMORY, SECONDS = True, 80
# The lists of AS numbers, and of AS paths, that bgpq4 makes.
LISTS = [["-t", "-j"], ["-f", "65001"], ["-G", "65001"]]
AS_SET = "AS1:AS-CUSTOMERS"
# An answer of each kind, and what no registry says; which of them a query never has.
SPACE = b"inetnum:        0.0.0.0 - 255.255.255.255\n" + TAIL
LIES = {
    "empty": b"% empty\n",
    "numbers": b"AS1\nAS2\n",
    "ranges": b"10.0.0.0/8^+\n",
    "an object": SPACE,
    "a route of another": b"route:          10.0.0.0/8\norigin:         AS7\n" + TAIL,
    "text": b"hello\n",
    "RPSL": b"route: 10.0.0.0/8\norigin: AS9\n\n",
    "a number too great": b"AS1\nAS4294967296\n",
    "another order": b"10.1.0.0/16\n10.0.0.0/8\n",
    "twice": b"AS1\nAS1\n",
    "a bad length": b"10.0.0.0/33\n",
    "a bad operator": b"10.0.0.0/8^33\n",
    "another spelling": b"10.0.0.0/8^8-32\n",
}
CAN_BE: dict[str, list[str]] = {
    "AS9": [],
    "AS-X": ["empty"],
    "RS-X": ["empty", "ranges"],
    "-t -j AS-X": ["empty", "numbers"],
}


class Absent(threading.Thread):
    """A call of bgpq4 while no registry is there, which takes half a minute; and one while it comes
    only after some seconds."""

    def __init__(self, trial: Trial, given: Tool) -> None:
        super().__init__(daemon=True)
        self.trial, self.given = trial, given
        self.bridge: Bridge | None = None
        self.ran: Ran | None = None
        self.start()

    def run(self) -> None:
        port = free_port()
        with contextlib.suppress(Skipped):
            self.bridge = bridge_of(self.given.at(IRR_SERVER=f"http://127.0.0.1:{port}"))
            with self.bridge as bridge:
                self.ran = bgpq4(bridge, "-j", "AS1")

    def stop(self) -> None:
        """Ends the door too where the other checks were over sooner: it would outlive them."""
        number = getattr(self.bridge, "number", None)
        if self.is_alive() and number:
            os.kill(number, signal.SIGKILL)


@pytest.fixture(scope="module", autouse=True)
def call(trial: Trial, tool: Tool) -> Iterator[Absent]:
    """A call of bgpq4 that takes half a minute, which begins before the other checks."""
    begun = Absent(trial, tool)
    yield begun
    begun.stop()


def test_bgpq4_prints_each_format_which_routers_read(trial: Trial, tool: Tool, tell: Tell) -> None:
    """What bgpq4 prints of the worked set in each format, and that BIRD, FRR and OpenBGPD read
    it."""
    with (
        worked(tool, trial, "lists") as (tool, folder, server),
        bridge_of(tool) as port,
    ):
        wanted = {
            SET: inside(ask(server, "prefixes", SET)),
            AS_SET: inside(ask(server, "prefixes", AS_SET)),
            "AS1": {(10 << 24, 16)},
        }
        for name, prefixes in wanted.items():
            for words in FORMATS:
                if name == SET and "-A" not in words:
                    # Without -A each prefix of a range is a line: 200,000 of them.
                    continue
                ran = bgpq4(port, "-4", "-l", "NAME", *words, name)
                expect((ran.status, ran.reported), (0, b""), f"{words} {name}")
                expect(of_lists(ran.printed), prefixes, f"the prefixes of {words} {name}")
        for name, numbers in [(AS_SET, {1, 2}), ("AS1:AS-TAKES", {1, 2, 7})]:
            for words in (
                ["-t", "-j"],
                ["-t", "-b"],
                ["-f", "65001"],
                ["-G", "65001"],
                ["-L", "3", "-t", "-j"],
            ):
                ran = bgpq4(port, *words, name)
                expect(
                    (ran.status, ran.reported, path_numbers(ran.printed)),
                    (0, b"", numbers),
                    f"{words} {name}",
                )
        expect(
            of_lists(bgpq4(port, "-j", "-S", "TEST", "AS1").printed), wanted["AS1"], "with -S TEST"
        )
        expect(
            of_lists(bgpq4(port, "-T", "-j", AS_SET, "EXCEPT", "AS2").printed),
            wanted["AS1"],
            "without AS2",
        )
        expect(of_lists(bgpq4(port, "-6", "-j", AS_SET).printed), set(), "IPv6")
        few = of_lists(bgpq4(port, "-A", "-j", "-l", "NAME", "-m", "32", SET).printed)
        expect(few < wanted[SET], True, "whether -m 32 leaves some out, as FILTERS warns")
        told = []
        for router, words in [
            ("bird", ["-b", "-l", "define NAME"]),
            ("frr", ["-l", "NAME"]),
            ("openbgpd", ["-B", "-E", "-l", "NAME"]),
            ("openbgpd", ["-B", "-l", "NAME"]),
        ]:
            told += [router] * read_by(router, folder, bgpq4(port, "-4", "-A", *words, SET).printed)
    tell(f"{len(FORMATS)} formats; read by {', '.join(dict.fromkeys(told))}")


def read_by(router: str, folder: str, text: bytes) -> bool:
    """Whether the router is here; that it reads a list, and that its reader finds a fault in one
    that is cut."""
    commands = {
        "bird": [program("bird"), "-p", "-c"],
        "frr": [program("vtysh"), "-C", "-f"],
        "openbgpd": ["/usr/sbin/bgpd", "-n", "-f"],
    }
    around = {
        "bird": b"router id 192.0.2.1;\nprotocol device { }\n",
        "frr": b"",
        "openbgpd": b"AS 64496\n",
    }
    command = commands[router]
    if not command[0] or not os.path.exists(command[0]):
        return False
    for given, is_good in [(text, True), (text[: text.rindex(b"/")], False)]:
        path = write(folder, f"{router}.conf", around[router] + given)
        os.chmod(path, 0o600)
        ran = run([*command, path], folder)
        expect(
            ran.status == 0, is_good, f"whether {router} reads {given[-200:]!r}: {ran.reported!r}"
        )
    return True


def test_bgpq4_makes_no_list_of_what_is_not_whole(trial: Trial, tool: Tool, tell: Tell) -> None:
    """A set that is missing, one that is incomplete, `% error 3`, a registry that has stopped: no
    list, and a status other than 0."""
    with worked(tool, trial, "faults", limit=3) as (tool, folder, server):
        with bridge_of(tool) as port:
            for words, reported in [
                (["AS1:AS-NONE"], "not registered"),
                (["AS1:AS-HALF"], "AS1:AS-GONE"),
                (["AS1:RS-HALF"], "AS1:RS-GONE"),
                ([SET], "% error 3"),
                (["AS1", "AS1:AS-HALF"], "AS1:AS-GONE"),
                (["AS1:AS-HALF", "AS1"], "AS1:AS-GONE"),
                (["-T", "AS1:AS-HALF", "AS1"], "AS1:AS-GONE"),
                (["-t", "-j", "AS1:AS-HALF"], "AS1:AS-GONE"),
                (["-f", "65001", "AS1:AS-NONE"], "not registered"),
                (["-S", "RIPE", "AS1"], "RIPE"),
                (["-A", "-b", "AS1:RS-GONE"], "not registered"),
            ]:
                expect_refused(bgpq4(port, *words), reported, " ".join(words))
        canned = {"LESS": [SPACE]}
        stops = {
            "% error 6": b"% error 6\n",
            "% error 4": b"% error 4\n",
            "nothing": b"",
            "a cut line": b"10.0.0.0/8\n10.",
            "text": b"hello\n",
        }
        for what, text in stops.items():
            with (
                Canned(canned | {name: [text] for name in ("AS-X", "RS-X", "ORIGIN")}) as url,
                bridge_of(tool.at(IRR_SERVER=url)) as port,
            ):
                for words in ["AS-X"], ["RS-X"], ["-t", "-j", "AS-X"], ["AS9"], ["AS9", "AS8"]:
                    expect_refused(bgpq4(port, *words), "", f"{what}: {words}")
        lies = 0
        for what, text in LIES.items():
            with (
                Canned(canned | {name: [text] for name in ("AS-X", "RS-X", "ORIGIN")}) as url,
                bridge_of(tool.at(IRR_SERVER=url)) as port,
            ):
                for asked in [asked for asked, true in CAN_BE.items() if what not in true]:
                    expect_refused(
                        bgpq4(port, *asked.split()), "answers what no registry", f"{what}: {asked}"
                    )
                    lies += 1
    tell(f"{11 + 5 * len(stops) + lies} calls")


def test_bgpq4_makes_no_list_where_no_registry_is(trial: Trial, call: Absent, tell: Tell) -> None:
    call.join(180)
    if call.ran is None:
        raise Skipped("bgpq4 is not here (Debian's package of this name)")
    expect_refused(call.ran, "does not answer", "no registry")
    tell("no list")


def test_lists_of_registries_by_chance_are_what_the_registry_answers(
    trial: Trial, tool: Tool, tell: Tell
) -> None:
    """Registries of sets by chance: cycles, operators, missing names, members by reference."""
    if not program("bgpq4"):
        raise Skipped("bgpq4 is not here (Debian's package of this name)")
    chance, counts, most = trial.chance("by chance"), {"whole": 0, "refused": 0}, trial.pick(1, 3)
    registries, number = trial.count or trial.pick(4, 500), 0
    # Some more where chance gives sets of one kind alone.
    while number < registries or number < registries + 40 and not min(counts.values()):
        registry = Registry(auth=AUTH.encode())
        names = sets_of_chance(chance, registry)
        folder = trial.place(f"chance-{number}")
        write_settings(folder, limit=400)
        expect(
            trial.run(folder, "load", "s.toml", write(folder, "dump.rpsl", registry.dump())).status,
            0,
            "load",
        )
        with (
            Server(trial.program, folder, COUNT) as server,
            Bridge(address(server)) as port,
        ):
            # In the long form each registry meets all formats.
            for place, name in enumerate(names):
                for turn in range(most):
                    words = FORMATS[(number + most * place + turn) % len(FORMATS)]
                    compared(
                        server,
                        port,
                        name,
                        ["-p", "-l", "NAME", *words],
                        "prefixes",
                        of_lists,
                        counts,
                        number,
                    )
                if ":AS-" in name:
                    compared(
                        server,
                        port,
                        name,
                        ["-p", *LISTS[(number + place) % len(LISTS)]],
                        "expand",
                        path_numbers,
                        counts,
                        number,
                    )
        shutil.rmtree(folder)
        number += 1
    expect(min(counts.values()) > 0, True, f"whether there are sets of both kinds: {counts}")
    tell(
        f"{number} registries of seed {trial.seed}: {counts['whole']} lists alike,"
        f" {counts['refused']} refused as the registry does"
    )


def compared(
    server: Server,
    port: int,
    name: str,
    words: list[str],
    query: str,
    read: Callable[[bytes], set[Any]],
    counts: dict[str, int],
    number: int,
) -> None:
    """That a list is what the registry answers, or that there is none where the answer is not
    whole."""
    answer, ran, what = (
        ask(server, query, name),
        bgpq4(port, *words, name),
        f"registry {number}: {words} {name}",
    )
    if answer.startswith(b"% error") or answer == b"% no entries\n" or b"% missing" in answer:
        counts["refused"] += 1
        return expect_refused(ran, "", f"{what}: {answer[-60:]!r}")
    counts["whole"] += 1
    expect((ran.status, ran.reported), (0, b""), what)
    if query == "prefixes":
        wanted: set[Any] = inside(answer)
    else:
        wanted = {int(line[2:]) for line in answer.split() if line.startswith(b"AS")}
    expect(read(ran.printed), wanted, what)


def test_a_set_of_many_routes_is_listed_whole(trial: Trial, tool: Tool, tell: Tell) -> None:
    """A set of many routes, with each format, and an AS of all of them."""
    count = trial.pick(2_000, 100_000)
    folder, registry = trial.place("many"), Registry(auth=AUTH.encode())
    write_settings(folder, limit=1_000_000)
    dump = registry.dump()
    rest = [
        b"aut-num: AS1\nmnt-by: ROOT-MNT\nsource: TEST\n",
        b"as-set: AS1:AS-ALL\nmembers: AS1\nmnt-by: ROOT-MNT\nsource: TEST\n",
    ]
    rest += [
        b"route: %d.%d.%d.0/24\norigin: AS1\nmnt-by: ROOT-MNT\nsource: TEST\n"
        % (11 + number // 65_536, number // 256 % 256, number % 256)
        for number in range(0, 2 * count, 2)
    ]
    expect(
        trial.run(
            folder,
            "load",
            "s.toml",
            write(folder, "dump.rpsl", dump + b"\n" + b"\n".join(rest)),
            timeout=900,
        ).status,
        0,
        "load",
    )
    with (
        Server(trial.program, folder, COUNT, patience=300) as server,
        bridge_of(tool.at(IRR_SERVER=address(server))) as port,
    ):
        wanted = inside(ask(server, "prefixes", "AS1:AS-ALL"))
        expect(len(wanted), count, "the routes")
        for name in "AS1:AS-ALL", "AS1":
            for words in FORMATS if trial.long else [["-j"]]:
                expect(
                    of_lists(bgpq4(port, "-l", "NAME", *words, name).printed) == wanted,
                    True,
                    f"whether {words} {name} has all",
                )
    tell(f"{count:,} routes")

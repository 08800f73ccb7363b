"""bgpq4 in front of a registry, what it prints as sets of prefixes or AS numbers; a worked registry
and those of sets by chance; servers that answer what they are given; routers that run."""

import contextlib
import ipaddress
import json
import os
import random
import re
import shutil
import socket
import subprocess
import threading
import time
from collections.abc import Callable, Iterator
from urllib.parse import unquote

from checks.door.opened import Bridge
from checks.model.registry import Registry
from checks.running import (
    PATIENCE,
    TOP,
    Failure,
    Ran,
    Skipped,
    Trial,
    expect,
    run,
    write,
    write_settings,
)
from checks.serving import Server, accepted
from checks.worlds import COUNT, Tool

Prefixes = set[tuple[int, int]]
SET = "AS1:RS-CUSTOMERS"
# The last lines of an object.
TAIL = b"mnt-by:         A-MNT\nsource:         TEST\n\n"
# What the worked registry has besides customers.rpsl.
WIDE = b"""password: bc
password: c

route-set: AS1:RS-WIDE
members: 0.0.0.0/0^0-32, 10.0.0.0/8
mnt-by: A-MNT
source: TEST

aut-num: AS7
member-of: AS1:AS-TAKES
mnt-by: A-MNT
source: TEST

as-set: AS1:AS-TAKES
members: AS1, AS1:AS-CUSTOMERS
mbrs-by-ref: A-MNT
mnt-by: A-MNT
source: TEST

as-set: AS1:AS-HALF
members: AS1, AS1:AS-GONE
mnt-by: A-MNT
source: TEST
"""
# The formats of bgpq4 whose lists are read here.
FORMATS: list[list[str]] = [
    ["-j"],
    ["-j", "-A"],
    ["-b"],
    ["-b", "-A"],
    ["-J"],
    ["-J", "-E", "-A"],
    [],
    ["-A"],
    ["-s", "-A"],
    ["-X", "-A"],
    ["-B"],
    ["-B", "-E", "-A"],
]
PATHS = os.environ["PATH"] + ":/usr/sbin"
# That of FRR, which is none of PATH.
FRR = "/usr/lib/frr/bgpd"
# A prefix with the lengths after it, in each of the formats.
LIST = re.compile(
    r"([0-9]+\.[0-9]+\.[0-9]+\.[0-9]+)/([0-9]+)(?:\{([0-9]+),([0-9]+)\}| prefix-length-range"
    r" /([0-9]+)-/([0-9]+)| upto /([0-9]+)"
    r"| prefixlen ([0-9]+) - ([0-9]+)| prefixlen = ([0-9]+)|( or-longer)|(?: ge ([0-9]+))?(?: eq"
    r" ([0-9]+))?(?: le ([0-9]+))?)"
)


def program(name: str) -> str | None:
    """The path of a program, which may stand where root's do; nothing where it is not here."""
    return shutil.which(name, path=PATHS)


def bgpq4(port: int, *words: str) -> Ran:
    """A run of bgpq4 on the bridge."""
    return run([program("bgpq4"), "-h", f"127.0.0.1:{port}", *words], "/", timeout=6 * PATIENCE)


def address(server: Server) -> str:
    return f"http://127.0.0.1:{server.port}"


def bridge_of(asked: Tool) -> Bridge:
    """The port at which bgpq4 asks what a tool does."""
    if not program("bgpq4"):
        raise Skipped("bgpq4 is not here (Debian's package of this name)")
    return Bridge(asked.environment["IRR_SERVER"])


@contextlib.contextmanager
def worked(
    tool: Tool, trial: Trial, name: str, limit: int = 10_000
) -> Iterator[tuple[Tool, str, Server]]:
    """The registry of checks/filters/customers.rpsl and a few objects more, while it is served; the
    tool that asks it, and its folder."""
    folder = trial.place(name)
    write_settings(folder, limit=limit)
    for words in (
        ["init", "s.toml"],
        ["submit", "s.toml", os.path.join(TOP, "checks", "filters", "customers.rpsl")],
        ["submit", "s.toml", write(folder, "wide.rpsl", WIDE)],
    ):
        expect(trial.run(folder, *words).status, 0, " ".join(words))
    with Server(trial.program, folder, COUNT) as server:
        yield tool.at(IRR_SERVER=address(server)), folder, server


def ask(server: Server, *words: str) -> bytes:
    """The registry's own answer."""
    return server.ask(" ".join(words).encode() + b"\n")


def expect_refused(ran: Ran, reported: str, what: str) -> None:
    """That bgpq4 ended with a status other than 0, without a list, and reported why."""
    if (
        ran.status == 0
        or ran.printed
        or b"ERROR" not in ran.reported
        or reported.encode() not in ran.reported
    ):
        raise Failure(
            f"{what}: status {ran.status}, printed {ran.printed[:200]!r}, reported {ran.reported!r}"
        )


def spread(network: ipaddress.IPv4Network, low: int, high: int) -> Prefixes:
    """The prefixes of these lengths inside a network, as first addresses and lengths."""
    first, size = int(network.network_address), network.num_addresses
    return {
        (first + step, length)
        for length in range(max(low, network.prefixlen), high + 1)
        for step in range(0, size, 1 << 32 - length)
    }


def inside(answer: bytes) -> Prefixes:
    """The prefixes of an expansion's ranges (RFC 2622, 2)."""
    found = set()
    for line in answer.decode().split("\n"):
        if not line or line.startswith("%"):
            continue
        text, _, rest = line.partition("^")
        network = ipaddress.IPv4Network(text)
        least = network.prefixlen
        low, high = {"": (least, least), "+": (least, 32), "-": (least + 1, 32)}.get(rest) or (
            int(rest.split("-")[0]),
            int(rest.split("-")[-1]),
        )
        found |= spread(network, low, high)
    return found


def of_lists(printed: bytes) -> Prefixes:
    """The prefixes that a list of bgpq4 takes, in any format."""
    text, found = printed.decode(), set()
    if text.startswith("{"):
        for entry in json.loads(text)["NN" if '"NN"' in text else "NAME"]:
            network = ipaddress.IPv4Network(entry["prefix"])
            low = entry.get("greater-equal", network.prefixlen)
            high = network.prefixlen if entry["exact"] else entry.get("less-equal", 32)
            found |= spread(network, low, high)
        return found
    for line in text.split("\n"):
        if re.search(r"\bdeny\b", line):
            continue
        for match in LIST.finditer(line):
            network = ipaddress.IPv4Network(f"{match[1]}/{match[2]}")
            least, (lows, highs) = network.prefixlen, (
                [match[3], match[5], match[8]],
                [match[4], match[6], match[9]],
            )
            low, high = next(
                ((int(one), int(two)) for one, two in zip(lows, highs) if one), (least, least)
            )
            if match[7]:
                high = int(match[7])
            if match[10]:
                low = high = int(match[10])
            if match[11]:
                high = 32
            if match[12]:
                low, high = int(match[12]), 32
            if match[13]:
                low = high = int(match[13])
            if match[14]:
                high = int(match[14])
            found |= spread(network, low, high)
    return found


def path_numbers(printed: bytes) -> set[int]:
    """The AS numbers of a list of AS numbers, or at the ends of AS paths."""
    text = printed.decode()
    if "as-path" not in text:
        return {int(number) for number in re.findall(r"(?<![0-9.\w])[0-9]+(?![0-9.])", text)}
    # `^65001(_65001)*$` stands for 65001 itself; in other lines the last parts are the numbers.
    found = set()
    for line in text.split("\n"):
        if "permit" not in line or "deny" in line:
            continue
        own = re.search(r"permit \^([0-9]+)\(_\1\)\*\$", line) or re.search(
            r"permit \^\(_([0-9]+)\)\*\$", line
        )
        found |= (
            {int(own[1])}
            if own
            else {int(number) for number in re.search(r"_\(([0-9|]+)\)\$", line)[1].split("|")}
        )
    return found


def sets_of_chance(chance: random.Random, registry: Registry) -> list[str]:
    """Fills a registry with AS numbers, routes and sets, which name one another, and gives the
    names of the sets."""
    numbers = chance.sample(range(1, 64_000), 8)
    as_sets = [f"AS{chance.choice(numbers)}:AS-S{place}" for place in range(5)]
    route_sets = [f"AS{chance.choice(numbers)}:RS-S{place}" for place in range(5)]
    texts = [
        f"aut-num: AS{number}\n{member_of(chance, as_sets)}mnt-by: ROOT-MNT\nsource: TEST\n"
        for number in numbers
    ]
    for place in range(24):
        length = chance.randint(24, 30)
        first = (
            chance.randrange(1 << 8) << 8 + 16 | 10 << 24 | chance.randrange(1 << 8)
        ) & 0xFFFFFFFF
        prefix = ipaddress.ip_network((first >> 32 - length << 32 - length, length))
        texts.append(
            f"route: {prefix}\norigin:"
            f" AS{chance.choice(numbers)}\n{member_of(chance, route_sets)}mnt-by: ROOT-MNT\nsource:"
            " TEST\n"
        )
    for names, kind in (as_sets, "as-set"), (route_sets, "route-set"):
        for name in names:
            members = chance.sample(numbers, 2)
            listed = [f"AS{number}" for number in members] + chance.sample(
                as_sets, chance.randint(0, 2)
            )
            if kind == "route-set":
                listed = [
                    item + operator(chance)
                    for item in listed + chance.sample(route_sets, chance.randint(0, 2))
                ]
                listed += [
                    f"203.0.113.{chance.randrange(0, 256, 8)}/29{operator(chance, 29)}"
                    for _ in range(chance.randint(0, 3))
                ]
            if chance.random() < 0.15:
                listed.append(f"{name.split(':')[0]}:{'AS' if kind == 'as-set' else 'RS'}-GONE")
            by_reference = chance.choice(["", "", "mbrs-by-ref: ROOT-MNT\n", "mbrs-by-ref: ANY\n"])
            texts.append(
                f"{kind}: {name}\nmembers: {', '.join(listed)}\n{by_reference}mnt-by:"
                " ROOT-MNT\nsource: TEST\n"
            )
    report = registry.submit(("password: bc\n\n" + "\n".join(texts)).encode())
    expect([line for line in report if "refused E0" in line], [], "items that are badly spelled")
    return as_sets + route_sets


def member_of(chance: random.Random, names: list[str]) -> str:
    return (
        f"member-of: {', '.join(chance.sample(names, chance.randint(1, 2)))}\n"
        if chance.random() < 0.4
        else ""
    )


def operator(chance: random.Random, length: int = 24) -> str:
    """An operator of a range that leaves no more than some hundred prefixes."""
    low = chance.randint(length, 32)
    return chance.choice(["", "", "^-", "^+", f"^{low}", f"^{low}-{chance.randint(low, 32)}"])


class Canned:
    """The address of a registry that answers a query by its last word, or by its second where that
    is the kind, from lists by turns."""

    def __init__(
        self,
        answers: dict[str, list[bytes]],
        head: bytes = b"HTTP/1.1 200 OK\r\nContent-Type: text/plain\r\nConnection: close\r\n\r\n",
    ) -> None:
        self.answers, self.head = answers, head
        self.turns: dict[str, int] = {}
        self.listener = socket.create_server(("127.0.0.1", 0))

    def serve(self) -> None:
        for peer in accepted(self.listener):
            with peer:
                asked = peer.recv(65_536)
                is_http = asked.startswith(b"GET ")
                while is_http and b"\r\n\r\n" not in asked and (part := peer.recv(65_536)):
                    asked += part
                text = asked.split(b" ")[1].decode() if is_http else asked.decode()
                words = unquote(text.removeprefix("/query/")).upper().split()
                name = next((word for word in reversed(words) if word in self.answers), "")
                answers, turn = self.answers.get(name, [b"% no entries\n"]), self.turns.get(name, 0)
                self.turns[name] = turn + 1
                head = self.head if is_http else b""
                peer.sendall(head + answers[turn % len(answers)])

    def __enter__(self) -> str:
        threading.Thread(target=self.serve, daemon=True).start()
        return f"http://127.0.0.1:{self.listener.getsockname()[1]}"

    def __exit__(self, *_: object) -> None:
        self.listener.close()


@contextlib.contextmanager
def started(command: list[str], folder: str, file: str) -> Iterator[None]:
    """A router that runs, once this file of its is there."""
    process = subprocess.Popen(
        command,
        cwd=folder,
        stdin=subprocess.DEVNULL,
        stdout=subprocess.DEVNULL,
        stderr=subprocess.DEVNULL,
    )
    try:
        end = time.monotonic() + 60
        while not os.path.exists(os.path.join(folder, file)):
            if time.monotonic() > end or process.poll() is not None:
                raise Failure(f"{command[0]} did not start")
            time.sleep(0.05)
        yield
    finally:
        process.kill()
        process.wait()


@contextlib.contextmanager
def frr(folder: str, path: str) -> Iterator[Callable[..., bytes]]:
    """FRR with the settings of a file: what it prints when it is asked by vtysh."""
    place = os.path.join(folder, "vty")
    os.mkdir(place)
    words = ["-n", "-S", "-P", "0", "-p", "0", "--vty_socket", place, "-z", f"{folder}/none"]
    command = [FRR, *words, "-i", f"{folder}/bgpd.pid", "-f", path]
    with started(command, folder, "vty/bgpd.vty"):

        def vtysh(*asked: str) -> bytes:
            commands = [word for one in asked for word in ("-c", one)]
            shell = [program("vtysh"), "--vty_socket", place, "-d", "bgpd"]
            return run([*shell, *commands], folder).printed

        yield vtysh

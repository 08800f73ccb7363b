"""Registries of sets by chance, inside one prefix, served to a test; and what lists say."""

import contextlib
import functools
import json
import os
import re
import subprocess
import tempfile
from collections.abc import Iterator
from pathlib import Path

from hypothesis import strategies as st

from checks import models, rpsl
from checks.door.opened import Bridge
from checks.models import OUTER
from checks.rpsl import Choices, Object, Prefix, Registry
from checks.serving import Serving
from checks.worlds import COUNT
from irr.registry.server import Server

NUMBERS = ("AS11", "AS12", "AS13", "AS14", "AS15")
AS_SETS = ("AS-A", "AS-B", "AS11:AS-C", "AS-A:AS-D", "AS-A:AS12")
ROUTE_SETS = ("RS-A", "RS-B", "AS11:RS-C", "RS-A:RS-D", "RS-A:AS12")
MAINTAINERS = ("ROOT-MNT", "A-MNT", "B-MNT")
OPERATORS = ("", "", "", "^+", "^-", "^24", "^24-26", "^23-32", "^30", "^22", "^26-28")
SETTINGS = 'source = "TEST"\nroot = "ROOT-MNT"\nauth = "%s"\nlimit = 100000\nstore = "irr.db"\n'
# A prefix with its lengths, as each router writes it.
PREFIX = r"(\d+\.\d+\.\d+\.\d+/\d+)"
BIRD = re.compile(PREFIX + r"(?:\{(\d+),(\d+)\})?")
FRR = re.compile(r"permit " + PREFIX + r"(?: ge (\d+))?(?: le (\d+))?")
OPENBGPD = re.compile(
    PREFIX
    + r"(?: or-longer| maxlen (\d+)| prefixlen = (\d+)| prefixlen >= (\d+)"
    + r"| prefixlen (\d+) - (\d+))?"
)


def any_prefix(chance: Choices, longest: int = 30) -> str:
    return rpsl.prefix_text(rpsl.any_prefix(chance, OUTER, longest))


def any_member(chance: Choices, kind: str) -> str:
    turn = chance.below(4)
    if kind == "as-set":
        return chance.of(NUMBERS if turn < 2 else (*AS_SETS, *AS_SETS, "AS-GONE", "AS-ANY"))
    operator = chance.of(OPERATORS)
    if turn == 0:
        return any_prefix(chance) + operator
    if turn == 1:
        return chance.of(NUMBERS) + operator
    return chance.of((*ROUTE_SETS, *ROUTE_SETS, *AS_SETS, "RS-GONE", "RS-ANY")) + operator


def any_object(chance: Choices, *key: tuple[str, str]) -> Object:
    kind = key[0][0]
    found = [*key]
    if kind in ("aut-num", "route") and chance.one_in(2):
        sets = chance.some((*AS_SETS, *ROUTE_SETS), 1, 3)
        found.append(("member-of", ", ".join(sets)))
    if kind in rpsl.SETS:
        for _ in range(chance.below(4)):
            members = [any_member(chance, kind) for _ in range(1 + chance.below(3))]
            found.append(("members", ", ".join(members)))
        if chance.one_in(2):
            takers = chance.some((*MAINTAINERS, "ANY"), 1, 2)
            found.append(("mbrs-by-ref", ", ".join(takers)))
    if kind == "mntner":
        found.append(("auth", rpsl.auth(key[0][1])))
    found.append(("mnt-by", ", ".join(dict.fromkeys(chance.some(MAINTAINERS, 1, 2)))))
    return Object((*found, ("source", "TEST")))


def any_registry(chance: Choices) -> Registry:
    keys: list[tuple[tuple[str, str], ...]] = [(("mntner", name),) for name in sorted(MAINTAINERS)]
    keys += [(("as-block", "AS0 - AS65535"),), (("as-block", "AS65536 - AS4294967295"),)]
    keys += [(("aut-num", number),) for number in sorted(chance.distinct(NUMBERS, 6))]
    keys += [(("inetnum", "0.0.0.0 - 255.255.255.255"),)]
    routes = {(any_prefix(chance), chance.of(NUMBERS)) for _ in range(chance.below(12))}
    keys += [
        (("route", prefix), ("origin", origin))
        for prefix, origin in sorted(
            routes, key=lambda one: (models.read_prefix(one[0]), int(one[1][2:]))
        )
    ]
    for kind, names in (("as-set", AS_SETS), ("route-set", ROUTE_SETS)):
        keys += [((kind, name),) for name in sorted(chance.distinct(names, 6))]
    return Registry(tuple(any_object(chance, *key) for key in keys))


@functools.cache
def registries() -> st.SearchStrategy[Registry]:
    """Registries of five AS numbers, some routes inside the outer prefix, and sets that list one
    another, what is not there, and members by reference."""
    return rpsl.drawn(any_registry, 700)


def respelled(registry: Registry) -> Registry:
    """The same registry with leading zeros and small letters in the lists of sets."""
    return Registry(
        tuple(
            Object(
                tuple(
                    (name, re.sub("AS(1[1-5])", r"as0\1", value) if name == "members" else value)
                    for name, value in held.attributes
                )
            )
            for held in registry.objects
        )
    )


# Served.


@contextlib.contextmanager
def served(program: str, registry: Registry) -> Iterator[Server]:
    """A registry while it is served."""
    with tempfile.TemporaryDirectory(prefix="irrdesk-") as folder:
        Path(folder, "s.toml").write_text(SETTINGS % rpsl.auth("ROOT-MNT"))
        Path(folder, "dump").write_text(registry.text())
        done = subprocess.run(
            [program, "load", "s.toml", "dump"], cwd=folder, capture_output=True, check=False
        )
        assert done.returncode == 0, (done.stderr, registry.text())
        with Serving([program], folder, COUNT) as serving:
            yield Server(f"http://127.0.0.1:{serving.port}")


def bridge(place: Server) -> Bridge:
    """The port at which bgpq4 asks a registry."""
    return Bridge(place.url)


def bgpq4(port: int, *words: str) -> subprocess.CompletedProcess[str]:
    return subprocess.run(
        ["bgpq4", "-h", f"127.0.0.1:{port}", "-4", *words],
        capture_output=True,
        text=True,
        timeout=60,
        check=False,
    )


# Lists.


def answered(lines: list[str]) -> int:
    """What the lines of an expansion take."""
    found = 0
    for line in lines:
        front, hat, rest = line.partition("^")
        found |= models.operated(hat + rest, 1 << models.node_of(models.read_prefix(front)))
    return found


def taken(router: str, text: str) -> int:
    """What a list takes, as its router reads its syntax."""
    found: list[tuple[Prefix, int, int]] = []
    for match in {"bird": BIRD, "frr": FRR, "openbgpd": OPENBGPD}[router].finditer(text):
        prefix = models.read_prefix(match[1])
        low, high = prefix[1], prefix[1]
        if router == "bird" and match[2]:
            low, high = int(match[2]), int(match[3])
        elif router == "frr" and (match[2] or match[3]):
            low, high = int(match[2] or low), int(match[3] or 32)
        elif router == "openbgpd":
            most, only, least, first, last = (
                int(word) if word else None for word in match.groups()[1:]
            )
            if "or-longer" in match[0]:
                high = 32
            elif most is not None:
                high = most
            elif only is not None:
                low = high = only
            elif least is not None:
                low, high = least, 32
            elif first is not None and last is not None:
                low, high = first, last
        found.append((prefix, low, high))
    return models.bits_of(found)


def judged_by_bird(lists: list[tuple[str, int]]) -> str:
    """What BIRD itself says of lists that are called L0, L1, .. and of what they have to take:
    nothing where it takes just this, of all prefixes."""
    lines = ["router id 192.0.2.9;", "protocol device { }"]
    for place, (text, bits) in enumerate(lists):
        lines += [
            text,
            f"function judged{place}(prefix p; bool wanted; int nought)",
            "int found;",
            "{ found = 0;",
            f"  if (p ~ L{place}) then found = 1;",
            "  if wanted then found = 1 - found;",
            "  if found = 0 then return 1;",
            "  return 1 / nought; }",
        ]
        for node in models.all_nodes():
            prefix, is_wanted = rpsl.prefix_text(models.prefix_of(node)), bool(bits >> node & 1)
            lines.append(
                f"define T{place}_{node} = judged{place}({prefix}, {json.dumps(is_wanted)}, 0);"
            )
    return read_by(["bird", "-p", "-c"], "\n".join(lines) + "\n")


def read_by(command: list[str], text: str) -> str:
    """What a router's reader says of a configuration that it does not take; nothing of a good
    one."""
    with tempfile.TemporaryDirectory(prefix="irrdesk-") as folder:
        path = Path(folder, "conf")
        path.write_text(text)
        path.chmod(0o600)
        environment = dict(os.environ) | {"PATH": os.environ["PATH"] + ":/usr/sbin"}
        done = subprocess.run(
            [*command, str(path)], capture_output=True, text=True, env=environment, check=False
        )
        return "" if done.returncode == 0 else done.stderr + done.stdout or "it says nothing"


def shown_by_openbgpd(text: str) -> str:
    """A configuration as OpenBGPD writes it once it has read it."""
    with tempfile.TemporaryDirectory(prefix="irrdesk-") as folder:
        path = Path(folder, "conf")
        path.write_text("AS 64496\n" + text)
        path.chmod(0o600)
        done = subprocess.run(
            ["/usr/sbin/bgpd", "-nv", "-f", str(path)], capture_output=True, text=True, check=False
        )
        assert done.returncode == 0, (text, done.stderr)
        return done.stdout

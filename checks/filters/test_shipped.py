"""The settings of filters that are shipped, where a set that is reached is not registered."""

import os
import re
import sys
from collections.abc import Iterator
from pathlib import Path

import pytest

from checks import rpsl
from checks.door.opened import Bridge
from checks.filters import registries
from checks.rpsl import Object, Registry
from checks.running import TOP, needs
from checks.worlds import Tool
from irr.registry.server import Server

OLD = "define CUSTOMERS = [ 192.0.2.0/24 ];\n"
OWN = (("mnt-by", "A-MNT"), ("source", "TEST"))
SHIPPED = Path(TOP, "units/filters.toml").read_text(encoding="utf-8")


def registry(*members: str) -> Registry:
    """A registry of a route and the set of the example."""
    found = [
        (("mntner", "A-MNT"), ("auth", rpsl.auth("A-MNT"))),
        (("mntner", "ROOT-MNT"), ("auth", rpsl.auth("ROOT-MNT"))),
        (("as-block", "AS0 - AS4294967295"),),
        (("aut-num", "AS64496"),),
        (("inetnum", "0.0.0.0 - 255.255.255.255"),),
        (("route", "192.0.2.0/24"), ("origin", "AS64496")),
        (("as-set", "AS64496:AS-CUSTOMERS"), ("members", ", ".join(members))),
    ]
    return Registry(tuple(Object((*pairs, *OWN)) for pairs in found))


@pytest.fixture(name="half")
def served_half(program: str) -> Iterator[Server]:
    with registries.served(program, registry("AS64496", "AS64496:AS-GONE")) as place:
        yield place


def made(tool: Tool, folder: Path, server: Server, text: str) -> tuple[int, bytes, str]:
    """The status of `irr filter --settings`, what it says, and the file then."""
    bin_folder, path = folder / "bin", folder / "customers.conf"
    bin_folder.mkdir(exist_ok=True)
    (bin_folder / "irr").write_text(f'#!/bin/sh\nexec {sys.executable} {tool.path} "$@"\n')
    (bin_folder / "irr").chmod(0o755)
    path.write_text(OLD)
    settings = folder / "filters.toml"
    settings.write_text(text.replace("/var/lib/irrdesk-filters", str(folder)))
    where = f"{bin_folder}:{os.environ['PATH']}:/usr/sbin"
    ran = tool.at(IRR_SERVER=server.url, PATH=where)("filter", "--settings", str(settings))
    return ran.status, ran.reported, path.read_text()


def by_bgpq4(port: int) -> str:
    """The shipped settings with the command of bgpq4 in place of the other."""
    text = re.sub("(?m)^make = .*\n# (make = .*bgpq4)", r"\1 -p", SHIPPED)
    return text.replace("-h 127.0.0.1 ", f"-h 127.0.0.1:{port} ")


@needs("bird")
def test_the_shipped_filter_is_not_made_without_a_set_that_is_reached(
    tool: Tool, tmp_path: Path, half: Server
) -> None:
    status, reported, kept = made(tool, tmp_path, half, SHIPPED)
    assert (status, kept) == (1, OLD)
    assert b"not registered: AS64496:AS-GONE" in reported


@needs("bird")
def test_the_shipped_filter_is_made_of_a_whole_set(
    tool: Tool, tmp_path: Path, program: str
) -> None:
    with registries.served(program, registry("AS64496")) as place:
        status, reported, found = made(tool, tmp_path, place, SHIPPED)
    assert (status, reported, registries.BIRD.findall(found)) == (
        0,
        b"",
        [("192.0.2.0/24", "24", "24")],
    )


@needs("bird")
@needs("bgpq4")
def test_the_shipped_command_of_bgpq4_needs_a_strict_door(
    tool: Tool, tmp_path: Path, half: Server
) -> None:
    """As the comment there says. The journal names the set that is missing."""
    with Bridge(half.url) as port:
        status, reported, kept = made(tool, tmp_path, half, by_bgpq4(port))
        assert (status, kept) == (1, OLD)
        assert b"AS64496:AS-GONE" in reported
    with Bridge(half.url, strict=False) as port:
        status, reported, found = made(tool, tmp_path, half, by_bgpq4(port))
        assert (status, reported) == (0, b"") and "192.0.2.0/24" in found and found != OLD

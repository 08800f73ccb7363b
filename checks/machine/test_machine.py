"""The package, its units and a registry in a whole machine: Debian with systemd, which qemu runs,
and beside it some whose power is cut. The disk is made by debootstrap once, in out/machine, or for
the long form in out/machine-long, or in the folder of --image, and each run works on copies. With
--container the same systemd runs in namespaces of this system's kernel: that is quick, and no power
can be cut. The checks go on one after the other in one machine."""

import argparse
import os
from collections.abc import Iterator
from typing import Any

import pytest

from checks.machine import guest
from checks.machine.contained import Contained
from checks.machine.failures import Failures
from checks.machine.outages import Fleet
from checks.machine.sandbox import Sandbox
from checks.machine.service import Service
from checks.machine.timers import Timers
from checks.package.packages import lintian_is_silent, make_release
from checks.running import TOP, Tell, Trial

# It takes all of the machine.
pytestmark = pytest.mark.alone
IN_MEMORY = 4 << 30
LONG = pytest.mark.long
# What is done in the machine, in this order.
STEPS = [
    pytest.param("service", "boot", id="a boot"),
    pytest.param("service", "installed", id="apt install"),
    pytest.param("service", "removed_empty", id="a purge without a registry"),
    pytest.param("service", "set_up", id="irr setup and irr check"),
    pytest.param("service", "upgraded", id="an upgrade of what is served"),
    pytest.param("service", "served", id="whois, HTTP and a submission"),
    pytest.param("service", "stopped_midway", id="a restart in mid-submission"),
    pytest.param("service", "counted", id="the end of the count"),
    pytest.param("service", "wrong_settings", id="wrong settings"),
    pytest.param("service", "held", id="a database that another process has"),
    pytest.param("service", "disk_full", id="a full disk and the check"),
    pytest.param("service", "checked", id="the timer of the check"),
    pytest.param("service", "door", id="the door and 64 clients"),
    pytest.param("timers", "refused", id="a door that refuses its settings"),
    pytest.param("timers", "asked_on", id="an upgrade while clients ask"),
    pytest.param("service", "past", id="the history of an object through the door"),
    pytest.param("service", "analysed", id="systemd-analyze"),
    pytest.param("service", "rebooted", id="a reboot"),
    pytest.param("sandbox", "outside", id="outside the sandbox", marks=LONG),
    pytest.param("sandbox", "inside", id="inside the sandbox", marks=LONG),
    pytest.param("timers", "dumped", id="the dump by its timer", marks=LONG),
    pytest.param("timers", "backup", id="a backup by its timer", marks=LONG),
    pytest.param("timers", "restored", id="a restored backup", marks=LONG),
    pytest.param("timers", "history", id="the history by its timer", marks=LONG),
    pytest.param("timers", "mirror", id="replicas", marks=LONG),
    pytest.param("timers", "view", id="a view", marks=LONG),
    pytest.param("timers", "moved", id="a move to a second machine", marks=LONG),
    pytest.param("timers", "filters", id="filters by their timer", marks=LONG),
    pytest.param("timers", "mirrors", id="the dump and the serials for mirrors", marks=LONG),
    pytest.param("timers", "released", id="each released package, and back", marks=LONG),
    pytest.param("timers", "untouched", id="what all this left", marks=LONG),
    pytest.param("timers", "mailed", id="who did what, and mail of it", marks=LONG),
    pytest.param("failures", "exposed", id="a certificate by ACME", marks=LONG),
    pytest.param("failures", "prepared", id="nothing wrong", marks=LONG),
    pytest.param("failures", "certificate", id="a certificate near its end", marks=LONG),
    pytest.param("failures", "backup", id="an old backup", marks=LONG),
    pytest.param("failures", "replica", id="old replicas", marks=LONG),
    pytest.param("failures", "mirror", id="a mirror that is behind", marks=LONG),
    pytest.param("failures", "disk", id="a disk that is full, as it is watched", marks=LONG),
    pytest.param("failures", "clock", id="a backup of the future", marks=LONG),
    pytest.param("failures", "memory", id="memory near its bound", marks=LONG),
    pytest.param("failures", "year", id="a year of timers", marks=LONG),
    pytest.param("failures", "over", id="what the failures left", marks=LONG),
    pytest.param("service", "taken_away", id="a removal, a purge and a new installation"),
]


@pytest.fixture(scope="module")
def options(pytestconfig: pytest.Config) -> argparse.Namespace:
    """The options of a run, if this system can run the machine in time."""
    given = pytestconfig.option
    if lacking := guest.lacking(given.container):
        pytest.skip(lacking)
    if not given.long and not given.count and len(os.sched_getaffinity(0)) < 4:
        pytest.skip("with fewer than four processors it takes half an hour: give it --count 5")
    return given


@pytest.fixture(scope="module")
def package(trial: Trial, options: argparse.Namespace) -> str:
    return make_release(trial.program, trial.place("package"))


@pytest.fixture(scope="module")
def image(options: argparse.Namespace) -> guest.Image:
    """The machine's disk, which has more in the long form."""
    folder, more = ("machine-long", guest.PROXY) if options.long else ("machine", [])
    made = guest.Image(options.image or os.path.join(TOP, "out", folder), more)
    made.figures = made.make()
    return made


@pytest.fixture(scope="module")
def fleet(
    trial: Trial, options: argparse.Namespace, image: guest.Image, package: str
) -> Iterator[Any]:
    """Machines whose power is cut meanwhile; none in a container."""
    if options.container:
        yield None
        return
    made = Fleet(trial, image, package, trial.pick(2, 1), trial.count or trial.pick(5, 100))
    yield made
    made.end()


@pytest.fixture(scope="module")
def parts(
    trial: Trial, options: argparse.Namespace, image: guest.Image, package: str, fleet: Fleet | None
) -> Iterator[Any]:
    """The machine, and what is looked at in it."""
    kind = Contained if options.container else guest.Guest
    service = Service(trial, image, package, kind)
    kinds = {"sandbox": Sandbox, "timers": Timers, "failures": Failures}
    yield {"service": service} | {name: kind(service) for name, kind in kinds.items()}
    service.end()


def test_lintian_finds_nothing_in_the_package(package: str, tell: Tell) -> None:
    tell(lintian_is_silent(package))


def test_the_disk_of_the_machine_is_made(image: guest.Image, tell: Tell) -> None:
    tell(image.figures)


@pytest.mark.parametrize("part, step", STEPS)
def test_the_machine_does_as_it_should(
    parts: dict[str, Any], part: str, step: str, tell: Tell
) -> None:
    if step != "boot" and parts["service"].guest is None:
        pytest.fail("there is no machine, because it did not boot")
    tell(getattr(parts[part], step)())


def test_releases_make_way_for_this_one_and_back(
    trial: Trial, options: argparse.Namespace, image: guest.Image, package: str, tell: Tell
) -> None:
    """That an upgrade, and the way back, keep registry, settings and units, with the last package
    of each minor version, in a container. In the long form the machine has each package."""
    if options.long:
        pytest.skip("the machine has each of them")
    if lacking := guest.lacking(in_container=True):
        pytest.skip(lacking)
    service = Service(trial, image, package, Contained)
    try:
        service.boot()
        made = "irr setup --yes --source TEST --save root.password --no-replicas"
        service.guest.done(f"apt-get install --yes /run/given/irrdesk.deb; {made}", seconds=600)
        tell(Timers(service).released(is_short=True))
    finally:
        service.end()


def test_what_was_reported_stands_after_the_power_was_cut(fleet: Fleet | None, tell: Tell) -> None:
    if fleet is None:
        pytest.skip("a container has no power")
    tell(fleet.seen())

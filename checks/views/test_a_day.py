"""A day of an exchange: members' lists by bgpq4, filters, what says why, and mirrors outside, over
three registries that change, while each part is stopped; all beside an expansion of the check's
own."""

import contextlib
import json
import os
import random
import shutil
import signal
import subprocess
from collections.abc import Callable, Iterator

import pytest

from checks import models, rpsl
from checks.filters.filtering import path_numbers
from checks.running import Tell, Trial, expect
from checks.views import merged
from checks.views.day import FORMATS, NUMBERS, SOURCES, Day, Lists, held_still, taken
from checks.worlds import Tool

IN_MEMORY = True
SECONDS = 60
pytestmark = pytest.mark.skipif(not shutil.which("bgpq4"), reason="bgpq4 is not here")
# So many lines has each look at the lists, and so many registries the long form in all.
LINES, REGISTRIES = 20, 1_000


class Looks:
    """What is asked by members and looked at, and how often."""

    def __init__(self, day: Day, chance: random.Random) -> None:
        self.day, self.chance = day, chance
        self.counts = dict.fromkeys(("lists", "empty", "numbers", "filters", "chains"), 0)

    def lists(self, now: Lists) -> None:
        """Twenty lines of scripts, each format with some set."""
        formats = list(FORMATS)
        for words in formats[:LINES]:
            name = self.chance.choice(now.names)
            done = self.day.bgpq4(words, name)
            expect((done.returncode, done.stderr), (0, b""), f"{words} {name}")
            wanted = now.prefixes(name, FORMATS[words])
            expect(taken(words, done.stdout) == wanted, True, f"{words} {name}: {done.stdout!r}")
            self.counts["lists"] += 1
            self.counts["empty"] += not wanted

    def unanswered(self, now: Lists) -> None:
        """While no view answers there is no list, and never another one."""
        name = self.chance.choice(now.names)
        done = self.day.bgpq4("-A -l NAME", name)
        if done.returncode == 0:
            expect(taken("-A", done.stdout) == now.prefixes(name, 0), True, f"{done}")
        else:
            expect(b"permit" in done.stdout, False, f"{done}")

    def numbers(self, now: Lists) -> None:
        for words in NUMBERS[:2]:
            name = self.chance.choice([one for one in now.names if "RS-" not in one] or ["AS11"])
            if name == "AS11" or "AS-ANY" in now.model.reached(name):
                continue
            done = self.day.bgpq4(words, name)
            expect(done.returncode, 0, f"{words} {name}: {done}")
            text = done.stdout.partition(b"[")[2]
            expect(path_numbers(text), now.numbers(name), f"{words} {name}: {done.stdout!r}")
            self.counts["numbers"] += 1

    def filters(self, now: Lists) -> None:
        """`irr filter --settings` over the view, each read by its router."""
        whole = [name for name in now.names if now.prefixes(name, 0)]
        if not whole:
            return
        place = f"http://127.0.0.1:{self.day.own.door.http_port}/views/{SOURCES}"
        names = {router: self.chance.choice(whole) for router in ("bird", "frr")}
        parts = []
        for router, name in names.items():
            path = self.day.folder / f"{router}.conf"
            make = f"{self.day.tool.path} filter -m -s {place} {router} NAME {name} -"
            parts.append(f'[[filter]]\nfile = "{path}"\nrouter = "{router}"\nmake = "{make}"\n')
        settings = self.day.folder / "filters.toml"
        settings.write_text("\n".join(parts))
        ran = self.day.tool("filter", "--accept", "--settings", str(settings))
        expect(ran.status, 0, f"the filters: {ran.reported!r}")
        for router, name in names.items():
            text = (self.day.folder / f"{router}.conf").read_bytes()
            expect(taken("", text) == now.prefixes(name, 0), True, f"{router} {name}: {text!r}")
            heads = [f"source {one}, state " in text.decode() for one in merged.SOURCES]
            expect(heads, [True] * 3, f"what it was made of: {text[:400]!r}")
            expect(b"ROAs, state " in text, bool(self.day.roas), "the ROAs")
            self.counts["filters"] += 1

    def why(self, now: Lists) -> None:
        """`irr why` at the view's own port names the source of each step."""
        name = self.chance.choice(now.names)
        nodes = models.nodes_in(now.prefixes(name, 0))[:40]
        if not nodes:
            return
        prefix = rpsl.prefix_text(models.prefix_of(self.chance.choice(nodes)))
        place = f"http://127.0.0.1:{self.day.ports[0]}"
        ran = self.day.tool("why", "--json", "-s", place, prefix, name)
        expect(ran.status, 0, f"{prefix} {name}: {ran.reported!r}")
        for chain in json.loads(ran.printed)["chains"]:
            for step in chain:
                wanted = now.source_of.get(step["object"], "")
                expect(step.get("source", ""), wanted, f"{step} of {prefix} {name}")
            self.counts["chains"] += 1


@pytest.fixture(scope="module")
def day(trial: Trial, tool: Tool) -> Iterator[Day]:
    with Day(trial, tool, "day", trial.chance("day")) as one:
        yield one


@contextlib.contextmanager
def halted(
    process: subprocess.Popen[bytes], number: int, begin: Callable[[], object]
) -> Iterator[None]:
    """While a process stands still, or has ended by this signal; it is begun again then."""
    if number == signal.SIGSTOP:
        with held_still(process.pid):
            yield
        return
    process.send_signal(number)
    process.wait()
    yield
    begin()


def registry(day: Day, number: int) -> contextlib.AbstractContextManager[None]:
    return halted(day.own.server.process, number, day.own.restart_registry)


def door(day: Day, number: int) -> contextlib.AbstractContextManager[None]:
    return halted(day.own.door.process, number, day.own.door.__enter__)


@contextlib.contextmanager
def view(day: Day, number: int) -> Iterator[None]:
    assert day.process
    if number == signal.SIGSTOP:
        with held_still(day.process.pid):
            yield
        return
    day.end_view(number)
    yield
    day.start_view()


@contextlib.contextmanager
def replica(day: Day, number: int) -> Iterator[None]:
    one = day.replica()
    if number == signal.SIGSTOP:
        with held_still(one):
            yield
        return
    os.kill(one, number)
    yield


@contextlib.contextmanager
def followed(day: Day, number: int) -> Iterator[None]:
    """The registry that is followed by version 3, whose answers are cut off, or end."""
    day.nrtm.most = 30 if number == signal.SIGSTOP else 0
    yield
    day.nrtm.most = None


@contextlib.contextmanager
def published(day: Day, number: int) -> Iterator[None]:
    """The files of version 4, which are gone, or cut off."""
    kept = dict(day.files.texts)
    if number == signal.SIGSTOP:
        day.files.is_cut = True
    else:
        day.files.texts.clear()
    yield
    day.files.is_cut = False
    day.files.texts.update(kept | day.files.texts)


PARTS: dict[str, Callable[[Day, int], "contextlib.AbstractContextManager[None]"]] = {
    "registry": registry,
    "door": door,
    "view": view,
    "replica": replica,
    "version 3": followed,
    "version 4": published,
}
# While one of these is stopped all else changes. A change starts the registry again itself; and
# where no door asks, a view waits long before it ends a replica.
MEANWHILE = {"view", "replica", "version 3", "version 4"}
WAYS = [signal.SIGKILL, signal.SIGSTOP, signal.SIGTERM]


def test_lists_mirrors_and_filters_while_each_part_is_stopped(
    day: Day, trial: Trial, tell: Tell
) -> None:
    """Each part in one way in the short form, and in each way in the long one."""
    chance = trial.chance("stops")
    looks = Looks(day, chance)
    now = Lists(day.several())
    day.settle(now.merged)
    day.need_mirrors()
    for look in looks.lists, looks.numbers, looks.filters, looks.why:
        look(now)
    turns = trial.pick(1, 3)
    stops = [
        (part, WAYS[(place + turn) % 3])
        for turn in range(turns)
        for place, part in enumerate(PARTS)
    ]
    for part, way in stops:
        with PARTS[part](day, way):
            if part == "view":
                looks.unanswered(now)
            elif part != "door":
                looks.lists(now)
            if part in MEANWHILE:
                day.change()
        if part not in MEANWHILE:
            day.change()
        now = Lists(day.several())
        day.settle(now.merged)
        day.need_mirrors()
        for look in looks.lists, looks.numbers, looks.filters, looks.why:
            look(now)
    told = ", ".join(f"{name} {count}" for name, count in looks.counts.items())
    tell(f"{len(stops)} stops; {told}")


def test_lists_are_those_of_the_merged_objects(day: Day, trial: Trial, tell: Tell) -> None:
    """Of random registries of three sources."""
    looks = Looks(day, trial.chance("days"))
    turns = trial.count or trial.pick(2, REGISTRIES // len(merged.SOURCES) + 1)
    for turn in range(turns):
        day.change()
        now = Lists(day.several())
        day.settle(now.merged)
        for look in looks.lists, looks.numbers, looks.why:
            look(now)
        if turn % 10 == 0:
            day.need_mirrors()
            looks.filters(now)
    told = ", ".join(f"{name} {count}" for name, count in looks.counts.items())
    tell(f"{3 * turns} registries; {told}")

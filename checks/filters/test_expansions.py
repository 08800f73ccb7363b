"""Filters of registries by chance, by `irr filter` and by bgpq4 through the door, beside what the
sets stand for by RFC 2622; BIRD and OpenBGPD say themselves what they take."""

import argparse
import contextlib
import io
import itertools
import os
import shutil

import pytest
from hypothesis import Phase, given, settings
from hypothesis import strategies as st

from checks import models
from checks.filters import registries
from checks.filters.registries import taken
from checks.models import Expansion
from checks.rpsl import Registry, until_seen
from checks.running import Failure as Few
from checks.running import Trial, needs
from irr.commands import filter as filters
from irr.errors import DONE, REFUSED, Failure
from irr.filters import lists
from irr.registry.server import Server

LONG = bool(os.environ.get("CHECKS_LONG"))
# How bgpq4 writes a list that is called L0 for each router, with and without ranges on one line.
ROUTERS = {
    "bird": ["-b", "-l", "define L0"],
    "frr": ["-s", "-l", "L0"],
    "openbgpd": ["-B", "-E", "-l", "L0"],
}
OPTIONS: list[list[str]] = [
    [],
    ["-A"],
    ["-A", "-T"],
    ["-R", "26"],
    ["-A", "-R", "28"],
    ["-A", "-m", "26"],
]
DEEP = ["-L", "9"]


def made(place: Server, *words: str) -> tuple[int, str]:
    """The status of `irr filter` with these words, and what it prints."""
    parser, printed = argparse.ArgumentParser(), io.StringIO()
    filters.arguments(parser)
    options = parser.parse_args(["-s", place.url, "--widest", "0", *words])
    with contextlib.redirect_stdout(printed), contextlib.redirect_stderr(io.StringIO()):
        try:
            return filters.run(options), printed.getvalue()
        except Failure as failure:
            return failure.status, printed.getvalue()


def names_of(model: Expansion) -> list[str]:
    return [*model.sets, "AS-ANY", "RS-ANY"]


def test_irr_filter_is_the_expansion(program: str, trial: Trial) -> None:
    seen = {"whole": 0, "missing": 0, "empty": 0}

    @settings(max_examples=1_000 if LONG else 20, deadline=None)
    @given(registries.registries())
    def holds(registry: Registry) -> None:
        model = Expansion(registry)
        judged: list[tuple[str, int]] = []
        with registries.served(program, registry) as place:
            for name in names_of(model):
                wanted, missing = model.prefixes(name), model.missing(name)
                kind = "empty" if not wanted else "missing" if missing else "whole"
                seen[kind] += 1
                for router in "bird", "frr":
                    status, _ = made(place, router, "X", name, "-")
                    assert status == (DONE if kind == "whole" else REFUSED), name
                    status, text = made(place, "-m", router, "X", name, "-")
                    assert (status == DONE) == bool(wanted)
                    assert taken(router, text) == wanted, (name, text)
                    need_read(router, text, wanted)
                    if router == "bird" and wanted:
                        judged.append((text.replace(" X ", f" L{len(judged)} "), wanted))
        if shutil.which("bird") and judged:
            assert not registries.judged_by_bird(judged if LONG else judged[:2])

    until_seen(holds, seen, 1, trial.seed)


def need_read(router: str, text: str, wanted: int) -> None:
    """That the guard against lists that shrink reads what the list takes."""
    found = [((one.first, one.length), one.low, one.high) for one in lists.entries(router, text)]
    assert models.bits_of(found) == wanted


@needs("bgpq4")
def test_bgpq4_is_the_expansion(program: str, trial: Trial) -> None:
    seen = {"whole": 0, "refused": 0}
    turns = itertools.cycle((router, options) for options in OPTIONS for router in ROUTERS)

    @settings(max_examples=1_000 if LONG else 20, deadline=None)
    @given(registries.registries())
    def holds(registry: Registry) -> None:
        model = Expansion(registry)
        with registries.served(program, registry) as place, registries.bridge(place) as port:
            names = list(model.sets)
            for name in names if LONG else names[:3]:
                router, options = next(turns)
                wanted = refined(model.prefixes(name), options)
                done = registries.bgpq4(port, *ROUTERS[router], *options, name)
                if model.missing(name):
                    assert done.returncode and not done.stdout and "not registered" in done.stderr
                    seen["refused"] += 1
                else:
                    assert (done.returncode, done.stderr) == (0, ""), (name, options)
                    need_taken(router, done.stdout, wanted)
                    seen["whole"] += 1

    until_seen(holds, seen, 4, trial.seed)


@needs("bgpq4")
def test_bgpq4_by_steps_is_the_expansion_of_numbers(program: str, trial: Trial) -> None:
    """With -L bgpq4 asks for the members of each as-set, and for the routes of each AS: a route
    that names an as-set by `member-of` is not in it then."""
    seen = {"whole": 0, "refused": 0}

    @settings(max_examples=1_000 if LONG else 20, deadline=None)
    @given(registries.registries())
    def holds(registry: Registry) -> None:
        model = Expansion(registry)
        with registries.served(program, registry) as place, registries.bridge(place) as port:
            for held in registry.of("as-set")[: None if LONG else 2]:
                done = registries.bgpq4(port, *ROUTERS["frr"], "-A", *DEEP, held.key)
                reached = model.reached(held.key)
                if model.missing(held.key) or "AS-ANY" in reached:
                    assert done.returncode and not done.stdout, held.key
                    seen["refused"] += 1
                else:
                    wanted = 0
                    for number in model.expanded(held.key):
                        wanted |= model.of_number(number)
                    assert (done.returncode, done.stderr) == (0, "")
                    need_taken("frr", done.stdout, wanted)
                    seen["whole"] += 1

    until_seen(holds, seen, 4, trial.seed)


@needs("bgpq4")
def test_bgpq4_leaves_out_what_is_excepted(program: str, trial: Trial) -> None:
    """With EXCEPT bgpq4 asks step by step too, and takes out texts: members that are spelled with
    leading zeros or in small letters have to be answered as everybody writes them."""
    seen = {"whole": 0, "refused": 0, "less": 0}
    names = st.sampled_from([*registries.NUMBERS, *registries.AS_SETS])

    @settings(max_examples=1_000 if LONG else 20, deadline=None)
    @given(registries.registries(), st.lists(names, min_size=1, max_size=3))
    def holds(registry: Registry, excepted: list[str]) -> None:
        model, spelled = Expansion(registry), registries.respelled(registry)
        with registries.served(program, spelled) as place, registries.bridge(place) as port:
            for held in registry.of("as-set")[: None if LONG else 2]:
                without = [name for name in excepted if name != held.key]
                words = ["EXCEPT", *without] if without else DEEP
                done = registries.bgpq4(port, *ROUTERS["frr"], "-A", held.key, *words)
                reached = model.reached(held.key, without)
                if "AS-ANY" in reached or not all(map(model.is_there, reached)):
                    assert done.returncode and not done.stdout, held.key
                    seen["refused"] += 1
                else:
                    numbers = model.expanded(held.key, without)
                    wanted = 0
                    for number in numbers:
                        wanted |= model.of_number(number)
                    assert (done.returncode, done.stderr) == (0, "")
                    need_taken("frr", done.stdout, wanted)
                    seen["less" if numbers != model.expanded(held.key) else "whole"] += 1

    until_seen(holds, seen, 4, trial.seed)


def test_a_trial_without_cases_of_a_kind_is_refused() -> None:
    """It is tried with other examples before that, as often as is said."""
    tried: list[bytes] = []

    @settings(max_examples=5, phases=[Phase.generate])
    @given(st.binary(min_size=8, max_size=8))
    def holds(data: bytes) -> None:
        tried.append(data)

    with pytest.raises(Few, match="3 turns have less than 2 cases of a kind"):
        until_seen(holds, {"whole": 9, "less": 1}, 2, 1, turns=3)
    assert len(tried) == 15 and len(set(tried)) > 10
    until_seen(holds, {"whole": 9, "less": 2}, 2, 1)
    assert len(tried) == 20


def refined(bits: int, options: list[str]) -> int:
    """What bgpq4 makes of prefixes: with -R also those inside them up to a length, with -m none
    that are longer."""
    given_options = dict(zip(options, options[1:]))
    if "-m" in given_options:
        most = int(given_options["-m"])
        return sum(1 << node for node in models.nodes_in(bits) if models.prefix_of(node)[1] <= most)
    if "-R" not in given_options:
        return bits
    most, found = int(given_options["-R"]), bits
    for node in models.nodes_in(bits):
        found |= models.inside(node, models.prefix_of(node)[1], most)
    return found


def need_taken(router: str, text: str, wanted: int) -> None:
    """That a list of bgpq4 takes this, as it is written and as its router reads it."""
    assert taken(router, text) == wanted, text
    need_read(router, text, wanted)
    if not wanted:
        return
    if router == "openbgpd" and os.path.exists("/usr/sbin/bgpd"):
        assert taken(router, registries.shown_by_openbgpd(text)) == wanted, text
    elif router == "frr" and shutil.which("vtysh"):
        assert not registries.read_by(["vtysh", "-C", "-f"], text)
    elif router == "bird" and shutil.which("bird"):
        assert not registries.judged_by_bird([(text, wanted)])


def test_wrong_lists_are_found() -> None:
    """The models, and BIRD as it is asked, tell wrong lists from right ones."""
    assert models.operated("^24-25", 1 << 1) == models.inside(1, 24, 25) != models.inside(1, 24, 24)
    assert taken("bird", "10.0.0.0/24{24,25}") == models.inside(4, 24, 25)
    if shutil.which("bird"):
        text = "define L0 = [ 10.0.0.0/24{24,25} ];"
        assert not registries.judged_by_bird([(text, models.inside(4, 24, 25))])
        assert registries.judged_by_bird([(text, models.inside(4, 24, 26))])
        assert registries.judged_by_bird([(text, models.inside(4, 24, 24))])

"""What `irr why` says: chains, what is near, its status, and its bounds."""

import argparse
import json
import re
import time

import pytest

from irr.commands import why
from irr.errors import ARGUMENTS, DONE, REFUSED, Failure
from irr.registry import references
from irr.registry.answers import Answer
from irr.registry.references import References, Wanted, applied
from irr.registry.server import Server
from irr.rpsl import keys

END = "mnt-by:         {}\nsource:         TEST\n\n"


def made(text: str, by: str = "A-MNT") -> bytes:
    """An object of lines `name: value`."""
    lines = [line.strip().partition(": ") for line in text.strip().split("\n")]
    return (
        "".join(f"{name + ':':15} {value}\n" for name, _, value in lines) + END.format(by)
    ).encode()


ROUTE = made("route: 10.0.0.0/16\norigin: AS1")
INNER = made("route: 10.0.1.0/24\norigin: AS2", "B-MNT")
OBJECTS = {
    "less 10.0.0.0/16": ROUTE,
    "less 10.0.1.0/24": ROUTE + INNER,
    "less 10.0.1.0/25": ROUTE + INNER,
    "object aut-num AS1": made("aut-num: AS1\nmember-of: AS1:AS-B"),
    "object as-set AS1:AS-A": made("as-set: AS1:AS-A\nmembers: AS1, AS1:AS-B"),
    "object as-set AS1:AS-B": made("as-set: AS1:AS-B\nmbrs-by-ref: B-MNT, A-MNT", "B-MNT"),
    "object as-set AS1:AS-D": made("as-set: AS1:AS-D\nmbrs-by-ref: B-MNT\nmembers: AS-GONE"),
    "object route-set AS1:RS-A": made(
        "route-set: AS1:RS-A\nmembers: AS1:RS-B^24-25, 10.0.1.0/32^-"
    ),
    "object route-set AS1:RS-B": made("route-set: AS1:RS-B\nmembers: AS1:AS-A^+"),
    "object route-set AS1:RS-C": made("route-set: AS1:RS-C\nmembers: AS1:RS-C^-, 10.0.0.0/8"),
}


class Table(Server):
    """A registry that answers from a table."""

    def __init__(self, objects: dict[str, bytes]) -> None:
        super().__init__("http://127.0.0.1:1")
        self.table, self.count = objects, 0

    def query(self, *words: str | bytes) -> Answer:
        self.count += 1
        text = " ".join(map(str, words))
        return Answer(self.table.get(text, b"% no entries\n"), text)


@pytest.fixture(autouse=True)
def _registry(monkeypatch: pytest.MonkeyPatch) -> None:
    table = Table(OBJECTS)
    monkeypatch.setattr(Server, "from_options", lambda *_: table)


def run(*words: str) -> int:
    parser = argparse.ArgumentParser()
    why.arguments(parser)
    return why.run(parser.parse_args(words))


def test_chains(capsys: pytest.CaptureFixture[str]) -> None:
    assert run("10.0.1.0/25", "as1:rs-a") == DONE
    head, *lines = capsys.readouterr().out.split("\n")
    assert head == "10.0.1.0/25 is in AS1:RS-A, by 2 chains:"
    first = [
        ["route-set AS1:RS-A", "A-MNT", "members: AS1:RS-B^24-25", "10.0.0.0/16^24-25"],
        ["route-set AS1:RS-B", "A-MNT", "members: AS1:AS-A^+", "10.0.0.0/16^+"],
        ["as-set AS1:AS-A", "A-MNT", "members: AS1", "10.0.0.0/16"],
        ["aut-num AS1", "A-MNT", "origin", "10.0.0.0/16"],
        ["route 10.0.0.0/16 AS1", "A-MNT", "10.0.0.0/16"],
    ]
    by_reference = "mbrs-by-ref: A-MNT, and member-of names it"
    second = [
        *first[:2],
        ["as-set AS1:AS-A", "A-MNT", "members: AS1:AS-B", "10.0.0.0/16"],
        ["as-set AS1:AS-B", "B-MNT", by_reference, "10.0.0.0/16"],
        *first[3:],
    ]
    assert [re.split("  +", line.strip()) for line in lines] == [*first, [""], *second, [""]]


def test_what_is_near(capsys: pytest.CaptureFixture[str]) -> None:
    assert run("10.0.1.0/24", "AS1:AS-A") == REFUSED
    assert capsys.readouterr().out == (
        "10.0.1.0/24 is not in AS1:AS-A.\n"
        "The nearest that the set has is 10.0.0.0/16:\n"
        "  as-set AS1:AS-A        A-MNT  members: AS1  10.0.0.0/16\n"
        "  aut-num AS1            A-MNT  origin        10.0.0.0/16\n"
        "  route 10.0.0.0/16 AS1  A-MNT                10.0.0.0/16\n"
        "What is not in the set:\n"
        "  route 10.0.1.0/24 AS2  B-MNT  its origin is not in the set\n"
    )
    assert run("10.0.0.0/16", "AS1:AS-D") == REFUSED
    assert capsys.readouterr().out == (
        "10.0.0.0/16 is not in AS1:AS-D.\n"
        "What is not in the set:\n"
        "  route 10.0.0.0/16 AS1  A-MNT           its origin is not in the set\n"
        "  as-set AS-GONE         not registered  as-set AS1:AS-D lists it\n"
    )
    assert run("192.0.2.0/24", "AS1:AS-A") == REFUSED
    assert "No route covers it" in capsys.readouterr().out


def test_member_by_reference_that_is_not_taken() -> None:
    joins = made("aut-num: AS1\nmember-of: AS1:AS-D, AS1:AS-A")
    place = Table(OBJECTS | {"object aut-num AS1": joins})
    found = References(place, prefix("10.0.0.0/16"), "AS1:AS-D")
    assert not found.chains(10).first
    why_not = "its member-of names AS1:AS-D, whose mbrs-by-ref has none of its mnt-by"
    assert ("aut-num AS1", ["A-MNT"], why_not, "") in found.near()


def test_any() -> None:
    """AS-ANY is the registered aut-nums, and RS-ANY all routes."""
    place = Table(OBJECTS)
    for name, text, says in [
        ("AS-ANY", "10.0.0.0/16", ["every aut-num", "origin", ""]),
        ("AS-ANY", "10.0.1.0/24", []),
        ("RS-ANY", "10.0.0.0/16", ["every route", ""]),
        ("RS-ANY", "10.0.1.0/24", ["every route", ""]),
    ]:
        found = References(place, prefix(text), name).chains(10).first
        assert [step.says for chain in found for step in chain] == says


def test_a_route_joins_an_as_set() -> None:
    """A registry counts it, whatever its origin."""
    joins = made("route: 10.0.0.0/16\norigin: AS1\nmember-of: AS1:AS-D", "B-MNT")
    place = Table(OBJECTS | {"less 10.0.0.0/16": joins})
    (chain,) = References(place, prefix("10.0.0.0/16"), "AS1:AS-D").chains(10).first
    assert [step.name for step in chain] == ["as-set AS1:AS-D", "route 10.0.0.0/16 AS1"]


def test_names_are_compared_without_case() -> None:
    """As the registry compares them: members, and names in `member-of` and `mbrs-by-ref`."""
    spelt = {
        "object as-set AS1:AS-D": made("as-set: AS1:AS-D\nmbrs-by-ref: b-mnt\nmembers: as1:as-b"),
        "object as-set AS1:AS-B": made("as-set: AS1:AS-B\nmembers: as1"),
        "less 10.0.0.0/16": made("route: 10.0.0.0/16\norigin: as1\nmember-of: as1:As-d", "b-mnt"),
    }
    found = References(Table(OBJECTS | spelt), prefix("10.0.0.0/16"), "AS1:AS-D").chains(10)
    assert [[step.name for step in chain] for chain in found.first] == [
        ["as-set AS1:AS-D", "route 10.0.0.0/16 AS1"],
        ["as-set AS1:AS-D", "as-set AS1:AS-B", "aut-num AS1", "route 10.0.0.0/16 AS1"],
    ]


def test_a_range_of_nothing() -> None:
    place = Table(
        {"object route-set AS1:RS-E": made("route-set: AS1:RS-E\nmembers: 10.0.0.1/32^-")}
    )
    found = References(place, prefix("10.0.0.1/32"), "AS1:RS-E")
    assert not found.chains(10).first
    says = "its `members: 10.0.0.1/32^-` stands for nothing"
    assert found.near() == [("route-set AS1:RS-E", ["A-MNT"], says, "")]


def test_a_cycle_counts_where_it_is_needed() -> None:
    found = References(Table(OBJECTS), prefix("10.0.0.0/16"), "AS1:RS-C").chains(10)
    assert [len(chain) for chain in found.first] == [2] and not found.more
    assert [step.says for step in found.first[0]] == [
        "members: AS1:RS-C^-",
        "members: 10.0.0.0/8",
    ]


def test_the_nearest_is_the_longest_around() -> None:
    members = "members: 10.0.0.0/8, 10.0.0.0/20, 10.0.0.0/16, 10.0.1.0/25, AS1"
    place = Table(OBJECTS | {"object route-set AS1:RS-N": made(f"route-set: AS1:RS-N\n{members}")})
    found = References(place, prefix("10.0.1.0/24"), "AS1:RS-N")
    assert not found.chains(10).first
    assert [step.says for step in found.nearest()] == ["members: 10.0.0.0/20"]


def test_a_range_that_stands_is_nearer_than_one_of_which_nothing_is_left() -> None:
    sets = {"AS1:RS-N": "AS2^0, AS1:RS-M^0, AS1:RS-P", "AS1:RS-P": "AS1:RS-M", "AS1:RS-M": "AS1"}
    text = {
        f"object route-set {name}": made(f"route-set: {name}\nmembers: {members}")
        for name, members in sets.items()
    }
    found = References(Table(OBJECTS | text), prefix("10.0.1.0/24"), "AS1:RS-N")
    assert not found.chains(10).first
    # By the way on which it stands, which is not the shortest one.
    says = ["members: AS1:RS-P", "members: AS1:RS-M", "members: AS1", "origin", ""]
    assert [step.says for step in found.nearest()] == says
    assert found.nearest()[0].range_text() == "10.0.0.0/16"
    # Where nothing stands, it is told of what nothing is left.
    text["object route-set AS1:RS-N"] = made("route-set: AS1:RS-N\nmembers: AS1:RS-M^0, AS2^0")
    found = References(Table(OBJECTS | text), prefix("10.0.1.0/24"), "AS1:RS-N")
    assert [step.says for step in found.nearest()] == ["members: AS2^0", "origin", ""]
    assert found.nearest()[0].range is None


def test_json(capsys: pytest.CaptureFixture[str]) -> None:
    assert run("--json", "10.0.0.0/16", "AS1:AS-B") == DONE
    reported = json.loads(capsys.readouterr().out)
    assert reported["found"] and reported["all"] and not reported["more"] and not reported["near"]
    assert [step["object"] for step in reported["chains"][0]] == [
        "as-set AS1:AS-B",
        "aut-num AS1",
        "route 10.0.0.0/16 AS1",
    ]
    assert reported["chains"][0][0]["mnt-by"] == ["B-MNT"]
    assert run("--json", "10.0.1.0/24", "AS1:AS-B") == REFUSED
    reported = json.loads(capsys.readouterr().out)
    assert not reported["found"] and reported["near"][0]["object"] == "route 10.0.1.0/24 AS2"
    assert reported["nearest"][-1]["object"] == "route 10.0.0.0/16 AS1"


@pytest.mark.parametrize(
    ("words", "status"),
    [
        (["10.0.0.0/33", "AS1"], ARGUMENTS),
        (["10.0.0.0/8", "A-MNT"], ARGUMENTS),
        (["10.0.0.0/16", "AS-NONE"], REFUSED),
    ],
)
def test_bad_words(words: list[str], status: int) -> None:
    with pytest.raises(Failure) as raised:
        run(*words)
    assert raised.value.status == status


def layers(deep: int, wide: int) -> dict[str, bytes]:
    """Sets in layers, each of which lists all of the next layer; the last ones list AS1."""
    found = {}
    for layer in range(deep):
        below = [f"AS-L{layer + 1}-{n}" for n in range(wide)] if layer + 1 < deep else ["AS1"]
        for n in range(wide):
            name = f"AS-L{layer}-{n}"
            found[f"object as-set {name}"] = made(f"as-set: {name}\nmembers: {', '.join(below)}")
    return found


def test_many_chains_are_bounded(capsys: pytest.CaptureFixture[str]) -> None:
    place = Table(OBJECTS | layers(12, 4))
    start = time.process_time()
    found = References(place, prefix("10.0.0.0/16"), "AS-L0-0").chains(10)
    assert time.process_time() - start < 5
    assert len(found.first) == 10 and found.more and found.is_cut
    assert {len(chain) for chain in found.first} == {14}
    lines = list(why.lines(prefix("10.0.0.0/16"), "AS-L0-0", found, [], []))
    assert lines[0].startswith("10.0.0.0/16 is in AS-L0-0, by at least ")
    assert lines[-1].endswith("more, and perhaps others")
    few = References(Table(OBJECTS | layers(3, 4)), prefix("10.0.0.0/16"), "AS-L0-0").chains(10)
    assert (len(few.first), few.more, few.is_cut) == (10, 6, False)


def test_the_first_chain_is_found_whatever_it_takes(monkeypatch: pytest.MonkeyPatch) -> None:
    """Otherwise a prefix would be told not to be in a set that lists one, of many, so often."""
    monkeypatch.setattr(references, "MOST_PARTS", 20)
    below = ["RS-L1", "RS-L2", "RS-L3", "10.0.0.0/8"]
    for layer, name in enumerate(below):
        items = ", ".join(f"{name}^{low}-32" for low in range(1, 17))
        text = made(f"route-set: RS-L{layer}\nmembers: {items}")
        monkeypatch.setitem(OBJECTS, f"object route-set RS-L{layer}", text)
    found = References(Table(OBJECTS), prefix("10.0.0.0/16"), "RS-L0").chains(10)
    assert found.first and found.is_cut


def test_many_sets_are_bounded(monkeypatch: pytest.MonkeyPatch) -> None:
    monkeypatch.setattr(references, "MOST_ASKED", 20)
    place = Table(OBJECTS | layers(12, 4))
    with pytest.raises(Failure, match="over 20 objects are on the way"):
        References(place, prefix("10.0.0.0/16"), "AS-L0-0")
    assert place.count <= 24


def test_each_object_is_asked_for_once() -> None:
    place = Table(OBJECTS | layers(6, 4))
    References(place, prefix("10.0.0.0/16"), "AS-L0-0").chains(10)
    # Twice what is around the prefix, 21 sets, and the aut-num.
    assert place.count == 24


def test_what_is_wanted_is_what_operators_make() -> None:
    """A length is taken of what operators make of a range exactly where the range is what is wanted
    before them."""
    operators = ["", "^+", "^-", *(f"^{n}" for n in (0, 4, 6)), "^2-5", "^4-4", "^3-32"]
    for operator in operators:
        for other in operators:
            for length in (*range(8), 31, 32):
                wanted: Wanted | None = Wanted(length, True)
                for step in other, operator:
                    wanted = wanted.before(step) if wanted else None
                for low in (*range(8), 31, 32):
                    for high in (*range(low, 8), 32):
                        held = applied(operator, low, high)
                        last = applied(other, *held) if held else None
                        takes = last is not None and last[0] <= length <= last[1]
                        assert (wanted is not None and wanted.takes(low, high)) == takes


def prefix(text: str) -> keys.Prefix:
    found = keys.read_prefix(text)
    assert found
    return found


def test_a_source_is_named_in_a_view_alone(capsys: pytest.CaptureFixture[str]) -> None:
    """Elsewhere a comment on `source` is that of whoever wrote the object."""
    route = ROUTE.replace(b"TEST\n", b"TEST # RIPE\n")
    registry = Table({"less 10.0.0.0/16": route})
    for sources, wanted in [((), ""), (("TEST", "RIPE"), "RIPE"), (("TEST", "RADB"), "")]:
        prefix = keys.need_place("10.0.0.0/16")
        found = References(registry, prefix, 1, sources).chains(10).first
        assert [step.source for step in found[0]] == ["", wanted]
        (near,) = References(registry, prefix, 2, sources).near()
        assert (near.name, near.source) == ("route 10.0.0.0/16 AS1", wanted)


def test_what_is_near_in_a_view_has_its_source(
    capsys: pytest.CaptureFixture[str], monkeypatch: pytest.MonkeyPatch
) -> None:
    monkeypatch.setitem(OBJECTS, "less 10.0.1.0/24", ALL + of(ROUTE, "RADB") + of(INNER, "RIPE"))
    words = "  route 10.0.1.0/24 AS2 (RIPE)  B-MNT  its origin is not in the set\n"
    assert run("10.0.1.0/24", "AS1:AS-A") == REFUSED
    assert capsys.readouterr().out.endswith(f"What is not in the set:\n{words}")
    assert run("--json", "10.0.1.0/24", "AS1:AS-A") == REFUSED
    assert json.loads(capsys.readouterr().out)["near"][0]["source"] == "RIPE"


VIEW_ROOT = made("mntner: IRR-VIEW-MNT\nauth: # filtered", "IRR-VIEW-MNT")
ALL = made("inetnum: 0.0.0.0 - 255.255.255.255", "IRR-VIEW-MNT")


def of(text: bytes, source: str) -> bytes:
    """An object with a comment on its `source`."""
    return text.replace(b"TEST\n", b"TEST # " + source.encode() + b"\n")


@pytest.mark.parametrize("case", ["own", "of a source", "no view", "no root", "a route's text"])
def test_a_view_is_known_by_what_its_root_alone_can_write(case: str) -> None:
    """At a view's own port, where nobody tells its sources. Elsewhere anybody may write a
    comment."""
    route = of(ROUTE, "RADB")
    table = {
        "less 10.0.0.0/16": ALL + route,
        "object aut-num AS1": of(OBJECTS["object aut-num AS1"], "RIPE"),
    }
    if case != "own":
        around = of(ALL, "test").replace(b"IRR-VIEW-MNT", b"ROOT-MNT")
        table["less 10.0.0.0/16"] = around + route
    if case in ("of a source", "a route's text"):
        table["object mntner IRR-VIEW-MNT"] = VIEW_ROOT
    if case == "no view":
        table["less 10.0.0.0/16"] = ALL.replace(b"IRR-VIEW-MNT", b"ROOT-MNT") + route
        table["object mntner IRR-VIEW-MNT"] = VIEW_ROOT
    if case == "a route's text":
        forged = of(made("route: 10.0.0.0/16\norigin: AS9\ninetnum: 0.0.0.0/0"), "RIPE")
        plain = ALL.replace(b"IRR-VIEW-MNT", b"ROOT-MNT")
        table["less 10.0.0.0/16"] = plain + route + forged
    found = References(Table(table), prefix("10.0.0.0/16"), 1)
    (chain,) = found.chains(10).first
    wanted = ["RIPE", "RADB"] if case in ("own", "of a source") else ["", ""]
    assert [step.source for step in chain] == wanted

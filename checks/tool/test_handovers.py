"""What of an object is left to whom, where it is handed over or held."""

from collections.abc import Iterator
from types import SimpleNamespace
from typing import cast

import pytest

from checks.submissions.running import items_of
from irr.commands import held
from irr.errors import Failure
from irr.registry import answers
from irr.registry.handovers import Handover, Wanted, handed_over
from irr.registry.refusals import Reasons, span_of
from irr.rpsl import holders, keys, syntax
from irr.rpsl.keys import Key
from irr.rpsl.syntax import Paragraph

SPACE = """inetnum: 10.0.0.0/8
descr: a network
mnt-by: A-MNT
mnt-by: B-MNT
mnt-lower: A-MNT
mnt-routes: A-MNT ANY, B-MNT {10.0.0.0/8^+},
 C-MNT {}
source: TEST
"""
ROUTES = """route: 10.0.0.0/8
origin: AS1
mnt-by: A-MNT
source: TEST

route: 10.0.0.0/8
origin: AS2
mnt-by: B-MNT
mnt-routes: C-MNT {10.1.0.0/16}
source: TEST
"""


def read(text: str) -> list[Paragraph]:
    return list(syntax.paragraphs([text.encode()]))


def test_nothing_is_left_to_those_who_handed_over() -> None:
    """What decides below it is the new maintainer's alone; the rest stays."""
    (space,) = read(SPACE)
    assert handed_over(space, "D-MNT").text() == (
        b"inetnum:        10.0.0.0/8\ndescr:          a network\nmnt-by:         D-MNT\n"
        b"source:         TEST\n"
    )


def test_each_route_of_a_prefix_decides() -> None:
    """Who may add a route below any of several routes of one prefix may add it."""
    reasons = cast(Reasons, SimpleNamespace(ask=lambda query: read(ROUTES)))
    for text, names in [("10.1.0.0/16", ["A-MNT", "C-MNT"]), ("10.2.0.0/16", ["A-MNT"])]:
        prefix = keys.read_prefix(text)
        assert prefix
        decides = Handover(reasons, "D-MNT", None).of_space(prefix, [])
        assert (decides.key.text, decides.names) == ("10.0.0.0/8 AS1", names)
    named = Handover(reasons, "D-MNT", "B-MNT").of_space(keys.Prefix(10 << 24, 16), [])
    assert named.key.text == "10.0.0.0/8 AS2"


@pytest.mark.parametrize(
    ("held_by", "who"), [("A-MNT", "A-MNT adds"), ("A-MNT, B-MNT", "one of A-MNT, B-MNT adds")]
)
def test_who_holds_what_decides_is_named(held_by: str, who: str) -> None:
    """It may be the one that hands over."""
    (route,) = read(f"route: 10.0.0.0/8\norigin: AS1\nmnt-by: {held_by}\nsource: TEST\n")
    reasons = cast(Reasons, SimpleNamespace(ask=lambda query: [route]))
    prefix, handover = keys.Prefix(10 << 24, 16), Handover(reasons, "D-MNT", "A-MNT")
    handover.note_grants([handover.of_space(prefix, [])], "a route 10.0.0.0/16", prefix)
    (noted,) = handover.noted
    assert noted == (
        f"route 10.0.0.0/8 AS1 decides about a route 10.0.0.0/16: {who} "
        f"`mnt-routes: {held_by}, D-MNT {{10.0.0.0/16^+}}` to it"
    )


@pytest.mark.parametrize("order", [[0, 1, 2], [1, 2, 0], [2, 0, 1], [2, 1, 0]])
def test_ranges_that_are_handed_over_together_do_not_cross(order: list[int]) -> None:
    """Whichever two of them do, and wherever they stand."""
    given = ["10.0.0.0 - 10.0.0.9", "10.0.0.9 - 10.0.0.20", "10.0.1.0 - 10.0.1.9"]
    handover = Handover(cast(Reasons, SimpleNamespace()), "D-MNT", None)
    for place in order:
        handover.objects.append(Wanted(Key("inetnum", given[place]), None, "A-MNT"))
    with pytest.raises(Failure, match="it overlaps inetnum 10.0.0."):
        handover.check_overlaps()
    handover.objects = [one for one in handover.objects if one.key.text != given[1]]
    handover.check_overlaps()


@pytest.mark.parametrize("own", ["10.0.0.5 - 10.0.0.12", "10.0.0.20 - 10.0.0.29"])
def test_what_crosses_a_new_range_is_seen_at_both_ends(own: str) -> None:
    """A registry names what crosses it by one end alone."""
    all_of, other = read(
        "inetnum: 0.0.0.0/0\nmnt-by: A-MNT\nsource: TEST\n\n"
        "inetnum: 10.0.0.10 - 10.0.0.24\nmnt-by: B-MNT\nsource: TEST\n"
    )

    def ask(query: str) -> list[Paragraph]:
        span = keys.read_span(query.removeprefix("less ") + "/32")
        assert query.startswith("less ") and span
        return [one for one in (all_of, other) if span_of(one).covers(span)]

    key = keys.read_key("inetnum", own)
    assert key
    handover = Handover(cast(Reasons, SimpleNamespace(ask=ask)), "D-MNT", None)
    with pytest.raises(Failure, match="inetnum 10.0.0.10 - 10.0.0.24 overlaps it"):
        handover.who_may_add(key)
    beside = keys.read_key("inetnum", "10.0.0.25 - 10.0.0.29")
    assert beside and handover.who_may_add(beside) == ["A-MNT"]


def test_a_grant_of_no_ranges_stays_one() -> None:
    """`C-MNT {}` may add no route, and `C-MNT` any."""
    (space,) = read(SPACE)
    kept = held.without(space, ["B-MNT", "C-MNT"])
    assert [(one.name, one.ranges and len(one.ranges)) for one in holders.grants(kept)] == [
        ("B-MNT", 1),
        ("C-MNT", []),
    ]
    assert (holders.by(kept), kept.has(b"mnt-lower")) == (["B-MNT"], False)
    everything = held.without(space, ["A-MNT", "B-MNT", "C-MNT"])
    assert holders.grants(everything) == holders.grants(space)


BLOCKS = """as-block: AS0 - AS65535
mnt-by: ROOT-MNT
source: TEST

as-block: AS64500 - AS64500
mnt-by: B-MNT
source: TEST

as-block: AS64500 - AS64509
mnt-by: A-MNT
mnt-lower: C-MNT
source: TEST
"""


class Registry:
    """A registry of as-blocks, and of an inetnum inside others, which stands there by now."""

    url, is_excerpt = "the registry", False

    def query(self, *words: str) -> answers.Answer:
        spans = ("0.0.0.0 - 255.255.255.255", "10.0.0.0 - 10.0.0.255", "10.0.0.0 - 10.0.255.255")
        text = "".join(
            f"inetnum:        {span}\nmnt-by:         {name}-MNT\nsource:         TEST\n\n"
            for span, name in zip(spans, "XZY")
        )
        return answers.Answer(text.encode(), " ".join(words))

    def dump(self) -> Iterator[bytes]:
        text = b"".join(one.text() + b"\n" for one in read(BLOCKS))
        return iter([text + b"%% end %d\n" % text.count(b"source")])


@pytest.mark.parametrize(
    ("text", "decides"),
    [
        ("aut-num: AS64500", "as-block AS64500 - AS64500 decides: B-MNT may add below it."),
        ("aut-num: AS64501", "as-block AS64500 - AS64509 decides: C-MNT may add below it."),
        ("aut-num: AS1", "as-block AS0 - AS65535 decides: ROOT-MNT may add below it."),
        ("as-block: AS64500 - AS64500", "as-block AS64500 - AS64509 decides: C-MNT may add"),
        ("as-block: AS64501 - AS64502", "as-block AS64500 - AS64509 decides: C-MNT may add"),
        ("inetnum: 10.0.0.0/24", "inetnum 10.0.0.0 - 10.0.255.255 decides: Y-MNT may add"),
        ("inetnum: 10.0.0.0/25", "inetnum 10.0.0.0 - 10.0.0.255 decides: Z-MNT may add"),
    ],
)
def test_the_closest_one_decides(text: str, decides: str) -> None:
    """The smallest that covers the object, and never that itself (RFC 2725, 9)."""
    (item,) = items_of(f"{text}\nmnt-by: D-MNT\nsource: TEST\n".encode())
    (words,) = Reasons(Registry()).of(item, "E13", True)
    assert words.startswith(decides)
    kind, _, key = text.partition(": ")
    if kind == "aut-num":
        names = Handover(Reasons(Registry()), "D-MNT", None).who_may_add(Key(kind, key))
        assert names == [words.split("decides: ")[1].split(" ")[0]]

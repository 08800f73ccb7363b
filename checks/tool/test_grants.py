"""Whom an object names, and who may add what lies below it (RFC 2725, 9)."""

import pytest

from irr.rpsl import holders, keys, syntax
from irr.rpsl.syntax import Paragraph

ROUTE = "route: 10.0.0.0/8\norigin: AS1\n"
AUT_NUM = "aut-num: AS1\n"
SET = "as-set: AS-A\n"
GRANTS = """mnt-routes: A-MNT {10.0.0.0/8^16-24, 10.1.0.0/16^+}, b-mnt
mnt-routes: ANY, C-MNT {
mnt-routes: 10.2.0.0/16 } D-MNT
"""


def read(text: str) -> Paragraph:
    return syntax.read(text.encode())


def test_each_maintainer_is_named_once_wherever_it_stands() -> None:
    text = SET + "mnt-by: A-MNT, B-MNT\nmnt-lower: c-mnt\nmbrs-by-ref: D-MNT, ANY, E-MNT, a-mnt\n"
    assert holders.named(read(text)) == ["A-MNT", "B-MNT", "C-MNT", "D-MNT", "E-MNT"]
    assert holders.named(read(ROUTE + "mnt-by: X-MNT\n" + GRANTS)) == [
        *("X-MNT", "A-MNT", "B-MNT", "C-MNT", "D-MNT")
    ]
    # Where they are text.
    text = "mntner: A-MNT\nmnt-by: A-MNT\nmnt-lower: B-MNT\nmnt-routes: C-MNT\nmbrs-by-ref: D-MNT\n"
    assert holders.named(read(text)) == ["A-MNT"]


def test_entries_of_mnt_routes_go_on_in_the_next_attribute() -> None:
    found = holders.grants(read(ROUTE + GRANTS))
    assert [one.name for one in found] == ["A-MNT", "B-MNT", "C-MNT", "D-MNT"]
    assert [one.ranges is None for one in found] == [False, True, False, True]
    ranges = [[held.text() for held in one.ranges or []] for one in found]
    assert ranges == [["10.0.0.0/8^16-24", "10.1.0.0/16^+"], [], ["10.2.0.0/16"], []]


@pytest.mark.parametrize(
    ("prefix", "names"),
    [
        ("10.0.0.0/8", ["B-MNT", "D-MNT"]),
        ("10.3.0.0/16", ["A-MNT", "B-MNT", "D-MNT"]),
        ("10.3.0.0/24", ["A-MNT", "B-MNT", "D-MNT"]),
        ("10.3.0.0/25", ["B-MNT", "D-MNT"]),
        ("10.1.0.0/25", ["A-MNT", "B-MNT", "D-MNT"]),
        ("10.2.0.0/16", ["A-MNT", "B-MNT", "C-MNT", "D-MNT"]),
        ("10.2.0.0/17", ["A-MNT", "B-MNT", "D-MNT"]),
        ("11.0.0.0/16", ["B-MNT", "D-MNT"]),
    ],
)
def test_who_may_add_a_route_where_mnt_routes_says_so(prefix: str, names: list[str]) -> None:
    for text in ROUTE, AUT_NUM:
        held = read(text + "mnt-by: X-MNT\nmnt-lower: Y-MNT\n" + GRANTS)
        assert holders.routes(held, keys.need_place(prefix)) == names


@pytest.mark.parametrize(
    ("text", "below", "routes"),
    [
        (ROUTE, ["Y-MNT"], ["Y-MNT"]),
        ("inetnum: 10.0.0.0/8\n", ["Y-MNT"], ["Y-MNT"]),
        # Its `mnt-lower` is of sets.
        (AUT_NUM, ["Y-MNT"], ["X-MNT"]),
    ],
)
def test_who_may_add_where_it_says_nothing(text: str, below: list[str], routes: list[str]) -> None:
    prefix = keys.need_place("10.0.0.0/16")
    held, bare = read(text + "mnt-by: X-MNT\nmnt-lower: Y-MNT\n"), read(text + "mnt-by: X-MNT\n")
    assert (holders.lower(held), holders.routes(held, prefix)) == (below, routes)
    assert (holders.lower(bare), holders.routes(bare, prefix)) == (["X-MNT"], ["X-MNT"])

"""What words in lists of routers mean to the guard of filters: beginnings of FRR's words, addresses
in quotes, and patterns of paths that have no AS number."""

import pytest

from irr.filters.lists import losses


def lost(router: str, old: str, new: str) -> list[tuple[str, int, int]]:
    """The name, what is lost, and the count of each list."""
    return [(one.name, one.lost, one.size) for one in losses(router, old, new)]


@pytest.mark.parametrize(
    ("short", "whole"),
    [
        ("ip p C p 10.0.0.0/8", "ip prefix-list C permit 10.0.0.0/8"),
        (
            "ip pre C se 7 per 10.0.0.0/8 l 24 g 9",
            "ip prefix-list C seq 7 permit 10.0.0.0/8 ge 9 le 24",
        ),
        ("i prefix-l C perm a", "ip prefix-list C permit any"),
        ("ipv p C p 2001:db8::/32", "ipv6 prefix-list C permit 2001:db8::/32"),
        ("acc C p 10.0.0.0/8 ex", "access-list C permit 10.0.0.0/8 exact-match"),
        ("a C p h 10.0.0.1", "access-list C permit host 10.0.0.1"),
        ("access C p i a h 255.0.0.0", "access-list C permit ip any host 255.0.0.0"),
        ("ipv6 acc C p 2001:db8::/32", "ipv6 access-list C permit 2001:db8::/32"),
        ("bgp as-p acc C p _(1|2)$", "bgp as-path access-list C permit _(1|2)$"),
        ("b a a C s 7 p _(1|2)$", "bgp as-path access-list C seq 7 permit _(1|2)$"),
    ],
)
def test_frr_takes_the_beginning_of_a_word_for_it(short: str, whole: str) -> None:
    """The lines after it would be lost unseen."""
    count = 2 if "as-path" in whole else 1
    assert lost("frr", short, short) == lost("frr", whole, whole) == [("C", 0, count)]
    assert lost("frr", short, whole) == lost("frr", whole, short) == [("C", 0, count)]
    assert lost("frr", short, "") == [("C", count, count)]


@pytest.mark.parametrize(
    "line",
    [
        *("ip p C s 1 d 10.0.0.0/8", "ip pre C se 1 den a", "ip prefix-list C seq 1 de 10.0.0.0/8"),
        *("n ip p C", "no i pre C se 5", "no ip p C p 10.0.0.0/8"),
    ],
)
def test_what_refuses_or_removes_may_be_short_too(line: str) -> None:
    old = "ip prefix-list C seq 5 permit 10.0.0.0/8\n"
    assert lost("frr", old, f"{old}{line}\n") == [("C", 1, 1)]


def test_what_only_looks_like_a_short_word_stays() -> None:
    old = (
        "ip prefix-list a seq 5 permit 10.0.0.0/8\n"
        "access-list a permit a\n"
        "bgp as-path access-list p permit p_1$\n"
        "address-family ipv4 unicast\n neighbor 192.0.2.1 activate\n"
    )
    assert lost("frr", old, old) == [("a", 0, 1), ("a", 0, 1), ("p", 0, 1)]
    new = old.replace("permit p_1$", "deny p")
    assert lost("frr", old, new)[-1] == ("p", 1, 1)


@pytest.mark.parametrize(
    ("quoted", "plain"),
    [
        ('"10.0.0.0"/8', "10.0.0.0/8"),
        ("'10.0.0.0' / 8 prefixlen 9 - 24", "10.0.0.0/8 prefixlen 9 - 24"),
        ('"2001:db8::"/32 or-longer', "2001:db8::/32 or-longer"),
        ('"10"/8', "0.0.0.10/8"),
    ],
)
@pytest.mark.parametrize("form", ["prefix-set X {{ {} }}\n", "allow from any prefix {}\n"])
def test_openbgpd_reads_addresses_in_quotes(form: str, quoted: str, plain: str) -> None:
    first, second = form.format(quoted), form.format(plain)
    name = "X" if "X" in form else "allow from any"
    assert lost("openbgpd", first, first) == [(name, 0, 1)]
    assert lost("openbgpd", first, second) == lost("openbgpd", second, first) == [(name, 0, 1)]
    assert lost("openbgpd", first, form.format("192.0.2.0/24")) == [(name, 1, 1)]


PATHS = "bgp as-path access-list P "


@pytest.mark.parametrize(
    ("old", "new", "gone"),
    [
        (["permit .*"], [], 1),
        (["permit ^$"], ["permit ^$"], 0),
        (["permit ^$"], ["permit _[0-9]+$"], 1),
        (["permit ^$"], ["permit .*"], 0),
        (["permit ^$"], ["deny ^$", "permit ^$"], 1),
        (["permit ^$"], ["permit ^$", "deny .*"], 0),
        (["permit ^$"], ["deny .*", "permit ^$"], 1),
        (["permit ^$", "permit _64496$"], ["permit _64496$"], 1),
        (["permit ^$", "permit _64496$"], ["permit ^$"], 1),
    ],
)
def test_lines_of_paths_without_numbers_are_judged_by_their_words(
    old: list[str], new: list[str], gone: int
) -> None:
    texts = ["".join(f"{PATHS}{line}\n" for line in lines) for lines in (old, new)]
    assert lost("frr", texts[0], texts[1]) == [("P", gone, len(old))]
    refused = f"{PATHS}deny .*\n"
    assert not lost("frr", refused, "")

"""What an import makes of lists: nothing is gone from one that is not told."""

import time
from collections.abc import Iterable

import pytest
from hypothesis import given
from hypothesis import strategies as st

from checks.tool.importing import left_out, made, mended, obj, texts_of
from irr.migrate import paragraphs
from irr.rpsl import syntax

SET = ("as-set: AS-X", "mnt-by: A-MNT", "source: RIPE")


def lists_of(
    text: bytes, off: Iterable[str] = ()
) -> tuple[list[tuple[bytes, list[bytes]]], set[str]]:
    """The lines of the lists that a paragraph has in the end, and what was mended."""
    new, kinds = mended(text, off)
    found = syntax.read(new).attributes
    names = (b"members", b"mp-members", b"member-of", b"mnt-routes", b"mp-import", b"mp-export")
    return [(one.name, one.lines) for one in found if one.name in names], kinds


def rest(*lines: str) -> bytes:
    return obj(*lines, "mnt-by: A-MNT", "source: TEST")


# Both families (RFC 4012).


def test_mp_members_of_ipv4_are_members() -> None:
    found = lists_of(
        rest(
            "route-set: RS-MP",
            "members: 10.0.0.0/8",
            "mp-members: 192.0.2.0/24, 2001:db8::/32^+, 198.51.100.0/24^24-25, # both",
            "+ AS64496, RS-B^-",
        )
    )
    assert found == (
        [
            (b"members", [b"10.0.0.0/8"]),
            (b"members", [b"192.0.2.0/24, 198.51.100.0/24^24-25 # both", b"AS64496, RS-B^-"]),
        ],
        {"mp-members", "ipv6"},
    )


def test_mp_members_of_ipv6_alone_are_gone() -> None:
    text = rest("route-set: RS-MP", "mp-members: 2001:db8::/32, ::/0")
    assert lists_of(text) == ([], {"mp-members", "ipv6"})
    assert [line.split("\t")[:1] + line.split("\t")[2:] for line in left_out(text)] == [
        ["IPv6", "route-set: RS-MP", "mp-members", "2001:db8::/32"],
        ["IPv6", "route-set: RS-MP", "mp-members", "::/0"],
    ]


def test_an_address_that_looks_like_a_registry_and_a_prefix() -> None:
    text = rest("route-set: RS-MP", "members: fd00::192.0.2.1/24, c::10.0.0.1/8^+, 10.0.0.0/8")
    for keeps_scoped in False, True:
        lines = left_out(text, keeps_scoped=keeps_scoped)
        assert [line.split("\t")[0] for line in lines] == ["IPv6", "IPv6"]
        assert b"members:        10.0.0.0/8\n" in made(text, keeps_scoped=keeps_scoped)[0]


def test_mp_members_elsewhere_are_text() -> None:
    for lines in (
        ["as-set: AS-X", "mp-members: 2001:db8::/32, AS1"],
        ["route-set: RS-X", "mp-members:"],
    ):
        text = rest(*lines)
        assert mended(text) == (syntax.read(text[:-1]).text(), set())


def test_policies_of_both_families_are_text() -> None:
    text = rest(
        "aut-num: AS1",
        "mp-import: afi ipv6.unicast from AS2 accept 2001:db8::/32",
        "mp-export: afi any to AS2 announce AS1",
        "mp-default: to AS2",
    )
    assert mended(text) == (syntax.read(text[:-1]).text(), set())


# `member-of` (RFC 2622, 5): of a route it names route-sets.


def test_a_route_is_in_no_as_set() -> None:
    text = rest("route: 10.0.0.0/8", "origin: AS1", "member-of: AS-X, RS-X, AS1:AS-Y, RIPE::AS-Z")
    assert lists_of(text)[0] == [(b"member-of", [b"RS-X"])]
    assert "member-of" in lists_of(text)[1]
    assert [line.split("\t")[0] for line in left_out(text)] == ["a set of the other kind"] * 3
    alone = rest("route: 10.0.0.0/8", "origin: AS1", "member-of: as-x # theirs")
    assert lists_of(alone) == ([(b"member-of", [b"# theirs"])], {"member-of"})
    assert mended(alone, ["member-of"]) == "not mended because of --no-member-of"
    assert lists_of(rest("aut-num: AS1", "member-of: AS-X"))[1] == set()
    # irrdesk reads this name there: the others of its list mean the same without it.
    any_of_all = rest("route: 10.0.0.0/8", "origin: AS1", "member-of: RS-X, AS-ANY, foo")
    assert lists_of(any_of_all) == ([(b"member-of", [b"RS-X"])], {"member-of", "item"})


# Scopes.


def members(dump: bytes, name: str = "AS-X") -> list[bytes]:
    (text,) = [text for text in texts_of(dump, "as-set") if text.split()[1] == name]
    return syntax.read(text.encode()).items(b"members")


def of(source: str, *lines: str) -> bytes:
    return obj(*lines, "mnt-by: A-MNT", f"source: {source}")


def test_a_scope_that_is_not_imported() -> None:
    text = of("RIPE", "as-set: AS-X", "members: AS1, RADB::AS-Y, ripe::AS-Z, RIPE::AS2, RADB::AS3")
    text += of("RIPE", "as-set: AS-Y", "members: AS666")
    dump, tally = made(text)
    assert members(dump) == [b"AS1", b"AS-Z", b"AS2"]
    assert (tally.mended["scope"], tally.items.causes) == (
        1,
        {"a registry that is not imported": 2},
    )
    assert [line.split("\t")[2:] for line in left_out(text)] == [
        ["as-set: AS-X", "members", "RADB::AS-Y"],
        ["as-set: AS-X", "members", "RADB::AS3"],
    ]
    report = list(tally.lines())
    place = report.index("dropped from lists, a registry that is not imported: 2")
    assert report[place + 1].endswith("as-set: AS-X  members  RADB::AS-Y")


def test_a_scoped_item_that_is_dropped_is_reported_as_it_was_read() -> None:
    """And its host bits are mended only where it stays."""
    text = of("RIPE", "route-set: RS-X", "members: RADB::192.0.2.5/24^+, RADB::10.0.0.1/8")
    dump, tally = made(text)
    assert [line.split("\t")[-1] for line in left_out(text)] == [
        "RADB::192.0.2.5/24^+",
        "RADB::10.0.0.1/8",
    ]
    assert (tally.mended["host-bits"], tally.mended["scope"]) == (0, 1)
    assert "members" not in texts_of(dump, "route-set")[0]
    for keeps in False, True:
        own = text if keeps else text.replace(b"RADB::", b"RIPE::")
        dump, tally = made(own, keeps_scoped=keeps)
        assert "members:        192.0.2.0/24^+, 10.0.0.0/8\n" in texts_of(dump, "route-set")[0]
        assert (tally.mended["host-bits"], tally.items.causes.total()) == (1, 0)
    assert made(text, off=["host-bits"])[1].causes == {"not mended because of --no-host-bits": 1}


def test_scoped_items_of_both_families_are_reported_by_their_attribute() -> None:
    """And are in `members` where they stay."""
    text = of("RIPE", "route-set: RS-X", "mp-members: NTT::AS-Q, ::/0, RIPE::10.0.0.1/8, AS2 # a")
    text += of("RIPE", "route-set: RS-Y", "members: NTT::AS-Q", "mp-members: NTT::AS-Q")
    dump, tally = made(text)
    assert [line.split("\t")[2:] for line in left_out(text)] == [
        ["route-set: RS-X", "mp-members", "::/0"],
        ["route-set: RS-X", "mp-members", "NTT::AS-Q"],
        ["route-set: RS-Y", "members", "NTT::AS-Q"],
        ["route-set: RS-Y", "mp-members", "NTT::AS-Q"],
    ]
    own, other = (set_text.split("\n") for set_text in texts_of(dump, "route-set"))
    assert own[1] == "members:        10.0.0.0/8, AS2 # a" and tally.mended["mp-members"] == 2
    assert other[1].startswith("mnt-by:")
    dump, _ = made(text, keeps_scoped=True)
    assert b"mp-members" not in dump and dump.count(b"members:        AS-Q") == 3


def test_kept_scopes() -> None:
    text = of("RIPE", "as-set: AS-X", "members: RADB::AS-Y")
    dump, tally = made(text, keeps_scoped=True)
    assert (members(dump), tally.items.causes.total()) == ([b"AS-Y"], 0)
    assert made(text, off=["scope"])[1].taken == 0


def test_a_scope_that_is_imported_later() -> None:
    text = of("RIPE", "as-set: AS-X", "members: RADB::AS-Y, RADB::AS-Z")
    dump, _ = made(text, of("radb # x", "as-set: AS-Y", "members: AS1"))
    assert members(dump) == [b"AS-Y", b"AS-Z"]


def test_a_name_that_another_registry_has() -> None:
    """RIPE's AS-Y came first, so RADB's is left out, and `RADB::AS-Y` must not become RIPE's."""
    text = of("RIPE", "as-set: AS-X", "members: RADB::AS-Y, RIPE::AS-Y, AS-Y")
    text += of("RIPE", "as-set: AS-Y", "members: AS1")
    text += of("RADB", "as-set: AS-Y", "members: AS2") + of("RADB", "aut-num: AS2")
    dump, tally = made(text)
    assert members(dump) == [b"AS-Y", b"AS-Y"]
    assert tally.items.causes == {"its name is that of a set of another registry": 1}


def test_a_name_with_an_operator_that_another_registry_has() -> None:
    """The operator after a scoped name does not hide whose set it is."""
    text = of("RIPE", "route-set: RS-X", "members: RADB::RS-Y^+, RADB::RS-Y, RIPE::RS-Y^24")
    text += of("RIPE", "route-set: RS-Y", "members: 10.0.0.0/8")
    text += of("RADB", "route-set: RS-Y", "members: 192.0.2.0/24") + of("RADB", "aut-num: AS2")
    dump, tally = made(text)
    (own,) = [one for one in texts_of(dump, "route-set") if one.split()[1] == "RS-X"]
    assert syntax.read(own.encode()).items(b"members") == [b"RS-Y^24"]
    assert tally.items.causes == {"its name is that of a set of another registry": 2}


def test_a_registry_of_which_nothing_is_taken() -> None:
    text = of("RIPE", "as-set: AS-X", "members: RADB::AS-Y") + obj("person: Jo", "source: RADB")
    assert members(made(text)[0]) == []
    text += of("RIPE", "inetnum: 10.0.0.0 - 10.0.0.9")
    crossing = of("RADB", "inetnum: 10.0.0.5 - 10.0.0.12")
    assert members(made(text, crossing)[0]) == []
    assert members(made(crossing, text)[0]) == [b"AS-Y"]


def test_scopes_with_operators_and_new_names() -> None:
    text = obj(
        "route-set: RS-X",
        "members: RIPE::RS-Y^+, RIPE::AS1^24, RIPE::10.0.0.1/8^+ # one",
        "members: RADB::RS-Z^- # two",
        "mnt-by: " + "A" * 81,
        "source: RIPE",
    )
    dump, _ = made(text)
    assert texts_of(dump, "route-set") == [
        "route-set:      RS-X\nmembers:        RS-Y^+, AS1^24, 10.0.0.0/8^+ # one\n"
        "members:        # two\nmnt-by:         " + "A" * 68 + "\nsource:         TEST\n"
    ]


# Host bits.


@pytest.mark.parametrize(
    "lines, wanted",
    [
        (["route: 192.0.2.1/24 # a", "origin: AS1"], "route:          192.0.2.0/24 # a\n"),
        (["inetnum: 192.0.2.1/24"], "inetnum:        192.0.2.0/24\n"),
        (
            ["route-set: RS-X", "members: 192.0.2.1/24^+, AS1"],
            "members:        192.0.2.0/24^+, AS1",
        ),
        (["route-set: RS-X", "mp-members: 10.0.0.1/8"], "members:        10.0.0.0/8\n"),
        (
            ["aut-num: AS1", "mnt-routes: A-MNT {192.0.2.1/24^25}"],
            "mnt-routes:     A-MNT {192.0.2.0/24^25}\n",
        ),
    ],
)
def test_host_bits(lines: list[str], wanted: str) -> None:
    text, kinds = mended(rest(*lines))
    assert wanted in text.decode()
    assert kinds - {"mp-members"} == {"host-bits"}
    assert mended(rest(*lines), ["host-bits"]) == "not mended because of --no-host-bits"


def test_prefixes_that_are_whole() -> None:
    for lines in (
        ["route: 192.0.2.0/24", "origin: AS1"],
        ["inetnum: 192.0.2.1 - 192.0.2.9"],
        ["route-set: RS-X", "members: 192.0.2.1/32, 0.0.0.0/0^+, 010.0.0.0/8"],
    ):
        assert mended(rest(*lines))[1] == set(), lines


def test_a_short_prefix_keeps_its_comment() -> None:
    text, kinds = mended(rest("inetnum: 10.1/8 # ten"))
    assert (text.partition(b"\n")[0], kinds) == (
        b"inetnum:        10.0.0.0/8 # ten",
        {"prefix", "host-bits"},
    )


# What can't be read: it is dropped if the others of its list mean the same without it.

UNREAD = "a list that can't be read"
# Items of a route-set that are read, that are known or words, and that may be of an expression.
GOOD = ["10.0.0.0/8^16-24", "192.0.2.0/24", "AS1", "AS2^+", "RS-B^24", "AS3:AS-Y"]
WORDS = ["2001:db8::/32^+", "64496", "AS1-x", "10.0.0.0/8^33", "foo_bar", "RIPE::foo", "::"]
EXPRESSIONS = """AND or NOT EXCEPT From TO ANY PeerAS - -26 ^24 ^+ )^24 ( [AS1] <AS1> {AS1} { } =AS1
    'AS1' "AS1" AS1; x! AS1^ AS4^24- x:: :x caf\xe9 + * | & 10.0.0.0/ /8 foo- _foo AS-""".split()


@pytest.mark.parametrize("name", ["members", "mp-members"])
@given(st.lists(st.sampled_from(GOOD * 9 + WORDS * 9 + EXPRESSIONS), min_size=1, max_size=9))
def test_a_list_is_read_or_reported(name: str, items: list[str]) -> None:
    """Either the object is left out, with the first item that may mean something of the others, or
    what stays are the good ones, and each other one is told."""
    text = rest("route-set: RS-X", f"{name}: {', '.join(items)}")
    told = [line.split("\t") for line in left_out(text)]
    bad = [item for item in items if item in EXPRESSIONS]
    if bad:
        (line,) = told
        assert line[0] in (UNREAD, paragraphs.JOINED) and line[2:4] == ["route-set: RS-X", name]
        assert line[4] == bad[0]
    else:
        found = [item for _, lines in lists_of(text)[0] for item in syntax.ITEM.findall(lines[0])]
        assert found == [item.encode() for item in items if item in GOOD]
        assert [line[4] for line in told] == [item for item in items if item not in GOOD]


@pytest.mark.parametrize(
    "kind, values",
    [
        ("as-set: AS-X", ["AS-Y EXCEPT AS2", "AS-Y AND NOT AS2", "NOT AS2", "AS1 - AS5", "(AS1)"]),
        ("as-set: AS-X", ["AS1 ^24, AS2", "{AS1, AS2}", "AS1, }", "AS1 any"]),
        ("route-set: RS-X", ["NOT 10.0.0.0/8", "10.0.0.0/8^24 - 26", "RS-B^24 -26, AS1"]),
        ("route-set: RS-X", ["( 10.0.0.0/8 11.0.0.0/8 )^24", "(10.0.0.0/8, AS1, AS2)^24"]),
        ("route-set: RS-X", ["10.0.0.0/8 ^24", "{10.0.0.0/9, AS2, AS3}^25", "AS1^{24, 25, 26}"]),
    ],
)
def test_a_list_of_an_expression_is_none(kind: str, values: list[str]) -> None:
    for value in values:
        assert mended(rest(kind, f"members: {value}")) == UNREAD
    for value in "{AS-A, AS-B, AS-C}", "AS-A EXCEPT AS-B", "AS-A, PeerAS":
        assert mended(rest("aut-num: AS1", f"member-of: {value}")) == UNREAD
        assert mended(rest("route: 10.0.0.0/8", "origin: AS1", f"member-of: {value}")) == UNREAD


def test_a_list_costs_what_it_is_long() -> None:
    """Blanks, commas and items that are dropped, in an object as large as one may be."""
    for value in "::/0" + " " * 60_000 + "AS1", "::/0" + " ," * 30_000 + "AS1":
        started = time.process_time()
        assert lists_of(rest("as-set: AS-X", f"members: {value}"))[0] == [(b"members", [b"AS1"])]
        assert time.process_time() - started < 2
    started = time.process_time()
    text = rest("as-set: AS-X", "members: " + "x " * 30_000)
    assert len(left_out(text)) == 30_000 and time.process_time() - started < 4


# Maintainers: without an item that is none, others would get more than the text gives them.


@pytest.mark.parametrize(
    "value",
    [
        *("B-MNT 192.0.2.0/25^+", "B-MNT, 192.0.2.0/25", "B-MNT 192.0.2.0/99", "B-MNT 192.0.2/25"),
        *("B-MNT 10/8", "B-MNT 10./8", "B-MNT 192.0.2.0 - 192.0.2.9", "B-MNT 192.0.2.0-192.0.2.9"),
        *("B-MNT ^25", "B-MNT 192.0.2.0/25 ^26", "B-MNT (192.0.2.0/25)", "B-MNT [192.0.2.0/25]"),
        *("B-MNT <192.0.2.0/25>", "B-MNT '192.0.2.0/25'", "B-MNT =192.0.2.0/25", "B-MNT RS-Y"),
        *("B-MNT EXCEPT C-MNT", "B-MNT as-y", "B-MNT FLTR-Y^+", "B-MNT a/b", "B-MNT a.b"),
        *("B-MNT AS-XMNT", "B-MNT AS-MNT-X", "B-MNT AS1:AS-MNT", "AS-X-MNT^+", "(1-MNT)", "1-MNT-"),
        *("1.2-MNT", "B-MNT 10-8", "B-MNT 10_1", "B-MNT '1-MNT'", "B-MNT =AS-X-MNT", "_-MNT"),
        *("192.0.2.0/25 B-MNT", "192.0.2.0/25 {192.0.2.0/25}", "B-MNT PeerAS", "64496", "B-MNT -"),
    ],
)
def test_a_prefix_or_an_expression_is_no_maintainer(value: str) -> None:
    """Without it, or as a maintainer, B-MNT would have all of the object's routes."""
    assert mended(rest("inetnum: 192.0.2.0/24", f"mnt-routes: {value}")) == UNREAD
    for name in "mnt-lower", "mnt-by":
        assert mended(rest("inetnum: 192.0.2.0/24", f"{name}: {value.split(' {')[0]}")) == UNREAD
    assert mended(rest("as-set: AS-X", f"mbrs-by-ref: {value.split(' {')[0]}")) == UNREAD
    assert mended(rest("mntner: 192.0.2.0/25")) == "a key that can't be read"
    (line,) = left_out(rest("inetnum: 192.0.2.0/24", f"mnt-routes: {value}"))
    assert line.split("\t")[3] == "mnt-routes" and line.split("\t")[4] in value


@pytest.mark.parametrize(
    "values",
    [
        ["B-MNT {192.0.2.0/25"],
        ["B-MNT 192.0.2.0/25}"],
        ["B-MNT }"],
        ["{192.0.2.0/25} B-MNT"],
        ["B-MNT {{192.0.2.0/25}}"],
        ["B-MNT {192.0.2.0/25}, {192.0.2.128/25}"],
        ["B-MNT {192.0.2.0/25", "C-MNT {192.0.2.128/25}"],
        ["{B-MNT 192.0.2.0/25}"],
        ["ANY {192.0.2.0/25}"],
        ["{192.0.2.0/24} A-MNT ANY {10.0.0.0/8}"],
        ["B-MNT {10.0.0.0/8^+ EXCEPT 10.1.0.0/16^+}"],
        ["B-MNT EXCEPT {10.1.0.0/16}"],
        ["B-MNT {10.0.0.0/8^16 - 24}"],
        ["B-MNT {10.0.0.0/8 ^24}"],
        ["B-MNT {ANY}"],
        ["ANY, B-MNT"],
    ],
)
def test_braces_that_are_no_pair_after_a_name(values: list[str]) -> None:
    """Nobody knows whose ranges they have, or which."""
    text = rest("inetnum: 192.0.2.0/24", *(f"mnt-routes: {value}" for value in values))
    assert mended(text) == UNREAD
    assert [line.split("\t")[0] for line in left_out(text)] == [UNREAD]
    for name in "mnt-by", "mnt-lower":
        text = rest("inetnum: 192.0.2.0/24", f"{name}: {{A-MNT, B-MNT}}")
        assert mended(text) == UNREAD


def test_grants_that_are_good_stay() -> None:
    """Over several attributes too; a name that is only too long is mended."""
    text = rest(
        "inetnum: 192.0.2.0/24",
        "mnt-routes: B-MNT {192.0.2.0/25^+,",
        "mnt-routes: 192.0.2.128/25} C-MNT ANY, D-MNT {}, E-MNT",
    )
    assert mended(text) == (syntax.read(text[:-1]).text(), set())
    for name in "FLTR-MNT", "prng-1", "EXCEPT-MNT":
        assert mended(rest("aut-num: AS1", f"mnt-lower: {name}"))[1] == set()
    for name in "mnt-lower", "mnt-routes":
        assert mended(rest("aut-num: AS1", f"{name}: {'A' * 81}"))[1] == {"rename"}


@pytest.mark.parametrize(
    "name",
    ["1AND1-MNT", "1-mnt", "2x", "0_b-C", "AS-X-MNT", "as-mnt", "RS-1_2-Mnt", "7" * 80 + "A"],
)
def test_what_can_only_be_a_name_is_renamed(name: str) -> None:
    """A digit first, or the name of a set that ends as those of maintainers do."""
    lists = [("inetnum: 10.0.0.0/8", "mnt-lower"), ("as-set: AS-X", "mbrs-by-ref")]
    for kind, attribute in [*lists, ("aut-num: AS1", "mnt-by")]:
        for value in name, f"B-MNT, {name}":
            assert mended(rest(kind, f"{attribute}: {value}"))[1] == {"rename"}
            text = rest(kind, f"{attribute}: {value}")
            assert mended(text, ["rename"]) == "not mended because of --no-rename"
    dump, tally = made(rest(f"mntner: {name}", f"mnt-by: {name}"))
    ((old, new),) = tally.renamed.items()
    assert old == name.upper() and f"mntner:         {new}\n" in dump.decode()
    assert f"mnt-by:         {new}\n" in dump.decode() and name not in dump.decode().split()


def test_a_digit_first_is_no_name_among_grants() -> None:
    """There a range in some other spelling may stand, and grants less than the name before it."""
    for value in "1AND1-MNT", "B-MNT 1AND1-MNT", "B-MNT ANY, 1-MNT {10.0.0.0/8}", "B-MNT 10x8":
        assert mended(rest("inetnum: 10.0.0.0/8", f"mnt-routes: {value}")) == UNREAD
    text = rest("inetnum: 10.0.0.0/8", "mnt-routes: B-MNT, as-x-mnt {10.0.0.0/9^+}, RS-MNT ANY")
    assert mended(text)[1] == {"rename"}
    granted = b"mnt-routes:     B-MNT, MNT-AS-X-MNT {10.0.0.0/9^+}, MNT-RS-MNT ANY\n"
    assert granted in made(text)[0]


# Files that were cut off within a line and joined with another one.


@pytest.mark.parametrize(
    "kind, cut",
    [
        ("aut-num: AS1", "mnt-by: A-"),
        ("aut-num: AS1", "mnt-by: B-MNT, A-"),
        ("inetnum: 10.0.0.0/8", "mnt-lower: A-"),
        ("inetnum: 10.0.0.0/8", "mnt-routes: A-"),
        ("inetnum: 10.0.0.0/8", "mnt-routes: A-MNT {10.0.0.0/8^16-2"),
        ("as-set: AS-X", "mbrs-by-ref: A-"),
        ("as-set: AS-X", "members: AS2, AS644"),
        ("as-set: AS-X", "members: AS-"),
        ("route-set: RS-X", "members: RADB::RS-"),
        ("route-set: RS-X", "mp-members: 10.0.0.0/8^16-2"),
        ("route-set: RS-X", "mp-members: 2001:db8:"),
        ("aut-num: AS1", "member-of: AS-X, AS"),
        ("mntner: X-MNT", "mnt-by: "),
    ],
)
@pytest.mark.parametrize("other", ["as-block: AS7 - AS9", "poem:_7", "ROUTE : AS7", "descr: AS7"])
def test_two_files_that_are_joined_within_a_line(kind: str, cut: str, other: str) -> None:
    """What the second line has is no item of the first, whose object is not whole."""
    whole = obj(*SET[:1], "mnt-by: A-MNT", "source: RIPE")
    cut_off = f"{kind}\nas-name: X\n{cut}".encode()
    rest_of = obj(other, "as-name: Y", "mnt-by: B-MNT", "source: RIPE")
    text = whole.replace(b"AS-X", b"AS-W") + cut_off + rest_of
    (line,) = left_out(text)
    assert line.startswith("an item with a colon, as of two lines that were joined\t")
    assert line.split("\t")[2] == kind and made(text)[1].taken == 1


@pytest.mark.parametrize(
    "cut", ["descr: Example N", "descr: x\n Example, 5.", "d", "changed: a 20,"]
)
@pytest.mark.parametrize(
    "other",
    ["aut-num: AS7", "as-block:AS7 - AS9", "as-set: AS-Y", "ROUTE-SET:\tAS7:RS-Y", "as-macro: AS-Y"]
    + ["route: 10.0.0.0/8", "inetnum: 10/8", "route6: 2001:db8::/32", "inet6num: ff00::/8"]
    + ["mntner: MAINT-X", "mntner: MNT-X", "mntner: Y-MNT", "mntner: Y-MNT # x"],
)
def test_two_files_that_are_joined_within_a_text(cut: str, other: str) -> None:
    """Otherwise the first object would be what the second one is."""
    cut_off = f"as-set: AS-X\nas-name: X\n{cut}".encode()
    rest_of = obj(other, "members: AS666", "mnt-by: B-MNT", "source: RIPE")
    text = obj("as-set: AS-W", "mnt-by: A-MNT", "source: RIPE") + cut_off + rest_of
    (line,) = left_out(text)
    cause, place, first, name, item = line.split("\t")
    assert (cause, place[-2:], first) == (
        "a class inside a text, as of two lines that were joined",
        ":5",
        "as-set: AS-X",
    )
    assert name == (cut + other).partition(":")[0].lower() and other.split()[-1] in item
    assert made(text)[1].taken == 1


@pytest.mark.parametrize(
    "text",
    ["see as-set: AS-Y", "(route: 10.0.0.0/8)", "default-route: 0.0.0.0/0", "salesperson: Jo"]
    + ["as-set: AS-Y", "as-set:AS-Y", "sub-route: of 10.0.0.0/8", "xas-set:: AS-Y", "xmntner: Jo"],
)
def test_a_class_in_a_text_that_joins_no_lines(text: str) -> None:
    own = rest("as-set: AS-X", f"remarks: {text}", "mnt-irt: IRT-X")
    assert mended(own) == (syntax.read(own[:-1]).text(), set())


def test_colons_that_join_no_lines() -> None:
    for kind, value in [
        ("as-set: AS-X", "members: AS1:AS-ROUTE:AS-POEM, AS-PERSON:AS-X"),
        ("route-set: RS-X", "members: AS1:RS-ROUTE^+, RS-DOMAIN:AS1"),
        ("aut-num: AS1", "member-of: AS-ROUTE:AS-X"),
    ]:
        text = rest(kind, value)
        assert mended(text) == (syntax.read(text[:-1]).text(), set())
    text = rest("as-set: AS-X", "members: AS-FOO:BAR, ::, ::1, 2001:db8::, RIPE::foo, AS1")
    assert lists_of(text)[0] == [(b"members", [b"AS1"])]


# A file that ends too early.


@pytest.mark.parametrize(
    "end",
    [
        "members: AS1, AS64",
        "members: AS1,\n AS64",
        "mnt-by: A-MNT",
        "source: RIPE\nmembers: AS1, AS64",
        "source: RIPE\nmnt-by: A-M",
        "mnt-by: A-MNT\nsource: RIPE",
        "mnt-by: A-MNT\nsource: RIPE\n# a comm",
    ],
)
def test_the_last_object_of_a_file_that_was_cut_off(end: str) -> None:
    """`AS64` may have been `AS64496`: without an end of the line, wherever the `source` stands."""
    whole = obj("as-set: AS-Y", "mnt-by: A-MNT", "source: RIPE")
    text = whole + f"as-set: AS-X\n{end}".encode()
    (line,) = left_out(text)
    assert line.startswith("cut off at the end of the file\t") and line.endswith("as-set: AS-X")
    assert b"AS-X" not in made(text)[0]
    # Other ends are none.
    for good in whole.rstrip(b"\n") + b"\n", whole.rstrip(b"\n") + b"\n \t", whole + b"# end":
        assert left_out(good) == []


# The list of what is left out.


def test_items_of_what_is_left_out_are_not_listed() -> None:
    """A duplicate, and a range that crosses another, is listed as a whole."""
    one = obj("as-set: AS-X", "members: x", "mnt-by: A-MNT", "source: RIPE")
    lines = left_out(one + obj("as-set: RS-X", "members: y!") + one)
    assert sorted(line.split("\t")[0] for line in lines) == [
        "a key that can't be read",
        "an item that can't be read",
        "duplicate",
    ]
    text = obj("inetnum: 10.0.0.0 - 10.0.0.9", "mnt-routes: A-MNT {::/0}", "source: RIPE")
    lines = left_out(text + text.replace(b"10.0.0.0 ", b"10.0.0.5 ").replace(b"0.9", b"0.12"))
    assert [line.split("\t")[0] for line in lines] == ["crossing", "IPv6"]


def test_each_reason_is_listed_with_object_attribute_and_item() -> None:
    lines = left_out(
        obj(
            "as-set: AS-X",
            "members: AS1, cafe, ::/0",
            "mnt-by: A-MNT",
            "source: RIPE",
        )
        + obj("route: 10.0.0.0/8", "mnt-routes: A-MNT {x}", "origin: AS1", "source: RIPE")
    )
    assert [line.split("\t")[:1] + line.split("\t")[2:] for line in lines] == [
        ["an item that can't be read", "as-set: AS-X", "members", "cafe"],
        ["IPv6", "as-set: AS-X", "members", "::/0"],
        ["an item that can't be read", "route: 10.0.0.0/8 AS1", "mnt-routes", "x"],
    ]

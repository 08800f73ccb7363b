"""What lists of routers take, and how much of an older list a new one has lost."""

import pytest

from irr.filters.lists import Spans, entries, losses

PREFIXES = {
    "bird": "define X = [ 10.0.0.0/24, 10.0.1.0/24{24,26}, 10.0.2.0/23+ ];",
    "frr": "ip prefix-list X seq 5 permit 10.0.0.0/24\nip prefix-list X permit 10.0.1.0/24 le 26\n"
    "ip prefix-list X permit 10.0.2.0/23 ge 23 le 32\nip prefix-list X deny any\n",
    "openbgpd": "prefix-set X {\n\t10.0.0.0/24\n\t10.0.1.0/24 prefixlen 24 - 26\n"
    "\t10.0.2.0/23 or-longer\n}\n",
}
# The same prefixes, or some of them, and how many of the three entries are lost.
OTHERS = [
    ("10.0.0.0/24, 10.0.1.0/24{24,26}, 10.0.2.0/23{23,32}", 0),
    ("10.0.0.0/16{16,32}", 0),
    ("10.0.0.0/24, 10.0.1.0/24{24,25}, 10.0.2.0/23{23,32}", 1),
    ("10.0.0.0/23{24,32}, 10.0.2.0/23{23,32}", 0),
    ("10.0.0.0/23{24,32}, 10.0.2.0/24{24,32}, 10.0.3.0/24{24,32}", 1),
    ("10.0.0.0/23{24,32}, 10.0.2.0/23, 10.0.2.0/24{24,32}, 10.0.3.0/24{24,32}", 0),
    ("10.0.0.0/24, 10.0.1.0/24, 10.0.1.0/25{25,26}, 10.0.1.128/25, 10.0.2.0/23+", 1),
    # A prefix inside one that is there already takes nothing away.
    ("10.0.0.0/22{23,32}, 10.0.0.0/24, 10.0.1.0/25{25,25}, 10.0.2.0/24{24,32}", 0),
    ("10.0.0.0/23", 3),
    ("", 3),
]


def loss(router: str, old: str, new: str) -> list[tuple[str, int, int]]:
    """The name, what is lost, and the count of each list."""
    return [(one.name, one.lost, one.size) for one in losses(router, old, new)]


@pytest.mark.parametrize("router", list(PREFIXES))
@pytest.mark.parametrize(("new", "lost"), OTHERS)
def test_loss(router: str, new: str, lost: int) -> None:
    text = f"define X = [ {new} ];"
    if router == "bird":
        assert loss("bird", PREFIXES["bird"], text) == [("X", lost, 3)]
    # The old list in another syntax takes the same.
    assert loss(router, PREFIXES[router], PREFIXES[router]) == [("X", 0, 3)]


def test_syntaxes_say_the_same() -> None:
    assert len({frozenset(entries(router, text)) for router, text in PREFIXES.items()}) == 1


@pytest.mark.parametrize(
    ("router", "text"),
    [
        ("bird", "define X = [ 10.0.0.0/24{26,25} ];"),
        ("frr", "ip prefix-list X permit 10.0.0.0/24 ge 28 le 26\n"),
        ("openbgpd", "prefix-set X { 10.0.0.0/24 prefixlen 26 - 25 }"),
        ("openbgpd", "prefix-set X { 10.0.0.0/24 prefixlen = 23 }"),
    ],
)
def test_an_entry_of_no_length_is_none(router: str, text: str) -> None:
    """It would be lost, and kept, by any list."""
    assert list(entries(router, text)) == []


def test_comments_and_refusals_take_nothing() -> None:
    bird = "# 10.0.0.0/8\n/* 10.1.0.0/16\n*/ define X = [ 10.2.0.0/16 ];"
    assert loss("bird", bird, "") == [("X", 1, 1)]
    frr = "! 10.0.0.0/8\nno ip prefix-list X\nip prefix-list X deny 0.0.0.0/0\n"
    assert loss("frr", frr, "") == []
    assert loss("frr", "ip prefix-list X seq 5 deny any\n", "") == []


def test_ipv6() -> None:
    old = "ipv6 prefix-list X permit 2001:db8::/32 le 48\nipv6 prefix-list X permit 2001:db9::/32\n"
    assert loss("frr", old, "ipv6 prefix-list X permit 2001:db8::/31 ge 32 le 48\n") == [
        ("X", 0, 2)
    ]
    assert loss("frr", old, "ip prefix-list X permit 0.0.0.0/0 le 32\n") == [("X", 2, 2)]


def test_numbers_where_there_are_no_prefixes() -> None:
    old, new = "define O = [ 64496, 64497 ];", "define O = [ 64497, 64498 ];"
    assert loss("bird", old, new) == [("O", 1, 2)]
    old = "bgp as-path access-list O seq 5 permit ^64496(_[0-9]+)*_(64497|64498)$\n"
    # What stands for any number is none, nor is that of a line.
    new = old.replace("|64498", "").replace("seq 5", "seq 7")
    assert loss("frr", old, new) == [("O", 1, 3)]
    old = "as-set O {\n\t64496 64497\n}\n"
    assert loss("openbgpd", old, old.replace(" 64497", "")) == [("O", 1, 2)]
    # There is no list.
    rules = "allow from AS 64496\nallow from AS 64497\n"
    assert loss("openbgpd", rules, rules.replace("7", "8")) == [("", 1, 2)]


@pytest.mark.parametrize(
    ("router", "numbers"),
    [
        ("bird", "define O = [ 1, 2, 3, 4 ];\n"),
        ("frr", "bgp as-path access-list B permit ^1(_[0-9]+)*_(2|3|4)$\n"),
        ("openbgpd", "as-set B { 1 2 3 4 }\n"),
    ],
)
def test_numbers_beside_prefixes(router: str, numbers: str) -> None:
    """Also where a list of prefixes has the same name."""
    name, old = "O" if router == "bird" else "B", MANY[router] + numbers
    assert loss(router, old, old) == [("A", 0, 1), ("B", 0, 2), (name, 0, 4)]
    assert loss(router, old, MANY[router]) == [("A", 0, 1), ("B", 0, 2), (name, 4, 4)]
    new = MANY[router] + numbers.replace("4", "5")
    assert loss(router, old, new) == [("A", 0, 1), ("B", 0, 2), (name, 1, 4)]


MANY = {
    "bird": "define A = [ 10.0.0.0/8{8,24} ];\ndefine B = [\n 10.1.0.0/16,\n 10.2.0.0/16\n];\n",
    "frr": "ip prefix-list A permit 10.0.0.0/8 le 24\nip prefix-list B seq 1 permit 10.1.0.0/16\n"
    "ip prefix-list B\n    seq 2 permit 10.2.0.0/16\n",
    "openbgpd": "prefix-set A {\n\t10.0.0.0/8 maxlen 24\n}\n"
    'prefix-set "B" { 10.1.0.0/16, 10.2.0.0/16 }\n',
}


def test_lists_of_both_families_are_two() -> None:
    """FRR tells them apart, so one name may be that of both."""
    old = "".join(f"ip prefix-list X permit 10.{n}.0.0/16\n" for n in range(9))
    six = "ipv6 prefix-list X seq 5 permit 2001:db8::/32\n"
    assert loss("frr", old + six, old + six) == [("X", 0, 9), ("X", 0, 1)]
    assert loss("frr", old + six, old) == [("X", 0, 9), ("X", 1, 1)]
    assert loss("frr", old + six, six) == [("X", 9, 9), ("X", 0, 1)]


def test_macros_are_lists() -> None:
    """So bgpq4 writes them for OpenBGPD where it is not told otherwise."""
    old = 'BIG="prefix { \\\n' + "".join(f"\t10.{n}.0.0/16 \\\n" for n in range(9)) + '\t}"\n'
    small = 'small = "prefix { \\\n\t10.99.0.0/16 prefixlen 16 - 24\n\t}"\n'
    assert loss("openbgpd", old + small, small + old) == [("BIG", 0, 9), ("small", 0, 1)]
    assert loss("openbgpd", old + small, old) == [("BIG", 0, 9), ("small", 1, 1)]
    numbers = 'peers="{ 64496 64497 }"\n'
    kept = [("BIG", 0, 9), ("peers", 0, 2)]
    assert loss("openbgpd", old + numbers, numbers + old) == kept
    gone = [("BIG", 0, 9), ("peers", 1, 2)]
    assert loss("openbgpd", old + numbers, old + numbers.replace("7", "8")) == gone


def test_names_in_quotes_are_of_lists() -> None:
    """So BIRD takes a name with a dash or a colon, such as that of a set."""
    old = MANY["bird"].replace("A", "'AS1:AS-A'").replace("B", "'AS-B'")
    assert loss("bird", old, old) == [("'AS1:AS-A'", 0, 1), ("'AS-B'", 0, 2)]
    for other in old.replace("AS-B", "AS-C"), old.partition("define 'AS-B'")[0]:
        assert loss("bird", old, other) == [("'AS1:AS-A'", 0, 1), ("'AS-B'", 2, 2)]


@pytest.mark.parametrize("router", list(MANY))
def test_each_list_of_a_file(router: str) -> None:
    """What one list has lost is not made up for by another one, nor by one of another name."""
    old = MANY[router]
    assert loss(router, old, old) == [("A", 0, 1), ("B", 0, 2)]
    assert loss(router, old, old.replace("A", "C")) == [("A", 1, 1), ("B", 0, 2)]
    for place in "10.1.0.0/16", "10.2.0.0/16":
        new = old.replace(place, "10.3.0.0/16")
        assert loss(router, old, new) == [("A", 0, 1), ("B", 1, 2)]
    without = MANY[router].partition("define B" if router == "bird" else 'prefix-set "B')[0]
    if router == "frr":
        without = old.partition("\n")[0] + "\nip prefix-list B deny any\n"
    assert loss(router, old, without) == [("A", 0, 1), ("B", 2, 2)]
    for other in MANY:
        assert sorted(entries(other, MANY[other])) == sorted(entries(router, old))


@pytest.mark.parametrize(
    ("text", "takes"),
    [
        ("10.0.0.0/24 ge 26", "10.0.0.0/24{26,32}"),
        ("10.0.0.0/24 ge 26 le 28", "10.0.0.0/24{26,28}"),
        ("10.0.0.0/24 le 28", "10.0.0.0/24{24,28}"),
        ("10.0.0.1/24", "10.0.0.0/24{24,24}"),
    ],
)
def test_lengths_of_frr(text: str, takes: str) -> None:
    frr = f"ip prefix-list X seq 5 permit {text}\n"
    assert list(entries("frr", frr)) == list(entries("bird", takes))


@pytest.mark.parametrize(
    ("text", "takes"),
    [
        ("10.0.0.0/24 maxlen 26", "10.0.0.0/24{24,26}"),
        ("10.0.0.0/24 prefixlen = 26", "10.0.0.0/24{26,26}"),
        ("10.0.0.0/24 prefixlen 25 - 26", "10.0.0.0/24{25,26}"),
        ("10.0.0.0/24 prefixlen >= 30", "10.0.0.0/24{30,32}"),
        ("10.0.0.0/24 prefixlen > 30", "10.0.0.0/24{31,32}"),
        ("10.0.0.0/24 prefixlen <= 26", "10.0.0.0/24{24,26}"),
        ("10.0.0.0/24 prefixlen < 26", "10.0.0.0/24{24,25}"),
    ],
)
def test_lengths_of_openbgpd(text: str, takes: str) -> None:
    assert list(entries("openbgpd", text)) == list(entries("bird", takes))


CUSTOMERS = ", ".join(f"10.0.{number}.0/24" for number in range(10))
LENGTHS = "if net ~ [ 0.0.0.0/0{8,24} ] then "


@pytest.mark.parametrize(
    ("text", "name", "others"),
    [
        # The list of a length takes whatever the list of customers has lost.
        ("define C = [ %s ];\nfilter f { " + LENGTHS + "accept; }\n", "C", ["1 of f"]),
        ("function f() { " + LENGTHS + "return net ~ [ %s ]; }\n", "2 of f", ["1 of f"]),
        ("filter f { " + LENGTHS + "if net ~ [ %s ] then accept; }\n", "2 of f", ["1 of f"]),
        ("B = [ 0.0.0.0/0{8,24} ];\nC = [ %s ];\n", "C", ["B"]),
        ("function f() { C = [ %s ]; B = [ 0.0.0.0/0+ ]; }\n", "C of f", ["B of f"]),
    ],
)
def test_lists_of_functions_are_judged_each(text: str, name: str, others: list[str]) -> None:
    """A command may print a whole filter of BIRD, with other lists than that of a set."""
    old, new = text % CUSTOMERS, text % "10.0.0.0/24"
    kept = [(other, 0, 1) for other in others]
    assert sorted(loss("bird", old, old)) == sorted([(name, 0, 10), *kept])
    assert sorted(loss("bird", old, new)) == sorted([(name, 9, 10), *kept])


def test_rules_are_no_part_of_the_set_before_them() -> None:
    rules = (
        "deny from any\nallow from any prefix-set C\nmatch from any prefix 0.0.0.0/0 or-longer\n"
    )
    old, new = (f"prefix-set C {{ {text} }}\n{rules}" for text in (CUSTOMERS, "10.0.0.0/24"))
    assert loss("openbgpd", old, old) == [("C", 0, 10), ("match from any", 0, 1)]
    assert loss("openbgpd", old, new) == [("C", 9, 10), ("match from any", 0, 1)]
    list_of_frr = "".join(f"ip prefix-list C permit {text}\n" for text in CUSTOMERS.split(", "))
    other = "access-list X permit 10.0.0.0/8\n"
    assert loss("frr", list_of_frr + other, list_of_frr[:36] + other) == [("C", 9, 10), ("X", 0, 1)]


OLD_LINES = [
    "seq 5 permit 10.0.0.0/24",
    "seq 10 permit 10.0.1.0/24",
    "seq 15 permit 10.0.2.0/24 le 26",
]


def lines_of_frr(lines: list[str]) -> str:
    """The lines of a list, but those that remove it or one of them, which have its name."""
    named = (line if line.startswith("no ") else f"ip prefix-list C {line}" for line in lines)
    return "".join(line + "\n" for line in named)


@pytest.mark.parametrize(
    ("new", "lost"),
    [
        (["seq 1 deny 0.0.0.0/0 le 32", *OLD_LINES], 3),
        ([*OLD_LINES, "seq 1 deny any"], 3),
        ([*OLD_LINES, "seq 99 deny any"], 0),
        ([*OLD_LINES, "deny any"], 0),
        (["seq 1 deny 10.0.1.0/24", *OLD_LINES], 1),
        # Nothing of the first two is as long.
        (["seq 1 deny 10.0.0.0/8 ge 26 le 27", *OLD_LINES], 1),
        ([*OLD_LINES, "no ip prefix-list C"], 3),
        (["no ip prefix-list C", *OLD_LINES], 0),
        ([*OLD_LINES, "no ip prefix-list C", OLD_LINES[1]], 2),
        ([*OLD_LINES, "no ip prefix-list C seq 10 permit 10.0.1.0/24"], 1),
        # A number is that of one line. Without one a line has that of the last and 5.
        ([*OLD_LINES, "seq 10 permit 10.0.8.0/24"], 1),
        (["seq 7 permit 10.0.0.0/23 le 24", "permit 10.0.2.0/24 le 26", "seq 11 deny any"], 1),
        # A line that is there stays where it is.
        (["seq 20 deny any", OLD_LINES[0], "seq 25 permit any", "seq 15 permit any"], 2),
        (["description permit 10.0.0.0/8 le 32", OLD_LINES[1]], 2),
        (["permit any"], 0),
    ],
)
def test_lines_of_frr_are_looked_at_by_their_numbers(new: list[str], lost: int) -> None:
    """The first one that fits decides, and a line can remove others."""
    assert loss("frr", lines_of_frr(OLD_LINES), lines_of_frr(new)) == [("C", lost, 3)]


def test_what_an_old_list_of_frr_refused_is_not_lost() -> None:
    refused = "ip prefix-list C deny 10.0.0.0/8 le 32\n"
    old = refused + "ip prefix-list C permit 0.0.0.0/0 le 24\nip prefix-list C permit 10.1.0.0/16\n"
    assert loss("frr", old, old) == [("C", 0, 1)]
    assert loss("frr", old, old.replace("le 24", "le 23")) == [("C", 1, 1)]


def test_a_range_of_numbers_is_of_all_of_them() -> None:
    old = "define O = [ 64496..64500, 64510 .. 64520, 65000 ];"
    assert loss("bird", old, old) == [("O", 0, 3)]
    assert loss("bird", old, "define O = [ 64490..65000 ];") == [("O", 0, 3)]
    assert loss("bird", old, "define O = [ 64496, 64500, 64510..64512, 65000 ];") == [("O", 2, 3)]
    old = "ip as-path access-list O permit _(64497|64498)$\n"
    assert loss("frr", old, old.replace("permit", "deny")) == [("O", 2, 2)]


@pytest.mark.parametrize(
    ("router", "text", "takes"),
    [
        ("bird", "10.0.0.0/8 { 9 , 24 }", "10.0.0.0/8{9,24}"),
        ("bird", "10.0.0.0/8\n  {9,24}", "10.0.0.0/8{9,24}"),
        ("bird", "10.0.0.0/8 +", "10.0.0.0/8{8,32}"),
        ("bird", "010.0.00.0/8 -", "10.0.0.0/8{0,8}"),
        ("frr", "permit 10.0.0.0/8  ge  9  le  24", "10.0.0.0/8{9,24}"),
        ("frr", "permit 10.0.0.0/8 le 24 ge 9", "10.0.0.0/8{9,24}"),
        ("frr", "permit any", "0.0.0.0/0{0,32}"),
        # As `bgpd -nvv` of 7.7 prints them: 0.0.0.10/8, 10.0.0.1/16 and 8.0.0.0/8.
        ("openbgpd", "10/8", "0.0.0.0/8"),
        ("openbgpd", "10.1/16\tprefixlen\t17 - 24", "10.0.0.0/16{17,24}"),
        ("openbgpd", "010.0.0.0/8", "8.0.0.0/8"),
        ("openbgpd", "10.0.0.0/8 prefixlen =24", "10.0.0.0/8{24,24}"),
        ("openbgpd", "10.0.0.0/8 prefixlen>=24", "10.0.0.0/8{24,32}"),
        ("openbgpd", "10.0.0.0/8 prefixlen<24", "10.0.0.0/8{8,23}"),
        ("openbgpd", "10.0.0.0 / 8 or-longer", "10.0.0.0/8{8,32}"),
        ("openbgpd", "10.0.0.0/8 prefixlen != 24", "10.0.0.0/8{8,23} 10.0.0.0/8{25,32}"),
        ("openbgpd", "10.0.0.0/8 prefixlen 9 ><24", "10.0.0.0/8{8,8} 10.0.0.0/8{25,32}"),
        ("openbgpd", "10.0.0.0/8 prefixlen 9 >< 24", "10.0.0.0/8{8,8} 10.0.0.0/8{25,32}"),
    ],
)
def test_spellings_that_routers_read(router: str, text: str, takes: str) -> None:
    """A range that is taken for its prefix alone would be kept by that prefix."""
    assert list(entries(router, text)) == list(entries("bird", takes))


@pytest.mark.parametrize(
    ("router", "text"),
    [
        ("bird", 'filter f { print "AS# "; if net ~ [ %s ] then accept; }\n'),
        ("bird", 'filter f { print " /* "; if net ~ [ %s ] then accept; }\n/* the end */\n'),
        ("bird", 'filter f { print "[;"; if net ~ [ %s ] then accept; }\n'),
        ("openbgpd", 'allow from group "peer #1" prefix { %s }\n'),
        ("openbgpd", "allow from group 'peer #1' prefix { %s }\n"),
        ("openbgpd", 'descr = "a \\" # b"\nallow from any prefix { %s }\n'),
    ],
)
def test_what_is_quoted_begins_no_comment(router: str, text: str) -> None:
    """The list after it would be lost unseen."""
    old, new = text % CUSTOMERS, text % "10.0.0.0/24"
    assert [one[1:] for one in loss(router, old, old)] == [(0, 10)]
    assert [one[1:] for one in loss(router, old, new)] == [(9, 10)]
    # In a comment a quotation mark begins nothing.
    assert [one[1:] for one in loss(router, '# "\n' + old, '# "\n' + new)] == [(9, 10)]


def test_rules_of_openbgpd_are_judged_each() -> None:
    """A command may print a whole set of rules, some of which refuse, or take for another peer."""
    others = (
        "deny from any prefix 10.0.0.0/8 prefixlen > 24\n"
        "deny quick from any \\\n  prefix { 10.0.0.0/8 or-longer }\n"
        "allow from { 192.0.2.2, 192.0.2.3 } prefix { 10.0.0.0/16 maxlen 24 }\n"
    )
    kept = [
        ("deny from any", 0, 1),
        ("deny quick from any", 0, 1),
        ("allow from { 192.0.2.2, 192.0.2.3 }", 0, 1),
    ]
    rule = "allow from 192.0.2.1"
    whole = rule + " prefix {\n %s\n} set localpref 5\n"
    line_each = "".join(f"{rule}  prefix {text}\n" for text in CUSTOMERS.split(", "))
    for old, new in [
        (whole % CUSTOMERS, whole % "10.0.0.0/24"),
        (line_each, line_each.partition("\n")[0] + "\n"),
    ]:
        assert loss("openbgpd", others + old, others + old) == [*kept, (rule, 0, 10)]
        assert loss("openbgpd", others + old, others + new) == [*kept, (rule, 9, 10)]


BITS = 4


@pytest.mark.parametrize("length", range(BITS + 1))
def test_patterns_of_bird(length: int) -> None:
    """BIRD's manual: a prefix is taken if the bits that both have are the same, and if its length
    is one of the pattern's. So it may cover that of the pattern."""
    for low in range(BITS + 1):
        for high in range(low, BITS + 1):
            for first in range(0, 1 << BITS, 1 << BITS - length):
                pattern = f"{first << 4}.0.0.0/{length}{{{low},{high}}}"
                spans = Spans(span for one in entries("bird", pattern) for span in one.spans())
                for size in range(BITS + 1):
                    for other in range(0, 1 << BITS, 1 << BITS - size):
                        shift = BITS - min(length, size)
                        takes = low <= size <= high and first >> shift == other >> shift
                        span = other << 28, other + (1 << BITS - size) << 28
                        assert spans.has((32, size, ""), *span) == takes


@pytest.mark.parametrize(
    ("old", "new", "lost"),
    [
        ("10.0.1.0/24{16,28}", "10.0.1.0/24{24,28}", 1),
        ("10.0.1.0/24{16,28}", "10.0.2.0/24{16,23}, 10.0.1.0/24{24,28}", 1),
        ("10.0.1.0/24{16,28}", "10.0.0.0/16+", 0),
        ("10.0.1.0/24-", "10.0.1.0/24", 1),
        ("10.0.1.0/24-", "10.0.0.0/23-, 10.0.1.0/24", 0),
        ("10.0.1.0/24", "10.0.1.128/25-", 0),
        ("10.0.0.0/24{20,23}", "10.0.0.0/24", 1),
    ],
)
def test_covering_prefixes_are_lost_too(old: str, new: str, lost: int) -> None:
    assert loss("bird", f"define X = [ {old} ];", f"define X = [ {new} ];") == [("X", lost, 1)]


@pytest.mark.parametrize(
    ("old", "new", "lost"),
    [
        ("10.0.0.0 0.255.255.255", "10.0.0.0 0.255.255.255", 0),
        ("10.0.0.0 0.255.255.255", "10.0.0.0 0.127.255.255", 1),
        ("10.0.0.0 0.0.0.255", "10.0.0.0 0.0.255.255", 0),
        ("10.0.0.0 0.255.255.255", "10.0.0.0/7", 0),
        ("10.0.0.0/8", "10.0.0.0 0.255.255.255", 0),
        ("10.0.0.0/8", "10.0.0.0/8 exact-match", 1),
        ("10.0.0.0/8 exact-match", "10.0.0.0/8", 0),
        ("10.1.0.0/16", "any", 0),
        ("any", "10.1.0.0/16", 1),
        # A network of this address, of any length.
        ("10.1.0.0/16 exact-match", "host 10.1.0.0", 0),
        ("10.1.1.0/24 exact-match", "host 10.1.0.0", 1),
        ("0.0.0.0/0 exact-match", "0.0.0.0", 0),
        # The second pattern is that of the mask.
        ("10.0.0.0/8", "ip 10.0.0.0 0.255.255.255 any", 0),
        ("10.0.0.0/8", "ip 10.0.0.0 0.255.255.255 255.255.0.0 0.0.255.255", 1),
        ("10.0.0.0/16", "ip 10.0.0.0 0.255.255.255 255.255.0.0 0.0.255.255", 0),
        ("10.0.0.0/16 exact-match", "ip any host 255.255.0.0", 0),
        ("10.0.0.0/17 exact-match", "ip any host 255.255.0.0", 1),
        # Bits that are not the last ones: only the same words take the same.
        ("10.0.0.0 0.255.0.255", "10.0.0.0  0.255.0.255", 0),
        ("10.0.0.0 0.255.0.255", "10.0.0.0 0.254.0.255", 1),
    ],
)
def test_access_lists_of_frr(old: str, new: str, lost: int) -> None:
    lists = [f"access-list X seq 5 permit {text}\n" for text in (old, new)]
    assert loss("frr", lists[0], lists[1]) == [("X", lost, 1)]
    refused = "access-list X seq 1 deny 10.0.0.0 0.255.255.255\naccess-list X seq 2 deny any\n"
    assert loss("frr", lists[0], refused + lists[1]) == [("X", 1, 1)]


def test_access_lists_of_ipv6() -> None:
    old = "ipv6 access-list X permit 2001:db8::/32\naccess-list X permit 10.0.0.0/8\n"
    assert loss("frr", old, old) == [("X", 0, 1), ("X", 0, 1)]
    assert loss("frr", old, old.replace("/32", "/32 exact-match")) == [("X", 1, 1), ("X", 0, 1)]
    assert loss("frr", old, old.replace("2001:db8::/32", "any")) == [("X", 0, 1), ("X", 0, 1)]


@pytest.mark.parametrize(
    ("line", "lost"),
    [
        ("permit 10.0.1.0/24", 1),
        ("permit  10.0.2.0/24  le 26", 1),
        ("deny 10.0.1.0/24", 0),
        ("seq 10", 1),
        ("description", 0),
        ("", 3),
    ],
)
def test_what_a_removal_of_frr_removes(line: str, lost: int) -> None:
    """As FRR does it: a line by its number, or by its words; else the list."""
    old = lines_of_frr(OLD_LINES)
    new = old + f"no ip prefix-list C {line}\n"
    assert loss("frr", old, new) == [("C", lost, 3)]
    assert sum(one.size for one in losses("frr", new, "")) == 3 - lost


def test_a_removal_of_a_path_is_of_the_first_line_of_its_pattern() -> None:
    old = "".join(f"bgp as-path access-list P permit _{n}$\n" for n in (64496, 64497))
    for words in "permit _64497$", "seq 5 permit _64497$", "deny _64497$":
        assert loss("frr", old, f"{old}no bgp as-path access-list P {words}\n") == [("P", 1, 2)]
    none = "no bgp as-path access-list P seq 5 permit _1$\n"
    assert loss("frr", old, old + none) == [("P", 0, 2)]


def test_a_line_of_an_access_list_is_there_with_exact_match() -> None:
    old = "access-list X permit 10.0.0.0/8\n"
    exact = old.replace("/8", "/8 exact-match")
    assert loss("frr", old, exact + old) == [("X", 1, 1)]
    assert loss("frr", old, old + exact) == [("X", 0, 1)]


def test_no_path_is_taken_after_a_line_that_refuses_any() -> None:
    old = "".join(f"bgp as-path access-list P permit _{n}$\n" for n in (64496, 64497))
    refuses = "bgp as-path access-list P seq 1 deny %s\n"
    assert loss("frr", old, refuses % ".*" + old) == [("P", 2, 2)]
    assert loss("frr", old, refuses % "^$" + old) == [("P", 0, 2)]
    assert loss("frr", old, old + "bgp as-path access-list P deny .*\n") == [("P", 0, 2)]
    assert loss("frr", old, refuses % "_64497$" + old) == [("P", 1, 2)]
    assert loss("frr", refuses % "_64497$" + old, refuses % "_64497$" + old) == [("P", 0, 1)]
    # It may refuse less than each path with one of these.
    assert loss("frr", old, refuses % "_64496_64497$" + old) == [("P", 0, 2)]


@pytest.mark.parametrize("kind", ["origin-set O", "roa-set"])
def test_an_origin_is_a_part_of_an_entry(kind: str) -> None:
    old = kind + " {\n10.0.0.0/8 maxlen 24 source-as 64496 10.0.0.0/8 source-as 64497\n}\n"
    name = kind.split()[-1]
    assert loss("openbgpd", old, old) == [(name, 0, 2)]
    assert loss("openbgpd", old, old.replace("64497", "64498")) == [(name, 1, 2)]
    assert loss("openbgpd", old, old.replace("64496 ", "64497 ")) == [(name, 1, 2)]
    rules = "allow from any prefix 0.0.0.0/0 prefixlen 8 - 24\n"
    assert loss("openbgpd", old + rules, rules)[0] == (name, 2, 2)


def test_numbers_of_rules_are_judged_beside_sets() -> None:
    """So a command may print both, and for several peers."""
    sets = "prefix-set S { 10.0.0.0/8 }\n"
    rules = "".join(
        f"allow from {peer} source-as {number}\n"
        for peer in ("AS 64511", "{ AS 64512, AS 64513 }")
        for number in range(64496, 64500)
    )
    counts = [("S", 0, 1), ("allow from AS 64511 source-as", 0, 4)]
    other = "allow from { AS 64512, AS 64513 } source-as"
    assert loss("openbgpd", sets + rules, sets + rules) == [*counts, (other, 0, 4)]
    new = sets + rules.rpartition("allow")[0]
    assert loss("openbgpd", sets + rules, new) == [*counts, (other, 1, 4)]
    rule = "match from any AS { 64496 - 64499 65000 } set localpref 5\n"
    new = rule.replace(" - ", " ").replace("5\n", "6\n")
    assert loss("openbgpd", rule, new) == [("match from any AS", 1, 2)]


def test_words_after_the_prefixes_tell_rules_apart() -> None:
    old = "".join(f"allow from any prefix{{10.0.0.0/8}} source-as {n}\n" for n in (1, 2))
    assert [one[1:] for one in loss("openbgpd", old, old)] == [(0, 1), (0, 1)]
    assert [one[1:] for one in loss("openbgpd", old, old[: len(old) // 2])] == [(0, 1), (1, 1)]
    old = "".join(f"allow from any prefix 10.0.0.0/8 source-as {n}\n" for n in (1, 2))
    assert loss("openbgpd", old, old[: len(old) // 2]) == [("allow from any", 1, 2)]
    sets = "".join(f"allow from any prefix 10.0.0.0/8 source-as as-set {n}\n" for n in "XY")
    assert loss("openbgpd", sets, sets[: len(sets) // 2]) == [("allow from any", 1, 2)]
    # A rule of any path takes each.
    new = "allow from any prefix 10.0.0.0/8 prefixlen 8 - 24\n"
    assert loss("openbgpd", old, new) == [("allow from any", 0, 2)]
    assert loss("openbgpd", new, old) == [("allow from any", 1, 1)]


@pytest.mark.parametrize(
    ("router", "old", "new", "lost"),
    [
        # Numbers in two halves.
        ("openbgpd", "as-set X { 1.10 1.11 }", "as-set X { 1.10 1.12 }", 1),
        ("openbgpd", "as-set X { 1.10 1.11 }", "as-set X { 65546 65547 }", 0),
        # A line goes on after a backslash, also in a comment.
        ("openbgpd", "as-set \\\n X \\\n { 1 2 }", "as-set X { 1 }", 1),
        ("openbgpd", "as-set X { 1 2 }", "# \\\nas-set X { 1 2 }\nas-set X { 1 }", 1),
        ("openbgpd", "X = '{ 1 2 }'", 'X = "{ 1 }"', 1),
        ("bird", "function f() { X = [= [1, 2] 3 =]; }", "function f() { X = [= [1, 2] =]; }", 1),
    ],
)
def test_spellings_of_numbers(router: str, old: str, new: str, lost: int) -> None:
    beside = "prefix-set S { 10.0.0.0/8 }\n" if router == "openbgpd" else "define S = [ 1 ];\n"
    assert [one.lost for one in losses(router, beside + old, beside + new)] == [0, lost]


@pytest.mark.parametrize(
    ("router", "old", "gone"),
    [
        ("openbgpd", 'a="10.0.0.0/8"\nb="11.0.0.0/8"\nprefix-set X { $a $b }\n', "$b"),
        ("openbgpd", "long = 'or-longer'\nprefix-set X { 10.0.0.0/8 $long }\n", "$long"),
        ("openbgpd", 'a="64496"\nb="64497"\nas-set X { $a $b }\n', "$b"),
        ("openbgpd", 'a="64496"\nas-set X { 1 $a }\na="64497"\nas-set Y { 1 $a }\n', " $a"),
        ("bird", "define A = 64496;\ndefine B = 64497;\ndefine X = [ A, B ];\n", ", B"),
        ("bird", "define A = 64497;\ndefine X = [ 64496..A, 1 ];\n", "64496..A, "),
    ],
)
def test_what_stands_for_words_of_a_list(router: str, old: str, gone: str) -> None:
    """A macro, or a constant, stays if a list no longer has it."""
    new = old.replace(gone, "", 1)
    assert not any(one.lost for one in losses(router, old, old))
    assert [one.name for one in losses(router, old, new) if one.lost] == ["X"]

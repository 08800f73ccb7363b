"""Worked numbers and names: how addresses, prefixes, spans, AS numbers, blocks and names are
spelled and reported; what ranges hold, and what operators make of them (RFC 2622, 2 and 5;
profile)."""
import pytest

from checks.running import Trial
from checks.submissions.cases import HOLDERS, answered, opened, report_of, submitted, text

IN_MEMORY = True

# Keys. Those that are read are refused for a maintainer who is missing, and reported as they are
# printed.

# Texts, and the addresses that they are read as.
ADDRESSES = {
    "0.0.0.0": "0.0.0.0",
    "255.255.255.255": "255.255.255.255",
    "192.0.2.1": "192.0.2.1",
    "010.001.00.09": "10.1.0.9",
    "": None,
    ".": None,
    "1.2.3": None,
    "1.2.3.4.5": None,
    "1.2.3.": None,
    "1..2.3": None,
    "256.0.0.0": None,
    "0001.2.3.4": None,
    "1.2.3.4 ": None,
    "1,2.3.4": None,
    "+1.2.3.4": None,
}
# Texts, and the prefixes that they are read as: bits past the length are read as zero.
PREFIXES = {
    "5.0.0.0/5": "0.0.0.0/5",
    "255.255.255.255/0": "0.0.0.0/0",
    "192.0.2.1/31": "192.0.2.0/31",
    "192.0.2.1/32": "192.0.2.1/32",
    "128.9.128.5/08": "128.0.0.0/8",
    "0/0": None,
    "128.9/16": None,
    "10.0.0.0": None,
    "10.0.0.0/": None,
    "10.0.0.0/33": None,
    "10.0.0.0/008": None,
    "10.0.0.0/8/8": None,
    "10.0.0.0 /8": None,
}
# Spans as prefixes, or as ends with a dash, and what they are printed as.
SPANS = {
    "0.0.0.0/0": "0.0.0.0 - 255.255.255.255",
    "192.0.2.0/31": "192.0.2.0 - 192.0.2.1",
    "192.0.2.1/32": "192.0.2.1 - 192.0.2.1",
    "10.0.0.0/8": "10.0.0.0 - 10.255.255.255",
    "10.0.0.0 - 10.255.255.255": "10.0.0.0 - 10.255.255.255",
    "10.0.0.0-10.255.255.255": "10.0.0.0 - 10.255.255.255",
    "10.0.0.0\t \r-\t10.255.255.255": "10.0.0.0 - 10.255.255.255",
    "10.1.0.128 - 10.1.1.127": "10.1.0.128 - 10.1.1.127",
    "": None,
    "10.1.0.9 - 10.1.0.3": None,
    "10.0.0.0 - 10.0.0.1 - 10.0.0.2": None,
    "10.0.0.0/8 - 10.0.0.1": None,
    "10.0.0.0": None,
}
# Texts, and the AS numbers that they are read as.
NUMBERS = {
    "AS65535": "AS65535",
    "AS65536": "AS65536",
    "AS4294967295": "AS4294967295",
    "as007": "AS7",
    "aS0": "AS0",
    "As0000000001": "AS1",
    "AS4294967296": None,
    "AS9999999999": None,
    "AS04294967295": None,
    "AS00000000001": None,
    "AS": None,
    "A1": None,
    "7": None,
    "AS 1": None,
    "AS-1": None,
    "AS+1": None,
    "AS1.0": None,
}
# Texts, and the blocks that they are read as: two numbers with one dash.
BLOCKS = {
    "AS10-AS20": "AS10 - AS20",
    "as10 - as20": "AS10 - AS20",
    "AS010 \t\r-AS20": "AS10 - AS20",
    "AS10-\r \tas020": "AS10 - AS20",
    "AS20 - AS10": None,
    "AS10": None,
    "AS10 AS20": None,
    "AS10 -- AS20": None,
    "AS10 - AS20 - AS30": None,
    "10 - 20": None,
    "AS10 - AS4294967296": None,
    "-": None,
}
# Texts, and the names of maintainers that they are read as.
MAINTAINERS = {
    "a-mnt": "A-MNT",
    "ROOT-MNT": "ROOT-MNT",
    "x": "X",
    "Z_9": "Z_9",
    "ANYONE": "ANYONE",
    "asx": "ASX",
    "as1": "AS1",
    "rs_x": "RS_X",
    "m" * 80: "M" * 80,
    "m" * 81: None,
    "": None,
    "any": None,
    "as-x": None,
    "RS-MNT": None,
    "AS-": None,
    "-a": None,
    "1a": None,
    "_a": None,
    "a-": None,
    "a_": None,
    "a b": None,
    "a.b": None,
    "as1:as-x": None,
    "\u00e9a": None,
    "a\u00e9": None,
}
# Nineteen numbers of ten digits, with which a name of 255 bytes ends in AS-ABCDE.
LONG = "AS0000000001:" * 19
# Texts, and the names of as-sets that they are read as, without leading zeros.
AS_SETS = {
    "as1:as-x": "AS1:AS-X",
    "as-x:as1": "AS-X:AS1",
    "as-foo": "AS-FOO",
    "as-x:as-y:as1:as-z": "AS-X:AS-Y:AS1:AS-Z",
    "AS1:AS-CUSTOMERS": "AS1:AS-CUSTOMERS",
    "as-anyone": "AS-ANYONE",
    f"{LONG}AS-ABCDE": "AS1:" * 19 + "AS-ABCDE",
    f"{LONG}AS-ABCDEF": None,
    "rs-as-x": None,
    "as1:rs-x": None,
    "as-any": None,
}
# The same of route-sets.
ROUTE_SETS = {
    "rs-c": "RS-C",
    "as1:rs-x": "AS1:RS-X",
    "rs-as-x": "RS-AS-X",
    "AS007:rs-x:AS000": "AS7:RS-X:AS0",
    "AS1:RS-EXPORT:AS2": "AS1:RS-EXPORT:AS2",
    "RS-EXCEPTIONS:RS-BOGUS": "RS-EXCEPTIONS:RS-BOGUS",
    "as1:as-x": None,
    "as-x:as1": None,
    "Rs-Any": None,
}
# Texts that name no set of either kind.
NO_SETS = (
    "",
    "as-",
    "rs-",
    "as1",
    "AS1:AS2",
    "A-MNT",
    "as-x:rs-y",
    "as-any:as-x",
    "as1:as-any",
    "rs-any:as1",
    "as-x:",
    ":as-x",
    "as-x::as-y",
    "as-x:mnt",
    "as-x:peeras",
    "AS4294967296:as-x",
    "AS1 :as-x",
    "as-x: as-y",
    "as-x^+",
)
END_LINES = "mnt-by: GONE-MNT\nauth: x\nsource: TEST\n"
# The class attribute, what stands behind it, and texts with what its key is reported as.
KEYS = {
    "addresses": ("inetnum: {}/32\n", "inetnum {0} - {0}", ADDRESSES),
    "prefixes": ("route: {}\norigin: AS1\n", "route {} AS1", PREFIXES),
    "spans": ("inetnum: {}\n", "inetnum {}", SPANS),
    "AS numbers": ("aut-num: {}\n", "aut-num {}", NUMBERS),
    "origins": ("route: 10.0.0.0/8\norigin: {}\n", "route 10.0.0.0/8 {}", NUMBERS),
    "blocks": ("as-block: {}\n", "as-block {}", BLOCKS),
    "maintainers": ("mntner: {}\n", "mntner {}", MAINTAINERS),
    "as-sets": ("as-set: {}\n", "as-set {}", AS_SETS | dict.fromkeys(NO_SETS)),
    "route-sets": ("route-set: {}\n", "route-set {}", ROUTE_SETS | dict.fromkeys(NO_SETS)),
}


def outcomes(trial: Trial, objects: list[str]) -> list[str]:
    """The outcomes of objects in a new registry."""
    ran = trial.run(trial.work, stdin="\n".join(objects).encode())
    *lines, last = ran.printed.decode().splitlines()
    assert last == f"% items {len(objects)}"
    return [line.partition(" ")[2] for line in lines]


@pytest.mark.parametrize("front, key, texts", KEYS.values(), ids=KEYS)
def test_keys_are_reported_as_they_are_printed(
    trial: Trial, front: str, key: str, texts: dict[str, str | None]
) -> None:
    found = outcomes(trial, [front.format(one) + END_LINES for one in texts])
    assert dict(zip(texts, found, strict=True)) == {
        one: "-: refused E03" if printed is None else f"{key.format(printed)}: refused E10"
        for one, printed in texts.items()
    }


# Words that RPSL keeps for itself, which are names.
RESERVED = (
    "any as-any rs-any peeras and or not atomic from to at action accept announce except refine"
    " networks into inbound outbound"
).split()
# Texts, and whether they are names of another source, or none.
SOURCES = dict.fromkeys(RESERVED, "E06") | {
    "a-mnt": "E06",
    "x": "E06",
    "Z_9": "E06",
    "as-x": "E06",
    "m" * 80: "E06",
    "m" * 81: "E05",
    "-a": "E05",
    "1a": "E05",
    "_a": "E05",
    "a-": "E05",
    "a_": "E05",
    "a b": "E05",
    "a.b": "E05",
    "as1:as-x": "E05",
    "\u00e9a": "E05",
    "a\u00e9": "E05",
}
# Members of route-sets: whether they are a prefix with an operator, which may drop its range.
RANGED = {
    "192.0.2.1/32^-": "E10",
    "10.0.0.0/16^8": "E10",
    "192.0.2.0/31^0-30": "E10",
    "192.0.2.1/32^31": "E10",
    "192.0.2.1/32^0-31": "E10",
    "0/0": "E05",
    "30.0.0.0/8^24-28^+": "E05",
    "10.0.0.0/8^33": "E05",
    "10.0.0.0/8^28-24": "E05",
    "10.0.0.0/8^": "E05",
    "10.0.0.0/8^024": "E05",
    "10.0.0.0/8^24-": "E05",
    "10.0.0.0/8^-24": "E05",
    "10.0.0.0/8^+x": "E05",
    "10.0.0.0/8+": "E05",
    "^+": "E05",
}


def test_sources_are_names(trial: Trial) -> None:
    """A reserved word is a name, and no maintainer's."""
    objects = [f"aut-num: AS3\nmnt-by: GONE-MNT\nsource: {one}\n" for one in SOURCES]
    found = [one.rpartition(" ")[2] for one in outcomes(trial, objects)]
    assert dict(zip(SOURCES, found, strict=True)) == SOURCES


def test_a_range_has_one_operator(trial: Trial) -> None:
    found = outcomes(trial, [f"route-set: RS-A\nmembers: {one}\n{END_LINES}" for one in RANGED])
    codes = [one.rpartition(" ")[2] for one in found]
    assert dict(zip(RANGED, codes, strict=True)) == RANGED


# A faulty object and a good one, each with its outcome: a key is read before the rest.
READ = {
    "person: X | mnt-by: A-MNT": "-: refused E02",
    "route: 10.0.0.0/8 | mnt-by: A-MNT": "-: refused E03",
    "aut-num: as03 | mnt-by: A-MNT | source:": "aut-num AS3: refused E04",
    "as-set: as01:as-x | mnt-by: any": "as-set AS1:AS-X: refused E05",
    "as-set: as-x | mnt-by: A-MNT | source: OTHER": "as-set AS-X: refused E06",
    "route: 10.0.0.5/8 | origin: AS1 | mnt-by: A-MNT": "route 10.0.0.0/8 AS1: refused E10",
}


def test_a_key_is_read_before_its_object(trial: Trial) -> None:
    assert outcomes(trial, [text(one) for one in READ]) == [*READ.values()]


# What `object` asks for, where it is a key, and where it is none.
ASKED = (
    "mntner a-mnt",
    "as-block AS10 - AS20",
    "as-block AS65535 - AS65536",
    "aut-num AS4294967295",
    "inetnum 10.1.0.3-10.1.0.9",
    "route 10.0.0.0/8  as1",
    "route 10.0.0.0/8 AS65536",
    "as-set as01:as-x",
    "as-set as70000:as-x",
    "route-set RS-C",
)
NOT_ASKED = (
    "mntner AS-X",
    "aut-num AS4294967296",
    "as-set AS-ANY",
    "route-set RS-ANY",
    "route-set AS-X",
    "route 10.0.0.0/8",
    "route 10.0.0.0/8^+ AS1",
    "route 10.0.0.0/8 AS1 AS2",
    "route 10.0.0.0/8\nAS1",
    "inetnum 10.1.0.9 - 10.1.0.3",
)


def test_an_object_is_asked_for_by_a_key(trial: Trial) -> None:
    folder = opened(trial)
    keys = {one: answered(trial, folder, f"object {one}", 1) for one in (*ASKED, *NOT_ASKED)}
    assert keys == dict.fromkeys(ASKED, "% no entries\n") | dict.fromkeys(NOT_ASKED, "% error 1\n")


# Spans beside each other.

# Two spans, and the outcome of an inetnum of the second where there is one of the first.
PAIRS = (
    ("10.1.0.0 - 10.1.1.255", "10.1.0.128 - 10.1.1.127", "added"),
    ("10.1.0.0 - 10.1.1.255", "10.1.0.0 - 10.1.1.255", "unchanged"),
    ("10.1.0.128 - 10.1.1.127", "10.1.0.0 - 10.1.1.255", "added"),
    ("10.1.0.0 - 10.1.1.255", "10.1.1.0 - 10.1.2.255", "refused E16"),
    ("10.1.1.0 - 10.1.2.255", "10.1.0.0 - 10.1.1.255", "refused E16"),
    ("10.1.0.0 - 10.1.1.255", "10.1.2.0 - 10.1.2.255", "added"),
)


@pytest.mark.parametrize("one, other, outcome", PAIRS)
def test_spans_are_apart_or_nested_or_cross(
    trial: Trial, one: str, other: str, outcome: str
) -> None:
    held = [f"inetnum: {span} | mnt-by: ROOT-MNT" for span in (one, other)]
    ran = trial.run(trial.work, stdin=text("password: bc", *held).encode())
    assert ran.printed == report_of((f"inetnum {one}: added", f"inetnum {other}: {outcome}"))


# Ranges.

# Prefixes with an operator, and the ranges that they are printed as.
MADE = {
    "10.0.0.0/16^8-24": "10.0.0.0/16^16-24",
    "10.0.0.0/16^24": "10.0.0.0/16^24",
    "10.0.0.0/16^24-24": "10.0.0.0/16^24",
    "10.0.0.0/16^+": "10.0.0.0/16^+",
    "10.0.0.0/16^17-32": "10.0.0.0/16^-",
    "0.0.0.0/0": "0.0.0.0/0",
    "0.0.0.0/0^+": "0.0.0.0/0^+",
    "0.0.0.0/0^-": "0.0.0.0/0^-",
    "0.0.0.0/0^0": "0.0.0.0/0",
    "0.0.0.0/0^32": "0.0.0.0/0^32",
    "0.0.0.0/0^0-32": "0.0.0.0/0^+",
    "192.0.2.0/31": "192.0.2.0/31",
    "192.0.2.0/31^+": "192.0.2.0/31^+",
    "192.0.2.0/31^-": "192.0.2.0/31^-",
    "192.0.2.0/31^31": "192.0.2.0/31",
    "192.0.2.0/31^32": "192.0.2.0/31^-",
    "192.0.2.0/31^0-32": "192.0.2.0/31^+",
    "192.0.2.1/32": "192.0.2.1/32",
    "192.0.2.1/32^+": "192.0.2.1/32",
    "192.0.2.1/32^32": "192.0.2.1/32",
    "192.0.2.1/32^0-32": "192.0.2.1/32",
    "192.0.2.1/32^-": None,
    "10.0.0.0/16^8": None,
    "192.0.2.0/31^0-30": None,
    "192.0.2.1/32^31": None,
    "192.0.2.1/32^0-31": None,
}
# Operators on a prefix, those on that, and what both make, as RFC 2622, 2 lists it.
DISTRIBUTED = {
    ("^+", "^-"): "128.9.0.0/16^-",
    ("^-", "^+"): "128.9.0.0/16^-",
    ("^17", "^24"): "128.9.0.0/16^24",
    ("^20-24", "^26-28"): "128.9.0.0/16^26-28",
    ("^20-24", "^22-28"): "128.9.0.0/16^22-28",
    ("^20-24", "^18-28"): "128.9.0.0/16^20-28",
    ("^20-24", "^18-22"): "128.9.0.0/16^20-22",
    ("^20-24", "^18-19"): None,
}
# Ranges in their order.
ORDERED = ("9.0.0.0/8^+", "10.0.0.0/8", "10.0.0.0/8^+", "10.0.0.0/8^9", "10.0.0.0/9")
DROPPED = "192.0.2.1/32^- 10.0.0.0/16^8, 10.0.0.0/8"


def expansions(trial: Trial, members: list[str]) -> list[str]:
    """What route-sets with these members stand for; RS-N is the n-th."""
    sets = [
        f"route-set: RS-{n} | members: {one} | mnt-by: ROOT-MNT" for n, one in enumerate(members, 1)
    ]
    folder, _ = submitted(trial, (text("password: bc", *sets),))
    return [answered(trial, folder, f"expand RS-{n}", 9) for n in range(1, len(members) + 1)]


def told(made: str | None) -> str:
    return "% empty\n" if made is None else f"{made}\n"


def test_operators_on_a_prefix_print_as_tabled(trial: Trial) -> None:
    found = expansions(trial, [*MADE])
    assert dict(zip(MADE, found, strict=True)) == {one: told(made) for one, made in MADE.items()}


def test_an_outer_operator_distributes_over_an_inner_one(trial: Trial) -> None:
    inner = [f"128.9.0.0/16{one}" for one, _ in DISTRIBUTED]
    outer = [f"RS-{n}{one}" for n, (_, one) in enumerate(DISTRIBUTED, 1)]
    found = expansions(trial, inner + outer)[len(inner) :]
    assert dict(zip(DISTRIBUTED, found, strict=True)) == {
        pair: told(made) for pair, made in DISTRIBUTED.items()
    }


def test_ranges_are_listed_in_order_and_dropped_ones_are_not(trial: Trial) -> None:
    found = expansions(trial, [" ".join(reversed(ORDERED)), DROPPED])
    assert found == ["".join(f"{one}\n" for one in ORDERED), "10.0.0.0/8\n"]


# Ranges, prefixes, and whether the range admits the prefix: by examples of RFC 2622, 2, and by
# prefix and length. Some prefixes have the greatest length of their range, or the least.
ADMITTED = (
    ("128.9.0.0/16^-", "128.9.0.0/16", False),
    ("128.9.0.0/16^-", "128.9.128.5/32", True),
    ("5.0.0.0/8^+", "5.0.0.0/8", True),
    ("5.0.0.0/8^+", "5.255.0.0/17", True),
    ("10.0.0.0/8^+", "10.1.2.3/32", True),
    ("30.0.0.0/8^16", "30.9.0.0/16", True),
    ("30.0.0.0/8^16", "30.9.0.0/17", False),
    ("30.0.0.0/8^24-32", "30.9.9.96/28", True),
    ("30.0.0.0/8^24-32", "30.9.0.0/23", False),
    ("10.1.0.0/16^24", "10.1.5.0/24", True),
    ("10.1.0.0/16^24", "10.1.6.0/25", False),
    ("10.1.0.0/16^24", "10.1.0.0/16", False),
    ("10.1.0.0/16^24", "10.2.0.0/24", False),
)


def test_a_range_admits_the_lengths_that_it_names(trial: Trial) -> None:
    """B-MNT may add routes everywhere. Their origin, of A-MNT, grants it the range alone."""
    numbers = [
        f"aut-num: AS{n} | mnt-by: A-MNT | mnt-routes: B-MNT {{{one}}}"
        for n, (one, _, _) in enumerate(ADMITTED, 1)
    ]
    everywhere = "inetnum: 0.0.0.0/0 | mnt-by: ROOT-MNT | mnt-routes: B-MNT"
    routes = [
        f"route: {prefix} | origin: AS{n} | mnt-by: B-MNT"
        for n, (_, prefix, _) in enumerate(ADMITTED, 1)
    ]
    granted = text("password: bc | password: c", everywhere, *numbers)
    _, report = submitted(trial, (HOLDERS, granted, text("password: abc", *routes)))
    assert report == report_of(
        tuple(
            f"route {prefix} AS{n}: {'added' if admits else 'refused E15'}"
            for n, (_, prefix, admits) in enumerate(ADMITTED, 1)
        )
    )

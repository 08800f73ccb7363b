"""Worked answers to queries, as whois gives them."""
import pytest

from checks.running import DIGEST, Trial
from checks.submissions.cases import (
    HOLDERS,
    NESTED,
    RANGES,
    ROUTED,
    Asked,
    answered,
    answers,
    reload,
    report_of,
    submitted,
    text,
)

IN_MEMORY = True

# Names, keys and places.

# A route of AS1 inside its first.
DEEPER = text("password: c", "route: 10.1.2.0/24 | origin: AS1 | mnt-by: A-MNT")
# A /9 and its first address, each as inetnum and as route.
FIRSTS = text(
    "password: bc",
    "aut-num: AS3 | mnt-by: ROOT-MNT",
    "inetnum: 10.128.0.0/9 | mnt-by: ROOT-MNT",
    "inetnum: 10.128.0.0/32 | mnt-by: ROOT-MNT",
    "route: 10.128.0.0/9 | origin: AS3 | mnt-by: ROOT-MNT",
    "route: 10.128.0.0/32 | origin: AS3 | mnt-by: ROOT-MNT",
)
# Four inetnums in no order, and routes of the same prefixes and of all addresses.
FIVE = text(
    "password: bc",
    "aut-num: AS3 | mnt-by: ROOT-MNT",
    "inetnum: 255.255.255.255/32 | mnt-by: ROOT-MNT",
    "inetnum: 10.128.0.0/32 | mnt-by: ROOT-MNT",
    "inetnum: 10.128.0.0/9 | mnt-by: ROOT-MNT",
    "inetnum: 10.0.0.0/8 | mnt-by: ROOT-MNT",
    "route: 255.255.255.255/32 | origin: AS3 | mnt-by: ROOT-MNT",
    "route: 10.128.0.0/32 | origin: AS3 | mnt-by: ROOT-MNT",
    "route: 0.0.0.0/0 | origin: AS3 | mnt-by: ROOT-MNT",
    "route: 10.128.0.0/9 | origin: AS3 | mnt-by: ROOT-MNT",
    "route: 10.0.0.0/8 | origin: AS3 | mnt-by: ROOT-MNT",
)
# The outermost of them go, and one of the others is changed.
WITHOUT_OUTERMOST = text(
    "password: bc",
    "inetnum: 0.0.0.0/0 | delete: x",
    "route: 0.0.0.0/0 | origin: AS3 | delete: x",
    "inetnum: 10.128.0.0/9 | descr: again | mnt-by: ROOT-MNT",
)
# The inetnums and the routes in 10.0.0.0/8, as they are listed.
INETNUMS = (
    "inetnum:        10.0.0.0/8\n"
    "inetnum:        10.128.0.0/32\n"
    "inetnum:        10.128.0.0/9\n"
)
ROUTES = (
    "route:          10.0.0.0/8\n"
    "route:          10.128.0.0/9\n"
    "route:          10.128.0.0/32\n"
)
CLOSE = (
    ("closest 10.127.255.255", 1, "inetnum:        10.0.0.0/8\nroute:          10.0.0.0/8\n"),
    ("closest 10.128.0.1", 1, "inetnum:        10.128.0.0/9\nroute:          10.128.0.0/9\n"),
    ("closest 10.128.0.0/32", 1, "inetnum:        10.128.0.0/32\nroute:          10.128.0.0/32\n"),
    ("more 10.0.0.0/8", 1, INETNUMS + ROUTES),
    ("exact 10.128.0.0/10", 1, "% no entries\n"),
)
# What names A-MNT for what lies below, for routes and for members; for B-MNT the attribute is text.
NAMING = text(
    "password: bc | password: abc",
    "inetnum: 10.0.0.0/8 | mnt-by: ROOT-MNT | mnt-lower: A-MNT",
    "inetnum: 11.0.0.0/8 | mnt-by: ROOT-MNT | mnt-routes: A-MNT {}",
    "as-set: AS-R | mbrs-by-ref: a-mnt | mnt-by: B-MNT",
    f"mntner: B-MNT | auth: SHA256-PW :{DIGEST} | mnt-by: B-MNT | mnt-lower: A-MNT",
)
# A maintainer as everybody may see it.
SHOWN = """\
mntner:         A-MNT
auth:           # filtered
mnt-by:         A-MNT
source:         TEST

"""
NEAR = (
    Asked(
        "names, keys and places",
        (HOLDERS, NESTED, ROUTED, DEEPER),
        (
            ("object mntner a-mnt\r", 1, SHOWN),
            ("a-mnt", 1, SHOWN),
            ("C-MNT", 1, "% no entries\n"),
            ("as1", 1, "aut-num:        AS1\n"),
            ("object as-block as0-as65535", 1, "as-block:       AS0 - AS65535\n"),
            ("object inetnum 10.1.0.0 - 10.1.255.255", 1, "inetnum:        10.1.0.0/16\n"),
            ("object route 10.1.0.0/16 as1", 1, "route:          10.1.0.0/16\n"),
            ("object route 10.1.0.0/16 as2", 1, "% no entries\n"),
            (
                "less 10.1.0.9",
                1,
                (
                    "inetnum:        0.0.0.0 - 255.255.255.255\n"
                    "inetnum:        10.0.0.0/8\n"
                    "inetnum:        10.1.0.0/16\n"
                    "route:          10.0.0.0/8\n"
                    "route:          10.1.0.0/16\n"
                ),
            ),
            (
                "more 10.1.0.0/16",
                1,
                (
                    "inetnum:        10.1.0.0/16\n"
                    "route:          10.1.0.0/16\n"
                    "route:          10.1.2.0/24\n"
                ),
            ),
            (
                "closest 10.1.2.0/24",
                1,
                "inetnum:        10.1.0.0/16\nroute:          10.1.2.0/24\n",
            ),
            ("10.1.2.3", 1, "inetnum:        10.1.0.0/16\nroute:          10.1.2.0/24\n"),
            ("10.1.0.0/15", 1, "inetnum:        10.0.0.0/8\nroute:          10.0.0.0/8\n"),
            ("EXACT 10.0.0.0/8", 1, "inetnum:        10.0.0.0/8\nroute:          10.0.0.0/8\n"),
            ("exact 10.0.0.0/9", 1, "% no entries\n"),
            (
                "inverse mnt a-mnt",
                1,
                (
                    "mntner:         A-MNT\n"
                    "aut-num:        AS1\n"
                    "inetnum:        10.1.0.0/16\n"
                    "route:          10.1.0.0/16\n"
                    "route:          10.1.2.0/24\n"
                ),
            ),
            ("inverse mnt c-mnt", 1, "% no entries\n"),
            ("inverse origin as1", 1, "route:          10.1.0.0/16\nroute:          10.1.2.0/24\n"),
            ("", 1, "% error 1\n"),
            (".", 1, "% error 1\n"),
            ("object mntner", 1, "% error 1\n"),
            ("object as-set AS-ANY", 1, "% error 1\n"),
            ("inverse mnt ANY", 1, "% error 1\n"),
            ("inverse mnt AS-X", 1, "% error 1\n"),
            ("closest 10.0.0.0/33", 1, "% error 1\n"),
            (" object\tMNTNER  a-mnt ", 1, SHOWN),
            ("exact", 1, "% no entries\n"),
            ("AS-A", 1, "% no entries\n"),
            ("exact 10.0.0.0/8 as1", 1, "% error 1\n"),
            ("as1 as2", 1, "% error 1\n"),
            ("ANY", 1, "% error 1\n"),
            ("AS-ANY", 1, "% error 1\n"),
            ("AS1:AS2", 1, "% error 1\n"),
            ("expand as1", 1, "% error 1\n"),
            ("prefixes as1", 1, "% error 1\n"),
            ("a-mnt\n", 1, "% error 1\n"),
            ("a-mnt\x7f", 1, "% error 1\n"),
        ),
    ),
    Asked(
        "ranges",
        (HOLDERS, NESTED, RANGES),
        (
            ("closest 10.1.1.0/24", 1, "inetnum:        10.1.0.0 - 10.1.1.255\n"),
            ("closest 10.1.0.200", 1, "inetnum:        10.1.0.128 - 10.1.1.127\n"),
            ("closest 9.0.0.0/7", 1, "inetnum:        0.0.0.0 - 255.255.255.255\n"),
            (
                "less 10.1.1.5",
                1,
                (
                    "inetnum:        0.0.0.0 - 255.255.255.255\n"
                    "inetnum:        10.0.0.0/8\n"
                    "inetnum:        10.1.0.0 - 10.1.1.255\n"
                    "inetnum:        10.1.0.0/16\n"
                    "inetnum:        10.1.0.128 - 10.1.1.127\n"
                    "inetnum:        10.1.1.0/25\n"
                ),
            ),
        ),
    ),
    Asked(
        "what names a maintainer",
        (HOLDERS, NAMING),
        (
            (
                "inverse mnt a-mnt",
                1,
                (
                    "mntner:         A-MNT\n"
                    "inetnum:        10.0.0.0/8\n"
                    "inetnum:        11.0.0.0/8\n"
                    "as-set:         AS-R\n"
                ),
            ),
            ("inverse mnt b-mnt", 1, "mntner:         B-MNT\nas-set:         AS-R\n"),
            ("as-r", 1, "as-set:         AS-R\n"),
            ("object as-set as-r", 1, "as-set:         AS-R\n"),
        ),
    ),
    Asked(
        "a prefix and its first address",
        (FIRSTS,),
        (
            (
                "more 10.128.0.0/9",
                1,
                (
                    "inetnum:        10.128.0.0/32\n"
                    "inetnum:        10.128.0.0/9\n"
                    "route:          10.128.0.0/9\n"
                    "route:          10.128.0.0/32\n"
                ),
            ),
        ),
    ),
    Asked(
        "five places, the outermost among them",
        (FIVE,),
        (
            *CLOSE,
            (
                "closest 255.255.255.254",
                1,
                "inetnum:        0.0.0.0 - 255.255.255.255\nroute:          0.0.0.0/0\n",
            ),
            (
                "less 10.128.0.0/32",
                1,
                (
                    f"inetnum:        0.0.0.0 - 255.255.255.255\n{INETNUMS}"
                    f"route:          0.0.0.0/0\n{ROUTES}"
                ),
            ),
        ),
    ),
    Asked(
        "five places without the outermost",
        (FIVE, WITHOUT_OUTERMOST),
        (
            *CLOSE,
            ("closest 255.255.255.254", 1, "% no entries\n"),
            ("less 10.128.0.0/32", 1, INETNUMS + ROUTES),
            (
                "exact 10.128.0.0/9",
                1,
                (
                    "inetnum:        10.128.0.0/9\n"
                    "descr:          again\n"
                    "mnt-by:         ROOT-MNT\n"
                    "source:         TEST\n\n"
                    "route:          10.128.0.0/9\n"
                    "origin:         AS3\n"
                    "mnt-by:         ROOT-MNT\n"
                    "source:         TEST\n\n"
                ),
            ),
        ),
    ),
)

# Expansions of sets.

# AS-A lists AS-B, which lists it again and AS-GONE; AS-SELF lists itself alone.
CYCLES = text(
    "password: bc | password: c | password: abc",
    "as-set: AS-A | members: AS1, AS-B | mnt-by: A-MNT",
    "as-set: AS-B | members: AS2 as-a AS-GONE | mnt-by: A-MNT",
    "as-set: AS-SELF | members: AS-SELF | mnt-by: A-MNT",
    "route-set: RS-C | members: 10.0.0.0/30, RS-C^- | mnt-by: A-MNT",
    "as-set: AS-ALL | members: AS-ANY | mnt-by: A-MNT",
    "aut-num: AS3 | mnt-by: A-MNT",
    "aut-num: AS4 | mnt-by: B-MNT",
)
# Sets whose operators act on each other and drop ranges.
OPERATORS = text(
    "password: bc | password: c | password: abc",
    "route-set: RS-D | members: RS-E^27-30 | mnt-by: A-MNT",
    "route-set: RS-E | members: 30.0.0.0/8^24-28 | mnt-by: A-MNT",
    "route-set: RS-X | members: RS-Y^8, RS-GONE | mnt-by: A-MNT",
    "route-set: RS-Y | members: 10.0.0.0/16 | mnt-by: A-MNT",
    "route-set: RS-L | members: RS-M^- | mnt-by: A-MNT",
    "route-set: RS-M | members: RS-N^24 | mnt-by: A-MNT",
    "route-set: RS-N | members: 10.0.0.0/8 | mnt-by: A-MNT",
)
# AS1 and AS2 with a route each, and sets that refer to them.
REFERRED = text(
    "password: bc | password: c | password: abc",
    "aut-num: AS1 | mnt-by: A-MNT",
    "aut-num: AS2 | mnt-by: B-MNT",
    "route: 10.0.0.0/8 | origin: AS2 | mnt-by: B-MNT",
    "route: 10.1.0.0/16 | origin: AS1 | mnt-by: A-MNT",
    "as-set: AS-A | members: AS2 | mnt-by: A-MNT",
    "route-set: RS-F | members: AS1^+, AS-A | mnt-by: A-MNT",
)
# Every kind of member with an operator, members that are missing, and numbers without a route.
WIDE = text(
    "password: c",
    (
        "route-set: RS-W"
        " | members: RS-ANY^24, AS-ANY^+, 10.2.0.0/16^-, AS9, AS-GONE, RS-GONE^32"
        " | mnt-by: A-MNT"
    ),
    "route-set: RS-Z | members: AS7, AS8 | mnt-by: A-MNT",
)
LISTED = (
    Asked(
        "chains and cycles",
        (HOLDERS, CYCLES),
        (
            ("expand as-a", 3, "AS1\nAS2\n% missing AS-GONE\n"),
            ("expand AS-A", 2, "% error 3\n"),
            ("expand AS-SELF", 1, "% empty\n"),
            ("expand AS-NONE", 1, "% no entries\n"),
            ("expand AS-GONE", 1, "% no entries\n"),
            ("expand AS-ALL", 2, "AS3\nAS4\n"),
            ("expand AS-ANY", 1, "AS3\nAS4\n"),
            ("expand AS-ALL", 1, "% error 3\n"),
            ("expand rs-c", 3, "10.0.0.0/30\n10.0.0.0/30^-\n10.0.0.0/30^32\n"),
            ("expand RS-C", 2, "% error 3\n"),
        ),
    ),
    Asked(
        "operators",
        (HOLDERS, OPERATORS),
        (
            ("expand RS-D", 2, "30.0.0.0/8^27-30\n"),
            ("expand RS-L", 3, "10.0.0.0/8^25-32\n"),
            ("expand RS-X", 3, "% missing RS-GONE\n"),
            ("expand RS-X", 2, "% error 3\n"),
            ("expand RS-GONE", 1, "% no entries\n"),
        ),
    ),
    Asked(
        "routes of the members",
        (HOLDERS, REFERRED),
        (
            ("expand RS-F", 5, "10.0.0.0/8\n10.1.0.0/16^+\n"),
            ("expand RS-F", 4, "% error 3\n"),
            ("expand RS-ANY", 2, "10.0.0.0/8\n10.1.0.0/16\n"),
            ("prefixes RS-F", 5, "10.0.0.0/8\n10.1.0.0/16^+\n"),
            ("prefixes AS-ANY", 5, "10.0.0.0/8\n10.1.0.0/16\n"),
            ("prefixes AS-A", 2, "10.0.0.0/8\n"),
            ("prefixes AS-NONE", 2, "% no entries\n"),
        ),
    ),
    Asked(
        "members of every kind",
        (HOLDERS, REFERRED, WIDE),
        (
            (
                "expand RS-W",
                11,
                (
                    "10.0.0.0/8^+\n"
                    "10.0.0.0/8^24\n"
                    "10.1.0.0/16^+\n"
                    "10.1.0.0/16^24\n"
                    "10.2.0.0/16^-\n"
                    "% missing AS-GONE\n"
                    "% missing RS-GONE\n"
                ),
            ),
            ("expand RS-W", 10, "% error 3\n"),
            ("expand RS-Z", 3, "% empty\n"),
            ("expand RS-Z", 2, "% error 3\n"),
        ),
    ),
)
# AS1 of A-MNT, AS2 of B-MNT and a route of each say that they belong to AS-R and RS-R.
REFERRERS = text(
    "password: bc | password: c | password: abc",
    "aut-num: AS1 | member-of: AS-R, RS-R | mnt-by: A-MNT",
    "aut-num: AS2 | member-of: as-r | mnt-by: B-MNT",
    "route: 10.0.0.0/8 | origin: AS2 | member-of: AS-R, RS-R | mnt-by: B-MNT",
    "route: 10.1.0.0/16 | origin: AS1 | member-of: RS-R | mnt-by: A-MNT",
)
# AS-R and RS-R that take the word of A-MNT, anybody's word, and nobody's.
TAKES_A = text(
    "password: bc | password: c | password: abc",
    "as-set: AS-R | mbrs-by-ref: A-MNT | mnt-by: A-MNT",
    "route-set: RS-R | mbrs-by-ref: A-MNT | mnt-by: A-MNT",
)
TAKES_ANY = text(
    "password: bc | password: c | password: abc",
    "as-set: AS-R | mbrs-by-ref: ANY | mnt-by: A-MNT",
    "route-set: RS-R | mbrs-by-ref: ANY | mnt-by: A-MNT",
)
TAKES_NONE = text(
    "password: bc | password: c | password: abc",
    "as-set: AS-R | mnt-by: A-MNT",
    "route-set: RS-R | mnt-by: A-MNT",
)
# AS1 belongs to no set any more, and the route of AS2 is gone.
LEFT = text(
    "password: bc | password: c | password: abc",
    "aut-num: AS1 | mnt-by: A-MNT",
    "route: 10.0.0.0/8 | origin: AS2 | delete: x",
)
# What AS-R and RS-R stand for, as they take the word of nobody, of A-MNT or of anybody, and as
# members come and go.
REFERRING = (
    Asked(
        "no set",
        (HOLDERS, REFERRERS),
        (
            ("expand AS-R", 1, "% no entries\n"),
            ("expand RS-R", 2, "% no entries\n"),
            ("prefixes AS-R", 1, "% no entries\n"),
        ),
    ),
    Asked(
        "nobody's word",
        (HOLDERS, REFERRERS, TAKES_NONE),
        (("expand AS-R", 1, "% empty\n"), ("expand RS-R", 2, "% empty\n")),
    ),
    Asked(
        "one maintainer's word",
        (HOLDERS, REFERRERS, TAKES_A),
        (
            ("expand AS-R", 1, "AS1\n"),
            ("expand RS-R", 2, "10.1.0.0/16\n"),
            ("prefixes AS-R", 2, "10.1.0.0/16\n"),
            ("prefixes AS-R", 1, "% error 3\n"),
        ),
    ),
    Asked(
        "anybody's word",
        (HOLDERS, REFERRERS, TAKES_A, TAKES_ANY),
        (
            ("expand AS-R", 1, "AS1\nAS2\n"),
            ("expand RS-R", 3, "10.0.0.0/8\n10.1.0.0/16\n"),
            ("prefixes AS-R", 4, "10.0.0.0/8\n10.1.0.0/16\n"),
            ("prefixes AS-R", 3, "% error 3\n"),
        ),
    ),
    Asked(
        "anybody's word, after members left",
        (HOLDERS, REFERRERS, TAKES_A, TAKES_ANY, LEFT),
        (
            ("expand AS-R", 1, "AS2\n"),
            ("expand RS-R", 2, "10.1.0.0/16\n"),
            ("prefixes AS-R", 2, "% empty\n"),
            ("prefixes AS-R", 1, "% error 3\n"),
        ),
    ),
    Asked(
        "one maintainer's word again",
        (HOLDERS, REFERRERS, TAKES_A, TAKES_ANY, LEFT, TAKES_A),
        (("expand AS-R", 1, "% empty\n"), ("expand RS-R", 2, "10.1.0.0/16\n")),
    ),
    Asked(
        "nobody's word again",
        (HOLDERS, REFERRERS, TAKES_A, TAKES_ANY, LEFT, TAKES_A, TAKES_NONE),
        (("expand AS-R", 1, "% empty\n"), ("expand RS-R", 2, "% empty\n")),
    ),
)


@pytest.mark.parametrize("case", [*NEAR, *LISTED, *REFERRING], ids=lambda case: case.name)
def test_queries_are_answered(trial: Trial, case: Asked) -> None:
    """By the registry after the submissions, and by that of its dump."""
    folder, _ = submitted(trial, case.given)
    assert answers(trial, folder, case.answers, "irr.db") == [*case.answers]
    reload(trial, folder)
    assert answers(trial, folder, case.answers, "loaded.db") == [*case.answers]


@pytest.fixture(scope="module", name="holders")
def holders_fixture(trial: Trial) -> str:
    """The folder of a registry with two maintainers."""
    return submitted(trial, (HOLDERS,))[0]


# Queries, the sizes up to which blanks follow them, and what is answered.
LENGTHS = {
    "a name of 1024 bytes": ("a-mnt", 1_024, SHOWN),
    "a name of 1025 bytes": ("a-mnt", 1_025, "% error 2\n"),
    "a bad query of 1024 bytes": ("object x", 1_024, "% error 1\n"),
    "a bad query of 1025 bytes": ("object x", 1_025, "% error 2\n"),
}


@pytest.mark.parametrize("query, size, wanted", LENGTHS.values(), ids=LENGTHS)
def test_a_query_has_at_most_1024_bytes(
    trial: Trial, holders: str, query: str, size: int, wanted: str
) -> None:
    """Blanks behind it count."""
    assert answered(trial, holders, query.ljust(size), 1) == wanted


def test_five_hundred_inetnums_are_listed(trial: Trial) -> None:
    """Of one address each, from 1.0.0.0 on."""
    addresses = [f"1.0.{number // 256}.{number % 256}" for number in range(500)]
    given = text("password: bc", *(f"inetnum: {one}/32 | mnt-by: ROOT-MNT" for one in addresses))
    folder, report = submitted(trial, (given,))
    assert report == report_of(tuple(f"inetnum {one} - {one}: added" for one in addresses))
    listed = [
        f"inetnum:        {one}/32\nmnt-by:         ROOT-MNT\nsource:         TEST\n\n"
        for one in addresses
    ]
    assert answered(trial, folder, "more 1.0.0.0/16", 1) == "".join(listed)


# The digest of the second message of the examples of FIPS 180-4; a maintainer with that message cut
# into salt and password, and what it maintains.
SECOND = "248d6a61d20638b8e5c026930c3e6039a33ce45964ff2167f6ecedd419db06c1"
SECRETIVE = text(
    "password: efdefgefghfghighijhijkijkljklmklmnlmnomnopnopq | password: bc",
    (
        f"mntner: S-MNT | auth: SHA256-PW abcdbcdecd:{SECOND} | auth: CRYPT-PW notForEverybody"
        " | mnt-by: S-MNT"
    ),
    "inetnum: 10.0.0.0/8 | mnt-by: S-MNT",
    "aut-num: AS1 | mnt-by: S-MNT",
    "as-set: AS-S | members: AS1 | mnt-by: S-MNT",
)
# Parts of what only the maintainer knows, and of what only the registry knows of it.
HIDDEN = ("efdefgefgh", "abcdbcdecd", "248d6a61", "notForEverybody", "SHA256")
# Queries of every form.
EVERY = (
    "object mntner s-mnt",
    "s-mnt",
    "S-MNT\r",
    "root-mnt",
    "exact 10.0.0.0/8",
    "closest 10.1.2.3",
    "less 10.1.2.3",
    "more 0.0.0.0/0",
    "inverse mnt s-mnt",
    "inverse mnt root-mnt",
    "inverse origin as1",
    "expand as-s",
    "expand AS-ANY",
    "prefixes as-s",
    "as1",
    "10.0.0.0/8",
    "as-s",
    "object mntner SHA256-PW",
)


def test_no_answer_holds_a_salt_a_digest_or_a_password(trial: Trial) -> None:
    """Nor does the report or the public dump."""
    folder, report = submitted(trial, (SECRETIVE,))
    assert report.startswith(b"1 mntner S-MNT: added\n")
    seen = {"the report": report.decode()}
    seen |= {query: answered(trial, folder, query, 10) for query in EVERY}
    seen["the public dump"] = trial.run(folder, "dump", "s.toml").printed.decode()
    assert seen["the public dump"].endswith("\n% end 8\n")
    found = [(what, part) for what, told in seen.items() for part in HIDDEN if part in told]
    assert found == []

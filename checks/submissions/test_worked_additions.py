"""Who may add inetnums, routes, as-blocks, aut-nums and sets, by worked submissions."""
import pytest

from checks.running import Trial
from checks.submissions.cases import (
    HELD,
    HOLDERS,
    HOLDING,
    NESTED,
    RANGES,
    ROUTED,
    Worked,
    report_of,
    submitted,
    text,
)

IN_MEMORY = True

# Inetnums.

# A /24 of B-MNT in the /16 of A-MNT, with its own password, then with that of the /16 too.
LEVELS = text(
    "password: abc",
    "inetnum: 10.1.2.0/24 | mnt-by: B-MNT",
    "password: c",
    "inetnum: 10.1.2.0/24 | mnt-by: B-MNT",
)
INETNUMS = (
    Worked(
        "an inetnum needs its password, which is missing",
        (text("inetnum: 10.0.0.0 - 10.255.255.255 | mnt-by: ROOT-MNT"),),
        ("inetnum 10.0.0.0 - 10.255.255.255: refused E11",),
    ),
    Worked(
        "an inetnum needs its password, which comes",
        (text("password: bc", "inetnum: 10.0.0.0 - 10.255.255.255 | mnt-by: ROOT-MNT"),),
        ("inetnum 10.0.0.0 - 10.255.255.255: added",),
    ),
    Worked(
        "the closest inetnum decides, and that above it does not",
        (HOLDERS, NESTED, text("password: bc", "inetnum: 10.1.2.0/24 | mnt-by: ROOT-MNT")),
        ("inetnum 10.1.2.0 - 10.1.2.255: refused E13",),
    ),
    Worked(
        "the closest inetnum decides, and its password comes too",
        (
            HOLDERS,
            NESTED,
            text("password: bc | password: c", "inetnum: 10.1.2.0/24 | mnt-by: ROOT-MNT"),
        ),
        ("inetnum 10.1.2.0 - 10.1.2.255: added",),
    ),
    Worked(
        "each level is asked by the next alone, the second by the third",
        (HOLDERS, NESTED, LEVELS),
        ("inetnum 10.1.2.0 - 10.1.2.255: refused E13", "inetnum 10.1.2.0 - 10.1.2.255: added"),
    ),
    Worked(
        "each level is asked by the next alone, and not by one further down",
        (HOLDERS, NESTED, LEVELS, text("password: c", "inetnum: 10.1.2.0/28 | mnt-by: A-MNT")),
        ("inetnum 10.1.2.0 - 10.1.2.15: refused E13",),
    ),
    Worked(
        "an inetnum of a held span is a change",
        (
            HOLDERS,
            NESTED,
            text(
                "password: bc",
                "inetnum: 10.1.0.0 - 10.1.255.255 | mnt-by: A-MNT",
                "password: c",
                "inetnum: 10.1.0.0 - 10.1.255.255 | mnt-by: A-MNT",
            ),
        ),
        (
            "inetnum 10.1.0.0 - 10.1.255.255: refused E11",
            "inetnum 10.1.0.0 - 10.1.255.255: changed",
        ),
    ),
    Worked(
        "mnt-lower decides where it has a name",
        (
            HOLDERS,
            text(
                "password: bc",
                "inetnum: 10.0.0.0/8 | mnt-by: ROOT-MNT | mnt-lower: A-MNT",
                "inetnum: 11.0.0.0/8 | mnt-by: ROOT-MNT | mnt-lower:",
                "inetnum: 10.1.0.0/16 | mnt-by: ROOT-MNT",
                "inetnum: 11.1.0.0/16 | mnt-by: ROOT-MNT",
                "password: c",
                "inetnum: 10.1.0.0/16 | mnt-by: ROOT-MNT",
            ),
        ),
        (
            "inetnum 10.0.0.0 - 10.255.255.255: added",
            "inetnum 11.0.0.0 - 11.255.255.255: added",
            "inetnum 10.1.0.0 - 10.1.255.255: refused E13",
            "inetnum 11.1.0.0 - 11.1.255.255: added",
            "inetnum 10.1.0.0 - 10.1.255.255: added",
        ),
    ),
    Worked(
        "a span that crosses another is refused",
        (HOLDERS, NESTED, RANGES),
        (
            "inetnum 10.1.0.128 - 10.1.1.127: added",
            "inetnum 10.1.1.0 - 10.1.2.255: refused E16",
            "inetnum 10.1.1.0 - 10.1.1.127: added",
            "inetnum 10.1.0.0 - 10.1.1.255: added",
            "-: refused E03",
        ),
    ),
    Worked(
        "a stranger cannot cross what is held",
        (
            HOLDERS,
            HELD,
            HOLDING,
            text("password: abc", "inetnum: 10.0.255.0 - 10.1.0.255 | mnt-by: B-MNT"),
        ),
        ("inetnum 10.0.255.0 - 10.1.0.255: refused E16",),
    ),
    Worked(
        "nothing stands where nothing covers",
        (
            HOLDERS,
            text(
                "password: bc | password: c",
                "aut-num: AS1 | mnt-by: A-MNT",
                "inetnum: 0.0.0.0/0 | delete: x",
                "inetnum: 10.0.0.0/8 | mnt-by: ROOT-MNT",
                "route: 10.0.0.0/8 | origin: AS1 | mnt-by: A-MNT",
            ),
        ),
        (
            "aut-num AS1: added",
            "inetnum 0.0.0.0 - 255.255.255.255: deleted",
            "inetnum 10.0.0.0 - 10.255.255.255: refused E12",
            "route 10.0.0.0/8 AS1: refused E12",
        ),
    ),
)

# Routes.

# Two routes of B-MNT: round the held prefix, and inside it.
ROUTES = text(
    "password: abc",
    "route: 10.0.0.0/8 | origin: AS2 | mnt-by: B-MNT",
    "route: 10.1.2.0/24 | origin: AS2 | mnt-by: B-MNT",
)
# With B-MNT's password a route inside that of AS1; with A-MNT's too, a second origin of that one.
SEVERAL = text(
    "password: abc",
    "route: 10.1.9.0/24 | origin: AS2 | mnt-by: B-MNT",
    "password: c",
    "route: 10.1.0.0/16 | origin: AS2 | mnt-by: B-MNT",
)
# With B-MNT's password, grants to A-MNT by the route above and by AS2, one of them cut by an
# attribute; then, with A-MNT's too, routes that they admit and others.
GRANTS = text(
    "password: abc",
    (
        "route: 10.0.0.0/8 | origin: AS2 | mnt-by: B-MNT"
        " | mnt-routes: A-MNT {10.2.0.0/16^+}, A-MNT | mnt-routes: {10.4.0.0/16}"
    ),
    "aut-num: AS2 | mnt-by: B-MNT | mnt-routes: A-MNT {10.4.0.0/16^16-24}",
    "route: 10.2.0.0/16 | origin: AS2 | mnt-by: B-MNT",
    "password: c",
    "route: 10.2.0.0/16 | origin: AS1 | mnt-by: A-MNT",
    "route: 10.4.0.0/16 | origin: AS2 | mnt-by: A-MNT",
    "route: 10.2.0.0/16 | origin: AS2 | mnt-by: A-MNT",
    "route: 10.3.0.0/16 | origin: AS1 | mnt-by: A-MNT",
)
ROUTES_ADDED = (
    Worked(
        "the closest route decides, against one of another",
        (
            HOLDERS,
            ROUTED,
            text("password: abc", "route: 10.1.2.0/24 | origin: AS2 | mnt-by: B-MNT"),
        ),
        ("route 10.1.2.0/24 AS2: refused E13",),
    ),
    Worked(
        "the closest route decides, for one of its own maintainer",
        (HOLDERS, ROUTED, text("password: c", "route: 10.1.2.0/24 | origin: AS1 | mnt-by: A-MNT")),
        ("route 10.1.2.0/24 AS1: added",),
    ),
    Worked(
        "the origin has its word",
        (
            HOLDERS,
            ROUTED,
            text(
                "password: c",
                "route: 10.1.3.0/24 | origin: AS2 | mnt-by: A-MNT",
                "route: 10.1.3.0/24 | origin: AS9 | mnt-by: A-MNT",
            ),
        ),
        ("route 10.1.3.0/24 AS2: refused E15", "route 10.1.3.0/24 AS9: refused E14"),
    ),
    Worked(
        "mnt-routes admits what its ranges say",
        (
            HOLDERS,
            text(
                "password: bc | password: c",
                "aut-num: AS1 | mnt-by: A-MNT",
                "inetnum: 10.1.0.0/16 | mnt-by: ROOT-MNT | mnt-routes: A-MNT {10.1.0.0/16^24}",
            ),
            text(
                "password: c",
                "route: 10.1.5.0/24 | origin: AS1 | mnt-by: A-MNT",
                "route: 10.1.6.0/25 | origin: AS1 | mnt-by: A-MNT",
                "route: 10.1.0.0/16 | origin: AS1 | mnt-by: A-MNT",
                "password: bc",
                "route: 10.1.6.0/25 | origin: AS1 | mnt-by: A-MNT",
            ),
        ),
        (
            "route 10.1.5.0/24 AS1: added",
            "route 10.1.6.0/25 AS1: refused E13",
            "route 10.1.0.0/16 AS1: refused E13",
            "route 10.1.6.0/25 AS1: refused E13",
        ),
    ),
    Worked(
        "a route above takes over where there was none",
        (HOLDERS, HELD, ROUTES),
        ("route 10.0.0.0/8 AS2: added", "route 10.1.2.0/24 AS2: added"),
    ),
    Worked(
        "a route above takes over from none that is closer",
        (
            HOLDERS,
            HELD,
            text("password: c", "route: 10.1.0.0/16 | origin: AS1 | mnt-by: A-MNT"),
            ROUTES,
        ),
        ("route 10.0.0.0/8 AS2: added", "route 10.1.2.0/24 AS2: refused E13"),
    ),
    Worked(
        "one of several closest routes is enough, and one alone is asked before",
        (HOLDERS, ROUTED, SEVERAL),
        ("route 10.1.9.0/24 AS2: refused E13", "route 10.1.0.0/16 AS2: added"),
    ),
    Worked(
        "one of several closest routes is enough, be it the second",
        (
            HOLDERS,
            ROUTED,
            SEVERAL,
            text("password: abc", "route: 10.1.9.0/24 | origin: AS2 | mnt-by: B-MNT"),
        ),
        ("route 10.1.9.0/24 AS2: added",),
    ),
    Worked(
        "a grant in empty braces admits nothing",
        (
            HOLDERS,
            text(
                "password: bc | password: c | password: abc",
                "aut-num: AS1 | mnt-by: A-MNT",
                "aut-num: AS2 | mnt-by: B-MNT | mnt-routes: B-MNT {}",
                "inetnum: 10.1.0.0/16 | mnt-by: ROOT-MNT | mnt-routes: A-MNT {}",
                "inetnum: 10.2.0.0/16 | mnt-by: ROOT-MNT | mnt-routes: A-MNT",
                "route: 10.1.0.0/16 | origin: AS1 | mnt-by: A-MNT",
                "route: 10.2.0.0/16 | origin: AS2 | mnt-by: A-MNT",
                "route: 10.2.0.0/16 | origin: AS1 | mnt-by: A-MNT",
            ),
        ),
        (
            "aut-num AS1: added",
            "aut-num AS2: added",
            "inetnum 10.1.0.0 - 10.1.255.255: added",
            "inetnum 10.2.0.0 - 10.2.255.255: added",
            "route 10.1.0.0/16 AS1: refused E13",
            "route 10.2.0.0/16 AS2: refused E15",
            "route 10.2.0.0/16 AS1: added",
        ),
    ),
    Worked(
        "mnt-lower of an aut-num is not asked for routes",
        (
            HOLDERS,
            text(
                "password: bc | password: c | password: abc",
                "inetnum: 10.0.0.0/8 | mnt-by: B-MNT",
                "aut-num: AS1 | mnt-by: A-MNT | mnt-lower: B-MNT",
            ),
            text(
                "password: abc",
                "route: 10.1.0.0/16 | origin: AS1 | mnt-by: B-MNT",
                "as-set: AS1:AS-X | mnt-by: B-MNT",
                "password: c",
                "route: 10.1.0.0/16 | origin: AS1 | mnt-by: B-MNT",
            ),
        ),
        (
            "route 10.1.0.0/16 AS1: refused E15",
            "as-set AS1:AS-X: added",
            "route 10.1.0.0/16 AS1: added",
        ),
    ),
    Worked(
        "mnt-lower of a route is asked for the routes below it",
        (
            HOLDERS,
            text(
                "password: bc | password: c | password: abc",
                "inetnum: 10.0.0.0/8 | mnt-by: A-MNT",
                "aut-num: AS1 | mnt-by: A-MNT",
                "route: 10.1.0.0/16 | origin: AS1 | mnt-by: A-MNT | mnt-lower: B-MNT",
            ),
            text(
                "password: c",
                "route: 10.1.5.0/24 | origin: AS1 | mnt-by: A-MNT",
                "password: abc",
                "route: 10.1.5.0/24 | origin: AS1 | mnt-by: A-MNT",
            ),
        ),
        ("route 10.1.5.0/24 AS1: refused E13", "route 10.1.5.0/24 AS1: added"),
    ),
    Worked(
        "a grant counts from its change on",
        (
            HOLDERS,
            text(
                "password: bc | password: c",
                "aut-num: AS1 | mnt-by: A-MNT",
                "inetnum: 10.0.0.0/8 | mnt-by: ROOT-MNT | mnt-routes: A-MNT {}",
                "route: 10.1.0.0/16 | origin: AS1 | mnt-by: A-MNT",
                (
                    "inetnum: 10.0.0.0/8 | mnt-by: ROOT-MNT"
                    " | mnt-routes: A-MNT {}, A-MNT {10.1.0.0/16}"
                ),
                "route: 10.1.0.0/16 | origin: AS1 | mnt-by: A-MNT",
                "route: 10.2.0.0/16 | origin: AS1 | mnt-by: A-MNT",
            ),
        ),
        (
            "aut-num AS1: added",
            "inetnum 10.0.0.0 - 10.255.255.255: added",
            "route 10.1.0.0/16 AS1: refused E13",
            "inetnum 10.0.0.0 - 10.255.255.255: changed",
            "route 10.1.0.0/16 AS1: added",
            "route 10.2.0.0/16 AS1: refused E13",
        ),
    ),
    Worked(
        "routes and numbers grant what inetnums do",
        (HOLDERS, ROUTED, GRANTS),
        (
            "route 10.0.0.0/8 AS2: changed",
            "aut-num AS2: changed",
            "route 10.2.0.0/16 AS2: refused E15",
            "route 10.2.0.0/16 AS1: added",
            "route 10.4.0.0/16 AS2: added",
            "route 10.2.0.0/16 AS2: refused E15",
            "route 10.3.0.0/16 AS1: refused E13",
        ),
    ),
)

# As-blocks and aut-nums.

# A block of the root that A-MNT may divide, and what lies in it or beside it.
BLOCKS = text(
    "password: bc",
    "as-block: AS10 - AS20 | mnt-by: ROOT-MNT | mnt-lower: A-MNT",
    "as-block: AS10 - AS15 | mnt-by: ROOT-MNT",
    "aut-num: AS15 | mnt-by: ROOT-MNT",
    "aut-num: AS21 | mnt-by: ROOT-MNT",
    "password: c",
    "as-block: AS10 - AS15 | mnt-by: ROOT-MNT",
)
NUMBERS = (
    Worked(
        "each item is judged after the one before",
        (
            HOLDERS,
            text("password: bc | password: c", "aut-num: AS1 | mnt-by: A-MNT"),
            text(
                "password: bc",
                "as-block: AS10-AS20 | mnt-by: ROOT-MNT",
                "as-block: AS15 - AS25 | mnt-by: ROOT-MNT",
                "inetnum: 10.0.0.0/8 | mnt-by: GONE-MNT",
                "route: 10.0.0.0/8 | origin: AS1 | delete: x",
                "as-set: AS9:AS-X | mnt-by: ROOT-MNT",
                "as-set: AS1:AS-X | mnt-by: ROOT-MNT",
            ),
        ),
        (
            "as-block AS10 - AS20: added",
            "as-block AS15 - AS25: refused E16",
            "inetnum 10.0.0.0 - 10.255.255.255: refused E10",
            "route 10.0.0.0/8 AS1: refused E18",
            "as-set AS9:AS-X: refused E12",
            "as-set AS1:AS-X: refused E13",
        ),
    ),
    Worked(
        "numbers of four octets stand under the second block",
        (
            HOLDERS,
            text(
                "password: bc | password: c",
                "aut-num: AS65536 | mnt-by: A-MNT",
                "as-block: AS4294967295 - AS4294967295 | mnt-by: ROOT-MNT",
                "aut-num: AS4294967296 | mnt-by: A-MNT",
                "as-block: AS65000 - AS66000 | mnt-by: ROOT-MNT",
                "aut-num: as04294967295 | mnt-by: A-MNT",
            ),
        ),
        (
            "aut-num AS65536: added",
            "as-block AS4294967295 - AS4294967295: added",
            "-: refused E03",
            "as-block AS65000 - AS66000: refused E16",
            "-: refused E03",
        ),
    ),
    Worked(
        "a number needs a block",
        (
            HOLDERS,
            text(
                "password: bc | password: c",
                "as-block: AS0 - AS65535 | delete: x",
                "aut-num: AS1 | mnt-by: A-MNT",
                "as-block: AS1 - AS9 | mnt-by: ROOT-MNT",
                "aut-num: AS65536 | mnt-by: A-MNT",
            ),
        ),
        (
            "as-block AS0 - AS65535: deleted",
            "aut-num AS1: refused E12",
            "as-block AS1 - AS9: refused E12",
            "aut-num AS65536: added",
        ),
    ),
    Worked(
        "the closest block decides, by its mnt-lower",
        (HOLDERS, BLOCKS),
        (
            "as-block AS10 - AS20: added",
            "as-block AS10 - AS15: refused E13",
            "aut-num AS15: refused E13",
            "aut-num AS21: added",
            "as-block AS10 - AS15: added",
        ),
    ),
    Worked(
        "the closest block decides, at its ends and beyond",
        (
            HOLDERS,
            BLOCKS,
            text(
                "password: c",
                "aut-num: AS15 | mnt-by: A-MNT",
                "aut-num: AS16 | mnt-by: A-MNT",
                "aut-num: AS21 | mnt-by: A-MNT",
            ),
        ),
        ("aut-num AS15: refused E13", "aut-num AS16: added", "aut-num AS21: refused E11"),
    ),
)

# Sets.

# Sets under each other, some with mnt-lower.
SETS = text(
    "password: c",
    "as-set: AS-A | mnt-by: A-MNT",
    "route-set: RS-A | mnt-by: A-MNT | mnt-lower: B-MNT",
    "route-set: RS-A:RS-X | mnt-by: A-MNT",
    "route-set: RS-B:RS-X | mnt-by: A-MNT",
    "as-set: AS-A:AS-B | mnt-by: A-MNT | mnt-lower: B-MNT",
    "as-set: AS-A:AS-B:AS-C | mnt-by: A-MNT",
)
PARENTS = (
    Worked(
        "a set is asked for by the sets below it, with its own password",
        (HOLDERS, SETS),
        (
            "as-set AS-A: added",
            "route-set RS-A: added",
            "route-set RS-A:RS-X: refused E13",
            "route-set RS-B:RS-X: refused E12",
            "as-set AS-A:AS-B: added",
            "as-set AS-A:AS-B:AS-C: refused E13",
        ),
    ),
    Worked(
        "a set is asked for by the sets below it, with that of mnt-lower",
        (
            HOLDERS,
            SETS,
            text(
                "password: abc",
                "route-set: RS-A:RS-X | mnt-by: B-MNT",
                "as-set: AS-A:AS-D | mnt-by: B-MNT",
                "as-set: AS-A:AS-B:AS-C | mnt-by: B-MNT",
                "as-set: AS-A:AS-D:AS-C | mnt-by: B-MNT",
            ),
        ),
        (
            "route-set RS-A:RS-X: added",
            "as-set AS-A:AS-D: refused E13",
            "as-set AS-A:AS-B:AS-C: added",
            "as-set AS-A:AS-D:AS-C: refused E12",
        ),
    ),
    Worked(
        "a number is asked for by the sets below it",
        (
            HOLDERS,
            text(
                "password: bc | password: c",
                "aut-num: AS1 | mnt-by: A-MNT",
                "route-set: AS1:RS-X | mnt-by: A-MNT",
                "route-set: AS1:RS-X:AS2 | mnt-by: A-MNT",
                "as-set: AS1:AS2:AS-X | mnt-by: A-MNT",
                "as-set: AS2:AS-X | mnt-by: A-MNT",
                "route-set: AS-A:RS-X | mnt-by: A-MNT",
            ),
        ),
        (
            "aut-num AS1: added",
            "route-set AS1:RS-X: added",
            "route-set AS1:RS-X:AS2: added",
            "as-set AS1:AS2:AS-X: refused E12",
            "as-set AS2:AS-X: refused E12",
            "-: refused E03",
        ),
    ),
    Worked(
        "all components but the last name what is asked",
        (
            HOLDERS,
            text(
                "password: bc | password: c",
                "aut-num: AS1 | mnt-by: A-MNT",
                "as-set: as-x:as1 | mnt-by: A-MNT",
                "as-set: AS-X | mnt-by: A-MNT",
                "as-set: as-x:as1 | mnt-by: A-MNT",
                "as-set: as-x:as-y | mnt-by: A-MNT",
                "as-set: as01:as-x:as-y | mnt-by: A-MNT",
                "as-set: AS1:AS-X | mnt-by: A-MNT",
                "as-set: as01:as-x:as-y | mnt-by: A-MNT",
                "route-set: RS-X | mnt-by: A-MNT",
                "route-set: RS-X:AS1 | mnt-by: A-MNT",
                "route-set: rs-x:as1:as2:rs-y | mnt-by: A-MNT",
                "route-set: RS-X:AS1:AS2 | mnt-by: A-MNT",
                "route-set: rs-x:as1:as2:rs-y | mnt-by: A-MNT",
                "as-set: AS01:AS2:AS-X | mnt-by: A-MNT",
            ),
        ),
        (
            "aut-num AS1: added",
            "as-set AS-X:AS1: refused E12",
            "as-set AS-X: added",
            "as-set AS-X:AS1: added",
            "as-set AS-X:AS-Y: added",
            "as-set AS1:AS-X:AS-Y: refused E12",
            "as-set AS1:AS-X: added",
            "as-set AS1:AS-X:AS-Y: added",
            "route-set RS-X: added",
            "route-set RS-X:AS1: added",
            "route-set RS-X:AS1:AS2:RS-Y: refused E12",
            "route-set RS-X:AS1:AS2: added",
            "route-set RS-X:AS1:AS2:RS-Y: added",
            "as-set AS1:AS2:AS-X: refused E12",
        ),
    ),
)


@pytest.mark.parametrize(
    "case", [*INETNUMS, *ROUTES_ADDED, *NUMBERS, *PARENTS], ids=lambda case: case.name
)
def test_additions_are_judged_by_place(trial: Trial, case: Worked) -> None:
    """By the closest object, the origin, the block or the parent."""
    assert submitted(trial, case.given)[1] == report_of(case.outcomes)

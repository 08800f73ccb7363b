"""Who may change and delete, and what strangers can do to what is held, by worked submissions."""
import pytest

from checks.running import DIGEST, Trial
from checks.submissions.cases import (
    HELD,
    HOLDERS,
    HOLDING,
    NESTED,
    Asked,
    Worked,
    answers,
    load,
    opened,
    reload,
    report_of,
    submit,
    submitted,
    text,
)

IN_MEMORY = True

# Changes and deletions.

# With the root's password, AS2, whose routes nobody may add, and items for each of which two
# refusals hold: a maintainer is missing and mnt-by doesn't pass, twice; it doesn't pass and a span
# crosses, or an origin is missing; that and the closest inetnum refuses; mnt-by doesn't pass and a
# maintainer is named.
EARLIER = text(
    "password: bc",
    "aut-num: AS2 | mnt-by: ROOT-MNT | mnt-routes: A-MNT {}",
    "inetnum: 10.1.0.0/16 | mnt-by: GONE-MNT",
    "inetnum: 10.2.0.0/16 | mnt-by: A-MNT | mnt-lower: GONE-MNT",
    "inetnum: 10.0.255.0 - 10.1.0.255 | mnt-by: A-MNT",
    "route: 10.1.0.0/16 | origin: AS9 | mnt-by: A-MNT",
    "route: 10.1.0.0/16 | origin: AS9 | mnt-by: ROOT-MNT",
    "mntner: A-MNT | delete: x",
)
# More of them: with B-MNT's password, a span crosses, or AS2 refuses, and the closest inetnum
# refuses; with the root's, an origin is missing, AS2 refuses, or a span crosses, and no inetnum is
# above.
LATER = text(
    "password: abc",
    "inetnum: 10.0.255.0 - 10.1.0.255 | mnt-by: B-MNT",
    "route: 10.2.0.0/16 | origin: AS2 | mnt-by: B-MNT",
    "password: bc",
    "inetnum: 0.0.0.0/0 | delete: x",
    "route: 11.0.0.0/8 | origin: AS9 | mnt-by: ROOT-MNT",
    "route: 11.0.0.0/8 | origin: AS2 | mnt-by: ROOT-MNT",
    "inetnum: 9.0.0.0 - 10.0.0.255 | mnt-by: ROOT-MNT",
)
# C-MNT of the password `abc`, which A-MNT may change, and AS-T, of which C-MNT decides and is named
# so often that its answer is remembered.
OFTEN_NAMED = text(
    "password: c | password: abc",
    f"mntner: C-MNT | auth: SHA256-PW :{DIGEST} | mnt-by: A-MNT",
    (
        "as-set: AS-T | mnt-by: C-MNT, C-MNT, C-MNT, C-MNT, C-MNT, C-MNT"
        " | mnt-by: C-MNT, C-MNT, C-MNT, C-MNT, C-MNT, C-MNT"
        " | mnt-by: C-MNT, C-MNT, C-MNT, C-MNT, C-MNT, C-MNT"
    ),
)
# Items of AS-T between which a password comes, its maintainer changes, and AS-T changes to one of
# B-MNT.
ASKED_AGAIN = text(
    "as-set: AS-T | delete: x",
    "as-set: AS-T | delete: x",
    "password: c",
    "as-set: AS-T | delete: x",
    f"mntner: C-MNT | auth: SHA256-PW ab:{DIGEST} | mnt-by: A-MNT",
    (
        "as-set: AS-T | mnt-by: B-MNT, B-MNT, B-MNT, B-MNT, B-MNT, B-MNT"
        " | mnt-by: B-MNT, B-MNT, B-MNT, B-MNT, B-MNT, B-MNT"
        " | mnt-by: B-MNT, B-MNT, B-MNT, B-MNT, B-MNT, B-MNT"
    ),
    "as-set: AS-T | delete: x",
    "password: abc",
    "as-set: AS-T | delete: x",
)
CHANGES = (
    Worked(
        "the stored maintainers judge a change, to one of another maintainer",
        (HOLDERS, NESTED, text("password: abc", "inetnum: 10.1.0.0/16 | mnt-by: B-MNT")),
        ("inetnum 10.1.0.0 - 10.1.255.255: refused E11",),
    ),
    Worked(
        "the stored maintainers judge a change, with their password",
        (HOLDERS, NESTED, text("password: c", "inetnum: 10.1.0.0/16 | mnt-by: A-MNT")),
        ("inetnum 10.1.0.0 - 10.1.255.255: unchanged",),
    ),
    Worked(
        "the stored maintainers judge a change, without a password",
        (HOLDERS, NESTED, text("inetnum: 10.1.0.0/16 | mnt-by: A-MNT")),
        ("inetnum 10.1.0.0 - 10.1.255.255: refused E11",),
    ),
    Worked(
        "a named maintainer stays",
        (
            HOLDERS,
            NESTED,
            text(
                "password: c",
                "mntner: A-MNT | delete: x",
                "inetnum: 10.1.0.0/16 | delete: x",
                "mntner: A-MNT | delete: x",
            ),
        ),
        (
            "mntner A-MNT: refused E17",
            "inetnum 10.1.0.0 - 10.1.255.255: deleted",
            "mntner A-MNT: deleted",
        ),
    ),
    Worked(
        "a maintainer is changed, deleted and added again",
        (
            HOLDERS,
            text(
                "password: c",
                (
                    f"mntner: A-MNT | auth: SHA256-PW ab:{DIGEST} | mnt-by: A-MNT | source: TEST"
                    " | descr: x"
                ),
                "mntner: A-MNT | delete: x",
                f"mntner: A-MNT | auth: SHA256-PW ab:{DIGEST} | mnt-by: A-MNT",
                "mntner: C-MNT | delete: x",
            ),
        ),
        (
            "mntner A-MNT: changed",
            "mntner A-MNT: deleted",
            "mntner A-MNT: added",
            "mntner C-MNT: refused E18",
        ),
    ),
    Worked(
        "a maintainer whose word a set takes stays",
        (
            HOLDERS,
            text(
                "password: c | password: abc",
                "as-set: AS-R | mbrs-by-ref: B-MNT | mnt-by: A-MNT",
                "mntner: B-MNT | delete: x",
                "as-set: AS-R | mbrs-by-ref: ANY | mnt-by: A-MNT",
                "mntner: B-MNT | delete: x",
            ),
        ),
        (
            "as-set AS-R: added",
            "mntner B-MNT: refused E17",
            "as-set AS-R: changed",
            "mntner B-MNT: deleted",
        ),
    ),
    Worked(
        "a new maintainer needs a password that fits",
        (
            HOLDERS,
            text(
                "password: c",
                f"mntner: C-MNT | auth: SHA256-PW :{DIGEST} | mnt-by: C-MNT",
                "mntner: D-MNT | auth: NONE | mnt-by: D-MNT",
                "mntner: D-MNT | auth: NONE | mnt-by: A-MNT",
                f"mntner: C-MNT | auth: SHA256-PW :{DIGEST} | mnt-by: C-MNT | password: abc",
                "mntner: E-MNT | auth: NONE | mnt-by: GONE-MNT",
            ),
        ),
        (
            "mntner C-MNT: refused E11",
            "mntner D-MNT: refused E11",
            "mntner D-MNT: added",
            "mntner C-MNT: added",
            "mntner E-MNT: refused E10",
        ),
    ),
    Worked(
        "a maintainer stays that is named for what lies below",
        (
            HOLDERS,
            text(
                "password: bc | password: c",
                "inetnum: 10.0.0.0/8 | mnt-by: ROOT-MNT | mnt-lower: A-MNT",
                "mntner: A-MNT | delete: x",
                "inetnum: 10.0.0.0/8 | mnt-by: ROOT-MNT | mnt-routes: A-MNT {}",
                "mntner: A-MNT | delete: x",
                "inetnum: 10.0.0.0/8 | mnt-by: ROOT-MNT",
                "mntner: A-MNT | delete: x",
            ),
        ),
        (
            "inetnum 10.0.0.0 - 10.255.255.255: added",
            "mntner A-MNT: refused E17",
            "inetnum 10.0.0.0 - 10.255.255.255: changed",
            "mntner A-MNT: refused E17",
            "inetnum 10.0.0.0 - 10.255.255.255: changed",
            "mntner A-MNT: deleted",
        ),
    ),
    Worked(
        "what has the same canonical text is unchanged",
        (
            HOLDERS,
            NESTED,
            text(
                "password: c",
                "Inetnum:10.1.0.0/16\r | # skipped | MNT-BY :\tA-MNT\r | source:  TEST \r",
                "inetnum: 10.1.0.0/16 | mnt-by: a-mnt",
                "inetnum: 10.1.0.5/16 | mnt-by: A-MNT",
            ),
        ),
        (
            "inetnum 10.1.0.0 - 10.1.255.255: unchanged",
            "inetnum 10.1.0.0 - 10.1.255.255: changed",
            "inetnum 10.1.0.0 - 10.1.255.255: changed",
        ),
    ),
    Worked(
        "the first refusal in order is reported, from E10 on",
        (HOLDERS, NESTED, EARLIER),
        (
            "aut-num AS2: added",
            "inetnum 10.1.0.0 - 10.1.255.255: refused E10",
            "inetnum 10.2.0.0 - 10.2.255.255: refused E10",
            "inetnum 10.0.255.0 - 10.1.0.255: refused E11",
            "route 10.1.0.0/16 AS9: refused E11",
            "route 10.1.0.0/16 AS9: refused E14",
            "mntner A-MNT: refused E11",
        ),
    ),
    Worked(
        "the first refusal in order is reported, from E14 on",
        (HOLDERS, NESTED, EARLIER, LATER),
        (
            "inetnum 10.0.255.0 - 10.1.0.255: refused E16",
            "route 10.2.0.0/16 AS2: refused E15",
            "inetnum 0.0.0.0 - 255.255.255.255: deleted",
            "route 11.0.0.0/8 AS9: refused E14",
            "route 11.0.0.0/8 AS2: refused E15",
            "inetnum 9.0.0.0 - 10.0.0.255: refused E16",
        ),
    ),
    Worked(
        "what is remembered ends with a password, a maintainer's change or the object's",
        (HOLDERS, OFTEN_NAMED, ASKED_AGAIN),
        (
            "as-set AS-T: refused E11",
            "as-set AS-T: refused E11",
            "as-set AS-T: refused E11",
            "mntner C-MNT: changed",
            "as-set AS-T: changed",
            "as-set AS-T: refused E11",
            "as-set AS-T: deleted",
        ),
    ),
)

# Strangers.

# With the passwords of all but the holder, items that would touch the prefix; the holder's password
# comes too late.
HOSTILE = text(
    "password: abc | password: bc",
    f"mntner: A-MNT | auth: SHA256-PW :{DIGEST} | mnt-by: B-MNT",
    "route: 10.0.0.0/8 | origin: AS2 | mnt-by: B-MNT",
    "route: 10.1.2.0/24 | origin: AS2 | mnt-by: B-MNT",
    "inetnum: 10.1.2.0/24 | mnt-by: B-MNT",
    "inetnum: 10.1.0.0/16 | delete: x",
    "route: 10.1.0.0/16 | origin: AS1 | delete: x",
    "inetnum: 10.0.0.0/8 | delete: x",
    "route: 10.1.0.0/16 | origin: AS2 | mnt-by: B-MNT",
    "password: c",
)
# What the holder may add afterwards.
AFTERWARDS = text(
    "password: abc",
    "as-set: AS1:AS-X | mnt-by: B-MNT",
    "password: c",
    "as-set: AS1:AS-X | mnt-by: A-MNT",
    "inetnum: 10.1.4.0/24 | mnt-by: A-MNT",
    "route: 10.1.4.0/24 | origin: AS1 | mnt-by: A-MNT",
)
STRANGERS = (
    Worked(
        "strangers are refused inside a held prefix",
        (HOLDERS, HELD, HOLDING, HOSTILE),
        (
            "mntner A-MNT: refused E11",
            "route 10.0.0.0/8 AS2: added",
            "route 10.1.2.0/24 AS2: refused E13",
            "inetnum 10.1.2.0 - 10.1.2.255: refused E13",
            "inetnum 10.1.0.0 - 10.1.255.255: refused E11",
            "route 10.1.0.0/16 AS1: refused E11",
            "inetnum 10.0.0.0 - 10.255.255.255: deleted",
            "route 10.1.0.0/16 AS2: refused E13",
        ),
    ),
    Worked(
        "the holder may add",
        (HOLDERS, HELD, HOLDING, AFTERWARDS),
        (
            "as-set AS1:AS-X: refused E13",
            "as-set AS1:AS-X: added",
            "inetnum 10.1.4.0 - 10.1.4.255: added",
            "route 10.1.4.0/24 AS1: added",
        ),
    ),
    Worked(
        "the holder may add as if no stranger had come",
        (HOLDERS, HELD, HOLDING, HOSTILE, AFTERWARDS),
        (
            "as-set AS1:AS-X: refused E13",
            "as-set AS1:AS-X: added",
            "inetnum 10.1.4.0 - 10.1.4.255: added",
            "route 10.1.4.0/24 AS1: added",
        ),
    ),
)
# What is held, before and after the strangers.
INSIDE = """\
inetnum:        10.1.0.0/16
mnt-by:         A-MNT
source:         TEST

route:          10.1.0.0/16
origin:         AS1
mnt-by:         A-MNT
source:         TEST

"""
KEPT = (
    Asked(
        "what is held before strangers come",
        (HOLDERS, HELD, HOLDING),
        (("more 10.1.0.0/16", 1, INSIDE),),
    ),
    Asked(
        "what is held after they came",
        (HOLDERS, HELD, HOLDING, HOSTILE),
        (("more 10.1.0.0/16", 1, INSIDE),),
    ),
)


@pytest.mark.parametrize("case", [*CHANGES, *STRANGERS], ids=lambda case: case.name)
def test_items_are_judged_by_what_stands(trial: Trial, case: Worked) -> None:
    """The registered objects decide, and what the items before changed."""
    assert submitted(trial, case.given)[1] == report_of(case.outcomes)


@pytest.mark.parametrize("case", KEPT, ids=lambda case: case.name)
def test_strangers_change_nothing_of_what_is_held(trial: Trial, case: Asked) -> None:
    """Nor is the registry of the dump another one."""
    folder, _ = submitted(trial, case.given)
    assert answers(trial, folder, case.answers, "irr.db") == [*case.answers]
    reload(trial, folder)
    assert answers(trial, folder, case.answers, "loaded.db") == [*case.answers]


# A-MNT of the password `c`, B-MNT of the password `abc`, AS1 of A-MNT, and two route-sets of which
# one stands below the other.
HELD_SETS = text(
    f"mntner: A-MNT | auth: SHA256-PW ab:{DIGEST} | mnt-by: A-MNT",
    f"mntner: B-MNT | auth: SHA256-PW :{DIGEST} | mnt-by: B-MNT",
    "inetnum: 10.0.0.0/8 | mnt-by: B-MNT",
    "aut-num: AS1 | member-of: RS-A | mnt-by: A-MNT",
    "aut-num: AS2 | mnt-by: B-MNT",
    "route: 10.1.0.0/16 | origin: AS2 | mnt-by: B-MNT",
    "route: 10.1.0.0/16 | origin: AS1 | member-of: RS-A, RS-B | mnt-by: A-MNT",
    "route-set: RS-A | mnt-by: A-MNT",
    "route-set: RS-A:RS-B | mnt-by: A-MNT | mnt-lower: B-MNT",
)
ALONE = text("route-set: RS-C | mnt-by: A-MNT")
KNOWN = text("route-set: RS-A | mnt-by: A-MNT")
OTHER = text("route-set: RS-A | members: AS2 | mnt-by: A-MNT")
# A password, an item, and its outcome.
VERDICTS = {
    "one alone": ("c", ALONE, "RS-C: added"),
    "one alone, by another password": ("abc", ALONE, "RS-C: refused E11"),
    "a known one": ("c", KNOWN, "RS-A: unchanged"),
    "a change": ("c", OTHER, "RS-A: changed"),
    "a change, by another password": ("abc", OTHER, "RS-A: refused E11"),
    "one below a known one": (
        "c",
        text("route-set: RS-A:RS-C | mnt-by: A-MNT"),
        "RS-A:RS-C: added",
    ),
    "one below mnt-lower of another": (
        "c",
        text("route-set: RS-A:RS-B:RS-C | mnt-by: A-MNT"),
        "RS-A:RS-B:RS-C: refused E13",
    ),
    "one below none": (
        "c",
        text("route-set: RS-C:RS-D | mnt-by: A-MNT"),
        "RS-C:RS-D: refused E12",
    ),
    "one of nobody": ("c", text("route-set: RS-C | mnt-by: C-MNT"), "RS-C: refused E10"),
    "one that takes nobody's word": (
        "c",
        text("route-set: RS-C | mbrs-by-ref: C-MNT | mnt-by: A-MNT"),
        "RS-C: refused E10",
    ),
    "a deletion": ("c", f"{KNOWN}delete: x\n", "RS-A: deleted"),
    "a deletion, by another password": ("abc", f"{KNOWN}delete: x\n", "RS-A: refused E11"),
    "a deletion of none": ("c", f"{ALONE}delete: x\n", "RS-C: refused E18"),
}


@pytest.mark.parametrize("password, given, outcome", VERDICTS.values(), ids=VERDICTS)
def test_route_sets_are_judged_by_their_place(
    trial: Trial, password: str, given: str, outcome: str
) -> None:
    """In a registry that was loaded."""
    folder = opened(trial)
    load(trial, folder, HELD_SETS.encode(), "held.db")
    report = submit(trial, folder, f"password: {password}\n\n{given}")
    assert report == report_of((f"route-set {outcome}",))

"""Worked objects: the code of each fault, how often each attribute stands in each class (RFC 2622,
3 to 6; RFC 2725, 10; profile), and dumps that are no registry."""
import pytest

from checks.commands import ADDRESSES, BLOCK, OTHERS, ROOT
from checks.running import DIGEST, Trial, write, write_settings
from checks.submissions.cases import text

IN_MEMORY = True

# Objects with the codes of their faults, or `ok`.

ORDER = (
    ("person: X\nmnt-by: any\n", "E02"),
    ("inetnum: 10.0.0.0/40\nmnt-by: any\n", "E03"),
    ("mntner: any\nauth: x\nmnt-by: A-MNT\nsource: TEST\n", "E03"),
    ("as-set: AS-ANY\nmnt-by: A-MNT\nsource: TEST\n", "E03"),
    ("inetnum: 10.1.0.9 - 10.1.0.3\nmnt-by: A-MNT\nsource: TEST\n", "E03"),
    ("inetnum: 10.1.0.3 - 10.1.0.9\nmnt-by: A-MNT\nsource: TEST\n", "ok"),
    ("aut-num: AS3\nmnt-by: any\n", "E04"),
    ("mnt-by: A-MNT\naut-num: AS3\nsource: TEST\n", "E02"),
    ("aut-num: AS3\nmnt-by: any\nsource: OTHER\n", "E05"),
    ("aut-num: AS3\nmnt-by: A-MNT\nsource: a b\n", "E05"),
    ("aut-num: AS3\nmnt-by: A-MNT\nsource: OTHER\n", "E06"),
    ("aut-num: AS3\nmnt-by: A-MNT\nsource: tesT\n", "ok"),
)
COUNTED = (
    ("aut-num: AS3\nmnt-by: A-MNT\n", "E04"),
    ("aut-num: AS3\nmnt-by: A-MNT\nsource:\n", "E04"),
    ("aut-num: AS3\nmnt-by: A-MNT\nsource: # none\n", "E04"),
    ("aut-num: AS3\nmnt-by: A-MNT\nsource: TEST\nsource: TEST\n", "E04"),
    ("aut-num: AS3\nsource: TEST\n", "E04"),
    ("aut-num: AS3\nmnt-by: , ,# A-MNT\nsource: TEST\n", "E04"),
    ("aut-num: AS3\nmnt-by:\nmnt-by: A-MNT,B-MNT\nsource: TEST\n", "ok"),
    ("aut-num: AS3\naut-num: AS3\nmnt-by: A-MNT\nsource: TEST\n", "E04"),
    ("aut-num: AS3\nmntner: ?\nmnt-by: A-MNT\nsource: TEST\n", "ok"),
    ("mntner: A-MNT\nmnt-by: A-MNT\nsource: TEST\n", "E04"),
    ("mntner: A-MNT\nauth:\nmnt-by: A-MNT\nsource: TEST\n", "E05"),
    ("mntner: A-MNT\nauth: CRYPT-PW x\nmnt-by: A-MNT\nsource: TEST\n", "ok"),
    ("route: 10.0.0.0/8\nmnt-by: A-MNT\nsource: TEST\n", "E03"),
    ("route: 10.0.0.0/8\norigin: AS1\norigin: AS1\nmnt-by: A-MNT\nsource: TEST\n", "E03"),
    ("route: 10.0.0.0/8\norigin: 1\nmnt-by: A-MNT\nsource: TEST\n", "E03"),
    ("route: 10.0.0.0/8\norigin: as1 # ours\nmnt-by: A-MNT\nsource: TEST\n", "ok"),
)
# The first lines of sets, with their members.
MEMBERS = (
    ("as-set: AS-A\nmembers: AS1, as-b AS-ANY", "ok"),
    ("as-set: AS-A\nmembers: RS-ANY", "E05"),
    ("as-set: AS-A\nmembers: AS1^+", "E05"),
    ("as-set: AS-A\nmembers: 10.0.0.0/8", "E05"),
    ("route-set: RS-A\nmembers: 10.0.0.0/8^+, RS-B^-, AS1^24, AS-ANY^8-32 RS-ANY", "ok"),
    ("route-set: RS-A\nmembers: 30.0.0.0/8^24-28^+", "E05"),
    ("route-set: RS-A\nmembers: RS-B^-^+", "E05"),
    ("route-set: AS-A\nmembers: RS-B", "E03"),
)
# Lines beside those that an aut-num needs.
VALUES = (
    ("mnt-lower: B-MNT AS-X", "E05"),
    ("mnt-lower:", "ok"),
    ("mnt-routes: B-MNT {10.0.0.0/8^+, 10.0.0.0/16^8} C-MNT ANY D-MNT", "ok"),
    ("mnt-routes: B-MNT\nmnt-routes: {10.0.0.0/8}", "ok"),
    ("mnt-routes: B-MNT{}", "ok"),
    ("mnt-routes: ANY", "E05"),
    ("mnt-routes: {10.0.0.0/8}", "E05"),
    ("mnt-routes: B-MNT {10.0.0.0/8", "E05"),
    ("mnt-routes: B-MNT ANY ANY", "E05"),
    ("member-of: AS-ANY, rs-any, AS1:AS-X", "ok"),
    ("member-of: AS1", "E05"),
    ("members: ?", "ok"),
    ("auth:", "ok"),
)
# Values of `auth`.
AUTHS = (
    (f"sha256-pw a:{DIGEST}", "ok"),
    ("SHA256-PW", "E05"),
    ("SHA256-PW a", "E05"),
    ("SHA256-PW a:00", "E05"),
    ("SHA256-PW a_b:00 c", "E05"),
    (f"SHA256-PW 1234567890123456:{DIGEST}", "ok"),
    (f"SHA256-PW 12345678901234567:{DIGEST}", "E05"),
    ("SHA256-PW:x", "ok"),
)
# Words that no maintainer is named by.
RESERVED = (
    "any",
    "as-any",
    "rs-any",
    "peeras",
    "and",
    "or",
    "not",
    "atomic",
    "from",
    "to",
    "at",
    "action",
    "accept",
    "announce",
    "except",
    "refine",
    "networks",
    "into",
    "inbound",
    "outbound",
    "AS-X",
    "rs-x",
)
NO_KEYS = (
    ("mntner:\n", "E03"),
    ("as-block: # AS1 - AS2\n", "E03"),
    ("aut-num:\n+ # AS1\n", "E03"),
    ("inetnum: \t\n", "E03"),
    ("route:\n", "E03"),
    ("as-set: #AS-A\n", "E03"),
    ("route-set:\n", "E03"),
)

# The table of interpreted attributes.

FIRST = (
    "mntner: A-MNT\n",
    "as-block: AS10 - AS20\n",
    "aut-num: AS3\n",
    "inetnum: 10.0.0.0/8\n",
    "route: 10.0.0.0/8\n",
    "as-set: AS-A\n",
    "route-set: RS-A\n",
)
# What some class needs after its first line; in other classes it is needed too, or text.
NEEDED = "mnt-by: A-MNT\nsource: TEST\nauth: CRYPT-PW x\norigin: AS1\n"
# For each attribute the lines in which it is missing, stands once, twice, without an item, and with
# a bad value; the needed lines beside it; and how often it stands in the classes in their order.
TABLE = {
    "mnt-by": (
        (
            "",
            "mnt-by: A-MNT\n",
            "mnt-by: A-MNT\nmnt-by: A-MNT\n",
            "mnt-by: # A-MNT\n",
            "mnt-by: ANY\n",
        ),
        "source: TEST\nauth: CRYPT-PW x\norigin: AS1\n",
        "+++++++",
    ),
    "source": (
        ("", "source: TEST\n", "source: TEST\nsource: TEST\n", "source: # TEST\n", "source: ?\n"),
        "mnt-by: A-MNT\nauth: CRYPT-PW x\norigin: AS1\n",
        "1111111",
    ),
    "auth": (
        (
            "",
            "auth: CRYPT-PW x\n",
            "auth: CRYPT-PW x\nauth: CRYPT-PW x\n",
            "auth: # CRYPT-PW x\n",
            "auth: SHA256-PW\n",
        ),
        "mnt-by: A-MNT\nsource: TEST\norigin: AS1\n",
        "a      ",
    ),
    "mnt-lower": (
        (
            "",
            "mnt-lower: A-MNT\n",
            "mnt-lower: A-MNT\nmnt-lower: A-MNT\n",
            "mnt-lower: # A-MNT\n",
            "mnt-lower: ANY\n",
        ),
        NEEDED,
        " 000000",
    ),
    "mnt-routes": (
        (
            "",
            "mnt-routes: A-MNT\n",
            "mnt-routes: A-MNT\nmnt-routes: A-MNT\n",
            "mnt-routes: # A-MNT\n",
            "mnt-routes: ANY\n",
        ),
        NEEDED,
        "  000  ",
    ),
    "origin": (
        ("", "origin: AS1\n", "origin: AS1\norigin: AS1\n", "origin: # AS1\n", "origin: 1\n"),
        "mnt-by: A-MNT\nsource: TEST\nauth: CRYPT-PW x\n",
        "    k  ",
    ),
    "member-of": (
        (
            "",
            "member-of: AS-X\n",
            "member-of: AS-X\nmember-of: AS-X\n",
            "member-of: # AS-X\n",
            "member-of: AS1\n",
        ),
        NEEDED,
        "  0 0  ",
    ),
    "members": (
        (
            "",
            "members: AS1\n",
            "members: AS1\nmembers: AS1\n",
            "members: # AS1\n",
            "members: AS1^\n",
        ),
        NEEDED,
        "     00",
    ),
    "mbrs-by-ref": (
        (
            "",
            "mbrs-by-ref: A-MNT\n",
            "mbrs-by-ref: A-MNT\nmbrs-by-ref: A-MNT\n",
            "mbrs-by-ref: # A-MNT\n",
            "mbrs-by-ref: AS-X\n",
        ),
        NEEDED,
        "     00",
    ),
}
# The codes of an object in which an attribute stands in these ways, where it stands once, with
# items, each one an item, freely, in the key, or as text.
CODES = {
    "1": ("E04", "ok", "E04", "E04", "E05"),
    "+": ("E04", "ok", "ok", "E04", "E05"),
    "a": ("E04", "ok", "ok", "E05", "E05"),
    "0": ("ok", "ok", "ok", "ok", "E05"),
    "k": ("E03", "ok", "E03", "E03", "E03"),
    " ": ("ok", "ok", "ok", "ok", "ok"),
}


def expect_codes(trial: Trial, cases: list[tuple[str, str]]) -> None:
    """The outcomes of objects in a new registry, without a password: one without a fault is refused
    for a maintainer who is missing, E10, or for its password, E11, which are the first codes that
    don't come of the text alone."""
    given = "\n".join(one for one, _ in cases)
    report = trial.run(trial.work, stdin=given.encode()).printed.decode().splitlines()
    assert report[-1:] == [f"% items {len(cases)}"]
    outcomes = [line.rpartition(": refused ")[2] for line in report[:-1]]
    found = ["ok" if code in ("E10", "E11") else code for code in outcomes]
    assert [*zip([one for one, _ in cases], found)] == cases


def test_faults_are_found_in_order(trial: Trial) -> None:
    expect_codes(trial, [*ORDER])


def test_needed_attributes_are_counted(trial: Trial) -> None:
    expect_codes(trial, [*COUNTED])


def test_members_are_those_of_the_class(trial: Trial) -> None:
    end = "\nmnt-by: A-MNT\nsource: TEST\n"
    expect_codes(trial, [(front + end, code) for front, code in MEMBERS])


def test_values_are_read_in_their_classes(trial: Trial) -> None:
    front = "aut-num: AS3\nmnt-by: A-MNT\nsource: TEST\n"
    expect_codes(trial, [(f"{front}{line}\n", code) for line, code in VALUES])


def test_a_digest_has_a_salt_and_64_digits(trial: Trial) -> None:
    front, end = "mntner: A-MNT\nauth: ", "\nmnt-by: A-MNT\nsource: TEST\n"
    expect_codes(trial, [(front + value + end, code) for value, code in AUTHS])


def test_reserved_words_are_no_maintainers(trial: Trial) -> None:
    named = "aut-num: AS3\nmnt-by: A-MNT\nsource: TEST\nmnt-by: "
    needed = "\nauth: x\nmnt-by: A-MNT\nsource: TEST\n"
    expect_codes(trial, [(f"{named}{word}\n", "E05") for word in RESERVED])
    expect_codes(trial, [(f"mntner: {word}{needed}", "E03") for word in RESERVED])


@pytest.mark.parametrize("row", TABLE.values(), ids=TABLE)
def test_each_attribute_stands_as_often_as_its_row_says(
    trial: Trial, row: tuple[tuple[str, ...], str, str]
) -> None:
    ways, beside, classes = row
    for first, occurs in zip(FIRST, classes, strict=True):
        codes = zip(ways, CODES[occurs], strict=True)
        expect_codes(trial, [(first + lines + beside, code) for lines, code in codes])


@pytest.mark.parametrize("first", FIRST, ids=str.strip)
def test_the_class_attribute_stands_once_and_first(trial: Trial, first: str) -> None:
    cases = [
        (first + NEEDED, "ok"),
        (first + NEEDED + first, "E04"),
        ("descr: x\n" + first + NEEDED, "E02"),
        (first + NEEDED + "person: x\n", "ok"),
    ]
    expect_codes(trial, cases)


def test_a_key_without_a_value_is_bad(trial: Trial) -> None:
    expect_codes(trial, [(front + NEEDED, code) for front, code in NO_KEYS])


# Dumps that are no registry.

# The objects of a new registry.
OPENING = f"{ROOT}\n{BLOCK}\n\n{OTHERS}\n\n{ADDRESSES}\n\n"
AS_BLOCK = text("as-block: AS0 - AS65535 | mnt-by: ROOT-MNT")
CROSSING_BLOCK = text("as-block: AS65535 - AS70000 | mnt-by: ROOT-MNT")
# Inetnums that cross, and two of which the second is of a maintainer who is missing.
CROSSING = text(
    "inetnum: 10.0.0.0 - 10.0.1.0 | mnt-by: ROOT-MNT",
    "inetnum: 10.0.1.0 - 10.0.2.0 | mnt-by: ROOT-MNT",
)
UNNAMED = text(
    "inetnum: 10.0.0.0/8 | mnt-by: ROOT-MNT",
    "inetnum: 11.0.0.0/8 | mnt-by: ROOT-MNT | mnt-lower: GONE-MNT",
)
DUPLICATE = "has the key of one before it: take one of the two out"
OVERLAP = "has a range that overlaps one before it: mend one of the two"
MISSING = "names a maintainer who is not in the dump: add its mntner, or take the name out"
# Two texts, and what is wrong with a paragraph of one after the other.
LISTS = {
    "a block without its maintainer": ("", AS_BLOCK, f"1 {MISSING}"),
    "each object twice": (OPENING, OPENING, f"5 {DUPLICATE}"),
    "a block again": (AS_BLOCK, OPENING, f"3 {DUPLICATE}"),
    "a block that crosses another": (OPENING, CROSSING_BLOCK, f"5 {OVERLAP}"),
    "a block that crosses a later one": (CROSSING_BLOCK, OPENING, f"3 {OVERLAP}"),
    "inetnums that cross": (OPENING, CROSSING, f"6 {OVERLAP}"),
    "inetnums that cross before what they name": (CROSSING, OPENING, f"2 {OVERLAP}"),
    "inetnums that cross without what they name": (CROSSING, AS_BLOCK, f"2 {OVERLAP}"),
    "a maintainer who is missing": (OPENING, UNNAMED, f"6 {MISSING}"),
    "a maintainer who is missing, first": (UNNAMED, OPENING, f"2 {MISSING}"),
}


def loaded(trial: Trial, name: str, dump: str) -> tuple[int, bytes, str]:
    """How a load of a dump ended."""
    folder = trial.place(name)
    write_settings(folder)
    write(folder, "dump.rpsl", dump.encode())
    ran = trial.run(folder, "load", "s.toml", "dump.rpsl")
    return ran.status, ran.printed, ran.reported.decode()


@pytest.mark.parametrize("name", LISTS)
def test_a_list_that_is_no_registry_has_its_fault(trial: Trial, name: str) -> None:
    first, second, fault = LISTS[name]
    status, printed, reported = loaded(trial, name, f"{first}\n{second}")
    assert (status, printed) == (5, b"")
    assert reported.startswith("irrdesk: dump.rpsl, line ")
    assert reported.endswith(f": nothing is loaded, because paragraph {fault}\n")


def test_the_objects_of_a_new_registry_are_loaded(trial: Trial) -> None:
    assert loaded(trial, "opening", f"{OPENING}\n")[0] == 0

"""What is read of a submission before anything is decided, and which passwords fit, by worked
submissions."""
import pytest

from checks.running import DIGEST, Trial
from checks.submissions.cases import HOLDERS, NESTED, Worked, report_of, submitted, text

IN_MEMORY = True

# The digest of the salt k3 and a password of three lines.
FOLDED = "01b12ab913dbdc785fd846ee0f688d8d1867ed879943ae592a6f17e996be6c58"
# Two maintainers with several digests, of which one fits: of the salt `ab` and the password `c`, or
# of the password `abc`.
SECOND = "SHA256-PW :248d6a61d20638b8e5c026930c3e6039a33ce45964ff2167f6ecedd419db06c1"
EMPTY = "SHA256-PW :e3b0c44298fc1c149afbf4c8996fb92427ae41e4649b934ca495991b7852b855"
COMING = text(
    "password: c | password: abc",
    f"mntner: S-MNT | auth: {SECOND} | auth: SHA256-PW ab:{DIGEST.upper()} | mnt-by: S-MNT",
    (
        f"mntner: P-MNT | auth: {EMPTY} | auth: {SECOND} | auth: SHA256-PW :{DIGEST}"
        " | mnt-by: P-MNT"
    ),
)
# Passwords one by one, and after each a set of either maintainer, twice.
COME = text(
    *(
        paragraph
        for number, password in enumerate(("bc", "abc", "ab", "c"), 1)
        for paragraph in (
            f"password: {password}",
            *[
                f"as-set: AS-S{number} | mnt-by: S-MNT",
                f"as-set: AS-P{number} | mnt-by: P-MNT",
            ]
            * 2,
        )
    )
)
READING = (
    Worked("nothing is no item", ("",), ()),
    Worked("passwords alone are no items", (text("password: bc"),), ()),
    Worked(
        "each fault of reading has its code",
        (
            (
                text("password: bc", "person: X | mnt-by: ROOT-MNT")
                + "\naut-num: AS3\nmnt-by: ROOT-MNT\n\n"
                + text(
                    "aut-num: AS3 | mnt-by: any",
                    "aut-num: AS3 | mnt-by: ROOT-MNT | source: OTHER",
                    "nocolon",
                    " aut-num: AS3",
                    "aut-num: AS3 | mnt-by: ROOT-MNT",
                )
            ),
        ),
        (
            "-: refused E02",
            "aut-num AS3: refused E04",
            "aut-num AS3: refused E05",
            "aut-num AS3: refused E06",
            "-: refused E01",
            "-: refused E01",
            "aut-num AS3: added",
        ),
    ),
    Worked(
        "a password counts for its paragraph and the later ones",
        (
            HOLDERS,
            text(
                "password: no secret of anybody",
                "inetnum: 10.0.0.0/8 | mnt-by: ROOT-MNT",
                "inetnum: 11.0.0.0/8 | mnt-by: ROOT-MNT | source: TEST | password: bc",
                "password: c",
                "inetnum: 12.0.0.0/8 | mnt-by: A-MNT",
                "inetnum: 13.0.0.0/8 | mnt-by: B-MNT",
                "password: abc",
            ),
        ),
        (
            "inetnum 10.0.0.0 - 10.255.255.255: refused E11",
            "inetnum 11.0.0.0 - 11.255.255.255: added",
            "inetnum 12.0.0.0 - 12.255.255.255: added",
            "inetnum 13.0.0.0 - 13.255.255.255: refused E11",
        ),
    ),
    Worked(
        "a password counts from when it comes, also where it was asked for before",
        (COMING, COME),
        (
            "as-set AS-S1: refused E11",
            "as-set AS-P1: refused E11",
            "as-set AS-S1: refused E11",
            "as-set AS-P1: refused E11",
            "as-set AS-S2: refused E11",
            "as-set AS-P2: added",
            "as-set AS-S2: refused E11",
            "as-set AS-P2: unchanged",
            "as-set AS-S3: refused E11",
            "as-set AS-P3: added",
            "as-set AS-S3: refused E11",
            "as-set AS-P3: unchanged",
            "as-set AS-S4: added",
            "as-set AS-P4: added",
            "as-set AS-S4: unchanged",
            "as-set AS-P4: unchanged",
        ),
    ),
    Worked(
        "passwords that come together count after those that were asked",
        (
            COMING,
            text(
                "password: abc",
                "as-set: AS-S1 | mnt-by: S-MNT",
                "password: bc | password: c",
                "as-set: AS-S1 | mnt-by: S-MNT",
            ),
        ),
        ("as-set AS-S1: refused E11", "as-set AS-S1: added"),
    ),
    Worked(
        "the word before a digest is in any letter case",
        (text("password: bc", f"mntner: C-MNT | auth: sha256-pw a:{DIGEST} | mnt-by: C-MNT"),),
        ("mntner C-MNT: added",),
    ),
    Worked(
        "an object that is refused gives its passwords, a faulty text gives none",
        (
            text(
                "password: bc | nocolon",
                "inetnum: 10.0.0.0/8 | mnt-by: ROOT-MNT",
                "password: bc | person: X",
                "inetnum: 10.0.0.0/8 | mnt-by: ROOT-MNT",
            ),
        ),
        (
            "-: refused E01",
            "inetnum 10.0.0.0 - 10.255.255.255: refused E11",
            "-: refused E02",
            "inetnum 10.0.0.0 - 10.255.255.255: added",
        ),
    ),
    Worked(
        "a password is its lines with spaces between them",
        (
            text(
                "password: one |  #1 | +secret",
                f"mntner: C-MNT | auth: SHA256-PW k3:{FOLDED} | mnt-by: C-MNT",
            ),
        ),
        ("mntner C-MNT: added",),
    ),
    Worked(
        "a deletion needs a class and a key alone",
        (
            HOLDERS,
            NESTED,
            text(
                "password: c",
                "delete: x | inetnum: 10.1.0.0/16 | mnt-by: any | source: OTHER",
                "route: 10.1.0.0/16 | delete: x",
                "delete: x",
                "password: c | delete: x",
            ),
        ),
        (
            "inetnum 10.1.0.0 - 10.1.255.255: deleted",
            "-: refused E03",
            "-: refused E02",
            "-: refused E02",
        ),
    ),
)


@pytest.mark.parametrize("case", READING, ids=lambda case: case.name)
def test_items_are_read_by_the_text_alone(trial: Trial, case: Worked) -> None:
    assert submitted(trial, case.given)[1] == report_of(case.outcomes)


# The messages of the examples of FIPS 180-4 with their digests, of which the empty one is published
# beside them, and the second one cut into salt and password.
PUBLISHED = {
    "the empty message": (
        ":e3b0c44298fc1c149afbf4c8996fb92427ae41e4649b934ca495991b7852b855",
        "",
    ),
    "the first message": (f":{DIGEST}", "abc"),
    "the first message, salted": (f"ab:{DIGEST.upper()}", "c"),
    "the second message": (
        ":248d6a61d20638b8e5c026930c3e6039a33ce45964ff2167f6ecedd419db06c1",
        "abcdbcdecdefdefgefghfghighijhijkijkljklmklmnlmnomnopnopq",
    ),
    "the third message": (
        ":cf5b16a778af8380036ce59e7b0492370b249b11e8f07a51afac45037afee9d1",
        "abcdefghbcdefghicdefghijdefghijkefghijklfghijklmghijklmnhijklmno"
        "ijklmnopjklmnopqklmnopqrlmnopqrsmnopqrstnopqrstu",
    ),
}


@pytest.mark.parametrize("line, message", PUBLISHED.values(), ids=PUBLISHED)
def test_published_digests_fit_their_messages_alone(trial: Trial, line: str, message: str) -> None:
    """By the password of a new maintainer."""
    held = f"mntner: A-MNT | auth: SHA256-PW {line} | mnt-by: A-MNT"
    given = text("password: bc", held, f"password: {message}", held)
    ran = trial.run(trial.work, stdin=given.encode())
    assert ran.printed == report_of(("mntner A-MNT: refused E11", "mntner A-MNT: added"))

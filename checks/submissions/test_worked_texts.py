"""Worked texts: how RPSL is folded, kept, shown and cut into paragraphs (RFC 2622, 2; profile)."""
import pytest

from checks.running import DIGEST, Trial, run_in_pieces, write
from checks.submissions.cases import expect_done, opened, report_of, text

IN_MEMORY = True

# Texts of A-MNT, of the password `c`; what they are kept as, and what everybody may see of that.

# CR LF at each line end but the last, folded values and a skipped line.
FOLDED = f"""\
Mntner: A-MNT\r
descr: first # note\r
\tsecond\r
+\r
% skipped\r
+third\r
auth: SHA256-PW\r
 ab:{DIGEST}\r
mnt-by: A-MNT\r
source: test""".encode()
CANONICAL = f"""\
mntner:         A-MNT
descr:          first # note
                second
+
                third
auth:           SHA256-PW
                ab:{DIGEST}
mnt-by:         A-MNT
source:         test
""".encode()
SHOWN = b"""\
mntner:         A-MNT
descr:          first # note
                second
+
                third
auth:           # filtered
mnt-by:         A-MNT
source:         test
"""
# Passwords among other lines, and two lines of one `auth`.
SECRETIVE = f"""\
mntner: A-MNT
password: one
auth: SHA256-PW ab:{DIGEST}
Password: two
auth: y
 z
mnt-by: A-MNT
source: TEST
""".encode()
SECRETIVE_KEPT = f"""\
mntner:         A-MNT
auth:           SHA256-PW ab:{DIGEST}
auth:           y
                z
mnt-by:         A-MNT
source:         TEST
""".encode()
SECRETIVE_SHOWN = b"""\
mntner:         A-MNT
auth:           # filtered
auth:           # filtered
mnt-by:         A-MNT
source:         TEST
"""
# Bytes above 127, and refused ones in a skipped line.
HIGH = (
    b"mntner: A-MNT\ndescr: \xff\x80 caf\xe9\n%% \x00\x07\nauth: SHA256-PW ab:%s\nmnt-by: A-MNT\n"
    b"source: TEST\n" % DIGEST.encode()
)
HIGH_KEPT = (
    b"mntner:         A-MNT\ndescr:          \xff\x80 caf\xe9\nauth:           SHA256-PW ab:%s\n"
    b"mnt-by:         A-MNT\nsource:         TEST\n" % DIGEST.encode()
)
HIGH_SHOWN = (
    b"mntner:         A-MNT\ndescr:          \xff\x80 caf\xe9\nauth:           # filtered\n"
    b"mnt-by:         A-MNT\nsource:         TEST\n"
)
TEXTS = {
    "folded": (FOLDED, CANONICAL, SHOWN),
    "with passwords": (SECRETIVE, SECRETIVE_KEPT, SECRETIVE_SHOWN),
    "with bytes above 127": (HIGH, HIGH_KEPT, HIGH_SHOWN),
    "canonical": (CANONICAL, CANONICAL, SHOWN),
}


@pytest.mark.parametrize("given, kept, shown", TEXTS.values(), ids=TEXTS)
def test_a_text_is_kept_as_its_canonical_one(
    trial: Trial, given: bytes, kept: bytes, shown: bytes
) -> None:
    """Dumps and answers have it from the rows, which each command reads again."""
    folder = opened(trial)
    write(folder, "given.rpsl", b"password: c\n\n" + given)
    added = trial.run(folder, "submit", "s.toml", "given.rpsl")
    assert added.printed == b"1 mntner A-MNT: added\n% items 1\n"
    full = trial.run(folder, "dump", "s.toml", "--full")
    public = trial.run(folder, "dump", "s.toml")
    asked = trial.run(folder, "query", "s.toml", "a-mnt")
    for ran in full, public, asked:
        expect_done(ran)
    assert full.printed.startswith(kept + b"\n")
    assert public.printed.startswith(shown + b"\n")
    assert asked.printed == shown + b"\n"


# Paragraphs.

# Texts, and the codes of their items.
PARAGRAPHS = (
    (b"", ()),
    (b"\n\n", ()),
    (b"% one\n# two", ()),
    (b" \t\r\n%\n\n#\n \n", ()),
    # A faulty paragraph between two others.
    (b"% mirror\n\na: 1\n\n\nfaulty\n% x\n \t\nb: 2", ("E02", "E01", "E02")),
)


def refusals(*codes: str) -> bytes:
    """The report on items without a key."""
    return report_of(tuple(f"-: refused {code}" for code in codes))


@pytest.mark.parametrize("given, codes", PARAGRAPHS)
def test_blank_lines_part_paragraphs(trial: Trial, given: bytes, codes: tuple[str, ...]) -> None:
    """Skipped lines alone are none."""
    ran = trial.run(trial.work, stdin=given)
    assert (ran.status, ran.printed) == (1 if codes else 0, refusals(*codes))


def sized(more: int, byte: bytes = b"a") -> bytes:
    """A paragraph, of no known class, with this many bytes more than 65,536, one of them this."""
    front = (b"descr: " + byte).ljust(1_532 + more, b"a") + b"\n"
    skipped = b"% a skipped line counts for the size of its paragraph: 64 bytes\n"
    return front + skipped * 1_000 + b"+z\n"


# Paragraphs, and their codes: the size decides before other faults.
SIZED = {
    "65,536 bytes": (sized(0), "E02"),
    "65,536 bytes, a bad one": (sized(0, b"\0"), "E01"),
    "65,537 bytes": (sized(1), "E07"),
    "65,537 bytes, a bad one": (sized(1, b"\0"), "E07"),
    "more behind a line without a beginning": (b" x\n" + sized(0), "E07"),
    "more behind a line without a colon": (b"x\n" + sized(0), "E07"),
    "more behind a line without a name": (b"1: x\n" + sized(0), "E07"),
}


@pytest.mark.parametrize("given, code", SIZED.values(), ids=SIZED)
def test_size_decides_before_other_faults(trial: Trial, given: bytes, code: str) -> None:
    assert trial.run(trial.work, stdin=given).printed == refusals(code)


@pytest.mark.parametrize("before", [4_095, 4_096, 4_097])
@pytest.mark.parametrize("step", [1, 4_096])
@pytest.mark.parametrize("more, code", [(0, "E02"), (1, "E07")])
def test_size_is_the_same_at_each_place_of_a_block(
    trial: Trial, before: int, step: int, more: int, code: str
) -> None:
    """A block has 4,096 bytes; a skipped line and a blank one come first, a small one behind."""
    assert len(sized(more)) == 65_536 + more
    given = b"%" * (before - 2) + b"\n\n" + sized(more) + b"\nb: 2\n"
    ran = run_in_pieces([trial.program], trial.work, given, [step])
    assert ran.printed == refusals(code, "E02")


# The beginning of a paragraph, the size to which it is lengthened without its line end, the bytes a
# read, and its outcome.
LENGTHENED = text("inetnum: 10.0.0.0/8 | mnt-by: ROOT-MNT") + "descr: "
SIZES = {
    "an object of 65,536 bytes": (
        LENGTHENED,
        65_535,
        4_096,
        "inetnum 10.0.0.0 - 10.255.255.255: added",
    ),
    "an object of 65,537 bytes": (LENGTHENED, 65_536, 4_096, "-: refused E07"),
    "a bad line of 65,536 bytes": (" ", 65_535, 4_096, "-: refused E01"),
    "a bad line of 65,537 bytes": (" ", 65_536, 4_096, "-: refused E07"),
    "a million bytes, one by one": ("x", 1_000_000, 1, "-: refused E07"),
    "a million bytes": ("x", 1_000_000, 4_096, "-: refused E07"),
}


@pytest.mark.parametrize("front, size, step, outcome", SIZES.values(), ids=SIZES)
def test_a_paragraph_has_at_most_65536_bytes(
    trial: Trial, front: str, size: int, step: int, outcome: str
) -> None:
    """However it is cut; the paragraph behind it is read."""
    behind = text("inetnum: 11.0.0.0/8 | mnt-by: ROOT-MNT")
    given = f"password: bc\n\n{front:x<{size}}\n\n{behind}"
    ran = run_in_pieces([trial.program], trial.work, given.encode(), [step])
    assert ran.printed == report_of((outcome, "inetnum 11.0.0.0 - 11.255.255.255: added"))

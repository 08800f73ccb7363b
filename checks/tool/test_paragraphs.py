"""What of a dump is one object: paragraphs that hold several are parted, or left out."""

import time

import pytest
from hypothesis import given
from hypothesis import strategies as st

from checks.tool.importing import left_out, listed, made, mended, obj, texts_of
from irr.migrate import conversion, paragraphs
from irr.rpsl import syntax

A = ("as-set: AS-A", "members: AS1", "mnt-by: A-MNT", "source: RIPE")
B = ("route-set: RS-B", "members: 10.0.0.0/8", "mnt-by: EVIL-MNT", "source: RIPE")
# The classes of RFC 2622, 2725, 2726 and 4012, of RIPE and of IRRd, all but `route-set`.
CLASSES = """mntner as-block aut-num inetnum route as-set person role route6 inet6num inet-rtr
    filter-set peering-set rtr-set key-cert domain repository dictionary irt organisation poem
    poetic-form limerick as-macro community dom-prefix ipv6-site organization""".split()


def test_parted_after_a_source() -> None:
    dump, tally = made(obj(*A, *B))
    assert texts_of(dump, "as-set", "route-set") == [
        "as-set:         AS-A\nmembers:        AS1\nmnt-by:         A-MNT\n"
        "source:         TEST\n",
        "route-set:      RS-B\nmembers:        10.0.0.0/8\nmnt-by:         EVIL-MNT\n"
        "source:         TEST\n",
    ]
    assert (tally.read, tally.taken, tally.mended["part"]) == (2, 2, 1)
    assert "  1  --no-part" in "\n".join(tally.lines())
    assert [line.partition(":")[2] for line in tally.parted] == ["5\troute-set: RS-B"]


def test_byte_order_marks_of_files_that_were_joined() -> None:
    """A mark hides no class line, with a blank line before it or without, and is not kept."""
    mark, again = b"\xef\xbb\xbf", "a class again after the first line"
    c = ("aut-num: AS1", "mnt-by: A-MNT", "source: RIPE")
    for text in (
        obj(*A) + mark + obj(*B),
        obj(*A)[:-1] + mark + obj(*B),
        mark + obj(*A)[:-1] + b"# x\n" + mark + obj(*B)[:-1],
    ):
        assert texts_of(made(text)[0], "as-set", "route-set") == texts_of(
            made(obj(*A, *B))[0], "as-set", "route-set"
        )
        assert left_out(text) == []
    text = obj(*c[:-1], "route: 10.0.0.0/8", c[-1])[:-1] + mark + obj(*A)
    assert [line.split("\t")[0] for line in left_out(text)] == [again]
    assert b"AS-A" in made(text)[0]
    text = obj(*c[:-1], "route: 10.0.0.0/8")[:-1] + mark + obj(*A)
    assert [line.rpartition("\t")[2] for line in listed(text)] == [
        "aut-num: AS1",
        "route: 10.0.0.0/8",
        "as-set: AS-A",
    ]
    assert listed(obj(*A)[:-1] + mark + obj(*B), off=["part"])[1].endswith("\troute-set: RS-B")


@pytest.mark.parametrize("head", ["# a", "% a\n#route: b\n%", "", " \t\r\n# a", "\r"])
def test_comments_after_a_byte_order_mark(head: str) -> None:
    """They stand before an object as at the beginning of a file, and are none by themselves."""
    mark = b"\xef\xbb\xbf" + head.encode() + b"\n"
    for text, count in (
        (obj(*A) + mark + obj(*B), 0),
        (obj(*A) + mark + b"\n" + obj(*B), 0),
        (mark + obj(*A, *B), 1),
    ):
        dump, tally = made(text)
        assert tally.mended["part"] == count
        assert texts_of(dump, "as-set", "route-set") == texts_of(
            made(obj(*A, *B))[0], "as-set", "route-set"
        )
        assert (listed(text), tally.read) == ([], 2)
    if head[:1] in ("#", "%"):
        assert (listed(obj(*A)[:-1] + mark + obj(*B)), made(text)[1].taken) == ([], 2)
    # Lines have the numbers that they have in the file.
    (line,) = listed(obj(*A) + mark + obj("person: Jo"))
    assert line.endswith(f":{7 + head.count(chr(10))}\tperson: Jo")


def test_not_parted_where_that_is_turned_off() -> None:
    _, tally = made(obj(*A, *B), off=["part"])
    assert (tally.read, dict(tally.causes)) == (1, {"not mended because of --no-part": 1})


@pytest.mark.parametrize(
    "between",
    [
        ["# a comment", "%", "#"],
        [" more"],
        ["+", "# x", "\t"],
    ],
)
def test_what_may_stand_before_the_class(between: list[str]) -> None:
    """Skipped lines are no attributes; lines that continue `source` are part of it."""
    source = [A[-1]] if between[0][0] in "#%+" else ["source:"]
    lines = [*A[:-1], *source, *between, *B]
    dump, tally = made(obj(*(line if line != " more" else " RIPE" for line in lines)))
    assert (tally.read, tally.taken) == (2, 2)
    assert b"EVIL-MNT" not in dump.partition(b"AS-A")[2].partition(b"\n\n")[0]


def test_ends_of_lines_and_spellings() -> None:
    text = obj(*A, *B).replace(b"source:", b"SOURCE \t:").replace(b"route-set:", b"Route-Set :")
    assert made(text)[1].taken == 2
    assert made(text.replace(b"\n", b"\r\n"))[1].taken == 2


def test_many_in_one_paragraph() -> None:
    text = obj(*(line for number in range(50) for line in (f"as-set: AS-{number}", *A[1:])))
    _, tally = made(text + obj("person: Jo", "nic-hdl: J", "source: RIPE", *B))
    assert (tally.read, tally.taken, tally.causes["class person"]) == (52, 51, 1)
    assert (tally.mended["part"], len(tally.parted)) == (50, 10)


@pytest.mark.parametrize("name", CLASSES)
def test_a_class_after_the_first_line(name: str) -> None:
    """Where no `source` stands before it, nobody knows where the first object ends."""
    cause = "a class again after the first line"
    for lines in (
        ("route-set: RS-B", f"{name}: X", "mnt-by: A-MNT", "source: RIPE"),
        ("route-set: RS-B", "mnt-by: A-MNT", "source: RIPE", "descr: x", f"{name.upper()} : X"),
        (f"{name}: X", "descr: x", "route-set: RS-B", "mnt-by: A-MNT", "source: RIPE"),
        ("x-unknown: X", f"{name}: X", "source: RIPE"),
    ):
        assert mended(obj(*lines)) == cause, lines


def test_names_that_are_no_class() -> None:
    """An attribute that only begins or ends as a class, a value, a comment, and `advisory`, which
    routes of RADB have."""
    text = obj(
        "route: 10.0.0.0/8",
        "origin: AS1",
        "descr: route: 10.0.0.0/8",
        "# route: 10.0.0.0/8",
        " route: 10.0.0.0/8",
        "x-route: y",
        "routes: y",
        "advisory: AS690 1:701",
        "mnt-by: A-MNT",
        "source: TEST",
    )
    assert mended(text)[1] == set()


def test_two_sources() -> None:
    for lines in (
        ("aut-num: AS1", "source: RIPE", "mnt-by: A-MNT", "source: RIPE"),
        ("aut-num: AS1", "mnt-by: A-MNT", "source: TEST", "source: TEST"),
        ("aut-num: AS1", "source:", "mnt-by: A-MNT", "SOURCE : TEST"),
        ("person: Jo", "source: RIPE", "source: RIPE"),
    ):
        assert mended(obj(*lines)) == "`source` twice", lines


def test_a_source_that_is_none() -> None:
    """Where a dump without a line end stands before another one, the class is in the value."""
    seam = obj(*A).rstrip() + obj("route-set: RS-B", "mnt-by: EVIL-MNT")
    assert mended(seam) == "a `source` that can't be read"
    assert mended(obj("aut-num: AS1", "mnt-by: A-MNT", "source: RIPE", " mnt-by: B-MNT")) == (
        "a `source` that can't be read"
    )
    assert mended(obj("aut-num: AS1", "mnt-by: A-MNT", "source: ")) == (
        b"aut-num:        AS1\nmnt-by:         A-MNT\nsource:         TEST\n",
        {"source"},
    )


def test_a_source_in_the_first_line_ends_no_object() -> None:
    _, tally = made(obj("source: RIPE", *B[:-1]))
    assert (tally.read, tally.taken) == (1, 0)


def test_a_part_without_a_source_is_no_object() -> None:
    """A stranger may have written it into the object before."""
    inside = obj(
        "as-set: AS-A", "source: RIPE", "route-set: RS-X", "members: AS666", "mnt-by: E-MNT"
    )
    text, tally = made(inside + obj("route-set: RS-X", "members: AS1", "source: RIPE"))
    assert (tally.taken, b"E-MNT" in text, b"AS666" in text) == (2, False, False)
    assert left_out(inside + obj("aut-num: AS1", "source: RIPE"))[0].startswith(
        "no `source`, and no blank line before it\t"
    )


def test_each_part_that_is_left_out_is_listed_by_its_own_line() -> None:
    lines = left_out(b"\n" + obj(*A, "person: Jo", "source: RIPE", *B, *B))
    assert [line.split("\t")[:1] + line.rsplit(":", 2)[1:] for line in lines] == [
        ["class person", "6\tperson", " Jo"],
        ["duplicate", "12\troute-set", " RS-B"],
    ]


M = ("mntner: A-MNT", "auth: MD5-PW x", "mnt-by: A-MNT", "source: RIPE")
N = ("auth: MD5-PW y", "mnt-by: B-MNT")
SALTED = "SHA256-PW person:" + "0a" * 32


@pytest.mark.parametrize(
    ("lines", "item"),
    [
        ((*M, N[0]), "auth\tMD5-PW y"),
        ((*M, N[1]), "mnt-by\tB-MNT"),
        ((*M, "descr: x", *N), "auth\tMD5-PW y"),
        ((A[0], *A[1:], "x: y", "members: AS2"), "members\tAS2"),
        ((B[0], "mp-members: 10.0.0.0/8", *A[2:], "mp-members: 10.0.0.0/9"), "10.0.0.0/9"),
    ],
)
def test_a_list_that_goes_on_after_a_source(lines: tuple[str, ...], item: str) -> None:
    """The class line of another object is lost, with what was before it and its own `source`."""
    (line,) = left_out(obj(*lines))
    assert line.startswith("a list before `source` that goes on after it\t")
    assert item in line
    assert b"B-MNT" not in made(obj(*lines))[0]


def test_lists_of_one_side_of_a_source() -> None:
    """The order of the lines of an object is free (RFC 2622, 2)."""
    for lines in (
        (A[0], A[3], A[1], A[2]),
        (M[0], M[1], M[3], M[2]),
        (*M, "descr: x", "changed: y", "mnt-lower: A-MNT"),
    ):
        assert made(obj(*lines))[1].taken == 1, lines


@pytest.mark.parametrize("comment", ["% c", "#\r", "\xef\xbb\xbf# c\n% d\r "])
def test_an_object_after_a_cr_in_a_comment_is_reported(comment: str) -> None:
    """A file whose lines end in CR alone may begin with a comment, and be joined to another one."""
    cause = "a class after a CR in a comment"
    own = f"{comment}\ras-set: AS-Y\rmembers: AS1\rsource: RIPE\r"
    place = own.count("\n") + 1
    for text, line in (
        (obj(own) + obj(*B), place),
        (obj(own, *B), place),
        (obj(*B) + obj(own, "# e"), place + 5),
        (obj(*B) + own.encode("latin-1"), place + 5),
    ):
        found = [one.split("\t") for one in listed(text)]
        assert [one[:2] for one in found] == [["left out", cause], ["left out with it", cause]]
        assert [one[2].rpartition(":")[2] for one in found] == [str(line)] * 2
        assert found[1][3] == "as-set: AS-Y"
        assert texts_of(made(text)[0], "route-set") == texts_of(made(obj(*B))[0], "route-set")
    assert left_out(obj("% c\rdescr: x\ras-sets: y", *B)) == []


@pytest.mark.parametrize(
    "line", ["as-set; AS-Y", "as-set AS-Y", "\xa0as-set: AS-Y", "> as-set: AS-Y"]
)
def test_a_class_line_with_a_fault_is_listed(line: str) -> None:
    """In what is left out, as its name is kept."""
    text = obj("aut-num: AS1", "mnt-by: A-MNT", line, "mnt-by: B-MNT", "source: RIPE", "source: X")
    for own in text, text.replace(b"source: X\n", b""):
        found = [one.split("\t") for one in listed(own)]
        assert [one[0] for one in found] == ["left out", "left out with it"]
        assert found[1][2].endswith(":3") and "AS-Y" in found[1][3]


@pytest.mark.parametrize("cut", ["descr: Ex", "descr: a text ", "descr:"])
@pytest.mark.parametrize("kind", ["person", "role"])
def test_an_object_that_is_joined_with_a_person(cut: str, kind: str) -> None:
    """Otherwise it would be that of the person's maintainer."""
    text = obj(*A[:2], f"{cut}{kind}: Jo Doe", "nic-hdl: JO1", "mnt-by: B-MNT", A[3])
    (line,) = left_out(text)
    assert line.startswith("a `nic-hdl`, as of a person that was joined\t")
    assert b"B-MNT" not in made(text)[0]


@pytest.mark.parametrize(
    "auth",
    [
        "auth: MD5-PW $1$abmntner: B-MNT",
        "auth: MD5-PW # Filtmntner: B-MNT",
        "auth: mntner:B-MNT",
        "auth: x\n SSO a@b.netROLE : B",
        f"auth: {SALTED} # mntner: B-MNT",
    ],
)
def test_two_mntners_that_are_joined_at_an_auth(auth: str) -> None:
    """Who knows the password of the second one would be let in by the first one."""
    text = obj(M[0], auth, *N, M[3])
    (line,) = left_out(text)
    assert line.startswith("a class inside an `auth`, as of two lines that were joined\t")
    assert b"mntner:         A-MNT" not in made(text)[0]


@pytest.mark.parametrize("auth", [SALTED, "MD5-PW # Filtered", "SSO role::x", "X # a person"])
def test_an_auth_with_a_class_that_begins_none(auth: str) -> None:
    assert made(obj(M[0], f"auth: {auth}", *M[2:]))[1].taken == 1


def test_a_part_with_a_fault_costs_no_other() -> None:
    dump, tally = made(obj(*A, "route-set: RS-C", "no colon", "source: RIPE", *B))
    assert (tally.taken, dict(tally.causes)) == (2, {"text: it has a line without a colon": 1})
    assert b"RS-B" in dump and b"RS-C" not in dump


def test_a_dump_without_blank_lines_loses_nothing(monkeypatch: pytest.MonkeyPatch) -> None:
    """Also where it is larger than what is kept of a paragraph."""
    monkeypatch.setattr(conversion, "MOST", 1_000)
    monkeypatch.setattr(syntax, "CHUNK", 700)
    lines = [line for number in range(99) for line in (f"as-set: AS-{number}", *A[1:], "# x")]
    lines[4 * 50 + 50 : 4 * 50 + 50] = ["person: Jo", "source: RIPE"]
    dump, tally = made(obj(*lines, "person: Jo", "source: RIPE"))
    assert (tally.taken, dict(tally.causes)) == (99, {"class person": 2})
    assert [line.split("\t")[1].rpartition(":")[2] for line in left_out(obj(*lines))] == ["251"]
    assert tally.mended["part"] == 100


@pytest.mark.parametrize("line", ["as-set: AS-A%s", "as-set%s; AS-A", "as-set: AS-A%sx"])
@pytest.mark.parametrize("mark", ["\r", "- ", " \r", "a-", ":"])
def test_a_first_line_costs_what_it_is_long(line: str, mark: str) -> None:
    text = obj(line % (mark * 20_000), *A[1:])
    started = time.process_time()
    assert made(text)[1].read == 1
    assert time.process_time() - started < 2


def test_what_is_too_large_and_has_no_seam(monkeypatch: pytest.MonkeyPatch) -> None:
    monkeypatch.setattr(conversion, "MOST", 1_000)
    monkeypatch.setattr(syntax, "CHUNK", 700)
    text = obj("as-set: AS-A", *["x: y"] * 1_000, *A[1:]) + obj(*B)
    assert left_out(text)[0].startswith("above 65,536 bytes\t")
    assert made(text)[1].taken == 1


LINES = [
    "source: X",
    "as-set: AS-A",
    "x: y",
    " z",
    "# c",
    "+",
    "\xef\xbb\xbf# d",
    "% e\ras-set: AS-B",
    "source: " + "Y" * 90,
]
LINES += ["", " \t"]


@given(
    st.lists(st.tuples(st.sampled_from(LINES), st.integers(1, 20)), max_size=25),
    st.lists(st.integers(1, 150), min_size=1, max_size=9),
)
def test_pieces_do_not_matter(runs: list[tuple[str, int]], sizes: list[int]) -> None:
    """A text has the same blocks whole and in pieces of any sizes."""
    text = "".join((line + "\n") * count for line, count in runs).encode("latin-1")
    pieces: list[bytes] = []
    start = 0
    while start < len(text):
        size = sizes[len(pieces) % len(sizes)]
        pieces.append(text[start : start + size])
        start += size
    with pytest.MonkeyPatch.context() as patch:
        patch.setattr(syntax, "CHUNK", 60)
        whole, pieced = (
            list(syntax.blocks(source, 50, paragraphs.last_seam, paragraphs.later))
            for source in ([text], pieces)
        )
    assert pieced == whole

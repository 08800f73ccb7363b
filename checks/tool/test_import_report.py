"""What an import tells of objects that it takes, and which of its list is which."""

import re
from collections import Counter
from typing import Any

import pytest

from checks.tool.importing import left_out, listed, made, mended, obj, texts_of
from irr.migrate import conversion
from irr.rpsl import syntax

A = ("as-set: AS-A", "members: AS1", "mnt-by: A-MNT", "source: RIPE")
CUT = "cut off at the end of the file"


def reported(*texts: bytes, **more: Any) -> list[tuple[Any, ...]]:
    """What is reported of objects that are taken: cause, line, first line, and the odd line."""
    lines = [line.split("\t") for line in listed(*texts, **more)]
    return [
        (one[1], int(one[2].rpartition(":")[2]), *one[3:]) for one in lines if one[0] == "taken"
    ]


# Objects without a `source`.


def test_objects_without_a_source_are_reported_with_their_places() -> None:
    text = obj("aut-num: AS1") + obj(*A) + obj("route: 10.0.0.0/8", "origin: AS1", "source:")
    assert reported(text + obj("as-set: AS-B") + obj(*A).replace(b"AS-A", b"AS-C")) == [
        ("no `source`", 1, "aut-num: AS1"),
        ("no `source`", 8, "route: 10.0.0.0/8 AS1"),
        ("no `source`", 12, "as-set: AS-B"),
    ]
    report = list(made(text)[1].lines())
    place = report.index("taken, no `source`: 2")
    assert [line.partition(":")[2] for line in report[place + 1 : place + 3]] == [
        "1  aut-num: AS1",
        "8  route: 10.0.0.0/8 AS1",
    ]


def test_no_source_is_reported_of_what_stays_alone() -> None:
    text = obj("inetnum: 10.0.0.0 - 10.0.0.9") + obj("inetnum: 10.0.0.5 - 10.0.0.12")
    assert reported(text) == [("no `source`", 1, "inetnum: 10.0.0.0 - 10.0.0.9")]


def test_no_source_is_the_cause_where_that_is_not_mended() -> None:
    text = obj("aut-num: AS1") + obj(*A)
    assert sorted(line.split("\t")[0] for line in left_out(text, off=["source"])) == [
        "no `source`, not mended because of --no-source",
        "not mended because of --no-source",
    ]


# Maintainers of several registries.


def test_a_mntner_that_may_change_objects_of_another_registry_is_reported() -> None:
    """Also where that registry's dump has no mntner of the name."""
    own = obj("mntner: A-MNT", "mnt-by: A-MNT", "source: RADB")
    cause = "a mntner that objects of another registry name"
    for line in "mnt-by: A-MNT", "mnt-lower: a-mnt", "mnt-routes: A-MNT {10.0.0.0/8}":
        other = obj("aut-num: AS1", line, "source: RIPE")
        for text in other + own, own + other, own + other * 2 + own.replace(b"RADB", b"RIPE"):
            assert [one[::2] for one in reported(text)] == [(cause, "mntner: A-MNT")]
        assert reported(own + other.replace(b"RIPE", b"RADB")) == []
    for bare in obj("aut-num: AS1", "mnt-by: A-MNT"), obj("mntner: A-MNT"):
        assert [one[0] for one in reported(bare + own)] == ["no `source`"]
    assert reported(obj("aut-num: AS1", "mnt-by: B-MNT", "source: RIPE") + own) == []


def test_a_maintainer_without_a_mntner_of_several_registries_is_reported() -> None:
    """It is one maintainer, whoever gets its password: also where its mntner can't be read."""
    cause = "a maintainer without a mntner that objects of several registries name"
    first = obj("aut-num: AS1", "mnt-by: A-MNT", "source: RADB")
    unread = obj("mntner: A-MNT", "mnt-by: A-MNT, AS-X", "source: RADB")
    for line in "mnt-by: A-MNT", "mnt-lower: a-mnt", "mnt-routes: A-MNT {10.0.0.0/8}":
        other = obj("aut-num: AS2", line, "source: RIPE")
        found = [(cause, 5, "aut-num: AS2", "A-MNT")]
        assert reported(first + other + other.replace(b"AS2", b"AS3")) == found
        assert [one[::2] for one in reported(unread + other + first)] == [(cause, "aut-num: AS1")]
        assert reported(first + other.replace(b"RIPE", b"RADB")) == []
    bare = obj("aut-num: AS2", "mnt-by: A-MNT")
    assert [one[0] for one in reported(bare + first)] == ["no `source`"]
    root = first.replace(b"A-MNT", b"ROOT-MNT")
    assert reported(root + root.replace(b"AS1", b"AS2").replace(b"RADB", b"RIPE")) == []


# Files that were cut off at the end of a line.


@pytest.mark.parametrize("off", [[], ["source"], ["mnt-by"], ["source", "mnt-by", "part"]])
@pytest.mark.parametrize(
    "last",
    [
        ("as-set: AS-X", "members: AS1,"),
        ("as-set: AS-X", "members: AS1,", " AS2", "mnt-by: A-MNT"),
        ("as-set: AS-X",),
        ("person: Jo Doe", "nic-hdl: J"),
        ("route: 2001:db8::/32",),
        ("route: 10.0.0.0/8",),
    ],
)
@pytest.mark.parametrize("end", ["", "\n", "\n\n \n"])
def test_a_file_that_was_cut_off_at_a_lines_end(
    last: tuple[str, ...], end: str, off: frozenset[str]
) -> None:
    """Its last object has no `source`, and the others have one: also where no source is mended."""
    text = obj(*A) + ("\n".join(last) + end).encode()
    lines = [line.split("\t") for line in left_out(text, off=off)]
    assert [(one[0], one[2].partition(" ")[0]) for one in lines if one[0] == CUT] == [
        (CUT, last[0].partition(" ")[0])
    ]
    assert b"AS-X" not in made(text, off=off)[0]


def test_a_file_that_was_cut_off_in_a_paragraph_that_is_parted() -> None:
    text = obj(*A, "route-set: RS-B", "members: 10.0.0.0/8").rstrip() + b"\n"
    assert [line.split("\t")[0] for line in left_out(text)] == [CUT]
    assert made(text)[1].taken == 1


def test_what_is_not_cut_off() -> None:
    """Where most objects have no `source`, or a comment stands after the last one. Each file is
    judged by itself."""
    last = obj("as-set: AS-X", "members: AS1")
    for text in (
        last,
        obj("aut-num: AS1") + last,
        obj(*A) + obj("aut-num: AS1") + last,
        obj(*A) + last + b"# EOF\n",
        obj(*A) + last + b"\n\n# EOF",
        obj(*A) + last + b"% end 2\n\n",
    ):
        assert left_out(text) == []
        assert reported(text)[-1][::2] == ("no `source`", "as-set: AS-X")
    assert left_out(last, obj(*A)) == left_out(obj(*A), last) == []
    assert [line.split("\t")[0] for line in left_out(obj(*A) * 2 + obj("aut-num: AS1") + last)] == [
        "duplicate",
        CUT,
    ]


def test_no_cut_of_a_file_makes_another_object_in_silence() -> None:
    """A dump in which each object has a `source`, cut at each byte: an object that is written is
    one of the whole dump, unless its file has no other and the cut is at the end of a line."""
    whole = (
        obj("aut-num: AS64496", "mnt-by: ROOT-MNT", "source: TEST")
        + obj("as-set: AS-X", "members: AS64496,", "# inside", " AS64497", "mnt-by: A-MNT", A[-1])
        + obj("person: Jo", "source: TEST")
        + obj("route: 10.0.0.0/8", "origin: AS64496", "descr: x", "+", "mnt-by: A-MNT", A[-1])
    )
    known = texts_of(made(whole)[0], "aut-num", "as-set", "route")
    for end in range(whole.index(b"as-set"), len(whole)):
        listed_lines = listed(whole[:end])
        found = texts_of(made(whole[:end])[0], "aut-num", "as-set", "route")
        assert set(found) <= set(known), whole[:end]
        begun = whole[:end].count(b"\n\n") + (whole[:end][-2:] != b"\n\n")
        gone = [line for line in listed_lines if line.startswith("left out\t")]
        assert len(found) + len(gone) == begun, whole[:end]


# Lines that the registry's rules read in another way than some readers do.


def test_lines_that_are_not_kept_and_lines_that_go_on_are_reported() -> None:
    text = b"# of the file\n\n# of the object\n" + obj(
        *A[:1],
        "# a comment",
        "members: AS1,",
        "% AS2,\t#",
        " AS3",
        "descr: x",
        "\rmembers: AS4",
        *A[2:],
    )
    goes_on, gone = (
        "a line with a CR first, which goes on",
        "a line with # or % first, which is not kept",
    )
    assert reported(text) == [
        (gone, 5, "as-set: AS-A", "# a comment"),
        (gone, 7, "as-set: AS-A", "% AS2,\\x09#"),
        (goes_on, 10, "as-set: AS-A", "\\x0dmembers: AS4"),
    ]
    (own,) = texts_of(made(text)[0], "as-set")
    assert "#" not in own and "%" not in own
    report = "\n".join(made(text)[1].lines())
    assert f"taken, {gone}: 2\n" in report and f"taken, {goes_on}: 1\n" in report


def test_a_line_of_a_cr_alone_is_blank() -> None:
    assert (
        reported(obj(*A).replace(b"\n", b"\r\n") + b"\r\n\r" + obj("as-set: AS-B", "source: X"))
        == []
    )
    assert [one[1:] for one in reported(obj(*A, "# x").replace(b"\n", b"\r\n"))] == [
        (5, "as-set: AS-A", "# x")
    ]


def test_an_object_inside_a_line_is_reported() -> None:
    """Whose lines end in CR alone, as a file of another kind has them."""
    inside = "remarks: x\raut-num: AS2\rmnt-by: B-MNT\rsource: RIPE\rnext: y"
    text = obj("aut-num: AS1", "mnt-by: A-MNT", inside, "+ \r more", "descr: x \r\r ", "source: X")
    cause = "a line with a CR inside, which may be the end of a line"
    assert (
        reported(text)
        == reported(text.replace(b"\n", b"\r\n"))
        == [
            (cause, 3, "aut-num: AS1", inside.replace("\r", "\\x0d")),
            (cause, 4, "aut-num: AS1", "+ \\x0d more"),
        ]
    )
    assert f"taken, {cause}: 2\n" in "\n".join(made(text)[1].lines())


def test_an_item_that_has_lost_the_blank_before_it_is_reported() -> None:
    """It is an attribute, and written as one."""
    cause = "an attribute that has the form of an item, and may be one of a list before it"
    for line in "AS2:AS-X", "as-y:AS-X, AS3", "AS4: x", "RIPE::AS-X", "radb::as2:rs-x":
        text = obj("as-set: AS-Z", "members: AS1,", line, "mnt-by: A-MNT", "source: RIPE")
        (found,) = [one.split("\t") for one in listed(text)]
        assert found[:2] == ["taken", cause] and found[2].endswith(":3") and found[4] == line
        assert line.partition(":")[0].lower() + ":" in made(text)[0].decode()
    for line in "as-name:AS-X", "asx: y", "descr: AS2:AS-X", "as-in: from AS1", "x:: y", "x::::":
        text = obj("aut-num: AS1", line, "mnt-by: A-MNT", "source: RIPE")
        assert listed(text) == []


def test_odd_lines_of_what_is_left_out_are_not_reported() -> None:
    text = obj(*A, "# x") + obj(*A, "# y") + obj("person: Jo", "# z", "source: RIPE")
    assert [one[-1] for one in reported(text)] == ["# x"]


# One rule for scopes: what is read in the class.


@pytest.mark.parametrize(
    "kind, text, read",
    [
        ("as-set: AS-X", "member-of: RADB::AS-Z", "members: RADB::AS-Y, AS1"),
        ("route-set: RS-X", "member-of: RIPE::RS-Z", "members: RADB::RS-Y, AS1"),
        ("aut-num: AS1", "members: RIPE::AS-Z, AS2", "member-of: RADB::AS-Y"),
    ],
)
def test_scopes_of_attributes_that_are_text_stay(kind: str, text: str, read: str) -> None:
    own = obj(kind, text, read, "mnt-by: A-MNT", "source: RIPE")
    for keeps in False, True:
        dump, tally = made(own, keeps_scoped=keeps)
        name, _, value = text.partition(": ")
        assert f"{name + ':':15} {value}\n" in texts_of(dump, kind.partition(":")[0])[0]
        assert tally.items.causes.total() == (0 if keeps else 1)


# Paragraphs of several objects, of which nobody knows where each ends.


def test_what_may_be_objects_in_a_paragraph_is_counted_and_placed() -> None:
    text = b"\n" + obj("as-set: AS-X", "route-set: RS-Y", "descr: x", "PERSON : Jo", "source: RIPE")
    text += obj("aut-num: AS1", "source: RIPE", "x-new: y", "source: RIPE")
    again, twice = "a class again after the first line", "`source` twice"
    lines = [line.split("\t") for line in listed(text)]
    assert [(*one[:2], int(one[2].rpartition(":")[2]), one[3]) for one in lines] == [
        ("left out", again, 2, "as-set: AS-X"),
        ("left out with it", again, 3, "route-set: RS-Y"),
        ("left out with it", again, 5, "PERSON : Jo"),
        ("left out", twice, 8, "aut-num: AS1"),
        ("left out with it", twice, 11, "source: RIPE"),
    ]
    report = "\n".join(made(text)[1].lines())
    assert f"left out, {again}: 1, and with them 2 that may be objects\n" in report
    assert f"left out, {twice}: 1, and with them 1 that may be objects\n" in report
    (line, more) = [one.split("\t") for one in listed(obj(*A, *A), off=["part"])]
    assert (line[:2], more[:2]) == (
        ["left out", "not mended because of --no-part"],
        ["left out with it", "not mended because of --no-part"],
    )


@pytest.mark.parametrize("most, chunk", [(1_000, 700), (997, 50), (1_000, 1 << 20), (60, 60)])
def test_what_may_be_objects_is_reported_of_a_paragraph_of_any_size(
    most: int, chunk: int, monkeypatch: pytest.MonkeyPatch
) -> None:
    """Also of what is not kept of it, and each line as it stands there."""
    monkeypatch.setattr(conversion, "MOST", most)
    monkeypatch.setattr(syntax, "CHUNK", chunk)
    again, count = "a class again after the first line", 300
    ends: list[list[str]] = [[], ["source: RIPE"], ["source: RIPE", "last-modified: 2020"]]
    for end in ends:
        lines = [more for number in range(count) for more in (f"aut-num: AS{number}", "a: b", *end)]
        text = obj(*A) + (obj(*lines) if end[1:] else obj(*lines).replace(b"source", b"x"))
        found = [line.split("\t") for line in listed(text + obj(*A).replace(b"AS-A", b"AS-B"))]
        size = 2 + len(end)
        assert [(*one[:2], int(one[2].rpartition(":")[2]), one[3]) for one in found] == [
            (
                "left out with it" if number else "left out",
                again,
                6 + size * number,
                f"aut-num: AS{number}",
            )
            for number in range(count)
        ], end


def test_what_may_be_objects_inside_a_line_is_reported() -> None:
    """Of a file whose lines end in CR alone, of which each paragraph is one line."""
    one, other = (text.replace(b"\n", b"\r") for text in (obj(*A), obj("Route : x", *A[2:])))
    key = "a key that can't be read"
    cases: list[tuple[bytes, str, list[str]]] = [
        (one + other + one, key, ["Route : x", "as-set: AS-A"]),
        (
            obj(*A[:-1], f"source: X\r{other.decode()}"),
            "a `source` that can't be read",
            ["Route : x"],
        ),
        (obj("person: x\r\r as-set: AS-A\r+as-set: AS-A\rsource: X"), "class person", []),
    ]
    for text, cause, lines in cases:
        text = text + b"\n\n" + obj("aut-num: AS1", "source: X")
        found = [line.split("\t") for line in listed(text)]
        assert [line[:2] for line in found] == [
            ["left out", cause],
            *[["left out with it", cause]] * len(lines),
        ]
        assert [line[3] for line in found[1:]] == lines
        assert all(line[2].endswith(":1") for line in found if "key" in cause)


def test_a_class_after_what_is_kept_is_reported(monkeypatch: pytest.MonkeyPatch) -> None:
    monkeypatch.setattr(conversion, "MOST", 1_000)
    monkeypatch.setattr(syntax, "CHUNK", 700)
    text = obj(*A, *["x: y"] * 1_000, "aut-num: AS1", *["x: y"] * 500, "Route : 10.0.0.0/8")
    assert [(line.split("\t")[0], line.split(":", 1)[1]) for line in listed(text)] == [
        ("left out", "1\tas-set: AS-A"),
        ("left out with it", "1005\taut-num: AS1"),
        ("left out with it", "1506\tRoute : 10.0.0.0/8"),
    ]


# The list beside the report.


def test_the_list_says_what_each_entry_is_and_agrees_with_the_report() -> None:
    text = (
        obj("as-set: AS-X", "members: ::/0, x", "# c", "source: RIPE")
        + obj("as-set: AS-X", "members: ::/0")
        + obj("person: Jo", "role: X", "source: RIPE")
        + obj("route: 10.0.0.1/8", "origin: AS1", "mnt-routes: A-MNT {::/0}")
        + obj("person: Jo", "source: RIPE") * 12
    )
    counted = Counter(tuple(line.split("\t")[:2]) for line in listed(text))
    report = "\n".join(made(text)[1].lines())
    found = re.findall(
        r"^(left out|taken|dropped from lists), (.*?): (\d+)(?:, and with them (\d+) that .*)?$",
        report,
        re.M,
    )
    wanted = Counter({(what, cause): int(count) for what, cause, count, _ in found})
    wanted.update({("left out with it", cause): int(more) for _, cause, _, more in found if more})
    assert counted == wanted
    assert {what for what, _ in counted} == {
        "left out",
        "left out with it",
        "taken",
        "dropped from lists",
    }
    assert counted["left out", "class person"] == 12


def test_a_tab_in_a_text_parts_no_column() -> None:
    text = obj("aut-num: AS1", "mnt-by: A-MNT", "source: X", "mnt-by: A-MNT\tB-MNT")
    text += obj("mntner: A-MNT", "auth: MD5-PW\tmntner:\tB-MNT", "source: X")
    text += obj("aut-num: AS2", "descr: x\taut-num:\tAS3", "descr: xaut-num:\tAS3", "source: X")
    assert [line.split("\t")[4:] for line in listed(text)] == [
        ["mnt-by", r"A-MNT\x09B-MNT"],
        ["auth", r"MD5-PW\x09mntner:\x09B-MNT"],
        ["descr", r"xaut-num:\x09AS3"],
    ]


def test_a_class_that_nobody_knows_is_an_attribute() -> None:
    text = obj("as-set: AS-X", "x-new: y", "mnt-by: A-MNT", "source: TEST")
    assert mended(text)[0].split(b"\n")[1] == b"x-new:          y"

"""What an import makes of names that two of its registries have."""

import re

import pytest
from hypothesis import assume, example, given
from hypothesis import strategies as st

from checks.tool.importing import left_out, made, obj, texts_of
from irr.migrate import conversion
from irr.rpsl import syntax

SET = ("as-set: AS-X", "mnt-by: A-MNT", "source: RIPE")
UNREAD = "a name of another registry, where it can't be read"


def test_all_of_one_registry_of_several_is_dropped() -> None:
    """`AS-ANY` here is the aut-nums of all registries that are imported."""
    sets = obj("route-set: RS-X", "members: RADB::AS-ANY^+, RADB::rs-any, AS1", *SET[1:])
    other = obj("as-set: AS-Z", "mnt-by: A-MNT", "source: RADB")
    cause = "all of one registry of several"
    assert [line.split("\t")[0] for line in left_out(sets + other)] == [cause] * 2
    assert texts_of(made(sets + other)[0], "route-set")[0].split("\n")[1].split()[1:] == ["AS1"]
    assert left_out(sets + other, keeps_scoped=True) == []
    alone = sets.replace(b"RIPE", b"RADB") + other
    assert left_out(alone) == []
    assert b"AS-ANY^+, rs-any, AS1" in made(alone)[0]


def test_names_of_two_registries() -> None:
    """What of another registry has the name of a maintainer or a set is no mere duplicate."""
    for kind in "mntner: A-MNT", "as-set: AS-X", "route-set: RS-X":
        one = obj(kind, "mnt-by: A-MNT", "source: RIPE")
        other = one.replace(b"RIPE", b"RADB")
        for texts, causes in [
            ((one, other), ["a name of another registry"]),
            ((one, one), ["duplicate"]),
            ((one, other, one), ["a name of another registry", "duplicate"]),
        ]:
            _, tally = made(b"".join(texts))
            assert sorted(tally.causes.elements()) == causes
            assert tally.mended["duplicate"] == len(causes)
    route = obj("route: 10.0.0.0/8", "origin: AS1", "mnt-by: A-MNT", "source: RIPE")
    _, tally = made(route + route.replace(b"RIPE", b"RADB"))
    assert dict(tally.causes) == {"duplicate": 1}


@pytest.mark.parametrize("kind", ["mntner: A-MNT", "as-set: AS-X", "route-set: RS-X"])
@pytest.mark.parametrize(
    "broken",
    [
        ("mnt-by: A-MNT (x)", "source: RIPE"),
        ("descr: \x01", "mnt-by: A-MNT", "source: RIPE"),
        ("mnt-by: A-MNT", "no colon"),
        ("mnt-by: A-MNT", "source: RI PE"),
        ("mnt-by: A-MNT", "source: RIPE", "source: RADB"),
        ("mnt-by: A-MNT", "source: RIPE", "descr: " + "x" * 66_000),
    ],
)
def test_a_name_that_cannot_be_read_is_of_no_other_registry(
    kind: str, broken: tuple[str, ...]
) -> None:
    """Its name means that one, and strangers may register it at a later one. What has no `source`
    that can be read is of the registry of the object before."""
    before = obj("aut-num: AS1", "mnt-by: A-MNT", "source: RIPE")
    first, other = before + obj(kind, *broken), obj(kind, "mnt-by: B-MNT", "source: RADB")
    text, tally = made(first, other)
    assert tally.causes[UNREAD] == 1 and b"B-MNT" not in text
    assert UNREAD not in made(other, first)[1].causes
    own = other.replace(b"RADB", b"RIPE")
    for texts, taken in ((first, own), 2), ((first, own, other), 2), ((first, other, own), 2):
        text, tally = made(*texts)
        assert (tally.taken, b"B-MNT" in text) == (taken, True)
    assert left_out(first, other)[-1].startswith(f"{UNREAD}\t")


def test_an_item_of_a_registry_whose_name_another_one_has_that_cannot_be_read() -> None:
    first = obj("as-set: AS-X", "members: AS1 EXCEPT AS2", "mnt-by: A-MNT", "source: RIPE")
    items = "members: RADB::AS-X, RIPE::AS-X, AS1"
    rest = [obj(f"as-set: AS-{name}", items, f"source: {name}") for name in ("RIPE", "RADB")]
    text, tally = made(first, *rest, obj("as-set: AS-X", "members: AS6", "source: RADB"))
    assert [re.findall("members: *(.*)", one)[0] for one in texts_of(text, "as-set")] == [
        "AS-X, AS1",
        "AS-X, AS1",
    ]
    assert dict(tally.items.causes) == {"its name is that of a set of another registry": 2}


@pytest.mark.parametrize("kind", ["mntner: A-MNT", "as-set: AS-X", "route-set: RS-X"])
def test_a_name_of_several_sources_is_of_the_first_registry(kind: str) -> None:
    """Nobody knows which of them it is of. Where none has an object before, it is of none."""
    before, radb = obj("aut-num: AS1", "source: RIPE"), obj("aut-num: AS2", "source: RADB")
    # Objects that can't be read, or are inside a text, put no registry before another one.
    odd = [obj("mntner: A B", "source: RADB"), obj("as-set: AS-Z", "no colon", "source: RADB")]
    odd += [obj("aut-num: AS3", "descr: x\rmntner: Z-MNT\rsource: RADB", "source: RIPE"), b""]
    for sources in ("RADB", "RIPE"), ("RIPE", "RADB"), ("RADB", "ALTDB"), ("RADB", "R PE"):
        first = obj(kind, *(f"source: {source}" for source in sources))
        others = [obj(kind, "mnt-by: B-MNT", f"source: {one}") for one in ("RIPE", "RADB", "ALTDB")]
        others.append(obj(kind, "mnt-by: B-MNT"))

        def unread(*texts: bytes) -> list[int]:
            return [made(*texts, other)[1].causes[UNREAD] for other in others]

        for one in odd:
            assert unread(one + before + first) == [0, 1, 1, 1], (sources, one)
        assert unread(radb, before + first) == [1, 0, 1, 1], sources
        assert unread(odd[0] + first) == unread(first) == [1, 1, 1, 1], sources


def test_a_piece_of_text_takes_no_name_of_its_own_registry() -> None:
    """What an object has after its `source`, which may look like another one."""
    text = obj(*SET, "route-set: RS-X", "members: AS666")
    own = obj("route-set: RS-X", "members: AS1", "source: RIPE")
    assert b"members:        AS1\n" in made(text + own)[0]


# What stands in a paragraph besides its first object.

SOURCE = "source: RIPE"
BESIDE = [
    ("aut-num: AS1", "mnt-by: A-MNT", "KIND", "mnt-by: A-MNT", SOURCE),
    ("KIND", "mnt-by: A-MNT", "aut-num: AS1", "mnt-by: A-MNT", SOURCE),
    ("aut-num: AS1", "mnt-by: A-MNT", "\xef\xbb\xbfKIND", "mnt-by: A-MNT", SOURCE),
    ("aut-num: AS1", "descr: x\rKIND\rmnt-by: A-MNT\rsource: RIPE"),
    ("aut-num: AS1\rmnt-by: A-MNT\rsource: RIPE\r\rKIND\rmnt-by: A-MNT\rsource: RIPE",),
    ("KIND\rmnt-by: A-MNT\rsource: RIPE\r\raut-num: AS1\rmnt-by: A-MNT\rsource: RIPE",),
    ("aut-num: AS1", "source: RIPE\xef\xbb\xbfKIND", "mnt-by: A-MNT", SOURCE),
]
# One that is taken, with another one inside a line of its text.
BESIDE += [("aut-num: AS1", "descr: x\rKIND\rmnt-by: A-MNT", SOURCE)]
BESIDE += [("route: 10.0.0.0/8", "descr: x\rKIND\ror: y", "origin: AS1", SOURCE)]
# First lines with more than a class, a colon and a key, with odd blanks, or without the colon.
BESIDE += [(f"KIND{more}", "mnt-by: A-MNT", SOURCE) for more in (" descr: x", " B-MNT", ";", "^24")]
BESIDE += [("KIND", "%members:", " x", "mnt-by: A-MNT", SOURCE), ("KIND\v", SOURCE)]
BESIDE += [("\xa0KIND", SOURCE), ("KIND\xc2\xa0", SOURCE), ("KIND\f", "mnt-by: A-MNT", SOURCE)]
BESIDE += [("\xe2\x80\x8bKIND", SOURCE), ("KIND\xe2\x80\x8b", SOURCE), ("KIND\x01", SOURCE)]
BESIDE += [(f"CLASS{marks}NAME", SOURCE) for marks in ("; ", " ", "\t", "\xa0", "=", " - ", ":: ")]
BESIDE += [(f"CLASS{line}", SOURCE) for line in (" NAME descr: x", ": (NAME)", ': "NAME".')]
INSIDE = ("CLASS; NAME", "\xa0KIND", "CLASS\xa0NAME descr: x")
BESIDE += [("aut-num: AS1", SOURCE, line, "mnt-by: A-MNT", SOURCE) for line in INSIDE]
BESIDE += [("CLASS; NAME\rmnt-by: A-MNT\rsource: RIPE",), ("CLASS\xa0: # x", " NAME", SOURCE)]
# Where the key has a registry, or several names; where a line is quoted, or a key goes on oddly.
BESIDE += [(f"CLASS: {key}", SOURCE) for key in ("RIPE::NAME", "AS-A/NAME", "AS-A, NAME", "1;NAME")]
QUOTED = [f"{mark}KIND" for mark in ("*", "> ", '"', "# ", "#\t", "> > ", "- ", "|", "\xbb ", "%")]
QUOTED += ['"CLASS": "NAME"', "// CLASS: RIPE::NAME", "# CLASS: AS-A, NAME"]
BESIDE += [("aut-num: AS1", line, "mnt-by: A-MNT", SOURCE, SOURCE) for line in QUOTED]
BESIDE += [(line, "mnt-by: A-MNT", SOURCE) for line in QUOTED if line[0] not in "#%"]
BESIDE += [("CLASS:", f"{blank}NAME", SOURCE) for blank in ("\xa0", "\xc2\xa0", "\v")]
BESIDE += [("aut-num: AS1", "CLASS:", "\xa0NAME", SOURCE), ("CLASS: # x", "\xa0NAME", SOURCE)]
# In a comment whose parts end in a CR, and where a blank line became a blank.
BESIDE += [("% x\r\rKIND\rmnt-by: A-MNT\rsource: RIPE\r",)]
BESIDE += [
    ("aut-num: AS1", *lines, SOURCE) for lines in ((SOURCE, " KIND"), (SOURCE, "x: y", "+\tKIND"))
]


@pytest.mark.parametrize("kind", ["mntner: A-MNT", "as-set: AS-X", "route-set: RS-X"])
@pytest.mark.parametrize("lines", BESIDE)
def test_a_name_inside_another_object_is_of_no_other_registry(
    kind: str, lines: tuple[str, ...]
) -> None:
    """Where a blank line is missing, also before a byte order mark, or lines end in CR alone."""
    word, name = kind.split(": ")
    named = "\n".join(lines).replace("KIND", kind).replace("CLASS", word).replace("NAME", name)
    first = obj("aut-num: AS2", SOURCE) + obj(named)
    other = obj(kind, "mnt-by: B-MNT", "source: RADB")
    text, tally = made(first, other)
    assert tally.causes[UNREAD] == 1 and b"B-MNT" not in text
    assert b"B-MNT" in made(first, other.replace(b"RADB", b"RIPE"))[0]
    assert made(other, first)[1].causes[UNREAD] == 0


@given(
    st.sampled_from(["mntner: A-MNT", "as-set: AS-X", "route-set: RS-X"]),
    st.sampled_from([(), ("aut-num: AS1", "mnt-by: A-MNT"), ("aut-num: AS1", SOURCE)]),
    st.integers(0, 90),
    st.binary(max_size=2),
    st.integers(0, 1),
)
@example("as-set: AS-X", ("aut-num: AS1", "mnt-by: A-MNT"), 35, b"\r", 0)
def test_a_name_among_other_bytes_is_of_no_other_registry(
    kind: str, before: tuple[str, ...], place: int, new: bytes, gone: int
) -> None:
    """Whatever stands elsewhere, if a line still begins with its class, and then has that name."""
    text = obj(*before, kind, "members: AS1", "mnt-by: A-MNT", SOURCE)
    text = text[:place] + new + text[place + gone :]
    word, name = kind.encode().split(b": ")
    line = rb"(?im)^[\x80-\xff]*%s(?![a-z0-9_-])[^a-z0-9#\n]*%s(?![a-z0-9_.:/-])" % (word, name)
    assume(re.search(line, text))
    other = obj(kind, "mnt-by: B-MNT", "source: RADB")
    assert b"B-MNT" not in made(obj("aut-num: AS2", SOURCE) + text + b"\n", other)[0]


def test_a_name_in_lines_that_end_in_crs_is_of_the_registry_that_they_tell() -> None:
    for end in "", " descr: x":
        first = obj(f"as-set: AS-X{end}\rmembers: AS2\rsource: RIPE")
        own = obj("as-set: AS-X", "members: AS1", SOURCE)
        assert b"members:        AS1\n" in made(first, own)[0]
        assert made(first, own.replace(b"RIPE", b"RADB"))[1].causes[UNREAD] == 1


# Files that were joined within a line, the first of which is cut off.
CUT = [
    "descr: Exampl",
    "descr: 1.",
    "remarks: x",
    "mnt-by: A-",
    "mnt-by: A",
    "mnt-by: A-MNT (x), b",
]


@pytest.mark.parametrize("kind", ["mntner: C-MNT", "as-set: AS-X", "route-set: RS-X"])
@pytest.mark.parametrize("own", ["mntner: A-MNT", "as-set: AS-A", "aut-num: AS1"])
@pytest.mark.parametrize("cut", CUT)
def test_a_name_in_a_joined_line_is_of_no_other_registry(kind: str, own: str, cut: str) -> None:
    """Nor is that of the object which was cut off: it is of the registry before."""
    first = obj("aut-num: AS2", SOURCE) + obj(own, cut + kind, "mnt-by: C-MNT", "source: RADB")
    other = obj(kind, "mnt-by: B-MNT", "source: ALTDB")
    text, tally = made(first, other)
    assert tally.causes[UNREAD] == 1 and b"B-MNT" not in text
    assert b"B-MNT" in made(first, other.replace(b"ALTDB", b"RADB"))[0]
    assert made(other, first)[1].causes[UNREAD] == 0
    if own[:3] != "aut":
        for source in "RADB", "ALTDB":
            assert made(first, obj(own, f"source: {source}"))[1].causes[UNREAD] == 1
        assert made(first, obj(own, SOURCE))[1].causes[UNREAD] == 0


def test_a_name_in_a_joined_auth_is_of_no_other_registry() -> None:
    for line in "auth: MD5-PW $1$ab/mntner: FOO", "auth: MD5-PW $1$abmntner: C-MNT":
        first = obj("mntner: A-MNT", line, "auth: MD5-PW x", "mnt-by: FOO", "source: RADB")
        name = line.rpartition(" ")[2]
        other = obj(f"mntner: {name}", "descr: another", "source: ALTDB")
        text, tally = made(first, other)
        assert tally.causes[UNREAD] == 1 and b"another" not in text


@pytest.mark.parametrize(
    "line",
    [
        "person: Jo Doe",
        "x as-set: AS-X",
        "as-sets AS-X",
        "as-set_AS-X",
        "as-set: AS-Y members: AS-X, AS-Z",
        "as-set: AS-Y # AS-X",
    ],
)
@pytest.mark.parametrize("comment", ["# the as-set: AS-X", "# as-set AS-X", "> members: AS-X"])
def test_a_name_that_an_object_only_tells_of_is_free(line: str, comment: str) -> None:
    """A class after a blank joins no lines, and a longer word is no class."""
    first = obj(line, comment, "remarks: our as-set: AS-X,", " as-set: AS-X", SOURCE)
    assert b"B-MNT" in made(first, obj("as-set: AS-X", "mnt-by: B-MNT", "source: RADB"))[0]


def test_a_name_in_a_comment_of_what_is_taken_is_free() -> None:
    """Also where a line has a CR inside, unless it is after that."""
    other = obj("as-set: AS-X", "mnt-by: B-MNT", "source: RADB")
    for comment in "# as-set: AS-X", "%as-set: AS-X", "# x", "#":
        for line in "descr: x\ry", "descr: x":
            first = obj("aut-num: AS1", line, comment, SOURCE)
            assert b"B-MNT" in made(first, other)[0]
        first = obj("aut-num: AS1", f"{comment}\r# as-set: AS-X", SOURCE)
        assert made(first, other)[1].causes[UNREAD] == 1


def test_a_name_beyond_what_is_kept_of_a_paragraph_is_of_no_other_registry(
    monkeypatch: pytest.MonkeyPatch,
) -> None:
    monkeypatch.setattr(conversion, "MOST", 1_000)
    monkeypatch.setattr(syntax, "CHUNK", 700)
    first = obj("aut-num: AS1", *["x: y"] * 1_000, "as-set: AS-X", SOURCE)
    assert made(first, obj("as-set: AS-X", "source: RADB"))[1].causes[UNREAD] == 1


@pytest.mark.parametrize(
    "end",
    [
        "as-set: AS-EX",
        "aut-num: AS1\nas-set: AS-EX",
        "aut-num: AS1\ras-set: AS-EX",
        "as-set:\n AS-EX",
    ],
)
def test_a_name_that_was_cut_off_is_none(end: str) -> None:
    """It is the beginning of a longer one."""
    first = obj("aut-num: AS2", SOURCE) + end.encode()
    other = obj("as-set: AS-EX", "members: AS1", "source: RADB")
    assert b"members:        AS1\n" in made(first, other)[0]
    for rest in b"\nmnt-by: A", b"\rmnt-by: A", b"\n":
        assert b"members:        AS1\n" not in made(first + rest, other)[0]

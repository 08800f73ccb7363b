"""Dumps in two encodings, imported: what is written is UTF-8 throughout."""

import os

import pytest
from hypothesis import given
from hypothesis import strategies as st

from checks.migrate import letters
from checks.migrate.dumps import NOT_UTF8
from checks.running import AUTH, Trial, expect, write
from checks.tool.importing import listed, made, mended
from checks.worlds import A_AUTH, Tool
from irr.migrate import paragraphs
from irr.rpsl import syntax
from irr.views.merge import ViewMender

WORDS = ["--source", "TEST", "--root", "ROOT-MNT", "--auth", AUTH]
LATIN_1, UTF_8 = b"Caf\xe9", b"Caf\xc3\xa9"
# What is no text of RPSL: C0 and DEL.
BAD = bytes([*range(0x20), 0x7F])
BYTES = st.binary(max_size=40).map(lambda data: data.translate(None, BAD))
TEXTS = st.text(
    st.characters(min_codepoint=0x20, blacklist_categories=("Cs",), blacklist_characters="\x7f"),
    max_size=40,
).map(str.encode)


def paragraph(number: int, *texts: bytes, source: bytes = b"TEST") -> bytes:
    """An aut-num with these texts."""
    described = b"".join(b"descr: %s\n" % text for text in texts)
    return b"aut-num: AS%d\n%smnt-by: A-MNT\nsource: %s\n\n" % (number, described, source)


def described(dump: bytes) -> list[list[str]]:
    """The texts of each aut-num of a dump, which is UTF-8."""
    assert letters.is_utf8(dump)
    return [
        [value.lines[0].decode() for value in one.attributes if value.name == b"descr"]
        for one in syntax.paragraphs([dump])
        if one.name == b"aut-num"
    ]


# How a text is read.


@pytest.mark.parametrize(
    "text, wanted",
    [
        (b"Cafe", "Cafe"),
        (LATIN_1, "Caf\xe9"),
        (UTF_8, "Caf\xe9"),
        (b"\xa0\xff\xfe", "\xa0\xff\xfe"),
        (b"\x93Caf\xe9\x94 \x96 \x80 5", "\u201cCaf\xe9\u201d \u2013 \u20ac 5"),
        (b"it\x92s", "it\u2019s"),
        # What windows-1252 has no letters for.
        (b"\x81\x8d\x8f\x90\x9d", "\x81\x8d\x8f\x90\x9d"),
        # What is UTF-8 stays, also control characters, and letters beyond 16 bits.
        (b"\xc2\x85 \xc2\x93 \xe2\x80\x9c \xf0\x9f\x8c\x8d", "\x85 \x93 \u201c \U0001f30d"),
        # What UTF-8 forbids: a longer form, half of a pair, beyond the last letter, and a part.
        (b"\xc0\xaf", "\xc0\xaf"),
        (b"\xed\xa0\x80", "\xed\xa0\u20ac"),
        (b"\xf4\x90\x80\x80", "\xf4\x90\u20ac\u20ac"),
        (b"\xe2\x82", "\xe2\u201a"),
    ],
)
def test_a_text_is_written_in_utf8(text: bytes, wanted: str) -> None:
    dump, tally = made(paragraph(64496, text))
    assert described(dump) == [[wanted]]
    assert tally.mended["encoding"] == (not letters.is_utf8(text))


def test_each_byte_is_its_letter() -> None:
    text = bytes(range(0x80, 0x100))
    dump, _ = made(paragraph(64496, text))
    wanted = letters.WINDOWS + "".join(map(chr, range(0xA0, 0x100)))
    assert described(dump) == [[wanted]] and len(wanted) == 128


def test_a_paragraph_is_in_one_encoding() -> None:
    """The whole of it, as one author wrote it, and no other one."""
    dump, tally = made(
        paragraph(64496, UTF_8) + paragraph(64497, UTF_8, LATIN_1, b"x"),
        paragraph(64498, LATIN_1) + paragraph(64499, UTF_8),
    )
    good, both = "Caf\xe9", "Caf\xc3\xa9"
    assert described(dump) == [[good], [both, good, "x"], [good], [good]]
    assert tally.mended["encoding"] == 2


def test_parts_of_a_paragraph_have_an_encoding_each() -> None:
    parted = (paragraph(64496, LATIN_1) + paragraph(64497, UTF_8)).replace(b"\n\n", b"\n")
    dump, tally = made(parted)
    assert described(dump) == [["Caf\xe9"]] * 2
    assert (tally.mended["part"], tally.mended["encoding"]) == (1, 1)


def test_what_is_not_kept_has_no_encoding() -> None:
    """Such as lines of comments, and a comment at a `source` that becomes another one."""
    text = paragraph(64496, UTF_8, source=b"RIPE # " + LATIN_1)
    dump, tally = made(text.replace(b"mnt-by", b"# " + LATIN_1 + b"\n%\x93\nmnt-by"))
    assert described(dump) == [["Caf\xe9"]] and not tally.mended["encoding"]


def test_all_lines_of_an_object_are_converted() -> None:
    """Also those that go on with one, and comments in lists, whose items stay as they are."""
    own = b"as-set: AS-A\ndescr: x\n  \xe9\n+\n+ \x80\nmembers: AS64496, # \xe9\n AS64497 # \x93\n"
    text, kinds = mended(own + b"mnt-by: A-MNT # \xe9\nsource: TEST\n")
    assert (kinds, letters.is_utf8(text)) == ({"encoding"}, True)
    paragraph_read = syntax.read(text)
    assert [list(map(bytes.decode, one.lines)) for one in paragraph_read.attributes] == [
        ["AS-A"],
        ["x", "\xe9", "", "\u20ac"],
        ["AS64496, # \xe9", "AS64497 # \u201c"],
        ["A-MNT # \xe9"],
        ["TEST"],
    ]
    assert paragraph_read.items(b"members") == [b"AS64496", b"AS64497"]


def test_what_is_written_stays() -> None:
    first, _ = made(paragraph(64496, LATIN_1, UTF_8) + paragraph(64497, UTF_8, b"\xc2\x93"))
    again, tally = made(first)
    assert (again, +tally.mended) == (first, {})


# What is reported.


def test_texts_in_another_encoding_are_counted_and_named() -> None:
    text = paragraph(64496, UTF_8) + b"".join(paragraph(64497 + at, LATIN_1) for at in range(12))
    lines = [line.split("\t") for line in listed(text)]
    assert [(*one[:2], one[2].rpartition(":")[2], *one[3:]) for one in lines] == [
        ("taken", NOT_UTF8, str(6 + 5 * at), f"aut-num: AS{64497 + at}") for at in range(12)
    ]
    report = list(made(text)[1].lines())
    words = "a text that is not UTF-8 is read as Latin-1, and written in UTF-8"
    assert f"  12  --no-encoding  {words}" in report
    place = report.index(f"taken, {NOT_UTF8}: 12")
    shown = [line.partition(":")[2] for line in report[place + 1 : place + 11]]
    assert shown == [f"{6 + 5 * at}  aut-num: AS{64497 + at}" for at in range(10)]
    assert report[place + 11] == "  and 2 more"


def test_only_what_is_taken_is_counted() -> None:
    """Not a duplicate, a range that overlaps another one, or an object of another class."""
    ranges = [b"10.0.0.0 - 10.0.0.9", b"10.0.0.5 - 10.0.0.12"]
    text = paragraph(64496, LATIN_1) * 2 + b"person: Jos\xe9\nsource: TEST\n\n"
    for own in ranges:
        text += b"inetnum: %s\ndescr: \xe9\nmnt-by: A-MNT\nsource: TEST\n\n" % own
    dump, tally = made(text)
    assert letters.is_utf8(dump)
    causes = {"class person": 1, "crossing": 1, "duplicate": 1}
    assert (tally.mended["encoding"], dict(tally.causes)) == (2, causes)
    assert dict(tally.odd.causes) == {NOT_UTF8: 2}


def test_no_text_is_converted_where_that_is_turned_off() -> None:
    text = paragraph(64496, LATIN_1) + paragraph(64497, UTF_8)
    dump, tally = made(text, off=["encoding"])
    assert described(dump) == [["Caf\xe9"]] and b"AS64497" in dump
    assert dict(tally.causes) == {"not mended because of --no-encoding": 1}
    assert not tally.mended["encoding"] and not tally.odd.causes


# An object that grows.


@pytest.mark.parametrize("more, kinds", [(0, {"encoding"}), (1, {"encoding", "long"})])
def test_an_object_that_grows_may_get_a_shorter_text(more: int, kinds: set[str]) -> None:
    room = syntax.LARGEST - len(syntax.read(paragraph(64496, b"xx")[:-1]).text()) + 2
    count, rest = divmod(room, 2)
    own = paragraph(64496, b"\xe9" * (count + more) + b"x" * rest)
    text, found = mended(own)
    assert (found, described(text)[0]) == (kinds, ["\xe9" * (count + more) + "x" * rest])
    assert len(text) <= syntax.LARGEST
    assert (len(text) == syntax.LARGEST) == (not more)
    off = mended(own, ["long"])
    assert off == ("not mended because of --no-long" if more else (text, kinds))


def test_an_object_that_gets_too_large_is_left_out() -> None:
    """And one of as many other letters is not."""
    cases: list[tuple[bytes, dict[str, int]]] = [(b"e", {}), (b"\xe9", {"above 65,536 bytes": 1})]
    for letter, causes in cases:
        dump, tally = made(paragraph(64496, letter * 32_768) + paragraph(64497, LATIN_1))
        assert (dict(tally.causes), tally.taken) == (causes, 2 - len(causes))
        assert tally.mended["encoding"] == 1 and letters.is_utf8(dump)


# Any text.


@given(st.lists(st.one_of(BYTES, TEXTS), min_size=1, max_size=4))
def test_what_is_written_is_utf8(texts: list[bytes]) -> None:
    dump, tally = made(paragraph(64496, *texts))
    attributes = [(b"descr", [text.strip(b" ")]) for text in texts]
    is_other = letters.are_other(attributes)
    wanted = letters.in_utf8(attributes) if is_other else attributes
    assert described(dump) == [[lines[0].decode() for _, lines in wanted]]
    assert (tally.taken, tally.mended["encoding"]) == (1, is_other)
    assert dict(tally.odd.causes) == ({NOT_UTF8: 1} if is_other else {})


@given(st.lists(TEXTS, min_size=1, max_size=4))
def test_what_is_utf8_stays(texts: list[bytes]) -> None:
    text = paragraph(64496, *texts)
    dump, tally = made(text)
    assert syntax.read(text[:-1]).text() in dump
    assert not tally.mended["encoding"] and not tally.odd.causes
    assert made(dump)[0] == dump


# Views.


def test_a_view_keeps_the_bytes_of_its_sources() -> None:
    """Also of an object that would be too large in UTF-8."""
    mender = ViewMender("ALL", None, False)
    mender.begin("TEST", False)
    for text in UTF_8, LATIN_1, b"\x93", b"\xe9" * 40_000:
        (block,) = syntax.blocks([paragraph(64496, text)])
        (part,) = paragraphs.parts(block)
        found = mender.mend(part)
        assert syntax.read(found.text).value(b"descr") == text and not found.kinds


# With the program.


def test_irrdesk_has_what_was_in_two_encodings(trial: Trial, tool: Tool) -> None:
    """Also where an object changes again: by a new name, a new password, or an item without its
    registry."""
    folder = trial.place("encodings")
    text = (
        b"mntner: 1-MNT\ndescr: %s\nauth: MD5-PW # \x93\nmnt-by: 1-MNT\nsource: RIPE\n\n"
        b"mntner: B-MNT\ndescr: %s\nauth: MD5-PW # \xe9\nmnt-by: B-MNT\nsource: RIPE\n\n"
        b"as-set: AS-A\ndescr: \x93%s\x94\nmembers: RIPE::AS-B # \xe9\nmnt-by: 1-MNT\n"
        b"source: RIPE\n\n"
        b"as-set: AS-B\ndescr: %s\nmnt-by: 1-MNT\nsource: RIPE\n"
    ) % (LATIN_1, LATIN_1, LATIN_1, UTF_8)
    words = [*WORDS, "--auth", f"B-MNT={A_AUTH}", "--check", "--left-out", "list"]
    ran = tool("import", write(folder, "dump", text), *words, folder=folder)
    expect((ran.status, ran.reported[:8]), (0, b"checked:"), f"the status; {ran.reported!r}")
    expect(letters.is_utf8(ran.printed), True, "whether all is UTF-8")
    for wanted in (
        "mntner:         MNT-1-MNT\ndescr:          Caf\xe9\nauth:           MD5-PW # \u201c\n",
        f"mntner:         B-MNT\nauth:           {A_AUTH}\ndescr:          Caf\xe9\nmnt-by:",
        "descr:          \u201cCaf\xe9\u201d\nmembers:        AS-B # \xe9\nmnt-by:         MNT-1",
        "as-set:         AS-B\ndescr:          Caf\xe9\nmnt-by:         MNT-1-MNT\n",
    ):
        expect(wanted.encode() in ran.printed, True, f"{wanted!r} in {ran.printed!r}")
    expect(f"taken, {NOT_UTF8}: 3\n".encode() in ran.reported, True, f"{ran.reported!r}")
    with open(os.path.join(folder, "list"), encoding="utf-8") as lines:
        found = [line.rstrip("\n").split("\t") for line in lines]
    expect(
        [one[3] for one in found if one[:2] == ["taken", NOT_UTF8]],
        ["mntner: 1-MNT", "mntner: B-MNT", "as-set: AS-A"],
        "the objects that are named",
    )

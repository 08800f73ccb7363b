"""The serials of a history: each change has one, they never go back, and they begin anew where it
is not known what was between."""

import asyncio
import hashlib
import os
import shutil
from collections.abc import AsyncIterator, Iterable
from pathlib import Path
from typing import Any, cast

import pytest
from hypothesis import given
from hypothesis import strategies as st

from checks.mirrors.client import Key, Mirror, key_of
from checks.running import Trial, expect
from irr.commands import export
from irr.door import flags, nrtm
from irr.door.settings import Settings
from irr.errors import Failure
from irr.local import changes, serials
from irr.local.history import Repository
from irr.rpsl import syntax

IN_MEMORY = True
ROOT = "mntner:         ROOT-MNT\nauth:           # filtered\nmnt-by:         ROOT-MNT\n"
NOW = 1_800_000_000
Kept = tuple[nrtm.Mirrors, serials.Numbered, list[tuple[str, str]]]


def aut_num(number: int, source: str = "TEST") -> str:
    return f"aut-num:        AS{number}\nmnt-by:         ROOT-MNT\nsource:         {source}\n"


class States:
    """A history whose states are given, at times that are given."""

    def __init__(self, folder: str) -> None:
        self.folder = Path(folder)
        self.repository, self.serials = Repository(self.folder), serials.Serials(self.folder)

    def commit(self, *objects: str, source: str = "TEST", now: int = NOW) -> None:
        blocks = [f"{ROOT}source:         {source}\n", *objects]
        text = "".join(f"{block}\n" for block in blocks) + f"% end {len(blocks)}\n"
        digest = hashlib.sha256(text.encode()).hexdigest()
        self.repository.record(syntax.blocks([text.encode()]), digest, now)

    def update(self, now: int = NOW) -> serials.Numbered:
        self.serials.update(self.repository, now)
        return self.serials.range()

    def add(self, *objects: str, source: str = "TEST", now: int = NOW) -> serials.Numbered:
        self.commit(*objects, source=source, now=now)
        return self.update(now)

    def parts(self, first: int, last: int) -> list[serials.Part]:
        return [part for some in self.serials.parts(first, last) for part in some]

    def changes(self, first: int, last: int) -> list[tuple[str, str]]:
        """The changes of a range, each as its words and its key."""
        text = b""
        for part in self.parts(first, last):
            with open(part.path, "rb") as file:
                text += file.read()[part.begin : part.end]
        blocks = text.decode().strip("\n").split("\n\n")
        return [(word, key_of(block)[1]) for word, block in zip(blocks[::2], blocks[1::2])]


@pytest.fixture
def states(trial: Trial, request: pytest.FixtureRequest) -> States:
    return States(trial.place(request.node.name))


def test_no_range_begins_later_than_it_was_asked_from(states: States) -> None:
    """Where changes are removed once a mirror was told that they are kept."""
    begun = states.add().last
    for number in range(1, 4):
        states.add(*map(aut_num, range(1, number + 1)))
    last = states.serials.range().last
    states.serials.path(begun + 1).unlink()
    with pytest.raises(FileNotFoundError):
        states.parts(begun + 1, last)
    expect(len(states.parts(begun + 2, last)), last - begun - 1, "from the next one on")


def test_each_change_has_the_next_serial(states: States) -> None:
    found = states.add()
    begun = NOW // 10
    expect((found.first, found.last), (begun + 1, begun), "the first state has no change")
    found = states.add(aut_num(1), aut_num(2))
    expect((found.first, found.last), (begun + 1, begun + 2), "two objects that came")
    states.add(aut_num(2), aut_num(3))
    wanted = [
        (f"ADD {begun + 1}", "AS2"),
        (f"ADD {begun + 2}", "AS1"),
        (f"ADD {begun + 3}", "AS3"),
        (f"DEL {begun + 4}", "AS1"),
    ]
    expect(states.changes(begun + 1, begun + 4), wanted, "all of them")
    expect(states.changes(begun + 3, begun + 4), wanted[2:], "one that came, and one that went")
    for serial in range(begun + 1, begun + 5):
        words = [word for word, _ in states.changes(serial, serial)]
        expect([word.split()[1] for word in words], [str(serial)], "each alone")
    expect(len(states.changes(begun + 2, begun + 3)), 2, "from the midst of one file to another's")


def test_what_a_stop_left_out_is_made_up_for(states: States) -> None:
    states.add()
    states.commit(aut_num(1))
    states.commit(aut_num(1), aut_num(2))
    # What a run leaves that was stopped while it wrote.
    (states.serials.folder / ".0000000007.x").write_text("")
    found = states.update()
    begun = NOW // 10
    expect(
        states.changes(begun + 1, found.last),
        [(f"ADD {begun + 1}", "AS1"), (f"ADD {begun + 2}", "AS2")],
        "two states of which none had a serial",
    )
    expect(states.update(NOW + 900), found, "a run without a change")
    expect(
        [name for name in os.listdir(states.serials.folder) if name[0] == "."], [], "what is left"
    )


def test_serials_that_were_lost_are_followed_by_higher_ones(states: States) -> None:
    states.add()
    before = states.add(aut_num(1), aut_num(2))
    shutil.rmtree(states.serials.folder)
    after = states.update(NOW + 3_600)
    expect(
        (after.first, after.last), ((NOW + 3_600) // 10 + 1, (NOW + 3_600) // 10), "the new ones"
    )
    expect(after.last > before.last, True, "whether they are higher")


def test_a_history_that_is_not_the_one_that_had_serials_begins_anew_above_them(
    states: States,
) -> None:
    states.add()
    before = states.add(aut_num(1))
    for path in states.folder.iterdir():
        if path.name != "serials":
            shutil.rmtree(path) if path.is_dir() else path.unlink()
    after = states.add(aut_num(5))
    expect((after.first, after.last), (before.last + 2, before.last + 1), "in the same second")
    expect(states.serials.kept(), [after.last], "what is kept")


def test_a_registry_of_another_name_begins_anew_above_the_one_before(states: States) -> None:
    states.add()
    before = states.add(aut_num(1))
    after = states.add(aut_num(1, "OTHER"), source="OTHER")
    expect((after.source, after.first), ("OTHER", after.last + 1), "whose serials they are")
    expect(after.last > before.last, True, "whether they are higher")
    expect(states.serials.kept(), [after.last], "what is kept")


def test_a_registry_that_went_back_goes_on_with_higher_serials(states: States) -> None:
    states.add()
    states.add(aut_num(1))
    before = states.add(aut_num(1), aut_num(2))
    after = states.add(aut_num(1))
    expect((after.first, after.last), (before.first, before.last + 1), "the serials")
    expect(states.changes(after.last, after.last), [(f"DEL {after.last}", "AS2")], "what it told")


@pytest.mark.parametrize("count", [1, 2, 4])
def test_an_export_sees_a_restored_history(states: States, count: int) -> None:
    """One that has come to the same serial again, to a lower or to a higher one, by other states:
    mirrors began with that which was exported."""
    out, number = states.folder.with_name(f"out{count}"), NOW // 10
    out.mkdir()
    states.add()
    expect(sum(export.of_history(states.folder, out).values()), 1, "the first time")
    states.add(aut_num(1))
    copy = states.folder.with_name(f"copy{count}")
    shutil.copytree(states.folder, copy)
    states.add(aut_num(1), aut_num(2))
    expect(sum(export.of_history(states.folder, out).values()), 3, "before it is restored")
    expect(export.of_history(states.folder, out), {}, "without a change")
    shutil.rmtree(states.folder)
    copy.rename(states.folder)
    for other in range(count - 1):
        states.add(aut_num(1), *(aut_num(5 + one) for one in range(other + 1)))
    expect(states.serials.range().last, number + count, "the last serial")
    before = {path.name: path.read_bytes() for path in out.iterdir()}
    for _ in range(2):
        with pytest.raises(Failure, match="serials went back; remove .*/serials, and run"):
            export.of_history(states.folder, out)
    found = {path.name: path.read_bytes() for path in out.iterdir()}
    expect(found == before, True, "whether the files are as they were")
    shutil.rmtree(states.serials.folder)
    states.update(NOW + 3_600)
    expect(bool(export.of_history(states.folder, out)), True, "once serials begin anew")
    expect(export.of_history(states.folder, out), {}, "and without a change")


def test_an_export_that_was_stopped_or_damaged_is_made_up_for(states: States) -> None:
    out = states.folder.with_name("out-stopped")
    out.mkdir()
    states.add()
    states.add(aut_num(1))
    export.of_history(states.folder, out)
    serial = (out / "TEST.CURRENTSERIAL").read_bytes()
    states.add(aut_num(1), aut_num(2))
    export.of_history(states.folder, out)
    # The dump is put in place before its serial.
    (out / "TEST.CURRENTSERIAL").write_bytes(serial)
    expect(bool(export.of_history(states.folder, out)), True, "after a stop between the two")
    expect((out / "TEST.CURRENTSERIAL").read_bytes() > serial, True, "the serial")
    whole = (out / "test.db.gz").read_bytes()
    for spoilt in whole[:-9], b"", None:
        (out / "test.db.gz").unlink()
        if spoilt is not None:
            (out / "test.db.gz").write_bytes(spoilt)
        expect(bool(export.of_history(states.folder, out)), True, f"{spoilt!r}")
        (out / "test.db.gz").write_bytes(whole)


def test_the_clock_never_lets_serials_go_back(states: States) -> None:
    states.add()
    before = states.add(aut_num(1), now=NOW - 10**9)
    expect(before.last, NOW // 10 + 1, "after a clock that went back")
    expect(states.add(now=NOW + 10**9).last, before.last + 1, "after one that went ahead")


def test_the_last_states_are_kept(states: States, monkeypatch: pytest.MonkeyPatch) -> None:
    monkeypatch.setattr(serials, "MOST_STATES", 3)
    states.add()
    for number in range(6):
        found = states.add(aut_num(number))
    expect(len(states.serials.kept()), 3, "how many")
    expect((found.first, found.last), (found.last - 5, found.last), "the range")
    expect(len(states.changes(found.first, found.last)), 6, "what it has")
    monkeypatch.setattr(serials, "MOST_BYTES", 1)
    found = states.add()
    expect(states.serials.kept(), [found.last], "the last one, of whatever size")


def test_letter_case_distinguishes_no_registries(states: States) -> None:
    states.add(source="Test")
    found = states.add(aut_num(1, "tEST"), source="Test")
    expect((found.source, found.last - found.first), ("TEST", 0), "the registry, and one change")


def test_an_answer_whose_file_is_gone_lacks_its_last_line(states: States) -> None:
    states.add()
    states.add(aut_num(1))
    found = states.add(aut_num(1), aut_num(2))
    parts = states.parts(found.first, found.last)
    whole, cut = (nrtm.Changes("TEST", found.first, parts) for _ in range(2))
    expect(handed(whole).endswith(b"\n%END TEST\n\n"), True, "the whole answer")
    parts[1].path.unlink()
    text = handed(cut)
    expect((b"AS1\n" in text, b"%END" in text), (True, False), "the answer")


def test_an_answer_whose_file_was_cut_ends_there(states: States) -> None:
    states.add()
    found = states.add(aut_num(1))
    parts = states.parts(found.first, found.last)
    answer = nrtm.Changes("TEST", found.first, parts)
    with open(parts[0].path, "r+b") as file:
        file.truncate(parts[0].begin + 9)
    text = handed(answer)
    expect((b"\nADD" in text, b"%END" in text), (True, False), "the answer")


@pytest.mark.parametrize("stretch", [1, 2, 20, 300])
def test_a_change_is_found_wherever_it_stands(
    states: States, monkeypatch: pytest.MonkeyPatch, stretch: int
) -> None:
    """Also across the end of what is searched at once."""
    monkeypatch.setattr(serials, "STRETCH", stretch)
    states.add(aut_num(9))
    found = states.add(*(aut_num(number) for number in range(1, 7)))
    wanted = states.changes(found.first, found.last)
    for place in range(len(wanted)):
        serial = found.first + place
        expect(states.changes(serial, serial), wanted[place : place + 1], f"serial {serial}")


def test_serials_that_cannot_be_read_are_refused_and_reported(states: States) -> None:
    states.add()
    states.add(aut_num(1))
    found = states.add(aut_num(1), aut_num(2))
    mirrors = nrtm.Mirrors(Settings(mirrors=("192.0.2.1",), history=str(states.folder)))
    path = states.serials.path(found.first)
    whole = path.read_bytes()
    path.write_bytes(b"x" + whole[1:])
    with pytest.raises(flags.Bad, match="can't be read here"):
        answered(mirrors, f"TEST:3:{found.first}-LAST", "192.0.2.1")
    expect(str(path) in " ".join(mirrors.faults()), True, f"{mirrors.faults()}")
    path.write_bytes(whole)
    answered(mirrors, f"TEST:3:{found.first}-LAST", "192.0.2.1")
    expect(mirrors.faults(), [], "what is told once they can be read")


@pytest.fixture(scope="module")
def kept(trial: Trial) -> Kept:
    """A history of some states, the door's view of it, and all changes as one answer."""
    states = States(trial.place("kept"))
    states.add()
    for number in range(1, 9):
        states.add(*(aut_num(own) for own in range(number, 2 * number, 1 + number % 2)))
    mirrors = nrtm.Mirrors(Settings(mirrors=("192.0.2.1",), history=str(states.folder)))
    found = states.serials.range()
    return mirrors, found, states.changes(found.first, found.last)


class Asking:
    """Who asks from an address, and never waits for others."""

    def __init__(self, address: str) -> None:
        self.address = address

    async def paced(self, pieces: Iterable[Any]) -> AsyncIterator[Any]:
        for piece in pieces:
            yield piece


def answered(mirrors: nrtm.Mirrors, word: str, address: str) -> bytes | nrtm.Changes:
    return asyncio.run(mirrors.answer(word, cast(Any, Asking(address))))


@given(st.integers(-3, 60), st.integers(-3, 60), st.booleans())
def test_a_range_is_answered_exactly_or_refused(
    kept: Kept, first: int, last: int, is_open: bool
) -> None:
    mirrors, found, all_of_it = kept
    first, last = first + found.first, found.last if is_open else last + found.first
    asked = f"TEST:3:{first}-{'LAST' if is_open else last}"
    try:
        answer = answered(mirrors, asked, "192.0.2.1")
    except flags.Bad as bad:
        assert bad.number == 401
        assert not found.first <= first <= last <= found.last
        assert not (is_open and first == found.last + 1)
        return
    if is_open and first == found.last + 1:
        assert answer == nrtm.NO_NEWER
        return
    mirror = Mirror("TEST")
    seen: list[int] = []
    mirror.serial = first - 1
    assert isinstance(answer, nrtm.Changes)
    text = handed(answer).decode()
    assert mirror.take(text, lambda one: seen.append(one.serial)) == last - first + 1
    assert seen == list(range(first, last + 1))
    blocks = text.strip("\n").split("\n\n")[1:-1]
    changes = [(word, key_of(block)[1]) for word, block in zip(blocks[::2], blocks[1::2])]
    assert changes == all_of_it[first - found.first : last - found.first + 1]


@given(st.text() | st.from_regex(nrtm.ASKED), st.text() | st.ip_addresses().map(str))
def test_no_words_of_a_mirror_do_more_than_be_refused(kept: Kept, words: str, address: str) -> None:
    try:
        answer = answered(kept[0], words, address)
    except flags.Bad as bad:
        assert bad.number in (401, 402, 403, 405)
        return
    assert address == "192.0.2.1" and answer


def handed(answer: nrtm.Changes) -> bytes:
    """What the door hands out of an answer."""
    text = b""
    while len(text) < answer.size():
        text += answer.piece(len(text), 97)
    return text


# The order of changes.

NAMES = (
    [("mntner", f"M{number}-MNT") for number in range(4)]
    + [("aut-num", f"AS{number}") for number in range(1, 4)]
    + [("inetnum", f"10.{low}.0.0 - 10.{high}.255.255") for low, high in [(0, 1), (1, 2), (0, 7)]]
    + [("as-set", name) for name in ("AS-A", "AS1:AS-B", "AS1:AS-B:AS-C")]
    + [("route-set", name) for name in ("RS-A", "AS1:RS-B")]
    + [("route", f"10.0.{number}.0/24") for number in range(3)]
)
LISTED = {"as-set": ("aut-num", "as-set"), "route-set": ("aut-num", "as-set", "route-set")}


@st.composite
def states_of(draw: st.DrawFn) -> dict[Key, str]:
    """A state in which each object names some of those that come before it, whether they are there
    or not."""
    found = {}
    for place, (kind, name) in enumerate(NAMES):
        if not draw(st.booleans()):
            continue
        before = NAMES[:place]

        def some(*kinds: str, least: int = 0) -> list[str]:
            names = [own for of, own in before if of in kinds]
            return (
                draw(st.lists(st.sampled_from(names), min_size=least, max_size=2)) if names else []
            )

        by = some("mntner", least=1) or [name]
        lines = [f"{kind}: {name}", f"mnt-by: {', '.join(by)}"]
        lines += [f"members: {', '.join(some(*LISTED[kind]))}"] if kind in LISTED else []
        lines += [f"origin: AS{draw(st.integers(1, 3))}"] if kind == "route" else []
        listed = some("route-set") if kind == "route" else []
        lines += [f"member-of: {', '.join(listed)}"] if listed else []
        text = "\n".join([*lines, "source: TEST\n"])
        found[key_of(text)] = text
    return found


def unmet(state: dict[Key, str]) -> set[tuple[Key, str]]:
    """The references to what is not there, as the lines that make them and what they name."""
    names = {key[1] for key in state}
    found = set()
    for key, text in state.items():
        parent = key[1].rpartition(":")[0] if key[0].endswith("-set") else ""
        found |= {(key, parent)} if parent and parent not in names else set()
        for line in text.split("\n"):
            name, _, value = line.partition(": ")
            if name in ("mnt-by", "members", "member-of", "origin"):
                words = [word.strip() for word in value.split(",")]
                found |= {(key, word) for word in words if word and word not in names}
    return found


def crossing(state: dict[Key, str]) -> list[tuple[tuple[int, ...], tuple[int, ...]]]:
    """The inetnums that overlap, neither inside the other."""
    spans = [
        tuple(int(part.split(".")[1]) for part in key[1].split(" - "))
        for key in state
        if key[0] == "inetnum"
    ]
    return [(a, b) for a in spans for b in spans if a[0] < b[0] <= a[1] < b[1]]


@given(states_of(), states_of())
def test_no_reference_is_unmet_but_where_a_state_leaves_it_so(
    before: dict[Key, str], after: dict[Key, str]
) -> None:
    def texts(keys: Iterable[Key], state: dict[Key, str]) -> list[bytes]:
        return [state[key].encode() for key in keys]

    added, gone = after.keys() - before.keys(), before.keys() - after.keys()
    changed = {key for key in after.keys() & before.keys() if after[key] != before[key]}
    state, allowed = dict(before), unmet(before) | unmet(after)
    many = bool(crossing(before) or crossing(after))
    count = 0
    for change in changes.in_order(
        texts(sorted(added), after), texts(sorted(changed), after), texts(sorted(gone), before), "x"
    ):
        text = plain(change.text.decode())
        if change.word == "ADD":
            state[key_of(text)] = text
        else:
            del state[key_of(text)]
        count += 1
        assert unmet(state) <= allowed
        assert many or not crossing(state)
        assert before.keys() & after.keys() <= state.keys()
    assert state == after
    assert count == len(added) + len(changed) + len(gone)


def plain(text: str) -> str:
    """A text without the blanks of canonical texts."""
    lines = [line.partition(":") for line in text.split("\n") if line]
    return "".join(f"{name}: {value.strip()}\n" for name, _, value in lines)

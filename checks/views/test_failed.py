"""Renewals of a view that fail, or are stopped: what was noted of a source stays, and no view
stands still for ever."""

import json
from collections.abc import Callable
from pathlib import Path

import pytest

from checks.running import expect
from checks.views.following import Followed
from checks.views.registry import Quick
from checks.views.test_nrtm4 import add
from irr.errors import Failure
from irr.views import nrtm, view

IN_MEMORY = True
BACK = "the dump has serial 100 still"
# The fields of a state that version 2.5.0 knows.
KNOWN = {
    *("folder", "origin", "stamps", "digests", "serial", "counts", "session", "hash", "snapshot"),
    *("deltas", "is_left", "refused", "ends", "told", "doubt"),
}


@pytest.fixture
def fails(one: Quick, monkeypatch: pytest.MonkeyPatch) -> Callable[[], None]:
    """A renewal for whose registry there is no room."""

    def full(*_: object) -> None:
        raise Failure("a replica", "no space left")

    def fail() -> None:
        with monkeypatch.context() as patched:
            patched.setattr(view, "Copy", full)
            one.need("no space left", "without room")

    return fail


def test_what_is_noted_of_a_source_stays_once_a_failed_view_is_made(
    one: Quick, fails: Callable[[], None]
) -> None:
    one.need("", "the first time")
    one.add(10)
    fails()
    one.nrtm.first, one.nrtm.changes = 41, []
    one.add(11)
    one.need(BACK, "serials went back")
    one.add(*range(40, 100))
    one.need(BACK, "once serials pass")


def test_what_is_noted_of_a_source_stays_after_a_stop(
    one: Quick, monkeypatch: pytest.MonkeyPatch
) -> None:
    """Between the place of a state and its counts."""
    one.need("", "the first time")
    one.add(10)
    rename = Path.rename

    def renamed(self: Path, place: Path) -> object:
        found = rename(self, place)
        if self.name == "next":
            raise KeyboardInterrupt
        return found

    with monkeypatch.context() as patched:
        patched.setattr(Path, "rename", renamed)
        with pytest.raises(KeyboardInterrupt):
            one.look()
    one.begin()
    one.nrtm.first, one.nrtm.changes = 41, []
    one.add(11)
    one.need(BACK, "serials went back")
    one.add(*range(40, 101))
    one.nrtm.shorten(102)
    one.need(BACK, "once serials pass")


def test_the_label_is_of_what_is_served(one: Quick, fails: Callable[[], None]) -> None:
    one.need("", "the first time")
    label, before = json.dumps(one.view.label), dict(one.routes)
    one.add(10)
    fails()
    one.restore(100, before)
    one.need("", "as it was")
    expect(json.dumps(one.view.label), label, "what it is made of")


def test_what_one_replica_has_is_told_while_renewals_fail(
    one: Quick, monkeypatch: pytest.MonkeyPatch, tmp_path: Path
) -> None:
    """The other one did not start, so nothing was kept."""
    one.need("", "the first time")

    def states() -> list[str]:
        (source,) = one.view.status()["view"]["sources"]
        return str(source["state"]).split(" or ")

    (before,) = states()
    one.add(10)
    assert one.view.make(tmp_path, one.digest)
    with monkeypatch.context() as patched:
        patched.setattr(view.View, "read_roas", failing)
        with pytest.raises(Failure):
            one.view.make(tmp_path, one.digest)
    found = states()
    expect((len(found), found[0]), (2, before), "both states")
    one.need("", "once all have it")
    expect(states(), found[1:], "the new one")


def failing(*_: object) -> None:
    raise Failure("roas", "it can't be read")


def test_counts_are_of_what_is_served(one: Quick, fails: Callable[[], None]) -> None:
    """A source that grew, and could not be made, is not what the next one shrank from."""
    path = one.folder / "view.toml"
    path.write_text(path.read_text().replace("shrink = 100", "shrink = 10"))
    one.begin()
    one.need("", "the first time")
    before = dict(one.routes)
    one.add(*range(10, 30))
    fails()
    one.restore(100, before)
    one.need("", "as it was")
    for number in range(40, 43):
        one.add(number)
        one.publish()
        one.need("", "with one more")


def test_an_older_version_reads_what_was_noted(one: Quick) -> None:
    one.need("", "the first time")
    one.add(10)
    one.need("", "what is followed")
    noted = json.loads(one.view.states["RIPE"].file.read_bytes())
    expect(noted.keys() - KNOWN, set(), "fields that it does not know")


@pytest.mark.parametrize("how", ["no object", "too long"])
def test_a_dump_makes_up_for_a_change_that_cannot_be_read(
    one: Quick, how: str, monkeypatch: pytest.MonkeyPatch
) -> None:
    one.need("", "the first time")
    if how == "no object":
        one.nrtm.publish([("ADD", "% gone\n")])
        words = "serial 101 has no whole object"
    else:
        one.add(*range(100, 200))
        monkeypatch.setattr(nrtm, "MOST", 2_000)
        words = "its answer does not end"
    one.need(words, "a change that can't be read")
    one.add(10)
    one.publish()
    one.need("", "with a dump of after it")


def test_a_dump_makes_up_for_a_restore_whose_changes_cannot_be_read(one: Quick) -> None:
    """They come by serials of changes that were read."""
    before = dict(one.routes)
    one.need("", "the first time")
    one.add(10, 11, 12)
    one.need("", "what is followed")
    one.restore(100, before)
    one.nrtm.publish([("ADD", "% gone\n")])
    one.add(20, 21, 22)
    one.need("it tells other changes up to 103", "once serials pass")
    one.publish()
    one.need("", "with a dump of after it")


def test_a_dump_of_before_a_restore_makes_up_for_no_change(one: Quick) -> None:
    """It was ahead of the changes when it was seen, whatever serials come later."""
    one.need("", "the first time")
    one.nrtm.publish([("ADD", "% gone\n")])
    one.add(10, 11)
    then = dict(one.routes)
    words = "serial 101 has no whole object"
    one.need(words, "a change that can't be read")
    one.add(12, 13)
    one.publish()
    one.restore(103, then)
    one.need(words, "a dump that is ahead")
    one.add(20, 21, 22)
    one.need("the dump has serial 105 still", "once serials pass")
    one.publish()
    one.need("", "with a dump of now")


def test_a_snapshot_makes_up_for_a_file_of_changes_that_is_lost(mirror: Followed) -> None:
    """By NRTM, version 4."""
    writer = mirror.writer
    writer.publish(add(9))
    expect(mirror.renew(), "", "the first time")
    writer.publish(add(10))
    mirror.files.texts.pop("/4/" + writer.deltas[-1]["url"])
    expect("status 404" in mirror.renew(), True, "it is lost")
    writer.publish(add(11))
    writer.take_snapshot()
    writer.notify()
    expect(mirror.renew(), "", "with a newer snapshot")
    mirror.need_same("what it has then")

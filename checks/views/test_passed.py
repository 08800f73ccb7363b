"""A source that is followed by NRTM, version 3, whose serials went back and passed, or reached
again, what was taken of it between two looks."""

import gzip
from collections.abc import Iterator
from pathlib import Path

import pytest

from checks.running import Trial, expect
from checks.views.registry import DUMP, SERIAL, Quick, Registry
from checks.views.test_sources import route
from irr.views import settings, sources
from irr.views.view import View

IN_MEMORY = True
OTHER = "it tells other changes up to "


@pytest.fixture
def registry(trial: Trial, tmp_path: Path, monkeypatch: pytest.MonkeyPatch) -> Iterator[Registry]:
    monkeypatch.setenv("IRRDESK", trial.program)
    one = Registry(tmp_path)
    with one.files, one.nrtm:
        yield one


@pytest.mark.parametrize("count", [2, 5, 0])
@pytest.mark.parametrize("followed", [0, 3])
def test_other_changes_by_the_same_serials_are_seen(
    registry: Registry, count: int, followed: int
) -> None:
    """The serials reach what was taken, or pass it; it was followed, or has a dump alone."""
    one = registry
    one.add(10, 11, 12)
    before, last = dict(one.routes), one.nrtm.last
    one.add(13, 14)
    one.publish()
    one.need("", "the first time")
    one.add(*range(20, 20 + followed))
    one.need("", "what is followed")
    one.restore(last, before)
    one.add(*range(40, 42 + followed + count))
    one.need(OTHER, "after it was restored")
    one.need(OTHER, "and the next time")
    one.add(59)
    one.publish()
    one.need("", "with a dump of now")
    one.add(60)
    one.need("", "what comes then")


def test_a_dump_that_is_there_when_others_are_seen_may_be_from_before(registry: Registry) -> None:
    """What came before it was followed, so that it was not taken."""
    one = registry
    one.need("", "the first time")
    one.add(10, 11)
    before, last = dict(one.routes), one.nrtm.last
    one.add(12, 13)
    one.publish()
    one.add(14)
    one.need("", "what is followed")
    one.restore(last, before)
    one.add(*range(40, 50))
    for turn in range(3):
        one.need(OTHER, f"with the dump of before, turn {turn}")
        one.add(50 + turn)
    one.publish()
    one.need("", "with a dump of now")


def test_serials_that_passed_under_the_last_changes_alone_are_seen(registry: Registry) -> None:
    """Where an earlier change is another one, and a hundred after it are as before or not."""
    one = registry
    one.need("", "the first time")
    one.add(*range(10, 20))
    before, last = dict(one.routes), one.nrtm.last
    one.add(*range(20, 60))
    one.need("", "what is followed")
    one.restore(last, before)
    one.add(20, words="other")
    one.add(*range(21, 60))
    one.need(OTHER, "the first of them is another one")


def test_where_the_last_changes_are_no_longer_told_a_newer_dump_is_taken(
    registry: Registry,
) -> None:
    one = registry
    one.need("", "the first time")
    one.add(10, 11)
    before, last = dict(one.routes), one.nrtm.last
    one.add(12)
    one.need("", "what is followed")
    one.restore(last, before)
    one.add(13)
    one.publish()
    one.nrtm.forget()
    one.need("", "with a dump of the same serial")
    one.add(14)
    one.need("", "what comes then")


@pytest.mark.parametrize("is_serial_first", [True, False])
def test_a_dump_of_before_is_of_its_own_serial(registry: Registry, is_serial_first: bool) -> None:
    """Where the journal is short, and one of both files is new: the dump that is there is not taken
    for the new one."""
    one, still = registry, "it tells no changes after 100, and the dump is the one of before still"
    one.need("", "the first time")
    one.add(*range(10, 15))
    one.nrtm.forget()
    one.add(15)
    one.put_serial() if is_serial_first else one.put_dump()
    one.need(still if is_serial_first else "it tells no changes after 100", "half of it")
    expect(one.is_same(), not is_serial_first, "what it has")
    one.publish()
    one.need("" if is_serial_first else still, "all of it")
    one.add(16)
    one.publish()
    one.need("", "what comes then")
    one.add(17)
    one.need("", "a change")


def test_a_short_journal_costs_no_dump(registry: Registry) -> None:
    """While nothing changes, and where nothing is told of before."""
    one = registry
    one.add(10)
    one.publish()
    one.nrtm.forget()
    one.need("", "the first time")
    one.add(11)
    one.need("", "a change")
    one.nrtm.forget()
    for _ in range(2):
        one.need("", "nothing new")
    taken = [path for path, status in one.files.asked if (path, status) == (DUMP, 200)]
    expect(len(taken), 1, "how often a dump was taken")


def test_a_dump_of_before_is_not_taken_where_a_restore_brings_the_journal_back(one: Quick) -> None:
    """After a gap, for which the dump of then was refused."""
    one.need("", "the first time")
    one.add(10, 11, 12)
    before, journal = dict(one.routes), list(one.nrtm.changes)
    one.add(13, 14)
    one.need("", "what is followed")
    one.add(15, 16, 17, 18, 19)
    one.nrtm.shorten(108)
    one.need("it tells no changes after 105", "a gap")
    one.publish()
    one.nrtm.first, one.nrtm.changes, one.routes = 101, journal, before
    one.add(*range(20, 29))
    one.need(OTHER, "with the dump of 110")


def test_a_restore_is_seen_while_a_cut_dump_is_refused(one: Quick) -> None:
    one.need("", "the first time")
    one.add(10)
    one.nrtm.forget()
    one.publish()
    dump = one.files.texts[DUMP]
    assert isinstance(dump, bytes)
    one.files.texts[DUMP] = gzip.compress(gzip.decompress(dump)[:-8], mtime=0)
    one.add(11)
    before = dict(one.routes)
    one.add(12, 13)
    one.need("ends without", "a cut dump of 101, with the changes up to 104")
    one.publish()
    one.restore(102, before)
    one.add(20, 21, 22)
    one.need(OTHER, "with the dump of 104")
    one.add(23)
    one.publish()
    one.need("", "with a dump of now")


def test_a_restore_is_seen_while_no_more_changes_are_kept(
    one: Quick, monkeypatch: pytest.MonkeyPatch
) -> None:
    monkeypatch.setattr(sources, "MOST_CHANGES", 1)
    one.need("", "the first time")
    one.add(10)
    before = dict(one.routes)
    one.add(11, 12)
    one.need("", "what is followed")
    one.add(13)
    one.publish()
    one.restore(101, before)
    one.add(20, 21, 22, 23)
    one.need(OTHER, "with the dump of 104")
    one.add(24)
    one.publish()
    one.need("", "with a dump of now")


@pytest.mark.parametrize("is_irrd", [False, True])
def test_a_first_dump_that_was_ahead_is_not_followed_once_serials_pass_it(
    one: Quick, is_irrd: bool
) -> None:
    one.nrtm.is_irrd = is_irrd
    one.add(10)
    before = dict(one.routes)
    one.add(11, 12)
    one.publish()
    one.restore(101, before)
    one.need("it tells no changes after 103", "the first time")
    one.add(20, 21, 22)
    one.need("the dump has serial 103 still", "once serials pass it")
    one.add(23)
    one.publish()
    one.need("", "with a dump of now")


@pytest.mark.parametrize("is_irrd", [False, True])
def test_all_changes_that_a_short_journal_has_are_compared(one: Quick, is_irrd: bool) -> None:
    """The last one is as before, and those before it are not."""
    one.nrtm.is_irrd = is_irrd
    one.need("", "the first time")
    one.add(10, 11)
    before = dict(one.routes)
    one.add(12, 13)
    one.remove(0)
    one.need("", "what is followed")
    one.restore(102, before)
    one.nrtm.shorten(103)
    one.add(20, 21)
    one.remove(0)
    one.add(22)
    one.need(OTHER, "after it was restored")


def test_all_changes_that_a_short_journal_has_before_a_dump_are_noted(one: Quick) -> None:
    one.add(10, 11)
    before = dict(one.routes)
    one.add(12, 13)
    one.remove(0)
    one.nrtm.shorten(103)
    one.publish()
    one.need("", "the first time")
    one.nrtm.changes, one.routes = [], before
    one.add(20, 21)
    one.remove(0)
    one.add(22)
    one.need(OTHER, "after it was restored")


def test_changes_after_one_that_cannot_be_read_are_noted(one: Quick) -> None:
    """Which a dump made up for."""
    one.need("", "the first time")
    one.nrtm.publish([("ADD", "% gone\n")])
    one.need("serial 101 has no whole object", "a change that can't be read")
    before = dict(one.routes)
    one.add(*range(10, 20))
    one.publish()
    one.need("", "with a dump of after it")
    one.restore(101, before)
    one.add(*range(20, 29), 19, 29)
    one.need(OTHER, "after it was restored")


def test_changes_before_a_dump_are_noted_later_if_they_fail(one: Quick) -> None:
    one.add(10, 11)
    before = dict(one.routes)
    one.add(12, 13)
    one.publish()
    one.add(14)
    # Those of before the dump.
    one.nrtm.fails = "-104"
    one.need("its answer is none of NRTM", "the first time")
    one.nrtm.fails = ""
    one.need("", "the next time")
    one.restore(102, before)
    one.add(20, 21, 14, 22)
    one.need(OTHER, "after it was restored")


def test_changes_are_followed_from_serial_0(one: Quick) -> None:
    """Up to it there are none to ask for."""
    one.nrtm.is_irrd, one.nrtm.first = True, 1
    one.publish()
    one.add(10)
    one.need("", "the first time")
    one.add(11)
    one.need("", "a change")


def test_serials_that_went_back_are_seen_while_that_of_the_dump_is_not_there(one: Quick) -> None:
    one.need("", "the first time")
    serial = one.files.texts[SERIAL]
    one.files.texts[SERIAL] = b"<html>503</html>"
    one.nrtm.first, one.nrtm.changes = 99, []
    one.add(10)
    one.need("it has no serial", "without it")
    one.files.texts[SERIAL] = serial
    one.add(11, 12)
    one.need("the dump has serial 100 still", "once serials pass")


def test_a_dump_of_an_earlier_serial_is_not_taken_once_others_are_told(one: Quick) -> None:
    """One of before, which was not there when they were seen."""
    one.need("", "the first time")
    one.add(10, 11, 12)
    before = dict(one.routes)
    one.add(13, 14)
    one.publish()
    old = {name: one.files.texts[name] for name in (DUMP, SERIAL)}
    one.add(15)
    one.publish()
    one.need("", "what is followed")
    one.restore(103, before)
    one.add(20, 21, 22, 23, 24)
    one.need(OTHER, "with the dump of 106")
    one.files.texts |= old
    one.need("the dump has serial 105 still", "with that of 105")
    one.publish()
    one.need("", "with a dump of now")


def test_serials_that_went_back_are_seen_in_the_words_of_irrd(one: Quick) -> None:
    """The dump of before, which was there and was not taken, is not taken once they reach it."""
    one.nrtm.is_irrd = True
    one.need("", "the first time")
    before = dict(one.routes)
    one.add(10, 11, 12, 13, 14)
    one.publish()
    one.add(15, 16)
    one.need("", "what is followed")
    one.restore(100, before)
    one.add(20, 21, 22, 23, 24)
    one.need("it tells no changes after 107, and the dump has serial 105 still", "serials of 105")


def test_a_source_without_any_change_is_followed_by_its_dumps(one: Quick) -> None:
    one.nrtm.is_irrd = True
    one.need("", "the first time")
    one.need("", "nothing new")
    one.routes[10] = route(10, 2)
    one.put_dump()
    one.need("", "a dump of another date")
    one.nrtm.first = 103
    one.routes[11] = route(11, 2)
    one.put_serial()
    one.need("it tells no changes after 100, and the dump is the one of before", "its serial")
    one.put_dump()
    one.need("", "a dump of another serial")
    one.add(12)
    one.need("", "the first change")


def test_a_source_that_has_lost_all_changes_is_followed_from_another_dump(one: Quick) -> None:
    """The one that is there then may be of before."""
    one.nrtm.is_irrd = True
    one.need("", "the first time")
    before = dict(one.routes)
    one.add(10, 11)
    one.need("", "what is followed")
    one.publish()
    one.nrtm.first, one.nrtm.changes, one.routes = 101, [], before
    for turn in range(2):
        one.need("it tells no changes after 102, and the dump has serial 102 still", f"{turn}")
    one.routes[20] = route(20, 2)
    one.publish()
    one.need("", "with a dump of now")
    one.add(21)
    one.need("", "the first change")


def test_a_dump_with_the_serial_of_before_a_restore_is_not_taken(one: Quick) -> None:
    """That serial was ahead of what was followed, and changes pass it."""
    one.need("", "the first time")
    one.add(10, 11)
    before = dict(one.routes)
    one.add(12)
    one.need("", "what is followed")
    one.add(13)
    one.publish()
    one.restore(102, before)
    one.need("the dump has serial 104 still", "with the dump of before")
    one.put_dump()
    one.add(20, 21, 22, 23)
    one.need("the dump has serial 104 still", "with that of 102 alone")
    one.publish()
    one.need("", "with a dump of now")


def test_a_dump_of_now_is_taken_though_serials_were_seen_before_they_passed(one: Quick) -> None:
    one.need("", "the first time")
    before = dict(one.routes)
    one.add(10, 11, 12)
    one.publish()
    one.add(13)
    one.need("", "what is followed")
    one.restore(100, before)
    one.add(20)
    one.need("the dump has serial 103 still", "with the dump of before")
    one.add(21, 22)
    one.publish()
    one.need("the dump has serial 103 still", "with another one of that serial")
    one.add(23)
    one.publish()
    one.need("", "with a dump of now")


def test_a_dump_that_is_ahead_after_a_gap_is_refused_though_its_changes_fail(one: Quick) -> None:
    one.need("", "the first time")
    one.add(10, 11, 12)
    before = dict(one.routes)
    one.nrtm.shorten(103)
    one.need("it tells no changes after 100", "a gap")
    one.add(13)
    one.publish()
    one.restore(103, before)
    one.nrtm.fails = "105"
    one.need("the dump has serial 104 still", "while they fail")
    one.nrtm.fails = ""
    one.add(20, 21)
    one.need("the dump has serial 104 still", "once serials pass")
    one.publish()
    one.need("", "with a dump of now")


def test_the_dump_of_before_what_was_refused_does_not_hide_that_serials_went_back(
    one: Quick,
) -> None:
    path = one.folder / "view.toml"
    path.write_text(path.read_text().replace("shrink = 100", "shrink = 10"))
    one.begin()
    one.nrtm.is_irrd = True
    one.need("", "the first time")
    dump = dict(one.files.texts)
    one.remove(3, 4)
    one.publish()
    for _ in range(2):
        one.need("more is gone than `shrink`", "what is refused")
    one.nrtm.changes = []
    one.need("it tells no changes after 102", "without a journal")
    one.files.texts.update(dump)
    for _ in range(2):
        one.need("it tells no changes after 100", "with the dump of before")
    one.add(3, 4, 5)
    one.publish()
    one.need("", "with a dump of now")


# What no source tells, as docs/VIEWS.md lists it.


def need_unseen(one: Quick, numbers: set[int], what: str) -> None:
    """That a view has other routes without a word."""
    fault = one.look()
    found = set(one.known.split("\n\n")) ^ {text.strip("\n") for text in one.routes.values()}
    expect((fault, found), ("", {route(number, 2).strip("\n") for number in numbers}), what)


def test_a_dump_of_before_a_restore_is_taken_after_a_gap(one: Quick) -> None:
    one.need("", "the first time")
    one.add(10, 11)
    one.nrtm.shorten(102)
    before = dict(one.routes)
    one.need("it tells no changes after 100", "a gap")
    one.add(12)
    one.publish()
    one.restore(102, before)
    one.add(20, 21)
    need_unseen(one, {12, 20}, "with the dump of 103")


def test_a_dump_of_before_a_restore_is_taken_of_an_irrd_without_a_journal(one: Quick) -> None:
    one.nrtm.is_irrd = True
    one.need("", "the first time")
    before = dict(one.routes)
    one.add(10)
    one.publish()
    one.restore(100, before)
    need_unseen(one, {10}, "with the dump of 101")


def test_a_dump_of_before_its_serial_is_taken_the_first_time(one: Quick) -> None:
    one.add(10, 11)
    one.put_serial()
    need_unseen(one, {10, 11}, "with the dump of 100 and serial 102")


def test_changes_that_an_irrd_loses_before_a_look_are_missed(one: Quick) -> None:
    one.nrtm.is_irrd = True
    one.need("", "the first time")
    one.add(10)
    one.nrtm.changes = []
    need_unseen(one, {10}, "without a journal")


def test_a_dump_that_neither_a_tag_nor_a_date_tells_is_not_taken_for_its_serial(
    one: Quick,
) -> None:
    one.need("", "the first time")
    before = dict(one.routes)
    one.add(10)
    one.need("", "what is followed")
    one.view.states["RIPE"]._replace(stamps=[""]).put()
    one.restore(100, before)
    one.add(20)
    one.nrtm.forget()
    one.publish()
    need_unseen(one, {10, 20}, "with a dump of 101")


def test_a_dump_of_a_later_serial_is_not_taken_while_changes_lead_on(one: Quick) -> None:
    """Though those before are told no more, and were others."""
    one.need("", "the first time")
    before = dict(one.routes)
    one.add(10)
    one.need("", "what is followed")
    one.restore(100, before)
    one.add(20)
    one.nrtm.forget()
    one.add(21)
    one.publish()
    need_unseen(one, {10, 20}, "with a dump of 102")


ODD = "as-set: AS-X (old)\nmembers: AS2\nmnt-by: B-MNT\nsource: RIPE\n"


@pytest.mark.parametrize("told", [ODD, ODD.replace("AS2", "AS3"), ODD.replace("(", "  (")])
@pytest.mark.parametrize("is_in_dump", [False, True])
def test_a_set_with_odd_text_after_its_name_is_gone_once_it_is_deleted(
    registry: Registry, is_in_dump: bool, told: str
) -> None:
    """It keeps its name from later sources as long as it is there, however its deletion is told;
    one whose name can be read is another one."""
    one, path = registry, Path(registry.view.settings.folder).parent
    (path / "two.db").write_text("as-set: AS-X\nmembers: AS7\nmnt-by: C-MNT\nsource: TWO\n")
    with open(path / "view.toml", "a") as file:
        file.write(f'[[source]]\nname = "TWO"\ndump = "{path}/two.db"\n')
    one.view = View(settings.read(str(path / "view.toml")))
    if is_in_dump:
        one.routes[999] = ODD
    one.publish()
    one.look()
    one.nrtm.publish([("ADD", ODD)])
    one.look()
    expect(sets(one), [], "while it is there")
    one.nrtm.publish([("DEL", told)])
    one.look()
    expect(sets(one), ["ALL # TWO"], "once it is deleted")
    one.nrtm.publish([("ADD", ODD), ("ADD", ODD.replace(" (old)", ""))])
    one.look()
    expect(sets(one), ["ALL # RIPE"], "beside another one")
    one.nrtm.publish([("DEL", told)])
    one.look()
    expect(sets(one), ["ALL # RIPE"], "the other one")


def sets(one: Registry) -> list[str]:
    """Of which source a set in the view is."""
    blocks = [block for block in one.known.split("\n\n") if "as-set:         AS-X\n" in block]
    return [block.partition("source:")[2].strip() for block in blocks]

"""A source of a view that is followed by NRTM, version 4, whose registry was restored to
before what was taken of it."""

import shutil

import pytest

from checks.running import expect
from checks.views.following import Followed, named, shaped
from checks.views.test_nrtm4 import add, back
from checks.views.test_sources import route


def test_a_registry_that_was_restored_is_taken_anew(mirror: Followed) -> None:
    """Where it tells other changes by a version that was taken already."""
    writer = mirror.writer
    writer.publish(add(20))
    writer.publish(add(21))
    expect(mirror.renew(), "", "the first time")
    writer.version, writer.deltas = 1, []
    for number in 20, 21:
        del writer.objects[named(route(number))[0]]
    writer.publish(add(20))
    writer.publish(add(23))
    writer.publish(add(24))
    expect(mirror.renew(), "", "after it was restored")
    mirror.need_same("what it has then")
    expect(mirror.asked("snapshot"), 2, "how often a snapshot was taken")


def test_a_registry_that_was_restored_publishes_another_version(mirror: Followed) -> None:
    """The version that was taken already, with other changes, after it was seen to go back or
    not."""
    writer = mirror.writer
    for turn, seen in enumerate([False, True]):
        writer.begin()
        writer.publish(add(30 + turn))
        expect(mirror.renew(), "", "the first time")
        del writer.objects[named(route(30 + turn))[0]]
        writer.version, writer.deltas = 1, []
        if seen:
            writer.notify()
            expect("it went back" in mirror.renew(), True, "the fault")
        writer.publish(add(40 + turn))
        expect(mirror.renew(), "", "after it was restored")
        mirror.need_same("what it has then")


def test_a_registry_that_was_restored_names_changes_of_a_snapshot(mirror: Followed) -> None:
    """Those of a version which was taken from a snapshot, without changes."""
    writer = mirror.writer
    for number in range(50, 53):
        writer.publish(add(number))
    writer.forget()
    expect(mirror.renew(), "", "the first time")
    for number in 51, 52:
        del writer.objects[named(route(number))[0]]
    writer.version = 2
    writer.take_snapshot()
    for number in range(60, 63):
        writer.publish(add(number))
    expect(mirror.renew(), "", "after it was restored")
    mirror.need_same("what it has then")


def test_a_registry_that_was_restored_has_another_snapshot(mirror: Followed) -> None:
    """Of the version that was taken, where no changes are named."""
    writer = mirror.writer
    expect(mirror.renew(), "", "the first time")
    name, text = named(route(70))
    writer.objects[name] = text
    writer.forget()
    expect(mirror.renew(), "", "after it was restored")
    mirror.need_same("what it has then")


@pytest.mark.parametrize("how", ["seen to go back", "its changes again", "a snapshot alone"])
def test_a_registry_that_was_restored_is_known_by_all_that_it_names(
    mirror: Followed, how: str
) -> None:
    """Where the version that was taken has a snapshot alone, or changes that are the same."""
    writer = mirror.writer
    for number in range(30, 34):
        writer.publish(add(number))
    expect(mirror.renew(), "", "the first time")
    for number in 32, 33:
        del writer.objects[named(route(number))[0]]
    writer.version, writer.deltas = 3, writer.deltas[:2]
    if how == "seen to go back":
        writer.notify()
        expect("it went back" in mirror.renew(), True, "the fault")
    writer.publish(add(42))
    writer.publish(add(33))
    if how != "its changes again":
        writer.forget()
    writer.publish(add(44))
    expect(mirror.renew(), "", "after it was restored")
    mirror.need_same("what it has then")
    expect(mirror.asked("snapshot"), 2, "how often a snapshot was taken")


def test_a_last_version_that_is_made_again_hides_that_an_earlier_one_is_another(
    mirror: Followed,
) -> None:
    """Where none before it is named: nothing tells that is published, as docs/VIEWS.md says."""
    writer, gone = mirror.writer, [("DEL", route(0))]
    writer.publish(add(20))
    version, deltas, objects = writer.version, list(writer.deltas), dict(writer.objects)
    writer.publish(add(21))
    writer.publish(gone)
    expect(mirror.renew(), "", "the first time")
    writer.version, writer.deltas, writer.objects = version, deltas, objects
    writer.publish(add(22))
    writer.publish(gone)
    writer.publish(add(23))
    writer.take_snapshot()
    del writer.deltas[:2]
    writer.notify()
    expect(mirror.renew(), "", "after it was restored")
    others = mirror.objects() ^ set(map(shaped, writer.objects.values()))
    expect(others, {shaped(route(21)), shaped(route(22))}, "what differs")


def test_a_state_that_is_removed_by_hand_is_taken_anew(mirror: Followed) -> None:
    """As the fault of a version that went back says."""
    expect(mirror.renew(), "", "the first time")
    mirror.writer.publish(add(30))
    expect(mirror.renew(), "", "a change")
    back(mirror)
    fault = mirror.renew()
    folder = fault.partition("and remove ")[2].partition(" if")[0]
    shutil.rmtree(folder)
    expect(mirror.renew(), "", "once it is removed")

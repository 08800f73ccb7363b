"""The files of who did what: on a disk that is full, by a clock that is wrong, and moved away by
others. No line that could be written is lost."""

import datetime
import os
import resource
import time
from collections.abc import Callable
from pathlib import Path
from types import SimpleNamespace
from typing import Any

import pytest

from checks.running import Trial, expect
from irr.door import journal, logs
from irr.door.logs import lines
from irr.door.settings import Settings
from irr.errors import Failure
from irr.registry.answers import Item

WHO = journal.Who("192.0.2.1", "", 1)
DAY = 86_400.0


class Kept:
    """A journal in a folder of its own, and what it has."""

    def __init__(self, trial: Trial, name: str, **given: Any) -> None:
        self.path = Path(trial.place(name), "items.log")
        self.journal = journal.Journal(Settings(log=str(self.path), **given))
        self.count = 0

    def write(self, count: int = 1) -> None:
        for _ in range(count):
            self.count += 1
            self.journal.item(WHO, Item(self.count, f"as-set AS-{self.count}", "added", ""), [])

    def numbers(self) -> list[int]:
        """The items of all lines that can be read."""
        return [entry["item"] for entry in journal.entries(lines(str(self.path)))]


@pytest.fixture
def clock(monkeypatch: pytest.MonkeyPatch) -> SimpleNamespace:
    """The clock of the journal, which is set, and one that is not."""
    now = SimpleNamespace(wall=time.time(), steady=1_000_000.0)

    class Dates(datetime.datetime):
        @classmethod
        def now(cls, tz: datetime.tzinfo | None = None) -> "Dates":
            return cls.fromtimestamp(now.wall, tz)

    clock = SimpleNamespace(time=lambda: now.wall, monotonic=lambda: now.steady)
    dates = SimpleNamespace(datetime=Dates, timezone=datetime.timezone)
    monkeypatch.setattr(journal, "time", clock)
    monkeypatch.setattr(journal, "datetime", dates)
    return now


def test_a_line_that_a_full_disk_cuts_spoils_no_other(
    trial: Trial, capfd: pytest.CaptureFixture[str]
) -> None:
    kept = Kept(trial, "full")
    kept.write(2)
    soft, hard = resource.getrlimit(resource.RLIMIT_FSIZE)
    # The third line does not go whole, and the fourth not at all.
    resource.setrlimit(resource.RLIMIT_FSIZE, (kept.path.stat().st_size + 40, hard))
    try:
        kept.write(2)
    finally:
        resource.setrlimit(resource.RLIMIT_FSIZE, (soft, hard))
    kept.write(2)
    expect(kept.numbers(), [1, 2, 5, 6], "the lines that can be read")
    expect(capfd.readouterr().err.count("who did what is not kept"), 2, "what is told")


def test_a_line_that_was_cut_when_the_door_ended_spoils_no_other(trial: Trial) -> None:
    kept = Kept(trial, "cut")
    kept.write(2)
    with open(kept.path, "r+b") as file:
        file.truncate(kept.path.stat().st_size - 30)
    kept.journal = journal.Journal(Settings(log=str(kept.path)))
    kept.write(2)
    expect(kept.numbers(), [1, 3, 4], "the lines that can be read")


def test_a_file_that_cannot_be_moved_goes_on(
    trial: Trial, monkeypatch: pytest.MonkeyPatch, capfd: pytest.CaptureFixture[str]
) -> None:
    def fail(*_: object) -> None:
        raise PermissionError(13, "Permission denied")

    kept = Kept(trial, "unmoved", log_size=4_096)
    with monkeypatch.context() as patch:
        patch.setattr(os, "rename", fail)
        kept.write(100)
    expect(kept.numbers(), list(range(1, 101)), "lines")
    notes = capfd.readouterr().err.count("no new file is begun")
    expect(1 <= notes <= 6, True, f"reported {notes} times")
    kept.write(60)
    expect(len(journal.files_of(kept.path)) > 1, True, "files once it can be moved")
    expect(kept.numbers(), list(range(1, 161)), "lines")


WAYS: dict[str, Callable[[Path], object]] = {
    "moved away": lambda path: path.rename(path.with_suffix(".moved")),
    "removed": Path.unlink,
}


@pytest.mark.parametrize("way", WAYS)
def test_lines_go_on_at_their_place_if_others_move_the_file(trial: Trial, way: str) -> None:
    kept = Kept(trial, way)
    kept.write(2)
    WAYS[way](kept.path)
    kept.write(2)
    expect(kept.numbers(), [3, 4], "the lines at its place")


def test_two_doors_that_write_at_once_lose_no_line(trial: Trial) -> None:
    """One follows the other, and each begins new files."""
    kept = Kept(trial, "two", log_size=4_096)
    other = journal.Journal(kept.journal.settings)
    for _ in range(100):
        kept.write()
        kept.journal, other = other, kept.journal
    expect(sorted(kept.numbers()), list(range(1, 101)), "lines")


def test_a_clock_that_was_ahead_costs_no_lines(trial: Trial, clock: SimpleNamespace) -> None:
    """Neither the files before it, nor those that are written once it is right again."""
    kept = Kept(trial, "ahead", log_size=4_096, log_files=6)
    kept.write(40)
    clock.wall += 4_000 * DAY
    kept.journal.look()
    kept.write(40)
    kept.journal.look()
    clock.wall -= 4_000 * DAY
    kept.journal.look()
    kept.write(40)
    expect(kept.numbers(), list(range(1, 121)), "lines in the order in which they were written")
    kept.write(200)
    found = kept.numbers()
    expect(found, list(range(found[0], 321)), "the last lines, once files are over their number")
    expect(len(journal.files_of(kept.path)) <= 8, True, "files")


def test_files_that_a_day_ended_are_kept_for_the_days(trial: Trial, clock: SimpleNamespace) -> None:
    kept = Kept(trial, "daily", log_files=3, log_days=100.0)
    for _ in range(40):
        kept.write()
        clock.wall, clock.steady = clock.wall + 1.1 * DAY, clock.steady + 1.1 * DAY
        kept.journal.look()
    expect(len(journal.files_of(kept.path)) > 30, True, "whether each day has a file")
    expect(kept.numbers(), list(range(1, 41)), "lines")


def test_lines_are_removed_in_time_though_nobody_submits(
    trial: Trial, clock: SimpleNamespace
) -> None:
    kept = Kept(trial, "idle", log_days=10.0)
    kept.write(3)
    os.utime(kept.path, (clock.wall, clock.wall))
    ages: list[float] = []
    for hour in range(14 * 24):
        clock.wall, clock.steady = clock.wall + 3_600, clock.steady + 3_600
        kept.journal.look()
        if not ages and not kept.numbers():
            ages.append(hour / 24)
    expect(bool(ages) and 9 < ages[0] < 12, True, f"gone after {ages} days, of 10")


def test_what_was_written_by_a_clock_that_was_ahead_is_removed_too(
    trial: Trial, clock: SimpleNamespace
) -> None:
    kept = Kept(trial, "later", log_days=10.0)
    kept.write(3)
    future = clock.wall + 4_000 * DAY
    os.utime(kept.path, (future, future))
    kept.journal.rotate(kept.path)
    kept.write()
    for _ in range(14 * 24):
        clock.wall, clock.steady = clock.wall + 3_600, clock.steady + 3_600
        kept.journal.look()
    expect(kept.numbers(), [], "lines after two weeks")


def test_the_log_that_is_read_is_that_of_the_settings(
    trial: Trial, monkeypatch: pytest.MonkeyPatch
) -> None:
    """Without a path: the file that door.toml names, or systemd's journal where it names none."""
    kept = Kept(trial, "named")
    kept.write(2)
    settings = kept.path.with_name("door.toml")
    monkeypatch.setattr(logs, "SETTINGS", str(settings))
    monkeypatch.setattr(logs, "lines_of_unit", lambda: iter([b"of the unit"]))
    for text, wanted in [
        (f'log = "{kept.path}"\n', kept.path.read_bytes().splitlines(keepends=True)),
        ('log = "-"\n', [b"of the unit"]),
        ("", [b"of the unit"]),
    ]:
        settings.write_text(text, "utf-8")
        expect(list(lines(None)), wanted, text)
    settings.unlink()
    expect(list(lines(None)), [b"of the unit"], "without settings")
    settings.write_text('log = "/nowhere/items.log"\n', "utf-8")
    with pytest.raises(Failure, match="there is no such file"):
        list(lines(None))

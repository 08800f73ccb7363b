"""What tells a file of a source from a later or an earlier one: by a server that gives its date
alone, and on a disk."""

import os
import time
from collections.abc import Iterator
from pathlib import Path
from typing import Any, BinaryIO

import pytest

from checks.running import expect
from checks.views.serving import Files
from irr.errors import Failure
from irr.views import downloads

IN_MEMORY = True
PATH = "/a.db"
LATE, EARLY = 1_700_000_000.0, 1_690_000_000.0


class Taken:
    """A file that is asked for again and again."""

    def __init__(self, place: str, part: Path) -> None:
        self.place, self.part, self.stamp = place, part, ""

    def again(self) -> bytes | None:
        """Its text; None where it is as it was."""
        try:
            self.stamp = downloads.taken(self.place, True, self.stamp, self.part)
        except downloads.Unchanged:
            return None
        return self.part.read_bytes()


@pytest.fixture
def files() -> Iterator[Files]:
    with Files() as found:
        yield found


def put(files: Files, text: bytes, date: float) -> None:
    files.texts[PATH], files.dates[PATH] = text, date


def test_an_older_dump_is_taken_from_a_server_that_tells_dates_alone(
    files: Files, tmp_path: Path
) -> None:
    """As of a registry that was restored: it is not newer than what was asked for, and another."""
    put(files, b"late", LATE)
    one = Taken(files.url + PATH, tmp_path / "part")
    expect((one.again(), one.again()), (b"late", None), "a dump, twice")
    put(files, b"early", EARLY)
    expect((one.again(), one.again()), (b"early", None), "an older one")
    put(files, b"longer, of that date", EARLY)
    expect(one.again(), b"longer, of that date", "one of the same date and another size")


def test_a_date_of_just_now_tells_nothing(files: Files, tmp_path: Path) -> None:
    """Another file may be put there within the same second (RFC 9110, 8.8.2.2)."""
    now = float(int(time.time()))
    put(files, b"one", now)
    one = Taken(files.url + PATH, tmp_path / "part")
    expect(one.again(), b"one", "the first")
    put(files, b"two", now)
    expect(one.again(), b"two", "another one")


def test_a_tag_is_asked_for_without_the_date(files: Files, tmp_path: Path) -> None:
    files.texts[PATH] = b"late"
    one = Taken(files.url + PATH, tmp_path / "part")
    expect((one.again(), one.again()), (b"late", None), "a dump, twice")
    expect([status for _, status in files.asked], [200, 304], "how it was answered")


def test_a_file_of_the_same_time_and_size_is_another(tmp_path: Path) -> None:
    """As of a copy that keeps times, put over the other one."""
    path = tmp_path / "a.db"
    path.write_bytes(b"late!")
    os.utime(path, (LATE, LATE))
    one = Taken(str(path), tmp_path / "part")
    expect((one.again(), one.again()), (b"late!", None), "a file, twice")
    time.sleep(0.02)
    with open(path, "r+b") as file:
        file.write(b"early")
    os.utime(path, (LATE, LATE))
    expect(one.again(), b"early", "another text")


def test_a_file_that_is_written_while_it_is_copied_is_not_taken(
    tmp_path: Path, monkeypatch: pytest.MonkeyPatch
) -> None:
    path, written = tmp_path / "a.db", downloads.written
    path.write_bytes(b"a" * 9)

    def half(source: BinaryIO, *more: Any) -> int:
        size = written(source, *more)
        path.write_bytes(b"b" * 9)
        return size

    monkeypatch.setattr(downloads, "written", half)
    with pytest.raises(Failure, match="it changed while it was read"):
        Taken(str(path), tmp_path / "part").again()
    monkeypatch.undo()
    expect(Taken(str(path), tmp_path / "part").again(), b"b" * 9, "the next time")

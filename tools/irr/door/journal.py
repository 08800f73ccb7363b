"""Who did what: one JSON line for each item that was submitted, and for each submission that the
registry did not get, on standard output or in a file that is kept within bounds.

It has the time, the client's address, the user that the proxy named, the connection, and what came
of it; of an item its number, its class and key, and the maintainers in its `mnt-by`; of a
submission how many items it had, where that is known. It never has a password, a text or a hash.
"""

import contextlib
import datetime
import errno
import json
import os
import sys
import time
from pathlib import Path
from typing import Any, BinaryIO, Iterator, NamedTuple, Optional

from irr.door.settings import Settings
from irr.registry import answers
from irr.terminal import texts

DAY = 86_400.0
# Seconds between two looks at how old the files are.
LOOKING = 3_600.0
# The most maintainers of an item that are named.
NAMED = 20


class Who(NamedTuple):
    """Who sends a submission: the client's address, the user that the proxy named, if any, and the
    connection."""

    client: str
    user: str
    connection: int

    @property
    def name(self) -> str:
        """Whose budget pays for it."""
        return f"user {self.user}" if self.user else self.client


class Journal:
    """Where the lines go."""

    def __init__(self, settings: Settings) -> None:
        self.settings = settings
        self.path = None if settings.log == "-" else Path(settings.log)
        self.file: Optional[BinaryIO] = None
        # The bytes of the file, and whether it ends within a line.
        self.size, self.is_cut = 0, False
        # When the days were looked at, and which files were too old then.
        self.looked, self.aged = -LOOKING, set[Path]()
        if self.path is not None:
            self.open(self.path)

    def open(self, path: Path) -> None:
        number = os.open(path, os.O_RDWR | os.O_APPEND | os.O_CREAT | os.O_CLOEXEC, 0o640)
        self.file = os.fdopen(number, "ab", 0)
        self.size = os.fstat(number).st_size
        self.is_cut = self.size > 0 and os.pread(number, 1, self.size - 1) != b"\n"

    def item(self, who: Who, item: answers.Item, maintainers: list[str]) -> None:
        """Has the line of an item that the registry decided."""
        kind, _, key = item.name.partition(" ")
        fields = {
            "item": item.number,
            "class": kind if key else None,
            "key": key or None,
            "mnt-by": maintainers[:NAMED],
            "outcome": item.code or item.word,
        }
        self.write(who, fields)

    def refused(self, who: Who, outcome: str, items: Optional[int], untold: int) -> None:
        """Has the line of a submission that the registry did not get, and of how many before it
        there is none."""
        self.write(who, {"items": items, "outcome": outcome, "untold": untold})

    def write(self, who: Who, fields: dict[str, Any]) -> None:
        entry = {
            "time": datetime.datetime.now(datetime.timezone.utc).isoformat(timespec="milliseconds"),
            "client": who.client,
            "user": who.user or None,
            "connection": who.connection,
            **fields,
        }
        line = json.dumps(entry).encode() + b"\n"
        try:
            if self.path is None:
                sys.stdout.buffer.write(line)
                sys.stdout.buffer.flush()
                return
            self.go_on(self.path)
            self.append(line)
        except OSError as error:
            self.complain(error, "who did what is not kept")

    def append(self, line: bytes) -> None:
        """Adds a line. Where the disk takes a part of it alone, the next one does not go on
        there."""
        assert self.file is not None
        line = b"\n" + line if self.is_cut else line
        written = self.file.write(line) or 0
        self.size += written
        if written:
            self.is_cut = written < len(line)
        if written < len(line):
            raise OSError(errno.ENOSPC, os.strerror(errno.ENOSPC))

    def complain(self, error: OSError, what: str) -> None:
        texts.note(
            f"irr door: {self.settings.log}: {texts.shown_line(str(error.strerror))}; {what}"
        )

    # Its files.

    def go_on(self, path: Path) -> None:
        """Begins a new file where this one is large, or others have moved it away."""
        if self.size >= self.settings.log_size:
            self.rotate(path)
        if self.file is None or not is_at(path, self.file):
            self.begin(path)

    def begin(self, path: Path) -> None:
        """Goes on in the file that is at its place."""
        if self.file is not None:
            self.file.close()
            self.file = None
        self.open(path)

    def rotate(self, path: Path) -> None:
        """Moves this file to those before it, and removes what is over their number; what a day
        began before it was full counts for its size. If that fails, this one goes on for as long
        again."""
        self.size = 0
        try:
            if self.file is not None and is_at(path, self.file):
                os.rename(path, path.with_name(f"{path.name}.{self.stamp(path)}"))
            room = self.settings.log_files * self.settings.log_size
            for one in reversed(files_of(path)[:-1]):
                room -= min(one.stat().st_size, self.settings.log_size)
                if room < 0:
                    one.unlink(missing_ok=True)
        except OSError as error:
            self.complain(error, "no new file is begun")

    def stamp(self, path: Path) -> str:
        """The time in the name of a file, later than those of all others, whatever the clock
        says."""
        now = datetime.datetime.now(datetime.timezone.utc).strftime("%Y%m%dT%H%M%S%f")
        old = files_of(path)[:-1]
        last = old[-1].suffix[1:] if old else ""
        if now > last:
            return now
        day, mark, rest = last.partition("T")
        return f"{day}T{int(rest) + 1:012}" if mark and rest.isdigit() else f"{last}0"

    def look(self) -> None:
        """Each hour: begins a new file where this one is a day old, and removes those that were too
        old at two looks, so that a clock which is ahead for a while removes none."""
        steady = time.monotonic()
        if self.path is None or steady - self.looked < LOOKING:
            return
        self.looked = steady
        try:
            if self.size and abs(time.time() - self.begun(self.path)) > DAY:
                self.rotate(self.path)
                self.go_on(self.path)
            self.age(self.path)
        except OSError as error:
            self.complain(error, "its age is not looked at")

    def age(self, path: Path) -> None:
        """Removes the files of which all lines are too old."""
        now, aged = time.time(), set[Path]()
        for one in files_of(path)[:-1]:
            changed = one.stat().st_mtime
            if changed > now + DAY:
                # It was written while the clock was ahead: nobody knows how old it is.
                os.utime(one)
            elif now - changed > self.settings.log_days * DAY:
                aged.add(one)
        for one in aged & self.aged:
            one.unlink(missing_ok=True)
        self.aged = aged

    def begun(self, path: Path) -> float:
        """When the first line of the file was written."""
        with open(path, "rb") as file:
            return time_of(entry_of(file.readline()) or {}) or time.time()


def is_at(path: Path, file: BinaryIO) -> bool:
    """Whether a file is the one at a place."""
    try:
        return os.path.samestat(os.stat(path), os.fstat(file.fileno()))
    except FileNotFoundError:
        return False


def files_of(path: Path) -> list[Path]:
    """The files of a journal, the oldest first, and the one that is written last."""
    old = sorted(one for one in path.parent.glob(f"{path.name}.*") if one.suffix[1:2].isdigit())
    return [*old, path]


def entry_of(line: bytes) -> Optional[dict[str, Any]]:
    """What a line says; None if it is none of the journal's."""
    with contextlib.suppress(ValueError):
        found = json.loads(line)
        if isinstance(found, dict) and "outcome" in found and ("item" in found or "items" in found):
            return found
    return None


def time_of(entry: dict[str, Any]) -> Optional[float]:
    """When an item was decided, in seconds since 1970."""
    with contextlib.suppress(ValueError):
        return datetime.datetime.fromisoformat(str(entry.get("time"))).timestamp()
    return None


def entries(lines: Iterator[bytes]) -> Iterator[dict[str, Any]]:
    """The entries of some lines, others left out."""
    for line in lines:
        entry = entry_of(line)
        if entry is not None:
            yield entry

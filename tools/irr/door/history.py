"""What an object was: the states of it that the history of `irr history` has, and what differs
between two of them. Git finds it, beside all else that the door does, and not for long."""

import asyncio
import contextlib
import os
import re
import shutil
import signal
from pathlib import Path
from typing import Any, Optional

from irr.errors import Failure
from irr.local.history import Repository, environment, log_of, path_of, read_log, shown_time
from irr.local.serials import Serials
from irr.rpsl import keys
from irr.rpsl.keys import CLASSES, Key
from irr.terminal.texts import text_of

# Seconds that git has, the bytes that it may print, and how many states are told: the last ones.
LASTS, MOST_BYTES, MOST_STATES = 10.0, 1 << 22, 1_000
COMMIT = re.compile("[0-9a-f]{40}")
# The commit before the first one: git knows the tree of no file by this name.
NOTHING = "4b825dc642cb6eb9a060e54bf8d69288fbee4904"
NO_KEY = "write /history/CLASS/KEY, as /history/route/192.0.2.0%2F24%20AS64496"


class BadKey(Exception):
    """A path that names no object or no state."""


class Hung(Exception):
    """Git has not answered in time."""


class Long(Exception):
    """Git has more to say than it may."""


class History:
    """The history in a folder."""

    def __init__(self, folder: Path) -> None:
        self.repository, self.serials = Repository(folder), Serials(folder)
        # The serials of commits, by the files that have them.
        self.seen: dict[int, str] = {}

    @property
    def is_there(self) -> bool:
        return self.repository.looked.exists() and shutil.which("git") is not None

    def read(self, rest: str, before: str, after: str) -> tuple[Key, tuple[str, ...]]:
        """The key that a path names, and the two states that are compared, if there are some."""
        kind, _, text = rest.partition("/")
        words = text.split() if kind == "route" else [text]
        key = keys.read_key(kind, *words) if kind in CLASSES and 0 < len(words) < 3 else None
        if key is None:
            raise BadKey(NO_KEY)
        if not before and not after:
            return key, ()
        if not COMMIT.fullmatch(after) or before and not COMMIT.fullmatch(before):
            raise BadKey("a state is named as its list does it, by 40 digits")
        return key, (before or NOTHING, after)

    async def found(self, key: Key, before: str = "", after: str = "") -> dict[str, Any]:
        """The states of an object, or what differs between two of them."""
        return await (self.diff(key, before, after) if after else self.states(key))

    async def states(self, key: Key) -> dict[str, Any]:
        """What happened to an object, the last of it first."""
        out = await self.git(*log_of(key, f"--max-count={MOST_STATES + 1}"))
        loop = asyncio.get_running_loop()
        serials = await loop.run_in_executor(None, self.serials_of_commits)
        found = [
            {
                "state": one.commit,
                "time": shown_time(one.time),
                "word": one.word,
                "serial": serials.get(one.commit),
            }
            for one in read_log(out)
        ]
        return {
            "class": key.kind,
            "key": key.text,
            "looked": self.looked(),
            "states": found[:MOST_STATES],
            "more": len(found) > MOST_STATES,
        }

    def looked(self) -> Optional[str]:
        """When the dump was last fetched."""
        try:
            return shown_time(self.repository.looked.stat().st_mtime)
        except OSError:
            return None

    def serials_of_commits(self) -> dict[str, int]:
        """The last serial of each commit that has some."""
        before, found = self.seen, dict[int, str]()
        for last in self.serials.kept():
            # One that is no longer kept, or can't be read, is none.
            with contextlib.suppress(OSError, Failure):
                found[last] = before.get(last) or self.serials.at(last).commit
        self.seen = found
        return {commit: last for last, commit in found.items()}

    async def diff(self, key: Key, before: str, after: str) -> dict[str, Any]:
        """The lines of two states of an object: those of both, those that went and that came."""
        out = await self.git(
            *("diff", "--no-color", "--no-ext-diff", "--no-textconv", "--no-renames", "--text"),
            *(f"--unified={MOST_BYTES}", before, after, "--", path_of(key)),
        )
        _, _, body = out.partition(b"\n@@ ")
        lines = body.split(b"\n")[1:]
        return {
            "class": key.kind,
            "key": key.text,
            "from": None if before == NOTHING else before,
            "to": after,
            "lines": [
                [text_of(line[:1]), text_of(line[1:])]
                for line in lines
                if line[:1] in (b" ", b"+", b"-")
            ],
        }

    async def git(self, *words: str) -> bytes:
        """What a command of git prints, in time; it ends with the one who waits for it."""
        try:
            process = await asyncio.create_subprocess_exec(
                *self.repository.command(*words),
                stdin=asyncio.subprocess.DEVNULL,
                stdout=asyncio.subprocess.PIPE,
                stderr=asyncio.subprocess.DEVNULL,
                env=environment(),
                start_new_session=True,
            )
        except OSError:
            raise Failure("git", "the door can't run git") from None
        assert process.stdout is not None
        parts, size = [], 0
        try:
            async with asyncio.timeout(LASTS):
                while part := await process.stdout.read(1 << 16):
                    parts.append(part)
                    size += len(part)
                    if size > MOST_BYTES:
                        raise Long
                status = await process.wait()
        except TimeoutError:
            raise Hung from None
        finally:
            if process.returncode is None:
                # With what it has started.
                with contextlib.suppress(ProcessLookupError):
                    os.killpg(process.pid, signal.SIGKILL)
                await process.wait()
        if status:
            raise Failure("git", "the history does not have it, or can't be read")
        return b"".join(parts)

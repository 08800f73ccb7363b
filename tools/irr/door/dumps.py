"""The public dump, which is handed out of files: how many of these there are at once, and who waits
for the next one.

A dump is made anew with each state, and a file stays as long as somebody takes it. So there are few
of them, and who takes one more slowly than is asked of him makes room for those who wait.
"""

import asyncio
import time
import weakref
from collections import deque
from typing import Callable

from irr.door.budget import Client
from irr.door.listener import Door
from irr.door.pool import BUSY, DUMP, WAITING, Refused, awaited
from irr.door.responses import Dump

# The files that there are at most, while nobody asks for others.
MOST = 4
# Seconds between two looks at who is slow, while somebody waits.
LOOKING = 1.0
REQUEST = b"GET /dump HTTP/1.1\r\nHost: 127.0.0.1\r\nConnection: close\r\n\r\n"


class Dumps:
    """The files of dumps, and those who wait for one."""

    def __init__(self, door: Door, drop_slow: Callable[[], None]) -> None:
        self.door, self.drop_slow = door, drop_slow
        self.files: "weakref.WeakSet[Dump]" = weakref.WeakSet()
        self.waiting: deque[asyncio.Future[None]] = deque()

    async def get(self, client: Client) -> Dump:
        """The dump of this state; Refused if there is none."""
        end, pool = time.monotonic() + WAITING, self.door.pool
        while True:
            found = self.door.dump()
            if found is not None:
                return found
            if len(self.files) < MOST:
                break
            await self.room(end)
        state = pool.cache.state
        dump = await awaited(lambda answered: pool.ask(client, b"/dump", REQUEST, DUMP, answered))
        assert isinstance(dump, Dump)
        if dump not in self.files:
            self.files.add(dump)
            weakref.finalize(dump, self.freed)
        self.door.keep_dump(dump, state)
        return dump

    async def room(self, end: float) -> None:
        """Waits until there is one file less, in turn."""
        future = self.door.loop.create_future()
        self.waiting.append(future)
        try:
            while not future.done():
                if time.monotonic() > end:
                    raise Refused("busy", BUSY, 10)
                self.drop_slow()
                await asyncio.wait([future], timeout=LOOKING)
        finally:
            if future in self.waiting:
                self.waiting.remove(future)

    def freed(self) -> None:
        """Lets the first one go on who waits."""
        while self.waiting:
            future = self.waiting.popleft()
            if not future.done():
                future.set_result(None)
                return

"""Long work of the door itself. It is done in pieces, one in a turn of the loop, however many
clients ask for it: so all others are heard between two of them."""

import asyncio
from collections import deque

from irr.door.budget import Client, Clients


class Scheduler:
    """Who waits to go on with long work: of these the one who has most left of his budget."""

    def __init__(self, loop: asyncio.AbstractEventLoop, clients: Clients) -> None:
        self.loop, self.clients = loop, clients
        self.queues: dict[Client, deque[asyncio.Future[None]]] = {}

    async def turn(self, client: Client, goes_on: bool = False) -> None:
        """Waits until a client has its turn. What goes on is before what the client has not begun:
        of all that it asks for, little is half made."""
        future = self.loop.create_future()
        if not self.queues:
            self.loop.call_soon(self.wake)
        queue = self.queues.setdefault(client, deque())
        queue.insert(0 if goes_on else len(queue), future)
        await future

    def wake(self) -> None:
        """Lets one of those go on who still wait."""
        now = self.loop.time()
        while self.queues:
            client = max(self.queues, key=lambda one: self.clients.left(one, now))
            queue = self.queues.pop(client)
            future = queue.popleft()
            if queue:
                # Among equals it goes round.
                self.queues[client] = queue
            if not future.done():
                future.set_result(None)
                break
        if self.queues:
            self.loop.call_soon(self.wake)

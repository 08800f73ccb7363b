"""The sockets of the door that wait for something. The event loop looks at them with those of its
own, in one call, and each has at once what it waits for.

A handle of the loop for each of them, or a transport of asyncio, would cost more than all else
that a cheap query takes.
"""

import asyncio
import importlib
import select
import selectors
from typing import Any, Callable, Mapping, Optional

# That something came, that there is room, that the other side has ended, and that it failed.
IN, OUT, END, FAULT = select.EPOLLIN, select.EPOLLOUT, select.EPOLLRDHUP, select.EPOLLERR
# What is done once a socket is ready; it gets what the socket is ready for.
Ready = Callable[[int], None]
Keys = list[tuple[selectors.SelectorKey, int]]


class Watch(selectors.BaseSelector):
    """The sockets that are watched, each for what comes, or for room to send: the selector of a
    loop of asyncio, whose own descriptors stand in one of theirs. A loop that takes no selector
    reads it as one more descriptor."""

    def __init__(self) -> None:
        self.epoll, self.own = select.epoll(), selectors.EpollSelector()
        self.ready: dict[int, Ready] = {}
        # The numbers of those that were left out since the last look: others may have them by now.
        self.gone: set[int] = set()
        self.epoll.register(self.own.fileno(), IN)
        self.loop = self.new_loop()

    def new_loop(self) -> asyncio.AbstractEventLoop:
        """The event loop: uvloop's where it is installed."""
        try:
            made: asyncio.AbstractEventLoop = importlib.import_module("uvloop").new_event_loop()
            made.add_reader(self.epoll.fileno(), self.select, 0)
            return made
        except ImportError:
            return asyncio.SelectorEventLoop(self)

    # The sockets of the door.

    def add(self, number: int, events: int, ready: Ready) -> None:
        """Watches the socket of a number."""
        self.epoll.register(number, events)
        self.ready[number] = ready

    def change(self, number: int, events: int) -> None:
        self.epoll.modify(number, events)

    def remove(self, number: int) -> None:
        """Leaves out a socket that stays open, here or elsewhere."""
        self.epoll.unregister(number)
        self.forget(number)

    def forget(self, number: int) -> None:
        """Leaves out a socket that is about to be closed: the kernel then does so by itself."""
        self.ready.pop(number, None)
        self.gone.add(number)

    # What a loop asks of its selector.

    def select(self, timeout: Optional[float] = None) -> Keys:
        """Has done what can be."""
        found: Keys = []
        self.gone.clear()
        for number, events in self.epoll.poll(timeout):
            if number in self.gone:
                continue
            ready = self.ready.get(number)
            if ready is None:
                found = found or self.own.select(0)
                continue
            try:
                ready(events)
            except Exception as error:
                words = {"message": "a socket of the door", "exception": error}
                self.loop.call_exception_handler(words)
        return found

    def register(self, fileobj: Any, events: int, data: Any = None) -> selectors.SelectorKey:
        return self.own.register(fileobj, events, data)

    def unregister(self, fileobj: Any) -> selectors.SelectorKey:
        return self.own.unregister(fileobj)

    def modify(self, fileobj: Any, events: int, data: Any = None) -> selectors.SelectorKey:
        return self.own.modify(fileobj, events, data)

    def get_map(self) -> Mapping[Any, selectors.SelectorKey]:
        return self.own.get_map()

    def close(self) -> None:
        self.own.close()
        self.epoll.close()

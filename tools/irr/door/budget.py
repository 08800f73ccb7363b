"""What each client may use of the registry's time, and whose turn it is.

A client is an IPv4 address, or the /56 of an IPv6 one. Its budget is in seconds as they were
measured: it refills with time up to a burst, and each answer takes from it what it cost. Nobody
pays for what others asked, and what costs nothing takes nothing.
"""

import ipaddress
from collections import OrderedDict
from typing import Generic, Iterator, Optional, TypeVar

from irr.door.settings import plain

# How many clients are remembered at least, and of how many that wait the one that has used least is
# looked for.
REMEMBERED, COMPARED = 4_096, 64


class Client:
    """A client: what it has left, how many connections it has, and how many cheap answers it had
    since it last surprised by a dear one."""

    __slots__ = ("name", "left", "at", "connections", "cheap")

    def __init__(self, name: str, burst: float, now: float) -> None:
        self.name, self.left, self.at, self.connections, self.cheap = name, burst, now, 0, 0


class Clients:
    """The clients that were seen of late, and their budgets."""

    def __init__(self, refill: float, burst: float) -> None:
        self.refill, self.burst = refill, burst
        self.known: OrderedDict[str, Client] = OrderedDict()

    def of(self, name: str, now: float) -> Client:
        client = self.known.get(name)
        if client is None:
            if len(self.known) >= REMEMBERED:
                self.forget(now)
            client = self.known[name] = Client(name, self.burst, now)
        return client

    def forget(self, now: float) -> None:
        """Forgets those of whom nothing is to be remembered: no connection, and a budget that is
        full again."""
        for name, client in list(self.known.items()):
            if not client.connections and self.left(client, now) >= self.burst:
                del self.known[name]

    def left(self, client: Client, now: float) -> float:
        """The seconds that a client may use now; less than none if its last answer cost more than
        it had."""
        if now > client.at:
            if client.left < self.burst:
                client.left = min(self.burst, client.left + (now - client.at) * self.refill)
            client.at = now
        return client.left

    def charge(self, client: Client, seconds: float, now: float) -> None:
        client.left = self.left(client, now) - seconds

    def wait(self, client: Client, now: float) -> float:
        """The seconds until it may use any."""
        return max(0.0, -self.left(client, now) / self.refill)


class Turn:
    """What waits for its turn: whose it is."""

    __slots__ = ("client",)

    def __init__(self, client: Client) -> None:
        self.client = client


One = TypeVar("One", bound=Turn)


class Turns(Generic[One]):
    """One queue a client, and the clients in a ring. Of those within their budgets the turn is of
    the one who has most left; among equals it goes round."""

    def __init__(self, clients: Clients) -> None:
        self.clients = clients
        self.queues: OrderedDict[str, list[One]] = OrderedDict()
        self.count = 0

    def add(self, one: One) -> None:
        self.queues.setdefault(one.client.name, []).append(one)
        self.count += 1

    def again(self, one: One) -> None:
        """Adds one that goes on: before the others of its client."""
        self.queues.setdefault(one.client.name, []).insert(0, one)
        self.count += 1

    def remove(self, one: One) -> bool:
        """Takes one out. Whether it was there."""
        queue = self.queues.get(one.client.name, [])
        if one not in queue:
            return False
        queue.remove(one)
        self.count -= 1
        if not queue:
            del self.queues[one.client.name]
        return True

    def waiting(self, client: Client) -> int:
        return len(self.queues.get(client.name, ()))

    def all(self) -> Iterator[One]:
        for queue in list(self.queues.values()):
            yield from list(queue)

    def next(self, now: float, is_dear: Optional[bool] = None) -> Optional[One]:
        """Takes out whose turn it is; None if nobody's. `is_dear` False takes what is cheap
        alone."""
        best: Optional[One] = None
        most = 0.0
        compared = 0
        for queue in self.queues.values():
            first = queue[0]
            left = self.clients.left(first.client, now)
            if left > most:
                found = self.admissible(queue, is_dear)
                if found is not None:
                    best, most = found, left
            compared += 1
            if compared >= COMPARED and best is not None:
                break
        if best is None:
            return None
        self.remove(best)
        if best.client.name in self.queues:
            self.queues.move_to_end(best.client.name)
        return best

    def admissible(self, queue: list[One], is_dear: Optional[bool]) -> Optional[One]:
        """The first of a queue that may be begun now."""
        if is_dear is None:
            return queue[0]
        for one in queue[:COMPARED]:
            if getattr(one, "is_dear", False) is is_dear:
                return one
        return None

    def soonest(self, now: float) -> Optional[float]:
        """The seconds until the first of those who wait for their budgets may go on."""
        waits = [self.clients.wait(queue[0].client, now) for queue in self.queues.values()]
        return min(waits, default=None)


def client_name(address: str) -> str:
    """Whose an address is: itself, or the /56 of one of version 6."""
    address = plain(address)
    if ":" not in address:
        return address
    try:
        found = ipaddress.IPv6Address(address.partition("%")[0])
    except ValueError:
        return address
    return str(ipaddress.IPv6Network((found, 56), strict=False))

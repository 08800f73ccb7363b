"""How a set reaches a prefix: the chains of references from the set to a route around the prefix,
or to a range that a route-set lists (RFC 2622, 5).

It is found in steps: each is a query, whose objects are sent back, or a pause, so that who serves
others can let them go first, and end what takes too long."""

import heapq
from collections import deque
from collections.abc import Callable, Collection, Generator, Iterator
from typing import Any, NamedTuple, Optional, Protocol, TypeVar, Union

from irr.errors import REFUSED, Failure
from irr.registry import answers
from irr.rpsl import holders, keys
from irr.rpsl.keys import Prefix, Range
from irr.rpsl.syntax import Paragraph

# The most objects that are asked for, references of these, and parts of chains that are looked at.
MOST_ASKED, MOST_LINKS, MOST_PARTS = 5_000, 200_000, 20_000
# So many chains are told, and so much of what is near.
MOST_CHAINS, MOST_NEAR = 10, 10
ANY, EVERYWHERE = ("AS-ANY", "RS-ANY"), keys.Span(0, keys.TOP)
# How many items of a set are looked at between two pauses.
BETWEEN = 200
# What is reached: a set by its name, or an AS by its number.
Node = Union[str, int]
Found = TypeVar("Found")
# What is found in steps.
Steps = Generator[Optional[str], list[Paragraph], Found]


class NotRegistered(Failure):
    """The set that is asked about is not registered."""

    def __init__(self, name: str) -> None:
        words = "the set is not registered; correct the name, or register it"
        super().__init__(name, words, REFUSED)


class Registry(Protocol):
    """What is asked: a served registry."""

    url: str

    def query(self, *words: str) -> answers.Answer:
        ...

    def query_surely(self, *words: str) -> answers.Answer:
        ...


class Wanted(NamedTuple):
    """What a range has to be, so that what operators make of it takes a length: its least length is
    at most this, and, where they leave the range as it is, its greatest one is no smaller."""

    length: int
    is_exact: bool

    def takes(self, low: int, high: int) -> bool:
        return low <= self.length and (not self.is_exact or self.length <= high)

    def before(self, operator: str) -> "Wanted | None":
        """What a range has to be for an operator to make of it what is wanted; None where none
        is."""
        if not operator:
            return self
        if operator == "^+":
            return Wanted(self.length, False)
        if operator == "^-":
            return Wanted(self.length - 1, False) if self.length else None
        least, most = lengths_of(operator)
        if self.length < least or self.is_exact and self.length > most:
            return None
        return Wanted(min(self.length, most), False)


class Leaf(NamedTuple):
    """Where a chain ends: a route, or a range that a route-set lists."""

    range: Range
    route: Paragraph | None


class Link(NamedTuple):
    """A reference of an object: what it leads to, by which operator, and what it says."""

    target: Node | Leaf
    operator: str
    says: str


class Step(NamedTuple):
    """An object of a chain: its class and key, its maintainers, or None where it is not registered,
    what it says of the next one, the range that comes of it, and in a view the source that it is
    of. Nothing is left of None."""

    name: str
    maintainers: list[str] | None
    says: str
    range: Range | None
    source: str

    def range_text(self) -> str:
        return self.range.text() if self.range else "nothing"


class Chains(NamedTuple):
    """The first chains, how many others were seen, and whether there may be still others."""

    first: list[list[Step]]
    more: int
    is_cut: bool


class Near(NamedTuple):
    """What is not in a set, and nearly is: an object with its maintainers, or None where it is not
    registered, why it does not count, and in a view the source that it is of."""

    name: str
    maintainers: list[str] | None
    why: str
    source: str = ""


State = tuple[Node, Wanted]


def lengths_of(operator: str) -> tuple[int, int]:
    """The least and the greatest length of an operator that names them."""
    least, _, most = operator[1:].partition("-")
    return int(least), int(most or least)


def applied(operator: str, low: int, high: int) -> tuple[int, int] | None:
    """What an operator makes of a least and a greatest length (RFC 2622, 2); None where nothing is
    left."""
    if not operator:
        return low, high
    if operator in ("^+", "^-"):
        low, high = low + (operator == "^-"), 32
    else:
        least, high = lengths_of(operator)
        low = max(low, least)
    return (low, high) if low <= high else None


def finished(steps: Steps[Found], ask: Callable[[str], list[Paragraph]]) -> Found:
    """What steps come to, one after the other."""
    try:
        query = next(steps)
        while True:
            query = steps.send(ask(query) if query else [])
    except StopIteration as end:
        found: Found = end.value
        return found


class Reached:
    """The objects that a set, or an AS, reaches on the way to a prefix, each asked for once."""

    def __init__(self, prefix: Prefix, start: Node, sources: Collection[str] = ()) -> None:
        self.prefix, self.start, self.asked = prefix, start, 0
        # Those of a view, where they are known; whether it is known to be one by its objects.
        self.sources, self.is_view = sources, False
        self.known: dict[str, Paragraph | None] = {}
        self.routes: list[Paragraph] = []
        # The routes by their origins.
        self.origins: dict[int, list[Paragraph]] = {}
        self.links: dict[Node, list[Link]] = {}
        # Each set that is not registered, and who lists it first.
        self.missing: dict[str, Node] = {}
        self.refused: list[Near] = []

    @property
    def around(self) -> str:
        """The query for what is around the prefix."""
        return f"less {self.prefix.text()}"

    def gather(self) -> Steps[None]:
        """Asks for all that is reached."""
        for one in (yield self.around):
            if is_everywhere(one):
                self.is_view = yield from self.says_so(one)
            if one.name == b"route":
                self.routes.append(one)
                self.origins.setdefault(origin_of(one), []).append(one)
        waiting: deque[Node] = deque([self.start])
        self.links[self.start], count = [], 0
        if isinstance(self.start, str) and not (yield from self.is_registered(self.start)):
            raise NotRegistered(self.start)
        while waiting:
            node = waiting.popleft()
            links = yield from self.links_of(node)
            self.links[node] = list(dict.fromkeys(links))
            count += len(self.links[node])
            if count > MOST_LINKS:
                raise self.too_much(f"{MOST_LINKS:,} references")
            for link in self.links[node]:
                target = link.target
                if isinstance(target, Leaf) or target in self.links or target in self.missing:
                    continue
                if isinstance(target, str) and not (yield from self.is_registered(target)):
                    self.missing[target] = node
                    continue
                self.links[target] = []
                waiting.append(target)
            yield None

    # Objects.

    def is_registered(self, name: str) -> Steps[bool]:
        return name in ANY or (yield from self.object(query_of(name))) is not None

    def object(self, query: str) -> Steps[Paragraph | None]:
        """The one object that a query asks for."""
        if query not in self.known:
            self.asked += 1
            if self.asked > MOST_ASKED:
                raise self.too_much(f"{MOST_ASKED:,} objects")
            found = yield query
            self.known[query] = found[0] if found else None
        return self.known[query]

    def says_so(self, everywhere: Paragraph) -> Steps[bool]:
        """Whether what is asked is a view, as the inetnum of all addresses has it: it is the view's
        own, or names its source where the view's own root is registered."""
        if holders.by(everywhere) == [holders.VIEW_ROOT]:
            return True
        root = f"object mntner {holders.VIEW_ROOT}"
        return bool(source_in(everywhere)) and (yield from self.object(root)) is not None

    def too_much(self, what: str) -> Failure:
        words = f"over {what} are on the way; ask of a set that it lists"
        return Failure(name_of(self.start), words, REFUSED)

    # References.

    def links_of(self, node: Node) -> Steps[list[Link]]:
        """What an object refers to, of all that may lead to the prefix."""
        if isinstance(node, int):
            yield from self.object(query_of(node))
            return [Link(leaf_of(route), "", "origin") for route in self.origins.get(node, [])]
        if node == "RS-ANY":
            return [Link(leaf_of(route), "", "every route") for route in self.routes]
        links: list[Link] = []
        if node == "AS-ANY":
            for number in sorted(self.origins):
                if (yield from self.object(query_of(number))):
                    links.append(Link(number, "", "every aut-num"))
        elif found := self.known[query_of(node)]:
            yield from self.add_listed(links, found)
            yield from self.add_by_reference(links, node, found)
        return links

    def add_listed(self, links: list[Link], found: Paragraph) -> Steps[None]:
        """Adds the members that a set lists."""
        for count, item in enumerate(map(keys.as_text, found.items(b"members")), 1):
            if count % BETWEEN == 0:
                yield None
            front, hat, rest = item.partition("^")
            number, name, own = keys.read_as(front), keys.read_set(front), keys.read_range(item)
            says = f"members: {item}"
            if own:
                if not own.prefix.span().covers(self.prefix.span()):
                    continue
                if own.low <= own.high:
                    links.append(Link(Leaf(own, None), "", says))
                else:
                    self.refused.append(self.as_near(found, f"its `{says}` stands for nothing"))
            elif number is not None:
                if number in self.origins:
                    links.append(Link(number, hat + rest, says))
            elif name:
                links.append(Link(name, hat + rest, says))

    def add_by_reference(self, links: list[Link], name: str, found: Paragraph) -> Steps[None]:
        """Adds the routes, and for an as-set the AS numbers, that are in a set by reference."""
        takers = holders.names(found, "mbrs-by-ref")
        if not takers:
            return
        members: list[tuple[Paragraph, Node | Leaf]] = []
        if keys.set_class(name) == "as-set":
            for number in sorted(self.origins):
                if one := (yield from self.object(query_of(number))):
                    members.append((one, number))
        members += [(route, leaf_of(route)) for route in self.routes]
        for one, target in members:
            yield None
            if name not in map(keys.read_set, one.items(b"member-of")):
                continue
            fitting = [taker for taker in takers if taker in ("ANY", *holders.by(one))]
            if fitting:
                links.append(Link(target, "", f"mbrs-by-ref: {fitting[0]}, and member-of names it"))
            else:
                why = f"its member-of names {name}, whose mbrs-by-ref has none of its mnt-by"
                self.refused.append(self.as_near(one, why))

    # Chains.

    def chaining(self, most: int) -> Steps[Chains]:
        """The first chains by which the prefix is reached, the shortest first. There is one exactly
        where the prefix is in the set: the first one is looked for whatever that takes."""
        start: State = self.start, Wanted(self.prefix.length, True)
        left = yield from self.distances(start)
        found: list[list[Step]] = []
        more = parts = 0
        # By the length of the shortest whole chain that a part begins, longer parts first.
        waiting: list[tuple[int, int, int, list[State], list[Link]]] = []
        if start in left:
            waiting.append((left[start], 0, 0, [start], []))
        while waiting and (parts < MOST_PARTS or not found):
            _, _, _, states, links = heapq.heappop(waiting)
            for link, wanted in self.onward(states[-1]):
                yield None
                parts += 1
                new = [*links, link]
                if isinstance(link.target, Leaf):
                    nodes = [node for node, _ in states]
                    if not self.is_needed(nodes, new):
                        continue
                    if len(found) < most:
                        found.append((yield from self.steps(nodes, new, link.target)))
                    else:
                        more += 1
                    continue
                state = link.target, wanted
                if state in left and state not in states:
                    length = len(new) + left[state]
                    heapq.heappush(waiting, (length, -len(new), parts, [*states, state], new))
        return Chains(found, more, bool(waiting))

    def onward(self, state: State) -> Iterator[tuple[Link, Wanted]]:
        """The references that may lead to the prefix, and what is wanted beyond each."""
        node, wanted = state
        for link in self.links.get(node, []):
            beyond = wanted.before(link.operator)
            if beyond is None:
                continue
            if isinstance(link.target, Leaf):
                if beyond.takes(link.target.range.low, link.target.range.high):
                    yield link, beyond
            elif link.target in self.links:
                yield link, beyond

    def distances(self, start: State) -> Steps[dict[State, int]]:
        """What leads to the prefix, of all that is reached with what is wanted there, and by how
        many references at least."""
        back: dict[State, list[State]] = {start: []}
        ends: dict[State, int] = {}
        waiting = [start]
        while waiting:
            state = waiting.pop()
            yield None
            for link, wanted in self.onward(state):
                if isinstance(link.target, Leaf):
                    ends[state] = 1
                    continue
                beyond = link.target, wanted
                if beyond not in back:
                    back[beyond] = []
                    waiting.append(beyond)
                back[beyond].append(state)
        near = deque(ends)
        while near:
            state = near.popleft()
            yield None
            for before in back[state]:
                if before not in ends:
                    ends[before] = ends[state] + 1
                    near.append(before)
        return ends

    def is_needed(self, nodes: list[Node], links: list[Link]) -> bool:
        """Whether a chain reaches nothing twice, but where it would not lead to the prefix
        without."""
        places: dict[Node, list[int]] = {}
        for place, node in enumerate(nodes):
            for first in places.setdefault(node, []):
                if self.leads(links[:first] + links[place:]):
                    return False
            places[node].append(place)
        return True

    def leads(self, links: list[Link]) -> bool:
        """Whether references lead to the prefix through their operators."""
        wanted: Wanted | None = Wanted(self.prefix.length, True)
        for link in links:
            wanted = wanted.before(link.operator) if wanted else None
        leaf = links[-1].target
        return (
            wanted is not None
            and isinstance(leaf, Leaf)
            and wanted.takes(leaf.range.low, leaf.range.high)
        )

    def steps(self, nodes: list[Node], links: list[Link], leaf: Leaf) -> Steps[list[Step]]:
        """A chain as its objects, with the range that each has of what follows."""
        found: list[Step] = []
        if leaf.route:
            by = holders.by(leaf.route)
            source = self.source_of(leaf.route)
            found.append(Step(object_name(leaf.route), by, "", leaf.range, source))
        held: tuple[int, int] | None = leaf.range.low, leaf.range.high
        for node, link in zip(reversed(nodes), reversed(links)):
            held = applied(link.operator, *held) if held else None
            own = Range(leaf.range.prefix, *held) if held else None
            there = self.there(node)
            source = self.source_of(there) if there else ""
            found.append(Step(name_of(node), self.maintainers(node), link.says, own, source))
            yield None
        return found[::-1]

    def as_near(self, found: Paragraph, why: str) -> Near:
        return Near(object_name(found), holders.by(found), why, self.source_of(found))

    def source_of(self, found: Paragraph) -> str:
        """The source that an object of a view is of; nothing elsewhere, where anybody may write
        such a comment."""
        name = source_in(found)
        return name if self.is_view or name in self.sources else ""

    def there(self, node: Node) -> Paragraph | None:
        """The object that is reached; None where it is not registered, or never is."""
        return None if node in ANY else self.known[query_of(node)]

    def maintainers(self, node: Node) -> list[str] | None:
        """Who may change what is reached; nobody the sets that are never registered."""
        found = self.there(node)
        return [] if node in ANY else holders.by(found) if found else None

    # What is near.

    def nearing(self) -> Steps[list[Step]]:
        """The shortest chain to the longest prefix around the prefix that is in the set by another
        length, or where there is none, to one of which operators leave nothing; nothing where there
        is none of these either."""
        return (yield from self.way(True)) or (yield from self.way(False))

    def way(self, stands: bool) -> Steps[list[Step]]:
        """The shortest chain to the longest prefix around the prefix of all, or of those of which
        something is left."""
        # Any range that is left has some least length.
        start: State = self.start, Wanted(32, False)
        back: dict[State, tuple[State, Link] | None] = {start: None}
        waiting = deque([start])
        best: tuple[Leaf, State, Link] | None = None
        while waiting:
            state = waiting.popleft()
            yield None
            for link, wanted in self.onward(state) if stands else self.all_onward(state):
                target = link.target
                if isinstance(target, Leaf):
                    if not best or target.range.prefix.length > best[0].range.prefix.length:
                        best = target, state, link
                elif (target, wanted) not in back:
                    back[target, wanted] = state, link
                    waiting.append((target, wanted))
        if not best:
            return []
        leaf, state, link = best
        nodes, links = [state[0]], [link]
        while before := back[state]:
            state, link = before
            nodes.insert(0, state[0])
            links.insert(0, link)
        return (yield from self.steps(nodes, links, leaf))

    def all_onward(self, state: State) -> Iterator[tuple[Link, Wanted]]:
        """The references of what is reached, whatever their operators leave."""
        node, wanted = state
        for link in self.links.get(node, []):
            if isinstance(link.target, Leaf) or link.target in self.links:
                yield link, wanted

    def nearly(self) -> Steps[list[Near]]:
        """What is not in the set and nearly is: routes around the prefix whose origin is not
        reached, the longest first, members by reference that are not taken, ranges that stand for
        nothing, and sets that are not registered."""
        reached = {link.target for links in self.links.values() for link in links}
        found: list[Near] = []
        for route in sorted(self.routes, key=lambda one: -leaf_of(one).range.prefix.length):
            yield None
            if leaf_of(route) not in reached:
                found.append(self.as_near(route, "its origin is not in the set"))
        found += self.refused
        found += [
            Near(name_of(name), None, f"{name_of(lister)} lists it")
            for name, lister in sorted(self.missing.items())
        ]
        return found


class References(Reached):
    """The same of a registry, without pauses."""

    def __init__(
        self, registry: Registry, prefix: Prefix, start: Node, sources: Collection[str] = ()
    ) -> None:
        super().__init__(prefix, start, sources)
        self.registry = registry
        finished(self.gather(), self.objects)

    def objects(self, query: str) -> list[Paragraph]:
        """The objects that the registry answers; all around the prefix surely."""
        ask = self.registry.query_surely if query == self.around else self.registry.query
        return ask(query).or_failure(query).objects()

    def chains(self, most: int) -> Chains:
        return finished(self.chaining(most), self.objects)

    def nearest(self) -> list[Step]:
        return finished(self.nearing(), self.objects)

    def near(self) -> list[Near]:
        return finished(self.nearly(), self.objects)


def query_of(node: Node) -> str:
    """The query for the object of what is reached."""
    return f"object {name_of(node)}"


def source_in(found: Paragraph) -> str:
    """Where a view has an object from: a name, in the comment on its `source`; else nothing."""
    lines = (one.lines[0] for one in found.attributes if one.name == b"source")
    return keys.read_source(next(lines, b"").partition(b"#")[2].strip()) or ""


def is_everywhere(found: Paragraph) -> bool:
    """Whether it is the inetnum of all addresses, which the root of a registry alone can change."""
    return found.name == b"inetnum" and keys.read_span(found.value(b"inetnum")) == EVERYWHERE


def origin_of(route: Paragraph) -> int:
    number = keys.read_as(route.value(b"origin"))
    return -1 if number is None else number


def leaf_of(route: Paragraph) -> Leaf:
    prefix = keys.read_prefix(route.value(b"route")) or Prefix(0, 0)
    return Leaf(Range(prefix, prefix.length, prefix.length), route)


def object_name(found: Paragraph) -> str:
    """The class and key of an object."""
    key = keys.key_of(found)
    return f"{key.kind} {key.text}" if key else keys.as_text(found.name)


def read_start(text: str) -> Node | None:
    """The set or AS that a text names."""
    number = keys.read_as(text)
    return keys.read_set(text) if number is None else number


def shown(start: Node) -> str:
    return f"AS{start}" if isinstance(start, int) else start


def name_of(node: Node) -> str:
    """The class and name of what is reached."""
    if isinstance(node, int):
        return f"aut-num AS{node}"
    return node if node in ANY else f"{keys.set_class(node)} {node}"


def as_json(
    prefix: Prefix, start: Node, chains: Chains, nearest: list[Step], near: list[Near]
) -> dict[str, Any]:
    """What is found, as JSON has it."""

    def steps(chain: list[Step]) -> list[dict[str, Any]]:
        return [
            {
                "object": step.name,
                "mnt-by": step.maintainers,
                "says": step.says,
                "range": step.range.text() if step.range else None,
                **({"source": step.source} if step.source else {}),
            }
            for step in chain
        ]

    return {
        "prefix": prefix.text(),
        "set": shown(start),
        "found": bool(chains.first),
        "chains": [steps(chain) for chain in chains.first],
        "more": chains.more,
        "all": not chains.is_cut,
        "nearest": steps(nearest),
        "near": [
            {"object": one.name, "mnt-by": one.maintainers, "why": one.why}
            | ({"source": one.source} if one.source else {})
            for one in near[:MOST_NEAR]
        ],
    }

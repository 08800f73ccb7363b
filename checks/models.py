"""Small models to compare with, written from the RFCs and not from the code, and slow."""
from collections.abc import Collection, Iterable

from checks.rpsl import Object, Prefix, Registry

# What sets of the models are made of: all prefixes inside this one.
OUTER: Prefix = (10 << 24, 22)
ANYBODY = "ANY"


def node_of(prefix: Prefix) -> int:
    """A prefix inside the outer one as a number: 1 is the outer one, 2n and 2n + 1 are the halves
    of n. Nothing (0) is one outside."""
    first, length = prefix
    deep = length - OUTER[1]
    if deep < 0 or first >> 32 - OUTER[1] != OUTER[0] >> 32 - OUTER[1]:
        return 0
    return 1 << deep | (first - OUTER[0]) >> 32 - length


def prefix_of(node: int) -> Prefix:
    deep = node.bit_length() - 1
    length = OUTER[1] + deep
    return OUTER[0] + ((node - (1 << deep)) << 32 - length), length


def all_nodes() -> range:
    return range(1, 1 << 33 - OUTER[1])


def inside(node: int, low: int, high: int) -> int:
    """The prefixes inside one, of these lengths, as the bits of a number."""
    found, length = 0, OUTER[1] + node.bit_length() - 1
    for deeper in range(max(low - length, 0), high - length + 1):
        found |= (1 << (1 << deeper)) - 1 << (node << deeper)
    return found


def read_prefix(text: str) -> Prefix:
    address, _, length = text.partition("/")
    parts = [int(part) for part in address.split(".")]
    return int.from_bytes(bytes(parts), "big"), int(length)


def bits_of(ranges: Iterable[tuple[Prefix, int, int]]) -> int:
    """What ranges take: a prefix, and the lengths inside it. None of them may be wider than the
    outer prefix."""
    found = 0
    for prefix, low, high in ranges:
        node = node_of(prefix)
        assert node, f"{prefix} is outside"
        found |= inside(node, low, high)
    return found


def nodes_in(bits: int) -> list[int]:
    return [node for node in all_nodes() if bits >> node & 1]


def operated(operator: str, bits: int) -> int:
    """What an operator makes of a set of prefixes, prefix by prefix (RFC 2622, 2)."""
    if not operator:
        return bits
    found = 0
    for node in nodes_in(bits):
        length = prefix_of(node)[1]
        if operator in ("^+", "^-"):
            found |= inside(node, length + (operator == "^-"), 32)
        else:
            least, _, most = operator[1:].partition("-")
            found |= inside(node, int(least), int(most or least))
    return found


def is_prefix(item: str) -> bool:
    return "/" in item


def is_number(item: str) -> bool:
    return item[:2].upper() == "AS" and item[2:].isdigit()


class Expansion:
    """What the sets of a registry stand for (RFC 2622, 5; RFC 2725, 9): prefixes inside the outer
    one, as bits."""

    def __init__(self, registry: Registry) -> None:
        self.sets = {held.key: held for held in registry.of("as-set") + registry.of("route-set")}
        self.numbers = registry.of("aut-num")
        self.routes = registry.of("route")

    def is_there(self, name: str) -> bool:
        return name in ("AS-ANY", "RS-ANY") or name in self.sets

    def joins(self, held: Object, name: str) -> bool:
        """Whether an object is in a set by reference."""
        takes = self.sets[name].items("mbrs-by-ref")
        return name in held.items("member-of") and (
            ANYBODY in takes or bool(set(takes) & set(held.items("mnt-by")))
        )

    def of_number(self, number: str) -> int:
        """The routes of an origin."""
        return self.bits_of_routes(held for held in self.routes if held.items("origin") == [number])

    def bits_of_routes(self, routes: Iterable[Object]) -> int:
        found = 0
        for held in routes:
            found |= 1 << node_of(read_prefix(held.values("route")[0]))
        return found

    def numbers_in(self, name: str) -> set[str]:
        """The AS numbers that an as-set has by itself."""
        if name == "AS-ANY":
            return {held.key for held in self.numbers}
        listed = set(filter(is_number, self.sets[name].items("members")))
        return listed | {held.key for held in self.numbers if self.joins(held, name)}

    def lists(self, name: str) -> list[tuple[str, str]]:
        """The sets and AS numbers that a set lists, each with its operator."""
        if not self.is_there(name) or name == "RS-ANY":
            return []
        if name == "AS-ANY":
            return [(number, "") for number in self.numbers_in(name)]
        found = []
        for item in self.sets[name].items("members"):
            front, hat, rest = item.partition("^")
            if not is_prefix(item):
                found.append((front, hat + rest))
        return found

    def reached(self, name: str, without: Collection[str] = ()) -> set[str]:
        """The names of sets that a set reaches, itself among them, also those that are not there;
        none of those `without`, nor by them."""
        found, waiting = {name}, [name]
        while waiting:
            for other, _ in self.lists(waiting.pop()):
                if not is_number(other) and other not in found and other not in without:
                    found.add(other)
                    waiting.append(other)
        return found

    def missing(self, name: str) -> set[str]:
        return {other for other in self.reached(name) if not self.is_there(other)}

    def prefixes(self, name: str) -> int:
        """What a set stands for: the least sets of prefixes that hold what each lists."""
        found = {other: 0 for other in self.reached(name)}
        while True:
            before = dict(found)
            for other in found:
                found[other] |= self.direct(other)
                for listed, operator in self.lists(other):
                    held = self.of_number(listed) if is_number(listed) else found[listed]
                    found[other] |= operated(operator, held)
            if found == before:
                return found[name]

    def direct(self, name: str) -> int:
        """What a set has by itself: ranges, members by reference and their routes."""
        if name == "RS-ANY":
            return self.bits_of_routes(self.routes)
        if name == "AS-ANY" or not self.is_there(name):
            return 0
        found = self.bits_of_routes(held for held in self.routes if self.joins(held, name))
        held = self.sets[name]
        if held.kind == "as-set":
            for number in self.numbers_in(name):
                found |= self.of_number(number)
            return found
        for item in filter(is_prefix, held.items("members")):
            front, hat, rest = item.partition("^")
            found |= operated(hat + rest, 1 << node_of(read_prefix(front)))
        return found

    def expanded(self, name: str, without: Collection[str] = ()) -> set[str]:
        """The AS numbers of an as-set, without some, and without those of some sets alone."""
        return {
            number
            for other in self.reached(name, without)
            if self.is_there(other)
            for number in self.numbers_in(other)
            if number not in without
        }


def validity(prefix: Prefix, origin: int, roas: Iterable[tuple[Prefix, int, int]]) -> str:
    """The state of a route (RFC 6811, 2) by ROAs of a prefix, a greatest length and an AS
    number."""
    covering = [
        (most, number)
        for (first, length), most, number in roas
        if length <= prefix[1] and first >> 32 - length == prefix[0] >> 32 - length
    ]
    if not covering:
        return "not found"
    is_matched = any(
        number == origin and number != 0 and prefix[1] <= most for most, number in covering
    )
    return "valid" if is_matched else "invalid"

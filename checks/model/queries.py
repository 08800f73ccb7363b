"""What is answered to a query, and what sets stand for (RFC 2622, 5; RFC 2725, 9; RFC 3912)."""

import re
from collections.abc import Callable
from typing import Any

from checks.model.objects import Object
from checks.model.registry import Registry
from . import numbers
from .objects import ANY, AS_SET, AUT_NUM, CLASSES, INETNUM, ROUTE, ROUTE_SET, read_key
from .registry import covers_span

MOST_BYTES = 1_024
BAD_BYTE = re.compile(rb"[\x00-\x08\x0a-\x0c\x0e-\x1f\x7f]")
NONE = b"% no entries\n"


class BadQuery(Exception):
    """A text that is no query."""


class TooMany(Exception):
    """An expansion over the limit."""


def answer(registry: Registry, query: bytes, limit: int) -> bytes:
    """The answer to a query, byte for byte."""
    if len(query) > MOST_BYTES:
        return b"% error 2\n"
    try:
        return found_text(registry, query, limit)
    except BadQuery:
        return b"% error 1\n"
    except TooMany:
        return b"% error 3\n"


def found_text(registry: Registry, query: bytes, limit: int) -> bytes:
    words = re.findall(rb"[^ \t\r]+", query)
    if BAD_BYTE.search(query) or not words:
        raise BadQuery
    if len(words) == 2 and words[0].lower() in (b"expand", b"prefixes"):
        return expansion_text(registry, words[0].lower() == b"prefixes", words[1], limit)
    found = asked_for(registry, words)
    return b"".join(held.public() + b"\n" for held in found) or NONE


def asked_for(registry: Registry, words: list[bytes]) -> list[Object]:
    """The objects that a query asks for, in the order of their keys."""
    first = words[0].lower()
    if len(words) == 1:
        return one_word(registry, words[0])
    if first == b"object" and len(words) > 2:
        return by_key(registry, words[1].lower(), words[2:])
    if first in NEAR and len(words) == 2:
        return NEAR[first](registry, asked_prefix(words[1]))
    if first == b"inverse" and len(words) == 3:
        return inverse(registry, words[1].lower(), words[2])
    raise BadQuery


def one_word(registry: Registry, word: bytes) -> list[Object]:
    if numbers.as_number(word) is not None:
        return by_key(registry, b"aut-num", [word])
    if numbers.prefix(word) or numbers.address(word) is not None:
        return closest(registry, asked_prefix(word))
    if numbers.set_name(word):
        kind = numbers.set_kind(numbers.set_name(word))
        return by_key(registry, b"as-set" if kind == b"AS" else b"route-set", [word])
    return by_key(registry, b"mntner", [word])


def by_key(registry: Registry, name: bytes, words: list[bytes]) -> list[Object]:
    if name not in CLASSES:
        raise BadQuery
    number, origin = CLASSES.index(name) + 1, None
    if number == ROUTE:
        if len(words) != 2:
            raise BadQuery
        words, origin = words[:1], words[1]
    key = read_key(number, b" ".join(words), origin)
    if key is None:
        raise BadQuery
    held = registry.objects.get(key.order)
    return [held] if held else []


def asked_prefix(word: bytes) -> tuple[int, int]:
    address = numbers.address(word)
    read = (address, 32) if address is not None else numbers.prefix(word)
    if read is None:
        raise BadQuery
    return numbers.prefix_span(read)


def span_of(held: Object) -> tuple[int, int]:
    return held.key.value if held.key.number == INETNUM else numbers.prefix_span(held.key.value[0])


def placed(registry: Registry, fits: Callable[..., Any]) -> list[Object]:
    return [
        held
        for held in registry.in_order()
        if held.key.number in (INETNUM, ROUTE) and fits(span_of(held))
    ]


def closest(registry: Registry, span: tuple[int, int]) -> list[Object]:
    inetnum = registry.closest(INETNUM, span)
    return ([inetnum] if inetnum else []) + sorted(
        registry.closest_routes(span), key=lambda held: held.key.order
    )


NEAR = {
    b"exact": lambda registry, span: placed(registry, lambda held: held == span),
    b"less": lambda registry, span: placed(registry, lambda held: covers_span(held, span)),
    b"more": lambda registry, span: placed(registry, lambda held: covers_span(span, held)),
    b"closest": closest,
}


def inverse(registry: Registry, what: bytes, word: bytes) -> list[Object]:
    name, number = numbers.maintainer(word), numbers.as_number(word)
    if what == b"mnt" and name:
        return [held for held in registry.in_order() if name in held.named()]
    if what == b"origin" and number is not None:
        return [
            held
            for held in registry.in_order()
            if held.key.number == ROUTE and held.key.value[1] == number
        ]
    raise BadQuery


# Sets.


def expansion_text(registry: Registry, as_prefixes: bool, word: bytes, limit: int) -> bytes:
    name = numbers.set_name(word)
    if name is None:
        raise BadQuery
    if not as_prefixes and numbers.set_kind(name) == b"AS":
        expanded = expand_as_set(registry, name, limit)
    else:
        expanded = expand_route_set(registry, name, limit)
    if expanded is None:
        return NONE
    found, missing = expanded
    lines = found + [b"% missing " + gone for gone in sorted(missing)]
    return b"".join(line + b"\n" for line in lines) or b"% empty\n"


def registered(registry: Registry, name: bytes) -> Object | None:
    return registry.get(AS_SET if numbers.set_kind(name) == b"AS" else ROUTE_SET, name)


def belongs(held: Object, name: bytes, by_ref: list[bytes]) -> bool:
    """Whether an object says that it is in a set which takes those of its maintainers."""
    return name in held.member_of and (
        ANY in by_ref or any(known in by_ref for known in held.mnt_by)
    )


def listed_numbers(registry: Registry, name: bytes) -> set[int]:
    """The AS numbers that an as-set has by itself, as it lists them or takes them."""
    if name == b"AS-ANY":
        return {held.key.value for held in registry.of_class(AUT_NUM)}
    held = registered(registry, name)
    taken = {
        other.key.value for other in registry.of_class(AUT_NUM) if belongs(other, name, held.by_ref)
    }
    return taken | {member for member, _ in held.members if isinstance(member, int)}


def expand_as_set(
    registry: Registry, start: bytes, limit: int
) -> tuple[list[bytes], set[bytes]] | None:
    reached, missing, waiting, found = {start}, set(), [start], set()
    while waiting:
        name = waiting.pop()
        held = None if name == b"AS-ANY" else registered(registry, name)
        if held is None and name != b"AS-ANY":
            missing.add(name)
            continue
        found |= listed_numbers(registry, name)
        for member, _ in held.members if held else []:
            if isinstance(member, bytes) and member not in reached:
                reached.add(member)
                waiting.append(member)
    if start in missing:
        return None
    if len(reached) > limit:
        raise TooMany
    return [b"AS%d" % number for number in sorted(found)], missing


def direct(registry: Registry, name: bytes | int) -> set[tuple[int, int, int, int]]:
    """The ranges that a set, an AS number, `AS-ANY` or `RS-ANY` has by itself."""
    routes = registry.of_class(ROUTE)
    if isinstance(name, int):
        chosen = [held for held in routes if held.key.value[1] == name]
    elif name in (b"AS-ANY", b"RS-ANY"):
        chosen = routes if name == b"RS-ANY" else []
    else:
        by_ref = registered(registry, name).by_ref
        chosen = [held for held in routes if belongs(held, name, by_ref)]
    own = {held.key.value[0] + (held.key.value[0][1],) * 2 for held in chosen}
    if isinstance(name, bytes) and numbers.set_kind(name) == b"RS" and name != b"RS-ANY":
        own |= {
            member for member, rest in registered(registry, name).members if rest is None and member
        }
    return own


def references(registry: Registry, name: bytes | int) -> list[tuple[bytes | int, bytes]]:
    """The sets and AS numbers that a name refers to, each with its operator."""
    if isinstance(name, int) or name == b"RS-ANY":
        return []
    if name == b"AS-ANY":
        return [(number, b"") for number in listed_numbers(registry, name)]
    members = [member for member in registered(registry, name).members if member[1] is not None]
    if numbers.set_kind(name) == b"AS":
        return members + [(number, b"") for number in listed_numbers(registry, name)]
    return members


def is_missing(registry: Registry, name: bytes | int) -> bool:
    return (
        isinstance(name, bytes)
        and name not in (b"AS-ANY", b"RS-ANY")
        and registered(registry, name) is None
    )


def expand_route_set(
    registry: Registry, start: bytes, limit: int
) -> tuple[list[bytes], set[bytes]] | None:
    if is_missing(registry, start):
        return None
    edges: dict[Any, list[Any]] = {start: []}
    waiting = [start]
    while waiting:
        name = waiting.pop()
        edges[name] = [] if is_missing(registry, name) else references(registry, name)
        for other, _ in edges[name]:
            if other not in edges:
                edges[other] = None
                waiting.append(other)
    if len(edges) > limit:
        raise TooMany
    ranges = {
        name: set() if is_missing(registry, name) else direct(registry, name) for name in edges
    }
    settle(edges, ranges)
    if sum(map(len, ranges.values())) > limit:
        raise TooMany
    missing = {name for name in edges if is_missing(registry, name)}
    return [numbers.range_text(held).encode() for held in sorted(ranges[start])], missing


def settle(
    edges: Any,
    ranges: Any,
) -> None:
    """Carries ranges back along the references, each through its operator, until nothing is new."""
    changed = True
    while changed:
        changed = False
        for name, leading in edges.items():
            for other, rest in leading:
                carried = (
                    held[:2] + numbers.operator(rest)(*held[2:])
                    for held in ranges[other]
                    if numbers.operator(rest)(*held[2:])
                )
                new = set(carried) - ranges[name]
                ranges[name] |= new
                changed = changed or bool(new)

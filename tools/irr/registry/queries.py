"""What a query asks for, and so what its answer may be (irrdesk(1), QUERIES): which objects, or the
lines of which set."""
import re
from typing import Callable, NamedTuple

from irr.rpsl import grammar, holders, keys
from irr.rpsl.keys import Key, Span
from irr.rpsl.syntax import ITEM, Paragraph

LONGEST = 1_024
BAD_BYTE = re.compile(rb"[\x00-\x08\x0a-\x0c\x0e-\x1f\x7f]")
WORD = re.compile(rb"[^ \t\r]+")
ANY = ("AS-ANY", "RS-ANY")
HIDDEN = [b"# filtered"]

Fits = Callable[[Key, Paragraph], bool]


class Asked(NamedTuple):
    """A query: the objects that fit it, or the set that it expands, to AS numbers or to ranges. One
    without either is no query."""

    fits: Fits | None = None
    name: str = ""
    has_ranges: bool = False
    is_closest: bool = False

    @property
    def kinds(self) -> set[str]:
        """The kinds of its answers."""
        if self.fits:
            return {"objects", "none", "error 4", "error 5", "error 6"}
        if not self.name:
            return {"error 1", "error 2", "error 4", "error 5", "error 6"}
        return {"expansion", "empty", "error 3", "error 4", "error 5", "error 6"} | (
            {"none"} if self.name not in ANY else set()
        )


def read(query: bytes) -> Asked:
    """What a query asks for."""
    words = [] if BAD_BYTE.search(query) or len(query) > LONGEST else WORD.findall(query)
    kind = keys.as_text(words[0]).lower() if words else ""
    if len(words) == 1:
        return one_word(words[0])
    if len(words) > 2 and kind == "object":
        return by_key(keys.as_text(words[1]).lower(), words[2:])
    if len(words) == 3 and kind == "inverse":
        return inverse(keys.as_text(words[1]).lower(), words[2])
    if len(words) == 2 and kind in PLACES:
        place = keys.read_place(words[1])
        return (
            Asked(fits_place(PLACES[kind], place.span()), is_closest=kind == "closest")
            if place
            else Asked()
        )
    if len(words) == 2 and kind in ("expand", "prefixes"):
        name = keys.read_set(words[1])
        return (
            Asked(name=name, has_ranges=kind == "prefixes" or keys.set_class(name) == "route-set")
            if name
            else Asked()
        )
    return Asked()


def one_word(word: bytes) -> Asked:
    if keys.read_as(word) is not None:
        return by_key("aut-num", [word])
    if keys.read_place(word):
        return read(b"closest " + word)
    name = keys.read_set(word)
    return by_key(keys.set_class(name) if name else "mntner", [word])


def by_key(kind: str, words: list[bytes]) -> Asked:
    """`object`: the rest of its words is the key, which for a route is a prefix and an origin."""
    if kind == "route":
        own = keys.read_key(kind, *words) if len(words) == 2 else None
    else:
        own = keys.read_key(kind, b" ".join(words))
    return Asked(lambda key, _: key == own) if own else Asked()


def inverse(what: str, word: bytes) -> Asked:
    name, number = keys.read_maintainer(word), keys.read_as(word)
    if what == "mnt" and name:
        return Asked(lambda _, paragraph: name in holders.named(paragraph))
    if what == "origin" and number is not None:
        return Asked(lambda key, _: key.kind == "route" and key.text.endswith(f" AS{number}"))
    return Asked()


# What each query round a place takes, by the addresses of the place and those of an object.
PLACES: dict[str, Callable[[Span, Span], bool]] = {
    "exact": lambda place, own: place == own,
    "closest": lambda place, own: own.covers(place),
    "less": lambda place, own: own.covers(place),
    "more": lambda place, own: place.covers(own),
}


def fits_place(is_one: Callable[[Span, Span], bool], place: Span) -> Fits:
    def fits(key: Key, _: Paragraph) -> bool:
        if key.kind not in ("inetnum", "route"):
            return False
        own = keys.read_span(key.text.partition(" AS")[0])
        return own is not None and is_one(place, own)

    return fits


# The lists of each class, and what their items are.
LISTS: dict[str, dict[bytes, Callable[[bytes], bool]]] = {
    kind: {
        name.encode(): rule.form.is_good
        for name, rule in rules.items()
        if rule.division == grammar.ITEMS
    }
    for kind, rules in grammar.TABLE.items()
}


def is_sound(key: Key, paragraph: Paragraph) -> bool:
    """Whether a registry can have an object of this key, and show it so."""
    lists, names = LISTS[key.kind], [attribute.name for attribute in paragraph.attributes]
    if (
        names.count(paragraph.name) != 1
        or names.count(b"source") != 1
        or b"password" in names
        or b"delete" in names
    ):
        return False
    if not keys.read_source(paragraph.value(b"source")) or not paragraph.items(b"mnt-by"):
        return False
    if key.kind == "mntner" and b"auth" not in names:
        return False
    for attribute in paragraph.attributes:
        if attribute.name == b"auth" and attribute.lines != HIDDEN:
            return False
        is_good = lists.get(attribute.name)
        if is_good and not all(map(is_good, ITEM.findall(attribute.meaning()))):
            return False
    return b"mnt-routes" not in names or key.kind not in holders.ROUTES_IN or are_grants(paragraph)


def are_grants(paragraph: Paragraph) -> bool:
    """Whether `mnt-routes` is entries alone: each word of it is part of one."""
    joined = b" ".join(paragraph.values(b"mnt-routes")).upper()
    words = ITEM.findall(joined.replace(b"{", b" { ").replace(b"}", b" } "))
    found = holders.grants(paragraph)
    # A name, and braces with ranges, or ANY, or nothing.
    count = words.count(b"ANY") + sum(
        1 if grant.ranges is None else 3 + len(grant.ranges) for grant in found
    )
    is_closed = words.count(b"{") == words.count(b"}")
    return (
        is_closed
        and count == len(words)
        and all(keys.read_maintainer(grant.name) for grant in found)
    )

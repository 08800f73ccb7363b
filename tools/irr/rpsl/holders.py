"""Who speaks for an object (RFC 2725, 9): the maintainers that it names, and those who may add what
lies below it."""
from typing import NamedTuple

from irr.rpsl import grammar, keys
from irr.rpsl.keys import Prefix, Range
from irr.rpsl.syntax import ITEM, Paragraph

LOWER_IN, ROUTES_IN = grammar.classes_with("mnt-lower"), grammar.classes_with("mnt-routes")
SETS = grammar.classes_with("members")
# The root of a view, of which nobody has the password.
VIEW_ROOT = "IRR-VIEW-MNT"


class Grant(NamedTuple):
    """An entry of `mnt-routes`: a maintainer, and the ranges of its routes, None for any."""

    name: str
    ranges: list[Range] | None

    def admits(self, prefix: Prefix) -> bool:
        return self.ranges is None or any(held.admits(prefix) for held in self.ranges)


def kind(paragraph: Paragraph) -> str:
    """The class of an object."""
    return keys.as_text(paragraph.name)


def names(paragraph: Paragraph, attribute: str) -> list[str]:
    """The maintainers that an attribute lists, in capital letters."""
    return [keys.as_text(item).upper() for item in paragraph.items(attribute.encode())]


def by(paragraph: Paragraph) -> list[str]:
    """Who may change and delete the object."""
    return names(paragraph, "mnt-by")


def lower(paragraph: Paragraph) -> list[str]:
    """Who may add what lies below it, but routes."""
    return (names(paragraph, "mnt-lower") if kind(paragraph) in LOWER_IN else []) or by(paragraph)


def grants(paragraph: Paragraph) -> list[Grant]:
    """The entries of `mnt-routes`, which may begin in one attribute and end in the next."""
    joined = b" ".join(paragraph.values(b"mnt-routes")) if kind(paragraph) in ROUTES_IN else b""
    words = [
        keys.as_text(word)
        for word in ITEM.findall(joined.replace(b"{", b" { ").replace(b"}", b" } "))
    ]
    found: list[Grant] = []
    place = 0
    while place < len(words):
        name, ranges, place = words[place].upper(), None, place + 1
        if place < len(words) and words[place].upper() == "ANY":
            place += 1
        elif place < len(words) and words[place] == "{":
            end = words.index("}", place) if "}" in words[place:] else len(words)
            ranges = [held for held in map(keys.read_range, words[place + 1 : end]) if held]
            place = end + 1
        found.append(Grant(name, ranges))
    return found


def routes(paragraph: Paragraph, prefix: Prefix) -> list[str]:
    """Who may add a route of this prefix below the object."""
    listed = grants(paragraph)
    if listed:
        return [grant.name for grant in listed if grant.admits(prefix)]
    return by(paragraph) if kind(paragraph) == "aut-num" else lower(paragraph)


def named(paragraph: Paragraph) -> list[str]:
    """Every maintainer that the object names where names are read, once each."""
    found = by(paragraph)
    if kind(paragraph) in LOWER_IN:
        found += names(paragraph, "mnt-lower")
    found += [grant.name for grant in grants(paragraph)]
    if kind(paragraph) in SETS:
        found += [name for name in names(paragraph, "mbrs-by-ref") if name != "ANY"]
    return list(dict.fromkeys(found))

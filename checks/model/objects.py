"""Objects of the seven classes (RFC 2622, 3 to 6; RFC 2725, 10): their keys, their fields, and the
first code that refuses them."""

import functools
import re
from collections.abc import Callable
from typing import Any

from . import numbers
from .text import canonical, lines_of, meaning, read

CLASSES = [b"mntner", b"as-block", b"aut-num", b"inetnum", b"route", b"as-set", b"route-set"]
MNTNER, AS_BLOCK, AUT_NUM, INETNUM, ROUTE, AS_SET, ROUTE_SET = range(1, 8)
LOWER_IN = (AS_BLOCK, AUT_NUM, INETNUM, ROUTE, AS_SET, ROUTE_SET)
ROUTES_IN = (AUT_NUM, INETNUM, ROUTE)
MEMBER_OF_IN = (AUT_NUM, ROUTE)
SETS = (AS_SET, ROUTE_SET)
ITEM = re.compile(rb"[^, \t\r\n]+")
SECRET_LINE = re.compile(rb"([A-Za-z0-9]{0,16}):([0-9A-Fa-f]{64})")
ANY = b"ANY"


class Refused(Exception):
    """The code of what is no object."""


class Key:
    """The class's number, what stands at it, its bytes in the database and its text in a report."""

    def __init__(self, number: int, value: Any) -> None:
        self.number, self.value = number, value
        self.bytes, self.text = KEY_FORMS[number](value)
        self.order = (number, self.bytes)

    def report(self) -> str:
        return f"{CLASSES[self.number - 1].decode()} {self.text}"


def name_form(name: bytes) -> tuple[str, str]:
    return name.decode(), name.decode()


def block_form(block: tuple[int, int]) -> tuple[str, str]:
    return "%08x-%08x" % block, "AS%d - AS%d" % block


def span_form(span: tuple[int, int]) -> tuple[str, str]:
    return "%08x-%08x" % span, f"{numbers.address_text(span[0])} - {numbers.address_text(span[1])}"


def route_form(value: tuple[tuple[int, int], int]) -> tuple[str, str]:
    (start, length), origin = value
    return (
        "%08x/%02d-%08x" % (start, length, origin),
        f"{numbers.prefix_text((start, length))} AS{origin}",
    )


KEY_FORMS: dict[int, Callable[[Any], tuple[str, str]]] = {
    MNTNER: name_form,
    AS_BLOCK: block_form,
    AUT_NUM: lambda number: ("%08x" % number, f"AS{number}"),
    INETNUM: span_form,
    ROUTE: route_form,
    AS_SET: name_form,
    ROUTE_SET: name_form,
}


def read_key(number: int, text: bytes, origin: bytes | None = None) -> Key | None:
    """The key that a text spells in a class, or None; that of a route is a prefix with an origin
    beside it."""
    readers: dict[int, Callable[[bytes], Any]] = {
        MNTNER: numbers.maintainer,
        AS_BLOCK: lambda text: numbers.ends(text, numbers.as_number),
        AUT_NUM: numbers.as_number,
        INETNUM: numbers.span,
        ROUTE: numbers.prefix,
        AS_SET: set_key(b"AS"),
        ROUTE_SET: set_key(b"RS"),
    }
    value = readers[number](text)
    if number == ROUTE:
        asn = numbers.as_number(origin) if origin is not None else None
        value = None if value is None or asn is None else (value, asn)
    return None if value is None else Key(number, value)


def set_key(kind: bytes) -> Callable[..., Any]:
    def read(text: bytes) -> bytes | None:
        name = numbers.set_name(text)
        known = name and name not in (b"AS-ANY", b"RS-ANY") and numbers.set_kind(name) == kind
        return name if known else None

    return read


def values(attributes: list[tuple[bytes, list[bytes]]], name: bytes) -> list[bytes]:
    return [meaning(lines) for found, lines in attributes if found == name]


def items(attributes: list[tuple[bytes, list[bytes]]], name: bytes) -> list[bytes]:
    return ITEM.findall(b" ".join(values(attributes, name)))


def key_of(attributes: list[tuple[bytes, list[bytes]]]) -> Key:
    """The key of a paragraph; refused E02 or E03."""
    if not attributes or attributes[0][0] not in CLASSES:
        raise Refused("E02")
    number = CLASSES.index(attributes[0][0]) + 1
    origins = values(attributes, b"origin")
    key = read_key(number, meaning(attributes[0][1]), origins[0] if len(origins) == 1 else None)
    if key is None:
        raise Refused("E03")
    return key


def good(read: Callable[..., Any], listed: list[bytes]) -> list[Any]:
    """What the items are read as; refused E05 where one is not."""
    found = [read(item) for item in listed]
    if None in found:
        raise Refused("E05")
    return found


class Object:
    """An object of a source; refused E02 to E06."""

    def __init__(self, attributes: list[tuple[bytes, list[bytes]]], source: bytes) -> None:
        self.key = key_of(attributes)
        self.attributes, self.text = attributes, canonical(attributes)
        number = self.key.number
        self.check_counts(number)
        if any(name in (b"password", b"delete") for name, _ in attributes):
            raise Refused("E05")
        named = values(attributes, b"source")[0]
        if not numbers.NAME.fullmatch(named):
            raise Refused("E05")
        self.mnt_by = good(numbers.maintainer, items(attributes, b"mnt-by"))
        self.mnt_lower = (
            good(numbers.maintainer, items(attributes, b"mnt-lower")) if number in LOWER_IN else []
        )
        self.grants = read_grants(items_in_braces(attributes)) if number in ROUTES_IN else []
        self.auths = read_auths(values(attributes, b"auth")) if number == MNTNER else []
        self.member_of = (
            good(numbers.set_name, items(attributes, b"member-of"))
            if number in MEMBER_OF_IN
            else []
        )
        self.members = (
            good(member_reader(number), items(attributes, b"members")) if number in SETS else []
        )
        self.by_ref = good(referrer, items(attributes, b"mbrs-by-ref")) if number in SETS else []
        if named.upper() != source:
            raise Refused("E06")

    def check_counts(self, number: int) -> None:
        names = [name for name, _ in self.attributes]
        once = names.count(CLASSES[number - 1]) == 1 and names.count(b"source") == 1
        filled = items(self.attributes, b"mnt-by") and items(self.attributes, b"source")
        if not once or not filled or (number == MNTNER and b"auth" not in names):
            raise Refused("E04")

    def named(self) -> set[bytes]:
        """The maintainers that the object names."""
        routes = [name for name, _ in self.grants]
        return (
            set(self.mnt_by)
            | set(self.mnt_lower)
            | set(routes)
            | {name for name in self.by_ref if name != ANY}
        )

    def lower_names(self) -> list[bytes]:
        return self.mnt_lower or self.mnt_by

    def route_names(self, asked: tuple[int, int]) -> list[bytes]:
        """Who speaks for the object about a route of this prefix (RFC 2725, 9)."""
        if self.grants:
            return [
                name
                for name, ranges in self.grants
                if ranges is None or any(numbers.admits(held, asked) for held in ranges)
            ]
        return self.mnt_by if self.key.number == AUT_NUM else self.lower_names()

    def public(self) -> bytes:
        return canonical(
            [
                (name, [b"# filtered"]) if name == b"auth" else (name, lines)
                for name, lines in self.attributes
            ]
        )


@functools.lru_cache(1_000)
def read_object(text: bytes, source: bytes) -> Object | str:
    """The object that a paragraph is, or what is wrong: a code, or `text`. What was read once is
    remembered."""
    attributes = read(lines_of(text))
    if isinstance(attributes, str):
        return "text"
    try:
        return Object(attributes, source)
    except Refused as refused:
        return str(refused)


def items_in_braces(attributes: list[tuple[bytes, list[bytes]]]) -> list[bytes]:
    joined = b" ".join(values(attributes, b"mnt-routes"))
    return ITEM.findall(joined.replace(b"{", b" { ").replace(b"}", b" } "))


def read_grants(listed: list[bytes]) -> list[Any]:
    """Entries of `mnt-routes`: a name, and ranges, or None where any prefix is granted."""
    grants, place = [], 0
    while place < len(listed):
        (name,) = good(numbers.maintainer, listed[place : place + 1])
        ranges, place = None, place + 1
        if place < len(listed) and listed[place].upper() == ANY:
            place += 1
        elif place < len(listed) and listed[place] == b"{":
            if b"}" not in listed[place:]:
                raise Refused("E05")
            end = listed.index(b"}", place)
            ranges = [held for held in good(numbers.ranged, listed[place + 1 : end]) if held]
            place = end + 1
        grants.append((name, ranges))
    return grants


def read_auths(lines: list[bytes]) -> list[tuple[bytes, str]]:
    """Salt and digest of each line of the scheme SHA256-PW."""
    auths = []
    for line in lines:
        words = re.findall(rb"[^ \t\r]+", line)
        if not words:
            raise Refused("E05")
        if words[0].upper() == b"SHA256-PW":
            found = SECRET_LINE.fullmatch(words[1]) if len(words) == 2 else None
            if not found:
                raise Refused("E05")
            auths.append((found[1], found[2].lower().decode()))
    return auths


def referrer(item: bytes) -> bytes | None:
    return ANY if item.upper() == ANY else numbers.maintainer(item)


def member_reader(number: int) -> Callable[..., Any]:
    return as_set_member if number == AS_SET else route_set_member


def as_set_member(item: bytes) -> tuple[int | bytes, bytes] | None:
    """An AS number, or the name of an as-set, with no operator."""
    number, name = numbers.as_number(item), numbers.set_name(item)
    if number is not None:
        return number, b""
    return (name, b"") if name and numbers.set_kind(name) == b"AS" else None


def route_set_member(
    item: bytes,
) -> Any:
    """A range (False where it is dropped), or an AS number or set with its operator."""
    held = numbers.ranged(item)
    if held is not None:
        return held, None
    front, hat, rest = item.partition(b"^")
    number, name = numbers.as_number(front), numbers.set_name(front)
    known = number if number is not None else name
    return (known, hat + rest) if known is not None and numbers.operator(hat + rest) else None

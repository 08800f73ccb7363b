"""Names, numbers, prefixes and the keys of objects, as the program reads and prints them. A reader
gives None for another spelling.

What is read may be bytes, as values are, or text; what is printed is text, since keys are ASCII.
"""
import re
from typing import Callable, NamedTuple

from irr.errors import ARGUMENTS, Failure
from irr.rpsl.syntax import Paragraph

CLASSES = ("mntner", "as-block", "aut-num", "inetnum", "route", "as-set", "route-set")
RESERVED = frozenset(
    "any as-any rs-any peeras and or not atomic from to at action accept announce except refine "
    "networks into inbound outbound".split()
)
TOP = (1 << 32) - 1
AS_NUMBER = re.compile("[Aa][Ss]([0-9]{1,10})")
ADDRESS = re.compile(r"([0-9]{1,3})\.([0-9]{1,3})\.([0-9]{1,3})\.([0-9]{1,3})")
LENGTH = re.compile("[0-9]{1,2}")
DASHED = re.compile("([^- \t\r]+)[ \t\r]*-[ \t\r]*([^- \t\r]+)")
NAME = re.compile("[A-Za-z](?:[A-Za-z0-9_-]{0,78}[A-Za-z0-9])?")
LENGTHS = re.compile("([0-9]{1,2})(?:-([0-9]{1,2}))?")
DIGITS = re.compile("[0-9]+")
NUMBER, DECIMAL = re.compile("[0-9]{1,18}"), re.compile(r"[0-9]{1,18}(?:\.[0-9]{1,18})?")


class Span(NamedTuple):
    """Addresses or AS numbers from a first to a last one."""

    first: int
    last: int

    def covers(self, other: "Span") -> bool:
        return self.first <= other.first and other.last <= self.last

    def meets(self, other: "Span") -> bool:
        return self.first <= other.last and other.first <= self.last

    def crosses(self, other: "Span") -> bool:
        """Whether they meet and neither lies inside the other."""
        return self.meets(other) and not self.covers(other) and not other.covers(self)

    @property
    def size(self) -> int:
        return self.last - self.first + 1

    def text(self) -> str:
        """As the key of an inetnum."""
        return f"{address_text(self.first)} - {address_text(self.last)}"

    def numbers_text(self) -> str:
        """As the key of an as-block."""
        return f"AS{self.first} - AS{self.last}"

    def prefixes(self) -> "list[Prefix]":
        """The fewest prefixes that make up these addresses."""
        found, first = [], self.first
        while first <= self.last:
            low = first & -first if first else 1 << 32
            size = min(low, 1 << (self.last - first + 1).bit_length() - 1)
            found.append(Prefix(first, 33 - size.bit_length()))
            first += size
        return found


class Prefix(NamedTuple):
    """A prefix: its first address and its length."""

    first: int
    length: int

    def span(self) -> Span:
        return Span(self.first, self.first + (1 << 32 - self.length) - 1)

    def text(self) -> str:
        return f"{address_text(self.first)}/{self.length}"


class Range(NamedTuple):
    """A prefix with the least and the greatest length of the prefixes inside it that are meant."""

    prefix: Prefix
    low: int
    high: int

    def admits(self, asked: Prefix) -> bool:
        return self.low <= asked.length <= self.high and self.prefix.span().covers(asked.span())

    def text(self) -> str:
        least = self.prefix.length
        for lengths, spelled in [
            ((least, least), ""),
            ((least, 32), "^+"),
            ((least + 1, 32), "^-"),
            ((self.low, self.low), f"^{self.low}"),
        ]:
            if (self.low, self.high) == lengths:
                return self.prefix.text() + spelled
        return f"{self.prefix.text()}^{self.low}-{self.high}"


class Key(NamedTuple):
    """The key of an object: its class, and the key as reports print it."""

    kind: str
    text: str

    def query(self) -> str:
        """The query for just this object."""
        return f"object {self.kind} {self.text}"


def as_text(value: bytes | str) -> str:
    """What is read, as text; bytes that are not ASCII give characters that no reader takes."""
    return value.decode("ascii", "replace") if isinstance(value, bytes) else value


def number(text: str) -> int:
    """A number of ASCII digits alone, as an option takes it; ValueError for another spelling."""
    if not NUMBER.fullmatch(text):
        raise ValueError(text)
    return int(text)


def decimal(text: str) -> float:
    """The same with a part after a point."""
    if not DECIMAL.fullmatch(text):
        raise ValueError(text)
    return float(text)


def read_number(text: str, least: int, most: int) -> int | None:
    """A number within bounds."""
    found = number(text) if NUMBER.fullmatch(text) else -1
    return found if least <= found <= most else None


def read_address(value: bytes | str) -> int | None:
    found = ADDRESS.fullmatch(as_text(value))
    if not found:
        return None
    one, two, three, four = map(int, found.groups())
    is_good = one < 256 and two < 256 and three < 256 and four < 256
    return one << 24 | two << 16 | three << 8 | four if is_good else None


def address_text(number: int) -> str:
    return ".".join(str(byte) for byte in number.to_bytes(4, "big"))


def read_prefix(value: bytes | str) -> Prefix | None:
    """A prefix; bits past its length are read as zero."""
    front, _, rest = as_text(value).partition("/")
    first, length = read_address(front), int(rest) if LENGTH.fullmatch(rest) else 33
    return (
        Prefix(first >> 32 - length << 32 - length, length)
        if first is not None and length <= 32
        else None
    )


def read_place(value: bytes | str) -> Prefix | None:
    """A prefix, or an address, which stands for its /32: what queries take."""
    address = read_address(value)
    return Prefix(address, 32) if address is not None else read_prefix(value)


def need_place(word: str) -> Prefix:
    """The prefix that a word of the command line spells; an address stands for its /32."""
    prefix = read_place(word)
    if prefix is None:
        raise Failure(
            word,
            "this is not a prefix; write four numbers and a length, such as 192.0.2.0/24",
            ARGUMENTS,
        )
    return prefix


def read_ends(value: bytes | str, read: Callable[[bytes | str], int | None]) -> Span | None:
    """A first and a last one with a dash between them."""
    found = DASHED.fullmatch(as_text(value))
    first, last = (read(found[1]), read(found[2])) if found else (None, None)
    return Span(first, last) if first is not None and last is not None and first <= last else None


def read_span(value: bytes | str) -> Span | None:
    """The addresses of an inetnum: a prefix, or a first and a last address."""
    prefix = read_prefix(value)
    return prefix.span() if prefix else read_ends(value, read_address)


def read_block(value: bytes | str) -> Span | None:
    """The AS numbers of an as-block."""
    return read_ends(value, read_as)


def read_as(value: bytes | str) -> int | None:
    found = AS_NUMBER.fullmatch(as_text(value))
    return int(found[1]) if found and int(found[1]) <= TOP else None


def read_range(value: bytes | str) -> Range | None:
    """A prefix with an operator or none. One that the operator leaves nothing of is well spelled,
    and has `low` above `high`."""
    front, hat, rest = as_text(value).partition("^")
    prefix = read_prefix(front)
    if prefix is None:
        return None
    if not hat:
        return Range(prefix, prefix.length, prefix.length)
    if rest in ("+", "-"):
        return Range(prefix, prefix.length + (rest == "-"), 32)
    found = LENGTHS.fullmatch(rest)
    if not found:
        return None
    least, most = int(found[1]), int(found[2] or found[1])
    return Range(prefix, max(least, prefix.length), most) if least <= most <= 32 else None


def read_name(value: bytes | str) -> str | None:
    """The name of an object that is none of the reserved words, in capital letters."""
    text = as_text(value)
    return read_source(text) if text.lower() not in RESERVED else None


def read_source(value: bytes | str) -> str | None:
    """The name of a registry, which may be a reserved word, in capital letters."""
    text = as_text(value)
    return text.upper() if NAME.fullmatch(text) else None


def read_maintainer(value: bytes | str) -> str | None:
    name = read_name(value)
    return name if name and not name.startswith(("AS-", "RS-")) else None


def need_maintainer(word: str) -> str:
    """The maintainer that a word of the command line names."""
    name = read_maintainer(word)
    if name is None:
        raise Failure(
            word,
            "this is not a maintainer's name; "
            "give one of letters, digits, - and _, such as EXAMPLE-MNT",
            ARGUMENTS,
        )
    return name


def read_set(value: bytes | str) -> str | None:
    """The name of a set, AS-ANY and RS-ANY among them, in capital letters and its AS numbers
    without leading zeros."""
    text = as_text(value)
    if text.upper() in ("AS-ANY", "RS-ANY"):
        return text.upper()
    parts, kinds = [], set()
    for part in text.split(":"):
        number, name = read_as(part), read_name(part)
        if number is not None:
            parts.append(f"AS{number}")
        elif name and name.startswith(("AS-", "RS-")):
            parts.append(name)
            kinds.add(name[:3])
        else:
            return None
    return ":".join(parts) if len(kinds) == 1 and len(text) <= 255 else None


def set_class(name: str) -> str:
    """The class of a set's name that `read_set` gave."""
    part = next(part for part in name.split(":") if part[:3] in ("AS-", "RS-"))
    return "as-set" if part.startswith("AS-") else "route-set"


def set_parent(name: str) -> Key | None:
    """What all parts of a set's name but the last one name: an aut-num or a set. None for a name of
    one part, and for several AS numbers, which name nothing that can be registered."""
    front = name.rpartition(":")[0]
    number = read_as(front)
    if number is not None:
        return Key("aut-num", f"AS{number}")
    parent = read_set(front) if front else None
    return Key(set_class(parent), parent) if parent else None


def is_member(kind: str, item: bytes | str) -> bool:
    """Whether a set of this class may list the item."""
    text = as_text(item)
    if kind == "route-set":
        front, hat, operator = text.partition("^")
        if read_range("0.0.0.0/0" + hat + operator) is None:
            return False
        return (
            read_prefix(front) is not None
            or read_as(front) is not None
            or read_set(front) is not None
        )
    name = read_set(text)
    return read_as(text) is not None or (name is not None and set_class(name) == "as-set")


def read_key(kind: str, value: bytes | str, origin: bytes | str | None = None) -> Key | None:
    """The key that a text spells in a class; that of a route is a prefix with the origin beside
    it."""
    if kind == "mntner":
        text = read_maintainer(value)
    elif kind == "as-block":
        block = read_block(value)
        text = block.numbers_text() if block else None
    elif kind == "aut-num":
        number = read_as(value)
        text = f"AS{number}" if number is not None else None
    elif kind == "inetnum":
        span = read_span(value)
        text = span.text() if span else None
    elif kind == "route":
        prefix, number = read_prefix(value), read_as(origin) if origin is not None else None
        text = f"{prefix.text()} AS{number}" if prefix and number is not None else None
    else:
        name = read_set(value) if kind in CLASSES else None
        text = (
            name if name and name not in ("AS-ANY", "RS-ANY") and set_class(name) == kind else None
        )
    return Key(kind, text) if text is not None else None


def order(key: Key) -> tuple[int, list[int], str]:
    """What objects are in order of in answers and dumps: the class, then the numbers or the name of
    the key."""
    is_name = key.kind in ("mntner", "as-set", "route-set")
    return (
        CLASSES.index(key.kind),
        [] if is_name else list(map(int, DIGITS.findall(key.text))),
        key.text if is_name else "",
    )


def key_of(paragraph: Paragraph) -> Key | None:
    """The key of an object; None if its class is unknown (E02) or its key is bad (E03)."""
    origins = paragraph.values(b"origin")
    kind = as_text(paragraph.name)
    if kind not in CLASSES or (kind == "route" and len(origins) != 1):
        return None
    return read_key(kind, paragraph.value(paragraph.name), origins[0] if origins else None)

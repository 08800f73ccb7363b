"""Items of lists: which ones irrdesk reads, and an attribute with some of them changed or gone."""
import functools
import re
import socket
from typing import Callable, Iterator

from irr.rpsl import keys, syntax
from irr.rpsl.syntax import Attribute

IPV6 = re.compile(rb"([0-9A-Fa-f]{0,4}(?::[0-9A-Fa-f.]{0,15}){2,8})(?:/[0-9]{1,3})?")
OPERATOR = re.compile(rb"(?:\^(?:[+-]|[0-9]{1,3}(?:-[0-9]{1,3})?))?")
# What has no part of an expression: it begins and ends with a letter or a digit, and has letters,
# digits and marks in between. A maintainer's name has a letter, no form of a prefix, and that of a
# set only with `-MNT`.
WORD = re.compile(rb"[A-Za-z0-9](?:[A-Za-z0-9_.:/^-]*[A-Za-z0-9])?")
NAME = re.compile(
    rb"(?!(?:AS|RS|FLTR|RTRS|PRNG)-(?!(?:.*-)?MNT\Z))(?=[0-9_-]*[A-Z])"
    rb"[A-Z0-9](?:[A-Z0-9_-]*[A-Z0-9])?",
    re.I,
)
SCOPED = re.compile(rb"([A-Za-z][A-Za-z0-9_-]*)::(.+)")
# A word of a key with more around it, and a mark that parts two of them.
KEY_WORD = re.compile(rb"[A-Za-z0-9](?:[A-Za-z0-9_.:/-]*[A-Za-z0-9])?")
KEY_MARK = re.compile(rb"[,;:/|&+]")
# Items, and braces by themselves.
TOKEN = re.compile(rb"[{}]|[^, \t\r\n{}]+")
# What stands between two items, with a brace before or after it.
BETWEEN = re.compile(rb"(\{?)([ \t\r,]+)(\}?)")
SEVERAL_BLANKS = re.compile(rb"[ \t\r]{2,}")


@functools.lru_cache(1 << 16)
def name_of(item: bytes) -> tuple[str, bool]:
    """A maintainer's name as names are compared, and whether the rules take it."""
    name = keys.read_maintainer(item)
    return (name, True) if name else (item.upper().decode("latin-1"), False)


@functools.lru_cache(1 << 16)
def is_ipv6(item: bytes) -> bool:
    """Whether an item is an address or a prefix of IPv6, with an operator or none."""
    front, hat, rest = item.partition(b"^")
    found = IPV6.fullmatch(front)
    if not found or not OPERATOR.fullmatch(hat + rest):
        return False
    try:
        socket.inet_pton(socket.AF_INET6, found[1].decode())
    except OSError:
        return False
    return True


@functools.lru_cache(1 << 16)
def is_alone(item: bytes) -> bool:
    """Whether an item that can't be read says nothing of the others of its list: it is a word, and
    none of the expressions of RPSL (RFC 2622, 5)."""
    return WORD.fullmatch(item) is not None and item.decode().lower() not in keys.RESERVED


@functools.lru_cache(1 << 16)
def is_name(item: bytes) -> bool:
    """Whether an item can only be a maintainer's name, also one that the rules refuse."""
    is_read = keys.read_maintainer(item) is not None
    return is_read or (NAME.fullmatch(item) is not None and is_alone(item))


@functools.lru_cache(1 << 10)
def source_of(value: bytes) -> str | None:
    """The registry that a value of `source` names; nothing where it is empty, None where it can't
    be read."""
    return keys.read_source(value) if value else ""


@functools.lru_cache(1 << 16)
def is_range(item: bytes) -> bool:
    return keys.read_range(item) is not None


@functools.lru_cache(1 << 16)
def is_member(number: int, item: bytes) -> bool:
    return keys.is_member(keys.CLASSES[number - 1], item)


@functools.lru_cache(1 << 16)
def without_host_bits(item: bytes) -> bytes:
    """An item in which the bits of a prefix after its length are zero."""
    front, hat, rest = item.partition(b"^")
    prefix = keys.read_prefix(front)
    if prefix is None or keys.read_address(front.partition(b"/")[0]) == prefix.first:
        return item
    return prefix.text().encode() + hat + rest


def key_words(value: bytes) -> Iterator[bytes]:
    """What may be names in a key with more around it: its words as far as commas part them, or the
    like, and not blanks alone. A registry before one is none, and a slash parts two."""
    end = 0
    for word in KEY_WORD.finditer(value):
        if end and not KEY_MARK.search(value, end, word.start()):
            return
        for part in word[0].split(b"/"):
            yield part.rpartition(b"::")[2]
        end = word.end()


def tidied(between: re.Match[bytes]) -> bytes:
    """What stands between two items once others there are gone."""
    opened, marks, closed = between.groups()
    if opened or closed:
        return opened + closed
    return b", " if marks.count(b",") > 1 else SEVERAL_BLANKS.sub(b" ", marks)


def with_items(
    attribute: Attribute, pattern: re.Pattern[bytes], change: Callable[[bytes], bytes | None]
) -> Attribute | None:
    """The attribute with its items changed, or dropped where None is what they become; None if
    nothing is left of it."""
    lines, has_lost = [], False
    for line in attribute.lines:
        front, mark, comment = line.partition(b"#")
        parts: list[bytes] = []
        end, lost = 0, False
        for token in pattern.finditer(front):
            new = change(token[0])
            lost |= new is None
            parts += [front[end : token.start()], new or b""]
            end = token.end()
        text = b"".join([*parts, front[end:]])
        if lost:
            text = BETWEEN.sub(tidied, text).strip(b", \t\r") + b" " * bool(mark)
            has_lost = True
        if text or mark or not lost:
            lines.append((text + mark + comment).strip(syntax.BLANKS))
    kept = Attribute(attribute.name, lines)
    return kept if lines and (not has_lost or any(lines)) else None

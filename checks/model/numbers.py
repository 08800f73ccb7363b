"""Names, addresses, prefixes, ranges and AS numbers (RFC 2622, 2 and 5; RFC 6793). A reader gives
None for another spelling."""

import re
from collections.abc import Callable
from typing import Any

BLANK = rb"[ \t\r]*"
AS_NUMBER = re.compile(rb"[Aa][Ss]([0-9]{1,10})")
ADDRESS = re.compile(rb"([0-9]{1,3})\.([0-9]{1,3})\.([0-9]{1,3})\.([0-9]{1,3})")
LENGTH = re.compile(rb"[0-9]{1,2}")
DASHED = re.compile(rb"([^- \t\r]+)" + BLANK + rb"-" + BLANK + rb"([^- \t\r]+)")
NAME = re.compile(rb"[A-Za-z](?:[A-Za-z0-9_-]{0,78}[A-Za-z0-9])?")
LENGTHS = re.compile(rb"\^([0-9]{1,2})(?:-([0-9]{1,2}))?")
RESERVED = set(
    b"any as-any rs-any peeras and or not atomic from to at action accept announce except refine"
    b" networks into inbound outbound".split()
)


def as_number(text: bytes) -> int | None:
    found = AS_NUMBER.fullmatch(text)
    number = int(found[1]) if found else 1 << 32
    return number if number < 1 << 32 else None


def address(text: bytes) -> int | None:
    found = ADDRESS.fullmatch(text)
    parts = [int(part) for part in found.groups()] if found else [256]
    return int.from_bytes(bytes(parts), "big") if max(parts) < 256 else None


def prefix(text: bytes) -> tuple[int, int] | None:
    """Address and length, the bits behind the length as zero."""
    front, slash, length = text.partition(b"/")
    start = address(front)
    if start is None or not slash or not LENGTH.fullmatch(length) or int(length) > 32:
        return None
    return start >> 32 - int(length) << 32 - int(length), int(length)


def prefix_span(read: tuple[int, int]) -> tuple[int, int]:
    return read[0], read[0] + (1 << 32 - read[1]) - 1


def ends(text: bytes, number: Callable[..., Any]) -> tuple[int, int] | None:
    """First and last of a span whose ends the reader reads, the first not above the last."""
    found = DASHED.fullmatch(text)
    first, last = (number(found[1]), number(found[2])) if found else (None, None)
    return (first, last) if None not in (first, last) and first <= last else None


def span(text: bytes) -> tuple[int, int] | None:
    read = prefix(text)
    return prefix_span(read) if read else ends(text, address)


def address_text(number: int) -> str:
    return ".".join(str(byte) for byte in number.to_bytes(4, "big"))


def prefix_text(read: tuple[int, int]) -> str:
    return f"{address_text(read[0])}/{read[1]}"


def operator(text: bytes) -> Callable[..., Any] | None:
    """What an operator makes of a least and a greatest length, as a function; the lengths are None
    where nothing is left."""
    if text == b"":
        return lambda low, high: (low, high)
    if text == b"^+":
        return lambda low, high: (low, 32)
    if text == b"^-":
        return lambda low, high: (low + 1, 32) if low < 32 else None
    found = LENGTHS.fullmatch(text)
    least = int(found[1]) if found else 33
    most = int(found[2]) if found and found[2] is not None else least
    if not least <= most <= 32:
        return None
    return lambda low, high: (max(least, low), most) if max(least, low) <= most else None


def ranged(text: bytes) -> Any:
    """The range of a prefix with an operator: address, length, least and greatest length; False
    where it is dropped."""
    front, hat, rest = text.partition(b"^")
    read, lengths = prefix(front), operator(hat + rest)
    if read is None or lengths is None:
        return None
    left = lengths(read[1], read[1])
    return read + left if left else False


def admits(held: tuple[int, int, int, int], asked: tuple[int, int]) -> bool:
    """Whether a range admits a prefix."""
    start, length, low, high = held
    return (
        low <= asked[1] <= high
        and length <= asked[1]
        and asked[0] >> 32 - length == start >> 32 - length
    )


def range_text(held: tuple[int, int, int, int]) -> str:
    """The first of the spellings that says a range."""
    start, length, low, high = held
    for lengths, spelled in [
        ((length, length), ""),
        ((length, 32), "^+"),
        ((length + 1, 32), "^-"),
        ((low, low), f"^{low}"),
    ]:
        if (low, high) == lengths:
            return prefix_text((start, length)) + spelled
    return f"{prefix_text((start, length))}^{low}-{high}"


def object_name(text: bytes) -> bytes | None:
    return text.upper() if NAME.fullmatch(text) and text.lower() not in RESERVED else None


def maintainer(text: bytes) -> bytes | None:
    read = object_name(text)
    return read if read and read[:3] not in (b"AS-", b"RS-") else None


def set_name(text: bytes) -> bytes | None:
    """The name of a set in upper case, its AS numbers without leading zeros."""
    if text.upper() in (b"AS-ANY", b"RS-ANY"):
        return text.upper()
    parts, kinds = [], set()
    for part in text.split(b":"):
        number, name = as_number(part), object_name(part)
        if number is not None:
            parts.append(b"AS%d" % number)
        elif name and name[:3] in (b"AS-", b"RS-"):
            parts.append(name)
            kinds.add(name[:3])
        else:
            return None
    return b":".join(parts) if len(kinds) == 1 and len(text) <= 255 else None


def set_kind(name: bytes) -> bytes:
    """`AS` or `RS`, by the parts of a set's name that are no AS numbers."""
    return next(part[:2] for part in name.split(b":") if part[:3] in (b"AS-", b"RS-"))

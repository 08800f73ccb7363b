"""The PROXY protocol, versions 1 and 2: whose connection it is that a proxy hands on, as HAProxy
(`send-proxy`, `send-proxy-v2`) and nginx (`proxy_protocol on`) say it in the first bytes."""

import ipaddress
from typing import NamedTuple, Optional

from irr.rpsl import keys

FIRST, SECOND = b"PROXY ", b"\r\n\r\n\0\r\nQUIT\n"
# The most bytes of a header of version 1, and of what follows the first 16 of version 2.
MOST, MOST_MORE = 107, 4_096
LOCAL, ON_BEHALF = 0x20, 0x21
# The families of version 2, TCP over IPv4 and IPv6, by the bytes of an address.
SIZES = {0x11: 4, 0x21: 16}
NAMES = {b"TCP4": 4, b"TCP6": 6}


class Bad(Exception):
    """Bytes that begin with no header."""


class Header(NamedTuple):
    """A header: the client's address, None where the proxy speaks for itself or does not know it,
    and how many bytes the header has."""

    address: Optional[str]
    size: int


def read(text: bytes) -> Optional[Header]:
    """The header that begins a connection; None as long as it has not all come, and Bad if there is
    none."""
    if text.startswith(SECOND):
        return read_second(text)
    if text.startswith(FIRST):
        return read_first(text)
    if SECOND.startswith(text) or FIRST.startswith(text):
        return None
    raise Bad


def read_first(text: bytes) -> Optional[Header]:
    line, mark, _ = text[:MOST].partition(b"\r\n")
    if not mark:
        if len(text) >= MOST:
            raise Bad
        return None
    size, words = len(line) + 2, line.split(b" ")
    if words[1] == b"UNKNOWN":
        return Header(None, size)
    try:
        address = ipaddress.ip_address(words[2].decode("ascii"))
    except (ValueError, IndexError):
        raise Bad from None
    ports = [keys.read_number(word.decode("latin-1"), 0, 65_535) for word in words[4:]]
    if len(ports) != 2 or None in ports or NAMES.get(words[1]) != address.version:
        raise Bad
    return Header(str(address), size)


def read_second(text: bytes) -> Optional[Header]:
    if len(text) < 16:
        return None
    command, family, more = text[12], text[13], int.from_bytes(text[14:16], "big")
    length = SIZES.get(family, 0)
    if command not in (LOCAL, ON_BEHALF) or more > MOST_MORE:
        raise Bad
    if len(text) < 16 + more:
        return None
    if command == LOCAL or not length:
        return Header(None, 16 + more)
    if more < 2 * length + 4:
        raise Bad
    return Header(str(ipaddress.ip_address(text[16 : 16 + length])), 16 + more)

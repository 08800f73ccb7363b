"""Texts of JSON one after the other, each between a mark and the end of a line (RFC 7464)."""
import json
from typing import Any, Iterable, Iterator

from irr.errors import Failure

MARK = b"\x1e"
# The most bytes of one text.
MOST = 1 << 24
CUT = "it is cut off, or no sequence of JSON texts; it is fetched again"


def written(records: Iterable[Any]) -> Iterator[bytes]:
    """The bytes of a sequence."""
    for record in records:
        yield MARK + json.dumps(record).encode() + b"\n"


def read(pieces: Iterable[bytes], thing: str) -> Iterator[dict[str, Any]]:
    """The objects of a sequence whose bytes come in pieces; a Failure where one is not whole."""
    held, is_begun = bytearray(), False
    for piece in pieces:
        held += piece
        if not is_begun and held:
            if not held.startswith(MARK):
                raise Failure(thing, CUT)
            is_begun = True
            del held[:1]
        *whole, rest = held.split(MARK)
        for text in whole:
            yield record(bytes(text), thing)
        held = rest
        if len(held) > MOST:
            raise Failure(thing, f"it has a text of over {MOST:,} bytes; look what it is")
    if not is_begun:
        raise Failure(thing, CUT)
    yield record(bytes(held), thing)


def record(text: bytes, thing: str) -> dict[str, Any]:
    """An object of a sequence, which ends with the end of a line, or else may be cut off."""
    try:
        found = json.loads(text)
    except (ValueError, RecursionError):
        raise Failure(thing, CUT) from None
    if not text.endswith(b"\n") or not isinstance(found, dict):
        raise Failure(thing, CUT)
    return found

"""Letters in two encodings: a plain second reading of what an import makes of them."""

import re
from typing import TypeVar

# UTF-8 (RFC 3629, 4).
UTF8 = re.compile(
    rb"(?:[\x00-\x7f]|[\xc2-\xdf][\x80-\xbf]|\xe0[\xa0-\xbf][\x80-\xbf]"
    rb"|[\xe1-\xec\xee\xef][\x80-\xbf]{2}|\xed[\x80-\x9f][\x80-\xbf]"
    rb"|\xf0[\x90-\xbf][\x80-\xbf]{2}|[\xf1-\xf3][\x80-\xbf]{3}|\xf4[\x80-\x8f][\x80-\xbf]{2})*"
)
# Those of windows-1252 from 0x80 to 0x9f; five bytes have none, and are what Latin-1 says.
WINDOWS = "€\x81‚ƒ„…†‡ˆ‰Š‹Œ\x8dŽ\x8f\x90‘’“”•–—˜™š›œ\x9džŸ"
# A line: bytes, or as many characters, each of which is a byte.
Line = TypeVar("Line", str, bytes)


def is_utf8(line: str | bytes) -> bool:
    return UTF8.fullmatch(line if isinstance(line, bytes) else line.encode("latin-1")) is not None


def are_other(attributes: list[tuple[Line, list[Line]]]) -> bool:
    """Whether the lines of an object are not UTF-8: one of them that is not is enough."""
    return not all(is_utf8(line) for _, lines in attributes for line in lines)


def in_utf8(attributes: list[tuple[Line, list[Line]]]) -> list[tuple[Line, list[Line]]]:
    """The lines of an object that are not UTF-8, in UTF-8."""
    return [(name, [converted(line) for line in lines]) for name, lines in attributes]


def converted(line: Line) -> Line:
    if isinstance(line, str):
        return converted(line.encode("latin-1")).decode("latin-1")
    return "".join(
        WINDOWS[byte - 0x80] if 0x80 <= byte < 0xA0 else chr(byte) for byte in line
    ).encode()

"""RPSL text (RFC 2622, 2): paragraphs of attributes, what their values mean, and canonical text."""

import re
from collections.abc import Iterator

BLANKS = b" \t\r"
MOST_BYTES = 65_536
ATTRIBUTE_NAME = re.compile(rb"[A-Za-z][A-Za-z0-9_-]{0,63}")
BAD_BYTE = re.compile(rb"[\x00-\x08\x0a-\x0c\x0e-\x1f\x7f]")


def blocks(text: bytes) -> Iterator[list[bytes]]:
    """The runs of lines between blank ones, each with its line ends, from its first line that is
    not skipped on."""
    held: list[bytes] = []
    for line in lines_of(text):
        if not line.rstrip(b"\n").strip(BLANKS):
            if held:
                yield held
            held = []
        elif held or not is_skipped(line):
            held.append(line)
    if held:
        yield held


def lines_of(text: bytes) -> list[bytes]:
    """The lines of a text with their ends, cut at LF alone."""
    parts = text.split(b"\n")
    return [part + b"\n" for part in parts[:-1]] + ([parts[-1]] if parts[-1] else [])


def is_skipped(line: bytes) -> bool:
    return line[:1] in (b"#", b"%")


def read(block: list[bytes]) -> list[tuple[bytes, list[bytes]]] | str:
    """The attributes of a block, each a name and lines, or the code of its fault."""
    if sum(map(len, block)) > MOST_BYTES:
        return "E07"
    attributes: list[tuple[bytes, list[bytes]]] = []
    for line in block:
        line = line.rstrip(b"\n")
        if is_skipped(line):
            continue
        if BAD_BYTE.search(line):
            return "E01"
        if line[:1] in (b" ", b"\t", b"\r", b"+"):
            if not attributes:
                return "E01"
            attributes[-1][1].append(line[1:].strip(BLANKS))
            continue
        name, colon, value = line.partition(b":")
        name = name.rstrip(BLANKS)
        if not colon or not ATTRIBUTE_NAME.fullmatch(name):
            return "E01"
        attributes.append((name.lower(), [value.strip(BLANKS)]))
    return attributes


def meaning(lines: list[bytes]) -> bytes:
    """What a value says: its lines without comments, joined by one space."""
    return b" ".join(line.partition(b"#")[0].strip(BLANKS) for line in lines).strip(BLANKS)


def canonical(attributes: list[tuple[bytes, list[bytes]]]) -> bytes:
    """The one text that stands for the attributes."""
    out = []
    for name, lines in attributes:
        head = name + b":"
        out.append(head.ljust(15) + b" " + lines[0] if lines[0] else head)
        out += [b" " * 16 + line if line else b"+" for line in lines[1:]]
    return b"".join(line + b"\n" for line in out)

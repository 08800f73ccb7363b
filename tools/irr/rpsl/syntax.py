"""RPSL text as the program reads it (RFC 2622, 2): blocks of lines between blank ones, the
attributes of a block, and canonical text.

All of it is bytes, since a registry's text is in no one encoding. Lines end in LF alone; a blank is
a space, a tab or a CR.
"""
import functools
import re
from typing import BinaryIO, Callable, Iterable, Iterator, NamedTuple

from irr.errors import Unreadable

BLANKS = b" \t\r"
LARGEST = 65_536
NAME = re.compile(rb"[A-Za-z][A-Za-z0-9_-]{0,63}")
ITEM = re.compile(rb"[^, \t\r\n]+")
BAD_BYTE = re.compile(rb"[\x00-\x08\x0b\x0c\x0e-\x1f\x7f]")
# The end of a line with the lines of blanks after it.
BETWEEN = re.compile(rb"\n[ \t\r]*\n(?:[ \t\r]*\n)*")
# Whole lines that are skipped, and any line.
SKIPPED, LINE = re.compile(rb"(?:[#%][^\n]*\n)+"), re.compile(rb"[^\n]*\n|[^\n]+")
CHUNK = 1 << 20
# What a line begins with that is skipped, and that goes on with the attribute before it.
PASSED_OVER, CONTINUED = frozenset((b"#", b"%")), frozenset((b" ", b"\t", b"\r", b"+"))
# The end of the last one of several objects in a text, at which it may be cut in two; 0 for none.
Seam = Callable[[bytes], int]
# Those of some lines which are noted even if they are not kept, each with its number; the number
# of the first line is given.
Marked = Callable[[bytes, int], list[tuple[int, bytes]]]


class TextFault(Unreadable):
    """What keeps a block from being a paragraph: the code that the program gives it, a sentence,
    and the line of the block, from 0."""

    def __init__(self, code: str, sentence: str, line: int = 0) -> None:
        super().__init__(sentence)
        self.code, self.sentence, self.line = code, sentence, line


class Attribute(NamedTuple):
    """An attribute: its name in small letters, and the lines of its value, each trimmed."""

    name: bytes
    lines: list[bytes]

    def meaning(self) -> bytes:
        """What the value says: its lines without comments, joined by one space."""
        if len(self.lines) == 1:
            return self.lines[0].partition(b"#")[0].strip(BLANKS)
        return b" ".join(line.partition(b"#")[0].strip(BLANKS) for line in self.lines).strip(BLANKS)

    def text(self) -> bytes:
        """Its canonical lines."""
        first = self.name + b":"
        if self.lines[0]:
            first = first.ljust(15) + b" " + self.lines[0]
        if len(self.lines) == 1:
            return first + b"\n"
        return b"".join(
            line + b"\n"
            for line in [first, *(b" " * 16 + line if line else b"+" for line in self.lines[1:])]
        )

    def short_text(self) -> bytes:
        """Its lines with as few blanks as can be: what was read once never grows by it."""
        lines = [
            self.name + b":" + self.lines[0],
            *(b" " + line if line else b"+" for line in self.lines[1:]),
        ]
        return b"".join(line + b"\n" for line in lines)


class Block(NamedTuple):
    """The lines of one paragraph as they came: the number of the first one in the text, their size
    in bytes, and the lines with their ends, of which there may be fewer bytes than the size where
    the reader was told to keep no more; and what is noted of the lines that are not kept whole."""

    line: int
    size: int
    text: bytes
    beyond: tuple[tuple[int, bytes], ...] = ()


class Paragraph:
    """The attributes of a paragraph."""

    def __init__(self, attributes: list[Attribute]) -> None:
        self.attributes = attributes

    @property
    def name(self) -> bytes:
        """The name of the first attribute, which is the class of an object; nothing in a paragraph
        without any."""
        return self.attributes[0].name if self.attributes else b""

    def has(self, name: bytes) -> bool:
        return any(attribute.name == name for attribute in self.attributes)

    def values(self, name: bytes) -> list[bytes]:
        """What each attribute of a name says, in order."""
        return [attribute.meaning() for attribute in self.attributes if attribute.name == name]

    def value(self, name: bytes) -> bytes:
        """What the first attribute of a name says; nothing where there is none."""
        return next(iter(self.values(name)), b"")

    def items(self, name: bytes) -> list[bytes]:
        """The items of the list that all attributes of a name make together."""
        return ITEM.findall(b" ".join(self.values(name)))

    def without(self, *names: bytes) -> "Paragraph":
        """The same without the attributes of these names."""
        return Paragraph(
            [attribute for attribute in self.attributes if attribute.name not in names]
        )

    def text(self) -> bytes:
        """Canonical text."""
        return b"".join([attribute.text() for attribute in self.attributes])

    def fitting_text(self) -> bytes:
        """Canonical text; with as few blanks as can be if the registry would not take so much."""
        text = self.text()
        if len(text) <= LARGEST:
            return text
        return b"".join([attribute.short_text() for attribute in self.attributes])


def read(text: bytes) -> Paragraph:
    """The paragraph that a block's lines are; raises TextFault with E07 or E01."""
    if len(text) > LARGEST:
        raise TextFault("E07", f"it is over {LARGEST:,} bytes")
    return read_any(text)


def read_any(text: bytes) -> Paragraph:
    """The same of a block of any size, as answers and dumps have them: canonical text may be longer
    than what was submitted."""
    attributes: list[Attribute] = []
    has_bad = BAD_BYTE.search(text)
    for number, line in enumerate(text.removesuffix(b"\n").split(b"\n")):
        mark = line[:1]
        if mark in PASSED_OVER:
            continue
        if has_bad and BAD_BYTE.search(line):
            raise TextFault("E01", "it has a control character", number)
        if mark in CONTINUED:
            if not attributes:
                raise TextFault("E01", "it begins with a continuation line", number)
            attributes[-1].lines.append(line[1:].strip(BLANKS))
            continue
        front, colon, value = line.partition(b":")
        if not colon:
            raise TextFault("E01", "it has a line without a colon", number)
        name = name_of(front)
        if name is None:
            raise TextFault(
                "E01", "it has a line whose name is not the name of an attribute", number
            )
        attributes.append(Attribute(name, [value.strip(BLANKS)]))
    return Paragraph(attributes)


@functools.lru_cache(1 << 12)
def name_of(front: bytes) -> bytes | None:
    """The name that stands before a colon, in small letters; None where it is none."""
    name = front.rstrip(BLANKS)
    return name.lower() if NAME.fullmatch(name) else None


def line_numbers(text: bytes) -> list[list[int]]:
    """For each attribute of a block that can be read, the lines of the block on which it stands,
    from 0."""
    found: list[list[int]] = []
    for number, line in enumerate(text.removesuffix(b"\n").split(b"\n")):
        if line[:1] in PASSED_OVER:
            continue
        if line[:1] in CONTINUED:
            found[-1].append(number)
        else:
            found.append([number])
    return found


def chunks(source: BinaryIO) -> Iterator[bytes]:
    """A file in pieces; what has come of a pipe is not waited with."""
    read_some = getattr(source, "read1", source.read)
    while chunk := read_some(CHUNK):
        yield chunk


def blocks(
    source: Iterable[bytes],
    most: int | None = None,
    seam: Seam = lambda _: 0,
    marked: Marked = lambda _, __: [],
) -> Iterator[Block]:
    """The blocks of a text that comes in pieces (`chunks(file)`, `Server.dump()`, or `[text]`), in
    memory that grows with one block.

    Lines that are skipped (`#` or `%` first) stay in the block that they stand in, but for those
    before its first other line. Of these each is a block by itself in which `marked` finds
    anything. A block of more than `most` bytes is cut in two where `seam` has a place for that in
    its first `most` + CHUNK bytes; otherwise the first `most` are kept, and of the lines that are
    not kept whole the block has what `marked` finds. The blocks of a text are the same whatever
    its pieces."""
    # What is held begins with the LF before its first line, of which `line` were before it.
    held, line, lost = bytearray(b"\n"), 0, Lost()
    for chunk in source:
        # A line of blanks may have come in part: it begins after the last LF.
        tail, start = held.rfind(b"\n"), 0
        held += chunk
        for found in BETWEEN.finditer(held, tail):
            text = bytes(held[start + 1 : found.start() + 1])
            yield from block_of(text, line + 1, lost, most, seam, marked)
            line += held.count(b"\n", start + 1, found.end()) + lost.lines
            start, lost = found.end() - 1, Lost()
        del held[:start]
        while most is not None and len(held) > most + CHUNK + 1:
            skipped = SKIPPED.match(held, 1)
            end = skipped.end() - 1 if skipped else 0
            if skipped:
                yield from passed(bytes(skipped[0]), line + 1, marked)
            if not skipped and not lost.size:
                end = seam(bytes(held[1 : most + CHUNK + 1]))
                if end:
                    yield Block(line + 1, end, bytes(held[1 : end + 1]))
            if end:
                line += held.count(b"\n", 1, end + 1)
                del held[1 : end + 1]
                continue
            tail = held.rfind(b"\n")
            if tail > most + 1:
                lost.note(bytes(held[1 : tail + 1]), line + 1, most, marked)
                lost.size += tail - most - 1
                lost.lines += held.count(b"\n", most + 1, tail)
                del held[most + 1 : tail]
            break
    last = bytes(held[1:])
    if not last[last.rfind(b"\n") + 1 :].strip(BLANKS):
        last = last[: last.rfind(b"\n") + 1]
    yield from block_of(last, line + 1, lost, most, seam, marked)


class Lost:
    """What is not kept of a block: how many bytes and ends of lines, and what is noted of its
    lines."""

    def __init__(self) -> None:
        self.size, self.lines = 0, 0
        self.noted: list[tuple[int, bytes]] = []

    def note(self, text: bytes, line: int, most: int, marked: Marked) -> None:
        """Notes the lines that are not whole in the first bytes of a text, which is
        without what was lost before."""
        begin = most + 1 if self.size else text.rfind(b"\n", 0, most) + 1
        self.noted += marked(text[begin:], line + text.count(b"\n", 0, begin) + self.lines)


def block_of(
    text: bytes, line: int, lost: Lost, most: int | None, seam: Seam, marked: Marked
) -> Iterator[Block]:
    """The block of these lines, if any of them is not skipped; or two of them."""
    skipped = SKIPPED.match(text)
    if skipped:
        yield from passed(skipped[0], line, marked)
        line += text.count(b"\n", 0, skipped.end())
        text = text[skipped.end() :]
    if most is not None and not lost.size:
        while len(text) > most and (end := seam(text[: most + CHUNK])):
            yield Block(line, end, text[:end])
            line += text.count(b"\n", 0, end)
            text = text[end:]
    if text[:1] in PASSED_OVER:
        yield from passed(text, line, marked)
    elif text:
        if most is not None and len(text) > most:
            lost.note(text, line, most, marked)
        yield Block(line, len(text) + lost.size, text[:most], tuple(lost.noted))


def passed(text: bytes, line: int, marked: Marked) -> Iterator[Block]:
    """The lines of a text that are skipped of which anything is noted, each by itself."""
    if marked(text, line):
        for number, own in enumerate(LINE.findall(text), line):
            if marked(own, number):
                yield Block(number, len(own), own)


def one_block(lines: Iterable[bytes]) -> bytes:
    """The lines of an object that came by itself, without their ends, as one block: a line of
    blanks, which would end it in a text, goes on with the attribute before it."""
    text, blanks = b"", b""
    for line in lines:
        if line.strip(BLANKS):
            text, blanks = text + blanks + line + b"\n", b""
        elif text:
            blanks += b"+\n"
    return text


def paragraphs(source: Iterable[bytes]) -> Iterator[Paragraph]:
    """The paragraphs of a dump or an answer, which has no faults and may have paragraphs of any
    size."""
    for block in blocks(source):
        yield read_any(block.text)

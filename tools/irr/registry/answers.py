"""What the registry answers: objects, lines of an expansion, one of the lines that begin with `% `,
reports, and dumps."""
import functools
import re
from typing import Any, Iterable, Iterator, NamedTuple

from irr.errors import Failure, reading
from irr.registry import queries
from irr.rpsl import keys, syntax
from irr.rpsl.keys import Key, Range
from irr.rpsl.syntax import Paragraph

ERRORS = {
    1: "this is not a query; see `irr query --help`",
    2: "a query has 1,024 bytes at most",
    3: "the expansion reaches more names than the registry's limit",
    4: "the server ran out of memory; ask again later",
    5: "the server's database failed; tell the registry's operator",
    6: "the registry is stopped, because its database failed before; tell its operator",
}
ERROR = re.compile(rb"% error ([1-6])\n")
EXPANSION = re.compile(
    rb"AS[0-9]{1,10}|[0-9.]{7,15}/[0-9]{1,2}(?:\^(?:[+-]|[0-9]{1,2}(?:-[0-9]{1,2})?))?"
)
MISSING = b"% missing "
ITEM = re.compile(
    r"([0-9]{1,18}) (-|[a-z-]+ [A-Za-z0-9./:_ -]+): "
    r"(added|changed|unchanged|deleted|refused (E[0-9]{2}))"
)
END = re.compile(
    r"% (?:items ([0-9]{1,18})|read fault after ([0-9]{1,18}) items"
    r"|stopped after ([0-9]{1,18}) items|memory after (0) items)"
)
# A name has 255 bytes at most.
LONGEST_LINE = 1_024
# An object of 65,536 bytes, whose lines are three bytes each, has six times as many when it is
# printed.
LONGEST_OBJECT = 1 << 20
NO_REGISTRY = "answers what no registry of irrdesk answers"
DUMP_END = re.compile(rb"% end ([0-9]+)\n")


class Strange(Failure):
    """What was asked answers what no registry of irrdesk answers."""

    def __init__(self, place: str, who: str = "it") -> None:
        super().__init__(place, f"{who} {NO_REGISTRY}; correct the address")


class Answer:
    """The whole answer to a query: one that this query can have, exactly. Any other one, or one
    whose end is missing, is a Failure; that one was cut between two objects or two lines can't be
    seen in it (`Server.query_surely` asks again)."""

    @reading("the server's answer")
    def __init__(self, text: bytes, query: bytes | str, place: str = "the answer") -> None:
        self.text = text
        self.kind = kind_of(text)
        if self.kind == "cut":
            raise Failure(place, "the answer was cut off; ask again")
        # The keys of its objects: where they are enough, the objects are not read again.
        self.keys = checked(
            text, self.kind, query.encode() if isinstance(query, str) else query, place
        )

    @property
    def error(self) -> int:
        """The number of `% error n`, 0 for any other answer."""
        found = ERROR.fullmatch(self.text)
        return int(found[1]) if found else 0

    @property
    def has_none(self) -> bool:
        """`% no entries`: there is no such object, or the set is not registered."""
        return self.kind == "none"

    @property
    def is_empty(self) -> bool:
        """`% empty`: the set is registered, and gives nothing."""
        return self.kind == "empty"

    @reading("the server's answer")
    def objects(self) -> list[Paragraph]:
        """The objects of the answer, none if it is another one."""
        return list(syntax.paragraphs([self.text])) if self.kind == "objects" else []

    def lines(self) -> list[str]:
        """The AS numbers or ranges of an expansion, without the names that are missing."""
        return split_lines(self.text)[0] if self.kind == "expansion" else []

    def missing(self) -> list[str]:
        """The names of sets that the expansion reached and that are not registered."""
        return split_lines(self.text)[1] if self.kind == "expansion" else []

    def is_cut_of(self, other: "Answer") -> bool:
        """Whether another answer goes on where this one ends."""
        return len(other.text) > len(self.text) and other.text.startswith(self.text)

    def words(self) -> str:
        """An error or a lack in words; nothing for an answer that has something."""
        if self.error:
            return ERRORS[self.error]
        if self.has_none:
            return "nothing is registered there"
        return "the set is registered, and has no members" if self.is_empty else ""

    def or_failure(self, thing: str) -> "Answer":
        """The answer itself, if it is not an error."""
        if self.error:
            raise Failure(thing, f"the registry answers % error {self.error}: {ERRORS[self.error]}")
        return self


def kind_of(text: bytes) -> str:
    """What an answer is: `error n`, `none`, `empty`, `objects` or `expansion`; `cut` if its end is
    missing, `strange` if no registry says so."""
    if not text.endswith(b"\n"):
        return (
            "cut"
            if not text
            or looks_like_objects(text)
            or text[:1] in (b"%", b"A")
            or text[:1].isdigit()
            else "strange"
        )
    if text in (b"% no entries\n", b"% empty\n"):
        return "none" if text == b"% no entries\n" else "empty"
    if ERROR.fullmatch(text):
        return text[2:-1].decode()
    if looks_like_objects(text):
        return "objects" if text.endswith(b"\n\n") else "cut"
    lines = text.split(b"\n")[:-1]
    good = all(EXPANSION.fullmatch(line) or line.startswith(MISSING) for line in lines)
    return "expansion" if good else "strange"


def first_objects(pieces: Iterable[bytes], most: int) -> bytes:
    """An answer up to the end of so many of its objects, each of which is followed by an empty
    line, and the only one that it has; the rest is not read."""
    text, count, place = bytearray(), 0, 0
    for piece in pieces:
        text += piece
        while (end := text.find(b"\n\n", place)) >= 0:
            count, place = count + 1, end + 2
            if count == most:
                return bytes(text[:place])
        place = max(place, len(text) - 1)
    return bytes(text)


@functools.lru_cache(1)
def checked(text: bytes, kind: str, query: bytes, place: str) -> list[Key]:
    """The keys of an answer's objects; a Failure unless the query can have it. One that is asked
    for twice is looked at once."""
    wanted = queries.read(query)
    if kind not in wanted.kinds:
        raise Strange(place)
    if kind == "expansion" and not is_expansion(*split_lines(text), wanted):
        raise Strange(place)
    found = []
    for key, paragraph in registered([text] if kind == "objects" else [], place):
        if not wanted.fits or not wanted.fits(key, paragraph):
            raise Strange(place)
        found.append(key)
    # The closest inetnum is one, and the closest routes have one prefix.
    if wanted.is_closest and len({key.text.partition(" AS")[0] for key in found}) > len(
        {key.kind for key in found}
    ):
        raise Strange(place)
    return found


def split_lines(text: bytes) -> tuple[list[str], list[str]]:
    """The lines of an expansion, and the names of what is missing, in the order in which they came
    where the missing ones are last."""
    lines = text.decode("ascii", "replace").split("\n")[:-1]
    first = next((place for place, line in enumerate(lines) if line.startswith("%")), len(lines))
    return lines[:first], [line.removeprefix(MISSING.decode()) for line in lines[first:]]


def is_expansion(lines: list[str], missing: list[str], wanted: queries.Asked) -> bool:
    """Whether a set can have these lines: each as it is printed, in order, and once."""
    is_as_set = keys.set_class(wanted.name) == "as-set"
    found: list[Range | int | None] = [
        keys.read_range(line) if wanted.has_ranges else keys.read_as(line) for line in lines
    ]
    for line, one in zip(lines, found):
        if isinstance(one, Range):
            # No operator stands in an as-set, and neither of these has one.
            if (
                one.low > one.high
                or (is_as_set or wanted.name == "RS-ANY")
                and one.high > one.prefix.length
                or one.text() != line
            ):
                return False
        elif one is None or f"AS{one}" != line:
            return False
    for name in missing:
        if (
            keys.read_set(name) != name
            or name in (*queries.ANY, wanted.name)
            or is_as_set
            and keys.set_class(name) != "as-set"
        ):
            return False
    return (
        is_ascending(found)
        and is_ascending(missing)
        and not (missing and wanted.name in queries.ANY)
    )


def is_ascending(values: list[Any]) -> bool:
    return all(first < second for first, second in zip(values, values[1:]))


@reading("the server's answer")
def registered(
    pieces: Iterable[bytes], place: str, is_dump: bool = False
) -> Iterator[tuple[Key, Paragraph]]:
    """The objects of an answer or a dump, each in canonical text, and in order; a Failure at what
    no registry has, and after the last one where bytes are left over."""
    size, count, source = 0, 0, b""
    before: tuple[int, list[int], str] = 0, [], ""

    def counted() -> Iterator[bytes]:
        nonlocal size
        for piece in pieces:
            size += len(piece)
            yield piece

    for block in syntax.blocks(counted()):
        paragraph = read(block.text, place)
        key = keys.key_of(paragraph)
        if key is None or paragraph.text() != block.text or not queries.is_sound(key, paragraph):
            raise Strange(place)
        own, order = paragraph.value(b"source").upper(), keys.order(key)
        if count and (own != source or before >= order):
            raise Strange(place)
        source, before, count = own, order, count + 1
        # Objects are followed by one empty line each, and nothing stands between them: what is
        # skipped in RPSL neither.
        size -= len(block.text) + 1
        yield key, paragraph
    if size != (len(b"%% end %d\n" % count) if is_dump else 0):
        raise Strange(place)


@reading("the server's answer")
def dumped(pieces: Iterable[bytes], place: str) -> Iterator[tuple[Key, Paragraph]]:
    """The objects of a dump that `whole_dump` gives."""
    return registered(pieces, place, True)


@reading("the server's answer")
def read(text: bytes, place: str) -> Paragraph:
    """An object that the registry at a place answered, of which no more is known than that it can
    be read."""
    try:
        return syntax.read_any(text)
    except syntax.TextFault:
        raise Strange(place) from None


@reading("the server's answer")
def source_of(text: bytes, place: str) -> str:
    """The name of the registry at a place, as an object of it has it."""
    source = keys.as_text(read(text, place).value(b"source"))
    if keys.read_source(source) is None:
        raise Strange(place)
    return source


def looks_like_objects(text: bytes) -> bool:
    """Whether it begins as an object of the registry's classes does, in canonical text."""
    name, colon, _ = text.partition(b"\n")[0].partition(b":")
    return bool(colon) and name.decode("latin-1") in keys.CLASSES


class Item(NamedTuple):
    """A line of a report: the item's number, its class and key as they are printed, or `-`, the
    word, and the code if it was refused."""

    number: int
    name: str
    word: str
    code: str

    @property
    def key(self) -> keys.Key | None:
        """The class and key, if they could be read."""
        kind, _, text = self.name.partition(" ")
        return keys.Key(kind, text) if text else None

    def text(self) -> str:
        return f"{self.number} {self.name}: {'refused ' + self.code if self.code else self.word}"


class Report:
    """The report of a submission, or of a part of one before which so many items were decided, as
    it comes: how many items it has so far, and how it ended, which is `items`, `read fault`,
    `stopped`, `memory`, or nothing as long as its end has not come."""

    def __init__(self, before: int = 0) -> None:
        self.before, self.seen, self.end, self.count = before, 0, "", 0
        self.is_ordered = True
        self.rest = b""

    @reading("the server's answer")
    def read(self, piece: bytes) -> Iterator[Item]:
        """The items whose lines end in this piece, numbered through all parts."""
        text, newline, self.rest = (self.rest + piece).rpartition(b"\n")
        if len(self.rest) > LONGEST_LINE:
            raise Strange("the report", "the server")
        for line in text.decode("latin-1").split("\n") if newline else []:
            found = None if self.end else ITEM.fullmatch(line)
            if found:
                number, name, word, code = found.groups()
                self.seen += 1
                self.is_ordered = self.is_ordered and int(number) == self.seen
                yield Item(self.before + self.seen, name, "refused" if code else word, code or "")
            else:
                self.read_end(line)

    def read_end(self, line: str) -> None:
        """Takes the line that ends the report."""
        found = None if self.end else END.fullmatch(line)
        if not found:
            raise Strange("the report", "the server")
        self.end = line[2:].split(" after")[0].split(" items")[0].rstrip("0123456789 ")
        self.count = int(next(number for number in found.groups() if number is not None))

    @property
    def is_whole(self) -> bool:
        """Whether all that was sent was read, and all of its items were here."""
        return self.end == "items" and self.is_ordered and self.seen == self.count and not self.rest


@reading("the server's answer")
def whole_dump(pieces: Iterable[bytes], place: str) -> Iterator[bytes]:
    """A dump in pieces, as it comes; a Failure after the last one unless it ends with the number of
    its objects. Each registry has some."""
    tail, objects, size, has_begun = b"", 0, 0, False
    for piece in pieces:
        if not has_begun and (b"\n" in piece or len(tail + piece) > 16):
            if not looks_like_objects(tail + piece):
                raise Strange(place)
            has_begun = True
        # Each object is followed by an empty line, and has none in it.
        joined = tail[-1:] + piece
        objects += joined.count(b"\n\n")
        last = joined.rfind(b"\n\n")
        size = size + len(piece) if last < 0 else len(joined) - last
        if size > LONGEST_OBJECT:
            raise Strange(place)
        tail = (tail + piece)[-64:]
        yield piece
    end = DUMP_END.fullmatch(tail[tail.rfind(b"\n", 0, -1) + 1 :])
    if not end or int(end[1]) != objects:
        raise Failure(place, "the dump was cut off; fetch it again")


def json_text(paragraph: Paragraph) -> str:
    """An object as one line of JSON: class, key, and its attributes in order, with repeats."""
    import json
    from irr.terminal.texts import text_of

    key = keys.key_of(paragraph)
    attributes = [
        [text_of(attribute.name), text_of(b"\n".join(attribute.lines))]
        for attribute in paragraph.attributes
    ]
    return json.dumps(
        {
            "class": text_of(paragraph.name),
            "key": key.text if key else None,
            "attributes": attributes,
        }
    )


@reading("the server's answer")
def json_lines(answer: Answer) -> Iterator[str]:
    """The lines of an expansion as lines of JSON."""
    import json

    for line in answer.lines():
        yield json.dumps({"member": line})
    for name in answer.missing():
        yield json.dumps({"missing": name})

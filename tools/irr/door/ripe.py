"""RIPE's dialect of whois: its flags, plain look-ups of what no query of the registry is, its `%`
lines and its numbers of errors.

It answers of the classes that are kept here. What is not (IPv6, persons, domains, mail) is not
found, as RIPE says it.
"""

import re
from typing import AsyncIterator, Optional

from irr import VERSION
from irr.door import queries, templates
from irr.door.dialects import Reply
from irr.door.flags import Bad, Flags, read
from irr.door.pool import Refused
from irr.door.queries import Asker
from irr.rpsl import holders, keys, syntax
from irr.rpsl.keys import Prefix, Span
from irr.terminal import texts

# What inverse look-ups there are, by what the registry's own can tell.
BY_MAINTAINER = ("mnt-by", "mnt-lower", "mnt-routes", "mbrs-by-ref")
PLACED = ("inetnum", "route")
# The prefixes that a range of addresses is asked for by, at most.
MOST_PIECES = 64
# How many lines a client may have to read before the answer.
ROUTE_KEY = re.compile(r"([0-9./]+) ?(AS[0-9]+)", re.I)


async def answer(asker: Asker, line: bytes, stays: bool) -> Reply:
    """The reply to a line. `-k` begins a kept connection, and alone ends it too."""
    source, main = asker.pool.source, asker.pool.views.main
    try:
        flags = read(line.decode("latin-1").strip())
        if "k" in flags.letters:
            if not flags.key and not flags.words:
                return Reply(b"" if stays else b"\n", "answered", not stays)
            stays = True
        if "g" in flags.words:
            return await mirrored(Asker(main, asker.client, asker.address), flags.words["g"], stays)
        body, outcome, cost = await found(asker, flags)
    except Bad as bad:
        return Reply(
            head(source) + error(bad) + b"\n", "nothing" if bad.number == 101 else "error", stays
        )
    except Refused as refused:
        return Reply(head(source) + error(refusal(refused)) + b"\n", refused.word, stays)
    text = b"".join([head(source), *body, foot()])
    own = asker.own(text, cost)
    return Reply(own.text, outcome, stays, own)


def head(source: str) -> bytes:
    name = source or "this registry"
    return (
        f"% This is the {name} registry's query service.\n% The objects are in RPSL format.\n%\n"
        "% IPv6, persons and mail are not kept here.\n\n"
    ).encode()


def foot() -> bytes:
    return f"% This query was served by irrdesk's door, version {VERSION}\n\n\n".encode()


def error(bad: Bad) -> bytes:
    lines = [f"%ERROR:{bad.number}: {bad.title}", "%", *(f"% {line}" for line in bad.lines), ""]
    return "".join(f"{texts.shown_line(line)}\n" for line in lines).encode("utf-8", "replace")


def refusal(refused: Refused) -> Bad:
    """What the door refuses, under RIPE's numbers."""
    if refused.word == "budget":
        seconds = f"Ask again after {refused.seconds} seconds."
        return Bad(
            201,
            "access denied",
            "Too much of the registry's time was used from your address.",
            seconds,
        )
    if refused.word == "long":
        return Bad(
            112, "query result too long", f"{refused.sentence[0].upper()}{refused.sentence[1:]}."
        )
    if refused.word == "down":
        return Bad(
            301, "connection has been closed", "The registry does not answer; ask again later."
        )
    return Bad(208, "the server is busy", f"{refused.sentence[0].upper()}{refused.sentence[1:]}.")


def too_long(source: str) -> bytes:
    """The reply to a line that is longer than any."""
    return head(source) + error(Bad(107, "input line too long")) + b"\n"


def none(source: str) -> Bad:
    return Bad(101, "no entries found", f"No entries found in source {source or 'here'}.")


async def found(asker: Asker, flags: Flags) -> tuple[list[bytes], str, float]:
    """The parts of an answer between its head and its foot, the word under which it is counted, and
    what it cost."""
    views = asker.pool.views
    if "q" in flags.words:
        own = Asker(views.main, asker.client, asker.address)
        return [about(own, flags.words["q"])], "answered", 0.0
    for letter in "t", "v":
        if letter in flags.words:
            return [templates.template(flags.words[letter])], "answered", 0.0
    if "s" in flags.words:
        chosen = views.chosen(flags.words["s"])
        if chosen is None:
            wanted = flags.words["s"].upper()
            raise Bad(102, "unknown source", f"'{wanted}' is not a known source; {views.known()}.")
        asker = Asker(chosen, asker.client, asker.address, flags.words["s"])
    source = asker.pool.source
    chosen_kinds = [templates.class_of(kind) for kind in flags.listed("T")]
    if not flags.key:
        raise Bad(106, "no search key specified")
    if len(flags.key) > 1_000:
        raise Bad(107, "input line too long")
    kinds = [one for one in chosen_kinds if one in keys.CLASSES] if "T" in flags.words else None
    parts: list[bytes] = []
    cost, count = 0.0, 0
    async for block, seconds in blocks(asker, flags, kinds):
        cost = max(cost, seconds)
        parts.append(shaped(block, flags) + b"\n")
        count += 1
    if not count:
        raise none(source)
    key = texts.shown_line(flags.key)
    return (
        [f"% Information related to '{key}'\n\n".encode("utf-8", "replace"), *parts],
        "answered",
        cost,
    )


async def mirrored(asker: Asker, word: str, stays: bool) -> Reply:
    """`-g`: what changed, for a mirror. An error is one line."""
    try:
        found_here = await asker.pool.mirrors.answer(word, asker)
    except Bad as bad:
        line = texts.shown_line(f"%ERROR:{bad.number}: {bad.title}")
        return Reply(f"{line}\n\n".encode(), "error", stays)
    if isinstance(found_here, bytes):
        return Reply(found_here, "nothing", stays)
    return Reply(b"", "answered", stays, body=found_here)


def about(asker: Asker, word: str) -> bytes:
    """`-q`: what there is."""
    if word == "sources":
        source, mirrors = asker.pool.source, asker.pool.mirrors
        first, last = mirrors.serials_of(source) or (0, 0)
        may = "Y" if last and mirrors.allows(asker.address) else "N"
        return f"{source}:3:{may}:{first}-{last}\n\n".encode()
    if word == "types":
        return "".join(f"{kind}\n" for kind in keys.CLASSES).encode() + b"\n"
    if word == "version":
        return f"% irrdesk's door, version {VERSION}\n\n".encode()
    raise Bad(104, "unknown attribute", f"-q takes sources, types or version, and not {word}.")


async def blocks(
    asker: Asker, flags: Flags, kinds: Optional[list[str]]
) -> AsyncIterator[tuple[bytes, float]]:
    """The objects that a line asks for, in order, and what the answer cost in which they were."""
    if kinds == []:
        return
    if "i" in flags.words:
        async for block, seconds in inverse(asker, flags):
            if kinds is None or queries.class_of(block).decode() in kinds:
                yield block, seconds
        return
    span = span_of(flags.key)
    if span is not None:
        async for block, seconds in placed(asker, flags, span, kinds):
            yield block, seconds
        return
    for query in plain(flags.key, kinds):
        async for block, seconds in objects(asker, query):
            yield block, seconds


async def objects(asker: Asker, query: str) -> AsyncIterator[tuple[bytes, float]]:
    """The objects of an answer."""
    answer = await asker.ask(query.encode("latin-1", "replace"))
    number = queries.error_of(answer.text)
    if number > 1:
        raise Bad(100, "internal software error", f"The registry answers error {number}.")
    if number or not queries.is_objects(answer.text):
        return
    async for piece in asker.pieces(answer.text, b"\n\n"):
        for block in queries.blocks(piece):
            yield block, answer.cost


def plain(key: str, kinds: Optional[list[str]]) -> list[str]:
    """The queries for a word that is no place: an object of each class whose key it can be."""
    route = ROUTE_KEY.fullmatch(key)
    wanted = [keys.read_key("route", route[1], route[2])] if route else []
    wanted += [keys.read_key(kind, key) for kind in keys.CLASSES if kind not in PLACED]
    return [one.query() for one in wanted if one and (kinds is None or one.kind in kinds)]


# Places.


def span_of(key: str) -> Optional[Span]:
    """The addresses that a key is: a prefix, an address, or a range of these."""
    place = keys.read_place(key)
    return place.span() if place else keys.read_span(key)


async def placed(
    asker: Asker, flags: Flags, span: Span, kinds: Optional[list[str]]
) -> AsyncIterator[tuple[bytes, float]]:
    """The inetnums and routes that a line asks for round a place; by themselves the closest that
    cover it."""
    which = flags.place
    wanted = [kind for kind in PLACED if kinds is None or kind in kinds]
    pieces = span.prefixes()
    if len(pieces) > MOST_PIECES:
        raise Bad(
            115, "invalid search key", "The range is made of too many prefixes; ask for a prefix."
        )
    query = "more" if which in ("m", "M") else "less"
    chosen = {kind: Chosen(span, which) for kind in wanted}
    cost = 0.0
    # What covers a range covers each of its prefixes; what is inside one of these, or is a part of
    # the range made of several, is inside a prefix round it.
    asked = pieces if which not in ("m", "M") or len(pieces) == 1 else [around(span)]
    for piece in asked if query == "more" else asked[:1]:
        async for block, seconds in objects(asker, f"{query} {piece.text()}"):
            cost = max(cost, seconds)
            own, kind = own_span(block), queries.class_of(block).decode()
            if own is not None and kind in chosen:
                chosen[kind].take(block, own)
    for kind in wanted:
        async for part in asker.some(chosen[kind].blocks):
            for block in part:
                yield block, cost


class Chosen:
    """Of the objects of a class, as they come in order, those that a flag asks for round a
    place."""

    def __init__(self, span: Span, which: Optional[str]) -> None:
        self.span, self.which = span, which
        self.blocks: list[bytes] = []
        # The spans of these.
        self.spans: list[Span] = []

    def take(self, block: bytes, own: Span) -> None:
        if not self.fits(own):
            return
        if self.which == "m":
            # Of what begins at one address the larger may come later; none of them cross.
            while self.spans and own != self.spans[-1] and own.covers(self.spans[-1]):
                self.drop()
            if self.spans and own != self.spans[-1] and self.spans[-1].covers(own):
                return
        elif self.which in (None, "l") and self.spans:
            if own.size > self.spans[-1].size:
                return
            while self.spans and own.size < self.spans[-1].size:
                self.drop()
        self.blocks.append(block)
        self.spans.append(own)

    def fits(self, own: Span) -> bool:
        if self.which in ("m", "M"):
            return self.span.covers(own) and own != self.span
        if self.which == "x":
            return own == self.span
        return own.covers(self.span) and (self.which != "l" or own != self.span)

    def drop(self) -> None:
        self.blocks.pop()
        self.spans.pop()


def around(span: Span) -> Prefix:
    """The smallest prefix round some addresses."""
    length = 32 - (span.first ^ span.last).bit_length()
    return Prefix(span.first >> 32 - length << 32 - length, length)


def own_span(block: bytes) -> Optional[Span]:
    return keys.read_span(queries.value_of(block, queries.class_of(block)))


# Inverse look-ups.


async def inverse(asker: Asker, flags: Flags) -> AsyncIterator[tuple[bytes, float]]:
    """`-i`: the objects whose attributes name the key."""
    wanted = [templates.inverse_of(name) for name in flags.listed("i")]
    seen: set[bytes] = set()
    for name in dict.fromkeys(wanted):
        async for block, seconds in inversely(asker, name, flags.key):
            if block not in seen:
                seen.add(block)
                yield block, seconds


async def inversely(asker: Asker, name: str, key: str) -> AsyncIterator[tuple[bytes, float]]:
    """The objects in which one attribute names the key. Of attributes that are text here nothing is
    known."""
    if name == "origin" and keys.read_as(key) is not None:
        async for found_one in objects(asker, f"inverse origin {key}"):
            yield found_one
    elif name in BY_MAINTAINER and (maintainer := keys.read_maintainer(key)):
        async for block, seconds in objects(asker, f"inverse mnt {maintainer}"):
            if names(syntax.read_any(block), name, maintainer):
                yield block, seconds
    elif name == "member-of" and (own := keys.read_set(key)):
        async for block, seconds in joined(asker, own):
            yield block, seconds


def names(paragraph: syntax.Paragraph, attribute: str, maintainer: str) -> bool:
    """Whether an attribute of an object names a maintainer."""
    if attribute == "mnt-routes":
        return maintainer in [grant.name for grant in holders.grants(paragraph)]
    return maintainer in holders.names(paragraph, attribute)


async def joined(asker: Asker, name: str) -> AsyncIterator[tuple[bytes, float]]:
    """The objects that join a set, by its maintainers as it lists them, each with the first of them
    that it names."""
    async for block, _ in objects(asker, f"object {keys.set_class(name)} {name}"):
        maintainers = holders.names(syntax.read_any(block), "mbrs-by-ref")
        if "ANY" in maintainers:
            raise Bad(
                114,
                "unsupported query",
                "The set takes members of anybody; ask expand, or IRRd's !i.",
            )
        for maintainer in maintainers:
            async for one, seconds in objects(asker, f"inverse mnt {maintainer}"):
                paragraph = syntax.read_any(one)
                by = holders.names(paragraph, "mnt-by")
                if maintainer == next(filter(by.__contains__, maintainers), ""):
                    if name in map(keys.read_set, paragraph.items(b"member-of")):
                        yield one, seconds


# The form of an object.


def shaped(block: bytes, flags: Flags) -> bytes:
    """An object as the flags want it: whole, its key and members alone, or in short."""
    if "K" not in flags.letters and "F" not in flags.letters:
        return block
    paragraph = syntax.read_any(block)
    if "K" in flags.letters:
        wanted = (
            (paragraph.name, b"origin")
            if paragraph.name == b"route"
            else (paragraph.name, b"members", b"mp-members")
        )
        paragraph = syntax.Paragraph([one for one in paragraph.attributes if one.name in wanted])
    if "F" in flags.letters:
        return b"".join(short(one) for one in paragraph.attributes)
    return paragraph.text()


def short(attribute: syntax.Attribute) -> bytes:
    name = templates.SHORT.get(keys.as_text(attribute.name), keys.as_text(attribute.name))
    first = f"*{name}:".encode() + (b" " + attribute.lines[0] if attribute.lines[0] else b"")
    rest = (b"+ " + line if line else b"+" for line in attribute.lines[1:])
    return b"".join(line + b"\n" for line in [first, *rest])

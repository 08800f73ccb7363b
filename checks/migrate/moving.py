"""A plain second reading of what `irr import` makes of a dump."""

import re
from collections.abc import Iterator
from typing import Any

from checks.migrate import letters
from checks.model import numbers
from checks.model.objects import (
    AS_BLOCK,
    AS_SET,
    CLASSES,
    INETNUM,
    ITEM,
    LOWER_IN,
    MEMBER_OF_IN,
    MNTNER,
    ROUTE,
    ROUTES_IN,
    SECRET_LINE,
    SETS,
    Key,
    Object,
    as_set_member,
    read_key,
    route_set_member,
    values,
)
from checks.model.registry import crosses
from checks.model.text import blocks, meaning, read

# Attributes with their lines; the lists of an object; its class and key; both of it.
Attributes = list[tuple[bytes, list[bytes]]]
Lists = dict[bytes, list[bytes]]
Order = tuple[int, Any]
Form = list[Any]
# What may be dropped from a list by itself, and the names of maintainers.
WORD = re.compile(rb"(?=[A-Za-z0-9])[A-Za-z0-9_.:/^-]*(?<=[A-Za-z0-9])")
MNT = re.compile(
    rb"(?![AR]S-)(?=.*[A-Z])(?![_-])[A-Z0-9_-]*(?<![_-])|[AR]S-([A-Z0-9_-]*-)?MNT", re.I
)
EXPRESSION = set(
    b"""ANY AS-ANY RS-ANY PEERAS AND OR NOT ATOMIC FROM TO AT ACTION ACCEPT ANNOUNCE EXCEPT REFINE
    NETWORKS INTO INBOUND OUTBOUND""".split()
)
IPV6 = re.compile(rb"[0-9A-Fa-f:.]*:[0-9A-Fa-f:.]*:[0-9A-Fa-f:.]*(/[0-9]+)?(\^.+)?")
TOKEN = re.compile(rb"[{}]|[^, \t\r{}]+")
ROOT, SOURCE, NOBODY = b"ROOT-MNT", b"TEST", b"FILTERED"
TOP = (1 << 32) - 1
SOURCE_LINE = re.compile(rb"source[ \t\r]*:", re.I)
UNSALTED = re.compile(rb"SHA256-PW " + SECRET_LINE.pattern, re.I)
# A registry before a name, and the classes that other registries have.
SCOPE = re.compile(rb"^([A-Za-z][A-Za-z0-9_-]*)::")
# A class and its key, right after a word.
JOINED = re.compile(
    rb"(?i)[a-z0-9.,](?:(?:aut-num|as-block):\s*as\d|(?:as-set|as-macro|route-set):\s*[ar]s[-\d]"
    rb"|(?:route|inetnum):\s*\d{1,3}[./]|(?:route6|inet6num):\s*[\da-f]{1,4}:"
    rb"|mntner:\s*(?:ma?i?nt-|[\w-]+-mnt\s*(?:#|\Z)))"
)
OF_CLASSES = set(CLASSES) | {b"person", b"role", b"inet6num", b"route6", b"organisation"}


class Out(Exception):
    """What is left out."""


def is_maintainer(item: bytes) -> bool:
    return MNT.fullmatch(item) is not None and item.upper() not in EXPRESSION


def lists_of(number: int) -> set[bytes]:
    """The attributes of a class that are lists."""
    return (
        {b"mnt-by"}
        | ({b"mnt-lower"} if number in LOWER_IN else set())
        | ({b"mnt-routes"} if number in ROUTES_IN else set())
        | ({b"member-of"} if number in MEMBER_OF_IN else set())
        | ({b"members", b"mbrs-by-ref"} if number in SETS else set())
    )


def is_of_two(number: int, attributes: Attributes) -> bool:
    """Whether a line is lost with which another object began: a list stands on both sides of
    `source`, or an `auth` has a class in it."""
    names = [name for name, _ in attributes]
    place = names.index(b"source") if b"source" in names else len(names)
    listed = lists_of(number) | ({b"auth"} if number == MNTNER else set())
    auths = [line for name, lines in attributes if name == b"auth" for line in lines]
    if number == MNTNER and any(
        re.search(rb"(?i)(%s)\s*:(?!:)" % b"|".join(OF_CLASSES), UNSALTED.sub(b"", line))
        for line in auths
    ):
        return True
    if any(JOINED.search(b":".join([name, b"\n".join(lines)])) for name, lines in attributes):
        return True
    return bool(listed & set(names[:place]) & set(names[place:]))


def parted(block: list[bytes]) -> Iterator[tuple[list[bytes], bool]]:
    """A paragraph's parts, and whether each is its first one: one more begins where a class
    directly follows `source`, but for what continues that and for comments."""
    start, goes_on = 0, False
    for place, line in enumerate(block):
        if line[:1] in (b" ", b"\t", b"\r", b"+", b"#", b"%"):
            continue
        if goes_on and line.partition(b":")[0].rstrip(b" \t\r").lower() in OF_CLASSES:
            yield block[start:place], not start
            start = place
        goes_on = bool(place > start and SOURCE_LINE.match(line))
    yield block[start:], not start


def is_cut(text: bytes, paragraphs: list[list[bytes]]) -> bool:
    """Whether the last paragraph of a text may have lost its end: the text ends within its last
    line, or it has no `source` and most others have one; comments by themselves after it are an
    end."""
    *others, last = [any(map(SOURCE_LINE.match, block[1:])) for block in paragraphs]
    end, own = text.rstrip(b" \t\r\n").rpartition(b"\n")[2], paragraphs[-1][-1]
    if end[:1] in (b"#", b"%") and end != own.rstrip(b" \t\r\n"):
        return False
    is_usual = others.count(True) > others.count(False)
    return end == own.rstrip(b" \t\r") or (is_usual and not last)


def without_end(block: list[bytes], text: bytes) -> list[bytes]:
    """The last paragraph of a text without its last line, if that may go on."""
    last = re.split(rb"[\n\r]", text)[-1]
    if not last.strip(b" \t\r"):
        return block
    own = block[-1].removesuffix(last)
    return [*block[:-1], own] if own.strip(b" \t\r") else block[:-1]


def unjoined(line: bytes) -> Iterator[bytes]:
    """The lines of which one was joined."""
    while found := JOINED.search(line):
        yield line[: found.start() + 1]
        line = line[found.start() + 1 :]
    yield line


class Second:
    """What was read of files: each object as its other attributes in order, and the items of each
    list, whatever their spelling."""

    def __init__(self, texts: list[bytes], auth: bytes) -> None:
        self.auth, self.read = auth, 0
        self.objects: dict[Order, Form] = {}
        self.causes: dict[str, int] = {}
        self.sources: dict[Order, bytes] = {}
        # The maintainers and sets that can't be read, and the registry of the last object.
        self.withheld: dict[Order, bytes | None] = {}
        # The registries of the objects that can be read, in their order.
        self.ranks: dict[bytes, None] = {}
        for text in texts:
            parts = [part for block in blocks(text) for part in parted(block)]
            paragraphs, self.last = [block for block, _ in parts], b""
            for place, (block, is_first) in enumerate(parts, 1):
                self.read += 1
                try:
                    attributes: Any = read(block)
                    try:
                        if place == len(paragraphs) and is_cut(text, paragraphs):
                            raise Out("cut off")
                        if not is_first and not any(map(SOURCE_LINE.match, block)):
                            raise Out("no source")
                        order, one = self.mended(attributes)
                    except Out:
                        is_last = place == len(paragraphs)
                        self.withhold(without_end(block, text) if is_last else block)
                        raise
                    source = b"".join(values(attributes, b"source")).upper()
                    self.last = source or self.last
                    self.ranks.setdefault(source)
                    if order in self.objects:
                        is_named = order[0] == MNTNER or order[0] in SETS
                        is_other = is_named and source != self.sources[order]
                        raise Out("a name of another registry" if is_other else "duplicate")
                    if self.withheld.get(order, source) != source:
                        raise Out("a name of another registry, where it can't be read")
                    self.objects[order] = one
                    self.sources[order] = source
                except Out as cause:
                    self.leave_out(str(cause))
        for number in AS_BLOCK, INETNUM:
            self.leave_out_crossing(number)
        self.taken = len(self.objects)
        for (number, _), (_, items) in self.objects.items():
            for name in (b"members", b"member-of"):
                if name in items:
                    items[name] = list(self.without_scopes(items[name]))
                    if not items[name]:
                        del items[name]
        self.settle()

    def withhold(self, block: list[bytes]) -> None:
        """Keeps the names of what can't be read, one of which may begin at each class, also within
        a line of two that were joined."""
        begun: list[list[bytes]] = [[]]
        for line in [part for line in block for part in unjoined(line)]:
            if begun[-1] and line.partition(b":")[0].rstrip(b" \t\r").lower() in OF_CLASSES:
                begun.append([])
            begun[-1].append(line)
        for lines in filter(None, begun):
            self.withhold_one(lines)

    def withhold_one(self, block: list[bytes]) -> None:
        """Keeps the name that the lines tell which can be read."""
        kept: list[bytes] = []
        goes_on = False
        for line in block:
            is_good = not isinstance(read([b"x: y", line]), str)
            if line[:1] in (b" ", b"\t", b"\r", b"+"):
                is_good = is_good and goes_on
            elif line[:1] not in (b"#", b"%"):
                goes_on = is_good
            kept += [line] if is_good else []
        attributes: Any = read(kept)
        if not attributes or kept[0] != block[0] or attributes[0][0] not in CLASSES:
            return
        names = [name for name, _ in attributes]
        end = next((at for at, name in enumerate(names) if at and name in OF_CLASSES), len(names))
        number = CLASSES.index(names[0]) + 1
        key = self.key(number, meaning(attributes[0][1]), None)
        sources = values(attributes[:end], b"source")
        several = {
            one.upper() if numbers.NAME.fullmatch(one) else self.last for one in sources or [b""]
        }
        source = next(iter(several))
        if len(several) > 1:
            several.add(self.last)
            source = next((one for one in self.ranks if one and one in several), None)
        if key is not None and number in (MNTNER, *SETS):
            self.withheld.setdefault((number, key), source)

    def leave_out(self, cause: str) -> None:
        self.causes[cause] = self.causes.get(cause, 0) + 1

    def mended(self, attributes: Attributes | str) -> tuple[Order, Form]:
        """The key's value and the object."""
        if isinstance(attributes, str) or not attributes or attributes[0][0] not in CLASSES:
            raise Out("paragraph")
        own, names = attributes[0][0], [name for name, _ in attributes]
        number = CLASSES.index(own) + 1
        if set(names[1:]) & OF_CLASSES or b"password" in names or b"delete" in names:
            raise Out("attributes")
        source = b"".join(values(attributes, b"source"))
        if names.count(b"source") > 1 or (source and not numbers.NAME.fullmatch(source)):
            raise Out("source")
        if is_of_two(number, attributes):
            raise Out("two")
        first = meaning(attributes[0][1])
        origins = [meaning(lines) for name, lines in attributes if name == b"origin"]
        order = self.key(number, first, origins[0] if len(origins) == 1 else None)
        if order is None and number in (INETNUM, ROUTE):
            front, slash, length = first.partition(b"/")
            first = (
                b".".join(
                    [part for part in front.split(b".") if part]
                    + [b"0"] * (3 - front.strip(b".").count(b"."))
                )
                + slash
                + length
            )
            order = self.key(number, first, origins[0] if len(origins) == 1 else None)
        if order is None:
            raise Out("key")
        if number in (INETNUM, ROUTE) and b"/" in first:
            first = numbers.prefix_text(numbers.prefix(first)).encode()
        others = [(own, [first])]
        for name, lines in attributes[1:]:
            if name == b"auth" and number == MNTNER:
                words = meaning(lines).split()
                is_bad = not words or (
                    words[0].upper() == b"SHA256-PW"
                    and not (len(words) == 2 and SECRET_LINE.fullmatch(words[1]))
                )
                others.append((name, [NOBODY] if is_bad else lines))
            elif name != b"source" and name not in lists_of(number):
                others.append((name, lines))
        if number == MNTNER and b"auth" not in names:
            others.append((b"auth", [NOBODY]))
        items = {
            name: self.items(
                number,
                name,
                [
                    (
                        TOKEN.findall(meaning(lines))
                        if name == b"mnt-routes"
                        else ITEM.findall(meaning(lines))
                    )
                    for found, lines in attributes
                    if found == name
                ],
            )
            for name in lists_of(number)
        }
        items[b"mnt-by"] = items[b"mnt-by"] or [ROOT]
        others = letters.in_utf8(others) if letters.are_other(attributes) else others
        return (number, order), [others, {name: listed for name, listed in items.items() if listed}]

    def key(self, number: int, text: bytes, origin: bytes | None) -> Any:
        if number == MNTNER:
            return text.upper() if is_maintainer(text) else None
        key = read_key(number, text, origin)
        return key.value if key else None

    def items(self, number: int, name: bytes, listed: list[list[bytes]]) -> list[bytes]:
        """The items of a list that stay."""
        found = [item for items in listed for item in items]
        if name == b"mnt-routes":
            return list(self.grants(found))
        if name in (b"mnt-by", b"mnt-lower", b"mbrs-by-ref"):
            is_any = name == b"mbrs-by-ref"
            return [
                item if is_any and item.upper() == b"ANY" else self.name(item) for item in found
            ]
        is_good = (
            numbers.set_name
            if name == b"member-of"
            else as_set_member
            if number == AS_SET
            else route_set_member
        )
        read = [(item, is_good(SCOPE.sub(b"", item))) for item in found]
        # A route names as-sets too, AS-ANY among them, and is in none (RFC 2622, 5).
        is_route = (number, name) == (ROUTE, b"member-of")
        return [
            item
            for item, own in read
            if self.stays(item, own) and not (is_route and own and numbers.set_kind(own) == b"AS")
        ]

    def stays(self, item: bytes, read: object) -> bool:
        """Whether an item stays that was read, or was not: then it must be a word, or of IPv6."""
        if read is None and (item.upper() in EXPRESSION or not WORD.fullmatch(item)):
            if not IPV6.fullmatch(item):
                raise Out("list")
        return read is not None

    def without_scopes(self, items: list[bytes]) -> Iterator[bytes]:
        """The items without a registry before them; one that another registry has, or that is not
        imported, is gone."""
        for item in items:
            scope, bare = SCOPE.match(item), SCOPE.sub(b"", item)
            name = numbers.set_name(bare.partition(b"^")[0])
            source = scope and scope[1].upper()
            own = [
                self.sources[order] if order in self.objects else self.withheld[order]
                for order in dict.fromkeys([*self.withheld, *self.objects])
                if name and order[0] in SETS and order[1] == name
            ]
            imported = {self.sources[order] for order in self.objects}
            if name in (b"AS-ANY", b"RS-ANY"):
                own = list(imported)
            if not scope or (source in imported and own in ([], [source])):
                yield bare

    def grants(self, tokens: list[bytes]) -> Iterator[bytes]:
        """The parts of entries, each of which is a name, and ANY or braces."""
        while tokens:
            head, *tokens = tokens
            if head in b"{}":
                raise Out("brace")
            if head[:1].isdigit():
                raise Out("no name")
            yield self.name(head)
            if tokens[:1] == [b"{"]:
                end = tokens.index(b"}") if b"}" in tokens else 0
                if not end or b"{" in tokens[1:end]:
                    raise Out("brace")
                yield b"{"
                yield from (
                    token for token in tokens[1:end] if self.stays(token, numbers.ranged(token))
                )
                yield b"}"
                tokens = tokens[end + 1 :]
            elif tokens and tokens[0].upper() == b"ANY":
                yield tokens[0]
                tokens = tokens[1:]

    def name(self, item: bytes) -> bytes:
        """An item in a maintainer's place, which can be nothing else."""
        if not is_maintainer(item):
            raise Out("no name")
        return item

    def leave_out_crossing(self, number: int) -> None:
        kept: list[tuple[int, int]] = []
        for order in [order for order in self.objects if order[0] == number]:
            if any(crosses(order[1], other) for other in kept):
                del self.objects[order]
                self.leave_out("crossing")
            else:
                kept.append(order[1])

    # What the whole tells.

    def settle(self) -> None:
        """Gives names, and adds what is missing."""
        mntners = {value for number, value in self.objects if number == MNTNER}
        named = {
            name for (number, _), (_, items) in self.objects.items() for name in named_in(items)
        }
        known, new = mntners | named | {ROOT}, {}
        for old in sorted(known):
            if numbers.maintainer(old) is None:
                plain = re.sub(rb"[^A-Z0-9_-]", b"-", old).strip(b"-_")[:68].rstrip(b"-_") or b"X"
                plain = plain if numbers.maintainer(plain) else b"MNT-" + plain
                name = next(
                    tried
                    for tried in [plain, *(plain + b"-%d" % count for count in range(2, 99))]
                    if tried not in known
                )
                new[old] = name
                known.add(name)
        settled = {}
        for (number, value), (others, items) in self.objects.items():
            if number == MNTNER and value in new:
                value = new[value]
                others[0] = (b"mntner", [value])
            for name in (b"mnt-by", b"mnt-lower", b"mbrs-by-ref", b"mnt-routes"):
                if name in items:
                    items[name] = list(with_names(name, items[name], new))
            settled[number, value] = [others, items]
        for name in {new.get(name, name) for name in named if name not in mntners} - {ROOT}:
            settled[MNTNER, name] = [
                [(b"mntner", [name]), (b"auth", [NOBODY])],
                {b"mnt-by": [ROOT]},
            ]
        root = settled.setdefault((MNTNER, ROOT), [[(b"mntner", [ROOT])], {b"mnt-by": [ROOT]}])
        root[0] = [pair for pair in root[0] if pair[0] != b"auth"] + [(b"auth", [self.auth])]
        own = [value for number, value in settled if number == AS_BLOCK]
        wanted = [(0, 65_535), (65_536, TOP)]
        wanted = (
            [(0, TOP)]
            if (0, TOP) in own or any(crosses(one, other) for one in own for other in wanted)
            else wanted
        )
        for number, value in [(INETNUM, (0, TOP)), *((AS_BLOCK, value) for value in wanted)]:
            settled.setdefault(
                (number, value),
                [[(CLASSES[number - 1], [Key(number, value).text.encode()])], {b"mnt-by": [ROOT]}],
            )
        self.objects, self.new = {order: ordered(*one) for order, one in settled.items()}, new


def with_names(name: bytes, items: list[bytes], new: dict[bytes, bytes]) -> Iterator[bytes]:
    """The items with new names; those in braces are no names, and ANY is none where it means
    anybody."""
    is_inside = False
    for item in items:
        was_inside, is_inside = is_inside, item == b"{" or (is_inside and item != b"}")
        keeps = (
            name == b"mnt-routes"
            and (was_inside or is_inside)
            or name in (b"mnt-routes", b"mbrs-by-ref")
            and item.upper() == b"ANY"
        )
        yield item if keeps else new.get(item.upper(), item)


def named_in(items: Lists) -> Iterator[bytes]:
    for name in b"mnt-by", b"mnt-lower":
        yield from (item.upper() for item in items.get(name, []))
    yield from (item.upper() for item in items.get(b"mbrs-by-ref", []) if item.upper() != b"ANY")
    is_inside = False
    for item in items.get(b"mnt-routes", []):
        was_inside, is_inside = is_inside, item == b"{" or (is_inside and item != b"}")
        if not was_inside and not is_inside and item.upper() != b"ANY":
            yield item.upper()


def normal(held: Object) -> tuple[Order, Form]:
    """An object of the model in the form of a second reading."""
    number, lists = held.key.number, lists_of(held.key.number)
    items = {
        name: [
            item
            for found, lines in held.attributes
            if found == name
            for item in (TOKEN if name == b"mnt-routes" else ITEM).findall(meaning(lines))
        ]
        for name in lists
    }
    others = [
        (name, lines) for name, lines in held.attributes if name not in lists and name != b"source"
    ]
    others[0] = (others[0][0], [meaning(others[0][1])])
    return (number, held.key.value), ordered(
        others, {name: listed for name, listed in items.items() if listed}
    )


def ordered(others: Attributes, items: Lists) -> Form:
    """An object whose attributes after the first are in no order."""
    return [others[:1] + sorted(others[1:]), items]

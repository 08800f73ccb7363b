"""What of a foreign registry's object irrdesk takes, and how the rest is mended: one paragraph at
a time."""
import contextlib
import re
from typing import Callable, Iterable, NamedTuple

from irr.local.tables import once
from irr.migrate import encoding, paragraphs
from irr.migrate.items import (
    IPV6,
    SCOPED,
    TOKEN,
    is_alone,
    is_ipv6,
    is_member,
    is_name,
    is_range,
    key_words,
    name_of,
    source_of,
    with_items,
    without_host_bits,
)
from irr.rpsl import grammar, holders, keys, syntax
from irr.rpsl.syntax import ITEM, Attribute, Paragraph

NUMBERS = {kind.encode(): number for number, kind in enumerate(keys.CLASSES, 1)}
MNTNER, AS_BLOCK, AUT_NUM, INETNUM, ROUTE, AS_SET, ROUTE_SET = range(1, 8)
SETS = (AS_SET, ROUTE_SET)
# Those that other objects name.
NAMED = (MNTNER, *SETS)
SHORT_PREFIX = re.compile(rb"([0-9]{1,3}(?:\.[0-9]{1,3}){0,2})\.?/([0-9]{1,2})")
# The attributes that are read in each class, by its number, but those of keys and `source`; and
# what becomes one of them, or is none of an object.
READ = [
    frozenset[bytes](),
    *(
        frozenset(name.encode() for name in grammar.TABLE[kind]) - {b"origin", b"source"}
        for kind in keys.CLASSES
    ),
]
OTHERS = frozenset((b"mp-members", b"password", b"delete"))
# Those that name maintainers, in the order in which a database has these.
NAMING = (b"mnt-by", b"mnt-lower", b"mnt-routes", b"mbrs-by-ref")
# An `auth` of a password, one that lets nobody in, and the longest name of a maintainer.
PASSWORD = re.compile(rb"SHA256-PW [A-Za-z0-9]{0,16}:[0-9A-Fa-f]{64}", re.I)
NOBODY = b"FILTERED"
LONGEST_NAME = 80
# Why an item is taken out of a list.
OTHER_KIND = "a set of the other kind"
NO_SOURCE, UNREAD_SOURCE = "no `source`", "a `source` that can't be read"
# Why an object is left out: an item may change what others of its list mean.
UNREAD = "a list that can't be read"


class LeftOut(Exception):
    """Why a paragraph is not taken; where a list is the cause also its attribute and the item."""

    def __init__(self, cause: str, *item: bytes) -> None:
        super().__init__(cause)
        self.item = item


class Dropped(NamedTuple):
    """An item that is taken out of a list: the name of the attribute, the item, and why."""

    attribute: bytes
    item: bytes
    cause: str


class Mended(NamedTuple):
    """An object that irrdesk takes once the names of its maintainers are settled, and its scoped
    items: its class's number, its key, which orders those of a class, the registry that it is of,
    which has no name where it has no `source`, the maintainers that it names, its text, the kinds
    of what was mended, and the items that are gone."""

    number: int
    key: int | str
    source: str
    names: tuple[str, ...]
    text: bytes
    kinds: frozenset[str]
    dropped: tuple[Dropped, ...]


class Name(NamedTuple):
    """What tells an object from others, also where it can't be read: its class's number, its key,
    and what each `source` says, which is nothing where that can't be read either."""

    number: int
    key: int | str
    sources: tuple[str, ...]


class Mender:
    """Mends the objects of foreign registries for the registry of a source and a root maintainer.
    What is in `off` is not mended: an object that needs it is left out."""

    def __init__(self, source: str, root: str, off: frozenset[str] = frozenset()) -> None:
        self.source, self.root, self.off = source.encode(), root.encode(), off
        self.kinds: set[str] = set()
        self.drops: list[Dropped] = []
        # The attribute whose items are looked at.
        self.listing = b""

    def mend(self, part: paragraphs.Part, is_cut: bool = False) -> Mended:
        """The object that the lines of a part become; LeftOut with the cause where they become
        none, as where the file was cut off there. Scoped items stay in its text."""
        if part.doubt and not (is_cut and part.doubt == paragraphs.INSIDE):
            raise LeftOut(part.doubt)
        block, name = part.block, class_of(part.block.text)
        if is_cut and (name in NUMBERS or name in paragraphs.FOREIGN):
            raise LeftOut(paragraphs.CUT_OFF)
        if name in paragraphs.FOREIGN:
            raise LeftOut(f"class {name.decode()}")
        if block.size > len(block.text):
            raise LeftOut("above 65,536 bytes")
        try:
            attributes = syntax.read_any(block.text).attributes
        except syntax.TextFault as fault:
            raise LeftOut(f"text: {fault.sentence}") from None
        number = NUMBERS.get(attributes[0].name) if attributes else None
        if number is None:
            raise LeftOut("a class that RPSL does not know")
        self.kinds, self.drops = set(), []
        key, mended = self.keyed(number, attributes)
        names, mended = self.listed(number, mended)
        source, mended = self.sourced(mended)
        self.need_one(number, attributes, block.text)
        if block.size > syntax.LARGEST:
            self.use("long")
        text = self.written(names, mended)
        return Mended(number, key, source, names, text, frozenset(self.kinds), tuple(self.drops))

    def left(self, part: paragraphs.Part, cause: LeftOut | None = None) -> list[Name]:
        """The names of what was left out of a part, or stands inside its lines, of the registries
        that are asked for."""
        is_joined = cause is not None and str(cause) in (paragraphs.JOINED, paragraphs.JOINED_AUTH)
        line = cause.item[1] if cause and cause.item and is_joined else b""
        is_taken = cause is None
        found: list[Name] = []
        for block in part.begun(is_taken, line):
            found += self.names_in(block, paragraphs.quoted(block.text, is_taken))
        return found

    def names_in(self, block: syntax.Block, quoted: Iterable[bytes] = ()) -> list[Name]:
        """The maintainers and sets that may be told by lines which may be no object: by the first
        one, and those that are quoted."""
        heads = [paragraphs.headed(head) for head in (block.text, *quoted)]
        named = [one for one in heads if NUMBERS.get(class_of(one)) in NAMED]
        sources = sources_of(own_attributes(heads[0])) if named else ()
        found: list[Name] = []
        for head in named:
            key, number = own_attributes(head)[:1], NUMBERS[class_of(head)]
            if key and key[0].name == class_of(head):
                for word in key_words(key[0].meaning()):
                    with contextlib.suppress(LeftOut):
                        own = self.keyed(number, [Attribute(key[0].name, [word])])
                        found.append(Name(number, own[0], sources))
        return found

    def name_in(self, block: syntax.Block) -> Name | None:
        """Which object it is that may be none, by the lines that can be read, if they have a whole
        key."""
        own, kind = own_attributes(block.text), class_of(block.text)
        if own and own[0].name == kind and kind in NUMBERS:
            with contextlib.suppress(LeftOut):
                return Name(NUMBERS[kind], self.keyed(NUMBERS[kind], own)[0], sources_of(own))
        return None

    def need_one(self, number: int, attributes: list[Attribute], text: bytes) -> None:
        """That nothing shows that the line is lost which began another object: the lists of two
        would be one, and so who may change it."""
        seen: set[bytes] = set()
        before: set[bytes] = set()
        is_joined = paragraphs.JOINED_TEXT.search(text.lower())
        for attribute in attributes:
            name = attribute.name
            if name == b"source":
                before |= seen
            elif name in READ[number] or name == b"mp-members" and number == ROUTE_SET:
                if name in before:
                    raise LeftOut(paragraphs.GOES_ON, name, attribute.meaning())
                seen.add(name)
            if name == b"auth" and number == MNTNER:
                for line in attribute.lines:
                    if paragraphs.JOINED_LINE.search(PASSWORD.sub(b"", line)):
                        raise LeftOut(paragraphs.JOINED_AUTH, name, line)
            if name == b"nic-hdl":
                # No other class has one (RFC 2622, 3.2 and 3.3).
                raise LeftOut(paragraphs.JOINED_PERSON, name, attribute.meaning())
            if is_joined:
                for place, line in enumerate(attribute.lines):
                    whole = line if place else name + b":" + line
                    if paragraphs.JOINED_TEXT.search(whole.lower()):
                        raise LeftOut(paragraphs.JOINED_IN_TEXT, name, line)

    def use(self, kind: str) -> None:
        """Notes that something of this kind is mended."""
        if kind in self.off:
            raise LeftOut(not_mended(kind))
        self.kinds.add(kind)

    def keyed(self, number: int, attributes: list[Attribute]) -> tuple[int | str, list[Attribute]]:
        """The key of an object, and its attributes with a key that can be read."""
        value = attributes[0].meaning()
        origins = (
            [attribute.meaning() for attribute in attributes if attribute.name == b"origin"]
            if number == ROUTE
            else []
        )
        if number == MNTNER:
            if not is_name(value):
                raise LeftOut("a key that can't be read")
            return self.maintainer(value), attributes
        full, key = value, ordered(number, value, origins)
        if key is None and number in (INETNUM, ROUTE):
            if IPV6.match(value):
                raise LeftOut("IPv6")
            short = SHORT_PREFIX.fullmatch(value)
            if short:
                full = short[1] + b".0" * (3 - short[1].count(b".")) + b"/" + short[2]
                key = ordered(number, full, origins)
        if key is None:
            raise LeftOut("a key that can't be read")
        if full != value:
            self.use("prefix")
        first, slash, _ = full.partition(b"/")
        if slash and keys.read_address(first) != first_of(number, key):
            full = self.zeroed(full)
        if full == value:
            return key, attributes
        changed = with_items(attributes[0], ITEM, lambda _: full) or attributes[0]
        return key, [changed, *attributes[1:]]

    def listed(
        self, number: int, attributes: list[Attribute]
    ) -> tuple[tuple[str, ...], list[Attribute]]:
        """The maintainers that an object names, and its attributes with lists that can be read."""
        names: dict[bytes, list[str]] = {name: [] for name in NAMING}
        kept: list[Attribute] = []
        has_auth = False
        grants: Grants | None = None
        for attribute in attributes:
            name = attribute.name
            changed: Attribute | None = attribute
            if name not in READ[number] and name not in OTHERS:
                kept.append(attribute)
                continue
            self.listing = name
            if name in (b"mnt-by", b"mnt-lower"):
                for item in ITEM.findall(attribute.meaning()):
                    names[name].append(self.maintainer(item))
            elif name == b"mnt-routes":
                grants = grants or Grants(self, names[name])
                changed = self.changed(attribute, grants.token, TOKEN)
            elif name == b"member-of":
                changed = self.changed(attribute, lambda item: self.set_item(number, item))
            elif name == b"members":
                changed = self.changed(attribute, lambda item: self.member(number, item))
            elif name == b"mbrs-by-ref":
                for item in ITEM.findall(attribute.meaning()):
                    if item.upper() != b"ANY":
                        names[name].append(self.maintainer(item))
            elif name == b"auth":
                changed, has_auth = self.auth(attribute), True
            elif name == b"mp-members":
                changed = self.of_both_families(attribute) if number == ROUTE_SET else attribute
            else:
                raise LeftOut("`password` or `delete`")
            if changed is not None:
                kept.append(changed)
        if grants and grants.state == "ranges":
            raise LeftOut(UNREAD, b"mnt-routes", b"{")
        if not names[b"mnt-by"]:
            self.use("mnt-by")
            kept.insert(source_place(kept), Attribute(b"mnt-by", [self.root]))
            names[b"mnt-by"].append(self.root.decode())
        if number == MNTNER and not has_auth:
            self.use("auth")
            kept.insert(1, Attribute(b"auth", [NOBODY]))
        return once(name for listed in names.values() for name in listed), kept

    def changed(
        self,
        attribute: Attribute,
        change: Callable[[bytes], bytes | None],
        pattern: re.Pattern[bytes] = ITEM,
    ) -> Attribute | None:
        """The attribute with each item as `change` has it; the same one where none changes."""
        items = pattern.findall(attribute.meaning())
        new = [change(item) for item in items]
        if new == items:
            return attribute
        rest = iter(new)
        return with_items(attribute, pattern, lambda _: next(rest))

    def of_both_families(self, attribute: Attribute) -> Attribute | None:
        """`members` of what `mp-members` of a route-set has of IPv4 (RFC 4012, 4). While it has
        scoped items it keeps its name, by which they are told; `unscoped` changes it."""
        if not ITEM.search(attribute.meaning()):
            return attribute
        self.use("mp-members")
        changed = self.changed(attribute, lambda item: self.member(ROUTE_SET, item))
        if changed is None or b"::" in changed.meaning():
            return changed
        return changed._replace(name=b"members")

    def maintainer(self, item: bytes) -> str:
        if not is_name(item):
            raise self.unread(item)
        name, is_good = name_of(item)
        if not is_good:
            self.use("rename")
        return name

    def zeroed(self, item: bytes) -> bytes:
        """An item without host bits."""
        new = without_host_bits(item)
        if new != item:
            self.use("host-bits")
        return new

    def drop(self, item: bytes, kind: str, cause: str) -> None:
        self.use(kind)
        self.drops.append(Dropped(self.listing, item, cause))

    def drop_unread(self, item: bytes) -> None:
        """Drops an item that can't be read if the others mean the same without it."""
        if is_ipv6(item):
            self.drop(item, "ipv6", "IPv6")
        elif is_alone(item) and not paragraphs.JOINED_ITEM.fullmatch(item):
            self.drop(item, "item", "an item that can't be read")
        else:
            raise self.unread(item)

    def unread(self, item: bytes) -> LeftOut:
        """Why an object is left out that has this item in a list."""
        is_joined = paragraphs.JOINED_ITEM.fullmatch(item)
        return LeftOut(paragraphs.JOINED if is_joined else UNREAD, self.listing, item)

    def set_item(self, number: int, item: bytes) -> bytes | None:
        """An item of `member-of`, which names as-sets in an aut-num and route-sets in a route (RFC
        2622, 5)."""
        kept = self.scoped(item, lambda name: keys.read_set(name) is not None)
        if kept is None or number != ROUTE:
            return kept
        name = keys.read_set(kept.rpartition(b"::")[2])
        if name is None or keys.set_class(name) == "route-set":
            return kept
        self.drop(item, "member-of", OTHER_KIND)
        return None

    def member(self, number: int, item: bytes) -> bytes | None:
        kept = self.scoped(item, lambda name: is_member(number, name))
        if kept is None or b"/" not in kept:
            return kept
        scope, _, name = kept.rpartition(b"::")
        if not scope:
            return self.zeroed(name)
        # It may be dropped: `unscoped` mends what stays.
        if "host-bits" in self.off and without_host_bits(name) != name:
            raise LeftOut(not_mended("host-bits"))
        return kept

    def scoped(self, item: bytes, is_good: Callable[[bytes], bool]) -> bytes | None:
        """An item that can be read once it has no registry before it; None if it can't."""
        if is_good(item):
            return item
        found = SCOPED.fullmatch(item)
        if found and is_good(found[2]) and not is_ipv6(item):
            self.use("scope")
            return item
        self.drop_unread(item)
        return None

    def auth(self, attribute: Attribute) -> Attribute:
        words = attribute.meaning().split()
        if words and (words[0].upper() != b"SHA256-PW" or PASSWORD.fullmatch(b" ".join(words))):
            return attribute
        self.use("auth")
        return Attribute(b"auth", [NOBODY])

    def sourced(self, attributes: list[Attribute]) -> tuple[str, list[Attribute]]:
        """The registry that an object is of, and its attributes with `source` for this one."""
        place = source_place(attributes)
        found = attributes[place].meaning() if place < len(attributes) else b""
        name = source_of(found)
        if name is None:
            raise LeftOut(UNREAD_SOURCE)
        if found.upper() == self.source:
            return name, attributes
        if not name and "source" in self.off:
            raise LeftOut(f"{NO_SOURCE}, {not_mended('source')}")
        self.use("source")
        attributes[place : place + 1] = [Attribute(b"source", [self.source])]
        return name, attributes

    def written(self, names: tuple[str, ...], attributes: list[Attribute]) -> bytes:
        """The text of an object, which has room for new names. One author wrote it, so all of it is
        in one encoding."""
        text = Paragraph(attributes).text()
        if self.is_other(text):
            self.use("encoding")
            attributes = list(map(encoding.in_utf8, attributes))
            text = Paragraph(attributes).text()
        room = 0
        if "rename" in self.kinds and len(text) > syntax.LARGEST >> 1:
            bad = [
                name.encode("latin-1") for name in names if not name_of(name.encode("latin-1"))[1]
            ]
            room = LONGEST_NAME * sum(text.upper().count(name) for name in bad)
        if len(text) + room > syntax.LARGEST:
            text = b"".join(attribute.short_text() for attribute in attributes)
            if len(text) + room > syntax.LARGEST:
                raise LeftOut("above 65,536 bytes")
            self.use("long")
        return text

    def is_other(self, text: bytes) -> bool:
        """Whether a text is in another encoding than what is written."""
        return not encoding.is_utf8(text)


class Grants:
    """Reads the entries of `mnt-routes`, which may begin in one attribute and end in the next, and
    drops what is no part of one."""

    def __init__(self, mender: Mender, names: list[str]) -> None:
        self.mender, self.names, self.state = mender, names, "start"

    def token(self, token: bytes) -> bytes | None:
        """What a token becomes."""
        if token in (b"{", b"}"):
            if self.state != ("named" if token == b"{" else "ranges"):
                raise self.mender.unread(token)
            self.state = "ranges" if token == b"{" else "start"
        elif self.state == "ranges":
            if not is_range(token):
                self.mender.drop_unread(token)
                return None
            return self.mender.zeroed(token)
        elif token.upper() == b"ANY":
            if self.state != "named":
                raise self.mender.unread(token)
            self.state = "start"
        elif token[:1].isdigit():
            # It may be a range in another spelling, without which the entry before it grants more.
            raise self.mender.unread(token)
        else:
            self.names.append(self.mender.maintainer(token))
            self.state = "named"
        return token


def ordered(number: int, value: bytes, origins: list[bytes]) -> int | str | None:
    """The key of an object as a value that orders those of its class as the registry does; None
    where it can't be read."""
    if number == AUT_NUM:
        return keys.read_as(value)
    if number == ROUTE:
        prefix, origin = (
            keys.read_prefix(value),
            keys.read_as(origins[0]) if len(origins) == 1 else None,
        )
        return (
            (prefix.first << 6 | prefix.length) << 32 | origin
            if prefix and origin is not None
            else None
        )
    if number in (INETNUM, AS_BLOCK):
        span = keys.read_span(value) if number == INETNUM else keys.read_block(value)
        return span.first << 32 | span.last if span else None
    key = keys.read_key(keys.CLASSES[number - 1], value)
    return key.text if key else None


def class_of(text: bytes) -> bytes:
    """What stands before the first colon of a block, which is the class of an object."""
    return text.partition(b":")[0].strip(syntax.BLANKS).lower()


def own_attributes(text: bytes) -> list[Attribute]:
    """Those of a block that can be read; from another class on they are of another object."""
    text = paragraphs.readable(text)
    found = syntax.read_any(text).attributes if text else []
    names = [attribute.name for attribute in found[1:]]
    ends = [one in NUMBERS or one in paragraphs.FOREIGN for one in names] + [True]
    return found[: ends.index(True) + 1]


def sources_of(attributes: list[Attribute]) -> tuple[str, ...]:
    found = [one.meaning() for one in attributes if one.name == b"source"]
    return tuple(dict.fromkeys(source_of(value) or "" for value in found))


def not_mended(kind: str) -> str:
    """The cause where a way to mend is turned off."""
    return f"not mended because of --no-{kind}"


def first_of(number: int, key: int | str) -> int:
    """The first address of an inetnum or a route by its key."""
    return int(key) >> (38 if number == ROUTE else 32)


def source_place(attributes: list[Attribute]) -> int:
    """The place of `source`, of which there is one at most, otherwise the end."""
    for place in range(len(attributes) - 1, 0, -1):
        if attributes[place].name == b"source":
            return place
    return len(attributes)


def unscoped(
    attributes: list[Attribute],
    refusal: Callable[[str, bytes], str],
    named: Callable[[str, bytes], bytes] = lambda _, item: item,
) -> tuple[list[Attribute], list[Dropped], bool]:
    """The attributes of an object whose scoped items are what is `named` there without the registry
    and host bits, or are gone where `refusal` has a cause for the registry and the item; what is
    gone; and whether any that stays had host bits."""
    number = NUMBERS[attributes[0].name]
    scoped = READ[number] & {b"members", b"member-of"}
    if number == ROUTE_SET:
        scoped |= {b"mp-members"}
    kept: list[Attribute] = []
    gone: list[Dropped] = []
    had_host_bits = False
    for attribute in attributes:
        if attribute.name not in scoped or b"::" not in attribute.meaning():
            kept.append(attribute)
            continue
        name = attribute.name

        def bare(item: bytes) -> bytes | None:
            nonlocal had_host_bits
            found = SCOPED.fullmatch(item)
            if not found:
                return item
            source = found[1].decode().upper()
            cause = refusal(source, found[2])
            if cause:
                gone.append(Dropped(name, item, cause))
                return None
            new = without_host_bits(found[2])
            had_host_bits |= new != found[2]
            return named(source, new)

        changed = with_items(attribute, ITEM, bare)
        if changed is not None:
            kept.append(changed._replace(name=name.removeprefix(b"mp-")))
    return kept, gone, had_host_bits


def renamed(attributes: list[Attribute], new: dict[str, bytes]) -> list[Attribute]:
    """The attributes of an object in which maintainers have new names where names of maintainers
    are read."""
    kind, is_inside = holders.kind(Paragraph(attributes)), False
    kept: list[Attribute] = []
    listed_in = {b"mnt-by"} | ({b"mnt-lower"} if kind in holders.LOWER_IN else set())

    def name(item: bytes) -> bytes:
        return new.get(name_of(item)[0], item)

    def referrer(item: bytes) -> bytes:
        return item if item.upper() == b"ANY" else name(item)

    def grant(item: bytes) -> bytes:
        nonlocal is_inside
        was_inside, is_inside = is_inside, item == b"{" or (is_inside and item != b"}")
        return item if was_inside or is_inside else referrer(item)

    for place, attribute in enumerate(attributes):
        changed: Attribute | None = attribute
        if attribute.name in listed_in or (kind == "mntner" and place == 0):
            changed = with_items(attribute, ITEM, name)
        elif attribute.name == b"mnt-routes" and kind in holders.ROUTES_IN:
            changed = with_items(attribute, TOKEN, grant)
        elif attribute.name == b"mbrs-by-ref" and kind in holders.SETS:
            changed = with_items(attribute, ITEM, referrer)
        kept.append(changed or attribute)
    return kept


def new_name(old: str, taken: set[str]) -> str:
    """A name that the rules take, for one that they refuse, and that nobody has."""
    plain = re.sub("[^A-Z0-9_-]", "-", old).strip("-_")[: LONGEST_NAME - 12].rstrip("-_") or "X"
    name = plain if keys.read_maintainer(plain) else f"MNT-{plain}"
    place, tried = 1, name
    while tried in taken:
        place += 1
        tried = f"{name}-{place}"
    return tried

"""A second reading of dumps, from the rules that docs/MOVING.md has and nothing of the tool: which
lines are one object, why one is left out, and what each item of its lists becomes."""

import ipaddress
import re
from typing import Any, Iterator, NamedTuple

from checks.migrate import letters

CLASSES = "mntner as-block aut-num inetnum route as-set route-set".split()
OTHERS = """person role route6 inet6num inet-rtr filter-set peering-set rtr-set key-cert domain
    repository dictionary irt organisation organization poem poetic-form limerick as-macro community
    dom-prefix ipv6-site""".split()
BLANKS = " \t\r"
NAME = re.compile(r"[A-Za-z](?:[A-Za-z0-9_-]{0,78}[A-Za-z0-9])?")
RESERVED = set(
    """any as-any rs-any peeras and or not atomic from to at action accept announce except refine
    networks into inbound outbound""".split()
)
# Which attributes are lists, in which classes.
LISTS = {
    "mnt-by": CLASSES,
    "mnt-lower": CLASSES[1:],
    "mnt-routes": ["aut-num", "inetnum", "route"],
    "member-of": ["aut-num", "route"],
    "members": ["as-set", "route-set"],
    "mp-members": ["route-set"],
    "mbrs-by-ref": ["as-set", "route-set"],
}
# The classes whose names are named elsewhere, and what no line may have.
NAMED = ("mntner", "as-set", "route-set")
CONTROL = re.compile(r"[\x00-\x08\x0b\x0c\x0e-\x1f\x7f]")
SECRET = re.compile("SHA256-PW [a-z0-9]{0,16}:[0-9a-f]{64}", re.I)
Attributes = list[tuple[str, list[str]]]


class Piece(NamedTuple):
    """A paragraph, or what it is parted into: the number of its first line, its attributes,
    whether a line of it is none, which has no name here, and whether no blank line is before it."""

    line: int
    attributes: Attributes
    is_broken: bool
    is_inside: bool

    @property
    def names(self) -> list[str]:
        return [name for name, _ in self.attributes]

    @property
    def kind(self) -> str:
        return self.names[0] if self.attributes else ""

    def values(self, name: str) -> list[str]:
        return [meaning(lines) for found, lines in self.attributes if found == name]


def meaning(lines: list[str]) -> str:
    return " ".join(line.partition("#")[0].strip(BLANKS) for line in lines).strip(BLANKS)


def pieces(dump: bytes) -> list[Piece]:
    """All that a dump has, in order."""
    found: list[Piece] = []
    held: list[tuple[int, str]] = []
    lines = dump.decode("latin-1").split("\n")
    for number, line in enumerate([*lines, ""], 1):
        if line.strip(BLANKS):
            if held or line[0] not in "#%":
                held.append((number, line))
            continue
        found += parted(held)
        held = []
    return found


def parted(held: list[tuple[int, str]]) -> Iterator[Piece]:
    """A paragraph's lines as one piece, or as several: one begins with a class line whose attribute
    before is a `source` that is not the first one."""
    line, attributes, is_broken = 0, [], False  # type: int, Attributes, bool
    is_inside = False
    # What the attribute before is called: nothing where a line is none.
    before, count = "", 0
    for number, text in held:
        if text[0] in "#%":
            continue
        name, colon, value = text.partition(":")
        name = name.rstrip(BLANKS).lower()
        is_known = bool(colon) and text[0] not in " \t\r+"
        if is_known and name in CLASSES + OTHERS and before == "source" and count > 1:
            yield Piece(line, attributes, is_broken, is_inside)
            line, attributes, is_broken, before, count = 0, [], False, "", 0
            is_inside = True
        line = line or number
        count += 1
        is_broken |= bool(CONTROL.search(text))
        if text[0] in " \t\r+":
            if attributes:
                attributes[-1][1].append(text[1:].strip(BLANKS))
                count -= 1
            else:
                attributes.append(("", [text]))
                is_broken = True
        elif not colon or not re.fullmatch("[a-z][a-z0-9_-]{0,63}", name):
            attributes.append(("", [text]))
            is_broken, before = True, ""
        else:
            attributes.append((name, [value.strip(BLANKS)]))
            before = name
    if held:
        yield Piece(line, attributes, is_broken, is_inside)


# Keys.


def number_of(text: str) -> int | None:
    found = re.fullmatch("as([0-9]{1,10})", text, re.I)
    return int(found[1]) if found and int(found[1]) < 1 << 32 else None


def network(text: str) -> ipaddress.IPv4Network | None:
    if not re.fullmatch(r"[0-9.]+/[0-9]{1,2}", text):
        return None
    try:
        return ipaddress.IPv4Network(text, strict=False)
    except ValueError:
        return None


def written_out(text: str) -> str:
    """A prefix with all four numbers, where it has fewer."""
    front, slash, length = text.partition("/")
    numbers = front.removesuffix(".").split(".")
    return ".".join(numbers + ["0"] * (4 - len(numbers))) + slash + length


def span_of(text: str) -> tuple[int, int] | None:
    held = network(written_out(text))
    if held:
        return int(held[0]), int(held[-1])
    try:
        first, last = (int(ipaddress.IPv4Address(end.strip(BLANKS))) for end in text.split("-"))
    except ValueError:
        return None
    return (first, last) if first <= last else None


def set_name(text: str) -> tuple[str, str] | None:
    """The class of a set and its name as names are compared."""
    parts, kinds = [], set()
    if text.upper() in ("AS-ANY", "RS-ANY"):
        return ("as-set" if text[0] in "Aa" else "route-set"), text.upper()
    for part in text.split(":"):
        number = number_of(part)
        is_name = NAME.fullmatch(part) and part.lower() not in RESERVED
        if number is None and not (is_name and part.upper()[:3] in ("AS-", "RS-")):
            return None
        parts.append(part.upper() if number is None else f"AS{number}")
        kinds |= {part.upper()[0]} if number is None else set()
    kind = {"A": "as-set", "R": "route-set"}.get("".join(kinds))
    return (kind, ":".join(parts)) if kind else None


def key_of(piece: Piece) -> Any:
    """What tells an object from others of its class; None where it can't be read."""
    value, kind = meaning(piece.attributes[0][1]), piece.kind
    if kind == "mntner":
        return value.upper() if is_maintainer(value) else None
    if kind == "aut-num":
        return number_of(value)
    if kind == "as-block":
        ends = [number_of(end.strip(BLANKS)) for end in value.split("-")]
        first, last = ends if len(ends) == 2 else (None, None)
        return (first, last) if first is not None and last is not None and first <= last else None
    if kind == "inetnum":
        return span_of(value)
    if kind == "route":
        held, origins = network(written_out(value)), piece.values("origin")
        origin = number_of(origins[0]) if len(origins) == 1 else None
        return (held, origin) if held and origin is not None else None
    name = set_name(value)
    return name[1] if name and name[0] == kind and not name[1].endswith("-ANY") else None


def is_cut(dump: bytes, found: list[Piece]) -> bool:
    """Whether the last piece of a dump may have lost its end: the file ends within its last line,
    or it has no `source` and most others have one; and no paragraph of comments stands after it."""
    text = dump.decode("latin-1").rstrip(BLANKS + "\n")
    end = re.split(r"\n[ \t\r]*\n", text)[-1].split("\n")
    is_ended = all(not line.strip(BLANKS) or line[0] in "#%" for line in end)
    if not found or found[-1].kind not in CLASSES + OTHERS or is_ended:
        return False
    *others, last = found
    have = ["source" in piece.names[1:] for piece in others]
    is_within_line = bool(dump.decode("latin-1").rpartition("\n")[2].strip(BLANKS))
    is_usual = have.count(True) > have.count(False)
    return is_within_line or (is_usual and "source" not in last.names[1:])


def without_end(piece: Piece) -> Piece:
    """A piece without its last line, of which an end may be missing: all that is after a CR."""
    *others, (name, lines) = piece.attributes
    front, mark, _ = lines[-1].rpartition("\r")
    kept = [*lines[:-1], front.strip(BLANKS)] if mark else lines[:-1]
    return piece._replace(attributes=[*others, (name, kept)] if kept else others)


def refusal(piece: Piece, is_cut_off: bool) -> str:
    """A word of the cause for which a piece by itself is left out; nothing where it is taken."""
    if any(name in CLASSES + OTHERS for name in piece.names[1:]):
        return "class again"
    if piece.names[1:].count("source") > 1:
        return "`source` twice"
    if is_cut_off:
        return "cut off"
    if piece.is_inside and "source" not in piece.names[1:]:
        return "no blank line before it"
    if piece.kind in OTHERS:
        return f"class {piece.kind}"
    if piece.is_broken:
        return "text"
    if piece.kind not in CLASSES:
        return "does not know"
    first = meaning(piece.attributes[0][1]).split(" ")[0]
    if piece.kind in ("inetnum", "route") and ":" in first:
        return "IPv6"
    if key_of(piece) is None:
        return "key"
    cause = no_list(piece)
    if cause:
        return cause
    source = "".join(piece.values("source"))
    if source and not NAME.fullmatch(source):
        return "`source` that"
    return shows_another(piece)


def shows_another(piece: Piece) -> str:
    """A word of the cause where the first line of another object may be lost in a piece: a list
    goes on after `source`, an `auth` has a class in it, or a person's name is left."""
    listed = [name for name, kinds in LISTS.items() if piece.kind in kinds]
    listed += ["auth"] if piece.kind == "mntner" else []
    for place, (name, lines) in enumerate(piece.attributes):
        if name == "auth" and piece.kind == "mntner":
            text = "\n".join(SECRET.sub("", line).lower() for line in lines)
            if re.search(rf"({'|'.join(CLASSES + OTHERS)})[ \t\r]*:(?!:)", text):
                return "inside an `auth`"
        front = piece.names[:place]
        if name in listed and "source" in front and name in front[: front.index("source")]:
            return "goes on after"
        if name == "nic-hdl":
            return "a `nic-hdl`"
        if any(map(has_class, [f"{name}:{lines[0]}", *lines[1:]])):
            return "inside a text"
    return ""


def has_class(line: str) -> bool:
    """Whether a class with a key stands in a line directly after a letter, a digit, a dot or a
    comma."""
    for found in re.finditer("[a-z0-9.,](?=([a-z0-9-]+):(?!:)(.*))", line.lower()):
        name, key = found[1], found[2].strip(BLANKS)
        is_key = {
            "mntner": re.match(r"ma?i?nt-|[a-z0-9_-]+-mnt\s*(#|$)", key),
            "route": re.match("[0-9]{1,3}[./]", key),
            "inetnum": re.match("[0-9]{1,3}[./]", key),
            "route6": re.match("[0-9a-f]{1,4}:", key),
            "inet6num": re.match("[0-9a-f]{1,4}:", key),
            "aut-num": re.match("as[0-9]", key),
            "as-block": re.match("as[0-9]", key),
        }
        is_key |= {
            kind: re.match("[ar]s[-0-9]", key) for kind in ("as-set", "as-macro", "route-set")
        }
        if is_key.get(name):
            return True
    return False


def no_list(piece: Piece) -> str:
    """A word of the cause for which the lists of a piece are none, or that of `password` and
    `delete`: the first one decides."""
    before = "}"
    for name, lines in piece.attributes[1:]:
        if name in ("password", "delete"):
            return "`delete`"
        if piece.kind not in LISTS.get(name, []):
            continue
        for item in tokens_of(name, meaning(lines)):
            is_good_here = is_ipv6(item) or is_word(item)
            if name == "mnt-routes" and item in "{}":
                is_good_here = before == ("name" if item == "{" else "{")
                before = item
            elif name == "mnt-routes" and before == "{":
                is_good_here |= is_range(item)
            elif item.upper() == "ANY" and name in ("mnt-routes", "mbrs-by-ref"):
                is_good_here = name == "mbrs-by-ref" or before == "name"
                before = "}"
            elif name in ("mnt-by", "mnt-lower", "mnt-routes", "mbrs-by-ref"):
                is_good_here = is_maintainer(item)
                is_good_here &= name != "mnt-routes" or not item[0].isdigit()
                before = "name" if name == "mnt-routes" else before
            else:
                scope, _, bare = item.rpartition("::")
                own = bare if NAME.fullmatch(scope) else item
                is_good_here |= bool(
                    set_name(own) if name == "member-of" else is_good(piece.kind, name, own)
                )
            if not is_good_here:
                return "two lines" if is_joined(item) else "a list"
    return "a list" if before == "{" else ""


def is_word(item: str) -> bool:
    """Whether an item that can't be read is a word, and none of an expression, nor of two lines."""
    is_plain = re.fullmatch("[A-Za-z0-9_.:/^-]+", item) and item[0].isalnum() and item[-1].isalnum()
    return bool(is_plain) and item.lower() not in RESERVED and not is_joined(item)


def is_maintainer(item: str) -> bool:
    """Whether an item of a list of maintainers is a name, of any length; that of a set ends as the
    names of maintainers do."""
    is_set = item.upper().startswith(("AS-", "RS-")) and not item.upper().endswith("-MNT")
    has_letter = any(letter.isalpha() for letter in item)
    return is_word(item) and has_letter and not is_set and not set(item) & set("/.:^")


def is_ipv6(item: str) -> bool:
    front, hat, operator = item.partition("^")
    try:
        ipaddress.IPv6Address(front.partition("/")[0])
    except ValueError:
        return False
    ends = re.fullmatch("[+-]|[0-9]{1,3}(-[0-9]{1,3})?", operator)
    return bool(re.fullmatch("[^/%]+(/[0-9]{1,3})?", front) and (ends or not hat))


def is_joined(item: str) -> bool:
    """Whether an item that can't be read has the name of a class before a colon, or a single colon
    at an end."""
    if is_ipv6(item):
        return False
    words = re.split("(?<!:):(?!:)", item.lower())
    return any(word.endswith(tuple(CLASSES + OTHERS)) for word in words[:-1]) or (
        len(words) > 1 and "" in (words[0], words[-1])
    )


# Items of lists.


def is_good(kind: str, attribute: str, item: str) -> bool:
    """Whether an item of a list, without a registry before it, is one that irrdesk reads there.
    Braces and ANY of `mnt-routes` are no matter of one item."""
    if attribute in ("mnt-by", "mnt-lower", "mbrs-by-ref"):
        return True
    if attribute == "member-of":
        name = set_name(item)
        return name is not None and (kind, name[0]) != ("route", "as-set")
    if attribute == "mnt-routes":
        return is_range(item) or (NAME.match(item) is not None and ":" not in item)
    if kind == "as-set":
        return number_of(item) is not None or (set_name(item) or "x")[0] == "as-set"
    front, hat, operator = item.partition("^")
    named = number_of(front) is not None or set_name(front) is not None
    return is_range(item) or named and is_range("0.0.0.0/0" + hat + operator)


def is_range(item: str) -> bool:
    front, hat, operator = item.partition("^")
    ends = re.fullmatch("([0-9]{1,2})(?:-([0-9]{1,2}))?", operator)
    least, most = (int(ends[1]), int(ends[2] or ends[1])) if ends else (33, 0)
    is_operator = not hat or operator in ("+", "-") or least <= most <= 32
    return network(front) is not None and is_operator


def without_host_bits(item: str) -> str:
    front, hat, operator = item.partition("^")
    held = network(front)
    return f"{held}{hat}{operator}" if held else item


def tokens_of(attribute: str, text: str) -> list[str]:
    return re.findall(r"[{}]|[^, \t\r{}]+" if attribute == "mnt-routes" else r"[^, \t\r]+", text)


def grants(values: list[list[str]]) -> list[list[bool]]:
    """Which tokens of the attributes `mnt-routes` of an object stay: an entry is a name, and ANY or
    ranges in braces."""
    found: list[list[bool]] = []
    before = ""
    for tokens in values:
        kept: list[bool] = []
        for token in tokens:
            if before == "{":
                kept.append(token == "}" or is_range(token))
                before = token if token == "}" else before
            else:
                kept.append(token.upper() != "ANY" or before == "name")
                before = token if token == "{" else "" if token.upper() == "ANY" else "name"
        found.append(kept)
    return found


class Registry:
    """What an import has to make of dumps: each object as its attributes, a list as its items; why
    pieces are left out, by line; and the items that are gone, each with its line and attribute."""

    def __init__(self, dump: bytes, source: str, root: str) -> None:
        self.source, self.root = source, root
        self.pieces = pieces(dump)
        self.causes: dict[int, str] = {}
        self.gone: list[tuple[int, str, str]] = []
        taken: dict[tuple[str, Any], Piece] = {}
        # The maintainers and sets that can't be read, with their registries.
        self.withheld: dict[tuple[str, Any], str] = {}
        last = ""
        is_last_cut = is_cut(dump, self.pieces)
        is_ended = not re.split("[\n\r]", dump.decode("latin-1"))[-1].strip(BLANKS)
        for piece in self.pieces:
            is_last = piece is self.pieces[-1]
            cause = refusal(piece, is_last_cut and is_last)
            own = "".join(piece.values("source")).upper()
            if cause:
                self.withhold(piece if is_ended or not is_last else without_end(piece), last)
                self.causes[piece.line] = cause
                continue
            last = own or last
            first = taken.get((piece.kind, key_of(piece)))
            if first:
                sources = {own, "".join(first.values("source")).upper()}
                both = piece.kind in NAMED and len(sources) > 1
                cause = "a name of another registry" if both else "duplicate"
            elif self.withheld.get((piece.kind, key_of(piece)), own) != own:
                cause = "where it can't be read"
            if cause:
                self.causes[piece.line] = cause
            else:
                taken[piece.kind, key_of(piece)] = piece
        for kind in "as-block", "inetnum":
            self.leave_out_crossing(taken, kind)
        self.sources = {
            place: "".join(piece.values("source")).upper() for place, piece in taken.items()
        }
        self.objects = {place: self.object_of(piece) for place, piece in taken.items()}
        self.lines = {place: piece.line for place, piece in taken.items()}

    def withhold(self, piece: Piece, last: str) -> None:
        """Keeps the names of what can't be read, as far as it tells them: one may begin at each
        class. Without a `source` it is of the registry of the last object."""
        begun: list[Attributes] = [[]]
        for name, lines in piece.attributes:
            if begun[-1] and name in CLASSES + OTHERS:
                begun.append([])
            begun[-1].append((name, lines))
        for attributes in begun:
            read = piece._replace(
                attributes=[
                    (name, [line for line in lines if not CONTROL.search(line)])
                    for name, lines in attributes
                    if name and not CONTROL.search(lines[0])
                ]
            )
            is_whole = read.attributes[:1] and read.kind == attributes[0][0]
            if is_whole and read.kind in NAMED and key_of(read):
                own = next(filter(NAME.fullmatch, read.values("source")), last)
                self.withheld.setdefault((read.kind, key_of(read)), own.upper())

    def leave_out_crossing(self, taken: dict[tuple[str, Any], Piece], kind: str) -> None:
        stay: list[tuple[int, int]] = []
        for place, piece in list(taken.items()):
            if place[0] == kind and isinstance(place[1], tuple):
                first, last = place[1]
                if any(a < first <= b < last or first < a <= last < b for a, b in stay):
                    self.causes[piece.line] = "crossing"
                    del taken[place]
                else:
                    stay.append((first, last))

    def object_of(self, piece: Piece) -> list[tuple[str, list[str]]]:
        """The attributes of an object: the lines of each, or the items of a list."""
        kind, found = piece.kind, []  # type: str, list[tuple[str, list[str]]]
        routes = iter(
            grants([tokens_of("mnt-routes", value) for value in piece.values("mnt-routes")])
        )
        for place, (name, lines) in enumerate(piece.attributes):
            if not place and kind in ("inetnum", "route") and "/" in meaning(lines):
                found.append((name, [without_host_bits(written_out(meaning(lines)))]))
            elif not place:
                found.append((name, [meaning(lines)]))
            elif kind in LISTS.get(name, []):
                found += self.listed(
                    piece, name, lines, next(routes) if name == "mnt-routes" else []
                )
            elif name == "auth" and kind == "mntner":
                words = meaning(lines).split()
                is_bad = (
                    not words
                    or words[0].upper() == "SHA256-PW"
                    and (not re.fullmatch("[A-Za-z0-9]{0,16}:[0-9A-Fa-f]{64}", "".join(words[1:])))
                )
                found.append((name, ["FILTERED"] if is_bad else lines))
            elif name == "source" and meaning(lines).upper() != self.source:
                found.append((name, [self.source]))
            else:
                found.append((name, lines))
        end = next((at for at, one in enumerate(found) if one[0] == "source"), len(found))
        if not any(items for name, items in found if name == "mnt-by"):
            found.insert(end, ("mnt-by", [self.root]))
        if "source" not in piece.names:
            found.append(("source", [self.source]))
        if kind == "mntner" and "auth" not in piece.names:
            found.insert(1, ("auth", ["FILTERED"]))
        return letters.in_utf8(found) if letters.are_other(piece.attributes) else found

    def listed(
        self, piece: Piece, name: str, lines: list[str], granted: list[bool]
    ) -> list[tuple[str, list[str]]]:
        """A list with the items that stay; nothing where none does, and no comment."""
        items = tokens_of(name, meaning(lines))
        kept = []
        for place, item in enumerate(items):
            scope, mark, bare = item.rpartition("::")
            is_scoped = bool(mark) and name in ("members", "mp-members", "member-of")
            bare = bare if is_scoped else item
            if name == "mnt-routes":
                stays = granted[place]
            elif is_scoped and NAME.fullmatch(scope):
                stays = is_good(piece.kind, name, bare) and self.is_imported(scope.upper(), bare)
            else:
                stays = is_good(piece.kind, name, item)
            if stays:
                kept.append(without_host_bits(bare))
            else:
                self.gone.append((piece.line, name, item))
        has_lost_all = items and not kept and not any("#" in line for line in lines)
        new = "members" if name == "mp-members" and items else name
        return [] if has_lost_all else [(new, kept)]

    def is_imported(self, scope: str, item: str) -> bool:
        """Whether what is named with a registry is that registry's."""
        named = set_name(item.partition("^")[0])
        if named and named[1] in ("AS-ANY", "RS-ANY"):
            return set(self.sources.values()) == {scope}
        own = self.sources.get(named, self.withheld.get(named, scope)) if named else scope
        return own == scope and scope in self.sources.values()


def maintainers_in(kind: str, attributes: list[tuple[str, list[str]]]) -> Iterator[str]:
    """The maintainers that an object names."""
    for name, items in attributes:
        if name in ("mnt-by", "mnt-lower", "mnt-routes", "mbrs-by-ref") and kind in LISTS[name]:
            yield from (item for item in items if is_maintainer(item))


def odd(dump: bytes, registry: Registry) -> Iterator[tuple[object, ...]]:
    """What is odd about the objects of a registry: the lines with `#` or `%` first, or a CR that is
    not at the end, as they are shown, and the first lines of those that have no `source`, or are
    not UTF-8, and of the mntners that objects of another registry name; and of the first that names
    a maintainer without a mntner which one of another registry names, with this maintainer."""
    others = {
        ("mntner", name.upper())
        for place, attributes in registry.objects.items()
        for name in maintainers_in(place[0], attributes)
        if len({registry.sources.get(("mntner", name.upper())), registry.sources[place], "", None})
        == 4
    }
    for other in others:
        yield (registry.lines[other],)
    alone: dict[str, list[tuple[int, str]]] = {}
    for own, attributes in registry.objects.items():
        for name in maintainers_in(own[0], attributes) if registry.sources[own] else ():
            if ("mntner", name.upper()) not in registry.objects and name.upper() != "ROOT-MNT":
                one = registry.lines[own], registry.sources[own]
                alone.setdefault(name.upper(), []).append(one)
    for name, named in alone.items():
        named.sort()
        yield from [(line, name) for line, source in named if source != named[0][1]][:1]
    lines = dump.decode("latin-1").split("\n")
    left_out = set(registry.causes)
    for piece in registry.pieces:
        if piece.line in left_out:
            continue
        is_bare, is_other = not "".join(piece.values("source")), letters.are_other(piece.attributes)
        yield from [(piece.line,)] * (is_bare + is_other)
        place = piece.line
        while place < len(lines) and lines[place].strip(BLANKS):
            place += 1
            if place + 1 in (other.line for other in registry.pieces):
                break
        for number in range(piece.line, place):
            text = lines[number].rstrip(BLANKS)
            if text[0] in "#%" or "\r" in text:
                yield number + 1, text.replace("\r", "\\x0d").replace("\t", "\\x09")

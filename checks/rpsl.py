"""RPSL of chance for Hypothesis: objects of the seven classes, registries that are sound, and
dumps as other registries write them.

Names and numbers come from small pools, so that objects meet: a set lists sets that are there, a
route lies in an inetnum, a maintainer is named twice. Text is Latin-1, as dumps have it.

A strategy draws bytes once, and `Choices` makes choices of them: thousands of small draws are too
slow. Fewer and lower bytes make smaller and plainer things, so what fails still shrinks."""
import functools
import hashlib
from typing import Any, Callable, Mapping, NamedTuple, Sequence, TypeVar

import hypothesis
from hypothesis import strategies as st

from checks.running import Failure

CLASSES = ("mntner", "as-block", "aut-num", "inetnum", "route", "as-set", "route-set")
SETS, ROUTES_IN = ("as-set", "route-set"), ("aut-num", "inetnum", "route")
ROOT, SOURCE = "ROOT-MNT", "TEST"
TOP = (1 << 32) - 1
SALT = "k3"

MAINTAINERS = (ROOT, "A-MNT", "B-MNT", "C-MNT", "MAINT-AS64496")
NUMBERS = (64496, 64497, 64498, 64499, 64500, 65551, 1, TOP)
AS_SETS = ("AS-A", "AS-B", "AS-C", "AS64496:AS-A", "AS-A:AS-B", "AS64496:AS-A:AS64497")
ROUTE_SETS = ("RS-A", "RS-B", "RS-C", "AS64496:RS-A", "RS-A:RS-B")
SOURCES = ("RIPE", "RADB", SOURCE)
FOREIGN = (
    "person: Jo Doe",
    "role: NOC",
    "inet6num: 2001:db8::/32",
    "route6: 2001:db8::/32",
    "organisation: ORG-EX1-RIPE",
    "key-cert: PGPKEY-12345678",
    "poem: POEM-EXAMPLE",
    "filter-set: FLTR-A",
    "peering-set: PRNG-A",
    "inet-rtr: rtr.example.net",
    "irt: IRT-EXAMPLE",
    "domain: 2.0.192.in-addr.arpa",
    "x-unknown: y",
)
OPERATORS = ("", "", "", "^+", "^-", "^24", "^24-28", "^32")
TEXTS = ("Example", "caf\xe9 \x9b", "mnt-by: EVIL-MNT", "a # b", "", "from AS64497 accept ANY")


HEADERS: tuple[tuple[str, ...], ...] = ((), (), ("% This is a dump",), ("# RIPE", "#", ""))
BETWEEN: tuple[tuple[str, ...], ...] = (
    *((("",),) * 6),
    ("", ""),
    (" \t",),
    ("", "% between", ""),
    ("# none",),
    (),
    ("+",),
)
# What is wrong or unusual in one attribute more, or in a key.
BAD_VALUES = (
    ("mnt-by", "1-MNT"),
    ("mnt-by", ""),
    ("mnt-by", "AS-A"),
    ("mnt-lower", "AS-MNT"),
    ("mnt-routes", "1-MNT {10.0.0.0/8}"),
    ("mnt-routes", "RS-MNT {10.0.0.0/8}, A-MNT"),
    ("mnt-routes", "A-MNT {10.0.0.0/33}"),
    ("mnt-routes", "A-MNT {10.0.0.0/8"),
    ("mnt-routes", "A-MNT {2001:db8::/32, 10.0.0.9/9}"),
    ("mnt-routes", "ANY A-MNT"),
    ("member-of", "RS-A, AS-A"),
    ("member-of", "RADB::RS-A"),
    ("member-of", "10.0.0.0/8"),
    ("members", "AS64496, AS1.1, 2001:db8::/32"),
    ("members", "RADB::AS-B, RIPE::AS-C, ARIN::AS-A"),
    ("members", "10.0.0.1/8, RS-A^+, 10/8"),
    ("mp-members", "10.0.0.0/8^+, 2001:db8::/32, AS64496"),
    ("mp-members", "2001:db8::/32"),
    ("mp-members", "RADB::RS-B, RIPE::10.0.0.9/8, ::/0"),
    ("mbrs-by-ref", "A-MNT, ::/0"),
    ("mbrs-by-ref", "AS-A"),
    ("auth", "SHA256-PW x"),
    ("auth", ""),
    ("auth", "MD5-PW $1$x # Filtered"),
    ("origin", "AS64496"),
    ("origin", "64496"),
    ("source", "RADB"),
    ("source", ""),
    ("source", "RIPE RADB"),
    ("password", "secret"),
    ("delete", "no more"),
    ("person", "Jo Doe"),
    ("route", "10.0.0.0/8"),
    ("as-set", "AS-A"),
    ("aut-num", "AS64496"),
)
BAD_KEYS = {
    "mntner": ("1-MNT", "A B", "AS-MNT", "ANY", ""),
    "as-block": ("AS5 - AS1", "AS1", "AS1 - AS4294967296", "AS1-AS02"),
    "aut-num": ("AS1.1", "64496", "AS-A", "AS064496"),
    "inetnum": ("10/8", "10.0.0.9/24", "10.0.0.9 - 10.0.0.1", "::/0", "10.0.0.0/33", "10.1/16"),
    "route": ("10/8", "10.0.0.9/24", "2001:db8::/32", "10.0.0.0", "10.0.0.0/33"),
    "as-set": ("RS-A", "AS-ANY", "AS64496", "AS01:AS-A", "EXAMPLE", "AS-A:RS-A"),
    "route-set": ("AS-A", "RS-ANY", "AS64496:RS-A:RS-", "RS-A^+", "rs-b"),
}


Pairs = tuple[tuple[str, str], ...]
Prefix = tuple[int, int]


class Object(NamedTuple):
    """An object as its attributes, each a name and a value of one line."""

    attributes: Pairs

    @property
    def kind(self) -> str:
        return self.attributes[0][0]

    def values(self, name: str) -> list[str]:
        return [value for found, value in self.attributes if found == name]

    def items(self, name: str) -> list[str]:
        """The items of the list that the attributes of a name make together."""
        values = (value.partition("#")[0] for value in self.values(name))
        return ",".join(values).replace(",", " ").split()

    @property
    def key(self) -> str:
        """What reports print, where the value is spelled as the generators here spell it."""
        return " ".join([self.attributes[0][1], *self.values("origin")[: self.kind == "route"]])

    def text(self) -> str:
        """Its canonical text."""
        return "".join(line_of(name, value) for name, value in self.attributes)

    def without(self, *names: str) -> "Object":
        return Object(tuple(pair for pair in self.attributes if pair[0] not in names))

    def with_last(self, name: str, value: str) -> "Object":
        """The same with one more attribute, before `source`."""
        end = next(
            (at for at, pair in enumerate(self.attributes) if pair[0] == "source"),
            len(self.attributes),
        )
        return Object((*self.attributes[:end], (name, value), *self.attributes[end:]))


class Registry(NamedTuple):
    """The objects of a registry in the order of a dump."""

    objects: tuple[Object, ...]

    def of(self, kind: str) -> list[Object]:
        return [held for held in self.objects if held.kind == kind]

    def text(self) -> str:
        """The full dump."""
        end = f"% end {len(self.objects)}\n"
        return "".join(held.text() + "\n" for held in self.objects) + end


def line_of(name: str, value: str) -> str:
    return f"{name + ':':15} {value}".rstrip() + "\n"


def password(maintainer: str) -> str:
    """The password of a maintainer of these registries."""
    return f"secret of {maintainer.lower()}"


def auth(maintainer: str) -> str:
    digest = hashlib.sha256((SALT + password(maintainer)).encode()).hexdigest()
    return f"SHA256-PW {SALT}:{digest}"


def address(number: int) -> str:
    return ".".join(str(byte) for byte in number.to_bytes(4, "big"))


def prefix_text(prefix: Prefix) -> str:
    return f"{address(prefix[0])}/{prefix[1]}"


def span_of(prefix: Prefix) -> tuple[int, int]:
    return prefix[0], prefix[0] + (1 << 32 - prefix[1]) - 1


def crosses(one: tuple[int, int], other: tuple[int, int]) -> bool:
    """Whether two spans overlap with neither inside the other."""
    low, high = sorted([one, other])
    return low[0] < high[0] <= low[1] < high[1]


# Choices.

Made = TypeVar("Made")


class Choices:
    """Choices that bytes make; the first one of all where there are no more."""

    def __init__(self, data: bytes) -> None:
        self.bytes = iter(data)

    def below(self, count: int) -> int:
        """A number below one that is at most 256."""
        return next(self.bytes, 0) % count

    def of(self, options: Sequence[Made]) -> Made:
        return options[self.below(len(options))]

    def one_in(self, count: int) -> bool:
        return self.below(count) == count - 1

    def some(self, options: Sequence[Made], least: int, most: int) -> list[Made]:
        return [self.of(options) for _ in range(least + self.below(most - least + 1))]

    def distinct(self, options: Sequence[Made], most: int) -> list[Made]:
        return list(dict.fromkeys(self.some(options, 0, most)))

    def shuffled(self, items: Sequence[Made]) -> list[Made]:
        rest, found = list(items), []
        while rest:
            found.append(rest.pop(self.below(len(rest))))
        return found


def drawn(make: Callable[[Choices], Made], size: int) -> st.SearchStrategy[Made]:
    """What is made of so many bytes."""
    return st.binary(min_size=size, max_size=size).map(lambda data: make(Choices(data)))


def until_seen(
    holds: Callable[[], None], seen: Mapping[Any, int], least: int, seed: int, turns: int = 20
) -> None:
    """Tries a property, and again with other examples until there were so many cases of each kind:
    how many one turn has hangs on the seed. What makes no case of a kind is refused."""
    for turn in range(turns):
        hypothesis.seed(f"{seed} {turn}")(holds)()
        if min(seen.values()) >= least:
            return
    raise Failure(f"{turns} turns have less than {least} cases of a kind: {seen}")


# Parts of objects.


def any_prefix(chance: Choices, within: Prefix = (10 << 24, 8), longest: int = 32) -> Prefix:
    """A prefix inside another one: near its beginning, so that some lie in others."""
    length = within[1] + chance.below(longest - within[1] + 1)
    place = chance.below(min(4, 1 << length - within[1]))
    return within[0] + (place << 32 - length), length


def any_range(chance: Choices) -> str:
    """A prefix with an operator or none."""
    return prefix_text(any_prefix(chance)) + chance.of(OPERATORS)


def any_number(chance: Choices) -> str:
    return f"AS{chance.of(NUMBERS)}"


def any_list(chance: Choices, make: Callable[[], str], least: int = 1, most: int = 4) -> str:
    """A list's value."""
    mark = chance.of([", ", ",", " ", " , "])
    return mark.join(make() for _ in range(least + chance.below(most - least + 1)))


def any_member(chance: Choices, kind: str) -> str:
    """An item of a set's `members`."""
    turn = chance.below(3)
    if turn == 0:
        return any_number(chance) + (chance.of(OPERATORS) if kind == "route-set" else "")
    if kind == "as-set":
        return chance.of((*AS_SETS, "AS-MISSING", "AS-ANY"))
    if turn == 1:
        return any_range(chance)
    return chance.of((*ROUTE_SETS, *AS_SETS, "RS-MISSING", "RS-ANY")) + chance.of(OPERATORS)


def any_grants(chance: Choices, names: Sequence[str]) -> str:
    """The value of `mnt-routes`."""

    def entry() -> str:
        name, turn = chance.of(names), chance.below(3)
        if turn == 2:
            return f"{name} {{{any_list(chance, lambda: any_range(chance), 0, 2)}}}"
        return name + (" ANY" if turn else "")

    return ", ".join(entry() for _ in range(1 + chance.below(2)))


def any_key(chance: Choices, kind: str) -> Pairs:
    """The attributes of a key, spelled as reports print it."""
    if kind == "mntner":
        return ((kind, chance.of(MAINTAINERS)),)
    if kind == "as-block":
        first, last = sorted([chance.of(NUMBERS), chance.of(NUMBERS)])
        return ((kind, f"AS{first} - AS{last}"),)
    if kind == "aut-num":
        return ((kind, any_number(chance)),)
    if kind == "inetnum":
        first, last = span_of(any_prefix(chance))
        return ((kind, f"{address(first)} - {address(last)}"),)
    if kind == "route":
        return (kind, prefix_text(any_prefix(chance))), ("origin", any_number(chance))
    return ((kind, chance.of(AS_SETS if kind == "as-set" else ROUTE_SETS)),)


# Objects.


def any_object(
    chance: Choices, key: Pairs, names: Sequence[str] = MAINTAINERS, source: str = SOURCE
) -> Object:
    """An object of a key that the rules take by itself; what it names need not be there."""
    kind = key[0][0]

    def listed_names(most: int = 2) -> str:
        return any_list(chance, lambda: chance.of(names), 1, most)

    rest = [("mnt-by", listed_names()) for _ in range(1 + chance.one_in(4))]
    if chance.one_in(3):
        name = chance.of(("descr", "remarks", "admin-c", "import", "mp-import"))
        rest.append((name, chance.of(TEXTS)))
    if kind != "mntner" and chance.one_in(4):
        rest.append(("mnt-lower", listed_names()))
    if kind in ROUTES_IN and chance.one_in(4):
        rest += [("mnt-routes", any_grants(chance, names)) for _ in range(1 + chance.one_in(3))]
    if kind in ("aut-num", "route") and chance.one_in(3):
        sets = AS_SETS if kind == "aut-num" else ROUTE_SETS
        rest.append(("member-of", any_list(chance, lambda: chance.of(sets), 1, 2)))
    if kind in SETS:
        for _ in range(chance.below(3)):
            rest.append(("members", any_list(chance, lambda: any_member(chance, kind))))
        if chance.one_in(2):
            allowed = (*names, "ANY")
            rest.append(("mbrs-by-ref", any_list(chance, lambda: chance.of(allowed), 1, 2)))
    if kind == "mntner":
        rest.insert(0, ("auth", auth(key[0][1])))
    return Object((*key, *chance.shuffled(rest), ("source", source)))


def any_near(chance: Choices, kind: str, source: str = SOURCE) -> Object:
    """An object with one thing about it that is wrong, or unusual."""
    held = any_object(chance, any_key(chance, kind), source=source)
    turn = chance.below(6)
    at = chance.below(len(held.attributes))
    if turn == 0:
        return Object(held.attributes[:at] + held.attributes[at + 1 :])
    if turn == 1:
        return Object(((kind, chance.of(BAD_KEYS[kind])), *held.attributes[1:]))
    if turn == 2:
        return Object((*held.attributes[: at + 1], *held.attributes[at:]))
    return held.with_last(*chance.of(BAD_VALUES))


@functools.cache
def objects(kind: str = "", source: str = SOURCE) -> st.SearchStrategy[Object]:
    """Objects that the rules take by themselves, of one class or any."""

    def make(chance: Choices) -> Object:
        return any_object(chance, any_key(chance, kind or chance.of(CLASSES)), source=source)

    return drawn(make, 64)


@functools.cache
def near_valid(kind: str = "", source: str = SOURCE) -> st.SearchStrategy[Object]:
    """Objects with one thing about them that is wrong, or unusual."""
    return drawn(lambda chance: any_near(chance, kind or chance.of(CLASSES), source), 64)


# Registries.


def any_spans(chance: Choices, most: int) -> list[tuple[int, int]]:
    """All addresses, and spans of which none crosses another."""
    found = [(0, TOP)]
    for _ in range(chance.below(most + 1)):
        first, last = span_of(any_prefix(chance, longest=28))
        span = (first, last - chance.one_in(4))
        if span not in found and not any(crosses(span, other) for other in found):
            found.append(span)
    return sorted(found)


def any_registry(chance: Choices, size: int) -> Registry:
    names = sorted([ROOT, *chance.distinct(MAINTAINERS[1:], size)])
    blocks = [(0, 65_535)] + ([(64_496, 64_511)] if chance.one_in(2) else []) + [(65_536, TOP)]
    routes = {
        (any_prefix(chance, longest=28), chance.of(NUMBERS)) for _ in range(chance.below(size + 1))
    }
    wanted: list[Pairs] = [(("mntner", name),) for name in names]
    wanted += [(("as-block", f"AS{first} - AS{last}"),) for first, last in blocks]
    wanted += [(("aut-num", f"AS{number}"),) for number in sorted(chance.distinct(NUMBERS, size))]
    wanted += [
        (("inetnum", f"{address(first)} - {address(last)}"),)
        for first, last in any_spans(chance, size)
    ]
    wanted += [
        (("route", prefix_text(prefix)), ("origin", f"AS{origin}"))
        for prefix, origin in sorted(routes)
    ]
    for kind, pool in (("as-set", AS_SETS), ("route-set", ROUTE_SETS)):
        wanted += [((kind, name),) for name in sorted(chance.distinct(pool, size))]
    return Registry(tuple(any_object(chance, key, names) for key in wanted))


@functools.cache
def registries(size: int = 8) -> st.SearchStrategy[Registry]:
    """Registries that can be loaded, of at most `size` objects of a class beside those of a new
    one. Each maintainer that is named is there, and has `password` of its name."""
    return drawn(lambda chance: any_registry(chance, size), 256 + 120 * size)


# Dumps of other registries.


def any_lines(chance: Choices, name: str, value: str) -> list[str]:
    """The lines of an attribute as somebody may have written it."""
    style = chance.below(10)
    if style == 6:
        return [name.upper() + " :\t" + value + " \t"]
    if style == 7 and "," in value:
        front, _, back = value.partition(",")
        mark = chance.of((" ", "\t", "+", "+ "))
        return [f"{name}: {front},", *["# inside"] * chance.below(2), mark + back]
    if style == 8:
        return [f"{name}:{value}", chance.of(("%inside", "+", "  # more", "#", "\rmnt-by: B-MNT"))]
    if style == 9:
        return [f"{name}:{value} # remark"]
    return [line_of(name, value).rstrip("\n")]


def any_paragraph(chance: Choices) -> list[str]:
    """The lines of a paragraph: an object, one that is nearly one, or something else."""
    source, turn = chance.of(SOURCES), chance.below(12)
    if turn == 10:
        return [chance.of(("EOF", "no colon", "1x: y", "x: \x07", "a b: c", "+"))]
    if turn == 11:
        kind, _, value = chance.of(FOREIGN).partition(": ")
        held = Object(((kind, value), ("mnt-by", "A-MNT"), ("source", source)))
    elif turn > 5:
        held = any_near(chance, chance.of(CLASSES), source)
    else:
        held = any_object(chance, any_key(chance, chance.of(CLASSES)), source=source)
    found = [line for pair in held.attributes for line in any_lines(chance, *pair)]
    # As IRRd writes it.
    return found + ["last-modified:  2020-01-01T00:00:00Z"] * chance.one_in(6)


def any_dump(chance: Choices, most: int) -> bytes:
    texts = []
    for _ in range(chance.of((1, 1, 1, 2))):
        end = chance.of(("\n", "\n", "\n", "\r\n"))
        found = list(chance.of(HEADERS))
        for _ in range(chance.below(most + 1)):
            found += any_paragraph(chance) + list(chance.of(BETWEEN))
        found += chance.of(((), (), ("# EOF",), ("EOF",)))
        texts.append(end.join(found) + chance.of((end, end, "")))
    return "".join(texts).encode("latin-1")


@functools.cache
def dumps(most: int = 8) -> st.SearchStrategy[bytes]:
    """Dumps with a header or none, LF or CRLF, and blank lines that may be missing; or two of them
    one behind the other, whose seam may lack its blank line or even its line end."""
    return drawn(lambda chance: any_dump(chance, most), 100 + 100 * most)

"""The grammar of objects: the attributes that are read in each class, how often they stand there,
and what they may have (docs/PROFILE.md; RFC 2622, 3 to 6; RFC 2725, 10). It finds the lines of an
object's faults: those of the code that the program gives it, E02 to E06.
"""
import functools
import re
from typing import Callable, Iterator, NamedTuple, Sequence

from irr.rpsl import keys, syntax
from irr.rpsl.syntax import ITEM, Attribute
from irr.terminal import texts

# How often an attribute stands in an object: once, with one item at least, or freely.
ONCE, FILLED, FREELY = "1", "1+", "0+"
# How values are divided: into words between commas and blanks, with braces apart, or not at all.
ITEMS, BRACED, WHOLE = "items", "braced", "whole"
PSEUDO = (b"password", b"delete")
NUMBER = re.compile("{([0-9])}")
# No more of an item is shown.
LONGEST_SHOWN = 60
WORD = re.compile(rb"[^ \t\r]+")
SCHEME, HASH = b"SHA256-PW", re.compile(rb"[A-Za-z0-9]{0,16}:[0-9A-Fa-f]{64}")
# What is wrong, in the words of `irr` and of the page, with what is put into them.
WORDS = {
    "alone": "it is alone; write the class and the key of the object above it",
    "near": "this is not a class; did you mean `{0}`?",
    "later": "this is not a class; if the object is of class `{0}`, put that first",
    "class": "this registry keeps no such class; it keeps {0}",
    "no key": "it is empty; write {0}",
    "not one": "`{0}` is not {1}",
    "no origin": "the `origin` is missing",
    "empty origin": "it has no AS number",
    "again": "it is here again; is a blank line missing above, between two objects?",
    "missing": "`{0}` is missing",
    "empty": "it has not {0}",
    "filtered": "`# filtered` is what answers show in its place; write the line itself",
    "empty auth": "it is empty; make the line by `irr auth`",
    "bad auth": "after `SHA256-PW` comes one word: a salt of at most 16 letters or digits, a "
    "colon, and 64 hexadecimal digits; make the line by `irr auth`",
    "nameless": "no maintainer's name is before `{0}`",
    "open": "the brace `{` is not closed by `}`",
    "other source": "`{0}` is not this registry, which is {1}",
}
# What is mostly meant by an item that is not good: a pattern to be found in it, in any letter case,
# the words, and those of the form for which they are said.
HINTS = (
    ("\\u00a0", "it has a no-break space; write plain blanks", ""),
    ("[^\\x00-\\x7f]", "it has a letter that is not ASCII", ""),
    ("^([0-9]{1,10})$", "write AS{1}", "AS number"),
    ("^([a-z][a-z0-9_-]*)::.", "leave out `{1}::`", ""),
    ("^(?=.*:)(?!:$)[0-9a-f:.]+(?:/[0-9]{1,3})?(?:\\^.*)?$", "this registry has no IPv6", ""),
    ("^:|:$", "a colon is too many", ""),
    (";", "write commas between items", ""),
    ("\\^.*\\^", "one operator is the most", ""),
    ("^([0-9]{1,3}(?:\\.[0-9]{1,3}){3})$", "write its length too, as {1}/32", ""),
    (f"^(?:{'|'.join(sorted(keys.RESERVED))})$", "the word is reserved", ""),
    ("[{}]", "braces stand in `mnt-routes` alone", ""),
)


class Form(NamedTuple):
    """What an attribute may have: its name for the page, words for people, and the check."""

    name: str
    words: str
    is_good: Callable[[bytes], bool]


class Rule(NamedTuple):
    """An attribute of a class: how often it stands, how its values are divided, and what one is."""

    occurs: str
    division: str
    form: Form


class Fault(NamedTuple):
    """A fault of an object: the code that the program gives it, the line of its block, from 0, the
    attribute, and what is wrong with that."""

    code: str
    line: int
    attribute: str
    words: str

    def sentence(self, place: str, first: int) -> str:
        """The fault as people read it, at a place in which the block begins at this line."""
        return f"{place}line {first + self.line}, `{self.attribute}`: {self.words}"


class Placed(NamedTuple):
    """An attribute, and the lines of its block on which its lines stand, from 0."""

    attribute: Attribute
    numbers: list[int]

    @property
    def name(self) -> bytes:
        return self.attribute.name

    def items(self) -> Iterator[tuple[int, bytes]]:
        """Its items between commas and blanks, each with its line."""
        for number, line in zip(self.numbers, self.attribute.lines):
            for item in ITEM.findall(line.partition(b"#")[0]):
                yield number, item

    def braced(self) -> Iterator[tuple[int, bytes]]:
        """The same where a brace is an item by itself."""
        for number, line in zip(self.numbers, self.attribute.lines):
            meant = line.partition(b"#")[0].replace(b"{", b" { ").replace(b"}", b" } ")
            for item in ITEM.findall(meant):
                yield number, item


@functools.lru_cache(1 << 16)
def is_maintainer(item: bytes) -> bool:
    return keys.read_maintainer(item) is not None


@functools.lru_cache(1 << 16)
def is_set(item: bytes) -> bool:
    return keys.read_set(item) is not None


def is_referrer(item: bytes) -> bool:
    return item.upper() == b"ANY" or is_maintainer(item)


def is_range(item: bytes) -> bool:
    return keys.read_range(item) is not None


def is_auth(value: bytes) -> bool:
    """A scheme with what it says: of `SHA256-PW` one word, a salt, a colon and 64 digits."""
    words = WORD.findall(value)
    return bool(words) and (words[0].upper() != SCHEME or is_usable(value))


def is_usable(value: bytes) -> bool:
    """Whether the value of an `auth` lets anybody in: other schemes are kept as text."""
    words = WORD.findall(value)
    return len(words) == 2 and words[0].upper() == SCHEME and HASH.fullmatch(words[1]) is not None


def is_source(value: bytes) -> bool:
    return keys.read_source(value) is not None


MAINTAINER = Form("maintainer", "a maintainer's name", is_maintainer)
SET = Form("set", "the name of a set", is_set)
REFERRER = Form("referrer", "a maintainer's name or `ANY`", is_referrer)
AS_MEMBER = Form(
    "as-member", "an AS number or an as-set", functools.partial(keys.is_member, "as-set")
)
RANGE_MEMBER = Form(
    "range-member",
    "a prefix, an AS number or a set",
    functools.partial(keys.is_member, "route-set"),
)
GRANTS = Form("grants", "a maintainer's name", is_maintainer)
HASHED = Form("auth", "a scheme with what it says", is_auth)
SOURCE = Form("source", "the name of a registry", is_source)
AS_NUMBER = Form("as", "an AS number", lambda item: keys.read_as(item) is not None)

OF_ALL = {
    "mnt-by": Rule(FILLED, ITEMS, MAINTAINER),
    "source": Rule(ONCE, WHOLE, SOURCE),
}
OF_LOWER = {"mnt-lower": Rule(FREELY, ITEMS, MAINTAINER)}
OF_ROUTES = {"mnt-routes": Rule(FREELY, BRACED, GRANTS)}
OF_JOINING = {"member-of": Rule(FREELY, ITEMS, SET)}
OF_SETS = {"mbrs-by-ref": Rule(FREELY, ITEMS, REFERRER)}
# The attributes that are read in each class beside the first one, which is its key.
TABLE: dict[str, dict[str, Rule]] = {
    "mntner": {"auth": Rule(FILLED, WHOLE, HASHED), **OF_ALL},
    "as-block": {**OF_LOWER, **OF_ALL},
    "aut-num": {**OF_JOINING, **OF_LOWER, **OF_ROUTES, **OF_ALL},
    "inetnum": {**OF_LOWER, **OF_ROUTES, **OF_ALL},
    "route": {
        "origin": Rule(ONCE, WHOLE, AS_NUMBER),
        **OF_JOINING,
        **OF_LOWER,
        **OF_ROUTES,
        **OF_ALL,
    },
    "as-set": {"members": Rule(FREELY, ITEMS, AS_MEMBER), **OF_SETS, **OF_LOWER, **OF_ALL},
    "route-set": {"members": Rule(FREELY, ITEMS, RANGE_MEMBER), **OF_SETS, **OF_LOWER, **OF_ALL},
}
# What keys are, in words.
KEYS = {
    "mntner": "a maintainer's name, as EXAMPLE-MNT",
    "as-block": "a range of AS numbers, as AS64496 - AS64511",
    "aut-num": "an AS number, as AS64496",
    "inetnum": "a range of addresses, as 192.0.2.0/24 or 192.0.2.0 - 192.0.2.255",
    "route": "a prefix, as 192.0.2.0/24",
    "as-set": "the name of an as-set, as AS64496:AS-CUSTOMERS",
    "route-set": "the name of a route-set, as AS64496:RS-OUT",
}
# Every attribute that is read in some class, or stands in submissions for something else.
INTERPRETED = tuple(
    dict.fromkeys([*(name for rules in TABLE.values() for name in rules), "password", "delete"])
)


# What reads as a secret, and is more than a letter off `password`. `override` and `api-key` are
# those of other registries.
SECRETS = tuple(
    """pass pass-word pass_word passcode passphrase passw passwd paswd paswrd psswd
    pw pwd secret override api-key apikey""".split()
)


def classes_with(attribute: str) -> tuple[str, ...]:
    """The classes in which an attribute is read."""
    return tuple(kind for kind, rules in TABLE.items() if attribute in rules)


def placed(text: bytes) -> list[Placed]:
    """The attributes of a block with their lines; raises TextFault as `syntax.read` does."""
    attributes = syntax.read(text).attributes
    return list(map(Placed, attributes, syntax.line_numbers(text)))


def faults(text: bytes, source: str | None = None) -> list[Fault]:
    """The faults of a block with the code that the program gives it, line by line: none where that
    is not of E02 to E06. Without a source, in capital letters, there is no E06."""
    try:
        given = placed(text)
    except syntax.TextFault:
        return []
    is_deletion = any(one.name == b"delete" for one in given)
    own = [one for one in given if one.name not in PSEUDO]
    found = class_faults(given, own)
    if own and not found:
        kind = keys.as_text(own[0].name)
        found = key_faults(kind, own)
        if not found and not is_deletion:
            found = count_faults(kind, own) or value_faults(kind, own) or source_faults(own, source)
    return sorted(found, key=lambda fault: fault.line)


def class_faults(given: list[Placed], own: list[Placed]) -> list[Fault]:
    """E02: no class that the registry keeps comes first."""
    if not own:
        alone = [one for one in given if one.name == b"delete"]
        return [Fault("E02", one.numbers[0], "delete", words_of("alone")) for one in alone[:1]]
    name = keys.as_text(own[0].name)
    if name in TABLE:
        return []
    near = next((kind for kind in TABLE if is_one_off(name, kind)), None)
    later = next((one.name for one in own if keys.as_text(one.name) in TABLE), None)
    if near:
        words = f"this is not a class; did you mean `{near}`?"
    elif later:
        kind = keys.as_text(later)
        words = f"this is not a class; if the object is of class `{kind}`, put that first"
    else:
        words = f"this registry keeps no such class; it keeps {', '.join(TABLE)}"
    return [Fault("E02", own[0].numbers[0], name, words)]


def key_faults(kind: str, own: list[Placed]) -> list[Fault]:
    """E03: the key is bad; the `origin` of a route is a part of it."""
    first, found = own[0], []
    value = first.attribute.meaning()
    origin = b"AS0" if kind == "route" else None
    if keys.read_key(kind, value, origin) is None:
        words = words_of("no key", KEYS[kind])
        if value:
            words = not_one(value, KEYS[kind].partition(",")[0], KEYS[kind])
        found.append(Fault("E03", first.numbers[0], kind, words))
    if kind == "route":
        origins = [one for one in own if one.name == b"origin"]
        found += repeated("E03", origins)
        if not origins:
            found.append(Fault("E03", first.numbers[0], kind, words_of("no origin")))
        for one in origins:
            item = one.attribute.meaning()
            if keys.read_as(item) is None:
                words = not_one(item, AS_NUMBER.words) if item else words_of("empty origin")
                found.append(Fault("E03", one.numbers[0], "origin", words))
    return found


def repeated(code: str, attributes: list[Placed]) -> list[Fault]:
    """Each attribute of those that may stand once but the first one."""
    return [
        Fault(code, one.numbers[0], keys.as_text(one.name), words_of("again"))
        for one in attributes[1:]
    ]


def count_faults(kind: str, own: list[Placed]) -> list[Fault]:
    """E04: an attribute is missing, empty, or repeated."""
    found = repeated("E04", [one for one in own if one.name == own[0].name])
    for name, rule in TABLE[kind].items():
        if rule.occurs == FREELY or name == "origin":
            continue
        these = [one for one in own if one.name == name.encode()]
        empty = [one for one in these if name != "auth" and not any(one.items())]
        if not these:
            found.append(Fault("E04", own[0].numbers[0], kind, words_of("missing", name)))
        elif rule.occurs == ONCE:
            found += repeated("E04", [one for one in these if one not in empty])
        if rule.occurs == ONCE or len(empty) == len(these):
            words = words_of("empty", rule.form.words)
            found += [Fault("E04", one.numbers[0], name, words) for one in empty]
    return found


def value_faults(kind: str, own: list[Placed]) -> list[Fault]:
    """E05: an attribute that is read has a bad value."""
    found = []
    for one in own[1:]:
        name = keys.as_text(one.name)
        rule = TABLE[kind].get(name)
        if rule is None or rule.division == BRACED or name == "origin":
            continue
        if rule.division == ITEMS:
            found += [
                Fault("E05", number, name, not_one(item, rule.form.words))
                for number, item in one.items()
                if not rule.form.is_good(item)
            ]
        elif not rule.form.is_good(one.attribute.meaning()):
            found.append(Fault("E05", one.numbers[0], name, bad_whole(name, one.attribute)))
    if "mnt-routes" in TABLE[kind]:
        found += grant_faults([one for one in own if one.name == b"mnt-routes"])
    return found


def bad_whole(name: str, attribute: Attribute) -> str:
    """What is wrong with a value that is one item. One of `auth` is a secret, or made of one."""
    value = attribute.meaning()
    if name != "auth":
        return not_one(value, SOURCE.words)
    if value:
        return words_of("bad auth")
    is_filtered = any(line.startswith(b"# filtered") for line in attribute.lines)
    return words_of("filtered" if is_filtered else "empty auth")


def grant_faults(attributes: list[Placed]) -> list[Fault]:
    """The same of `mnt-routes`: entries that begin with a name, with ranges in braces, `ANY`, or
    nothing after it, over all attributes together."""
    words = [item for one in attributes for item in one.braced()]
    found: list[Fault] = []

    def bad(number: int, what: str) -> None:
        found.append(Fault("E05", number, "mnt-routes", what))

    opened, has_name = -1, False
    for number, item in words:
        if opened >= 0:
            if item == b"}":
                opened = -1
            elif not is_range(item):
                bad(number, not_one(item, "a prefix"))
        elif item == b"{" and has_name:
            opened, has_name = number, False
        elif item.upper() == b"ANY" and has_name:
            has_name = False
        elif item in (b"{", b"}") or item.upper() == b"ANY":
            bad(number, words_of("nameless", shown(item)))
            opened = number if item == b"{" else -1
        else:
            has_name = is_maintainer(item)
            if not has_name:
                bad(number, not_one(item, MAINTAINER.words))
                # What stands after it is of the same entry.
                has_name = True
    if opened >= 0:
        bad(opened, words_of("open"))
    return found


def source_faults(own: list[Placed], source: str | None) -> list[Fault]:
    """E06: the object is of another registry."""
    for one in own:
        value = one.attribute.meaning()
        if one.name == b"source" and source is not None and value.upper() != source.encode():
            words = words_of("other source", shown(value), source)
            return [Fault("E06", one.numbers[0], "source", words)]
    return []


def words_of(name: str, *given: str) -> str:
    """The words of a fault, with what is given in place of the numbers."""
    return filled(WORDS[name], given)


def filled(words: str, given: Sequence[str]) -> str:
    return NUMBER.sub(lambda number: given[int(number[1])], words)


def not_one(item: bytes, what: str, remedy: str = "") -> str:
    """What is wrong with an item that is not what it has to be, and what to do."""
    hint = hint_of(texts.text_of(item), what) or (f"write {remedy}" if remedy else "")
    return words_of("not one", shown(item), what) + (f"; {hint}" if hint else "")


def shown(item: bytes) -> str:
    text = texts.text_of(item)
    return text if len(text) <= LONGEST_SHOWN else text[:LONGEST_SHOWN] + ".."


def hint_of(text: str, what: str) -> str:
    """What is mostly meant by an item that is not what it has to be."""
    for pattern, words, form in HINTS:
        found = re.search(pattern, text, re.I | re.A) if form in what else None
        if found:
            return filled(words, [found[0], *found.groups()])
    return ""


def misspelt(name: bytes) -> str | None:
    """The attribute that is meant by one that is one letter off it, and is none itself."""
    text = keys.as_text(name)
    if text in INTERPRETED or text in TABLE:
        return None
    return next((known for known in INTERPRETED if is_one_off(text, known)), None)


def is_one_off(one: str, other: str) -> bool:
    """Whether a letter more, less or other, or two that changed places, make one of the other."""
    short, long = sorted([one, other], key=len)
    if len(long) - len(short) > 1 or one == other:
        return False
    start = next((at for at, pair in enumerate(zip(short, long)) if pair[0] != pair[1]), len(short))
    if len(short) < len(long):
        return short[start:] == long[start + 1 :]
    return short[start + 1 :] == long[start + 1 :] or (
        short[start : start + 2] == long[start : start + 2][::-1]
        and short[start + 2 :] == long[start + 2 :]
    )

"""What a submission says that its sender hardly means, seen before it is sent: attributes that are
mistyped, bits after a prefix's length, a maintainer that nobody could use any more."""
import functools
import re
from typing import Iterator, NamedTuple

from irr.errors import REFUSED, Failure
from irr.registry import submissions
from irr.registry.refusals import Reasons
from irr.registry.submissions import Gathered, Item
from irr.rpsl import grammar, hashes, holders, keys, syntax
from irr.rpsl.grammar import Placed
from irr.rpsl.syntax import Paragraph
from irr.terminal import texts

# So many are reported one by one.
MOST_REPORTED = 20
MNTNER = re.compile(rb"^mntner[ \t\r]*:", re.I | re.M)
NAMES = re.compile(rb"^[A-Za-z][A-Za-z0-9_-]*", re.M)
SECRET_LINE = re.compile(
    rb"(?:%s)[ \t\r]*:" % "|".join(("password", *grammar.SECRETS)).encode(), re.I
)
GOES_ON = re.compile(rb"^[ \t\r+][ \t\r]*" + SECRET_LINE.pattern, re.I | re.M)
PREFIX = re.compile(rb"[0-9]{1,3}(?:\.[0-9]{1,3}){3}/[0-9]{1,2}")
HELP = (
    "accept the text even if it has no object, a maintainer would be locked out, or a mistyped "
    "`password:` line published"
)
ANYWAY = "nothing was sent; correct the text, or add --anyway if it is meant so"


class Caution(NamedTuple):
    """Where something stands, what it is, and whether it is sent only if that is asked for."""

    place: str
    words: str
    is_grave: bool = False

    def sentence(self) -> str:
        return f"{self.place}: {self.words}"


def found(front: list[Item], text: Gathered, reasons: Reasons) -> list[Caution]:
    """Those of a submission after some passwords, the grave ones first. The registry is asked for
    those maintainers alone whose new `auth` no given password fits, or whose new `mnt-by` lacks
    them."""
    items = [*front, *text.items]
    all_of = [caution for item in items for caution in of_text(item)]
    all_of += lockouts(items, reasons)
    if not text.fault and not any(item.is_item for item in items):
        all_of.append(Caution("the text", "it has no object, so nothing is asked for", True))
    return sorted(all_of, key=lambda caution: not caution.is_grave)


def report(command: str, cautions: list[Caution]) -> None:
    """Says them on standard error."""
    for caution in cautions[:MOST_REPORTED]:
        texts.note(f"irr {command}: {caution.sentence()}")
    more = len(cautions) - MOST_REPORTED
    if more > 0:
        texts.note(f"irr {command}: the text: there are {more:,} more of these")


def grave(cautions: list[Caution], is_meant: bool) -> Failure | None:
    """What keeps a submission from being sent, unless it is meant so."""
    if is_meant or not any(caution.is_grave for caution in cautions):
        return None
    return Failure("the text", ANYWAY, REFUSED)


# What the text alone shows.


def of_text(item: Item) -> Iterator[Caution]:
    """What is seen in the text of one item."""
    if not is_suspect(item.block.text) or item.paragraph is None:
        return
    given = list(map(Placed, item.paragraph.attributes, syntax.line_numbers(item.block.text)))
    for one in given:
        yield from of_name(item, one)
    # Passwords and `delete` may stand above the class.
    own = [one for one in given if one.name not in grammar.PSEUDO]
    kind = keys.as_text(own[0].name) if own else ""
    for one in own:
        yield from going_on(item, one)
        yield from host_bits(item, kind, one)
    if kind == "mntner" and not item.paragraph.has(b"delete"):
        yield from without_auth(item, own)


def is_suspect(text: bytes) -> bool:
    """Whether it is worth reading: most objects are not, and a submission may have many."""
    return (
        MNTNER.search(text) is not None
        or GOES_ON.search(text) is not None
        or any(misspelt(name) or is_secret(name) for name in NAMES.findall(text))
        or any(map(rounded, PREFIX.findall(text)))
    )


@functools.lru_cache(4_096)
def misspelt(name: bytes) -> str | None:
    return grammar.misspelt(name.lower())


def is_secret(name: bytes) -> bool:
    return keys.as_text(name).lower() in grammar.SECRETS


@functools.lru_cache(4_096)
def rounded(item: bytes) -> str | None:
    """The prefix that is read in place of one with bits after its length; None for another one."""
    prefix = keys.read_prefix(item)
    if prefix is None or keys.read_address(item.partition(b"/")[0]) == prefix.first:
        return None
    return prefix.text()


def at(item: Item, one: Placed, line: int) -> str:
    """The place of an attribute, for people."""
    return f"{item.name}: line {item.block.line + line}, `{keys.as_text(one.name)}`"


def of_name(item: Item, one: Placed) -> Iterator[Caution]:
    """An attribute that is one letter off another one, or reads as a secret."""
    meant = misspelt(one.name)
    if is_secret(one.name):
        words = "it reads as a password, and would be shown to all as a text; write `password`"
        yield Caution(at(item, one, one.numbers[0]), words, True)
    elif meant == "password":
        words = "it is one letter off `password`, and would be shown to all as a text"
        yield Caution(at(item, one, one.numbers[0]), words, True)
    elif meant:
        words = f"it is one letter off `{meant}`, and would be kept as a text without meaning"
        yield Caution(at(item, one, one.numbers[0]), words)


def going_on(item: Item, one: Placed) -> Iterator[Caution]:
    """A password whose line begins with a blank or `+`, so that it is of the attribute before."""
    for number, line in zip(one.numbers[1:], one.attribute.lines[1:]):
        if SECRET_LINE.match(line):
            words = (
                "its line reads as a password, and would be shown to all, as it goes on with this "
                "attribute; begin the line with `password`"
            )
            yield Caution(at(item, one, number), words, True)


def host_bits(item: Item, kind: str, one: Placed) -> Iterator[Caution]:
    """Prefixes that are read as others, where prefixes are read."""
    name = keys.as_text(one.name)
    is_key = name == kind and kind in ("inetnum", "route")
    is_list = name in ("members", "mnt-routes") and kind in grammar.classes_with(name)
    for number, word in one.braced() if is_key or is_list else ():
        prefix = rounded(word.partition(b"^")[0])
        if prefix:
            words = f"`{grammar.shown(word)}` has bits after its length; {prefix} is registered"
            yield Caution(at(item, one, number), words)


def without_auth(item: Item, own: list[Placed]) -> Iterator[Caution]:
    """A maintainer whom no password would fit. What the registry refuses locks nobody out."""
    auths = [one for one in own if one.name == b"auth"]
    if not auths or any(grammar.is_usable(one.attribute.meaning()) for one in auths):
        return
    if not grammar.faults(item.block.text):
        words = "no password would fit: `SHA256-PW` alone lets anybody in; see `irr auth`"
        yield Caution(at(item, auths[0], auths[0].numbers[0]), words, True)


# What the registry has to be asked for.


def lockouts(items: list[Item], reasons: Reasons) -> Iterator[Caution]:
    """Maintainers that change themselves so that none of the given passwords would fit any more, or
    that others alone could change them."""
    secrets = submissions.given(items)
    # Those that an earlier item has maintain themselves. It may be refused: what is registered
    # counts beside it.
    own: set[str] = set()
    for item in items if secrets else ():
        new = item.object()
        if new is None or new.name != b"mntner" or is_deletion(item):
            continue
        key = keys.key_of(new)
        if key is None or not is_usable(new) or grammar.faults(item.block.text):
            continue
        others = [name for name in holders.by(new) if name != key.text]
        was_own, is_own = key.text in own, key.text in holders.by(new)
        if is_own:
            own.add(key.text)
            if lets_in(new, list(secrets)):
                continue
        if not was_own and not any(key.text in holders.by(old) for old in reasons.ask(key.query())):
            continue
        if not is_own:
            words = f"{key.text} no longer maintains itself"
        else:
            words = f"no password that is given here fits the new `auth` of {key.text}"
        if others:
            words += f"; then {', '.join(others)} alone may change it"
        else:
            words += "; give its new password too"
        yield Caution(item.place, words, not others)


def is_deletion(item: Item) -> bool:
    return item.paragraph is not None and item.paragraph.has(b"delete")


def is_usable(mntner: Paragraph) -> bool:
    """Whether some password could fit."""
    return any(map(grammar.is_usable, mntner.values(b"auth")))


def lets_in(mntner: Paragraph, secrets: list[bytes]) -> bool:
    """Whether one of these passwords fits."""
    usable = filter(grammar.is_usable, mntner.values(b"auth"))
    return any(hashes.fits(value, secret) for value in usable for secret in secrets)

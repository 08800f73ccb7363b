"""`irr held PREFIX MNT..`: whether a prefix is registered so that nobody else can touch it, and the
text that mends what is missing."""
import argparse
from typing import Iterable, Iterator, NamedTuple

from irr.errors import ARGUMENTS, DONE, REFUSED, Failure
from irr.registry import answers, server
from irr.registry.refusals import name_of, span_of
from irr.rpsl import holders, keys
from irr.rpsl.keys import Prefix
from irr.rpsl.syntax import ITEM, Attribute, Paragraph
from irr.terminal import texts

EXAMPLES = """
irr held 192.0.2.0/24 EXAMPLE-MNT                 what is missing
irr held 192.0.2.0/24 EXAMPLE-MNT > mend.rpsl     the same as text to submit, with comments
irr submit --as EXAMPLE-MNT mend.rpsl
"""


class Finding(NamedTuple):
    """What is missing or open, whether it keeps the prefix from being held, and the object that
    mends it, if one does."""

    words: str
    is_hole: bool
    remedy: Paragraph | None = None


class Seen(NamedTuple):
    """What of a registry has to do with a prefix and its maintainers."""

    mntners: dict[str, Paragraph]
    space: list[Paragraph]
    numbers: list[Paragraph]
    sets: list[Paragraph]
    known: set[str]
    source: str


def arguments(parser: argparse.ArgumentParser) -> None:
    server.add_options(parser)
    parser.add_argument("prefix", metavar="PREFIX", help="as 192.0.2.0/24")
    parser.add_argument("names", nargs="+", metavar="MNT", help="all maintainers that are yours")


def run(options: argparse.Namespace) -> int:
    place = server.Server.from_options(options.server, options.plain)
    prefix = keys.read_prefix(options.prefix)
    if prefix is None:
        raise Failure(
            options.prefix,
            "this is not a prefix; write four numbers and a length, such as 192.0.2.0/24",
            ARGUMENTS,
        )
    names = list(map(keys.need_maintainer, options.names))
    seen = look(place.dump(), prefix, names, place.url)
    findings = list(find(seen, prefix, names))
    holes = [finding for finding in findings if finding.is_hole]
    for finding in [*holes, *(finding for finding in findings if not finding.is_hole)]:
        print(texts.shown_line(f"% {finding.words}"))
    print(f"% {prefix.text()} is {'not held' if holes else 'held'} by {', '.join(names)}")
    for finding in findings:
        if finding.remedy:
            print()
            texts.put(finding.remedy.fitting_text())
    if holes:
        texts.note("irr held: a change may be missing for a minute or two, if there are replicas")
    return REFUSED if holes else DONE


def look(dump: Iterable[bytes], prefix: Prefix, names: list[str], place: str) -> Seen:
    """One pass over the public dump, which is of one moment."""
    seen = Seen({}, [], [], [], set(), "")
    ours: set[str] = set()
    for key, paragraph in answers.dumped(dump, place):
        kind = key.kind
        if not seen.source:
            seen = seen._replace(source=keys.as_text(paragraph.value(b"source")))
        if kind == "mntner" and key.text in names:
            seen.mntners[key.text] = paragraph
        elif kind == "aut-num" and set(holders.by(paragraph)) & set(names):
            seen.numbers.append(paragraph)
            ours.add(key.text)
        elif kind in ("inetnum", "route") and prefix.span().covers(span_of(paragraph)):
            seen.space.append(paragraph)
        elif kind in holders.SETS:
            seen.known.add(key.text)
            if key.text.partition(":")[0] in ours or set(holders.by(paragraph)) & set(names):
                seen.sets.append(paragraph)
    return seen


def find(seen: Seen, prefix: Prefix, names: list[str]) -> Iterator[Finding]:
    """What the page on confinement asks for and is not there, in the order in which it is
    mended."""
    for name in names:
        if name not in seen.mntners:
            yield Finding(f"mntner {name} is not registered: register it (irr auth {name})", True)
    for mntner in seen.mntners.values():
        yield from strangers(mntner, names)
    yield from exact(seen, prefix, names)
    for paragraph in [
        *seen.space,
        *seen.numbers,
        *(one for one in seen.sets if is_below(one, seen.numbers)),
    ]:
        yield from strangers(paragraph, names)
    for paragraph in seen.sets:
        yield from open_members(paragraph, seen, names)


def exact(seen: Seen, prefix: Prefix, names: list[str]) -> Iterator[Finding]:
    """The inetnum and the route of exactly the prefix."""
    for kind in ("inetnum", "route"):
        if any(
            holders.kind(other) == kind and span_of(other) == prefix.span() for other in seen.space
        ):
            continue
        pairs = [(kind, prefix.text())]
        own = [keys.key_of(number) for number in seen.numbers]
        if kind == "route":
            if not own or own[0] is None:
                yield Finding(
                    (
                        f"there is no route of exactly {prefix.text()}, and you have no aut-num:"
                        " ask the holder of an AS to name you in `mnt-routes`, and register it"
                    ),
                    True,
                )
                continue
            pairs.append(("origin", own[0].text))
        pairs += [("mnt-by", names[0]), ("source", seen.source)]
        made = Paragraph([Attribute(word.encode(), [value.encode()]) for word, value in pairs])
        yield Finding(f"there is no {kind} of exactly {prefix.text()}", True, made)


def strangers(paragraph: Paragraph, names: list[str]) -> Iterator[Finding]:
    """The maintainers that an object names and that are not yours."""
    kind, key = holders.kind(paragraph), keys.key_of(paragraph)
    found = [
        name
        for name in (holders.by(paragraph) if kind == "mntner" else acting(paragraph))
        if name not in names
    ]
    if not found or key is None:
        return
    words = (
        f"{name_of(key)} names {', '.join(found)}, who {'are' if len(found) > 1 else 'is'} not"
        " yours"
    )
    if kind == "mntner":
        yield Finding(
            f"{words}: change its `mnt-by`, with its `auth` lines, which are hidden here", True
        )
    elif not set(holders.by(paragraph)) & set(names):
        yield Finding(f"{words}: only they can change it", True)
    else:
        yield Finding(words, True, without(paragraph, names))


def acting(paragraph: Paragraph) -> list[str]:
    """The maintainers in `mnt-by`, `mnt-lower` and `mnt-routes`."""
    found = (
        holders.by(paragraph)
        + holders.names(paragraph, "mnt-lower")
        + [grant.name for grant in holders.grants(paragraph)]
    )
    return list(dict.fromkeys(found))


def without(paragraph: Paragraph, names: list[str]) -> Paragraph:
    """The object with nobody but these in `mnt-by`, `mnt-lower` and `mnt-routes`."""
    kept = []
    for attribute in paragraph.attributes:
        if attribute.name in (b"mnt-by", b"mnt-lower"):
            items = [
                item
                for item in ITEM.findall(attribute.meaning())
                if keys.as_text(item).upper() in names
            ]
            if items:
                kept.append(Attribute(attribute.name, [b", ".join(items)]))
        elif attribute.name != b"mnt-routes" or not holders.grants(paragraph):
            kept.append(attribute)
    grants = [grant for grant in holders.grants(paragraph) if grant.name in names]
    entries = [
        grant.name
        + (
            ""
            if grant.ranges is None
            else " {" + ", ".join(held.text() for held in grant.ranges) + "}"
        )
        for grant in grants
    ]
    if entries:
        kept.insert(-1, Attribute(b"mnt-routes", [", ".join(entries).encode()]))
    return Paragraph(kept)


def is_below(paragraph: Paragraph, numbers: list[Paragraph]) -> bool:
    """Whether a set's name begins with an AS number that is yours."""
    key = keys.key_of(paragraph)
    own = {held.text for number in numbers if (held := keys.key_of(number))}
    return key is not None and key.text.partition(":")[0] in own


def open_members(paragraph: Paragraph, seen: Seen, names: list[str]) -> Iterator[Finding]:
    """What lets others change what a set expands to: its text stays, its members do not."""
    key = keys.key_of(paragraph)
    if key is None:
        return
    for item in dict.fromkeys(paragraph.items(b"members")):
        name = keys.read_set(keys.as_text(item).partition("^")[0])
        if name and name not in ("AS-ANY", "RS-ANY") and name not in seen.known:
            yield Finding(
                (
                    f"{name_of(key)} lists {name}, which is not registered: who registers it"
                    " decides what the set has"
                ),
                False,
            )
    listed = holders.names(paragraph, "mbrs-by-ref")
    if listed:
        who = "anybody" if "ANY" in listed else f"anybody who names {', '.join(listed)} in `mnt-by`"
        yield Finding(
            (
                f"{name_of(key)} has `mbrs-by-ref`: {who} can join it by `member-of`; list members"
                " by name instead"
            ),
            False,
        )

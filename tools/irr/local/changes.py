"""What differs between two public states, in an order in which a mirror may take it."""
from typing import Iterable, Iterator, NamedTuple

from irr.registry import answers
from irr.rpsl import holders, keys
from irr.rpsl.keys import Key
from irr.rpsl.syntax import Paragraph

ADD, DEL = "ADD", "DEL"
SPANS = ("as-block", "inetnum")
Objects = dict[Key, Paragraph]


class Change(NamedTuple):
    """A whole object that a mirror puts in the place of the one of its key, by ADD, or takes away,
    by DEL."""

    word: str
    text: bytes

    def becomes(self) -> bytes:
        """What there is after it; nothing after a deletion."""
        return self.text if self.word == ADD else b""


def in_order(
    added: Iterable[bytes], changed: Iterable[bytes], deleted: Iterable[bytes], name: str
) -> Iterator[Change]:
    """The changes that make one state of the other. What is named comes before what names it, and
    goes after it, but where objects name one another. Inetnums and as-blocks, which nothing names,
    go first: they may cross one that comes. All else goes last, so that no route is missing in
    between."""
    old = read(deleted, name)
    gone = by_reference(old)
    gone.reverse()
    yield from (Change(DEL, old[key].text()) for key in gone if key.kind in SPANS)
    new = read(added, name)
    yield from (Change(ADD, new[key].text()) for key in by_reference(new))
    other = read(changed, name)
    yield from (Change(ADD, other[key].text()) for key in sorted(other, key=keys.order))
    yield from (Change(DEL, old[key].text()) for key in gone if key.kind not in SPANS)


def read(texts: Iterable[bytes], name: str) -> Objects:
    """Objects by their keys."""
    found: Objects = {}
    for text in texts:
        paragraph = answers.read(text, name)
        key = keys.key_of(paragraph)
        if key is None:
            raise answers.Strange(name)
        found[key] = paragraph
    return found


def by_reference(objects: Objects) -> list[Key]:
    """The keys, each after those of the objects that it names. Where objects name one another, the
    class that comes first in a dump comes first: a set's maintainer and parent are needed, and
    `member-of` is a claim."""
    done: dict[Key, None] = {}
    for start in sorted(objects, key=keys.order, reverse=True):
        waiting: dict[Key, Iterator[Key]] = {} if start in done else {start: named(objects[start])}
        while waiting:
            key, names = next(reversed(waiting.items()))
            for other in names:
                if other in objects and other not in done and other not in waiting:
                    waiting[other] = named(objects[other])
                    break
            else:
                del waiting[key]
                done[key] = None
    return list(done)


def named(paragraph: Paragraph) -> Iterator[Key]:
    """The keys that an object names."""
    for maintainer in holders.named(paragraph):
        yield Key("mntner", maintainer)
    kind = holders.kind(paragraph)
    if kind == "route":
        number = keys.read_as(paragraph.value(b"origin"))
        yield Key("aut-num", f"AS{number}")
    items = paragraph.items(b"member-of") if kind in ("aut-num", "route") else []
    if kind in holders.SETS:
        parent = keys.set_parent(keys.read_set(paragraph.value(paragraph.name)) or "")
        yield from [parent] if parent else []
        items = [item.partition(b"^")[0] for item in paragraph.items(b"members")]
    for item in items:
        number, name = keys.read_as(item), keys.read_set(item)
        if number is not None:
            yield Key("aut-num", f"AS{number}")
        elif name:
            yield Key(keys.set_class(name), name)

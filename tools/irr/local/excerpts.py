"""The part of a registry that the verdicts on some items can ask for (docs/PROFILE.md), asked from
the registry object by object: a registry of it judges them as the whole one does.

What a verdict asks: the object of the item's key, and each maintainer that the item names; of what
is new also the objects that cover it, cross it, or are its parent or its origin; of a maintainer
that is deleted whether another object names it. Earlier items may have deleted the closest cover,
so that all are taken. Maintainers that are named by what was found, and nowhere else, are there by
their names alone.
"""
import functools
from typing import Callable, Iterator

from irr.registry import answers
from irr.registry.refusals import MOST_LISTED
from irr.registry.server import Server
from irr.registry.submissions import Item
from irr.rpsl import holders, keys, syntax
from irr.rpsl.keys import Key
from irr.rpsl.syntax import Attribute, Paragraph

# Of more the whole dump is taken, which costs less then.
MOST_ITEMS, MOST_QUERIES = 200, 1_000


class TooMuch(Exception):
    """The items touch so much that the whole registry is sooner copied, or it doesn't say what."""


class Excerpt:
    """What was asked of a registry for some items."""

    def __init__(self, place: Server) -> None:
        self.place = place
        self.known: dict[str, list[Paragraph]] = {}
        self.objects: dict[Key, bytes] = {}
        self.has_blocks = False

    def ask(self, query: str) -> list[Paragraph]:
        """The objects of an answer, which are taken."""
        return self.answered(query, self.place.query)

    def ask_first(self, query: str, most: int) -> None:
        """Takes the first objects of an answer."""
        self.answered(query, functools.partial(self.place.query_first, most))

    def answered(self, query: str, asked: Callable[[str], answers.Answer]) -> list[Paragraph]:
        if query not in self.known:
            if len(self.known) >= MOST_QUERIES:
                raise TooMuch
            answer = asked(query)
            if answer.error:
                raise TooMuch
            self.known[query] = answer.objects()
            for paragraph in self.known[query]:
                self.take(paragraph)
        return self.known[query]

    def take(self, paragraph: Paragraph) -> None:
        key = keys.key_of(paragraph)
        if key:
            self.objects[key] = paragraph.text()

    def source(self) -> str:
        """The registry's name, by the object of all addresses."""
        found = self.ask("less 0.0.0.0/0")
        if not found:
            raise TooMuch
        return answers.source_of(found[0].text(), self.place.url)

    def collect(self, items: list[Item]) -> None:
        """Takes what the verdicts on these items, one after the other, can ask for."""
        deleted: set[Key] = set()
        for item in items:
            paragraph = item.object()
            key = keys.key_of(paragraph) if paragraph else None
            if paragraph is None or key is None:
                continue
            is_registered = bool(self.ask(key.query()))
            if item.paragraph and item.paragraph.has(b"delete"):
                deleted.add(key)
                if key.kind == "mntner":
                    # An item takes one of them away at most: of so many there is one left, and as
                    # many as a reason lists, where there is of all.
                    self.ask_first(f"inverse mnt {key.text}", len(items) + 1 + MOST_LISTED)
                continue
            for name in holders.named(paragraph):
                if keys.read_maintainer(name):
                    self.ask(Key("mntner", name).query())
            if not is_registered or key in deleted:
                self.collect_place(key)

    def collect_place(self, key: Key) -> None:
        """Takes what stands round a new object."""
        if key.kind == "inetnum":
            # What covers or crosses it has one of its ends.
            for end in keys.read_span(key.text) or ():
                self.ask(f"less {keys.address_text(end)}")
        elif key.kind == "route":
            prefix, origin = key.text.split(" ")
            self.ask(f"less {prefix}")
            self.ask(Key("aut-num", origin).query())
        elif key.kind in ("as-block", "aut-num"):
            self.take_blocks()
        elif key.kind in holders.SETS:
            parent = keys.set_parent(key.text)
            if parent:
                self.ask(parent.query())

    def take_blocks(self) -> None:
        """Takes the as-blocks, which no query gives: those of the dump, whose second class they
        are."""
        if self.has_blocks:
            return
        self.has_blocks = True
        for block in syntax.blocks(self.place.dump()):
            if block.text.startswith(b"as-block:"):
                self.take(answers.read(block.text, self.place.url))
            elif not block.text.startswith(b"mntner:"):
                return

    def texts(self, source: str) -> Iterator[bytes]:
        """The objects as a public dump of them has them, each followed by an empty line."""
        found = dict(self.objects)
        for text in self.objects.values():
            for name in holders.named(answers.read(text, self.place.url)):
                key = Key("mntner", name)
                if key not in found:
                    found[key] = named_alone(name, source)
        for key in sorted(found, key=keys.order):
            yield found[key] + b"\n"


def named_alone(name: str, source: str) -> bytes:
    """A maintainer of whom the name is known, and that it is registered."""
    pairs = [("mntner", name), ("auth", "# filtered"), ("mnt-by", name), ("source", source)]
    return Paragraph([Attribute(word.encode(), [value.encode()]) for word, value in pairs]).text()


def of_items(place: Server, items: list[Item]) -> tuple[str, list[bytes]] | None:
    """The registry's name and the texts of the excerpt for some items; None where the whole dump
    has to be taken. A Failure where the registry doesn't answer."""
    excerpt = Excerpt(place)
    if len(items) > MOST_ITEMS:
        return None
    try:
        source = excerpt.source()
        excerpt.collect(items)
        return source, list(excerpt.texts(source))
    except TooMuch:
        return None

"""Why an item was refused, as the registry stands now: what decided, and who may add below it."""
from typing import Callable, Iterator, Protocol

from irr.errors import Failure
from irr.registry import answers
from irr.registry.submissions import Item
from irr.rpsl import grammar, holders, keys
from irr.rpsl.keys import Key, Span
from irr.rpsl.syntax import Paragraph

# So many objects are listed where there may be thousands.
MOST_LISTED = 5


class Registry(Protocol):
    """What is asked: a served registry, or an excerpt of one, which has as many objects that name a
    maintainer as are listed, and not all."""

    url: str
    is_excerpt: bool

    def query(self, *words: str) -> answers.Answer:
        ...

    def dump(self) -> Iterator[bytes]:
        ...


class Reasons:
    """Finds what decided about refused items. Answers are kept, since one refusal mostly comes with
    others like it."""

    def __init__(self, registry: Registry) -> None:
        self.registry = registry
        self.known: dict[str, list[Paragraph]] = {}
        self.blocks: list[Paragraph] | None = None

    def ask(self, query: str) -> list[Paragraph]:
        if query not in self.known:
            self.known[query] = self.registry.query(query).or_failure(query).objects()
        return self.known[query]

    def of(self, item: Item, code: str, has_password: bool) -> list[str]:
        """What decided about an item that was refused with this code, in sentences: the lines of
        its text, or what is registered. Nothing where it can't be asked."""
        if code in ("E01", "E07"):
            return [f"{item.fault_place}: {item.fault.sentence}."] if item.fault else []
        finders: dict[str, Callable[[Paragraph, bool], list[str]]] = {
            "E10": self.of_e10,
            "E11": self.of_e11,
            "E12": self.of_e12,
            "E13": self.of_e13,
            "E14": self.of_e14,
            "E15": self.of_e15,
            "E16": self.of_e16,
            "E17": self.of_e17,
        }
        paragraph = item.object()
        try:
            if code in ("E02", "E03", "E04", "E05", "E06"):
                return self.of_grammar(item, code)
            if code not in finders or paragraph is None:
                return []
            return finders[code](paragraph, has_password)
        except Failure as failure:
            return [f"What decided can't be asked: {failure}."]

    def of_grammar(self, item: Item, code: str) -> list[str]:
        """The lines at fault. Nothing is reported where the program found another fault than is
        found here."""
        found = grammar.faults(item.block.text, self.source() if code == "E06" else None)
        if not found or found[0].code != code:
            return []
        more = len(found) - MOST_LISTED
        return [
            *(sentence_of(item, fault) for fault in found[:MOST_LISTED]),
            *([f"There are {more} more such faults in it."] if more > 0 else []),
        ]

    def source(self) -> str | None:
        """The registry's name."""
        return source_of(self.ask("less 0.0.0.0/0")) or None

    # The object itself.

    def of_e10(self, paragraph: Paragraph, _: bool) -> list[str]:
        own = keys.key_of(paragraph)
        absent = [
            name
            for name in holders.named(paragraph)
            if own != Key("mntner", name)
            and keys.read_maintainer(name)
            and not self.ask(f"object mntner {name}")
        ]
        return (
            [f"{listed(absent)} {'is' if len(absent) == 1 else 'are'} not registered."]
            if absent
            else []
        )

    def of_e11(self, paragraph: Paragraph, has_password: bool) -> list[str]:
        key = keys.key_of(paragraph)
        registered = self.ask(key.query()) if key else []
        whose = "The registered object" if registered else "The new object"
        names = holders.by(registered[0] if registered else paragraph)
        missing = "" if has_password else " No password was given before this item."
        return [
            f"{whose} has `mnt-by: {', '.join(names)}`: it takes a password of "
            f"{'one of these' if len(names) > 1 else 'this one'}." + missing
        ]

    def of_e14(self, paragraph: Paragraph, _: bool) -> list[str]:
        return [f"{paragraph.value(b'origin').decode('latin-1').upper()} is not registered."]

    def of_e17(self, paragraph: Paragraph, _: bool) -> list[str]:
        key = keys.key_of(paragraph)
        found = [keys.key_of(other) for other in self.ask(f"inverse mnt {key.text}")] if key else []
        others = [name_of(other) for other in found if other and other != key]
        rest = "others" if self.registry.is_excerpt else ""
        return [f"It is named by {listed(others, rest)}."] if others else []

    # What covers it.

    def of_e12(self, paragraph: Paragraph, has_password: bool) -> list[str]:
        kind, parent = holders.kind(paragraph), parent_of(paragraph)
        if kind in holders.SETS:
            return [
                f"Its parent {name_of(parent)} is not registered."
                if parent
                else "No object can be its parent: the parts of its name but the last one are "
                "several AS numbers."
            ]
        if kind in ("aut-num", "as-block"):
            return ["No as-block covers it."]
        return ["No inetnum covers it."]

    def of_e13(self, paragraph: Paragraph, _: bool) -> list[str]:
        kind = holders.kind(paragraph)
        if kind == "route":
            return self.of_route(paragraph)
        if kind in holders.SETS:
            parent = parent_of(paragraph)
            covers = self.ask(parent.query()) if parent else []
        elif kind == "inetnum":
            near = self.ask(f"less {keys.address_text(span_of(paragraph).first)}")
            covers = closest(near, "inetnum", span_of(paragraph), keys.key_of(paragraph))
        else:
            blocks, key = self.as_blocks(), keys.key_of(paragraph)
            covers = closest(blocks, "as-block", span_of(paragraph), key)
        return [decides(cover, holders.lower(cover), "below it") for cover in covers]

    def of_route(self, paragraph: Paragraph) -> list[str]:
        prefix, key = keys.read_prefix(paragraph.value(b"route")), keys.key_of(paragraph)
        if prefix is None:
            return []
        found = [
            other for other in self.ask(f"closest {prefix.text()}") if keys.key_of(other) != key
        ]
        covers = [other for other in found if other.name == b"route"] or found
        return [
            decides(cover, holders.routes(cover, prefix), f"a route {prefix.text()}")
            for cover in covers
        ]

    def of_e15(self, paragraph: Paragraph, _: bool) -> list[str]:
        prefix, number = keys.read_prefix(paragraph.value(b"route")), keys.read_as(
            paragraph.value(b"origin")
        )
        if prefix is None:
            return []
        return [
            decides(found, holders.routes(found, prefix), f"a route {prefix.text()} of it")
            for found in self.ask(f"object aut-num AS{number}")
        ]

    def of_e16(self, paragraph: Paragraph, _: bool) -> list[str]:
        span, kind = span_of(paragraph), holders.kind(paragraph)
        if kind == "inetnum":
            # What crosses it has exactly one of its ends.
            near = [other for end in span for other in self.ask(f"less {keys.address_text(end)}")]
        else:
            near = self.as_blocks()
        crossing = {
            key: other
            for other in near
            if other.name == paragraph.name and span.crosses(span_of(other))
            if (key := keys.key_of(other))
        }
        return [
            f"It overlaps {name_of(key)} of {', '.join(holders.by(other))}."
            for key, other in list(crossing.items())[:MOST_LISTED]
        ]

    def as_blocks(self) -> list[Paragraph]:
        """The as-blocks of the dump, since queries know of none."""
        if self.blocks is None:
            self.blocks = []
            for key, paragraph in answers.dumped(self.registry.dump(), self.registry.url):
                if key.kind == "as-block":
                    self.blocks.append(paragraph)
                elif key.kind != "mntner":
                    break
        return self.blocks


def span_of(paragraph: Paragraph) -> Span:
    """The addresses or AS numbers of an inetnum, a route, an as-block or an aut-num."""
    value = paragraph.value(paragraph.name)
    number = keys.read_as(value)
    return keys.read_span(value) or keys.read_block(value) or Span(number or 0, number or 0)


def parent_of(paragraph: Paragraph) -> Key | None:
    key = keys.key_of(paragraph)
    return keys.set_parent(key.text) if key else None


def closest(objects: list[Paragraph], kind: str, span: Span, own: Key | None) -> list[Paragraph]:
    """The one of the class with the smallest span that covers this one, and is not the object of
    this key. A block of one AS number covers its aut-num."""
    covers = [
        other
        for other in objects
        if holders.kind(other) == kind and span_of(other).covers(span) and keys.key_of(other) != own
    ]
    return sorted(covers, key=lambda other: span_of(other).size)[:1]


def decides(cover: Paragraph, names: list[str], what: str) -> str:
    key = keys.key_of(cover)
    who = f"{', '.join(dict.fromkeys(names))} may add {what}" if names else f"nobody may add {what}"
    return f"{name_of(key) if key else '-'} decides: {who}."


def sentence_of(item: Item, fault: grammar.Fault) -> str:
    """A fault of an item, with the line of its file."""
    words = fault.sentence(f"{item.name}: ", item.block.line)
    return words if words.endswith("?") else f"{words}."


def name_of(key: Key) -> str:
    return f"{key.kind} {key.text}"


def listed(names: list[str], rest: str = "") -> str:
    """Some names, and how many more there are, or another word for these."""
    more = len(names) - MOST_LISTED
    return ", ".join(names[:MOST_LISTED]) + (f" and {rest or f'{more} more'}" if more > 0 else "")


def source_of(objects: list[Paragraph]) -> str:
    """The registry's name, as the objects of an answer have it; nothing where there are none."""
    return keys.as_text(objects[0].value(b"source")) if objects else ""

"""Several sources made into one registry: of the objects with one key that of the first source
stays."""
import re
from collections import Counter, defaultdict
from typing import Collection, Iterable, NamedTuple

from irr.errors import reading
from irr.migrate import conversion
from irr.migrate.items import source_of, with_items
from irr.migrate.normalisation import (
    AUT_NUM,
    NOBODY,
    NUMBERS,
    ROUTE,
    SETS,
    UNREAD_SOURCE,
    Dropped,
    LeftOut,
    Mended,
    Mender,
    Name,
    source_place,
    unscoped,
)
from irr.migrate.paragraphs import CLASS_AGAIN, Part, is_comment, key_end, part_of
from irr.migrate.report import Listed, Place, Tally
from irr.rpsl import keys, syntax
from irr.rpsl.holders import VIEW_ROOT
from irr.rpsl.syntax import BAD_BYTE, ITEM, PASSED_OVER, Attribute
from irr.views import roas
from irr.views.settings import Settings
from irr.views.sources import State

# Why an object is left out.
OTHER_SOURCE, EARLIER = "of another source", "an earlier source has it"
FURTHER = "after the object of a change"
CHANGED, INVALID = "changed since the dump", "invalid by ROAs"
# Of how many objects of a class a source does not lose all at once.
SOME = 10
ORIGIN = re.compile(rb"\norigin[ \t\r]*:[^\n]*(?:\n[ \t\r+][^\n]*)*", re.I)


class Counts(Tally):
    """Counts by source what is left out, and dropped from lists. The files are known by what they
    are of."""

    def __init__(self) -> None:
        super().__init__()
        self.source_of: dict[str, str] = {}
        self.counts: Counter[tuple[str, str, str]] = Counter()

    def note(
        self, listed: Listed, cause: str, place: Place, text: bytes, words: Iterable[str]
    ) -> None:
        self.counts[self.source_of[place.path], listed.what, cause] += 1
        super().note(listed, cause, place, text, words)

    def causes_of(self, source: str, listed: Listed) -> dict[str, int]:
        """How many of a source are listed, by cause."""
        pairs = (+self.counts).items()
        return {key[2]: count for key, count in pairs if key[:2] == (source, listed.what)}


class ViewMender(Mender):
    """Mends the objects of one source after another. Each keeps the name of its source as a comment
    on its `source`, and no password."""

    def __init__(self, view: str, table: roas.Table | None, keeps_invalid: bool) -> None:
        super().__init__(view, VIEW_ROOT)
        self.table, self.keeps_invalid = table, keeps_invalid
        self.own, self.is_irrdesk, self.is_apart = "", False, False
        # Whether what is read now is one object, whatever stands in its text.
        self.is_one = False
        # What is of before the changes of the source; how many objects it has of each class; how
        # many of its routes are invalid.
        self.superseded: Collection[tuple[int, int | str]] = ()
        # The same by the headings of what has no key that can be read.
        self.headings: Collection[bytes] = ()
        self.counts = [0] * (len(NUMBERS) + 1)
        self.invalid = 0

    def begin(self, source: str, is_irrdesk: bool, is_apart: bool = False) -> None:
        """Another source: whether it is an irrdesk, and tells each object by itself."""
        self.own, self.is_irrdesk, self.is_apart = source, is_irrdesk, is_apart
        self.counts, self.invalid = [0] * (len(NUMBERS) + 1), 0

    def left(self, part: Part, cause: LeftOut | None = None) -> list[Name]:
        # What a change has after its object is none.
        if str(cause) in (OTHER_SOURCE, FURTHER):
            return []
        own = self.names_in(part.block)
        found = own if self.is_one else super().left(part, cause)
        gone = {name[:2] for name in own} if self.is_gone(part) else set()
        return [
            name._replace(sources=(self.own,))
            for name in found
            if self.is_own(name) and name[:2] not in self.superseded and name[:2] not in gone
        ]

    def is_own(self, name: Name) -> bool:
        """Whether it may be of this source."""
        return not name.sources or not {"", self.own}.isdisjoint(name.sources)

    def mark_of(self, part: Part) -> bytes:
        """What tells a change from others of which no key can be read: its heading, if that has the
        name of a set or a maintainer of the source, with more around it; otherwise its text."""
        is_read = self.name_in(part.block) is not None
        is_named = any(map(self.is_own, self.names_in(part.block)))
        return heading(part) if is_named and not is_read else part.block.text

    def is_gone(self, part: Part) -> bool:
        """Whether a change was of what has no key that can be read."""
        return bool(self.headings) and heading(part) in self.headings

    def key_changed(self, part: Part) -> tuple[int, int | str] | None:
        """Which object of the source a change is of."""
        try:
            mended = super().mend(part)
        except LeftOut:
            text = ORIGIN.sub(lambda line: BAD_BYTE.sub(b" ", line[0]), part.block.text)
            name = self.name_in(part.block._replace(text=text))
            return name[:2] if name and self.is_own(name) else None
        return mended.number, mended.key

    def mend(self, part: Part, is_cut: bool = False) -> Mended:
        """The object, if the source has it still, and ROAs do not say that it is in error."""
        try:
            mended = super().mend(part, is_cut)
        except LeftOut:
            if self.is_gone(part):
                raise LeftOut(CHANGED) from None
            raise
        if (mended.number, mended.key) in self.superseded:
            raise LeftOut(CHANGED)
        self.counts[mended.number] += 1
        if mended.number == ROUTE and self.table is not None and self.is_invalid(int(mended.key)):
            self.invalid += 1
            if not self.keeps_invalid:
                raise LeftOut(INVALID)
        return mended

    def need_one(self, number: int, attributes: list[Attribute], text: bytes) -> None:
        # What is told by itself is one, in whatever order its lines are.
        if not self.is_apart:
            super().need_one(number, attributes, text)
        elif any(NUMBERS.get(attribute.name) == number for attribute in attributes[1:]):
            raise LeftOut(CLASS_AGAIN)

    def of_both_families(self, attribute: Attribute) -> Attribute | None:
        # To an irrdesk it is text.
        return attribute if self.is_irrdesk else super().of_both_families(attribute)

    def is_invalid(self, key: int) -> bool:
        prefix = keys.Prefix(key >> 38, key >> 32 & 63)
        # Of the caller: there is a table.
        return roas.judged(prefix, key & keys.TOP, self.table or {})[0] == "invalid"

    def set_item(self, number: int, item: bytes) -> bytes | None:
        # An irrdesk counts a route as a member of the as-sets that it names, which RFC 2622 does
        # not.
        return super().set_item(AUT_NUM if self.is_irrdesk else number, item)

    def auth(self, attribute: Attribute) -> Attribute:
        return Attribute(b"auth", [NOBODY])

    def sourced(self, attributes: list[Attribute]) -> tuple[str, list[Attribute]]:
        place = source_place(attributes)
        found = attributes[place].meaning() if place < len(attributes) else b""
        if found and found.upper() != self.own.encode():
            raise LeftOut(OTHER_SOURCE if source_of(found) else UNREAD_SOURCE)
        line = self.source + b" # " + self.own.encode()
        attributes[place : place + 1] = [Attribute(b"source", [line])]
        return self.own, attributes

    def is_other(self, text: bytes) -> bool:
        # Letters stay as the source has them.
        return False


def heading(part: Part) -> bytes:
    """The first line of a part and those that go on with it, in whatever letter case and with
    whatever blanks they are."""
    text = part.block.text
    first, *rest = text[: key_end(text)].split(b"\n")
    text = b" ".join([first, *(line[1:] for line in rest if line[:1] not in PASSED_OVER)])
    return b" ".join(text.upper().replace(b":", b": ", 1).split())


class Outcome(NamedTuple):
    """What became of a source: how many objects of each class it has, how many are in the view, how
    many of its routes are invalid; what is left out and dropped from lists, by cause."""

    counts: list[int]
    taken: int
    invalid: int
    left: dict[str, int]
    lost: dict[str, int]

    def line(self, name: str) -> str:
        """The same in words."""
        words = [f"{name}: {self.taken:,} of {sum(self.counts):,} objects"]
        words += ["left out, " + listed(self.left)] if self.left else []
        words += ["dropped from lists, " + listed(self.lost)] if self.lost else []
        if self.invalid and INVALID not in self.left:
            words.append(f"{self.invalid:,} kept that are {INVALID}")
        return "; ".join(words)


def apart_name(name: str, source: str) -> str:
    """The name of a set of a source beside one of an earlier source. After an AS number it is a
    part by itself, since `AS64496--RADB` is none of a set's."""
    is_number = keys.read_as(name.rpartition(":")[2]) is not None
    kind = ":AS-" if keys.set_class(name) == "as-set" else ":RS-"
    return f"{name}{kind if is_number else ''}--{source}"


def listed(causes: dict[str, int]) -> str:
    pairs = sorted(causes.items(), key=lambda pair: (-pair[1], pair[0]))
    return ", ".join(f"{cause}: {count:,}" for cause, count in pairs)


def shrank(old: list[int], new: list[int], most: float) -> str:
    """How a source shrank by more than `most` percent, lost all of a class, or has nothing at all;
    no words where it did not."""
    before, now = sum(old), sum(new)
    if not now:
        return "it has no object of its name that can be taken; look at where it is from"
    how = ""
    if (before - now) * 100 > before * most:
        how = f"it has {now:,} objects, and had {before:,}"
    for kind, first, last in zip(keys.CLASSES, old[1:], new[1:]):
        if first >= SOME and not last and most < 100:
            how = f"it has no {kind}, and had {first:,}"
    if not how:
        return ""
    return f"{how}: more is gone than `shrink`, {most:g} %, allows; look what is"


class Merge(conversion.Import):
    """The objects of the sources of a view, in their order."""

    def __init__(self, view: Settings, table: roas.Table | None) -> None:
        self.irrdesks = {one.name for one in view.sources if one.registry}
        self.sources_apart = {one.name for one in view.sources if one.is_apart()}
        self.own, self.by_source = ViewMender(view.name, table, view.keep_invalid), Counts()
        super().__init__(self.own, {}, self.by_source)
        self.had: dict[str, tuple[list[int], int]] = {}
        # What is taken now; sets that an earlier source has, and the names of those that are taken
        # under one of their own, by source and name.
        self.at: tuple[Part, str]
        self.beaten: dict[tuple[str, str], tuple[Mended, Part, str]] = {}
        self.apart: dict[tuple[str, str], str] = {}
        # The aut-nums and routes that have `member-of`, each with its source.
        self.referrers: dict[int, str] = {}

    @reading("a file")
    def read_states(self, states: dict[str, State]) -> None:
        """Reads all sources, and settles what is taken of them."""
        with self.spooling():
            for name, state in states.items():
                self.read_state(name, state)
            self.spool.flush()
            self.set_apart()
        self.settle()

    def seam(self, text: bytes) -> int:
        return 0 if self.own.is_apart else super().seam(text)

    def parts(self, block: syntax.Block) -> list[Part]:
        if not self.own.is_apart:
            return super().parts(block)
        # What is told by itself is one object, whose text may have any names.
        return [] if is_comment(block) else [part_of(block, block.text.lower(), "")]

    def read_state(self, name: str, state: State) -> None:
        self.own.begin(name, name in self.irrdesks, name in self.sources_apart)
        self.sources.setdefault(name, len(self.sources))
        for path in (*state.parts, state.changes):
            self.by_source.source_of[str(path)] = name
        added = self.changed(state)
        self.own.is_one = self.own.is_apart
        for path in state.parts:
            self.read_file(str(path))
        self.own.superseded, self.own.headings, self.own.is_one = (), (), True
        self.paths.append(str(state.changes))
        for part in added:
            self.take(part, str(state.changes))
        self.had[name] = self.own.counts, self.own.invalid

    def changed(self, state: State) -> list[Part]:
        """The objects that changes have added, and are there still. What they changed in the dump
        is known from then on."""
        last: dict[tuple[int, int | str], list[Part]] = {}
        # Those without a key that can be read, by what tells them from others.
        unread: dict[bytes, list[Part]] = {}
        marks: defaultdict[tuple[int, int | str], list[bytes]] = defaultdict(list)
        for is_there, block in state.changed():
            # A change is of one object, and what comes after that is none.
            found = self.parts(block)
            if not found:
                continue
            found[1:] = [part._replace(doubt=FURTHER) for part in found[1:]]
            key = self.own.key_changed(found[0])
            if key:
                last[key] = found if is_there else []
                # By NRTM, version 4, what is deleted is told by its name alone.
                gone = marks.pop(key, []) if self.own.is_apart else []
                unread.update((mark, []) for mark in gone)
            else:
                mark = self.own.mark_of(found[0])
                unread[mark] = found if is_there else []
                for name in self.own.names_in(found[0].block):
                    marks[name[:2]].append(mark)
        self.own.superseded, self.own.headings = last.keys(), unread.keys()
        # What can't be taken is counted once it is tried.
        return [part for found in (*last.values(), *unread.values()) for part in found]

    def take(self, part: Part, path: str, is_cut: bool = False) -> None:
        self.at = part, path
        super().take(part, path, is_cut)

    def keep(self, mended: Mended, part: Part) -> None:
        if mended.number in (AUT_NUM, ROUTE) and b"member-of" in mended.text:
            self.referrers[len(self.starts)] = mended.source
        super().keep(mended, part)

    def cause_beside(self, mended: Mended) -> str:
        if self.first_of(mended.number, mended.key) == self.number_of(mended.source):
            return conversion.DUPLICATE
        if mended.number in SETS:
            self.beaten.setdefault((mended.source, str(mended.key)), (mended, *self.at))
        return EARLIER

    def set_apart(self) -> None:
        """Takes each set that an earlier source has, and that an item names with its own source,
        under a name of its own."""
        waiting = [place for place in self.dropped if "scope" in self.kinds[place]]
        while waiting:
            wanted: dict[tuple[str, str], None] = {}

            def note(source: str, item: bytes) -> str:
                key = source, keys.read_set(item.partition(b"^")[0]) or ""
                if key in self.beaten and key not in self.apart:
                    wanted[key] = None
                return ""

            for place in waiting:
                unscoped(syntax.read_any(self.text_of(place)).attributes, note)
            added = [self.take_apart(*key) for key in wanted]
            waiting = [place for place in added if place is not None]
            self.spool.flush()
        if self.apart:
            for place, source in self.referrers.items():
                self.join(place, source)

    def join(self, place: int, source: str) -> None:
        """Names in `member-of` also the sets of its source that are taken under a name of their
        own."""

        named: list[bytes] = []

        def both(item: bytes) -> bytes:
            own = self.own_name(source, item)
            named.extend([own.encode()] if own else [])
            return item + b", " + own.encode() if own else item

        old = self.text_of(place)
        new = [
            with_items(one, ITEM, both) or one if one.name == b"member-of" else one
            for one in syntax.read_any(old).attributes
        ]
        if not named:
            return
        self.own.kinds = set(self.kinds[place])
        try:
            text = self.own.written(self.names[place], new)
        except LeftOut as cause:
            for item in named:
                dropped = Dropped(b"member-of", item, str(cause))
                self.tally.drop(dropped, self.place_of(place), old)
            return
        self.spool.write(text)
        self.starts[place], self.sizes[place] = self.end, len(text)
        self.end += len(text)

    def take_apart(self, source: str, name: str) -> int | None:
        """Takes a set under its name and that of its source; where it is, if its items name
        registries."""
        mended, part, path = self.beaten[source, name]
        new = apart_name(name, source)
        if keys.read_set(new) != new or self.first_of(mended.number, new) is not None:
            return None
        first, *rest = syntax.read_any(mended.text).attributes
        attributes = [first._replace(lines=[new.encode()]), *rest]
        text = syntax.Paragraph(attributes).text()
        if len(text) > syntax.LARGEST:
            return None
        self.apart[source, name] = new
        self.paths.append(path)
        self.keep(mended._replace(key=new, text=text), part)
        self.tally.causes[EARLIER] -= 1
        self.by_source.counts[source, self.tally.left_out.what, EARLIER] -= 1
        place = len(self.starts) - 1
        return place if "scope" in mended.kinds else None

    def refusal(self, source: str, item: bytes) -> str:
        cause = super().refusal(source, item)
        return "" if cause == conversion.OF_ANOTHER and self.own_name(source, item) else cause

    def named(self, source: str, item: bytes) -> bytes:
        front, hat, rest = item.partition(b"^")
        is_of_another = super().refusal(source, item) == conversion.OF_ANOTHER
        own = self.own_name(source, item) if is_of_another else ""
        return own.encode() + hat + rest if own else item

    def own_name(self, source: str, item: bytes) -> str:
        """The name of a set that was taken apart."""
        return self.apart.get((source, keys.read_set(item.partition(b"^")[0]) or ""), "")

    def known_sources(self) -> set[int]:
        return set(self.sources.values())

    def outcomes(self) -> dict[str, Outcome]:
        """What became of each source."""
        numbers = {number: name for name, number in self.sources.items()}
        taken = Counter(numbers[self.source_numbers[place]] for place in self.places())
        return {
            name: Outcome(
                counts,
                taken[name],
                invalid,
                self.by_source.causes_of(name, self.tally.left_out),
                self.by_source.causes_of(name, self.tally.items),
            )
            for name, (counts, invalid) in self.had.items()
        }

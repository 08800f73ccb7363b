"""Makes of foreign registries' dumps one that `irrdesk load` takes: reads them once, holds the
keys, and writes the objects in the order of a dump from a temporary file."""
import contextlib
import os
import sys
import tempfile
import time
from array import array
from collections import Counter
from typing import BinaryIO, Iterable, Iterator

from irr.errors import ARGUMENTS, REFUSED, Failure, reading, system_words
from irr.local.tables import Row, once
from irr.migrate import paragraphs
from irr.migrate.dumps import pieces_of
from irr.migrate.items import name_of
from irr.migrate.normalisation import (
    AS_BLOCK,
    AS_SET,
    AUT_NUM,
    INETNUM,
    MNTNER,
    NAMED,
    NO_SOURCE,
    NOBODY,
    ROUTE,
    ROUTE_SET,
    Dropped,
    LeftOut,
    Mended,
    Mender,
    Name,
    new_name,
    not_mended,
    renamed,
    unscoped,
)
from irr.migrate.report import Place, Tally
from irr.rpsl import grammar, holders, keys, spans, syntax
from irr.rpsl.syntax import Attribute, Paragraph
from irr.terminal import texts

# Of a paragraph so many bytes are looked at: one that is larger is not taken.
MOST = 1 << 20
# So many bytes have the last line of a file, if that is a comment.
TAIL = 4_096
PROGRESS_SECONDS, PROGRESS_EACH = 0.5, 1_000
EVERYTHING = {AS_BLOCK: [(0, 65_535), (65_536, keys.TOP)], INETNUM: [(0, keys.TOP)]}
# Why a scoped item is dropped.
NOT_IMPORTED = "a registry that is not imported"
OF_ANOTHER = "its name is that of a set of another registry"
ALL_OF_ONE = "all of one registry of several"
# Why an object is left out whose key was there before: it is the same, or of another registry,
# whose objects name it, whether it can be read or not.
DUPLICATE, NAMESAKE = "duplicate", "a name of another registry"
UNREAD_THERE = "a name of another registry, where it can't be read"
# The number of the registry of a name that may be of any one.
NO_REGISTRY = -1
# What is odd about a line of an object that is taken.
COMMENT, CR = "a line with # or % first, which is not kept", "a line with a CR first, which goes on"
CR_INSIDE = "a line with a CR inside, which may be the end of a line"
ITEM_NAME = "an attribute that has the form of an item, and may be one of a list before it"
# What is odd about the whole of it.
NOT_UTF8 = "a text that is not UTF-8, which is read as Latin-1"
# What is odd about a maintainer, with a mntner that is taken or without one.
OF_OTHERS = "a mntner that objects of another registry name"
OF_SEVERAL = "a maintainer without a mntner that objects of several registries name"


class Import:
    """The objects that are taken, in the order in which they were read, and what is known of each.
    Their texts are in a file. With `keeps_scoped` an item that names a registry which is not among
    those imported stays, without it."""

    def __init__(
        self,
        mender: Mender,
        auths: dict[str, list[bytes]],
        tally: Tally,
        keeps_scoped: bool = False,
    ) -> None:
        self.mender, self.auths, self.tally = mender, auths, tally
        self.keeps_scoped = keeps_scoped
        self.off, self.root = mender.off, mender.root.decode()
        self.paths: list[str] = []
        self.taken: list[dict[int | str, int]] = [{} for _ in range(len(keys.CLASSES) + 1)]
        self.starts, self.sizes, self.lines = array("Q"), array("I"), array("I")
        self.path_numbers, self.source_numbers = array("I"), array("I")
        self.sources: dict[str, int] = {}
        # The maintainers and sets that can't be read, each with the first registry that has it.
        self.withheld: dict[tuple[int, int | str], int] = {}
        # The registries of objects that can be read, in this order; that of the last one of a file.
        self.met: dict[str, None] = {}
        self.before = ""
        # Of the objects whose lists have lost items, or have scoped ones: the lost ones.
        self.dropped: dict[int, tuple[Dropped, ...]] = {}
        # Of those that have odd lines, which and where; those that have no `source`.
        self.odd: dict[int, tuple[tuple[int, bytes], ...]] = {}
        self.bare: dict[int, None] = {}
        self.names: list[tuple[str, ...]] = []
        self.kinds: list[frozenset[str]] = []
        # Equal ones are held once.
        self.shared_names: dict[tuple[str, ...], tuple[str, ...]] = {}
        self.shared_kinds: dict[frozenset[str], frozenset[str]] = {}
        self.spool = tempfile.TemporaryFile(prefix="irr-")
        self.end = 0
        self.reported = time.monotonic()

    # Reading.

    @reading("a file")
    def read(self, paths: Iterable[str]) -> None:
        """Reads all files, and settles what is taken of them."""
        with self.spooling():
            for path in paths:
                self.read_file(path)
        self.show_progress(is_last=True)
        self.settle()

    @contextlib.contextmanager
    def spooling(self) -> Iterator[None]:
        """Says what is wrong with the temporary file where it can't be written, and closes it: that
        would fail again later, in other words."""
        try:
            yield
            self.spool.flush()
        except OSError as error:
            with contextlib.suppress(OSError):
                self.spool.close()
            raise Failure(
                "the temporary file",
                f"{system_words(error)}; make room, or give another folder by TMPDIR",
            ) from None

    def read_file(self, path: str) -> None:
        self.paths.append(path)
        self.tally.files += 1
        self.tail, self.before = b"", ""
        # The line after the last block: one that begins there was cut off from it.
        after = count = with_source = 0
        waiting: paragraphs.Part | None = None
        for block in syntax.blocks(self.sized(pieces_of(path)), MOST, self.seam, paragraphs.later):
            for place, part in enumerate(self.parts(block)):
                if place or block.line == after:
                    self.tally.part(Place(path, part.block.line), part.block.text)
                    part = paragraphs.joined(part)
                if waiting:
                    self.take(waiting, path)
                waiting = part
                count += 1
                with_source += part.has_source
            if not paragraphs.is_comment(block):
                after = block.line + block.text.count(b"\n")
        if not count:
            self.tally.empty.append(path)
        if waiting:
            is_usual = 2 * with_source > count - 1
            self.take(waiting, path, self.is_cut(waiting, is_usual))

    def seam(self, text: bytes) -> int:
        """Where a paragraph that is too long can be parted."""
        return 0 if "part" in self.off else paragraphs.last_seam(text)

    def parts(self, block: syntax.Block) -> list[paragraphs.Part]:
        """What a paragraph consists of."""
        found = paragraphs.parts(block)
        if len(found) > 1 and "part" in self.off:
            return [paragraphs.Part(block, not_mended("part"), True)]
        return found

    def is_cut(self, last: paragraphs.Part, is_usual: bool) -> bool:
        """Whether the last object of a file may have lost its end: the file ends within a line, or
        the object has no `source`, which is usual in the file."""
        text, blanks = last.block.text, syntax.BLANKS + b"\n"
        ends = [one.rstrip(blanks).rpartition(b"\n")[2] for one in (self.tail, text)]
        # A comment after a blank line is an end of the file.
        is_ended = ends[0][:1] in (b"#", b"%") and ends[0] != ends[1]
        if len(text) < last.block.size or is_ended:
            return False
        return not text.endswith(b"\n") or (is_usual and not last.has_source)

    def sized(self, pieces: Iterator[bytes]) -> Iterator[bytes]:
        for piece in pieces:
            self.tally.size += len(piece)
            self.tail = (self.tail + piece[-TAIL:])[-TAIL:]
            yield piece

    def take(self, part: paragraphs.Part, path: str, is_cut: bool = False) -> None:
        """Takes a paragraph, or leaves it out."""
        self.tally.read += 1
        if not self.tally.read % PROGRESS_EACH:
            self.show_progress()
        place = Place(path, part.block.line)
        try:
            mended = self.mended(part, is_cut)
            is_there = mended.key in self.taken[mended.number]
            first = self.first_of(mended.number, mended.key)
            if is_there or first not in (None, self.number_of(mended.source)):
                if is_there and "duplicate" in self.off:
                    raise Failure(
                        place.text(),
                        "its key was there before; remove one of the two, or leave out "
                        "--no-duplicate",
                        REFUSED,
                    )
                raise LeftOut(self.cause_beside(mended))
        except LeftOut as cause:
            self.tally.leave_out(str(cause), place, part.block.text, part.further(), cause.item)
            return
        self.keep(mended, part)

    def mended(self, part: paragraphs.Part, is_cut: bool) -> Mended:
        """The object that a part becomes. Objects refer to maintainers and sets by their names,
        which mean those of the first registry that has them, also where these can't be read."""
        try:
            mended = self.mender.mend(part, is_cut)
        except LeftOut as cause:
            self.withhold(self.mender.left(part, cause))
            raise
        if mended.source:
            self.met[mended.source], self.before = None, mended.source
        if part.may_have_more():
            inside = self.mender.left(part)
            self.withhold(name for name in inside if name[:2] != (mended.number, mended.key))
        return mended

    def withhold(self, names: Iterable[Name]) -> None:
        """Keeps what can't be read from being another registry's."""
        for name in names:
            if name.number in NAMED:
                self.withheld.setdefault(name[:2], self.owner(name.sources))

    def owner(self, sources: tuple[str, ...]) -> int:
        """The number of the registry whose a name is: of several, with that of the object before,
        the first one of which an object was read; if none was, it is no registry's."""
        several = {source or self.before for source in sources or ("",)}
        if len(several) == 1:
            return self.number_of(*several)
        several.add(self.before)
        return next((self.number_of(one) for one in self.met if one in several), NO_REGISTRY)

    def number_of(self, source: str) -> int:
        return self.sources.setdefault(source, len(self.sources))

    def first_of(self, number: int, key: int | str) -> int | None:
        """The number of the registry that has an object first; None where none has it."""
        place = self.taken[number].get(key)
        return self.withheld.get((number, key)) if place is None else self.source_numbers[place]

    def cause_beside(self, mended: Mended) -> str:
        """Why an object is left out that there is before."""
        is_there = mended.key in self.taken[mended.number]
        is_other = self.first_of(mended.number, mended.key) != self.number_of(mended.source)
        if is_other and mended.number in NAMED:
            return NAMESAKE if is_there else UNREAD_THERE
        return DUPLICATE

    def keep(self, mended: Mended, part: paragraphs.Part) -> None:
        place = len(self.starts)
        self.taken[mended.number][mended.key] = place
        if odd := part.odd_lines():
            self.odd[place] = odd
        if not mended.source:
            self.bare[place] = None
        if mended.dropped or "scope" in mended.kinds:
            self.dropped[place] = mended.dropped
        self.spool.write(mended.text)
        self.starts.append(self.end)
        self.sizes.append(len(mended.text))
        self.end += len(mended.text)
        self.lines.append(part.block.line)
        self.path_numbers.append(len(self.paths) - 1)
        self.source_numbers.append(self.number_of(mended.source))
        self.names.append(self.shared_names.setdefault(mended.names, mended.names))
        self.kinds.append(self.shared_kinds.setdefault(mended.kinds, mended.kinds))

    def show_progress(self, is_last: bool = False) -> None:
        """How far it is, on a terminal."""
        if texts.is_terminal(sys.stderr) and (
            is_last or time.monotonic() > self.reported + PROGRESS_SECONDS
        ):
            self.reported = time.monotonic()
            words = f"\r{self.tally.read:,} paragraphs, {self.tally.size / 1e6:,.0f} MB "
            print(words, end="\n" if is_last else "", file=sys.stderr, flush=True)

    # What only the whole tells.

    @reading("a file")
    def settle(self) -> None:
        """Leaves out what can't stand beside the rest, and gives new names to maintainers."""
        if "mntner" in self.off:
            self.leave_out_nameless()
        for number in (AS_BLOCK, INETNUM):
            self.leave_out_crossing(number)
        named = {name for names in {self.names[place] for place in self.places()} for name in names}
        mntners = self.taken[MNTNER]
        known = named | {str(name) for name in mntners} | {self.root}
        self.new: dict[str, str] = {}
        for old in sorted(name for name in known if not name_of(name.encode("latin-1"))[1]):
            self.new[old] = new_name(old, known)
            known.add(self.new[old])
        self.new_names = {old: new.encode() for old, new in self.new.items()}
        self.got_name = set(self.new.values())
        given, self.auths = self.auths, {}
        for name, lines in given.items():
            self.auths.setdefault(self.new.get(name, name), []).extend(lines)
        self.stubs = {self.new.get(name, name) for name in named if name not in mntners}
        if "initial" not in self.off:
            self.stubs -= {self.root}
        elif self.stubs and self.root not in mntners:
            # They name it.
            self.stubs.add(self.root)
        self.imported = self.known_sources()
        self.note_lists()
        for name in self.auths:
            if (
                name not in self.stubs
                and name not in mntners
                and name != self.root
                and name not in self.got_name
            ):
                raise Failure(name, "no object names this maintainer; correct --auth", ARGUMENTS)
        self.count()

    def places(self) -> Iterator[int]:
        """The objects that are taken."""
        for of_class in self.taken:
            yield from of_class.values()

    def known_sources(self) -> set[int]:
        """The numbers of the registries by whose names items can be scoped."""
        return {self.source_numbers[place] for place in self.places()}

    def note_lists(self) -> None:
        """Notes the items that the lists of what is taken have lost, and what else is odd there."""
        for place, gone in self.dropped.items():
            text = self.text_of(place)
            if "scope" in self.kinds[place]:
                attributes = syntax.read_any(text).attributes
                _, scoped, had_host_bits = unscoped(attributes, self.refusal)
                gone = (*gone, *scoped)
                if had_host_bits:
                    self.kinds[place] |= {"host-bits"}
            for dropped in gone:
                self.tally.drop(dropped, self.place_of(place), text)
        for place, lines in self.odd.items():
            for number, line in lines:
                own = Place(self.place_of(place).path, number)
                other = ITEM_NAME if paragraphs.is_item(line) else CR_INSIDE
                cause = {b"#": COMMENT, b"%": COMMENT, b"\r": CR}.get(line[:1], other)
                self.tally.note_odd(cause, own, self.text_of(place), line)
        for place in self.bare:
            self.tally.note_odd(NO_SOURCE, self.place_of(place), self.text_of(place))
        converted = (place for place in self.places() if "encoding" in self.kinds[place])
        for place in sorted(converted):
            self.tally.note_odd(NOT_UTF8, self.place_of(place), self.text_of(place))
        for place in self.of_others():
            self.tally.note_odd(OF_OTHERS, self.place_of(place), self.text_of(place))
        for name, place in self.of_several().items():
            self.tally.note_odd(
                OF_SEVERAL, self.place_of(place), self.text_of(place), name.encode("latin-1")
            )

    def of_others(self) -> list[int]:
        """The maintainers that may change objects of another registry than theirs. What has no
        `source` is told by itself."""
        mntners, numbers, bare = self.taken[MNTNER], self.source_numbers, self.sources.get("")
        return sorted(
            {
                mntners[name]
                for place in self.places()
                for name in self.names[place]
                if name in mntners and len({numbers[place], numbers[mntners[name]], bare}) == 3
            }
        )

    def of_several(self) -> dict[str, int]:
        """The maintainers without a mntner that objects of several registries name, each with the
        first object of another registry than the first one has."""
        known, bare = self.taken[MNTNER].keys() | {self.root}, self.sources.get("")
        first: dict[str, int] = {}
        found: dict[str, int] = {}
        for place in sorted(self.places()):
            number = self.source_numbers[place]
            for name in self.names[place] if number != bare else ():
                if name not in known and first.setdefault(name, number) != number:
                    found.setdefault(name, place)
        return found

    def names_root(self) -> bool:
        """Whether objects of a dump are the root maintainer's, also if it has no mntner there."""
        return self.root in self.taken[MNTNER] or any(
            self.root in self.names[place] and "mnt-by" not in self.kinds[place]
            for place in self.places()
        )

    def refusal(self, source: str, item: bytes) -> str:
        """Why an item that names a registry is dropped; nothing where it stays without that."""
        if self.keeps_scoped:
            return ""
        number = self.sources.get(source)
        if number is None or number not in self.imported:
            return NOT_IMPORTED
        name = keys.read_set(item.partition(b"^")[0])
        if name is None:
            return ""
        if name in ("AS-ANY", "RS-ANY"):
            return ALL_OF_ONE if self.imported != {number} else ""
        kind = AS_SET if keys.set_class(name) == "as-set" else ROUTE_SET
        return OF_ANOTHER if self.first_of(kind, name) not in (None, number) else ""

    def named(self, source: str, item: bytes) -> bytes:
        """What an item becomes that named a registry, and stays."""
        return item

    def routes_beside(self) -> int:
        """How many routes have an origin without an aut-num."""
        known = self.taken[AUT_NUM]
        return sum(int(key) & keys.TOP not in known for key in self.taken[ROUTE])

    def count(self) -> None:
        """What was taken and left out adds up to what was read."""
        tally = self.tally
        tally.taken = sum(map(len, self.taken))
        if tally.taken + tally.causes.total() != tally.read:
            raise Failure(
                "the report",
                f"{tally.read} paragraphs were read, and {tally.taken} and "
                f"{tally.causes.total()} do not add up to that; this is a fault of irr: report it",
            )
        for kinds, count in Counter(self.kinds[place] for place in self.places()).items():
            tally.mended.update(dict.fromkeys(kinds, count))
        tally.mended["rename"], tally.mended["mntner"] = len(self.new), len(self.stubs)
        tally.mended["duplicate"], tally.mended["crossing"] = (
            tally.causes[DUPLICATE] + tally.causes[NAMESAKE],
            tally.causes["crossing"],
        )
        tally.renamed = self.new

    def drop(self, number: int, key: int | str, cause: str) -> None:
        """Leaves out an object that was taken before."""
        place = self.taken[number].pop(key)
        self.dropped.pop(place, None)
        self.odd.pop(place, None)
        self.bare.pop(place, None)
        self.tally.leave_out(cause, self.place_of(place), self.text_of(place))

    def leave_out_nameless(self) -> None:
        """Leaves out each object that names a maintainer without a mntner, until none is left."""
        mntners, added, is_done = (
            self.taken[MNTNER],
            set() if "initial" in self.off else {self.root},
            False,
        )
        while not is_done:
            is_done = True
            for number, of_class in enumerate(self.taken):
                for key, place in list(of_class.items()):
                    if any(name not in mntners and name not in added for name in self.names[place]):
                        self.drop(number, key, "a maintainer without a mntner")
                        is_done = is_done and number != MNTNER

    def leave_out_crossing(self, number: int) -> None:
        """Leaves out the spans of a class that cross one that was read before and stays."""
        found = [(key >> 32, key & keys.TOP) for key in self.taken[number] if isinstance(key, int)]
        for place in spans.crossing(found):
            first, last = found[place]
            key = first << 32 | last
            if "crossing" in self.off:
                raise Failure(
                    self.place_of(self.taken[number][key]).text(),
                    "it overlaps a range that was there before; cut one of the two, or leave out "
                    "--no-crossing",
                    REFUSED,
                )
            self.drop(number, key, "crossing")

    def place_of(self, place: int) -> Place:
        return Place(self.paths[self.path_numbers[place]], self.lines[place])

    def text_of(self, place: int) -> bytes:
        return os.pread(self.spool.fileno(), self.sizes[place], self.starts[place])

    def locked_out(self) -> Iterator[str]:
        """The maintainers that nobody has a password of: none is given, and none of their own
        lines lets anybody in."""
        for name, place in self.taken[MNTNER].items():
            new = self.new.get(str(name), str(name))
            own = syntax.read_any(self.text_of(place)).values(b"auth")
            if new not in self.auths and not any(map(grammar.is_usable, own)):
                yield new
        yield from (name for name in self.stubs if name not in self.auths)

    # Writing.

    def rows(self) -> Iterator[Row]:
        """The objects of the registry in the order of a dump."""
        for number in range(MNTNER, len(self.taken)):
            taken, added = self.taken[number], self.added(number)
            is_mntner = number == MNTNER
            names = {key: self.new.get(str(key), str(key)) for key in [*taken, *added] if is_mntner}
            order = names.get if is_mntner else None
            # The keys of a class are all numbers, or all names.
            for key in sorted([*taken, *added], key=order):  # type: ignore[arg-type]  # as said
                name = names.get(key, "")
                if key in taken:
                    place = taken[key]
                    by, text = self.names[place], self.final(place, name)
                    if self.new:
                        by = tuple(self.new.get(one, one) for one in by)
                else:
                    by, text = once(holders.named(added[key])), added[key].text()
                yield Row(number, name or key, by, text)

    def added(self, number: int) -> dict[int | str, Paragraph]:
        """The objects of a class that were in no dump."""
        if number == MNTNER:
            has_root = self.root in self.taken[MNTNER] or "initial" in self.off
            return {
                name: self.stub(name) for name in self.stubs | (set() if has_root else {self.root})
            }
        if "initial" in self.off or number not in EVERYTHING:
            return {}
        taken = [(key >> 32, key & keys.TOP) for key in self.taken[number] if isinstance(key, int)]
        wanted = EVERYTHING[number]
        if number == AS_BLOCK and any(
            keys.Span(*own).crosses(keys.Span(*other)) for own in taken for other in wanted
        ):
            wanted = [(0, keys.TOP)]
        if (0, keys.TOP) in taken:
            wanted = []
        made: dict[int | str, Paragraph] = {}
        for first, last in wanted:
            if (first, last) not in taken:
                span = keys.Span(first, last)
                made[first << 32 | last] = self.made(
                    number, span.text() if number == INETNUM else span.numbers_text()
                )
        return made

    def made(self, number: int, key: str, by: str = "", auths: Iterable[bytes] = ()) -> Paragraph:
        pairs = [
            (keys.CLASSES[number - 1].encode(), key.encode()),
            *((b"auth", value) for value in auths),
            (b"mnt-by", (by or self.root).encode()),
            (b"source", self.mender.source),
        ]
        return Paragraph([Attribute(name, [value]) for name, value in pairs])

    def stub(self, name: str) -> Paragraph:
        """A mntner: of its own where it has a password, otherwise of the root maintainer, which
        lets nobody in by it."""
        given = self.auths.get(name, [])
        return self.made(MNTNER, name, name if given else self.root, given or [NOBODY])

    def final(self, place: int, mntner: str) -> bytes:
        """The text of an object that was taken, with new names and passwords, without scopes."""
        text, names = self.text_of(place), self.names[place]
        given = self.auths.get(mntner, []) if mntner else []
        has_new_name = bool(self.new) and (
            mntner in self.got_name or not self.new.keys().isdisjoint(names)
        )
        is_scoped = "scope" in self.kinds[place]
        if not given and not has_new_name and not is_scoped:
            return text
        attributes = syntax.read_any(text).attributes
        if is_scoped:
            attributes, *_ = unscoped(attributes, self.refusal, self.named)
        if has_new_name:
            attributes = renamed(attributes, self.new_names)
        if given:
            attributes = [attribute for attribute in attributes if attribute.name != b"auth"]
            attributes[1:1] = [Attribute(b"auth", [value]) for value in given]
        new = Paragraph(attributes).fitting_text()
        if len(new) > syntax.LARGEST:
            raise Failure(
                mntner or self.place_of(place).text(),
                "its text is above 65,536 bytes with what is new in it; shorten it",
            )
        return new

    @reading("a file")
    def write(self, out: BinaryIO) -> None:
        """Writes the dump, as `irrdesk dump --full` does."""
        count = 0
        for row in self.rows():
            out.write(row.text + b"\n")
            count += 1
        out.write(b"%% end %d\n" % count)
        self.tally.made = count - self.tally.taken
        self.tally.mended["initial"] = self.tally.made - len(self.stubs)

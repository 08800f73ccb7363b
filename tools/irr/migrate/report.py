"""What an import read, took, mended and left out, and the report of it."""
import re
from collections import Counter
from typing import BinaryIO, Iterable, Iterator, NamedTuple

from irr.migrate.kinds import KINDS
from irr.migrate.normalisation import Dropped
from irr.terminal import texts

ORIGIN = re.compile(rb"^origin[ \t]*:[ \t]*([^ \t\r\n#]+)", re.I | re.M)
SHOWN = 10
LONGEST_SHOWN = 60


class Place(NamedTuple):
    """Where a paragraph stands."""

    path: str
    line: int

    def text(self) -> str:
        """The path as a line of a list can have it."""
        return column(f"{self.path}:{self.line}")


class Listed:
    """The causes of what is listed, each with its number and its first entries; what it is is the
    first word of each entry in the file."""

    def __init__(self, what: str) -> None:
        self.what = what
        self.causes: Counter[str] = Counter()
        # What may be objects more, of those that are left out together.
        self.more: Counter[str] = Counter()
        self.first: dict[str, list[str]] = {}

    def add(self, cause: str, words: str) -> None:
        self.causes[cause] += 1
        listed = self.first.setdefault(cause, [])
        if len(listed) < SHOWN:
            listed.append(words.replace("\t", "  "))

    def lines(self) -> Iterator[str]:
        """The most frequent cause first."""
        for cause, count in sorted(self.causes.items(), key=lambda pair: (-pair[1], pair[0])):
            more = self.more[cause]
            with_it = f", and with them {more:,} that may be objects" if more else ""
            yield f"{self.what}, {cause}: {count:,}{with_it}"
            yield from shown(self.first[cause], count)


class Tally:
    """Counts what happens to paragraphs and to items of their lists, and keeps the first ones of
    each cause; all go to a file, if there is one."""

    def __init__(self, file: BinaryIO | None = None) -> None:
        self.file, self.read, self.files, self.size = file, 0, 0, 0
        self.left_out, self.items = Listed("left out"), Listed("dropped from lists")
        self.odd = Listed("taken")
        self.mended: Counter[str] = Counter()
        self.parted: list[str] = []
        # The files without a paragraph.
        self.empty: list[str] = []
        self.renamed: dict[str, str] = {}
        self.taken = self.made = 0

    @property
    def causes(self) -> Counter[str]:
        """How many paragraphs are left out, by cause."""
        return self.left_out.causes

    def leave_out(
        self,
        cause: str,
        place: Place,
        text: bytes,
        further: Iterable[tuple[int, bytes]] = (),
        item: Iterable[bytes] = (),
    ) -> None:
        """Notes a paragraph that is not taken, the lines at which further objects may begin in it,
        each with its number in the file, and the attribute and the item that are the cause."""
        self.note(self.left_out, cause, place, text, map(column, item))
        for number, line in further:
            self.left_out.more[cause] += 1
            self.write("left out with it", cause, entry(place._replace(line=number), line))

    def drop(self, dropped: Dropped, place: Place, text: bytes) -> None:
        """Notes an item that is taken out of a list of an object."""
        words = [column(part) for part in (dropped.attribute, dropped.item)]
        self.note(self.items, dropped.cause, place, text, words)

    def note_odd(self, cause: str, place: Place, text: bytes, line: bytes = b"") -> None:
        """Notes what is odd about an object that is taken, and the line of it that is."""
        words = [column(line)] if line else []
        self.note(self.odd, cause, place, text, words)

    def note(
        self, listed: Listed, cause: str, place: Place, text: bytes, words: Iterable[str]
    ) -> None:
        line = "\t".join([entry(place, text), *words])
        listed.add(cause, line)
        self.write(listed.what, cause, line)

    def write(self, what: str, cause: str, words: str) -> None:
        if self.file:
            self.file.write(f"{what}\t{cause}\t{words}\n".encode())

    def part(self, place: Place, text: bytes) -> None:
        """Notes a paragraph that begins without a blank line before it."""
        self.mended["part"] += 1
        if len(self.parted) < SHOWN:
            self.parted.append(entry(place, text))

    def lines(self) -> Iterator[str]:
        """The report."""
        left = self.causes.total()
        yield (
            f"{texts.counted(self.read, 'paragraph')} of {texts.counted(self.files, 'file')}: "
            f"{self.taken:,} taken, {left:,} left out"
        )
        yield (
            f"{texts.counted(self.taken + self.made, 'object')} written: {self.taken:,} taken, "
            f"{self.made:,} added"
        )
        if any(self.mended.values()):
            yield "mended:"
            width = max(len(f"{count:,}") for count in self.mended.values())
            yield from texts.columns(
                [f"  {self.mended[name]:>{width},}", f"--no-{name}", kind.words]
                for name, kind in KINDS.items()
                if self.mended[name]
            )
        if self.empty:
            yield f"without a paragraph: {texts.counted(len(self.empty), 'file')}"
            yield from shown(
                [texts.shown_line(path) for path in self.empty[:SHOWN]], len(self.empty)
            )
        if self.parted:
            yield "parted, with no blank line before:"
            yield from shown([one.replace("\t", "  ") for one in self.parted], self.mended["part"])
        if self.renamed:
            yield "renamed:"
            yield from shown(
                texts.columns([old, new] for old, new in sorted(self.renamed.items())[:SHOWN]),
                len(self.renamed),
            )
        for listed in self.odd, self.items, self.left_out:
            yield from listed.lines()


def column(said: bytes | str) -> str:
    """A text as one of those of a line that tabs part."""
    return texts.shown_line(said).replace("\t", "\\x09")


def shown(first: list[str], count: int) -> Iterator[str]:
    """The first ones of so many."""
    yield from (f"  {words}" for words in first)
    if count > len(first):
        yield f"  and {count - len(first):,} more"


def entry(place: Place, text: bytes) -> str:
    """Where a paragraph stands, and its first line, of a route with the origin."""
    words = text.partition(b"\n")[0].split()
    is_route = words[:1] and words[0].lower().startswith(b"route")
    origin = ORIGIN.search(text) if is_route else None
    line = texts.shown_line(b" ".join(words + ([origin[1]] if origin else [])))
    return f"{place.text()}\t{line[:LONGEST_SHOWN]}"

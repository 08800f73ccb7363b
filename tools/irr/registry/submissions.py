"""A submission on its way: its blocks, the passwords that count, and the parts in which it is
sent."""
import functools
import os
import queue
import threading
from typing import Callable, Iterable, Iterator, NamedTuple

from irr.errors import ARGUMENTS, Failure, reading
from irr.registry import answers
from irr.registry.server import TooLarge
from irr.rpsl import syntax
from irr.rpsl.syntax import Attribute, Paragraph
from irr.system import files
from irr.terminal import texts

# What a server takes at once, and what it is sent at once if there is more, since others wait for
# so long.
MOST, PART = 1_048_576, 262_144
# In place of a paragraph that is too large, which the registry refuses without a look at what it
# says.
OVERSIZED = b"x" * (syntax.LARGEST + 1) + b"\n"
BINARY = {
    b"\x1f\x8b": "it is compressed by gzip; unpack it",
    b"PK": "it is a zip archive; unpack it",
    b"\xff\xfe": "it is text in UTF-16; save it as UTF-8",
    b"\xfe\xff": "it is text in UTF-16; save it as UTF-8",
    b"\xef\xbb\xbf": "it begins with a byte order mark; save it without",
}


class Item:
    """A block of a submission, and the place where it stands. It is read only when somebody asks
    what it says."""

    def __init__(self, name: str, block: syntax.Block) -> None:
        self.name, self.block = name, block
        self.may_have_password = b"password" in block.text.lower()

    @property
    def place(self) -> str:
        """The file and line where it stands, for people."""
        return f"{self.name}: line {self.block.line}"

    @property
    def fault_place(self) -> str:
        """The file and line of the fault that keeps it from being a paragraph."""
        return f"{self.name}: line {self.block.line + (self.fault.line if self.fault else 0)}"

    @functools.cached_property
    @reading("a file")
    def read(self) -> Paragraph | syntax.TextFault:
        """The paragraph that it is, or the fault that keeps it from being one."""
        try:
            if self.block.size > syntax.LARGEST:
                raise syntax.TextFault("E07", f"it has {self.block.size:,} bytes")
            return syntax.read(self.block.text)
        except syntax.TextFault as fault:
            return fault

    @property
    def paragraph(self) -> Paragraph | None:
        return self.read if isinstance(self.read, Paragraph) else None

    @property
    def fault(self) -> syntax.TextFault | None:
        return self.read if isinstance(self.read, syntax.TextFault) else None

    def passwords(self) -> list[Attribute]:
        """The passwords that it gives; none if it has a fault."""
        if not self.may_have_password or not self.paragraph:
            return []
        return [
            attribute for attribute in self.paragraph.attributes if attribute.name == b"password"
        ]

    @property
    def is_item(self) -> bool:
        """Whether it is in the report: passwords alone are not."""
        given = self.passwords()
        return not given or not self.paragraph or len(given) < len(self.paragraph.attributes)

    def object(self) -> Paragraph | None:
        """What it says of an object, without passwords and `delete`."""
        return self.paragraph.without(b"password", b"delete") if self.paragraph else None

    def text(self) -> bytes:
        """What is sent of it."""
        if self.block.size > syntax.LARGEST:
            return OVERSIZED
        return self.block.text if self.block.text.endswith(b"\n") else self.block.text + b"\n"


def secret_of(attribute: Attribute) -> bytes:
    """The secret that a `password` is: its lines joined by one space."""
    return b" ".join(attribute.lines)


class Source:
    """A file of a submission, opened; `-` is standard input. What is no text at all is a Failure
    before anything is sent."""

    @reading("a file")
    def __init__(self, path: str) -> None:
        self.name = files.name_of(path)
        self.file = files.opened(path)
        if self.file.isatty():
            texts.note("irr: reading a submission from the terminal; control-D ends it")
        try:
            start = self.file.peek(4_096)  # type: ignore[attr-defined]  # it is buffered
        except OSError:
            start = b""
        words = next((words for mark, words in BINARY.items() if start.startswith(mark)), "")
        if words or b"\0" in start:
            self.file.close()
            raise Failure(
                self.name,
                f"this is not RPSL text: "
                f"{words or 'it has bytes that no text has; give another file'}",
            )

    @reading("a file")
    def items(self) -> Iterator[Item]:
        """Its blocks, none of which is waited for longer than needed."""
        try:
            with self.file:
                for block in syntax.blocks(syntax.chunks(self.file), syntax.LARGEST + 1):
                    yield Item(self.name, block)
        except OSError as error:
            # Whoever shows it names the file.
            error.filename = self.name
            raise


class Gathered:
    """The items of a submission, all of them read, and what kept a file from being read on."""

    def __init__(self, items: Iterable[Item]) -> None:
        self.items: list[Item] = []
        self.fault: OSError | None = None
        try:
            for item in items:
                self.items.append(item)
        except OSError as error:
            self.fault = error

    def __iter__(self) -> Iterator[Item]:
        yield from self.items
        if self.fault:
            raise self.fault


def password_item(secret: str, name: str) -> Item:
    """A paragraph with a password that was asked for."""
    data = os.fsencode(secret)
    if syntax.BAD_BYTE.search(data) or b"\n" in data:
        raise Failure(name, "the password has a control character; choose another one", ARGUMENTS)
    if data != data.strip(syntax.BLANKS):
        raise Failure(
            name,
            "the password has a blank at an end, which `password:` can't say; choose another one",
            ARGUMENTS,
        )
    return Item(f"password of {name}", syntax.Block(1, 0, b"password: " + data))


class Reported(NamedTuple):
    """An item, the line of the report about it, numbered through all parts, and whether any
    password was given up to it."""

    item: Item
    line: answers.Item
    has_password: bool


class Part(NamedTuple):
    """Items that are sent at once, and the passwords that were given before them, as they are
    written."""

    items: list[Item]
    passwords: dict[bytes, bytes]

    def body(self) -> bytes:
        return front(self.passwords) + b"\n".join(item.text() for item in self.items)

    def halves(self) -> "tuple[Part, Part]":
        half = len(self.items) // 2
        later = self.passwords | given(self.items[:half])
        return Part(self.items[:half], self.passwords), Part(self.items[half:], later)


def given(items: Iterable[Item]) -> dict[bytes, bytes]:
    """The passwords of some items, each with the lines that give it."""
    return {
        secret_of(attribute): attribute.short_text()
        for item in items
        for attribute in item.passwords()
    }


def front(passwords: dict[bytes, bytes]) -> bytes:
    """Paragraphs that give these passwords."""
    paragraphs: list[list[bytes]] = []
    size = 0
    for text in passwords.values():
        if not paragraphs or size + len(text) > syntax.LARGEST:
            paragraphs.append([])
            size = 0
        paragraphs[-1].append(text)
        size += len(text)
    return b"".join(b"".join(lines) + b"\n" for lines in paragraphs)


class Ahead(threading.Thread):
    """Makes the next part while the server judges the one before it and its report is shown."""

    def __init__(self, parts: Iterator[Part]) -> None:
        super().__init__(daemon=True)
        self.parts = parts
        self.made: queue.Queue[Part | BaseException | None] = queue.Queue(1)
        self.start()

    def run(self) -> None:
        try:
            for part in self.parts:
                self.made.put(part)
            self.made.put(None)
        except BaseException as fault:
            self.made.put(fault)

    def all(self) -> Iterator[Part]:
        while part := self.made.get():
            if isinstance(part, BaseException):
                raise part
            yield part


class Sender:
    """Sends a submission in as many parts as it takes. `post` sends one part, of at most `most`
    bytes, and gives its report in pieces."""

    def __init__(
        self, post: Callable[[bytes], Iterable[bytes]], part: int = PART, most: int = MOST
    ) -> None:
        self.post, self.part, self.most = post, part, most
        # How many items are decided, how the report ends, and whether a password was given before
        # the item that is reported.
        self.count, self.end, self.has_password = 0, "items", False
        # What keeps a file from being read on, which has its name.
        self.read_fault: OSError | None = None

    @reading("a file")
    def send(self, items: Iterable[Item]) -> Iterator[Reported]:
        """The report, item by item, as it comes; `end` and `count` say then how it ends. A file
        that can't be read on ends the submission as `irrdesk submit` ends it."""
        for part in Ahead(self.parts(items)).all():
            yield from self.send_part(part)
            if self.end != "items":
                return
        if self.read_fault:
            self.end = "read fault"

    def parts(self, items: Iterable[Item]) -> Iterator[Part]:
        """The items in parts, each with the passwords before it."""
        passwords: dict[bytes, bytes] = {}
        waiting: list[Item] = []
        size, source = 0, iter(items)
        while True:
            try:
                item = next(source, None)
            except OSError as error:
                self.read_fault, item = error, None
            length = len(item.text()) + 1 if item else 0
            if waiting and (item is None or size + length > self.part):
                yield Part(waiting, passwords)
                passwords = passwords | given(waiting)
                waiting, size = [], len(front(passwords))
            if item is None:
                return
            waiting.append(item)
            size += length

    def send_part(self, part: Part) -> Iterator[Reported]:
        """The report of a part; those of its halves, if the server takes no such length."""
        body = part.body()
        if len(body) <= self.part or len(part.items) == 1:
            try:
                if len(body) > self.most:
                    raise TooLarge(
                        "",
                        f"a part with all passwords before it is over {self.most:,} bytes; leave "
                        f"out passwords",
                    )
                yield from self.reported(part.items, self.post(body))
                return
            except TooLarge:
                if len(part.items) == 1:
                    raise
                self.part = len(body) // 2
        for half in part.halves():
            yield from self.send_part(half)
            if self.end != "items":
                return

    def reported(self, items: list[Item], pieces: Iterable[bytes]) -> Iterator[Reported]:
        """The items of a part with what the report says of them, as it comes."""
        report, rest, sent = answers.Report(self.count), iter(items), 0
        for piece in pieces:
            for line in report.read(piece):
                self.count = line.number
                item = self.next_item(rest)
                if item:
                    sent += 1
                    yield Reported(item, line, self.has_password)
            if report.end:
                break
        while self.next_item(rest):
            sent += 1
        if report.is_whole and report.count != sent:
            raise Failure(
                "the report",
                f"it counts {report.count} items where {sent} were sent; look at the last item "
                f"above",
            )
        if report.end:
            self.count = report.before + report.count
        self.end = report.end if report.is_whole or report.end != "items" else ""

    def next_item(self, items: Iterator[Item]) -> Item | None:
        """The next one that is in the report."""
        for item in items:
            self.has_password = self.has_password or bool(item.passwords())
            if item.is_item:
                return item
        return None

    def last_line(self) -> str:
        """The line that ends the report; nothing if it was cut off."""
        if self.end == "items":
            return f"% items {self.count}"
        return f"% {self.end} after {self.count} items" if self.end else ""

"""What a submission would be answered: tried on a registry of its own, made of what the text
touches or of the whole public dump, with nothing sent.

Registries with the same public forms in which the same passwords fit judge alike. So the
maintainers whose passwords are given get a hash of these that is made here, and the others one that
lets nobody in. What a public dump does not show is reported: whether a password is the registered
one, and whether an object with `auth` lines would be `changed` or `unchanged`."""
import contextlib
from itertools import chain
from typing import Callable, Iterable, Iterator, Protocol

from irr.errors import ARGUMENTS, Failure
from irr.local import excerpts
from irr.local.temporary_registry import TemporaryRegistry
from irr.registry import answers, submissions
from irr.registry.refusals import Registry
from irr.registry.server import Server
from irr.registry.submissions import Item, Reported, Sender
from irr.rpsl import hashes, holders, keys, syntax
from irr.rpsl.keys import Key
from irr.rpsl.syntax import Attribute, Paragraph
from irr.terminal import texts

UNKNOWN = "changed or unchanged"
HIDDEN_LINES = [b"# filtered"]


class Printer(Protocol):
    """Prints a report, and gives the status."""

    def show(self, reported: Reported, word: str = "") -> None:
        ...

    def end(self, sender: Sender) -> int:
        ...


def run(
    place: Server,
    asked: list[tuple[str, Item]],
    items: list[Item],
    whose: list[list[str]],
    printer_of: Callable[[Registry], Printer],
) -> int:
    """Does it, with a printer for the registry that is asked about refusals, and gives the status.
    The items come after the passwords that were asked for, each with its maintainer."""
    passwords = owners(asked, items, whose)
    is_nobodys = not passwords and not whose and any(item.passwords() for item in items)
    excerpt = excerpts.of_items(place, items)
    source, blocks = copied(place, excerpt)
    hidden: dict[Key, bytes] = {}
    pieces = (block.text + b"\n" for block in noted(blocks, hidden, place.url))
    auths = {
        name: [hashes.auth_of(secret, hashes.new_salt()).encode() for secret in held]
        for name, held in passwords.items()
    }
    with contextlib.ExitStack() as stack:
        scratch = stack.enter_context(TemporaryRegistry(source))
        scratch.fill(pieces, f"the dump of {place.url}", auths)
        printer = printer_of(Served(scratch, stack, excerpt is not None))
        size = sum(len(item.text()) + 1 for item in items) + syntax.LARGEST * (len(asked) + 1)
        sender = Sender(lambda text: [scratch.submit(text)], size, size)
        unknown = show(sender, [*(item for _, item in asked), *items], hidden, printer)
        status = printer.end(sender)
    report(passwords, unknown, excerpt is None, is_nobodys)
    return status


def copied(
    place: Server, excerpt: tuple[str, list[bytes]] | None
) -> tuple[str, Iterator[syntax.Block]]:
    """The registry's name, and the objects that are copied: those of an excerpt, or all."""
    if excerpt:
        source, found = excerpt
        return source, syntax.blocks(found)
    blocks = syntax.blocks(place.dump())
    first = next(blocks)
    return answers.source_of(first.text, place.url), chain([first], blocks)


def owners(
    asked: list[tuple[str, Item]], items: list[Item], whose: list[list[str]]
) -> dict[str, list[bytes]]:
    """The passwords that are taken as those of each maintainer."""
    found: dict[str, list[bytes]] = {}
    for name, item in asked:
        found.setdefault(name, []).extend(map(submissions.secret_of, item.passwords()))
    given = list(
        dict.fromkeys(
            submissions.secret_of(attribute) for item in items for attribute in item.passwords()
        )
    )
    if len(whose) > len(given):
        raise Failure(
            "--whose",
            f"it is given {len(whose)} times, and the files have "
            f"{texts.counted(len(given), 'password')}",
            ARGUMENTS,
        )
    everybody = [
        name
        for item in items
        if (held := item.object())
        for name in holders.by(held)
        if keys.read_maintainer(name)
    ]
    everybody = [name for name in dict.fromkeys(everybody) if name not in found]
    for number, secret in enumerate(given):
        for name in whose[number] if number < len(whose) else everybody:
            if name != "-":
                found.setdefault(name, []).append(secret)
    return found


def noted(
    blocks: Iterable[syntax.Block], hidden: dict[Key, bytes], place: str
) -> Iterator[syntax.Block]:
    """The blocks of a public dump, of which those with an `auth` are kept by their keys."""
    for block in blocks:
        if b"auth:" in block.text:
            key = keys.key_of(answers.read(block.text, place))
            if key:
                hidden[key] = block.text
        yield block


def show(sender: Sender, items: list[Item], hidden: dict[Key, bytes], printer: Printer) -> bool:
    """Prints the report. Whether there was an item of which it is not known if it would change
    anything."""
    found = False
    for reported in sender.send(items):
        key = reported.line.key
        is_unknown = is_hidden(reported, hidden)
        printer.show(reported, UNKNOWN if is_unknown else "")
        found = found or is_unknown
        if key and reported.line.word != "refused":
            # From here on all of the object is known: it is what the item says.
            hidden.pop(key, None)
    return found


def is_hidden(reported: Reported, hidden: dict[Key, bytes]) -> bool:
    """Whether an item differs from what is registered in `auth` lines alone, if at all."""
    held, key = reported.item.object(), reported.line.key
    if (
        not held
        or not key
        or reported.line.word not in ("changed", "unchanged")
        or key not in hidden
    ):
        return False
    return public(held).text() == hidden[key]


def public(paragraph: Paragraph) -> Paragraph:
    """An object as answers show it."""
    return Paragraph(
        [
            Attribute(name, HIDDEN_LINES) if name == b"auth" else Attribute(name, lines)
            for name, lines in paragraph.attributes
        ]
    )


class Served:
    """The temporary registry as reasons ask it, served once something is asked."""

    url = "the temporary registry"

    def __init__(
        self, scratch: TemporaryRegistry, stack: contextlib.ExitStack, is_excerpt: bool = False
    ) -> None:
        self.scratch, self.stack, self.is_excerpt = scratch, stack, is_excerpt
        self.server: Server | None = None

    def served(self) -> Server:
        if self.server is None:
            self.server = Server(self.stack.enter_context(self.scratch.serve()))
            self.server.url = self.url
        return self.server

    def query(self, *words: str) -> answers.Answer:
        return self.served().query(*words)

    def dump(self) -> Iterator[bytes]:
        return self.served().dump()


def report(
    passwords: dict[str, list[bytes]], unknown: bool, is_whole: bool, is_nobodys: bool
) -> None:
    """What a dry run can't know, and that it copied everything, which takes longer."""
    texts.note("irr submit: dry run: nothing was sent or changed")
    if is_whole:
        texts.note(
            "irr submit: dry run: the text touches much, so that all of the registry was copied"
        )
    if passwords:
        texts.note(
            f"irr submit: dry run: the passwords are taken as those of {', '.join(passwords)}; "
            f"whether they are is not known"
        )
    if is_nobodys:
        texts.note(
            "irr submit: dry run: the passwords are taken as nobody's, because the text has no"
            " `mnt-by`; name their maintainers with --whose"
        )
    if unknown:
        texts.note(
            f"irr submit: dry run: `{UNKNOWN}`: the registered `auth` lines of an object are hidden"
        )

"""`irr diff FILE..`: what a submission would change, object by object, beside what is
registered."""
import argparse
from itertools import chain

from irr.errors import DONE, REFUSED, Failure
from irr.local.dry_run import UNKNOWN, public
from irr.registry import cautions, server, submissions
from irr.registry.refusals import Reasons, sentence_of
from irr.registry.submissions import Gathered, Item, Source
from irr.rpsl import grammar, holders, keys
from irr.rpsl.keys import Key
from irr.rpsl.syntax import Paragraph
from irr.terminal import texts

EXAMPLES = """
irr diff network.rpsl            what in this file is new, unchanged, changed or deleted
"""
COLOURS = {"+": texts.GREEN, "-": texts.RED, "@": texts.CYAN}
NOT_SENT = "`irr submit` does not send it; correct the text, or add --anyway there and here"


def arguments(parser: argparse.ArgumentParser) -> None:
    server.add_options(parser)
    parser.add_argument("--anyway", action="store_true", help=cautions.HELP)
    parser.add_argument(
        "files", nargs="+", metavar="FILE", help="RPSL text, `-` for standard input"
    )


def run(options: argparse.Namespace) -> int:
    place = server.Server.from_options(options.server, options.plain)
    sources = [Source(path) for path in options.files]
    text = Gathered(chain.from_iterable(source.items() for source in sources))
    if text.fault and not text.items:
        raise text.fault
    reasons = Reasons(place)
    found = cautions.found([], text, reasons)
    cautions.report("diff", found)
    comparison = Comparison(reasons, text.items)
    number, bad = 0, False
    for item in text:
        if item.is_item:
            number += 1
            bad = not comparison.show(number, item) or bad
    if cautions.grave(found, options.anyway):
        raise Failure("the text", NOT_SENT, REFUSED)
    return REFUSED if bad else DONE


class Comparison:
    """A submission beside the registry, item by item. What an item says stands for those after it,
    so that each object is compared with what it would then replace."""

    def __init__(self, reasons: Reasons, items: list[Item]) -> None:
        self.reasons, self.source = reasons, reasons.source()
        self.secrets = list(submissions.given(items))
        # What earlier items made of objects, all of it known.
        self.later: dict[Key, Paragraph | None] = {}

    def show(self, number: int, item: Item) -> bool:
        """Prints what an item would change. Whether the registry could take it."""
        new = item.object()
        key = keys.key_of(new) if new else None
        faults = grammar.faults(item.block.text, self.source)
        if new is None or key is None:
            why = f"{item.fault_place}: {item.fault.sentence}" if item.fault else ""
            why = why or " ".join(sentence_of(item, fault) for fault in faults).rstrip(".")
            print(texts.shown_line(f"{number} -: {why}"))
            return False
        old, is_deleted = self.registered(key), bool(
            item.paragraph and item.paragraph.has(b"delete")
        )
        shown = None if is_deleted else new if key in self.later else public(new)
        print(f"{number} {key.kind} {key.text}: {self.word(key, old, new, is_deleted)}")
        for fault in faults:
            print(*texts.wrapped(f"{fault.code}: {sentence_of(item, fault)}"), sep="\n")
        for line in unified(old, shown, key, key in self.later):
            print(texts.painted(texts.shown_line(line), COLOURS.get(line[:1], "")))
        if not faults:
            self.later[key] = None if is_deleted else new
        return not faults

    def registered(self, key: Key) -> Paragraph | None:
        """The object of a key, as it would be by now."""
        if key in self.later:
            return self.later[key]
        return next(iter(self.reasons.ask(key.query())), None)

    def word(self, key: Key, old: Paragraph | None, new: Paragraph, is_deleted: bool) -> str:
        """What becomes of an object. The registered values of `auth` are hidden."""
        if is_deleted:
            return "deleted" if old else "there is none to delete"
        if old is None:
            return "new"
        if key in self.later:
            return "unchanged" if old.text() == new.text() else "changed"
        if old.text() != public(new).text() or self.has_other_auth(key, old, new):
            return "changed"
        if new.has(b"auth"):
            return f"{UNKNOWN}, because the registered `auth` lines are hidden"
        return "unchanged"

    def has_other_auth(self, key: Key, old: Paragraph, new: Paragraph) -> bool:
        """Whether a line of a maintainer that changes itself is certainly another one: one of the
        given passwords has to fit a registered line, and none fits a new one."""
        is_own = key.kind == "mntner" and holders.by(old) == [key.text]
        return is_own and bool(self.secrets) and not cautions.lets_in(new, self.secrets)


def lines(paragraph: Paragraph | None, is_exact: bool) -> list[str]:
    """The canonical lines of an object, in the letters that they are in, or byte by byte."""
    found = paragraph.text().split(b"\n")[:-1] if paragraph else []
    return [line.decode("latin-1") if is_exact else texts.text_of(line) for line in found]


def unified(old: Paragraph | None, new: Paragraph | None, key: Key, is_later: bool) -> list[str]:
    """The lines of a unified diff, nothing where there is no difference."""
    import difflib

    before, after = lines(old, False), lines(new, False)
    if before == after:
        # Bytes that differ may be the same letters, in UTF-8 and in Latin-1.
        before, after = lines(old, True), lines(new, True)
    front = "of an earlier item" if is_later else "registered"
    found = difflib.unified_diff(
        before, after, f"{front} {key.text}", f"submitted {key.text}", lineterm=""
    )
    return list(found)

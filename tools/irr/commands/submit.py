"""`irr submit FILE..`: sends a submission, and says why items were refused; `--dry-run` only looks
what would be answered."""
import argparse
import sys
from itertools import chain
from typing import Iterable

from irr.errors import ARGUMENTS, DONE, FAILED, REFUSED, Failure, system_words
from irr.registry import cautions, codes, server, submissions
from irr.registry.refusals import Reasons, Registry
from irr.registry.submissions import Gathered, Item, Reported, Sender, Source
from irr.rpsl import keys
from irr.terminal import prompts, texts

# So many refusals are looked into by queries of their own.
MOST_ASKED = 100
NOT_SENT = "it would not be sent; correct the text, or add --anyway if it is meant so"
COLOURS = {
    "unchanged": "",
    "added": texts.GREEN,
    "changed": texts.YELLOW,
    "deleted": texts.YELLOW,
    "refused": texts.RED,
}
EXAMPLES = """
irr submit network.rpsl                          send a file
irr submit --as EXAMPLE-MNT network.rpsl         the same, after asking for the password
irr submit my.password network.rpsl              the same, with the password in a separate file
irr submit --dry-run --as EXAMPLE-MNT network.rpsl
                                                 print the report; nothing is changed
irr delegate ... | irr submit --as ROOT-MNT -     send the output of another command
"""


def arguments(parser: argparse.ArgumentParser) -> None:
    server.add_options(parser)
    parser.add_argument(
        "--as",
        dest="names",
        action="append",
        default=[],
        metavar="MNT",
        help="ask for the password of this maintainer, which need not be in a file; may be given "
        "several times",
    )
    parser.add_argument(
        "-n",
        "--dry-run",
        action="store_true",
        help="try it on a copy of the registry, and print the report; no password leaves this "
        "machine",
    )
    parser.add_argument(
        "--whose",
        action="append",
        default=[],
        metavar="MNT[,MNT]",
        help="with --dry-run: name the maintainers that use the first `password:`; repeat it for "
        "the next one; `-` means nobody; by default, each maintainer in a `mnt-by` of the files",
    )
    parser.add_argument("--anyway", action="store_true", help=cautions.HELP)
    parser.add_argument(
        "--raw", action="store_true", help="print only the report, without explaining refusals"
    )
    parser.add_argument(
        "files",
        nargs="+",
        metavar="FILE",
        help="RPSL text, `-` for standard input; several are one submission",
    )


def run(options: argparse.Namespace) -> int:
    names = list(map(keys.need_maintainer, options.names))
    whose = [
        [name if name == "-" else keys.need_maintainer(name) for name in group.split(",")]
        for group in options.whose
    ]
    place = server.Server.from_options(options.server, options.plain)
    sources = [Source(path) for path in options.files]
    if len([path for path in options.files if path == "-"]) > 1:
        raise Failure("-", "standard input can be read once; give it once", ARGUMENTS)
    if whose and not options.dry_run:
        raise Failure("--whose", "it goes with --dry-run; add that, or leave it out", ARGUMENTS)
    asked = [
        (name, submissions.password_item(prompts.ask(f"password of {name}: "), name))
        for name in names
    ]
    text = Gathered(chain.from_iterable(source.items() for source in sources))
    front = [item for _, item in asked]
    found = cautions.found(front, text, Reasons(place))
    cautions.report("submit", found)
    refusal = cautions.grave(found, options.anyway)
    if options.dry_run:
        return try_out(place, asked, text, whose, options.raw, refusal)
    if refusal:
        raise refusal
    return send(Sender(place.submit), chain(front, text), Printer(place, options.raw))


def try_out(
    place: server.Server,
    asked: list[tuple[str, Item]],
    text: Gathered,
    whose: list[list[str]],
    is_raw: bool,
    refusal: Failure | None,
) -> int:
    """What would be answered; the status is that of a refusal too if it would not be sent."""
    from irr.local import dry_run

    if text.fault:
        raise text.fault
    status = dry_run.run(
        place, asked, text.items, whose, lambda registry: Printer(registry, is_raw)
    )
    if refusal:
        raise Failure(refusal.thing, NOT_SENT, REFUSED)
    return status


class Printer:
    """Prints a report item by item, and why what is refused was refused."""

    def __init__(self, registry: Registry, raw: bool) -> None:
        self.reasons, self.raw, self.is_coloured = Reasons(registry), raw, texts.has_colours()
        self.refused = 0

    def show(self, reported: Reported, word: str = "") -> None:
        """Prints what the report says of an item, or another word in place of that."""
        line = reported.line
        if word or self.is_coloured:
            word = word or (f"refused {line.code}" if line.code else line.word)
            print(f"{line.number} {line.name}: {texts.painted(word, COLOURS[line.word])}")
        else:
            print(line.text())
        if reported.line.word == "refused":
            self.refused += 1
            if not self.raw:
                self.explain(reported)

    def explain(self, reported: Reported) -> None:
        code = codes.BY_CODE.get(reported.line.code)
        if code is None:
            return
        sentences = [code.sentence]
        if self.refused <= MOST_ASKED:
            sentences += self.reasons.of(reported.item, code.code, reported.has_password)
        for sentence in [*sentences, code.remedy]:
            print(*texts.wrapped(sentence), sep="\n")

    def end(self, sender: Sender) -> int:
        """The last line and the status; a Failure where the report is not whole."""
        if sender.last_line():
            print(sender.last_line())
        sys.stdout.flush()
        if sender.end == "items":
            if not self.raw and self.refused > MOST_ASKED:
                texts.note(
                    f"irr submit: what decided was asked for the first {MOST_ASKED} refusals alone"
                )
            return REFUSED if self.refused else DONE
        # It may have been found ahead of a part whose report ended otherwise.
        if sender.read_fault and sender.end == "read fault":
            raise Failure(
                str(sender.read_fault.filename),
                f"it can't be read on: {system_words(sender.read_fault)}; {REST}",
                FAILED,
            )
        raise Failure("the report", END_WORDS.get(sender.end, CUT), FAILED)


CUT = f"it was cut off, so what came of later items is not known; {server.LOOK}"
REST = "send what comes after the last item again, with the passwords before it"
END_WORDS = {
    "read fault": f"the text did not arrive whole; {REST}",
    "stopped": "the registry's database failed; tell its operator, and send the last item and the "
    "rest again later",
    "memory": "the server ran out of memory, and nothing was done; send it again later",
}


def send(sender: Sender, items: Iterable[Item], printer: Printer) -> int:
    """Sends a submission and prints its report."""
    try:
        show(sender, items, printer)
        return printer.end(sender)
    except OSError as error:
        if sender.count:
            error.add_note(server.SENT)
        raise


def show(sender: Sender, items: Iterable[Item], printer: Printer) -> None:
    """Sends a submission and prints its report, but for the end."""
    try:
        for reported in sender.send(items):
            printer.show(reported)
    except Failure as failure:
        if isinstance(failure, server.Lost):
            before = f"after {texts.counted(sender.count, 'item')}: " if sender.count else ""
            raise Failure(failure.thing, before + failure.what) from None
        if sender.count:
            raise Failure(
                failure.thing,
                f"{failure.what}; {sender.count} items were decided, and later ones may be: "
                "send the whole text again, what is registered is `unchanged`",
                failure.status,
            ) from None
        raise

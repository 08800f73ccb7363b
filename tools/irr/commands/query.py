"""`irr query WORD..`: the answer to a query."""
import argparse

from irr.errors import DONE, REFUSED
from irr.registry import answers, server
from irr.terminal import texts

EXAMPLES = """
irr query 192.0.2.1                          whose address is this?
irr query AS64496                            an AS number, a maintainer, or a set
irr query less 192.0.2.0/24                  what covers a prefix
irr query more 192.0.2.0/24                  what is inside it
irr query inverse mnt EXAMPLE-MNT            the objects that name a maintainer
irr query inverse origin AS64496             the routes of an AS
irr query expand AS64496:AS-CUSTOMERS        the members of a set
irr query --json AS64496                     one object per line, for other programs
"""


def arguments(parser: argparse.ArgumentParser) -> None:
    server.add_options(parser)
    form = parser.add_mutually_exclusive_group()
    form.add_argument(
        "--json",
        action="store_true",
        help="print each object, or each member of a set, as a line of JSON",
    )
    form.add_argument(
        "--raw",
        action="store_true",
        help="print an error unchanged, without an explanation",
    )
    parser.add_argument("words", nargs="+", metavar="WORD", help="the query; irrdesk(1) lists them")


def run(options: argparse.Namespace) -> int:
    answer = server.Server.from_options(options.server, options.plain).query(*options.words)
    # A program that reads lines of JSON sees in the status alone that there are none.
    is_nothing = options.json and (answer.has_none or answer.is_empty)
    if options.json and not answer.error:
        for paragraph in answer.objects():
            print(answers.json_text(paragraph))
        for line in answers.json_lines(answer):
            print(line)
    else:
        texts.put(answer.text)
    if (answer.error and not options.raw) or is_nothing:
        texts.note(f"irr query: {' '.join(options.words)}: {answer.words()}")
    return REFUSED if answer.error or is_nothing else DONE

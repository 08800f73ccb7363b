"""`irr dump`: the public dump."""
import argparse

from irr.errors import DONE
from irr.registry import answers, server
from irr.system import files
from irr.terminal import texts

EXAMPLES = """
irr dump -o registry.rpsl            the dump as a file, completely or not at all
irr dump | tail -n 1                 how many objects there are
irr dump --json | jq -r .key         the keys of all objects
"""


def arguments(parser: argparse.ArgumentParser) -> None:
    server.add_options(parser)
    form = parser.add_mutually_exclusive_group()
    form.add_argument("--json", action="store_true", help="print each object as a line of JSON")
    form.add_argument(
        "--raw", action="store_true", help="print the dump unchanged, which is the default"
    )
    parser.add_argument(
        "-o",
        "--output",
        metavar="FILE",
        help="put the dump into a file, in one step once it is complete; - is standard output",
    )


def run(options: argparse.Namespace) -> int:
    place = server.Server.from_options(options.server, options.plain)
    pieces = place.dump()
    if options.json:
        pieces = (
            answers.json_text(paragraph).encode() + b"\n"
            for _, paragraph in answers.dumped(pieces, place.url)
        )
    if options.output not in (None, "-"):
        files.put(options.output, pieces)
    else:
        texts.put_all(pieces)
    return DONE

"""`irr explain CODE..`: what a code of a report means, and what to do."""
import argparse

from irr.errors import ARGUMENTS, DONE, Failure
from irr.registry import codes
from irr.terminal import texts

EXAMPLES = """
irr explain E13            why an item was refused
irr explain                all codes
"""


def arguments(parser: argparse.ArgumentParser) -> None:
    parser.add_argument(
        "codes", nargs="*", metavar="CODE", help="a code, such as E13; by default all codes"
    )


def run(options: argparse.Namespace) -> int:
    for number, name in enumerate(options.codes or codes.BY_CODE):
        code = codes.BY_CODE.get(name.upper())
        if code is None:
            raise Failure(
                name,
                "there is no such code; they are E01 to E07, E10 to E18, E90 and E91",
                ARGUMENTS,
            )
        print("\n" * (number > 0) + texts.painted(code.code, texts.BOLD))
        for words in code.sentence, code.causes, code.remedy:
            print(*texts.wrapped(words), sep="\n")
    return DONE

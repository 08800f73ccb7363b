"""`irr delegate MNT OBJECT..`: the text that hands address space and AS numbers over to a
maintainer."""
import argparse
import os
import secrets

from irr.errors import ARGUMENTS, DONE, Failure
from irr.registry import server
from irr.registry.handovers import Handover, text_of
from irr.registry.refusals import Reasons, listed, source_of
from irr.rpsl import holders, keys
from irr.rpsl.keys import Key
from irr.terminal import texts

EXAMPLES = """
irr delegate EXAMPLE-MNT 192.0.2.0/24 AS64496
                              propose a word that the holder of EXAMPLE-MNT has to register first
irr delegate --word irr-4f0c --as ROOT-MNT EXAMPLE-MNT 192.0.2.0/24 AS64496 > handover.rpsl
irr submit --as ROOT-MNT handover.rpsl
                              hand over the prefix, the AS and the route of exactly the prefix
"""


def arguments(parser: argparse.ArgumentParser) -> None:
    server.add_options(parser)
    parser.add_argument(
        "--as",
        dest="holder",
        metavar="MNT",
        help="hand over in the name of this maintainer, by default of one that may add the objects",
    )
    proof = parser.add_mutually_exclusive_group()
    proof.add_argument(
        "--word",
        metavar="WORD",
        help="look for the word that you asked the holder to register in `remarks` of the mntner",
    )
    proof.add_argument(
        "--known",
        action="store_true",
        help="require no word, because you know who registered the mntner",
    )
    parser.add_argument("name", metavar="MNT", help="the maintainer that gets them")
    parser.add_argument(
        "objects",
        nargs="+",
        metavar="PREFIX|RANGE|AS",
        help="as 192.0.2.0/24, '192.0.2.0 - 192.0.2.9', AS64496",
    )


def run(options: argparse.Namespace) -> int:
    place = server.Server.from_options(options.server, options.plain)
    wanted = list(dict.fromkeys(read_object(text) for text in options.objects))
    name = keys.need_maintainer(options.name)
    reasons = Reasons(place)
    holder = keys.need_maintainer(options.holder) if options.holder is not None else None
    check_maintainer(reasons, name, options)
    source = source_of(reasons.ask(f"object mntner {name}"))
    handover = Handover(reasons, name, holder)
    for key in wanted:
        handover.add(key)
    handover.check_overlaps()
    handover.add_routes()
    notes = handover.inside()
    for note in notes:
        print(texts.shown_line(f"% {note}"))
    text = text_of(handover, source)
    if notes and text:
        print()
    texts.put(text)
    for note in handover.notes():
        texts.note(f"irr delegate: {note}")
    return DONE


def read_object(text: str) -> Key:
    """An AS number, or a prefix or range of addresses."""
    key = keys.read_key("aut-num", text) or keys.read_key("inetnum", text)
    prefix = keys.read_prefix(text)
    if prefix and keys.read_address(text.partition("/")[0]) != prefix.first:
        raise Failure(
            text,
            f"it has bits after its length; write {prefix.text()}, or the address alone with /32",
            ARGUMENTS,
        )
    if key is None:
        raise Failure(
            text,
            "this is neither a prefix, nor a range of addresses, nor an AS number; correct it",
            ARGUMENTS,
        )
    return key


def check_maintainer(reasons: Reasons, name: str, options: argparse.Namespace) -> None:
    """Looks whose the maintainer is: names are anybody's who takes them first."""
    found = reasons.ask(f"object mntner {name}")
    if not found:
        raise Failure(
            name, "this maintainer is not registered; its holder registers it first", ARGUMENTS
        )
    others = [other for other in holders.by(found[0]) if other != name]
    if others:
        texts.note(f"irr delegate: {name}: {listed(others)} can change this maintainer too")
    if options.known:
        return
    if not options.word:
        word = f"irr-{secrets.token_hex(4)}"
        raise Failure(
            name,
            (
                f"anybody may have taken this name; ask the party to add `remarks: {word}` to the"
                f" mntner, and call again with --word {word}, or with --known if you know whose"
                " it is"
            ),
            ARGUMENTS,
        )
    if not any(os.fsencode(options.word) in value.split() for value in found[0].values(b"remarks")):
        raise Failure(
            name,
            (
                f"the mntner has no `remarks: {options.word}`; it may be somebody else's: ask the"
                " party again"
            ),
            ARGUMENTS,
        )

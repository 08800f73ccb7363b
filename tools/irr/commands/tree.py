"""`irr tree PREFIX`: who holds what below a prefix, as an indented list or a map."""
import argparse

from irr.errors import DONE
from irr.registry import server
from irr.registry.holdings import Holding, holding
from irr.rpsl import keys
from irr.terminal import texts

EXAMPLES = """
irr tree 192.0.2.0/24                 inetnums and routes, each below what covers it
irr tree --svg map.svg 10.0.0.0/8     the same as a map, with a colour for each maintainer
"""


def arguments(parser: argparse.ArgumentParser) -> None:
    server.add_options(parser)
    parser.add_argument("--svg", metavar="FILE", help="draw a map into this file")
    parser.add_argument("prefix", metavar="PREFIX", help="as 10.0.0.0/8")


def run(options: argparse.Namespace) -> int:
    place = server.Server.from_options(options.server, options.plain)
    prefix = keys.need_place(options.prefix)
    around = place.query(f"closest {prefix.text()}").or_failure(prefix.text()).objects()
    inside = place.query(f"more {prefix.text()}").or_failure(prefix.text()).objects()
    found = sorted({holding(paragraph) for paragraph in [*around, *inside]}, key=Holding.order)
    if options.svg is not None:
        from irr.system import files
        from irr.registry import hilbert

        files.put(options.svg, hilbert.picture(prefix, found).encode("ascii"))
        texts.note(
            f"irr tree: {options.svg}: {texts.counted(len(found), 'object')} below {prefix.text()}"
        )
    else:
        print_list(found)
    return DONE


def print_list(found: list[Holding]) -> None:
    """One line for each, indented by the inetnums that cover it."""
    above: list[Holding] = []
    rows = []
    for one in found:
        while above and not above[-1].span.covers(one.span):
            above.pop()
        rows.append(
            [
                "  " * len(above) + ("route " if one.kind == "route" else "") + one.text,
                ", ".join(one.names),
            ]
        )
        if one.kind == "inetnum":
            above.append(one)
    print(*map(texts.shown_line, texts.columns(rows)), sep="\n")

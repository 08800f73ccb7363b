"""`irr why PREFIX SET`: by which references a prefix is in what a filter of a set has, or what is
nearest."""
import argparse
from typing import Iterable

from irr.errors import ARGUMENTS, DONE, REFUSED, Failure
from irr.registry import references, server
from irr.registry.references import MOST_CHAINS, MOST_NEAR, Chains, Near, References, Step
from irr.rpsl import keys
from irr.rpsl.keys import Prefix
from irr.terminal import texts

EXAMPLES = """
irr why 192.0.2.0/24 AS64496:RS-CUSTOMERS       each chain from the set to the prefix
irr why 192.0.2.0/24 AS64496                    the same for the routes of an AS
irr why --json 192.0.2.0/24 AS64496:AS-CUSTOMERS | jq .chains
"""


def arguments(parser: argparse.ArgumentParser) -> None:
    server.add_options(parser)
    parser.add_argument("--json", action="store_true", help="print one line of JSON")
    parser.add_argument("prefix", metavar="PREFIX", help="as 192.0.2.0/24; an address is its /32")
    parser.add_argument(
        "set", metavar="SET", help="a set, such as AS64496:AS-CUSTOMERS, or an AS number"
    )


def run(options: argparse.Namespace) -> int:
    prefix = keys.need_place(options.prefix)
    start = references.read_start(options.set)
    if start is None:
        raise Failure(
            options.set,
            "this is not a set or an AS number; write it as AS64496:AS-CUSTOMERS or AS64496",
            ARGUMENTS,
        )
    place = server.Server.from_options(options.server, options.plain)
    sources = {str(one.get("name")) for one in place.view().get("sources", [])}
    reached = References(place, prefix, start, sources)
    chains = reached.chains(MOST_CHAINS)
    nearest = [] if chains.first else reached.nearest()
    near = [] if chains.first else reached.near()
    if options.json:
        import json

        print(json.dumps(references.as_json(prefix, start, chains, nearest, near)))
    else:
        name = references.shown(start)
        print(*map(texts.shown_line, lines(prefix, name, chains, nearest, near)), sep="\n")
    return DONE if chains.first else REFUSED


def lines(
    prefix: Prefix, name: str, chains: Chains, nearest: list[Step], near: list[Near]
) -> Iterable[str]:
    """What is printed of the prefix for people."""
    if chains.first:
        count = len(chains.first) + chains.more
        least = "at least " if chains.is_cut else ""
        yield f"{prefix.text()} is in {name}, by {least}{texts.counted(count, 'chain')}:"
        yield from table(chains.first)
        if chains.more or chains.is_cut:
            more = f"{chains.more:,} more" if chains.more else "more"
            yield f"and {more}{', and perhaps others' if chains.is_cut and chains.more else ''}"
        return
    yield f"{prefix.text()} is not in {name}."
    if nearest:
        if own := nearest[0].range:
            yield f"The nearest that the set has is {own.text()}:"
        else:
            last = nearest[-1].range_text()
            yield f"The nearest is {last}, of which the operators on the way leave nothing:"
        yield from table([nearest])
    elif not near:
        yield "No route covers it, and no set that is reached lists a range that covers it."
    if near:
        yield "What is not in the set:"
        rows = [[named(one), by(one.maintainers), one.why] for one in near[:MOST_NEAR]]
        yield from texts.columns(rows)
        if len(near) > MOST_NEAR:
            yield f"and {len(near) - MOST_NEAR:,} more"


def table(chains: list[list[Step]]) -> list[str]:
    """Chains as lines, with an empty one between two: the object, its maintainers, what it says,
    and the range that it has."""
    rows: list[list[str]] = []
    for place, chain in enumerate(chains):
        rows += [[]] if place else []
        rows += [
            [named(step), by(step.maintainers), step.says, step.range_text()] for step in chain
        ]
    return texts.columns(rows)


def named(one: Step | Near) -> str:
    """An object, with its source where it is of a view."""
    return f"  {one.name}" + (f" ({one.source})" if one.source else "")


def by(maintainers: list[str] | None) -> str:
    return "not registered" if maintainers is None else ", ".join(maintainers)

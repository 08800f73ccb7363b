"""What a set or an AS number stands for, as filters want it: whole, or a Failure."""
from typing import NamedTuple

from irr.errors import REFUSED, Failure
from irr.registry.server import DEFAULT, Server
from irr.rpsl import keys
from irr.rpsl.keys import Prefix, Range

# How many names a message has at most.
MOST_NAMES = 10
# Said of what is not found.
LATER = "; if it was registered a moment ago, try again in two minutes"


class Expansion(NamedTuple):
    """The lines of an expansion, and the names that are missing in it."""

    lines: list[str]
    missing: list[str]

    def whole(self, place: Server, name: str) -> list[str]:
        """The lines, if nothing is missing."""
        if self.missing:
            raise Failure(
                name,
                f"sets that it reaches are not registered: {listed(self.missing)}; "
                f"register them, or take them out{later(place)}",
                REFUSED,
            )
        return self.lines


def later(place: Server) -> str:
    """What a message says more of what is not found where a replica may have answered: a door, or a
    replica, may be at any address but that of the registry itself."""
    return "" if place.url == DEFAULT else LATER


def expansion(place: Server, query: str, name: str) -> Expansion:
    """The answer to `expand` or `prefixes` of a set that is registered."""
    answer = place.query_surely(query, name)
    if answer.error:
        raise Failure(name, f"% error {answer.error}: {answer.words()}", REFUSED)
    if answer.has_none:
        what = f"the set is not registered; correct the name, or register it{later(place)}"
        raise Failure(name, what, REFUSED)
    return Expansion(answer.lines(), answer.missing())


def ranges(lines: list[str]) -> list[Range]:
    """The ranges of an expansion, each of which an answer has looked at."""
    return [one for one in map(keys.read_range, lines) if one]


def routes(place: Server, number: int) -> list[Prefix]:
    """The prefixes of the routes of an origin, each once and in order."""
    query = f"inverse origin AS{number}"
    answer = place.query_surely(query).or_failure(query)
    # Those of one origin differ in their prefixes, by which they are in order.
    found = (keys.read_prefix(key.text.partition(" ")[0]) for key in answer.keys)
    return [prefix for prefix in found if prefix]


def listed(names: list[str]) -> str:
    """Names with commas between them: the first ones, and how many more there are."""
    more = len(names) - MOST_NAMES
    return ", ".join(names[:MOST_NAMES]) + (f" and {more:,} more" if more > 0 else "")

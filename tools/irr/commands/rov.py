"""`irr rov FILE`: the registered routes held against validated ROAs (RFC 6811), as rpki-client and
Routinator write them."""
import argparse
from typing import Iterable

from irr.errors import DONE, REFUSED
from irr.registry import answers, server
from irr.rpsl import keys
from irr.rpsl.keys import Prefix
from irr.system import files
from irr.terminal import texts
from irr.views import roas

EXAMPLES = """
rpki-client -j /var/lib/rpki-client && irr rov /var/lib/rpki-client/json
routinator vrps --format json | irr rov -
irr rov --invalid vrps.json                  only the invalid routes, which many networks drop
"""


def arguments(parser: argparse.ArgumentParser) -> None:
    server.add_options(parser)
    parser.add_argument(
        "--invalid",
        action="store_true",
        help="print only the invalid routes, not those without a ROA",
    )
    parser.add_argument(
        "file", metavar="FILE", help="JSON or CSV of rpki-client or Routinator; - is standard input"
    )


def run(options: argparse.Namespace) -> int:
    place = server.Server.from_options(options.server, options.plain)
    name = files.name_of(options.file)
    read = roas.read(files.read(options.file), name)
    for line in read.doubts:
        texts.note(f"irr rov: {line}")
    table = read.table()
    counts = {"valid": 0, "invalid": 0, "not found": 0}
    # Whether the dump was whole is known at its end, and nothing is printed before.
    lines = []
    for prefix, number in routes(place.dump(), place.url):
        state, why = roas.judged(prefix, number, table)
        counts[state] += 1
        if state == "invalid" or state == "not found" and not options.invalid:
            lines.append(f"{state}: {prefix.text()} AS{number}{why}")
    print(*lines, sep="\n", end="\n" if lines else "")
    texts.note(
        f"irr rov: {texts.counted(sum(counts.values()), 'route')}, "
        f"{texts.counted(len(read.roas), 'ROA')} of IPv4 in {name}: "
        + ", ".join(f"{count:,} {state}" for state, count in counts.items())
    )
    return REFUSED if counts["invalid"] else DONE


def routes(pieces: Iterable[bytes], place: str) -> Iterable[tuple[Prefix, int]]:
    """The prefix and the origin of each route of a dump."""
    for key, _ in answers.dumped(pieces, place):
        if key.kind == "route":
            prefix, origin = key.text.split(" ")
            # The parts of a key are good.
            yield keys.read_prefix(prefix), keys.read_as(origin)  # type: ignore[misc]  # see above

"""`irr filter FORMAT NAME SET FILE`: a filter of what a set or an AS number stands for, made whole
or not at all."""
import argparse
import sys
from typing import Any, Iterator

from irr.errors import ARGUMENTS, DONE, REFUSED, Failure
from irr.filters import sets, settings
from irr.registry import server
from irr.rpsl import keys
from irr.rpsl.keys import Range
from irr.system import files
from irr.terminal import texts
from irr.views.settings import followed_to

EXAMPLES = """
irr filter bird CUSTOMERS AS64496:RS-CUSTOMERS /etc/bird/customers.conf
irr filter frr CUSTOMERS AS64496 -                        the routes of an AS, printed
irr filter -m bird CUSTOMERS AS64496:AS-CUSTOMERS -       without the sets that are not registered
irr filter --settings /etc/irrdesk/filters.toml           all filters of a file
irr filter --settings filters.toml --accept               also those that shrank too much
"""
# No network has a range above this length, unless the user says so.
WIDEST = 8
# BIRD reads no longer name.
NAME, LONGEST = "ABCDEFGHIJKLMNOPQRSTUVWXYZ0123456789_", 64


def arguments(parser: argparse.ArgumentParser) -> None:
    server.add_options(parser)
    parser.add_argument(
        "-m",
        "--missing",
        action="store_true",
        help="make the filter even if sets are not registered, and say which",
    )
    parser.add_argument(
        "--widest",
        metavar="LENGTH",
        help="accept prefixes, and prefixes of ranges, of at least this length, "
        f"by default {WIDEST}; 0 allows 0.0.0.0/0",
    )
    parser.add_argument(
        "--settings", metavar="FILE", help="make the filters of these settings, and nothing else"
    )
    parser.add_argument(
        "--accept",
        action="store_true",
        help="with --settings, also accept a list that lacks more of the old list than `shrink`"
        " allows, or that replaces a list that can't be read",
    )
    parser.add_argument("format", metavar="FORMAT", nargs="?", help="bird or frr")
    parser.add_argument(
        "name",
        metavar="NAME",
        nargs="?",
        help="the filter's name: capital letters, digits and _, a letter first",
    )
    parser.add_argument(
        "set", metavar="SET", nargs="?", help="a set, such as AS64496:AS-CUSTOMERS, or an AS number"
    )
    parser.add_argument(
        "file",
        metavar="FILE",
        nargs="?",
        help="the file to replace, only if the filter could be made; - prints it",
    )
    # Options may stand between these, which are not there with --settings.
    setattr(parser, "parse_args", parser.parse_intermixed_args)


def run(options: argparse.Namespace) -> int:
    if options.settings:
        if options.format:
            raise Failure(
                options.format, "with --settings there is nothing else; take it away", ARGUMENTS
            )
        for name in "missing", "widest", "server", "plain":
            if getattr(options, name):
                raise Failure(
                    f"--{name}",
                    "it does not go with --settings, whose commands have their own options; "
                    "write it in `make`",
                    ARGUMENTS,
                )
        return settings.make_all(options.settings, options.accept)
    if options.accept:
        raise Failure("--accept", "it goes with --settings alone; take it away", ARGUMENTS)
    widest = read_words(options)
    place = server.Server.from_options(options.server, options.plain)
    try:
        before = place.view()
        found = ranges(place, options.set, options.missing)
        if before != place.view():
            raise Failure(place.url, "the view has changed meanwhile; ask again")
        if wide := [one.text() for one in found if one.prefix.length < widest]:
            raise Failure(
                options.set,
                f"it has ranges wider than /{widest}: {sets.listed(wide)}; "
                "look who registered them, or allow them by --widest",
                REFUSED,
            )
        text = "".join(
            line + "\n"
            for line in FORMATS[options.format](
                options.name, found, [f"{options.set.upper()} at {place.url}", *made_of(before)]
            )
        )
        if options.file == "-":
            sys.stdout.write(text)
        else:
            files.put(options.file, text.encode("ascii", "backslashreplace"))
            print(f"{options.file}: {options.set}: {texts.counted(len(found), 'range')}")
    except Failure as failure:
        stays = "" if options.file == "-" else settings.unchanged(options.file)
        raise Failure(failure.thing, failure.what + stays, failure.status) from None
    return DONE


def read_words(options: argparse.Namespace) -> int:
    """The widest length, once each word of the command line is known to be right; a Failure that
    names the one that is not."""
    for word, what in [
        (options.format, "FORMAT"),
        (options.name, "NAME"),
        (options.set, "SET"),
        (options.file, "FILE"),
    ]:
        if not word:
            raise Failure(what, "it is missing; see `irr filter --help`", ARGUMENTS)
    if options.format not in FORMATS:
        raise Failure(
            options.format,
            "this is not a format; write bird or frr, and take bgpq4 for other routers",
            ARGUMENTS,
        )
    is_long = len(options.name) > LONGEST
    if is_long or options.name[0] not in NAME[:26] or options.name.strip(NAME):
        raise Failure(
            options.name,
            "this is not the name of a filter; "
            f"write up to {LONGEST} capital letters, digits and _, such as CUSTOMERS",
            ARGUMENTS,
        )
    if keys.read_as(options.set) is None and keys.read_set(options.set) is None:
        raise Failure(
            options.set,
            "this is not a set or an AS number; write it as AS64496:AS-CUSTOMERS or AS64496",
            ARGUMENTS,
        )
    given = str(WIDEST) if options.widest is None else options.widest
    widest = keys.read_number(given, 0, 32)
    if widest is None:
        raise Failure(
            options.widest,
            "this is not a length; write a number from 0 to 32 after --widest",
            ARGUMENTS,
        )
    return widest


def ranges(place: server.Server, name: str, without_missing: bool) -> list[Range]:
    """The ranges that a set or an AS number stands for; there is one at least."""
    number = keys.read_as(name)
    if number is not None:
        found = [
            Range(prefix, prefix.length, prefix.length) for prefix in sets.routes(place, number)
        ]
    else:
        expansion = sets.expansion(place, "prefixes", name)
        lines = expansion.lines if without_missing else expansion.whole(place, name)
        if expansion.missing and without_missing:
            texts.note(
                f"irr filter: {name}: made without sets that are not registered: "
                f"{sets.listed(expansion.missing)}"
            )
        found = sets.ranges(lines)
    if not found:
        what = "no route has this origin" if number is not None else "the set has no prefixes"
        what = f"{what}; an empty filter is not made{sets.later(place)}"
        raise Failure(name, what, REFUSED)
    return found


def comments(mark: str, origin: list[str]) -> Iterator[str]:
    """What a filter begins with: of what it was made."""
    yield f"{mark} Made by irr filter of {texts.shown_line(origin[0])}"
    yield from (f"{mark} {texts.shown_line(line)}" for line in origin[1:])


def made_of(view: dict[str, Any]) -> Iterator[str]:
    """The sources of a view, each with its state, and the ROAs by which routes were left out."""
    for one in view.get("sources", []):
        words = [f"source {one.get('name')}", f"state {one.get('state')}", followed_to(one)]
        yield ", ".join(filter(None, words))
    if view.get("roas"):
        yield f"ROAs, state {view['roas']}"


def bird(name: str, found: list[Range], origin: list[str]) -> Iterator[str]:
    """A constant for BIRD 2, which writes the lengths after each prefix."""
    yield from comments("#", origin)
    yield f"define {name} = ["
    for place, one in enumerate(found, 1):
        yield f"    {one.prefix.text()}{{{one.low},{one.high}}}" + (
            "," if place < len(found) else ""
        )
    yield "];"


def frr(name: str, found: list[Range], origin: list[str]) -> Iterator[str]:
    """A prefix-list for FRR, which refuses what it does not name."""
    yield from comments("!", origin)
    for place, one in enumerate(found, 1):
        least = f" ge {one.low}" if one.low > one.prefix.length else ""
        most = f" le {one.high}" if one.high > one.prefix.length else ""
        yield f"ip prefix-list {name} seq {5 * place} permit {one.prefix.text()}{least}{most}"
    yield f"ip prefix-list {name} seq {5 * (len(found) + 1)} deny any"


FORMATS = {"bird": bird, "frr": frr}

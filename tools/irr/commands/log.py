"""`irr log`: who submitted what, and what came of it, as the door wrote it down."""

import argparse
import datetime
import json
from typing import Any

from irr.door import journal, logs
from irr.errors import ARGUMENTS, DONE, REFUSED, Failure
from irr.rpsl import keys
from irr.terminal import texts

EXAMPLES = """
irr log                                  the whole log of the service's door, as root
irr log --key 192.0.2.0/24
irr log --file items.log                 the log of another door
irr log --maintainer A-MNT --since 2026-11-01
irr log --client 192.0.2.7 --json
"""


def arguments(parser: argparse.ArgumentParser) -> None:
    parser.add_argument(
        "--file",
        metavar="FILE",
        help="read this log file of a door, with its rotated files; by default that of "
        f"{logs.SETTINGS}, or the journal of {logs.UNIT}",
    )
    parser.add_argument(
        "--key", metavar="KEY", help="print only lines of objects whose key begins with this"
    )
    parser.add_argument(
        "--maintainer",
        metavar="NAME",
        type=keys.need_maintainer,
        help="print only lines of this mntner, and of objects that name it in `mnt-by`",
    )
    parser.add_argument(
        "--client", metavar="NAME", help="print only lines from this address, or by this user"
    )
    parser.add_argument(
        "--since",
        metavar="TIME",
        help="print only lines from this time on, such as 2026-11-28 or 2026-11-28T10:00 in UTC",
    )
    parser.add_argument("--until", metavar="TIME", help="print only lines before this time")
    parser.add_argument("--json", action="store_true", help="print the lines as they were written")


def run(options: argparse.Namespace) -> int:
    since, until = (read_time(given) if given else None for given in (options.since, options.until))
    count = 0
    for entry in journal.entries(logs.lines(options.file)):
        at = journal.time_of(entry)
        if at is None or (since is not None and at < since) or (until is not None and at >= until):
            continue
        if fits(entry, options):
            count += 1
            print(json.dumps(entry) if options.json else texts.shown_line(line_of(entry)))
    return DONE if count else REFUSED


def read_time(text: str) -> float:
    """The seconds since 1970 of a time of UTC, unless it names another zone."""
    try:
        found = datetime.datetime.fromisoformat(text)
    except ValueError:
        raise Failure(
            text, "this is not a time; write it as 2026-11-28 or 2026-11-28T10:00", ARGUMENTS
        ) from None
    return (found if found.tzinfo else found.replace(tzinfo=datetime.timezone.utc)).timestamp()


def fits(entry: dict[str, Any], options: argparse.Namespace) -> bool:
    """Whether an entry is one of those that are asked for."""
    if options.key and not str(entry.get("key") or "").upper().startswith(options.key.upper()):
        return False
    if options.client and options.client not in (entry.get("client"), entry.get("user")):
        return False
    named = entry.get("mnt-by") or []
    is_own = entry.get("class") == "mntner" and entry.get("key") == options.maintainer
    return not options.maintainer or is_own or options.maintainer in named


def line_of(entry: dict[str, Any]) -> str:
    who = str(entry.get("client")) + (f" ({entry['user']})" if entry.get("user") else "")
    outcome = str(entry.get("outcome"))
    is_refused = outcome.startswith("E")
    if entry.get("key"):
        what = f"{entry['class']} {entry['key']}"
    elif "items" in entry:
        count = entry["items"]
        what = "a submission" + (f" of {texts.counted(count, 'item')}" if count else "")
        is_refused = outcome[:1].isdigit()
    else:
        what = "an item that could not be read"
    at = str(entry.get("time")).partition(".")[0]
    more = f", and {entry['untold']} before it" if entry.get("untold") else ""
    return f"{at}Z {who}: {what}: {'refused ' if is_refused else ''}{outcome}{more}"

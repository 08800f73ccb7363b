"""`irr check`: what is wrong with the registry of this machine, and what to do."""

import argparse
import dataclasses
import json

from irr.errors import DONE, REFUSED
from irr.local import health
from irr.local.health import Bounds, Health, Places
from irr.rpsl import keys
from irr.system import files
from irr.terminal import texts

EXAMPLES = """
irr check                                     one line for each fault, with its remedy
irr check --json
irr check --certificate irr.example.net --disk 2048
irr check --url http://127.0.0.1:4400/query/ROOT-MNT --door 127.0.0.1:4381

irrdesk-check.timer runs it each minute. It checks only what is enabled on this machine. The limits
can also be set in the table `check` of irr.toml. Only root and the user irrdesk may see everything.
"""
# What --restarts has: a start of the registry, of the door, or of both mends what is wrong.
REGISTRY, DOOR, BOTH = 10, 11, 12


def arguments(parser: argparse.ArgumentParser) -> None:
    parser.add_argument("--json", action="store_true", help="print the faults as JSON")
    parser.add_argument(
        "--metrics",
        metavar="FILE",
        help="also write how many faults of each word there are into a file for Prometheus's"
        " node exporter",
    )
    for name, what in (
        ("url", "send this query to the registry"),
        ("door", "ask the door for its status here, as ADDRESS:PORT"),
        ("agent", "ask the agent of irr mirror here, as ADDRESS:PORT"),
        ("settings", "read these settings of the registry, and door.toml beside them"),
        ("backups", "check this folder of backups"),
        ("history", "check this folder of the history"),
    ):
        default = getattr(Places, name) or "that of its enabled unit"
        parser.add_argument(f"--{name}", metavar=name.upper(), help=f"{what}; by default {default}")
    for name, metavar, what in (
        ("seconds", "SECONDS", "allow the registry this long for an answer"),
        ("replica-age", "SECONDS", "allow a replica's state to be this old"),
        ("backup-age", "HOURS", "allow the newest backup to be this old"),
        ("history-age", "HOURS", "allow the last fetch of the history to be this old"),
        ("behind", "SERIALS", "allow a mirror to be this far behind"),
        ("certificate-days", "DAYS", "require certificates to remain valid this long"),
        ("disk", "MEBIBYTES", "require this much free space where the database is"),
        ("clock", "SECONDS", "allow a date this far in the future"),
        ("memory", "PERCENT", "allow a unit to use this much of its memory"),
    ):
        default = f"{getattr(Bounds, name.replace('-', '_')):g}"
        parser.add_argument(
            f"--{name}", metavar=metavar, type=keys.decimal, help=f"{what}; by default {default}"
        )
    parser.add_argument(
        "--certificate",
        metavar="HOST",
        action="append",
        help="check the certificate that the proxy of this machine has for this name, or NAME:PORT;"
        " may be given several times",
    )
    parser.add_argument(
        "--restarts",
        action="store_true",
        help="report by the exit status what a restart would repair:"
        f" {REGISTRY} the registry, {DOOR} the door, {BOTH} both",
    )


def run(options: argparse.Namespace) -> int:
    names = [field.name for field in dataclasses.fields(Places)]
    given = {name: getattr(options, name) for name in names}
    places = Places(**{name: value for name, value in given.items() if value is not None})
    bounds = [field.name for field in dataclasses.fields(Bounds)]
    wanted, settings, unseen = health.bounds(
        places.settings, {name: getattr(options, name) for name in bounds}
    )
    found = Health(places, wanted, settings)
    found.unseen += unseen
    found.look()
    if options.metrics is not None:
        files.put(options.metrics, found.metrics().encode())
    if options.json:
        printed = {
            "well": not found.faults,
            "faults": [fault.as_json() for fault in found.faults],
            "unseen": found.unseen,
        }
        print(json.dumps(printed, indent=2))
    else:
        for fault in found.faults:
            print(fault.line())
        for line in found.unseen:
            texts.note(f"irr check: {line}; this is not checked")
    return status_of(found, options.restarts)


def status_of(found: Health, is_for_unit: bool) -> int:
    if not found.faults:
        return DONE
    started = {health.RESTARTED.get(fault.word) for fault in found.faults}
    is_registry, is_door = "irrdesk.service" in started, "irrdesk-door.service" in started
    if not is_for_unit or not is_registry and not is_door:
        return REFUSED
    return BOTH if is_registry and is_door else REGISTRY if is_registry else DOOR

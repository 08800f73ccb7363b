"""`irr mirror FOLDER`: replicas, which are registries made of the public dump of another one."""
import argparse
import os

from irr.errors import ARGUMENTS, DONE, Failure
from irr.local import program, replicas
from irr.registry import server
from irr.rpsl import keys
from irr.system import files

EXAMPLES = """
irr mirror replicas                    one replica of the registry of IRR_SERVER, at port 4345
irr mirror -s https://irr.example.net --port 4345 --port 4346 --agent 4340 /var/lib/irrdesk-mirror

A replica gives the same answers as the registry, even while the registry is stopped. It has no
password hashes, so nobody can change objects there. New maintainers can still register at it: let
the door send submissions to the registry. Give at least two ports: each replica in turn is
restarted on new objects, so that one always answers. The agent tells the door which replicas exist.
"""


def arguments(parser: argparse.ArgumentParser) -> None:
    server.add_options(parser)
    parser.add_argument(
        "--port",
        metavar="PORT",
        type=keys.number,
        action="append",
        help="serve a replica at this port of 127.0.0.1, by default 4345; "
        "may be given several times, once for each replica",
    )
    parser.add_argument(
        "--every",
        metavar="SECONDS",
        type=keys.decimal,
        default=60,
        help="fetch the dump this often, by default every 60 seconds",
    )
    parser.add_argument(
        "--limit",
        metavar="COUNT",
        type=keys.number,
        default=10_000,
        help="use this `limit` of the registry's settings, by default 10000",
    )
    parser.add_argument(
        "--pause",
        metavar="SECONDS",
        type=keys.decimal,
        default=12,
        help="wait this long after one replica answers again before the next one is stopped, by "
        "default 12: a proxy has to notice the first one within this time",
    )
    parser.add_argument(
        "--agent",
        metavar="PORT",
        type=keys.number,
        help="tell the door and HAProxy, at this port of 127.0.0.1, which replicas stop soon",
    )
    parser.add_argument("folder", metavar="FOLDER", help="where the replicas' databases are kept")


def run(options: argparse.Namespace) -> int:
    ports = options.port or [4345]
    if (
        not all(0 < port < 65_536 for port in [*ports, options.agent or 1])
        or len({*ports, options.agent}) != len(ports) + 1
    ):
        raise Failure(
            "", "the ports are not from 1 to 65535, each another one; correct them", ARGUMENTS
        )
    if (
        not 1 <= options.every <= 1e9
        or not 0 <= options.pause <= 3_600
        or not 1 <= options.limit <= 1_000_000
    ):
        raise Failure(
            "",
            "--every takes seconds from 1, --pause from 0, and --limit a number from 1 to 1000000; "
            "correct them",
            ARGUMENTS,
        )
    place = server.Server.from_options(options.server, options.plain)
    program.find()
    os.umask(0o077)
    folder = files.folder(options.folder, 0o700)
    with files.locked(folder):
        keeper = replicas.Keeper(
            folder, ports, replicas.Agent(options.agent) if options.agent else None, options.pause
        )
        try:
            keeper.keep(
                lambda work, known: replicas.make(place, options.limit, work, known),
                options.limit,
                options.every,
            )
        finally:
            keeper.end()
    return DONE

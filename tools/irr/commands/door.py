"""`irr door [CONFIG]`: one process between the world and the registry with its replicas."""

import argparse

from irr.door import service, settings
from irr.errors import DONE
from irr.rpsl import keys

EXAMPLES = """
irr door                          whois at port 43, HTTP at 127.0.0.1:4380, status at 127.0.0.1:4381
irr door /etc/irrdesk/door.toml
irr door --whois 127.0.0.1:4300 --replica http://127.0.0.1:4345

It answers whois in three dialects, which it recognises by the client's line: the registry's own,
IRRd's (for bgpq4 and others), and RIPE's with flags. HTTP needs a proxy in front for TLS: see
examples/nginx.conf. The keys of CONFIG are the names of these options, and others (man irr-door).
"""


def arguments(parser: argparse.ArgumentParser) -> None:
    parser.add_argument("config", metavar="CONFIG", nargs="?", help="settings, such as door.toml")
    for name, what in (
        ("whois", "answer whois here, by default at [::]:43; may be given several times"),
        ("http", "answer HTTP here, by default at 127.0.0.1:4380; may be given several times"),
    ):
        parser.add_argument(f"--{name}", metavar="ADDRESS:PORT", action="append", help=what)
    parser.add_argument(
        "--status",
        metavar="ADDRESS:PORT",
        help="answer /status and /metrics here, by default at 127.0.0.1:4381",
    )
    parser.add_argument(
        "--registry",
        metavar="URL",
        help="protect this registry, by default http://127.0.0.1:4343",
    )
    parser.add_argument(
        "--replica",
        metavar="URL",
        action="append",
        help="query this replica; may be given several times; by default, those of the agent",
    )
    parser.add_argument(
        "--agent",
        metavar="ADDRESS:PORT",
        help="ask this agent of `irr mirror`, by default that at 127.0.0.1:4340",
    )
    parser.add_argument(
        "--log",
        metavar="FILE",
        help="log submissions here, a line for each item; by default `-`, standard output",
    )
    parser.add_argument(
        "--strict",
        action="store_true",
        default=None,
        help="never skip unregistered sets in answers to IRRd's queries",
    )
    for name, what in (
        (
            "refill",
            "let a client use this much of the registry's time each second, by default 0.5",
        ),
        ("burst", "let a client use this much of it at once, by default 3"),
    ):
        parser.add_argument(f"--{name}", metavar="SECONDS", type=keys.decimal, help=what)


def run(options: argparse.Namespace) -> int:
    names = (
        "whois",
        "http",
        "status",
        "registry",
        "replica",
        "agent",
        "log",
        "strict",
        "refill",
        "burst",
    )
    given = {name: getattr(options, name) for name in names}
    service.run(settings.read(options.config, given))
    return DONE

"""`irr rov` on what rpki-client makes of a tree of certificates and ROAs."""

from checks.filters import roas
from checks.filters.filtering import address
from checks.running import Skipped, Tell, Trial, expect, write, write_settings
from checks.serving import Server
from checks.worlds import COUNT, Tool

IN_MEMORY = True
ROUTES = b"""password: bc

aut-num: AS64496
mnt-by: ROOT-MNT
source: TEST

aut-num: AS64500
mnt-by: ROOT-MNT
source: TEST

""" + b"\n".join(
    b"route: %s\norigin: %s\nmnt-by: ROOT-MNT\nsource: TEST\n" % tuple(route.split())
    for route in [
        b"192.0.2.0/24 AS64496",
        b"192.0.2.0/25 AS64496",
        b"198.51.100.0/26 AS64496",
        b"198.51.100.0/24 AS64500",
        b"203.0.113.0/24 AS64500",
        b"203.0.112.0/23 AS64500",
    ]
)
ROAS = [
    (64496, [("192.0.2.0/24", None), ("198.51.100.0/24", 26)]),
    (0, [("203.0.113.0/24", 32)]),
    (64496, [("2001:db8::/32", 48)]),
]
JUDGED = b"""invalid: 192.0.2.0/25 AS64496: it is longer than the ROA allows: 192.0.2.0/24 AS64496
invalid: 198.51.100.0/24 AS64500: another AS has the ROA: 198.51.100.0/24 AS64496 up to /26
not found: 203.0.112.0/23 AS64500
invalid: 203.0.113.0/24 AS64500: another AS has the ROA: 203.0.113.0/24 AS0 up to /32
"""


def test_irr_rov_judges_routes_by_what_rpki_client_made(
    trial: Trial, tool: Tool, tell: Tell
) -> None:
    """`irr rov` with what rpki-client makes of a tree of certificates and ROAs."""
    if not roas.PROGRAM:
        raise Skipped("rpki-client is not here (Debian's package of this name)")
    tree, folder = trial.place("rpki"), trial.place("rov")
    write_settings(folder)
    for words in ["init", "s.toml"], ["submit", "s.toml", write(folder, "routes.rpsl", ROUTES)]:
        expect(trial.run(folder, *words).status, 0, " ".join(words))
    made = roas.Tree(tree, ROAS).validated()
    with Server(trial.program, folder, COUNT) as server:
        tool = tool.at(IRR_SERVER=address(server))
        cases: list[tuple[list[str], bytes]] = [
            ([], JUDGED),
            (["--invalid"], b"".join(line for line in JUDGED.splitlines(True) if line[:1] == b"i")),
        ]
        for words, wanted in cases:
            ran = tool("rov", *words, made)
            expect((ran.status, ran.printed), (1, wanted), f"what `irr rov` says, {ran.reported!r}")
            expect(
                ran.reported.split(b": ")[2:],
                [b"2 valid, 3 invalid, 1 not found\n"],
                f"its last line {ran.reported!r}",
            )
    tell("6 routes, 4 ROAs of rpki-client")

"""Who holds what: what a file changes, what is handed over, what a prefix lacks, trees."""

import os
import xml.etree.ElementTree

from checks.running import Tell, Trial, expect, write
from checks.worlds import B_AUTH, Tool, World, expect_line

IN_MEMORY = True


def test_diff_says_what_a_file_would_change(trial: Trial, tool: Tool, tell: Tell) -> None:
    """What a file would change."""
    with World(trial, tool, "diff") as world:
        text = b"""password: one good secret

aut-num:  AS64496
mnt-by:   A-MNT
source:   TEST

inetnum: 192.0.2.0/24
descr: caf\xe9 \x9b31m
+new
mnt-by: A-MNT
source: TEST

inetnum: 192.0.2.0/25
mnt-by: A-MNT
source: TEST

route: 192.0.2.0/24
origin: AS64496
delete: x

route: 192.0.2.0/25
origin: AS64496
delete: x

mntner: B-MNT
auth: x
mnt-by: B-MNT
source: TEST

nocolon

person: x
"""
        ran = world.tool("diff", "-", stdin=text)
    expect(
        (ran.status, ran.reported.count(b"\n"), b"secret" in ran.printed),
        (1, 2, False),
        "status, standard error, and passwords",
    )
    lines = ran.printed.decode().splitlines()
    expect(
        [line for line in lines if line[0].isdigit()],
        [
            "1 aut-num AS64496: unchanged",
            "2 inetnum 192.0.2.0 - 192.0.2.255: changed",
            "3 inetnum 192.0.2.0 - 192.0.2.127: new",
            "4 route 192.0.2.0/24 AS64496: deleted",
            "5 route 192.0.2.0/25 AS64496: there is none to delete",
            "6 mntner B-MNT: changed",
            "7 -: standard input: line 30: it has a line without a colon",
            "8 -: standard input: line 32, `person`: this registry keeps no such class; it keeps"
            " mntner, as-block, aut-num, inetnum, route, as-set, route-set",
        ],
        "its lines",
    )
    expect(
        [line for line in lines if line[0] in "+-" and line[:3] not in ("+++", "---")],
        [
            "+                new",
            "+inetnum:        192.0.2.0/25",
            "+mnt-by:         A-MNT",
            "+source:         TEST",
            "-route:          192.0.2.0/24",
            "-origin:         AS64496",
            "-mnt-by:         A-MNT",
            "-mnt-routes:     A-MNT, B-MNT {192.0.2.128/25^26}",
            "-source:         TEST",
        ],
        "what differs",
    )
    tell("8 paragraphs")


def test_what_is_delegated_is_then_held(trial: Trial, tool: Tool, tell: Tell) -> None:
    """Space and a number are handed over to a maintainer, who then holds them."""
    with World(trial, tool, "delegate") as world:
        tool, folder = world.tool, world.folder
        root = write(folder, "root", b"password: bc\n")
        objects = ["198.51.100.0/24", "203.0.113.0 - 203.0.113.191", "AS64510"]
        for words, reported in [
            (
                ["A-MNT", *objects],
                "A-MNT: anybody may have taken this name; ask .*--word irr-[0-9a-f]{8}, .*",
            ),
            (
                ["--word", "irr-9999", "A-MNT", *objects],
                "A-MNT: the mntner has no `remarks: irr-9999`; .*",
            ),
            (["--known", "E-MNT", *objects], "E-MNT: this maintainer is not registered; .*"),
            (
                ["--known", "A-MNT", "192.0.2.128 - 192.0.3.0"],
                ".*inetnum 192.0.2.0 - 192.0.2.255 overlaps it; .*",
            ),
            (["--known", "A-MNT", "x"], "x: this is neither .*"),
        ]:
            ran = tool("delegate", *words)
            expect_line(ran, 2, reported, " ".join(words))
        text = tool("delegate", "--word", "irr-0123", "A-MNT", *objects)
        expect((text.status, text.reported), (0, b""), "the text")
        ran = tool("submit", "--raw", root, write(folder, "over.rpsl", text.printed))
        expect(
            (ran.status, ran.printed.count(b": added\n"), ran.printed.count(b": changed\n")),
            (0, 6, 6),
            f"its report {ran.printed!r}",
        )
        for prefix in "198.51.100.0/24", "203.0.113.0/25", "203.0.113.128/26":
            expect(
                tool("query", "exact", prefix).printed.count(b"mnt-by:         A-MNT\n"),
                2 if prefix.endswith("/24") else 1,
                prefix,
            )
        again = tool("delegate", "--known", "A-MNT", *objects)
        expect(
            (again.printed, b"has all of it already" in again.reported),
            (b"", True),
            "the same again",
        )
        held = tool("held", "198.51.100.0/24", "A-MNT")
        expect(
            (
                held.status,
                b"\n% 198.51.100.0/24 is held by A-MNT\n" in b"\n" + held.printed,
                held.reported,
            ),
            (0, True, b""),
            f"held: {held.printed!r}",
        )
        inside = tool("delegate", "--known", "B-MNT", "192.0.0.0/16")
        expect(
            [line for line in inside.printed.decode().splitlines() if line.startswith("%")],
            [
                (
                    "% inside 192.0.0.0 - 192.0.255.255: inetnum 192.0.2.0 - 192.0.2.255 of A-MNT,"
                    " who keeps it"
                ),
                (
                    "% inside 192.0.0.0 - 192.0.255.255: route 192.0.2.0/24 AS64496 of A-MNT, who"
                    " keeps it"
                ),
            ],
            "what stands inside",
        )
        expect(
            b"B-MNT has to register the route of exactly this prefix" in inside.reported,
            True,
            f"without an AS: {inside.reported!r}",
        )
    tell("12 items, then held")


def test_what_a_prefix_lacks_is_found_and_mended(trial: Trial, tool: Tool, tell: Tell) -> None:
    """What a prefix lacks is found and mended, also in an object that is printed with more bytes
    than the registry takes."""
    start = b"""password: bc
password: one good secret
password: another good secret

mntner: B-MNT
auth: %s
mnt-by: B-MNT, ROOT-MNT
source: TEST

inetnum: 192.0.2.0/25
descr: kept
%smnt-by: A-MNT, ROOT-MNT
mnt-lower: ROOT-MNT
source: TEST

route: 192.0.2.0/25
origin: AS64496
mnt-by: A-MNT
mnt-routes: ROOT-MNT, A-MNT {192.0.2.0/25^+}
source: TEST

route: 192.0.2.192/26
origin: AS64500
mnt-by: B-MNT
source: TEST

route: 192.0.2.0/24
origin: AS64496
delete: x
""" % (
        B_AUTH.encode(),
        b"remarks:x\n" * 6_000,
    )
    with World(trial, tool, "held", start) as world:
        tool = world.tool
        ran = tool("held", "192.0.2.0/24", "A-MNT")
        found = [line for line in ran.printed.decode().splitlines() if line.startswith("%")]
        expect(
            (ran.status, found),
            (
                1,
                [
                    "% there is no route of exactly 192.0.2.0/24",
                    "% inetnum 192.0.2.0 - 192.0.2.127 names ROOT-MNT, who is not yours",
                    "% route 192.0.2.0/25 AS64496 names ROOT-MNT, who is not yours",
                    (
                        "% route 192.0.2.192/26 AS64500 names B-MNT, who is not yours: only they"
                        " can change it"
                    ),
                    (
                        "% as-set AS64496:AS-CUSTOMERS lists AS-GONE, which is not registered: who"
                        " registers it decides what the set has"
                    ),
                    (
                        "% as-set AS64496:AS-CUSTOMERS has `mbrs-by-ref`: anybody who names B-MNT"
                        " in `mnt-by` can join it by `member-of`; list members by name instead"
                    ),
                    "% 192.0.2.0/24 is not held by A-MNT",
                ],
            ),
            "what is found",
        )
        ran = tool("submit", "--raw", "-", stdin=b"password: one good secret\n\n" + ran.printed)
        expect(
            (ran.status, ran.printed),
            (
                0,
                (
                    b"1 route 192.0.2.0/24 AS64496: added\n2 inetnum 192.0.2.0 - 192.0.2.127:"
                    b" changed\n3 route 192.0.2.0/25 AS64496: changed\n% items 3\n"
                ),
            ),
            "what mends it",
        )
        expect(
            b"descr:          kept\n" + b"remarks:        x\n" * 6_000
            in tool("query", "exact", "192.0.2.0/25").printed,
            True,
            "that other attributes stay",
        )
        ran = tool("held", "192.0.2.0/24", "A-MNT", "B-MNT")
        holes = [line for line in ran.printed.decode().splitlines() if "not yours" in line]
        expect(
            holes,
            [
                "% mntner B-MNT names ROOT-MNT, who is not yours: change its `mnt-by`, with its"
                " `auth` lines, which are hidden here"
            ],
            "of two maintainers",
        )
        ran = tool("held", "192.0.3.0/24", "C-MNT")
        expect(
            (
                ran.status,
                ran.printed.count(b"\n%"),
                b"mntner C-MNT is not registered" in ran.printed,
                ran.reported.startswith(b"irr held: a change may be missing for a minute or two"),
            ),
            (1, 3, True, True),
            "of nobody",
        )
        expect(
            b"and you have no aut-num: ask the holder of an AS to name you" in ran.printed,
            True,
            "that another's AS may be the origin",
        )
        expect_line(
            tool("held", "192.0.2.0", "A-MNT"),
            2,
            "192.0.2.0: this is not a prefix; .*",
            "no prefix",
        )
    tell("found and mended")


def test_a_tree_has_who_holds_what_as_lines_and_as_a_map(
    trial: Trial, tool: Tool, tell: Tell
) -> None:
    """Who holds what, as lines and as a picture."""
    with World(trial, tool, "tree") as world:
        ran = world.tool("tree", "192.0.2.0/23")
        expect(
            ran.printed.decode().splitlines(),
            [
                "0.0.0.0/0                       ROOT-MNT",
                "  192.0.2.0/24                  A-MNT",
                "    route 192.0.2.0/24 AS64496  A-MNT",
            ],
            "the lines",
        )
        path = os.path.join(world.folder, "map.svg")
        ran = world.tool("tree", "--svg", path, "192.0.0.0/16")
        expect((ran.status, ran.printed), (0, b""), "the making of a map")
        root = xml.etree.ElementTree.parse(path).getroot()
        titles = [title.text for title in root.iter("{http://www.w3.org/2000/svg}title")]
        expect(
            "inetnum 192.0.2.0/24: A-MNT" in titles
            and "route 192.0.2.0/24 AS64496: A-MNT" in titles,
            True,
            f"its words {titles}",
        )
        expect_line(
            world.tool("tree", "192.0.2"), 2, "192.0.2: this is not a prefix; .*", "no prefix"
        )
    tell("lines and map")

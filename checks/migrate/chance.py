"""Dumps of chance: as registries make them, messy, and damaged."""

import random

from checks.migrate.moving import TOP
from checks.model.objects import CLASSES

SETS_NAMED = ["AS-X", "as-x", "RS-Z", "AS1:AS-Y", "AS01:AS-Y", "AS1:RS-Z", "AS-ANY", "FOO"]

NAMES = [
    "A-MNT",
    "a-mnt",
    "B-MNT",
    "MAINT-AS1",
    "1AND1-MNT",
    "1and1-mnt",
    "AS-MNT",
    "any",
    "peeras",
    "foo@bar.net",
    "MNT-AS-MNT",
    "-x-",
    "\xfc-MNT",
    "ROOT-MNT",
    "X" * 90,
    "10.0.0.0/8",
]
MEMBERS = [
    "AS1",
    "as00002",
    "AS1.1",
    "AS-X",
    "AS1:AS-Y",
    "RIPE::AS-X",
    "RADB::RS-Z^+",
    "RS-Z",
    "RS-Z^24-26",
    "10.0.0.0/8^+",
    "10.0.0.0/33",
    "10/8",
    "2001:db8::/32",
    "::/0",
    "AS-ANY",
    "RS-ANY",
    "foo",
    "AS1^-",
    "AS-",
    "x::",
    "10.0.0.0/8^9-8",
    "{",
    "}",
]
GRANTED = [
    "A-MNT",
    "1AND1-MNT",
    "B-MNT",
    "ANY",
    "any",
    "{",
    "}",
    "{}",
    "{10.0.0.0/8^+}",
    "A-MNT{10.0.0.0/8}",
    "{2001:db8::/32, 10.0.0.0/9}",
    "2001:db8::/32",
    "10.0.0.0/8",
    "as-mnt",
    "{10/8}",
]
AUTHS = [
    "MD5-PW # Filtered",
    "CRYPT-PW HideMe",
    "SSO a@b.net # Filtered",
    "# filtered",
    "",
    "SHA256-PW a:" + "0" * 64,
    "SHA256-PW x",
    "MD5-PW # Filtmntner: B-MNT",
    "SHA256-PW role:" + "0" * 64,
]
SOURCES: list[list[str]] = [
    ["RIPE # Filtered"],
    ["RIPE", "RIPE # Filtered"],
    ["TEST"],
    ["test # mine"],
    [],
    ["RADB"],
    [""],
    ["ARIN", "TEST"],
]
FOREIGN = [
    "person: Jo Doe",
    "role: NOC",
    "inet6num: 2001:db8::/32",
    "route6: 2001:db8::/32",
    "organisation: ORG-1",
    "*xx: y",
]
# The first of them that are not ASCII is Latin-1, the other one UTF-8.
DESCRIPTIONS = ["a network", "caf\xe9 \x9b \xc3\xa9", "caf\xc3\xa9 \xc2\x9b", "x # y", ""]
# What may stand inside a folded value, after a line, and before a dump.
INSIDE: list[list[str]] = [[], [], ["# inside"]]
AFTER: list[list[str]] = [[], [], [], [], ["%inside"], ["+"], [" # more"]]
HEADS: list[list[str]] = [[], ["% This is a dump"], ["# EXAMPLE", "#", ""]]
ENDS: list[list[str]] = [[], ["# EOF"], ["EOF"]]
FAULTS = ["EOF", "no colon", "1x: y", "x: \x07", ": x", "a b: c"]


def any_address(chance: random.Random) -> str:
    return f"10.0.0.{chance.randrange(24)}"


def any_key(chance: random.Random, kind: str) -> list[str]:
    """The first lines of an object."""
    number = chance.choice(["1", "2", "03", "64496", "4294967295", "4294967296", "1.1", "-"])
    if kind == "mntner":
        return [f"mntner: {chance.choice([*NAMES, 'A B', ''])}"]
    if kind == "as-block":
        ends = sorted(
            chance.choice([0, 1, 5, 9, 12, 60_000, 70_000, 65_535, TOP]) for _ in range(2)
        )
        return [f"as-block: AS{ends[0]} - AS{ends[1]}"]
    if kind == "aut-num":
        return [f"aut-num: AS{number}"]
    if kind == "inetnum":
        one, other = any_address(chance), any_address(chance)
        return [
            "inetnum: "
            + chance.choice(
                [
                    f"{one} - {other}",
                    f"{one}-10.0.0.255",
                    f"{one}/{chance.randrange(20, 34)}",
                    "10.0/16",
                    "10/8",
                    "::/0",
                    "x",
                    "0.0.0.0/0",
                ]
            )
        ]
    if kind == "route":
        prefix = chance.choice(["10.0.0.0/8", "10.1/16", "10.0.0.9/28", "::/0", "10.0.0.0"])
        return [f"route: {prefix}", f"origin: AS{number}"][: chance.choice([1, 2, 2, 2, 2])]
    return [f"{kind}:" f" {chance.choice(SETS_NAMED)}"]


def listed(chance: random.Random, items: list[str]) -> str:
    return chance.choice([", ", ",", " ", " , "]).join(
        chance.choice(items) for _ in range(chance.choice([0, 1, 1, 1, 2, 3, 5]))
    )


def any_paragraph(chance: random.Random) -> list[str]:
    """An object as dumps have it, or something else."""
    if chance.random() < 0.12:
        return [chance.choice(FOREIGN), "descr: somebody", "mnt-by: A-MNT", "source: RIPE"]
    kind = chance.choice(
        [name.decode() for name in CLASSES] + ["inetnum", "route", "mntner", "inetnum"]
    )
    lines = any_key(chance, kind)
    rest = [
        f"descr: {chance.choice(DESCRIPTIONS)}",
        "import: from AS1 accept ANY",
        "changed: a@b.net 20010101",
    ]
    rest += [f"mnt-by: {listed(chance, NAMES)}" for _ in range(chance.choice([0, 1, 1, 1, 1, 2]))]
    rest += [f"mnt-lower: {listed(chance, NAMES)}"] * (chance.random() < 0.2)
    rest += [f"mnt-routes: {listed(chance, GRANTED)}" for _ in range(chance.choice([0, 0, 1, 2]))]
    rest += [f"auth: {chance.choice(AUTHS)}" for _ in range(chance.choice([0, 1, 1, 2]))] * (
        kind == "mntner"
    )
    rest += [f"member-of: {listed(chance, MEMBERS)}"] * (chance.random() < 0.3)
    rest += [f"members: {listed(chance, MEMBERS)}" for _ in range(chance.choice([0, 1, 2]))] * (
        kind in ("as-set", "route-set")
    )
    rest += [f"mbrs-by-ref: {listed(chance, NAMES + ['::/0'])}"] * (chance.random() < 0.2)
    rest += ["password: x"] * (chance.random() < 0.01) + ["delete: x"] * (chance.random() < 0.01)
    rest += [lines[0]] * (chance.random() < 0.01) + [chance.choice(FAULTS)] * (
        chance.random() < 0.02
    )
    chance.shuffle(rest)
    sources = [f"source: {source}" for source in chance.choice(SOURCES)]
    place = chance.randrange(len(rest)) if chance.random() < 0.05 else len(rest)
    return lines + rest[:place] + sources + rest[place:]


def messy(chance: random.Random, line: str) -> list[str]:
    """A line as somebody may have written it: one or more lines."""
    name, colon, value = line.partition(":")
    if not colon:
        return [line]
    name = chance.choice([name, name, name, name.upper(), name.title()])
    line = (
        name
        + chance.choice([":", ":  ", ":\t", " :"])
        + value.strip()
        + chance.choice(["", "", "", " ", "\t ", " # a comment"])
    )
    if "," in value and chance.random() < 0.3:
        front, _, back = line.partition(",")
        return [
            front + ",",
            *chance.choice(INSIDE),
            chance.choice([" ", "+", "\t", "+ "]) + back,
        ]
    return [line, *chance.choice(AFTER)]


def any_dump(chance: random.Random, count: int) -> bytes:
    """A dump of so many paragraphs or a few more, with a header, comments, and line ends of one
    kind or the other."""
    end = chance.choice(["\n", "\n", "\r\n"])
    out = [*chance.choice(HEADS)]
    for _ in range(count):
        out += [more for line in any_paragraph(chance) for more in messy(chance, line)]
        out += chance.choice([[""], [""], ["", ""], [" \t"], ["", "% between", ""], ["", "# and"]])
    out += chance.choice(ENDS)
    return (
        chance.choice(["", "", "\xef\xbb\xbf"]) + end.join(out) + chance.choice([end, ""])
    ).encode("latin-1")


def damaged(chance: random.Random, dump: bytes) -> bytes:
    """A dump with bytes changed, lost, added and doubled."""
    text = bytearray(dump)
    for _ in range(chance.choice([0, 1, 5, 40])):
        place, turn = chance.randrange(len(text) + 1), chance.randrange(4)
        if turn == 0:
            text[place : place + 1] = bytes([chance.randrange(256)])
        elif turn == 1:
            del text[place : place + chance.randrange(30)]
        elif turn == 2:
            text[place:place] = bytes(
                chance.choice(b"\n\r \t:#%+,{}^-\0\xff") for _ in range(chance.randrange(5))
            )
        else:
            start = chance.randrange(len(text) + 1)
            text[place:place] = text[start : start + chance.randrange(200)]
    return bytes(text)

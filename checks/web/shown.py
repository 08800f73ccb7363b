"""What the page for people is shown: a registry, submissions, and replies that are
no good."""

import time
from collections.abc import Callable
from typing import BinaryIO

from checks.running import AUTH

GIVEN = b"HTTP/1.1 200 OK\r\nContent-Type: text/plain\r\nConnection: close\r\n\r\n"
OBJECT = (
    b"mntner:         A-MNT\nauth:           # filtered\nmnt-by:         A-MNT\nsource:        "
    b" TEST\n\n"
)
HOSTILE = (
    (
        "<script>window.hit=1</script><img src=x onerror=window.hit=2><b>bold</b> &amp; <a"
        " href=javascript:alert(1)>x</a>"
    ),
    "bell \x9b31m turn \u202eback\u202c zero\u200bwidth",
    "good\rmnt-by: EVIL-MNT\rsource: X",
    "caf\u00e9",
)
REGISTRY = """password: bc
password: c

mntner: A-MNT
descr: Example Networks
descr: {0}
remarks: {1}
remarks: {2}
notify: {3}
auth: SHA256-PW ab:ba7816bf8f01cfea414140de5dae2223b00361a396177a9cb410ff61f20015ad
mnt-by: A-MNT
source: TEST

mntner: B-MNT
auth: {auth}
mnt-by: B-MNT
source: TEST

aut-num: AS64496
as-name: EXAMPLE
mnt-by: A-MNT
source: TEST

aut-num: AS64497
mnt-by: B-MNT
source: TEST

inetnum: 10.0.0.0/8
mnt-by: ROOT-MNT
mnt-lower: A-MNT
source: TEST

inetnum: 10.1.0.0/16
netname: OFFICE
mnt-by: A-MNT
source: TEST

inetnum: 10.1.4.0 - 10.1.6.255
mnt-by: A-MNT
source: TEST

inetnum: 10.192.0.0/10
mnt-by: B-MNT
source: TEST

route: 10.1.0.0/16
origin: AS64496
mnt-by: A-MNT
mnt-routes: A-MNT, B-MNT {{10.1.8.0/22^22-24}}
source: TEST # REMARK

route: 10.2.0.0/16
origin: AS64497
mnt-by: A-MNT
source: TEST

route: 10.192.0.0/11
origin: AS64497
mnt-by: A-MNT
source: TEST

as-set: AS64496:AS-CUSTOMERS
members: AS64496, AS64497
mnt-by: A-MNT
source: TEST

route-set: AS64496:RS-CUSTOMERS
members: AS64496:AS-CUSTOMERS
members: 10.16.0.0/16^+, 10.17.0.0/16^-, 10.18.0.0/16^24, 10.19.0.0/16^20-24
members: 192.0.2.0/31^-
mnt-by: A-MNT
source: TEST

route-set: AS64496:RS-HALF
members: AS64496, AS64496:RS-GONE
mnt-by: A-MNT
source: TEST

route-set: AS64496:RS-WIDE
members: 0.0.0.0/0^0-32
mnt-by: A-MNT
source: TEST

route-set: AS64496:RS-NOTHING
mnt-by: A-MNT
source: TEST

as-set: AS64496:AS-MANY
members: {many}
mnt-by: A-MNT
source: TEST
""".format(
    *HOSTILE, auth=AUTH, many=", ".join(f"AS64496:AS-X{number}" for number in range(60))
)
LIMIT = 40
# A class, what its fields take, and the passwords.
FORMS: list[tuple[str, dict[str, str], list[str]]] = [
    ("mntner", {"mntner": "C-MNT", "other": "descr: Third Example", "mnt-by": "C-MNT"}, []),
    (
        "as-block",
        {"as-block": "AS64496 - AS64511", "mnt-lower": "A-MNT", "mnt-by": "ROOT-MNT"},
        ["bc"],
    ),
    (
        "aut-num",
        {"aut-num": "AS64500", "member-of": "AS64496:AS-OPEN", "mnt-by": "A-MNT"},
        ["c", "bc"],
    ),
    (
        "inetnum",
        {
            "inetnum": "10.7.0.0 - 10.7.3.255",
            "mnt-lower": "A-MNT",
            "mnt-routes": "B-MNT {10.7.0.0/22^24}",
            "mnt-by": "A-MNT",
        },
        ["c"],
    ),
    ("route", {"route": "10.1.2.0/24", "origin": "AS64496", "mnt-by": "A-MNT"}, ["c"]),
    (
        "as-set",
        {
            "as-set": "AS64496:AS-OPEN",
            "members": "AS64496\nAS64496:AS-CUSTOMERS",
            "mbrs-by-ref": "A-MNT",
            "mnt-by": "A-MNT",
        },
        ["c"],
    ),
    (
        "route-set",
        {"route-set": "AS64496:RS-OUT", "members": "10.1.0.0/16^24, AS64496^+", "mnt-by": "A-MNT"},
        ["c"],
    ),
]
# For each class a field, and a text that it may not have.
BAD = [
    ("mntner", "mntner", "AS-NAME"),
    ("mntner", "auth", "SHA256-PW x"),
    ("as-block", "as-block", "AS20 - ten"),
    ("aut-num", "aut-num", "AS4294967296"),
    ("aut-num", "mnt-routes", "{10.0.0.0/8}"),
    ("inetnum", "inetnum", "10/8"),
    ("inetnum", "mnt-by", "ANY"),
    ("route", "route", "10.0.0.0/33"),
    ("route", "origin", "64496"),
    ("as-set", "as-set", "AS64496"),
    ("as-set", "members", "10.0.0.0/8"),
    ("route-set", "members", "10.0.0.0/8^24^+"),
    ("route-set", "mbrs-by-ref", "RS-X"),
    ("route-set", "other", "password: x"),
    ("route", "source", "1"),
]
MISTAKES = """aut-num AS64496

person: Jo Example

inetnum: 10.1/16
mnt-by: A-MNT
source: TEST

aut-num: AS64496
mnt-by: A-MNT

aut-num: AS64496
mnt-by: ANY
source: TEST

aut-num: AS64496
mnt-by: A-MNT
source: RIPE

aut-num: AS64496
mnt-by: A-MNT, GONE-MNT
source: TEST

inetnum: 0.0.0.0/0
mnt-by: A-MNT
source: TEST

as-set: AS64496:AS-GONE:AS-X
mnt-by: A-MNT
source: TEST

inetnum: 11.2.0.0/16
mnt-by: A-MNT
source: TEST

route: 10.1.5.0/24
origin: AS77
mnt-by: A-MNT
source: TEST

route: 10.1.5.0/24
origin: AS64497
mnt-by: A-MNT
source: TEST

inetnum: 10.1.128.0 - 10.2.127.255
mnt-by: A-MNT
source: TEST

mntner: A-MNT
delete: yes

route: 10.1.99.0/24
origin: AS64496
delete: yes

aut-num: AS64496
as-name: EXAMPLE
mnt-by: A-MNT
source: TEST

as-set: AS64496:AS-NEW
mnt-by: A-MNT
source: TEST

as-set: AS64496:AS-NEW
descr: once more
mnt-by: A-MNT
source: TEST

as-set: AS64496:AS-NEW
delete: yes
"""
WANTED = (
    "refused E01, refused E02, refused E03, refused E04, refused E05, refused E06, refused E10,"
    " refused E11, refused E12, refused E13, refused E14, refused E15, refused E16, refused E17,"
    " refused E18, unchanged, added, changed, deleted"
).split(", ")


def cut(out: BinaryIO) -> None:
    """Promises more than it sends."""
    out.write(
        b"HTTP/1.1 200 OK\r\nContent-Type: text/plain\r\nContent-Length: 9000\r\n\r\n" + OBJECT * 3
    )


def huge(out: BinaryIO) -> None:
    """100 MB of objects that are good ones."""
    out.write(GIVEN)
    for _ in range(1000):
        out.write(OBJECT * 1200)


def slow(out: BinaryIO) -> None:
    time.sleep(4)
    out.write(GIVEN + OBJECT)


def differing() -> Callable[[BinaryIO], None]:
    """Each time another part of a list."""
    times = []

    def reply(out: BinaryIO) -> None:
        times.append(1)
        out.write(GIVEN + b"AS64496\nAS64497\nAS64498\n"[: 8 * (1 + len(times) % 2)])

    return reply


REPLIES: dict[str, bytes | Callable[[BinaryIO], None]] = {
    "cut": cut,
    "huge": huge,
    "slow": slow,
    "differ": differing(),
    "torn": GIVEN + OBJECT + OBJECT[:30],
    "lineless": GIVEN + OBJECT[:-1],
    "empty": GIVEN,
    "halfway": GIVEN + b"10.0.0.0/8\n10.1.0",
    "stopped": (
        b"HTTP/1.1 503 Service Unavailable\r\nContent-Length: 24\r\n\r\n503 Service Unavailable\n"
    ),
    "html": b"HTTP/1.1 200 OK\r\nContent-Type: text/html\r\n\r\n<script>window.hit=3</script>",
    "strange": GIVEN + b"<script>window.hit=4</script>\n",
    "closed": b"",
    "many": b"HTTP/1.1 429 Too Many Requests\r\nContent-Length: 0\r\n\r\n",
    "errs": GIVEN + b"% error 6\n",
    "exact%200.0.0.0%2F0": GIVEN + OBJECT,
    "post-cut": GIVEN + b"1 mntner A-MNT: added\n",
    "post-stopped": GIVEN + b"1 mntner A-MNT: refused E91\n% stopped after 0 items\n",
    "post-read": GIVEN + b"% read fault after 0 items\n",
    "post-503": b"HTTP/1.1 503 Service Unavailable\r\nContent-Length: 0\r\n\r\n",
    "post-strange": GIVEN + b"<b>1</b>\n",
    "post-closed": b"",
    "post-413": b"HTTP/1.1 413 Payload Too Large\r\nContent-Length: 0\r\n\r\n",
    "post-memory": GIVEN + b"% memory after 0 items\n",
    "post-short": GIVEN + b"1 mntner A-MNT: added\n% items 2\n",
}


def large_registry(count: int) -> str:
    """The full dump of a registry with so many objects inside 10.0.0.0/8: a third inetnums, the
    rest routes."""
    parts = [
        f"mntner: {name}\nauth: {AUTH}\nmnt-by: {name}\nsource: TEST\n"
        for name in ["ROOT-MNT", *(f"M{number}-MNT" for number in range(100))]
    ]
    parts += [
        "as-block: AS0 - AS65535\nmnt-by: ROOT-MNT\nsource: TEST\n",
        "inetnum: 0.0.0.0/0\nmnt-by: ROOT-MNT\nsource: TEST\n",
        "inetnum: 10.0.0.0/8\nmnt-by: ROOT-MNT\nsource: TEST\n",
    ]
    third = (count - 1) // 3
    parts += [
        f"inetnum: 10.{k >> 8}.{k & 255}.0/24\nmnt-by: M{k // 16 % 100}-MNT\nsource: TEST\n"
        for k in range(third)
    ]
    parts += [
        f"route: 10.{k >> 9}.{k >> 1 & 255}.{(k & 1) * 128}/25\norigin: AS{k % 1000 + 1}\nmnt-by:"
        f" M{k // 32 % 100}-MNT\nsource: TEST\n"
        for k in range(count - 1 - third)
    ]
    return "\n".join(parts)

"""Dumps in the manner of RIPE, RADB, LACNIC, ARIN and IRRd 4 with their oddities, and one of any
length."""

from collections.abc import Iterator
from typing import NamedTuple

NOT_UTF8 = "a text that is not UTF-8, which is read as Latin-1"


class Dump(NamedTuple):
    """The files of a dump, how many paragraphs of it are taken, how many are left out of which
    cause, what is mended, new names, what is found in the result, and how many items are dropped
    from lists of which cause, and what is told of objects that are taken. The files are Latin-1."""

    files: dict[str, str]
    taken: int
    left_out: dict[str, int]
    mended: dict[str, int]
    renamed: dict[str, str]
    texts: list[str]
    dropped: dict[str, int]
    odd: dict[str, int] = {}


RIPE = Dump(
    {
        "ripe.db.mntner.gz": """#
# The contents of this file are subject to
# RIPE Database Terms and Conditions
#

mntner:         EXAMPLE-MNT
descr:          Beispiel GmbH, M\xfcnchen
admin-c:        DUMY-RIPE
upd-to:         unread@ripe.net
auth:           MD5-PW # Filtered
auth:           SSO # Filtered
mnt-by:         EXAMPLE-MNT
created:        2001-01-01T00:00:00Z
last-modified:  2020-01-01T00:00:00Z
source:         RIPE # Filtered

mntner:         1AND1-MNT
auth:           PGPKEY-12345678
mnt-by:         1AND1-MNT
source:         RIPE # Filtered
""",
        "ripe.db.inetnum.gz": """#

inetnum:        0.0.0.0 - 255.255.255.255
netname:        IANA-BLK
descr:          The whole IPv4 address space
mnt-by:         RIPE-NCC-HM-MNT
source:         RIPE

inetnum:        192.0.2.0 - 192.0.2.255
netname:        EXAMPLE-NET
status:         ASSIGNED PI
mnt-by:         RIPE-NCC-END-MNT
mnt-by:         EXAMPLE-MNT
mnt-routes:     EXAMPLE-MNT {192.0.2.0/24^24-32, 2001:db8::/32^48}
mnt-routes:     TWO-MNT {2001:db8:1::/48^+}
mnt-domains:    EXAMPLE-MNT
source:         RIPE

inetnum:        192.0.2.128 - 192.0.3.127
netname:        OVERLAP
mnt-by:         EXAMPLE-MNT
source:         RIPE
""",
        "ripe.db.inet6num": """inet6num:       2001:db8::/32
mnt-by:         EXAMPLE-MNT
source:         RIPE
""",
        "ripe.db.as-block.gz": """as-block:       AS64496 - AS64511
descr:          RIPE NCC ASN block
mnt-by:         RIPE-NCC-HM-MNT
mnt-lower:      RIPE-NCC-HM-MNT
source:         RIPE
""",
        "ripe.db.aut-num.gz": """aut-num:        AS64496
as-name:        EXAMPLE-AS
import:         from AS64497 accept ANY
                # the default
export:         to AS64497 announce AS64496:AS-CUSTOMERS
mp-import:      afi ipv6.unicast from AS64497 accept ANY
mnt-by:         RIPE-NCC-END-MNT
mnt-by:         EXAMPLE-MNT
source:         RIPE
""",
        "ripe.db.route.gz": """route:          192.0.2.0/24
descr:          EXAMPLE
origin:         AS64496
mnt-by:         1and1-mnt
source:         RIPE # Filtered
""",
        "ripe.db.as-set.gz": """as-set:         AS64496:AS-CUSTOMERS
members:        AS64497, RADB::AS-OTHER, RIPE::AS-OWN # two
                AS64498
mbrs-by-ref:    ANY
mnt-by:         EXAMPLE-MNT
source:         RIPE
""",
        "ripe.db.person": """person:         Placeholder Person Object
nic-hdl:        DUMY-RIPE
mnt-by:         RIPE-DBM-MNT
source:         RIPE
""",
    },
    8,
    {"class inet6num": 1, "class person": 1, "crossing": 1},
    {
        "source": 8,
        "ipv6": 1,
        "scope": 1,
        "rename": 1,
        "encoding": 1,
        "mntner": 3,
        "crossing": 1,
        "initial": 3,
    },
    {"1AND1-MNT": "MNT-1AND1-MNT"},
    [
        "auth:           MD5-PW # Filtered\nauth:           SSO # Filtered\n",
        "descr:          Beispiel GmbH, M\xfcnchen\n",
        "mnt-routes:     EXAMPLE-MNT {192.0.2.0/24^24-32}\nmnt-routes:     TWO-MNT {}\n",
        "members:        AS64497, AS-OWN # two\n                AS64498\n",
        "origin:         AS64496\nmnt-by:         MNT-1AND1-MNT\nsource:         TEST\n",
        (
            "mntner:         RIPE-NCC-HM-MNT\nauth:           FILTERED\nmnt-by:        "
            " ROOT-MNT\nsource:         TEST\n"
        ),
    ],
    {"IPv6": 2, "a registry that is not imported": 1},
    {NOT_UTF8: 1},
)

RADB = Dump(
    {
        "radb.db": """mntner:     MAINT-AS64496\r
descr:      Example Networks\r
admin-c:    Not available\r
auth:       CRYPT-PW HideMe\r
auth:       MAIL-FROM .*@example.net\r
mnt-by:     MAINT-AS64496\r
changed:    noc@example.net 20010101  #00:00:00Z\r
source:     RADB\r
\r
mntner:     AS-EXAMPLE-MNT\r
auth:\r
mnt-by:     AS-EXAMPLE-MNT\r
source:     RADB\r
\r
route:      198.51.100.0/24\r
descr:      Example\r
            Proxy-registered route object \r
+\r
            for a customer\r
origin:     as64496   \r
mnt-by:     maint-as64496\r
changed:    noc@example.net 20010101\r
source:     RADB\r
 \t\r
route:      198.51.100.0/24\r
descr:      the same once more\r
origin:     AS064496\r
mnt-by:     MAINT-AS64496\r
source:     RADB\r
\r
route:      198.51.100.128/25\r
origin:     AS1.10\r
mnt-by:     MAINT-AS64496\r
source:     RADB\r
\r
route6:     2001:db8::/32\r
origin:     AS64496\r
mnt-by:     MAINT-AS64496\r
source:     RADB\r
\r
as-set:     AS-EXAMPLE\r
members:    AS64496, AS64497,,AS-NONE, AS64498.1,\r
members:    2001:db8::/32\r
mnt-by:     AS-EXAMPLE-MNT\r
source:     RADB\r
\r
as-set:     EXAMPLE-SET\r
members:    AS64496\r
mnt-by:     MAINT-AS64496\r
source:     RADB\r
\r
route-set:  RS-EXAMPLE\r
members:    198.51.100.0/24^+, AS64496^24-25, 2001:db8::/32^+\r
mp-members: 2001:db8::/32, 203.0.113.1/24^25\r
mnt-by:     MAINT-AS64496, MAINT-GONE\r
source:     RADB\r
\r
aut-num:    AS64496\r
as-name:    EXAMPLE\r
mnt-by:     MAINT-AS64496\r
mnt-routes: MAINT-AS64496 ANY\r
source:     RADB\r
\r
aut-num:    AS64497\r
mnt-by:     MAINT-AS64496\r
mnt-routes: {198.51.100.0/24} MAINT-AS64496 ANY\r
source:     RADB\r
\r
# EOF\r
"""
    },
    6,
    {
        "a key that can't be read": 2,
        "duplicate": 1,
        "class route6": 1,
        "a list that can't be read": 1,
    },
    {
        "source": 6,
        "ipv6": 2,
        "mp-members": 1,
        "host-bits": 1,
        "item": 1,
        "rename": 1,
        "auth": 1,
        "mntner": 1,
        "duplicate": 1,
        "initial": 4,
    },
    {"AS-EXAMPLE-MNT": "MNT-AS-EXAMPLE-MNT"},
    [
        "auth:           CRYPT-PW HideMe\nauth:           MAIL-FROM .*@example.net\n",
        "members:        AS64496, AS64497, AS-NONE\nmnt-by:         MNT-AS-EXAMPLE-MNT\n",
        (
            "                Proxy-registered route object\n+\n                for a"
            " customer\norigin:         as64496\n"
        ),
        (
            "members:        198.51.100.0/24^+, AS64496^24-25\n"
            "members:        203.0.113.0/24^25\nmnt-by:"
        ),
        "mnt-routes:     MAINT-AS64496 ANY\n",
        (
            "mntner:         MNT-AS-EXAMPLE-MNT\nauth:           FILTERED\nmnt-by:        "
            " MNT-AS-EXAMPLE-MNT\n"
        ),
    ],
    {"IPv6": 3, "an item that can't be read": 1},
)

LACNIC = Dump(
    {
        "lacnic.txt": """% LACNIC Joint Whois Server; queries are shown in Portuguese and Spanish
% Copyright LACNIC lacnic.net

aut-num:     AS64500
owner:       Telecomunica\xe7\xf5es de Exemplo S/A
ownerid:     BR-EXEX-LACNIC
responsible: Jos\xe9 Exemplo
country:     BR
owner-c:     EXE
created:     20010101
changed:     20200101

inetnum:     203.0.113/24
status:      allocated
aut-num:     AS64500
owner:       Telecomunica\xe7\xf5es de Exemplo S/A
ownerid:     BR-EXEX-LACNIC
inetrev:     203.0.113/24
nserver:     NS1.EXEMPLO.BR
nsstat:      20200101 AA
country:     BR

inetnum:     203.0.112/25
status:      reassigned
owner:       Cliente

inetnum:     2001:db8::/32
status:      allocated
owner:       Cliente

nic-hdl:     EXE
person:      Jos\xe9 Exemplo
e-mail:      jose@exemplo.br
country:     BR
"""
    },
    2,
    {"IPv6": 1, "a class again after the first line": 2},
    {"source": 2, "prefix": 1, "mnt-by": 2, "encoding": 1, "initial": 4},
    {},
    [
        "inetnum:        203.0.112.0/25\nstatus:         reassigned\n",
        "changed:        20200101\nmnt-by:         ROOT-MNT\nsource:         TEST\n",
        "owner:          Telecomunica\xe7\xf5es de Exemplo S/A\n",
    ],
    {},
    {"no `source`": 2, NOT_UTF8: 1},
)

ARIN = Dump(
    {
        "arin.db": """mntner:         MNT-EXAMPL-9
descr:          Example Corp
                123 Any Street
                Anytown VA 12345
                United States
admin-c:        EXAMPL1-ARIN
mnt-by:         MNT-EXAMPL-9
changed:        noc@example.com 20200101
source:         ARIN

role:           Network Operations
nic-hdl:        NOC1-ARIN
source:         ARIN

route:          203.0.113.0/24
origin:         AS64501
descr:          Example Corp
admin-c:        NOC1-ARIN
remarks:        a line of tabs\tin\tit
mnt-by:         MNT-EXAMPL-9
created:        2020-01-01T00:00:00Z
last-modified:  2020-01-01T00:00:00Z
source:         ARIN

route:          203.0.113.0/24
origin:         AS64501
mnt-by:         MNT-OTHER-3
source:         ARIN

route:          203.0.113.128/25
mnt-by:         MNT-EXAMPL-9
source:         ARIN

route:          2001:db8::/48
origin:         AS64501
mnt-by:         MNT-EXAMPL-9
source:         ARIN

as-set:         AS-EXAMPLE
members:        AS64501, ARIN::AS-OTHER
members:        RADB::AS-THIRD # theirs
mnt-by:         MNT-EXAMPL-9
source:         ARIN # Filtered

as-set:         AS-TWICE
mnt-by:         MNT-EXAMPL-9
source:         ARIN
source:         ARIN # Filtered
as-set:         AS-JOINED
members:        AS64501
mnt-by:         MNT-EXAMPL-9
source:         ARIN

inet-rtr:       rtr.example.com
mnt-by:         MNT-EXAMPL-9
source:         ARIN

aut-num:        AS64501
as-name:        EXAMPLE
member-of:      ARIN::AS-OTHER, AS-EXAMPLE, 64501
mnt-by:         MNT-EXAMPL-9
source:         ARIN
"""
    },
    5,
    {
        "class role": 1,
        "class inet-rtr": 1,
        "duplicate": 1,
        "a key that can't be read": 1,
        "IPv6": 1,
        "`source` twice": 1,
    },
    {
        "part": 1,
        "source": 5,
        "scope": 2,
        "item": 1,
        "auth": 1,
        "duplicate": 1,
        "initial": 4,
    },
    {},
    [
        (
            "mntner:         MNT-EXAMPL-9\nauth:           FILTERED\ndescr:          Example Corp\n"
            "                123 Any Street\n"
        ),
        (
            "members:        AS64501, AS-OTHER\nmembers:        # theirs\nmnt-by:        "
            " MNT-EXAMPL-9\nsource:         TEST\n\n"
        ),
        "member-of:      AS-OTHER, AS-EXAMPLE\n",
        "remarks:        a line of tabs\tin\tit\n",
    ],
    {"a registry that is not imported": 1, "an item that can't be read": 1},
)

IRRD = Dump(
    {
        "demo.db.gz": """mntner:         DEMO-MNT
descr:          Demo
upd-to:         unread@example.net
auth:           PGPKey-80F238C6
auth:           bcrypt DummyValue # Filtered for security
mnt-by:         DEMO-MNT
source:         DEMO
last-modified:  2020-01-01T00:00:00Z

key-cert:       PGPKEY-80F238C6
method:         PGP
certif:         -----BEGIN PGP PUBLIC KEY BLOCK-----
certif:
certif:         mQENBFnY7YoBCADH
mnt-by:         DEMO-MNT
source:         DEMO

inetnum:        192.0.2.0 - 192.0.2.255
mnt-by:         DEMO-MNT
mnt-routes:     DEMO-MNT, OTHER-MNT {192.0.2.0/24^24-32}
source:         DEMO

route:          192.0.2.0/24
origin:         AS64496
member-of:      RS-DEMO
mnt-by:         DEMO-MNT
source:         DEMO
rpki-ov-state:  not_found # No ROAs found, or RPKI validation not enabled for source

as-set:         AS64496:AS-DEMO
members:        AS64496,
                AS64497
                , AS-MEMBER
mbrs-by-ref:    DEMO-MNT
mnt-by:         DEMO-MNT
source:         DEMO

as-set:         AS-PREFIX
mbrs-by-ref:    DEMO-MNT, 2001:db8::/32
mnt-by:         DEMO-MNT
source:         DEMO

route-set:      RS-DEMO
mbrs-by-ref:    ANY
mnt-by:         DEMO-MNT, ANY
source:         DEMO

filter-set:     FLTR-DEMO
filter:         { 192.0.2.0/24 }
mnt-by:         DEMO-MNT
source:         DEMO

mntner:         BROKEN-MNT
this line has no colon
mnt-by:         BROKEN-MNT
source:         DEMO

as-block:       AS60000 - AS70000
mnt-by:         DEMO-MNT
source:         DEMO

# EOF
"""
    },
    5,
    {
        "class key-cert": 1,
        "class filter-set": 1,
        "text: it has a line without a colon": 1,
        "a list that can't be read": 2,
    },
    {"source": 5, "mntner": 1, "initial": 3},
    {},
    [
        "auth:           bcrypt DummyValue # Filtered for security\n",
        "members:        AS64496,\n                AS64497\n                , AS-MEMBER\n",
        "mbrs-by-ref:    DEMO-MNT\n",
        "as-block:       AS0 - AS4294967295\n",
        "mnt-routes:     DEMO-MNT, OTHER-MNT {192.0.2.0/24^24-32}\n",
    ],
    {},
)

DUMPS = {"RIPE": RIPE, "RADB": RADB, "LACNIC": LACNIC, "ARIN": ARIN, "IRRd 4": IRRD}


def messy_objects(count: int) -> Iterator[bytes]:
    """The text of a dump in pieces, of which so many objects or a few more are taken."""
    numbers = max(count // 10, 1)
    yield b"% a large dump\n\n"
    for number in range(numbers // 10):
        yield (
            b"mntner:     MAINT-%d\ndescr:      a network\nauth:       CRYPT-PW HideMe\nmnt-by:    "
            b" MAINT-%d\nsource:     RADB\n\n"
            % (
                number,
                number,
            )
        )
        yield b"person:     Jo %d\nnic-hdl:    J%d\nsource:     RADB\n\n" % (number, number)
    for number in range(numbers):
        yield (
            b"aut-num:    AS%d\r\nimport:     from AS1 accept ANY\r\nmnt-by:     %s\r\nsource:    "
            b" RIPE # Filtered\r\n\r\n"
            % (
                number,
                holder(number, numbers),
            )
        )
        yield (
            b"inetnum:    %s - %s\nnetname:    X\ncountry:    ZZ\nstatus:     ASSIGNED PA\nmnt-by: "
            b"    %s\nsource:     RIPE\n\n"
            % (
                address(4 * number),
                address(4 * number + 3),
                holder(number, numbers),
            )
        )
        if not number % 20:
            # One that overlaps it, one that is not IPv4, and a set with what irrdesk does not take.
            yield b"inetnum:    %s - %s\nmnt-by:     X-MNT\nsource:     RIPE\n\n" % (
                address(4 * number + 2),
                address(4 * number + 5),
            )
            yield b"route6:     2001:db8::/32\norigin:     AS%d\nsource:     RADB\n\n" % number
            yield (
                b"as-set:     AS%d:AS-X\nmembers:    AS%d, RIPE::AS-X, 2001:db8::/32\nmnt-by:    "
                b" %dX-MNT\nsource:     RADB\n\n"
                % (
                    number,
                    number,
                    number,
                )
            )
    for number in range(count - 2 * numbers):
        yield (
            b"route:      %s/30\ndescr:      a customer\norigin:     AS%d\nmnt-by:     %s\nsource: "
            b"    RADB\n\n"
            % (
                address(4 * number),
                number % numbers,
                holder(number, numbers),
            )
        )


def address(offset: int) -> bytes:
    return b".".join(b"%d" % byte for byte in ((10 << 24) + offset).to_bytes(4, "big"))


def holder(number: int, numbers: int) -> bytes:
    return b"MAINT-%d" % (number % (numbers // 10 or 1))

"""The ways in which what irrdesk does not take is mended, each of which an option turns off."""
from typing import NamedTuple


class Kind(NamedTuple):
    """A way to mend: its name, which its option has too, and what it does."""

    name: str
    words: str


KINDS = {
    kind.name: kind
    for kind in (
        Kind("part", "a paragraph is split where a class line directly follows `source`"),
        Kind("source", "`source` is set to the registry's name, or added where it is missing"),
        Kind("mp-members", "`mp-members` of a route-set becomes `members`, without IPv6"),
        Kind("member-of", "names of as-sets are dropped from `member-of` of routes"),
        Kind("ipv6", "IPv6 items are dropped from lists of IPv4"),
        Kind("scope", "`RIPE::AS-X` becomes `AS-X`, or is dropped if RIPE is not imported"),
        Kind("item", "words that can't be read are dropped from lists"),
        Kind("prefix", "a prefix such as 10.1/16 is written out"),
        Kind("host-bits", "the bits of a prefix after its length become zero"),
        Kind("rename", "maintainers whose names the rules refuse get another name"),
        Kind("mnt-by", "an object without `mnt-by` gets the root maintainer"),
        Kind("auth", "an `auth` that is missing, empty or can't be read authorises nobody"),
        Kind("encoding", "a text that is not UTF-8 is read as Latin-1, and written in UTF-8"),
        Kind("long", "blanks and comment lines of a text above 65,536 bytes are dropped"),
        Kind("mntner", "a maintainer without a mntner gets one, which authorises nobody"),
        Kind("duplicate", "of several objects with one key the first stays"),
        Kind("crossing", "of ranges that overlap, neither inside the other, the first stays"),
        Kind("initial", "root maintainer, and as-blocks and inetnum of everything, are added"),
    )
}

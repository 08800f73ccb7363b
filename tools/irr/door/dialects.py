"""Which dialect a line of whois is in, and what stays the same from line to line of a
connection."""

from typing import Optional

from irr.door import queries
from irr.door.cache import Answer
from irr.door.pool import Answered, Found, Pending, Refused
from irr.door.queries import Asker
from irr.door.responses import Source

NATIVE, IRRD, RIPE, HELP = "native", "irrd", "ripe", "help"
HELP_WORDS = (b"help", b"?", b"-help", b"--help")


class Reply:
    """What a line is answered by: its bytes, the word under which it is counted, and whether the
    connection stays."""

    __slots__ = ("text", "outcome", "stays", "source", "body")

    def __init__(
        self,
        text: bytes,
        outcome: str,
        stays: bool = False,
        source: Optional[Answer] = None,
        body: Optional[Source] = None,
    ) -> None:
        self.text, self.outcome, self.stays, self.source = text, outcome, stays, source
        # What is handed out in place of a text.
        self.body = body


def dialect_of(line: bytes) -> str:
    """The dialect of a line."""
    first = line[:1]
    if first == b"!":
        return IRRD
    stripped = line.strip()
    if stripped.lower() in HELP_WORDS:
        return HELP
    if queries.is_native(line):
        return NATIVE
    return RIPE


def native(asker: Asker, line: bytes, answered: Answered) -> "Reply | Pending":
    """What the registry itself answers to a line, byte for byte, where that is known, else what is
    waited for until it is told."""
    if b"HTTP/" in line.upper():
        # To the registry, which answers both at one port, this may be a request.
        return Reply(b"% error 1\n", "error")
    try:
        found = asker.begin(line, answered)
    except Refused as refused:
        return native_reply(refused)
    return native_reply(found) if isinstance(found, Answer) else found


def native_reply(found: Found) -> Reply:
    """The reply that has what came of a line."""
    if isinstance(found, Answer):
        return Reply(found.text, outcome_of(found.text), False, found)
    assert isinstance(found, Refused)
    return Reply(b"% " + found.sentence.encode() + b"\n", found.word)


def outcome_of(text: bytes) -> str:
    """The word under which an answer of the registry is counted."""
    if text[:1] != b"%":
        return "answered"
    if text == queries.NOTHING:
        return "nothing"
    return "error" if queries.error_of(text) else "answered"


def help_text(source: str) -> bytes:
    return HELP_TEXT.replace("SOURCE", source or "this registry").encode()


HELP_TEXT = """\
% SOURCE, an Internet routing registry for IPv4. It answers three dialects, told apart by the line.
%
% Its own:
%   192.0.2.1  192.0.2.0/24  AS64496  AS-SET  A-MNT         what a word names
%   closest, exact, less, more PREFIX                       inetnums and routes round a prefix
%   object CLASS KEY   inverse mnt NAME   inverse origin AS
%   expand SET   prefixes SET                               what a set reaches
%
% IRRd's, for bgpq4, bgpq3 and peval: a line that begins with an exclamation mark.
%   !gAS  !iSET  !iSET,1  !aSET  !a4SET  !mCLASS,KEY  !oNAME  !rPREFIX  !rPREFIX,o (l, L, M)
%   !jNAME  !J-*  !s-lc  !sNAME  !fno-rpki-filter  !tSECONDS  !v  !!  !q
%
% RIPE's: a line with flags.
%   -r -B -G -K -F -a   -s SOURCE   -T CLASSES   -i ATTRIBUTES   -L -l -M -m -x   -k
%   -q sources|types|version   -t CLASS   -V CLIENT   -g SOURCE:3:FIRST-LAST
%
% IPv6, policy, persons and mail are not kept here.
"""

"""What changed of a registry after a serial, as it is told by NRTM, version 3 (RIPE Database
documentation, "NRTM")."""
import contextlib
import hashlib
import io
import re
import socket
import time
from typing import BinaryIO, Iterator

from irr.errors import Failure, system_words
from irr.rpsl import syntax

# Seconds for a piece of an answer, and for all of it; the longest line, and the most bytes.
WAITING, ANSWERING = 60, 600
LONGEST, MOST = 1 << 20, 1 << 28
START = re.compile(
    rb"%START Version: 3 ([A-Za-z][A-Za-z0-9_-]*) ([0-9]{1,18})-([0-9]{1,18})" rb"(?: FILTERED)?",
    re.I,
)
CHANGE = re.compile(rb"(ADD|DEL) ([0-9]{1,18})")
NONE_NEWER = re.compile(rb"% ?Warning:.*no newer", re.I)
ERROR = re.compile(rb"%ERROR:([0-9]+):.*")
# Between two changes. What tells of an error may be the end of them.
REMARK = re.compile(rb"%+(?: (?!.*(?:error|warning)).*)?", re.I)
# IRRd's words, version 4, where RIPE has number 401, and where there has been no change.
GONE = re.compile(rb"%% ?ERROR: Serials ([0-9]{1,18}) - ([0-9]{1,18}) do not exist", re.I)
NONE_AT_ALL = re.compile(rb"%% ?ERROR: There are no journal entries", re.I)
WITHIN = re.compile(rb"([0-9]{1,18})-([0-9]{1,18})")
# So many of the last changes are asked for once more; fewer where so many are no longer told.
AGAIN = (100, 10, 1)
# The hash of each change, by its serial, in order.
Told = dict[str, str]


class Unread(Failure):
    """An answer that can't be taken, however often it is asked for."""


class Endless(Unread):
    """The same, where nobody knows what else it has."""


class Behind(Exception):
    """The changes after a serial are not told any more: a dump has to be taken. The last serial
    that is told, and the first one, if that is said; why it is so, where it is for another
    reason."""

    def __init__(self, last: int | None = None, why: str = "", first: int = 0) -> None:
        super().__init__(last)
        self.last, self.why, self.first = last, why, first

    def is_anew(self, serial: int) -> bool:
        """Whether serials began anew since one."""
        return self.last is not None and self.last < serial


class Empty(Behind):
    """No changes are told at all: there were none, or serials began anew."""

    def __init__(self) -> None:
        super().__init__(0)


def follow(
    place: tuple[str, int],
    name: str,
    serial: int,
    out: BinaryIO,
    told: Told,
    until: int | None = None,
) -> int:
    """Writes the changes of a registry after a serial, up to the last one or a given one, each a
    line `ADD` or `DEL` and its object between empty lines; notes them, and gives the last serial;
    that serial where there are none. Behind where they are not told any more; a Failure where the
    answer is not whole."""
    thing = f"nrtm://{place[0]}:{place[1]}"
    begun, end = time.monotonic(), "LAST" if until is None else until
    try:
        with contextlib.closing(socket.create_connection(place, WAITING)) as peer:
            peer.sendall(f"-g {name}:3:{serial + 1}-{end}\r\n".encode())
            with peer.makefile("rb") as answer:
                return taken(lines(answer, thing, begun), thing, name, serial, out, told)
    except OSError as error:
        raise Failure(thing, f"it does not answer: {system_words(error)}") from None


def told_before(place: tuple[str, int], name: str, serial: int) -> Told:
    """The last changes up to a serial that can be read; none where they are not told."""
    begins = [max(serial - count, 0) + 1 for count in AGAIN if serial]
    while begins:
        try:
            return told_from(place, name, begins, serial)[1]
        except Unread:
            # Fewer of them may be read.
            del begins[0]
    return {}


def told_from(
    place: tuple[str, int], name: str, begins: list[int], serial: int
) -> tuple[int | None, Told]:
    """The changes up to a serial, and from which one on they are told: from the first one of some
    that is told, or where the answer says so, from the first one of all. None where none is."""
    first = 0
    for begin in begins:
        begin, first = first or begin, 0
        told: Told = {}
        try:
            if follow(place, name, begin - 1, io.BytesIO(), told, serial) == serial:
                return begin, told
        except Behind as behind:
            if begin < behind.first <= serial:
                first = behind.first
    return None, {}


def is_same(place: tuple[str, int], name: str, serial: int, known: Told) -> bool | None:
    """Whether the last changes up to a serial are told as they were before; None where they are
    not told any more. After a restored backup others come by the same serials."""
    serials = list(map(int, known))
    begins = [serials[-count:][0] for count in AGAIN if serials]
    try:
        begin, told = told_from(place, name, begins, serial)
    except Endless:
        raise
    except Unread:
        # Each of those that are known could be read.
        return False
    if begin is None:
        return None
    return told == {one: known[one] for one in known if int(one) >= begin}


def last_of(told: Told) -> Told:
    """As many of the last changes as are asked for once more."""
    return dict(list(told.items())[-AGAIN[0] :])


def lines(answer: BinaryIO, thing: str, begun: float) -> Iterator[bytes]:
    """The lines of an answer without their ends."""
    size = 0
    while line := answer.readline(LONGEST):
        size += len(line)
        if not line.endswith(b"\n"):
            kind = Unread if len(line) == LONGEST else Failure
            raise kind(thing, "its answer is cut off, or has a line without an end")
        if size > MOST or time.monotonic() > begun + ANSWERING:
            raise Endless(thing, "its answer does not end; look at `nrtm`")
        yield line.rstrip(b"\r\n")


def taken(
    answer: Iterator[bytes], thing: str, name: str, serial: int, out: BinaryIO, told: Told
) -> int:
    """Writes the changes of an answer that is whole, in order and of this registry, and notes
    them."""
    last = start(answer, thing, name, serial)
    if last == serial:
        return last
    before = serial
    for line in answer:
        if not line or REMARK.fullmatch(line):
            continue
        if line.upper() == f"%END {name}".encode():
            return last
        change = CHANGE.fullmatch(line)
        if not change or not before < int(change[2]) <= last:
            raise Unread(thing, f"after serial {before} it tells no change")
        before = int(change[2])
        text = syntax.one_block(object_lines(answer, thing, before))
        if not put(out, change[1], text):
            raise Unread(thing, f"serial {before} has no whole object")
        told[str(before)] = hashlib.sha256(change[1] + b"\n" + text).hexdigest()[:16]
    raise Failure(thing, "its answer is cut off; it is asked again")


def object_lines(answer: Iterator[bytes], thing: str, serial: int) -> Iterator[bytes]:
    """The lines of an object, before which there may be empty ones, up to an empty one after it."""
    is_begun = False
    for line in answer:
        if CHANGE.fullmatch(line):
            raise Unread(thing, f"serial {serial} has no whole object")
        if is_begun and not line:
            return
        is_begun = is_begun or bool(line.strip(syntax.BLANKS))
        yield line


def put(out: BinaryIO, word: bytes, text: bytes) -> bool:
    """Writes a change of an object, if the text is one block."""
    if not next(syntax.blocks([text]), None):
        return False
    out.write(b"%s\n\n%s\n" % (word, text))
    return True


def start(answer: Iterator[bytes], thing: str, name: str, serial: int) -> int:
    """The last serial that an answer has, by its first line that is no remark."""
    for line in answer:
        if NONE_NEWER.match(line):
            return serial
        if NONE_AT_ALL.match(line):
            raise Empty
        if gone := GONE.match(line):
            # From the last one on, or up to the first one.
            low, high = int(gone[1]), int(gone[2])
            raise Behind(low) if low <= serial else Behind(first=high)
        if error := ERROR.match(line):
            within = WITHIN.search(line)
            if error[1] == b"401" and within and int(within[2]) == serial:
                return serial
            if error[1] == b"401":
                if within:
                    raise Behind(int(within[2]), first=int(within[1]))
                raise Behind
            raise Failure(thing, f"it answers `{line.decode('latin-1')}`")
        if found := START.fullmatch(line):
            first, last = int(found[2]), int(found[3])
            if found[1].decode().upper() != name or first != serial + 1 or last < first:
                raise Failure(thing, f"it tells other changes than those from {serial + 1} on")
            return last
        if line and not line.startswith(b"%"):
            break
    raise Failure(thing, "its answer is none of NRTM, version 3; look at `nrtm`")

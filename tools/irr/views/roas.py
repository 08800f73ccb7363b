"""Validated ROAs, as rpki-client and Routinator write them in JSON or CSV, and what they say of a
route (RFC 6811)."""
import calendar
import hashlib
import json
import math
import time
from typing import Any, Iterator, NamedTuple

from irr.errors import Failure, Unreadable
from irr.rpsl import keys
from irr.rpsl.keys import Prefix
from irr.terminal import texts

# Hours after which a file of ROAs says too little of today.
OLD = 24
# Seconds by which the clock of another machine may be ahead.
AHEAD = 300
MADE = "make it by `rpki-client -j` or `routinator vrps --format json`"
CSV_HEAD = b"ASN,IP Prefix,Max Length"


class Roa(NamedTuple):
    """A validated ROA payload: the AS that may originate what lies in a prefix, up to a length."""

    prefix: Prefix
    most: int
    number: int

    def text(self) -> str:
        return f"{self.prefix.text()} AS{self.number}" + (
            f" up to /{self.most}" if self.most != self.prefix.length else ""
        )


Table = dict[Prefix, list[Roa]]


def judged(prefix: Prefix, number: int, table: Table) -> tuple[str, str]:
    """What the ROAs say of a route (RFC 6811, 2), and why it is invalid. AS0 is nobody's (RFC 6483,
    4)."""
    covering = []
    for length in range(prefix.length + 1):
        covering += table.get(Prefix(prefix.first >> 32 - length << 32 - length, length), [])
    if not covering:
        return "not found", ""
    if any(roa.number == number != 0 and prefix.length <= roa.most for roa in covering):
        return "valid", ""
    own = [roa for roa in covering if roa.number == number != 0]
    why = "it is longer than the ROA allows" if own else "another AS has the ROA"
    why = why if number else "AS0 may originate nothing"
    return "invalid", f": {why}: {', '.join(sorted(roa.text() for roa in own or covering))}"


class Read(NamedTuple):
    """The ROAs of a file, and what is odd about it, in lines for people."""

    roas: set[Roa]
    doubts: list[str]

    def state(self) -> str:
        """A short name of the ROAs."""
        return hashlib.sha256(repr(sorted(self.roas)).encode()).hexdigest()[:16]

    def table(self) -> Table:
        """The ROAs by their prefix."""
        table: Table = {}
        for roa in self.roas:
            table.setdefault(roa.prefix, []).append(roa)
        return table


def read(text: bytes, place: str) -> Read:
    """The ROAs of IPv4 in a file, JSON or CSV of rpki-client or Routinator, but for those that have
    expired."""
    if text.startswith(CSV_HEAD):
        return kept(list(csv_entries(text, place)), None, place)
    try:
        found = json.loads(text, object_pairs_hook=once)
    except Unreadable as fault:
        raise Failure(place, f"{fault}; {MADE}") from None
    except (ValueError, RecursionError) as error:
        raise Failure(
            place, f"this is not JSON ({texts.shown_line(str(error))[:80]}); {MADE}"
        ) from None
    listed = found.get("roas") if isinstance(found, dict) else None
    if not isinstance(listed, list):
        raise Failure(place, f"it has no list `roas`; {MADE}")
    return kept(listed, doubts(made_at(found.get("metadata"))), place)


def csv_entries(text: bytes, place: str) -> Iterator[dict[str, object]]:
    """The lines of CSV as the entries of JSON are. Each ends, and has the columns of the first one:
    otherwise it was cut off, and a prefix or a number may be another one. Nothing is quoted: a
    stray quotation mark would take the lines up to the next one for a value."""
    if not text.endswith(b"\n"):
        raise Failure(place, f"it ends within a line, so it was cut off; {MADE}")
    head, *lines = text.decode("latin-1").splitlines()
    columns = head.split(",")
    for row in (line.split(",") for line in lines if line.strip()):
        if len(row) != len(columns):
            raise Failure(
                place, f"a line has {len(row)} columns in place of {len(columns)}; {MADE}"
            )
        entry: dict[str, object] = {"asn": row[0], "prefix": row[1], "maxLength": whole(row[2])}
        if "Expires" in columns:
            entry["expires"] = whole(row[columns.index("Expires")])
        yield entry


def whole(text: str) -> int | str:
    """A number as JSON has it; the text where it is none, which is told as that."""
    return int(text) if keys.read_number(text, 0, 1 << 62) is not None else text


def kept(listed: list[Any], doubt: str | None, place: str) -> Read:
    """What is taken of the entries of a file."""
    found, expired, now, odd = set(), 0, time.time(), []
    for number, entry in enumerate(listed, 1):
        try:
            if roa := read_roa(entry):
                if expires(entry) > now:
                    found.add(roa)
                else:
                    expired += 1
        except Unreadable as fault:
            raise Failure(place, f"element {number:,} of `roas`: {fault}; {MADE}") from None
    if not found:
        what = "no ROA for IPv4" + (" that has not expired" if expired else "")
        raise Failure(place, f"it has {what}: each route would be without one; make it anew")
    if expired:
        verb = "has expired, and counts" if expired == 1 else "have expired, and count"
        count = texts.counted(expired, "ROA")
        odd.append(f"{place}: {count} of IPv4 {verb} as none; make it anew")
    if doubt:
        odd.append(f"{place}: {doubt}; make it anew")
    return Read(found, odd)


def doubts(made: int | None) -> str:
    """What is wrong with the time at which a file was made, if anything is."""
    if made is None:
        return "it does not say when it was made"
    age = int(time.time()) - made
    return (
        f"it is older than {OLD} hours"
        if age > OLD * 3_600
        else "it was made in the future"
        if age < -AHEAD
        else ""
    )


def once(pairs: list[tuple[str, object]]) -> dict[str, object]:
    """An object of JSON, each of whose keys stands in it once: Python takes the last one, and other
    programs another."""
    found = dict(pairs)
    if len(found) < len(pairs):
        names = [name for name, _ in pairs]
        twice = next(name for name in names if names.count(name) > 1)
        raise Unreadable(f"an object has {texts.shown_line(json.dumps(twice)[:60])} more than once")
    return found


def read_roa(entry: object) -> Roa | None:
    """An entry of the list; None for one of IPv6."""
    if not isinstance(entry, dict):
        raise Unreadable("it is not an object")
    text, most, number = entry.get("prefix"), entry.get("maxLength"), entry.get("asn")
    if isinstance(number, str):
        number = keys.read_as(number)
    # To Python, `true` is a whole number too; NaN and Infinity are not, but are read.
    if type(number) is not int or not 0 <= number <= keys.TOP:
        raise Unreadable(f"its `asn` is {shown(entry, 'asn')}, which is not an AS number")
    prefix = keys.read_prefix(text) if isinstance(text, str) else None
    length = prefix.length if prefix else length_of_ipv6(text)
    if length is None:
        raise Unreadable(f"its `prefix` is {shown(entry, 'prefix')}, which is not a prefix")
    if type(most) is not int or not length <= most <= (32 if prefix else 128):
        raise Unreadable(
            f"its `maxLength` is {shown(entry, 'maxLength')}, "
            f"which is not a length from {length} on"
        )
    return Roa(prefix, most, number) if prefix else None


def expires(entry: dict[str, Any]) -> float:
    """When an entry expires, in seconds of the epoch, as rpki-client says it; never, where it does
    not say."""
    if "expires" not in entry:
        return math.inf
    seconds = entry["expires"]
    if type(seconds) is not int or seconds < 0:
        raise Unreadable(
            f"its `expires` is {shown(entry, 'expires')}, which is not a time in seconds"
        )
    return seconds


def length_of_ipv6(text: object) -> int | None:
    """The length of a prefix of IPv6, of which no more is asked."""
    import ipaddress

    try:
        return (
            ipaddress.IPv6Network(text, strict=False).prefixlen
            if isinstance(text, str) and "/" in text
            else None
        )
    except ValueError:
        return None


def shown(entry: dict[str, Any], name: str) -> str:
    """A value of an entry, on a line."""
    return texts.shown_line(json.dumps(entry[name])[:60]) if name in entry else "not there"


def made_at(metadata: object) -> int | None:
    """When a file was made, by what it says of itself."""
    if not isinstance(metadata, dict):
        return None
    generated = metadata.get("generated")
    if type(generated) is int:
        return generated
    try:
        return calendar.timegm(time.strptime(metadata["buildtime"], "%Y-%m-%dT%H:%M:%SZ"))
    except (KeyError, TypeError, ValueError):
        return None

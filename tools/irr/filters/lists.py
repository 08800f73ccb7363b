"""The lists of filters in the syntax of each router: what they take, and what a new one lacks of an
older one."""
import bisect
import heapq
import ipaddress
import re
import socket
from collections import Counter
from typing import Iterable, Iterator, NamedTuple

from irr.filters import frr_words

# What a router does not read in a file, or what is quoted, in which no comment begins; and lines
# that only take away.
COMMENTS = {
    "bird": re.compile(r"(\"[^\"\n]*\")|/\*.*?\*/|#[^\n]*", re.S),
    "frr": re.compile(r"()^[ \t]*[!#][^\n]*", re.M),
    # A quotation mark within a word is a part of it.
    "openbgpd": re.compile(
        r"(?<![^\s(){}<>!=/,])(\"[^\"\\]*(?:\\.[^\"\\]*)*\"|'[^'\\]*(?:\\.[^'\\]*)*')|#[^\n]*",
        re.S,
    ),
}
REMOVALS = re.compile(r"^[ \t]*no[ \t][^\n]*", re.M)
# What stands for a word of a list, and where it is used: a number of BIRD, a macro of OpenBGPD.
CONSTANTS = {
    "bird": re.compile(
        r"\bdefine\s+(?P<name>\w+)\s*=\s*(?P<value>[0-9]+)\s*;"
        r"|(?<![\w:])(?P<used>[A-Za-z_]\w*)(?![\w:])"
    ),
    "openbgpd": re.compile(
        r"^[ \t]*(?P<name>\w+)[ \t]*=[ \t]*(?P<mark>[\"'])(?P<value>[^\"']*)(?P=mark)"
        r"|\$(?P<used>\w+)",
        re.M,
    ),
}
# A slash before a length, which OpenBGPD reads also between blanks, and after an address in quotes.
SLASH = re.compile(r"(?:([\"'])([0-9A-Fa-f:.]+)\1)?[ \t]*/[ \t]*(?=[0-9])")
PREFIX = r"(?<![\w.:])([0-9A-Fa-f:.]+)/([0-9]{1,3})(?![0-9.])"
LENGTHS = {
    "bird": re.compile(
        PREFIX + r"(?:\s*(?:\{\s*(?P<low>[0-9]+)\s*,\s*(?P<high>[0-9]+)\s*\}"
        r"|(?P<up>\+)|(?P<down>-)))?"
    ),
    "frr": re.compile(
        r"permit[ \t]+(?:any\b|" + PREFIX + r")"
        r"(?:[ \t]+ge[ \t]+(?P<ge>[0-9]+)|[ \t]+le[ \t]+(?P<le>[0-9]+)){0,2}"
    ),
    "openbgpd": re.compile(
        PREFIX + r"(?:\s+(?:(?P<up>or-longer)|maxlen\s+(?P<le>[0-9]+)"
        r"|prefixlen\s*(?:=\s*(?P<only>[0-9]+)|(?P<low>[0-9]+)\s+-\s+(?P<high>[0-9]+)"
        r"|!=\s*(?P<never>[0-9]+)|(?P<below>[0-9]+)\s+><\s*(?P<above>[0-9]+)"
        r"|(?P<sign>[<>]=?)\s*(?P<bound>[0-9]+))))?"
        r"(?:\s+(?P<path>(?:AS|(?:source|transit|peer)-as)\s+(?:as-set\s+\S+|\{[^}]*\}|[0-9.]+)))?"
    ),
}
SLASHED = re.compile(PREFIX)
# What a router's configuration refers to by a kind and a name. In BIRD also a function or a filter,
# whose lists are told by their variables, or by their places.
BIRD_LIST = re.compile(
    r"\b(?P<kind>define|function|filter)\s+(?P<name>\w+|'[^'\n]+')"
    r"|(?:(?P<variable>\w+|'[^'\n]+')\s*=\s*)?"
    r"\[(?P<list>[^\[\]]*(?:\[[^\[\]]*\][^\[\]]*)*)\]|(?P<end>;)"
)
FRR_KIND = (
    r"(?:ip(?:v6)?[ \t]+)?prefix-list|(?:(?:ip|bgp)[ \t]+)?as-path[ \t]+access-list"
    r"|(?:ipv6[ \t]+)?access-list"
)
# A line, with those after it that begin with blanks and are no others.
FRR_LINE = re.compile(
    rf"^[ \t]*(?P<no>no[ \t]+)?(?P<kind>{FRR_KIND})[ \t]+(?P<name>\S+)"
    rf"(?P<words>[^\n]*(?:\n[ \t]+(?!(?:no[ \t]+)?(?:{FRR_KIND})[ \t])[^\n]*)*)",
    re.M,
)
FRR_ENTRY = re.compile(r"^[ \t]*(?:seq[ \t]+([0-9]+)\s+)?(permit|deny)\b(.*)", re.M)
# What a removal has that is of one line, or of none.
FRR_NUMBER = re.compile(r"[ \t]*seq[ \t]+([0-9]+)")
FRR_REMARK = re.compile(r"[ \t]*(?:description|remark)\b")
# A pattern of the empty path alone, and one of any path. What else has no AS number may be of any.
EMPTY_PATH, ANY_PATH = "^$", ".*"
# A macro of OpenBGPD has no kind, nor has a rule.
OPENBGPD_LIST = re.compile(
    r"\b(?P<kind>prefix-set|as-set|origin-set|roa-set)(?:[ \t]+[\"']?(?P<name>[^\s\"'{=]+)[\"']?)?"
    r"\s*\{(?P<list>[^}]*)\}|^[ \t]*(?P<macro>\w+)[ \t]*=[ \t]*"
    r"(?:\"(?P<value>[^\"]*)\"|'(?P<other>[^']*)')"
    r"|^[ \t]*(?P<rule>(?:allow|deny|match)\b[^\n{]*(?:\{[^}]*\}[^\n{]*)*)",
    re.M,
)
# The peers of a rule, and what it takes of them. The other words tell it from other rules.
OPENBGPD_PEERS = re.compile(r".*?\b(?:from|to) (?:\{[^}]*\}|(?:AS |group )?\S+)")
OPENBGPD_TAKEN = {
    "rule": re.compile(r"\bprefix(?![\w-]) ?(?:\{([^}]*)\}|(.*?)(?= set |$))"),
    "rule of numbers": re.compile(r"(?<=AS|as) ?(?:\{([^}]*)\}|((?<= )[0-9.]+(?: - [0-9.]+)?))"),
}
# Those that have no AS numbers.
PREFIX_LISTS = (
    *("prefix-list", "ip prefix-list", "ipv6 prefix-list", "access-list", "ipv6 access-list"),
    *("prefix-set", "origin-set", "roa-set", "rule"),
)
# What is no AS number in a list of these: what stands for any one in a pattern.
NO_NUMBER = re.compile(r"\[0-9\]|\bseq[ \t]+[0-9]+")
# One, or several from a first to a last one; OpenBGPD may write one as two halves.
AS = r"((?:[0-9]+\.)?[0-9]+)"
NUMBER = re.compile(rf"(?<![0-9.]){AS}(?:(?:\s*\.\.\s*|\s+-\s+){AS})?(?![0-9.])")
FAMILIES = {32: socket.AF_INET, 128: socket.AF_INET6}
# All bits of an address of IPv4.
ANY = (1 << 32) - 1
# Where a span is: the bits of a family, a length, and what a path has to be; or AS numbers.
Where = tuple[int, int, str]
NUMBERS: Where = (0, 0, "")
Span = tuple[Where, int, int]


class Entry(NamedTuple):
    """An entry of a list: the bits of its family, a prefix, the lengths of the prefixes inside it,
    or around it, that are taken, and the words that tell of which paths."""

    bits: int
    first: int
    length: int
    low: int
    high: int
    path: str = ""

    def spans(self) -> Iterator[Span]:
        """The addresses whose prefixes are taken, of each length."""
        for length in range(self.low, self.high + 1):
            size = 1 << self.bits - min(length, self.length)
            first = self.first & -size
            yield (self.bits, length, self.path), first, first + size


class List(NamedTuple):
    """The kind and the name of a list; what stands outside of all lists has no kind."""

    kind: str
    name: str


class Words(NamedTuple):
    """What stands in a list, or in one line of it: whether the list takes it, or refuses it."""

    takes: bool
    text: str


class Loss(NamedTuple):
    """How many entries, or AS numbers, of an older list a new one of its name does not take whole,
    and how many there are."""

    name: str
    lost: int
    size: int


def uncommented(router: str, text: str) -> str:
    """A filter without its comments, and in BIRD without what is quoted, which is in no list."""
    if router == "openbgpd":
        text = SLASH.sub(r"\2/", text.replace("\\\n", ""))
    kept = r'""' if router == "bird" else r"\1"
    return COMMENTS[router].sub(lambda one: one.expand(kept) if one[1] else "", text)


def spelled_out(router: str, text: str) -> str:
    """A filter of BIRD or OpenBGPD with what each constant stands for in its place."""
    values: dict[str, str] = {}

    def spelled(one: re.Match[str]) -> str:
        if one["name"]:
            values[one["name"]] = one["value"]
        return values.get(one["used"], one[0])

    return CONSTANTS[router].sub(spelled, text)


def meaning(router: str, text: str) -> str:
    """A filter without its comments, and without lines that only remove; blank where nothing is
    left."""
    text = uncommented(router, text)
    if router == "frr":
        text = REMOVALS.sub("", frr_words.spelled_out(text))
    return text.strip()


def entries(router: str, text: str, bits: int = 32) -> Iterator[Entry]:
    """What the lists of a filter take, entry by entry; `any` is of a family. An address that cannot
    be read is no entry."""
    for found in LENGTHS[router].finditer(meaning(router, text)):
        words = found.groupdict()
        if found[1] is None:
            own, first, length = bits, 0, 0
            words["le"] = str(bits)
        else:
            own, length = 128 if ":" in found[1] else 32, int(found[2])
            try:
                first = address(router, found[1], own)
            except OSError:
                continue
        path = " ".join((words.get("path") or "").split())
        for low, high in lengths(words, length, own):
            if length <= own and low <= high:
                yield Entry(
                    own, first >> own - length << own - length, length, low, min(high, own), path
                )


def address(router: str, text: str, bits: int) -> int:
    """An address as a number. In BIRD the bytes of IPv4 may begin with noughts; to OpenBGPD such a
    byte is octal, and 10 is 0.0.0.10."""
    if bits == 32 and router == "openbgpd":
        return int.from_bytes(socket.inet_aton(text), "big")
    if bits == 32:
        text = ".".join(part.lstrip("0") or part[:1] for part in text.split("."))
    return int.from_bytes(socket.inet_pton(FAMILIES[bits], text), "big")


def lengths(words: dict[str, str | None], length: int, bits: int) -> list[tuple[int, int]]:
    """The least and the greatest lengths that the words after a prefix mean."""
    given = {name: int(value) for name, value in words.items() if value and value.isdigit()}
    if "only" in given:
        return [(max(given["only"], length), given["only"])]
    if "never" in given or "below" in given:
        below = given.get("below", given.get("never", 0))
        return [(length, below - 1), (given.get("above", below) + 1, bits)]
    if "bound" in given:
        bound, sign = given["bound"], words["sign"] or ""
        if sign.startswith(">"):
            return [(max(bound + (sign == ">"), length), bits)]
        return [(length, bound - (sign == "<"))]
    if words.get("down"):
        return [(0, length)]
    if "low" in given:
        return [(given["low"], given["high"])]
    low = max(given.get("ge", length), length)
    return [(low, given.get("le", bits if words.get("up") or "ge" in given else length))]


def access(text: str) -> Entry | None:
    """What a line of an access list of FRR takes, or refuses: networks by their addresses, and by
    their masks, each with the bits that may differ. If these are not the last ones of an address,
    it is a part of what they span, and told by its words. None if it is no such line."""
    words = text.split()
    if words[:1] == ["ip"]:
        del words[0]
    try:
        first, loose = pattern(words)
        mask, free = pattern(words) if words else (0, ANY)
    except ValueError:
        return None
    masks = [n for n in range(33) if not ((ANY << 32 - n ^ mask) & ANY & ~free)]
    if words or not masks:
        return None
    first &= ~loose
    size = loose.bit_length()
    if loose & loose + 1:
        low = max(32 - size, masks[0])
        return Entry(32, first >> size << size, 32 - size, low, masks[-1], " ".join(text.split()))
    # A network of this address is not longer than its noughts allow.
    least = 33 - (first & -first).bit_length() if first else 0
    return Entry(32, first, 32 - size, max(least, masks[0]), masks[-1])


def pattern(words: list[str]) -> tuple[int, int]:
    """The address that the next words mean, and the bits of it that may differ."""
    word = words.pop(0) if words else ""
    if word == "any":
        return 0, ANY
    is_host = word == "host"
    first = int(ipaddress.IPv4Address(words.pop(0) if is_host and words else word))
    return first, 0 if is_host or not words else int(ipaddress.IPv4Address(words.pop(0)))


class Spans:
    """For each length the addresses whose prefixes of this length are in a list, or AS numbers, as
    spans that do not touch."""

    def __init__(self, found: Iterable[Span] = ()) -> None:
        spans: dict[Where, list[tuple[int, int]]] = {}
        for where, first, end in found:
            spans.setdefault(where, []).append((first, end))
        self.firsts: dict[Where, list[int]] = {}
        self.ends: dict[Where, list[int]] = {}
        for where in list(spans):
            firsts: list[int] = []
            ends: list[int] = []
            for first, end in sorted(spans.pop(where)):
                if ends and first <= ends[-1]:
                    ends[-1] = max(ends[-1], end)
                else:
                    firsts.append(first)
                    ends.append(end)
            self.firsts[where], self.ends[where] = firsts, ends

    def has(self, where: Where, first: int, end: int) -> bool:
        """Whether all of a span is there, for its path or for any."""
        before = bisect.bisect_right(self.firsts.get(where, []), first) - 1
        if before >= 0 and self.ends[where][before] >= end:
            return True
        return bool(where[2]) and self.has(any_path(where), first, end)

    def add(self, one: Entry) -> None:
        """Puts an entry to those that are there."""
        for where, first, end in one.spans():
            firsts, ends = self.firsts.setdefault(where, []), self.ends.setdefault(where, [])
            start = bisect.bisect_left(ends, first)
            stop = bisect.bisect_right(firsts, end)
            first = min([first, *firsts[start:stop][:1]])
            end = max([end, *ends[start:stop][-1:]])
            firsts[start:stop], ends[start:stop] = [first], [end]

    def gaps(self, one: Entry) -> Iterator[Span]:
        """What of an entry is not there, for any path."""
        for where, first, end in one.spans():
            place = any_path(where)
            firsts, ends = self.firsts.get(place, []), self.ends.get(place, [])
            after = bisect.bisect_right(ends, first)
            while first < end and after < len(firsts) and firsts[after] < end:
                if first < firsts[after]:
                    yield where, first, firsts[after]
                first, after = ends[after], after + 1
            if first < end:
                yield where, first, end


def any_path(where: Where) -> Where:
    return where[0], where[1], ""


def parted(router: str, text: str) -> dict[List, list[Words]]:
    """What stands in each list of a filter, in the order in which its router looks at it."""
    text = uncommented(router, text)
    if router == "frr":
        return parted_frr(frr_words.spelled_out(text))
    text = spelled_out(router, text)
    found = parted_bird(text) if router == "bird" else parted_openbgpd(text)
    lists: dict[List, list[Words]] = {}
    for place, words in found:
        if words.strip():
            lists.setdefault(place, []).append(Words(True, words))
    return lists


def parted_bird(text: str) -> Iterator[tuple[List, str]]:
    """The same of BIRD: a definition, or each list in a function or a filter."""
    kind, name, end = "", "", 0
    variables: set[tuple[str, str]] = set()
    counts: Counter[str] = Counter()
    for one in BIRD_LIST.finditer(text):
        is_defined = kind == "define"
        yield List("define" if is_defined else "", name), text[end : one.start()]
        end = one.end()
        if one["kind"]:
            kind, name = one["kind"], one["name"]
        elif one["end"]:
            kind, name = ("", "") if is_defined else (kind, name)
        elif is_defined:
            yield List(kind, name), one["list"]
        else:
            label = one["variable"]
            if not label or (label, name) in variables:
                counts[name] += 1
                label = str(counts[name])
            else:
                variables.add((label, name))
            yield List("list", f"{label} of {name}" if name else label), one["list"]
    yield List("", name), text[end:]


def parted_openbgpd(text: str) -> Iterator[tuple[List, str]]:
    """The same of OpenBGPD: a set, a macro, or a rule."""
    end = 0
    for one in OPENBGPD_LIST.finditer(text):
        yield List("", ""), text[end : one.start()]
        end = one.end()
        if one["kind"]:
            yield List(one["kind"], one["name"] or one["kind"]), one["list"]
        elif one["macro"]:
            yield List("macro", one["macro"]), one["value"] or one["other"] or ""
        else:
            yield parted_rule(" ".join(one["rule"].split()))
    yield List("", ""), text[end:]


def parted_rule(rule: str) -> tuple[List, str]:
    """The prefixes that a rule of OpenBGPD has, or its AS numbers; no list if it has neither."""
    peers = OPENBGPD_PEERS.match(rule)
    start = peers.end() if peers else 0
    for kind, taken_by in OPENBGPD_TAKEN.items():
        if found := list(taken_by.finditer(rule, start)):
            words = rule[:start] + taken_by.sub("", rule[start:]).partition(" set ")[0]
            name = " ".join(words.split())
            return List(kind, name), " ".join(one[1] or one[2] or "" for one in found)
    return List("", ""), rule


def parted_frr(text: str) -> dict[List, list[Words]]:
    """The same of FRR, whose lists are made and changed line by line, by numbers."""
    lists: dict[List, Lines] = {}
    outside, end = [], 0
    for one in FRR_LINE.finditer(text):
        outside.append(text[end : one.start()])
        end = one.end()
        kind = " ".join(one["kind"].split())
        kind = kind.removeprefix("bgp ") if "as-path" in kind else kind
        kind = kind.removeprefix("ip ") if "as-path" in kind else kind
        own = lists.setdefault(List(kind, one["name"]), Lines())
        if one["no"]:
            for number in removed(kind, own, one["words"]):
                own.remove(number)
            continue
        for entry in FRR_ENTRY.finditer(one["words"]):
            past = own.last % 5 if "as-path" in kind else 0
            own.add(int(entry[1] or own.last + 5 - past), line_of(entry))
    kept = {place: reached(place, list(own.in_order())) for place, own in lists.items()}
    rest = meaning("frr", "".join([*outside, text[end:]]))
    return ({List("", ""): [Words(True, rest)]} if rest else {}) | kept


class Lines:
    """The lines of a list of FRR by their numbers, and the number of each by what it says. To that
    `exact-match` is no difference."""

    def __init__(self) -> None:
        self.lines: dict[int, Words] = {}
        self.numbers: dict[Words, int] = {}
        # All numbers that were given, the greatest first. Those of lines that are gone stay until
        # they are the greatest.
        self.given: list[int] = []

    @property
    def last(self) -> int:
        """The greatest number of a line, 0 if there is none."""
        while self.given and -self.given[0] not in self.lines:
            heapq.heappop(self.given)
        return -self.given[0] if self.given else 0

    def add(self, number: int, words: Words) -> None:
        """Puts a line in the place of that of its number. FRR passes over one that is there."""
        if self.number_of(words) is None:
            self.remove(number)
            self.lines[number] = words
            self.numbers[plain(words)] = number
            heapq.heappush(self.given, -number)

    def number_of(self, words: Words) -> int | None:
        return self.numbers.get(plain(words))

    def remove(self, number: int) -> None:
        words = self.lines.pop(number, None)
        if words is not None:
            del self.numbers[plain(words)]

    def in_order(self) -> Iterator[Words]:
        return (self.lines[number] for number in sorted(self.lines))


def line_of(entry: re.Match[str]) -> Words:
    return Words(entry[2] == "permit", entry[3])


def plain(words: Words) -> Words:
    return Words(words.takes, " ".join(words.text.replace("exact-match", "").split()))


def removed(kind: str, own: Lines, words: str) -> list[int]:
    """The numbers of the lines of a list of FRR that a line with these words removes: of paths the
    first one of this pattern, of others that of its number if it has one."""
    entry = FRR_ENTRY.match(words)
    if entry and "as-path" in kind:
        same = (own.number_of(Words(takes, entry[3])) for takes in (True, False))
        found = sorted(number for number in same if number is not None)
        return [number for number in found if own.lines[number].text == entry[3]][:1]
    if one := FRR_NUMBER.match(words):
        return [int(one[1])]
    if FRR_REMARK.match(words):
        return []
    if not entry:
        return list(own.lines)
    number = own.number_of(line_of(entry))
    return [] if number is None else [number]


def reached(place: List, lines: list[Words]) -> list[Words]:
    """The lines of a list of FRR before one that refuses any path."""
    for end, words in enumerate(lines if "as-path" in place.kind else []):
        if not words.takes and words.text.strip() != EMPTY_PATH and not numbers_in(words):
            return lines[:end]
    return lines


def said(router: str, place: List, words: Words) -> Iterable[Entry]:
    """The entries of a list, or of one line of it. A line of prefixes that can't be read is an
    entry by its words."""
    bits = 128 if place.kind.startswith("ipv6") else 32
    if router != "frr" or place.kind not in PREFIX_LISTS:
        return entries(router, words.text, bits)
    found = list(entries(router, "permit" + words.text, bits))
    if place.kind.endswith("access-list"):
        if "exact-match" not in words.text:
            found = [one._replace(high=one.bits) for one in found]
        found = found or [one for one in [access(words.text)] if one]
    return found or [Entry(bits, 0, 0, 0, 0, " ".join(words.text.split()))]


def taken(router: str, place: List, listed: Iterable[Words]) -> Spans:
    """What a list takes: of its lines the first one that fits decides."""
    refused = Spans()
    spans: list[tuple[Where, int, int]] = []
    for words in listed:
        for one in said(router, place, words):
            if words.takes:
                spans += refused.gaps(one)
            else:
                refused.add(one)
    return Spans(spans)


def losses(router: str, old: str, new: str) -> list[Loss]:
    """What each list of an older filter has lost. Those without prefixes are compared by their AS
    numbers; text outside of all lists is so where there is no list."""
    before, after = parted(router, old), parted(router, new)
    has_lists = any(place.kind for place in before)
    found: list[Loss] = []
    for place, listed in before.items():
        there = after.get(place, [])
        if any(True for words in listed for _ in said(router, place, words)):
            found.append(lost_entries(router, place, listed, taken(router, place, there)))
        elif has_numbers(place, listed) and (place.kind or not has_lists):
            numbers, kept = numbers_of(listed), numbers_of(there)
            spans = Spans((NUMBERS, first, last + 1) for first, last in kept)
            lost = sum(not spans.has(NUMBERS, first, last + 1) for first, last in numbers)
            patterns, now = patterns_of(place, listed), patterns_of(place, there)
            gone = set() if ANY_PATH in now else patterns - now
            found.append(Loss(place.name, lost + len(gone), len(numbers) + len(patterns)))
    return [loss for loss in found if loss.size]


def lost_entries(router: str, place: List, listed: Iterable[Words], now: Spans) -> Loss:
    """How many of the entries of an older list, of which it takes anything, are not taken now."""
    refused, lost, size = Spans(), 0, 0
    for words in listed:
        for one in said(router, place, words):
            if not words.takes:
                refused.add(one)
            elif gaps := list(refused.gaps(one)):
                size += 1
                lost += not all(now.has(*gap) for gap in gaps)
    return Loss(place.name, lost, size)


def has_numbers(place: List, listed: Iterable[Words]) -> bool:
    """Whether the numbers of a list are of ASes."""
    return place.kind not in PREFIX_LISTS and not any(
        SLASHED.search(words.text) for words in listed
    )


def numbers_of(listed: Iterable[Words]) -> set[tuple[int, int]]:
    """The AS numbers that a list takes, each from a first to a last one. One that is alone in a
    line which refuses is not taken by a later line."""
    found: set[tuple[int, int]] = set()
    refused: set[tuple[int, int]] = set()
    for words in listed:
        own = numbers_in(words)
        if words.takes:
            found.update(one for one in own if one not in refused)
        elif len(own) == 1:
            refused.update(own)
    return found


def patterns_of(place: List, listed: Iterable[Words]) -> set[str]:
    """What a list of paths of FRR takes by lines without AS numbers, which are the same only if
    their words are. Of these the first line decides."""
    taken: dict[str, bool] = {}
    for words in listed if "as-path" in place.kind else ():
        if not numbers_in(words):
            taken.setdefault(" ".join(words.text.split()), words.takes)
    return {pattern for pattern, takes in taken.items() if takes}


def numbers_in(words: Words) -> list[tuple[int, int]]:
    return [
        (number(one[1]), number(one[2] or one[1]))
        for one in NUMBER.finditer(NO_NUMBER.sub("", words.text))
    ]


def number(text: str) -> int:
    """An AS number, also one in two halves."""
    high, _, low = text.rpartition(".")
    return (int(high or 0) << 16) + int(low)

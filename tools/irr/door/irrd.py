"""IRRd's `!` questions, as bgpq4, bgpq3, peval and looking glasses ask them, in the framing of IRRd
4.

A reply is `A` and a length, the text and `C`; `C` alone if there is nothing to say; `D` if there is
no such object; and `F` with words if something is wrong. bgpq4 1.9 goes on after an `F`, prints a
list without what failed, and ends with status 0; it does so even if the connection ends there. So a
client that calls itself bgpq gets a line `%` before the `F`: then it prints no list, says what the
`F` says, and ends with status 1. What a set reaches and is not registered is skipped, as IRRd does
it, unless the door is strict.
"""

import ipaddress
import json
import re
from typing import Awaitable, Callable, Optional

from irr import VERSION
from irr.door import queries
from irr.door.cache import Answer
from irr.door.dialects import Reply
from irr.door.pool import Refused
from irr.door.queries import Asker
from irr.door.views import made_with_roas, sources_of
from irr.errors import Failure
from irr.registry import answers
from irr.rpsl import keys, syntax
from irr.rpsl.keys import Range
from irr.terminal import texts

NOTHING, NOT_FOUND = b"C\n", b"D\n"
# bgpq4 asks `!a` alone, and takes just this reply for the word that the question is known.
KNOWN = b"F Missing required set name for A query\n"
# The longest line of a question.
LONGEST = 1_024
TOO_LONG = f"a question has at most {LONGEST} bytes"
# The bytes of an answer that is looked at whole.
LOOKED_AT = 1 << 15
EXPANDED = re.compile(rb"(?:(?:" + answers.EXPANSION.pattern + rb")\n)*(?:% missing [^\n]*\n)*")
# How many members by reference of a set that takes those of anybody are looked up one by one.
MOST_LOOKED_UP = 2_000
ROUTE = re.compile(rb"^route" + queries.VALUE, re.M)
CLASSES = frozenset(
    "as-block as-set aut-num domain filter-set inet-rtr inet6num inetnum key-cert mntner "
    "peering-set person poem role route route-set route6 rtr-set".split()
)


# What IRRd leaves out of its answers, unless it is told not to.
FILTERS = {
    "fno-rpki-filter": "RPKI",
    "fno-scope-filter": "scope",
    "fno-route-preference-filter": "route preference",
}
# Questions that are none without a word.
WITH_WORD = frozenset("tg6ijmnors")


class Fault(Exception):
    """A question that is answered by `F` and these words."""


def data(text: bytes) -> bytes:
    return b"A%d\n%s\nC\n" % (len(text) + 1, text) if text else NOTHING


def found(text: bytes) -> bytes:
    """What was found, or `D` where nothing was."""
    return data(text) if text else NOT_FOUND


def fault(words: str) -> bytes:
    return b"F %s\n" % texts.shown_line(words).encode()


def outcome_of(reply: bytes) -> str:
    if reply[:1] == b"F" and reply != KNOWN:
        return "error"
    return "nothing" if reply == NOT_FOUND else "answered"


def member_text(item: bytes) -> str:
    """An AS number or a set as every reader compares it: bgpq4's EXCEPT takes out the same text
    alone, so no number has leading zeros."""
    front, hat, rest = keys.as_text(item).partition("^")
    number = keys.read_as(front)
    name = f"AS{number}" if number is not None else keys.read_set(front) or front.upper()
    return name + hat + rest


def spelled(one: Range) -> str:
    """A range as every reader takes it: bgpq4 1.9 leaves out one that ends in `^24` without a word,
    and takes `^24-24`."""
    least = one.prefix.length
    return one.prefix.text() + (
        "" if (one.low, one.high) == (least, least) else f"^{one.low}-{one.high}"
    )


class Session:
    """The questions of one connection: whether it stays, how long it may be silent, and what the
    client calls itself."""

    def __init__(self, asker: Asker, is_strict: bool = False) -> None:
        self.asker, self.is_strict = asker, is_strict
        self.stays, self.is_bgpq, self.seconds = False, False, 0

    # A question, and its reply.

    def at_once(self, line: bytes) -> Optional[Reply]:
        """The reply to a question that needs nobody, or whose answer is kept."""
        if line == b"!!":
            self.stays = True
            return Reply(b"", "answered", True)
        if line[1:2] in b"agi6":
            kept = self.asker.kept(key_of(line))
            if kept is not None and len(kept.text) <= queries.FREE:
                return Reply(kept.text, outcome_of(kept.text), self.stays, kept)
        return None

    async def answer(self, line: bytes) -> Reply:
        """The reply to a line that begins with `!`."""
        if len(line) > LONGEST:
            return self.too_long()
        question = line[1:].decode("latin-1").rstrip("\r\n\t ")
        if question.lower() == "q":
            return Reply(b"", "answered", False)
        state = self.asker.pool.cache.state
        try:
            kept = self.asker.kept(key_of(line))
            if kept is not None:
                await self.asker.pay(len(kept.text))
                return Reply(kept.text, outcome_of(kept.text), self.stays, kept)
            answer = await self.reply(question)
        except Fault as words:
            return self.wrong(str(words))
        except Refused as refused:
            return self.wrong(refused.sentence, refused.word)
        if isinstance(answer, Answer):
            self.asker.keep(key_of(line), answer, state)
            return Reply(answer.text, outcome_of(answer.text), self.stays, answer)
        if outcome_of(answer) == "error":
            return self.wrong(answer[2:-1].decode("latin-1"))
        return Reply(answer, outcome_of(answer), self.stays)

    def too_long(self) -> Reply:
        return self.wrong(TOO_LONG)

    def wrong(self, words: str, outcome: str = "error") -> Reply:
        """The reply of a fault in the form in which the client takes it for one; a client that went
        on would make a list that lacks something, so the connection ends."""
        reply = fault(words)
        return Reply(
            b"%\n" + reply if self.is_bgpq else reply, outcome, self.stays and not self.is_bgpq
        )

    async def reply(self, question: str) -> "bytes | Answer":
        """The reply to a question without its `!`."""
        if question in WITH_WORD:
            raise Fault(f"Missing parameter for {question.upper()} query")
        if question.lower() in FILTERS:
            return self.unfiltered(FILTERS[question.lower()])
        for begin, answer in QUESTIONS:
            if question.startswith(begin):
                return await answer(self, question[len(begin) :].strip(" \t"))
        raise Fault(
            f"Unrecognised command: {question[:20]}" if question else "Missing IRRD command"
        )

    # Prefixes and members.

    async def expansion(self, query: str, name: str) -> Optional[Answer]:
        """The answer to `expand` or `prefixes`; None if the set is not registered."""
        asked = f"{query} {name}".encode()
        answer = await self.asker.ask(asked)
        sound(answer, asked)
        if answer.text == queries.NOTHING:
            if self.is_strict:
                raise Fault(f"{name}: the set is not registered; correct the name, or register it")
            return None
        if number := queries.error_of(answer.text):
            raise Fault(f"{name}: % error {number}: {answers.ERRORS.get(number, '')}")
        return answer

    async def words(self, answer: Answer, has_ranges: bool, name: str) -> bytes:
        """The lines of an expansion as words, without those that say what is missing."""
        parts: list[bytes] = []
        missing: list[str] = []
        if answer.text == queries.EMPTY:
            return b""
        async for piece in self.asker.pieces(answer.text, b"\n"):
            if not EXPANDED.fullmatch(piece):
                raise Fault(f"the registry {answers.NO_REGISTRY}; tell its operator")
            lines = piece.split(b"\n")[:-1]
            if lines[-1][:1] == b"%":
                missing += [line[10:].decode() for line in lines if line[:1] == b"%"]
                lines = [line for line in lines if line[:1] != b"%"]
            if has_ranges:
                lines = [ranged(line) if b"^" in line else line for line in lines]
            parts += [b" ".join(lines)] if lines else []
        if missing and self.is_strict:
            raise Fault(
                f"{name}: sets that it reaches are not registered: {listed(missing)}; "
                "register them, or take them out"
            )
        return b" ".join(parts)

    async def prefixes(self, word: str) -> "bytes | Answer":
        """`!aSET`, `!a4SET`: the prefixes of a set."""
        if not word:
            return KNOWN
        name = read_set(word)
        answer = await self.expansion("prefixes", name)
        if answer is None:
            return NOT_FOUND
        return self.asker.own(found(await self.words(answer, True, name)), answer.cost)

    async def of_origin(self, word: str) -> "bytes | Answer":
        """`!gAS`: the route prefixes of an origin."""
        number = read_origin(word)
        answer = await self.objects(f"inverse origin AS{number}")
        if answer is None:
            return NOT_FOUND
        parts: list[bytes] = []
        async for piece in self.asker.pieces(answer.text, b"\n\n"):
            parts.append(b" ".join(map(plain_prefix, ROUTE.findall(piece))))
        return self.asker.own(found(b" ".join(parts)), answer.cost)

    async def members(self, words: str) -> "bytes | Answer":
        """`!iSET,1`: the AS numbers of an as-set, the ranges of a route-set. `!iSET`: what the set
        itself has."""
        word, comma, depth = words.partition(",")
        name = read_set(word)
        if depth.strip() not in ("", "1"):
            raise Fault(f"after the comma comes 1 alone: {words}")
        if not comma:
            return found(" ".join(await self.direct_members(name)).encode())
        answer = await self.expansion("expand", name)
        if answer is None:
            return NOT_FOUND
        is_routes = keys.set_class(name) == "route-set"
        return self.asker.own(found(await self.words(answer, is_routes, name)), answer.cost)

    async def direct_members(self, name: str) -> list[str]:
        """What a set lists, and what is in it by reference: AS numbers, or prefixes, whose
        `member-of` names it."""
        if name in ("AS-ANY", "RS-ANY"):
            raise Fault(f"{name}: its members are too many to be listed")
        answer = await self.objects(f"object {keys.set_class(name)} {name}")
        if answer is None:
            if self.is_strict:
                raise Fault(f"{name}: the set is not registered; correct the name, or register it")
            return []
        own = syntax.read_any(answer.text.removesuffix(b"\n"))
        listed: dict[str, None] = {}
        async for part in self.asker.some(own.items(b"members")):
            for item in part:
                one = keys.read_range(item)
                # Nothing is left of a range as 192.0.2.0/32^-.
                if one is None or one.low <= one.high:
                    listed[spelled(one) if one else member_text(item)] = None
        by = [item.upper() for item in own.items(b"mbrs-by-ref")]
        if b"ANY" in by:
            joined = await self.joined_by_anybody(name)
        else:
            joined = await self.joined(name, by, own.text())
        return list(listed | dict.fromkeys(joined))

    async def joined(self, name: str, maintainers: list[bytes], own: bytes) -> list[str]:
        """What joins a set by one of its maintainers."""
        kind = b"aut-num" if keys.set_class(name) == "as-set" else b"route"
        joined: dict[tuple[int, int], None] = {}
        for maintainer in dict.fromkeys(maintainers):
            answer = await self.objects(f"inverse mnt {keys.as_text(maintainer)}")
            if answer is None or own + b"\n" not in answer.text:
                raise Fault("two answers differ: the registry has changed between them; ask again")
            async for piece in self.asker.pieces(answer.text, b"\n\n"):
                for block in queries.blocks(piece):
                    if block.startswith(kind + b":") and joins(block, name, maintainer):
                        joined[place_of(block, kind)] = None
        # Those of one maintainer are in order, which makes this short.
        places = sorted(joined)
        return [place_text(one) async for part in self.asker.some(places) for one in part]

    async def joined_by_anybody(self, name: str) -> list[str]:
        """What joins a set that takes members of anybody: of what it reaches, each that says so
        itself."""
        answer = await self.expansion("expand", name)
        is_as_set = keys.set_class(name) == "as-set"
        reached: list[bytes] = []
        async for piece in self.asker.pieces(answer.text if answer else b"", b"\n"):
            lines = piece.split(b"\n")
            reached += [line for line in lines if line[:1] != b"%" and line and b"^" not in line]
            if len(reached) > MOST_LOOKED_UP:
                raise Fault(
                    f"{name}: it takes members of anybody by reference; ask !i{name},1 for all"
                )
        kind = b"aut-num" if is_as_set else b"route"
        joined: set[tuple[int, int]] = set()
        for line in reached:
            query = "object aut-num " if is_as_set else "exact "
            one = await self.objects(query + line.decode())
            for block in queries.blocks(one.text if one else b""):
                if block.startswith(kind + b":") and joins(block, name, None):
                    joined.add(place_of(block, kind))
        return [place_text(one) for one in sorted(joined)]

    # Objects.

    async def objects(self, query: str) -> Optional[Answer]:
        """The answer that has objects; None if there are none."""
        asked = query.encode("latin-1", "replace")
        answer = await self.asker.ask(asked)
        sound(answer, asked)
        if number := queries.error_of(answer.text):
            raise Fault(answers.ERRORS.get(number, f"% error {number}"))
        return answer if queries.is_objects(answer.text) else None

    async def by_key(self, words: str) -> "bytes | Answer":
        """`!mCLASS,KEY`: one object."""
        kind, comma, key = words.partition(",")
        kind, key = kind.strip().lower(), key.strip()
        if not comma or not key:
            raise Fault(f"Invalid argument for object lookup: {words}")
        if kind not in CLASSES:
            raise Fault(f"Invalid object class: {kind}")
        if kind not in keys.CLASSES:
            return NOT_FOUND
        wanted = (
            keys.read_key(kind, *route_words(key)) if kind == "route" else keys.read_key(kind, key)
        )
        answer = await self.objects(wanted.query()) if wanted else None
        return found(answer.text[:-2]) if answer else NOT_FOUND

    async def maintained(self, word: str) -> "bytes | Answer":
        """`!oNAME`: the objects that a maintainer maintains."""
        name = keys.read_maintainer(word)
        answer = await self.objects(f"inverse mnt {name}") if name else None
        if answer is None or name is None:
            return NOT_FOUND
        parts: list[bytes] = []
        wanted = name.encode()
        async for piece in self.asker.pieces(answer.text, b"\n\n"):
            parts += [one for one in queries.blocks(piece) if wanted in maintainers(one)]
        return self.asker.own(found(b"\n".join(parts)[:-1]), answer.cost)

    async def routes(self, words: str) -> "bytes | Answer":
        """`!rPREFIX`, and with `,o`, `,l`, `,L`, `,M`: the routes of a prefix, their origins, the
        routes closest round it, those round it or equal, those inside it."""
        word, _, option = words.partition(",")
        prefix, option = keys.read_place(word.strip()), option.strip()
        if option not in ("", "o", "l", "L", "M"):
            raise Fault(f"Invalid route search option: {option}")
        if prefix is None:
            if is_six(word):
                return NOT_FOUND
            raise Fault(f"Invalid input for route search: {words}")
        query = {"": "exact", "o": "exact", "M": "more"}.get(option, "less")
        answer = await self.objects(f"{query} {prefix.text()}")
        if answer is None:
            return NOT_FOUND
        some: list[bytes] = []
        longest, origins = -1, set[int]()
        async for piece in self.asker.pieces(answer.text, b"\n\n"):
            for block in queries.blocks(piece):
                if not block.startswith(b"route:"):
                    continue
                if option == "o":
                    origins.add(keys.read_as(queries.value_of(block, b"origin")) or 0)
                    continue
                own = queries.prefix_of(block) if option in ("l", "M") else None
                length = own.length if own else 0
                if own and length == prefix.length:
                    continue
                if option == "l" and length > longest:
                    some, longest = [], length
                if option != "l" or length == longest:
                    some.append(block)
        if option == "o":
            return found(" ".join(f"AS{number}" for number in sorted(origins)).encode())
        return self.asker.own(found(b"\n".join(some)[:-1]), answer.cost)

    # The registry, and the connection.

    async def sources(self, word: str) -> bytes:
        """`!s-lc` and `!sNAMES`: the sources that are asked, and that these are from then on."""
        views = self.asker.pool.views
        if word.lower() == "-lc":
            self.name()
            return data(sources_of(self.asker.pool).encode())
        chosen = views.chosen(word)
        if chosen is None:
            raise Fault(
                f"One or more selected sources are unavailable: {word.upper()}; {views.known()}"
            )
        self.asker = Asker(chosen, self.asker.client, self.asker.address, word)
        return NOTHING

    async def serials(self, word: str) -> bytes:
        """`!jNAME` and `!j-*`: the serials that mirrors can follow."""
        name = self.asker.pool.views.main.source or self.name()
        names = [name] if word == "-*" else [one.strip() for one in word.upper().split(",")]
        kept = self.asker.pool.views.main.mirrors.serials_of(name)
        own = f"{name}:Y:{kept[0]}-{kept[1]}" if kept else f"{name}:N:-"
        lines = [own if one == name else f"{one}:X:Database unknown" for one in names]
        return data("\n".join(lines).encode())

    async def status(self, word: str) -> bytes:
        """`!JNAME` and `!J-*`: the same, and what is kept, in JSON."""
        name = self.asker.pool.views.main.source or self.name()
        names = [name] if word == "-*" else [one.strip() for one in word.upper().split(",")]
        kept = self.asker.pool.views.main.mirrors.serials_of(name)
        known = {
            "source_type": "regular",
            "authoritative": True,
            "object_class_filter": list(keys.CLASSES),
            "rpki_rov_filter": False,
            "scopefilter_enabled": False,
            "local_journal_kept": kept is not None,
            "serial_oldest_journal": kept[0] if kept else None,
            "serial_newest_journal": kept[1] if kept else None,
            "serial_last_export": None,
            "serial_newest_mirror": None,
        }
        found = {one: known if one == name else {"error": "Unknown source"} for one in names}
        return data(json.dumps(found, indent=4).encode())

    def name(self) -> str:
        if not self.asker.pool.source:
            raise Fault("the registry does not answer; ask again later")
        return self.asker.pool.source

    async def wait(self, word: str) -> bytes:
        """`!tSECONDS`: how long the connection may be silent."""
        seconds = keys.read_number(word, 1, 1_000)
        if seconds is None:
            raise Fault(f"Invalid value for timeout: {word}")
        self.seconds = seconds
        return NOTHING

    async def named(self, client: str) -> bytes:
        """`!nWORDS`: what the client is."""
        self.is_bgpq = client.startswith("bgpq")
        return NOTHING

    def unfiltered(self, what: str) -> bytes:
        """`!fno-rpki-filter` and its like: that nothing is left out from then on, as before."""
        view = made_with_roas(self.asker.pool) if what == "RPKI" else ""
        if view:
            raise Fault(f"the view {view} was made with ROAs, and no query can change that")
        return data(f"Nothing is left out of answers here by {what}".encode())

    async def version(self, _: str) -> bytes:
        missing = "refused" if self.is_strict else "skipped"
        return data(
            f"IRRd -- version {VERSION} of irrdesk's door; missing sets are {missing}".encode()
        )

    async def six_of_origin(self, word: str) -> bytes:
        """`!6AS`: its prefixes of IPv6, of which there are none."""
        read_origin(word)
        return NOT_FOUND

    async def six_prefixes(self, word: str) -> bytes:
        """`!a6SET`: the same of a set."""
        return NOT_FOUND if word else KNOWN


# What a question begins with, and what answers it.
QUESTIONS: tuple[tuple[str, Callable[[Session, str], Awaitable["bytes | Answer"]]], ...] = (
    ("a6", Session.six_prefixes),
    ("a4", Session.prefixes),
    ("a", Session.prefixes),
    ("6", Session.six_of_origin),
    ("g", Session.of_origin),
    ("i", Session.members),
    ("m", Session.by_key),
    ("o", Session.maintained),
    ("r", Session.routes),
    ("s", Session.sources),
    ("j", Session.serials),
    ("J", Session.status),
    ("t", Session.wait),
    ("v", Session.version),
    ("n", Session.named),
)


def key_of(line: bytes) -> bytes:
    """What the answer to a question is kept by: `!r` means others by `,l` than by `,L`."""
    word, comma, option = line.partition(b",")
    return word[:2] + word[2:].upper() + comma + option


def sound(answer: Answer, query: bytes) -> None:
    """Refuses an answer that its query can't have. Of a long one, which costs the more, each line
    is looked at as it is turned."""
    if len(answer.text) <= LOOKED_AT:
        try:
            answers.Answer(answer.text, query, "the registry")
        except Failure as failure:
            raise Fault(str(failure)) from None


def read_set(word: str) -> str:
    name = keys.read_set(word)
    if name is None:
        raise Fault(f"Invalid set name: {word}")
    return name


def read_origin(word: str) -> int:
    number = keys.read_as(word) if word[:1].isalpha() else keys.read_as(f"AS{word}")
    if number is None:
        raise Fault(f"Invalid AS number: {word}")
    return number


def ranged(line: bytes) -> bytes:
    one = keys.read_range(line)
    return spelled(one).encode() if one else line


def plain_prefix(value: bytes) -> bytes:
    """The prefix of a route, of which these lines say it."""
    one = keys.read_prefix(queries.meaning_of(value))
    if one is None:
        raise Fault(f"the registry {answers.NO_REGISTRY}; tell its operator")
    return one.text().encode()


def listed(names: list[str]) -> str:
    more = len(names) - 10
    return ", ".join(names[:10]) + (f" and {more:,} more" if more > 0 else "")


def route_words(key: str) -> list[str]:
    """The prefix and the origin of a route's key, with or without a blank between them."""
    front, mark, number = key.upper().replace(" ", "").replace("-", "").partition("AS")
    return [front, mark + number]


def is_six(word: str) -> bool:
    """Whether a word is an address or prefix of IPv6."""
    try:
        return ipaddress.ip_interface(word.strip()).version == 6
    except ValueError:
        return False


def maintainers(block: bytes) -> list[bytes]:
    return [item.upper() for item in syntax.read_any(block).items(b"mnt-by")]


def joins(block: bytes, name: str, maintainer: Optional[bytes]) -> bool:
    """Whether an object joins a set, and by this maintainer, if one is named."""
    own = syntax.read_any(block)
    if maintainer is not None and maintainer not in [item.upper() for item in own.items(b"mnt-by")]:
        return False
    return name in map(keys.read_set, own.items(b"member-of"))


def place_of(block: bytes, kind: bytes) -> tuple[int, int]:
    """What a joined object is, in order: an AS number, or a prefix."""
    value = queries.value_of(block, kind)
    prefix = keys.read_prefix(value)
    return (prefix.first, prefix.length) if prefix else (-1, keys.read_as(value) or 0)


def place_text(place: tuple[int, int]) -> str:
    return f"AS{place[1]}" if place[0] < 0 else keys.Prefix(*place).text()

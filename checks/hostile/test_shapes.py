"""Input of shapes that make a careless program slow or deep, each at a size and at half of it."""

import hashlib
import math
import os
from collections.abc import Callable
from typing import Any

import pytest

from checks.hostile.costs import at_most, judged
from checks.running import AUTH, Failure, Ran, Tell, Trial, expect, short, write, write_settings
from checks.serving import GIVEN, Server

# It looks at times.
pytestmark = pytest.mark.alone


STACK = 256 << 10
MOST_TIMES, LONG_TIMES = 3, 2.3
SLACK = 0.1
TRIES = 5
MOST_BODY = 1 << 20
OWNED = "mnt-by: ROOT-MNT\nsource: TEST\n\n"
ROOT = f"mntner: ROOT-MNT\nauth: {AUTH}\n{OWNED}"
PASSWORD = "password: bc\n\n"
SHAPES = []


def shape(name: str, short_size: int, long_size: int) -> Callable[..., Any]:
    """Registers a shape: its sizes, and a function of a folder and a size that runs the program and
    gives the runs to be timed."""

    def register(function: Callable[..., Any]) -> Callable[..., Any]:
        SHAPES.append((name, short_size, long_size, function))
        return function

    return register


def run(trial: Trial, folder: str, *words: str, stdin: bytes | None = None, status: int = 0) -> Ran:
    ran = trial.run(folder, *words, stdin=stdin, timeout=300, limits={"stack": STACK})
    if ran.status != status or ran.reported:
        raise Failure(
            f"{' '.join(words)}: status {ran.status}, {short(ran.reported)}"
            f" {short(ran.printed[-200:])}"
        )
    return ran


def loaded(trial: Trial, folder: str, text: str) -> Ran:
    """Loads a dump into a new database."""
    write_settings(folder, limit=1_000_000)
    write(folder, "dump.rpsl", (ROOT + text).encode())
    return run(trial, folder, "load", "s.toml", "dump.rpsl")


def submitted(trial: Trial, folder: str, text: str, wanted: bytes, status: int = 0) -> Ran:
    """Submits items, which all have this outcome."""
    write(folder, "items.rpsl", text.encode())
    ran = run(trial, folder, "submit", "s.toml", "items.rpsl", status=status)
    expect(
        {line.rpartition(b": ")[2] for line in ran.printed.splitlines()[:-1]},
        {wanted},
        "the outcomes",
    )
    return ran


def asked(
    trial: Trial, folder: str, query: str, lines: int | None = None, answer: bytes | None = None
) -> Ran:
    """Asks for something, whose answer has so many lines, or is this."""
    ran = run(trial, folder, "query", "s.toml", query)
    if lines is not None:
        expect(ran.printed.count(b"\n"), lines, f"the lines of the answer to {query}")
    if answer is not None:
        expect(ran.printed, answer, f"the answer to {query}")
    return ran


def address(number: int) -> str:
    return ".".join(str(byte) for byte in number.to_bytes(4, "big"))


# Sets.


@shape("references among sets, each to all", 40_000, 1_000_000)
def dense_sets(trial: Trial, folder: str, size: int) -> list[Ran]:
    count = math.isqrt(size)
    members = ",".join(f"AS-S{n}" for n in range(count))
    sets = "".join(f"as-set: AS-S{n}\nmembers: {members},AS{n}\n{OWNED}" for n in range(count))
    return [
        loaded(trial, folder, sets),
        asked(trial, folder, "expand AS-S7", lines=count),
        asked(trial, folder, "prefixes AS-S7", answer=b"% empty\n"),
    ]


@shape("a chain of as-sets", 10_000, 100_000)
def chained_as_sets(trial: Trial, folder: str, size: int) -> list[Ran]:
    sets = "".join(f"as-set: AS-S{n}\nmembers: AS-S{n + 1}\n{OWNED}" for n in range(size))
    sets += f"as-set: AS-S{size}\nmembers: AS7\n{OWNED}"
    return [
        loaded(trial, folder, sets),
        asked(trial, folder, "expand AS-S0", answer=b"AS7\n"),
        asked(trial, folder, "prefixes AS-S0", answer=b"% empty\n"),
    ]


@shape("a chain of route-sets, each of one range that all before it have too", 500_000, 900_000)
def carried_ranges(trial: Trial, folder: str, size: int) -> list[Ran]:
    count = math.isqrt(2 * size)
    sets = "".join(
        f"route-set: RS-S{n}\nmembers: RS-S{n + 1} {address((10 << 24) + n)}/32\n{OWNED}"
        for n in range(count)
    )
    return [loaded(trial, folder, sets), asked(trial, folder, "expand RS-S0", lines=count + 1)]


@shape("a chain of route-sets under operators", 10_000, 100_000)
def chained_operators(trial: Trial, folder: str, size: int) -> list[Ran]:
    sets = "".join(
        f"route-set: RS-S{n}\nmembers: RS-S{n + 1}^{'+-'[n % 16 == 0]}\n{OWNED}"
        for n in range(size)
    )
    sets += f"route-set: RS-S{size}\nmembers: 0.0.0.0/0^0-32\n{OWNED}"
    return [loaded(trial, folder, sets), run(trial, folder, "query", "s.toml", "expand RS-S0")]


# Operators that make one range of a /32, so that each reference between two sets of a ring has the
# same effect.
ALIKE = ["", "^+", "^32"] + [f"^{length}-32" for length in range(32)]


def ring(trial: Trial, folder: str, count: int, ranges: int, bound: float) -> list[Ran]:
    """Route-sets that each list so many ranges and all sets under 35 operators. The expansion of
    one takes at most so many seconds of the processor more than a query for a set that there is
    not, on the machine of docs/OPEN.md."""
    references = ",".join(f"RS-S{n}{operator}" for n in range(count) for operator in ALIKE)
    sets = "".join(
        f"route-set: RS-S{n}\nmembers:"
        f" {','.join(address((n + 1 << 16) + place) + '/32' for place in range(ranges))},"
        f"{references}\n{OWNED}"
        for n in range(count)
    )
    runs = [loaded(trial, folder, sets)]

    def once() -> float:
        runs[1:] = [
            asked(trial, folder, "RS-NONE"),
            asked(trial, folder, "expand RS-S0", lines=count * ranges),
        ]
        return runs[2].seconds - runs[1].seconds

    spent = judged(bound, once)
    at_most(spent, bound, f"{count} sets, {ranges} ranges each: the expansion")
    return runs


@shape(
    "a ring of route-sets that each refer to all others, by so many references, and list a range",
    70_000,
    283_500,
)
def ring_of_references(trial: Trial, folder: str, size: int) -> list[Ran]:
    return ring(trial, folder, math.isqrt(size // len(ALIKE)), 1, 0.27)


@shape("a ring of 16 route-sets, with so many pairs of a set and a range", 20_000, 100_000)
def ring_of_pairs(trial: Trial, folder: str, size: int) -> list[Ran]:
    return ring(trial, folder, 16, size // 256, 0.59)


@shape("members by reference, of one set", 5_000, 50_000)
def referred(trial: Trial, folder: str, size: int) -> list[Ran]:
    numbers = "".join(f"aut-num: AS{n}\nmember-of: AS-R\n{OWNED}" for n in range(size))
    return [
        loaded(trial, folder, numbers + f"as-set: AS-R\nmbrs-by-ref: ANY\n{OWNED}"),
        asked(trial, folder, "expand AS-R", lines=size),
        submitted(
            trial, folder, PASSWORD + f"as-set: AS-R\nmbrs-by-ref: ROOT-MNT\n{OWNED}", b"changed"
        ),
    ]


# The last characters of names of sets that have no other.
LAST = "ABCDEFGHIJKLMNOPQRSTUVWXYZ0123456789"


def over_and_over(name: str, item: str, count: int) -> str:
    """Lines of an attribute that list an item so often, a hundred times each."""
    return f"{name}: {','.join([item] * 100)}\n" * (count // 100)


@shape("a chain of as-sets, each of which lists the next one over and over", 12_000, 12_000)
def repeated_names(trial: Trial, folder: str, size: int) -> list[Ran]:
    def listing(name: str, member: str) -> str:
        return f"as-set: AS-{name}\n{over_and_over('members', member, size)}{OWNED}"

    chain = "".join(listing(one, f"AS-{other}") for one, other in zip(LAST, LAST[1:])) + listing(
        LAST[-1], "AS7"
    )
    return [
        loaded(trial, folder, f"{chain}route: 10.0.0.0/8\norigin: AS7\n{OWNED}"),
        asked(trial, folder, "expand AS-A", answer=b"AS7\n"),
        asked(trial, folder, "prefixes AS-A", answer=b"10.0.0.0/8\n"),
        asked(trial, folder, "AS-A", lines=size // 100 + 4),
        submitted(trial, folder, PASSWORD + listing(LAST[-1], "AS-A"), b"changed"),
        asked(trial, folder, "expand AS-A", answer=b"% empty\n"),
        asked(trial, folder, "prefixes AS-A", answer=b"% empty\n"),
    ]


@shape(
    (
        "a chain of route-sets, each of which lists the next one over and over, under two"
        " operators, and the last one ranges"
    ),
    10_000,
    10_000,
)
def repeated_operators(trial: Trial, folder: str, size: int) -> list[Ran]:
    chain = "".join(
        "route-set:"
        f" RS-{one}\n{over_and_over('members', f'RS-{other},RS-{other}^+', size // 2)}{OWNED}"
        for one, other in zip(LAST, LAST[1:])
    )
    ranges = f"members: {','.join(f'10.{n}.0.0/16' for n in range(50))}\n" * (size // 200)
    return [
        loaded(trial, folder, f"{chain}route-set: RS-{LAST[-1]}\n{ranges}{OWNED}"),
        asked(trial, folder, "expand RS-A", lines=100),
        asked(trial, folder, "prefixes RS-A", lines=100),
        asked(trial, folder, "RS-A", lines=size // 200 + 4),
    ]


@shape(
    "a set that lists an AS number as often as that has routes, and one that lists itself as often",
    4_000,
    12_000,
)
def repeated_origins(trial: Trial, folder: str, size: int) -> list[Ran]:
    routes = "".join(
        f"route: {address((10 << 24) + n)}/32\norigin: AS7\n{OWNED}" for n in range(size)
    )
    listed = over_and_over("members", "AS7", size)
    sets = f"route-set: RS-A\n{listed}{OWNED}as-set: AS-A\n{listed}{OWNED}"
    sets += f"route-set: RS-B\n{over_and_over('members', 'RS-B', size)}members: AS7\n{OWNED}"
    return [
        loaded(trial, folder, routes + sets),
        asked(trial, folder, "expand RS-A", lines=size),
        asked(trial, folder, "prefixes AS-A", lines=size),
        asked(trial, folder, "expand RS-B", lines=size),
    ]


@shape(
    (
        "members by reference that each name their set and a maintainer over and over, and it"
        " another one"
    ),
    5_000,
    5_000,
)
def repeated_references(trial: Trial, folder: str, size: int) -> list[Ran]:
    mntners = "".join(f"mntner: {name}\nauth: {AUTH}\n{OWNED}" for name in ("M-MNT", "R-MNT"))
    lists = over_and_over("member-of", "AS-R", size) + over_and_over("mnt-by", "M-MNT", size)
    numbers = "".join(f"aut-num: AS{n}\n{lists}mnt-by: R-MNT\nsource: TEST\n\n" for n in range(30))
    taking = f"as-set: AS-R\n{over_and_over('mbrs-by-ref', 'R-MNT', size)}{OWNED}"
    other = f"as-set: AS-R\n{over_and_over('mbrs-by-ref', 'ROOT-MNT', size)}{OWNED}"
    return [
        loaded(trial, folder, mntners + numbers + taking),
        asked(trial, folder, "expand AS-R", lines=30),
        asked(trial, folder, "inverse mnt R-MNT", lines=61 * (size // 100) + 31 * 4),
        submitted(trial, folder, PASSWORD + other, b"changed"),
        asked(trial, folder, "expand AS-R", answer=b"% empty\n"),
    ]


# Spans.


@shape("nested inetnums", 5_000, 100_000)
def nested(trial: Trial, folder: str, size: int) -> list[Ran]:
    spans = "".join(
        f"inetnum: {address((10 << 24) + n)} - {address((12 << 24) - n)}\n{OWNED}"
        for n in range(size)
    )
    inner = (10 << 24) + size
    return [
        loaded(trial, folder, spans),
        asked(trial, folder, f"less {address(inner)}", lines=4 * size),
        asked(trial, folder, address(inner), lines=4),
        submitted(
            trial,
            folder,
            PASSWORD + f"inetnum: {address(inner)} - {address(inner + 9)}\n{OWNED}",
            b"added",
        ),
    ]


@shape("inetnums side by side", 5_000, 100_000)
def siblings(trial: Trial, folder: str, size: int) -> list[Ran]:
    spans = "".join(f"inetnum: {address((10 << 24) + 2 * n)}/31\n{OWNED}" for n in range(size))
    return [
        loaded(trial, folder, spans),
        asked(trial, folder, "more 10.0.0.0/8", lines=4 * size),
        asked(trial, folder, "inverse mnt ROOT-MNT", lines=4 * size + 5),
    ]


@shape("origins of one prefix", 2_000, 30_000)
def origins(trial: Trial, folder: str, size: int) -> list[Ran]:
    routes = "".join(
        f"aut-num: AS{n}\n{OWNED}route: 10.0.0.0/8\norigin: AS{n}\n{OWNED}" for n in range(size)
    )
    new = "".join(f"route: 10.{n}.0.0/16\norigin: AS{n}\n{OWNED}" for n in range(20))
    return [
        loaded(trial, folder, routes),
        asked(trial, folder, "10.0.0.1", lines=5 * size),
        submitted(trial, folder, PASSWORD + new, b"added"),
    ]


# Names.


def listed_maintainers(size: int) -> tuple[str, str]:
    """So many maintainers, and a list of their names."""
    mntners = "".join(f"mntner: M{n}\nauth: {AUTH}\n{OWNED}" for n in range(size))
    return mntners, ",".join(f"M{n}" for n in range(size))


@shape("maintainers in one list", 1_000, 10_000)
def maintainers(trial: Trial, folder: str, size: int) -> list[Ran]:
    mntners, listed = listed_maintainers(size)
    held = [
        f"inetnum: 10.0.0.0/8\ndescr: {n}\nmnt-by: {listed}\nsource: TEST\n\n" for n in range(6)
    ]
    return [
        loaded(trial, folder, mntners + held[0]),
        submitted(trial, folder, PASSWORD + "".join(held[1:]), b"changed"),
        asked(trial, folder, f"inverse mnt M{size - 1}", lines=5),
    ]


@shape("deletions of a set that names many maintainers", 1_000, 10_000)
def deletions(trial: Trial, folder: str, size: int) -> list[Ran]:
    mntners, listed = listed_maintainers(size)
    loaded(trial, folder, f"{mntners}as-set: AS-T\nmnt-by: {listed}\nsource: TEST\n\n")
    items = "password: no\n\n" + "as-set: AS-T\ndelete: x\n\n" * (size // 4)
    return [submitted(trial, folder, items, b"refused E11", status=1)]


@shape("names alike up to their last characters", 3_000, 30_000)
def alike(trial: Trial, folder: str, size: int) -> list[Ran]:
    names = [f"M{'X' * 72}{n:07}" for n in range(size)]
    texts = f"inetnum: 10.0.0.0/8\n{OWNED}" + "".join(
        f"mntner: {name}\nauth: NONE\n{OWNED}" for name in names
    )
    new = "".join(
        f"inetnum: 10.0.{n}.0/24\nmnt-by: ROOT-MNT, {names[-1 - n]}\nsource: TEST\n\n"
        for n in range(20)
    )
    return [
        loaded(trial, folder, texts),
        submitted(trial, folder, PASSWORD + new, b"added"),
        asked(trial, folder, names[-1], lines=5),
    ]


@shape("spellings of one name", 3_000, 30_000)
def spellings(trial: Trial, folder: str, size: int) -> list[Ran]:
    letters = "abcdefghijklmnop"
    texts = []
    for number in range(size):
        name = "".join(
            letter.upper() if number >> place & 1 else letter
            for place, letter in enumerate(letters)
        )
        texts.append(f"as-set: as-{name}\ndescr: {number}\n{OWNED}")
    loaded(trial, folder, f"as-set: as-{letters}\n{OWNED}")
    return [
        submitted(trial, folder, PASSWORD + "".join(texts), b"changed"),
        asked(trial, folder, f"AS-{letters}", lines=5),
    ]


# Secrets.


def passwords(size: int) -> bytes:
    """Passwords that don't fit, in paragraphs that are not too long, of at most so many bytes in
    all."""
    lines = [b"password: no %04x\n" % number for number in range((size - size // 60_000 - 2) // 18)]
    return (
        b"\n".join(b"".join(lines[place : place + 3_600]) for place in range(0, len(lines), 3_600))
        + b"\n"
    )


def items_of(owner: bytes, size: int) -> tuple[bytes, int]:
    """Items that this one maintains, of at most so many bytes in all, and how many they are."""
    texts = [
        b"inetnum: 10.0.%d.0/24\nmnt-by: %s\nsource: TEST\n\n" % (number % 256, owner)
        for number in range(size // 51)
    ]
    return b"".join(texts), len(texts)


@shape(
    "a body, half of it passwords and half items of a maintainer with 800 lines of `auth`",
    MOST_BODY >> 4,
    MOST_BODY,
)
def many_secrets(trial: Trial, folder: str, size: int) -> list[Ran]:
    salts = [SALT[number % len(SALT)] if number < 640 else "" for number in range(800)]
    lines = "".join(
        f"auth:SHA256-PW {salt}:{hashlib.sha256(b'%d' % number).hexdigest()}\n"
        for number, salt in enumerate(salts)
    )
    owned = "mnt-by: A-MNT\nsource: TEST\n\n"
    loaded(trial, folder, f"mntner: A-MNT\n{lines}{owned}inetnum: 10.0.0.0/8\n{owned}")
    items, count = items_of(b"A-MNT", size // 2)
    body = passwords(size // 2) + items
    with Server(trial.program, folder, 1, stack=STACK, patience=300) as server:
        reply = server.ask(
            b"POST /submissions HTTP/1.1\r\nContent-Length: %d\r\n\r\n%s" % (len(body), body)
        )
        server.look()
        ran = Ran(0, reply, b"", server.ended(), server.memory)
    expect(
        (reply.startswith(GIVEN), reply.count(b": refused E11\n")),
        (True, count),
        "the items that are refused E11",
    )
    return [ran]


SALT = "abcdefghijklmnopqrstuvwxyzABCDEFGHIJKLMNOPQRSTUVWXYZ0123456789"


# Text.


def plain(trial: Trial, text: bytes, last: bytes) -> list[Ran]:
    """A submission to a registry in memory, and the last line of its report."""
    ran = run(trial, trial.work, stdin=text, status=1 if b"refused" in last else 0)
    expect(
        ran.printed.splitlines()[-len(last.splitlines()) :],
        last.splitlines(),
        "the end of the report",
    )
    return [ran]


def repeated(
    trial: Trial,
    folder: str,
    size: int,
    front: bytes,
    piece: bytes,
    end: bytes,
    count: int,
    outcome: bytes = b"added",
) -> list[Ran]:
    """A paragraph of so many bytes, submitted so often under other names."""
    paragraphs = []
    for n in range(count):
        begin = b"inetnum: 10.0.0.%d/32\n%s" % (n, front)
        filling = piece * ((size - len(begin) - len(end)) // len(piece))
        paragraphs.append(begin + filling + end)
    last = b"%d inetnum 10.0.0.%d - 10.0.0.%d: %s\n%% items %d" % (
        count,
        count - 1,
        count - 1,
        outcome,
        count,
    )
    return plain(trial, PASSWORD.encode() + b"\n".join(paragraphs), last)


END = b"\nmnt-by: ROOT-MNT\nsource: TEST\n"


@shape("a list of commas", 65_536, 65_536)
def commas(trial: Trial, folder: str, size: int) -> list[Ran]:
    return repeated(trial, folder, size, b"mnt-by: ", b",", END, 60)


@shape("items of one list", 65_536, 65_536)
def many_items(trial: Trial, folder: str, size: int) -> list[Ran]:
    return repeated(trial, folder, size, b"mnt-by: ", b"ROOT-MNT,", END, 20)


@shape("attributes without a value", 65_536, 65_536)
def empty_attributes(trial: Trial, folder: str, size: int) -> list[Ran]:
    return repeated(trial, folder, size, b"", b"a:\n", END[1:], 30)


@shape("empty lines of one value", 65_536, 65_536)
def empty_lines(trial: Trial, folder: str, size: int) -> list[Ran]:
    return repeated(trial, folder, size, b"descr:\n", b"+\n", END[1:], 30)


@shape("ranges of one grant", 65_536, 65_536)
def many_ranges(trial: Trial, folder: str, size: int) -> list[Ran]:
    return repeated(
        trial, folder, size, b"mnt-routes: ROOT-MNT {", b"10.0.0.0/8^+ ", b"}" + END, 20
    )


@shape("blank lines", 1_000_000, 10_000_000)
def blank_lines(trial: Trial, folder: str, size: int) -> list[Ran]:
    return plain(trial, b"\n" * size, b"% items 0")


@shape("lines that are skipped", 1_000_000, 10_000_000)
def skipped_lines(trial: Trial, folder: str, size: int) -> list[Ran]:
    return plain(trial, b"#\n" * size, b"% items 0")


@shape("a line without an end", 20_000_000, 200_000_000)
def endless_line(trial: Trial, folder: str, size: int) -> list[Ran]:
    return plain(trial, b"x" * size, b"1 -: refused E07\n% items 1")


@shape("paragraphs of one byte", 200_000, 2_000_000)
def tiny_paragraphs(trial: Trial, folder: str, size: int) -> list[Ran]:
    return plain(trial, b"x\n\n" * size, b"%d -: refused E01\n%% items %d" % (size, size))


def taken(trial: Trial, size: int, function: Callable[..., Any], turn: int) -> tuple[float, int]:
    """The processor's time of the runs on a shape, and the most memory."""
    folder = trial.place(f"{function.__name__}-{size}-{turn}")
    runs = function(trial, folder, size)
    for left in os.listdir(folder):
        os.remove(os.path.join(folder, left))
    return sum(ran.seconds for ran in runs), max(ran.memory for ran in runs)


def measured(trial: Trial, size: int, function: Callable[..., Any]) -> str:
    """The processor's time at a size and at half of it, and the memory at the larger one."""
    half = whole = math.inf
    most = trial.pick(MOST_TIMES, LONG_TIMES)
    for turn in range(TRIES):
        seconds, memory = taken(trial, size, function, turn)
        half, whole = min(half, taken(trial, size // 2, function, turn)[0]), min(whole, seconds)
        if whole <= half * most + SLACK:
            break
    figures = (
        f"{size:,}: {whole:.2f} s, {whole / max(half, 0.001):.2f} times that of {size // 2:,},"
        f" {memory / 1024:.0f} MiB"
    )
    if whole > half * most + SLACK:
        raise Failure(figures)
    return figures


@pytest.mark.parametrize(
    "short_size, long_size, function",
    [pytest.param(*sizes, id=name) for name, *sizes in SHAPES],
)
def test_twice_the_input_takes_no_more_than_twice_the_time(
    trial: Trial, short_size: int, long_size: int, function: Callable[..., Any], tell: Tell
) -> None:
    tell(measured(trial, trial.pick(short_size, long_size), function))

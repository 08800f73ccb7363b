"""What strangers send that costs much and gives nothing: texts, a registry that takes them, and
what that costs it."""

import contextlib
import hashlib
import itertools
import socket
import string
from collections.abc import Callable, Iterator
from typing import Any

from checks.running import Failure, Trial, expect, write, write_settings
from checks.serving import GIVEN, Serving, read_all

MOST_BODY = 1_048_576
MOST_PARAGRAPH = 65_536
LETTERS = string.ascii_letters + string.digits
SALTS = ["".join(pair) for pair in itertools.product(LETTERS, repeat=2)]
# Operators, each of which leaves a /32 as it is.
OPERATORS = ["", "^+", "^32", *(f"^{least}-32" for least in range(32))]
SECRET = "a secret of the stranger"
PASSWORD = f"password: {SECRET}\n\n"
# The most seconds that a command or an answer may take.
LONGEST = 600


def auth(secret: str, salt: str = "s") -> str:
    return f"SHA256-PW {salt}:{hashlib.sha256((salt + secret).encode()).hexdigest()}"


def owned(first: str, *lines: str, maintainer: str = "E-MNT") -> str:
    """An object, in as few bytes as it can be written."""
    return "\n".join([first, *lines, f"mnt-by:{maintainer}", "source:TEST", "", ""])


def stranger() -> str:
    """A submission of the maintainer that everybody may register."""
    return PASSWORD + owned("mntner:E-MNT", f"auth:{auth(SECRET)}")


def paragraphs_of(lines: Iterator[Any], size: int) -> tuple[str, int]:
    """Paragraphs of these lines, each within its limit, in so many bytes at most; and how many
    lines there are."""
    parts, length, room, count = [], 0, 0, 0
    for line in lines:
        if length + len(line) + 2 > size:
            break
        if room < len(line):
            parts.append("\n")
            room, length = MOST_PARAGRAPH - 100, length + 1
        parts.append(line)
        length, room, count = length + len(line), room - len(line), count + 1
    return "".join(parts) + "\n\n", count


def secrets(size: int, length: int = 3) -> tuple[str, int]:
    """Passwords that nobody has, in so many bytes."""
    words = map("".join, itertools.product(LETTERS, repeat=length))
    return paragraphs_of((f"password:{word}\n" for word in words), size)


def lined(name: str, lines: int, first: int = 0, more: str = "") -> str:
    """A mntner with so many lines of `auth`, each with a salt of its own."""
    text = "".join(
        f"auth:SHA256-PW {salt}:{number:064x}\n" for number, salt in enumerate(SALTS[:lines], first)
    )
    return f"mntner:{name}\nmnt-by:{name}\nsource:TEST\n{more}{text}\n"


def secrets_times_salts(size: int) -> tuple[str, int]:
    """A submission of so many bytes, whose secrets are tried with each salt; and how many digests
    that takes."""
    text, count = secrets(size // 2)
    parts, left, salts = [text], size - len(text), 0
    for number in itertools.count():
        lines = min((min(left, MOST_PARAGRAPH) - 100) // 83, len(SALTS))
        if lines < 1:
            break
        parts.append(lined(f"M{number}", lines, number * len(SALTS)))
        left, salts = left - len(parts[-1]), salts + lines
    return "".join(parts), count * salts


def many_lined(count: int, lines: int) -> tuple[str, str]:
    """A submission of so many mntners with so many lines, and one of a set that names all."""
    mine = f"auth:{auth(SECRET)}\n"
    mntners = "".join(lined(f"M{number}", lines, number * lines, mine) for number in range(count))
    named = ",".join(f"M{number}" for number in range(count))
    return PASSWORD + mntners, PASSWORD + owned("as-set:AS-T", maintainer=named)


def refused_items(count: int) -> str:
    """A submission of so many items, each of which asks for all maintainers of that set, and is
    refused."""
    return "password:x\n\n" + "as-set:AS-T\ndelete:\n\n" * count


def ring(count: int, limit: int, operators: list[str]) -> list[str]:
    """Submissions of so many sets, each of which names all of them under each operator, and has
    values: as many pairs as `limit` allows."""
    names = [f"RS-{number:x}" for number in range(count)]
    named = ",".join(name + operator for name in names for operator in operators)
    each = (limit - count) // count // count
    bodies, body = [], PASSWORD
    for number, name in enumerate(names):
        values = ",".join(
            f"{1 + number // 256}.{number % 256}.{value >> 8}.{value & 255}/32"
            for value in range(each)
        )
        text = owned(f"route-set:{name}", f"members:{values},{named}")
        if len(body) + len(text) > MOST_BODY:
            bodies.append(body)
            body = PASSWORD
        body += text
    return [*bodies, body]


def crumbs(name: str, size: int = MOST_PARAGRAPH, line: str = "a:b\n") -> str:
    """A set of so many bytes that has as many lines as it can have."""
    start = owned(f"as-set:{name}")[:-1]
    return start + line * ((size - len(start)) // len(line)) + "\n"


def crumbs_in(mark: str, size: int = MOST_BODY - 1_000) -> str:
    """A submission of such sets."""
    return PASSWORD + "".join(
        crumbs(f"AS-T{mark}X{number}") for number in range(size // (MOST_PARAGRAPH + 1))
    )


def guesses(count: int, planted: int | None = None) -> str:
    """A submission of so many passwords that asks whether one of them is the root's: of which one
    is, where it is planted."""
    words = [
        "".join(word)
        for word in itertools.islice(itertools.product(string.ascii_lowercase, repeat=4), count)
    ]
    if planted is not None:
        words[planted] = "bc"
    text, found = paragraphs_of((f"password:{word}\n" for word in words), MOST_BODY)
    expect(found, count, "how many passwords there is room for")
    return text + "mntner:ROOT-MNT\ndelete:x\n"


def posted(text: str | bytes) -> bytes:
    """A submission as a request."""
    body = text.encode() if isinstance(text, str) else text
    head = (
        b"POST /submissions HTTP/1.1\r\nHost: irr.example.net\r\nConnection:"
        b" close\r\nContent-Length: %d\r\n\r\n"
    )
    return head % len(body) + body


class Registry(Serving):
    """A registry in a folder of its own, served by a command that begins with these words: none, or
    what sets a limit."""

    def __init__(self, trial: Trial, folder: str, *within: str) -> None:
        super().__init__([*within, trial.program], folder, 1_000_000)
        self.folder = folder

    def connect(self) -> socket.socket:
        return socket.create_connection(("127.0.0.1", self.port), LONGEST)

    def ask(self, text: bytes) -> bytes:
        with contextlib.closing(self.connect()) as peer:
            peer.sendall(text)
            return read_all(peer)

    def whois(self, query: str) -> bytes:
        return self.ask(query.encode() + b"\r\n")

    def post(self, body: str) -> bytes:
        """The report."""
        reply = self.ask(posted(body))
        expect(reply[: len(GIVEN)], GIVEN, "the head of a report")
        return reply[len(GIVEN) :]

    def register(self, *bodies: str) -> None:
        """Submits what has to be accepted."""
        for body in bodies:
            report = self.post(body)
            if b"refused" in report or b"% items " not in report:
                raise Failure(f"a submission that was to be accepted: {report[-300:]!r}")

    def seconds(self) -> float:
        """The processor's time so far."""
        with open(f"/proc/{self.process.pid}/schedstat", encoding="ascii") as opened:
            return int(opened.read().split()[0]) / 1e9

    def resident(self) -> int:
        """The bytes that it holds in memory."""
        return self.memory("VmRSS")

    def peak(self) -> int:
        """The most bytes that it ever held in memory."""
        return self.memory("VmHWM")

    def memory(self, name: str) -> int:
        with open(f"/proc/{self.process.pid}/status", encoding="ascii") as lines:
            return next(int(line.split()[1]) << 10 for line in lines if line.startswith(name))

    def cost(self, function: Callable[..., Any], *given: str) -> tuple[bytes | None, float]:
        """What a call gives, and the processor's seconds that the registry took for it."""
        before = self.seconds()
        given_back = function(*given)
        return given_back, self.seconds() - before


def made(trial: Trial, name: str, limit: int = 10_000, dump: str | None = None) -> str:
    """The folder of a registry: a new one, or one that is loaded from a dump."""
    folder = trial.place(name)
    write_settings(folder, limit=limit)
    words = ["init", "s.toml"]
    if dump is not None:
        write(folder, "dump.rpsl", dump.encode())
        words = ["load", "s.toml", "dump.rpsl"]
    ran = trial.run(folder, *words, timeout=LONGEST)
    expect((ran.status, ran.reported), (0, b""), words[0])
    return folder

"""Cases worked by hand from the rules: submissions to one registry in turn, what is reported of the
last of them, and what is answered after them."""
import tempfile
from dataclasses import dataclass

from checks.running import DIGEST, Ran, Trial, expect, write, write_settings

# A query, the limit of expansions, and what is answered: all of it, or of objects their first
# lines.
Answer = tuple[str, int, str]


def text(*paragraphs: str) -> str:
    """A text of paragraphs, in which bars stand between lines. An object of a maintainer ends with
    its source, if it names none."""
    return "\n".join(paragraph(lines) for lines in paragraphs)


def paragraph(lines: str) -> str:
    made = "".join(f"{line}\n" for line in lines.split(" | "))
    return made + "source: TEST\n" if "mnt-by:" in made and "source:" not in made else made


@dataclass(frozen=True)
class Worked:
    """Submissions to one registry in turn, and the outcome of each item of the last."""

    name: str
    given: tuple[str, ...]
    outcomes: tuple[str, ...]


@dataclass(frozen=True)
class Asked:
    """Submissions to one registry in turn, and what is answered after them."""

    name: str
    given: tuple[str, ...]
    answers: tuple[Answer, ...]


# Texts that begin worked submissions.

# Two maintainers, of the passwords `c` and `abc`.
HOLDERS = text(
    "password: c | password: abc",
    f"mntner: A-MNT | auth: SHA256-PW ab:{DIGEST} | mnt-by: A-MNT",
    f"mntner: B-MNT | auth: SHA256-PW :{DIGEST} | mnt-by: B-MNT",
)
# A /8 of the root, and a /16 of A-MNT in it.
NESTED = text(
    "password: bc | password: c",
    "inetnum: 10.0.0.0/8 | mnt-by: ROOT-MNT",
    "inetnum: 10.1.0.0/16 | mnt-by: A-MNT",
)
# A /8 of the root, AS1 of A-MNT, AS2 of B-MNT, a route of the /8 by AS2 and one of a /16 in it by
# AS1.
ROUTED = text(
    "password: bc | password: c | password: abc",
    "inetnum: 10.0.0.0/8 | mnt-by: ROOT-MNT",
    "aut-num: AS1 | mnt-by: A-MNT",
    "aut-num: AS2 | mnt-by: B-MNT",
    "route: 10.0.0.0/8 | origin: AS2 | mnt-by: B-MNT",
    "route: 10.1.0.0/16 | origin: AS1 | mnt-by: A-MNT",
)
# A /8 of B-MNT, a /16 of A-MNT in it, AS1 of A-MNT and AS2 of B-MNT.
HELD = text(
    "password: bc | password: c | password: abc",
    "inetnum: 10.0.0.0/8 | mnt-by: B-MNT",
    "inetnum: 10.1.0.0/16 | mnt-by: A-MNT",
    "aut-num: AS1 | mnt-by: A-MNT",
    "aut-num: AS2 | mnt-by: B-MNT",
)
# With A-MNT's password, inetnums of A-MNT: one that crosses no other, one that crosses the first,
# one in the first, one round the first, and one that ends before it begins.
RANGES = text(
    "password: c",
    "inetnum: 10.1.0.128 - 10.1.1.127 | mnt-by: A-MNT",
    "inetnum: 10.1.1.0 - 10.1.2.255 | mnt-by: A-MNT",
    "inetnum: 10.1.1.0/25 | mnt-by: A-MNT",
    "inetnum: 10.1.0.0 - 10.1.1.255 | mnt-by: A-MNT",
    "inetnum: 10.1.0.9 - 10.1.0.3 | mnt-by: A-MNT",
)
# The holder's route of its prefix.
HOLDING = text("password: c | password: abc", "route: 10.1.0.0/16 | origin: AS1 | mnt-by: A-MNT")


# Registries of the program, each in a folder of its own.


def opened(trial: Trial) -> str:
    """The folder of a new registry."""
    folder = tempfile.mkdtemp(dir=trial.work)
    write_settings(folder)
    expect_done(trial.run(folder, "init", "s.toml"))
    return folder


def submitted(trial: Trial, given: tuple[str, ...]) -> tuple[str, bytes]:
    """The folder of a new registry after these submissions, and the report on the last of them."""
    folder, report = opened(trial), b""
    for one in given:
        report = submit(trial, folder, one)
    return folder, report


def submit(trial: Trial, folder: str, given: str) -> bytes:
    """The report on a submission to the registry of a folder."""
    write(folder, "given.rpsl", given.encode())
    ran = trial.run(folder, "submit", "s.toml", "given.rpsl")
    is_refused = b": refused E" in ran.printed
    expect((ran.status, ran.reported), (int(is_refused), b""), "how the submission ended")
    return ran.printed


def load(trial: Trial, folder: str, dump: bytes, store: str) -> None:
    """Makes the registry of a dump, which the settings name from then on."""
    write(folder, "dump.rpsl", dump)
    write_settings(folder, store)
    expect_done(trial.run(folder, "load", "s.toml", "dump.rpsl"))


def reload(trial: Trial, folder: str) -> None:
    """Puts the registry of its full dump in the place of a registry."""
    write_settings(folder)
    dumped = trial.run(folder, "dump", "s.toml", "--full")
    expect_done(dumped)
    load(trial, folder, dumped.printed, "loaded.db")


def expect_done(ran: Ran) -> None:
    expect(ran.status, 0, f"the status, with {ran.reported!r}")


def report_of(outcomes: tuple[str, ...]) -> bytes:
    """The report on items of these outcomes."""
    lines = [f"{number} {outcome}\n" for number, outcome in enumerate(outcomes, 1)]
    return "".join([*lines, f"% items {len(lines)}\n"]).encode()


def answered(trial: Trial, folder: str, query: str, limit: int, store: str = "irr.db") -> str:
    """What the registry of a folder answers."""
    write_settings(folder, store, limit)
    ran = trial.run(folder, "query", "s.toml", query)
    is_error = ran.printed.startswith(b"% error ")
    expect((ran.status, ran.reported), (int(is_error), b""), f"how {query!r} ended")
    return ran.printed.decode()


def answers(trial: Trial, folder: str, asked: tuple[Answer, ...], store: str) -> list[Answer]:
    """The queries with what is answered to them."""
    return [
        (query, limit, told(answered(trial, folder, query, limit, store), wanted))
        for query, limit, wanted in asked
    ]


def told(answer: str, wanted: str) -> str:
    """An answer of objects in their first lines, if their whole texts are not wanted."""
    if not answer.endswith("\n\n") or wanted.endswith("\n\n"):
        return answer
    return "".join(held.partition("\n")[0] + "\n" for held in answer.split("\n\n")[:-1])

"""The lines that the program says on standard error, beside docs/MESSAGES.md."""

import re
from collections.abc import Iterable
from pathlib import Path

from checks.running import TOP as FOLDER

TOP = Path(FOLDER)
PAGE = TOP / "docs/MESSAGES.md"
BULLET = re.compile(r"- (?:`` (.+?) ``|``(.+?)``|`(.+?)`)")
# What stands in capitals in a message, and what it may be; a cause is one of a list.
NUMBERS = ["N", "L", "PORT"]
NAMES = ["FILE", "ARGUMENT", "WHAT", "DATABASE", "PLACE", "ROW", "TABLE", "PART"]
# The lists of causes, by the words before each.
CAUSES = "CAUSE of a file, an address or standard output"
FAULTS = "Paragraph N of a dump"
# How a message begins whose cause is a message of a database, and what may stand after a cause.
FAILED = "DATABASE: the database failed, "
COUNT = "(?:; items decided before that: [0-9]+)?"
# What the checks of command_line and databases do not bring about. checks/hostile/test_sweeps.py
# refuses memory and fails calls, and tells which of these were met.
UNMET = [
    "DATABASE: the database failed before: run the command again",
    "DATABASE: the disk is full: make room",
    "DATABASE: the database cannot be used: look at its disk",
    (
        "DATABASE: the tables of the database are of version N, and this program reads version 2:"
        " no irrdesk wrote them, so correct `store`"
    ),
    (
        "DATABASE: the tables of the database are of version N, and what is migrated is version 1:"
        " no irrdesk wrote them, so correct `store`"
    ),
    (
        "DATABASE: the rows of the database are not a registry of the settings' source: correct"
        " `source`, or restore a backup"
    ),
    (
        "DATABASE: the rows of the database are not a registry of version 1 of the settings'"
        " source: correct `source`, or restore a backup"
    ),
    "the file system is read-only: take another path",
    "the quota is used up: make room, or ask for more",
    "the machine has no such address: see that 127.0.0.1 can be used",
    "something of that name is there: take another path",
    "the system does not do that with such a file: take another",
    "its file server has it no longer: mount that again",
    "it ends too early or is spoilt: try again, or take another file",
    "the machine has too many open files: end a program, or raise `fs.file-max` (system error 23)",
    "a signal interrupted it: try again",
    "nothing came in time: try again",
    "the connection broke off: try again",
    "the network is down: bring it up",
    "the system does not say why",
    "FILE: the dump has no end within 16777216 reads: name a whole dump",
    "it cannot listen: CAUSE",
    "out of memory: give the program more",
    "FILE: out of memory: give the program more",
    "DATABASE: out of memory: give the program more",
    "out of memory, and the dump is not whole: give the program more, and dump again",
]


def read_page() -> dict[str, list[str]]:
    """The messages, by the start of the line before their list or by the number of their status."""
    lists: dict[str, list[str]] = {}
    heading = before = ""
    for line in re.sub(r"\n  +", " ", PAGE.read_text()).splitlines():
        found = BULLET.match(line)
        if line.startswith("## "):
            heading = before = line.removeprefix("## ")
        elif found:
            causes = [start for start in (CAUSES, FAULTS) if before.startswith(start)]
            lists.setdefault(causes[0] if causes else heading, []).append(
                (found[1] or found[2] or found[3]).strip()
            )
        elif line and not line.startswith("- "):
            before = line
    return lists


def either(texts: list[str]) -> str:
    """A pattern for one of the texts."""
    return "(?:" + "|".join(pattern(text, "") for text in texts) + ")"


def pattern(text: str, causes: str, faults: str = "") -> str:
    """A pattern for what a message says."""
    parts = []
    for part in re.split(r"\b([A-Z]+)\b|( \.\.)$", text):
        if part in NUMBERS:
            parts.append("[0-9]+")
        elif part in NAMES:
            parts.append(".+")
        elif part == "CAUSE":
            parts.append(causes)
        elif part == " ..":
            parts.append(" " + faults)
        else:
            parts.append(re.escape(part or ""))
    return "".join(parts)


def read_forms() -> tuple[list[str], list[tuple[str, str]]]:
    """The patterns of all messages, and each message and cause of the page with the pattern of a
    line that has it."""
    lists = read_page()
    faults = lists.pop(FAULTS)
    causes = lists.pop(CAUSES)
    failures = [
        text.removeprefix("DATABASE: ")
        for texts in lists.values()
        for text in texts
        if text.startswith("DATABASE: ")
    ]
    known = []
    wanted = [(text, ".* " + pattern(text, "")) for text in faults]
    wanted += [(text, f".*: {pattern(text, '')}{COUNT}") for text in causes]
    for heading, texts in lists.items():
        if not heading.startswith("Status "):
            continue
        for text in texts:
            allowed = either(failures if text.startswith(FAILED) else causes)
            known.append(pattern(text, allowed, either(faults)))
            cause = pattern(text.removeprefix("DATABASE: "), "")
            is_of_database = text.startswith("DATABASE: ")
            wanted.append(
                (text, f"{known[-1]}|.*: {cause}{COUNT}" if is_of_database else known[-1])
            )
    return known, wanted


def bare(reported: Iterable[str]) -> list[str]:
    return sorted({line.removeprefix("irrdesk: ") for line in reported})


def unknown(reported: Iterable[str]) -> list[str]:
    """The lines that are not of the page."""
    known, _ = read_forms()
    return [line for line in bare(reported) if not any(re.fullmatch(one, line) for one in known)]


def met(reported: Iterable[str]) -> str:
    """Which of UNMET were reported."""
    lines, (_, wanted) = bare(reported), read_forms()
    found = [
        text
        for text, form in wanted
        if text in UNMET and any(re.fullmatch(form, line) for line in lines)
    ]
    return "; ".join(dict.fromkeys(found))


def unreported(reported: Iterable[str]) -> list[str]:
    """What the page has, and was not reported, but for UNMET; and what is of UNMET and not in the
    page."""
    lines, (_, wanted) = bare(reported), read_forms()
    missing = [
        text
        for text, form in wanted
        if text not in UNMET and not any(re.fullmatch(form, line) for line in lines)
    ]
    return missing + [f"not in the page: {text}" for text in UNMET if text not in dict(wanted)]

"""Who is concerned, and what he is told: of a change by the object's `notify` and its maintainers'
`mnt-nfy`, of what was refused by their `upd-to` (RFC 2622, 3)."""

import difflib
from collections.abc import Iterable, Iterator
from typing import Any, NamedTuple

from irr.local.history import Repository, State
from irr.registry import answers
from irr.rpsl import holders, keys
from irr.rpsl.keys import Key
from irr.rpsl.syntax import Paragraph
from irr.system import mail
from irr.terminal.texts import counted

# So many addresses of one attribute of an object are told: nobody has the registry write to many.
MOST_ADDRESSES = 5
# The most bytes of differences in a mail, and the most lines that only name an object.
MOST_TEXT, MOST_LINES = 200_000, 1_000


class Notice(NamedTuple):
    """What happened to an object: a line, and the lines that differ."""

    line: str
    difference: str


Notices = dict[str, list[Notice]]


def addresses(paragraph: Paragraph | None, attribute: str) -> list[str]:
    """Where mail can go of an attribute's values."""
    found = [] if paragraph is None else paragraph.values(attribute.encode())
    texts = [value.decode("ascii", "replace") for value in found]
    return [one for one in texts if mail.is_address(one)][:MOST_ADDRESSES]


def of_change(repository: Repository, before: State, state: State) -> Notices:
    """What each address is told of what a state changed of the one before it."""
    name, found = str(repository.folder), []
    for old, new in repository.pairs(before, state):
        was, now = (answers.read(text, name) if text else None for text in (old, new))
        found.append((was, now))
    named = {key for pair in found for one in pair for key in mntners(one)}
    then, after = (repository.texts_of(one, named) for one in (before, state))
    mails: Notices = {}
    for was, now in found:
        concerned = dict.fromkeys(
            address
            for one, texts in ((was, then), (now, after))
            for address in [*addresses(one, "notify"), *of_maintainers(one, texts, name)]
        )
        for address in concerned:
            mails.setdefault(address, []).append(notice(was, now))
    return mails


def mntners(paragraph: Paragraph | None) -> list[Key]:
    """The keys of the maintainers of an object."""
    return [] if paragraph is None else [Key("mntner", by) for by in holders.by(paragraph)]


def of_maintainers(
    paragraph: Paragraph | None, texts: dict[Key, bytes], name: str
) -> Iterator[str]:
    """The addresses that an object's maintainers have for changes."""
    for key in mntners(paragraph):
        if key in texts:
            yield from addresses(answers.read(texts[key], name), "mnt-nfy")


def notice(was: Paragraph | None, now: Paragraph | None) -> Notice:
    """What became of an object that is there before a change, after it, or both."""
    one = now if now is not None else was
    assert one is not None
    key = keys.key_of(one)
    word = "added" if was is None else "deleted" if now is None else "changed"
    lines = difflib.unified_diff(lines_of(was), lines_of(now), "before", "after", lineterm="")
    return Notice(
        f"{key.kind} {key.text}: {word}" if key else word, "\n".join(list(lines)[2:]) + "\n"
    )


def lines_of(paragraph: Paragraph | None) -> list[str]:
    return [] if paragraph is None else paragraph.text().decode("utf-8", "replace").splitlines()


def text_of(notices: list[Notice]) -> str:
    """The differences of some objects; of those that there is no room for the lines that name them,
    and of more how many there are."""
    parts, room = [], MOST_TEXT
    for place, one in enumerate(notices):
        room -= len(one.difference)
        if room < 0 and place:
            rest = notices[place:]
            parts += [f"{other.line}\n" for other in rest[:MOST_LINES]]
            if len(rest) > MOST_LINES:
                more = counted(len(rest) - MOST_LINES, "more object")
                parts.append(f"and {more}\n")
            break
        parts.append(f"{one.line}\n\n{one.difference}\n")
    return "".join(parts)


def refusals(entries: Iterable[dict[str, Any]]) -> dict[str, list[str]]:
    """The lines of refused items by the maintainers that they name or are."""
    found: dict[str, list[str]] = {}
    for entry in entries:
        if not str(entry.get("outcome")).startswith("E") or not entry.get("key"):
            continue
        names = [str(one).upper() for one in entry.get("mnt-by") or []]
        if entry.get("class") == "mntner":
            names.append(str(entry["key"]).upper())
        line = (
            f"{entry.get('time')} from {entry.get('client')}: {entry['class']} {entry['key']}:"
            f" refused {entry['outcome']}"
        )
        for name in dict.fromkeys(names):
            found.setdefault(name, []).append(line)
    return found


def of_refusals(
    repository: Repository, state: State, entries: Iterable[dict[str, Any]]
) -> dict[str, str]:
    """What each address is told of what was refused."""
    found = refusals(entries)
    texts = repository.texts_of(state, [Key("mntner", name) for name in found])
    mails: dict[str, list[str]] = {}
    for key, text in texts.items():
        for address in addresses(answers.read(text, str(repository.folder)), "upd-to"):
            mails.setdefault(address, []).extend(found[key.text])
    return {address: refused_text(list(dict.fromkeys(lines))) for address, lines in mails.items()}


def refused_text(lines: list[str]) -> str:
    more = len(lines) - MOST_LINES
    last = f"and {more:,} more\n" if more > 0 else ""
    return "".join(f"{line}\n" for line in lines[:MOST_LINES]) + last

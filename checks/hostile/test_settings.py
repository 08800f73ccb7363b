"""Settings of chance, beside Python's reader of TOML."""

import random
import re
import tomllib
from typing import Any

from checks.chances import mutated
from checks.hostile.runs import Worst, is_text, kept
from checks.model.numbers import NAME, maintainer
from checks.model.objects import SECRET_LINE
from checks.running import (
    AUTH,
    SETTINGS,
    Failure,
    Tell,
    Trial,
    expect,
    expect_ended,
    write,
    write_settings,
)

IN_MEMORY, SECONDS = True, 20


# Settings.

SETTING_LINES = [
    b'source = "ANY"',
    b'source = "t"',
    b'source = "T-"',
    b"source = 7",
    b'"source" = "X"',
    b"root = 'A-MNT'",
    b'root = "ANY"',
    b'root = "RS-X"',
    b"[[root]]",
    b'auth = "CRYPT-PW x"',
    b'auth = "sha256-pw  ' + AUTH[10:].encode() + b' "',
    b'auth = """' + AUTH.encode() + b'"""',
    b"limit = 1",
    b"limit = 1_000_000",
    b"limit = 1000001",
    b"limit = 0x10",
    b"limit = -1",
    b"limit = 1.0",
    b"limit = true",
    b"limit = 99999999999999999999",
    b'store = ""',
    b'store = "none/x.db"',
    b'store = "\\u0000"',
    b'store = "\\u00e9.db"',
    b"[store]",
    b"# a comment",
    b"extra = {a = 1, b = [1, 2.5, 1979-05-27]}",
    b'other = """\nlines\n"""',
    b"a.b.c = 1",
    b"x = [1,\n2]",
]


def any_settings(chance: random.Random) -> bytes:
    lines = SETTINGS.format(store="irr.db", limit=10_000).encode().splitlines()
    for _ in range(chance.choice([0, 1, 1, 2])):
        place = chance.randrange(len(lines))
        lines[place : place + chance.randrange(2)] = [chance.choice(SETTING_LINES)]
    if chance.random() < 0.1:
        lines.pop(chance.randrange(len(lines)))
    text = chance.choice([b"\n", b"\n", b"\r\n"]).join(lines) + chance.choice([b"\n", b""])
    return mutated(chance, text) if chance.random() < 0.4 else text


def first_bad(table: dict[str, Any]) -> str | None:
    """The first key that is missing or bad, by the rules of the settings."""
    source, root, auth, limit, store = (
        table.get(key) for key in ["source", "root", "auth", "limit", "store"]
    )
    words = re.findall(rb"[^ \t\r]+", auth.encode()) if isinstance(auth, str) else []
    good = [
        isinstance(source, str) and NAME.fullmatch(source.encode()),
        isinstance(root, str) and maintainer(root.encode()),
        len(words) == 2 and words[0].upper() == b"SHA256-PW" and SECRET_LINE.fullmatch(words[1]),
        type(limit) is int and 1 <= limit <= 1_000_000,
        isinstance(store, str) and store,
    ]
    return next(
        (
            key
            for key, holds in zip(["source", "root", "auth", "limit", "store"], good)
            if not holds
        ),
        None,
    )


def test_settings_of_chance_are_taken_or_named(trial: Trial, tell: Tell) -> None:
    """Settings files: the first bad key is named, or it is no TOML, or the registry that they name
    is asked."""
    count = trial.count or trial.pick(200, 100_000)
    chance, worst, other = trial.chance("settings"), Worst(), 0
    folder = trial.place("settings")
    write_settings(folder)
    expect(trial.run(folder, "init", "s.toml").status, 0, "init")
    for turn in range(count):
        text = any_settings(chance)
        write(folder, "f.toml", text)
        ran = worst.note(trial.run(folder, "query", "f.toml", "ROOT-MNT"))
        expect_ended(ran, f"turn {turn}, {text!r}")
        wanted, reported = settings_outcome(text), ran.reported.decode(errors="replace")
        other += (
            wanted != "no text"
            and "the settings are not TOML" not in reported
            and read_toml(text) is None
        )
        if not fits_outcome(wanted, ran.status, reported):
            raise Failure(
                f"turn {turn}, {kept('f.toml', text)}: {wanted}: status {ran.status}, {reported}"
            )
    tell(f"{count} files, {other} of them TOML of 1.1 alone; {worst.figures()}")


def fits_outcome(wanted: str, status: int, reported: str) -> bool:
    """Whether a status and words fit an outcome of the settings."""
    if wanted.startswith("`"):
        return status == 3 and reported.startswith(f"irrdesk: f.toml: {wanted} is missing or bad: ")
    says_so = status == 3 and reported.startswith("irrdesk: f.toml: the settings are not TOML: ")
    fits = {
        "good": status != 3,
        "no text": status == 3,
        "a number too large": says_so,
        "no TOML": says_so,
        "perhaps TOML": says_so or status in (0, 3, 4),
    }
    return fits[wanted]


def has_large_number(value: dict[str, int | str] | str | int) -> bool:
    """Whether a whole number stands there that has over 64 bits, which TOML has as a fault and
    Python's reader takes."""
    if isinstance(value, (dict, list)):
        return any(
            has_large_number(one) for one in (value.values() if isinstance(value, dict) else value)
        )
    return isinstance(value, int) and not -(1 << 63) <= value < 1 << 63


# Some of this stands in each text that is TOML of 1.1, which the program reads, and not of 1.0,
# which Python does: the escapes \e and \x, a time without seconds, an inline table with lines or a
# last comma.
NEWER = re.compile(rb"\\[ex]|[0-9]:[0-9]|\{")


def in_older_toml(text: bytes) -> bytes:
    """A text of TOML 1.1 as one of 1.0, as far as this is done by its marks alone."""
    text = re.sub(rb"\\x([0-9A-Fa-f]{2})", rb"\\u00\1", text.replace(rb"\e", rb"\u001b"))
    text = re.sub(rb"(?<![0-9:+-])([0-9]{2}:[0-9]{2})(?![0-9:])", rb"\1:00", text)
    return re.sub(
        rb"\{[^}]*\}",
        lambda found: re.sub(rb",\s*\}", b"}", re.sub(rb"(?:#[^\n]*|\r)?\n", b" ", found[0])),
        text,
    )


def read_toml(text: bytes) -> dict[str, Any] | None:
    """The table of a text, by Python's reader, or nothing."""
    try:
        return tomllib.loads(text.decode().removeprefix("\ufeff"))
    except ValueError:
        return None


def settings_outcome(text: bytes) -> str:
    if not is_text(text):
        return "no text"
    table = read_toml(text)
    if table is None:
        table = read_toml(in_older_toml(text))
    if table is None:
        return "perhaps TOML" if NEWER.search(text) else "no TOML"
    key = first_bad(table)
    return "a number too large" if has_large_number(table) else f"`{key}`" if key else "good"

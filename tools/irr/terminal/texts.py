"""What goes to people: no control character gets to a terminal, and colours go to a terminal
alone."""
import contextlib
import os
import re
import sys
import time
from typing import IO, Iterable, Sequence

# C0 but tab and LF, DEL, C1, and the marks that turn the direction of writing round.
CONTROL = re.compile(
    "[\x00-\x08\x0b-\x1f\x7f-\x9f\u061c\u200e\u200f\u2028-\u202e\u2066-\u2069\udc80-\udcff]"
)
RED, GREEN, YELLOW, CYAN, BOLD, DIM = "31", "32", "33", "36", "1", "2"


def escaped(found: re.Match[str]) -> str:
    number = ord(found[0])
    if 0xDC80 <= number <= 0xDCFF:
        number -= 0xDC00
    return f"\\x{number:02x}" if number < 256 else f"\\u{number:04x}"


def text_of(data: bytes) -> str:
    """Bytes as text: UTF-8 if they are, else Latin-1. Registries have both."""
    try:
        return data.decode("utf-8")
    except UnicodeDecodeError:
        return data.decode("latin-1")


def shown(data: bytes | str) -> str:
    """A text as a terminal may get it: each control character is escaped, CR and C1 among them, but
    not LF and tab."""
    if isinstance(data, bytes):
        data = "\n".join(text_of(line) for line in data.split(b"\n"))
    return CONTROL.sub(escaped, data)


def shown_line(data: bytes | str) -> str:
    """The same of what has to stay on one line."""
    return shown(data).replace("\n", "\\x0a")


def is_terminal(stream: IO[str] | None) -> bool:
    try:
        return stream is not None and stream.isatty()
    except ValueError:
        return False


def has_colours(stream: IO[str] | None = None) -> bool:
    """Whether a stream gets colours: a terminal, unless NO_COLOR is set or TERM is `dumb`."""
    return (
        is_terminal(stream or sys.stdout)
        and not os.environ.get("NO_COLOR")
        and os.environ.get("TERM") != "dumb"
    )


def painted(text: str, colour: str, stream: IO[str] | None = None) -> str:
    """The text in a colour, on a stream that gets colours; `colour` is one of the constants above,
    or nothing."""
    return f"\x1b[{colour}m{text}\x1b[0m" if colour and has_colours(stream) else text


def put(data: bytes) -> None:
    """Writes bytes to standard output: exactly, or escaped on a terminal."""
    if is_terminal(sys.stdout):
        sys.stdout.write(shown(data))
    else:
        sys.stdout.flush()
        sys.stdout.buffer.write(data)


def put_all(pieces: Iterable[bytes]) -> None:
    """Writes pieces of a text to standard output as they come; on a terminal line by line."""
    if not is_terminal(sys.stdout):
        for piece in pieces:
            put(piece)
        return
    rest = b""
    for piece in pieces:
        lines, end, rest = (rest + piece).rpartition(b"\n")
        put(lines + end)
    put(rest)


def note(words: str) -> None:
    """A line on standard error, if there is one that takes it."""
    if sys.stderr is not None:
        with contextlib.suppress(OSError):
            print(shown_line(words), file=sys.stderr)


def columns(rows: Iterable[Iterable[str]], gap: int = 2) -> list[str]:
    """Lines in which each cell stands under that of the row before."""
    table = [list(row) for row in rows]
    widths = [
        max((len(row[place]) for row in table if place < len(row)), default=0)
        for place in range(max(map(len, table), default=0))
    ]
    return [
        (" " * gap).join(cell.ljust(width) for cell, width in zip(row, widths)).rstrip()
        for row in table
    ]


def counted(number: int, thing: str, things: str = "") -> str:
    """`1 object`, `2 objects`."""
    return f"{number:,} {thing}" if number == 1 else f"{number:,} {things or thing + 's'}"


def stamp(seconds: float) -> str:
    """A time in UTC; nothing where no calendar has it."""
    with contextlib.suppress(ValueError, OverflowError, OSError):
        return time.strftime("%Y-%m-%dT%H:%M:%SZ", time.gmtime(seconds))
    return ""


def since(times: Iterable[float]) -> str:
    """` since` the first of some times, in UTC; nothing where there is none, each is 0, or no
    calendar has it."""
    first = min(filter(None, times), default=0.0)
    found = stamp(first) if first else ""
    return f" since {found}" if found else ""


def ahead(times: Sequence[float], now: float) -> str:
    """That some things are dated in the future."""
    first, last = (stamp(at) or "beyond all calendars" for at in (min(times), max(times)))
    dated = first if first == last else f"{first} to {last}"
    return f"dated {dated}, and the clock says {stamp(now)}"


def wrapped(words: str, indent: str = "    ") -> list[str]:
    """Words on lines of at most 100 characters."""
    import textwrap

    return textwrap.wrap(
        shown_line(words),
        100,
        initial_indent=indent,
        subsequent_indent=indent,
        break_long_words=False,
        break_on_hyphens=False,
    )

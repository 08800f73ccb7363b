"""The filters of a settings file: each is made by a command, read by its router's own parser, and
only then put in place."""
import math
import mmap
import os
import re
import shlex
import subprocess
import tempfile
import time
from pathlib import Path
from typing import IO, NamedTuple

from irr.errors import DONE, REFUSED, SETTINGS, Failure, reading, system_words
from irr.filters import lists
from irr.system import files, tomls
from irr.terminal import texts

KEYS = {"file", "router", "make"}
# Seconds that a command may take, and the most bytes that it may print.
PATIENCE, MOST = 600, 64 << 20
# Hours after which a filter is stale, and the percentage of its prefixes that a list may lose at
# once.
STALE, SHRINK = 24, 30
# The status where a list was kept back because the new one lost more than that.
SHRUNK = 4
# What bgpq4 says, with status 0, where it left something out. A list may have such a word in a
# name.
REPORTED_FAULT, PRINTED_FAULT = re.compile(rb"ERROR"), re.compile(rb"\bERROR:")
# What has to stand round a filter so that its router reads it alone, and the command that reads it.
BIRD = 'router id 192.0.2.1;\nprotocol device {{ }}\ninclude "{}";\n'
OPENBGPD = 'AS 64496\ninclude "{}"\n'
ROUTERS = {
    "bird": (BIRD, ["bird", "-p", "-c"]),
    "frr": ("", ["vtysh", "-C", "-f"]),
    "openbgpd": (OPENBGPD, ["/usr/sbin/bgpd", "-n", "-f"]),
}


class Filter(NamedTuple):
    """A filter: the file that it is, the router that reads it, and the words of the command that
    prints it."""

    file: str
    router: str
    make: list[str]


class Settings(NamedTuple):
    """A settings file: its filters, the hours after which one is stale, and the percentage of its
    prefixes that a list may lose at once."""

    filters: list[Filter]
    stale: float
    shrink: float


class Shrunk(Failure):
    """A new list lacks more of the old one than it may lose at once."""


@reading("a file")
def make_all(path: str, accepts: bool = False) -> int:
    """Makes all filters of a settings file, and gives the status. One that could not be made stays
    as it was, and is said to be stale once it is old; one that shrank too much does too, unless
    that is accepted."""
    wanted = read(path)
    status = DONE
    for one in wanted.filters:
        try:
            print(make(one, 100 if accepts else wanted.shrink), flush=True)
        except Failure as failure:
            status = SHRUNK if isinstance(failure, Shrunk) else status or REFUSED
            texts.note(f"irr filter: {failure}{unchanged(one.file, wanted.stale)}")
    return status


def read(path: str) -> Settings:
    """What a settings file has."""
    found = tomls.read(path)
    listed = found.pop("filter", [])
    stale, shrink = found.pop("stale", STALE), found.pop("shrink", SHRINK)
    if found:
        raise Failure(
            path,
            f"there is no key {next(iter(found))}; write `stale`, `shrink` and tables [[filter]]",
            SETTINGS,
        )
    if not is_number(stale) or not 0 < stale <= 1e9:
        raise Failure(path, "`stale` is not a number of hours; write one, such as 24", SETTINGS)
    if not is_number(shrink) or not 0 <= shrink <= 100:
        raise Failure(
            path, "`shrink` is not a percentage from 0 to 100; write one, such as 30", SETTINGS
        )
    if not isinstance(listed, list) or not listed:
        raise Failure(path, "it has no filter; write a table [[filter]] for each", SETTINGS)
    filters = [read_filter(path, table) for table in listed]
    places = [os.path.realpath(one.file) for one in filters]
    for one, place in zip(filters, places):
        if places.count(place) > 1:
            raise Failure(path, f"two filters are {one.file}; give each a file", SETTINGS)
    return Settings(filters, stale, shrink)


def is_number(value: object) -> bool:
    return isinstance(value, (int, float)) and not isinstance(value, bool)


def read_filter(path: str, table: object) -> Filter:
    if not isinstance(table, dict) or set(table) != KEYS or not all(map(is_text, table.values())):
        raise Failure(
            path,
            "a [[filter]] has the texts `file`, `router` and `make`, and no others; correct it",
            SETTINGS,
        )
    if table["router"] not in ROUTERS:
        raise Failure(
            path,
            f"{table['router']} is not a router whose parser is known; write {', '.join(ROUTERS)}",
            SETTINGS,
        )
    try:
        words = shlex.split(table["make"])
    except ValueError as error:
        raise Failure(
            path, f"`make` of {table['file']}: {str(error).lower()}; correct it", SETTINGS
        ) from None
    if not words or not words[0]:
        raise Failure(path, f"`make` of {table['file']} has no command; correct it", SETTINGS)
    if not os.path.isabs(table["file"]) or '"' in table["file"]:
        raise Failure(path, f"{table['file']} is not a whole path; begin it with /", SETTINGS)
    return Filter(table["file"], table["router"], words)


def is_text(value: object) -> bool:
    """Whether a path or a command can be made of it."""
    return isinstance(value, str) and bool(value.strip()) and "\0" not in value


def make(one: Filter, shrink: float) -> str:
    """Makes a filter, and puts it in place; Shrunk where an old list lost over `shrink` percent of
    its entries. The words say whether it is another one."""
    if os.path.exists(one.file) and not os.path.isfile(one.file):
        raise files.not_replaced(one.file)
    text, reported = printed(one.make)
    if reported:
        texts.note(f"irr filter: {one.file}: {one.make[0]} reports: {reported}")
    if not lists.meaning(one.router, text.decode("latin-1")):
        raise Failure(one.make[0], "it printed nothing but comments; look at `make`")
    read_by(one.router, text, "new")
    was = before(one, shrink)
    if was != text:
        need_kept(one, was, text, shrink)
    # It is written also if nothing changed: its time is that of the last good answer.
    files.put(one.file, text)
    return f"{one.file}: " + ("as it was" if text == was else "made anew" if was else "made")


def before(one: Filter, shrink: float) -> bytes:
    """The old list; nothing where there is none, or where it may lose everything and can't be
    read."""
    try:
        return Path(one.file).read_bytes()
    except FileNotFoundError:
        return b""
    except OSError as error:
        if shrink < 100:
            raise unknown(one, system_words(error)) from None
        return b""


def unknown(one: Filter, why: str) -> Shrunk:
    """That nobody knows what a new list lacks of the old one."""
    return Shrunk(
        one.make[0],
        f"what it lacks of the old list is not known, which can't be read: {why}; look at that, "
        "or take the new one by --accept",
    )


def need_kept(one: Filter, old: bytes, new: bytes, shrink: float) -> None:
    """That each new list keeps enough of the old one of its name, and that this can be read."""
    if shrink < 100 and lists.meaning(one.router, old.decode("latin-1")):
        try:
            read_by(one.router, old, "old")
        except Failure as failure:
            raise unknown(one, failure.what) from None
    losses = lists.losses(one.router, old.decode("latin-1"), new.decode("latin-1"))
    bad = [loss for loss in losses if loss.lost * 100 > loss.size * shrink]
    if bad:
        name, lost, size = bad[0]
        named, more = f" {name}" if name else "", len(bad) - 1
        others = f", and of {texts.counted(more, 'other list')} too much" if more else ""
        raise Shrunk(
            one.make[0],
            f"its list{named} lacks {lost:,} of the old one's "
            f"{texts.counted(size, 'entry', 'entries')}, over {shrink:g} %{others}; look what is "
            "gone, or take it by --accept",
        )


def printed(words: list[str]) -> tuple[bytes, str]:
    """What a command prints that ends well, and what it reports, on one line."""
    with tempfile.TemporaryFile() as out, tempfile.TemporaryFile() as errors:
        try:
            done = subprocess.run(
                words,
                stdin=subprocess.DEVNULL,
                stdout=out,
                stderr=errors,
                timeout=PATIENCE,
                check=False,
            )
        except OSError as error:
            raise Failure(
                words[0], f"{system_words(error)}; install it, or correct `make`"
            ) from None
        except subprocess.TimeoutExpired:
            raise Failure(
                words[0], f"it did not end within {PATIENCE} seconds; look what it waits for"
            ) from None
        fault = fault_line(errors, REPORTED_FAULT) or fault_line(out, PRINTED_FAULT)
        if done.returncode:
            errors.seek(0)
            why = reported_line(fault or errors.read(4_096))
            raise Failure(words[0], f"it ended with status {done.returncode}: {why}")
        # bgpq4 says ERROR and ends with status 0 if it left something out.
        if fault:
            raise Failure(words[0], reported_line(fault))
        size = out.seek(0, os.SEEK_END)
        if not size or size > MOST:
            raise Failure(
                words[0],
                f"it printed {'nothing' if not size else f'over {MOST:,} bytes'}; look at `make`",
            )
        out.seek(0)
        errors.seek(0)
        return out.read(), line_of(errors.read(4_096))


def fault_line(stream: IO[bytes], pattern: re.Pattern[bytes]) -> bytes:
    """The first line of a stream that has a pattern, of which 400 bytes before it and after it,
    with the reply of the door that bgpq4 shows on the next one; nothing where none has."""
    if not os.fstat(stream.fileno()).st_size:
        return b""
    with mmap.mmap(stream.fileno(), 0, access=mmap.ACCESS_READ) as text:
        found = pattern.search(text)
        if not found:
            return b""
        begin, end = max(found.start() - 400, 0), found.end() + 400
        line, _, after = text[found.start() : end].partition(b"\n")
        reply = b"\n" + after.partition(b"\n")[0] if after.startswith(b"F ") else b""
        return text[begin : found.start()].rpartition(b"\n")[2] + line + reply


def read_by(router: str, text: bytes, name: str) -> None:
    """Has the router's own parser read a filter, which that calls by this name."""
    with tempfile.TemporaryDirectory(prefix="irr-") as folder:
        path = Path(folder) / name
        path.write_bytes(text)
        look(router, path)


def look(router: str, new: Path) -> None:
    """Has the router's own parser read a filter."""
    around, command = ROUTERS[router]
    whole = new
    if around:
        whole = new.with_name("whole.conf")
        whole.write_text(around.format(new), encoding="utf-8")
    for path in new, whole:
        path.chmod(0o600)
    environment = os.environ | {"PATH": os.environ.get("PATH", "/usr/bin:/bin") + ":/usr/sbin"}
    try:
        done = subprocess.run(
            [*command, str(whole)],
            stdin=subprocess.DEVNULL,
            capture_output=True,
            timeout=PATIENCE,
            check=False,
            env=environment,
        )
    except OSError as error:
        raise Failure(
            command[0], f"{system_words(error)}: nothing reads filters for {router}; install it"
        ) from None
    except subprocess.TimeoutExpired:
        raise Failure(command[0], f"it did not end within {PATIENCE} seconds") from None
    if done.returncode:
        raise Failure(
            command[0], f"it does not read the filter: {reported_line(done.stderr or done.stdout)}"
        )


def reported_line(reported: bytes) -> str:
    """What a program reported, on one line that is not long."""
    return line_of(reported) or "it says nothing"


def line_of(reported: bytes) -> str:
    """The same; nothing where it reported nothing."""
    lines = (line.strip() for line in texts.text_of(reported).split("\n"))
    return "; ".join(filter(None, lines)).strip("; ")[:400]


def unchanged(path: str, hours: float = math.inf) -> str:
    """What is said of the file of a filter that was not made: that it stays, and is stale if it is
    older than so many hours, or that there is none."""
    try:
        old = (time.time() - os.stat(path).st_mtime) / 3_600
    except OSError:
        return f"; there is no {path} yet"
    stale = f", and is STALE: it was made {old:.0f} hours ago" if old > hours else ""
    return f"; {path} stays as it was{stale}"

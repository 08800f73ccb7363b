"""What a terminal shows of a long command while it goes on, and once it is done."""

import contextlib
import os
import re
import select
import shlex
import shutil
import subprocess
import threading
import time
from collections.abc import Sequence
from typing import IO

import pytest

from checks.model.registry import Registry
from checks.running import (
    AUTH,
    PATIENCE,
    Failure,
    Skipped,
    Tell,
    Trial,
    expect,
    short,
    write,
    write_settings,
)
from checks.texts import item
from checks.worked import READER_ENDED, REPORT_CUT

# It looks at times.
pytestmark = pytest.mark.alone


LIMIT = 10_000
PASSWORD = b"password: bc\n\n"
OPENING = b"opening the database"
COUNT = re.compile(rb"([0-9]+) (items|objects|bytes) so far")


class Screen:
    """What a terminal shows of the bytes that are written to it, as far as the program uses one:
    lines, a carriage return, and the sequence that clears a line from the cursor on."""

    def __init__(self) -> None:
        self.lines, self.column, self.rest, self.written = [b""], 0, b"", b""
        self.counts: list[tuple[int, str]] = []

    def take(self, written: bytes) -> None:
        """Shows what is written next, and notes each count that comes to stand on the last line."""
        self.written += written
        text = self.rest + written
        self.rest = re.search(rb"(\x1b\[?)?$", text)[0]
        for part in re.findall(
            rb"\r|\n|\x1b\[K|[^\r\n\x1b]+|\x1b", text[: len(text) - len(self.rest)]
        ):
            self.show(part)
            self.look()

    def look(self) -> None:
        found = COUNT.fullmatch(self.lines[-1])
        if found:
            self.counts.append((int(found[1]), found[2].decode()))
        elif b" so far" in self.lines[-1]:
            raise Failure(f"a count beside something else: {short(self.lines[-1])}")

    def show(self, part: bytes) -> None:
        last = self.lines[-1]
        if part == b"\r":
            self.column = 0
        elif part == b"\n":
            self.lines.append(b" " * self.column)
        elif part == b"\x1b[K":
            self.lines[-1] = last[: self.column]
        else:
            self.lines[-1] = last[: self.column] + part + last[self.column + len(part) :]
            self.column += len(part)

    def text(self) -> bytes:
        return b"\n".join(self.lines)


class Seen:
    """How a command ended: its status, the screen, and what it printed elsewhere."""

    def __init__(self, status: int, screen: Screen, printed: bytes) -> None:
        self.status, self.screen, self.printed = status, screen, printed

    def expect_end(self, status: int, shown: bytes, printed: bytes = b"") -> None:
        expect(self.status, status, "the status")
        expect(self.screen.text(), shown, "what the terminal shows at the end")
        expect(self.printed, printed, "what is printed elsewhere")

    def expect_counts(self, things: str, most: int) -> None:
        """That counts of these were seen, each at least the one before."""
        numbers = [number for number, _ in self.screen.counts]
        expect({name for _, name in self.screen.counts}, {things}, "what is counted")
        expect(numbers, sorted(numbers), "the order of the counts")
        expect(
            0 < numbers[-1] <= most,
            True,
            f"whether the last count, {numbers[-1]}, is at most {most}",
        )

    def figures(self) -> str:
        return f"{len(set(self.screen.counts))} counts"


def feed(path: str, texts: Sequence[bytes], pause: float) -> None:
    """Writes texts to a pipe of that name, with a pause after each."""
    with contextlib.suppress(BrokenPipeError), open(path, "wb", buffering=0) as out:
        for text in texts:
            out.write(text)
            time.sleep(pause)


def run(
    trial: Trial,
    folder: str,
    words: list[str],
    shared: bool = True,
    reported: IO[bytes] | None = None,
    fed: Sequence[bytes] = (),
    step: int = 65_536,
    pause: float = 0.0,
    leaves: bool = False,
) -> Seen:
    """Runs the program with a terminal as its standard error, or with a file, and with the same
    terminal as its standard output, or with a pipe, which its reader may leave once a count was
    shown. Some texts go to the pipe `slow`, 0.4 seconds between them. The terminal and the pipe are
    read in steps, with a pause behind each."""
    master, slave = os.openpty()
    reader, writer = os.pipe()
    process = subprocess.Popen(
        [trial.program, *words],
        cwd=folder,
        stdin=subprocess.DEVNULL,
        stdout=slave if shared else writer,
        stderr=reported or slave,
    )
    os.close(slave)
    os.close(writer)
    if fed:
        threading.Thread(
            target=feed, args=(os.path.join(folder, "slow"), fed, 0.4), daemon=True
        ).start()
    try:
        return watched(process, master, reader, step, pause, leaves)
    finally:
        process.kill()
        process.wait()
        os.close(master)


def watched(
    process: subprocess.Popen[bytes],
    master: int,
    reader: int,
    step: int,
    pause: float,
    leaves: bool,
) -> Seen:
    screen, printed, begun, left = Screen(), b"", time.monotonic(), {master, reader}
    while left:
        if time.monotonic() > begun + PATIENCE:
            raise Failure(f"it was not done within {PATIENCE} s")
        for file in select.select(list(left), [], [], 0.1)[0]:
            part = part_of(file, step)
            if not part:
                left.discard(file)
            elif file == master:
                screen.take(part)
            else:
                printed += part
        if leaves and screen.counts and reader in left:
            left.discard(reader)
            os.close(reader)
            reader = -1
        time.sleep(pause)
    if reader >= 0:
        os.close(reader)
    return Seen(process.wait(PATIENCE), screen, printed)


def part_of(file: int, step: int) -> bytes:
    """What can be read; nothing at the end, which a terminal tells as a fault."""
    try:
        return os.read(file, step)
    except OSError:
        return b""


# Registries.


def registry_of(count: int, size: int) -> Registry:
    """A registry with so many aut-nums of a size beside those that it opens with."""
    registry = Registry(auth=AUTH.encode())
    texts = [
        item(b"aut-num", b"AS%d" % number, b"descr: %s\n" % (b"x" * size))
        for number in range(count)
    ]
    registry.submit(PASSWORD + b"\n".join(texts))
    return registry


def made(trial: Trial, name: str, registry: Registry) -> str:
    """A folder with a database of the registry, and a pipe named `slow`."""
    folder = emptied(trial, name)
    write(folder, "dump.rpsl", registry.dump())
    expect(trial.run(folder, "load", "s.toml", "dump.rpsl").status, 0, "load")
    return folder


def emptied(trial: Trial, name: str) -> str:
    folder = trial.place(name)
    write_settings(folder, limit=LIMIT)
    os.mkfifo(os.path.join(folder, "slow"))
    return folder


def submission(count: int) -> tuple[list[bytes], bytes]:
    """Texts of one item each, the report on them in a new registry, and that report on a
    terminal."""
    texts = [PASSWORD] + [item(b"aut-num", b"AS%d" % number) + b"\n" for number in range(count)]
    lines = Registry(auth=AUTH.encode()).submit(b"".join(texts))
    return texts, "".join(line + "\n" for line in lines).encode()


# Cases.


def test_a_count_is_shown_beside_a_report_in_a_pipe(trial: Trial, tell: Tell) -> None:
    folder = made(trial, "submit beside", Registry(auth=AUTH.encode()))
    texts, report = submission(8)
    seen = run(trial, folder, ["submit", "s.toml", "slow"], shared=False, fed=texts)
    seen.expect_end(0, b"", report)
    seen.expect_counts("items", 8)
    tell(seen.figures())


def test_a_count_stands_below_the_report_on_one_terminal(trial: Trial, tell: Tell) -> None:
    folder = made(trial, "submit above", Registry(auth=AUTH.encode()))
    texts, report = submission(8)
    seen = run(trial, folder, ["submit", "s.toml", "slow"], fed=texts)
    seen.expect_end(0, report)
    seen.expect_counts("items", 8)
    tell(seen.figures())


def test_a_count_is_removed_before_a_report_cannot_be_written(trial: Trial, tell: Tell) -> None:
    """A report that nobody reads any more: the message stands where the count did."""
    folder = made(trial, "submit unread", Registry(auth=AUTH.encode()))
    texts, report = submission(10)
    seen = run(trial, folder, ["submit", "s.toml", "slow"], shared=False, fed=texts, leaves=True)
    reported = f"irrdesk: {REPORT_CUT}\n".format(
        READER_ENDED, seen.printed.count(b"\n") + 1
    ).encode()
    expect(report.startswith(seen.printed), True, f"a front of the report: {short(seen.printed)}")
    seen.expect_end(5, reported, seen.printed)
    seen.expect_counts("items", 10)
    tell(seen.figures())


def test_a_count_is_shown_while_a_dump_goes_to_a_slow_pipe(trial: Trial, tell: Tell) -> None:
    registry = registry_of(30, 60_000)
    folder = made(trial, "dump beside", registry)
    seen = run(trial, folder, ["dump", "s.toml", "--full"], shared=False, step=8_192, pause=0.01)
    seen.expect_end(0, b"", registry.dump())
    seen.expect_counts("objects", len(registry.objects))
    tell(seen.figures())


def test_a_count_stands_below_a_dump_on_one_terminal(trial: Trial, tell: Tell) -> None:
    registry = registry_of(300, 500)
    folder = made(trial, "dump above", registry)
    seen = run(trial, folder, ["dump", "s.toml"], step=1_024, pause=0.01)
    seen.expect_end(0, registry.dump(full=False))
    seen.expect_counts("objects", len(registry.objects))
    tell(seen.figures())


def parts_of(text: bytes, count: int) -> list[bytes]:
    size = len(text) // count + 1
    return [text[place : place + size] for place in range(0, len(text), size)]


@pytest.mark.parametrize("shared", [False, True], ids=["its line in a pipe", "on one terminal"])
def test_a_count_of_a_load_is_removed(trial: Trial, shared: bool, tell: Tell) -> None:
    registry = registry_of(50, 2_000)
    folder = emptied(trial, f"load {shared}")
    text, line = registry.dump(), b"loaded %d objects\n" % len(registry.objects)
    seen = run(trial, folder, ["load", "s.toml", "slow"], shared=shared, fed=parts_of(text, 6))
    seen.expect_end(0, *([line] if shared else [b"", line]))
    seen.expect_counts("bytes", len(text))
    tell(seen.figures())


def test_a_count_is_removed_before_the_fault_of_a_dump(trial: Trial, tell: Tell) -> None:
    """A dump with a fault at its end: the message stands where the count did."""
    folder = emptied(trial, "refused")
    text = registry_of(50, 2_000).dump() + b"\nperson: X\n"
    seen = run(trial, folder, ["load", "s.toml", "slow"], fed=parts_of(text, 6))
    reported = (
        b"irrdesk: slow: nothing is loaded, because paragraph 55 is not an object: E02, its class"
        b" is unknown: take it out\n"
    )
    seen.expect_end(5, reported)
    seen.expect_counts("bytes", len(text))
    tell(seen.figures())


def test_a_large_database_is_shown_as_it_is_opened(trial: Trial, tell: Tell) -> None:
    """A database of 8 MiB and more: that it is being opened is shown, and taken away before the
    answer."""
    registry = registry_of(150, 60_000)
    folder = made(trial, "opened large", registry)
    wanted = b"aut-num:        AS7\n"
    for shared in [False, True]:
        seen = run(trial, folder, ["query", "s.toml", "AS7"], shared=shared)
        shown = seen.screen.text() if shared else seen.printed
        expect((seen.status, shown[: len(wanted)]), (0, wanted), "the status and the answer")
        expect(
            seen.screen.written.startswith(OPENING + b"\r\x1b[K"),
            True,
            f"what was written first: {short(seen.screen.written[:90])}",
        )
        expect(OPENING in seen.screen.text(), False, "whether it still stands there at the end")
    tell(f"a database of {os.path.getsize(os.path.join(folder, 'irr.db')):,} bytes")


def test_a_quick_command_shows_nothing(trial: Trial, tell: Tell) -> None:
    """A command that is done within a second writes nothing but what it prints."""
    registry = Registry(auth=AUTH.encode())
    folder = made(trial, "quick", registry)
    seen = run(trial, folder, ["dump", "s.toml"])
    seen.expect_end(0, registry.dump(full=False))
    expect(
        seen.screen.written,
        registry.dump(full=False).replace(b"\n", b"\r\n"),
        "what was written to the terminal",
    )
    tell("a dump")


def test_nothing_is_shown_where_standard_error_is_a_file(trial: Trial, tell: Tell) -> None:
    """Without a terminal as standard error there is no count, on the terminal or in the file."""
    folder = made(trial, "unshown", Registry(auth=AUTH.encode()))
    texts, report = submission(8)
    with open(os.path.join(folder, "reported"), "w+b") as reported:
        seen = run(trial, folder, ["submit", "s.toml", "slow"], reported=reported, fed=texts)
        reported.seek(0)
        expect(reported.read(), b"", "what the file has")
    expect(seen.screen.written, report.replace(b"\n", b"\r\n"), "what was written to the terminal")
    expect(seen.status, 0, "the status")
    tell("a submission")


def shown_by(tmux: list[str]) -> bytes:
    """What the pane shows, less what is empty at its end."""
    return subprocess.run(
        [*tmux, "capture-pane", "-p"], capture_output=True, timeout=PATIENCE, check=True
    ).stdout.rstrip()


def test_a_pane_of_tmux_shows_one_count_at_a_time(trial: Trial, tell: Tell) -> None:
    """A submission in a pane, its report in a file: counts are seen, each alone, and once it is
    done nothing is left of them."""
    if shutil.which("tmux") is None:
        raise Skipped("tmux is not there")
    folder = made(trial, "submit in tmux", Registry(auth=AUTH.encode()))
    texts, report = submission(8)
    tmux = ["tmux", "-S", os.path.join(folder, "socket"), "-f", "/dev/null"]
    command = f"{shlex.quote(trial.program)} submit s.toml slow >report; echo done; exec cat"
    subprocess.run(
        [*tmux, "new-session", "-d", "-x", "80", "-y", "24", "-c", folder, command],
        timeout=PATIENCE,
        check=True,
    )
    threading.Thread(
        target=feed, args=(os.path.join(folder, "slow"), texts, 0.4), daemon=True
    ).start()
    seen, begun = set(), time.monotonic()
    try:
        while (shown := shown_by(tmux)) != b"done":
            if shown and not COUNT.fullmatch(shown):
                raise Failure(f"the pane shows {short(shown)}")
            if time.monotonic() > begun + PATIENCE:
                raise Failure(f"it was not done within {PATIENCE} s")
            seen.add(shown)
            time.sleep(0.05)
    finally:
        subprocess.run([*tmux, "kill-server"], timeout=PATIENCE, check=False)
    expect(len(seen - {b""}) > 1, True, "whether counts were seen")
    with open(os.path.join(folder, "report"), "rb") as printed:
        expect(printed.read(), report, "the report in the file")
    tell(f"{len(seen - {b''})} counts")

"""Runs of the program, and the words and cases of a script."""

import argparse
import contextlib
import os
import random
import resource
import shutil
import signal
import subprocess
import tempfile
import time
from collections.abc import Callable, Sequence
from typing import IO, Any, TypeVar

import pytest

# What puts figures into the line of a case, and what makes a part of a check a case of its own.
Tell = Callable[[object], None]
Each = Callable[[str], contextlib.AbstractContextManager[None]]
Size = TypeVar("Size")
TOP = os.path.dirname(os.path.dirname(os.path.abspath(__file__)))
Skipped = pytest.skip.Exception
DIGEST = "ba7816bf8f01cfea414140de5dae2223b00361a396177a9cb410ff61f20015ad"
AUTH = f"SHA256-PW a:{DIGEST}"
# The most seconds that a run may take that takes a hundredth of one where the machine is idle.
PATIENCE = 900
# The least bytes that a folder in memory has to have free.
MEMORY_ROOM = 1 << 28
SETTINGS = f"""source = "TEST"
root = "ROOT-MNT"
auth = "{AUTH}"
limit = {{limit}}
store = "{{store}}"
"""


class Failure(AssertionError):
    """What a case found."""


class Ran:
    """How a run of the program ended: its status, negative for a signal, what it printed and
    reported, the seconds of the processor that it took, and the most memory in KiB that it was seen
    to hold."""

    def __init__(
        self, status: int, printed: bytes, reported: bytes, seconds: float, memory: int
    ) -> None:
        self.status, self.printed, self.reported, self.seconds, self.memory = (
            status,
            printed,
            reported,
            seconds,
            memory,
        )


class Trial:
    """What a module of checks has in common: the program, a folder of its own, and chance that
    comes from the run's seed."""

    def __init__(self, options: argparse.Namespace, program: str, folder: str) -> None:
        self.program, self.work = program, folder
        self.long, self.seed, self.count = options.long, options.seed, options.count

    def pick(self, short: Size, long: Size) -> Size:
        """What the short form takes, or the long one."""
        return long if self.long else short

    def chance(self, name: str) -> random.Random:
        """A source of chance for one case, the same in each run of a seed."""
        return random.Random(f"{self.seed} {name}")

    def place(self, name: str) -> str:
        """A new folder for a case."""
        path = os.path.join(self.work, name)
        os.makedirs(path)
        return path

    def run(self, folder: str, *words: str | bytes, **options: Any) -> Ran:
        return run([self.program, *words], folder, **options)


def needs(command: str) -> pytest.MarkDecorator:
    """Skips a check, or all of a module, where this command is not here."""
    path = shutil.which(command, path=os.environ["PATH"] + ":/usr/sbin")
    return pytest.mark.skipif(path is None, reason=f"{command} is not here")


def cases_of(
    table: Sequence[tuple[str, Callable[..., Any] | tuple[str, Callable[..., Any]], bool]]
) -> list[Any]:
    """The rows of a table of cases, `(name, function, is_long)`, as parameters of a check."""
    return [
        pytest.param(function, id=name, marks=[pytest.mark.long] if is_long else [])
        for name, function, is_long in table
    ]


def memory_folder(room: int = MEMORY_ROOM) -> str | None:
    """A folder in memory, where no write waits for a disk; nothing where there is none with room,
    or TMPDIR names another one."""
    folder = "/dev/shm"
    if "TMPDIR" in os.environ or not os.access(folder, os.W_OK):
        return None
    found = os.statvfs(folder)
    return folder if found.f_bavail * found.f_frsize >= room else None


def limited(
    most_bytes: int | None = None,
    most_files: int | None = None,
    stack: int | None = None,
    user: int | None = None,
    closed: Sequence[int] = (),
) -> Callable[[], None]:
    """Sets limits in a process that is about to become the program."""

    def set_limits() -> None:
        if most_bytes is not None:
            signal.signal(signal.SIGXFSZ, signal.SIG_IGN)
            resource.setrlimit(resource.RLIMIT_FSIZE, (most_bytes, most_bytes))
        if most_files is not None:
            resource.setrlimit(resource.RLIMIT_NOFILE, (most_files, most_files))
        if stack is not None:
            resource.setrlimit(resource.RLIMIT_STACK, (stack, stack))
        if user is not None:
            os.setgroups([])
            os.setgid(user)
            os.setuid(user)
        for stream in closed:
            os.close(stream)

    return set_limits


def run(
    command: Sequence[str | bytes],
    folder: str,
    stdin: bytes | None = None,
    timeout: int = PATIENCE,
    limits: dict[str, Any] | None = None,
    output: int | IO[bytes] | None = None,
    environment: dict[str, str] | None = None,
) -> Ran:
    """Runs the program to its end. The input is bytes, or a file."""
    with (
        tempfile.TemporaryFile() as printed,
        tempfile.TemporaryFile() as reported,
        tempfile.TemporaryFile() as given,
    ):
        if isinstance(stdin, bytes):
            given.write(stdin)
            given.seek(0)
        source = given if stdin is None or isinstance(stdin, bytes) else stdin
        process = subprocess.Popen(
            command,
            cwd=folder,
            stdin=source,
            stdout=output or printed,
            stderr=reported,
            env=environment,
            preexec_fn=limited(**limits) if limits else None,
        )
        memory, status, seconds = watched(process, timeout)
        printed.seek(0)
        reported.seek(0)
        return Ran(status, printed.read(), reported.read(), seconds, memory)


def run_in_pieces(
    command: list[str], folder: str, text: bytes, sizes: list[int], timeout: int = PATIENCE
) -> Ran:
    """Runs the program with an input that it reads in pieces of just these sizes, over and over."""
    reader, writer = os.pipe2(os.O_DIRECT | os.O_CLOEXEC)
    with tempfile.TemporaryFile() as printed, tempfile.TemporaryFile() as reported:
        process = subprocess.Popen(
            command, cwd=folder, stdin=reader, stdout=printed, stderr=reported
        )
        os.close(reader)
        with contextlib.suppress(BrokenPipeError):
            send_pieces(writer, text, sizes)
        os.close(writer)
        memory, status, seconds = watched(process, timeout)
        printed.seek(0)
        reported.seek(0)
        return Ran(status, printed.read(), reported.read(), seconds, memory)


def send_pieces(writer: int, text: bytes, sizes: list[int]) -> None:
    place, turn = 0, 0
    while place < len(text):
        size = sizes[turn % len(sizes)]
        os.write(writer, text[place : place + size])
        place, turn = place + size, turn + 1


def watched(process: subprocess.Popen[bytes], timeout: int) -> tuple[int, int, float]:
    """Waits for a process, and looks at its memory now and then. One that outlasts its time is
    ended, and that is a failure."""
    end, memory, pause = time.monotonic() + timeout, 0, 0.0005
    while True:
        memory = peak_memory(process.pid) or memory
        found, status, usage = os.wait4(process.pid, os.WNOHANG)
        if found:
            process.returncode = os.waitstatus_to_exitcode(status)
            return memory, process.returncode, usage.ru_utime + usage.ru_stime
        if time.monotonic() > end:
            process.kill()
            process.wait()
            words = (
                [str(word) for word in process.args][1:] if isinstance(process.args, list) else []
            )
            raise Failure(f"it was not done within {timeout} s: {' '.join(words)}")
        time.sleep(pause)
        pause = min(pause * 1.3, 0.01)


def peak_memory(number: int) -> int | None:
    """The most memory that a process held so far, in KiB; nothing where it has ended."""
    try:
        with open(f"/proc/{number}/status", encoding="ascii") as lines:
            return next((int(line.split()[1]) for line in lines if line.startswith("VmHWM")), None)
    except OSError:
        return None


def write_settings(
    folder: str, store: str = "irr.db", limit: int = 10_000, name: str = "s.toml"
) -> None:
    with open(os.path.join(folder, name), "w", encoding="ascii") as out:
        out.write(SETTINGS.format(store=store, limit=limit))


def write(folder: str, name: str, text: bytes) -> str:
    path = os.path.join(folder, name)
    with open(path, "wb") as out:
        out.write(text)
    return path


def expect(found: Any, wanted: Any, what: str) -> None:
    if found != wanted:
        raise Failure(f"{what}: {short(found)} and not {short(wanted)}")


def short(value: bytes | str | bool) -> str:
    text = repr(value)
    return text if len(text) <= 600 else f"{text[:300]} .. {text[-300:]}"


def check_integrity(folder: str, what: str = "the database") -> None:
    """What sqlite3 says of the database of a folder with its log, as they were left."""
    ran = run(["sqlite3", "-batch", "irr.db", "PRAGMA integrity_check"], folder)
    expect((ran.status, ran.printed, ran.reported), (0, b"ok\n", b""), f"{what}: integrity_check")


def is_fault(ran: Ran) -> bool:
    """Whether it ended as at a fault: with a status of one, and one line on standard error that
    says so."""
    is_line = (
        ran.reported.startswith(b"irrdesk: ") and ran.reported.find(b"\n") == len(ran.reported) - 1
    )
    return ran.status in (2, 3, 4, 5) and is_line


def is_answer(ran: Ran) -> bool:
    return ran.status in (0, 1) and ran.reported == b""


def expect_ended(ran: Ran, what: str) -> None:
    """That it ended by itself, with an answer or with one line that tells a fault."""
    if not is_fault(ran) and not is_answer(ran):
        raise Failure(f"{what}: status {ran.status}, saying {short(ran.reported)}")


def difference(found: bytes, wanted: bytes) -> str:
    """The first line in which two texts differ."""
    ours, theirs = found.split(b"\n"), wanted.split(b"\n")
    for number, (one, other) in enumerate(zip(ours, theirs), 1):
        if one != other:
            return f"line {number}: {short(one)} and not {short(other)}"
    return f"{len(ours)} lines and not {len(theirs)}"

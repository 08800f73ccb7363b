"""A disk that fails from one call on: what is told then, and what stands."""

import shutil
import subprocess
from collections.abc import Callable
from typing import Any

from checks.failing import Failing
from checks.hostile.sweeping import LIMIT, WRITTEN, ask, made_registry, posted
from checks.model.queries import answer
from checks.model.registry import load
from checks.running import Ran, Tell, Trial, expect, write, write_settings
from checks.serving import LONGEST, free_port
from checks.texts import item
from checks.worked import (
    DISK_FAILED,
    PASSWORD,
    SERVED_IN_VAIN,
    STORE_FAILED,
    SUBMISSIONS,
    check_rows,
    opened,
)

IN_MEMORY, SECONDS = True, 90


def first_call(failing: Failing, base: str, words: list[str], has_come: Callable[..., Any]) -> int:
    """The first call of the disk from which on it may fail, so that a command still comes so far:
    the later it fails, the further that comes."""
    lowest, highest = 1, failing.count(base, words, "disk", "on") + 1
    while lowest < highest:
        number = (lowest + highest) // 2
        folder, ran = failed_from(failing, base, words, number)
        shutil.rmtree(folder)
        lowest, highest = (lowest, number) if has_come(ran) else (number + 1, highest)
    return lowest


def failed_from(failing: Failing, base: str, words: list[str], number: int) -> tuple[str, Ran]:
    """A copy of a folder in which a command ran under a disk that fails from this call on, and how
    that ended."""
    folder = failing.copied(base, f"failed-from-{number}")
    return folder, failing.run(folder, words, failing.environment("disk", "on", number))


def test_a_disk_that_fails_from_the_second_item_on(
    trial: Trial, failing: Failing, tell: Tell
) -> None:
    """The disk fails from the first call of the second of three items on: the first one stands and
    no other, and the same text can be submitted again."""
    submission, base = SUBMISSIONS[WRITTEN], made_registry(trial, "failed second")
    write(base, "row.rpsl", submission.text)
    words = ["submit", "s.toml", "row.rpsl"]
    number = first_call(failing, base, words, lambda ran: b": added" in ran.printed)
    folder, ran = failed_from(failing, base, words, number)
    expect(
        ran.printed.decode(),
        (
            "1 inetnum 10.0.0.0 - 10.255.255.255: added\n2 inetnum 11.0.0.0 - 11.255.255.255:"
            " refused E91\n% stopped after 1 items\n"
        ),
        "the report",
    )
    expect(
        (ran.status, ran.reported.decode()),
        (4, f"irrdesk: irr.db: {STORE_FAILED}; items decided before that: 1\n"),
        "how it ended",
    )
    check_rows(failing.rows_of(folder), submission.dumps[1])
    again, stood = trial.run(folder, *words), load(submission.dumps[1], b"TEST")
    expect(
        again.printed.decode().splitlines(),
        stood.submit(submission.text),
        "the report on the same text sent again",
    )
    check_rows(failing.rows_of(folder), submission.dumps[-1])
    shutil.rmtree(folder)
    tell(f"call {number}")


def test_a_disk_that_fails_once_a_registry_is_open(
    trial: Trial, failing: Failing, tell: Tell
) -> None:
    """The disk fails once a registry is open of which more stands in the database than is kept in
    memory there: each query is answered all the same, since none is looked up there. The first
    submission fails, which stops a server; it then answers nothing else."""
    base, registry = trial.place("failed once open"), opened()
    write_settings(base, limit=LIMIT)
    registry.submit(
        PASSWORD
        + b"\n"
        + b"\n".join(item(b"inetnum", b"10.%d.0.0/16" % number, LARGE) for number in range(200))
    )
    write(base, "dump.rpsl", registry.dump())
    expect(
        trial.run(base, "load", "s.toml", "dump.rpsl").printed, b"loaded 204 objects\n", "the load"
    )
    words = ["query", "s.toml", "inverse", "mnt", "root-mnt"]
    right = answer(registry, b"inverse mnt root-mnt", LIMIT)
    # A query makes the calls of opening and closing alone.
    number = failing.count(base, ["query", "s.toml", "AS1"], "disk", "once") + 1
    folder, ran = failed_from(failing, base, words, number)
    expect((ran.status, ran.printed == right, ran.reported), (0, True, b""), "the answer")
    shutil.rmtree(folder)
    replies = served_from(
        trial,
        failing,
        base,
        number,
        [
            b"AS1\r\n",
            b"inverse mnt root-mnt\r\n",
            posted(NEW),
            b"AS1\r\n",
            b"GET /dump HTTP/1.1\r\n\r\n",
        ],
    )
    expect(replies[1] == right, True, "whether a server answers it")
    expect(
        [replies[0], *replies[2:]],
        [b"% no entries\n", STOPPED, b"% error 6\n", REFUSED],
        "the other replies",
    )
    expect(trial.run(base, *words).printed == right, True, "whether it is answered afterwards")
    tell(f"call {number}")


def served_from(
    trial: Trial, failing: Failing, base: str, number: int, asked: list[bytes]
) -> list[bytes]:
    """What peers are answered by a server whose disk fails from this call on."""
    port = free_port()
    with subprocess.Popen(
        [trial.program, "serve", "s.toml", "--port", str(port), "--count", str(len(asked))],
        cwd=base,
        stdout=subprocess.PIPE,
        stderr=subprocess.PIPE,
        env=failing.environment("disk", "on", number),
    ) as process:
        try:
            expect(
                process.stdout.readline(),
                b"listening on 127.0.0.1:%d\n" % port,
                "the first line of serve",
            )
            replies = [ask(port, text) for text in asked]
            expect(
                (process.communicate(timeout=LONGEST), process.returncode),
                (
                    (
                        b"served %d, failed 0\n" % len(asked),
                        SERVED_IN_VAIN.format(DISK_FAILED).encode(),
                    ),
                    0,
                ),
                "how serve ended",
            )
        finally:
            process.kill()
    return replies


# 200 objects of it are more than the 8 MB of a database that are kept in memory.
LARGE = b"descr: %s\n" % (b"x" * 60_000)
NEW = PASSWORD + b"\n" + item(b"inetnum", b"11.0.0.0/8")
STOPPED = (
    b"HTTP/1.1 200 OK\r\nContent-Type: text/plain\r\nConnection: close\r\n\r\n1 inetnum 11.0.0.0 -"
    b" 11.255.255.255: refused E91\n% stopped after 0 items\n"
)
REFUSED = (
    b"HTTP/1.1 503 Service Unavailable\r\nContent-Type: text/plain\r\nContent-Length:"
    b" 24\r\nConnection: close\r\n\r\n503 Service Unavailable\n"
)


def test_each_line_that_was_reported_is_of_the_page(failing: Failing, tell: Tell) -> None:
    tell(failing.reported_is_of_the_page())

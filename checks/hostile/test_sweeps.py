"""Memory refused, calls failed and the program stopped, at one call after the other: what is told
then, and what stands. What is right to say follows from the model and the worked submissions of
checks/worked.py."""

import os
import shutil
import subprocess
from collections.abc import Callable
from typing import Any

import pytest

from checks.failing import NONE, Failing
from checks.hostile.sweeping import LIMIT, WRITTEN, made_registry
from checks.model.queries import answer
from checks.model.registry import Registry, load
from checks.old import old_items, read_rows, write_old
from checks.running import Each, Ran, Tell, Trial, expect, is_fault, short, write, write_settings
from checks.worked import ASKED, DUMPS, QUERIES, SUBMISSIONS, check_rows, opened

IN_MEMORY, SECONDS = True, 90
# How calls fail in a command that writes to the database.
WRITING = [
    ("memory", "once"),
    ("memory", "on"),
    ("disk", "once"),
    ("disk", "on"),
    ("disk", "stop"),
    ("room", "on"),
    ("input", "once"),
]
# And in one that reads it.
READING = [("memory", "once"), ("memory", "on"), ("disk", "once"), ("output", "once")]
NO_MEMORY = b"out of memory: give the program more\n"


def sweep(
    failing: Failing,
    each: Callable[..., Any],
    name: str,
    base: str,
    words: list[str],
    kind: str,
    how: str,
    *rest: Any,
) -> None:
    with each(f"{name}, {kind} {how}"):
        failing.sweep(base, words, kind, how, *rest)


# Submissions.


@pytest.mark.parametrize("name", SUBMISSIONS)
def test_what_was_reported_of_a_submission_stands(
    trial: Trial, failing: Failing, name: str, each: Each
) -> None:
    submission = SUBMISSIONS[name]
    base = made_registry(trial, name)
    write(base, "row.rpsl", submission.text)
    words, right = ["submit", "s.toml", "row.rpsl"], (submission.report(), submission.dumps[-1])
    for kind, how, check in [
        ("memory", "once", submission.check_report),
        ("memory", "on", submission.check_refused),
        ("disk", "once", submission.check_report),
        ("disk", "on", submission.check_report),
        ("disk", "stop", submission.check_front),
        ("room", "once", submission.check_report),
        ("output", "once", submission.check_front),
        ("output", "stop", submission.check_front),
        ("input", "once", submission.check_read),
    ]:
        sweep(failing, each, f"submit {name}", base, words, kind, how, check, right)
    sweep(
        failing,
        each,
        f"submit {name}",
        base,
        words,
        "output",
        "take",
        submission.check_written,
        right,
        139 if name == WRITTEN else 12,
    )
    settings = os.path.getsize(os.path.join(base, "s.toml"))
    sweep(
        failing,
        each,
        f"submit {name}",
        base,
        words,
        "input",
        "take",
        submission.check_cut(settings, "row.rpsl"),
        right,
        24,
    )


# Commands that make a registry.


def check_made(right: bytes, kind: str) -> Callable[..., Any]:
    """That a command that makes a registry made all of it or nothing, and that memory that ran out
    is what it tells then."""

    def check(ran: Ran, rows: bytes | None, _: int) -> None:
        if ran.status == 0:
            return check_rows(rows, right)
        expect(
            is_fault(ran) or ran.status == 137,
            True,
            f"a fault told: {ran.status}, {short(ran.reported)}",
        )
        if kind == "memory":
            expect(ran.reported.endswith(NO_MEMORY), True, f"a fault of memory: {ran.reported!r}")
        return check_rows(rows, None, right)

    return check


def check_not_made(stands: bytes | None) -> Callable[..., Any]:
    """That a command that can't make a registry reported so and left what stood."""

    def check(ran: Ran, rows: bytes, _: int) -> None:
        expect(
            is_fault(ran) or ran.status == 137,
            True,
            f"a fault told: {ran.status}, {short(ran.reported)}",
        )
        return check_rows(rows, stands)

    return check


def expect_refused(trial: Trial, failing: Failing, base: str, words: list[str], fault: str) -> None:
    """That a command is refused with this fault where no call fails."""
    folder = failing.copied(base, "refused")
    ran = trial.run(folder, *words)
    shutil.rmtree(folder)
    expect(
        is_fault(ran) and fault in ran.reported.decode(),
        True,
        f"{' '.join(words)} is refused: {short(ran.reported)}",
    )


def test_a_command_that_makes_a_registry_makes_all_or_nothing(
    trial: Trial, failing: Failing, each: Each
) -> None:
    base = trial.place("new")
    write_settings(base, limit=LIMIT)
    rows = opened().dump()
    for kind, how in WRITING:
        sweep(
            failing,
            each,
            "init",
            base,
            ["init", "s.toml"],
            kind,
            how,
            check_made(rows, kind),
            (b"created 4 objects\n", rows),
        )
    base = made_registry(trial, "made already", SUBMISSIONS["three inetnums"])
    rows = SUBMISSIONS["three inetnums"].dumps[-1]
    expect_refused(trial, failing, base, ["init", "s.toml"], "the database has a registry already")
    for kind, how in WRITING[:4]:
        sweep(
            failing,
            each,
            "init over a registry",
            base,
            ["init", "s.toml"],
            kind,
            how,
            check_not_made(rows),
            (b"", rows),
        )
    for number, (name, (text, fault)) in enumerate(DUMPS.items()):
        base = trial.place(f"load-{number}")
        write_settings(base, limit=LIMIT)
        write(base, "dump.rpsl", text)
        words = ["load", "s.toml", "dump.rpsl"]
        if fault:
            expect_refused(trial, failing, base, words, fault)
        right = (
            (b"", None)
            if fault
            else (b"loaded %d objects\n" % len(load(text, b"TEST").objects), text)
        )
        for kind, how in WRITING:
            sweep(
                failing,
                each,
                f"load {name}",
                base,
                words,
                kind,
                how,
                check_not_made(None) if fault else check_made(text, kind),
                right,
            )


# Migrations.


def test_a_migration_leaves_the_old_rows_or_all_new_ones(
    trial: Trial, failing: Failing, each: Each
) -> None:
    """A migration that fails or is stopped leaves the rows of version 1, or those of version 2
    whole."""
    registry, base = old_items(trial.chance("old"), 12), trial.place("old")
    write_settings(base, limit=LIMIT)
    old = write_old(base, registry)
    for kind, how in WRITING:
        with each(f"migrate, {kind} {how}"):
            migration(trial, failing, base, old, registry, kind, how)


def migration(
    trial: Trial, failing: Failing, base: str, old: bytes, registry: Registry, kind: str, how: str
) -> str:
    count = failing.count(base, ["migrate", "s.toml"], kind, how)
    taken = failing.numbers(count, f"migrate, {kind} {how}", how, 12)
    whole = 0
    for number in taken:
        folder = failing.copied(base, f"migrate-{number}")
        ran = failing.run(folder, ["migrate", "s.toml"], failing.environment(kind, how, number))
        what = f"{kind}:{how}:{number} of {count}"
        expect(
            ran.status in (0, 137) or is_fault(ran),
            True,
            f"{what}: a fault told: {ran.status}, {short(ran.reported)}",
        )
        if number == NONE or ran.status == 0:
            expect(
                (ran.status, ran.printed), (0, b"migrated to version 2\n"), f"{what}: how it ended"
            )
        asked = trial.run(folder, "dump", "s.toml", "--full")
        if asked.status == 0:
            expect(asked.printed, registry.dump(), f"{what}: the rows of version 2")
            whole += 1
        else:
            expect(
                (asked.status, ran.status != 0, read_rows(folder)),
                (4, True, old),
                f"{what}: the rows of version 1",
            )
        shutil.rmtree(folder)
    return f"{len(taken) - 1} of {count} calls, {whole} of which left it whole"


# Answers and dumps.


def check_answer(query: bytes, kind: str) -> Callable[..., Any]:
    """That a query is answered; or refused because memory ran out, where it was refused; or that a
    fault is told behind a front of the answer."""
    right, errors = answer(ASKED.registry, query, LIMIT), []
    if kind == "memory":
        errors.append(b"% error 4\n")

    def check(ran: Ran, rows: bytes, _: int) -> None:
        check_rows(rows, ASKED.dumps[-1])
        if is_fault(ran):
            return expect(
                right.startswith(ran.printed), True, f"a front of the answer: {short(ran.printed)}"
            )
        expect(ran.printed in (right, *errors), True, f"the answer {short(ran.printed)}")
        return expect(
            (ran.status, ran.reported),
            (1 if ran.printed.startswith(b"% error") else 0, b""),
            "how it ended",
        )

    return check


def check_dump(right: bytes) -> Callable[..., Any]:
    def check(ran: Ran, rows: bytes, _: int) -> None:
        check_rows(rows, ASKED.dumps[-1])
        if ran.status == 0:
            return expect((ran.printed, ran.reported), (right, b""), "the dump")
        expect(is_fault(ran), True, f"a fault told: {ran.status}, {short(ran.reported)}")
        return expect(right.startswith(ran.printed), True, "a front of the dump")

    return check


def test_an_answer_or_dump_is_whole_or_its_fault_is_reported(
    trial: Trial, failing: Failing, each: Each
) -> None:
    base, rows = made_registry(trial, "asked", ASKED), ASKED.dumps[-1]
    for query in QUERIES:
        words, right = ["query", "s.toml", *query.decode().split()], answer(
            ASKED.registry, query, LIMIT
        )
        for kind, how in READING:
            sweep(
                failing,
                each,
                f"query {query.decode()}",
                base,
                words,
                kind,
                how,
                check_answer(query, kind),
                (right, rows),
                8,
            )
    for words, right in [
        (["dump", "s.toml", "--full"], rows),
        (["dump", "s.toml"], ASKED.registry.dump(full=False)),
    ]:
        for kind, how in READING:
            sweep(
                failing,
                each,
                " ".join(words),
                base,
                words,
                kind,
                how,
                check_dump(right),
                (right, rows),
            )
    right = answer(ASKED.registry, b"ROOT-MNT", LIMIT)
    for kind, how in [
        ("memory", "once"),
        ("disk", "once"),
        ("socket", "once"),
        ("peer", "once"),
        ("output", "once"),
    ]:
        sweep(
            failing,
            each,
            "probe",
            base,
            ["probe", "s.toml"],
            kind,
            how,
            check_answer(b"ROOT-MNT", kind),
            (right, rows),
        )


def test_a_dump_is_not_whole_without_its_last_byte(trial: Trial, failing: Failing) -> None:
    """Of a writer that takes so many bytes, the program says that it failed."""
    base = made_registry(trial, "cut", ASKED)
    for words, full in (["dump", "s.toml", "--full"], True), (["dump", "s.toml"], False):
        right = ASKED.registry.dump(full=full)
        for taken in (1, len(right) - 1):
            ran = failing.run(base, words, failing.environment("output", "take", taken))
            expect(
                (ran.printed, ran.status, is_fault(ran)),
                (right[:taken], 5, True),
                f"{' '.join(words)}, of which {taken} bytes are taken",
            )


# Messages.


def expect_reported(ran: Ran, status: int, reported: bytes) -> None:
    expect(
        (ran.status, ran.printed, ran.reported),
        (status, b"", b"irrdesk: " + reported + b"\n"),
        "how it ended",
    )


def test_rare_messages(trial: Trial, failing: Failing, tell: Tell) -> None:
    """What is reported where the disk is full from the first call on, where no socket is to be had,
    and of a dump without end."""
    folder = trial.place("rare")
    write_settings(folder, limit=LIMIT)
    expect_reported(
        failing.run(folder, ["init", "s.toml"], failing.environment("room", "on", 1)),
        4,
        b"irr.db: the disk is full: make room",
    )
    folder = made_registry(trial, "probed")
    many = (
        b"the program has too many open files: raise the limit, as `ulimit -n` shows it (system"
        b" error 24)"
    )
    for number, reported in [
        (1, b"it cannot listen: " + many),
        (2, b"the program's own listener cannot be asked: " + many),
    ]:
        expect_reported(
            failing.run(folder, ["probe", "s.toml"], failing.environment("socket", "once", number)),
            5,
            reported,
        )
    folder = trial.place("endless")
    write_settings(folder, limit=LIMIT)
    with subprocess.Popen(["yes", ""], stdout=subprocess.PIPE) as endless:
        ran = failing.run(
            folder,
            ["load", "s.toml", "/dev/stdin"],
            failing.environment("input", "drip", 1),
            stdin=endless.stdout,
            timeout=600,
        )
        endless.kill()
    expect_reported(
        ran, 5, b"/dev/stdin: the dump has no end within 16777216 reads: name a whole dump"
    )
    tell("4 messages")


def test_each_line_that_was_reported_is_of_the_page(failing: Failing, tell: Tell) -> None:
    tell(failing.reported_is_of_the_page())

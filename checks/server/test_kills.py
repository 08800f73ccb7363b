"""The program ended by SIGKILL in the middle of a submission, a load and a migration, and held
still: what stands then, in its database and in copies, and what peers are answered."""

import contextlib
import fcntl
import os
import shutil
import signal
import socket
import subprocess
import time
from collections.abc import Iterator
from typing import Any

from checks.failing import NEVER_MADE
from checks.model.queries import answer
from checks.model.registry import load
from checks.old import old_items, write_old
from checks.running import (
    Failure,
    Ran,
    Tell,
    Trial,
    check_integrity,
    difference,
    expect,
    needs,
    short,
    write,
    write_settings,
)
from checks.serving import Server, read_all
from checks.texts import changing_items, digest, fronts, last_of

pytestmark = needs("sqlite3")
SECONDS = 20

SET_PIPE_SIZE = 1031
PIPE_SIZE = 1 << 20
SIZES = [0, 0, 20, 300, 6_000]


# Kills.


def killed(
    trial: Trial,
    folder: str,
    words: list[str],
    lines: int | None = None,
    seconds: float | None = None,
) -> tuple[int, bytes]:
    """Starts the program, and kills it once it has printed so many lines, or after so many seconds;
    what it printed."""
    process = subprocess.Popen(
        [trial.program, *words],
        cwd=folder,
        stdin=subprocess.DEVNULL,
        stdout=subprocess.PIPE,
        stderr=subprocess.DEVNULL,
    )
    fcntl.fcntl(process.stdout, SET_PIPE_SIZE, PIPE_SIZE)
    printed = b""
    if seconds is not None:
        time.sleep(seconds)
    while lines is not None and printed.count(b"\n") < lines:
        part = os.read(process.stdout.fileno(), 4_096)
        if not part:
            break
        printed += part
    process.kill()
    printed += process.stdout.read()
    process.stdout.close()
    return process.wait(), printed


def full_dump(trial: Trial, folder: str) -> Ran:
    return trial.run(folder, "dump", "s.toml", "--full", timeout=120)


def check_copy(folder: str) -> None:
    """The same of a copy, which the program has not opened since."""
    copy = folder + "-copy"
    shutil.copytree(folder, copy)
    check_integrity(copy)
    shutil.rmtree(copy)


def copied(trial: Trial, base: str, name: str) -> str:
    folder = os.path.join(trial.work, name)
    shutil.copytree(base, folder)
    return folder


# Cases.


def made_registry(trial: Trial, name: str) -> str:
    folder = trial.place(name)
    write_settings(folder)
    expect(trial.run(folder, "init", "s.toml").status, 0, "init")
    return folder


def timed(trial: Trial, folder: str, *words: str) -> float:
    """How long a command takes that nobody ends."""
    start = time.monotonic()
    ran = trial.run(folder, *words, timeout=600)
    if ran.status != 0:
        raise Failure(
            f"{' '.join(words)}: status {ran.status}, {short(ran.reported)}"
            f" {short(ran.printed[-200:])}"
        )
    return time.monotonic() - start


def before_submission(trial: Trial, name: str, texts: list[bytes]) -> str:
    """A new registry with the file of a submission."""
    base = made_registry(trial, name)
    write(base, "items.rpsl", b"\n".join(texts))
    return base


def test_of_a_killed_submission_what_was_reported_stands(trial: Trial, tell: Tell) -> None:
    """Kills of a submission: by turns after a line, and after some time."""
    count, kills = trial.pick(400, 2_000), trial.pick(20, 200)
    chance = trial.chance("submit")
    texts = changing_items(chance, count, SIZES)
    found, base = fronts(texts), before_submission(trial, "submit", texts)
    whole = copied(trial, base, "submit-whole")
    took = timed(trial, whole, "submit", "s.toml", "items.rpsl")
    expect(
        count in found.get(digest(full_dump(trial, whole).printed), []),
        True,
        "whether the rows of all items stand",
    )
    seen = []
    for turn in range(kills):
        folder = copied(trial, base, f"submit-{turn}")
        moment: dict[str, Any] = (
            {"lines": chance.randrange(count)} if turn % 2 else {"seconds": chance.uniform(0, took)}
        )
        seen.append(after_kill(trial, folder, moment, turn, found, count))
        shutil.rmtree(folder)
    again(trial, base, texts)
    behind = sum(stands > reported for reported, stands in seen)
    fewest, most = min(stands for _, stands in seen), max(stands for _, stands in seen)
    tell(
        f"{kills} kills in {count} items, after {fewest} to {most}; {behind} between an item and"
        " its line"
    )


def after_kill(
    trial: Trial,
    folder: str,
    moment: dict[str, Any],
    turn: int,
    found: dict[bytes, list[int]],
    count: int,
) -> tuple[int, int]:
    """Kills one submission, and gives how many lines it printed and of how many items the rows
    are."""
    _, printed = killed(trial, folder, ["submit", "s.toml", "items.rpsl"], **moment)
    reported = min(printed.count(b"\n"), count)
    if turn % 4 < 2:
        check_copy(folder)
    ran = full_dump(trial, folder)
    expect((ran.status, ran.reported), (0, b""), f"kill {turn}, {moment}: the dump")
    check_integrity(folder)
    stands = found.get(digest(ran.printed), [])
    if reported not in stands and reported + 1 not in stands:
        raise Failure(
            f"kill {turn}, {moment}: {reported} lines were printed, and the rows are those of"
            f" {stands} items"
        )
    return reported, reported if reported in stands else reported + 1


def again(trial: Trial, base: str, texts: list[bytes]) -> None:
    """A submission that was killed is sent again, whole: each item is answered as on the registry
    that stood."""
    folder = copied(trial, base, "submit-again")
    killed(trial, folder, ["submit", "s.toml", "items.rpsl"], lines=len(texts) // 2)
    stood = load(full_dump(trial, folder).printed, b"TEST")
    ran = trial.run(folder, "submit", "s.toml", "items.rpsl", timeout=600)
    expect(
        ran.printed.decode().splitlines(),
        stood.submit(b"\n".join(texts)),
        "the report on the same text sent again",
    )
    expect(
        full_dump(trial, folder).printed == stood.dump(),
        True,
        "whether the rows are then the model's",
    )
    expect(
        stood.dump() == last_of(texts).dump(), True, "whether these are those of the text sent once"
    )


@contextlib.contextmanager
def held_still(process: subprocess.Popen[bytes]) -> Iterator[None]:
    """Holds a process still, where it has not ended, and lets it go on."""
    # Not send_signal, which would take leave of a process that has ended.
    os.kill(process.pid, signal.SIGSTOP)
    os.waitid(os.P_PID, process.pid, os.WSTOPPED | os.WEXITED | os.WNOWAIT)
    try:
        yield
    finally:
        os.kill(process.pid, signal.SIGCONT)


def test_a_copy_of_a_submission_held_still_has_what_was_reported(trial: Trial, tell: Tell) -> None:
    """Copies of the database of a submission that is held still: each is that of a front of the
    items, as after a kill."""
    count, copies = trial.pick(400, 2_000), trial.pick(10, 100)
    chance = trial.chance("copies")
    texts = changing_items(chance, count, SIZES)
    found, base = fronts(texts), before_submission(trial, "copies", texts)
    pause = (
        timed(trial, copied(trial, base, "copies-whole"), "submit", "s.toml", "items.rpsl") / copies
    )
    process = subprocess.Popen(
        [trial.program, "submit", "s.toml", "items.rpsl"],
        cwd=base,
        stdin=subprocess.DEVNULL,
        stdout=subprocess.PIPE,
        stderr=subprocess.DEVNULL,
    )
    fcntl.fcntl(process.stdout, SET_PIPE_SIZE, PIPE_SIZE)
    os.set_blocking(process.stdout.fileno(), False)
    printed, seen = b"", []
    for turn in range(copies):
        time.sleep(chance.uniform(0, 2 * pause))
        with held_still(process):
            folder = copied(trial, base, f"copies-{turn}")
            printed += process.stdout.read() or b""
        seen.append(
            stands_copied(trial, folder, min(printed.count(b"\n"), count), found, f"copy {turn}")
        )
        shutil.rmtree(folder)
    os.set_blocking(process.stdout.fileno(), True)
    printed += process.stdout.read()
    process.stdout.close()
    expect((process.wait(), printed.count(b"\n")), (0, count + 1), "the submission in the end")
    expect(
        count in found.get(digest(full_dump(trial, base).printed), []),
        True,
        "whether the rows of all items stand",
    )
    tell(f"{copies} copies in {count} items, after {min(seen)} to {max(seen)}")


def stands_copied(
    trial: Trial, folder: str, reported: int, found: dict[bytes, list[int]], what: str
) -> int:
    """Of how many items the rows of a copy are."""
    check_copy(folder)
    ran = full_dump(trial, folder)
    expect((ran.status, ran.reported), (0, b""), f"{what}: the dump")
    stands = found.get(digest(ran.printed), [])
    if reported not in stands and reported + 1 not in stands:
        raise Failure(
            f"{what}: {reported} lines were printed, and the rows are those of {stands} items"
        )
    return reported if reported in stands else reported + 1


def test_a_copy_of_a_server_held_still_has_what_was_reported(trial: Trial, tell: Tell) -> None:
    """Copies of the database of a server that is held still while it waits for the rest of a query:
    the peer has its whole answer afterwards, since the system breaks off the call that waits and
    the program makes it again."""
    copies = trial.pick(3, 30)
    base = made_registry(trial, "served")
    dump = full_dump(trial, base).printed
    wanted = answer(load(dump, b"TEST"), b"ROOT-MNT", 10_000)
    with Server(trial.program, base, copies) as server:
        for turn in range(copies):
            with contextlib.closing(
                socket.create_connection(("127.0.0.1", server.port), server.patience)
            ) as peer:
                peer.sendall(b"ROOT")
                # So that the program has taken this in, and waits.
                time.sleep(0.2)
                with held_still(server.process):
                    folder = copied(trial, base, f"served-{turn}")
                peer.sendall(b"-MNT\r\n")
                peer.shutdown(socket.SHUT_WR)
                expect(read_all(peer), wanted, f"copy {turn}: what the peer is answered")
            check_copy(folder)
            expect(
                full_dump(trial, folder).printed == dump,
                True,
                f"copy {turn}: whether the rows are those of the registry",
            )
            shutil.rmtree(folder)
        server.expect_end()
    tell(f"{copies} copies, behind each of which a peer has its answer")


def test_a_killed_load_is_whole_or_nothing(trial: Trial, tell: Tell) -> None:
    """Kills of a load: after each the registry is there whole, or a load makes it."""
    count, kills = trial.pick(1_000, 2_000), trial.pick(5, 50)
    chance = trial.chance("load")
    registry = last_of(changing_items(chance, count, SIZES))
    dump = registry.dump()
    base = trial.place("load")
    write_settings(base)
    write(base, "dump.rpsl", dump)
    took = timed(trial, copied(trial, base, "load-whole"), "load", "s.toml", "dump.rpsl")
    whole = 0
    for turn in range(kills):
        folder = copied(trial, base, f"load-{turn}")
        seconds = chance.uniform(0, took * 1.02)
        killed(trial, folder, ["load", "s.toml", "dump.rpsl"], seconds=seconds)
        whole += stands_loaded(trial, folder, f"kill {turn} after {seconds:.4f} s", dump)
        shutil.rmtree(folder)
    tell(
        f"{kills} kills of a load of {len(registry.objects)} objects; {whole} stood whole, the"
        " others not at all"
    )


def first_byte(folder: str) -> bytes:
    with open(os.path.join(folder, "irr.db"), "rb") as file:
        return file.read(1)


def stands_loaded(trial: Trial, folder: str, what: str, dump: bytes) -> int:
    """Whether a load stands that was killed; where it doesn't, nothing does, and the load is done
    again."""
    # The first byte of a new database is written last: until then sqlite3 takes the file for none.
    if os.path.exists(os.path.join(folder, "irr.db")) and first_byte(folder) != b"\0":
        check_copy(folder)
    ran = full_dump(trial, folder)
    if ran.status == 0:
        expect(ran.printed == dump, True, f"{what}: whether the rows are those of the dump")
        return 1
    if ran.status != 4 or not any(words in ran.reported for words in NEVER_MADE):
        raise Failure(f"{what}: status {ran.status}, {short(ran.reported)}")
    timed(trial, folder, "load", "s.toml", "dump.rpsl")
    after = full_dump(trial, folder)
    if after.printed != dump:
        raise Failure(f"{what}, loaded again: {difference(after.printed, dump)}")
    check_integrity(folder)
    return 0


def test_a_killed_migration_is_whole_or_nothing(trial: Trial, tell: Tell) -> None:
    """Kills of a migration: after each the rows are of version 1, and are migrated, or all of
    version 2."""
    count, kills = trial.pick(1_000, 5_000), trial.pick(5, 50)
    chance = trial.chance("migrate")
    registry = old_items(chance, count)
    base = trial.place("migrate")
    write_settings(base)
    write_old(base, registry)
    took = timed(trial, copied(trial, base, "migrate-whole"), "migrate", "s.toml")
    whole = 0
    for turn in range(kills):
        folder = copied(trial, base, f"migrate-{turn}")
        seconds = chance.uniform(0, took * 1.02)
        killed(trial, folder, ["migrate", "s.toml"], seconds=seconds)
        whole += stands_migrated(
            trial, folder, f"kill {turn} after {seconds:.4f} s", registry.dump()
        )
        shutil.rmtree(folder)
    tell(
        f"{kills} kills of a migration of {len(registry.objects)} objects; {whole} stood whole, the"
        " others not at all"
    )


def stands_migrated(trial: Trial, folder: str, what: str, dump: bytes) -> int:
    check_copy(folder)
    ran = full_dump(trial, folder)
    if ran.status == 4 and b"the tables of the database are of version 1" in ran.reported:
        timed(trial, folder, "migrate", "s.toml")
        after = full_dump(trial, folder)
        if after.printed != dump:
            raise Failure(f"{what}, migrated again: {difference(after.printed, dump)}")
        check_integrity(folder)
        return 0
    expect((ran.status, ran.reported), (0, b""), f"{what}: the dump")
    if ran.printed != dump:
        raise Failure(f"{what}: {difference(ran.printed, dump)}")
    return 1

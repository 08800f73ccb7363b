"""Backups: what they have, how they are restored, and what is left where none can be made."""

import contextlib
import ctypes
import os
import shutil
import sqlite3
import subprocess
import sys
import threading
import time
from collections.abc import Iterator
from typing import Any

from checks.keeping import (
    PATIENCE,
    VERSIONED,
    is_served,
    restored,
    running,
    reported_by,
    state,
    wait_until,
)
from checks.running import TOP, Skipped, Tell, Trial, expect, write, write_settings
from checks.serving import free_port
from checks.worlds import Tool, World, expect_line, items

SECONDS = 60


# A namespace of mounts of one's own (unshare).
CLONE_NEWNS = 0x2_0000


def test_a_backup_is_whole_and_restored_as_its_page_says(
    trial: Trial, tool: Tool, tell: Tell
) -> None:
    """Backups of a registry that is served under load, of one that is not, and of a snapshot; each
    restored by both its files."""
    with World(trial, tool, "backups") as world:
        folder, settings = os.path.join(world.folder, "b"), os.path.join(world.folder, "s.toml")
        numbers, is_over = [], threading.Event()

        def submit() -> None:
            number = 0
            while not is_over.is_set():
                number += 1
                if world.tool("submit", "-", stdin=VERSIONED.format(number).encode()).status != 0:
                    numbers.append(-1)
                    return
                numbers.append(number)

        load = threading.Thread(target=submit)
        load.start()
        try:
            for turn in range(trial.pick(2, 20)):
                least = numbers[-1] if numbers else 0
                ran = tool(
                    "backup",
                    "--settings",
                    settings,
                    "--keep",
                    "2",
                    folder,
                    folder=world.folder,
                    timeout=PATIENCE,
                )
                expect((ran.status, ran.reported), (0, b""), f"backup {turn}")
                version = restored(trial, ran, least)
                expect(
                    least <= version <= numbers[-1] + 1,
                    True,
                    f"whether version {version} is from {least} to {numbers[-1]}",
                )
                time.sleep(1.1)
        finally:
            is_over.set()
            load.join()
        expect(-1 in numbers, False, "a submission that failed")
        expect(is_served(world.server.port), True, "that the server goes on")
    ran = tool("backup", "--settings", settings, "--keep", "2", folder, folder=world.folder)
    expect((ran.status, ran.reported), (0, b""), "a backup of a registry that is not served")
    expect(restored(trial, ran, 0), numbers[-1], "the version in it")
    as_its_user(tool, trial)
    names = sorted(name for name in os.listdir(folder) if name != ".lock")
    expect(len(names), 2, f"the backups that are kept, {names}")
    time.sleep(1.1)
    copy = os.path.join(folder, names[-1], "irr.db")
    expect(
        restored(
            trial,
            tool("backup", "--settings", settings, "--copy", copy, folder, folder=world.folder),
            0,
        ),
        numbers[-1],
        "a copy",
    )
    tell(f"{len(numbers)} submissions meanwhile")


def as_its_user(tool: Tool, trial: Trial) -> None:
    """A backup by the server's user, to whom the system does not show what the server has open."""
    if os.geteuid() != 0:
        return
    user, folder = 12_345, trial.place("user")
    program = os.path.join(folder, "irrdesk")
    shutil.copy(trial.program, program)
    os.chmod(program, 0o711)
    write_settings(folder)
    os.chown(folder, user, user)
    tool = tool.at(IRRDESK=program, TMPDIR=folder)
    options: dict[str, Any] = {
        "cwd": folder,
        "env": tool.environment,
        "user": user,
        "group": user,
        "extra_groups": [],
        "capture_output": True,
    }
    shutil.copy(tool.path, os.path.join(folder, "irr"))
    subprocess.run([program, "init", "s.toml"], check=True, **options)
    reported = os.path.join(folder, "serve.log")
    options.pop("capture_output")
    settings = os.path.join(folder, "s.toml")
    with running(
        [program, "serve", settings, "--port", str(free_port()), "--count", "9"],
        reported,
        **options,
    ) as server:
        wait_until(
            "a server of another user", PATIENCE, lambda: "listening" in reported_by(reported)
        )
        # Another user may not be allowed to run the Python that runs this.
        python = shutil.which("python3", path="/usr/bin") or sys.executable
        words = [
            python,
            os.path.join(folder, "irr"),
            "backup",
            "--settings",
            settings,
            os.path.join(folder, "b"),
        ]
        ran = subprocess.run(
            words, capture_output=True, stdin=subprocess.DEVNULL, check=False, **options
        )
        expect((ran.returncode, ran.stderr), (0, b""), "a backup by the server's user")
        expect(state(server.pid) in "RS", True, "that the server goes on")


def test_a_backup_that_fails_says_so_and_leaves_nothing(
    trial: Trial, tool: Tool, tell: Tell
) -> None:
    """A backup that can't be made says so by its status and a line, leaves those that there are,
    and never a server that stands still."""
    with World(trial, tool, "bad-backups") as world:
        folder, settings = os.path.join(world.folder, "b"), os.path.join(world.folder, "s.toml")
        expect(
            tool("backup", "--settings", settings, folder, folder=world.folder).status,
            0,
            "a backup",
        )
        kept = sorted(os.listdir(folder))
        time.sleep(1.1)

        def fails(status: int, pattern: str, *words: str, **environment: str) -> None:
            ran = tool.at(**environment)(
                "backup", "--settings", settings, *words, folder, folder=world.folder
            )
            expect_line(ran, status, pattern, pattern)
            expect(sorted(os.listdir(folder)), kept, f"what is kept after {pattern}")
            expect(is_served(world.server.port), True, f"that the server goes on after {pattern}")

        fails(5, "(.*held still.*|.*copying took longer.*)", "--hold", "0.0001")
        fails(5, ".*the program is not found.*", IRRDESK="/nowhere/irrdesk")
        damaged = os.path.join(world.folder, "damaged.db")
        shutil.copy(os.path.join(world.folder, "irr.db"), damaged)
        with open(damaged, "r+b") as file:
            file.seek(4_096)
            file.write(b"damage")
        fails(4, ".*", "--copy", damaged)
        fails(
            4,
            ".*/irr.db: another process has the database open; leave out --copy, .*",
            "--copy",
            os.path.join(world.folder, "irr.db"),
        )
        os.mkfifo(pipe := os.path.join(world.folder, "pipe"))
        for path in pipe, "/dev/zero":
            fails(4, f"{path}: it is not a file; .*", "--copy", path)
        fails(2, "--copy: the path is empty; .*", "--copy", "")
        os.chmod(folder, 0o755)
        fails(5, ".*chmod 700.*")
        os.chmod(folder, 0o700)
        # The tool is killed while it holds the server.
        with running(
            [sys.executable, "-c", KILLED, settings, os.path.join(world.folder, "irr.db")],
            os.path.join(world.folder, "k.log"),
            env=tool.environment | {"PYTHONPATH": os.path.join(TOP, "tools")},
        ) as holder:
            wait_until(
                "a server held still", PATIENCE, lambda: state(world.server.process.pid) == "T"
            )
            holder.kill()
            wait_until(
                "a server that goes on", PATIENCE, lambda: state(world.server.process.pid) != "T"
            )
        # An object whose canonical text is too long for `load`.
        members = b"".join(b"a:b\n" for _ in range(16_000))
        long = b"password: bc\n\nas-set: AS-LONG\nmnt-by: ROOT-MNT\nsource: TEST\n" + members
        expect(world.tool("submit", "-", stdin=long).status, 0, "a long object")
        restored(trial, tool("backup", "--settings", settings, folder, folder=world.folder), 0)
    # A row that irrdesk writes in no way: it is too long for `load` even so. The backups with a
    # dump stay.
    with contextlib.closing(sqlite3.connect(os.path.join(world.folder, "irr.db"))) as other:
        longer = (
            "UPDATE object SET body = CAST(replace(body, 'source:', 'descr:          ' ||"
            " hex(zeroblob(40000)) || char(10) || 'source:') AS BLOB)"
        )
        other.execute(
            f"{longer} WHERE class = 4 AND okey = (SELECT min(okey) FROM object WHERE class = 4)"
        )
        other.commit()
    before = set(os.listdir(folder))
    for turn in range(2):
        time.sleep(1.1)
        ran = tool("backup", "--settings", settings, "--keep", "1", folder, folder=world.folder)
        expect_line(
            ran,
            4,
            (
                ".*: its irr.db is good, but it has no dump, because that cannot be loaded: .*or"
                " over 65536 bytes: mend it"
            ),
            "a long row",
        )
        new = set(os.listdir(folder)) - before
        expect(
            (len(new), before <= set(os.listdir(folder))),
            (1, True),
            f"what is kept after backup {turn} without a dump",
        )
    with contextlib.closing(sqlite3.connect(os.path.join(world.folder, "irr.db"))) as other:
        other.execute("BEGIN EXCLUSIVE")
        time.sleep(1.1)
        expect_line(
            tool("backup", "--settings", settings, folder, folder=world.folder),
            4,
            ".*another process has the database open.*",
            "a database that SQLite holds",
        )
    tell("10 failures")


def keep_mounts() -> None:
    """Lets nobody else see what this process mounts, so that it goes with it."""
    if (
        ctypes.CDLL(None).unshare(CLONE_NEWNS)
        or subprocess.run(
            ["mount", "--make-rprivate", "/"], capture_output=True, check=False
        ).returncode
    ):
        raise Skipped("no file system can be mounted here")


@contextlib.contextmanager
def mounted(folder: str, *words: str) -> Iterator[None]:
    """What these words mount, in a new folder while the block runs."""
    os.mkdir(folder)
    if subprocess.run(["mount", *words, folder], capture_output=True, check=False).returncode:
        raise Skipped("no file system can be mounted here")
    try:
        yield
    finally:
        subprocess.run(["umount", folder], check=True)


def disk(folder: str, size: int) -> Any:
    """A small file system."""
    return mounted(folder, "-t", "tmpfs", "-o", f"size={size}k,mode=700", "tmpfs")


def remount(folder: str, options: str) -> None:
    subprocess.run(["mount", "-o", f"remount,{options}", folder], check=True)


def test_a_full_or_read_only_disk_costs_nothing_that_was_kept(
    trial: Trial, tool: Tool, tell: Tell
) -> None:
    """A backup that finds no room leaves those that there are, and names its folder; a reset that
    finds none, no password. A database that can't be written is taken by --copy, unless it is
    served."""
    keep_mounts()
    with World(trial, tool, "disks") as world:
        expect(
            world.tool(
                "submit",
                "-",
                stdin=b"password: bc\n\n" + b"\n".join(items(1_500, b"descr: %s\n" % (b"x" * 60))),
            ).status,
            0,
            "objects",
        )
        with mounted(folder := trial.place("view") + "/of", "--bind", world.folder):
            remount(folder, "bind,ro")
            write_settings(world.folder, store=os.path.join(folder, "irr.db"), name="view.toml")
            copy = ["--copy", os.path.join(folder, "irr.db")]
            cases: list[tuple[int, list[str], str]] = [
                (4, [], READ_ONLY),
                (4, copy, ".*another process has the database open; .*"),
            ]
            for status, words, pattern in cases:
                ran = tool(
                    "backup",
                    "--settings",
                    "view.toml",
                    *words,
                    os.path.join(world.folder, "b"),
                    folder=world.folder,
                )
                expect_line(
                    ran, status, pattern, f"a served database that can't be written, {words}"
                )
    # It writes the log into the database, so that the copies are small.
    expect(trial.run(world.folder, "query", "s.toml", "A-MNT").status, 0, "a query")
    settings, reported, size = os.path.join(world.folder, "s.toml"), set(), 600
    with disk(folder := os.path.join(world.folder, "full"), size):
        for day in range(1, 4):
            os.makedirs(os.path.join(folder, f"2026010{day}T000000Z"))
            write(folder, f"2026010{day}T000000Z/dump.rpsl", b"% end 0\n")
        kept = sorted(os.listdir(folder))
        while True:
            ran = tool("backup", "--settings", settings, "--keep", "2", folder, folder=world.folder)
            if ran.status == 0:
                break
            expect_line(
                ran,
                ran.status,
                (
                    rf"{folder}: (it cannot be written|SQLite cannot copy the database|irrdesk"
                    r" \w+): .*make room.*"
                ),
                f"{size} KiB",
            )
            expect(
                sorted(set(os.listdir(folder)) - {".lock"}),
                kept,
                f"what is kept after a backup into {size} KiB",
            )
            reported.add(
                ran.reported.decode().removeprefix(f"irr backup: {folder}: ").split(":")[0]
            )
            size += trial.pick(150, 20)
            remount(folder, f"size={size}k")
        expect(
            reported
            >= {
                "it cannot be written",
                "SQLite cannot copy the database",
                "irrdesk load",
                "irrdesk dump",
            },
            True,
            f"what found no room: {reported}",
        )
        expect(len(set(os.listdir(folder)) - {".lock"}), 2, "the backups after one that found room")
    with disk(
        folder := os.path.join(world.folder, "small"),
        size := os.path.getsize(os.path.join(world.folder, "irr.db")) // 1_024 + 200,
    ):
        for name in "irr.db", "s.toml":
            shutil.copy(os.path.join(world.folder, name), folder)
        words = ["reset", "A-MNT", "--settings", "s.toml", "--save", "../password"]
        ran = tool(*words, folder=folder)
        expect_line(ran, ran.status, rf"{folder}: .*make room.*", "a reset that finds no room")
        expect(sorted(os.listdir(folder)), ["irr.db", "irr.db-wal", "s.toml"], "what is left of it")
        remount(folder, f"size={10 * size}k")
        expect(tool(*words, folder=folder).status, 0, "the same where there is room")
        trial.run(folder, "query", "s.toml", "A-MNT")
        remount(folder, "ro")
        write_settings(world.folder, store=os.path.join(folder, "irr.db"), name="ro.toml")
        words = ["backup", "--settings", "ro.toml", os.path.join(world.folder, "b")]
        expect_line(
            tool(*words, folder=world.folder), 4, READ_ONLY, "a database that can't be written"
        )
        restored(
            trial, tool(*words, "--copy", os.path.join(folder, "irr.db"), folder=world.folder), 0
        )
    tell(f"{size} KiB at last")


def test_a_database_through_a_link_is_backed_up_and_reset(
    trial: Trial, tool: Tool, tell: Tell
) -> None:
    """A database that `store` leads to by a link has its log beside it: a backup has what is in
    that, and a reset keeps the link. A log that is missing where a link leads is not none; and a
    link to a backup that was moved is let be."""
    world = World(trial, tool, "linked")
    settings, link = os.path.join(world.folder, "s.toml"), os.path.join(world.folder, "irr.db")
    os.mkdir(os.path.join(world.folder, "real"))
    for name in os.listdir(world.folder):
        if name.startswith("irr.db"):
            os.rename(os.path.join(world.folder, name), os.path.join(world.folder, "real", name))
    os.symlink("real/irr.db", link)
    backup = ["backup", "--settings", settings, os.path.join(world.folder, "b")]
    with world:
        expect(
            world.tool("submit", "-", stdin=VERSIONED.format(7).encode()).status, 0, "a submission"
        )
        expect(
            restored(trial, tool(*backup, folder=world.folder), 0),
            7,
            "the version in a backup of a served registry",
        )
        world.server.process.kill()
    time.sleep(1.1)
    expect(
        restored(trial, tool(*backup, "--copy", link, folder=world.folder), 0),
        7,
        "the version in one by --copy",
    )
    ran = tool(
        "reset",
        "A-MNT",
        "--settings",
        settings,
        "--save",
        os.path.join(world.folder, "p"),
        folder=world.folder,
    )
    expect((ran.status, os.path.islink(link)), (0, True), "a reset, and whether the link is there")
    with open(os.path.join(world.folder, "p"), "rb") as file:
        text = file.read() + b"\ninetnum: 192.0.2.0/24\nmnt-by: A-MNT\nsource: TEST\n"
    expect(
        b": changed\n"
        in trial.run(world.folder, "submit", "s.toml", write(world.folder, "t.rpsl", text)).printed,
        True,
        "its password",
    )
    time.sleep(1.1)
    journal = write(
        world.folder, "real/irr.db-journal", b"\xd9\xd5\x05\xf9\x20\xa1\x63\xd7" + b"x" * 504
    )
    expect_line(
        tool(*backup, folder=world.folder),
        4,
        ".*/real/irr.db: .* a program of SQLite left a journal .*",
        "a database with a journal",
    )
    os.remove(journal)
    for name in "irr.db-wal", "irr.db-journal":
        path, kept = os.path.join(world.folder, "real", name), sorted(os.listdir(backup[-1]))
        if os.path.exists(path):
            os.rename(path, path + ".moved")
        os.symlink("none", path)
        expect(
            trial.run(world.folder, "query", "s.toml", "A-MNT").status,
            4,
            f"the status of irrdesk, {name}",
        )
        expect_line(
            tool(*backup, "--keep", "1", folder=world.folder),
            4,
            f"{path}: the database cannot be opened: no such file or directory; let the link .*",
            name,
        )
        expect(sorted(os.listdir(backup[-1])), kept, f"the backups after that, {name}")
        os.remove(path)
        if os.path.exists(path + ".moved"):
            os.rename(path + ".moved", path)
    oldest = os.path.join(
        backup[-1], min(name for name in os.listdir(backup[-1]) if name != ".lock")
    )
    os.rename(oldest, os.path.join(world.folder, "moved"))
    os.symlink(os.path.join(world.folder, "moved"), oldest)
    restored(trial, tool(*backup, "--keep", "1", folder=world.folder), 0)
    expect(
        (os.path.islink(oldest), len(os.listdir(backup[-1]))),
        (True, 3),
        "a link to a backup that was moved, and how many there are with the lock",
    )
    tell("3 backups, a reset")


READ_ONLY = (
    r".*: read-only file system; let this user write there \(ReadWritePaths=\), or, if nobody"
    r" serves it, give it to `irr backup` by --copy"
)
KILLED = """import sys, time
from pathlib import Path
from irr.local import databases
settings = databases.Settings(Path(sys.argv[1]), "TEST", "ROOT-MNT", "", 10, Path(sys.argv[2]))
with databases.still(settings, 60):
    time.sleep(60)
"""

"""Settings, copies of databases, databases that are held, and replicas of them."""

import contextlib
import errno
import os
import re
import signal
import sqlite3
import subprocess
import sys
import tempfile
import time
from collections.abc import Callable
from pathlib import Path
from types import SimpleNamespace
from typing import Any
from unittest import mock

from checks.running import PATIENCE, TOP
from checks.tool.stores import TEXT, Folder, limited, program
from irr.commands import backup
from irr.errors import DATABASE, SETTINGS, Failure
from irr.local import databases, replicas
from irr.local.databases import Settings
from irr.rpsl import syntax


def kill_all(number: int, kind: int) -> None:
    """Sends a signal to all that a process has begun, and to it."""
    begun = Path(f"/proc/{number}/task/{number}/children").read_text(encoding="ascii")
    for other in [*map(int, begun.split()), number]:
        os.kill(other, kind)


class Stores(Folder):
    def test_settings(self) -> None:
        found = Settings.read(str(self.file("irr.toml", TEXT.encode())))
        self.assertEqual(
            (found.source, found.limit, found.store), ("TEST", 10, Path.cwd() / "irr.db")
        )
        self.assertEqual(found.text(), TEXT)
        for bad in (
            b"source = 1",
            b"\xff",
            b"x",
            TEXT.replace("10", '"10"').encode(),
            TEXT.replace("store", "stor").encode(),
        ):
            with self.assertRaises(Failure) as raised:
                Settings.read(str(self.file("bad.toml", bad)))
            self.assertEqual(raised.exception.status, SETTINGS)

    def test_link(self) -> None:
        """The log is beside the database that a link leads to."""
        (self.folder / "real").mkdir()
        store, link = self.file("real/irr.db", b"rows"), self.folder / "irr.db"
        link.symlink_to(store)
        found = Settings.read(
            str(self.file("irr.toml", TEXT.replace('"irr.db"', f'"{link}"').encode()))
        )
        self.assertEqual((found.store, found.log), (store, self.folder / "real/irr.db-wal"))

    def test_copied(self) -> None:
        for name, text in (
            ("irr.db", b"rows"),
            ("irr.db-wal", b"log"),
            ("irr.db-journal", b"journal"),
        ):
            self.file(name, text)
        with program(""):
            databases.copied_store(
                self.folder / "irr.db", databases.Copy(self.folder / "copy", TEXT)
            )
        self.assertEqual(
            {
                path.name: path.read_bytes()
                for path in (self.folder / "copy").iterdir()
                if path.name != "irr.toml"
            },
            {"irr.db": b"rows", "irr.db-wal": b"log", "irr.db-journal": b"journal"},
        )

    def test_copied_onto_a_full_disk(self) -> None:
        """The fault names the file that can't be written."""
        large = self.file("large", b"x" * (1 << 17))
        with limited(1 << 16), self.assertRaises(OSError) as raised:
            databases.copied(large, self.folder / "copy")
        self.assertEqual(raised.exception.filename, str(self.folder / "copy"))

    def test_sqlite_copy(self) -> None:
        """What the disk lacks is not damage."""
        store, target = self.folder / "irr.db", self.folder / "work" / "copy.db"
        target.parent.mkdir()
        with contextlib.closing(sqlite3.connect(store)) as made:
            made.execute("CREATE TABLE t AS SELECT hex(zeroblob(100000)) AS x")
            made.commit()
        with limited(1 << 16), self.assertRaisesRegex(
            Failure, "^.*/work/copy.db: SQLite cannot copy the database: .*; make room, or look at"
        ):
            databases.sqlite_copy(store, target, "NAME")
        target.unlink()
        databases.sqlite_copy(store, target, "NAME")
        with self.assertRaisesRegex(
            Failure,
            (
                "^NAME: SQLite finds no whole database in the copy: file is not a database; see"
                " BACKUP.md"
            ),
        ):
            databases.sqlite_copy(
                self.file("none.db", b"x" * 4_096), self.folder / "work" / "other.db", "NAME"
            )

    def test_working(self) -> None:
        """What fails in the folder is reported of the one that it is in, and what fails elsewhere
        is not."""
        words = "it cannot be written: no space left on device; make room, or look at its disk"
        failures: list[tuple[Any, str]] = [
            (OSError(28, "No space left on device"), words),
            (Failure("", "it failed"), "it failed"),
        ]
        for raised, wanted in failures:
            with (
                self.assertRaisesRegex(Failure, f"^{self.folder}: {wanted}$"),
                databases.working(self.folder, ".new-") as work,
            ):
                raised.filename = raised.thing = str(work / "x/irr.db")
                raise raised
        with self.assertRaises(OSError), databases.working(self.folder, ".new-"):
            raise OSError(28, "No space left on device", "/elsewhere")
        with self.assertRaisesRegex(Failure, "^/elsewhere: it failed$"), databases.working(
            self.folder, ".new-"
        ):
            raise Failure("/elsewhere", "it failed")
        with self.assertRaisesRegex(
            Failure,
            (
                f"^{self.folder}: it cannot be written: permission denied; run this as its user, or"
                " as root$"
            ),
        ):
            with databases.working(self.folder, ".new-") as work:
                raise PermissionError(13, "Permission denied", str(work / "x"))
        self.assertEqual(os.listdir(self.folder), [])

    def test_clear(self) -> None:
        """What other runs left goes, and of a link the link alone."""
        for name in ".new-a", ".new-b", "kept":
            (self.folder / name).mkdir()
            self.file(f"{name}/file", b"hash")
        (self.folder / ".new-link").symlink_to("kept")
        databases.clear(self.folder, ".new-")
        self.assertEqual(
            (os.listdir(self.folder), os.listdir(self.folder / "kept")), (["kept"], ["file"])
        )

    def test_read_only(self) -> None:
        with mock.patch("os.open", side_effect=OSError(errno.EROFS, "Read-only file system")):
            words = (
                r"let this user write there \(ReadWritePaths=\), or, if nobody serves it, give it"
                r" to `irr backup` by --copy"
            )
            with self.assertRaisesRegex(Failure, f"irr.db: .*: read-only file system; {words}$"):
                with databases.alone(self.settings()):
                    pass

    def test_links_that_lead_nowhere(self) -> None:
        """A log or journal that is missing where a link leads is not none."""
        settings = self.settings()
        for suffix in databases.LOG, databases.JOURNAL:
            link = self.folder / f"irr.db{suffix}"
            link.symlink_to("none")
            with program(""), tempfile.TemporaryDirectory(dir=self.folder) as work:
                with self.assertRaisesRegex(
                    Failure,
                    (
                        f"{link}: the database cannot be opened: no such file or directory; let the"
                        " link lead"
                    ),
                ) as raised:
                    databases.copied_store(
                        settings.store, databases.Copy(Path(work) / "copy", TEXT)
                    )
            self.assertEqual(raised.exception.status, DATABASE)
            if suffix == databases.LOG:
                with self.assertRaisesRegex(
                    Failure, f"{link}: the database cannot be opened"
                ), databases.alone(settings):
                    pass
            link.unlink()

    def test_no_file(self) -> None:
        """What is no file is not waited for, nor read for ever."""
        os.mkfifo(self.folder / "pipe")
        for path in self.folder / "pipe", self.folder, Path("/dev/zero"):
            for refused in (
                lambda: databases.copied(path, self.folder / "copy"),
                lambda: databases.need_unlocked(path),
                lambda: databases.lock(path, contextlib.ExitStack()),
            ):
                with self.assertRaisesRegex(
                    Failure,
                    (
                        f"{path}: (it is not a file; give|the database cannot be opened: is a"
                        " directory; correct)"
                    ),
                ):
                    refused()

    def test_unlocked(self) -> None:
        """A database that another process has open is not copied as one that nobody serves."""
        settings = self.settings()
        settings.log.write_bytes(b"")
        for path in settings.store, settings.log:
            with contextlib.ExitStack() as held:
                self.assertTrue(databases.lock(path, held))
                with self.assertRaisesRegex(
                    Failure,
                    (
                        f"{path}: another process has the database open; leave out --copy, or give"
                        " a snap"
                    ),
                ):
                    databases.need_unlocked(settings.store)
                path.chmod(0o400)
            with databases.unlocked(settings.store):
                pass
        with (
            contextlib.ExitStack() as held,
            self.assertRaises(Failure),
            databases.unlocked(settings.store),
        ):
            databases.lock(settings.store, held)
        with mock.patch("fcntl.fcntl", side_effect=OSError(errno.ENOLCK, "No locks available")):
            with self.assertRaisesRegex(
                Failure, "whether it is in use cannot be seen: no locks available; copy it"
            ):
                databases.need_unlocked(settings.store)

    def test_refused(self) -> None:
        """Which words of the program say that an object is too long, and what they are reported
        of."""
        long = "is not RPSL, or over 65536 bytes: mend it"
        for reported, status, kind, thing in [
            (
                f"dump.rpsl, line 9: nothing is loaded, because paragraph 2 {long}",
                5,
                databases.TooLong,
                "copy",
            ),
            (
                (
                    "dump.rpsl, line 9, aut-num AS1: nothing is loaded, because paragraph 2 has the"
                    " key of one before it: .."
                ),
                5,
                Failure,
                "copy",
            ),
            ("dump.rpsl: out of memory: give the program more", 5, Failure, "copy"),
            ("irr.db: the disk is full: make room", 4, Failure, "copy"),
            ("irr.db: a program of SQLite left a journal", 4, Failure, "irr.db"),
        ]:
            with program(f"echo 'irrdesk: {reported}' >&2; exit {status}"):
                copy = databases.Copy(self.folder / "copy", TEXT, self.folder / "irr.db")
                with self.assertRaises(Failure) as raised:
                    copy.load(self.folder / "dump.rpsl")
            self.assertEqual(
                (type(raised.exception), raised.exception.thing),
                (kind, str(self.folder / thing)),
                reported,
            )

    def test_tried(self) -> None:
        """A backup has no dump only if an object is too long for it; what else stops `load` stops
        the backup."""
        settings, fault = (
            self.settings(),
            "nothing is loaded, because paragraph 1 is not RPSL, or over 65536 bytes: mend it",
        )
        (
            short,
            long,
        ) = b"mntner:         A-MNT\n\n", b"mntner:         A-MNT\ndescr:          %s\n\n" % (
            b"x" * syntax.LARGEST
        )
        settings.path.touch()
        for text, reported, is_backup in (
            (long, fault, True),
            (short, fault, False),
            (long, "out of memory: give the program more", False),
        ):
            full = self.file("full.rpsl", text + b"% end 1\n")
            with tempfile.TemporaryDirectory(dir=self.folder) as work, program(
                f"[ $1 = load ] || exec cat {full};"
                f' echo "irrdesk: dump.rpsl: {reported}" >&2; exit 5'
            ):
                made = databases.Copy(Path(work) / "made", TEXT)
                made.store.write_bytes(b"rows")
                (Path(work) / "full.rpsl").write_bytes(full.read_bytes())
                if is_backup:
                    self.assertEqual(
                        (backup.tried(Path(work), settings, made), sorted(os.listdir(made.folder))),
                        (fault, ["irr.db", "irr.toml"]),
                    )
                else:
                    with self.assertRaisesRegex(
                        Failure, f"loaded: irrdesk load: dump.rpsl: {reported}$"
                    ):
                        backup.tried(Path(work), settings, made)

    def test_outdated(self) -> None:
        """A backup without a dump takes the place of none that has one."""
        for number in range(1, 6):
            (self.folder / f"2026010{number}T000000Z").mkdir()
            if number in (1, 2, 4):
                self.file(f"2026010{number}T000000Z/dump.rpsl", b"")
        for keep, is_whole, gone in [
            (1, True, [1, 2, 3]),
            (2, True, [1]),
            (3, True, []),
            (1, False, [3]),
            (2, False, []),
        ]:
            found = sorted(
                int(path.name[7])
                for path in backup.outdated(backup.backups(self.folder), keep, is_whole)
            )
            self.assertEqual(found, gone, keep)
        # A link to one that was moved is the operator's.
        (self.folder / "20260101T000000Z").rename(self.folder / "moved")
        (self.folder / "20260101T000000Z").symlink_to("moved")
        self.assertEqual(
            [path.name for path in backup.outdated(backup.backups(self.folder), 1, True)],
            ["20260102T000000Z", "20260103T000000Z"],
        )

    def test_retired(self) -> None:
        """A backup that was removed halfway is none, and goes with the next run."""
        for number in 1, 2:
            (self.folder / f"2026010{number}T000000Z").mkdir()
            self.file(f"2026010{number}T000000Z/dump.rpsl", b"")
        half = [".new-20260101T000000Z", "20260102T000000Z"]
        with mock.patch(
            "irr.system.files.remove", side_effect=KeyboardInterrupt
        ), self.assertRaises(KeyboardInterrupt):
            backup.retire(self.folder, "20260102T000000Z", 1, True)
        self.assertEqual(sorted(os.listdir(self.folder)), half)
        with mock.patch("irr.system.files.remove", side_effect=OSError(13, "Permission denied")):
            with self.assertRaisesRegex(
                Failure,
                (
                    "/.new-2.*: what an earlier run left cannot be removed: permission denied;"
                    " remove it"
                ),
            ):
                backup.retire(self.folder, "20260102T000000Z", 1, True)
        backup.retire(self.folder, "20260102T000000Z", 1, True)
        self.assertEqual(os.listdir(self.folder), half[1:])

    def test_later(self) -> None:
        """Folders whose names are later than the new backup's are named, and neither count nor
        go."""
        names = ["20260101T000000Z", "20260102T000000Z", "20260103T000000Z", "20360101T000000Z"]
        for name in names:
            (self.folder / name).mkdir()
            self.file(f"{name}/dump.rpsl", b"")
        later = backup.retire(self.folder, names[2], 1, True)
        self.assertEqual([path.name for path in later], names[3:])
        self.assertEqual(sorted(os.listdir(self.folder)), names[2:])
        self.assertEqual(backup.retire(self.folder, names[3], 2, True), [])
        self.assertEqual(sorted(os.listdir(self.folder)), names[2:])

    def test_alone(self) -> None:
        settings = self.settings()
        with databases.alone(settings) as first, databases.alone(settings) as second:
            self.assertEqual((first, second), (True, False))
        with databases.alone(settings) as again:
            self.assertTrue(again)

    def test_nobody_serves(self) -> None:
        settings = self.settings()
        with databases.alone(settings), self.assertRaises(Failure), databases.still(settings, 1):
            self.fail("it was copied while another process had it")

    def test_held_still(self) -> None:
        settings = self.settings()
        server = self.server(settings)
        try:
            with databases.still(settings, 10):
                self.assertTrue(databases.is_still(server.pid))
            self.wait_until_it_goes_on(server)
            with self.assertRaises(Failure), databases.still(settings, 0.3):
                time.sleep(1)
            self.wait_until_it_goes_on(server)
        finally:
            server.kill()
            server.communicate()

    def test_goes_on_when_the_holder_is_killed(self) -> None:
        """By itself, or with all of its group."""
        for kill in os.kill, os.killpg:
            with self.subTest(kill.__name__):
                self.need_going_on(kill)

    def test_goes_on_when_all_of_the_unit_is_killed(self) -> None:
        """As where memory runs out: what the unit runs after that lets it go on."""
        text = Path(TOP, "units", "irrdesk-backup.service").read_text(encoding="ascii")
        kill = r"^ExecStopPost=\+-/usr/bin/systemctl kill --signal=(\w+) irrdesk\.service$"
        (name,) = re.findall(kill, text, re.M)
        self.need_going_on(kill_all, signal.Signals[name])

    def need_going_on(
        self, kill: Callable[[int, int], None], after: signal.Signals | None = None
    ) -> None:
        """Also where it is still after that kill, if a signal after it is given."""
        settings = self.settings()
        server = self.server(settings)
        words = (
            "import sys, time\nfrom pathlib import Path\nfrom irr.local import databases\ns ="
            " databases.Settings(Path(sys.argv[1]), 'TEST', 'ROOT-MNT', '', 10,"
            " Path(sys.argv[2]))\nwith databases.still(s, 60):\n    print('still', flush=True)\n   "
            " time.sleep(60)\n"
        )
        top = Path(databases.__file__).parents[2]
        holder = subprocess.Popen(
            [sys.executable, "-c", words, settings.path, settings.store],
            stdout=subprocess.PIPE,
            env=os.environ | {"PYTHONPATH": str(top)},
            start_new_session=True,
        )
        try:
            self.assertEqual(holder.stdout.readline(), b"still\n")
            self.assertTrue(databases.is_still(server.pid))
            kill(holder.pid, signal.SIGKILL)
            if after:
                holder.wait()
                self.assertTrue(databases.is_still(server.pid))
                os.kill(server.pid, after)
            self.wait_until_it_goes_on(server)
        finally:
            for process in holder, server:
                process.kill()
                process.communicate()

    def server(self, settings: Settings) -> subprocess.Popen[bytes]:
        """A process that has the database open as `irrdesk serve` has it."""
        words = (
            "import fcntl, os, struct, sys, time\nn = os.open(sys.argv[2],"
            " os.O_RDWR)\nfcntl.fcntl(n, fcntl.F_OFD_SETLK, struct.pack('hhqqi4x', fcntl.F_WRLCK,"
            " 0, 0x40000000, 512, 0))\nprint('open', flush=True)\ntime.sleep(60)\n"
        )
        self.file("serve", words.encode())
        # Its first word is the program, as in the words of `irrdesk serve SETTINGS`.
        server = subprocess.Popen(
            [sys.executable, "serve", str(settings.path), str(settings.store)],
            cwd=self.folder,
            stdout=subprocess.PIPE,
        )
        self.assertEqual(server.stdout.readline(), b"open\n")
        return server

    def wait_until_it_goes_on(self, server: subprocess.Popen[bytes]) -> None:
        end = time.monotonic() + PATIENCE
        while databases.is_still(server.pid):
            self.assertLess(time.monotonic(), end, "the server was left still")
            time.sleep(0.01)


class Replicas(Folder):
    def test_agent(self) -> None:
        agent: Any = SimpleNamespace(draining={4344}, heard=set())
        self.assertEqual(replicas.Agent.word(agent, b"4344\n"), b"drain\n")
        self.assertEqual(replicas.Agent.word(agent, b"4345\n"), b"ready\n")
        self.assertEqual(replicas.Agent.word(agent, b"nonsense"), b"ready\n")
        self.assertEqual(agent.heard, {4344})

    def test_stopped_in_mid_change(self) -> None:
        keeper = replicas.Keeper(self.folder, [], None, 0)
        keeper.start(5)
        self.assertEqual(keeper.known, "")
        keeper.old.mkdir()
        (self.folder / "made.next").mkdir()
        for name, text in ("irr.toml", TEXT), ("irr.db", "rows"), ("dump.rpsl", "% end 0\n"):
            (keeper.old / name).write_text(text)
        keeper.start(5)
        self.assertEqual(
            (keeper.known, os.listdir(self.folder)), (replicas.digest(keeper.made.dump), ["made"])
        )
        self.assertEqual(
            (keeper.made.folder / "irr.toml").read_text(), TEXT.replace("limit = 10", "limit = 5")
        )

    def test_connected(self) -> None:
        import socket

        with socket.create_server(("127.0.0.1", 0)) as listener:
            port = listener.getsockname()[1]
            self.assertFalse(replicas.is_connected(port))
            with socket.create_connection(("127.0.0.1", port)) as peer:
                self.assertTrue(replicas.is_connected(port))
                peer.shutdown(socket.SHUT_WR)
                self.assertTrue(replicas.is_connected(port))

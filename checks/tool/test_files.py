"""Files put in place, folders held, dumps made loadable, and maps drawn."""

import fcntl
import hashlib
import os
import shutil
import tempfile
import unittest
from collections.abc import Iterator
from pathlib import Path
from types import SimpleNamespace
from typing import Any
from unittest import mock

from checks.tool.stores import limited
from irr.commands import export
from irr.errors import Failure
from irr.local import program, temporary_registry
from irr.local.temporary_registry import TemporaryRegistry
from irr.registry import hilbert
from irr.registry.server import Server, shown_url
from irr.rpsl import hashes, keys, syntax
from irr.rpsl.keys import Prefix
from irr.system import files


class Files(unittest.TestCase):
    def setUp(self) -> None:
        self.temporary = tempfile.TemporaryDirectory()
        self.folder = Path(self.temporary.name)

    def tearDown(self) -> None:
        self.temporary.cleanup()

    def test_a_file_is_put_in_place_with_its_mode(self) -> None:
        path = self.folder / "file"
        files.put(path, [b"a", b"b"], files.PRIVATE)
        self.assertEqual((path.read_bytes(), path.stat().st_mode & 0o777), (b"ab", 0o600))
        files.put(path, b"c")
        # A file that is replaced gives no more rights than before.
        self.assertEqual((path.read_bytes(), path.stat().st_mode & 0o777), (b"c", 0o600))
        files.put(self.folder / "other", b"d")
        self.assertEqual((self.folder / "other").stat().st_mode & 0o777, 0o644)

    def test_an_export_without_room_puts_no_file_in_place(self) -> None:
        """Sets of today beside routes of yesterday are no state that the registry ever had."""
        texts = [
            b"route: 10.0.%d.0/24\norigin: AS1\nremarks: %s\nmnt-by: A-MNT\nsource: TEST\n"
            % (number, hashlib.sha512(b"%d" % number).hexdigest().encode())
            for number in range(60)
        ] + [b"as-set: AS-A\nmnt-by: A-MNT\nsource: TEST\n"]
        dump = [syntax.read(text).text() + b"\n" for text in texts] + [b"% end 61\n"]
        for kind in keys.CLASSES:
            files.put(self.folder / f"test.db.{kind}.gz", b"old")
        with limited(2_048), self.assertRaisesRegex(Failure, "it cannot be written"):
            export.written(dump, "a dump", self.folder, False)
        self.assertEqual({path.read_bytes() for path in self.folder.iterdir()}, {b"old"})
        counts = export.written(dump, "a dump", self.folder, False)
        self.assertEqual((counts["route"], counts["as-set"]), (60, 1))
        self.assertEqual(len(list(self.folder.iterdir())), len(keys.CLASSES))

    def test_of_several_files_the_one_that_failed_is_named(self) -> None:
        """Where room is made by removing the others, only one fails, and only once."""
        with self.assertRaisesRegex(Failure, "first: it cannot be written: file too large"):
            with files.written(self.folder / "first") as out, files.written(self.folder / "last"):
                with limited(2_048):
                    out.write(bytes(100_000))
        self.assertEqual(list(self.folder.iterdir()), [])

    def test_what_fails_leaves_the_file_as_it_was(self) -> None:
        path = self.folder / "file"
        path.write_bytes(b"kept")

        def pieces() -> Iterator[Any]:
            yield b"new"
            raise Failure("x", "cut off")

        self.assertRaises(Failure, files.put, path, pieces())
        self.assertEqual((path.read_bytes(), os.listdir(self.folder)), (b"kept", ["file"]))
        self.assertRaises(Failure, files.put, self.folder / "none" / "file", b"x")
        (self.folder / "taken").mkdir()
        self.assertRaises(Failure, files.put, self.folder / "taken", b"x")

    def test_what_was_left_goes(self) -> None:
        """Of a run that was killed, and not what a process writes still, or anybody else has."""
        left, held, folder = (self.folder / f".file.irr-{mark * 8}" for mark in "abc")
        others = [".file.irr-kept", ".file.original", ".files.irr-abcdefgh", "file.irr-abcdefgh"]
        for path in [left, held, *(self.folder / name for name in others)]:
            path.write_bytes(b"half")
        folder.mkdir()
        (link := self.folder / ".file.irr-dddddddd").symlink_to(left)
        with open(held, "rb") as file:
            fcntl.flock(file, fcntl.LOCK_EX)
            files.put(self.folder / "file", b"whole")
        kept = ["file", held.name, folder.name, link.name, *others]
        self.assertEqual(sorted(os.listdir(self.folder)), sorted(kept))
        files.put(self.folder / "file", b"whole")
        kept.remove(held.name)
        self.assertEqual(sorted(os.listdir(self.folder)), sorted(kept))

    @unittest.skipUnless(os.geteuid() == 0, "it takes root")
    def test_what_another_user_left_stays(self) -> None:
        (left := self.folder / ".file.irr-abcdefgh").touch()
        os.chown(left, 65_534, 65_534)
        files.put(self.folder / "file", b"whole")
        self.assertTrue(left.exists())

    def test_several_write_one_file(self) -> None:
        """Each puts its own text in place, and none takes that of another away."""
        path, texts = self.folder / "file", [bytes([65 + number]) * 5_000 for number in range(4)]
        numbers = []
        for text in texts:
            if not (number := os.fork()):
                status = 1
                try:
                    for _ in range(100):
                        files.put(path, text)
                    status = 0
                finally:
                    os._exit(status)
            numbers.append(number)
        self.assertEqual([os.waitpid(number, 0)[1] for number in numbers], [0] * 4)
        self.assertIn(path.read_bytes(), texts)
        self.assertEqual(os.listdir(self.folder), ["file"])

    def test_what_is_no_file_is_not_replaced(self) -> None:
        pipe, link = self.folder / "pipe", self.folder / "link"
        os.mkfifo(pipe)
        link.symlink_to(pipe)
        for path in pipe, link, self.folder:
            with self.assertRaisesRegex(Failure, "not a file that can be replaced; give"):
                files.put(path, b"x")
        # Where it is a link to a file it is not replaced either.
        self.assertRaises(Failure, files.put, "/dev/stdout", b"x")
        self.assertEqual(sorted(os.listdir(self.folder)), ["link", "pipe"])
        self.assertTrue(pipe.is_fifo() and link.is_symlink())

    def test_a_link_stays_and_its_file_is_replaced(self) -> None:
        """A link stays, and what it leads to is replaced in one step, also where that is not there
        yet."""
        there, here = self.folder / "there", self.folder / "here"
        for folder in there, here:
            folder.mkdir()
        link, second = here / "link", here / "second"
        link.symlink_to("../there/file")
        second.symlink_to("link")
        for path, text in (link, b"a"), (second, b"b"):
            files.put(path, text)
            self.assertEqual((path.is_symlink(), (there / "file").read_bytes()), (True, text))
        beside = []

        def pieces() -> Iterator[Any]:
            beside.append([len(os.listdir(there)), len(os.listdir(here))])
            yield b"c"

        files.put(link, pieces())
        self.assertEqual((beside, os.listdir(there)), ([[2, 2]], ["file"]))
        (here / "loop").symlink_to("loop")
        with self.assertRaisesRegex(Failure, "not a file that can be replaced; give"):
            files.put(here / "loop", b"x")
        self.assertTrue((here / "loop").is_symlink())

    def test_a_planted_link_is_not_followed(self) -> None:
        """A link is followed where the kernel follows it too: of the user or the folder's owner, if
        it is in a sticky folder of all."""
        me = os.geteuid()
        for mode, owner, user, is_followed in [
            (0o1777, me + 1, me + 2, False),
            (0o1777, me, me + 1, False),
            (0o1777, me + 1, me + 1, True),
            (0o1777, me + 1, me, True),
            (0o1775, me + 1, me + 2, True),
            (0o777, me + 1, me + 2, True),
        ]:
            folder, link = SimpleNamespace(st_mode=mode, st_uid=owner), SimpleNamespace(st_uid=user)
            with mock.patch("os.stat", return_value=folder), mock.patch(
                "os.lstat", return_value=link
            ):
                if is_followed:
                    files.need_own(Path("/x/link"), "/x/link")
                else:
                    with self.assertRaisesRegex(
                        Failure,
                        (
                            "^/y: /x/link is another user's link, in a folder where anybody may put"
                            " one; give"
                        ),
                    ):
                        files.need_own(Path("/x/link"), "/y")

    def test_nothing_is_put_through_a_planted_link(self) -> None:
        """Wherever on the way the link of another user is, what it leads to stays as it was."""
        folder, real = self.folder / "of-all", self.folder / "file"
        folder.mkdir()
        real.write_bytes(b"kept")
        (folder / "link").symlink_to(real)
        (folder / "up").symlink_to("..")
        with mock.patch("irr.system.files.need_own", side_effect=Failure("x", "planted")) as asked:
            for path, link in (
                (folder / "link", "link"),
                (folder / "up/file", "up"),
                (folder / "up/other", "up"),
            ):
                self.assertRaisesRegex(Failure, "planted", files.put, path, b"x")
                self.assertEqual(asked.call_args.args[0].name, link)
        self.assertEqual(
            (real.read_bytes(), sorted(os.listdir(self.folder))), (b"kept", ["file", "of-all"])
        )

    def test_a_name_of_what_is_open_is_not_replaced(self) -> None:
        """A name of what is open is not the name of the file that it was opened as."""
        log, link, gone = self.folder / "log", self.folder / "so", self.folder / "gone"
        link.symlink_to("//dev/stdout")
        with open(log, "wb") as out, open(gone, "wb") as removed:
            gone.unlink()
            for number in out.fileno(), removed.fileno():
                for path in (
                    f"/dev/fd/{number}",
                    f"/proc/self/fd/{number}",
                    f"/proc/{os.getpid()}/fd/{number}",
                    str(link),
                    f"/dev/../dev/fd/{number}",
                ):
                    with self.assertRaisesRegex(Failure, "not a file that can be replaced; give"):
                        files.put(path, b"x")
        self.assertEqual((log.read_bytes(), sorted(os.listdir(self.folder))), (b"", ["log", "so"]))
        for path in "/dev/null", "/dev/none", "/proc/none":
            self.assertRaises(Failure, files.put, path, b"x")
            self.assertRaises(Failure, files.put_new, path, b"x")

    def test_links_lead_where_the_system_takes_them(self) -> None:
        """Links lead where the system takes them."""
        there, here = self.folder / "there", self.folder / "here"
        for folder in there, there / "deep", here:
            folder.mkdir()
        for link, lead in [
            ("here/a", "../there/deep"),
            ("here/b", str(there)),
            ("here/c", "a/../x"),
            ("here/d", "none"),
            ("here/e", "./b//./y"),
        ]:
            (self.folder / link).symlink_to(lead)
        for path in (
            "here/a/../z",
            "here/b/z",
            "here/c",
            "here/d",
            "here/e",
            "here/../there/deep/..",
            "here/a",
        ):
            self.assertEqual(
                str(files.followed(self.folder / path)), os.path.realpath(self.folder / path)
            )
        self.assertEqual(str(files.followed("x/../y")), os.path.realpath("x/../y"))

    def test_a_new_file_replaces_nothing(self) -> None:
        """Nothing is replaced or followed, and what fails leaves nothing."""
        path, link = self.folder / "file", self.folder / "link"
        files.put_new(str(path), b"a")
        self.assertEqual((path.read_bytes(), path.stat().st_mode & 0o777), (b"a", 0o600))
        link.symlink_to("other")
        for taken in path, link, self.folder, "/dev/stdout":
            with self.assertRaisesRegex(
                Failure, "there is such a file; take another name"
            ) as raised:
                files.put_new(str(taken), b"b")
            self.assertEqual(raised.exception.status, 2)
        for call in "os.fsync", "irr.system.files.sync_folder":
            with mock.patch(call, side_effect=OSError(5, "Input/output error")):
                with self.assertRaisesRegex(
                    Failure, "new: it cannot be written: input/output error; make room"
                ):
                    files.put_new(str(self.folder / "new"), b"c")
        with self.assertRaisesRegex(
            Failure, "none/new: it cannot be written: no such file or directory; look at its folder"
        ):
            files.put_new(str(self.folder / "none" / "new"), b"c")
        self.assertRaisesRegex(Failure, "is empty; give its path", files.put_new, "", b"c")
        self.assertEqual(
            (path.read_bytes(), sorted(os.listdir(self.folder))), (b"a", ["file", "link"])
        )

    def test_a_link_is_removed_and_not_its_file(self) -> None:
        """A link is removed, and what it leads to is not."""
        (self.folder / "real").mkdir()
        (self.folder / "real" / "file").write_bytes(b"x")
        (self.folder / "link").symlink_to("real")
        files.remove(self.folder / "link")
        self.assertEqual(os.listdir(self.folder / "real"), ["file"])
        files.remove(self.folder / "real" / "file")
        files.remove(self.folder / "real")
        self.assertEqual(os.listdir(self.folder), [])

    def test_a_fault_without_a_name_gets_one(self) -> None:
        for given, wanted in (None, "/x"), ("/y", "/y"):
            with self.assertRaises(OSError) as raised, files.named("/x"):
                raise OSError(28, "No space left on device", given)
            self.assertEqual(raised.exception.filename, wanted)

    def test_an_empty_name_is_refused(self) -> None:
        with self.assertRaisesRegex(
            Failure, "^the name of the file to write is empty; give its path$"
        ) as raised:
            files.put("", b"x")
        self.assertEqual(raised.exception.status, 2)

    def test_a_locked_folder_is_held_alone(self) -> None:
        with files.locked(self.folder):
            with self.assertRaises(Failure), files.locked(self.folder):
                pass
        with files.locked(self.folder):
            pass

    def test_the_last_few_are_kept(self) -> None:
        for name in "a", "b", "c":
            (self.folder / name).write_bytes(b"")
        self.assertEqual([path.name for path in files.keep_last(self.folder.iterdir(), 2)], ["a"])
        self.assertEqual(sorted(os.listdir(self.folder)), ["b", "c"])


class Loadable(unittest.TestCase):
    MNTNER = (
        b"mntner:         A-MNT # x\nauth:           # filtered\nauth:           #"
        b" filtered\nmnt-by:         A-MNT\nsource:         T\n\n"
    )

    def test_a_loadable_dump_has_auths_that_load_takes(self) -> None:
        other = (
            b"mntner:         B-MNT\nauth:           # filtered\nremarks:        auth: #"
            b" filtered\n\n"
        )
        text = b"".join(
            temporary_registry.Loadable(
                [self.MNTNER + other + b"% end 2\n"], {"A-MNT": [b"one", b"two \\1"]}
            )
        )
        self.assertEqual(
            text,
            b"mntner:         A-MNT # x\nauth:           one\nauth:           two \\1\nauth:       "
            b"    FILTERED\nmnt-by:         A-MNT\nsource:         T\n\n"
            + other.replace(b"auth:           # filtered", b"auth:           FILTERED"),
        )

    def test_a_long_object_stays_loadable(self) -> None:
        lines = b"".join(
            b"a%d:" % number + b" " * (14 - len(str(number))) + b"x\n" for number in range(5_000)
        )
        text = self.MNTNER[:-1] + lines + b"\n"
        made = b"".join(temporary_registry.Loadable([text]))
        self.assertLess(len(made), syntax.LARGEST)
        self.assertEqual(
            syntax.read(made.removesuffix(b"\n")).text(),
            text.replace(b"# filtered", b"x").removesuffix(b"\n"),
        )


class Programs(unittest.TestCase):
    def test_a_folder_is_not_the_program(self) -> None:
        with mock.patch.dict(os.environ, {"IRRDESK": "/usr"}):
            self.assertRaisesRegex(
                Failure,
                "^/usr: it is a folder; give the program's path by IRRDESK$",
                program.find,
            )

    def test_another_program_answers_no_report(self) -> None:
        """Of a program that is not irrdesk, which says nothing or something else."""
        for name in "true", "echo":
            program = shutil.which(name)
            with (
                mock.patch.dict(os.environ, {"IRRDESK": program}),
                TemporaryRegistry("TEST") as registry,
            ):
                self.assertRaisesRegex(
                    Failure,
                    f"^{program}: the program answers no report; give .* IRRDESK$",
                    registry.submit,
                    b"mntner: A\n",
                )


class Hashes(unittest.TestCase):
    def test_an_auth_line_has_the_digest_of_salt_and_password(self) -> None:
        self.assertEqual(
            hashes.auth_of(b"one good secret", "k3"),
            "SHA256-PW k3:ccda736dc82df011aa4a1a69307e8691d784c89481923035847c51743d3da2ca",
        )
        self.assertRegex(hashes.new_password(), r"^[a-z2-7]{5}(-[a-z2-7]{5}){3}$")
        self.assertRegex(hashes.new_salt(), r"^[A-Za-z0-9]{16}$")
        self.assertEqual(len({hashes.new_password() for _ in range(100)}), 100)


class Maps(unittest.TestCase):
    def test_boxes_of_a_map_have_equal_areas_and_do_not_overlap(self) -> None:
        top = Prefix(10 << 24, 8)
        for length in range(8, 17):
            inside = [
                Prefix((10 << 24) + (number << 32 - length), length)
                for number in range(1 << length - 8)
            ]
            boxes = [hilbert.box(prefix, top) for prefix in inside]
            area = hilbert.SIDE**2 / len(boxes)
            self.assertTrue(
                all(abs(width * height - area) < 1e-6 * area for _, _, width, height in boxes),
                length,
            )
            self.assertEqual(len({(x, y) for x, y, _, _ in boxes}), len(boxes))
            for (x, y, width, height), (left, upper, wide, high) in zip(boxes, boxes[1:]):
                touches = (
                    max(x, left) <= min(x + width, left + wide) + 1e-6
                    and max(y, upper) <= min(y + height, upper + high) + 1e-6
                )
                self.assertTrue(touches, "that neighbours stand beside one another")
        self.assertEqual(hilbert.box(Prefix(10 << 24, 32), top)[2:], (0.25, 0.25))


class Addresses(unittest.TestCase):
    def test_addresses_are_read_and_private_ones_known(self) -> None:
        for url in [
            "http://127.0.0.1:4343",
            "http://localhost/irr/",
            "https://irr.example.net",
            "http://127.8.9.1",
        ]:
            self.assertTrue(Server(url).is_private)
        self.assertEqual(
            (Server("https://irr.example.net/x/").path, Server("https://irr.example.net").port),
            ("/x", 443),
        )
        for url in [
            "",
            "irr.example.net",
            "http://",
            "ftp://x",
            "http://u:p@127.0.0.1",
            "http://127.0.0.1/?x",
            "http://[::1",
            "http://x:y",
            "http://irr.example.net",
            "http://127.0.0.1.example.net",
        ]:
            self.assertRaises(Failure, Server, url)
        self.assertFalse(Server("http://irr.example.net", plain=True).is_private)

    def test_an_empty_address_is_reported(self) -> None:
        """An empty address is not one that was not given."""
        environment = {name: value for name, value in os.environ.items() if name != "IRR_SERVER"}
        for given, variable, wanted in [
            (None, None, "http://127.0.0.1:4343"),
            (None, "http://127.0.0.2", "http://127.0.0.2"),
            ("http://127.0.0.3", "", "http://127.0.0.3"),
            ("", "http://127.0.0.2", "-s"),
            ("", None, "-s"),
            (None, "", "IRR_SERVER"),
        ]:
            set_here = {} if variable is None else {"IRR_SERVER": variable}
            with mock.patch.dict(os.environ, environment | set_here, clear=True):
                if wanted.startswith("http"):
                    self.assertEqual(Server.from_options(given).url, wanted)
                else:
                    with self.assertRaisesRegex(
                        Failure, f"^{wanted}: the address is empty; give one"
                    ) as raised:
                        Server.from_options(given)
                    self.assertEqual(raised.exception.status, 2)

    def test_an_address_is_shown_without_its_password(self) -> None:
        self.assertEqual(shown_url("https://u:p@irr.example.net/x?y"), "https://irr.example.net/x")
        self.assertEqual(shown_url("https://u:p/q@irr.example.net/x"), "https://irr.example.net/x")


if __name__ == "__main__":
    unittest.main()

"""A submission in parts."""

import functools
import io
import os
import tempfile
import unittest
from collections.abc import Iterable, Iterator
from types import SimpleNamespace
from typing import Any

from irr.commands import submit
from irr.errors import Failure
from irr.registry import submissions
from irr.registry.server import SENT, Lost, TooLarge
from irr.registry.submissions import Item, Reported, Sender, Source
from irr.rpsl import syntax


def items_of(text: bytes) -> list[Item]:
    return [Item("a file", block) for block in syntax.blocks([text], syntax.LARGEST + 1)]


class Registry:
    """Takes parts of at most so many bytes, and adds each item under a key that tells the passwords
    before it."""

    def __init__(self, most: int = submissions.MOST) -> None:
        self.most, self.refused = most, 0
        self.parts: list[bytes] = []

    def post(self, text: bytes) -> list[bytes]:
        if len(text) > self.most:
            self.refused += 1
            raise TooLarge("the server", "status 413")
        self.parts.append(text)
        lines: list[str] = []
        given: set[bytes] = set()
        for item in items_of(text):
            given |= {submissions.secret_of(attribute) for attribute in item.passwords()}
            if item.is_item:
                lines.append(
                    f"{len(lines) + 1} mntner"
                    f" N{len(given)}-{item.fault.code if item.fault else 'X'}: added\n"
                )
        text = "".join([*lines, f"% items {len(lines)}\n"]).encode()
        return [text[place : place + 7] for place in range(0, len(text), 7)]


TEXT = b"""mntner: A

password: one
 # two

%% skipped

mntner: B
password:
+ three
password: one\r
+\t# two

nocolon
password: four

aut-num: AS1
descr: %s

mntner: C
""" % (
    b"x" * 70_000
)


class Parts(unittest.TestCase):
    def report(
        self, text: bytes, part: int, most: int = submissions.MOST
    ) -> tuple[Registry, list[str]]:
        registry = Registry(most)
        sender = Sender(registry.post, part)
        lines = [reported.line.text() for reported in sender.send(items_of(text))]
        return registry, lines + [sender.last_line()]

    def test_parts_of_any_size_have_the_same_report(self) -> None:
        whole = self.report(TEXT, 1 << 20)
        self.assertEqual(len(whole[0].parts), 1)
        self.assertEqual(
            whole[1],
            [
                "1 mntner N0-X: added",
                "2 mntner N2-X: added",
                "3 mntner N2-E01: added",
                "4 mntner N2-E07: added",
                "5 mntner N2-X: added",
                "% items 5",
            ],
        )
        for part in 1, 60, 120, 70_000:
            registry, lines = self.report(TEXT, part)
            self.assertEqual(lines, whole[1], part)
        self.assertGreater(len(self.report(TEXT, 1)[0].parts), 4)

    def test_a_part_that_is_too_long_is_halved(self) -> None:
        text = b"password: x\n\n" + b"\n".join(b"mntner: N%d\n" % number for number in range(100))
        registry, lines = self.report(text, 1 << 20, most=200)
        self.assertEqual((len(lines), lines[-1]), (101, "% items 100"))
        self.assertTrue(all(len(part) <= 200 for part in registry.parts))
        # What was made ahead before the first refusal is not sent at its length.
        self.assertLess(registry.refused, 12)
        with self.assertRaises(TooLarge):
            self.report(text, 1 << 20, most=20)

    def test_passwords_inside_a_part_that_is_refused(self) -> None:
        """Its second half has those that its first half gives."""
        text = b"mntner: A\n\n" + b"\n".join(
            b"%smntner: N%d\n" % (b"password: p%d\n\n" % number if number < 4 else b"", number)
            for number in range(60)
        )
        whole = self.report(text, 1 << 20)[1]
        for most in 120, 200, 400:
            registry, lines = self.report(text, 1 << 20, most=most)
            self.assertGreater(len(registry.parts), 2)
            self.assertEqual(lines, whole, most)

    def test_passwords_go_on_into_later_parts(self) -> None:
        text = (
            b"".join(b"password: %d %s\n\n" % (number, b"y" * 30_000) for number in range(9))
            + b"mntner: A\n\nmntner: B\n"
        )
        _, lines = self.report(text, 1)
        self.assertEqual(lines, ["1 mntner N9-X: added", "2 mntner N9-X: added", "% items 2"])

    def test_how_a_report_ends_is_kept(self) -> None:
        for text, end, count, last in [
            (b"1 -: refused E01\n", "", 1, ""),
            (b"% stopped after 0 items\n", "stopped", 0, "% stopped after 0 items"),
            (b"% items 2\n", "", 2, ""),
        ]:
            sender = Sender(functools.partial(lambda text, _: [text], text))
            list(sender.send(items_of(b"a\n\nb\n")))
            self.assertEqual((sender.end, sender.count, sender.last_line()), (end, count, last))
        with self.assertRaises(Failure):
            list(Sender(lambda _: [b"% items 0\n"]).send(items_of(b"a\n")))

    def test_items_are_reported_as_they_come(self) -> None:
        """An item is told when its line has come, and a part goes out when the report of the last
        one is whole."""
        seen: list[bytes | str] = []

        def post(text: bytes) -> Iterator[Any]:
            seen.append(text)
            yield b"1 -: refused E01\n2 -: ref"
            seen.append("more")
            yield b"used E02\n% items 2\n" if len(seen) < 4 else b"used E02\n"

        sender = Sender(post, part=6)
        for reported in sender.send(items_of(b"a\n\nb\n\nc\n\nd\n\ne\n")):
            seen.append(reported.line.text())
        self.assertEqual(
            seen,
            [
                b"a\n\nb\n",
                "1 -: refused E01",
                "more",
                "2 -: refused E02",
                b"c\n\nd\n",
                "3 -: refused E01",
                "more",
                "4 -: refused E02",
            ],
        )
        self.assertEqual((sender.end, sender.count), ("", 4))

    def test_what_was_decided_before_a_loss_is_reported(self) -> None:
        """What was decided before is told, and that the rest may be registered."""
        registry = Registry()

        def post(text: bytes) -> list[bytes]:
            if registry.parts:
                raise Lost("the server", "the connection was cut off; the text was sent")
            return registry.post(text)

        printer: Any = SimpleNamespace(show=lambda reported: None)
        for part, words in [
            (1, "the server: after 1 item: the connection was cut off; the text was sent"),
            (1 << 20, "the server: the connection was cut off; the text was sent"),
        ]:
            with self.assertRaises(Failure) as raised:
                submit.send(Sender(post, part), items_of(b"mntner: A\n\nmntner: B\n"), printer)
            self.assertEqual(str(raised.exception), words)

    def test_a_report_that_cannot_be_printed_was_sent(self) -> None:
        """A report that can't be printed is of a text that was sent."""

        def full(_: Reported | Sender) -> None:
            raise OSError(28, "No space left on device")

        printers: list[Any] = [
            SimpleNamespace(show=full),
            SimpleNamespace(show=lambda _: None, end=full),
        ]
        for printer in printers:
            with self.assertRaises(OSError) as raised:
                submit.send(Sender(Registry().post), items_of(b"mntner: A\n"), printer)
            self.assertEqual(raised.exception.__notes__, [SENT])
        with self.assertRaises(OSError) as raised:
            submit.send(Sender(Registry().post), [], printer)
        self.assertFalse(hasattr(raised.exception, "__notes__"))

    def test_a_read_fault_ends_the_text_there(self) -> None:
        def broken() -> Iterator[Item]:
            yield from items_of(b"mntner: A\n")
            raise OSError(5, "Input/output error")

        # Also where all of it was looked at before it is sent.
        sources: list[Iterable[Item]] = [broken(), submissions.Gathered(broken())]
        for source in sources:
            sender = Sender(Registry().post)
            self.assertEqual(len(list(sender.send(source))), 1)
            self.assertEqual(sender.last_line(), "% read fault after 1 items")
            self.assertEqual(sender.read_fault.errno, 5)

    def test_typed_passwords_are_those_of_one_line(self) -> None:
        for typed in "a\nb", "\x01", " a", "a\t":
            self.assertRaises(Failure, submissions.password_item, typed, "A-MNT")
        found = submissions.password_item("one # two é", "A-MNT").passwords()
        self.assertEqual(
            [submissions.secret_of(attribute) for attribute in found], ["one # two é".encode()]
        )


class Sources(unittest.TestCase):
    def test_what_is_no_text_is_refused(self) -> None:
        with tempfile.TemporaryDirectory() as folder:
            path = os.path.join(folder, "file")
            for text in (
                b"\x1f\x8b\x08",
                "a: b".encode("utf-16"),
                b"\xef\xbb\xbfa: b",
                b"PK\3\4",
                b"a: \0",
            ):
                with open(path, "wb") as out:
                    out.write(text)
                self.assertRaises(Failure, Source, path)
            self.assertRaises(Failure, Source, folder)
            self.assertRaises(Failure, Source, path + "x")


class Chunks(unittest.TestCase):
    def test_chunks_are_the_text(self) -> None:
        self.assertEqual(b"".join(syntax.chunks(io.BytesIO(TEXT))), TEXT)


if __name__ == "__main__":
    unittest.main()

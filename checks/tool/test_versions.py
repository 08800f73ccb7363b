"""The versions of objects that a history has, and the keys and times that ask for them."""

import hashlib
from collections.abc import Iterator
from unittest import mock

from checks.tool.stores import Folder
from irr.commands.history import show
from irr.errors import Failure
from irr.local import history
from irr.local.history import Repository
from irr.rpsl import syntax
from irr.rpsl.keys import Key


def unread() -> Iterator[syntax.Block]:
    """A dump that must not be read."""
    raise AssertionError("it was read")
    yield


class Past(Folder):
    def record(self, repository: Repository, texts: list[bytes], now: int) -> str:
        blocks = [syntax.Block(1, len(text), text) for text in texts]
        digest = hashlib.sha256(b"".join(texts)).hexdigest()
        return repository.record(iter(blocks), digest, now)

    def test_versions(self) -> None:
        first, second = (
            b"aut-num:        AS64496\nsource:         TEST\n",
            b"aut-num:        AS64496\ndescr:          x\nsource:         TEST\n",
        )
        other = b"route:          192.0.2.0/24\norigin:         AS64496\nsource:         TEST\n"
        repository, key = history.Repository(self.folder), Key("aut-num", "AS64496")
        self.assertEqual(self.record(repository, [first], 1_000), "1 added, 0 changed, 0 deleted")
        self.assertEqual(self.record(repository, [first], 1_100), "")
        # A dump that is the last one is not read.
        same = hashlib.sha256(first).hexdigest()
        self.assertEqual(repository.record(unread(), same, 1_150), "")
        self.assertEqual(repository.looked.stat().st_mtime, 1_150)
        self.assertEqual(
            self.record(repository, [second, other], 1_200), "1 added, 1 changed, 0 deleted"
        )
        # A clock that goes back does not turn the order round.
        with mock.patch("irr.terminal.texts.note") as note:
            self.assertEqual(self.record(repository, [other], 900), "0 added, 0 changed, 1 deleted")
        note.assert_called_once_with(
            f"irr history: {self.folder}: the state before is dated 1970-01-01T00:20:00Z, and the"
            " clock says 1970-01-01T00:15:00Z; this one gets the later time: look whether the"
            " clock is right"
        )
        self.assertEqual(
            [tuple(version) for version in repository.versions(key)],
            [(1_000, "added", first), (1_200, "changed", second), (1_200, "deleted", b"")],
        )
        self.assertEqual(list(repository.versions(Key("aut-num", "AS1"))), [])
        self.assertIsNone(repository.state(999))
        # A state is that of its own second too.
        self.assertEqual(b"".join(repository.objects(repository.state(1_000))), first + b"\n")
        self.assertEqual(b"".join(repository.objects(repository.state(1_200))), other + b"\n")
        self.assertEqual(b"".join(repository.objects(repository.state(1_199))), first + b"\n")
        self.assertEqual(b"".join(repository.objects(repository.state())), other + b"\n")

    def test_words(self) -> None:
        self.assertEqual(history.read_time("1970-01-02"), 86_400)
        self.assertEqual(history.read_time("1970-01-01T01:00+01:00"), 0)
        self.assertRaises(Failure, history.read_time, "yesterday")
        for words, wanted in [
            ("192.0.2.0/24 AS64496", ["route 192.0.2.0/24 AS64496"]),
            ("route 192.0.2.0/24 as64496", ["route 192.0.2.0/24 AS64496"]),
            ("192.0.2.0 - 192.0.2.255", ["inetnum 192.0.2.0 - 192.0.2.255"]),
            ("as-a", ["as-set AS-A"]),
            ("as64496", ["mntner AS64496", "aut-num AS64496"]),
            ("aut-num AS64496", ["aut-num AS64496"]),
            ("as1-as2", ["mntner AS1-AS2", "as-block AS1 - AS2"]),
        ]:
            self.assertEqual(
                [f"{key.kind} {key.text}" for key in history.read_keys(words.split())], wanted
            )
        for words in "%", "route 192.0.2.0/24", "route 192.0.2.0/24 AS1 x", "aut-num A-MNT":
            self.assertRaises(Failure, history.read_keys, words.split())

    def test_shown(self) -> None:
        """A key without its class is that of the object which was seen, of whichever class."""
        number, name = (
            b"aut-num:        AS64496\nsource:         TEST\n",
            b"mntner:         AS64497\nsource:         TEST\n",
        )
        repository = history.Repository(self.folder)
        self.record(repository, [number, name], 1_000)
        for words, text in (["AS64496"], number), (["AS64497"], name):
            with mock.patch("irr.terminal.texts.put") as put:
                self.assertEqual(show(repository, words), 0)
            put.assert_called_once_with(b"% 1970-01-01T00:16:40Z added\n" + text + b"\n")
        with mock.patch("irr.terminal.texts.note") as note:
            self.assertEqual(show(repository, ["AS64498"]), 1)
        note.assert_called_once_with(
            "irr history: mntner AS64498 or aut-num AS64498: it was never seen"
        )
        self.record(repository, [number, name.replace(b"7", b"6")], 2_000)
        with self.assertRaisesRegex(
            Failure,
            "^AS64496: mntner AS64496 and aut-num AS64496 were seen; put the class before it$",
        ):
            show(repository, ["AS64496"])

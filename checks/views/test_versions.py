"""Histories of a source by chance that is followed by NRTM, version 4: after each look the view
has what the source has, or its status says what is wrong; and it has that once a session begins."""

import base64
import contextlib
import copy
import os
import random
import tempfile
from collections.abc import Callable, Iterator
from pathlib import Path
from typing import Any

import pytest

from checks.mirrors import writer4
from checks.mirrors.client4 import NOTIFICATION
from checks.running import Failure, Tell, Trial
from checks.views.following import PATH, World, named
from checks.views.registry import Merged
from checks.views.test_sources import route
from irr.errors import Failure as Fault
from irr.local import tables
from irr.system import signing
from irr.views import view
from irr.views.sources import State

IN_MEMORY = True
SECONDS = 60
ROUTES = 12


class Merged4(Merged):
    """What is merged of the routes of a snapshot, and of the changes in their order."""

    def read_states(self, states: dict[str, State]) -> None:
        self.routes = {}
        state = states["RIPE"]
        for text in state.parts[0].read_text().split("\n\n"):
            if text.startswith("route:"):
                self.routes[named(text + "\n")[0]] = text.strip("\n")
        changes = state.changes.read_text().strip("\n")
        blocks = changes.split("\n\n") if changes else []
        for word, text in zip(blocks[::2], blocks[1::2], strict=True):
            self.routes.pop(named(text + "\n")[0], None)
            if word == "ADD":
                self.routes[named(text + "\n")[0]] = text


class Operator4(World):
    """A registry, what is done to it step by step, and a view of it that is merged quickly."""

    def __init__(self, folder: Path, chance: random.Random) -> None:
        self.chance, self.done, self.count = chance, list[str](), 0
        self.texts: dict[str, bytes | int] = {}
        self.writer = writer4.Writer4("RIPE", self.texts, folder)
        self.writer.objects = dict(map(named, map(route, range(6))))
        self.writer.begin()
        super().__init__(folder, "RIPE", f"{folder}{PATH}", "KEY")
        text = (folder / "view.toml").read_text()
        head, _, source = text.split("[[source]]")
        (folder / "view.toml").write_text(head + "[[source]]" + source)
        World.begin(self)
        # What it was at each version, and a file that was lost.
        self.saved = [self.state()]
        self.lost: list[tuple[str, bytes | int]] = []
        self.steps: list[Callable[[], str]] = [
            *[self.change] * 5,
            self.forget,
            self.take_snapshot,
            *[self.drop] * 2,
            self.begin_session,
            *[self.restore] * 2,
            self.lose,
            self.find,
        ]

    def state(self) -> Any:
        one = self.writer
        return copy.deepcopy((one.session, one.version, one.deltas, one.snapshot, one.objects))

    def step(self) -> None:
        self.done.append(self.chance.choice(self.steps)())

    def keep(self, words: str) -> str:
        self.saved.append(self.state())
        return words

    def change(self) -> str:
        changes = []
        for number in self.chance.sample(range(ROUTES), self.chance.choice([1, 1, 3])):
            self.count += 1
            held = self.writer.objects.get(named(route(number))[0])
            if held and self.chance.random() < 0.4:
                changes.append(("DEL", held))
            else:
                changes.append(("ADD", route(number, 2, f"change {self.count}")))
        self.writer.publish(changes)
        return self.keep(f"version {self.writer.version}")

    def forget(self) -> str:
        self.writer.forget()
        return self.keep("a snapshot without changes")

    def take_snapshot(self) -> str:
        self.writer.take_snapshot()
        self.writer.notify()
        return self.keep("a snapshot")

    def drop(self) -> str:
        """Some changes are no longer named, if the snapshot has them."""
        deltas = self.writer.deltas
        before = [one for one in deltas if one["version"] <= self.writer.snapshot["version"]]
        del deltas[: self.chance.randrange(len(before) + 1)]
        self.writer.notify()
        return f"{len(deltas)} changes named"

    def begin_session(self) -> str:
        self.writer.begin()
        return self.keep("a session")

    def restore(self) -> str:
        """To any state so far, which is told, or goes on at once."""
        state, one = copy.deepcopy(self.chance.choice(self.saved)), self.writer
        one.session, one.version, one.deltas, one.snapshot, one.objects = state
        words = f"restored to {one.session[:4]} {one.version}"
        if self.chance.random() < 0.6:
            one.notify()
            return words
        return f"{words}, then {self.change()}"

    def lose(self) -> str:
        names = [one for one in self.texts if NOTIFICATION not in one]
        if not names:
            return "nothing to lose"
        name = self.chance.choice(names)
        self.lost = [(name, self.texts.pop(name))]
        return f"lost {name}"

    def find(self) -> str:
        self.texts |= dict(self.lost)
        return "found it"

    def look(self) -> str:
        """The fault, or nothing; a Failure where the view is another one without it."""
        (self.folder / "4").mkdir(exist_ok=True)
        for path in (self.folder / "4").iterdir():
            path.unlink()
        for name, text in self.texts.items():
            assert isinstance(text, bytes)
            Path(f"{self.folder}{name}").write_bytes(text)
        try:
            fault = self.renew()
        except Fault as failure:
            fault = str(failure)
        self.done.append(f"looked: {fault}")
        wanted = sorted(text.strip("\n") for text in self.writer.objects.values())
        if not fault and sorted(filter(None, self.known.split("\n\n"))) != wanted:
            raise Failure("; ".join(self.done))
        return fault


def unsigned(self: writer4.Writer4, payload: bytes, *_: object) -> bytes:
    return b"e30." + writer4.plain(payload) + b".x"


def verified(text: bytes, _: str) -> bytes:
    return base64.urlsafe_b64decode(text.split(b".")[1] + b"===")


@contextlib.contextmanager
def operator(monkeypatch: pytest.MonkeyPatch, chance: random.Random) -> Iterator[Operator4]:
    """One whose files have no signatures, which take most of the time."""
    with tempfile.TemporaryDirectory() as folder, monkeypatch.context() as patched:
        patched.setattr(writer4.Writer4, "new_key", lambda self, _: Path("key1-EdDSA.pem"))
        patched.setattr(writer4.Writer4, "signed", unsigned)
        patched.setattr(signing, "public_in", lambda text, _: text.decode())
        patched.setattr(signing, "verified", verified)
        patched.setattr(view, "Merge", Merged4)
        patched.setattr(tables, "write", lambda *_: None)
        patched.setattr(view, "Copy", lambda *_: None)
        patched.setattr(os, "fsync", lambda _: None)
        yield Operator4(Path(folder), chance)


def test_histories_of_versions(trial: Trial, monkeypatch: pytest.MonkeyPatch, tell: Tell) -> None:
    chance, faults, looks = trial.chance("histories of versions"), 0, 0
    count = trial.count or trial.pick(200, 10_000)
    for _ in range(count):
        with operator(monkeypatch, chance) as one:
            one.look()
            for _ in range(8):
                for _ in range(chance.choice([1, 1, 2, 3])):
                    one.step()
                faults += bool(one.look())
                looks += 1
            one.done.append(one.begin_session())
            if one.look():
                raise Failure("it stands still: " + "; ".join(one.done))
    tell(f"{count} histories, {looks} looks, {faults} with a fault")

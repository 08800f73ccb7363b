"""Histories of a source by chance, as its operator may bring them about: after each look the view
has what the source has, or its status says what is wrong; and once a dump of now is there, which
nobody has seen before, it has that."""

import gzip
import hashlib
import random
from collections.abc import Callable

import pytest

from checks.running import Failure, Tell, Trial
from checks.views.registry import DUMP, SERIAL, Registry, quick

IN_MEMORY = True
SECONDS = 60


class Operator:
    """What is done to a registry that is followed by NRTM, version 3, step by step."""

    def __init__(self, registry: Registry, chance: random.Random) -> None:
        self.one, self.chance, self.done = registry, chance, list[str]()
        # Of each serial so far what there was; the dumps that were published, with their serials.
        self.states = {registry.nrtm.last: dict(registry.routes)}
        self.dumps = [self.served()]
        self.whole = self.dumps[0][0]
        self.count = 0
        # The serial of a dump that was published alone.
        self.ahead: int | None = None
        # Whether it was restored since the last dump.
        self.is_restored = False
        self.steps: list[Callable[[], str]] = [
            *[self.change] * 6,
            *[self.publish] * 2,
            self.publish_serial,
            self.publish_dump,
            self.publish_old,
            self.restore,
            self.shorten,
            self.begin_anew,
            self.cut,
        ]

    def served(self) -> tuple[bytes, bytes]:
        texts = self.one.files.texts
        dump, serial = texts[DUMP], texts[SERIAL]
        assert isinstance(dump, bytes) and isinstance(serial, bytes)
        return dump, serial

    def step(self) -> None:
        self.done.append(self.chance.choice(self.steps)())

    def change(self) -> str:
        for _ in range(self.chance.choice([1, 1, 2, 5])):
            number, self.count = self.chance.randrange(30), self.count + 1
            if number in self.one.routes and self.chance.random() < 0.4:
                self.one.remove(number)
            else:
                self.one.add(number, words=f"change {self.count}")
            self.states[self.one.nrtm.last] = dict(self.one.routes)
        return f"changed up to {self.one.nrtm.last}"

    def publish(self) -> str:
        self.one.publish()
        self.ahead, self.is_restored = None, False
        self.dumps.append(self.served())
        self.whole = self.dumps[-1][0]
        return f"dump of {self.one.nrtm.last}"

    def publish_serial(self) -> str:
        """The serial, a long time before its dump, if that was looked at: of another one nothing
        could tell."""
        state = self.one.view.states.get("RIPE")
        digest = hashlib.sha256(self.served()[0]).hexdigest()
        if not state or state.digests != [digest]:
            return "nothing"
        self.one.put_serial()
        return f"serial alone of {self.one.nrtm.last}"

    def publish_dump(self) -> str:
        self.one.put_dump()
        self.ahead = self.one.nrtm.last
        return f"dump alone of {self.one.nrtm.last}"

    def publish_old(self) -> str:
        if not self.dumps:
            return "nothing"
        dump, serial = self.chance.choice(self.dumps)
        self.one.files.texts |= {DUMP: dump, SERIAL: serial}
        self.ahead = None
        return f"old dump of {serial!r}"

    def restore(self) -> str:
        """To one of its last states, which the journal has."""
        nrtm = self.one.nrtm
        kept = [one for one in self.states if nrtm.first - 1 <= one <= nrtm.last]
        serial = self.chance.choice(kept)
        if self.ahead is not None and self.ahead > serial:
            # Of a dump alone, whose serial is an earlier one, nothing could tell.
            return "nothing"
        self.one.restore(serial, self.states[serial])
        # Of a dump from before it that is published again, and that was not there, nothing tells.
        self.dumps = [one for one in self.dumps if int(one[1]) <= serial]
        self.is_restored = True
        for later in [one for one in self.states if one > serial]:
            del self.states[later]
        return f"restored to {serial}"

    def shorten(self) -> str:
        nrtm = self.one.nrtm
        if self.is_restored:
            # Neither its changes nor a dump may tell what it has by the same serial.
            return "nothing"
        # That of an IRRd is not emptied so.
        end = nrtm.last + (1 if nrtm.is_irrd and nrtm.changes else 2)
        nrtm.shorten(self.chance.randrange(nrtm.first, end))
        return f"journal from {nrtm.first} to {nrtm.last}"

    def begin_anew(self) -> str:
        nrtm, state = self.one.nrtm, self.one.view.states.get("RIPE")
        seen = state.serial if state and state.told else None
        if nrtm.is_irrd and nrtm.last not in (int(self.served()[1]), seen):
            # Of changes that are lost before a look nothing could tell.
            return "nothing"
        self.count += 1
        nrtm.first, nrtm.changes = self.chance.choice([1 + self.count, nrtm.last + 50]), []
        self.states = {nrtm.last: dict(self.one.routes)}
        self.dumps = []
        return f"serials begin at {nrtm.first}"

    def cut(self) -> str:
        dump = self.whole
        text = gzip.decompress(dump)
        self.one.files.texts[DUMP] = self.chance.choice(
            [dump[:-9], gzip.compress(text[: self.chance.randrange(len(text))], mtime=0)]
        )
        return "cut dump"

    def look(self) -> str:
        """The fault, or nothing; a Failure where the view is another one without it."""
        fault = self.one.look()
        self.done.append(f"looked: {fault}")
        if not fault and not self.one.is_same():
            raise Failure("; ".join(self.done))
        return fault

    def trim(self) -> str:
        """The journal begins after the last dump, or before; that of an IRRd which works is not
        emptied."""
        nrtm, dump = self.one.nrtm, int(self.served()[1])
        latest = dump if nrtm.is_irrd else dump + 1
        nrtm.shorten(self.chance.randrange(nrtm.first, max(latest, nrtm.first) + 1))
        return f"journal from {nrtm.first} to {nrtm.last}"

    def settle(self) -> None:
        """Publishes what there is now."""
        for _ in range(2):
            self.change()
            self.done.append(self.publish())
            fault = self.look()
        if fault:
            raise Failure("it stands still: " + "; ".join(self.done))


def test_a_registry_that_works_has_no_fault(
    trial: Trial, monkeypatch: pytest.MonkeyPatch, tell: Tell
) -> None:
    """It changes, publishes dumps, and tells the changes since the last one, and some before."""
    chance = trial.chance("working")
    count = trial.count or trial.pick(100, 5_000)
    for number in range(count):
        with quick(monkeypatch) as one:
            one.nrtm.is_irrd = bool(number % 2)
            operator = Operator(one, chance)
            operator.steps = [*[operator.change] * 3, operator.publish, operator.trim]
            for _ in range(10):
                if operator.look():
                    raise Failure("; ".join(operator.done))
                for _ in range(chance.choice([0, 1, 1, 2, 3])):
                    operator.step()
    tell(f"{count} registries")


def test_histories_of_serials(trial: Trial, monkeypatch: pytest.MonkeyPatch, tell: Tell) -> None:
    chance, faults, looks = trial.chance("histories"), 0, 0
    count = trial.count or trial.pick(300, 20_000)
    for number in range(count):
        with quick(monkeypatch) as one:
            one.nrtm.is_irrd = bool(number % 2)
            operator = Operator(one, chance)
            operator.look()
            for _ in range(8):
                for _ in range(chance.choice([1, 1, 2, 3])):
                    operator.step()
                faults += bool(operator.look())
                looks += 1
            operator.settle()
    tell(f"{count} histories, {looks} looks, {faults} with a fault")

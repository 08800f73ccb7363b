"""A clock that is set: nobody waits, or gets what is old, because of it."""

import time
from types import SimpleNamespace

import pytest

from checks.door import inside, worlds
from checks.running import expect
from irr.door import upstreams
from irr.door.settings import Place
from irr.local.health import Bounds


@pytest.mark.parametrize("jump", [-100_000.0, 100_000.0])
def test_the_age_of_a_replica_is_no_matter_of_the_clock(
    monkeypatch: pytest.MonkeyPatch, jump: float
) -> None:
    now = SimpleNamespace(wall=1_800_000_000.0, steady=50.0)
    clock = SimpleNamespace(time=lambda: now.wall, monotonic=lambda: now.steady)
    monkeypatch.setattr(upstreams, "time", clock)
    one = upstreams.Upstream(Place("127.0.0.1", 4_344))
    expect(one.age(), None, "the age of one that nobody tells of")
    one.see(now.wall - 10)
    now.wall += jump
    one.see(1_800_000_000.0 - 10)
    expect((one.age(), one.serves(600)), (10.0, True), "the age after a jump")
    now.wall, now.steady = now.wall + 700, now.steady + 700
    one.see(1_800_000_000.0 - 10)
    expect((one.age(), one.serves(600)), (710.0, False), "that of one that is no longer renewed")
    one.see(now.wall)
    expect((one.age(), one.serves(600)), (0.0, True), "that of one that is renewed again")


def test_nobody_looks_at_the_clock_for_a_query(monkeypatch: pytest.MonkeyPatch) -> None:
    """Budgets, kept answers and deadlines go by a clock that nobody sets."""
    looked: list[str] = []

    def look() -> float:
        looked.append("looked")
        return 0.0

    async def ask() -> None:
        async with inside.opened(lambda line: worlds.AS1 + b"\n") as (door, _):
            monkeypatch.setattr(time, "time", look)
            for line in b"AS1", b"!gAS1", b"-r AS1", b"!maut-num,AS1", b"help":
                await inside.asked(door.settings.whois[0], line)
            door.door.pool.look()
            door.submissions.turn()
            door.status.line()
            monkeypatch.undo()

    inside.run(ask())
    expect(looked, [], "looks at the clock")


def test_a_door_is_not_well_while_replicas_are_dated_in_the_future() -> None:
    """As `irr check` has it, and not for what differs by less than its bound."""
    assert upstreams.AHEAD == Bounds().clock
    first, second = (upstreams.Upstream(Place("127.0.0.1", port)) for port in (4_345, 4_346))
    for seconds in 0.0, -1_000.0, upstreams.AHEAD - 100:
        first.see(time.time() + seconds)
        expect(upstreams.ahead([first, second]), [], f"replicas dated {seconds} s later")
    first.see(1e10)
    lines = upstreams.ahead([first, second])
    what = "replica 127.0.0.1:4345: dated 2286-11-20T17:46:40Z, and the clock says "
    expect([line[: len(what)] for line in lines], [what], "one of them")
    second.see(1e300)
    what = what.replace(":4345: ", ":4345, replica 127.0.0.1:4346: ").partition("Z")[0]
    lines = upstreams.ahead([first, second])
    expect([line[: len(what)] for line in lines], [what], "both")

    async def ask() -> None:
        async with inside.opened(lambda line: worlds.AS1 + b"\n") as (door, _):
            pool, status = door.door.pool, door.status
            expect(status.line()[:5], b"well:", "before")
            pool.replicas.append(second)
            line, *faults = status.line().decode().splitlines()
            expect((line[:8], len(faults)), ("in part:", 1), f"the first line: {line} {faults}")
            expect(status.all()["well"], False, "in JSON")

    inside.run(ask())

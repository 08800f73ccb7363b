"""Objects near the bound of a paragraph, as strangers send them through the door: none keeps the
replicas from being renewed."""

from collections.abc import Iterator

import pytest

from checks.door import worlds
from checks.door.opened import Opened, Registries
from checks.running import Trial, expect, write, write_settings
from checks.tool.test_edge_objects import MOST, edge, unended
from irr.local.temporary_registry import Loadable

COUNT, LONG_COUNT = 6, 600


@pytest.fixture(scope="module")
def door(trial: Trial) -> Iterator[Opened]:
    """Its dump is that of the registry itself."""
    with Registries(trial, "registries", worlds.DUMP, replicas=0) as registries:
        with Opened(trial, "door", registries.words, "burst = 10000\n") as opened:
            yield opened


def test_no_object_of_a_stranger_is_too_long_for_replicas(trial: Trial, door: Opened) -> None:
    """Each in a submission of its own, with the end of its last line and without."""
    chance = trial.chance("edges")
    texts = [unended(number, line) for number, line in enumerate(["a:b\n", "auth:\n", "b:\n+\n"])]
    texts += [edge(chance, number) for number in range(1, trial.pick(COUNT, LONG_COUNT))]
    texts += [edge(chance, number)[:-1] for number in range(10_000, 10_000 + len(texts))]
    for text in texts:
        status, _, report = door.submit("password: bc\n\n" + text)
        expect((status, report.endswith(b"% items 1\n")), (200, True), f"{report!r}")
    dump = door.http("GET", "/dump")[2]
    loadable = list(Loadable([dump]))
    expect(max(map(len, loadable)) <= MOST + 1, True, "the longest text")
    copy = trial.place("loaded")
    write_settings(copy, limit=1_000)
    done = trial.run(copy, "load", "s.toml", write(copy, "dump", b"".join(loadable)))
    expect((done.status, done.reported), (0, b""), "load")
    expect(trial.run(copy, "dump", "s.toml").printed == dump, True, "the same dump")

"""A door over the registry that most checks of it ask, and its replicas."""

from collections.abc import Iterator

import pytest

from checks.door import worlds
from checks.door.opened import Opened, Registries
from checks.running import Trial


@pytest.fixture(scope="module")
def registries(trial: Trial) -> Iterator[Registries]:
    with Registries(trial, "registries", worlds.DUMP) as made:
        yield made


@pytest.fixture(scope="module")
def door(trial: Trial, registries: Registries) -> Iterator[Opened]:
    with Opened(trial, "door", registries.words) as opened:
        yield opened

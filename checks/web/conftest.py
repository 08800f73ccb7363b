"""The stage on which the page is looked at."""

from collections.abc import Iterator

import pytest

from checks.running import Trial
from checks.web.staging import Stage


@pytest.fixture(scope="module")
def stage(request: pytest.FixtureRequest, trial: Trial) -> Iterator[Stage]:
    """Registries, nginx, a server that answers badly, and the browser. Where the module has a line
    `LARGE = N`, one of the registries has so many objects; with `DOOR = True` one is behind a door
    with a view and a history."""
    made = Stage(trial)
    try:
        made.begin(getattr(request.module, "LARGE", 0), getattr(request.module, "DOOR", False))
        yield made
    finally:
        made.end()

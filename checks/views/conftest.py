"""The views of these checks: of a registry that is fetched, or followed by NRTM, and of a few
objects."""

from collections.abc import Iterator
from pathlib import Path

import pytest

from checks.views import registry
from checks.views.following import Followed
from checks.views.registry import Quick
from checks.views.test_merge import Few, ViewOf, made, several_of, written
from checks.views.test_sources import World
from irr.views import settings
from irr.views.view import View


@pytest.fixture(autouse=True)
def _program_of_views(program: str, monkeypatch: pytest.MonkeyPatch) -> None:
    """Lets views run the program that is checked."""
    monkeypatch.setenv("IRRDESK", program)


@pytest.fixture
def world(tmp_path: Path) -> Iterator[World]:
    one = World(tmp_path)
    with one.files:
        yield one


@pytest.fixture
def followed(world: World) -> Iterator[World]:
    path = world.folder / "view.toml"
    path.write_text(path.read_text() + f'nrtm = "{world.nrtm.place}"\n')
    world.view = View(settings.read(str(path)))
    with world.nrtm:
        yield world


@pytest.fixture
def mirror(tmp_path: Path) -> Iterator[Followed]:
    one = Followed(tmp_path)
    with one.files:
        yield one


@pytest.fixture
def one(monkeypatch: pytest.MonkeyPatch) -> Iterator[Quick]:
    """A registry in this process, and a view of it."""
    with registry.quick(monkeypatch) as found:
        yield found


@pytest.fixture
def view_of(program: str, tmp_path: Path) -> ViewOf:
    """Makes a view of the objects that `several_of` reads."""

    def few(sources: dict[str, str]) -> Few:
        view = written(tmp_path, several_of(sources))
        return Few(view, made(view), program)

    return few

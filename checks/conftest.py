"""Options, fixtures and the record of the checks; README.md says how they are used."""

import os
import subprocess
import sys
import tempfile
from collections.abc import Callable, Iterator
from pathlib import Path
from typing import Any

import hypothesis
import pytest

sys.dont_write_bytecode = True

from checks import record  # noqa: E402
from checks.commands import Commands, keep_reported  # noqa: E402
from checks.running import MEMORY_ROOM, TOP, Trial, memory_folder  # noqa: E402
from checks.worlds import Tool  # noqa: E402

BUILT = Path(TOP, "crates/rr_cli/out/rr_cli")
# How many examples a property tries, in the short form and in the long one.
EXAMPLES, LONG_EXAMPLES = 60, 3_000
# How long a check may take in the long form.
LONG_SECONDS = 6 * 3_600


def pytest_addoption(parser: pytest.Parser) -> None:
    group = parser.getgroup("irrdesk", "what is checked, and how long")
    group.addoption(
        "--program",
        metavar="PATH",
        help=(
            "the irrdesk that is checked; without it the one that was built here, or else that of"
            " the release"
        ),
    )
    group.addoption("--long", action="store_true", help="far more of each, within hours")
    group.addoption("--seed", type=int, default=1, metavar="N", help="where chance begins (1)")
    group.addoption(
        "--count",
        type=int,
        metavar="N",
        help="how many inputs of chance, or cuts of power, a check takes",
    )
    group.addoption(
        "--container",
        action="store_true",
        help="the machine in namespaces of this kernel, not in qemu",
    )
    group.addoption(
        "--image", metavar="FOLDER", help="the folder in which the machine keeps its disk"
    )
    group.addoption("--record", metavar="FILE", help="the file that gets a line for each case")


@pytest.hookimpl(tryfirst=True)
def pytest_configure(config: pytest.Config) -> None:
    options = config.option
    options.long = options.long or bool(os.environ.get("CHECKS_LONG"))
    if options.long:
        os.environ["CHECKS_LONG"] = "1"
        # Those of the gate would end a check of a thousand registries on a machine that is busy.
        if getattr(options, "timeout", 0) is None:
            options.timeout = LONG_SECONDS
    if "/usr/sbin" not in os.environ["PATH"].split(":"):
        os.environ["PATH"] += ":/usr/sbin"
    if getattr(options, "hypothesis_seed", None) is None:
        options.hypothesis_seed = str(options.seed)
    hypothesis.settings.register_profile(
        "checks",
        max_examples=LONG_EXAMPLES if options.long else EXAMPLES,
        deadline=None,
        database=None,
        print_blob=True,
        suppress_health_check=[hypothesis.HealthCheck.too_slow],
    )
    hypothesis.settings.load_profile("checks")
    if options.record and not hasattr(config, "workerinput"):
        config.pluginmanager.register(record.Record(Path(options.record)), "record")


def pytest_sessionstart(session: pytest.Session) -> None:
    reporter = session.config.pluginmanager.get_plugin("terminalreporter")
    if reporter and not hasattr(session.config, "workerinput"):
        options = session.config.option
        form = "long" if options.long else "short"
        program = options.program or (BUILT if BUILT.exists() else "that of scripts/program")
        reporter.write_line(f"seed {options.seed}, {form} form, program {program}")


def pytest_collection_modifyitems(config: pytest.Config, items: list[Any]) -> None:
    """Leaves out what is of the long form alone. The modules that take longest come first, so that
    other processes do the rest meanwhile."""
    if not config.option.long:
        left_out = [item for item in items if item.get_closest_marker("long")]
        config.hook.pytest_deselected(items=left_out)
        items[:] = [item for item in items if item not in left_out]
    items.sort(key=lambda item: -getattr(item.module, "SECONDS", 0))


@pytest.fixture(scope="session")
def program(pytestconfig: pytest.Config) -> str:
    """The path of the program that is checked."""
    given = pytestconfig.option.program
    if given is None and BUILT.exists():
        given = BUILT
    if given is None:
        made = subprocess.run(
            [os.path.join(TOP, "scripts/program")],
            stdout=subprocess.PIPE,
            stderr=subprocess.PIPE,
            text=True,
            check=False,
        )
        if made.returncode:
            pytest.exit(made.stderr.strip(), 2)
        given = made.stdout.strip()
    if not os.access(given, os.X_OK):
        pytest.exit(f"--program: {given}: it is not there, or can't be run", 2)
    return os.path.abspath(given)


@pytest.fixture(scope="module")
def trial(request: pytest.FixtureRequest, program: str) -> Iterator[Trial]:
    """The program, a folder that the checks of a module share, and chance. Where the module has a
    line `IN_MEMORY = True`, the folder is in memory, if there is room."""
    room = getattr(request.module, "IN_MEMORY", 0)
    place = memory_folder(MEMORY_ROOM if room is True else room) if room else None
    with tempfile.TemporaryDirectory(
        prefix="irrdesk-", dir=place, ignore_cleanup_errors=True
    ) as folder:
        os.chmod(folder, 0o755)
        yield Trial(request.config.option, program, folder)


@pytest.fixture(scope="module")
def tool(trial: Trial) -> Tool:
    """The tool `irr`, packed as it is installed."""
    return Tool(trial.place("tool"), trial.program, TMPDIR=trial.place("temporary"))


@pytest.fixture
def tell(request: pytest.FixtureRequest) -> Callable[..., Any]:
    """Puts figures into the line of a case: how many inputs there were, what they took."""

    def add(words: str) -> None:
        request.node.user_properties.append(("figures", str(words)))

    return add


@pytest.fixture
def each(subtests: Any) -> Callable[..., Any]:
    """A part of a check that is a case of its own: `with each("its name"): ..`. One that fails does
    not stop those after it."""
    return subtests.test


@pytest.fixture(scope="module")
def reported(request: pytest.FixtureRequest, program: str) -> Iterator[Any]:
    """What the program says in the commands of a module, which is kept for the check of all
    messages."""
    lines: list[str] = []
    yield lines
    name = request.module.__name__.removeprefix("checks.")
    keep_reported(program, lines, Path(TOP, "out/reported", name))


@pytest.fixture
def case(
    request: pytest.FixtureRequest, trial: Trial, subtests: Any, reported: list[str]
) -> Commands:
    """Commands of the program in a folder of the check."""
    folder = trial.place(request.node.name[:60].replace("/", "-"))
    return Commands(trial.program, folder, subtests.test, reported)

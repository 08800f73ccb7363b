"""What the program reported in the checks of how commands end, beside docs/MESSAGES.md: each line
is of the page, and each message of the page was reported."""

import hashlib
from pathlib import Path

import pytest

from checks import messages
from checks.running import TOP, Tell

# It looks at what other modules kept, so it comes after them.
pytestmark = pytest.mark.alone
KEPT = [
    "command_line.test_loads",
    "command_line.test_registries",
    "command_line.test_statuses",
    "databases.test_failing",
    "databases.test_migrations",
    "databases.test_unusable",
]


@pytest.fixture(scope="module")
def reported(program: str) -> list[str]:
    """All lines that those modules heard of this program."""
    digest = hashlib.sha256(Path(program).read_bytes()).hexdigest()
    lines = []
    for name in KEPT:
        path = Path(TOP, "out/reported", name)
        of, *found = path.read_text(errors="replace").splitlines() if path.exists() else [""]
        if of != digest:
            module = f"checks/{name.replace('.', '/')}.py"
            pytest.fail(f"{path}: it is not of this program: run {module} on it first")
        lines += found
    return lines


def test_each_line_that_was_reported_is_of_the_page(reported: list[str]) -> None:
    assert not messages.unknown(reported)


def test_each_message_of_the_page_was_reported(reported: list[str], tell: Tell) -> None:
    tell(f"{len(set(reported))} lines")
    assert not messages.unreported(reported)

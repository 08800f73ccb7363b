"""A drive whose writes are logged, and what a cut of power at any of them leaves of a registry."""

import pytest

from checks.machine import drive
from checks.machine.cuts import Cuts
from checks.running import Tell, Trial

# It looks at times, and takes much of the machine.
pytestmark = pytest.mark.alone
IN_MEMORY = 4 << 30
KINDS = {"init": 25, "load": 25, "migrate": 25, "checkpoint": 25, "submit": 100}


@pytest.fixture(scope="module")
def cuts(trial: Trial) -> Cuts:
    """The commands that write, recorded on the drive."""
    if lacking := drive.lacking():
        pytest.skip(lacking)
    made = Cuts(trial)
    made.figures = made.record()
    return made


def test_writes_are_logged(cuts: Cuts, tell: Tell) -> None:
    tell(cuts.figures)


@pytest.mark.parametrize("is_losing", [False, True], ids=["", "less what was not flushed"])
@pytest.mark.parametrize("kind", KINDS)
def test_what_was_reported_stands_after_a_cut(
    trial: Trial, cuts: Cuts, kind: str, is_losing: bool, tell: Tell
) -> None:
    tell(cuts.cut(kind, trial.pick(5, KINDS[kind]), is_losing))


def test_a_drive_that_lies_is_found_out(cuts: Cuts, tell: Tell) -> None:
    tell(cuts.found_out())

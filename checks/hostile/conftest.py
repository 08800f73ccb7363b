"""The fixture of the sweeps of failing calls."""

import shutil

import pytest

from checks.failing import Failing
from checks.running import Trial


@pytest.fixture(scope="module")
def failing(trial: Trial) -> Failing:
    """Runs of the program in which calls fail, and all that it reported under them."""
    if shutil.which("gcc") is None or shutil.which("sqlite3") is None:
        pytest.skip("gcc or sqlite3 is not here")
    return Failing(trial)

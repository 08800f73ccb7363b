"""Settings in TOML, as each command reads them: what is none is told alike."""

from pathlib import Path
from typing import Any, Callable

import pytest

from checks.running import expect
from irr.door import settings as of_door
from irr.errors import SETTINGS, Failure
from irr.filters import settings as of_filters
from irr.views import settings as of_views

READERS: list[Callable[[str], Any]] = [
    lambda path: of_door.read(path, {}),
    of_filters.read,
    of_views.read,
]


@pytest.mark.parametrize("read", READERS, ids=["door", "filter", "view"])
@pytest.mark.parametrize(
    "text", [b"a =", b"a = '\xff'", b"a = " + b"[" * 100_000], ids=["cut", "bytes", "deep"]
)
def test_a_file_that_is_not_toml_is_reported_so(
    tmp_path: Path, read: Callable[[str], Any], text: bytes
) -> None:
    path = tmp_path / "s.toml"
    path.write_bytes(text)
    with pytest.raises(Failure) as failure:
        read(str(path))
    begins = f"{path}: this is not TOML: "
    expect(str(failure.value)[: len(begins)], begins, "what is told")
    expect(failure.value.status, SETTINGS, "the status")

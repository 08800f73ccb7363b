"""How long the check of a machine waits for those who are silent."""

import socket
import time

import pytest

from checks.running import expect
from irr.local import health
from irr.local.health import Bounds

IN_MEMORY = True


def test_a_silent_door_and_agent_keep_nobody_waiting(monkeypatch: pytest.MonkeyPatch) -> None:
    """As while the door refuses its settings: systemd has its ports open. The registry alone may
    take minutes."""
    assert health.AT_ONCE <= 20 < Bounds().seconds
    monkeypatch.setattr(health, "AT_ONCE", 0.2)
    with socket.create_server(("127.0.0.1", 0)) as silent:
        place = f"127.0.0.1:{silent.getsockname()[1]}"
        looked = health.Health(health.Places(door=place, agent=place), Bounds(), {})
        begun = time.monotonic()
        looked.ask_agent()
        looked.ask_door()
        expect(time.monotonic() - begun < 20, True, "whether it is soon over")
    found = [(fault.word, "silent" in fault.what) for fault in looked.faults]
    expect(found, [("mirror-down", True), ("door-down", True)], "what is wrong")

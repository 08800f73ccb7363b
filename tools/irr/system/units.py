"""What systemd is told of a unit (sd_notify)."""

import contextlib
import os
import socket


def notify(text: str) -> None:
    """Tells systemd, if it started this process, of its state, as `READY=1` or `STATUS=..`."""
    name = os.environ.get("NOTIFY_SOCKET")
    if name:
        with contextlib.suppress(OSError), socket.socket(
            socket.AF_UNIX, socket.SOCK_DGRAM
        ) as opened:
            opened.connect("\0" + name[1:] if name.startswith("@") else name)
            opened.send(text.encode("utf-8", "replace"))

"""The service of this machine, irrdesk.service, as systemd has it."""
import contextlib
import os
import re
import subprocess
from pathlib import Path
from typing import Iterator

from irr.errors import FAILED, Failure
from irr.terminal import texts

UNIT = "irrdesk.service"


def systemctl(*words: str) -> "subprocess.CompletedProcess[str]":
    """What systemctl says; its times are of UTC."""
    try:
        return subprocess.run(
            ["systemctl", *words],
            stdin=subprocess.DEVNULL,
            capture_output=True,
            text=True,
            check=False,
            env={**os.environ, "TZ": "UTC0"},
        )
    except FileNotFoundError:
        raise Failure("systemctl", "it is not here; stop and start the server yourself") from None


def is_synchronised() -> bool:
    """Whether the system says that its clock is that of a time server."""
    try:
        done = subprocess.run(
            ["timedatectl", "show", "--property=NTPSynchronized", "--value"],
            stdin=subprocess.DEVNULL,
            capture_output=True,
            check=False,
        )
    except FileNotFoundError:
        return False
    return done.stdout == b"yes\n"


def shown(value: str) -> str:
    return systemctl("show", f"--property={value}", "--value", UNIT).stdout.strip()


def folder() -> Path:
    """The folder in which the service runs, from which a relative `store` is looked for."""
    return Path(shown("WorkingDirectory").lstrip("!") or "/")


def server() -> str:
    """The address at which the service serves its registry."""
    port = re.search(r"--port[= ]([0-9]+)", shown("ExecStart"))
    return f"http://127.0.0.1:{port[1] if port else 4343}"


def start() -> None:
    """Starts the service, and returns when its port answers."""
    systemctl("reset-failed", UNIT)
    if systemctl("start", UNIT).returncode:
        raise Failure(
            UNIT, "it does not start; `journalctl --unit irrdesk` says why: mend that", FAILED
        )


@contextlib.contextmanager
def stopped() -> Iterator[None]:
    """Stops the service while the block runs, and starts it again if it ran before, also where the
    block fails."""
    if os.geteuid():
        raise Failure(UNIT, "only root may stop and start it; run this as root", FAILED)
    ran = shown("ActiveState") in ("active", "activating", "reloading")
    try:
        if systemctl("stop", UNIT).returncode:
            raise Failure(UNIT, "it cannot be stopped; look at `systemctl status irrdesk`", FAILED)
        yield
    except BaseException:
        if ran:
            try:
                start()
            except Failure as failure:
                texts.note(str(failure))
        raise
    try:
        if ran:
            start()
    except Failure:
        raise
    except BaseException:
        # A signal ends this, and not the service.
        start()
        raise

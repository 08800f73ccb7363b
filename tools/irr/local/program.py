"""The installed `irrdesk`: where it is, and how another process runs it."""

import os
import shutil
import signal
import socket
import subprocess
import sys
import time
from pathlib import Path
from typing import Callable

from irr.errors import Failure

# The digest of no password that anybody knows: the root of a temporary registry is that of the dump
# that is loaded.
AUTH = "SHA256-PW x:" + "0" * 64
SETTINGS = (
    'source = "{source}"\nroot = "{root}"\nauth = "{auth}"\nlimit = {limit}\nstore = "irr.db"\n'
)
MOST_CONNECTIONS = 1_000_000
# The C library raises this bound while a registry is opened, and then keeps what the opening gave
# back, unless it is set. The unit of the registry has it too.
THRESHOLD = {"MALLOC_MMAP_THRESHOLD_": "131072"}
# What prctl sets: the signal that a process gets when its parent ends (Linux).
PR_SET_PDEATHSIG = 1


def find() -> str:
    """The path of `irrdesk`: that of IRRDESK, else the one beside the tool, else the one on the
    path."""
    given = os.environ.get("IRRDESK")
    if given and os.path.isdir(given):
        raise Failure(given, "it is a folder; give the program's path by IRRDESK")
    beside = Path(sys.argv[0]).resolve().parent / "irrdesk"
    found = given or (
        str(beside) if os.access(beside, os.X_OK) and beside.is_file() else shutil.which("irrdesk")
    )
    if not found or not os.access(found, os.X_OK):
        raise Failure(
            "irrdesk",
            "the program is not found; install it beside irr, or give its path by IRRDESK",
        )
    return os.path.abspath(found)


def bound() -> Callable[[], None]:
    """What a program does before it begins: nobody else reads what it makes, and it ends with this
    process, in whatever way that ends."""
    import ctypes

    prctl, parent = ctypes.CDLL(None).prctl, os.getpid()

    def begin() -> None:
        os.umask(0o077)
        prctl(PR_SET_PDEATHSIG, signal.SIGKILL)
        if os.getppid() != parent:
            os._exit(1)

    return begin


def reported(done: "subprocess.CompletedProcess[bytes]", path: str = "") -> str:
    """What the program reported, in one line, without the path that it was given."""
    words = (
        done.stderr.decode("utf-8", "replace").strip()
        or f"irrdesk ended with status {done.returncode}"
    )
    words = words.removeprefix("irrdesk: ")
    return words.removeprefix(f"{path}: ") if path else words


def free_port() -> int:
    with socket.socket() as probe:
        probe.bind(("127.0.0.1", 0))
        port: int = probe.getsockname()[1]
        return port


def wait_for_line(process: "subprocess.Popen[bytes]", seconds: float) -> None:
    """Waits until a server prints that it listens."""
    import select

    end = time.monotonic() + seconds
    while not select.select([process.stdout], [], [], 0.1)[0]:
        if time.monotonic() > end:
            raise Failure("irrdesk", "it does not open the registry; try a smaller one")
    # Both are pipes.
    assert process.stdout and process.stderr
    if not process.stdout.readline().startswith(b"listening "):
        words = process.stderr.read().decode("utf-8", "replace").strip()
        raise Failure("irrdesk", words.removeprefix("irrdesk: ") or "it does not serve")

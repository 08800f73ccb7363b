"""The tool in forks of this process, which has its modules already: for calls by the thousand.
Other cases run the packed file."""

import os
import signal
import socket
import sys
import tempfile
import traceback
from collections.abc import Callable

from checks.running import Ran
from checks.worlds import Tool
from irr.main import main


def begun(
    words: list[str],
    environment: dict[str, str],
    streams: list[int],
    first: Callable[[], object] = lambda: None,
) -> int:
    """The number of a fork that does what `irr` does with these words, with these files as its
    standard streams, once it has done what comes first."""

    def work() -> int:
        for place, stream in enumerate(streams):
            os.dup2(stream, place)
        sys.stdout, sys.stderr = open(1, "w", closefd=False), open(
            2, "w", buffering=1, closefd=False
        )
        signal.signal(signal.SIGCHLD, signal.SIG_DFL)
        os.environ.clear()
        os.environ.update(environment)
        tempfile.tempdir = None
        first()
        return main(words)

    return forked(work)


def forked(work: Callable[[], int | None]) -> int:
    """The number of a fork that does this work, and ends with the status that it gives."""
    number = os.fork()
    if number:
        return number
    status = 70
    try:
        status = work() or 0
    except SystemExit as ended:
        status = ended.code if isinstance(ended.code, int) else int(ended.code is not None)
    except BaseException:
        traceback.print_exc()
    finally:
        os._exit(status)


def run_forked(tool: Tool, *words: str) -> Ran:
    """How it ends."""
    with tempfile.TemporaryFile() as printed, tempfile.TemporaryFile() as reported, open(
        os.devnull, "rb"
    ) as nothing:
        number = begun(
            list(words), tool.environment, [nothing.fileno(), printed.fileno(), reported.fileno()]
        )
        _, status = os.waitpid(number, 0)
        printed.seek(0)
        reported.seek(0)
        return Ran(os.waitstatus_to_exitcode(status), printed.read(), reported.read(), 0, 0)


class Forks:
    """The port at which each connection is handed to a fork, as the socket unit hands it to a
    command, while a `with` block runs."""

    def __init__(self, tool: Tool, words: list[str]) -> None:
        self.tool, self.words = tool, words
        self.listener = socket.create_server(("127.0.0.1", 0), backlog=64)

    def __enter__(self) -> int:
        self.number = os.fork()
        if not self.number:
            try:
                self.serve()
            finally:
                os._exit(1)
        return self.listener.getsockname()[1]

    def serve(self) -> None:
        signal.signal(signal.SIGCHLD, signal.SIG_IGN)
        with open(os.devnull, "wb") as nothing:
            while True:
                peer, _ = self.listener.accept()
                with peer:
                    begun(
                        self.words,
                        self.tool.environment,
                        [peer.fileno(), peer.fileno(), nothing.fileno()],
                    )

    def __exit__(self, *_: object) -> None:
        os.kill(self.number, signal.SIGKILL)
        os.waitpid(self.number, 0)
        self.listener.close()

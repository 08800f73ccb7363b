"""What runs on inputs of chance took, and where inputs that failed are kept."""

import tempfile

from checks.running import Ran, write


class Worst:
    """The most time and memory of some runs."""

    def __init__(self) -> None:
        self.seconds, self.memory = 0.0, 0

    def note(self, ran: Ran) -> Ran:
        self.seconds, self.memory = max(self.seconds, ran.seconds), max(self.memory, ran.memory)
        return ran

    def figures(self) -> str:
        return f"at most {self.seconds:.3f} s and {self.memory} KiB"


def kept(name: str, text: bytes) -> str:
    """Keeps an input that failed, and gives its path."""
    folder = tempfile.mkdtemp(prefix="irrdesk-failed-")
    return write(folder, name, text)


def is_text(query: bytes) -> bool:
    try:
        query.decode()
        return True
    except UnicodeDecodeError:
        return False

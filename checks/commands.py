"""Commands of the program in one folder, and how each ended: its status, what it printed, and what
it reported on standard error. Each comparison is a case."""

import hashlib
import os
import resource
import signal
import subprocess
from collections.abc import Callable, Sequence
from pathlib import Path
from typing import Any, Self

from checks.running import DIGEST, Each, Failure, expect, limited

OWNED = "mnt-by:         ROOT-MNT\nsource:         TEST"
AUTH_LINE = f"auth:           SHA256-PW a:{DIGEST}"
# The objects of a new registry, and one that is added.
ROOT = f"mntner:         ROOT-MNT\n{AUTH_LINE}\n{OWNED}\n"
BLOCK = f"as-block:       AS0 - AS65535\n{OWNED}"
OTHERS = f"as-block:       AS65536 - AS4294967295\n{OWNED}"
ADDRESSES = f"inetnum:        0.0.0.0 - 255.255.255.255\n{OWNED}"
TEN = f"inetnum:        10.0.0.0/8\n{OWNED}"
# What is submitted.
ADDED = "password: bc\n\ninetnum: 10.0.0.0/8\nmnt-by: ROOT-MNT\nsource: TEST\n"
REFUSED = "inetnum: 10.0.0.0/8\nmnt-by: ROOT-MNT\nsource: TEST\n"
SETS = (
    "password: bc\n\nas-set: AS-A\nmembers: AS1, AS-A:AS-B, AS-NONE\nmnt-by: ROOT-MNT\nsource:"
    " TEST\n\nas-set: AS-A:AS-B\nmembers: AS2\nmnt-by: ROOT-MNT\nsource: TEST\n"
)
SETTINGS = {
    "source": 'source = "TEST"',
    "root": 'root = "ROOT-MNT"',
    "auth": f'auth = "SHA256-PW a:{DIGEST}"',
    "limit": "limit = 10000",
}
# What is reported of a file and of settings that are missing, and of databases; DATABASE stands for
# the name of one.
NO_FILE = (
    "irrdesk: none.rpsl: the file cannot be opened: there is none of that name: correct the path"
)
NO_SETTINGS = (
    "irrdesk: none.toml: the settings cannot be read: there is none of that name: correct the path"
)
NO_DATABASE = (
    "irrdesk: DATABASE: there is no such database: correct `store`, restore a backup, or make a"
    " first one by `irrdesk init` or `irrdesk load`"
)
NO_REGISTRY = (
    "irrdesk: DATABASE: the database has no registry that can be read: restore a backup, or make"
    " one by `irrdesk init` or `irrdesk load`"
)
UNREAD = (
    "irrdesk: DATABASE: it is not the database of a registry, or one that was damaged or changed in"
    " a way that irrdesk does not read: name another file, or restore a backup"
)
OTHER_SOURCE = (
    "irrdesk: DATABASE: most rows of the database are of another source: correct `source`"
)
IN_USE = (
    "irrdesk: DATABASE: in use, most likely by the running server: ask it over its port, or stop it"
    " first"
)
LONGEST = 300


class Commands:
    """Runs of the program in a folder. `each` makes a case of a comparison; what is reported goes
    to `reported`, a list."""

    def __init__(self, program: str, folder: str, each: Each, reported: list[str]) -> None:
        self.program, self.folder, self.each, self.all_reported = (
            program,
            Path(folder),
            each,
            reported,
        )
        self.status, self.printed, self.reported = 0, "", ""
        for name, text in [("added.rpsl", ADDED), ("refused.rpsl", REFUSED), ("sets.rpsl", SETS)]:
            self.write(name, text)

    # Files.

    def write(self, name: str, text: str | bytes) -> Path:
        """A file of the folder."""
        path = self.folder / name
        path.write_bytes(text if isinstance(text, bytes) else text.encode())
        return path

    def read(self, name: str) -> str:
        return (self.folder / name).read_bytes().decode("utf-8", "replace")

    def settings(self, store: str, line: str | None = None) -> None:
        """The settings in s.toml, with a line in place of that of its key."""
        lines = SETTINGS | {"store": f'store = "{store}"'}
        if line is not None:
            lines.pop(line.split(" ")[0], None)
            lines = {"": line} | lines
        self.write("s.toml", "".join(f"{text}\n" for text in lines.values()))

    def fresh(self, store: str, line: str | None = None) -> None:
        """The settings of a database that is not there."""
        self.settings(store, line)
        for path in [self.folder / store, *self.folder.glob(f"{store}-*")]:
            path.unlink(missing_ok=True)

    def sh(self, text: str, **variables: Any) -> str:
        """What a text of sh prints, run in the folder; `$program` is the program."""
        made = subprocess.run(
            ["sh", "-ec", text],
            cwd=self.folder,
            env={**os.environ, "program": self.program, **variables},
            stdin=subprocess.DEVNULL,
            capture_output=True,
            timeout=LONGEST,
            check=False,
        )
        if made.returncode:
            raise Failure(f"{text}: status {made.returncode}, {made.stderr.decode()}")
        return made.stdout.decode("utf-8", "surrogateescape").rstrip("\n")

    def holds(self, text: str, **variables: Any) -> bool:
        """Whether a condition of sh holds in the folder."""
        made = subprocess.run(
            ["sh", "-c", text],
            cwd=self.folder,
            env={**os.environ, "program": self.program, **variables},
            stdin=subprocess.DEVNULL,
            stdout=subprocess.DEVNULL,
            stderr=subprocess.DEVNULL,
            timeout=LONGEST,
            check=False,
        )
        return made.returncode == 0

    # Runs.

    def run(
        self,
        *words: str | bytes,
        given: str | None = None,
        to: str | None = None,
        before: Sequence[str] = (),
        preexec: Callable[[], None] | None = None,
        program: str | None = None,
        **limits: Any,
    ) -> Self:
        """Runs the program with these words. Its input is from the file `given`, its output to the
        file `to`; `before` are words that start it, and the rest are limits."""
        source: Any = (
            open(self.folder / given, "rb") if given and given != "." else subprocess.DEVNULL
        )
        if given == ".":
            source = os.open(self.folder, os.O_RDONLY)
        sink: Any = open(self.folder / to, "wb") if to else subprocess.PIPE
        try:
            made = subprocess.run(
                [*before, program or self.program, *words],
                cwd=self.folder,
                stdin=source,
                stdout=sink,
                stderr=subprocess.PIPE,
                preexec_fn=preexec or (limited(**limits) if limits else None),
                timeout=LONGEST,
                check=False,
            )
        finally:
            if given == ".":
                os.close(source)
            for file in (source, sink):
                if hasattr(file, "close"):
                    file.close()
        printed = (made.stdout or b"").decode("utf-8", "replace")
        return self.ended(made.returncode, printed, made.stderr.decode("utf-8", "replace"))

    def ended(self, status: int, printed: str, reported: str) -> Self:
        """Takes how a run ended that another way began."""
        self.status, self.printed, self.reported = status, printed, reported
        self.all_reported.extend(reported.splitlines())
        return self

    # Cases, of what ran just before.

    def gives(self, name: str, status: int, reported: str, printed: str | None = None) -> Self:
        """That it ended so; what it printed is compared if it is given, without line ends at the
        end."""
        with self.each(name):
            expect(
                (self.status, self.reported.rstrip("\n")),
                (status, reported),
                "the status and what is reported",
            )
            if printed is not None:
                expect(self.printed.rstrip("\n"), printed, "what is printed")
        return self

    def begins(self, name: str, status: int, reported: str) -> Self:
        """That it ended with a status, and one line that begins so."""
        with self.each(name):
            expect(
                (self.status, self.reported.count("\n")),
                (status, 1),
                f"status, lines of {self.reported!r}",
            )
            expect(self.reported[: len(reported)], reported, "how the line begins")
        return self

    def check(self, name: str, holds: str | bool, **variables: Any) -> None:
        """That something holds: a truth, or a condition of sh."""
        with self.each(name):
            is_so = self.holds(holds, **variables) if isinstance(holds, str) else holds
            expect(is_so, True, holds if isinstance(holds, str) else "whether it is so")


def within(option: str, number: int) -> Callable[[], None]:
    """Sets a limit as `ulimit` does in a process that is about to become the program; a file over
    its limit is refused, without a signal."""
    kinds = {
        "-f": (resource.RLIMIT_FSIZE, 512),
        "-n": (resource.RLIMIT_NOFILE, 1),
        "-v": (resource.RLIMIT_AS, 1_024),
        "-s": (resource.RLIMIT_STACK, 1_024),
    }

    def limit() -> None:
        kind, unit = kinds[option]
        signal.signal(signal.SIGXFSZ, signal.SIG_IGN)
        resource.setrlimit(kind, (number * unit, number * unit))

    return limit


def of(database: str, text: str) -> str:
    return text.replace("DATABASE", database)


def keep_reported(program: str, lines: list[str], path: Path) -> None:
    """Keeps what was reported, below the digest of the program that did it."""
    digest = hashlib.sha256(Path(program).read_bytes()).hexdigest()
    path.parent.mkdir(parents=True, exist_ok=True)
    path.write_text("\n".join([digest, *lines, ""]), encoding="utf-8", errors="surrogateescape")

"""Runs of the program in which calls of one kind fail, counted by failing.c."""

import os
import shutil
import subprocess
import tempfile
from collections.abc import Callable
from concurrent.futures import ThreadPoolExecutor
from typing import Any

from checks import messages
from checks.running import TOP, Failure, Ran, Trial, expect, run, short

# A number that no count comes to.
NONE = 1 << 60
NEVER_MADE = (b"there is no such database", b"the database has no registry that can be read")


class Failing:
    """The library of a script, and all that the program reported under it."""

    def __init__(self, trial: Trial) -> None:
        self.trial = trial
        self.reported: set[bytes] = set()
        # Not in the script's folder: nothing in memory may be executed on some machines.
        self.folder = tempfile.TemporaryDirectory(prefix="irrdesk-")
        self.library = os.path.join(self.folder.name, "failing.so")
        source = os.path.join(TOP, "checks", "failing.c")
        subprocess.run(["gcc", "-O1", "-shared", "-fPIC", "-o", self.library, source], check=True)

    def environment(
        self, kind: str, how: str, number: int, counted: str = "/dev/null"
    ) -> dict[str, str]:
        return dict(
            os.environ,
            LD_PRELOAD=self.library,
            FAILING=f"{kind}:{how}:{number}",
            FAILING_COUNT=counted,
        )

    def run(
        self, folder: str, words: list[str], environment: dict[str, str], **options: Any
    ) -> Ran:
        ran = run([self.trial.program, *words], folder, environment=environment, **options)
        self.reported.add(ran.reported)
        return ran

    def reported_is_of_the_page(self) -> str:
        """That each line that was reported so far is of docs/MESSAGES.md; how many lines those
        are."""
        lines = [
            line for text in self.reported for line in text.decode(errors="replace").splitlines()
        ]
        expect(messages.unknown(lines), [], "the lines that docs/MESSAGES.md does not have")
        met = messages.met(lines) or "none"
        return f"{len(set(lines))} lines; of those that nothing else meets: {met}"

    def copied(self, base: str, name: str) -> str:
        folder = os.path.join(self.trial.work, name)
        shutil.copytree(base, folder)
        return folder

    def count(self, base: str, words: list[str], kind: str, how: str) -> int:
        """How many calls of the kind the command makes where none fails, or how many bytes they
        pass."""
        folder = self.copied(base, "counted")
        counted = os.path.join(self.trial.work, "count")
        self.run(
            folder, words, self.environment(kind, how if how == "take" else "once", NONE, counted)
        )
        shutil.rmtree(folder)
        return number_in(counted)

    def numbers(self, count: int, name: str, how: str, most: int) -> list[int]:
        """Which calls to take: all, or some by chance, the first and the last among them; and at
        last none. The long form takes all but where every call from one on fails."""
        if self.trial.long:
            most = 400 if how == "on" else count
        if count <= most:
            return [*range(1, count + 1), NONE]
        return sorted({1, count, *self.trial.chance(name).sample(range(1, count), most)}) + [NONE]

    def rows_of(self, folder: str) -> bytes | None:
        """The rows that stand, as they are dumped; nothing where no registry was made."""
        ran = self.trial.run(folder, "dump", "s.toml", "--full")
        if ran.status == 4 and any(words in ran.reported for words in NEVER_MADE):
            return None
        if (ran.status, ran.reported) != (0, b""):
            raise Failure(f"the dump afterwards: {ran.status}, {short(ran.reported)}")
        return ran.printed

    def sweep(
        self,
        base: str,
        words: list[str],
        kind: str,
        how: str,
        check: Callable[..., Any],
        right: tuple[bytes, bytes],
        most: int = 12,
    ) -> str:
        """Fails each call of the kind in a copy of the folder, and checks how the command ended and
        the rows that stand; where none failed these have to be what is right."""
        count = self.count(base, words, kind, how)
        if count == 0:
            raise Failure(f"no call of the kind {kind} was met")
        taken = self.numbers(count, f"{' '.join(words)}, {kind} {how}", how, most)

        def one(number: int) -> None:
            folder = self.copied(base, f"failing-{number}")
            try:
                ran = self.run(folder, words, self.environment(kind, how, number))
                if ran.status < 0 or ran.status > 5 and ran.status != 137:
                    raise Failure(f"status {ran.status}, {short(ran.reported)}")
                rows = self.rows_of(folder)
                if number == NONE:
                    expect(
                        (ran.printed, rows),
                        right,
                        "what is printed and stands where no call failed",
                    )
                check(ran, rows, number)
            except Failure as failure:
                raise Failure(f"{kind}:{how}:{number} of {count}: {failure}") from failure
            finally:
                shutil.rmtree(folder)

        with ThreadPoolExecutor(self.trial.pick(2, 1)) as pool:
            list(pool.map(one, taken))
        return f"{len(taken) - 1} of {count} {'bytes' if how == 'take' else 'calls'}"


def number_in(path: str) -> int:
    with open(path, encoding="ascii") as found:
        return int(found.read())

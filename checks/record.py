"""The record of a run: a line for each case, as it ends, which begins with `ok`, `not ok` or
`skipped`."""

import re
from pathlib import Path
from typing import Any

import pytest

# The most letters of what a case found that its line has.
MOST = 900


class Record:
    """Writes the lines of a run into a file. A check whose parts are cases has a line for each
    part, and one of its own where something besides its parts failed. The checks that failed are
    named in a second file, each as pytest takes it."""

    def __init__(self, path: Path) -> None:
        path.parent.mkdir(parents=True, exist_ok=True)
        self.out = open(path, "w", encoding="utf-8", buffering=1)
        self.failed = path.with_suffix(".failed")
        self.failed.unlink(missing_ok=True)
        self.parted: set[str] = set()

    def pytest_runtest_logreport(self, report: Any) -> None:
        name = report.nodeid.removeprefix("checks/")
        context = getattr(report, "context", None)
        if context is not None:
            self.parted.add(report.nodeid)
            name += f" [{' '.join(str(context.msg).split())}]"
        elif report.passed and (report.when != "call" or report.nodeid in self.parted):
            return
        figures = ": ".join(
            [
                "",
                *(
                    words
                    for key, words in report.user_properties
                    if key == "figures" and context is None
                ),
            ]
        )
        time = f" ({report.duration:.1f} s)"
        if report.passed:
            print(f"ok: {name}{figures}{time}", file=self.out)
        elif report.skipped:
            print(f"skipped: {name}: {reason(report)}", file=self.out)
        else:
            print(f"not ok: {name}: {found(report)}{time}", file=self.out)
            self.put_failed(report.nodeid)

    def pytest_collectreport(self, report: pytest.CollectReport) -> None:
        if report.failed:
            print(f"not ok: {report.nodeid}: {found(report)}", file=self.out)
            self.put_failed(report.nodeid)

    def put_failed(self, check: str) -> None:
        with open(self.failed, "a", encoding="utf-8") as out:
            print(check, file=out)

    def pytest_unconfigure(self) -> None:
        self.out.close()


def reason(report: Any) -> str:
    """Why a check was skipped."""
    text = report.longrepr[2] if isinstance(report.longrepr, tuple) else str(report.longrepr)
    return " ".join(text.removeprefix("Skipped: ").split())


def found(report: Any) -> str:
    """What a check found, in one line."""
    crash = getattr(report.longrepr, "reprcrash", None)
    text = re.sub(r"^checks\.running\.", "", crash.message if crash else report.longreprtext)
    line = " ".join(text.split())
    return line if len(line) <= MOST else f"{line[:MOST]} .."

"""`irr view VIEW.toml`: replicas of a registry made of several sources."""
import argparse
import os
from pathlib import Path

from irr.errors import ARGUMENTS, DONE, Failure
from irr.local import program, replicas
from irr.rpsl import keys
from irr.system import files
from irr.terminal import texts
from irr.views import settings
from irr.views.view import View

EXAMPLES = """
irr view /etc/irrdesk/views/routes.toml            serve it at the ports of the settings
irr view --every 60 routes.toml                    check the sources each minute

A view has the objects of several registries. If two objects have the same key, that of the first
source is used. Each object names its source in a comment: `source: ROUTES # RIPE`. A source that
can't be read, or that lost too many objects at once, stays as it was; `irr view` says which, and
since when.
"""


def arguments(parser: argparse.ArgumentParser) -> None:
    parser.add_argument(
        "--every",
        metavar="SECONDS",
        type=keys.decimal,
        help="check the sources this often, in place of `every` of the settings",
    )
    parser.add_argument("settings", metavar="VIEW.toml", help="the settings: sources and ports")


def run(options: argparse.Namespace) -> int:
    wanted = settings.read(options.settings)
    every = wanted.every if options.every is None else options.every
    if not 1 <= every <= 1e9:
        raise Failure("--every", "it takes seconds from 1; correct it", ARGUMENTS)
    program.find()
    os.umask(0o077)
    folder = files.folder(wanted.folder, 0o700)
    with files.locked(folder):
        agent = replicas.Agent(wanted.agent) if wanted.agent else None
        keeper = Keeper(folder, list(wanted.port), agent, wanted.pause, "irr view")
        keeper.attempt(keeper.settle)
        keeper.view = View(wanted)
        # What was served before is asked by its sources at once.
        keeper.more = keeper.view.status()
        try:
            keeper.keep(keeper.view.make, wanted.limit, every)
        finally:
            keeper.end()
    return DONE


class Keeper(replicas.Keeper):
    """The replicas of a view."""

    view: View

    def renew(self, make: replicas.Maker) -> bool:
        """Renews them, and says what became of each source."""
        before = self.view.lines()

        def made(work: Path, known: str) -> replicas.Made | None:
            found = make(work, known)
            self.more = self.view.status()
            return found

        try:
            is_new = super().renew(made)
            self.view.commit()
        finally:
            self.more = self.view.status()
            for line in self.view.lines():
                if line not in before:
                    texts.note(f"{self.name}: {line}")
        if is_new:
            for line in self.view.outcome():
                print(texts.shown_line(f"{self.name}: {line}"), flush=True)
        return is_new

    @property
    def status(self) -> str:
        return "; ".join(self.view.lines()) or "the replicas have what the sources have"

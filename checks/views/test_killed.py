"""`irr view` ended by SIGKILL at moments of chance, while its sources are renewed by dumps and by
NRTM, version 3 and 4: what it has in the end is what they have."""

import os
import random
import signal
import subprocess
import sys
import time
from collections.abc import Iterator
from pathlib import Path

import pytest

from checks.keeping import PATIENCE, reported_by, running, wait_until, whois_answer
from checks.mirrors.writer4 import Writer4
from checks.running import Tell, Trial, expect
from checks.serving import free_port
from checks.views.following import PATH, named
from checks.views.serving import Files, Nrtm
from checks.views.test_sources import route
from checks.worlds import Tool

IN_MEMORY = True
SECONDS = 60
DUMP, SERIAL = "/three/ripe.db", "/three/SERIAL"
# The routes of the second registry come after those of the first.
FAR = 1_000


class Killed:
    """Two registries, and a view of both that is run again and again."""

    def __init__(self, folder: Path, tool: Tool, chance: random.Random) -> None:
        self.folder, self.tool, self.chance = folder, tool, chance
        self.files, self.nrtm, self.port = Files(), Nrtm("THREE", 1), free_port()
        self.routes = {number: self.route(number, "first") for number in range(40)}
        self.writer = Writer4("FOUR", self.files.texts, folder)
        self.log, self.count = str(folder / "view.log"), 0
        self.publish()
        for number in range(3):
            self.writer.publish([("ADD", self.route(FAR + number, "first", "FOUR"))])
        (folder / "key.pem").write_text(self.writer.public(self.writer.key))
        (folder / "view.toml").write_text(
            f"""
name = "ALL"
folder = "{folder}/view"
port = {self.port}
every = 1
pause = 0
[[source]]
name = "THREE"
dump = "{self.files.url}{DUMP}"
serial = "{self.files.url}{SERIAL}"
nrtm = "{self.nrtm.place}"
shrink = 100
[[source]]
name = "FOUR"
nrtm4 = "{self.files.url}{PATH}"
key = "{folder}/key.pem"
shrink = 100
"""
        )
        self.words = [sys.executable, tool.path, "view", str(folder / "view.toml")]

    @staticmethod
    def route(number: int, words: str, source: str = "THREE") -> str:
        return route(number, 2, words).replace("source: RIPE", f"source: {source}")

    def publish(self) -> None:
        self.files.texts[DUMP] = "\n".join([*self.routes.values(), "# EOF\n"]).encode()
        self.files.texts[SERIAL] = f"{self.nrtm.last}\n".encode()

    def change(self) -> None:
        """Both registries change; the first one tells it, or has a dump alone."""
        self.count += 1
        number, words = self.chance.randrange(60), f"change {self.count}"
        if number in self.routes and self.chance.random() < 0.3:
            self.nrtm.publish([("DEL", self.routes.pop(number))])
        self.routes[60] = self.route(60, words)
        self.nrtm.publish([("ADD", self.routes[60])])
        if self.chance.random() < 0.4:
            self.nrtm.forget()
            self.publish()
        self.writer.publish([("ADD", self.route(FAR + number, words, "FOUR"))])
        if self.chance.random() < 0.4:
            self.writer.forget()

    def wanted(self) -> set[str]:
        """The routes that there are, each with its words."""
        texts = [*self.routes.values(), *self.writer.objects.values()]
        return {named(text)[0] + text.partition("descr:")[2].partition("\n")[0] for text in texts}

    def found(self) -> set[str]:
        answer = whois_answer(self.port, b"inverse origin AS2").decode()
        found = set()
        for block in filter(None, answer.split("\n\n")):
            pairs = [line.partition(":") for line in block.split("\n")]
            value = {name: text.strip() for name, _, text in pairs}
            found.add(f"route: {value['route']}origin: {value['origin']} {value['descr']}")
        return found

    def killed(self, seconds: float) -> None:
        """A run that is killed after some time, with what it has started or without."""
        with open(self.log, "ab") as out:
            process = subprocess.Popen(
                self.words,
                stdin=subprocess.DEVNULL,
                stdout=out,
                stderr=out,
                env=self.tool.environment,
                start_new_session=True,
            )
        time.sleep(seconds)
        (os.killpg if self.chance.random() < 0.5 else os.kill)(process.pid, signal.SIGKILL)
        process.wait()

    def settled(self, what: str) -> float:
        """A run until it has what there is; how long that takes."""
        begun = time.monotonic()
        with running(self.words, self.log, env=self.tool.environment):
            wait_until(what, PATIENCE, lambda: self.found() == self.wanted())
            return time.monotonic() - begun


@pytest.fixture
def killed(trial: Trial, tool: Tool, tmp_path: Path) -> Iterator[Killed]:
    one = Killed(tmp_path, tool, trial.chance("killed views"))
    with one.files, one.nrtm:
        yield one


def test_a_view_that_is_killed_has_what_its_sources_have_in_the_end(
    killed: Killed, trial: Trial, tell: Tell
) -> None:
    one, count = killed, trial.count or trial.pick(30, 1_000)
    lasts = one.settled("the first time")
    for turn in range(count):
        one.change()
        one.killed(one.chance.uniform(0, 1.3 * lasts))
        if turn % 10 == 9:
            # Of the same machine at another moment.
            lasts = min(lasts, one.settled(f"what there is after {turn + 1} kills"))
    one.change()
    one.settled("what there is in the end")
    text = reported_by(one.log)
    expect("Traceback" in text, False, text[-2_000:])
    tell(f"{count} kills, {text.count('the replicas have')} renewals")

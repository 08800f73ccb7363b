"""A view that follows a registry by NRTM, version 4."""

import os
import signal
import time
from pathlib import Path

from checks.mirrors.client4 import NOTIFICATION
from checks.mirrors.writer4 import Writer4
from checks.running import expect
from checks.views.serving import Files, view_in, view_of
from checks.views.test_merge import made
from checks.views.test_sources import OWN, route

PATH = f"/4/{NOTIFICATION}"


class World:
    """A view of a file and of a registry that is followed."""

    def __init__(self, folder: Path, name: str, place: str, key: str) -> None:
        self.folder, self.name = folder, name
        (folder / "own.db").write_text(OWN.replace("TEST", "OWN"))
        (folder / "key.pem").write_text(key)
        self.view = view_of(
            folder,
            f"""
[[source]]
name = "OWN"
dump = "{folder}/own.db"
[[source]]
name = "{name}"
nrtm4 = "{place}"
key = "{folder}/key.pem"
shrink = 100
""",
        )
        self.known = ""

    def begin(self) -> None:
        """The view after a start."""
        self.view = view_in(self.folder)

    def renew(self) -> str:
        """What is wrong with the source after a renewal."""
        work = made(self.view)
        self.view.commit()
        self.known = (work / "dump.rpsl").read_text()
        return self.view.faults.get(self.name, "")

    def killed(self, seconds: float) -> None:
        """A renewal that is killed after some time."""
        child = os.fork()
        if not child:
            try:
                self.renew()
            finally:
                os._exit(0)
        time.sleep(seconds)
        os.kill(child, signal.SIGKILL)
        os.waitpid(child, 0)
        self.begin()

    def objects(self) -> set[str]:
        """What the view has of the source, as the source has it."""
        mark = f"source:         ALL # {self.name}"
        own = f"source:         {self.name}"
        blocks = self.known.split("\n\n")
        return {one.replace(mark, own) for one in blocks if mark in one.split("\n")}


class Followed(World):
    """The same of a writer's registry, over HTTP."""

    def __init__(self, folder: Path) -> None:
        self.files = Files()
        self.writer = Writer4("RIPE", self.files.texts, folder)
        self.writer.objects = dict(map(named, map(route, range(6))))
        self.writer.begin()
        place = f"{self.files.url}{PATH}"
        super().__init__(folder, "RIPE", place, self.writer.public(self.writer.key))

    def asked(self, kind: str) -> int:
        """How many files of a kind were handed out."""
        return sum(kind in path and status == 200 for path, status in self.files.asked)

    def need_same(self, what: str) -> None:
        """That the view has what the registry has."""
        wanted = {shaped(text) for text in self.writer.objects.values()}
        expect(self.objects(), wanted, what)


def named(text: str) -> tuple[str, str]:
    origin = text.partition("\norigin:")[2].partition("\n")[0]
    return text.partition("\n")[0] + f"origin:{origin}", text


def shaped(text: str) -> str:
    """An object of lines `name: value` as the registry prints it."""
    lines = [line.partition(":") for line in text.strip().split("\n")]
    return "\n".join(f"{name + ':':15} {value.strip()}" for name, _, value in lines)

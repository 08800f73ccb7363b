"""A registry that is followed by NRTM, version 3, and a view of it: over sockets, or in this
process, where a look takes far less."""

import contextlib
import gzip
import io
import os
import shutil
import socket
import tempfile
from collections.abc import Iterator
from pathlib import Path
from typing import BinaryIO

import pytest

from checks.running import expect
from checks.views.following import shaped
from checks.views.serving import Files, Nrtm, view_in, view_of
from checks.views.test_merge import made
from checks.views.test_sources import route
from irr.errors import Failure as Fault
from irr.local import tables
from irr.rpsl import keys
from irr.views import view
from irr.views.merge import Outcome
from irr.views.sources import State

DUMP, SERIAL = "/ripe.db.gz", "/RIPE.CURRENTSERIAL"
ROUTE = keys.CLASSES.index("route") + 1


class Registry:
    """A registry with its dump, its serial and its changes, and a view that follows it."""

    def __init__(self, folder: Path) -> None:
        self.files, self.nrtm = Files(), Nrtm("RIPE", 101)
        self.routes = {number: route(number) for number in range(5)}
        self.publish()
        self.view = view_of(
            folder,
            f"""
[[source]]
name = "RIPE"
dump = "{self.files.url}{DUMP}"
serial = "{self.files.url}{SERIAL}"
nrtm = "{self.nrtm.place}"
shrink = 100
""",
        )
        self.known = ""

    def publish(self) -> None:
        self.put_serial()
        self.put_dump()

    def put_serial(self) -> None:
        self.files.texts[SERIAL] = f"{self.nrtm.last}\n".encode()

    def put_dump(self) -> None:
        text = "\n".join([*self.routes.values(), "# EOF\n"])
        self.files.texts[DUMP] = gzip.compress(text.encode(), mtime=0)

    def add(self, *numbers: int, words: str = "x") -> None:
        for number in numbers:
            self.routes[number] = route(number, 2, words)
            self.nrtm.publish([("ADD", self.routes[number])])

    def remove(self, *numbers: int) -> None:
        for number in numbers:
            self.nrtm.publish([("DEL", self.routes.pop(number))])

    def restore(self, serial: int, routes: dict[int, str]) -> None:
        """What it was at a serial."""
        del self.nrtm.changes[serial - self.nrtm.first + 1 :]
        self.routes = dict(routes)

    def look(self) -> str:
        """What is wrong after a renewal."""
        work = made(self.view)
        self.view.commit()
        self.known = (work / "dump.rpsl").read_text()
        return self.view.faults.get("RIPE", "")

    def is_same(self) -> bool:
        """Whether the view has what the registry has."""
        found = {one for one in self.known.split("\n\n") if one.startswith("route:")}
        wanted = {shaped(one) for one in self.routes.values()}
        return {one.replace("ALL # RIPE", "RIPE").strip("\n") for one in found} == wanted

    def need(self, words: str, what: str) -> None:
        """That the view is the registry's, or the status has these words."""
        fault = self.look()
        if words:
            expect(words in fault, True, f"{what}: {fault}")
        else:
            expect((fault, self.is_same()), ("", True), what)


class Peer(io.BytesIO):
    """A connection to a registry in this process."""

    def __init__(self, registry: Registry) -> None:
        super().__init__()
        self.registry = registry

    def sendall(self, line: bytes) -> None:
        self.answer = self.registry.nrtm.answer(line.decode().strip()).encode()

    def makefile(self, _: str) -> io.BytesIO:
        return io.BytesIO(self.answer)


class Spool:
    def close(self) -> None:
        pass


class Merged:
    """What is merged of one source whose objects can all be read: its dump, and the changes in
    their order. It stands in for a merge, which takes far longer."""

    def __init__(self, *_: object) -> None:
        self.routes: dict[str, str] = {}
        self.spool = Spool()

    def read_states(self, states: dict[str, State]) -> None:
        for state in states.values():
            for part in state.parts:
                for text in gzip.decompress(part.read_bytes()).decode().split("\n\n"):
                    if text.startswith("route:"):
                        self.routes[text.partition("\n")[0]] = text.strip("\n")
            changes = state.changes.read_text() if state.changes.exists() else ""
            blocks = changes.strip("\n").split("\n\n") if changes else []
            for word, text in zip(blocks[::2], blocks[1::2], strict=True):
                self.routes.pop(text.partition("\n")[0], None)
                if word == "ADD":
                    self.routes[text.partition("\n")[0]] = text

    def outcomes(self) -> dict[str, Outcome]:
        counts = [0] * (len(keys.CLASSES) + 1)
        counts[ROUTE] = len(self.routes)
        return {"RIPE": Outcome(counts, len(self.routes), 0, {}, {})}

    def write(self, out: BinaryIO) -> None:
        out.write("\n\n".join(self.routes.values()).encode())

    def rows(self) -> None:
        pass


class Quick(Registry):
    """A registry in this process, whose files are on a disk, and a view of it that is merged
    quickly."""

    def __init__(self, folder: Path) -> None:
        self.folder, self.digest = folder, ""
        super().__init__(folder)
        text = (folder / "view.toml").read_text()
        (folder / "view.toml").write_text(text.replace(self.files.url, str(folder)))
        self.begin()
        self.files.server.server_close()
        self.nrtm.server.server_close()

    def begin(self) -> None:
        """The view after a start."""
        self.view = view_in(self.folder)

    def put_files(self) -> None:
        """Puts on the disk what is handed out."""
        for name, text in self.files.texts.items():
            path = Path(f"{self.folder}{name}")
            assert isinstance(text, bytes)
            if not path.exists() or path.read_bytes() != text:
                path.with_suffix(".new").write_bytes(text)
                path.with_suffix(".new").rename(path)

    def look(self) -> str:
        """The same after a renewal by `irr view`, which makes nothing where nothing is new."""
        self.put_files()
        work, now = (self.view.folder / name for name in ("made.next", "made"))
        shutil.rmtree(work, ignore_errors=True)
        work.mkdir(parents=True)
        try:
            found = self.view.make(work, self.digest)
        except Fault as fault:
            return str(fault)
        if found:
            self.digest, self.known = found.digest(), found.dump.read_text()
            shutil.rmtree(now, ignore_errors=True)
            work.rename(now)
        self.view.commit()
        return self.view.faults.get("RIPE", "")

    def is_same(self) -> bool:
        wanted = sorted(text.strip("\n") for text in self.routes.values())
        return sorted(filter(None, self.known.split("\n\n"))) == wanted


@contextlib.contextmanager
def quick(monkeypatch: pytest.MonkeyPatch) -> Iterator[Quick]:
    with tempfile.TemporaryDirectory() as folder, monkeypatch.context() as patched:
        one = Quick(Path(folder))
        patched.setattr(socket, "create_connection", lambda *_: Peer(one))
        patched.setattr(view, "Merge", Merged)
        patched.setattr(tables, "write", lambda *_: None)
        patched.setattr(view, "Copy", lambda *_: None)
        patched.setattr(os, "fsync", lambda _: None)
        yield one

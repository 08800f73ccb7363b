"""What the page asks of a door: a registry with a history, and a view of two sources beside it."""

import json
import socketserver
import subprocess
import threading
import time
from pathlib import Path
from typing import Any

from checks.door.opened import Opened, wait_until
from checks.running import AUTH, Failure, Trial, write
from checks.serving import Server

SETTINGS = f'source = "ALL"\nroot = "ROOT-MNT"\nauth = "{AUTH}"\nlimit = 10000\nstore = "irr.db"\n'
# How many members a large set has: sets, of which some are registered, and AS numbers.
SETS, REGISTERED, NUMBERS = 400, 20, 1_600
TIME = 1_700_000_000


def of(source: str, *texts: str) -> str:
    """Objects of a source, as a view has them."""
    return "".join(f"{text}\nsource: ALL # {source}\n\n" for text in texts)


def viewed() -> str:
    """The objects of the view."""
    names = [f"AS64496:AS-B{n}" for n in range(SETS)]
    many = ", ".join([*names, *(f"AS{n}" for n in range(1, NUMBERS + 1))])
    registered = [f"as-set: {name}\nmembers: AS64497\nmnt-by: A-MNT" for name in names[:REGISTERED]]
    customers = "AS64497, AS64496:AS-JOINED, AS64496:AS-GONE, AS64496:AS-RING"
    return (
        f"mntner: A-MNT\nauth: {AUTH}\nmnt-by: A-MNT\nsource: ALL\n\n"
        f"mntner: ROOT-MNT\nauth: {AUTH}\nmnt-by: ROOT-MNT\nsource: ALL\n\n"
        + of("TEST", "aut-num: AS64496\nmember-of: AS64496:AS-JOINED\nmnt-by: A-MNT")
        + of("RADB", "aut-num: AS64497\nmnt-by: A-MNT")
        + "inetnum: 0.0.0.0 - 255.255.255.255\nmnt-by: ROOT-MNT\nsource: ALL\n\n"
        + of("TEST", "route: 10.1.0.0/16\norigin: AS64496\nmnt-by: A-MNT")
        + of(
            "RADB",
            "route: 10.1.0.0/16\norigin: AS64497\nmnt-by: A-MNT",
            "route: 10.1.2.0/24\norigin: AS64497\nmnt-by: A-MNT",
        )
        + of("RADB", *sorted(registered))
        + of("RADB", f"as-set: AS64496:AS-BIG\nmembers: {many}\nmnt-by: A-MNT")
        + of("TEST", f"as-set: AS64496:AS-CUSTOMERS\nmembers: {customers}\nmnt-by: A-MNT")
        + of("TEST", "as-set: AS64496:AS-JOINED\nmbrs-by-ref: A-MNT\nmnt-by: A-MNT")
        + of("TEST", "as-set: AS64496:AS-OPEN\nmbrs-by-ref: ANY\nmnt-by: A-MNT")
        + of(
            "RADB",
            "as-set: AS64496:AS-RING\nmembers: AS64496:AS-CUSTOMERS, AS64496:AS-JOINED\n"
            "mnt-by: A-MNT",
        )
    )


class Agent(socketserver.ThreadingTCPServer):
    """What `irr view` tells a door of a view, whose replica is at a port."""

    allow_reuse_address = daemon_threads = True

    def __init__(self, port: int) -> None:
        now = time.time()
        sources = [
            {"name": "TEST", "state": "1" * 16, "seen": now, "fault": ""},
            {"name": "RADB", "state": "2" * 16, "seen": now - 600, "serial": 7, "fault": "gone"},
        ]
        replica = {"port": port, "ready": True, "state": "1", "seen": now}
        view = {"name": "ALL", "roas": "", "doubts": [], "lines": [], "sources": sources}
        text = json.dumps({"replicas": [replica], "view": view}).encode() + b"\n"

        class Kept(socketserver.StreamRequestHandler):
            def handle(self) -> None:
                self.rfile.readline()
                self.wfile.write(text)

        super().__init__(("127.0.0.1", 0), Kept)
        threading.Thread(target=self.serve_forever, daemon=True).start()


class Block:
    """An object as a dump has it."""

    def __init__(self, text: bytes) -> None:
        self.text = text


def recorded(folder: Path, states: list[list[bytes]]) -> Path:
    """A history of these states, a second between two."""
    from irr.local.history import Repository

    folder.mkdir(parents=True)
    repository = Repository(folder)
    for number, texts in enumerate(states, 1):
        blocks: Any = [Block(text) for text in texts]
        repository.record(blocks, f"{number:064}", TIME + number)
    return folder


def states() -> list[list[bytes]]:
    """A route that comes, changes twice, goes and comes again."""
    root = b"mntner:         ROOT-MNT\nauth:           # filtered\nsource:         TEST\n"
    texts = [
        b"route:          10.1.0.0/16\norigin:         AS64496\n%smnt-by:         A-MNT\n"
        b"source:         TEST\n" % words
        for words in (b"", b"descr:          <b>office</b>\n", b"descr:          two offices\n")
    ]
    return [[root, texts[0]], [root, texts[1]], [root, texts[2]], [root], [root, texts[2]]]


class Doored:
    """A door over a registry that is served at a port."""

    def __init__(self, trial: Trial, port: int) -> None:
        folder = trial.place("viewed")
        write(folder, "s.toml", SETTINGS.encode())
        write(folder, "dump.rpsl", viewed().encode())
        words = [trial.program, "load", "s.toml", "dump.rpsl"]
        done = subprocess.run(words, cwd=folder, capture_output=True, check=False)
        if done.returncode:
            raise Failure(f"the view: {done.stderr.decode()}")
        self.replica = Server(trial.program, folder, 100_000)
        self.agent = Agent(self.replica.port)
        kept = recorded(Path(folder, "history"), states())
        config = f'view = ["127.0.0.1:{self.agent.server_address[1]}"]\nhistory = "{kept}"\n'
        config += "refill = 1000\nburst = 1000\n"
        self.door = Opened(trial, "door", [f"--registry=http://127.0.0.1:{port}"], config)
        self.door.__enter__()
        wait_until("the view", 60, lambda: self.door.status()["views"][0]["name"])
        self.port = self.door.http_port

    def end(self) -> None:
        self.door.__exit__()
        self.agent.shutdown()
        self.agent.server_close()
        self.replica.__exit__()

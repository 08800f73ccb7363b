"""A registry that is changed by chance, with its history, its export and its door, each of which
can be stopped and started again."""

import contextlib
import http.client
import os
import random
import re
import signal
import subprocess
import sys
import time
from typing import Self

from checks.door.opened import Opened
from checks.mirrors.client import Key, Mirror, objects_of
from checks.running import AUTH, Failure, Trial, expect, write_settings
from checks.serving import Serving, free_port
from checks.tool.forking import run_forked
from checks.worlds import Tool

COUNT = 1_000_000
DONE = re.compile(r"^[0-9]+ .+: (?:added|changed|deleted)$", re.M)
SETS = ["AS-A", "AS-B", "AS-C", "AS1:AS-D", "AS2:AS-E", "AS1:AS-D:AS-F"]
MEMBER_OF: list[list[str]] = [[], ["member-of: AS-A, AS1:AS-D"]]
ROUTE_SETS = ["RS-A", "RS-B", "AS1:RS-C", "AS1:AS-D:RS-D"]


class Chance:
    """Items of submissions, of few names, so that they meet one another."""

    def __init__(self, chance: random.Random) -> None:
        self.chance, self.count = chance, 0

    def maintainers(self) -> str:
        some = [f"M{number}-MNT" for number in range(6)] + ["ROOT-MNT"] * 3
        return ", ".join(dict.fromkeys(self.chance.choices(some, k=self.chance.randrange(1, 3))))

    def asn(self) -> str:
        return f"AS{self.chance.randrange(1, 12)}"

    def span(self) -> str:
        """Addresses that may cross others."""
        first = self.chance.randrange(16)
        return f"10.{first}.0.0 - 10.{min(first + self.chance.choice([0, 0, 1, 3]), 15)}.255.255"

    def prefix(self) -> str:
        return f"10.{self.chance.randrange(16)}.{self.chance.randrange(3)}.0/24"

    def item(self) -> list[str]:
        """The lines of an object."""
        chance, by = self.chance, [f"mnt-by: {self.maintainers()}"]
        kind = chance.choice("mntner aut-num aut-num inetnum route route as-set route-set".split())
        own, more = {
            "mntner": (lambda: (f"M{chance.randrange(6)}-MNT", [f"auth: {AUTH}"])),
            "aut-num": (lambda: (self.asn(), chance.choice(MEMBER_OF))),
            "inetnum": (lambda: (self.span(), [f"mnt-lower: {self.maintainers()}"])),
            "route": (lambda: (self.prefix(), [f"origin: {self.asn()}"])),
            "as-set": (lambda: (chance.choice(SETS), [self.members(SETS)])),
            "route-set": (lambda: (chance.choice(ROUTE_SETS), [self.members(ROUTE_SETS + SETS)])),
        }[kind]()
        return [f"{kind}: {own}", *more, *by]

    def members(self, names: list[str]) -> str:
        found = self.chance.choices([*names, self.asn()], k=self.chance.randrange(1, 4))
        return f"members: {', '.join(found)}"

    def submission(self) -> str:
        """Some items, of which some delete what may be there."""
        self.count += 1
        items = []
        for _ in range(self.chance.choice([1, 1, 1, 2, 3, 6])):
            lines = [*self.item(), f"descr: version {self.count}", "source: TEST"]
            if self.chance.random() < 0.35:
                lines.append("delete: not needed")
            items.append("\n".join(lines) + "\n\n")
        return "password: bc\n\n" + "".join(items)


class Changing:
    """All of that, in a folder, while a `with` block runs."""

    def __init__(self, trial: Trial, tool: Tool, name: str, config: str = "") -> None:
        self.trial, self.folder = trial, trial.place(name)
        self.history, self.out = (os.path.join(self.folder, part) for part in ("h", "out"))
        write_settings(self.folder)
        ran = trial.run(self.folder, "init", "s.toml")
        expect(ran.status, 0, "init")
        self.port = free_port()
        self.tool = tool.at(IRR_SERVER=f"http://127.0.0.1:{self.port}")
        config = f'history = "{self.history}"\nmirrors = ["127.0.0.1"]\n{config}'
        words = [f"--registry=http://127.0.0.1:{self.port}"]
        self.door = Opened(trial, f"{name}-door", words, config)
        self.changes = 0
        self.dumps: dict[int, dict[Key, str]] = {}

    def __enter__(self) -> Self:
        with contextlib.ExitStack() as started:
            self.server = started.enter_context(self.serving())
            started.enter_context(self.door)
            started.pop_all()
        return self

    def __exit__(self, *_: object) -> None:
        self.door.__exit__()
        self.server.__exit__()

    def serving(self) -> Serving:
        return Serving([self.trial.program], self.folder, COUNT, self.port)

    def restart_registry(self) -> None:
        self.server.__exit__()
        self.server = self.serving()

    def restart_door(self, is_killed: bool) -> None:
        if is_killed:
            self.door.process.kill()
            self.door.process.wait()
        self.door.__exit__()
        self.door.__enter__()

    def http(self, method: str, path: str, body: bytes | None = None) -> str:
        connection = http.client.HTTPConnection("127.0.0.1", self.port, timeout=60)
        with contextlib.closing(connection):
            connection.request(method, path, body)
            reply = connection.getresponse()
            if reply.status != 200:
                raise Failure(f"{path}: status {reply.status}")
            return reply.read().decode("latin-1")

    def submit(self, text: str) -> int:
        """Sends a submission; how many items changed the registry."""
        done = len(DONE.findall(self.http("POST", "/submissions", text.encode())))
        self.changes += done
        return done

    def dump(self) -> dict[Key, str]:
        return objects_of(self.http("GET", "/dump"))

    def ran(self, *words: str) -> None:
        ran = run_forked(self.tool, *words)
        expect((ran.status, b"Traceback" in ran.reported), (0, False), f"{words}: {ran.reported!r}")

    def record(self) -> None:
        """Lets the history see the state, and remembers the dump of its serial."""
        self.ran("history", self.history)
        self.dumps[self.last()] = self.dump()

    def stopped(self, seconds: float, *words: str) -> None:
        """A run of the tool that is killed after some time."""
        process = subprocess.Popen(
            [sys.executable, self.tool.path, *words],
            env=self.tool.environment,
            stdout=subprocess.DEVNULL,
            stderr=subprocess.DEVNULL,
            start_new_session=True,
        )
        time.sleep(seconds)
        with contextlib.suppress(ProcessLookupError):
            os.killpg(process.pid, signal.SIGKILL)
        process.wait()

    def export(self) -> None:
        self.ran("export", "--history", self.history, self.out)

    def range(self) -> tuple[int, int]:
        """The serials that the door tells of."""
        time.sleep(1.1)
        answer = self.door.whois("!jTEST").decode()
        found = re.fullmatch(r"A[0-9]+\nTEST:Y:([0-9]+)-([0-9]+)\nC\n", answer)
        if not found:
            raise Failure(f"!jTEST: {answer!r}")
        return int(found[1]), int(found[2])

    def last(self) -> int:
        """The last serial, as a mirror that has all learns it."""
        names = os.listdir(os.path.join(self.history, "serials"))
        return max(int(name) for name in names if name.isdigit())

    def mirror(self) -> Mirror:
        """A mirror that begins from what is exported."""
        mirror = Mirror("TEST")
        mirror.begin(self.out)
        return mirror

"""An exchange: its own registry, with what mirrors take of it; a registry that is followed by NRTM,
version 3, and one by version 4; ROAs; a view of the three, and a door. Each part can be stopped."""

import contextlib
import json
import os
import random
import re
import signal
import subprocess
import sys
from collections.abc import Iterator
from pathlib import Path
from typing import Any, Self

from checks import models, rpsl
from checks.filters import registries
from checks.filters.filtering import of_lists
from checks.keeping import PATIENCE, reported_by, wait_until, whois_answer
from checks.mirrors.changing import Changing
from checks.mirrors.client import Key, Mirror, objects_of
from checks.mirrors.client4 import NOTIFICATION, Mirror4
from checks.mirrors.writer4 import Writer4, name_of
from checks.models import Expansion
from checks.rpsl import Choices, Object, Registry
from checks.running import Failure, Trial, expect, write
from checks.serving import free_port
from checks.views import merged
from checks.views.merged import Several
from checks.views.serving import Files, Nrtm
from checks.views.test_merge import need_objects, objects_in, roas_text
from checks.worlds import Tool

SOURCES = "TEST,RIPE,RADB"
MARK = "AS11:AS-MARK"
FAR = (models.read_prefix("203.0.113.0/24"), 24, 64511)
# Each format in which members' scripts ask bgpq4, and what it does to the prefixes: nothing, or
# takes also those inside, up to a length.
FORMATS: dict[str, int] = {
    "-l NAME": 0,
    "-A -l NAME": 0,
    "-R 24 -l NAME": 24,
    "-A -R 26 -l NAME": 26,
    "-s -A -l NAME": 0,
    "-b -l NAME": 0,
    "-A -b -l NAME": 0,
    "-A -R 25 -b -l NAME": 25,
    "-J -l NAME": 0,
    "-J -E -A -l NAME": 0,
    "-X -l NAME": 0,
    "-X -A -R 24 -l NAME": 24,
    "-U -l NAME": 0,
    "-U -A -l NAME": 0,
    "-j -l NAME": 0,
    "-j -A -l NAME": 0,
    "-B -l NAME": 0,
    "-B -E -A -l NAME": 0,
    "-F %n/%l,%a-%A\\n -A": 0,
    "-e -A -l NAME": 0,
}
NUMBERS = ["-t -j -l NAME", "-t -b -l NAME", "-p -3 -f 64500 -l NAME", "-G 64500 -l NAME"]
HUAWEI = re.compile(
    r"permit ([0-9.]+) ([0-9]+)(?: greater-equal ([0-9]+))?(?: less-equal ([0-9]+))?"
)
OWN = re.compile(r"([0-9.]+/[0-9]+),([0-9]+)-([0-9]+)")


def any_registry(chance: random.Random, name: str) -> Registry:
    """A registry of a source; an irrdesk has no names of other registries in its lists."""
    choices = Choices(chance.randbytes(900))
    if name != "TEST":
        return merged.any_of(name, choices)
    held = registries.any_registry(choices).objects
    words = ("descr", f"as {name} has it")
    return Registry(tuple(Object((*one.attributes, words)) for one in held))


class Day:
    """All of that, while a `with` block runs."""

    def __init__(self, trial: Trial, tool: Tool, name: str, chance: random.Random) -> None:
        self.trial, self.chance = trial, chance
        self.folder = Path(trial.place(name))
        self.agent, self.ports = free_port(), [free_port(), free_port()]
        config = f'view = ["127.0.0.1:{self.agent}"]\nburst = 1000\nrefill = 1000\n'
        self.own = Changing(trial, tool, f"{name}-own", config)
        self.tool = self.own.tool
        self.files, self.nrtm = Files(), Nrtm("RIPE", 1)
        self.has: dict[str, Registry] = {}
        self.marks = 0
        self.roas: merged.Roas = []
        self.process: "subprocess.Popen[bytes] | None" = None
        self.log = str(self.folder / "view.log")

    def __enter__(self) -> Self:
        with contextlib.ExitStack() as stack:
            stack.enter_context(self.own)
            stack.enter_context(self.files)
            stack.enter_context(self.nrtm)
            self.radb = Writer4("RADB", self.files.texts, self.folder)
            self.write_settings()
            stack.callback(self.end_view)
            self.change()
            self.start_view()
            self.stack = stack.pop_all()
        return self

    def __exit__(self, *_: object) -> None:
        self.stack.close()

    def write_settings(self) -> None:
        (self.folder / "radb.pem").write_text(self.radb.public(self.radb.key))
        (self.folder / "view.toml").write_text(
            f"""
name = "ALL"
folder = "{self.folder}/view"
port = {self.ports}
agent = {self.agent}
every = 1
pause = 0.1
limit = 1000000
roas = "{self.folder}/roas"
[[source]]
name = "TEST"
registry = "http://127.0.0.1:{self.own.port}"
shrink = 100
[[source]]
name = "RIPE"
dump = "{self.files.url}/ripe.db"
serial = "{self.files.url}/RIPE.CURRENTSERIAL"
nrtm = "{self.nrtm.place}"
shrink = 100
[[source]]
name = "RADB"
nrtm4 = "{self.files.url}/4/{NOTIFICATION}"
key = "{self.folder}/radb.pem"
shrink = 100
"""
        )

    # What changes.

    def change(self) -> None:
        """Another content of each source, told as it tells what changed, and other ROAs. The view
        reads its first source first, so what has the mark of this one has all."""
        old, self.has = self.has, {name: any_registry(self.chance, name) for name in merged.SOURCES}
        self.change_ripe(differing(old.get("RIPE"), self.has["RIPE"]))
        self.change_radb(differing(old.get("RADB"), self.has["RADB"]))
        self.change_roas()
        self.load()

    def change_ripe(self, changes: list[tuple[str, str]]) -> None:
        self.nrtm.publish(changes)
        if self.chance.random() < 0.2:
            # Who asks for the changes since has to take the dump.
            self.nrtm.forget()
        self.files.texts["/ripe.db"] = self.has["RIPE"].text().encode()
        self.files.texts["/RIPE.CURRENTSERIAL"] = f"{self.nrtm.last}\n".encode()

    def change_radb(self, changes: list[tuple[str, str]]) -> None:
        """Another version, or session; by the key of before, the next one, or with a next one."""
        lot = self.chance.random()
        if self.radb.next_key and lot > 0.7:
            self.radb.roll()
        if 0.2 < lot < 0.4:
            self.radb.next_key = self.radb.new_key(self.chance.choice(["EdDSA", "ES256"]))
        if lot < 0.2:
            self.radb.objects = {
                name_of(one.text()): one.text() for one in self.has["RADB"].objects
            }
            self.radb.begin()
        elif changes:
            self.radb.publish(changes)
        else:
            self.radb.notify()

    def load(self) -> None:
        """Replaces the own registry by another one, as after a move."""
        self.marks += 1
        mark = Object(
            (
                ("as-set", MARK),
                ("descr", f"mark {self.marks}"),
                ("mnt-by", "ROOT-MNT"),
                ("source", "TEST"),
            )
        )
        held = [one for one in self.has["TEST"].objects if one.key != MARK]
        self.has["TEST"] = Registry((*held, mark))
        self.own.server.__exit__()
        for name in os.listdir(self.own.folder):
            if name.startswith("irr.db"):
                os.unlink(os.path.join(self.own.folder, name))
        text = Registry(tuple(sorted(self.has["TEST"].objects, key=in_order))).text()
        write(self.own.folder, "dump.rpsl", text.encode())
        ran = self.trial.run(self.own.folder, "load", "s.toml", "dump.rpsl")
        expect((ran.status, ran.reported), (0, b""), f"load: {ran.reported!r}")
        self.own.server = self.own.serving()

    def change_roas(self) -> None:
        found = tuple(self.has[name] for name in merged.SOURCES)
        choices = Choices(self.chance.randbytes(200))
        # A view takes no file without ROAs; this one is of none of the routes.
        self.roas = [*merged.with_roas(found, choices).roas, FAR]
        path = self.folder / "roas"
        path.with_suffix(".new").write_text(roas_text(self.roas))
        os.replace(path.with_suffix(".new"), path)

    def several(self) -> Several:
        """What there is now."""
        return Several(dict(self.has), list(self.roas), "TEST")

    # The view.

    def start_view(self) -> None:
        words = [sys.executable, self.tool.path, "view", str(self.folder / "view.toml")]
        with open(self.log, "ab") as out:
            self.process = subprocess.Popen(
                words, stdin=subprocess.DEVNULL, stdout=out, stderr=out, env=self.tool.environment
            )

    def end_view(self, number: int = signal.SIGTERM) -> None:
        assert self.process
        if self.process.poll() is None:
            self.process.send_signal(number)
            self.process.wait(PATIENCE)

    def replica(self) -> int:
        """The process of its first replica."""
        assert self.process
        path = Path(f"/proc/{self.process.pid}/task/{self.process.pid}/children")
        wanted = f"\0--port\0{self.ports[0]}\0".encode()
        for word in path.read_text("ascii").split():
            with contextlib.suppress(OSError):
                if wanted in Path(f"/proc/{word}/cmdline").read_bytes():
                    return int(word)
        raise Failure(f"no replica serves at {self.ports[0]}: {reported_by(self.log)[-1_500:]}")

    def settle(self, wanted: Registry) -> None:
        """Waits until all have what there is: both replicas, object by object, and the door."""
        try:
            for port in self.ports:
                wait_until(f"the replica at {port}", PATIENCE, lambda: self.has_all(port, wanted))
            wait_until("the door", PATIENCE, self.is_told)
        except Failure as failure:
            raise Failure(f"{failure}; {reported_by(self.log)[-1_500:]}") from None

    def has_all(self, port: int, wanted: Registry) -> bool:
        mark = whois_answer(port, f"object as-set {MARK}".encode())
        if f"descr:          mark {self.marks}\n".encode() not in mark:
            return False
        ran = self.trial_dump(port)
        try:
            need_objects(objects_in(ran), wanted)
        except (AssertionError, KeyError):
            return False
        return True

    def trial_dump(self, port: int) -> str:
        ran = self.tool("dump", "-s", f"http://127.0.0.1:{port}")
        return str(ran.printed.decode("latin-1")) if ran.status == 0 else ""

    def is_told(self) -> bool:
        """Whether the door knows what is served, and keeps no answer of before."""
        with contextlib.suppress(OSError, ValueError, KeyError):
            status, _, text = self.own.door.http("GET", "/views/ALL/state")
            label = json.loads((self.folder / "view/made/view.json").read_bytes())
            states = [one["state"] for one in label["sources"]]
            told = json.loads(text)
            found = [one["state"] for one in told["sources"]]
            return status == 200 and (found, told["roas"]) == (states, label["roas"])
        return False

    def faults(self) -> list[str]:
        found: list[str] = self.own.door.status()["faults"]
        return found

    # Mirrors outside.

    def need_mirrors(self) -> None:
        """That both mirrors outside have what the own registry has."""
        self.own.record()
        self.own.export()
        self.own.ran(*self.words4())
        wanted = objects_of(self.own.http("GET", "/dump"))
        mirror = self.own.mirror()
        if not hasattr(self, "mirror3"):
            self.mirror3: Mirror = mirror
            public = self.tool("nrtm4", str(self.folder / "keys")).printed.decode()
            folder = f"{self.own.out}/nrtmv4"
            self.mirror4 = Mirror4("TEST", folder, public.partition("\n")[2])
        self.mirror4.follow()
        expect(self.mirror4.objects == wanted, True, "the mirror by version 4")
        # An answer may end before the last serial.
        wait_until("the mirror by version 3", PATIENCE, lambda: self.has_followed(wanted))

    def has_followed(self, wanted: dict[Key, str]) -> bool:
        self.mirror3.follow(self.own.door.whois_port)
        return self.mirror3.objects == wanted

    def words4(self) -> list[str]:
        keys = str(self.folder / "keys")
        return ["export", "--history", self.own.history, "--nrtm4", keys, self.own.out]

    # Members.

    def bgpq4(self, words: str, name: str) -> "subprocess.CompletedProcess[bytes]":
        """A line of a member's script."""
        host = f"127.0.0.1:{self.own.door.whois_port}"
        return subprocess.run(
            ["bgpq4", "-h", host, "-S", SOURCES, "-4", *words.split(), name],
            capture_output=True,
            timeout=PATIENCE,
            check=False,
        )


class Lists:
    """What sets of a view stand for, by an expansion of the check's own."""

    def __init__(self, several: Several) -> None:
        self.merged = merged.merged(several)
        self.model = Expansion(self.merged)
        self.names = [
            one
            for one in merged.names(self.merged)
            if one not in merged.ANY and not self.reaches_any(one)
        ]
        self.source_of = {
            f"{held.kind} {shown(held)}": held.values("source")[0] for held in self.merged.objects
        }

    def reaches_any(self, name: str) -> bool:
        return bool({"RS-ANY"} & self.model.reached(name))

    def prefixes(self, name: str, more: int) -> int:
        """The prefixes of a set, and those inside each up to a length, if any."""
        found = bits = self.model.prefixes(name)
        for node in models.nodes_in(bits) if more else []:
            length = models.prefix_of(node)[1]
            if length < more:
                found |= models.inside(node, length, more)
        return found

    def numbers(self, name: str) -> set[int]:
        return {int(number[2:]) for number in self.model.expanded(name)}


def shown(held: Object) -> str:
    origin = held.values("origin") if held.kind == "route" else []
    return " ".join([held.key.split(" ")[0], *origin]) if origin else held.key


def differing(old: Registry | None, new: Registry) -> list[tuple[str, str]]:
    """The changes from one content to another."""
    before = {merged.key_of(one): one.text() for one in old.objects} if old else {}
    after = {merged.key_of(one): one.text() for one in new.objects}
    return [("ADD", text) for key, text in after.items() if before.get(key) != text] + [
        ("DEL", text) for key, text in before.items() if key not in after
    ]


def in_order(held: Object) -> tuple[Any, ...]:
    """The order of a dump: of classes, and of keys in each."""
    place = rpsl.CLASSES.index(held.kind)
    if held.kind == "route":
        prefix = models.read_prefix(held.values("route")[0])
        return place, prefix, int(held.values("origin")[0][2:])
    if held.kind == "aut-num":
        return place, int(held.key[2:])
    return place, held.key


def taken(words: str, printed: bytes) -> int:
    """What a list of bgpq4 takes, in the format of its line."""
    # What takes nothing says so in some formats.
    lines = printed.decode().split("\n")
    text = "\n".join(line for line in lines if not re.search(r"\b(?:deny|reject)\b", line))
    found = []
    if "-U" in words.split():
        for one in HUAWEI.finditer(text):
            prefix = models.read_prefix(f"{one[1]}/{one[2]}")
            low = int(one[3] or prefix[1])
            found.append((prefix, low, int(one[4] or (32 if one[3] else prefix[1]))))
        return models.bits_of(found)
    if "-F" in words:
        for one in OWN.finditer(text):
            found.append((models.read_prefix(one[1]), int(one[2]), int(one[3])))
        return models.bits_of(found)
    bits = 0
    for first, length in of_lists(text.encode()):
        node = models.node_of((first, length))
        if not node:
            raise Failure(f"a prefix outside: {first} {length} of {words}: {text}")
        bits |= 1 << node
    return bits


@contextlib.contextmanager
def held_still(number: int) -> Iterator[None]:
    """A process that is held still meanwhile, and may be ended by its own."""
    os.kill(number, signal.SIGSTOP)
    try:
        yield
    finally:
        with contextlib.suppress(ProcessLookupError):
            os.kill(number, signal.SIGCONT)

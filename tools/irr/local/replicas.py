"""Replicas: registries made of a public dump, each served by a process of its own at a port that
stays."""
import contextlib
import hashlib
import json
import os
import re
import shutil
import signal
import socketserver
import subprocess
import threading
import time
from pathlib import Path
from typing import Any, Callable, Iterator

from irr.errors import Failure
from irr.local import databases, program
from irr.local.temporary_registry import Loadable
from irr.local.databases import Copy
from irr.registry import answers
from irr.registry.server import Server
from irr.rpsl import syntax
from irr.system import files, units
from irr.terminal import texts

# Seconds until a replica answers; until a proxy asked the agent; and until a peer that is being
# served has its answer.
OPENING, ASKING, SERVING = 600, 10, 160
# After how many seconds replicas that ended are started once more.
AGAIN = 1
# The states in /proc/net/tcp of a connection that has an end open towards its peer: established,
# half made, and closed by the peer alone.
CONNECTED = ("01", "03", "08")


class Made:
    """A dump that was fetched, and the registry that was made of it, in a folder. The time of the
    dump's file is when the registry was last seen to have it."""

    def __init__(self, folder: Path) -> None:
        self.folder, self.dump, self.store = folder, folder / "dump.rpsl", folder / "irr.db"

    def digest(self) -> str:
        return digest(self.dump)

    def seen(self, at: float | None = None) -> float:
        """When the registry was seen to have it, in seconds since 1970; or sets that."""
        if at is not None:
            os.utime(self.dump, (at, at))
        return self.dump.stat().st_mtime


# Makes a registry in a folder; None where its dump would have the digest that is known.
Maker = Callable[[Path, str], Made | None]


def digest(path: Path) -> str:
    with open(path, "rb") as file:
        return hashlib.file_digest(file, "sha256").hexdigest()


def make(place: Server, limit: int, work: Path, known: str) -> Made | None:
    """Fetches the public dump, and makes a registry of it whose own public dump is the same bytes;
    None if the dump is the known one."""
    made = Made(work)
    files.put(made.dump, place.dump(), files.PRIVATE)
    if made.digest() == known:
        return None
    first = next(databases.blocks_of(made.dump))
    source = answers.source_of(first[:-1], place.url)
    loadable, seen = work / "loadable.rpsl", work / "seen.rpsl"
    texts_of = (block.text + b"\n" for block in blocks(made.dump))
    taken = Loadable(texts_of, place=place.url)
    files.put(loadable, taken, files.PRIVATE)
    copy = Copy(
        work,
        program.SETTINGS.format(source=source, root="ROOT-MNT", auth=program.AUTH, limit=limit),
    )
    copy.load(loadable)
    taken.add_rest(copy.store)
    copy.dump(seen)
    if not databases.same(made.dump, seen):
        raise Failure(
            place.url,
            "a registry of its dump has other objects than it; take the same irrdesk for both",
        )
    loadable.unlink()
    seen.unlink()
    return made


def blocks(path: Path) -> Iterator[syntax.Block]:
    with open(path, "rb") as file:
        yield from syntax.blocks(syntax.chunks(file))


class Replica:
    """A process that serves a copy of what was made at a port."""

    def __init__(self, folder: Path, port: int) -> None:
        self.folder, self.next, self.port = folder / str(port), folder / f"{port}.next", port
        self.program = program.find()
        self.process: "subprocess.Popen[bytes] | None" = None
        # The digest of the dump that it serves, and when the registry was seen to have that.
        self.state, self.seen, self.coming = "", 0.0, ("", 0.0)

    def prepare(self, made: Made) -> None:
        """Copies what was made, beside what is served."""
        shutil.rmtree(self.next, ignore_errors=True)
        self.next.mkdir()
        for name in "irr.db", "irr.db-wal", "irr.toml":
            if (made.folder / name).exists():
                databases.copied(made.folder / name, self.next / name)
        self.coming = made.digest(), made.seen()

    def start(self) -> None:
        """Serves the copy that was prepared, and waits until it answers."""
        if self.next.exists():
            shutil.rmtree(self.folder, ignore_errors=True)
            os.rename(self.next, self.folder)
        words = [
            self.program,
            "serve",
            "irr.toml",
            "--port",
            str(self.port),
            "--count",
            str(program.MOST_CONNECTIONS),
        ]
        self.process = subprocess.Popen(
            words,
            cwd=self.folder,
            stdin=subprocess.DEVNULL,
            stdout=subprocess.PIPE,
            stderr=subprocess.PIPE,
            env=program.THRESHOLD | os.environ,
            preexec_fn=program.bound(),
        )
        try:
            program.wait_for_line(self.process, OPENING)
            Server(f"http://127.0.0.1:{self.port}").query("ROOT-MNT")
            self.state, self.seen = self.coming
        except Failure as failure:
            self.kill()
            raise Failure(f"replica at port {self.port}", f"it does not serve: {failure}") from None

    @property
    def has_ended(self) -> bool:
        return self.process is None or self.process.poll() is not None

    def end(self, seconds: float = SERVING) -> None:
        """Ends the process while nobody is connected, so that no answer is cut; after these seconds
        in any case."""
        end = time.monotonic() + seconds
        while not self.has_ended and time.monotonic() < end:
            self.process.send_signal(signal.SIGSTOP)  # type: ignore[union-attr]  # it runs
            if not is_connected(self.port):
                break
            self.process.send_signal(signal.SIGCONT)  # type: ignore[union-attr]  # it runs
            time.sleep(0.005)
        self.kill()

    def last_words(self) -> str:
        """How a process that has ended did, and what it reported."""
        if not self.process:
            return ""
        reported = self.process.communicate()[1].decode("utf-8", "replace").strip()
        return f" with status {self.process.returncode}" + (f", {reported}" if reported else "")

    def kill(self) -> None:
        if self.process:
            self.process.kill()
            self.process.communicate()
            self.process = None


def is_connected(port: int) -> bool:
    """Whether a peer is connected to a port of this machine."""
    with open("/proc/self/net/tcp", encoding="ascii") as lines:
        fields = (line.split() for line in lines)
        return any(field[1].endswith(f":{port:04X}") and field[3] in CONNECTED for field in fields)


class Agent:
    """What a door, or HAProxy (`agent-check`), asks before it hands a connection to a replica: a
    line `state` is answered by what `report` gives, in JSON, and a line with a replica's port by
    `ready`, or by `drain` while that replica is about to end."""

    def __init__(self, port: int) -> None:
        self.report: Callable[[], dict[str, Any]] = dict
        self.draining: set[int] = set()
        self.heard: set[int] = set()
        agent = self

        class Handler(socketserver.StreamRequestHandler):
            timeout = 2

            def handle(self) -> None:
                with contextlib.suppress(OSError):
                    self.wfile.write(agent.word(self.rfile.readline(16)))

        class Listener(socketserver.ThreadingTCPServer):
            allow_reuse_address, daemon_threads = True, True

        try:
            self.listener = Listener(("127.0.0.1", port), Handler)
        except OSError as error:
            raise Failure(
                f"port {port}",
                f"the agent cannot listen: {error.strerror}; give another one by --agent",
            ) from None
        threading.Thread(target=self.listener.serve_forever, daemon=True).start()

    def word(self, line: bytes) -> bytes:
        if line.strip() == b"state":
            self.heard |= self.draining
            return json.dumps(self.report()).encode() + b"\n"
        port = int(line) if line.strip().isdigit() else 0
        if port in self.draining:
            self.heard.add(port)
            return b"drain\n"
        return b"ready\n"

    def drain(self, port: int) -> None:
        """Waits until the proxy has heard that a replica takes no more."""
        self.heard.discard(port)
        self.draining.add(port)
        end = time.monotonic() + ASKING
        while port not in self.heard and time.monotonic() < end:
            time.sleep(0.02)
        # The proxy has still to read it.
        time.sleep(0.1)

    def ready(self, port: int) -> None:
        self.draining.discard(port)

    def close(self) -> None:
        self.listener.shutdown()
        self.listener.server_close()


class Keeper:
    """The replicas of a folder, and what they serve; what is reported of them begins with
    `name`."""

    def __init__(
        self,
        folder: Path,
        ports: list[int],
        agent: Agent | None,
        pause: float,
        name: str = "irr mirror",
    ) -> None:
        self.folder, self.agent, self.pause, self.name = folder, agent, pause, name
        self.made, self.old = Made(folder / "made"), folder / "made.old.next"
        self.replicas = [Replica(folder, port) for port in ports]
        self.known, self.later = "", 0.0
        # Why the last renewal failed, and what else a door gets.
        self.fault = ""
        self.more: dict[str, Any] = {}
        if agent:
            agent.report = self.report

    def report(self) -> dict[str, Any]:
        """What a door gets: each replica with the state that it serves, and when the registry
        was seen to have that state; and why none can be renewed."""
        draining = self.agent.draining if self.agent else set()
        return {
            "replicas": [
                {
                    "port": one.port,
                    "ready": one.port not in draining and not one.has_ended,
                    "state": one.state[:16],
                    "seen": one.seen,
                }
                for one in self.replicas
            ],
            "fault": self.fault,
            **self.more,
        }

    def since(self) -> str:
        """Since when the replicas have not been renewed, in words."""
        return texts.since(one.seen for one in self.replicas) or ", and there are none"

    def settle(self) -> None:
        """Lets what was made before stand where it is looked for, also after a stop within a
        renewal."""
        if self.old.exists() and not self.made.folder.exists():
            os.rename(self.old, self.made.folder)
        for left in self.folder.glob("*.next"):
            shutil.rmtree(left)

    def start(self, limit: int) -> None:
        """Serves what was made before, if anything was, so that replicas answer while there is no
        primary."""
        self.settle()
        if not self.made.store.exists():
            return
        settings = self.made.folder / "irr.toml"
        text = re.sub("limit = [0-9]+", f"limit = {limit}", settings.read_text(encoding="ascii"))
        files.put(settings, text.encode("ascii"), files.PRIVATE)
        for replica in self.replicas:
            replica.prepare(self.made)
            replica.start()
        self.known = self.made.digest()

    def keep(self, make: Maker, limit: int, every: float) -> None:
        """Goes on until a signal ends it. A failure is reported each time, and the replicas go on
        with what they have."""
        self.attempt(lambda: self.start(limit))
        next_time = time.monotonic()
        while True:
            if time.monotonic() >= next_time:
                if self.attempt(lambda: self.renew(make), is_renewal=True):
                    line = f"{self.name}: the replicas have {counted(self.made)}"
                    print(texts.shown_line(line), flush=True)
                next_time = time.monotonic() + every
            self.attempt(self.revive)
            time.sleep(0.2)

    def attempt(self, do: Callable[[], object], is_renewal: bool = False) -> bool:
        """What a step gives; a failure of it is one line, and nothing. Why a renewal failed is
        remembered."""
        try:
            done = bool(do())
        except Failure as failure:
            fault = str(failure)
        except OSError as error:
            words = (error.strerror or str(error)).lower()
            fault = f"{error.filename or 'a file'}: {words}; the replicas go on as they are"
        else:
            if is_renewal:
                self.fault = ""
                units.notify(f"STATUS={self.status}")
            return done
        if is_renewal:
            self.fault = fault
            units.notify(f"STATUS=NOT RENEWED{self.since()}: {texts.shown_line(fault)}")
        texts.note(f"{self.name}: {fault}")
        return False

    @property
    def status(self) -> str:
        """What is printed of replicas that were renewed, on a line."""
        return "the replicas have what the registry has"

    def renew(self, make: Maker) -> bool:
        """Lets the replicas serve what is made now. Whether that differs from before."""
        self.settle()
        work, now = self.folder / "made.next", time.time()
        work.mkdir()
        try:
            made = make(work, self.known)
            if made is None:
                self.made.seen(now)
                # What was made before may have failed at one of them, after others had it.
                self.roll(self.made, [one for one in self.replicas if one.state != self.known])
                for one in self.replicas:
                    one.seen = now
                return False
            made.seen(now)
            self.roll(made, self.replicas)
            if self.made.folder.exists():
                os.rename(self.made.folder, self.old)
            os.rename(work, self.made.folder)
            files.sync_folder(self.folder)
            self.known = self.made.digest()
            shutil.rmtree(self.old, ignore_errors=True)
            return True
        finally:
            shutil.rmtree(work, ignore_errors=True)

    def roll(self, made: Made, wanted: list[Replica]) -> None:
        """Starts one replica after the other on what was made. If one fails, it goes back to what
        it served, and the others stay. Before the next one ends, a proxy has time to see that the
        one before answers again."""
        for number, replica in enumerate(wanted):
            replica.prepare(made)
            if not replica.has_ended:
                time.sleep(self.pause if number else 0)
                if self.agent:
                    self.agent.drain(replica.port)
            replica.end()
            try:
                replica.start()
            except Failure:
                if self.made.store.exists():
                    replica.prepare(self.made)
                    replica.start()
                raise
            finally:
                if self.agent:
                    self.agent.ready(replica.port)

    def revive(self) -> None:
        """Starts the replicas again that have ended, by their count or a fault."""
        for replica in self.replicas:
            if self.known and replica.has_ended and time.monotonic() > self.later:
                self.later = time.monotonic() + AGAIN
                texts.note(
                    f"{self.name}: replica at port {replica.port}:"
                    f" it has ended{replica.last_words()}; "
                    "it is started again"
                )
                replica.start()

    def end(self) -> None:
        """Ends the replicas, and tidies up where a renewal was cut off."""
        for replica in self.replicas:
            replica.end(2)
        with contextlib.suppress(OSError):
            self.settle()


def counted(made: Made) -> str:
    """What is printed of a dump that the replicas have."""
    with open(made.dump, "rb") as file:
        file.seek(max(0, made.dump.stat().st_size - 64))
        return texts.counted(int(file.read().rpartition(b"% end ")[2]), "object")

"""`irr` ended by SIGKILL at its steps and at moments of chance: nothing half is served or kept, and
the next run goes on by itself."""

import contextlib
import errno
import gzip
import itertools
import os
import re
import shutil
import signal
import subprocess
import sys
import time
from collections.abc import Callable, Iterator
from pathlib import Path
from typing import Any, NamedTuple

import pytest

from checks.keeping import (
    PATIENCE,
    is_served,
    running,
    reported_by,
    state,
    wait_until,
    whois_answer,
)
from checks.running import Failure, Tell, Trial, expect, needs, write_settings
from checks.serving import free_port
from checks.tool.forking import begun, forked, run_forked
from checks.worlds import Tool, World, items
from irr.local import program, replicas
from irr.local.history import Repository
from irr.local.serials import Serials
from irr.local.temporary_registry import TemporaryRegistry
from irr.main import leave

IN_MEMORY, SECONDS = True, 40
# What a command does to files, and the programs that it starts: it is ended before one of these.
STEPS = {
    "os.rename",
    "os.remove",
    "os.mkdir",
    "os.rmdir",
    "os.chmod",
    "os.utime",
    "subprocess.Popen",
}
WRITES = os.O_WRONLY | os.O_RDWR | os.O_CREAT
# The public changes from the first state to the other one.
CHANGES = 41
# What a history has only while somebody works in it.
LEFT = re.compile(r"(^|/)(\.|fetched|tmp_|fast_import)|\.lock$")
ASKED = [b"10.0.0.1", b"more 10.0.0.0/8", b"inverse mnt ROOT-MNT"]


class Places(NamedTuple):
    """What was made of a first state of the registry, which has come to another one since."""

    world: World
    tool: Tool
    first: Path
    full: bytes
    port: int
    answers: list[list[bytes]]


@pytest.fixture(scope="module", name="places")
def places_fixture(trial: Trial, tool: Tool) -> Iterator[Places]:
    first = Path(trial.place("first"))
    with World(trial, tool, "registry", b"password: bc\n\n" + b"\n".join(items(300))) as world:
        own = world.tool.at(IRR_HISTORY=str(first / "history"), TMPDIR=trial.place("own-temporary"))
        done(own, "export", str(first / "export"))
        done(own, "history", str(first / "history"))
        done(own, "export", "--history", str(first / "history"), str(first / "serials"))
        write_settings(world.folder, os.path.join(world.folder, "irr.db"), name="whole.toml")
        settings = os.path.join(world.folder, "whole.toml")
        done(own, "backup", "--settings", settings, str(first / "backup"))
        port = free_port()
        with mirroring(own, ["-s", world.url], first / "mirror", port) as reported:
            # It is kept only once it is served.
            wait_until(
                "what is made", PATIENCE, lambda: "the replicas have" in reported_by(reported)
            )
        answers = [answered(world.server.port)]
        added = items(299 + CHANGES)[300:]
        text = b"\n".join([b"password: bc\n", *added, b"inetnum: 10.0.0.0/27\ndelete: x\n"])
        done(own, "submit", "-", stdin=text)
        answers.append(answered(world.server.port))
        full = trial.run(world.copy("held"), "dump", "s.toml", "--full").printed
        yield Places(world, own, first, full, port, answers)


def done(tool: Tool, *words: str, **options: Any) -> None:
    ran = tool(*words, **options)
    expect((ran.status, b"Traceback" in ran.reported), (0, False), f"{words}: {ran.reported!r}")


def answered(port: int) -> list[bytes]:
    return [whois_answer(port, query) for query in ASKED]


@contextlib.contextmanager
def mirroring(tool: Tool, words: list[str], folder: Path, port: int) -> Iterator[str]:
    """A mirror while the block runs: where it says what."""
    reported = f"{folder}.reported"
    command = [sys.executable, tool.path, "mirror", "--port", str(port), "--every", "1", *words]
    with running([*command, str(folder)], reported, env=tool.environment):
        yield reported


def end_before(step: int, by: int, counted: int = -1) -> None:
    """Has this process end by a signal before its step of this number. Each step is a byte of the
    file in which they are counted, if there is one."""
    seen, own = 0, os.getpid()

    def hook(event: str, args: tuple[Any, ...]) -> None:
        nonlocal seen
        is_step = event in STEPS or event == "open" and isinstance(args[2], int)
        if not is_step or event == "open" and not args[2] & WRITES or os.getpid() != own:
            return
        seen += 1
        if counted >= 0:
            os.write(counted, b".")
        if seen == step:
            os.kill(own, by)

    sys.addaudithook(hook)


class Kills:
    """Runs of one command, each in a copy of a folder, which are ended at steps and moments."""

    def __init__(
        self,
        trial: Trial,
        tool: Tool,
        name: str,
        few: int,
        prepare: Callable[[Path], object] = lambda folder: None,
    ) -> None:
        self.trial, self.tool, self.name, self.prepare = trial, tool, name, prepare
        self.chance, self.killed = trial.chance(f"killed {name}"), 0
        self.few = trial.count or trial.pick(few, 40 * few)
        # What ends a run that does not end by itself.
        self.stops: Callable[[int], object] = lambda number: None

    def each(self, first: Path, words: list[str]) -> Iterator[Path]:
        """The folder after each run that was ended; `{}` in a word is the folder."""
        whole = self.copied(first, "whole")
        counted = whole.with_name("counted")
        begun_at = time.monotonic()
        number = self.stepping(whole, words, 0, counted)
        try:
            self.stops(number)
        except BaseException:
            os.kill(number, signal.SIGKILL)
            raise
        finally:
            status = self.ended(number)
        expect(status in (0, -9), True, f"{words}")
        seconds, steps = time.monotonic() - begun_at, counted.stat().st_size
        shutil.rmtree(whole)
        taken = [*range(1, steps + 1)]
        if len(taken) > self.few and not self.trial.long:
            taken = sorted(self.chance.sample(taken, self.few))
        for step in taken:
            folder = self.copied(first, f"step-{step}")
            status = self.ended(self.stepping(folder, words, step))
            # A run may have a step less than the one that was counted.
            expect(status in (0, -9), True, f"status {status} at step {step} of {steps}")
            self.killed += status == -9
            yield folder
            shutil.rmtree(folder)
        expect(2 * self.killed > len(taken), True, f"whether most of {len(taken)} runs were ended")
        for turn in range(self.few):
            folder, moment = self.copied(first, f"moment-{turn}"), self.chance.random() * seconds
            self.killed += self.ended(self.timed(folder, words, moment)) == -9
            yield folder
            shutil.rmtree(folder)

    def copied(self, first: Path, name: str) -> Path:
        folder = Path(self.trial.place(f"{self.name}-{name}")) / "it"
        shutil.copytree(first, folder)
        self.prepare(folder)
        return folder

    def stepping(
        self, folder: Path, words: list[str], step: int, counted: Path | None = None
    ) -> int:
        """A fork that ends before its step of this number; without one it counts them."""
        out = os.open(counted, os.O_WRONLY | os.O_CREAT) if counted else -1
        with open(os.devnull, "r+b") as nothing:
            number = begun(
                given(words, folder),
                self.tool.environment,
                [nothing.fileno()] * 3,
                lambda: end_before(step, signal.SIGKILL, out),
            )
        if counted:
            os.close(out)
        return number

    def timed(self, folder: Path, words: list[str], moment: float) -> int:
        """A fork that is ended after some seconds, with what it has started or alone."""
        with open(os.devnull, "r+b") as nothing:
            number = begun(
                given(words, folder), self.tool.environment, [nothing.fileno()] * 3, os.setpgrp
            )
        time.sleep(moment)
        with contextlib.suppress(ProcessLookupError):
            (os.killpg if self.chance.random() < 0.5 else os.kill)(number, signal.SIGKILL)
        return number

    @staticmethod
    def ended(number: int) -> int:
        return os.waitstatus_to_exitcode(os.waitpid(number, 0)[1])

    def again(self, folder: Path, words: list[str]) -> None:
        """The next run, which waits for what the killed one left at work."""
        end = time.monotonic() + PATIENCE
        while True:
            ran = run_forked(self.tool, *given(words, folder))
            waits = b"another irr works" in ran.reported or b"of this second" in ran.reported
            if not waits or time.monotonic() > end:
                return expect(
                    (ran.status, ran.reported if ran.status else b""), (0, b""), "the next run"
                )
            time.sleep(0.2)


def given(words: list[str], folder: Path) -> list[str]:
    return [word.replace("{}", str(folder)) for word in words]


def texts(folder: Path) -> dict[str, bytes]:
    """The files of a folder, but that by which it is locked."""
    return {path.name: path.read_bytes() for path in folder.iterdir() if path.name != ".lock"}


def test_an_export_is_made_whole_after_each(trial: Trial, places: Places, tell: Tell) -> None:
    words = ["export", "{}"]
    kills = Kills(trial, places.tool, "export", 6)
    first, whole = texts(places.first / "export"), exported(places, "whole-export", words)
    for folder in kills.each(places.first / "export", words):
        need_old_or_new(texts(folder), first, whole)
        kills.again(folder, words)
        expect(sorted(texts(folder)), sorted(whole), "the files of the next run")
        expect(texts(folder) == whole, True, "whether they are whole")
    tell(f"{kills.killed} ended")


def test_an_export_of_the_history_has_no_serial_before_its_dump(
    trial: Trial, places: Places, tell: Tell
) -> None:
    history = places.first.with_name("history-of-both")
    shutil.copytree(places.first / "history", history)
    done(places.tool, "history", str(history))
    words = ["export", "--history", str(history), "{}"]
    kills = Kills(trial, places.tool, "export-history", 6)
    first, whole = texts(places.first / "serials"), exported(places, "whole-serials", words)
    one, serial = "test.db.gz", "TEST.CURRENTSERIAL"
    for folder in kills.each(places.first / "serials", words):
        found = texts(folder)
        need_old_or_new(found, first, whole)
        expect(found[serial] == first[serial] or found[one] == whole[one], True, "serial and dump")
        kills.again(folder, words)
        expect(sorted(texts(folder)), sorted(whole), "the files of the next run")
        expect(texts(folder) == whole, True, "whether they are whole")
    tell(f"{kills.killed} ended")


def exported(places: Places, name: str, words: list[str]) -> dict[str, bytes]:
    """What a run gives that nobody ends."""
    folder = places.first.with_name(name)
    done(places.tool, *given(words, folder))
    return texts(folder)


def need_old_or_new(
    found: dict[str, bytes], first: dict[str, bytes], new: dict[str, bytes]
) -> None:
    """That all that has a name for readers is one of two whole files."""
    seen = {name: text for name, text in found.items() if not name.startswith(".")}
    expect(sorted(seen), sorted(new), "what readers see")
    for name, text in seen.items():
        expect(text in (first[name], new[name]), True, f"whether {name} is whole")
        if name.endswith(".gz"):
            gzip.decompress(text)


def test_a_history_has_each_change_once(trial: Trial, places: Places, tell: Tell) -> None:
    words = ["history", "{}"]
    kills = Kills(trial, places.tool, "history", 6)
    start = Serials(places.first / "history").kept()
    for folder in kills.each(places.first / "history", words):
        told = Serials(folder).now()
        expect(told is not None and told.last >= start[0], True, "the serials that are served")
        kills.again(folder, words)
        repository = Repository(folder)
        states = repository.states()
        expect(len(states), 2, "states")
        kept = Serials(folder).kept()
        expect((kept[0], kept[-1]), (start[0], start[0] + CHANGES), "serials")
        last = Serials(folder).now()
        expect(
            last and (last.commit, last.dump), (states[0].commit, states[0].dump), "the last one"
        )
        command = ["git", f"--git-dir={folder}", "fsck", "--strict", "--no-dangling"]
        reported = subprocess.run(command, capture_output=True, check=True).stdout
        names = {str(path.relative_to(folder)) for path in folder.rglob("*")} - {".lock"}
        left = sorted(filter(LEFT.search, names))
        expect((reported, left), (b"", []), "what is left")
    tell(f"{kills.killed} ended")


def test_a_backup_is_whole_or_none(trial: Trial, places: Places, tell: Tell) -> None:
    """And the server that was held still goes on."""
    settings = os.path.join(places.world.folder, "whole.toml")
    words = ["backup", "--keep", "2", "--settings", settings, "{}"]
    kills, server = Kills(trial, places.tool, "backup", 4), places.world.server.process.pid
    for number, folder in enumerate(kills.each(places.first / "backup", words)):
        wait_until("a server that was held", PATIENCE, lambda: state(server) != "T")
        kills.again(folder, words)
        names = sorted(name for name in os.listdir(folder) if name != ".lock")
        expect(len(names), 2, f"backups: {names}")
        expect([name for name in names if name.startswith(".")], [], "what is left")
        for name in names:
            need_whole(trial, folder / name, f"{number}-{name}")
        expect((folder / names[-1] / "dump.rpsl").read_bytes(), places.full, "the last dump")
    tell(f"{kills.killed} ended")


def need_whole(trial: Trial, backup: Path, name: str) -> None:
    """That the database of a backup is that of its dump."""
    expect(sorted(os.listdir(backup)), ["dump.rpsl", "irr.db", "irr.toml"], "the files of a backup")
    place = Path(trial.place(f"opened-{name}"))
    shutil.copy(backup / "irr.db", place)
    write_settings(str(place), name="irr.toml")
    ran = trial.run(str(place), "dump", "irr.toml", "--full")
    expect((ran.status, ran.printed == (backup / "dump.rpsl").read_bytes()), (0, True), "its dump")
    shutil.rmtree(place)


@needs("bird")
def test_filters_of_settings_are_old_or_new(trial: Trial, places: Places, tell: Tell) -> None:
    first, new = Path(trial.place("lists")), Path(trial.place("new-lists"))
    names = ["a.conf", "b.conf"]
    for number, name in enumerate(names):
        text = f"define L{number} = [ 10.{number}.0.0/16, 192.0.2.0/24 ];\n"
        (first / name).write_text(text)
        (new / name).write_text(text + "# made anew\n")

    def prepare(folder: Path) -> None:
        (folder / "filters.toml").write_text(
            "".join(
                f'[[filter]]\nfile = "{folder / name}"\nrouter = "bird"\n'
                f'make = "cat {new / name}"\n'
                for name in names
            )
        )

    words = ["filter", "--settings", "{}/filters.toml"]
    kills = Kills(trial, places.tool, "filter", 6, prepare)
    for folder in kills.each(first, words):
        for name in names:
            whole = [(place / name).read_bytes() for place in (first, new)]
            expect((folder / name).read_bytes() in whole, True, f"whether {name} is whole")
        kills.again(folder, words)
        expect(sorted(os.listdir(folder)), [*names, "filters.toml"], "what is left")
        for name in names:
            expect((folder / name).read_bytes(), (new / name).read_bytes(), name)
    tell(f"{kills.killed} ended")


def test_a_mirror_serves_one_of_two_states(trial: Trial, places: Places, tell: Tell) -> None:
    """Also while there is no registry; and it alone is at its port."""
    port, dead = places.port, f"http://127.0.0.1:{free_port()}"
    words = ["mirror", "-s", places.world.url, "--port", str(port), "--every", "1", "{}"]
    old, new = places.answers

    def stops(number: int) -> None:
        wait_until("the new state", PATIENCE, lambda: answered(port) == new)
        os.kill(number, signal.SIGKILL)

    kills = Kills(trial, places.tool, "mirror", 3)
    kills.stops = stops
    for folder in kills.each(places.first / "mirror", words):
        wait_until("a replica that goes on alone", PATIENCE, lambda: not is_served(port))
        for place, wanted in (dead, [old, new]), (places.world.url, [new]):
            left = folder / "made.next" / "left"
            left.parent.mkdir(exist_ok=True)
            left.touch()
            with mirroring(places.tool, ["-s", place], folder, port) as reported:
                try:
                    wait_until("a replica", PATIENCE, lambda: answered(port) in wanted)
                except Failure as failure:
                    there = sorted(str(path.relative_to(folder)) for path in folder.rglob("*"))
                    what = f"{folder.parent.name} {place}: {there} {reported_by(reported)[:2_000]}"
                    raise Failure(f"{failure}: {what}") from None
            expect(left.exists(), False, "whether what was begun before is left")
            expect(set(os.listdir(folder)), {".lock", str(port), "made"}, "what is left")
            names = set(os.listdir(folder / "made")) - {"irr.db-wal"}
            expect(names, {"dump.rpsl", "irr.db", "irr.toml"}, "what is left of what was made")
    tell(f"{kills.killed} ended")


# What a mirror has made, and what it makes next.
MADE = {"dump.rpsl": "% end 1\n", "irr.db": "old", "irr.toml": "limit = 10\n"}
NEXT = {"dump.rpsl": "% end 2\n", "irr.db": "new", "irr.toml": "limit = 10\n"}


@pytest.mark.parametrize("by", [signal.SIGTERM, signal.SIGKILL])
def test_a_mirror_that_ends_before_any_step_keeps_one_state(tmp_path: Path, by: int) -> None:
    """And leaves nothing else: at once if it may tidy up, else once the next one begins."""
    for step in itertools.count(1):
        folder = tmp_path / str(step)
        made_in(folder / "made", MADE)
        was_ended = is_ended(folder, step, by)
        if by == signal.SIGKILL:
            replicas.Keeper(folder, [], None, 0).start(10)
        left = {str(path.relative_to(folder)) for path in folder.rglob("*")}
        expect(left, {"made", *map("made/{}".format, MADE)}, f"what is left at step {step}")
        found = {name: (folder / "made" / name).read_text(encoding="ascii") for name in MADE}
        if not was_ended:
            return expect((found, step > 12), (NEXT, True), f"the state after {step - 1} steps")
        expect(found in (MADE, NEXT), True, f"whether it is one state at step {step}: {found}")


def made_in(folder: Path, texts: dict[str, str]) -> replicas.Made:
    folder.mkdir(parents=True, exist_ok=True)
    for name, text in texts.items():
        (folder / name).write_text(text, encoding="ascii")
    return replicas.Made(folder)


def is_ended(folder: Path, step: int, by: int) -> bool:
    """Whether a mirror without replicas was ended by a signal before its step of this number. It
    ends by itself once it has come to the next state."""
    keeper, nexts = replicas.Keeper(folder, [], None, 0), [NEXT]

    def mirror() -> None:
        signal.signal(signal.SIGTERM, leave)
        end_before(step, by)
        try:
            keeper.keep(lambda work, _: made_in(work, nexts.pop()) if nexts else sys.exit(), 10, 0)
        finally:
            keeper.end()

    number = forked(mirror)
    status = os.waitstatus_to_exitcode(os.waitpid(number, 0)[1])
    expect(status in (0, -by, 128 + by), True, f"status {status} at step {step}")
    return status != 0


def test_a_mirror_goes_on_where_its_folder_failed(
    tmp_path: Path, monkeypatch: pytest.MonkeyPatch
) -> None:
    """After what was made had been put away, and before what was made then had its place."""
    made_in(tmp_path / "made", MADE)
    keeper, calls, rename = replicas.Keeper(tmp_path, [], None, 0), list[Any](), os.rename
    keeper.start(10)

    def failing(*words: Any) -> None:
        calls.append(words)
        if len(calls) == 2:
            raise OSError(errno.EIO, "Input/output error")
        rename(*words)

    def fault_of(texts: dict[str, str] | None) -> str:
        """What is wrong with a renewal in which this is made, or nothing new."""
        keeper.attempt(
            lambda: keeper.renew(lambda work, _: made_in(work, texts) if texts else None),
            is_renewal=True,
        )
        return keeper.fault

    monkeypatch.setattr(os, "rename", failing)
    expect("input/output error" in fault_of(NEXT), True, f"what is wrong: {keeper.fault}")
    for texts in None, NEXT:
        expect(fault_of(texts), "", "what is wrong with the next one")
        dump = (tmp_path / "made" / "dump.rpsl").read_text(encoding="ascii")
        expect(dump, (texts or MADE)["dump.rpsl"], "the state")
    expect(os.listdir(tmp_path), ["made"], "what is left")


class Still(replicas.Replica):
    """A replica without a process, which does not start once."""

    has_ended, serves, fails = False, "", False

    def __init__(self) -> None:
        self.port, self.state, self.seen = 1, "", 0.0

    def prepare(self, made: replicas.Made) -> None:
        self.text, self.coming = made.dump.read_text(encoding="ascii"), (made.digest(), 0.0)

    def start(self) -> None:
        if self.fails:
            self.fails = False
            raise Failure("a replica does not start")
        self.serves, self.state = self.text, self.coming[0]

    def end(self, seconds: float = 0) -> None:
        pass


def test_no_replica_stays_with_what_is_no_longer_there(tmp_path: Path) -> None:
    """Where another one did not start, and the next state is that of before."""
    keeper = replicas.Keeper(tmp_path, [], None, 0)
    ones = [Still(), Still()]
    keeper.replicas = [*ones]
    for texts, serve in (MADE, [MADE, MADE]), (NEXT, [NEXT, MADE]), (MADE, [MADE, MADE]):
        ones[1].fails = texts == NEXT

        def make(work: Path, known: str) -> replicas.Made | None:
            made = made_in(work, texts)
            return made if made.digest() != known else None

        with contextlib.suppress(Failure):
            keeper.renew(make)
        found = [one.serves for one in ones]
        expect(found, [one["dump.rpsl"] for one in serve], "what they serve")


def test_a_registry_of_its_own_ends_with_it(program: str, monkeypatch: pytest.MonkeyPatch) -> None:
    monkeypatch.setenv("IRRDESK", program)
    reader, writer = os.pipe()
    number = os.fork()
    if not number:
        with contextlib.suppress(BaseException):
            with TemporaryRegistry("TEST") as made:
                made.run("init")
                with made.serve() as url:
                    os.write(writer, f"{made.folder} {url}\n".encode())
                    signal.pause()
        os._exit(1)
    os.close(writer)
    with open(reader, encoding="utf-8") as told:
        folder, url = told.readline().split()
        expect(is_served(int(url.rpartition(":")[2])), True, "whether it is served")
        expect(is_worked_in(folder), True, "whether its process is seen")
        os.kill(number, signal.SIGKILL)
        os.waitpid(number, 0)
    wait_until("a registry that goes on alone", PATIENCE, lambda: not is_worked_in(folder))
    shutil.rmtree(folder)


def is_worked_in(folder: str) -> bool:
    """Whether a process has this folder as its own."""
    for name in filter(str.isdigit, os.listdir("/proc")):
        with contextlib.suppress(OSError):
            if os.readlink(f"/proc/{name}/cwd") == folder:
                return True
    return False


def test_what_is_started_too_late_ends_at_once() -> None:
    """Its parent ended before it could be bound to that."""
    reader, writer = os.pipe()
    first = os.fork()
    if not first:
        try:
            begin, own = program.bound(), os.getpid()
            if not os.fork():
                while os.getppid() == own:
                    time.sleep(0.001)
                begin()
                os.write(writer, b"it goes on")
        except BaseException as fault:
            os.write(writer, repr(fault).encode())
        finally:
            os._exit(0)
    os.close(writer)
    os.waitpid(first, 0)
    with open(reader, "rb") as told:
        expect(told.read(), b"", "what it does")


def test_a_mirror_that_is_stopped_keeps_its_settings(
    tmp_path: Path, monkeypatch: pytest.MonkeyPatch
) -> None:
    """Those of what was made, which get another limit when it begins."""
    made = tmp_path / "made"
    made.mkdir()
    (made / "irr.db").touch()
    (made / "irr.toml").write_text("limit = 10\n", encoding="ascii")

    def stop(*_: object) -> None:
        raise KeyboardInterrupt

    monkeypatch.setattr(os, "replace", stop)
    with pytest.raises(KeyboardInterrupt):
        replicas.Keeper(tmp_path, [], None, 0).start(5)
    expect((made / "irr.toml").read_text(encoding="ascii"), "limit = 10\n", "the settings")

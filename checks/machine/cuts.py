"""What a power cut leaves of a registry: on a drive whose writes are logged, at any of them, with
and without what was not flushed."""

import os
import shutil
import subprocess
import tempfile

from checks.failing import NEVER_MADE
from checks.machine.drive import Drive, Log, done, mounted
from checks.old import old_items, write_old
from checks.running import (
    TOP,
    Failure,
    Trial,
    check_integrity,
    expect,
    memory_folder,
    short,
    write,
    write_settings,
)
from checks.sums import sum_of
from checks.texts import changing_items, last_of, summed_fronts

SIZES = [0, 0, 20, 300, 6_000]
# So many bytes between two flushes are more than an item writes: the log is written into the
# database.
CHECKPOINT = 1 << 18
# Where the state of the drive goes that a case does not take.
KEPT = os.path.join(TOP, "out", "drive-after-cut")


class Work:
    """A command that was carried out on a drive, in a folder of its own: what it is to leave, and
    what had been reported when.

    `reported` are pairs: how many lines were read, and where the log ended afterwards."""

    def __init__(self, kind: str, folder: str, begin: int) -> None:
        self.kind, self.folder, self.begin, self.end, self.reported = (
            kind,
            folder,
            begin,
            begin,
            [(0, 0)],
        )

    def reported_at(self, place: int) -> int:
        """How many lines had been reported, for certain, when the log ended there."""
        return max(lines for lines, end in self.reported if end <= place)


class Cuts:
    """All commands that write, recorded on one drive, and the states that cuts leave of it."""

    def __init__(self, trial: Trial) -> None:
        self.trial, self.folder, self.figures = trial, trial.place("drive"), ""
        self.works: list[Work] = []
        self.drive: Drive
        self.log: Log
        self.count = trial.pick(400, 20_000)
        chance = trial.chance("drive")
        self.texts = changing_items(chance, self.count, SIZES)
        self.dump = last_of(changing_items(chance, trial.pick(200, 2_000), SIZES)).dump()
        self.old = old_items(chance, trial.pick(200, 1_000))
        write(self.folder, "items.rpsl", b"\n".join(self.texts))
        write(self.folder, "dump.rpsl", self.dump)
        write_old(self.folder, self.old)
        self.fronts = summed_fronts(self.texts)
        self.wanted = {
            "load": sum_of(self.dump),
            "migrate": sum_of(self.old.dump()),
            "init": next(iter(self.fronts)),
        }

    # What is recorded.

    def record(self) -> str:
        """Carries out each command on the drive, some of them several times."""
        with Drive(self.folder) as self.drive:
            for kind, file in [("init", ""), ("load", "dump.rpsl"), ("migrate", "")]:
                for turn in range(self.trial.pick(2, 5)):
                    self.once(kind, turn, file)
            self.submit()
        self.log = Log(self.drive.log)
        flushes = sum(bool(entry[2] & 1) for entry in self.log.entries)
        return f"{self.count} items, {len(self.log.entries) - flushes} writes, {flushes} flushes"

    def place(self, name: str) -> str:
        folder = os.path.join(self.drive.place, name)
        os.makedirs(folder)
        write_settings(folder)
        return folder

    def once(self, kind: str, turn: int, file: str) -> None:
        name = f"{kind}{turn}"
        folder = self.place(name)
        if kind == "migrate":
            shutil.copy(os.path.join(self.folder, "irr.db"), folder)
        self.drive.settle()
        work = Work(kind, name, self.drive.position())
        ran = self.trial.run(
            folder, kind, "s.toml", *[os.path.join(self.folder, file)] * bool(file)
        )
        expect((ran.status, ran.reported), (0, b""), kind)
        work.end = self.drive.position()
        work.reported.append((1, work.end))
        self.works.append(work)

    def submit(self) -> None:
        folder = self.place("submit")
        expect(self.trial.run(folder, "init", "s.toml").status, 0, "init")
        self.drive.settle()
        work = Work("submit", "submit", self.drive.position())
        process = subprocess.Popen(
            [self.trial.program, "submit", "s.toml", os.path.join(self.folder, "items.rpsl")],
            cwd=folder,
            stdin=subprocess.DEVNULL,
            stdout=subprocess.PIPE,
            stderr=subprocess.DEVNULL,
        )
        lines = 0
        with process.stdout:
            while part := os.read(process.stdout.fileno(), 65_536):
                lines += part.count(b"\n")
                work.reported.append((min(lines, self.count), self.drive.position()))
        expect((process.wait(), lines), (0, self.count + 1), "the submission")
        work.end = self.drive.position()
        self.works.append(work)

    # What is cut.

    def moments(self, kind: str, count: int) -> list[tuple[int, Work]]:
        """So many moments by chance in the works of a kind, as counts of the log's entries, each
        with its work."""
        chance, found = self.trial.chance(f"cut {kind}"), []
        for work in self.works:
            if work.kind == kind or kind == "checkpoint" and work.kind == "submit":
                found += [(entries, work) for entries in self.log.within(work.begin, work.end)]
        if kind == "checkpoint":
            found = [
                (entries, work)
                for entries, work in found
                if self.log.written(entries) >= CHECKPOINT
            ]
        if not found:
            raise Failure(f"no write was seen of the kind {kind}")
        return sorted((chance.choice(found) for _ in range(count)), key=lambda moment: moment[0])

    def found_out(self) -> str:
        """That these trials find a drive out which loses what it said that it has."""
        try:
            self.cut("submit", 20, True, lies=6)
        except Failure as failure:
            return f"found out: {failure}"
        raise Failure("a drive that lies about its last six flushes passes")

    def cut(self, kind: str, count: int, is_losing: bool, lies: int = 0) -> str:
        """Cuts at moments by chance: with all that was written by then, or less some of what was
        not flushed."""
        moments, seen = self.moments(kind, count), []
        chance = self.trial.chance(f"lost {kind}") if is_losing else None
        with tempfile.TemporaryDirectory(prefix="irrdesk-", dir=memory_folder()) as folder:
            states = self.log.states(
                self.drive.base, folder, [(entries, chance) for entries, _ in moments], lies
            )
            for (entries, work), state in zip(moments, states):
                what = f"{kind}, after {entries} of {len(self.log.entries)} writes and flushes"
                try:
                    with mounted(state, self.drive.place):
                        seen.append(self.stands(work, self.log.end(entries), what))
                    done("e2fsck", "-f", "-n", state)
                except Failure as failure:
                    if lies:
                        raise
                    shutil.copy(state, KEPT)
                    raise Failure(f"{failure}; the drive is kept: {KEPT}") from failure
        if work.kind == "submit":
            return f"{count} cuts, after {min(seen)} to {max(seen)} of {self.count} items"
        return f"{count} cuts; {sum(seen)} stood whole, the others not at all"

    def stands(self, work: Work, place: int, what: str) -> int:
        """How many items of a work stand, and of another one whether it does. Behind a cut this is
        all, or a front, and what was reported."""
        folder, reported = os.path.join(self.drive.place, work.folder), work.reported_at(place)
        copy = os.path.join(self.folder, "copy")
        shutil.copytree(folder, copy)
        ran = self.trial.run(folder, "dump", "s.toml", "--full")
        stands, is_old = (
            sum_of(ran.printed),
            b"the tables of the database are of version 1" in ran.reported,
        )
        if ran.status == 0 or is_old:
            check_integrity(copy, what)
        shutil.rmtree(copy)
        if work.kind == "submit":
            expect((ran.status, ran.reported), (0, b""), f"{what}: the dump")
            found = [front for front in self.fronts.get(stands, []) if front >= reported]
            if not found:
                raise Failure(
                    f"{what}: {reported} lines were reported, and the rows are those of"
                    f" {self.fronts.get(stands)} items"
                )
            return found[0]
        if ran.status == 0:
            expect(stands == self.wanted[work.kind], True, f"{what}: whether the rows are whole")
            return True
        is_none = (
            is_old if work.kind == "migrate" else any(words in ran.reported for words in NEVER_MADE)
        )
        if ran.status != 4 or not is_none or reported:
            raise Failure(
                f"{what}: {reported} reported, status {ran.status}, {short(ran.reported)}"
            )
        self.again(work, folder, what)
        return False

    def again(self, work: Work, folder: str, what: str) -> None:
        """What does not stand is carried out again."""
        words = [os.path.join(self.folder, "dump.rpsl")] if work.kind == "load" else []
        ran = self.trial.run(folder, work.kind, "s.toml", *words)
        expect((ran.status, ran.reported), (0, b""), f"{what}: {work.kind} again")
        after = self.trial.run(folder, "dump", "s.toml", "--full")
        expect(
            sum_of(after.printed) == self.wanted[work.kind],
            True,
            f"{what}: whether the rows are whole then",
        )

"""Power cuts of a whole machine, whose registry the next boot has to serve by itself."""

import contextlib
import os
import time
from concurrent.futures import ThreadPoolExecutor

from checks.machine.guest import Given, Guest, Image, lines_in
from checks.machine.service import ASKED, AS_OWNER, EDITED, SETTINGS
from checks.running import TOP, Failure, Trial, expect
from checks.texts import changing_items, summed_fronts

SIZES = [0, 0, 20, 300, 6_000]
COUNT = 20_000
MENDED = (
    "dmesg | grep -q 'EXT4-fs (vda).*recovery complete' || grep -qs recover /run/initramfs/fsck.log"
)


class Outages:
    """A machine, which is cut, booted, looked at, and cut again."""

    def __init__(self, trial: Trial, image: Image, package: str, number: int) -> None:
        self.trial, self.image, self.folder = trial, image, trial.place(f"outages-{number}")
        self.machines, self.is_over = contextlib.ExitStack(), False
        self.disk, self.texts = os.path.join(self.folder, "disk"), changing_items(
            trial.chance("outages"), COUNT, SIZES
        )
        self.fronts, self.chance = summed_fronts(self.texts), trial.chance(f"moments {number}")
        sums = os.path.join(TOP, "checks", "sums.py")
        self.given: Given = {
            "irrdesk.deb": package,
            "items.rpsl": b"\n".join(self.texts),
            "sums": sums,
        }

    def on(self) -> Guest:
        if self.is_over:
            raise Failure("the trial is over")
        return self.machines.enter_context(
            Guest(self.image, self.folder, self.disk, self.given, ports=1)
        )

    def end(self) -> None:
        """Ends the machine, also if it is being asked."""
        self.is_over = True
        self.machines.close()

    def cut(self, count: int) -> list[tuple[int, int, bool]]:
        """So many cuts of a submission, each to a new registry, whose report goes to a port of the
        machine: of each, how many lines came, how many items stand, and whether the file system had
        to be mended."""
        seen = []
        try:
            guest = self.on()
            guest.done(
                f"apt-get install --yes /run/given/irrdesk.deb; {EDITED}; systemctl enable irrdesk"
            )
            for turn in range(count):
                reported = self.submit(guest, self.chance.randrange(self.trial.pick(1_000, COUNT)))
                guest = self.on()
                mended = guest.ended(MENDED).status == 0
                seen.append(
                    (
                        reported,
                        self.stands(guest, reported, f"cut {turn + 1}, after {reported} lines"),
                        mended,
                    )
                )
        finally:
            self.end()
        return seen

    def submit(self, guest: Guest, wanted: int) -> int:
        """Begins a submission, and cuts the power once so many lines have come; how many came."""
        guest.done(
            f"systemctl stop irrdesk; rm -f /var/lib/irrdesk/irr.db*; {AS_OWNER} irrdesk init"
            f" {SETTINGS}; sync"
        )
        guest.done(
            f"{AS_OWNER} irrdesk submit {SETTINGS} /run/given/items.rpsl > /dev/virtio-ports/told0"
            " 2> /root/reported < /dev/null &"
        )
        end = time.monotonic() + 900
        while (reported := lines_in(guest.reported[0])) < wanted:
            if self.is_over:
                raise Failure("the trial is over")
            if time.monotonic() > end:
                raise Failure(
                    f"{reported} lines came within 900 s, of {wanted}:"
                    f" {guest.ended('cat /root/reported').printed}"
                )
            time.sleep(0.02)
        guest.cut()
        return min(lines_in(guest.reported[0]), COUNT)

    def stands(self, guest: Guest, reported: int, what: str) -> int:
        """Of how many items the registry is that the service serves by itself, after the machine
        has come up again."""
        guest.until(ASKED, f"{what}: that the registry is served")
        guest.done("systemctl stop irrdesk")
        expect(
            guest.done("sqlite3 /var/lib/irrdesk/irr.db 'PRAGMA integrity_check'", seconds=600),
            "ok\n",
            f"{what}: sqlite3",
        )
        found = guest.done(
            f"{AS_OWNER} irrdesk dump {SETTINGS} --full | python3 /run/given/sums", seconds=600
        ).strip()
        stands = self.fronts.get(int(found), []) if found.isdigit() else []
        if not {reported, reported + 1} & set(stands):
            raise Failure(f"{what}: the rows are those of {stands} items ({found})")
        return reported if reported in stands else reported + 1


class Fleet:
    """Machines beside one another, which share the cuts."""

    def __init__(self, trial: Trial, image: Image, package: str, size: int, count: int) -> None:
        self.all = [Outages(trial, image, package, number) for number in range(size)]
        self.pool = ThreadPoolExecutor(size)
        self.cuts = [
            self.pool.submit(one.cut, count // size + (number < count % size))
            for number, one in enumerate(self.all)
        ]

    def seen(self) -> str:
        """What all of them saw, as words."""
        seen = [cut for cuts in self.cuts for cut in cuts.result()]
        return (
            f"{len(seen)} cuts in {COUNT} items, after {min(seen)[0]} to {max(seen)[0]};"
            f" {sum(stands > lines for lines, stands, _ in seen)} between an item and its line;"
            f" {sum(mended for _, _, mended in seen)} file systems had to be mended"
        )

    def end(self) -> None:
        for one in self.all:
            one.end()
        self.pool.shutdown()

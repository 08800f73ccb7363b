"""Worked submissions, questions and dumps, and what is right to tell and to keep of a submission in
which a call failed."""

from collections.abc import Callable
from typing import Any

from checks.heads import whole_part
from checks.model.registry import Registry, Secrets
from checks.model.text import blocks, read
from checks.running import AUTH, DIGEST, Failure, Ran, expect, is_fault, short
from checks.texts import item

PASSWORD = b"password: bc\n"
AUTH_OF = {b"A-MNT": b"SHA256-PW ab:" + DIGEST.encode(), b"B-MNT": b"SHA256-PW :" + DIGEST.encode()}
REPORT_CUT = (
    "standard output: the report could not be written, so submit the whole text again: {}; items"
    " decided before that: {}"
)
# Why a writer took no more: the system's word for it, as the program tells it.
READER_ENDED = "its reader has ended: let it read to the end"
DISK_FULL = "the disk is full: make room"
# Why a reader gave no more, where the system fails it.
NOT_READ = "input/output error: look at the disk, or take another file (system error 5)"
# Why a database refused, where its file could not be read or written.
DISK_FAILED = (
    "the disk cannot be read or written: look at its health, and keep a copy of the database"
)
STORE_FAILED = f"the database failed, so submit the whole text again: {DISK_FAILED}"
STORE_FULL = f"the database failed, so submit the whole text again: {DISK_FULL}"
SERVED_IN_VAIN = (
    "irrdesk: irr.db: the database failed, and each request is refused until the server is started"
    " again: {}\n"
)
READING_CUT = (
    "{}: the submission could not be read to its end, so submit the whole text again: {}; items"
    " decided before that: {}"
)


def opened() -> Registry:
    return Registry(auth=AUTH.encode())


def maintainer(name: bytes) -> bytes:
    return item(b"mntner", name, b"auth: %s\n" % AUTH_OF[name], name)


class Submission:
    """Texts of one paragraph each, submitted to a new registry: what is reported of each item, and
    the rows before the first and after each."""

    def __init__(self, texts: list[bytes]) -> None:
        self.texts, self.text = texts, b"\n".join(texts)
        self.registry, secrets = opened(), Secrets()
        self.words, self.dumps = [], [self.registry.dump()]
        for text in texts:
            words = self.registry.item(read(next(blocks(text))), secrets)
            if words:
                self.words.append(words)
                self.dumps.append(self.registry.dump())
        self.reports: dict[tuple[str, ...], bytes] | None = None

    def lines(self) -> list[str]:
        return numbered(self.words) + [f"% items {len(self.words)}"]

    def report(self) -> bytes:
        return "".join(line + "\n" for line in self.lines()).encode()

    def short_of_memory(self) -> dict[tuple[str, ...], bytes]:
        """Each report, with the rows that belong to it, on the submission with at most one
        paragraph refused because memory ran out."""
        if self.reports is None:
            self.reports = {tuple(self.lines()): self.dumps[-1]}
            for place in range(len(self.texts)):
                rest = Submission(self.texts[:place] + self.texts[place + 1 :])
                items = len(Submission(self.texts[:place]).words)
                key = (Submission(self.texts[: place + 1]).words[items:] or ["-: "])[0].partition(
                    ": "
                )[0]
                for name in {key, "-"}:
                    words = rest.words[:items] + [f"{name}: refused E90"] + rest.words[items:]
                    self.reports[tuple(numbered(words) + [f"% items {len(words)}"])] = rest.dumps[
                        -1
                    ]
        return self.reports

    def expect_status(self, ran: Ran, lines: list[str]) -> None:
        expect(
            (ran.status, ran.reported),
            (1 if any(": refused" in line for line in lines) else 0, b""),
            "how it ended",
        )

    # What is right where calls of a kind fail.

    def check_report(self, ran: Ran, rows: bytes, _: int) -> None:
        """That the report and the rows are the worked ones, less what memory or the database
        refused."""
        lines = lines_of(ran)
        if tuple(lines) in self.short_of_memory():
            self.expect_status(ran, lines)
            return check_rows(rows, self.short_of_memory()[tuple(lines)])
        expect(
            ran.status in (3, 4, 5) and is_fault(ran),
            True,
            f"a fault told: {ran.status}, {short(ran.reported)}, {lines}",
        )
        items = self.stopped_after(lines)
        if items is not None:
            expect(ran.status, 4, "the status")
            return check_rows(rows, self.dumps[items], self.dumps[items + 1])
        if lines not in ([], ["% memory after 0 items"]):
            raise Failure(f"the report: {lines}")
        return check_rows(rows, self.dumps[0])

    def stopped_after(self, lines: list[str]) -> int | None:
        """After how many items a report says that the database failed, or nothing."""
        items = len(lines) - 2
        if (
            items < 0
            or lines[-1] != f"% stopped after {items} items"
            or not lines[-2].endswith(": refused E91")
        ):
            return None
        expect(lines[:items], numbered(self.words)[:items], "the items before the stop")
        return items

    def check_refused(self, ran: Ran, rows: bytes, _: int) -> None:
        """With no memory from one call on: the items before, and then refusals for want of it; or a
        fault."""
        lines = lines_of(ran)
        reported = [
            line
            for line in lines
            if not line.startswith("% ") and not line.endswith((": refused E90", ": refused E91"))
        ]
        expect(reported, numbered(self.words)[: len(reported)], "the items before")
        expect(lines[: len(reported)], reported, "nothing but refusals behind")
        if not is_fault(ran):
            self.expect_status(ran, lines)
            expect(lines[-1:], [f"% items {len(lines) - 1}"], "the last line")
        stopped = any(line.endswith(": refused E91") for line in lines)
        check_rows(rows, *self.dumps[len(reported) : len(reported) + (2 if stopped else 1)])

    def check_front(self, ran: Ran, rows: bytes, _: int) -> None:
        """That the report is a front of the worked one, and the rows those of its items, or with
        the next one whole."""
        lines = ran.printed.decode().split("\n")[:-1]
        items = min(len(lines), len(self.words))
        expect(
            self.report().startswith(ran.printed),
            True,
            f"a front of the report: {short(ran.printed)}",
        )
        expect(
            ran.status in (0, 1, 5, 137), True, f"the status {ran.status}, {short(ran.reported)}"
        )
        check_rows(rows, *self.dumps[items : items + 2])

    def check_read(self, ran: Ran, rows: bytes, _: int) -> None:
        """That a submission that could not be read whole is told as the items that came."""
        lines = lines_of(ran)
        if lines == self.lines():
            return check_rows(rows, self.dumps[-1])
        expect(is_fault(ran), True, f"a fault told: {ran.status}, {short(ran.reported)}")
        items = max(len(lines) - 1, 0)
        wanted = numbered(self.words)[:items] + [f"% read fault after {items} items"]
        expect(lines in ([], wanted), True, f"the report {lines}")
        return check_rows(rows, self.dumps[items])

    def check_written(self, ran: Ran, rows: bytes, taken: int) -> None:
        """That a writer took just so many bytes of the report, and that the item whose line it was
        given last stands."""
        expect(ran.printed, self.report()[:taken], "what the writer took")
        if taken >= len(self.report()):
            self.expect_status(ran, self.lines())
            return check_rows(rows, self.dumps[-1])
        items = min(ran.printed.count(b"\n") + 1, len(self.words))
        expect(
            (ran.status, ran.reported.decode()),
            (5, f"irrdesk: {REPORT_CUT.format(DISK_FULL, items)}\n"),
            "how it ended",
        )
        return check_rows(rows, self.dumps[items])

    def check_cut(self, before: int, name: str) -> Callable[..., Any]:
        """That of a text of which just so many bytes came, behind the settings, the items count
        whose blank line came."""

        def check(ran: Ran, rows: bytes, taken: int) -> None:
            if taken <= before:
                expect(
                    (ran.status, ran.printed, is_fault(ran)),
                    (3, b"", True),
                    "settings that are cut",
                )
                return check_rows(rows, self.dumps[0])
            if taken > before + len(self.text):
                expect(ran.printed, self.report(), "the whole report")
                return check_rows(rows, self.dumps[-1])
            items = len(opened().submit(whole_part(self.text[: taken - before]))) - 1
            expect(
                lines_of(ran),
                numbered(self.words)[:items] + [f"% read fault after {items} items"],
                "the report",
            )
            expect(
                (ran.status, ran.reported.decode()),
                (5, f"irrdesk: {READING_CUT.format(name, NOT_READ, items)}\n"),
                "how it ended",
            )
            return check_rows(rows, self.dumps[items])

        return check


def lines_of(ran: Ran) -> list[str]:
    return ran.printed.decode().splitlines()


def numbered(words: list[str]) -> list[str]:
    return [f"{number} {word}" for number, word in enumerate(words, 1)]


def check_rows(rows: bytes, *wanted: bytes) -> None:
    if rows not in wanted:
        raise Failure(f"the rows: {short(rows)}")


def inetnums(*first: int) -> list[bytes]:
    return [item(b"inetnum", b"%d.0.0.0/8" % number) for number in first]


SUBMISSIONS = {
    "an inetnum": Submission([PASSWORD, *inetnums(10)]),
    "an inetnum without its password": Submission(inetnums(10)),
    "three inetnums": Submission([PASSWORD, *inetnums(10, 11, 12)]),
    "a bad key between good ones": Submission(
        [PASSWORD, *inetnums(10), item(b"inetnum", b"10.0.0.0/40"), item(b"aut-num", b"AS1")]
    ),
    "items of each class": Submission(
        [
            PASSWORD,
            item(b"mntner", b"A-MNT", b"auth: %s\n" % AUTH.encode(), b"A-MNT"),
            item(b"inetnum", b"10.0.0.0/8", b"", b"A-MNT"),
            item(b"as-block", b"AS64512 - AS65534"),
            item(b"aut-num", b"AS1", b"", b"A-MNT"),
            item(b"route", b"10.1.0.0/16", b"origin: AS1\n", b"A-MNT"),
            item(b"as-set", b"AS-ONE", b"members: AS1\n", b"A-MNT"),
            item(b"route-set", b"AS1:RS-ONE", b"members: 10.1.0.0/16^+, AS-ONE\n", b"A-MNT"),
            item(b"route", b"10.2.0.0/16", b"origin: AS2\n", b"A-MNT"),
            item(b"inetnum", b"10.0.0.0/8", b"descr: changed\n", b"A-MNT, ROOT-MNT"),
            b"as-set: AS-ONE\ndelete: x\n",
        ]
    ),
}

# A registry that is asked: two maintainers, nested inetnums, members by reference, sets that refer
# to themselves and each other.
ASKED = Submission(
    [
        b"password: bc\npassword: c\npassword: abc\n",
        maintainer(b"A-MNT"),
        maintainer(b"B-MNT"),
        item(b"inetnum", b"10.0.0.0/8"),
        item(b"inetnum", b"10.1.0.0/16", b"", b"A-MNT"),
        item(b"aut-num", b"AS1", b"member-of: AS-R\n", b"A-MNT"),
        item(b"aut-num", b"AS2", b"member-of: AS-R\n", b"B-MNT"),
        item(b"route", b"10.1.0.0/16", b"origin: AS1\n", b"A-MNT"),
        item(b"as-set", b"AS-A", b"members: AS1, AS-B\n"),
        item(b"as-set", b"AS-B", b"members: AS2 as-a AS-GONE\n"),
        item(b"as-set", b"AS-SELF", b"members: AS-SELF\n"),
        item(b"as-set", b"AS-R", b"mbrs-by-ref: A-MNT\n"),
        item(b"route-set", b"RS-C", b"members: 10.0.0.0/30, RS-C^-\n"),
        item(b"route-set", b"RS-D", b"members: RS-E^27-30\n"),
        item(b"route-set", b"RS-E", b"members: 30.0.0.0/8^24-28\n"),
    ]
)
QUERIES = [
    b"object mntner a-mnt",
    b"C-MNT",
    b"less 10.1.2.3",
    b"more 10.1.0.0/16",
    b"closest 10.1.2.0/24",
    b"exact 10.0.0.0/9",
    b"inverse mnt A-MNT",
    b"expand as-a",
    b"expand AS-SELF",
    b"expand AS-R",
    b"expand RS-C",
    b"expand RS-D",
    b"expand AS-ANY",
    b"prefixes AS-A",
    b"expand AS1",
    b"10.1.2.3",
]

# Dumps, and what is wrong with each.
DUMPS = {
    "a dump": (ASKED.dumps[-1], None),
    "a public dump": (opened().dump(full=False), "paragraph 1 is not an object: E05"),
    "a dump twice over": (opened().dump() * 2, "paragraph 5 has the key of one before it"),
    "a block alone": (
        item(b"as-block", b"AS0 - AS65535"),
        "paragraph 1 names a maintainer who is not in the dump",
    ),
}

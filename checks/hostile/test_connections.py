"""A server to which memory is refused, or whose calls fail: what it replies, and what stands."""

import os
import re
import shutil
import subprocess

import pytest

from checks.failing import NONE, Failing, number_in
from checks.heads import is_reply
from checks.hostile.sweeping import LIMIT, ask, made_registry, posted
from checks.model.queries import answer
from checks.model.registry import load
from checks.running import Each, Failure, Ran, Tell, Trial, expect, is_fault, short
from checks.serving import GIVEN, LONGEST, free_port
from checks.worked import SERVED_IN_VAIN, SUBMISSIONS, check_rows, numbered, opened

IN_MEMORY, SECONDS = True, 90


class Served:
    """A query by whois, one by HTTP, a submission and a dump, each answered, refused, or failed and
    counted so."""

    def __init__(self, trial: Trial, failing: Failing, name: str) -> None:
        self.trial, self.failing = trial, failing
        self.name, self.submission = name, SUBMISSIONS[name]
        self.base = made_registry(trial, f"served {name}")
        self.asked = [
            b"object mntner root-mnt\r\n",
            b"GET /query/exact%200.0.0.0%2F0 HTTP/1.1\r\nHost: localhost\r\n\r\n",
            posted(self.submission.text),
            b"GET /dump HTTP/1.1\r\n\r\n",
        ]
        self.whois = answer(opened(), b"object mntner root-mnt", LIMIT)
        self.page = GIVEN + answer(opened(), b"exact 0.0.0.0/0", LIMIT)

    def sweep(self, kind: str, how: str) -> str:
        counted = os.path.join(self.trial.work, f"count {kind} {how}")
        self.serve(kind, how, NONE, counted)
        count = number_in(counted)
        if count == 0:
            raise Failure(f"no call of the kind {kind} was met")
        taken = self.failing.numbers(count, f"served {self.name} {kind} {how}", how, 12)
        for number in taken:
            try:
                self.serve(kind, how, number)
            except (OSError, Failure) as failure:
                raise Failure(f"{kind}:{how}:{number} of {count}: {failure!r}") from failure
        return f"{len(taken) - 1} of {count} {'bytes' if how == 'take' else 'calls'}"

    def serve(self, kind: str, how: str, number: int, counted: str = "/dev/null") -> None:
        folder, port = self.failing.copied(self.base, f"served {number}"), free_port()
        process = subprocess.Popen(
            [
                self.trial.program,
                "serve",
                "s.toml",
                "--port",
                str(port),
                "--count",
                str(len(self.asked)),
            ],
            cwd=folder,
            stdout=subprocess.PIPE,
            stderr=subprocess.PIPE,
            env=self.failing.environment(kind, how, number, counted),
        )
        try:
            replies = [ask(port, text) for text in self.asked] if process.stdout.readline() else []
            printed, reported = process.communicate(timeout=LONGEST)
            self.failing.reported.add(reported)
            self.check(
                kind,
                how,
                Ran(process.returncode, printed, reported, 0.0, 0),
                replies,
                self.failing.rows_of(folder),
            )
            if number == NONE:
                right = [
                    self.whois,
                    self.page,
                    GIVEN + self.submission.report(),
                    GIVEN + self.submission.registry.dump(full=False),
                ]
                expect(replies, right, "the replies where no call failed")
        finally:
            process.kill()
            process.communicate()
            shutil.rmtree(folder)

    def check(self, kind: str, how: str, ran: Ran, replies: list[bytes], rows: bytes) -> None:
        if not replies:
            expect(
                (ran.status in (3, 4, 5), is_fault(ran)),
                (True, True),
                f"a start that failed: {ran.status}, {short(ran.reported)}",
            )
            return check_rows(rows, self.submission.dumps[0])
        stopped = b"% stopped after" in replies[2] or kind == "disk" and is_unavailable(replies[3])
        expect(
            (ran.status, len(FAILED.findall(ran.reported)), FAILED.sub(b"", ran.reported)),
            (0, int(stopped), b""),
            "how serve ended",
        )
        served, failed = (
            int(word)
            for word in ran.printed.decode().replace("served", "").replace("failed", "").split(",")
        )
        expect(served + failed, len(self.asked), "the turns counted")
        if kind in ("memory", "disk"):
            expect(failed, 0, "the turns that failed where no call of a connection did")
        if how == "once":
            expect(failed <= 1, True, f"whether one turn at most failed of {failed}")
        found = self.cut(kind, replies, GIVEN + load(rows, b"TEST").dump(full=False))
        expect(found, failed, "the replies that were cut off, and the turns that failed")
        return self.check_posted(replies[2], rows)

    def cut(self, kind: str, replies: list[bytes], dump: bytes) -> int:
        """How many replies were cut off. Each is the front of a right one: what was asked, or an
        error where memory or the database failed. A dump for which memory ran out ends early, and
        its turn did not fail."""
        errors = [b"% error 4\n"] if kind == "memory" else []
        found = 0
        for place, whole in [
            (0, [self.whois, *errors]),
            (1, [self.page, *(GIVEN + error for error in errors)]),
            (3, [dump]),
        ]:
            reply = replies[place]
            if place in UNAVAILABLE[kind] and is_unavailable(reply):
                continue
            expect(is_front(reply, *whole), True, f"reply {place + 1}: {short(reply)}")
            is_short = kind == "memory" and place == 3 and reply.startswith(GIVEN)
            found += reply not in whole and not is_short
        if 2 in UNAVAILABLE[kind] and is_unavailable(replies[2]):
            return found
        return found + (ENDED.search(replies[2]) is None)

    def check_posted(self, reply: bytes, rows: bytes) -> None:
        """That the rows are those of the report: whole, less what memory or the database refused,
        or cut off by a failed write, and then the item of the line that was not told stands too.
        Where the head is not whole, nothing was submitted."""
        row = self.submission
        if len(reply) < len(GIVEN) or is_unavailable(reply):
            expect(
                GIVEN.startswith(reply) or is_unavailable(reply), True, f"the reply {short(reply)}"
            )
            return check_rows(rows, row.dumps[0])
        lines = reply[len(GIVEN) :].decode().split("\n")[:-1]
        if tuple(lines) in row.short_of_memory():
            return check_rows(rows, row.short_of_memory()[tuple(lines)])
        items = row.stopped_after(lines)
        if items is not None:
            return check_rows(rows, *row.dumps[items : items + 2])
        reported = [line for line in lines if not line.startswith("%")]
        expect(reported, numbered(row.words)[: len(reported)], "the lines reported")
        if len(lines) > len(reported):
            ends = [f"% {fault} after {len(reported)} items" for fault in ("read fault", "memory")]
            expect(
                lines[len(reported) :] in ([end] for end in ends),
                True,
                f"the end of the report: {lines[len(reported):]}",
            )
            return check_rows(rows, row.dumps[len(reported)])
        return check_rows(rows, row.dumps[min(len(reported) + 1, len(row.words))])


# Which replies, by their places, may be 503: where memory is refused, and of the dump once the
# database failed.
UNAVAILABLE = {"memory": (1, 2, 3), "disk": (3,), "peer": ()}
# What a server says whose database failed.
FAILED = re.compile(re.escape(SERVED_IN_VAIN).replace(r"\{\}", "[^\n]+").encode())
# How a report ends that was written whole, of a text that was read whole.
ENDED = re.compile(rb"\n(?:% items|% stopped after|% memory after) [^\n]*\n\Z")


def is_unavailable(reply: bytes) -> bool:
    return is_reply(reply) and reply.startswith(b"HTTP/1.1 503 ")


def is_front(reply: bytes, *whole: bytes) -> bool:
    """Whether a reply, which may have been cut off, is the front of one of these."""
    return any(text.startswith(reply) for text in whole)


@pytest.mark.parametrize("name", ["a bad key between good ones", "items of each class"])
def test_a_server_tells_what_stands(trial: Trial, failing: Failing, name: str, each: Each) -> None:
    served = Served(trial, failing, name)
    for kind, how in [("memory", "once"), ("disk", "once"), ("peer", "once"), ("peer", "take")]:
        with each(f"serve, {name}, {kind} {how}"):
            served.sweep(kind, how)


def test_each_line_that_was_reported_is_of_the_page(failing: Failing, tell: Tell) -> None:
    tell(failing.reported_is_of_the_page())

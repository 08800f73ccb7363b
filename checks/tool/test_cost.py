"""What a query, a long submission and the guard of filters cost."""

import os
import sys
import tempfile
import time
from collections.abc import Callable

import pytest

from checks.running import Tell, Trial, expect, run, write
from checks.worlds import Tool, World, answering, items
from irr.filters.lists import losses

IN_MEMORY = True


# What a figure may take: a query beside a local server, and a submission beside that of the program
# itself.
QUERY_SECONDS, QUERY_TIMES, SUBMIT_TIMES, ITEM_TIMES = 0.15, 1.8, 1.2, 1 / 800
# The most queries that are asked to see the least that one takes.
QUERIES = 40


def test_a_query_and_a_long_submission_take_no_longer_than_they_may(
    trial: Trial, tool: Tool, tell: Tell
) -> None:
    """What a query takes beside a local server, and a long submission beside that of the program.
    In the long form by the clock, on a disk, for which the machine is to be idle; in the short one
    by the processor's time, against that of Python for the modules that a query can't do
    without."""
    with tempfile.TemporaryDirectory(
        prefix="irrdesk-", dir=None if trial.long else trial.work
    ) as folder:
        tell(measured(tool, trial, folder))


def modules(folder: str) -> float:
    """The processor's seconds of Python for the modules that a query can't do without."""
    return run([sys.executable, "-c", "import argparse, http.client"], folder).seconds


def measured(tool: Tool, trial: Trial, folder: str) -> str:
    with World(trial, tool, os.path.join(folder, "query")) as world:
        clock, processor, least = [], [], []
        for turn in range(1, QUERIES + 1):
            start = time.monotonic()
            ran = run(
                [sys.executable, tool.path, "query", "AS64496"],
                world.folder,
                environment=world.tool.environment,
            )
            expect((ran.status, ran.reported), (0, b""), "a query")
            clock.append(time.monotonic() - start)
            processor.append(ran.seconds)
            least.append(modules(folder))
            is_cheap = min(processor) < QUERY_TIMES * min(least)
            if is_cheap and turn >= trial.pick(8, QUERIES):
                break
        if trial.long:
            expect(
                min(clock) < QUERY_SECONDS,
                True,
                f"whether a query takes {min(clock):.3f} s of {QUERY_SECONDS}",
            )
        expect(
            is_cheap,
            True,
            f"whether {min(processor):.3f} s are {QUERY_TIMES} times {min(least):.3f} s at most",
        )
    told = (
        f"a query takes {1_000 * min(clock):.0f} ms by the clock, {1_000 * min(processor):.0f} of"
        f" the processor, {min(processor) / min(least):.2f} times what its modules take"
    )
    world = World(trial, tool, os.path.join(folder, "served"))
    plain_folder = world.copy(os.path.join(folder, "plain"))
    count, tries = trial.pick((3_000, 5), (100_000, 1))
    paragraphs, submissions = items(count * tries), []
    with world:
        # Each try adds other items: the cheapest one counts, as what the modules take at their
        # cheapest does.
        for first in range(0, len(paragraphs), count):
            text = b"password: bc\n\n" + b"\n".join(paragraphs[first : first + count])
            path = write(world.folder, "long.rpsl", text)
            start = time.monotonic()
            wanted = trial.run(plain_folder, "submit", "s.toml", path, timeout=3_600)
            alone_seconds = time.monotonic() - start
            start = time.monotonic()
            ran = run(
                [sys.executable, tool.path, "submit", path],
                folder,
                environment=world.tool.environment,
                timeout=3_600,
            )
            seconds = time.monotonic() - start
            expect((ran.status, ran.printed == wanted.printed), (0, True), "the report")
            submissions.append(ran.seconds)
            least.append(modules(folder))
            each = (min(submissions) - min(processor)) / count
            if each < ITEM_TIMES * min(least):
                break
    if not trial.long:
        expect(
            each < ITEM_TIMES * min(least),
            True,
            f"whether an item takes {1_000_000 * each:.0f} us of the processor",
        )
    else:
        expect(
            seconds < SUBMIT_TIMES * alone_seconds,
            True,
            f"whether {seconds:.1f} s are {SUBMIT_TIMES} times {alone_seconds:.1f} s at most",
        )
    return (
        f"{told}; {count:,} items {seconds:.2f} s, {min(submissions):.2f} of the processor, each"
        f" 1/{min(least) / each:.0f} of the modules; by irrdesk submit {alone_seconds:.2f} s"
    )


# The lines of a list, and how many times the time of a short one a list may take that is LONGER
# times as long.
SHORT, LONGER, TIMES = 1_000, 8, 20
LISTS = {
    "frr": "ip prefix-list C permit {}\n",
    "frr access": "access-list C permit {}\n",
    "bird": "C = [ {} ];\n",
    "openbgpd": "allow from any prefix {}\n",
}
# Those of FRR that are removed from the end of a list, so many and LONGER times as many.
FEW = 2_000
REMOVED = {
    "prefixes": "ip prefix-list C permit 10.{}.{}.0/24\n",
    "paths": "bgp as-path access-list C permit ^{}_{}$\n",
}


@pytest.mark.parametrize("kind", list(LISTS))
def test_the_guard_of_filters_takes_time_by_the_length_of_a_list(kind: str, tell: Tell) -> None:
    """Each hour it compares lists of hundreds of thousands of entries."""

    def took(count: int) -> float:
        prefixes = (f"10.{number >> 8}.{number & 255}.0/24" for number in range(count))
        text, begun = "".join(map(LISTS[kind].format, prefixes)), time.process_time()
        expect(sum(one.lost for one in losses(kind.split()[0], text, text)), 0, "what is lost")
        return time.process_time() - begun

    compare(SHORT, took, tell)


@pytest.mark.parametrize("kind", list(REMOVED))
def test_the_guard_takes_time_by_the_number_of_removals_from_an_end(kind: str, tell: Tell) -> None:
    def took(count: int) -> float:
        lines = [REMOVED[kind].format(number >> 8, number & 255) for number in range(count)]
        text, begun = "".join(lines + [f"no {line}" for line in lines[:0:-1]]), time.process_time()
        expect(losses("frr", text, text), [("C", 0, 1)], "what is lost of the first line")
        return time.process_time() - begun

    compare(FEW, took, tell)


def compare(count: int, took: Callable[[int], float], tell: Tell) -> None:
    """Looks at the time of so many lines, and at that of LONGER times as many."""
    times = float("inf")
    for _ in range(5):
        short = took(count)
        times = min(times, took(LONGER * count) / short)
        if times < TIMES:
            break
    tell(f"{count:,} lines take {1_000 * short:.0f} ms, {LONGER} times as many {times:.1f} times")
    expect(times < TIMES, True, f"whether {times:.1f} times the time are less than {TIMES}")


def test_a_report_in_chunks_is_read_as_it_comes(trial: Trial, tool: Tool, tell: Tell) -> None:
    """The door sends each line as a chunk. A report that is there at once is not waited for line by
    line, 20 ms each."""
    folder, count = trial.place("chunks"), 2_000
    with World(trial, tool, os.path.join(folder, "registry")) as world:
        path = write(folder, "long.rpsl", b"password: bc\n\n" + b"\n".join(items(count)))
        plain = run(
            [sys.executable, tool.path, "submit", path], folder, environment=world.tool.environment
        )
    lines = plain.printed.splitlines(keepends=True)
    chunks = b"".join(b"%x\r\n%s\r\n" % (len(line), line) for line in lines)
    head = b"HTTP/1.1 200 OK\r\nTransfer-Encoding: chunked\r\nConnection: close\r\n\r\n"
    with answering(head + chunks + b"0\r\n\r\n") as url:
        start = time.monotonic()
        ran = run(
            [sys.executable, tool.path, "submit", "-s", url, path],
            folder,
            environment=tool.environment,
        )
        seconds = time.monotonic() - start
    expect((ran.status, ran.printed == plain.printed), (0, True), f"the report: {ran.reported!r}")
    expect(seconds < count * 0.01, True, f"whether {seconds:.1f} s are half of 20 ms each at most")
    tell(f"{count:,} lines in {seconds:.2f} s")

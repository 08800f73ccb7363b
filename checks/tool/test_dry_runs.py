"""Dry runs beside the submissions that then come, and what they say."""

import os
import random
import re
import shutil
from collections.abc import Iterator
from types import SimpleNamespace
from typing import Any

import pytest

from checks.chances import any_submission
from checks.model.objects import Object
from checks.model.registry import Registry, Secrets
from checks.model.text import blocks, read
from checks.running import AUTH, Tell, Trial, expect, write
from checks.tool.forking import run_forked
from checks.submissions.running import items_of
from checks.worlds import A_AUTH, WORLD, Tool, World, answering, expect_line
from irr.errors import Failure
from irr.local import dry_run, excerpts
from irr.registry import answers
from irr.registry.refusals import MOST_LISTED
from irr.registry.server import Server
from irr.registry.submissions import Item, Reported
from irr.rpsl import keys, syntax

IN_MEMORY, SECONDS = True, 20


# How many submissions of chance come to one registry, in which so many objects name A-MNT.
IN_ONE, NAMED = 25, 24
MANY = b"password: bc\npassword: one good secret\n\n" + b"\n".join(
    b"inetnum: 172.16.%d.0/24\nmnt-by: %s\nsource: TEST\n"
    % (number, b"A-MNT" if number % 3 else b"A-MNT, B-MNT")
    for number in range(NAMED)
)


def test_dry_runs_of_chance_say_what_comes(trial: Trial, tool: Tool, tell: Tell) -> None:
    """Submissions of chance, judged on a copy and then for good."""
    count, chance = trial.count or trial.pick(60, 1_000), trial.chance("dry runs")
    compared = unknown = 0
    for start in range(0, count, IN_ONE):
        world, model = World(trial, tool, f"dry-{start}", MANY), Registry(auth=AUTH.encode())
        model.submit(WORLD)
        model.submit(MANY)
        with world:
            for number in range(start, min(start + IN_ONE, count)):
                text = any_submission(chance, chance.choice([3, 10, 25]))
                if chance.random() < 0.4:
                    text = any_clearance(chance, model) + text
                if text[:3] == b"\xef\xbb\xbf" or b"\0" in text[:4_096]:
                    text = text.replace(b"\0", b"\1").lstrip(b"\xef\xbb\xbf")
                place = write(world.folder, "chance.rpsl", text)
                words = [word for owner in owners(text, model) for word in ("--whose", owner)]
                words += ["--raw", "--anyway", place]
                dry = run_forked(world.tool, "submit", "--dry-run", *words)
                real = run_forked(world.tool, "submit", "--raw", "--anyway", place)
                expect(
                    model.submit(text),
                    real.printed.decode().splitlines(),
                    f"submission {number}: the model's report",
                )
                expect(
                    dry.status, real.status, f"submission {number}: the status, {dry.reported!r}"
                )
                for one, other in zip(
                    dry.printed.splitlines(), real.printed.splitlines(), strict=True
                ):
                    front, hidden, _ = one.partition(b"changed or unchanged")
                    good = (
                        other in (front + b"changed", front + b"unchanged")
                        if hidden
                        else one == other
                    )
                    expect(good, True, f"submission {number}: {one!r} beside {other!r}")
                    compared, unknown = compared + 1, unknown + bool(hidden)
        shutil.rmtree(world.folder)
    tell(
        f"{compared} items of {count} submissions of seed {trial.seed}, {unknown} of them `changed"
        " or unchanged`"
    )


def any_clearance(chance: random.Random, model: Registry) -> bytes:
    """Deletes a maintainer after most of what names it, or all: some by changes, and in between
    also what does not."""
    held = chance.choice(model.of_class(1))
    name = held.key.value
    named = [one for one in model.in_order() if name in one.named() and one is not held]
    named = chance.sample(named, max(0, len(named) - chance.choice([0, 0, 0, 1, 2, 9])))
    texts = [deletion(one) for one in named]
    for place, one in enumerate(named):
        if chance.random() < 0.1:
            texts[place] = one.text.replace(name, chance.choice([b"ROOT-MNT", b"B-MNT"]))
    texts.insert(len(texts) - chance.choice([0, 0, 0, 1]) if texts else 0, deletion(held))
    secrets = b"password: bc\npassword: one good secret\npassword: another good secret\n\n"
    return secrets + b"\n".join(texts) + b"\n"


def deletion(held: Object) -> bytes:
    return held.text + b"delete: x\n"


def owners(text: bytes, model: Registry) -> Iterator[str]:
    """Whose each password of a submission is, in the order in which they come."""
    secrets: dict[bytes, str] = {}
    for block in blocks(text):
        attributes = read(block)
        for name, lines in [] if isinstance(attributes, str) else attributes:
            if name == b"password":
                secrets.setdefault(b" ".join(lines))
    for secret in secrets:
        held = Secrets()
        held.add([secret])
        names = [found.key.text for found in model.of_class(1) if held.fit(found)]
        yield ",".join(names) or "-"


def test_a_dry_run_says_what_it_took_and_leaves_nothing(
    trial: Trial, tool: Tool, tell: Tell
) -> None:
    """What a dry run asks, says and leaves."""
    with World(trial, tool, "dry") as world:
        before = world.tool("dump").printed
        text = (
            f"mntner: A-MNT\nauth: {A_AUTH}\nmnt-by: A-MNT\nsource: TEST\nremarks: irr-0123\n\n"
            f"mntner: A-MNT\nauth: {A_AUTH}\nmnt-by: A-MNT\nsource: TEST\nremarks: new\n\n"
            f"mntner: A-MNT\nauth: {A_AUTH}\nmnt-by: A-MNT\nsource: TEST\nremarks: new\n"
        )
        place = write(world.folder, "a.rpsl", text.encode())
        ran = world.tool.on_terminal(
            "submit", "--dry-run", "--as", "A-MNT", place, typed=b"one good secret"
        )
        expect(ran.status, 0, f"the status of a dry run at a terminal, {ran.printed!r}")
        lines = [
            line
            for line in ran.printed.decode().splitlines()
            if re.match(r"(\x1b\[..m)?[0-9%]", line)
        ]
        lines = [re.sub(r"\x1b\[[0-9]*m", "", line) for line in lines]
        expect(
            lines,
            [
                "1 mntner A-MNT: changed or unchanged",
                "2 mntner A-MNT: changed",
                "3 mntner A-MNT: unchanged",
                "% items 3",
            ],
            "its report",
        )
        expect(b"good secret" in ran.printed, False, "whether the password is shown")
        for words in (
            b"nothing was sent or changed",
            b"as those of A-MNT; whether they are is not known",
            b"are hidden",
        ):
            expect(words in ran.printed, True, f"{words!r} in {ran.printed!r}")
        expect(world.tool("dump").printed, before, "the dump after it")
        ran = world.tool(
            "submit",
            "--dry-run",
            "-",
            stdin=b"password: x\n\ninetnum: 192.0.2.0/25\nmnt-by: A-MNT\nsource: TEST\n",
        )
        expect(
            (ran.status, ran.printed),
            (0, b"1 inetnum 192.0.2.0 - 192.0.2.127: added\n% items 1\n"),
            "by the passwords of the file",
        )
        gone = b"password: x\n\ninetnum: 192.0.2.0/24\ndelete: x\n"
        ran = world.tool("submit", "--dry-run", "--raw", "-", stdin=gone)
        expect(
            (b"refused E11" in ran.printed, b"taken as nobody's" in ran.reported),
            (True, True),
            "a deletion by a password whose maintainer is not named",
        )
        ran = world.tool("submit", "--dry-run", "--raw", "--whose", "A-MNT", "-", stdin=gone)
        expect(
            (b"deleted" in ran.printed, b"taken as nobody's" in ran.reported),
            (True, False),
            "a deletion by the password of A-MNT",
        )
        expect_line(
            world.tool("submit", "--whose", "A-MNT", place), 2, ".*--dry-run.*", "--whose alone"
        )
        expect_line(
            world.tool.at(IRRDESK="/nonexistent")("submit", "-n", place),
            5,
            "irrdesk: the program is not found; .*",
            "no program",
        )
        expect(
            os.listdir(tool.environment["TMPDIR"]),
            [],
            "what is left in the folder for temporary files",
        )
    tell("asked, told, and nothing left")


def test_the_first_objects_of_an_answer_are_read_and_no_more() -> None:
    """However it comes, and whatever follows."""
    objects = [
        b"inetnum:        172.16.%d.0 - 172.16.%d.255\nmnt-by:         A-MNT\n"
        b"source:         TEST\n\n" % (number, number)
        for number in range(9)
    ]
    text, first = b"".join(objects), b"".join(objects[:8])
    for size in range(1, 40):
        pieces = (text[place : place + size] for place in range(0, len(text), size))
        expect(answers.first_objects(pieces, 8), first, f"in pieces of {size}")
        expect(len(b"".join(pieces)) > len(objects[8]) - size, True, f"the rest of {size}")
    for wanted in text, b"% no entries\n", b"% error 4\n":
        expect(answers.first_objects([wanted], 9), wanted, "an answer of no more")
    head = b"HTTP/1.1 200 OK\r\nContent-Type: text/plain\r\nConnection: close\r\n\r\n"
    with answering(head + text + b"strange\n") as url:
        with pytest.raises(Failure):
            Server(url).query("inverse mnt A-MNT")
        found = Server(url).query_first(8, "inverse mnt A-MNT")
    expect([key.text.split(".")[2] for key in found.keys], list("01234567"), "its objects")


class Noting(Server):
    """A server that notes of how many objects each answer is read."""

    def __init__(self, url: str) -> None:
        super().__init__(url)
        self.asked: list[int] = []

    def query_first(self, most: int, *words: str | bytes) -> answers.Answer:
        self.asked.append(most)
        return super().query_first(most, *words)


def test_a_dry_run_reads_few_of_the_objects_that_name_a_maintainer(
    trial: Trial, tool: Tool
) -> None:
    """As many as the text can take away, those that a reason lists, and one; the reason does not
    count the others."""
    with World(trial, tool, "named", MANY) as world:
        text = b"password: one good secret\n\nmntner: A-MNT\nmnt-by: A-MNT\ndelete: x\n"
        place = Noting(world.url)
        _, found = excerpts.of_items(place, items_of(text)) or ("", [])
        expect(place.asked, [2 + 1 + MOST_LISTED], "how many were asked for")
        named = sum(b"A-MNT" in one for one in found)
        expect(named < NAMED, True, f"{named} of {NAMED}")
        path = write(world.folder, "gone.rpsl", text)
        for option, rest in ("--dry-run", b"others"), ("--anyway", b"24 more"):
            ran = world.tool("submit", option, path)
            lines = b" ".join(ran.printed.split())
            expect((ran.status, b"E17" in lines), (1, True), f"{ran}")
            expect(b"inetnum 172.16.0.0 - 172.16.0.255" in lines, True, f"a name in {lines!r}")
            expect(b" and " + rest + b"." in lines, True, f"{rest!r} in {lines!r}")


def test_hidden_lines_are_unknown_until_an_item_is_taken() -> None:
    """What is refused tells nothing of the registered `auth` lines; what is taken tells them."""
    text = b"mntner: A-MNT\nauth: SHA256-PW x\nmnt-by: A-MNT\nsource: TEST\n"
    (block,) = syntax.blocks([text])
    item, words = Item("f", block), []
    report = answers.Report().read(
        b"1 mntner A-MNT: refused E11\n2 mntner A-MNT: changed\n3 mntner A-MNT: unchanged\n"
    )
    sender: Any = SimpleNamespace(
        send=lambda items: [Reported(item, line, False) for line in report]
    )
    dry_run.show(
        sender,
        [item] * 3,
        {keys.key_of(item.object()): dry_run.public(item.object()).text()},
        SimpleNamespace(show=lambda reported, word: words.append(word)),
    )
    assert words == ["", dry_run.UNKNOWN, ""]

"""Objects near the bound of a paragraph: each has a text of at most so many bytes that a replica
loads, and that is public as it was."""

import random
import re
from pathlib import Path

import pytest

from checks.running import AUTH, Each, Tell, Trial, expect, write, write_settings
from checks.serving import Serving
from checks.worlds import COUNT
from irr.local import replicas
from irr.local.temporary_registry import Loadable, TemporaryRegistry
from irr.registry.server import Server
from irr.rpsl import syntax

SECONDS = 60
MOST = syntax.LARGEST
# Lines that grow when they are printed, and those that are hidden.
SHORT = [
    "auth:",
    "auth:x",
    "auth:\n x",
    "auth:\n+",
    "a:b",
    "descr:",
    "remarks:x\n+\n+",
    "auth :x",
    "AUTH:",
    "a:auth: FILTERED",
    "b:\n a",
]
CLASSES = [
    "as-set:AS-E%d",
    "route-set:RS-E%d",
    "mntner:E%d",
    "inetnum:10.%d.0.0/24",
    "aut-num:AS%d",
]
HEAD = f"mntner: ROOT-MNT\nauth: {AUTH}\nmnt-by: ROOT-MNT\nsource: TEST\n\n"


def edge(chance: random.Random, number: int) -> str:
    """An object whose paragraph has just as many bytes as it may, or a few fewer."""
    head = chance.choice(CLASSES) % number + "\nmnt-by:ROOT-MNT\nsource:TEST\n"
    if head.startswith("mntner"):
        head += f"auth:{AUTH}\n"
        lines = [line for line in SHORT if not line.lower().startswith("auth") or line == "auth:x"]
    else:
        lines = SHORT
    some = chance.sample(lines, chance.randrange(1, 4))
    size = chance.choice([MOST, MOST, MOST - 1, MOST - 7, 60_000])
    parts, left = [head], size - len(head)
    while left > 0:
        line = chance.choice(some) + "\n"
        if len(line) > left:
            line = "c:" + "x" * (left - 3) + "\n" if left > 3 else ""
            if not line:
                break
        parts.append(line)
        left -= len(line)
    return "".join(parts)


@pytest.mark.parametrize("part", range(2))
def test_an_object_near_the_bound_is_loaded_by_replicas(
    trial: Trial, tell: Tell, part: int
) -> None:
    count, chance = trial.pick(6, 2_500), trial.chance(f"edge {part}")
    folder = trial.place(f"edge-{part}")
    write_settings(folder, limit=1_000)
    expect(trial.run(folder, "init", "s.toml").status, 0, "init")
    texts = [edge(chance, number) for number in range(1, count + 1)]
    text = "password: bc\n\n" + "\n".join(texts)
    report = trial.run(folder, "submit", "s.toml", write(folder, "objects", text.encode())).printed
    added = report.count(b": added\n")
    expect(added > count * 0.7, True, f"{added} objects of {count}: {report[-200:]!r}")
    dump = trial.run(folder, "dump", "s.toml").printed
    loadable = list(Loadable([dump]))
    longest = max(map(len, loadable)) - 1
    expect(longest <= MOST, True, f"the longest text that is loaded, {longest}")
    copy = trial.place(f"copy-{part}")
    write_settings(copy, limit=1_000)
    done = trial.run(copy, "load", "s.toml", write(copy, "dump", b"".join(loadable)))
    expect((done.status, done.reported), (0, b""), "load")
    expect(
        trial.run(copy, "dump", "s.toml").printed == dump,
        True,
        "whether the copy's dump is the same",
    )
    over = sum(len(block.text) > MOST for block in syntax.blocks([dump]))
    expect(over > 0, True, "whether some are longer as they are printed")
    tell(f"{added} objects, {over} of them over {MOST} bytes as they are printed")


def unended(number: int, line: str, front: str = "") -> str:
    """An object of just as many bytes as a paragraph may have, without the end of its last line:
    with it it has one more."""
    text = (front or f"as-set:AS-U{number}\nmnt-by:ROOT-MNT\n") + "source:TEST\n"
    text += line * ((MOST - len(text) - 8) // len(line))
    return text + "c:" + "x" * (MOST - len(text) - 2)


def test_an_object_without_its_last_line_end_is_loaded_by_replicas(
    trial: Trial, each: Each
) -> None:
    """No other text spells it but this one, at the end of a file."""
    for number, line in enumerate(["a:b\n", "auth:\n", "b:\n+\n"]):
        with each(repr(line)):
            folder, copy = trial.place(f"unended-{number}"), trial.place(f"copied-{number}")
            for one in folder, copy:
                write_settings(one, limit=1_000)
            trial.run(folder, "init", "s.toml")
            text = "password: bc\n\n" + unended(number, line)
            report = trial.run(folder, "submit", "s.toml", write(folder, "o", text.encode()))
            expect(report.printed[-17:], b" added\n% items 1\n", "the report")
            dump = trial.run(folder, "dump", "s.toml").printed
            made = b"".join(Loadable([dump]))
            done = trial.run(copy, "load", "s.toml", write(copy, "dump", made))
            expect((done.status, done.reported), (0, b""), "load")
            expect(trial.run(copy, "dump", "s.toml").printed == dump, True, "the same dump")


AUTHS = f"auth:{AUTH}\n"
# Objects that are submitted one after the other, each as the last of its text, without the end of
# its last line. Of the maintainers, which others name, two name one another.
TOGETHER = [
    unended(0, "a:b\n"),
    unended(1, "auth:\n"),
    unended(2, "b:\n+\n"),
    f"mntner:u3-Mnt\nmnt-by:U3-MNT\n{AUTHS}source:TEST\n",
    unended(4, "a:b\n", f"mntner:U4-mnt\nmnt-by:U4-MNT,U3-MNT\n{AUTHS}"),
    unended(3, "a:b\n", f"mntner:u3-Mnt\nmnt-by:U3-MNT,U4-MNT\n{AUTHS}"),
    unended(5, "a:b\n", "aut-num:AS5\nmnt-by:ROOT-MNT,U3-MNT\nmnt-lower:u4-mnt\n"),
    unended(6, "a:b\n", "inetnum:10.0.0.0/8\nmnt-by:ROOT-MNT\nmnt-lower:U4-MNT\n"),
    "as-set:AS-SHORT\nmnt-by:U3-MNT,u4-mnt\nsource:TEST\n",
]


def test_objects_that_no_file_can_have_together_are_copied(
    trial: Trial, monkeypatch: pytest.MonkeyPatch
) -> None:
    """A replica, what was registered at a time, and a dry run are made of them all the same."""
    monkeypatch.setenv("IRRDESK", trial.program)
    folder, work = trial.place("together"), Path(trial.place("replica"))
    write_settings(folder, limit=1_000)
    trial.run(folder, "init", "s.toml")
    for text in TOGETHER:
        sent = write(folder, "o", b"password: bc\n\n" + text.encode())
        report = trial.run(folder, "submit", "s.toml", sent).printed
        expect(
            re.search(rb": (added|changed)\n% items 1\n$", report) is not None, True, f"{report!r}"
        )
    dump = trial.run(folder, "dump", "s.toml").printed
    with Serving([trial.program], folder, COUNT) as server:
        made = replicas.make(Server(f"http://127.0.0.1:{server.port}"), 1_000, work, "")
    assert made
    expect(made.dump.read_bytes() == dump, True, "the dump that was fetched")
    names = [line.split()[1] for line in dump.split(b"\n") if line.startswith(b"mntner:")]
    for name in (name.decode() for name in names):
        found = [
            trial.run(one, "query", settings, "inverse", "mnt", name).printed
            for one, settings in [(folder, "s.toml"), (str(work), "irr.toml")]
        ]
        expect((found[0] == found[1], len(found[0]) > 9), (True, True), f"what names {name}")
    with TemporaryRegistry("TEST") as registry:
        registry.fill([dump], "the dump")
        expect(registry.dump() == dump, True, "the dump of a registry of it")


def test_what_is_hidden_in_a_text_stays(trial: Trial) -> None:
    """Words in a text that look like what replaces a hidden line are kept."""
    text = (
        b"mntner:         A-MNT\nauth:           # filtered\nremarks:        auth: FILTERED "
        + b"x" * 65_100
    )
    text += b"\n" + b"remarks:\n" * 40 + b"mnt-by:         A-MNT\nsource:         TEST\n\n"
    (made,) = Loadable([text])
    expect(
        (len(made) <= MOST + 1, b"auth:x\n" in made, b"auth: FILTERED x" in made),
        (True, True, True),
        f"{made[:90]!r}",
    )

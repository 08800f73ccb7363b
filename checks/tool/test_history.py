"""The history of a registry: its changes, and what was answered at a time."""

import os
import re
import shutil
import subprocess
import time
from pathlib import Path

import pytest

from checks.keeping import QUERIES, VERSIONED, whois_answer
from checks.running import Tell, Trial, expect
from checks.worlds import Tool, World, expect_line
from irr.errors import Failure
from irr.local.history import Repository
from irr.rpsl import syntax
from irr.system import files


def test_history_says_who_held_what_and_when(trial: Trial, tool: Tool, tell: Tell) -> None:
    """Each change is a commit that counts it; an object's versions, and what was answered at a
    time."""
    with World(trial, tool, "history") as world:
        folder = os.path.join(world.folder, "h")
        ran = world.tool("history", folder)
        expect(
            (ran.status, ran.printed, ran.reported),
            (0, f"{folder}: 13 added, 0 changed, 0 deleted\n".encode(), b""),
            "the first fetch",
        )
        expect(world.tool("history", folder).printed, b"", "a fetch without a change")
        queries = [*QUERIES, "198.51.100.1"]
        states = [
            (time.time(), [whois_answer(world.server.port, query.encode()) for query in queries])
        ]
        texts = [
            VERSIONED.format(1),
            VERSIONED.format(2) + "\naut-num: AS64510\nmnt-by: ROOT-MNT\nsource: TEST\n",
            (
                "password: bc\n\ninetnum: 198.51.100.0/24\ndescr: version 2\nmnt-by:"
                " ROOT-MNT\nsource: TEST\ndelete: x\n"
            ),
        ]
        counts = [
            "1 added, 0 changed, 0 deleted",
            "1 added, 1 changed, 0 deleted",
            "0 added, 0 changed, 1 deleted",
        ]
        for text, count in zip(texts, counts):
            time.sleep(1.1)
            expect(world.tool("submit", "-", stdin=text.encode()).status, 0, "a submission")
            expect(
                world.tool("history", folder).printed, f"{folder}: {count}\n".encode(), "a fetch"
            )
            states.append(
                (
                    time.time(),
                    [whois_answer(world.server.port, query.encode()) for query in queries],
                )
            )
        world.server.__exit__()
        ran = world.tool("history", folder)
        expect_line(ran, 5, ".*no server listens.*", "a fetch without a server")
    at = tool.at(IRR_HISTORY=folder)
    shown = at("history", "show", "198.51.100.0/24").printed
    expect(
        re.findall(rb"^% \S+Z (\w+)$|(version \d)", shown, re.M),
        [
            (b"added", b""),
            (b"", b"version 1"),
            (b"changed", b""),
            (b"", b"version 2"),
            (b"deleted", b""),
        ],
        "the versions",
    )
    for when, answers in trial.pick([states[0], states[2]], states):
        stamp = time.strftime("%Y-%m-%dT%H:%M:%SZ", time.gmtime(when))
        for query, wanted in trial.pick([(QUERIES[5], answers[5])], list(zip(queries, answers))):
            ran = at("history", "at", stamp, query)
            expect(
                (ran.status, ran.printed),
                (int(wanted.startswith(b"% error")), wanted),
                f"{query} at {stamp}",
            )
    expect_line(
        at("history", "at", "2001-01-01", "AS1"), 2, ".*the history begins at.*", "a time before"
    )
    expect_line(at("history", "at", "now", "AS1"), 2, ".*not a time.*", "a time that is none")
    expect(
        at("history", "show", "AS64496").printed,
        at("history", "show", "aut-num", "AS64496").printed,
        "an AS without its class",
    )
    expect(b"added\naut-num:" in at("history", "show", "AS64496").printed, True, "its version")
    ran = at("history", "show", "AS64499")
    expect(
        (ran.status, ran.printed, ran.reported.count(b"\n")),
        (1, b"", 1),
        "an object that never was",
    )
    expect(
        b"last fetched" in at("history", "at", "2100-01-01", "AS64496").reported,
        True,
        "a time after the last fetch",
    )
    checked = subprocess.run(
        ["git", "-C", folder, "fsck", "--strict"], capture_output=True, text=True, check=False
    )
    expect((checked.returncode, checked.stdout), (0, ""), f"git fsck, {checked.stderr}")
    tell(f"{len(states)} states")


def test_a_word_that_is_no_folder_makes_none(trial: Trial, tool: Tool) -> None:
    """Who wants to look up an object may forget `show`. A new folder is written as a path."""
    place = trial.place("word")
    with World(trial, tool, "worded") as world:
        for word in "AS64496", "192.0.2.0/24", "lost":
            ran = world.tool("history", word, folder=place)
            wanted = f"{word}: there is no such folder; .*irr history show KEY.* ./{word} .*"
            expect_line(ran, 2, wanted, f"the word {word}")
        expect(os.listdir(place), [], "what was made")
        for folder in "./a", "a", "../word/b", f"{place}/c/d":
            ran = world.tool("history", folder, folder=place)
            expect((ran.status, ran.reported), (0, b""), f"the folder {folder}")
            expect(Repository(Path(place, folder)).is_there, True, f"the history in {folder}")


# A git that is killed at its call N: before it has done anything, once all is done, or in the
# middle, where it leaves what keeps others out.
KILLED_GIT = """#!/bin/sh
count=$(($(cat "$PLACE/count") + 1))
echo $count > "$PLACE/count"
if [ $count = $STEP ]; then
    if [ $MODE = after ]; then $REAL "$@"; fi
    if [ $MODE = middle ]; then
        head -c 300 | $REAL "$@"
        cd "$PLACE/h"
        if [ $count = 1 ] && [ ! -e ../is-there ]; then rm -r objects; fi
        mkdir -p refs/heads objects/info/commit-graphs objects/pack
        touch $LEFT
    fi
    kill -9 $$
fi
exec $REAL "$@"
"""
LEFT = """index.lock HEAD.lock config.lock packed-refs.lock packed-refs.new refs/heads/main.lock
    gc.pid shallow.lock objects/info/commit-graphs/commit-graph-chain.lock
    objects/pack/tmp_pack_x"""
ONE = b"aut-num:        AS%d\nmnt-by:         A-MNT\nsource:         TEST\n"


@pytest.mark.parametrize("mode", ["before", "middle", "after"])
def test_a_history_goes_on_where_git_was_killed(
    tmp_path: Path, mode: str, monkeypatch: pytest.MonkeyPatch
) -> None:
    """At each of its calls, of a first state and of a later one."""
    real = shutil.which("git")
    assert real
    (tmp_path / "git").write_text(KILLED_GIT)
    (tmp_path / "git").chmod(0o755)
    monkeypatch.setenv("PATH", f"{tmp_path}:{os.environ['PATH']}")
    for name, value in {"PLACE": str(tmp_path), "REAL": real, "MODE": mode}.items():
        monkeypatch.setenv(name, value)
    folder = tmp_path / "h"
    monkeypatch.setenv("LEFT", LEFT.replace("\n", " "))
    states: list[list[int]] = [[], [1, 2]]
    for before in states:
        step = 0
        while True:
            step += 1
            shutil.rmtree(folder, ignore_errors=True)
            folder.mkdir()
            monkeypatch.setenv("STEP", "0")
            if before:
                recorded(folder, before)
                (tmp_path / "is-there").touch()
            (tmp_path / "count").write_text("0")
            monkeypatch.setenv("STEP", str(step))
            try:
                recorded(folder, [2, 3])
            except Failure as failure:
                expect("git " in failure.what, True, f"{failure}")
            else:
                break
            recorded(folder, [2, 3])
            last = Repository(folder).state()
            expect(last and last.dump, "2-3", f"the last state after step {step}")
            found = b"".join(Repository(folder).objects(last)) if last else b""
            expect(found, b"\n".join([ONE % 2, ONE % 3, b""]), f"its objects after step {step}")
            reported = subprocess.run(
                [real, f"--git-dir={folder}", "fsck", "--strict", "--no-dangling"],
                capture_output=True,
                check=True,
            )
            left = [one for one in LEFT.split() if (folder / one).exists()]
            expect((reported.stdout, left), (b"", []), f"what is left after step {step}")
        expect(step > 4, True, f"whether {step} is the number of calls")


def recorded(folder: Path, numbers: list[int]) -> None:
    """Commits a dump of so many aut-nums."""
    text = b"".join(ONE % number + b"\n" for number in numbers)
    digest = "-".join(map(str, numbers))
    Repository(folder).record(syntax.blocks([text]), digest, 1_700_000_000)


def test_a_state_counts_from_its_second_on(tmp_path: Path) -> None:
    recorded(tmp_path, [1])
    repository = Repository(tmp_path)
    last = repository.state()
    assert last and last.time == 1_700_000_000
    for moment, wanted in (last.time - 1, None), (last.time, last), (last.time + 1, last):
        expect(repository.state(moment), wanted, f"the state at {moment}")


def test_whom_a_killed_history_left_at_work_holds_its_folder(tmp_path: Path) -> None:
    """A git that lives on is waited for."""
    with files.locked(tmp_path) as lock:
        left = subprocess.Popen(["cat"], stdin=subprocess.PIPE, pass_fds=[lock])
    with left:
        with pytest.raises(Failure, match="another irr works"), files.locked(tmp_path):
            pass
    with files.locked(tmp_path):
        pass

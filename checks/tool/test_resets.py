"""A maintainer's lost password."""

import os
import re
import signal
import subprocess
import sys
from pathlib import Path

import pytest

from checks.keeping import wait_until
from checks.running import Tell, Trial, expect, write
from checks.worlds import Tool, World, expect_line

LINE = "SHA256-PW Xq3:3d72452d508755b8fcf01dfbb10b3a37d4cb2debb0312934b5f2b447595c927e"


def test_a_lost_password_is_reset_and_nothing_else(trial: Trial, tool: Tool, tell: Tell) -> None:
    """A maintainer gets another password and nothing else is changed; what can't be done changes
    nothing."""
    with World(trial, tool, "resets") as world:
        settings = os.path.join(world.folder, "s.toml")
        expect_line(
            tool(
                "reset",
                "A-MNT",
                "--settings",
                settings,
                "--save",
                os.path.join(world.folder, "p"),
                folder=world.folder,
            ),
            4,
            ".*in use, most likely by the running server.*",
            "a registry that is served",
        )
    folder = world.folder
    before = trial.run(folder, "dump", "s.toml", "--full").printed
    for pattern, words in [
        (".*no such maintainer.*", ["C-MNT", "--save", "p"]),
        (".*not a maintainer's name.*", ["AS-A"]),
        (".*not an auth line.*", ["A-MNT", "--auth", "NONE"]),
        (".*no terminal.*", ["A-MNT"]),
    ]:
        tried = subprocess.run(
            [sys.executable, tool.path, "reset", "--settings", settings, *words],
            cwd=folder,
            capture_output=True,
            env=tool.environment,
            stdin=subprocess.DEVNULL,
            start_new_session=True,
            check=False,
        )
        is_line = bool(re.fullmatch(rf"irr reset[^\n]*{pattern}\n", tried.stderr.decode()))
        expect((tried.returncode, is_line), (2, True), f"{words}: {tried.stderr!r}")
    expect(
        trial.run(folder, "dump", "s.toml", "--full").printed,
        before,
        "the registry after resets that failed",
    )
    os.chmod(os.path.join(folder, "irr.db"), 0o640)
    if os.geteuid() == 0:
        os.chown(os.path.join(folder, "irr.db"), 12_345, 12_345)
    was = os.stat(os.path.join(folder, "irr.db"))
    # What a reset leaves that is killed.
    os.mkdir(left := os.path.join(folder, ".irr.db.irr-reset-abcdefgh"))
    write(left, "full.rpsl", before)
    ran = tool(
        "reset", "A-MNT", "--settings", settings, "--save", os.path.join(folder, "p"), folder=folder
    )
    expect((ran.status, ran.reported), (0, b""), f"a reset: {ran.printed!r}")
    now = os.stat(os.path.join(folder, "irr.db"))
    expect(
        (now.st_mode, now.st_uid, now.st_gid),
        (was.st_mode, was.st_uid, was.st_gid),
        "the owner of the database",
    )
    expect(os.stat(os.path.join(folder, "p")).st_mode & 0o777, 0o600, "the rights of the password")
    expect(sorted(name for name in os.listdir(folder) if "irr-reset" in name), [], "what is left")
    after = trial.run(folder, "dump", "s.toml", "--full").printed
    changed = [
        (old, new) for old, new in zip(before.split(b"\n"), after.split(b"\n")) if old != new
    ]
    expect(
        (len(changed), changed[0][0].startswith(b"auth:  "), before.count(b"\n")),
        (1, True, after.count(b"\n")),
        f"what is changed: {changed}",
    )
    with open(os.path.join(folder, "p"), "rb") as file:
        password = file.read()
    change_it = b"\ninetnum: 192.0.2.0/24\ndescr: %s\nmnt-by: A-MNT\nsource: TEST\n"
    for text, word in [
        (b"password: one good secret\n" + change_it % b"old", b"refused E11"),
        (password + change_it % b"new", b"changed"),
    ]:
        ran = trial.run(folder, "submit", "s.toml", write(folder, "t.rpsl", text))
        expect(word in ran.printed, True, f"{word!r}: {ran.printed!r}")
    expect(
        tool("reset", "a-mnt", "--settings", settings, "--auth", LINE, folder=folder).status,
        0,
        "a reset by a line of its holder",
    )
    text = b"password: the root secret of this page\n" + change_it % b"third"
    ran = trial.run(folder, "submit", "s.toml", write(folder, "t.rpsl", text))
    expect(b"changed" in ran.printed, True, f"by the holder's password: {ran.printed!r}")
    tell("2 resets")


# It notes what it is asked, and has a file for a service that runs, and one with its folder.
SYSTEMCTL = """#!/bin/sh
cd "$(dirname "$0")" && echo "$*" >>asked
case "$*" in
    *WorkingDirectory*) cat folder; exit ;;
esac
case $1 in
    show) if [ -e runs ]; then echo active; else echo inactive; fi ;;
    start) touch runs ;;
    stop) rm -f runs ;;
esac
"""


@pytest.mark.skipif(os.geteuid() != 0, reason="it takes root")
def test_a_service_is_stopped_meanwhile(trial: Trial, tool: Tool) -> None:
    """That --service stops what runs and starts it again, also where nothing is reset, and starts
    nothing else. What it leaves belongs to the owner of the database."""
    with World(trial, tool, "service") as world:
        pass
    folder, place = world.folder, trial.place("systemctl")
    os.chmod(write(place, "systemctl", SYSTEMCTL.encode()), 0o755)
    write(place, "folder", folder.encode())
    at = tool.at(PATH=f"{place}:{os.environ['PATH']}")
    os.chmod(trial.work, 0o711)
    os.chmod(folder, 0o700)
    for path in [folder, *(os.path.join(folder, name) for name in os.listdir(folder))]:
        os.chown(path, 12_345, 12_345)
    # As where root put a copy in its place.
    os.chown(os.path.join(folder, "irr.db"), 0, 0)
    for runs, name, status in [(True, "A-MNT", 0), (False, "A-MNT", 0), (True, "C-MNT", 2)]:
        if runs:
            write(place, "runs", b"")
        # The relative `store` of the settings is in the folder of the service.
        settings = os.path.join(folder, "s.toml")
        ran = at("reset", name, "--service", "--settings", settings, "--auth", LINE, folder="/")
        expect(ran.status, status, f"{name}: {ran.reported!r}")
        with open(os.path.join(place, "asked"), encoding="ascii") as opened:
            asked = [line.split()[0] for line in opened]
        wanted = ["show", "stop", "show", *["reset-failed", "start"] * runs]
        expect(asked, wanted, "what was asked")
        for left in ["asked", *["runs"] * runs]:
            os.remove(os.path.join(place, left))
        owners = {os.stat(os.path.join(folder, name)).st_uid for name in os.listdir(folder)}
        expect(owners, {12_345}, "who owns what is there")


@pytest.mark.skipif(os.geteuid() != 0, reason="it takes root")
@pytest.mark.parametrize("number", [signal.SIGTERM, signal.SIGINT])
def test_a_signal_while_the_service_is_stopped_leaves_it_running(
    trial: Trial, tool: Tool, number: signal.Signals
) -> None:
    place = trial.place(number.name)
    slow = SYSTEMCTL.replace("rm -f runs ;;", "rm -f runs; touch stopped; sleep 2 ;;")
    os.chmod(write(place, "systemctl", slow.encode()), 0o755)
    for name in "folder", "runs":
        write(place, name, b"/")
    process = subprocess.Popen(
        [sys.executable, tool.path, "reset", "A-MNT", "--service", "--auth", LINE],
        env={**tool.environment, "PATH": f"{place}:{os.environ['PATH']}"},
        stdout=subprocess.DEVNULL,
        stderr=subprocess.DEVNULL,
    )
    try:
        wait_until("that it is stopped", 60, Path(place, "stopped").exists)
        process.send_signal(number)
        expect(process.wait(60) != 0, True, "whether the signal ended it")
    finally:
        process.kill()
    expect(os.path.exists(os.path.join(place, "runs")), True, "whether the service runs again")

"""Passwords at the terminal and in files."""

import hashlib
import os
import re
import subprocess
import sys

from checks.running import Tell, Trial, expect, write
from checks.worlds import Tool, World, expect_line

IN_MEMORY = True


def test_passwords_are_made_saved_asked_and_given(trial: Trial, tool: Tool, tell: Tell) -> None:
    """`auth` makes lines that the registry takes, and no password comes to where others see it."""
    with World(trial, tool, "auth") as world:
        tool, folder = world.tool, world.folder
        made = tool("auth", "--save", "my.password", "C-MNT", folder=folder)
        expect((made.status, made.reported), (0, b""), "the making of a maintainer")
        path = os.path.join(folder, "my.password")
        with open(path, "rb") as saved:
            secret = saved.read()
        expect(oct(os.stat(path).st_mode & 0o777), "0o600", "who may read the password")
        found = re.fullmatch(rb"password: ([a-z2-7]{5}(?:-[a-z2-7]{5}){3})\n", secret)
        expect(
            bool(found) and found[1] not in made.printed,
            True,
            "a password of 100 bits that is not printed",
        )
        write(folder, "c.rpsl", made.printed)
        ran = tool("submit", "my.password", "c.rpsl", folder=folder)
        expect(ran.printed, b"1 mntner C-MNT: added\n% items 1\n", "its registration")
        expect(
            len(
                {tool("auth", "--save", f"p{number}", folder=folder).printed for number in range(3)}
            ),
            3,
            "how many lines differ of 3",
        )
        expect_line(
            tool("auth", "--save", "my.password", folder=folder),
            2,
            "my.password: there is such a file; .*",
            "the same file again",
        )
        expect_line(
            tool("auth", "AS-X", "--ask"),
            2,
            "AS-X: this is not a maintainer's name; .*",
            "a bad name",
        )
        ran = tool.on_terminal(
            "auth", "--ask", "D-MNT", typed=b"some words of mine\nsome words of mine"
        )
        line = re.search(rb"auth: +SHA256-PW ([A-Za-z0-9]+):([0-9a-f]{64})\n", ran.printed)
        expect(
            bool(line)
            and hashlib.sha256(line[1] + b"some words of mine").hexdigest().encode() == line[2],
            True,
            "an asked one",
        )
        tried: list[tuple[list[str], int]] = [([], 2), (["--short"], 0)]
        for words, status in tried:
            ran = tool.on_terminal("auth", "--ask", *words, typed=b"fourteen chars\nfourteen chars")
            is_refused = b"fewer than 15 characters" in ran.printed
            expect((ran.status, is_refused), (status, status == 2), f"a short one: {words}")
        ran = tool.on_terminal("auth", "--ask", typed=b"one\nother")
        expect(
            (ran.status, b"the two passwords differ" in ran.printed),
            (2, True),
            "two passwords that differ",
        )
        ran = tool.on_terminal("auth")
        expect(
            (ran.status, bool(re.search(rb"password: [a-z2-7-]{23}\n", ran.printed))),
            (0, True),
            "a new one at the terminal",
        )
        alone = subprocess.run(
            [sys.executable, tool.path, "auth"],
            env=tool.environment,
            capture_output=True,
            start_new_session=True,
            stdin=subprocess.DEVNULL,
            check=False,
        )
        expect(
            (alone.returncode, alone.stdout, b"--save" in alone.stderr),
            (2, b"", True),
            "a new one without a terminal",
        )
        place = write(folder, "d.rpsl", b"inetnum: 192.0.2.0/25\nmnt-by: A-MNT\nsource: TEST\n")
        ran = tool.on_terminal("submit", "--as", "A-MNT", place, typed=b"one good secret")
        expect(
            (ran.status, b"added" in ran.printed, b"good secret" in ran.printed),
            (0, True, False),
            "submit --as",
        )
        ran = tool.on_terminal("submit", "--as", "A-MNT", place, typed=b"ends in a blank ")
        expect(
            (ran.status, b"blank at an end" in ran.printed),
            (2, True),
            "a password that ends in a blank",
        )
    tell("made, saved, asked and given")

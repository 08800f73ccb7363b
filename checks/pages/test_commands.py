"""Every command of the README and of the pages in docs/, run as it is printed there, and what it
prints.

A block ```sh has commands. What they print on both streams is the block ```text that comes next, or
nothing where another block or none comes next; a line `...` stands for any lines. The blocks of a
page run in turn in one shell, in a folder of their own that has the repository's files, with what
scripts/install puts in place on the PATH. A block below the line `<!-- not run: WHY -->` is passed
over, and one below `<!-- needs: COMMAND.. -->` where one of the commands is missing. Each block is
a case."""

import functools
import os
import re
import shlex
import shutil
import signal
import subprocess
import tempfile
from dataclasses import dataclass, field
from pathlib import Path
from typing import Any

import pytest

from checks.running import TOP as FOLDER

SECONDS = 35
TOP = Path(FOLDER)
# The most seconds that a page may take.
PATIENCE = 200
# Where commands are looked for: Debian keeps BIRD in the second folder, and FRR's programs in the
# third.
PATHS = f"{os.environ['PATH']}:/usr/sbin:/usr/lib/frr"
MARK = re.compile(r"<!-- (not run|needs): (.*?) -->")
# A loop that waits for something, in a line of commands, and what ends it where that never comes.
WAIT = re.compile(r"^.*\buntil .*; do sleep .*$", re.M)
BOUND = re.compile(r"\btimeout \d+ sh -c 'until |\|\| ! kill -0 ")
COPIED = [
    "README.md",
    "CONTRIBUTING.md",
    "LICENSE",
    "dist",
    "docs",
    "examples",
    "man",
    "scripts",
    "tools",
    "units",
    "web",
]


@dataclass
class Block:
    """A block of commands: its line in the page, what its mark says, and what it is to print."""

    line: int
    mark: tuple[str, str] | None
    commands: list[str] = field(default_factory=list)
    printed: list[str] = field(default_factory=list)


def read_blocks(page: Path) -> list[Block]:
    """The blocks of commands of a page, in turn."""
    blocks: list[Block] = []
    mark: tuple[str, str] | None = None
    into: list[str] | None = None
    may_be_printed = False
    for number, line in enumerate(page.read_text().splitlines(), 1):
        if into is not None:
            if line == "```":
                into = None
            else:
                into.append(line)
        elif line.startswith("```"):
            kind = line[3:]
            if kind == "sh":
                blocks.append(Block(number, mark))
                into = blocks[-1].commands
            elif kind == "text" and may_be_printed:
                into = blocks[-1].printed
            else:
                into = []
            may_be_printed = kind == "sh"
            mark = None
        elif found := MARK.fullmatch(line):
            mark = (found[1], found[2])
        elif line:
            mark = None
    return blocks


def reason_to_pass(block: Block) -> str | None:
    """Why a block is not run, if so."""
    if block.mark is None:
        return None
    kind, words = block.mark
    if kind == "not run":
        return f"not run: {words}"
    missing = [word for word in words.split() if shutil.which(word, path=PATHS) is None]
    return f"{' and '.join(missing)} is not there" if missing else None


def is_as_printed(seen: list[str], printed: list[str]) -> bool:
    """Whether the lines are those that are printed, in which `...` stands for any."""
    if "..." not in printed:
        return seen == printed
    pattern = "".join("(?:.*\n)*" if line == "..." else re.escape(line + "\n") for line in printed)
    return re.fullmatch(pattern, "".join(line + "\n" for line in seen)) is not None


def prepare(folder: Path, program: Path) -> dict[str, str]:
    """Makes the folder of a page, with the program in place; gives the environment of its shell."""
    for name in COPIED:
        source = TOP / name
        if source.is_dir():
            shutil.copytree(source, folder / name)
        elif source.exists():
            shutil.copy2(source, folder / name)
    (folder / "irrdesk").symlink_to(program)
    (folder / "scripts/program").write_text(f"#!/bin/sh\necho {shlex.quote(str(program))}\n")
    home = folder.parent / "home"
    home.mkdir()
    installed = folder.parent / "installed"
    subprocess.run([folder / "scripts/install", installed], check=True)
    return dict(
        os.environ,
        HOME=str(home),
        PATH=f"{installed}/bin:{PATHS}",
        LC_ALL="C.UTF-8",
        TZ="UTC",
        no_proxy="*",
    )


@functools.cache
def apart() -> list[str]:
    """What begins a command whose ports are nobody else's: pages have fixed ones, and another run
    of them may go on beside this one. Nothing where there is no namespace to be had."""
    words = ["unshare", "--net", "sh", "-c", 'ip link set lo up && exec "$@"', "sh"]
    can = (
        shutil.which(words[0])
        and not subprocess.run(
            [*words, "true"], env=os.environ | {"PATH": PATHS}, capture_output=True, check=False
        ).returncode
    )
    return words if can else []


def run_page(page: Path, blocks: list[Block], program: Path) -> dict[int, list[str] | None]:
    """Runs the blocks, and gives the lines that each printed; none where it did not come to its
    end."""
    with tempfile.TemporaryDirectory() as name:
        folder = Path(name) / page.stem
        folder.mkdir()
        environment = prepare(folder, program)
        script = []
        for block in blocks:
            here = f"{name}/{block.line}"
            Path(f"{here}.sh").write_text("\n".join(block.commands) + "\n")
            script.append(f". {here}.sh >{here}.out 2>&1 </dev/null\ncp {here}.out {here}.seen\n")
        shell = subprocess.Popen(
            [*apart(), "sh"],
            stdin=subprocess.PIPE,
            cwd=folder,
            env=environment,
            text=True,
            start_new_session=True,
        )
        try:
            shell.communicate("".join(script), timeout=PATIENCE)
        except subprocess.TimeoutExpired:
            pass  # What did not come to its end is told block by block.
        try:
            os.killpg(shell.pid, signal.SIGKILL)
        except ProcessLookupError:
            pass
        shell.wait()
        seen: dict[int, list[str] | None] = {}
        for block in blocks:
            file = Path(f"{name}/{block.line}.seen")
            seen[block.line] = file.read_text().splitlines() if file.exists() else None
        return seen


PAGES = [
    page for page in [TOP / "README.md", *sorted((TOP / "docs").glob("*.md"))] if read_blocks(page)
]


@pytest.mark.parametrize("page", PAGES, ids=[str(page.relative_to(TOP)) for page in PAGES])
def test_commands_of_a_page_print_what_it_says(program: str, page: Path, subtests: Any) -> None:
    blocks = read_blocks(page)
    passed = {block.line: reason for block in blocks if (reason := reason_to_pass(block))}
    seen = run_page(page, [block for block in blocks if block.line not in passed], Path(program))
    for block in blocks:
        if passed.get(block.line, "").startswith("not run"):
            continue
        with subtests.test(f"line {block.line}"):
            if block.line in passed:
                pytest.skip(passed[block.line])
            lines = seen[block.line]
            assert lines is not None, f"it did not come to its end within {PATIENCE} seconds"
            assert is_as_printed(
                lines, block.printed
            ), f"it printed {lines} and not {block.printed}"


@pytest.mark.parametrize(
    "name", ["CONTRIBUTING.md", *(str(page.relative_to(TOP)) for page in PAGES)]
)
def test_a_loop_that_waits_has_a_bound(name: str) -> None:
    """That what a page waits for may fail to come without holding the reader's shell for ever."""
    waits = WAIT.findall((TOP / name).read_text())
    assert not [line for line in waits if not BOUND.search(line)]

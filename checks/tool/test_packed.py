"""The tool's one file, its help, what shells read, and its pages."""

import os
import re
import shutil
import subprocess
import time
import zipimport
from pathlib import Path

from checks.running import TOP, Tell, Trial, expect, run, write
from checks.worlds import Tool
from irr.registry.codes import TABLE as CODES

# The manual of a group of commands, where it is not called by the group.
PAGES = {"ask": "irr.1", "about": "irr.1"}


def test_its_one_file_has_all_commands_and_the_same_bytes_each_time(
    trial: Trial, tool: Tool, tell: Tell
) -> None:
    """The one file: the same bytes each time, compiled, and all commands in it."""
    folder = trial.place("packed")
    paths = [os.path.join(folder, name) for name in ("one", "two")]
    for path in paths:
        subprocess.run([os.path.join(TOP, "tools", "build"), path], check=True)
        time.sleep(1.1)
    texts = [open(path, "rb").read() for path in paths]
    expect(
        (texts[0] == texts[1], texts[0][:23]), (True, b"#!/usr/bin/env python3\n"), "two packings"
    )
    expect(os.access(paths[0], os.X_OK), True, "that it can be run")
    importer = zipimport.zipimporter(os.path.join(paths[0], "irr"))
    expect(
        importer.get_code("main").co_filename,
        "irr/main.py",
        "whether what was compiled at the packing is taken",
    )
    listed = re.findall(r"^  (\S+) ", tool("--help").printed.decode(), re.M)
    for name in listed:
        for words in [name, "--help"], ["help", name]:
            ran = tool(*words)
            examples = ran.printed.partition(b"\nExamples:\n")[2]
            expect(
                (ran.status, ran.reported, b"irr %s" % name.encode() in examples),
                (0, b"", True),
                f"the help of {name}",
            )
    expect(tool("--version").printed.startswith(b"irr "), True, "the version")
    tell(f"{len(listed)} commands")


def test_shells_complete_commands_options_and_codes(trial: Trial, tool: Tool, tell: Tell) -> None:
    """What shells read is read by them, and bash completes commands, options and codes."""
    folder, tried = trial.place("completion"), []
    for shell in "bash", "zsh", "fish":
        ran = tool("completion", shell)
        path = write(folder, f"irr.{shell}", ran.printed)
        expect(
            (ran.status, ran.printed.count(b"--dry-run") > 0), (0, True), f"the words for {shell}"
        )
        if shutil.which(shell):
            expect(run([shell, "-n", path], folder).reported, b"", f"what {shell} says of them")
            tried.append(shell)
    for line, wanted in [
        ("irr que", "query"),
        ("irr submit --dr", "--dry-run"),
        ("irr explain E1", "E10 E11 E12 E13 E14 E15 E16 E17 E18"),
        ("irr completion f", "fish"),
        ("irr query inv", "inverse"),
    ]:
        words = line.split()
        given = " ".join(f"'{word}'" for word in words)
        asked = (
            f". {folder}/irr.bash; COMP_WORDS=({given}); COMP_CWORD={len(words) - 1}; _irr; echo"
            " ${COMPREPLY[*]}"
        )
        expect(run(["bash", "-c", asked], folder).printed.decode().strip(), wanted, f"{line}<tab>")
    tell(", ".join(tried))


def test_the_manual_names_each_command_option_and_code(tool: Tool, tell: Tell) -> None:
    """The manual names each command and option, and its codes are those of the table."""
    parts = {path.name: path.read_text(encoding="utf-8") for path in Path(TOP, "man").glob("*.1")}
    listed: dict[str, str] = {}
    for group, names in re.findall(
        r"^([a-z]+):\n((?:  .*\n)+)", tool("--help").printed.decode(), re.M
    ):
        listed |= {name: group for name in re.findall(r"^  (\S+) ", names, re.M)}
    for name, group in listed.items():
        # The door and its log have a page of their own.
        of = "irr-door.1" if name in ("door", "log") else PAGES.get(group, f"irr-{group}.1")
        text = parts[of]
        expect(f".It Cm {name}" in text or f".Cm {name}" in text, True, f"{name} in {of}")
        for option in re.findall(
            r"^  (-[^ ,]+)(?:[^,\n]*, (--[a-z-]+))?", tool(name, "--help").printed.decode(), re.M
        ):
            word = option[1] or option[0]
            if word != "--help":
                expect(f"Fl {word[1:]}" in text, True, f"{word} of {name} in {of}")
    table = {code.code: code for code in CODES}
    expect(
        plain(tool("explain").printed.decode()),
        plain(" ".join(" ".join(code) for code in CODES)),
        "what `irr explain` prints",
    )
    manual = dict(
        re.findall(r"^\.It Li (E\d\d)\n((?:(?!\.It|\.El).*\n)+)", parts["irrdesk.1"], re.M)
    )
    expect(sorted(manual), sorted(table), "the codes of the manual")
    for name, code in table.items():
        wanted = f"{code.sentence} {code.causes} Remedy: {code.remedy}"
        expect(
            plain(re.sub(r"^\.\w+ ", "", manual[name].replace(r"\ ", " "), flags=re.M)),
            plain(wanted),
            f"{name} in the manual",
        )
    tell(f"{len(table)} codes")


def plain(words: str) -> str:
    """Words without what marks code, and with single blanks; mdoc sets a blank before a comma or a
    full stop."""
    return re.sub(r" ([.,;:])", r"\1", " ".join(words.replace("`", "").split()))

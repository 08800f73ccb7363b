"""A backup in the place of a registry."""

import itertools
import os
import re
import shutil
from collections.abc import Callable
from pathlib import Path
from typing import Any

import pytest

from checks.running import Ran, Tell, Trial, expect, short, write, write_settings
from checks.tool.forking import run_forked
from checks.worlds import Tool, World, expect_line, items

IN_MEMORY = True


def test_a_backup_is_put_in_the_place_of_a_registry(trial: Trial, tool: Tool, tell: Tell) -> None:
    """That a backup gives the same registry again, over one that it lacks nothing of, one that is
    damaged, none, and, if told, one with other objects; what stood there is kept."""
    with World(trial, tool, "restores") as world:
        folder, place = world.folder, os.path.join(world.folder, "backups")
        expect_line(
            tool("restore", "--settings", "s.toml", folder, folder=folder),
            5,
            "it has no irr.toml, so it is not a backup",
            "a folder that is no backup",
        )
        ran = tool("backup", "--settings", "s.toml", place, folder=folder)
        expect(ran.status, 0, f"a backup: {ran.reported!r}")
        backup = os.path.join(place, next(name for name in os.listdir(place) if name[0] != "."))
        expect(
            [open(path, "rb").read() for path in (f"{backup}/irr.toml",)],
            [open(f"{folder}/s.toml", "rb").read()],
            "the settings of a backup",
        )
        expect_line(
            restore(tool, folder, backup), 4, ".*stop the server first", "one that is served"
        )
    wanted = dump(trial, folder)

    ran = restore(tool, folder, backup)
    expect((ran.status, ran.reported, b"replaced" in ran.printed), (0, b"", False), "over the same")
    expect(dump(trial, folder), wanted, "the registry over the same")

    trial.run(folder, "submit", "s.toml", write(folder, "t", b"password: bc\n\n" + items(1)[0]))
    other = dump(trial, folder)
    expect(other != wanted, True, "whether it was changed")
    expect_line(
        restore(tool, folder, backup),
        4,
        ".*other objects than the backup: 1 object of it, 0 objects of the backup; .*--over",
        "over other objects",
    )
    expect(dump(trial, folder), other, "the registry that was not restored over")
    os.chmod(os.path.join(folder, "irr.db"), 0o640)
    if os.geteuid() == 0:
        os.chown(os.path.join(folder, "irr.db"), 12_345, 12_345)
    was = rights(folder)
    ran = restore(tool, folder, "--over", backup)
    expect((ran.status, ran.reported), (0, b""), f"when told to: {ran.reported!r}")
    expect((dump(trial, folder), rights(folder)), (wanted, was), "the registry and its owner")
    kept = re.search(rb": (\S+replaced-\S+)$", ran.printed.strip())
    ran = restore(tool, folder, "--over", kept[1].decode())
    expect((ran.status, dump(trial, folder)), (0, other), f"what is kept: {ran.reported!r}")
    ran = restore(tool, folder, "--over", backup)
    expect((ran.status, dump(trial, folder)), (0, wanted), f"once more: {ran.reported!r}")
    expect_line(
        restore(tool, folder, place),
        5,
        f"it has no irr.toml, so it is not a backup; name one of those in it, such as {backup}",
        "the folder of all backups",
    )

    with open(os.path.join(folder, "irr.db"), "r+b") as file:
        file.seek(4_096)
        file.write(b"damage")
    ran = restore(tool, folder, backup)
    expect((ran.status, b"replaced" in ran.printed), (0, True), f"over damage: {ran.reported!r}")
    expect(dump(trial, folder), wanted, "the registry over a damaged one")

    new = trial.place("restored-elsewhere")
    shutil.copytree(backup, os.path.join(new, "backup"))
    ran = restore(tool, new, os.path.join(new, "backup"))
    expect((ran.status, ran.reported), (0, b""), f"where nothing is: {ran.reported!r}")
    expect(dump(trial, new), wanted, "the registry in a new folder")
    expect(os.stat(os.path.join(new, "irr.db")).st_mode & 0o777, 0o600, "its rights")
    left = [name for name in os.listdir(new) if name not in ("backup", "irr.db", "s.toml")]
    expect([name for name in left if not name.startswith("irr.db-")], [], "what is left beside it")
    tell("over the same, others, a damaged one, and none")


def test_what_is_no_whole_backup_changes_nothing(trial: Trial, tool: Tool) -> None:
    """Of another registry, with a dump of other objects, without a database."""
    with World(trial, tool, "not-restored") as world:
        folder, place = world.folder, os.path.join(world.folder, "backups")
        ran = tool("backup", "--settings", "s.toml", place, folder=folder)
        expect(ran.status, 0, f"a backup: {ran.reported!r}")
    backup = os.path.join(place, next(name for name in os.listdir(place) if name[0] != "."))
    wanted = dump(trial, folder)
    for number, (name, change, status, pattern) in enumerate(
        [
            ("irr.toml", lambda text: text.replace(b"TEST", b"OTHER"), 3, ".*one of OTHER.*"),
            (
                "dump.rpsl",
                lambda text: text[: len(text) // 2],
                4,
                ".*other objects; take another.*",
            ),
            ("irr.db", lambda text: b"damage" + text, 4, ".*"),
            ("irr.db", lambda text: b"", 4, ".*"),
        ]
    ):
        made = shutil.copytree(backup, os.path.join(trial.work, f"made-{number}"))
        with open(os.path.join(made, name), "rb") as file:
            text = file.read()
        write(made, name, change(text))
        expect_line(restore(tool, folder, made), status, pattern, f"a changed {name}")
    expect(dump(trial, folder), wanted, "the registry")
    expect([name for name in os.listdir(folder) if "restore" in name], [], "what is left")


# What changes a folder. A stop between two of these leaves what the first one left.
CHANGES = ("replace", "rename", "link", "unlink")
KILLED = 137


def killed_at(step: int, folder: str, patched: pytest.MonkeyPatch) -> None:
    """Lets this process end before so many changes of what stands in a folder."""
    left = itertools.count(step, -1)

    def before(change: Callable[..., None]) -> Callable[..., None]:
        def changed(*paths: Any, **more: Any) -> None:
            if folder in (os.path.dirname(path) for path in paths if isinstance(path, (str, Path))):
                if next(left) == 1:
                    os._exit(KILLED)
            change(*paths, **more)

        return changed

    for name in CHANGES:
        patched.setattr(os, name, before(getattr(os, name)))
    patched.chdir(folder)


def test_a_restore_that_is_killed_leaves_one_of_the_two_whole(
    trial: Trial, tool: Tool, monkeypatch: pytest.MonkeyPatch, tell: Tell
) -> None:
    """Over a registry whose log has what its database lacks, by an older backup and by one of the
    same objects. The next restore puts the backup in place; what stood there first is kept."""
    with World(trial, tool, "killed") as world:
        older = backed_up(tool, world.folder, "older")
        text = b"password: bc\n\n" + b"\n".join(items(20))
        expect(world.tool("submit", "-", stdin=text).status, 0, "newer objects")
        newer, held = backed_up(tool, world.folder, "newer"), world.copy("killed-held")
    expect(os.stat(f"{held}/irr.db-wal").st_size > 4_096, True, "whether its log has something")
    old, moments = dumped(trial, held), 0
    for backup, new in (older, dumped(trial, older)), (newer, old):
        seen: set[bytes] = set()
        for step in itertools.count(1):
            own = shutil.copytree(held, os.path.join(trial.work, f"killed-{moments + step}"))
            with monkeypatch.context() as patched:
                killed_at(step, own, patched)
                ran = run_forked(tool, "restore", "--settings", "s.toml", "--over", backup)
            expect(ran.status in (0, KILLED), True, f"step {step}: {ran.reported!r}")
            seen.add(dumped(trial, own))
            expect(seen <= {old, new}, True, f"the registry stopped at step {step}")
            is_whole = ran.status == 0
            with monkeypatch.context() as patched:
                patched.chdir(own)
                ran = run_forked(tool, "restore", "--settings", "s.toml", "--over", backup)
            expect(ran.status, 0, f"the next one after step {step}: {ran.reported!r}")
            expect(dumped(trial, own), new, f"the registry after step {step}")
            kept = [one.parent for one in Path(own).glob("replaced-*/irr.db")]
            found = old in (dumped(trial, str(one)) for one in kept)
            expect(found, new != old, f"what is kept after step {step}: {kept}")
            if is_whole and kept:
                ran = restore(tool, own, "--over", str(kept[0]))
                expect(
                    (ran.status, dumped(trial, own)), (0, old), f"what is kept: {ran.reported!r}"
                )
            left = [name for name in os.listdir(own) if name[0] == "."]
            expect(left, [], f"what is left after step {step}")
            if is_whole:
                break
        expect(seen, {old, new}, "the registries that were there")
        moments += step
    tell(f"{moments} moments")


def backed_up(tool: Tool, folder: str, name: str) -> str:
    """A new backup of a registry."""
    place = os.path.join(folder, name)
    ran = tool("backup", "--settings", "s.toml", place, folder=folder)
    expect(ran.status, 0, f"a backup: {ran.reported!r}")
    return os.path.join(place, next(one for one in os.listdir(place) if one[0] != "."))


def dumped(trial: Trial, folder: str) -> bytes:
    """The full dump of the registry in a folder, which stays as it is."""
    place = trial.place("dumped")
    write_settings(place)
    for name in os.listdir(folder):
        if name.startswith("irr.db"):
            shutil.copy(f"{folder}/{name}", place)
    try:
        return dump(trial, place)
    finally:
        shutil.rmtree(place)


def restore(tool: Tool, folder: str, *words: str) -> Ran:
    return tool("restore", "--settings", "s.toml", *words, folder=folder)


def dump(trial: Trial, folder: str) -> bytes:
    ran = trial.run(folder, "dump", "s.toml", "--full")
    expect(ran.status, 0, f"a dump: {short(ran.reported)}")
    return ran.printed


def rights(folder: str) -> tuple[int, int, int]:
    seen = os.stat(os.path.join(folder, "irr.db"))
    return seen.st_mode, seen.st_uid, seen.st_gid

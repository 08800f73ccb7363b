"""The files of NRTM, version 4: what they name, when they are made anew, and a mirror of its own
that follows them under changes of chance, while what writes them is killed."""

import json
import os
import shutil
import subprocess
import sys
import time
from pathlib import Path

import pytest

from checks.mirrors.changing import Chance, Changing
from checks.mirrors.client import Key, objects_of
from checks.mirrors.client4 import NOTIFICATION, Mirror4, Unsigned
from checks.mirrors.test_serials import NOW, States, aut_num
from checks.running import Tell, Trial, expect
from checks.tool.forking import run_forked
from checks.worlds import Tool
from irr.local import nrtm4
from irr.system import signing

IN_MEMORY = True
SECONDS = 60
HOUR = 3_600


class Publishing(States):
    """A history whose states are given, and are published one by one."""

    def __init__(self, folder: str) -> None:
        super().__init__(os.path.join(folder, "h"))
        self.out, self.keys = Path(folder, "out"), signing.Keys(Path(folder, "keys"))
        for path in self.out, self.keys.folder:
            path.mkdir(parents=True)
        self.objects: dict[Key, str] = {}

    def publish(self, *objects: str, now: int = NOW) -> nrtm4.Published:
        """Another state; without objects, what is published without a change."""
        if objects:
            self.add(*objects, now=now)
        return nrtm4.Publisher(self.folder, self.out, self.keys).publish()

    def later(self, seconds: float) -> None:
        """Lets so much time go by: all that there is becomes older."""
        path = self.keys.folder / nrtm4.STATE
        state = json.loads(path.read_bytes())
        for one in state["snapshot"], *state["deltas"]:
            one["made"] -= seconds
        path.write_text(json.dumps(state))
        for path in *self.out.iterdir(), *self.keys.folder.glob("*.pem"):
            then = path.stat().st_mtime - seconds
            os.utime(path, (then, then))

    def names(self) -> set[str]:
        return {path.name for path in self.out.iterdir()} - {NOTIFICATION}

    def signed(self) -> bytes:
        return (self.out / NOTIFICATION).read_bytes()

    def signed_at(self) -> int:
        """When the notification was put in place."""
        return (self.out / NOTIFICATION).stat().st_mtime_ns

    def mirror(self) -> Mirror4:
        return Mirror4("TEST", str(self.out), signing.public(self.keys.now))

    def need_same(self, mirror: Mirror4) -> None:
        """That a mirror has the objects of the last state."""
        last = self.serials.now()
        assert last
        dump = b"".join(self.serials.dump(last)).decode()
        expect(mirror.objects == objects_of(dump), True, f"what it has: {mirror.objects}")


@pytest.fixture
def states(trial: Trial, request: pytest.FixtureRequest) -> Publishing:
    return Publishing(trial.place(request.node.name))


def versions(state: nrtm4.Published) -> tuple[int, int, list[int]]:
    """The version, that of the snapshot, and those of the changes."""
    return state.version, state.snapshot.version, [one.version for one in state.deltas]


def test_a_state_is_a_version_and_each_change_is_published_once(states: Publishing) -> None:
    expect(versions(states.publish(aut_num(1))), (1, 1, []), "the first state")
    mirror = states.mirror()
    expect((mirror.follow(), mirror.follow()), (True, False), "a mirror, twice")
    states.need_same(mirror)
    expect(versions(states.publish(aut_num(2))), (2, 1, [2]), "another one")
    # Several states at once are one version, in which what came and went again is not told.
    states.add(aut_num(2), aut_num(3))
    states.add(aut_num(2), aut_num(4))
    expect(versions(states.publish()), (3, 1, [2, 3]), "two more")
    expect((mirror.follow(), mirror.snapshots, mirror.deltas), (True, 1, 2), "what it took")
    states.need_same(mirror)
    before, names = states.signed_at(), states.names()
    states.add(aut_num(2), aut_num(4), aut_num(5))
    states.add(aut_num(2), aut_num(4))
    expect(versions(states.publish()), (3, 1, [2, 3]), "what was there before")
    expect((states.signed_at(), states.names()), (before, names), "the files")
    fresh = states.mirror()
    fresh.follow()
    expect((fresh.version, fresh.objects == mirror.objects), (3, True), "one that begins later")


def test_changes_are_named_for_a_day_and_snapshots_made_once_a_day(states: Publishing) -> None:
    states.publish(aut_num(1))
    mirror = states.mirror()
    mirror.follow()
    states.later(12 * HOUR)
    expect(versions(states.publish(aut_num(2))), (2, 1, [2]), "after half a day")
    states.later(13 * HOUR)
    expect(versions(states.publish()), (2, 2, [2]), "a day after the first snapshot")
    states.later(12 * HOUR)
    expect(versions(states.publish()), (2, 2, []), "a day after the change")
    states.later(48 * HOUR)
    expect(versions(states.publish()), (2, 2, []), "two days without a change")
    expect(versions(states.publish(aut_num(3))), (3, 3, [3]), "and one with a change")
    expect((mirror.follow(), mirror.snapshots), (True, 2), "a mirror that was away too long")
    states.need_same(mirror)


def test_files_stay_for_an_hour_once_they_are_no_longer_named(states: Publishing) -> None:
    states.publish(aut_num(1))
    first = states.names()
    # What is left of runs that were killed.
    for name in ".nrtm-snapshot.x", f".{NOTIFICATION}.x", "nrtm-delta.9.x", ".lock":
        (states.out / name).write_text("")
    states.later(25 * HOUR)
    (states.out / "nrtm-delta.8.x").write_text("")
    states.publish(aut_num(2))
    named = states.names() - first - {".lock", "nrtm-delta.8.x"}
    expect(states.names() >= first, True, "what was named before, though it is old")
    expect((len(named), ".lock" in states.names()), (2, True), f"what is new: {named}")
    expect("nrtm-delta.8.x" in states.names(), True, "what was left just now")
    states.later(0.9 * HOUR)
    states.publish()
    expect(states.names() >= first, True, "within the hour")
    states.later(0.2 * HOUR)
    states.publish()
    expect(states.names(), named | {".lock"}, "after it")


def test_the_notification_is_signed_anew_each_hour(states: Publishing) -> None:
    states.publish(aut_num(1))
    before = states.signed_at()
    states.publish()
    expect(states.signed_at(), before, "at once")
    states.later(0.9 * HOUR)
    before = states.signed_at()
    states.publish()
    expect(states.signed_at(), before, "within the hour")
    states.later(0.2 * HOUR)
    states.publish()
    expect(states.signed_at() > before, True, "after it")
    # Of a clock that was ahead.
    states.later(-48 * HOUR)
    before = states.signed_at()
    states.publish()
    expect(states.signed_at() < before, True, "whether one of the future is")


def test_lost_serials_begin_a_session_anew(states: Publishing) -> None:
    """Also where the new ones are the same numbers, or lower."""
    sessions = [states.publish(aut_num(1)).session]
    mirror = states.mirror()
    mirror.follow()
    copy = states.folder.with_name("copy")
    shutil.copytree(states.folder, copy)
    states.publish(aut_num(2))

    def need_anew(what: str) -> None:
        again = states.publish()
        expect((versions(again), again.session in sessions), ((1, 1, []), False), what)
        sessions.append(again.session)
        expect((mirror.follow(), mirror.snapshots), (True, len(sessions)), f"a mirror, {what}")
        states.need_same(mirror)

    shutil.rmtree(states.folder)
    copy.rename(states.folder)
    need_anew("an older history")
    states.publish(aut_num(3))
    states.publish(aut_num(4))
    mirror.follow()
    shutil.rmtree(states.serials.folder)
    states.update()
    need_anew("serials from the same one on")
    for number in range(3):
        states.add(aut_num(number))
    shutil.rmtree(states.serials.folder)
    states.update()
    for number in range(9):
        states.add(aut_num(number))
    need_anew("others in the place of those that were lost")


@pytest.mark.parametrize("is_lost", [False, True])
def test_a_restored_folder_of_keys_begins_a_session_anew(states: Publishing, is_lost: bool) -> None:
    """Where more was published in its session, which a mirror may have. Of that nothing tells once
    the notification is lost too."""
    first = states.publish(aut_num(1))
    copy = states.keys.folder.with_name("copy")
    shutil.copytree(states.keys.folder, copy)
    states.publish(aut_num(1), aut_num(2))
    mirror = states.mirror()
    mirror.follow()
    shutil.rmtree(states.keys.folder)
    copy.rename(states.keys.folder)
    if is_lost:
        shutil.rmtree(states.out)
        states.out.mkdir()
    again = states.publish(aut_num(1), aut_num(3))
    expect((versions(again), again.session == first.session), ((1, 1, []), False), "what is anew")
    expect((mirror.follow(), mirror.snapshots), (True, 2), "the mirror")
    states.need_same(mirror)


def test_a_restored_folder_of_keys_of_another_session_begins_one_anew(states: Publishing) -> None:
    """Its session may have had more versions, which a mirror has that was away since."""
    states.publish(aut_num(1))
    copy = states.keys.folder.with_name("copy")
    shutil.copytree(states.keys.folder, copy)
    states.publish(aut_num(1), aut_num(2))
    mirror, away = states.mirror(), states.mirror()
    mirror.follow()
    away.follow()
    shutil.copytree(states.folder, states.folder.with_name("kept"))
    shutil.rmtree(states.serials.folder)
    states.update()
    second = states.publish(aut_num(1), aut_num(4))
    expect(second.session != mirror.session, True, "whether a second session began")
    mirror.follow()
    for folder, kept in (states.keys.folder, copy), (
        states.folder,
        states.folder.with_name("kept"),
    ):
        shutil.rmtree(folder)
        kept.rename(folder)
    third = states.publish(aut_num(1), aut_num(5))
    sessions = {away.session, second.session, third.session}
    expect((versions(third), len(sessions)), ((1, 1, []), 3), "what is anew")
    for one in mirror, away:
        expect(one.follow(), True, "a mirror")
        states.need_same(one)


def test_states_that_nobody_knows_any_more_begin_a_session_anew(
    states: Publishing, monkeypatch: pytest.MonkeyPatch
) -> None:
    first = states.publish(aut_num(1))
    mirror = states.mirror()
    mirror.follow()
    states.add(aut_num(2))
    monkeypatch.setattr("irr.local.serials.MOST_STATES", 1)
    found = states.publish(aut_num(3))
    expect((versions(found), found.session != first.session), ((1, 1, []), True), "what is anew")
    expect((mirror.follow(), mirror.snapshots), (True, 2), "the mirror")
    states.need_same(mirror)


def test_files_that_were_lost_are_made_anew(states: Publishing) -> None:
    states.publish(aut_num(1))
    states.publish(aut_num(2))
    mirror = states.mirror()
    mirror.follow()
    for path in states.out.iterdir():
        if path.name != NOTIFICATION:
            path.unlink()
    expect(versions(states.publish()), (2, 2, []), "without a change")
    expect(mirror.follow(), False, "a mirror that has it all")
    states.publish(aut_num(3))
    expect((mirror.follow(), mirror.snapshots), (True, 1), "and then follows")
    states.need_same(mirror)


@pytest.mark.parametrize("algorithm", list(signing.MAKES))
def test_the_next_key_signs_once_it_was_announced(states: Publishing, algorithm: str) -> None:
    states.publish(aut_num(1))
    mirror, away = states.mirror(), states.mirror()
    mirror.follow()
    away.follow()
    states.keys.make(algorithm)
    states.publish()
    mirror.follow()
    expect(mirror.next_key, signing.public(states.keys.next), "the key that is told")
    states.keys.roll()
    states.publish(aut_num(2))
    expect(mirror.follow(), True, "a mirror that was told it")
    expect((mirror.key, mirror.next_key), (signing.public(states.keys.now), ""), "what it trusts")
    states.need_same(mirror)
    with pytest.raises(Unsigned):
        away.follow()
    signed = states.signed()
    (states.out / NOTIFICATION).write_bytes(signed[:-9] + b"AAAAAAAAA")
    with pytest.raises(Unsigned):
        mirror.follow()


def test_the_bytes_of_old_imports_are_text(states: Publishing) -> None:
    """What is not UTF-8 is taken for Latin-1, as JSON needs text."""
    states.add()
    odd = [aut_num(number).encode() for number in (1, 2)]
    odd = [odd[0] + "descr:          Zürich\n".encode(), odd[1] + b"descr:          Z\xfcrich\n"]
    text = [nrtm4.text_of(one) for one in odd]
    expect([one.endswith("Zürich") for one in text], [True, True], "both")


def test_the_keys_are_shown_and_changed(trial: Trial, tool: Tool) -> None:
    folder = trial.place("keys")
    refused = run_forked(tool, "nrtm4", folder)
    expect(
        (refused.status, b"it has no key" in refused.reported),
        (2, True),
        f"none: {refused.reported!r}",
    )
    ran = run_forked(tool, "nrtm4", "--new", folder)
    head = b"% signs now: EdDSA\n-----BEGIN PUBLIC KEY-----\n"
    expect((ran.status, ran.printed[: len(head)]), (0, head), "the first")
    expect(b"PRIVATE" in ran.printed, False, "whether the private key is shown")
    modes = [os.stat(path).st_mode & 0o777 for path in (folder, f"{folder}/now.pem")]
    expect(modes[1], 0o600, "who can read it")
    refused = run_forked(tool, "nrtm4", "--roll", folder)
    expect((refused.status, b"no next key" in refused.reported), (5, True), "no next one")
    ran = run_forked(tool, "nrtm4", "--new", "--algorithm", "ES256", folder)
    expect(b"\n% is announced as the next: ES256\n" in ran.printed, True, "the next one")
    refused = run_forked(tool, "nrtm4", "--new", folder)
    expect((refused.status, b"a next key already" in refused.reported), (5, True), "a third one")
    refused = run_forked(tool, "nrtm4", "--roll", folder)
    expect((refused.status, b"0.0 days ago" in refused.reported), (5, True), "at once")
    ran = run_forked(tool, "nrtm4", "--roll", "--now", folder)
    expect((ran.status, ran.printed[:20]), (0, b"% signs now: ES256\n-"), "at once, by --now")
    for words in ["--now"], ["--algorithm", "ES256"]:
        refused = run_forked(tool, "nrtm4", *words, folder)
        expect(refused.status, 2, f"{words} alone")
    bad = trial.place("bad")
    Path(bad, "now.pem").write_text("x")
    refused = run_forked(tool, "nrtm4", bad)
    expect(
        (refused.status, b"openssl pkey: " in refused.reported), (5, True), f"{refused.reported!r}"
    )
    refused = run_forked(tool.at(PATH=trial.place("none")), "nrtm4", "--new", trial.place("more"))
    reported = b"irr nrtm4: openssl: it is not installed; install it\n"
    expect((refused.status, refused.reported), (5, reported), "without openssl")
    refused = run_forked(tool, "export", "--nrtm4", folder, folder)
    expect((refused.status, b"it needs --history" in refused.reported), (2, True), "no history")


# The long form, on a busy machine.
@pytest.mark.timeout(10_800)
def test_a_mirror_has_the_public_dump_at_every_version(
    trial: Trial, tool: Tool, tell: Tell
) -> None:
    """A mirror reads while the files are replaced. What replaces them is killed now and then, keys
    are rolled, and serials are lost."""
    chance = trial.chance("mirror4")
    wanted, items = trial.count or trial.pick(100, 2_500), Chance(chance)
    counts = dict.fromkeys(("killed", "rolled", "sessions", "lost", "states"), 0)
    with Changing(trial, tool, "version4") as world:
        world.record()
        keys = signing.Keys(Path(world.folder, "keys"))
        words = ["export", "--history", world.history, "--nrtm4", str(keys.folder), world.out]
        world.ran(*words)
        mirror = Mirror4("TEST", f"{world.out}/nrtmv4", signing.public(keys.now))
        # The public dump of each version that may have been published, and what the mirror had
        # there. Serials that come after lost ones may be the same.
        dumps: dict[tuple[str, int], dict[Key, str]] = {}
        had: dict[tuple[str, int], dict[Key, str]] = {}
        states: list[nrtm4.Published] = []

        def look() -> None:
            mirror.follow()
            had[mirror.session, mirror.version] = dict(mirror.objects)

        def publish(seconds: float | None) -> None:
            """Another run, during which the mirror looks; killed after some seconds, if any."""
            process = subprocess.Popen(
                [sys.executable, world.tool.path, *words],
                env=world.tool.environment,
                stderr=subprocess.PIPE,
            )
            end, is_killed = time.monotonic() + (seconds or 0), False
            while process.poll() is None:
                if seconds is not None and time.monotonic() > end:
                    process.kill()
                    is_killed = True
                look()
            reported = process.communicate()[1]
            counts["killed"] += is_killed
            if seconds is None:
                expect((process.returncode, reported), (0, b""), "a run")
            state = nrtm4.published_in(keys.folder)
            assert state
            if state not in states[-1:]:
                # Else it was killed before, and the serial may be another state's by now.
                states.append(state)
                # The serial of a version from before may by now be that of another state.
            dumps.setdefault((state.session, state.version), world.dumps[state.serial])

        look()
        publish(None)
        while world.changes < wanted:
            world.submit(items.submission())
            if chance.random() < 0.5:
                world.record()
                counts["states"] += 1
            lot = chance.random()
            if lot < 0.1:
                publish(chance.uniform(0, 0.5))
            elif lot < 0.4:
                publish(None)
            elif lot < 0.44 and not keys.next.exists():
                keys.make(chance.choice(list(signing.MAKES)))
            elif lot < 0.48 and keys.next.exists():
                publish(None)
                look()
                keys.roll()
                counts["rolled"] += 1
            elif lot < 0.51:
                shutil.rmtree(f"{world.history}/serials")
                world.record()
                counts["lost"] += 1
        world.record()
        publish(None)
        look()
        expect(mirror.objects == world.dump(), True, "what the mirror has in the end")
        fresh = Mirror4("TEST", f"{world.out}/nrtmv4", signing.public(keys.now))
        fresh.follow()
        expect(fresh.objects == mirror.objects, True, "what one has that begins now")
        counts["sessions"] = len({session for session, _ in had})
        for place, objects in had.items():
            dump = dumps[place]
            differing = {
                key for key in objects.keys() | dump.keys() if objects.get(key) != dump.get(key)
            }
            expect(sorted(differing)[:5], [], f"what differs of a mirror at {place}")
    figures = ", ".join(f"{name} {count}" for name, count in counts.items())
    tell(
        f"{world.changes} changes, {len(had)} versions compared, {mirror.snapshots} snapshots,"
        f" {mirror.deltas} changes files; {figures}"
    )

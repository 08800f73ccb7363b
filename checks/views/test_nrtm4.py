"""A source of a view that is followed by NRTM, version 4: by a writer of the check's own, and by
the tool's own export; what is refused of it, and stays as it was."""

import gzip
import json
import os
import random
import time
from collections.abc import Callable
from pathlib import Path

import pytest

from checks.mirrors.changing import Chance, Changing
from checks.mirrors.client4 import NOTIFICATION
from checks.mirrors.writer4 import Record, Writer4, sequence, stamp
from checks.running import Tell, Trial, expect
from checks.views.following import PATH, Followed, World, named
from checks.views.test_apart import odd_set
from checks.views.test_sources import route
from checks.worlds import Tool
from irr.errors import Failure
from irr.system import signing

IN_MEMORY = True
SECONDS = 60
HOUR = 3_600

# Objects whose first line comes again, with the key and another one: no registry of this kind
# would open with such a row.
TWICE = [
    ("mntner", "C-MNT", "D-MNT", "auth: NONE"),
    ("as-block", "AS1-AS9", "AS10-AS19", ""),
    ("inetnum", "10.0.0.0/8", "11.0.0.0/8", ""),
    ("aut-num", "AS7", "AS8", ""),
    ("as-set", "AS-T", "AS-U", "members: AS1"),
    ("route-set", "RS-T", "RS-U", "members: 10.0.0.0/8"),
    ("route", "10.0.47.0/24", "10.0.48.0/24", "origin: AS2"),
]


def twice(name: str, key: str, other: str, line: str) -> str:
    rest = f"mnt-by: B-MNT\nsource: RIPE\n{line}\n"
    return f"{name}: {key}\n{name}: {key}\n{rest}{name}: {other}\n"


def add(number: int, words: str = "x") -> list[tuple[str, str]]:
    return [("ADD", route(number, 2, words))]


@pytest.mark.parametrize("algorithm", ["EdDSA", "ES256"])
def test_a_source_is_followed(mirror: Followed, trial: Trial, algorithm: str, tell: Tell) -> None:
    """After each renewal the view has what the registry has: through changes of chance, stops,
    sessions, keys that are rolled, and changes that are named no more."""
    writer, chance = mirror.writer, random.Random(algorithm)
    expect(mirror.renew(), "", "the first time")
    mirror.need_same("the first time")
    counts = dict.fromkeys(("stops", "sessions", "away", "rolled"), 0)
    for turn in range(trial.pick(40, 1_000)):
        for _ in range(chance.choice([0, 1, 1, 3])):
            changes = {}
            for _ in range(chance.choice([1, 1, 2, 5])):
                number = chance.randrange(12)
                name, text = named(route(number, 2, f"turn {turn} {chance.random()}"))
                gone = name in writer.objects and chance.random() < 0.4
                changes[name] = ("DEL", writer.objects[name]) if gone else ("ADD", text)
            writer.publish(list(changes.values()))
        lot = chance.random()
        if lot < 0.1:
            mirror.begin()
            counts["stops"] += 1
        elif lot < 0.2:
            writer.forget()
            counts["away"] += 1
        elif lot < 0.3:
            writer.begin()
            counts["sessions"] += 1
        elif lot < 0.4:
            writer.next_key = writer.new_key(algorithm)
            writer.notify()
            expect(mirror.renew(), "", "a next key")
            if chance.random() < 0.5:
                mirror.begin()
            writer.roll()
            writer.notify()
            counts["rolled"] += 1
        expect(mirror.renew(), "", f"turn {turn}")
        mirror.need_same(f"turn {turn}")
        status = next(
            one for one in mirror.view.status()["view"]["sources"] if one["name"] == "RIPE"
        )
        expect((status["nrtm"], status["serial"]), (4, writer.version), "what is told")
    snapshots = 1 + counts["sessions"]
    expect(mirror.asked("snapshot") >= snapshots, True, "snapshots, at least one a session")
    expect(mirror.asked("snapshot") <= snapshots + counts["away"], True, "and no others")
    tell(f"{counts}, {mirror.asked('snapshot')} snapshots, {mirror.asked('delta')} changes files")


# What is wrong with what is published, and what is told of it.
Fault = Callable[[Followed], None]


def notified(**changed: object) -> Fault:
    """A notification file that says something else."""
    return lambda world: world.writer.notify(changed)


def delta(change: Callable[[Record, Writer4], Record]) -> Fault:
    """One whose last changes are others than were published."""

    def spoil(world: Followed) -> None:
        writer = world.writer
        writer.publish(add(30))
        writer.notify({"deltas": [*writer.deltas[:-1], change(dict(writer.deltas[-1]), writer)]})

    return spoil


def records(*found: Record, head: Record | None = None) -> Fault:
    return delta(lambda _, writer: writer.put("delta", list(found), head))


def raw(text: Callable[[bytes], bytes]) -> Fault:
    """Changes whose bytes are others, and are named by their hash."""

    def changed(one: Record, writer: Writer4) -> Record:
        whole = writer.texts[f"/4/{one['url']}"]
        assert isinstance(whole, bytes)
        return writer.put_bytes("delta", text(whole))

    return delta(changed)


def signed(text: Callable[[Writer4, bytes], bytes]) -> Fault:
    """A notification file that is signed otherwise."""

    def spoil(world: Followed) -> None:
        writer = world.writer
        writer.texts[PATH] = text(writer, json.dumps(writer.notification()).encode())

    return spoil


def another(writer: Writer4, algorithm: str, payload: bytes, head: Record | None = None) -> bytes:
    return writer.signed(payload, writer.new_key(algorithm), head)


def altered(writer: Writer4, payload: bytes) -> bytes:
    head, text, signature = writer.signed(payload).split(b".")
    return b".".join([head, text[:-4] + b"AAAA", signature])


def bare(writer: Writer4, payload: bytes, algorithm: str) -> bytes:
    """A text that nobody signed."""
    _, text, _ = writer.signed(payload).split(b".")
    head = writer.signed(b"", None, {"alg": algorithm}).split(b".")[0]
    return b".".join([head, text, b"AAAA"])


def gone(world: Followed) -> None:
    world.writer.publish(add(30))
    world.files.texts[f"/4/{world.writer.deltas[-1]['url']}"] = 404


def spoilt_snapshot(text: bytes | int) -> Fault:
    def spoil(world: Followed) -> None:
        world.writer.begin()
        world.files.texts[f"/4/{world.writer.snapshot['url']}"] = text

    return spoil


def back(world: Followed) -> None:
    """A version that was before."""
    writer = world.writer
    writer.notify({"version": 1, "deltas": []})


def gap(world: Followed) -> None:
    world.writer.publish(add(30))
    world.writer.deltas.pop(-2)
    world.writer.notify()


def other_session_before(world: Followed) -> None:
    world.writer.begin()
    world.writer.notify({"timestamp": stamp(time.time() - HOUR)})


NO_KEY, NOT_BESIDE = "it is signed by no key that is trusted", "which is not beside it"
FAULTS: dict[str, tuple[Fault, str]] = {
    "signed by another key": (signed(lambda w, text: another(w, "EdDSA", text)), NO_KEY),
    "of another algorithm": (signed(lambda w, text: another(w, "ES256", text)), NO_KEY),
    "that is said to be ours": (
        signed(lambda w, text: another(w, "ES256", text, {"alg": "EdDSA"})),
        NO_KEY,
    ),
    "changed after it was signed": (signed(altered), NO_KEY),
    "signed by nobody": (signed(lambda w, text: bare(w, text, "none")), NO_KEY),
    "of a short signature": (signed(lambda w, text: bare(w, text, "EdDSA")), NO_KEY),
    "critical": (signed(lambda w, text: w.signed(text, None, {"crit": ["b64"]})), NO_KEY),
    "no signed text": (signed(lambda _, text: text), NO_KEY),
    "cut off": (signed(lambda w, text: w.signed(text)[:-20]), NO_KEY),
    "empty": (signed(lambda _, __: b""), NO_KEY),
    "no JSON": (signed(lambda w, _: w.signed(b"{")), "it has not JSON"),
    "a list": (signed(lambda w, _: w.signed(b"[]")), "it has not JSON"),
    "deep": (signed(lambda w, _: w.signed(b"[" * 100_000)), "it has not JSON"),
    "too long": (signed(lambda w, text: w.signed(text + b" " * (1 << 23))), "it has over 8 MiB"),
    "gone itself": (lambda world: world.files.texts.update({PATH: 404}), "status 404"),
    "as it was, though nobody asked": (
        lambda world: world.files.texts.update({PATH: 304}),
        "status 304",
    ),
    "of version 3": (notified(nrtm_version=3), "it is not a notification file of NRTM, version 4"),
    "of another kind": (notified(type="snapshot"), "it is not a notification file"),
    "of another registry": (notified(source="RADB"), "it is of RADB, and not of RIPE"),
    "of no session": (notified(session_id="x"), "`session_id`"),
    "without a version": (notified(version=None), "`version`"),
    "a version that is true": (notified(version=True), "`version`"),
    "without a time": (notified(timestamp="yesterday"), "`timestamp`"),
    "a time of no zone": (notified(timestamp="2026-11-29T10:00:00"), "`timestamp`"),
    "without a snapshot": (notified(snapshot=None), "`snapshot`"),
    "changes that are none": (notified(deltas=["x"]), "it has not files"),
    "a next key that is none": (notified(next_signing_key="x"), "it has no public key"),
    "a next key of half a character": (notified(next_signing_key="\ud800"), "no public key"),
    "stale": (notified(timestamp=stamp(time.time() - 25 * HOUR)), "it is stale: it was made at"),
    "of the future": (notified(timestamp=stamp(time.time() + 25 * HOUR)), "it is stale"),
    "back": (back, "it went back from version 3 to 1"),
    "of a session before": (other_session_before, "it is of a session before"),
    "a gap": (gap, "changes of each version up to the last"),
    "changes that end before": (notified(version=9), "changes of each version"),
    "changes that begin too late": (
        lambda world: world.writer.notify({"deltas": world.writer.deltas[-1:]}),
        "a snapshot, and the changes of each version after it",
    ),
    "a snapshot of later": (
        lambda world: world.writer.notify({"snapshot": world.writer.snapshot | {"version": 9}}),
        "a snapshot, and the changes of each version after it",
    ),
    "a file elsewhere": (delta(lambda one, _: one | {"url": "http://127.0.0.1:1/x"}), NOT_BESIDE),
    "a file above": (delta(lambda one, _: one | {"url": "../x"}), NOT_BESIDE),
    "a file at no address": (delta(lambda one, _: one | {"url": "http://[x"}), NOT_BESIDE),
    "a hash that is none": (delta(lambda one, _: one | {"hash": "x"}), "`version` and `hash`"),
    "another hash": (
        delta(lambda one, _: one | {"hash": "0" * 64}),
        "or not the one that was named",
    ),
    "a file that is gone": (gone, "status 404"),
    "a file that is cut": (raw(lambda text: text[:-9]), "it is cut off"),
    "a record that is cut": (
        raw(lambda text: gzip.compress(gzip.decompress(text)[:-5])),
        "it is cut off, or no sequence",
    ),
    "no records": (raw(lambda _: gzip.compress(b"")), "it is cut off, or no sequence"),
    "no sequence": (raw(lambda text: gzip.compress(b"{}\n")), "it is cut off, or no sequence"),
    "a record that is a list": (raw(lambda _: gzip.compress(b"\x1e[]\n")), "no sequence"),
    "changes of another kind": (records(head={"type": "snapshot"}), "it is not a delta file"),
    "changes of another version": (records(head={"version": 2}), "of another session or version"),
    "changes of another session": (
        records(head={"session_id": "11111111-1111-4111-8111-111111111111"}),
        "of another session or version",
    ),
    "changes of another registry": (records(head={"source": "RADB"}), "it is of RADB"),
    "no change": (records({"action": "x"}), "a record that is not a change"),
    "a change of no object": (records({"action": "add_modify", "object": " "}), "is not a change"),
    "a change of a number": (records({"action": "add_modify", "object": 1}), "is not a change"),
    "a deletion of two lines": (
        records({"action": "delete", "object_class": "person", "primary_key": "x\nroute: y"}),
        "is not a change",
    ),
    "a snapshot of other bytes": (spoilt_snapshot(b"x"), "or not the one that was named"),
    "a snapshot that is gone": (spoilt_snapshot(410), "status 410"),
}


@pytest.mark.parametrize("what", FAULTS)
def test_what_is_wrong_is_reported_and_takes_nothing(mirror: Followed, what: str) -> None:
    """The view stays as it was, also after a start, and goes on once it is right again."""
    writer = mirror.writer
    expect(mirror.renew(), "", "the first time")
    writer.publish(add(20))
    writer.publish(add(21))
    expect(mirror.renew(), "", "two changes")
    mirror.need_same("what it has")
    before, state = mirror.objects(), mirror.view.states["RIPE"]
    spoil, words = FAULTS[what]
    spoil(mirror)
    for _ in range(2):
        fault = mirror.renew()
        expect(words in fault, True, f"{what}: {fault}")
        expect(mirror.objects(), before, what)
        line = mirror.view.lines()[0]
        expect(line[:32], f"RIPE is not renewed since {time.strftime('%Y-%m')[:6]}", line)
        mirror.begin()
    left = state._replace(is_left=True) if what == "back" else state
    expect(mirror.view.states["RIPE"], left, "its state")
    if any(word in what for word in ("gap", "gone", "snapshot of other")):
        writer.begin()
    else:
        writer.publish(add(22))
    expect(mirror.renew(), "", "once it is right")
    mirror.need_same("what it has then")


def test_the_first_time_needs_all(mirror: Followed) -> None:
    mirror.writer.notify({"nrtm_version": 3})
    with pytest.raises(Failure, match="not a notification file.*there is no view without it"):
        mirror.renew()


def test_what_is_gone_in_between_is_read_again(mirror: Followed) -> None:
    """A file that is no longer named by the time that it is asked for."""
    expect(mirror.renew(), "", "the first time")
    writer, lost = mirror.writer, list[str]()
    for turn, renewed in enumerate([lambda: writer.publish(add(41)), writer.forget, writer.begin]):
        writer.publish(add(30 + turn, f"{turn}"))
        path = f"/4/{writer.deltas[-1]['url']}"
        text = writer.texts[path]

        class Once(dict[str, bytes | int]):
            """What changes once it is asked for."""

            def get(self, name: str, other: object = None) -> object:  # type: ignore[override] # a
                if name == path and path not in lost:
                    lost.append(path)
                    renewed()
                    return 404
                return super().get(name, other)

        mirror.files.texts = writer.texts = Once(writer.texts)
        expect(mirror.renew(), "", f"turn {turn}")
        mirror.need_same(f"turn {turn}")
        expect((len(lost), bool(text)), (turn + 1, True), "how many were lost")


def test_keys_are_announced_before_they_sign(mirror: Followed) -> None:
    """A view that was not told has to be given the key by hand, and then goes on."""
    writer = mirror.writer
    expect(mirror.renew(), "", "the first time")
    writer.next_key = writer.new_key("ES256")
    writer.notify()
    # An older notification, without the key, does not take it back.
    old = {"timestamp": stamp(time.time() - HOUR), "next_signing_key": None}
    expect(mirror.renew(), "", "a next key")
    writer.notify(old)
    expect(mirror.renew(), "", "an older one")
    first = writer.key
    writer.roll()
    writer.publish(add(20))
    expect(mirror.renew(), "", "by the next key")
    mirror.need_same("by the next key")
    writer.key = first
    writer.publish(add(21))
    expect("no key that is trusted" in mirror.renew(), True, "the first key, which signs no more")
    writer.key = writer.new_key("EdDSA")
    writer.notify()
    expect("no key that is trusted" in mirror.renew(), True, "a key that nobody told")
    (mirror.folder / "key.pem").write_text("x")
    expect("it has no public key" in mirror.renew(), True, "no key")
    (mirror.folder / "key.pem").write_text(writer.public(writer.key))
    expect(mirror.renew(), "", "the key by hand")
    mirror.need_same("by the key that was given")
    mirror.begin()
    writer.publish(add(22))
    expect((mirror.renew(), mirror.asked("snapshot")), ("", 1), "after a start")


def test_what_is_published_of_one_object_is_one(mirror: Followed) -> None:
    """Empty lines and names of classes in its text begin no other, which nobody authorised."""
    writer = mirror.writer
    stranger = route(50, 666).replace("\n", "\n\n")
    odd = [
        "route: 10.0.40.0/24\norigin: AS2\nmnt-by: B-MNT\nsource: RIPE\n\n" + route(41, 666),
        "route: 10.0.42.0/24\norigin: AS2\nmnt-by: B-MNT\nsource: RIPE\n" + route(43, 666),
        route(48) + "as-set: AS-S\nmembers: AS666\n",
        route(49) + "\nas-set: AS-S\nmembers: AS666\n",
        "\n\nroute: 10.0.44.0/24\r\norigin: AS2\r\n\r\nmnt-by: B-MNT\r\nsource: RIPE\r\n \r\n",
        "as-set: AS-ZÜRICH\nmembers: AS1\nmnt-by: B-MNT\nsource: RIPE",
        "as-set: AS-Y\ndescr: Zürich \ud800\nmembers: AS1\nmnt-by: B-MNT\nsource: RIPE",
        "# a remark\nas-set: AS-X\nmembers: AS1\nmnt-by: B-MNT\nsource: RIPE",
        "route: 10.0.46.0/24\norigin: AS2\nmnt-by: B-MNT\nsource: RADB",
        *(twice(*one) for one in TWICE),
        "person: Jo Doe\nsource: RIPE\n" + stranger,
        "% nothing",
    ]
    wanted = ["10.0.44.0/24", "10.0.48.0/24", "10.0.49.0/24", "AS-X", "AS-Y"]
    for count in range(2):
        # By a snapshot, and by changes.
        if count:
            writer.objects = dict([named(route(44))])
            writer.begin()
            expect((mirror.renew(), len(mirror.objects())), ("", 1), "nothing else of it")
            writer.publish([("ADD", text) for text in odd[:-1]])
        else:
            writer.objects = {str(place): text for place, text in enumerate(odd[:-1])}
            writer.begin()
        expect(mirror.renew(), "", "odd objects")
        names = [one.split("\n")[0].split()[1] for one in mirror.objects()]
        expect(sorted(names), sorted(wanted), f"what there is, {count}")
        expect("\norigin:         AS666" in mirror.known, False, "a stranger's route")
        expect("\n\nas-set:         AS-S" in mirror.known, False, "a stranger's set")
    writer.publish([("ADD", odd[-1])])
    expect("is not a change" in mirror.renew(), True, "a remark alone")


@pytest.mark.parametrize("is_replaced", [False, True])
def test_a_set_with_odd_text_after_its_name_is_deleted_by_the_name(
    mirror: Followed, is_replaced: bool
) -> None:
    """It keeps its name from later sources as long as it is there."""
    folder, plain = mirror.folder, odd_set("AS-X")
    (folder / "two.db").write_text(plain.replace("RIPE", "TWO"))
    with open(folder / "view.toml", "a") as file:
        file.write(f'[[source]]\nname = "TWO"\ndump = "{folder}/two.db"\n')
    mirror.begin()
    expect(mirror.renew(), "", "the first time")
    expect("source:         ALL # TWO" in mirror.known, True, "what the later source has")
    mirror.writer.publish([("ADD", odd_set("AS-X (old)"))])
    expect(mirror.renew(), "", "the set")
    expect("source:         ALL # TWO" in mirror.known, False, "while it is there")
    mirror.writer.objects["as-set: AS-X"] = mirror.writer.objects.pop("as-set: AS-X (old)")
    changes = [("DEL", plain)]
    mirror.writer.publish([("ADD", plain), *changes] if is_replaced else changes)
    expect(mirror.renew(), "", "its deletion")
    expect("source:         ALL # TWO" in mirror.known, True, "once it is deleted")


def test_a_file_of_this_machine_is_followed_too(tmp_path: Path) -> None:
    """With names of files that are not there, and above it."""
    texts: dict[str, bytes | int] = {}
    writer = Writer4("RIPE", texts, tmp_path)
    writer.objects = dict(map(named, map(route, range(6))))
    writer.begin()
    place = tmp_path / "published"
    place.mkdir()

    def put() -> None:
        for name, text in texts.items():
            assert isinstance(text, bytes)
            (place / os.path.basename(name)).write_bytes(text)

    put()
    world = World(tmp_path, "RIPE", f"{place}/{NOTIFICATION}", writer.public(writer.key))
    expect((world.renew(), len(world.objects())), ("", 6), "the first time")
    writer.publish(add(20))
    put()
    expect((world.renew(), len(world.objects())), ("", 7), "a change")
    writer.publish(add(21))
    put()
    os.unlink(place / writer.deltas[-1]["url"])
    expect("it is not there" in world.renew(), True, "a file that is gone")
    writer.notify({"deltas": [*writer.deltas[:-1], writer.deltas[-1] | {"url": "/etc/passwd"}]})
    put()
    expect("/etc/passwd, which is not beside it" in world.renew(), True, "another file")
    writer.notify()
    put()
    expect((world.renew(), len(world.objects())), ("", 8), "and then")


def test_what_is_unpacked_is_bounded(mirror: Followed, monkeypatch: pytest.MonkeyPatch) -> None:
    expect(mirror.renew(), "", "the first time")
    writer = mirror.writer
    monkeypatch.setattr("irr.views.nrtm4.MOST_TEXT", 1 << 20)
    monkeypatch.setattr("irr.views.nrtm4.MOST", 1 << 20)
    monkeypatch.setattr("irr.system.sequences.MOST", 1 << 16)
    writer.publish(add(20))
    long = {"action": "add_modify", "object": "x" * (1 << 17)}
    many = [{"action": "add_modify", "object": "route: x"}] * 40_000
    noise = random.Random(1).randbytes(1 << 21)
    for text, words in [
        (gzip.compress(sequence([writer.head("delta"), long])), "it has a text of over"),
        (gzip.compress(sequence([writer.head("delta"), *many])), "GiB unpacked"),
        (noise, "it has over 1 MiB"),
    ]:
        writer.notify({"deltas": [writer.put_bytes("delta", text)]})
        fault = mirror.renew()
        expect(words in fault, True, f"{words}: {fault}")


# The long form, on a busy machine.
@pytest.mark.timeout(10_800)
def test_the_own_export_is_followed(trial: Trial, tool: Tool, tmp_path: Path, tell: Tell) -> None:
    """Under changes of chance, while what writes it, what follows it and the registry are stopped,
    keys are rolled, and serials are lost."""
    chance = trial.chance("followed4")
    wanted, items = trial.count or trial.pick(60, 2_500), Chance(chance)
    counts = dict.fromkeys(("compared", "written", "followed", "registry", "rolled", "lost"), 0)
    with Changing(trial, tool, "followed4") as registry:
        registry.record()
        keys = signing.Keys(Path(registry.folder, "keys"))
        words = ["export", "--history", registry.history, "--nrtm4", str(keys.folder)]
        words.append(registry.out)
        registry.ran(*words)
        place = f"{registry.out}/nrtmv4/{NOTIFICATION}"
        world = World(tmp_path, "TEST", place, signing.public(keys.now))

        def look() -> None:
            registry.ran(*words)
            expect(world.renew(), "", "what is wrong")
            public = set(registry.dumps[registry.last()].values())
            expect(world.objects(), {hidden(text) for text in public}, "what there is")
            counts["compared"] += 1

        look()
        while registry.changes < wanted:
            registry.submit(items.submission())
            if chance.random() < 0.4:
                registry.record()
            lot = chance.random()
            if lot < 0.1:
                registry.stopped(chance.uniform(0.1, 0.6), *words)
                counts["written"] += 1
            elif lot < 0.2:
                world.killed(chance.uniform(0, 0.3))
                counts["followed"] += 1
            elif lot < 0.4:
                registry.record()
                look()
            elif lot < 0.44:
                registry.restart_registry()
                counts["registry"] += 1
            elif lot < 0.48:
                keys.make(chance.choice(list(signing.MAKES)))
                registry.record()
                look()
                keys.roll()
                counts["rolled"] += 1
            elif lot < 0.5:
                for path in Path(registry.history, "serials").iterdir():
                    path.unlink()
                registry.record()
                look()
                counts["lost"] += 1
        registry.record()
        look()
        expect(world.objects(), set(map(hidden, registry.dump().values())), "in the end")
    figures = ", ".join(f"{name} {count}" for name, count in counts.items())
    tell(f"{registry.changes} changes; {figures}")


def hidden(text: str) -> str:
    """An object of a public dump as a view has it, which keeps no password."""
    return text.replace("auth:           # filtered", "auth:           FILTERED")

"""What somebody writes into an object of theirs makes no other one, whichever way a view takes it;
and what a source has changed, deleted, or has in a form that can't be read, is of no other."""

import io
import os
import subprocess
from pathlib import Path

import pytest

from checks.door.opened import HEAD, SPACE
from checks.running import Trial, expect, write, write_settings
from checks.serving import Serving, free_port
from checks.views.test_merge import ViewOf, asked, made
from checks.views.test_sources import World, dump, fault, route
from checks.worlds import COUNT
from irr.errors import Failure
from irr.views import nrtm, settings
from irr.views.view import View

# Attributes that the rules take as text in an object of a stranger, who may register it.
INSIDE = {
    "route": "route: 192.0.2.0/24\norigin: AS666\n",
    "route of its own": "route: 192.0.2.0/24\norigin: AS666\nmnt-by: EVIL-MNT\n",
    "set": "as-set: AS1:AS-CUSTOMERS\nmembers: AS666\nmnt-by: EVIL-MNT\n",
    "number": "aut-num: AS1\nmember-of: AS1:AS-CUSTOMERS\nmnt-by: EVIL-MNT\n",
}
EVIL = "mntner: EVIL-MNT\nauth: x\nmnt-by: EVIL-MNT\nsource: TEST\n"
GOOD = """mntner: A-MNT
auth: x
mnt-by: A-MNT
source: TEST

aut-num: AS1
mnt-by: A-MNT
source: TEST

as-set: AS1:AS-CUSTOMERS
members: AS2
person: Jo Doe
mnt-by: A-MNT
source: TEST
domain: example.net

route-set: RS-OUT
members: 10.0.0.0/24
mp-members: 10.1.0.0/24 { of text }
mnt-by: A-MNT
source: TEST

"""


def queried(folder: Path, *words: str) -> str:
    return asked(os.environ["IRRDESK"], folder, *words)


@pytest.mark.parametrize("what", INSIDE)
@pytest.mark.parametrize("way", ["registry", "dump", "nrtm"])
def test_a_stranger_adds_no_object_by_the_text_of_another(
    trial: Trial, tmp_path: Path, what: str, way: str
) -> None:
    """A maintainer's class is the first of a dump, so that its text would win."""
    evil = EVIL + INSIDE[what]
    text = f"{HEAD}{GOOD if way == 'nrtm' else evil + chr(10) + GOOD}{SPACE}"
    write_settings(str(tmp_path))
    write(str(tmp_path), "dump.rpsl", text.encode())
    load = [trial.program, "load", "s.toml", "dump.rpsl"]
    subprocess.run(load, cwd=tmp_path, capture_output=True, check=True)
    words = [trial.program, "dump", "s.toml"]
    public = subprocess.run(words, cwd=tmp_path, capture_output=True, check=True).stdout
    write(str(tmp_path), "public.rpsl", public)
    with Serving([trial.program], str(tmp_path), COUNT, free_port()) as server:
        here = f'registry = "http://127.0.0.1:{server.port}"'
        there = f'dump = "{tmp_path}/public.rpsl"'
        (tmp_path / "view.toml").write_text(
            f'name = "ALL"\nfolder = "{tmp_path}/view"\n'
            f'[[source]]\nname = "TEST"\n{here if way == "registry" else there}\n'
        )
        view = View(settings.read(str(tmp_path / "view.toml")))
        folder = made(view)
        if way == "nrtm":
            view.commit()
            view.states["TEST"].changes.write_text(f"ADD\n\n{evil}\n")
            folder = made(view)
            found = queried(folder, "object", "mntner", "EVIL-MNT")
            expect("mnt-by:         EVIL-MNT" in found, True, "the change")
    expect(queried(folder, "exact", "192.0.2.0/24"), "% no entries\n", "a route")
    found = queried(folder, "object", "aut-num", "AS1")
    expect("mnt-by:         A-MNT" in found, True, found)
    if way == "registry":
        # It tells each object by itself.
        expect(queried(folder, "expand", "AS1:AS-CUSTOMERS"), "AS2\n", "a set")
        expect(queried(folder, "prefixes", "RS-OUT"), "10.0.0.0/24\n", "another")
        found = queried(folder, "object", "mntner", "EVIL-MNT")
        expect(INSIDE[what].split(":")[0] + ":" in found, True, found)
    else:
        expect("AS666" in queried(folder, "expand", "AS1:AS-CUSTOMERS"), False, "a set")


# Objects that the source has, and that can't be read.
UNREAD = [
    route(1).replace("B-MNT", "B-MNT (x)"),
    route(1).replace("descr: x", "descr: \x01"),
    route(1).replace("AS2", "AS2\x01"),
    route(1).replace("AS2", "\n+\x01AS2"),
    route(1).replace("descr: x", "no colon\n goes on"),
    route(1) + "source: RIPE\n",
    route(1).replace("descr: x", "person: Jo"),
    route(1).replace("descr: x", "descr: " + "x" * 66_000),
]


@pytest.mark.parametrize("number", range(len(UNREAD)))
def test_a_change_that_cannot_be_taken_takes_what_was_there_away(
    followed: World, number: int
) -> None:
    world, text = followed, UNREAD[number]
    expect(world.renew(), True, "the first time")
    expect(b"10.0.1.0/24" in dump(world), True, "what was there")
    world.nrtm.publish([("ADD", text)])
    expect((world.renew(), fault(world)), (True, ""), "the change")
    expect(b"10.0.1.0/24" in dump(world), False, "what is there")
    expect(
        sum(world.view.outcomes["RIPE"].left.values()), 1 + 1, "what is counted, with the old one"
    )
    world.nrtm.publish([("DEL", text), ("ADD", route(1)), ("ADD", text), ("ADD", route(2, 3))])
    world.renew()
    expect((b"10.0.1.0/24" in dump(world), b"AS3" in dump(world)), (False, True), "later ones")
    world.nrtm.publish([("ADD", route(1))])
    world.renew()
    expect(b"10.0.1.0/24" in dump(world), True, "once it can be read again")
    world.nrtm.publish([("DEL", text)])
    world.renew()
    expect(b"10.0.1.0/24" in dump(world), False, "once it is deleted")


def test_a_line_of_blanks_in_a_change_moves_no_other(followed: World) -> None:
    """A registry may keep one in a value. What comes after it are changes all the same."""
    world = followed
    expect(world.renew(), True, "the first time")
    odd = route(900).replace("descr: x", "descr: x\n  \n\t\n more")
    world.nrtm.publish([("ADD", odd), ("ADD", route(901)), ("DEL", world.routes.pop(1))])
    expect((world.renew(), fault(world)), (True, ""), "the changes")
    found = [number in dump(world) for number in (b"10.3.132.0/24", b"10.3.133.0/24", b"10.0.1.0")]
    expect(found, [True, True, False], "what is there")


def odd_set(key: str, lines: str = "") -> str:
    return f"as-set: {key}\n{lines}members: AS2\nmnt-by: B-MNT\nsource: RIPE\n"


# What keeps AS-D from later sources, or is none.
ODD_SETS = [
    odd_set("AS-D descr: x"),
    odd_set("AS-D").replace(":", ";", 1),
    odd_set("AS-D").replace("AS2", "AS2 EXCEPT AS3"),
    odd_set("AS-D").replace("RIPE", "RADB"),
]


@pytest.mark.parametrize("number", range(len(ODD_SETS)))
@pytest.mark.parametrize("own", ["", odd_set("AS-D").replace("AS2", "AS7")])
def test_a_change_means_what_a_dump_does(
    followed: World, tmp_path: Path, number: int, own: str
) -> None:
    """Of an object that can't be read, and an own set of a like name."""
    (tmp_path / "other").mkdir()
    other = World(tmp_path / "other")
    for world in followed, other:
        (world.folder / "two.db").write_text(odd_set("AS-D").replace("RIPE", "TWO"))
        with open(world.folder / "view.toml", "a", encoding="utf-8") as out:
            out.write(f'[[source]]\nname = "TWO"\ndump = "{world.folder}/two.db"\n')
        world.view = View(settings.read(str(world.folder / "view.toml")))
        world.files.texts["/ripe.db.as-set"] = own.encode() or odd_set("AS-X").encode()
    expect(followed.renew(), True, "the first time")
    before = dump(followed)
    followed.nrtm.publish([("ADD", ODD_SETS[number])])
    followed.renew()
    # One that has the key of the own set replaces it.
    replaced = bool(own) and "EXCEPT" in ODD_SETS[number]
    texts = [ODD_SETS[number]] if replaced else [own or odd_set("AS-X"), ODD_SETS[number]]
    other.files.texts["/ripe.db.as-set"] = "\n".join(texts).encode()
    with other.files:
        expect((other.renew(), fault(other)), (True, ""), "a dump of both")
    expect((dump(followed), fault(followed)), (dump(other), ""), "after the change")
    followed.nrtm.publish([("DEL", ODD_SETS[number])])
    followed.renew()
    if not replaced:
        expect((dump(followed), fault(followed)), (before, ""), "after it is taken back")


def test_what_comes_after_the_object_of_a_change_is_counted(followed: World) -> None:
    world = followed
    expect(world.renew(), True, "the first time")
    world.nrtm.publish([("ADD", odd_set("AS-B") + route(900))])
    expect((world.renew(), fault(world)), (True, ""), "the change")
    found = [name in dump(world) for name in (b"AS-B", b"10.3.132.0/24")]
    left = world.view.outcomes["RIPE"].left
    expect(
        (found, left),
        ([True, False], {"after the object of a change": 1}),
        "what there is, and what was left out",
    )


def test_what_comes_after_the_object_of_a_change_hides_no_set(view_of: ViewOf) -> None:
    """A stranger may write it, and a later source has that set."""
    few = view_of({"RADB": "as-set: AS-Y|members: AS7|mnt-by: X-MNT"})
    few.view.commit()
    change = odd_set("AS-B") + odd_set("AS-Y")
    few.view.states["RIPE"].changes.write_text(f"ADD\n\n{change}\n")
    made(few.view)
    expect(few.asked("expand", "AS-B"), "AS2\n", "the object of the change")
    expect(few.asked("expand", "AS-Y"), "AS7\n", "that of the later source")


@pytest.mark.parametrize("text", ["% a remark\n", "# a\n% b\n", "  \n\t\n"])
def test_a_change_without_an_object_is_none(text: str) -> None:
    answer = f"%START Version: 3 RIPE 2-3\n\nADD 2\n\n{text}\nADD 3\n\n{route(1)}\n%END RIPE\n"
    with pytest.raises(Failure, match="serial 2 has no whole object"):
        nrtm.taken(iter(answer.encode().splitlines()), "x", "RIPE", 1, io.BytesIO(), {})


@pytest.mark.parametrize("blank", [" ", "+", "\u00a0"])
def test_sets_whose_odd_names_are_on_their_second_line_are_told_apart(
    view_of: ViewOf, blank: str
) -> None:
    later = "as-set: AS-Y|members: AS7|mnt-by: X-MNT\nas-set: AS-Z|members: AS8|mnt-by: X-MNT"
    few = view_of({"RADB": later})
    few.view.commit()
    one, other = (odd_set(f"\n# x\n{blank}{name} (old)") for name in ("AS-Y", "AS-Z"))
    changes = f"ADD\n\n{one}\nADD\n\n{other}\nDEL\n\n{other.replace('# x', '% y')}\n"
    few.view.states["RIPE"].changes.write_text(changes)
    made(few.view)
    expect(few.asked("expand", "AS-Y"), "% no entries\n", "the one that is there")
    expect(few.asked("expand", "AS-Z"), "AS8\n", "the one that is deleted")


@pytest.mark.parametrize("line", ["%", "% a remark", "%% of IRRd"])
def test_a_remark_between_two_changes_is_skipped(line: str) -> None:
    changes = f"ADD 2\n\n{route(1)}\n{line}\n\nADD 3\n\n{route(2)}\n{line}\n"
    answer = f"%START Version: 3 RIPE 2-3\n\n{line}\n\n{changes}%END RIPE\n"
    out = io.BytesIO()
    expect(nrtm.taken(iter(answer.encode().splitlines()), "x", "RIPE", 1, out, {}), 3, "the serial")
    expect(out.getvalue().decode(), f"ADD\n\n{route(1)}\nADD\n\n{route(2)}\n", "the changes")


@pytest.mark.parametrize(
    "line", ["%ERROR:500: x", "%% ERROR: x", "% Warning: x", "%END RADB", "%START x", "#"]
)
def test_what_may_end_the_changes_is_no_remark(line: str) -> None:
    changes = f"ADD 2\n\n{route(1)}\n{line}\n\nADD 3\n\n{route(2)}\n"
    answer = f"%START Version: 3 RIPE 2-3\n\n{changes}%END RIPE\n"
    with pytest.raises(Failure, match="after serial 2 it tells no change"):
        nrtm.taken(iter(answer.encode().splitlines()), "x", "RIPE", 1, io.BytesIO(), {})


def test_what_a_registry_filters_is_followed() -> None:
    """RIPE and IRRd say so in the first line."""
    answer = f"%START Version: 3 RIPE 2-2 FILTERED\n\nADD 2\n\n{route(1)}\n%END RIPE\n"
    out = io.BytesIO()
    expect(nrtm.taken(iter(answer.encode().splitlines()), "x", "RIPE", 1, out, {}), 2, "the serial")
    expect(out.getvalue().decode(), f"ADD\n\n{route(1)}\n", "the changes")


def test_a_set_of_an_earlier_source_is_no_other_one_where_it_cannot_be_read(
    view_of: ViewOf,
) -> None:
    """Its name means that one, and strangers may register it at a later source."""
    sources = {
        "TEST": """
            as-set: AS-X|members: AS1 EXCEPT AS2|mnt-by: T-MNT
            as-set: AS-ALL|members: AS-X, RADB::AS-X|mnt-by: T-MNT
            route-set: RS-X|members: 10.5.0.0/16, (x)|mnt-by: T-MNT
        """,
        "RADB": """
            route: 10.6.0.0/16|origin: AS6|mnt-by: X-MNT
            as-set: AS-X|members: AS6|mnt-by: X-MNT
            route-set: RS-X|members: AS6|mnt-by: X-MNT
        """,
    }
    few = view_of(sources)
    for name in "AS-X", "RS-X":
        expect(few.asked("prefixes", name), "% no entries\n", name)
    found = few.asked("prefixes", "AS-ALL")
    expect(found, "10.6.0.0/16\n% missing AS-X\n", "AS-ALL, which names also that of RADB")
    expect(few.view.outcomes["RADB"].left, {"an earlier source has it": 1}, "what is told")


def test_a_set_that_a_source_between_has_and_cannot_be_read_is_apart(view_of: ViewOf) -> None:
    """And what a source has of another one takes no name of it."""
    sources = {
        "TEST": """
            as-set: AS-X|members: AS1|mnt-by: T-MNT
            as-set: AS-ALL|members: RADB::AS-X|mnt-by: T-MNT
        """,
        "RIPE": """
            mntner: X-MNT|mnt-by: X-MNT
            as-set: AS-X|members: AS1 EXCEPT AS2|mnt-by: X-MNT
            as-set: AS-Z|members: AS1 EXCEPT AS2|mnt-by: X-MNT
            as-set: AS-Y|members: AS1 EXCEPT AS2|source: OTHER
            as-set: AS-W|members: AS1|source: RI PE
        """,
        "RADB": """
            as-set: AS-X|members: AS6|mnt-by: X-MNT
            as-set: AS-Y|members: AS7|mnt-by: X-MNT
            as-set: AS-Z|members: AS8|mnt-by: X-MNT
            as-set: AS-W|members: AS9|mnt-by: X-MNT
        """,
    }
    few = view_of(sources)
    expect(few.asked("expand", "AS-ALL"), "AS6\n", "AS-ALL")
    expect(few.asked("expand", "AS-X"), "AS1\n", "AS-X")
    expect(few.asked("expand", "AS-Y"), "AS7\n", "AS-Y")
    for name in "AS-Z", "AS-W":
        expect(few.asked("object", "as-set", name), "% no entries\n", name)


def test_a_set_that_cannot_be_read_keeps_its_name_from_one_that_would_be_apart(
    view_of: ViewOf,
) -> None:
    sources = {
        "TEST": """
            as-set: AS-X|members: AS1|mnt-by: T-MNT
            as-set: AS-X--RADB|members: AS1 EXCEPT AS2|mnt-by: T-MNT
            as-set: AS-ALL|members: AS-X--RADB, RADB::AS-X, AS3|mnt-by: T-MNT
        """,
        "RADB": "as-set: AS-X|members: AS6|mnt-by: X-MNT",
    }
    few = view_of(sources)
    expect(few.asked("expand", "AS-ALL"), "AS3\n% missing AS-X--RADB\n", "AS-ALL")
    lost = {"its name is that of a set of another registry": 1}
    expect(few.view.outcomes["TEST"].lost, lost, "what is told")


def test_a_set_inside_what_an_earlier_source_has_is_no_other_one(view_of: ViewOf) -> None:
    """Where a blank line is missing in a dump. A change is of one object, whatever is in it."""
    sources = {
        "TEST": """
            aut-num: AS1|mnt-by: T-MNT|as-set: AS-X|members: AS1|mnt-by: T-MNT
            as-set: AS-ALL|members: AS-X|mnt-by: T-MNT
        """,
        "RADB": """
            as-set: AS-X|members: AS6|mnt-by: X-MNT
            as-set: AS-Y|members: AS7|mnt-by: X-MNT
        """,
    }
    few = view_of(sources)
    expect(few.asked("expand", "AS-ALL"), "% missing AS-X\n", "AS-ALL")
    view = few.view
    view.commit()
    change = "aut-num: AS2\nmnt-by: T-MNT\nas-set: AS-Y\rsource: TEST\ras-set: AS-Y\nsource: TEST\n"
    view.states["TEST"].changes.write_bytes(f"ADD\n\n{change}\n".encode())
    made(view)
    left = {"a class again after the first line": 2}
    expect(view.outcomes["TEST"].left, left, "what is left out, with the change")
    expect(few.asked("expand", "AS-Y"), "AS7\n", "AS-Y")

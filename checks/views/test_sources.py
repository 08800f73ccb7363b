"""Sources of a view: followed by NRTM, and what stays where one can't be read or shrank."""
import gzip
import io
import os
import random
import re
import shutil
from collections.abc import Iterable
from pathlib import Path

import pytest

from checks.running import Trial, expect
from checks.views.serving import Files, Nrtm, view_in, view_of
from checks.views.test_merge import asked, emptied
from irr.errors import Failure
from irr.migrate.normalisation import ROUTE, LeftOut
from irr.migrate.paragraphs import Part, parts
from irr.rpsl import keys, syntax
from irr.views import nrtm, roas, settings
from irr.views.view import View
from irr.views.merge import ViewMender, shrank

OWN = "as-set: AS1:AS-OWN\nmembers: AS2, RIPE::AS-X\nmnt-by: A-MNT\nsource: TEST\n"


def route(number: int, origin: int = 2, words: str = "x") -> str:
    place = f"10.{number >> 8}.{number & 255}.0/24"
    return f"route: {place}\norigin: AS{origin}\ndescr: {words}\nmnt-by: B-MNT\nsource: RIPE\n"


class World:
    """A view of a file and of a registry that is fetched and followed."""

    def __init__(self, folder: Path, more: str = "") -> None:
        self.folder, self.files, self.nrtm = folder, Files(), Nrtm("RIPE", 101)
        (folder / "own.db").write_text(OWN)
        self.routes = {number: route(number) for number in range(40)}
        self.publish()
        self.view = view_of(
            folder,
            f"""
[[source]]
name = "TEST"
dump = "{folder}/own.db"
[[source]]
name = "RIPE"
dump = ["{self.files.url}/ripe.db.route.gz", "{self.files.url}/ripe.db.as-set"]
serial = "{self.files.url}/RIPE.CURRENTSERIAL"
{more}
""",
        )
        # What is served, and what it answers.
        self.known, self.seen = "", ""

    def publish(self) -> None:
        """Hands out a dump of what there is, and its serial."""
        text = "\n".join(self.routes.values()).encode()
        self.files.texts["/ripe.db.route.gz"] = gzip.compress(text, mtime=0)
        self.files.texts[
            "/ripe.db.as-set"
        ] = b"as-set: AS-X\nmembers: AS2\nmnt-by: B-MNT\nsource: RIPE\n"
        self.files.texts["/RIPE.CURRENTSERIAL"] = f"{self.nrtm.last}\n".encode()

    def renew(self) -> bool:
        """Whether the view is another one than before."""
        work = emptied(self.view)
        found = self.view.make(work, self.known)
        self.view.commit()
        if found:
            self.known = found.digest()
            self.seen = asked(os.environ["IRRDESK"], work, "inverse", "origin", "AS2")
        return found is not None

    def routes_seen(self) -> int:
        return self.seen.count("route:")


def fault(world: World) -> str:
    return world.view.faults.get("RIPE", "")


def add(world: World, numbers: Iterable[int]) -> None:
    """Adds routes to the registry, which tells them by NRTM."""
    added = {number: route(number) for number in numbers}
    world.nrtm.publish([("ADD", text) for text in added.values()])
    world.routes |= added


def test_what_cannot_be_read_stays_as_it_was(world: World) -> None:
    expect(world.renew(), True, "the first time")
    expect((world.routes_seen(), fault(world)), (40, ""), "what it has")
    expect(world.renew(), False, "nothing new")
    expect({status for _, status in world.files.asked[-2:]}, {304}, "how it was asked again")
    whole = world.files.texts["/ripe.db.route.gz"]
    assert isinstance(whole, bytes)
    spoilts: list[tuple[bytes | int, str]] = [
        (500, "status 500"),
        (whole[:-9], "it is cut off"),
        (b"", "more is gone than"),
        (b"<html>moved</html>\n", "more is gone than"),
        (gzip.compress("\n".join(route(n) for n in range(34)).encode()), "it has 35 objects"),
    ]
    for spoilt, words in spoilts:
        world.files.texts["/ripe.db.route.gz"] = spoilt
        for _ in range(2):
            expect(world.renew(), False, f"a view with {words}")
            expect(words in fault(world), True, f"{words}: {fault(world)}")
            expect(world.view.lines()[0][:22], "RIPE is not renewed si", "the status")
    (world.folder / "own.db").write_text(OWN.replace("AS2,", "AS2, AS3,"))
    expect(world.renew(), True, "another source that changed meanwhile")
    expect((world.routes_seen(), bool(fault(world))), (40, True), "what it has of the spoilt one")
    again = View(world.view.settings)
    again.make(world.view.folder / "made", world.known)
    expect("it has 35 objects" in again.faults["RIPE"], True, "what is known after a restart")
    world.files.is_cut = True
    world.files.texts["/ripe.db.route.gz"] = whole + b"x" * 9
    world.renew()
    expect("it was cut off after" in fault(world), True, fault(world))
    world.files.is_cut = False
    del world.routes[39], world.routes[38]
    world.publish()
    expect(world.renew(), True, "one that lost 2 of 41")
    expect((world.routes_seen(), fault(world)), (38, ""), "what it has then")


def test_there_is_no_view_without_a_source(world: World) -> None:
    del world.files.texts["/ripe.db.route.gz"]
    with pytest.raises(Failure, match="RIPE: .*status 404.*there is no view without it"):
        world.view.make(world.folder, "")
    world.routes = {}
    world.publish()
    world.files.texts["/ripe.db.as-set"] = b"as-set: AS-X\nmnt-by: B-MNT\nsource: RADB\n"
    (world.folder / "made").mkdir()
    with pytest.raises(Failure, match="RIPE: it has no object of its name"):
        world.view.make(world.folder / "made", "")


def test_a_source_is_followed_by_nrtm(followed: World, trial: Trial) -> None:
    """After each renewal the view has what the registry has, also where the changes are no longer
    told, or an answer is cut."""
    world, chance = followed, random.Random(7)
    add(world, [900])
    world.publish()
    expect(world.renew(), True, "the first time")
    expect(world.nrtm.asked[0], f"-g RIPE:3:{world.nrtm.last + 1}-LAST", "what was asked")
    dumps = world.files.asked.count(("/ripe.db.route.gz", 200))
    for turn in range(trial.pick(12, 200)):
        for _ in range(chance.randrange(4)):
            number = chance.randrange(60)
            if number in world.routes and chance.random() < 0.4 and len(world.routes) > 40:
                world.nrtm.publish([("DEL", world.routes.pop(number))])
            else:
                world.routes[number] = route(number, 2, f"turn {turn}")
                world.nrtm.publish([("ADD", world.routes[number])])
        world.nrtm.publish([("ADD", "person: Jo Doe\nsource: RIPE\n"), ("ADD", "no object\n")])
        if turn % 4 == 3:
            serial = world.view.states["RIPE"].serial
            assert serial
            line = f"-g RIPE:3:{serial + 1}-LAST"
            world.nrtm.most = chance.randrange(len(world.nrtm.answer(line)) - 5)
            before = world.seen
            expect(world.renew(), False, "an answer that is cut off")
            expect((world.seen, bool(fault(world))), (before, True), f"turn {turn}")
            world.nrtm.most = None
        if turn % 6 == 5:
            # A mirror that was away for long.
            world.nrtm.forget()
            world.publish()
            dumps += 1
        world.renew()
        expect(fault(world), "", f"turn {turn}")
        wanted = {(number, text.split("\n")[2]) for number, text in world.routes.items()}
        expect(seen(world.seen), wanted, f"turn {turn}")
        taken = world.files.asked.count(("/ripe.db.route.gz", 200))
        expect(taken, dumps, "how often a dump was taken")


def test_roas_leave_out_what_is_invalid(world: World) -> None:
    """Or only count it; and a file of them that can't be read leaves the view as it was."""
    path = world.folder / "vrps.csv"
    path.write_text("ASN,IP Prefix,Max Length,Trust Anchor\nAS3,10.0.7.0/24,24,x\n")
    asked_for = (world.folder / "view.toml").read_text()
    for words, count in [("", 39), ("keep_invalid = true\n", 40)]:
        text = f'roas = "{path}"\n{words}{asked_for}'
        (world.folder / "view.toml").write_text(text)
        world.view = view_in(world.folder)
        expect(world.renew(), True, f"a view with {words!r}")
        expect(world.routes_seen(), count, words)
        expect(world.view.outcomes["RIPE"].invalid, 1, words)
        roas = world.view.status()["view"]["roas"]
        again = View(world.view.settings).status()["view"]["roas"]
        wanted = 0 if words else 16
        expect((len(roas), again), (wanted, roas), "the state of the ROAs over a restart")
        expect("invalid by ROAs" in world.view.outcomes["RIPE"].line("RIPE"), True, words)
    for spoilt in "", "ASN,IP Prefix,Max Length\nAS3,10.0.7.0/24,33\n":
        path.write_text(spoilt)
        with pytest.raises(Failure, match="vrps.csv: "):
            world.view.make(world.folder, world.known)


@pytest.mark.parametrize("length", range(33))
def test_an_invalid_route_is_left_out_at_each_length(length: int) -> None:
    prefix = keys.Prefix(10 << 24 >> 32 - length << 32 - length, length)
    table = {prefix: [roas.Roa(prefix, length, 3)]}
    mender = ViewMender("ALL", table, False)
    mender.begin("RIPE", False)

    def part(origin: int) -> Part:
        text = f"route: {prefix.text()}\norigin: AS{origin}\nmnt-by: B-MNT\nsource: RIPE\n"
        return parts(next(syntax.blocks([text.encode()])))[0]

    expect(mender.mend(part(3)).source, "RIPE", "the route of the AS of the ROA")
    with pytest.raises(LeftOut, match="invalid by ROAs"):
        mender.mend(part(2))


def test_a_class_that_is_gone_counts_from_ten_objects_on() -> None:
    """Whatever the rest of the source is."""
    for had, words in [(9, ""), (10, "it has no route, and had 10")]:
        # No class has the number 0; the first one is mntner.
        old, new = [0, 1_000] + [0] * 6, [0, 1_000] + [0] * 6
        old[ROUTE] = had
        expect(shrank(old, new, 20).partition(":")[0], words, f"{had} routes that are gone")
        expect(shrank(old, new, 100), "", "where all may go")


@pytest.mark.parametrize("path", ["/RIPE.CURRENTSERIAL", "/ripe.db.as-set"])
def test_as_it_was_is_a_fault_where_nobody_asked(world: World, path: str) -> None:
    """A file that was never fetched, or of which nothing tells it from a later one."""
    text, world.files.texts[path] = world.files.texts[path], 304
    with pytest.raises(Failure, match="status 304"):
        world.renew()
    world.files.texts[path] = text
    expect((world.renew(), fault(world)), (True, ""), "once it is there")


@pytest.mark.parametrize(
    "line",
    ["%ERROR:401: (Requesting serials older than 7 days)", "%% ERROR: Serials 2 - 9 do not exist"],
)
def test_what_is_gone_is_known_by_the_words_of_ripe_and_irrd(line: str) -> None:
    with pytest.raises(nrtm.Behind):
        nrtm.taken(iter([b"% x", line.encode()]), "x", "RIPE", 1, io.BytesIO(), {})


@pytest.mark.parametrize("first", [150, 1])
def test_what_leads_on_from_no_dump_is_reported(followed: World, first: int) -> None:
    """The journal is shorter than the time between two dumps, or its serials began anew."""
    world = followed
    world.nrtm.first = first
    world.nrtm.publish([("ADD", route(number)) for number in range(200, 211)])
    world.renew()
    expect(world.routes_seen(), 40, "what the dump has")
    for _ in range(2):
        world.renew()
        words = "it tells no changes after 100, and the dump has serial 100 still"
        expect(words in fault(world), True, fault(world))
        expect("RIPE is not renewed since" in world.view.lines()[0], True, world.view.lines()[0])
    if first == 1:
        # A dump that is the old one may be so for long after its serial is new.
        world.publish()
        world.renew()
        expect("the dump has serial 11 still" in fault(world), True, fault(world))
        world.nrtm.publish([("ADD", world.routes[0])])
    world.routes |= {number: route(number) for number in range(200, 211)}
    world.publish()
    world.renew()
    expect((world.routes_seen(), fault(world)), (len(world.routes), ""), "with a dump of now")
    world.nrtm.publish([("ADD", route(211))])
    world.renew()
    expect((world.routes_seen(), fault(world)), (len(world.routes) + 1, ""), "what comes then")


def test_a_gap_in_what_is_followed_takes_nothing_back(followed: World) -> None:
    """The dump is from before it, and nothing leads on from that either."""
    world = followed
    expect(world.renew(), True, "the first time")
    world.nrtm.publish([("ADD", route(number)) for number in range(200, 250)])
    world.files.texts["/RIPE.CURRENTSERIAL"] = b"150\n"
    world.nrtm.publish([("ADD", route(number)) for number in range(250, 298)])
    world.renew()
    expect((world.routes_seen(), fault(world)), (138, ""), "what was followed")
    world.routes |= {number: route(number) for number in range(200, 250)}
    world.publish()
    world.files.texts["/RIPE.CURRENTSERIAL"] = b"150\n"
    world.nrtm.first, world.nrtm.changes = 250, [("ADD", route(number)) for number in range(11)]
    for _ in range(2):
        world.renew()
        words = "it tells no changes after 198, and the dump has serial 150 still"
        expect(words in fault(world), True, fault(world))
        expect(world.routes_seen(), 138, "what was followed")
    # Serials that began anew are taken.
    world.nrtm.first, world.nrtm.changes = 1, [("ADD", route(300))]
    world.routes |= {number: route(number) for number in range(250, 301)}
    world.publish()
    world.nrtm.publish([("ADD", route(301))])
    world.renew()
    expect((world.routes_seen(), fault(world)), (142, ""), "what there is then")


@pytest.mark.parametrize("count", [40, 15])
def test_serials_that_went_back_are_not_followed_once_they_pass(
    followed: World, count: int
) -> None:
    """As of a registry that was restored, whose changes are others: until another dump comes. They
    pass what was taken, or the serial of its dump alone."""
    world = followed
    add(world, range(200, 250))
    world.publish()
    world.nrtm.publish([("ADD", route(249, 2, "again"))])
    world.renew()
    expect((world.routes_seen(), fault(world)), (90, ""), "the first time")
    del world.nrtm.changes[20:]
    for number in range(220, 250):
        del world.routes[number]
    words = ", and the dump has serial 150 still"
    for first in 300, 300 + count:
        world.renew()
        expect(words in fault(world), True, fault(world))
        add(world, range(first, first + count))
    world.renew()
    expect((world.routes_seen(), words in fault(world)), (90, True), fault(world))
    # Of another serial than the dump of before.
    world.routes[399] = route(399)
    world.nrtm.publish([("ADD", world.routes[399])])
    world.publish()
    world.renew()
    expect((world.routes_seen(), fault(world)), (len(world.routes), ""), "with a dump of now")
    world.nrtm.publish([("ADD", route(400))])
    world.renew()
    expect((world.routes_seen(), fault(world)), (len(world.routes) + 1, ""), "what comes then")


@pytest.mark.parametrize("words", ["RIPE's", "IRRd's", "a fault"])
def test_a_dump_from_before_serials_went_back_is_not_followed_once_they_pass(
    followed: World, words: str, monkeypatch: pytest.MonkeyPatch
) -> None:
    """One that was not taken before, as what came after it was followed. It is seen as soon as
    serials are, or after a fault."""
    world = followed
    if words != "RIPE's":
        monkeypatch.setattr(nrtm, "WITHIN", re.compile(rb"no words"))
    expect((world.renew(), fault(world)), (True, ""), "the first time")
    add(world, range(200, 210))
    world.publish()
    world.nrtm.publish([("ADD", route(209, 2, "again"))])
    world.renew()
    expect((world.routes_seen(), fault(world)), (50, ""), "what was followed")
    del world.nrtm.changes[5:]
    for number in range(205, 210):
        del world.routes[number]
    if words == "a fault":
        whole, world.files.texts["/ripe.db.as-set"] = world.files.texts["/ripe.db.as-set"], 500
        world.renew()
        expect("status 500" in fault(world), True, fault(world))
        world.files.texts["/ripe.db.as-set"] = whole
    else:
        world.renew()
    add(world, range(300, 310))
    for _ in range(2):
        world.renew()
        expect(world.routes_seen(), 50, "what was followed")
        expect("the dump has serial 110 still" in fault(world), True, fault(world))
    world.publish()
    world.renew()
    expect((world.routes_seen(), fault(world)), (len(world.routes), ""), "with a dump of now")


def test_a_dump_from_before_what_was_followed_takes_nothing_back(followed: World) -> None:
    """Where the changes since are no longer told, what there is stays until a newer dump comes."""
    world = followed
    expect(world.renew(), True, "the first time")
    world.nrtm.publish([("ADD", route(900))])
    expect((world.renew(), world.routes_seen()), (True, 41), "a change")
    words = f"it tells no changes after {world.nrtm.last}, and the dump has serial"
    world.nrtm.forget()
    world.nrtm.first += 1
    expect(world.renew(), False, "an old dump")
    expect((world.routes_seen(), words in fault(world)), (41, True), fault(world))
    world.routes[900] = route(900)
    world.publish()
    world.renew()
    expect((world.routes_seen(), fault(world)), (41, ""), "a newer dump")


def test_a_stop_between_two_states_loses_neither(world: World) -> None:
    """A source whose new state was not yet in place has the one of before."""
    expect(world.renew(), True, "the first time")
    folder = world.view.folder / "sources" / "RIPE"
    (folder / "now").rename(folder / "before")
    world.files.texts["/ripe.db.route.gz"] = 500
    world.view = View(world.view.settings)
    expect(world.renew(), False, "after a stop")
    expect("status 500" in fault(world), True, fault(world))


def test_the_last_change_of_an_object_counts(followed: World) -> None:
    """Of several in one answer, and in several."""
    world = followed
    expect(world.renew(), True, "the first time")
    first, back, gone = (route(n, 2, "first") for n in (900, 0, 901))
    last = route(900, 2, "last")
    world.nrtm.publish([("ADD", first), ("ADD", last), ("ADD", gone), ("DEL", gone)])
    world.nrtm.publish([("DEL", world.routes[0]), ("ADD", back), ("DEL", world.routes.pop(1))])
    world.routes |= {900: last, 0: back}
    for text in None, route(900, 2, "later"), first:
        if text:
            world.nrtm.publish([("ADD", text)])
            world.routes[900] = text
        expect((world.renew(), fault(world)), (True, ""), "a change")
        wanted = {(number, text.split("\n")[2]) for number, text in world.routes.items()}
        expect(seen(world.seen), wanted, f"the routes once {text} was told")


@pytest.mark.parametrize(
    "serials", ["103", "102 104", "102 103 104 105", "102 103 103", "103 102", "101 102 103", "0"]
)
def test_changes_come_in_order_and_within_what_is_announced(serials: str) -> None:
    """Up to serial 104, after 101; otherwise nothing is known of what they leave out."""
    changes = "".join(f"ADD {serial}\n\n{route(1)}\n" for serial in serials.split())
    text = f"%START Version: 3 RIPE 102-104\n\n{changes}%END RIPE\n"
    lines = iter(text.encode().splitlines())
    if serials in ("103", "102 104"):
        # A registry may leave serials out.
        expect(nrtm.taken(lines, "x", "RIPE", 101, io.BytesIO(), {}), 104, "the last serial")
        return
    with pytest.raises(Failure, match="it tells no change"):
        nrtm.taken(lines, "x", "RIPE", 101, io.BytesIO(), {})


AUT_NUM = b"aut-num: AS2\nmnt-by: B-MNT\nsource: RIPE\n"


def change(world: World, old: str, new: str) -> None:
    """Starts the view again after a change of its settings."""
    path = world.folder / "view.toml"
    expect(old in path.read_text(), True, f"whether {old} is there")
    path.write_text(path.read_text().replace(old, new))
    world.view = View(settings.read(str(path)))


def test_what_is_taken_elsewhere_is_taken_anew(followed: World) -> None:
    """Changes that are told since a dump do not make up for what other settings would have of it.
    What was taken before stays until then, and is told."""
    world = followed
    expect(world.renew(), True, "the first time")
    url = world.files.url
    change(world, "ripe.db.as-set", f'ripe.db.as-set", "{url}/ripe.db.aut-num')
    expect(world.renew(), False, "a part that is not there")
    expect("ripe.db.aut-num: status 404" in fault(world), True, fault(world))
    world.files.texts["/ripe.db.aut-num"] = AUT_NUM
    expect((world.renew(), fault(world)), (True, ""), "once it is")
    expect(b"aut-num:" in dump(world), True, "whether the aut-num is in the view")
    change(world, f', "{url}/ripe.db.aut-num"', "")
    expect((world.renew(), b"aut-num:" in dump(world)), (True, False), "without it again")
    # A file's time and size are no tag of an address.
    world.files.texts["/own.db"] = OWN.replace("AS2,", "AS9,").encode()
    change(world, f"{world.folder}/own.db", f"{url}/own.db")
    expect((world.renew(), world.view.faults), (True, {}), "a file that is now fetched")
    expect(b"AS9" in dump(world), True, "its text")
    # What the same settings took is asked for no second time.
    world.view, count = View(world.view.settings), len(world.files.asked)
    expect(world.renew(), False, "the same settings")
    asked = {(path[-6:], status) for path, status in world.files.asked[count:]}
    expect({status for path, status in asked if path != "SERIAL"}, {304}, "how they were asked")


def dump(world: World) -> bytes:
    return (world.view.folder / "made" / "dump.rpsl").read_bytes()


def label(view: View) -> dict[str, list[tuple[str, str]]]:
    """What a view is told to be made of."""
    status = view.status()["view"]
    return {status["name"]: [(one["name"], one["state"]) for one in status["sources"]]}


def test_what_is_served_is_reported_to_be_made_of_what_it_is(world: World) -> None:
    """Also after a stop between its making and its place, and with other settings, whose view is
    still to be made."""
    expect(world.renew(), True, "the first time")
    first = label(world.view)
    expect([name for name, _ in first["ALL"]], ["TEST", "RIPE"], "its sources")
    expect(label(View(world.view.settings)), first, "after a stop")
    (world.folder / "own.db").write_text(OWN.replace("AS2,", "AS2, AS3,"))
    made, work = world.view.folder / "made", world.view.folder / "made.next"
    for is_in_place in False, True:
        world.view = View(world.view.settings)
        work.mkdir()
        expect(world.view.make(work, world.known) is not None, True, "a new view")
        (_, either), same = label(world.view)["ALL"]
        expect(either.partition(" or ")[0], first["ALL"][0][1], "its state, or the new one")
        expect(same, first["ALL"][1], "what did not change")
        if is_in_place:
            made.rename(world.view.folder / "made.old")
            work.rename(made)
        else:
            shutil.rmtree(work)
        again = label(View(world.view.settings))
        expect(again == first, not is_in_place, f"a stop before it is kept: {again}")
    second = label(View(world.view.settings))
    expect(second["ALL"][0][1], either.partition(" or ")[2], "the new state")
    world.view.commit()
    expect(label(world.view), second, "what is told once it is kept")
    path = world.folder / "view.toml"
    head, own, ripe = path.read_text().split("[[source]]")
    path.write_text("[[source]]".join([head, ripe + "\n", own]).replace('"ALL"', '"BOTH"'))
    world.view = View(settings.read(str(path)))
    expect(label(world.view), second, "with other settings")
    world.known = ""
    expect(world.renew(), True, "the view of these")
    expect(label(world.view), {"BOTH": second["ALL"][::-1]}, "what is told of that")
    expect(label(View(world.view.settings)), label(world.view), "and after a stop")


def test_a_state_that_changes_nothing_of_what_is_served_is_reported(world: World) -> None:
    """Another text of a source, of which the view is as before, is what it is made of from then
    on."""
    expect(world.renew(), True, "the first time")
    first = label(world.view)
    (world.folder / "own.db").write_text("# a comment\n\n" + OWN)
    expect(world.view.make(world.view.folder, world.known), None, "the same registry")
    expect(label(world.view)["ALL"][0] != first["ALL"][0], True, "the state of its source")
    expect(label(View(world.view.settings)), label(world.view), "after a stop")


def seen(answer: str) -> set[tuple[int, str]]:
    """The routes of an answer, each with its words."""
    found = set()
    for block in filter(None, answer.split("\n\n")):
        lines = {
            line.partition(":")[0]: line.partition(":")[2].strip() for line in block.split("\n")
        }
        first, second = lines["route"].split(".")[1:3]
        found.add((int(first) << 8 | int(second), f"descr: {lines['descr']}"))
        expect(lines["source"], "ALL # RIPE", "where it is from")
    return found


def test_settings_name_what_is_wrong(tmp_path: Path) -> None:
    path = tmp_path / "view.toml"
    good = 'name = "ALL"\nfolder = "/x"\n[[source]]\nname = "RIPE"\ndump = "/x"\n'
    for old, new, words in [
        ("folder", "folders", "there is no key folders"),
        ('folder = "/x"\n', "", "it has no `folder`"),
        ('"RIPE"', '"ALL"', "the name ALL appears twice"),
        ('"RIPE"', '"1"', "1 is not the name of a registry"),
        ('dump = "/x"\n', "", "give it one of `registry`, `dump` and `nrtm4`"),
        ('dump = "/x"', 'dump = "/x"\nnrtm4 = "/x"\nkey = "/x"', "give it one of"),
        ('dump = "/x"', 'nrtm4 = "/x"', "`nrtm4` needs `key`, the file of the public key that"),
        ('dump = "/x"', 'dump = "/x"\nkey = "/x"', "`nrtm4` needs `key`"),
        ('dump = "/x"', 'nrtm4 = "/x"\nkey = "/x"\nserial = "/x"', "no `serial` and no `nrtm`"),
        ('dump = "/x"', 'nrtm4 = "http://192.0.2.1/x"\nkey = "/x"', "can be changed on the way"),
        ('"/x"\n[', '"/x"\nport = [0]\n[', "it takes ports"),
        ('"/x"\n[', '"/x"\nagent = 4445\n[', "a port appears twice"),
        ('dump = "/x"', 'dump = "http://192.0.2.1/x"', "can be changed on the way"),
        ('dump = "/x"', 'registry = "http://192.0.2.1"', "can be changed on the way"),
        ('dump = "/x"', 'registry = "x"', "this is not an address"),
        ('dump = "/x"', 'dump = "/x"\nnrtm = "a"', "`nrtm` needs `serial`"),
        ('dump = "/x"', 'dump = "/x"\nserial = "/x"\nnrtm = "a:x"', "`nrtm` is HOST or HOST:PORT"),
        ('dump = "/x"', 'dump = "/x"\nserial = "/x"\nnrtm = "a"', "NRTM can be changed"),
        ('dump = "/x"', 'dump = "/x"\nshrink = 101', "a number from 0 to 100"),
    ]:
        path.write_text(good.replace(old, new, 1))
        with pytest.raises(Failure) as failure:
            settings.read(str(path))
        expect(words in str(failure.value), True, f"{new}: {failure.value}")
    path.write_text(good.replace('"RIPE"', '"ripe"'))
    expect(settings.read(str(path)).sources[0].name, "RIPE", "a name in small letters")

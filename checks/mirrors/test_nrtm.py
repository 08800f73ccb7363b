"""What the door answers to mirrors, and the dumps with serials that are exported for them."""

import gzip
import os
import shutil
import time
from collections.abc import Iterator

import pytest

from checks.door.opened import Opened, read_all
from checks.mirrors.changing import Changing
from checks.mirrors.client import Mirror, MustBegin, key_of, objects_of
from checks.running import Each, Tell, Trial, expect
from checks.serving import free_port
from checks.tool.forking import run_forked
from checks.worlds import Tool

IN_MEMORY = True
SECONDS = 30
ITEMS = """password: bc

aut-num: AS1
mnt-by: ROOT-MNT
source: TEST

route: 10.0.0.0/24
origin: AS1
mnt-by: ROOT-MNT
source: TEST

as-set: AS-A
members: AS1
mnt-by: ROOT-MNT
source: TEST
"""
REFUSED = "%ERROR:402: not authorised to mirror the database from IP address"
NO_NEWER = "% Warning: there are no newer updates available\n\n"


@pytest.fixture(scope="module")
def world(trial: Trial, tool: Tool) -> Iterator[Changing]:
    with Changing(trial, tool, "nrtm") as world:
        yield world


def test_it_answers_mirrors_and_nobody_else(world: Changing, each: Each, trial: Trial) -> None:
    """The forms of RIPE's and IRRd's documentation, from before there is a history to a reset."""
    ask, door = Mirror("TEST").ask, world.door
    port = door.whois_port
    with each("without a history"):
        expect(
            ask(port, "-g TEST:3:1-LAST"),
            "%ERROR:401: invalid range: no serials are kept here\n\n",
            "a range",
        )
        expect("\nTEST:3:N:0-0\n" in ask(port, "-q sources"), True, "the sources")
        expect(ask(port, "!jTEST"), "A9\nTEST:N:-\nC\n", "IRRd's question")
        expect("irrdesk-history" in " ".join(door.status()["faults"]), True, "the status")
    world.record()
    begun = world.last()
    words = [f"--registry=http://127.0.0.1:{world.port}"]
    with each("before the first change"):
        expect(world.range(), (begun, begun), "IRRd's question")
        expect(ask(port, f"-g TEST:3:{begun + 1}-LAST"), NO_NEWER, "what is new")
        expect(door.status()["faults"], [], "the status")
    world.submit(ITEMS)
    world.record()
    last = world.last()
    whole = ask(port, f"-g TEST:3:{begun + 1}-LAST")
    with each("a range"):
        expect(last, begun + 3, "the last serial")
        expect(world.range(), (begun + 1, last), "IRRd's question")
        head, foot = f"%START Version: 3 TEST {begun + 1}-{last}\n\n", "\n%END TEST\n\n"
        expect((whole.startswith(head), whole.endswith(foot)), (True, True), f"the form: {whole}")
        for spelled in f"test:3:{begun + 1}-last", f"TEST:3:{begun + 1}-{last}":
            expect(ask(port, f"-g {spelled}"), whole, spelled)
        texts = []
        for serial in range(begun + 1, last + 1):
            one = ask(port, f"-g TEST:3:{serial}-{serial}")
            texts.append(one.partition("\n")[2].removesuffix(foot))
        expect("".join(texts), whole.partition("\n")[2].removesuffix(foot), "each serial alone")
        wanted = [("aut-num", "AS1"), ("as-set", "AS-A"), ("route", "10.0.0.0/24 AS1")]
        found = [key_of(text.strip("\n").partition("\n\n")[2]) for text in texts]
        expect(sorted(found), sorted(wanted), "the objects")
        expect(found.index(wanted[0]) == 0, True, "that what is named came first")
    with each("what is in error, in a line"):
        outside = f"%ERROR:401: invalid range: Not within {begun + 1}-{last}\n\n"
        for asked in f"{begun}-LAST", f"1-{last}", f"{last}-{last + 1}", f"{last + 2}-LAST":
            expect(ask(port, f"-g TEST:3:{asked}"), outside, asked)
        expect(ask(port, f"-g TEST:3:{last}-{begun + 1}"), outside, "a range turned round")
        expect(ask(port, "-g RIPE:3:1-LAST"), "%ERROR:403: unknown source RIPE\n\n", "a source")
        for word in f"TEST:1:{last}-LAST", "TEST:3:LAST", "TEST", f"TEST:3:{last}-":
            answer = ask(port, f"-g {word}")
            expect((answer[:25], answer.count("\n")), ("%ERROR:405: syntax error:", 2), word)
        expect(ask(port, f"-g TEST:3:{last + 1}-LAST"), NO_NEWER, "what is new")
    with each("another address"):
        answer = f"{REFUSED} 127.0.0.2\n\n"
        for word in "TEST:3:1-LAST", "RIPE:3:1-LAST", "x":
            expect(door.whois(f"-g {word}", last=2).decode(), answer, word)
        expect(
            f"\nTEST:3:N:{begun + 1}-{last}\n" in door.whois("-q sources", 2).decode(), True, "N"
        )
        expect(f"\nTEST:3:Y:{begun + 1}-{last}\n" in ask(port, "-q sources"), True, "Y")
        expect('"serial_newest_journal": %d,' % last in ask(port, "!JTEST"), True, "!J")
    with each("a connection that is kept"), door.connect(port) as peer:
        peer.sendall(f"-k -g TEST:3:{last}-LAST\n".encode() * 2 + b"-k\n")
        expect(read_all(peer).decode(), 2 * ask(port, f"-g TEST:3:{last}-{last}"), "two ranges")
    with each("the status"):
        serials = door.status()["serials"]
        expect((serials["first"], serials["last"]), (begun + 1, last), "the serials")
        expect(list(serials["mirrors"]), ["127.0.0.1"], "the mirrors")
        ask(port, f"-g TEST:3:{last + 9}-LAST")
        expect("serials went back" in " ".join(door.status()["faults"]), True, "one that is ahead")
        ask(port, f"-g TEST:3:{last + 1}-LAST")
        expect(door.status()["faults"], [], "one that is not")
        # Views compare the last changes, and those before their dump, with what they were.
        for first in begun - 100, begun + 1:
            ask(port, f"-g TEST:3:{first}-{begun + 1}")
            mirror = door.status()["serials"]["mirrors"]["127.0.0.1"]
            expect(mirror["serial"], last, f"one that asks again from {first} on")
    with each("clients that a proxy names"):
        mirrors = 'mirrors = ["192.0.2.9", "2001:db8::/64"]\nproxied = true\n'
        config = f'history = "{world.history}"\n{mirrors}'
        with Opened(trial, "proxied", words, config) as proxied:
            for name, is_mirror in [
                ("TCP4 192.0.2.9 192.0.2.1", True),
                ("TCP6 2001:db8::7 2001:db8::1", True),
                ("TCP4 192.0.2.8 192.0.2.1", False),
                ("TCP4 127.0.0.1 127.0.0.1", False),
                ("TCP6 ::ffff:192.0.2.9 ::ffff:192.0.2.1", True),
                ("TCP6 ::ffff:192.0.2.8 ::ffff:192.0.2.1", False),
            ]:
                asked = f"PROXY {name} 1 43\r\n-g TEST:3:{last + 1}-LAST\r\n"
                answer = proxied.whois(asked.encode()).decode()
                refused = f"{REFUSED} {name.split()[1].removeprefix('::ffff:')}\n\n"
                expect(answer, NO_NEWER if is_mirror else refused, name)
    with each("a port of both versions of IP"):
        both = free_port()
        config = f'history = "{world.history}"\nmirrors = ["127.0.0.1"]\n'
        with Opened(trial, "both", [*words, f"--whois=*:{both}"], config) as opened:
            expect(ask(both, f"-g TEST:3:{last + 1}-LAST"), NO_NEWER, "a mirror")
            expect(list(opened.status()["serials"]["mirrors"]), ["127.0.0.1"], "the mirrors")
            with opened.connect(both, 2) as peer:
                peer.sendall(f"-g TEST:3:{last}-LAST\n".encode())
                expect(read_all(peer).decode(), f"{REFUSED} 127.0.0.2\n\n", "another address")


def test_a_mirror_begins_anew_where_serials_were_lost(world: Changing) -> None:
    """A folder of serials that is not there is made anew, and no mirror of before goes on."""
    world.record()
    world.export()
    mirror = world.mirror()
    shutil.rmtree(f"{world.history}/serials")
    while time.time() < 10 * (mirror.serial + 2):
        # So few seconds can't be told from one another by the first serial.
        time.sleep(0.5)
    world.record()
    world.submit(ITEMS.replace("AS1", "AS2").replace("AS-A", "AS-B"))
    world.record()
    with pytest.raises(MustBegin) as refused:
        mirror.follow(world.door.whois_port)
    expect(refused.value.number, 401, "what it is answered")
    world.export()
    mirror = world.mirror()
    mirror.follow(world.door.whois_port)
    expect(mirror.objects == world.dump(), True, "a mirror that began anew")


def test_an_export_is_of_one_state_and_its_serial_never_ahead(
    world: Changing, trial: Trial, tell: Tell
) -> None:
    """Who reads the serial and then the dump, while both are replaced, gets each state after it."""
    history, out = world.history, world.out + "-again"
    world.record()
    refused = run_forked(world.tool, "export", "--history", out, out)
    expect(
        (refused.status, refused.reported.count(b"\n")), (2, 1), f"no history: {refused.reported!r}"
    )
    ran = run_forked(world.tool, "export", "--history", history, out)
    expect(ran.status, 0, "the first")
    names = sorted(os.listdir(out))
    expect((names[1], "test.db.gz" in names), ("TEST.CURRENTSERIAL", True), f"the files: {names}")
    with gzip.open(f"{out}/test.db.gz", "rt", encoding="latin-1") as file:
        text = file.read()
    expect(text.endswith("\n\n# EOF\n"), True, "the end")
    expect(objects_of(text), world.dump(), "the dump")
    before = {name: os.stat(f"{out}/{name}").st_ino for name in names}
    ran = run_forked(world.tool, "export", "--history", history, out)
    expect((ran.status, ran.reported), (0, b""), "one without a change")
    expect({name: os.stat(f"{out}/{name}").st_ino for name in names}, before, "its files")
    count = 0
    for turn in range(trial.pick(4, 40)):
        world.submit(ITEMS.replace("AS1", f"AS{turn + 10}").replace("AS-A", f"AS-T{turn}"))
        world.record()
        number = os.fork()
        if not number:
            os._exit(run_forked(world.tool, "export", "--history", history, out).status)
        while os.waitpid(number, os.WNOHANG)[0] == 0:
            mirror = Mirror("TEST")
            mirror.begin(out)
            mirror.follow(world.door.whois_port)
            expect(mirror.objects == world.dumps[mirror.serial], True, "what a reader made of both")
            count += 1
    with open(f"{out}/TEST.CURRENTSERIAL", "w", encoding="ascii") as file:
        file.write(f"{world.last() + 1}\n")
    ran = run_forked(world.tool, "export", "--history", history, out)
    expect((ran.status, b"serials went back" in ran.reported), (5, True), "a serial that went back")
    tell(f"{count} readers")


def test_a_long_range_is_answered_in_parts(trial: Trial, tool: Tool, tell: Tell) -> None:
    """An answer to LAST ends before it would be too long, and the mirror asks on."""
    with Changing(trial, tool, "parts", "largest = 65536\n") as world:
        world.record()
        world.export()
        mirror = world.mirror()
        for turn in range(4):
            route = "route: 10.%d.%d.0/24\norigin: AS1\nmnt-by: ROOT-MNT\nsource: TEST\n\n"
            texts = [route % (turn, number) for number in range(trial.pick(250, 250))]
            aut_num = "aut-num: AS1\nmnt-by: ROOT-MNT\nsource: TEST\n\n"
            world.submit("password: bc\n\n" + aut_num + "".join(texts))
            world.record()
        answers = 0
        while mirror.follow(world.door.whois_port):
            answers += 1
        expect(mirror.objects == world.dump(), True, "what came of it")
        expect(answers > 1, True, f"{answers} answers")
        tell(f"{answers} answers")

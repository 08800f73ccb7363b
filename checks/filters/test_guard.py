"""That the guard of filters reads lists as their routers do, which print what they have read."""

import os
import random
import re

import pytest

from checks.filters.filtering import FRR, frr, program
from checks.running import Tell, Trial, expect, run, write
from irr.filters import lists

IN_MEMORY = True
# Lines of lists, whose words FRR also takes by their beginnings, of so many letters at least.
LINES = """ip prefix-list A permit 10.0.0.0/8
ip prefix-list A seq 10 permit 10.1.0.0/16 le 24
ip prefix-list A seq 15 deny 10.2.0.0/16 ge 20 le 24
ip prefix-list A permit any
ipv6 prefix-list A seq 5 permit 2001:db8::/32 ge 40
ipv6 prefix-list A deny any
access-list B permit 10.0.0.0/8 exact-match
access-list B seq 10 deny host 10.0.0.1
access-list B permit 10.0.0.0 0.255.255.255
access-list B permit any
ipv6 access-list B permit 2001:db8::/32 exact-match
bgp as-path access-list C permit _(64496|64497)$
bgp as-path access-list C seq 20 permit ^$
bgp as-path access-list C deny .*"""
LEAST = {"ip": 2, "ipv6": 3, "bgp": 2, "as-path": 2, "access-list": 2, "prefix-list": 2}
WORDS = [*LEAST, *"seq permit deny any host ge le exact-match".split()]


def shortened(line: str, chance: random.Random) -> str:
    """A line with beginnings of words in place of some of them."""
    return " ".join(
        word[: chance.randint(LEAST.get(word, 1), len(word))] if word in WORDS else word
        for word in line.split()
    )


def spans(router: str, text: str) -> dict[lists.List, object]:
    """What each list of a filter takes: prefixes, or AS numbers and patterns."""
    return {
        place: (
            vars(lists.taken(router, place, words))
            if place.kind in lists.PREFIX_LISTS
            else (lists.numbers_of(words), lists.patterns_of(place, words))
        )
        for place, words in lists.parted(router, text).items()
        if place.kind
    }


@pytest.mark.skipif(not program("vtysh") or not os.path.exists(FRR), reason="no FRR is here")
def test_beginnings_of_words_are_read_as_frr_reads_them(trial: Trial, tell: Tell) -> None:
    chance, tries = trial.chance("beginnings"), trial.pick(3, 40)
    for number in range(tries):
        folder = trial.place(f"frr-{number}")
        text = "".join(f"{shortened(line, chance)}\n" for line in LINES.splitlines())
        with frr(folder, write(folder, "short.conf", text.encode())) as vtysh:
            shown = vtysh("show running-config").decode()
        expect(shown.count("\nip") > 5, True, f"whether FRR has read it: {shown}")
        expect(spans("frr", text), spans("frr", shown), f"the lists of {text}")
        expect(spans("frr", LINES), spans("frr", text), f"the lists in whole words, and of {text}")
    tell(f"{tries} times {len(LINES.splitlines())} lines")


OPENBGPD = """AS 64500
router-id 192.0.2.1
a = "10.2.0.0"
prefix-set X { "10.0.0.0"/8 '10.1.0.0' / 16 or-longer $a/24 "2001:db8::"/32 "10"/8 }
origin-set O { "10.0.0.0"/8 maxlen 24 source-as 64496 }
allow from any prefix "10.3.0.0"/16
"""


@pytest.mark.skipif(not program("bgpd"), reason="OpenBGPD is not here")
def test_addresses_in_quotes_are_read_as_openbgpd_reads_them(trial: Trial) -> None:
    folder = trial.place("openbgpd")
    path = write(folder, "quoted.conf", OPENBGPD.encode())
    os.chmod(path, 0o600)
    ran = run([program("bgpd"), "-nvv", "-f", path], folder)
    expect(ran.status, 0, f"whether OpenBGPD reads it: {ran.reported!r}")
    shown = re.sub(r"^(?:rde|socket|listen) .*", "", ran.printed.decode(), flags=re.M)
    for one in lists.losses("openbgpd", OPENBGPD, shown):
        expect(one.lost, 0, f"what {one.name} has that OpenBGPD has not read")
    found = [(one.name, one.lost, one.size) for one in lists.losses("openbgpd", shown, OPENBGPD)]
    expect(found, [("X", 0, 5), ("O", 0, 1), ("allow from any", 0, 1)], "what it has read")

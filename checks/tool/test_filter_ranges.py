"""Which ranges a filter takes, and how routers are told their lengths."""

import argparse
from typing import Any

import pytest

from irr.commands import filter as command
from irr.errors import DONE, REFUSED, Failure
from irr.filters.sets import listed
from irr.registry.answers import Answer
from irr.registry.server import Server


class Lines(Server):
    """A registry in which every set has these ranges."""

    def __init__(self, *ranges: str) -> None:
        super().__init__("http://127.0.0.1:1")
        self.text = "".join(f"{one}\n" for one in ranges).encode()

    def query(self, *words: str | bytes) -> Answer:
        return Answer(self.text, " ".join(map(str, words)))


def made(place: Server, monkeypatch: pytest.MonkeyPatch, *words: str) -> int:
    monkeypatch.setattr(Server, "from_options", lambda *_: place)
    parser = argparse.ArgumentParser()
    command.arguments(parser)
    return command.run(parser.parse_args([*words, "X", "AS1:RS-A", "-"]))


@pytest.mark.parametrize(
    ("one", "widest", "is_taken"),
    [
        ("10.0.0.0/8^24", "8", True),
        ("10.0.0.0/7^24", "8", False),
        ("0.0.0.0/0^24", "8", False),
        ("0.0.0.0/0^24-32", "1", False),
        ("0.0.0.0/0^24", "0", True),
        ("10.0.0.0/8", "9", False),
    ],
)
def test_the_prefix_of_a_range_is_no_wider(
    one: str, widest: str, is_taken: bool, monkeypatch: pytest.MonkeyPatch
) -> None:
    """Whatever its lengths are: of all addresses even the longest ones let anything in."""
    if is_taken:
        assert made(Lines(one), monkeypatch, "--widest", widest, "bird") == DONE
        return
    with pytest.raises(Failure, match=f"wider than /{widest}") as raised:
        made(Lines(one), monkeypatch, "--widest", widest, "bird")
    assert raised.value.status == REFUSED


class Changing(Lines):
    """A view that tells these states in turn, and then the last one."""

    def __init__(self, *states: str) -> None:
        super().__init__("10.0.0.0/16")
        self.states = list(states)

    def view(self) -> dict[str, Any]:
        state = self.states.pop(0) if len(self.states) > 1 else self.states[0]
        return {"sources": [{"name": "RIPE", "state": state, "serial": 7}], "roas": "r0"}


def test_no_filter_is_of_two_states_of_a_view(
    monkeypatch: pytest.MonkeyPatch, capsys: pytest.CaptureFixture[str]
) -> None:
    """Its first lines would name one, and its ranges may be of the other."""
    assert made(Changing("s1", "s1"), monkeypatch, "bird") == DONE
    head = capsys.readouterr().out.split("\n")[1:3]
    assert head == ["# source RIPE, state s1, serial 7", "# ROAs, state r0"]
    with pytest.raises(Failure, match="the view has changed meanwhile; ask again"):
        made(Changing("s1", "s2"), monkeypatch, "bird")
    assert capsys.readouterr().out == ""


def test_lengths(monkeypatch: pytest.MonkeyPatch, capsys: pytest.CaptureFixture[str]) -> None:
    ranges = ["10.0.0.0/16", "10.1.0.0/16^24", "10.2.0.0/16^16-24", "10.3.0.0/16^20-32"]
    place = Lines(*ranges, "10.4.0.0/16^-", "10.5.0.0/16^+")
    assert made(place, monkeypatch, "frr") == DONE
    assert capsys.readouterr().out.split("\n")[1:-1] == [
        "ip prefix-list X seq 5 permit 10.0.0.0/16",
        "ip prefix-list X seq 10 permit 10.1.0.0/16 ge 24 le 24",
        "ip prefix-list X seq 15 permit 10.2.0.0/16 le 24",
        "ip prefix-list X seq 20 permit 10.3.0.0/16 ge 20 le 32",
        "ip prefix-list X seq 25 permit 10.4.0.0/16 ge 17 le 32",
        "ip prefix-list X seq 30 permit 10.5.0.0/16 le 32",
        "ip prefix-list X seq 35 deny any",
    ]
    assert made(place, monkeypatch, "bird") == DONE
    assert [line.strip(" ,") for line in capsys.readouterr().out.split("\n")[2:-2]] == [
        "10.0.0.0/16{16,16}",
        "10.1.0.0/16{24,24}",
        "10.2.0.0/16{16,24}",
        "10.3.0.0/16{20,32}",
        "10.4.0.0/16{17,32}",
        "10.5.0.0/16{16,32}",
    ]


def test_each_route_of_an_as_is_in_its_filter(
    monkeypatch: pytest.MonkeyPatch, capsys: pytest.CaptureFixture[str]
) -> None:
    prefixes = ["10.0.0.0/8", "10.0.0.0/9", "10.1.0.0/16", "192.0.2.0/32"]
    place = Lines()
    place.text = "".join(
        f"route:          {one}\norigin:         AS1\nmnt-by:         A-MNT\nsource:         T\n\n"
        for one in prefixes
    ).encode()
    monkeypatch.setattr(Server, "from_options", lambda *_: place)
    parser = argparse.ArgumentParser()
    command.arguments(parser)
    assert command.run(parser.parse_args(["frr", "X", "AS1", "-"])) == DONE
    lines = capsys.readouterr().out.split("\n")[1:-2]
    assert [line.split()[6] for line in lines] == prefixes


def test_a_set_that_lacks_one_makes_no_filter(
    monkeypatch: pytest.MonkeyPatch, capsys: pytest.CaptureFixture[str]
) -> None:
    place = Lines("10.0.0.0/16", "% missing AS1:AS-GONE")
    with pytest.raises(Failure, match="not registered: AS1:AS-GONE") as raised:
        made(place, monkeypatch, "bird")
    assert raised.value.status == REFUSED
    assert made(place, monkeypatch, "-m", "bird") == DONE
    told = capsys.readouterr()
    assert "AS1:AS-GONE" in told.err and "10.0.0.0/16{16,16}\n" in told.out


def test_a_message_names_ten_and_counts_the_others() -> None:
    names = [f"AS-{number}" for number in range(12)]
    assert listed(names[:10]) == ", ".join(names[:10])
    assert listed(names[:11]) == ", ".join(names[:10]) + " and 1 more"
    assert listed(names).endswith(" and 2 more")

"""`irr rov` by chance, beside RFC 6811."""

import json
import os
import time
from collections.abc import Iterable

import pytest
from hypothesis import given, settings

from checks import models, rpsl
from checks.rpsl import Choices, Prefix
from checks.running import Trial
from irr.errors import Failure
from irr.rpsl import keys
from irr.views import roas

LONG = bool(os.environ.get("CHECKS_LONG"))
NUMBERS = (0, 64496, 64497, 64498, (1 << 32) - 1)
WITHIN: Prefix = (10 << 24, 20)


class Chance:
    """ROAs, some of which have expired, and routes."""

    def __init__(self, chance: Choices) -> None:
        def any_prefix() -> Prefix:
            return rpsl.any_prefix(chance, WITHIN, 28)

        self.routes = [(any_prefix(), chance.of(NUMBERS)) for _ in range(12)]
        self.routes += [((10 << 24, 20 + length), 64496) for length in range(13)]
        self.roas: list[tuple[Prefix, int, int]] = []
        self.expired: list[tuple[Prefix, int, int]] = []
        for _ in range(1 + chance.below(10)):
            prefix = any_prefix()
            roa = prefix, prefix[1] + chance.below(33 - prefix[1]), chance.of(NUMBERS)
            (self.expired if chance.one_in(4) else self.roas).append(roa)
        self.is_rpki_client = bool(chance.below(2))

    def text(self) -> bytes:
        """The file of rpki-client or Routinator; this one does not say when a ROA expires."""
        now = int(time.time())
        entries = [self.entry(roa, now + 3_600) for roa in self.roas]
        if self.is_rpki_client:
            entries += [self.entry(roa, now - 60) for roa in self.expired]
        entries.append({"asn": "AS64496", "prefix": "2001:db8::/32", "maxLength": 48, "ta": "x"})
        return json.dumps({"metadata": {"generated": now}, "roas": entries}).encode()

    def csv(self) -> bytes:
        """The same as the programs write it in CSV."""
        now = int(time.time())
        lines = ["ASN,IP Prefix,Max Length,Trust Anchor"]
        lines[0] += ",Expires" if self.is_rpki_client else ""
        given = [(roa, now + 3_600) for roa in self.roas]
        given += [(roa, now - 60) for roa in self.expired] if self.is_rpki_client else []
        for (prefix, most, number), end in given:
            line = f"AS{number},{rpsl.prefix_text(prefix)},{most},x"
            lines.append(line + f",{end}" if self.is_rpki_client else line)
        lines.append("AS64496,2001:db8::/32,48,x" + (",0" if self.is_rpki_client else ""))
        return "".join(f"{line}\n" for line in lines).encode()

    def entry(self, roa: tuple[Prefix, int, int], end: int) -> dict[str, object]:
        prefix, most, number = roa
        found: dict[str, object] = {
            "prefix": rpsl.prefix_text(prefix),
            "maxLength": most,
            "ta": "x",
        }
        if self.is_rpki_client:
            return found | {"asn": number, "expires": end}
        return found | {"asn": f"AS{number}"}


def table_of(found: Iterable[roas.Roa]) -> dict[keys.Prefix, list[roas.Roa]]:
    table: dict[keys.Prefix, list[roas.Roa]] = {}
    for roa in found:
        table.setdefault(roa.prefix, []).append(roa)
    return table


def test_a_roa_of_all_addresses_covers_all() -> None:
    every = roas.Roa(keys.Prefix(0, 0), 8, 64496)
    for prefix, number, wanted in [
        (keys.Prefix(0, 0), 64496, "valid"),
        (keys.Prefix(10 << 24, 8), 64496, "valid"),
        (keys.Prefix(10 << 24, 9), 64496, "invalid"),
        (keys.Prefix(255 << 24, 8), 64497, "invalid"),
    ]:
        assert roas.judged(prefix, number, table_of([every]))[0] == wanted


@pytest.mark.parametrize("zone", ["UTC", "Asia/Tokyo", "America/Los_Angeles"])
def test_times_are_in_utc(zone: str, monkeypatch: pytest.MonkeyPatch) -> None:
    """Those of either program, wherever the machine stands."""
    monkeypatch.setenv("TZ", zone)
    time.tzset()
    try:
        assert roas.made_at({"buildtime": "2026-07-01T00:00:00Z"}) == 1_782_864_000
        assert roas.made_at({"generated": 1_782_864_000}) == 1_782_864_000
    finally:
        monkeypatch.undo()
        time.tzset()


CSV = (
    "ASN,IP Prefix,Max Length,Trust Anchor,Expires\n"
    + "".join(
        f"AS{number},10.{number}.0.0/16,{16 + number},ripe,4000000000\n" for number in range(4)
    )
).encode()


def test_roas_that_are_cut_are_not_taken() -> None:
    """Wherever JSON ends early, and within any line of CSV; lines of it that lost a part, too."""
    json_text = Chance(Choices(bytes(range(160)))).text()
    for place in range(len(json_text)):
        with pytest.raises(Failure):
            roas.read(json_text[:place], "x")
    assert len(roas.read(CSV, "x").roas) == 4
    for place in range(len(CSV)):
        if CSV[:place].endswith(b"0000\n"):
            assert len(roas.read(CSV[:place], "x").roas) == CSV[:place].count(b"\n") - 1
            continue
        with pytest.raises(Failure):
            roas.read(CSV[:place], "x")
    for line in b"AS1,10.0.0.0/8,8,x,0,0\n", b"AS1,10.0.0.0/8,8\n", b'AS1,"10.0' + b"x" * 140_000:
        with pytest.raises(Failure):
            roas.read(CSV + line + b"\n", "x")


def test_a_quotation_mark_takes_no_lines() -> None:
    """Neither program quotes a value. As one of several lines it would be ROAs that are lost."""
    whole = CSV.replace(b",Expires", b"").replace(b",4000000000", b"")
    for count in 1, 2:
        assert roas.read(whole.replace(b"ripe", b'"ripe', count), "x") == roas.read(CSV, "x")


@pytest.mark.parametrize("said", ["", "soon", "-1", "1e9", "2026-11-29T00:00:00Z"])
def test_an_end_that_cannot_be_read_is_reported_in_either_form(said: str) -> None:
    """A ROA would count for ever otherwise. It is found by the name of its column."""
    entry = {"prefix": "10.0.0.0/8", "maxLength": 8, "asn": 1, "expires": said}
    csv = f"ASN,IP Prefix,Max Length,Trust Anchor,Expires\nAS1,10.0.0.0/8,8,x,{said}\n"
    other = f"ASN,IP Prefix,Max Length,Expires,Trust Anchor\nAS1,10.0.0.0/8,8,{said},4000000000\n"
    for text in json.dumps({"roas": [entry]}), csv, other:
        with pytest.raises(Failure, match="its `expires` is .*, which is not a time in seconds"):
            roas.read(text.encode(), "x")
    good = other.replace(f",{said},", ",4000000000,").encode()
    assert len(roas.read(good, "x").roas) == 1


def test_nobody_is_as0() -> None:
    """No ROA makes a route of AS0 valid (RFC 6483, 4), whatever length it allows."""
    covering = [roas.Roa(keys.Prefix(10 << 24, 8), 32, number) for number in (0, 64496)]
    for found in covering[:1], covering[1:], covering:
        state, why = roas.judged(keys.Prefix(10 << 24, 8), 0, table_of(found))
        assert state == "invalid" and why.startswith(": AS0 may originate nothing: ")
        assert all(one.text() in why for one in found)


def test_states(trial: Trial) -> None:
    seen = {"valid": 0, "invalid": 0, "not found": 0}

    @settings(max_examples=5_000 if LONG else 200, deadline=None)
    @given(rpsl.drawn(Chance, 160))
    def holds(chance: Chance) -> None:
        if not chance.roas:
            with pytest.raises(Failure, match="no ROA for IPv4"):
                roas.read(chance.text(), "x")
            return
        table = table_of(roas.read(chance.text(), "x").roas)
        assert roas.read(chance.csv(), "x").table() == roas.read(chance.text(), "x").table()
        for prefix, origin in chance.routes:
            wanted = models.validity(prefix, origin, chance.roas)
            state, why = roas.judged(keys.Prefix(*prefix), origin, table)
            assert state == wanted
            assert bool(why) == (state == "invalid")
            seen[state] += 1

    rpsl.until_seen(holds, seen, 21, trial.seed)

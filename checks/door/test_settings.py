"""The settings of the door: each value that is none ends in one line that names it, and none is
rounded or taken for another."""

import dataclasses
import resource
from pathlib import Path

import pytest

from checks.running import expect
from irr.door import service, settings
from irr.errors import SETTINGS, Failure

# A line of door.toml, and a word of what is said.
BAD = {
    "foo = 1": "foo: there is no such setting",
    "whois = 43": "whois: it takes a list of words",
    "[whois]": "whois: it takes a list of words",
    'whois = ["localhost"]': "localhost: this is not a place",
    'whois = ["irr.example.net:43"]': "irr.example.net:43: this is not a place",
    'http = ["127.0.0.1:70000"]': "127.0.0.1:70000: this is not a place",
    'status = "4381"': "4381: this is not a place",
    'agent = "x"': "x: this is not a place",
    'view = ["x"]': "x: this is not a place",
    'registry = "127.0.0.1:4343"': "this is not a registry of this machine",
    'registry = "https://127.0.0.1:4343"': "this is not a registry of this machine",
    'registry = "http://127.0.0.1"': "this is not a registry of this machine",
    'registry = "http://127.0.0.1:0"': "this is not a registry of this machine",
    'registry = "http://127.0.0.1:99999"': "this is not a registry of this machine",
    'registry = "http://127.0.0.1:4343/x"': "this is not a registry of this machine",
    'registry = "http://127.0.0.1:4343?x"': "this is not a registry of this machine",
    'registry = "http://u:p@127.0.0.1:4343"': "this is not a registry of this machine",
    'registry = "http://["': "this is not a registry of this machine",
    'registry = "http://[::1"': "this is not a registry of this machine",
    'registry = "http://irr.example.net:4343"': "irr.example.net:4343: this is not a place",
    'replica = ["x"]': "this is not a registry of this machine",
    'trusted = ["10.0.0.1/8"]': "this is not an address or prefix; correct `trusted`",
    'mirrors = ["2001:db8::1/32"]': "this is not an address or prefix; correct `mirrors`",
    "refill = nan": "refill: it takes a number from 0.001 to 1,000",
    "refill = inf": "refill: it takes a number",
    "burst = 0": "burst: it takes a number",
    'burst = "3"': "burst: it takes a number",
    "burst = true": "burst: it takes a number",
    "connections = 0": "connections: it takes a whole number from 1 to 100,000",
    "connections = 1.5": "connections: it takes a whole number",
    "size = 1048577": "size: it takes a whole number from 1 to 1,048,576",
    "items = 0": "items: it takes a whole number",
    "passwords = -1": "passwords: it takes a whole number",
    "largest = 1": "largest: it takes a whole number",
    "answers = 1": "answers: it takes a whole number",
    "keep = -1": "keep: it takes a number",
    "oldest = 0": "oldest: it takes a number",
    "patience = 0.5": "patience: it takes a number",
    "log_size = 1": "log_size: it takes a whole number",
    "log_days = 0": "log_days: it takes a number",
    "strict = 1": "strict: it takes true or false",
    "default = 3": "default: it takes a word",
    "log = 3": "log: it takes a word",
}
GOOD = {
    'whois = "127.0.0.1:43"': ("whois", ("127.0.0.1:43",)),
    'whois = ["*:43", "[::1]:4300"]': ("whois", ("*:43", "[::1]:4300")),
    'registry = "http://[::1]:4343"': ("registry", "http://[::1]:4343"),
    'registry = "http://localhost:4343/"': ("registry", "http://localhost:4343/"),
    'agent = ""': ("agent", ""),
    "refill = 1": ("refill", 1.0),
    "connections = 20.0": ("connections", 20),
    "keep = 0": ("keep", 0.0),
    "keep = 0.5": ("keep", 0.5),
    "patience = 1.5": ("patience", 1.5),
    "oldest = 1.5": ("oldest", 1.5),
    "log_days = 0.5": ("log_days", 0.5),
    "strict = true": ("strict", True),
}


def read(folder: Path, text: str) -> settings.Settings:
    path = folder / "door.toml"
    path.write_text(text + "\n", encoding="utf-8")
    return settings.read(str(path), {})


@pytest.mark.parametrize("line", BAD)
def test_what_is_no_setting_is_named(tmp_path: Path, line: str) -> None:
    with pytest.raises(Failure) as found:
        read(tmp_path, line)
    said = str(found.value)
    expect((BAD[line] in said, "\n" in said), (True, False), said)
    expect(found.value.status, SETTINGS, "the status")


@pytest.mark.parametrize("line", GOOD)
def test_a_setting_has_its_value_and_its_kind(tmp_path: Path, line: str) -> None:
    name, wanted = GOOD[line]
    found = getattr(read(tmp_path, line), name)
    expect((found, type(found)), (wanted, type(wanted)), line)


def test_a_door_that_may_open_too_few_files_is_not_opened(monkeypatch: pytest.MonkeyPatch) -> None:
    """It would let clients in, and have no file left to ask the registry."""
    monkeypatch.setattr(resource, "getrlimit", lambda _: (100, 1_200))
    with pytest.raises(Failure) as found:
        service.run(settings.Settings(connections=1_000))
    said = str(found.value)
    expect("connections: the door may open 1,200 files" in said, True, said)
    expect(found.value.status, SETTINGS, "the status")


def test_each_number_has_bounds_and_the_manual_has_each_setting() -> None:
    manual = Path(__file__).parents[2].joinpath("man/irr-door.1").read_text(encoding="utf-8")
    for field in dataclasses.fields(settings.Settings):
        is_number = isinstance(field.default, (int, float)) and not isinstance(field.default, bool)
        expect(field.name in settings.BOUNDS, is_number, f"the bounds of {field.name}")
        expect(field.name in manual, True, f"{field.name} in irr-door(1)")

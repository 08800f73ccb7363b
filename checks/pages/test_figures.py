"""Figures of the pages: each is that of a record, or the sum of what a record has."""

import re
import tomllib
from collections.abc import Iterator
from typing import Any

import pytest

from checks.pages.text import TOP, headings_of, text_of
from checks.running import expect

RECORDS: list[dict[str, Any]] = tomllib.loads(text_of("bench/records.toml"))["record"]
# Sections whose tables have measured figures alone, each by its page and anchor.
MEASURED = sorted({section for record in RECORDS for section in record.get("rows", {})})
# What a table has that was not measured as a whole, as its page says.
SUMMED = {
    "the registry, and as much again while a backup is made",
    "the door",
    "a machine for these",
    "two replicas, and as much as one again while they are renewed",
    "a machine with replicas",
}


def rows_of(section: str) -> Iterator[tuple[str, list[str]]]:
    """The rows of a section's tables that have a digit behind their first cell."""
    page, _, anchor = section.partition("#")
    inside = False
    for line in text_of(page).splitlines():
        if line.startswith("#"):
            inside = headings_of(line) == {anchor}
        elif inside and re.match(r"\|.*\|.*\d.*\|$", line):
            _, first, *cells, _ = re.split(r" *\| *", line)
            if not line.startswith("| |") and not first.startswith(("what is asked", "`bench/")):
                yield first, cells


@pytest.mark.parametrize("section", MEASURED)
def test_each_row_of_measured_figures_is_that_of_a_record(section: str) -> None:
    kept = {
        label: cells
        for record in RECORDS
        for label, cells in record.get("rows", {}).get(section, {}).items()
    }
    found = {label: cells for label, cells in rows_of(section) if label not in SUMMED}
    expect(found, kept, f"the rows of {section}")


def test_each_phrase_of_a_record_is_in_its_page() -> None:
    missing = [
        f"{page}: {phrase}"
        for record in RECORDS
        for page, phrases in record.get("phrases", {}).items()
        for phrase in phrases
        if phrase not in " ".join(text_of(page).split())
    ]
    assert not missing


def test_a_record_says_what_was_measured_how_when_and_where() -> None:
    for record in RECORDS:
        command = record["command"].partition(" ")[0]
        assert (TOP / command).exists(), f"there is no {command}"
        assert record["version"] and record["day"] and record["machine"]


def test_the_minutes_of_a_promise_are_those_of_its_crate_and_all_below() -> None:
    """By the second figure that bench/gate.md has of each crate, in tenths of a minute."""
    tenths = {
        name: int(minutes + tenth)
        for name, minutes, tenth in re.findall(
            r"`(rr_\w+)` \| [\d.]+ → (\d+)\.(\d) ", text_of("bench/gate.md")
        )
    }
    lines = [line for line in text_of("crates.txt").splitlines() if line.startswith("rr_")]
    uses = {line.partition(":")[0]: re.findall(r"rr_\w+", line)[1:] for line in lines}

    def below(crate: str) -> set[str]:
        return {crate}.union(*map(below, uses[crate]))

    found = dict(re.findall(r"\| `(rr_\w+)` \| (\d+) \|$", text_of("docs/PROOF.md"), re.M))
    wanted = {crate: str((sum(tenths[name] for name in below(crate)) + 5) // 10) for crate in found}
    expect(len(found) > 10, True, "whether PROOF has its table")
    expect(found, wanted, "the minutes in PROOF")


def test_the_toolchain_that_is_named_is_the_one_that_proved_the_release() -> None:
    found = re.search(r"^Toolchain: (\S+) (.*)$", text_of("dist/PROOF"), re.M)
    assert found
    kit, logic = found.groups()
    for name in "README.md", "docs/PROOF.md", "scripts/kit.sh":
        named = set(re.findall(r"rattle-kit-\w+", text_of(name)))
        expect(named, {kit}, f"the toolchain in {name}")
        logics = set(re.findall(r"\blogic [0-9a-f]+", text_of(name)))
        expect(logics - {logic}, set(), f"its logic in {name}")

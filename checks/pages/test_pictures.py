"""The pictures of the pages: drawn from their texts, told in words, and true of what they show."""

import re
import subprocess
import xml.etree.ElementTree as trees
from pathlib import Path

import pytest

from checks.pages.text import PAGES, TOP, text_of
from checks.running import Trial, expect, write, write_settings
from checks.serving import Server
from checks.worlds import Tool

TEXTS = {path.stem: path.read_text("utf-8") for path in sorted(TOP.glob("docs/drawings/*.drawing"))}
IMAGE = re.compile(r"!\[([^\]]*)\]\(([^)\s]+)\)")
# What is registered in START when it draws the map.
SPACE = b"""password: bc

mntner: EXAMPLE-MNT
auth: SHA256-PW a:ba7816bf8f01cfea414140de5dae2223b00361a396177a9cb410ff61f20015ad
mnt-by: EXAMPLE-MNT
source: TEST

aut-num: AS64496
mnt-by: ROOT-MNT
source: TEST

inetnum: 192.0.2.0/24
mnt-by: EXAMPLE-MNT, ROOT-MNT
source: TEST

inetnum: 192.0.2.0/24
mnt-by: EXAMPLE-MNT
source: TEST

route: 192.0.2.0/24
origin: AS64496
mnt-by: EXAMPLE-MNT
source: TEST
"""
BOX = re.compile(r"^box \S+ \S+ (\d+) \S+ \S+ \| (.*)$", re.M)


def images() -> list[tuple[str, str, Path]]:
    """Each picture of a page: the page, the words for it, and its file."""
    return [
        (name, words, (TOP / name).parent / path)
        for name in PAGES
        for words, path in IMAGE.findall(text_of(name))
    ]


def boxes(name: str) -> dict[str, int]:
    """The first words of each box of a picture, and how far from its top the box is."""
    return {words.split(" | ")[0]: int(top) for top, words in BOX.findall(TEXTS[name])}


def test_each_picture_is_the_one_of_its_text() -> None:
    made = subprocess.run(
        [TOP / "docs/drawings/draw", "--check"], capture_output=True, text=True, check=False
    )
    expect((made.returncode, made.stdout, made.stderr), (0, "", ""), "what docs/drawings/draw says")


def test_each_drawing_is_shown_in_a_page_with_its_words() -> None:
    shown = {path.stem: words for _, words, path in images() if path.suffix == ".svg"}
    drawn = {name: " ".join(re.findall(r"^alt (.*)$", text, re.M)) for name, text in TEXTS.items()}
    shown.pop("space")
    expect(shown, drawn, "the words beside the pictures")


def test_no_picture_of_a_page_lacks_words() -> None:
    assert not [f"{name}: {path.name}" for name, words, path in images() if len(words) < 20]


@pytest.mark.parametrize("name", TEXTS)
def test_a_picture_is_well_formed_and_its_words_are_inside(name: str) -> None:
    """Whatever draws it: boxes are inside of the picture, and words begin there."""
    root = trees.parse(TOP / f"docs/pictures/{name}.svg").getroot()
    width, height = (float(root.attrib[side]) for side in ("width", "height"))
    for node in root.iter():
        if "x" in node.attrib:
            x, y = float(node.attrib["x"]), float(node.attrib["y"])
            right, low = (float(node.attrib.get(side, 0)) for side in ("width", "height"))
            assert 0 <= x <= x + right <= width and 0 <= y <= y + low <= height, node.attrib


def test_the_crates_stand_above_what_they_use() -> None:
    """All crates of the program, each above those that crates.txt says it uses."""
    lines = [line for line in text_of("crates.txt").splitlines() if not line.startswith("#")]
    uses = {name: words.split() for name, _, words in (line.partition(":") for line in lines)}
    program = {name for name in uses if not name.endswith("_tests")}
    tops = boxes("crates")
    expect(sorted(tops), sorted(program), "the crates of the picture")
    assert not [
        f"{name} uses {used}"
        for name in program
        for used in uses[name]
        if used in tops and tops[used] <= tops[name]
    ]


def test_the_map_is_the_one_of_what_start_registers(trial: Trial, tool: Tool) -> None:
    folder = trial.place("space")
    write_settings(folder)
    write(folder, "space.rpsl", SPACE)
    for words in ["init", "s.toml"], ["submit", "s.toml", "space.rpsl"]:
        expect(trial.run(folder, *words).status, 0, " ".join(words))
    with Server(trial.program, folder, 100) as served:
        place = f"http://127.0.0.1:{served.port}"
        command = re.search(r"`irr (tree --svg space.svg \S+)`", text_of("docs/START.md"))
        assert command
        words = command[1].replace("space.svg", f"{folder}/space.svg").split()
        expect(tool(*words, "-s", place).status, 0, command[0])
    made = Path(folder, "space.svg").read_bytes()
    expect(made, (TOP / "docs/pictures/space.svg").read_bytes(), "the map")

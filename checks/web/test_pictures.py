"""The pictures of the views, which `python3 -m checks.web.pictures PROGRAM` makes."""

import re
from pathlib import Path

from checks.running import TOP, Tell
from checks.web.pictures import PLACE

# Bytes of all of them, and words of an alternative text.
MOST, FEWEST = 150_000, 8


def test_each_picture_is_small_and_is_shown_with_an_alternative(tell: Tell) -> None:
    page = Path(TOP, "docs/OPERATING.md").read_text(encoding="utf-8")
    found = re.findall(r"!\[([^\]]*)\]\(pictures/(\S+\.png)\)", page)
    shown = {path: words for words, path in found}
    sizes = {path.name: path.stat().st_size for path in PLACE.glob("*.png")}
    assert (
        sorted(shown)
        == sorted(sizes)
        == [
            "history.png",
            "look.png",
            "map.png",
            "submit.png",
            "tree.png",
            "why.png",
        ]
    )
    assert all(len(words.split()) >= FEWEST for words in shown.values())
    assert sum(sizes.values()) <= MOST
    tell(f"{sum(sizes.values()):,} bytes")

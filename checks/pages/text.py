"""Pages as texts: which there are, their prose without code, their sentences, links and
headings."""

import re
from collections.abc import Iterator
from pathlib import Path

from checks.running import TOP as FOLDER

TOP = Path(FOLDER)
GUIDES = """START SUBMITTING FILTERS OPERATING WATCHING OPEN BACKUP MOVING MESSAGES UPGRADING FAQ
    GLOSSARY""".split()
USER = ["README.md", *(f"docs/{name}.md" for name in GUIDES)]
PAGES = [
    "README.md",
    "CONTRIBUTING.md",
    "CHANGELOG.md",
    "SECURITY.md",
    *(f"docs/{path.name}" for path in sorted((TOP / "docs").glob("*.md"))),
]
# Pages for developers that stand beside what they are about.
BESIDE = ["bench/README.md", "bench/gate.md", "checks/README.md"]
MANUAL = [f"man/{path.name}" for path in sorted((TOP / "man").glob("*"))]
# Tags of a page or of mdoc that are code.
CODE = re.compile(r"^ *```.*?^ *```|``.+?``|`[^`]+`", re.M | re.S)
MDOC = re.compile(r"^\.Bd.*?^\.Ed|^\.(?!Sh|Ss|It)[A-Z][^\n]*", re.M | re.S)
LINK = re.compile(r"\]\(([^)\s]+)\)")
# Where a paragraph of a page ends, and where a sentence does.
PARAGRAPH = re.compile(r"\n\s*\n|\n(?=\s*(?:[-*|#>]|\d+\.) ?)")
SENTENCE = re.compile(r"(?<=[.?!])[*_)]*\s+")
# Lines of mdoc that part paragraphs, and those that are code, with what ends a sentence there.
PARTING = re.compile(r"^\.(?:Pp|Bl|El|Bd|Ed|Sh|Ss|It)\b.*$", re.M)
MACRO = re.compile(r"^\.[A-Z][^\n]*?( [.?!])?$", re.M)
SHOWN = re.compile(r"^\.Bd.*?^\.Ed$|^\.Sh SYNOPSIS$.*?(?=^\.Sh)", re.M | re.S)
# What begins a paragraph without being a word of it.
OPENING = re.compile(r"^\s*(?:[-*>]|\d+\.)\s+")


def text_of(name: str) -> str:
    return (TOP / name).read_text(encoding="utf-8")


def prose_of(name: str) -> str:
    """A page with its code blotted out, line for line."""
    blot = MDOC if name.startswith("man/") else CODE
    return blot.sub(lambda found: "X" + "\n" * found[0].count("\n"), text_of(name))


def anchors_of(name: str) -> set[str]:
    """The anchors of a page's headings."""
    return headings_of(text_of(name))


def headings_of(page: str) -> set[str]:
    """The anchors of the headings of a page's text, as they are made of their words."""
    text = CODE.sub(lambda found: found[0] if "\n" not in found[0] else "", page)
    titles = re.findall(r"^#+ (.+)$", text, re.M)
    return {re.sub(r"[^\w\- ]", "", title.lower()).replace(" ", "-") for title in titles}


def paragraphs_in(name: str) -> str:
    """The prose of a page or manual as its paragraphs, without what is shown or only names
    something: `X` stands for each piece of code."""
    if not name.startswith("man/"):
        return LINK.sub("]", re.sub(r"^<!--.*?-->$", "", prose_of(name), flags=re.M | re.S))
    text = PARTING.sub("\n", SHOWN.sub("\n", text_of(name)))
    return MACRO.sub(lambda found: "X" + (found[1] or "").strip(), text)


def sentences_of(name: str) -> Iterator[tuple[int, str]]:
    """The sentences of a page's prose, each after the number of its words. Tables and headings have
    none."""
    for part in PARAGRAPH.split(paragraphs_in(name)):
        text = OPENING.sub("", part)
        if text.lstrip().startswith(("|", "#", "![")):
            continue
        for sentence in SENTENCE.split(" ".join(text.split())):
            if sentence:
                yield len(re.findall(r"[\w'’-]+", sentence)), sentence

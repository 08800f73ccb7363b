"""What the pages and the tool's messages say: words, sentences, links, names and numbers."""

import ast
import re
import statistics

import pytest

from checks.pages.text import (
    BESIDE,
    CODE,
    LINK,
    MANUAL,
    PAGES,
    TOP,
    USER,
    anchors_of,
    prose_of,
    sentences_of,
    text_of,
)
from checks.running import Tell

# What no page says, outside code, and what stands in its place.
WORDS = {
    r"behind (it|them|that|this|these|each|the "
    r"(first|last|query|settings|members|end|head|item|request|blank))": "after",
    r"(?<![Tt]here )\b(is|are) no(?! (longer|more|less|other|one|rule))\b": "is not a",
    r", since\b": "because",
    r"(^|[.;:,] )Else\b|[.;:,] else\b": "otherwise",
    r"\bwhoever\b": "the name of the actor",
    r"\bhas the word of\b": "needs permission from",
    r"\bis wanting\b|\bwas wanting\b|\bwant of memory\b": "runs out, lack of",
    r"\bjudged anew\b|\bjudges? anew\b": "re-evaluate",
    r"\bof two and four octets\b|\bof (two|four) octets\b": "16-bit, 32-bit",
    r" \.\.(?![.\w/])": "... or nothing",
    r"\bto be had\b": "available",
}
# The same of pages for users and of the manual.
USER_WORDS = {
    r"\bpeers?\b": "client",
    r"\b(a|the|each|every|its|your|his|of|with|whose|hashed|one) secrets?\b": "password",
    r"\bdigests?\b": "hash",
    r"\bspans?\b": "range",
    r"\bcross(es)?\b": "overlap",
    r"\bopening objects\b": "initial objects",
    r"\bsets? of one (part|name)\b": "set with a name of one component",
    r"\bnobody in\b": "authorises nobody",
    r"\blets? (in|you|it|him|them) in\b": "allows, authorises",
    r"\bstands\b(?! for)": "is, appears, remains",
    r"\b(is|are) told\b": "is reported, printed",
    r"\bregistry's desk\b|\bthe desk\b": "the registry",
}
# The most words of a sentence, and of one in a page of what was; the middle sentence of a page has
# fewer than the third.
MOST, MOST_OF_OLD, MIDDLE = 30, 60, 16
OLD = "CHANGELOG.md"
NUMBERS = re.compile(r"\bAS(\d+)\b")
# Where files name pages.
PLACES = "bench", "checks", "dist", "examples", "scripts", "tools", "units", "web", "crates", ".ci"


@pytest.mark.parametrize("name", [*PAGES, *MANUAL])
def test_a_page_has_no_word_that_the_house_avoids(name: str) -> None:
    forbidden = WORDS | (USER_WORDS if name in USER or name in MANUAL else {})
    text = prose_of(name)
    found = [
        f"line {text.count(chr(10), 0, found.start()) + 1}: '{found[0].strip()}'; write '{instead}'"
        for pattern, instead in forbidden.items()
        for found in re.finditer(pattern, text, re.M)
    ]
    assert not found


def test_what_the_tool_prints_has_no_word_that_the_house_avoids() -> None:
    """Its texts, but for those that only its authors read."""
    bad = []
    for path in sorted((TOP / "tools/irr").rglob("*.py")):
        tree = ast.parse(path.read_text(encoding="utf-8"))
        inner = [
            node.body[0]
            for node in ast.walk(tree)
            if isinstance(node, (ast.Module, ast.FunctionDef, ast.ClassDef)) and node.body
        ]
        silent = {id(first.value) for first in inner if isinstance(first, ast.Expr)}
        for node in ast.walk(tree):
            if not isinstance(node, ast.Constant) or not isinstance(node.value, str):
                continue
            if " " in node.value and id(node) not in silent:
                for pattern, instead in (WORDS | USER_WORDS).items():
                    if found := re.search(pattern, node.value, re.M):
                        place = f"{path.relative_to(TOP)}:{node.lineno}"
                        bad.append(f"{place}: '{found[0].strip()}'; write '{instead}'")
    assert not bad


@pytest.mark.parametrize("name", [*PAGES, *MANUAL])
def test_the_sentences_of_a_page_are_short(name: str, tell: Tell) -> None:
    most = MOST_OF_OLD if name == OLD else MOST
    counts = sorted(sentences_of(name), reverse=True)
    middle = statistics.median(count for count, _ in counts)
    tell(f"{len(counts)} sentences; the longest has {counts[0][0]} words, the middle one {middle}")
    assert not [f"{count} words: {text}" for count, text in counts if count > most]
    assert middle < MIDDLE


@pytest.mark.parametrize("name", [*PAGES, *BESIDE])
def test_the_links_of_a_page_lead_to_files_and_headings(name: str) -> None:
    bad = []
    for target in LINK.findall(CODE.sub("", text_of(name))):
        if re.match(r"[a-z]+:", target):
            continue
        path, _, anchor = target.partition("#")
        page = (TOP / name).parent / path if path else TOP / name
        if not page.exists():
            bad.append(f"{target}: there is no such file")
        elif anchor and anchor not in anchors_of(str(page.resolve().relative_to(TOP))):
            bad.append(f"{target}: the page has no such heading")
    assert not bad


def test_pages_that_files_name_are_there() -> None:
    bad = []
    for place in PLACES:
        for path in sorted((TOP / place).rglob("*")):
            if path.is_file() and path.suffix not in {".deb", ".pyc"} and "out" not in path.parts:
                text = path.read_text(encoding="utf-8", errors="replace")
                for page in re.findall(r"\bdocs/[A-Z]+\.md\b", text):
                    if not (TOP / page).exists():
                        bad.append(f"{path.relative_to(TOP)}: {page}")
    assert not bad


@pytest.mark.parametrize("name", MANUAL)
def test_manuals_that_a_manual_names_are_there(name: str) -> None:
    named = re.findall(r"\.Xr (irr\S*) (\d)", text_of(name))
    assert not [f"{page}({of})" for page, of in named if not (TOP / f"man/{page}.{of}").exists()]


@pytest.mark.parametrize("name", [*USER, *MANUAL])
def test_a_page_for_users_has_as_numbers_for_documentation_alone(name: str) -> None:
    """RFC 5398 has those for documentation."""
    found = sorted(set(map(int, NUMBERS.findall(text_of(name)))))
    known = {0, 65_536, 4_294_967_295}
    assert not [
        number for number in found if not 64_496 <= number <= 65_551 and number not in known
    ]


def test_each_file_of_definitions_is_named_below_the_heading_of_its_crate() -> None:
    named: dict[str, set[str]] = {}
    for section in text_of("docs/DEFINITIONS.md").split("\n## ")[1:]:
        heading, _, body = section.partition("\n")
        for crate in re.findall(r"crates/(\w+)/specs", heading):
            named.setdefault(crate, set()).update(re.findall(r"`(\w+)`", body))
    missing = []
    for folder in sorted(TOP.glob("crates/*/specs")):
        crate = folder.parent.name
        files = {path.stem for path in folder.rglob("*.antt")} - {"Lib", "Private"}
        missing += [f"crates/{crate}/specs/{name}.antt" for name in files - named.get(crate, set())]
    assert not sorted(missing)


# Where what a table of ARCHITECTURE names may be, by the head of its first column.
ROOMS = {
    "crate": ("crates/{room}/src/{name}.rt", "crates/{room}/{name}.antt", "crates/{name}"),
    "package of `tools/irr`": (
        "tools/irr/{room}/{name}.py",
        "tools/irr/{name}.py",
        "tools/irr/{name}",
    ),
    "module of `web`": ("web/{name}.js", "web/{name}"),
    "what": ("{name}",),
    "folder of `checks`": (
        "checks/{room}/{name}.py",
        "checks/{room}/{name}",
        "checks/{name}.py",
        "checks/{name}",
    ),
}
# What has to be named there, and what of it has its name by a rule that the page says.
NAMED = (
    "crates/*/src/**/*.rt",
    "tools/irr/**/*.py",
    "web/**/*.*",
    "checks/**/*.py",
    "checks/**/*.[cj]*",
    "scripts/*",
    "examples/*",
)
BY_RULE = re.compile(
    r"crates/\w+/src/(.*/)?(lib|laws)\.rt|.*/__(init|main)__\.py|tools/irr/commands/.*"
    r"|checks/\w+/conftest\.py"
)


def named_in_the_architecture() -> tuple[set[str], list[str]]:
    """The files and folders that its tables name, and what they name that is not there."""
    named, missing, kind = set[str](), [], ""
    for line in text_of("docs/ARCHITECTURE.md").splitlines():
        columns = [column.strip() for column in line.split("|")[1:-1]]
        if not columns or not kind:
            kind = columns[0] if columns else ""
            continue
        cells = [re.findall(r"`([\w./]+)`", column) for column in columns]
        for name in [*cells[0], *cells[1]]:
            places = {
                place.format(room=room, name=name)
                for place in ROOMS[kind]
                for room in cells[0] or [""]
            }
            there = {place for place in places if (TOP / place).exists()}
            named |= there
            missing += [] if there else [f"{columns[0]}: {name}"]
        for name in (name for cell in cells[2:] for name in cell):
            named.add(f"checks/{name}.py")
            if not ((TOP / f"checks/{name}.py").exists() and "/test_" in name):
                missing.append(f"{columns[0]}: {name}")
    return named, missing


def test_what_the_tables_of_the_architecture_name_is_there() -> None:
    assert not named_in_the_architecture()[1]


def test_the_tables_of_the_architecture_name_each_file_and_package() -> None:
    named, _ = named_in_the_architecture()
    files = {
        str(path.relative_to(TOP))
        for pattern in NAMED
        for path in TOP.glob(pattern)
        if path.is_file()
    }
    assert not sorted(name for name in files - named if not BY_RULE.fullmatch(name))
    packages = {f"tools/irr/{path.parent.name}" for path in TOP.glob("tools/irr/*/__init__.py")}
    assert not sorted(packages - named)


def order_in_the_architecture(first: str) -> dict[str, int]:
    """The places of packages or modules, in the line of the page that begins with one of them."""
    line = re.search(rf"^{first} < .*$", text_of("docs/ARCHITECTURE.md"), re.M)
    assert line is not None
    parts = enumerate(line[0].split(" < "))
    return {name: place for place, names in parts for name in names.split(", ")}


def test_a_package_of_the_tool_imports_from_those_to_its_left() -> None:
    order, bad, seen = order_in_the_architecture("errors"), [], 0
    for path in sorted(TOP.glob("tools/irr/**/*.py")):
        own, *rest = path.relative_to(TOP / "tools/irr").with_suffix("").parts
        if own not in order or rest == ["completion"]:
            continue
        for node in ast.walk(ast.parse(path.read_text(encoding="utf-8"))):
            if not isinstance(node, ast.ImportFrom) or not f"{node.module}.".startswith("irr."):
                continue
            names = f"{node.module}".split(".")[1:2] or [name.name for name in node.names]
            others = [name for name in names if name in order and name != own]
            bad += [f"{path.relative_to(TOP)}: {one}" for one in others if order[one] >= order[own]]
            seen += len(others)
    assert seen > 100 and not bad


def test_a_module_of_the_page_imports_from_those_to_its_left() -> None:
    order, bad, seen = order_in_the_architecture("tables"), [], 0
    for path in [*TOP.glob("web/*.js"), *TOP.glob("web/lib/*.js")]:
        others = re.findall(
            r"""^[^/]*from ['"][./]+(?:lib/)?(\w+)\.js""", path.read_text("utf-8"), re.M
        )
        own = order.get(path.stem, 0)
        bad += [f"{path.name}: {name}" for name in others if order.get(name, own) >= own]
        seen += len(others)
    assert seen > 20 and not bad

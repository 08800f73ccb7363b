"""What scripts/install puts in place for readers: pages whose links lead somewhere, and a manual by
each word that people type."""

import re
import shutil
import subprocess
from pathlib import Path

import pytest

from checks.pages.text import CODE, LINK, TOP, headings_of
from checks.running import Tell, Trial, expect
from irr.commands import TABLE

# How a page names what is not installed with it.
NAMED = re.compile(r"\] \(in the sources: ([^)]*)\)")


@pytest.fixture(scope="module")
def prefix(trial: Trial) -> Path:
    """A folder with all that is installed."""
    path = Path(trial.place("prefix"))
    subprocess.run([TOP / "scripts/install", path, trial.program], check=True)
    return path


def test_links_of_installed_pages_lead_to_files_and_headings(prefix: Path, tell: Tell) -> None:
    pages, bad, count = sorted(prefix.glob("share/doc/irrdesk/**/*.md")), [], 0
    for page in pages:
        for target in LINK.findall(CODE.sub("", page.read_text("utf-8"))):
            if re.match(r"[a-z]+:", target):
                continue
            path, _, anchor = target.partition("#")
            to, count = page.parent / path if path else page, count + 1
            if not to.exists() or anchor and anchor not in headings_of(to.read_text("utf-8")):
                bad.append(f"{page.name}: {target}")
    assert not bad
    tell(f"{count} links of {len(pages)} pages")
    expect(count > 50, True, "whether links were looked at")


def test_what_installed_pages_name_of_the_sources_is_there_and_not_installed(prefix: Path) -> None:
    root, bad = prefix / "share/doc/irrdesk", []
    for page in sorted(root.glob("**/*.md")):
        source = TOP / page.relative_to(root)
        for target in NAMED.findall(page.read_text("utf-8")):
            if not (source.parent / target).exists() or (page.parent / target).exists():
                bad.append(f"{page.name}: {target}")
    assert not bad


@pytest.mark.parametrize("name", [command.name for command in TABLE])
def test_a_command_has_a_manual_by_its_name(prefix: Path, name: str) -> None:
    """`man irr-NAME` is the page that has the command, or leads to it."""
    page = prefix / f"share/man/man1/irr-{name}.1"
    if found := re.fullmatch(r"\.so (man1/\S+)\n", page.read_text("utf-8")):
        page = prefix / "share/man" / found[1]
    text = page.read_text("utf-8")
    expect(bool(re.search(rf"^\.(It )?Cm {name}\b", text, re.M)), True, f"{name} in {page.name}")
    if shutil.which("man"):
        words = ["man", "-M", str(prefix / "share/man"), f"irr-{name}"]
        shown = subprocess.run(words, capture_output=True, text=True, check=False)
        title = page.stem.upper() + "(1)"
        expect((shown.returncode, title in shown.stdout), (0, True), f"what man irr-{name} shows")

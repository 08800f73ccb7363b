"""The page finds the lines of an object's faults as `irr` does, which is held against the
program."""
import json
import shutil
import subprocess
from pathlib import Path
from typing import Any

import pytest
from hypothesis import HealthCheck, Phase, given, note, settings
from hypothesis import strategies as st

from checks.submissions.mutations import mistyped
from checks.submissions.running import LONG, items_of
from checks.tool.test_grammar import CAUSES
from irr.registry import cautions
from irr.rpsl import grammar

# Reads texts, and answers for each what its first paragraph has.
SCRIPT = """
import {blocksOf, cautionsOf, faultsOf} from './lib/grammar.js';
import {readFileSync} from 'node:fs';
const answer = text => blocksOf(text).slice(0, 1).map(block => [
    faultsOf(block, 'TEST').map(one => [one.code, one.line, one.attribute, one.words]),
    cautionsOf(block).map(one => [one.line, one.attribute, one.isGrave]),
]);
console.log(JSON.stringify(JSON.parse(readFileSync(0, 'utf8')).map(answer)));
"""
NODE = shutil.which("node")


@pytest.fixture(scope="module", name="folder")
def folder_fixture(tmp_path_factory: pytest.TempPathFactory, pytestconfig: pytest.Config) -> Path:
    folder = tmp_path_factory.mktemp("page")
    shutil.copytree(pytestconfig.rootpath / "web/lib", folder / "lib")
    (folder / "package.json").write_text('{"type": "module"}', encoding="utf-8")
    (folder / "ask.mjs").write_text(SCRIPT, encoding="utf-8")
    return folder


def asked(folder: Path, texts: list[str]) -> Any:
    assert NODE, "node is not there: install nodejs"
    done = subprocess.run(
        [NODE, "ask.mjs"],
        input=json.dumps(texts).encode(),
        cwd=folder,
        stdout=subprocess.PIPE,
        check=True,
    )
    return json.loads(done.stdout)


def as_irr(text: str) -> list[Any]:
    """What `irr` has of it."""
    found = []
    for item in items_of(text.encode())[:1]:
        faults = [
            [fault.code, item.block.line + fault.line, fault.attribute, fault.words]
            for fault in grammar.faults(item.block.text, "TEST")
        ]
        marks = []
        for caution in cautions.of_text(item):
            line, _, name = caution.place.removeprefix("a.rpsl: line ").partition(", ")
            marks.append([int(line), name.strip("`"), caution.is_grave])
        found.append([faults, sorted(marks)])
    return found


def test_the_page_says_each_cause(folder: Path) -> None:
    """In the words of `irr` too."""
    texts = [text for text, _ in CAUSES]
    for text, found in zip(texts, asked(folder, texts), strict=True):
        assert found == as_irr(text), text


@settings(
    max_examples=400 if LONG else 20,
    deadline=None,
    phases=[Phase.generate],
    suppress_health_check=list(HealthCheck),
)
@given(st.lists(mistyped(), min_size=40, max_size=60))
def test_the_page_says_what_irr_says(folder: Path, texts: list[bytes]) -> None:
    """Each fault, with its line and words; and each mistake that is seen."""
    letters = [text.decode("latin-1").replace("\xc2\xa0", "\xa0") for text in texts]
    for text, found in zip(letters, asked(folder, letters), strict=True):
        note(text)
        note(str(found))
        for one in found:
            one[1] = sorted(one[1])
        assert found == as_irr(text)

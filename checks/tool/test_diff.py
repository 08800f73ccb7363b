"""What `irr diff` says of items, beside what is registered."""

from types import SimpleNamespace
from typing import Any

import pytest

from irr.commands.diff import Comparison
from irr.registry.refusals import Reasons
from irr.registry.submissions import Item
from irr.rpsl import hashes, syntax

ALL = "inetnum:        0.0.0.0 - 255.255.255.255\nmnt-by:         ROOT-MNT\nsource:         TEST\n"
AS1 = "aut-num: AS1\nmnt-by: A-MNT\nsource: TEST\n"
PASSWORD = "password: a secret\n\n"


class Registry:
    """Has these objects, by their queries."""

    url = "the registry"
    is_excerpt = False

    def __init__(self, **objects: str) -> None:
        self.held = {"less 0.0.0.0/0": ALL} | {
            query.replace("__", "-").replace("_", " "): text for query, text in objects.items()
        }

    def query(self, *words: str) -> Any:
        found = list(syntax.paragraphs([self.held.get(" ".join(words), "").encode()]))
        answer = SimpleNamespace(objects=lambda: found)
        answer.or_failure = lambda _: answer
        return answer

    def dump(self) -> Any:
        raise AssertionError("the dump is asked for")


def reported(text: str, registry: Registry, capsys: pytest.CaptureFixture[str]) -> list[str]:
    """What is reported of each item, after its class and key."""
    items = [Item("f", block) for block in syntax.blocks([text.encode()], syntax.LARGEST + 1)]
    comparison = Comparison(Reasons(registry), items)
    for number, item in enumerate((item for item in items if item.is_item), 1):
        comparison.show(number, item)
    lines = capsys.readouterr().out.split("\n")
    return [line.partition(": ")[2] for line in lines if line[:1].isdigit()]


def mntner(by: str, auth: str) -> str:
    return f"mntner: A-MNT\nauth: {auth}\nmnt-by: {by}\nsource: TEST\n"


def test_whose_password_is_given(capsys: pytest.CaptureFixture[str]) -> None:
    """One that fits no new `auth` fits a registered one for certain only where nobody else may
    change the maintainer."""
    own, other = hashes.auth_of(b"a secret", "ab"), hashes.auth_of(b"another", "cd")
    for by, auth, word in [
        ("A-MNT", other, "changed"),
        ("A-MNT", own, "changed or unchanged"),
        ("A-MNT, B-MNT", other, "changed or unchanged"),
        ("B-MNT", other, "changed or unchanged"),
    ]:
        registry = Registry(object_mntner_A__MNT=mntner(by, "# filtered"))
        (line,) = reported(PASSWORD + mntner(by, auth), registry, capsys)
        assert line.partition(",")[0] == word, (by, auth)


def test_what_is_refused_stands_for_nothing(capsys: pytest.CaptureFixture[str]) -> None:
    """A later item is compared with what is registered, and not with what can't be taken."""
    bad = AS1.replace("A-MNT", "a maintainer!").replace("source", "remarks: x\nsource")
    for texts, words in [
        ([bad, AS1], ["changed", "unchanged"]),
        ([AS1 + "delete: x\n", bad, AS1], ["deleted", "new", "new"]),
        ([AS1.replace("source", "remarks: x\nsource"), AS1], ["changed", "changed"]),
    ]:
        registry = Registry(**{"object_aut__num_AS1": AS1})
        assert reported("\n".join(texts), registry, capsys) == words

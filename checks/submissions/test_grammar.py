"""The table of the grammar beside the program: what `irr` says of an object is what the program
decides."""
from typing import Iterator

import pytest
from hypothesis import HealthCheck, Phase, given, note, settings
from hypothesis import strategies as st

from checks.submissions.mutations import OBJECTS, laid_out, mistyped
from checks.submissions.running import LONG, codes_of, registry
from irr.local.temporary_registry import TemporaryRegistry
from irr.rpsl import grammar

CODES = ("E02", "E03", "E04", "E05", "E06")
# So many objects are submitted at once, and so many times: a thousand, or twenty thousand.
LEAST, MOST = 20, 50
many = settings(
    max_examples=600 if LONG else 30,
    deadline=None,
    phases=[Phase.generate],
    suppress_health_check=list(HealthCheck),
)
GOOD = {kind[0][0].decode(): dict(kind) for kind in OBJECTS}


@pytest.fixture(scope="module", name="scratch")
def scratch_fixture(program: str) -> Iterator[TemporaryRegistry]:
    with registry(program) as made:
        yield made


@many
@given(st.lists(mistyped(), min_size=LEAST, max_size=MOST))
def test_codes_agree(scratch: TemporaryRegistry, texts: list[bytes]) -> None:
    """What is told of each object has the program's code, and nothing is told of others."""
    for text, code in zip(texts, codes_of(scratch, texts), strict=True):
        found = grammar.faults(text, "TEST")
        note(f"{text!r}: {code}, {found}")
        assert {fault.code for fault in found} == ({code} if code in CODES else set())


@many
@given(st.lists(mistyped(), min_size=LEAST, max_size=MOST))
def test_reported_lines_are_to_blame(scratch: TemporaryRegistry, texts: list[bytes]) -> None:
    """An object whose told attributes are left out, with what is missing, has the fault no more."""
    told = [(text, grammar.faults(text, "TEST")) for text in texts]
    cases = [(text, found) for text, found in told if found and found[0].code in ("E04", "E05")]
    mended = [mend(text, found) for text, found in cases]
    for case, text, code in zip(cases, mended, codes_of(scratch, mended), strict=True):
        note(f"{case}: {text!r}: {code}")
        assert code > case[1][0].code


@many
@given(st.lists(mistyped(), min_size=LEAST, max_size=MOST))
def test_each_reported_item_is_bad(scratch: TemporaryRegistry, texts: list[bytes]) -> None:
    """Each bad value that is told makes a good object of the class bad."""
    spoilt = [
        good_object(own_of(text)[0].name.decode()) + one.attribute.short_text()
        for text in texts
        for fault in grammar.faults(text, "TEST")
        if fault.code == "E05" and fault.attribute not in ("source", "mnt-routes")
        for one in own_of(text)
        if fault.line in one.numbers
    ]
    assert set(codes_of(scratch, spoilt)) <= {"E05"}


def mend(text: bytes, found: list[grammar.Fault]) -> bytes:
    """The object without the attributes that are told, and with what it needs."""
    lines = {fault.line for fault in found}
    given_ones = own_of(text)
    kept = [given_ones[0].attribute] + [
        one.attribute for one in given_ones[1:] if not lines & set(one.numbers)
    ]
    names = [attribute.name.decode() for attribute in kept]
    good = GOOD[names[0]]
    added = [
        (name.encode(), good.get(name.encode(), b"TEST"))
        for name, rule in grammar.TABLE[names[0]].items()
        if rule.occurs == grammar.FILLED or rule.occurs == grammar.ONCE and name not in names
    ]
    return b"".join(attribute.short_text() for attribute in kept) + laid_out(added)


def own_of(text: bytes) -> list[grammar.Placed]:
    """The attributes of the object in a paragraph."""
    return [one for one in grammar.placed(text) if one.name not in grammar.PSEUDO]


def good_object(kind: str) -> bytes:
    return laid_out([*GOOD[kind].items(), (b"source", b"TEST")])

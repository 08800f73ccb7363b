"""What `irr diff` says is what the submission that then comes does."""
import contextlib
import io

from hypothesis import HealthCheck, given, note, settings

from checks.rpsl import Registry
from checks.submissions.given import any_case
from checks.submissions.running import LONG, items_of, lines_of, registry
from irr.commands.diff import Comparison
from irr.local.dry_run import UNKNOWN
from irr.registry import answers
from irr.registry.refusals import Reasons
from irr.registry.server import Server

WORDS = {"new": "added", "there is none to delete": "refused"}


def compared(place: Server, text: bytes) -> list[str]:
    """The lines of `irr diff` that begin with a number."""
    items = [item for item in items_of(text) if item.is_item]
    comparison = Comparison(Reasons(place), items_of(text))
    with contextlib.redirect_stdout(io.StringIO()) as printed:
        for number, item in enumerate(items, 1):
            comparison.show(number, item)
    return [line for line in printed.getvalue().split("\n") if line[:1].isdigit()]


def faulty(place: Server, text: bytes) -> list[bool]:
    """Of each item, whether `irr diff` says that the registry can't take it."""
    items = [item for item in items_of(text) if item.is_item]
    comparison = Comparison(Reasons(place), items_of(text))
    with contextlib.redirect_stdout(io.StringIO()):
        return [not comparison.show(number, item) for number, item in enumerate(items, 1)]


@settings(
    max_examples=1_000 if LONG else 60, deadline=None, suppress_health_check=list(HealthCheck)
)
@given(given_case=any_case())
def test_diff_then_submit(program: str, given_case: tuple[Registry, list[str], bytes]) -> None:
    """Each item that is not refused does what was printed; what can't be taken is refused for
    it."""
    held, _, text = given_case
    note(held.text())
    note(text.decode("latin-1"))
    with registry(program, held.text()) as scratch, scratch.serve() as url:
        reported, bad = compared(Server(url), text), faulty(Server(url), text)
        report = lines_of(b"".join(Server(url).submit(text)))
    note("\n".join(reported))
    refused: set[str] = set()
    for line, is_bad, item in zip(reported, bad, report, strict=True):
        note(item.text())
        assert is_bad is (item.code[:2] == "E0")
        if item.name not in refused and item.word != "refused":
            assert does(line, item)
        if item.word == "refused":
            # What it would have made of the object did not come to be.
            refused.add(item.name)


def does(line: str, item: answers.Item) -> bool:
    """Whether a line of `irr diff` says what became of an item."""
    front = f"{item.number} {item.name}: "
    assert line.startswith(front)
    word = line.removeprefix(front)
    if word.startswith(UNKNOWN):
        return item.word in ("changed", "unchanged")
    return WORDS.get(word, word) == item.word

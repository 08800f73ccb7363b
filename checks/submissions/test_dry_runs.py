"""A dry run says what the submission that then comes is answered, with what decided."""
import contextlib
import io
import re
from unittest import mock

from hypothesis import HealthCheck, Phase, given, note, settings
from hypothesis import strategies as st

from checks import rpsl
from checks.rpsl import Registry
from checks.submissions.given import any_case
from checks.submissions.running import LONG, items_of, registry, sent, served
from irr.commands import submit
from irr.local import dry_run, excerpts
from irr.local.temporary_registry import TemporaryRegistry
from irr.registry import submissions
from irr.registry.server import Server
from irr.registry.submissions import Sender

some = settings(
    max_examples=1_000 if LONG else 60,
    deadline=None,
    phases=[Phase.generate],
    suppress_health_check=list(HealthCheck),
)
few = settings(some, max_examples=300 if LONG else 15)


def tried(place: Server, names: list[str], text: bytes, has_excerpt: bool) -> tuple[str, str]:
    """What a dry run prints and says, of an excerpt or of the whole registry."""
    out, reported = io.StringIO(), io.StringIO()
    most = excerpts.MOST_ITEMS if has_excerpt else -1
    with mock.patch.object(excerpts, "MOST_ITEMS", most):
        with contextlib.redirect_stdout(out), contextlib.redirect_stderr(reported):
            others = len(submissions.given(items_of(text))) - len(names)
            whose = [*([name] for name in names), *[["-"]] * others]
            dry_run.run(
                place, [], items_of(text), whose, lambda asked: submit.Printer(asked, False)
            )
    assert ("all of the registry was copied" in reported.getvalue()) is not has_excerpt
    return out.getvalue(), reported.getvalue()


def agree(dry: str, real: str) -> None:
    """Whether each line is the same, or the dry run can't know which of two it is."""
    for one, other in zip(lines_of(dry), lines_of(real), strict=True):
        front, unknown, _ = one.partition(dry_run.UNKNOWN)
        assert other in ((front + "changed", front + "unchanged") if unknown else (one,))


def lines_of(printed: str) -> list[str]:
    """The lines of a report as they were before they were wrapped; how many more objects name a
    maintainer is not counted in an excerpt."""
    lines = re.sub(r"\n +", " ", printed).split("\n")
    counted = re.compile(r"( It is named by .*) and [0-9]+ more\.")
    return [counted.sub(r"\1 and others.", one) for one in lines]


@some
@given(given_case=any_case())
def test_dry_runs_agree(program: str, given_case: tuple[Registry, list[str], bytes]) -> None:
    """What is copied for a text judges it as the registry then does."""
    held, names, text = given_case
    note(held.text())
    note(text.decode("latin-1"))
    with registry(program, held.text()) as made:
        with made.serve() as url:
            dry = tried(Server(url), names, text, True)[0]
        real = sent(made, items_of(text))
    note(dry)
    note(real)
    agree(dry, real)


@few
@given(given_case=any_case())
def test_excerpts_are_enough(program: str, given_case: tuple[Registry, list[str], bytes]) -> None:
    """What is copied for a text judges it, and says what decided, as the copy of all does."""
    held, names, text = given_case
    note(held.text())
    note(text.decode("latin-1"))
    with served(program, held.text()) as place:
        dry, whole = (tried(place, names, text, has_excerpt)[0] for has_excerpt in (True, False))
        assert lines_of(dry) == lines_of(whole)


@some
@given(given_case=any_case(), part=st.integers(1, 600))
def test_parts_are_the_whole(
    program: str, given_case: tuple[Registry, list[str], bytes], part: int
) -> None:
    """A submission in parts of any size has the report, and leaves the registry, of the whole."""
    held, _, text = given_case
    note(held.text())
    note(text.decode("latin-1"))
    reports = []
    for size in (1 << 20, part):
        with registry(program, held.text()) as scratch:
            reports.append([*in_parts(scratch, text, size), scratch.dump(True)])
    assert reports[0] == reports[1]
    assert len(reports[0]) > 2


def in_parts(scratch: TemporaryRegistry, text: bytes, size: int) -> list[str | bytes]:
    """The report of a submission that is sent in parts of a size."""
    sender = Sender(lambda body: [scratch.submit(body)], size)
    return [*(one.line.text() for one in sender.send(items_of(text))), sender.last_line()]


def test_what_is_deleted_and_added_again(program: str) -> None:
    """It is new then: what covers it, its origin and its parent are copied too."""
    end = (("mnt-by", "ROOT-MNT"), ("source", "TEST"))
    new = [
        (("aut-num", "AS1"),),
        (("inetnum", "10.0.0.0/8"),),
        (("inetnum", "10.1.0.0/16"),),
        (("route", "10.1.0.0/16"), ("origin", "AS1")),
        (("as-set", "AS1:AS-A"),),
    ]
    held = rpsl.any_registry(rpsl.Choices(b""), 1).text()
    added = "\n".join(rpsl.Object((*head, *end)).text() for head in new)
    password = f"password: {rpsl.password(rpsl.ROOT)}\n\n"
    with registry(program, held) as made:
        assert "refused" not in sent(made, items_of((password + added).encode()))
        for head in new[2:]:
            own = rpsl.Object((*head, *end))
            gone = rpsl.Object((*head, *end, ("delete", "x")))
            text = (password + gone.text() + "\n" + own.text()).encode()
            with made.serve() as url:
                dry = tried(Server(url), [rpsl.ROOT], text, True)[0]
            real = sent(made, items_of(text))
            agree(dry, real)
            assert "deleted" in real and "added" in real


def test_much_is_copied_whole(program: str) -> None:
    """Of a text that touches more than is asked for one by one the dump is taken, which is told."""
    held = rpsl.Registry(tuple(rpsl.any_registry(rpsl.Choices(b""), 1).objects))
    text = b"\n".join(b"aut-num: AS%d\nmnt-by: ROOT-MNT\nsource: TEST\n" % n for n in range(201))
    with served(program, held.text()) as place:
        out, reported = io.StringIO(), io.StringIO()
        with contextlib.redirect_stdout(out), contextlib.redirect_stderr(reported):
            dry_run.run(place, [], items_of(text), [], lambda asked: submit.Printer(asked, True))
    assert "so that all of the registry was copied" in reported.getvalue()
    assert out.getvalue().endswith("% items 201\n")

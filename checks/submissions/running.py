"""Registries of the program for these checks, and what it reports."""
import contextlib
import io
import os
from typing import Iterator
from unittest import mock

from irr.commands import submit
from irr.local.dry_run import Served
from irr.local.temporary_registry import TemporaryRegistry
from irr.registry import answers, submissions
from irr.registry.server import Server
from irr.registry.submissions import Item, Sender
from irr.rpsl import syntax

LONG = bool(os.environ.get("CHECKS_LONG"))
# The root's password is `bc`.
AUTH = "SHA256-PW a:ba7816bf8f01cfea414140de5dae2223b00361a396177a9cb410ff61f20015ad"


@contextlib.contextmanager
def registry(program: str, dump: str = "") -> Iterator[TemporaryRegistry]:
    """A registry of the program in a temporary folder: a new one, or that of a full dump."""
    with mock.patch.dict(os.environ, IRRDESK=program):
        with TemporaryRegistry("TEST", auth=AUTH) as made:
            if dump:
                made.load(made.put("full.rpsl", dump.encode("latin-1")), "the dump")
            else:
                done = made.run("init")
                assert done.returncode == 0, done.stderr
            yield made


@contextlib.contextmanager
def served(program: str, dump: str) -> Iterator[Server]:
    """The registry of a full dump, served."""
    with registry(program, dump) as made, made.serve() as url:
        yield Server(url)


def items_of(text: bytes) -> list[Item]:
    return [Item("a.rpsl", block) for block in syntax.blocks([text], syntax.LARGEST + 1)]


def sent(made: TemporaryRegistry, items: list[Item]) -> str:
    """What `irr submit` prints of items that are sent to a registry, which is not served
    meanwhile."""
    with contextlib.redirect_stdout(io.StringIO()) as printed, contextlib.ExitStack() as stack:
        printer = submit.Printer(Served(made, stack), False)
        sender = Sender(lambda text: [made.submit(text)], submissions.MOST)
        submit.send(sender, items, printer)
    return printed.getvalue()


def lines_of(report: bytes) -> list[answers.Item]:
    """The items of a report."""
    return list(answers.Report().read(report))


def codes_of(scratch: TemporaryRegistry, texts: list[bytes]) -> list[str]:
    """The code, or the word, with which the program answers each paragraph."""
    report = lines_of(scratch.submit(b"".join(text + b"\n" for text in texts)))
    return [line.code or line.word for line in report]

"""What `irr query`, `irr dump` and the files that they write say of nothing, of `-`, and of the
umask; what a netrc gives which address."""

import argparse
import base64
import os
import re
import stat
from collections.abc import Callable, Iterator
from pathlib import Path
from types import ModuleType

import pytest

from checks.running import Trial, write
from irr.commands import dump, query
from irr.errors import DONE, REFUSED, Failure
from irr.registry.server import Server
from irr.system import files

NUMBER = b"aut-num:        AS1\nmnt-by:         A-MNT\nsource:         TEST\n\n"
DUMP = NUMBER + b"% end 1\n"
ANSWERS = {
    "/query/AS1": NUMBER,
    "/query/AS2": b"% no entries\n",
    "/query/expand%20AS-E": b"% empty\n",
    "/dump": DUMP,
}


@pytest.fixture(autouse=True)
def _registry(monkeypatch: pytest.MonkeyPatch) -> None:
    def body(_: Server, reply: bytes) -> Iterator[bytes]:
        yield reply

    monkeypatch.setattr(Server, "ask", lambda self, method, path, bounds: ANSWERS[path])
    monkeypatch.setattr(Server, "body_of", body)


def run(module: ModuleType, *words: str) -> int:
    parser = argparse.ArgumentParser()
    module.arguments(parser)
    status: int = module.run(parser.parse_args(words))
    return status


@pytest.mark.parametrize(
    ("words", "status", "reported"),
    [
        (["--json", "AS1"], DONE, ""),
        (["--json", "AS2"], REFUSED, "irr query: AS2: nothing is registered there\n"),
        (
            ["--json", "expand", "AS-E"],
            REFUSED,
            "irr query: expand AS-E: the set is registered, and has no members\n",
        ),
        (["AS2"], DONE, ""),
    ],
)
def test_nothing(
    words: list[str], status: int, reported: str, capsysbinary: pytest.CaptureFixture[bytes]
) -> None:
    assert run(query, *words) == status
    written = capsysbinary.readouterr()
    assert written.err.decode() == reported and bool(written.out) == (status == DONE)


def test_dump_to_standard_output(
    tmp_path: Path, monkeypatch: pytest.MonkeyPatch, capsysbinary: pytest.CaptureFixture[bytes]
) -> None:
    monkeypatch.chdir(tmp_path)
    spelled: list[list[str]] = [["-o", "-"], ["--output", "-"], []]
    for words in spelled:
        assert run(dump, *words) == DONE
        assert capsysbinary.readouterr().out == DUMP
    assert not list(tmp_path.iterdir())


@pytest.mark.parametrize(("mask", "mode"), [(0o077, 0o600), (0o027, 0o640), (0o022, 0o644)])
def test_umask(tmp_path: Path, mask: int, mode: int) -> None:
    before = os.umask(mask)
    try:
        assert run(dump, "-o", str(tmp_path / "dump")) == DONE
        files.put(tmp_path / "private", b"x", files.PRIVATE)
        # What was there gives the rights that it gave.
        (tmp_path / "open").touch()
        (tmp_path / "open").chmod(0o644)
        files.put(tmp_path / "open", b"x")
        assert os.umask(mask) == mask
    finally:
        os.umask(before)
    modes = [stat.S_IMODE((tmp_path / name).stat().st_mode) for name in ("dump", "private", "open")]
    assert modes == [mode, 0o600, 0o644]


@pytest.mark.parametrize(
    ("url", "has_field"),
    [
        ("https://a.example", True),
        ("https://b.example", True),
        ("http://a.example", True),
        ("http://b.example", False),
        ("http://127.0.0.1:1", False),
        ("http://default", False),
    ],
)
def test_default_of_netrc_is_for_https(
    tmp_path: Path, monkeypatch: pytest.MonkeyPatch, url: str, has_field: bool
) -> None:
    path = tmp_path / "netrc"
    path.write_text("machine a.example login me password x\ndefault login all password y\n")
    path.chmod(0o600)
    monkeypatch.setenv("NETRC", str(path))
    assert bool(Server(url, plain=True).credentials()) == has_field


NETRC = """machine Irr.EXAMPLE.net login me password one
machine other.example login me password two
machine half.example login me
machine NAMELESS.example password three
machine empty.example login me password ""
machine [::1] login me password four
machine ::1 login me password five
machine port.example:8443 login me password six
machine Twice.example login me password seven
machine twice.EXAMPLE login me password eight
"""


@pytest.mark.parametrize(
    ("url", "wanted"),
    [
        ("https://irr.example.net", "one"),
        ("https://IRR.example.NET/views/all", "one"),
        ("https://irr.example.net:8443", "one"),
        ("http://iRR.example.net:4343", "one"),
        ("https://Other.Example", "two"),
        ("https://irr.example", None),
        ("https://x.irr.example.net", None),
        ("https://half.example", "lacks"),
        ("https://nameless.example", "lacks"),
        ("https://Empty.example", "lacks"),
        ("https://[::1]:4343", "five"),
        ("https://port.example:8443", None),
        ("https://twice.example", "eight"),
    ],
)
def test_a_host_of_netrc_is_found_in_any_letter_case(
    tmp_path: Path, monkeypatch: pytest.MonkeyPatch, url: str, wanted: str | None
) -> None:
    """At each port, by its whole name; an entry that lacks a user or a password is told."""
    path = tmp_path / "netrc"
    path.write_text(NETRC)
    path.chmod(0o600)
    monkeypatch.setenv("NETRC", str(path))
    place = Server(url, plain=True)
    if wanted == "lacks":
        words = f"{path}: what it has for {place.host} lacks a user or a password; write lines `m"
        with pytest.raises(Failure, match=re.escape(words)):
            place.credentials()
        return
    sent = base64.b64encode(f"me:{wanted}".encode()).decode()
    assert place.credentials() == ({"Authorization": f"Basic {sent}"} if wanted else {})


@pytest.mark.skipif(os.geteuid() != 0, reason="it takes root")
@pytest.mark.parametrize("is_given", [True, False])
def test_a_netrc_that_cannot_be_read_is_reported(
    trial: Trial, monkeypatch: pytest.MonkeyPatch, is_given: bool
) -> None:
    """One of another user, who alone may read it: not as if there were none."""
    folder = trial.place(f"netrc-{is_given}")
    path = write(folder, ".netrc", NETRC.encode())
    os.chmod(path, 0o600)
    monkeypatch.setenv("NETRC", path if is_given else "")
    monkeypatch.setenv("HOME", folder)
    remedy = "correct NETRC" if is_given else "look at it"
    wanted = f"{path}: it cannot be opened: permission denied; {remedy}"
    assert reported_as_nobody(Server("https://other.example").credentials) == wanted


def reported_as_nobody(do: Callable[[], object]) -> str:
    """The failure of a call in a fork that has no rights."""
    reader, writer = os.pipe()
    number = os.fork()
    if not number:
        try:
            os.setgroups([])
            os.setgid(65_534)
            os.setuid(65_534)
            do()
        except Failure as failure:
            os.write(writer, str(failure).encode())
        finally:
            os._exit(0)
    os.close(writer)
    os.waitpid(number, 0)
    with open(reader, encoding="utf-8") as reported:
        return reported.read()

"""The settings of filters: what a command says, what is no filter, and the guard against a list
that shrinks."""

import errno
import os
import shlex
import sys
import time
from pathlib import Path

import pytest

from irr.errors import ARGUMENTS, DONE, REFUSED, SETTINGS, Failure
from irr.filters import settings
from irr.filters.settings import SHRUNK
from irr.main import do

LIST = "define X = [\n" + ",\n".join(f"    10.0.{n}.0/24" for n in range(10)) + "\n];\n"
SHORTER = "define X = [\n" + ",\n".join(f"    10.0.{n}.0/24" for n in range(6)) + "\n];\n"


@pytest.fixture(autouse=True)
def _no_router(monkeypatch: pytest.MonkeyPatch) -> None:
    """What routers read is tried elsewhere."""
    monkeypatch.setattr(settings, "look", lambda router, new: None)


def command(out: str = "", reported: str = "", status: int = 0) -> str:
    """A command that prints and says these, and ends so. Of ~ it makes half a million letters."""
    program = (
        f"import sys; sys.stdout.write({out!r}.replace('~', 'x' * 500_000)); "
        f"sys.stderr.write({reported!r}.replace('~', 'x' * 500_000)); sys.exit({status})"
    )
    return shlex.join([sys.executable, "-c", program])


def made(
    folder: Path, *makes: str, router: str = "bird", more: str = "", accepts: bool = False
) -> int:
    """The status of making filters 0, 1, .. of a folder by these commands."""
    tables = [
        f"[[filter]]\nfile = '{folder}/{n}'\nrouter = '{router}'\nmake = '''{make}'''\n"
        for n, make in enumerate(makes)
    ]
    path = folder / "filters.toml"
    path.write_text(more + "".join(tables), encoding="utf-8")
    return settings.make_all(str(path), accepts)


@pytest.mark.parametrize(
    "reported",
    [
        "ERROR:Invalid AS number: 64512\n",
        "warning: slow\n" * 10 + "ERROR:Invalid AS number: 64512\n",
        "Debug: ~\nERROR:Invalid AS number: 64512\nDebug: more\n",
        "FATAL ERROR: Invalid AS number: 64512",
    ],
)
def test_error_is_seen_wherever_it_stands(
    tmp_path: Path, reported: str, capsys: pytest.CaptureFixture[str]
) -> None:
    for make in command(LIST, reported), command(LIST + reported):
        (tmp_path / "0").write_text("old\n")
        assert made(tmp_path, make) == REFUSED
        assert (tmp_path / "0").read_text() == "old\n"
        line = capsys.readouterr().err
        assert "Invalid AS number: 64512" in line and line.count("\n") == 1 and len(line) < 1_000


def test_names_are_no_errors(tmp_path: Path) -> None:
    assert made(tmp_path, command(LIST.replace("X", "ERROR"), "Notice: no ERR\n")) == DONE


@pytest.mark.parametrize(
    ("router", "text"),
    [
        ("bird", "# Made by nobody\n"),
        ("bird", "/* nothing\n * here */\n  # or here\n\n"),
        ("frr", "! nothing\n# nothing\n"),
        ("frr", "! nothing\nno ip prefix-list X\n!\n"),
        ("openbgpd", "  # nothing\n\n"),
        ("bird", "\n\n"),
    ],
)
def test_comments_alone_are_no_filter(
    tmp_path: Path, router: str, text: str, capsys: pytest.CaptureFixture[str]
) -> None:
    (tmp_path / "0").write_text("old\n")
    assert made(tmp_path, command(text), router=router) == REFUSED
    assert (tmp_path / "0").read_text() == "old\n"
    assert "comments" in capsys.readouterr().err


def test_two_filters_of_one_file(tmp_path: Path) -> None:
    path = tmp_path / "filters.toml"
    (tmp_path / "link").symlink_to(tmp_path / "x")
    for first, second in [("x", "x"), ("x", "./x"), ("y/../x", "x"), ("link", "x")]:
        path.write_text(
            "".join(
                f"[[filter]]\nfile = '{tmp_path}/{name}'\nrouter = 'bird'\nmake = 'true'\n"
                for name in (first, second)
            )
        )
        with pytest.raises(Failure, match="two filters") as raised:
            settings.make_all(str(path))
        assert raised.value.status == SETTINGS


def test_list_that_shrinks_is_kept_back(tmp_path: Path, capsys: pytest.CaptureFixture[str]) -> None:
    assert made(tmp_path, command(LIST)) == DONE
    assert made(tmp_path, command(SHORTER), command(LIST)) == SHRUNK
    reported = capsys.readouterr().err
    assert (tmp_path / "0").read_text() == LIST and (tmp_path / "1").read_text() == LIST
    assert all(
        words in reported
        for words in ("4 of the old one's 10 entries", "--accept", "stays as it was")
    )
    assert made(tmp_path, command(SHORTER), more="shrink = 40\n") == DONE
    assert made(tmp_path, command(LIST)) == DONE
    assert made(tmp_path, command(SHORTER), accepts=True) == DONE
    assert (tmp_path / "0").read_text() == SHORTER


@pytest.mark.parametrize("small", [SHORTER, "define X = [ 64496, 64497, 64498, 64499 ];\n"])
def test_a_small_list_that_shrinks_beside_a_large_one_is_kept_back(
    tmp_path: Path, capsys: pytest.CaptureFixture[str], small: str
) -> None:
    many = ",".join(f"10.{n}.0.0/16" for n in range(200))
    large = f"define LARGE = [ {many} ];\n"
    assert made(tmp_path, command(large + small)) == DONE
    for left in "", "define X = [ 10.0.0.0/24 ];\n", "define X = [ 64496 ];\n":
        assert made(tmp_path, command(large + left)) == SHRUNK
        assert (tmp_path / "0").read_text() == large + small
        assert "its list X lacks " in capsys.readouterr().err
    assert made(tmp_path, command("define Y = [ 10.0.0.0/24 ];\n")) == SHRUNK
    reported = capsys.readouterr().err
    assert "its list LARGE lacks 200 of" in reported and "of 1 other list too much" in reported


def refuse_garbage(router: str, new: Path) -> None:
    """A parser of bird's that reads no other thing than definitions."""
    if not new.read_bytes().startswith(b"define"):
        raise Failure(router, "it does not read the filter: syntax error")


@pytest.mark.parametrize("old", ["<html>gone</html>", "\0" * 400, LIST[5:]])
def test_an_old_list_that_cannot_be_read_keeps_the_guard_on(
    tmp_path: Path, old: str, monkeypatch: pytest.MonkeyPatch, capsys: pytest.CaptureFixture[str]
) -> None:
    monkeypatch.setattr(settings, "look", refuse_garbage)
    (tmp_path / "0").write_text(old)
    assert made(tmp_path, command(SHORTER)) == SHRUNK
    reported = capsys.readouterr().err
    assert "can't be read: it does not read the filter" in reported and "--accept" in reported
    assert (tmp_path / "0").read_text() == old
    assert made(tmp_path, command(SHORTER), accepts=True) == DONE
    assert (tmp_path / "0").read_text() == SHORTER


def test_an_old_list_without_rights_keeps_the_guard_on(
    tmp_path: Path, monkeypatch: pytest.MonkeyPatch, capsys: pytest.CaptureFixture[str]
) -> None:
    read_bytes = Path.read_bytes

    def denied(path: Path) -> bytes:
        if path == tmp_path / "0":
            raise PermissionError(errno.EACCES, "Permission denied", str(path))
        return read_bytes(path)

    (tmp_path / "0").write_text(LIST)
    monkeypatch.setattr(Path, "read_bytes", denied)
    assert made(tmp_path, command(SHORTER)) == SHRUNK
    assert "permission denied" in capsys.readouterr().err
    assert (tmp_path / "0").read_text() == LIST
    assert made(tmp_path, command(SHORTER), more="shrink = 100\n") == DONE
    assert (tmp_path / "0").read_text() == SHORTER


@pytest.mark.parametrize("old", [None, "", "# Made by nobody\n\n"])
def test_an_old_list_of_nothing_guards_nothing(
    tmp_path: Path, old: str | None, monkeypatch: pytest.MonkeyPatch
) -> None:
    monkeypatch.setattr(settings, "look", refuse_garbage)
    if old is not None:
        (tmp_path / "0").write_text(old)
    assert made(tmp_path, command(SHORTER)) == DONE


def test_a_list_at_the_bound_is_taken(tmp_path: Path) -> None:
    ten, seven = LIST, LIST.replace("10.0.7.", "10.1.7.").replace("10.0.8.", "10.1.8.")
    seven = seven.replace("10.0.9.", "10.1.9.")
    assert made(tmp_path, command(ten)) == DONE
    assert made(tmp_path, command(seven)) == DONE
    assert made(tmp_path, command(LIST.replace("10.0.", "10.9."))) == SHRUNK


def test_a_list_that_is_as_it_was_has_the_time_of_its_last_making(tmp_path: Path) -> None:
    """Otherwise one that rarely changes would be called stale while it is made each hour."""
    assert made(tmp_path, command(LIST)) == DONE
    os.utime(tmp_path / "0", (0, 0))
    assert made(tmp_path, command(LIST)) == DONE
    assert time.time() - os.stat(tmp_path / "0").st_mtime < 600
    path = str(tmp_path / "0")
    assert settings.unchanged(path, 1) == f"; {path} stays as it was"
    assert settings.unchanged(f"{path}1") == f"; there is no {path}1 yet"


def test_guard_and_failure_together(tmp_path: Path) -> None:
    assert made(tmp_path, command(LIST), command(LIST)) == DONE
    assert made(tmp_path, command(SHORTER), command("", "gone", 1)) == SHRUNK
    assert made(tmp_path, command("", "gone", 1), command(SHORTER)) == SHRUNK
    assert made(tmp_path, command("", "gone", 1), command(LIST)) == REFUSED


@pytest.mark.parametrize("value", ["-1", "101", "true", "'x'", "nan", "inf"])
def test_bad_shrink(tmp_path: Path, value: str) -> None:
    with pytest.raises(Failure, match="`shrink`") as raised:
        made(tmp_path, command(LIST), more=f"shrink = {value}\n")
    assert raised.value.status == SETTINGS


def test_what_a_command_reports_of_a_good_filter_is_told(
    tmp_path: Path, capsys: pytest.CaptureFixture[str]
) -> None:
    """`irr filter -m` says so which sets are missing in its filter."""
    missing = "made without sets that are not registered: AS1:AS-GONE"
    assert made(tmp_path, command(LIST, f"irr filter: X: {missing}\n")) == DONE
    assert made(tmp_path, command(LIST, "\x1b[31m\n\nsecond\n~" + "\n" * 9)) == DONE
    first, second = capsys.readouterr().err.splitlines()
    assert f"{tmp_path}/0" in first and missing in first
    assert "\x1b" not in second and "second" in second and len(second) < 800
    assert made(tmp_path, command(LIST, " \n")) == DONE
    assert capsys.readouterr().err == ""


def test_what_is_no_file_is_not_read(tmp_path: Path, capsys: pytest.CaptureFixture[str]) -> None:
    """A pipe or a device may never end. The other filters are made."""
    os.mkfifo(tmp_path / "0")
    (tmp_path / "1").symlink_to("/dev/zero")
    (tmp_path / "2").mkdir()
    assert made(tmp_path, *[command(LIST)] * 4) == REFUSED
    assert (tmp_path / "3").read_text() == LIST
    reported = capsys.readouterr().err.splitlines()
    assert len(reported) == 3 and all("not a file that can be replaced" in one for one in reported)


@pytest.mark.parametrize(
    ("words", "name"),
    [
        ("-m", "--missing"),
        ("--widest 24", "--widest"),
        ("-s http://127.0.0.1:1", "--server"),
        ("--plain", "--plain"),
    ],
)
def test_options_of_one_filter_do_not_go_with_settings(
    tmp_path: Path, words: str, name: str
) -> None:
    """The commands of the settings have their own ones."""
    with pytest.raises(Failure, match="--settings") as raised:
        do(["filter", *words.split(), "--settings", str(tmp_path / "none")])
    assert (raised.value.status, raised.value.thing) == (ARGUMENTS, name)

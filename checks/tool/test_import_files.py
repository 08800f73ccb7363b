"""The files that `irr import` reads and writes."""

import bz2
import functools
import gzip
import io
import lzma
import os
import stat
import subprocess
import sys
import zipfile
from collections.abc import Iterator
from pathlib import Path
from typing import Any

import pytest

from checks.running import PATIENCE
from checks.tool.importing import AUTH, obj
from irr import main
from irr.errors import ARGUMENTS, FAILED, REFUSED
from irr.migrate import dumps
from irr.system import files

TOOLS = Path(__file__).resolve().parents[2] / "tools"
GOOD = obj("aut-num: AS1", "mnt-by: A-MNT", "source: RIPE")
WORDS = ["--source", "TEST", "--root", "ROOT-MNT", "--auth", AUTH]
HTML = b"<!DOCTYPE html>\n<html>\n<head><title>404</title></head>\n<body>\nno\n</body>\n</html>\n"


@pytest.fixture(autouse=True)
def folder(tmp_path: Path, monkeypatch: pytest.MonkeyPatch) -> Path:
    monkeypatch.chdir(tmp_path)
    return tmp_path


def run(*words: str) -> int:
    """The status of an import."""
    return main.main(["import", *map(str, words), *WORDS])


def packed_by_zip(text: bytes) -> bytes:
    out = io.BytesIO()
    with zipfile.ZipFile(out, "w") as made:
        made.writestr(zipfile.ZipInfo("ripe.db"), text)
    return out.getvalue()


@pytest.mark.parametrize(
    "content, reported",
    [
        (bz2.compress(GOOD), "it is packed by bzip2; unpack it, or pack it by gzip"),
        (lzma.compress(GOOD), "it is packed by xz; "),
        (packed_by_zip(GOOD), "it is packed by zip; "),
        (gzip.compress(bz2.compress(GOOD), mtime=0), "it is packed by bzip2; "),
        (GOOD.decode().encode("utf-16"), "it is not text; "),
        (gzip.compress(bytes(512) + GOOD, mtime=0), "it is not text; "),
        (b"\x7fELF\x02\x01\x01" + bytes(64), "it is not text; "),
    ],
    ids=["bzip2", "xz", "zip", "bzip2 in gzip", "UTF-16", "tar", "a program"],
)
def test_what_is_not_text_ends_by_one_line(
    content: bytes, reported: str, folder: Path, capsys: pytest.CaptureFixture[str]
) -> None:
    Path("dump").write_bytes(content)
    Path("full").write_bytes(b"before")
    assert run("dump", "-o", "full", "--left-out", "list") == FAILED
    out, lines = capsys.readouterr()
    assert (
        out == "" and lines.count("\n") == 1 and lines.startswith(f"irr import: dump: {reported}")
    )
    assert Path("full").read_bytes() == b"before"
    assert sorted(os.listdir()) == ["dump", "full"]


def test_a_control_character_costs_one_paragraph(capsys: pytest.CaptureFixture[str]) -> None:
    Path("dump").write_bytes(GOOD + GOOD.replace(b"AS1", b"AS2 \x07"))
    assert run("dump", "-o", "full") == 0
    assert "left out, text: it has a control character: 1" in capsys.readouterr().err


@pytest.mark.parametrize(
    "content",
    [b"", b"% no objects\n", HTML, b"person: Jo\nsource: RIPE\n"],
    ids=["nothing", "a comment", "HTML", "another class"],
)
def test_nothing_taken_replaces_nothing(content: bytes, capsys: pytest.CaptureFixture[str]) -> None:
    Path("dump").write_bytes(content)
    for name in ("full", "list", "names"):
        Path(name).write_bytes(b"before")
    words = ["-o", "full", "--left-out", "list", "--renamed", "names"]
    options: list[list[str]] = [[], ["--check"]]
    for more in options:
        assert run("dump", *words, *more) == REFUSED
        out, reported = capsys.readouterr()
        last = reported.splitlines()[-1]
        assert out == "" and last.startswith(
            "irr import: no object was taken, so nothing is written;"
        )
        assert "0 taken" in reported.splitlines()[0]
    assert {name: Path(name).read_bytes() for name in ("full", "list", "names")} == {
        "full": b"before",
        "list": b"before",
        "names": b"before",
    }


def test_files_without_a_paragraph_are_reported(capsys: pytest.CaptureFixture[str]) -> None:
    """One of many split files may be empty because it could not be fetched."""
    Path("dump").write_bytes(GOOD)
    assert run("dump", "-o", "full") == 0
    assert "without a paragraph" not in capsys.readouterr().err
    for name, content in ("empty", b""), ("zipped", gzip.compress(b"")), ("bare", b"% none\n\n"):
        Path(name).write_bytes(content)
    assert run("empty", "dump", "zipped", "bare", "-o", "full") == 0
    said = capsys.readouterr().err
    assert "\nwithout a paragraph: 3 files\n  empty\n  zipped\n  bare\n" in said


@pytest.mark.parametrize("count", [1, 3_000])
def test_a_temporary_file_without_room_is_reported(
    count: int, monkeypatch: pytest.MonkeyPatch, capsys: pytest.CaptureFixture[str]
) -> None:
    """Whether that is seen as it is written, or at its end."""
    full = functools.partial(open, "/dev/full", "w+b")
    monkeypatch.setattr("irr.migrate.conversion.tempfile.TemporaryFile", lambda prefix: full())
    one = b"aut-num: AS%d\nmnt-by: A-MNT\nsource: RIPE\n\n"
    Path("dump").write_bytes(b"".join(one % number for number in range(count)))
    Path("full").write_bytes(b"before")
    assert run("dump", "-o", "full") == FAILED
    assert Path("full").read_bytes() == b"before"
    printed, said = capsys.readouterr()
    assert (printed, said) == (
        "",
        "irr import: the temporary file: no space left on device; make room, or give another folder"
        " by TMPDIR\n",
    )


# The lines of a dump by `sed`, and what is said of it: objects that are others, or missing.
OTHER_DUMPS = [
    ("", ""),
    ("s/AS64497/AS64498/", "object 7 of the registry differs from that of the result, `as-set: "),
    ("/^aut-num/,/^$/d", "object 5 of the registry differs from that of the result, `aut-num: "),
    ("/^as-set/,/^$/d", "object 7 of the registry differs from that of the result, `as-set: "),
    ("s/^% end 7/% end 6/", "the dump of the registry does not end by `% end 7`; "),
    ("$d", "the dump of the registry does not end by `% end 7`; "),
    ("$i x: y\\n", "object 8 of the registry differs from that of the result, `x: y"),
]


@pytest.mark.parametrize("change, words", OTHER_DUMPS)
def test_a_registry_that_has_another_object_is_refused(
    program: str, change: str, words: str, capfd: pytest.CaptureFixture[str], folder: Path
) -> None:
    """By `--check`, before anything is put in place."""
    changed = folder / "irrdesk"
    changed.write_text(
        f"""#!/bin/sh
if [ "$1" = dump ]; then {program} "$@" | sed '{change}'; else exec {program} "$@"; fi
"""
    )
    changed.chmod(0o755)
    Path("dump").write_bytes(GOOD + obj("as-set: AS-X", "members: AS64497", "source: RIPE"))
    Path("full").write_bytes(b"before")
    with pytest.MonkeyPatch.context() as patch:
        patch.setenv("IRRDESK", str(changed))
        status = run("dump", "--check", "-o", "full")
    said = capfd.readouterr().err.splitlines()
    assert (status, Path("full").read_bytes() == b"before") == (
        (FAILED, True) if words else (0, False)
    )
    start = f"irr import: --check: {words}" if words else "checked: "
    assert [line for line in said if line.startswith(start)]


@pytest.mark.parametrize("names", ["-o --left-out", "-o --renamed", "--left-out --renamed"])
def test_files_to_write_are_several(names: str, capsys: pytest.CaptureFixture[str]) -> None:
    """Also through a link, and where none of them is there."""
    Path("dump").write_bytes(GOOD)
    Path("link").symlink_to("one")
    Path("folder").symlink_to(".")
    first, second = names.split()
    for other in "one", "./one", "link", "folder/one", os.path.abspath("one"):
        assert run("dump", first, "one", second, other) == ARGUMENTS
        assert capsys.readouterr() == (
            "",
            f"irr import: {other}: two of --output, --left-out and --renamed are this file; "
            "give each its own\n",
        )
        assert not Path("one").exists()


class Drops(io.RawIOBase):
    """A stream that gives a byte at a read."""

    def __init__(self, content: bytes) -> None:
        self.rest = io.BytesIO(content)

    def readable(self) -> bool:
        return True

    def readinto(self, buffer: Any) -> int:
        found = self.rest.read(1)
        buffer[: len(found)] = found
        return len(found)


@pytest.mark.parametrize(
    "content",
    [gzip.compress(GOOD, mtime=0), dumps.MARK + GOOD, GOOD, b"", b"%"],
    ids=["gzip", "a byte order mark", "plain", "nothing", "one byte"],
)
def test_reads_of_one_byte(content: bytes, monkeypatch: pytest.MonkeyPatch) -> None:
    plain = b"".join(whole(content))
    monkeypatch.setattr(
        files, "opened", lambda _: io.BufferedReader(Drops(content), buffer_size=16)
    )
    assert b"".join(dumps.pieces_of("-")) == plain == whole_text(content)


def whole(content: bytes) -> Iterator[Any]:
    Path("whole").write_bytes(content)
    return dumps.pieces_of("whole")


def whole_text(content: bytes) -> bytes:
    text = gzip.decompress(content) if content[:2] == dumps.ZIPPED else content
    return text.removeprefix(dumps.MARK)


@pytest.mark.parametrize(
    "content", [gzip.compress(GOOD, mtime=0), dumps.MARK + GOOD], ids=["gzip", "a byte order mark"]
)
def test_a_pipe_whose_first_read_is_one_byte(content: bytes, folder: Path) -> None:
    """The real thing: a pipe that has one byte at first."""
    words = [sys.executable, "-m", "irr", "import", "-", *WORDS]
    with subprocess.Popen(
        words,
        stdin=subprocess.PIPE,
        stdout=subprocess.PIPE,
        stderr=subprocess.PIPE,
        env={**os.environ, "PYTHONPATH": str(TOOLS)},
    ) as child:
        child.stdin.write(content[:1])
        child.stdin.flush()
        with pytest.raises(subprocess.TimeoutExpired):
            child.wait(0.5)
        child.stdin.write(content[1:])
        out, reported = child.communicate(timeout=PATIENCE)
    assert (child.returncode, b"aut-num:        AS1\n" in out) == (0, True), reported


def test_gzip_of_two_members() -> None:
    Path("dump").write_bytes(
        gzip.compress(GOOD, mtime=0) + gzip.compress(GOOD.replace(b"AS1", b"AS2"))
    )
    assert b"".join(dumps.pieces_of("dump")) == GOOD + GOOD.replace(b"AS1", b"AS2")


def test_a_file_name_that_is_not_utf8(folder: Path, capsys: pytest.CaptureFixture[str]) -> None:
    name = os.fsdecode(b"caf\xe9\t.db")
    last = obj("as-set: AS-X", "members: ::/0", "source: RIPE")
    Path(name).write_bytes(GOOD + obj("person: Jo") + last)
    assert run(name, "-o", "full", "--left-out", "list") == 0
    assert (
        "left out, class person: 1\n  caf\\xe9\\x09.db:5  person: Jo\n" in capsys.readouterr().err
    )
    assert Path("list").read_text().splitlines() == [
        "left out\tclass person\tcaf\\xe9\\x09.db:5\tperson: Jo",
        "dropped from lists\tIPv6\tcaf\\xe9\\x09.db:7\tas-set: AS-X\tmembers\t::/0",
    ]


@pytest.mark.parametrize("mask, mode", [(0o077, 0o600), (0o022, 0o644), (0o027, 0o640)])
def test_lists_heed_the_umask(mask: int, mode: int, folder: Path) -> None:
    Path("dump").write_bytes(GOOD)
    before = os.umask(mask)
    try:
        assert run("dump", "-o", "full", "--left-out", "list", "--renamed", "names") == 0
    finally:
        os.umask(before)
    modes = {name: stat.S_IMODE(os.stat(name).st_mode) for name in ("full", "list", "names")}
    assert modes == {"full": 0o600, "list": mode, "names": mode}


def test_routes_without_an_aut_num_are_reported(capsys: pytest.CaptureFixture[str]) -> None:
    Path("dump").write_bytes(
        GOOD
        + obj("route: 10.0.0.0/8", "origin: AS1", "source: RIPE")
        + obj("route: 10.0.0.0/8", "origin: AS2", "source: RIPE")
        + obj("route: 11.0.0.0/8", "origin: AS2", "source: RIPE")
    )
    assert run("dump", "-o", "full") == 0
    assert (
        "2 routes have an origin without an aut-num: `AS-ANY`, which is the registered aut-nums, "
        "does not have them\n"
    ) in capsys.readouterr().err


def test_a_root_maintainer_that_a_dump_names_is_reported(
    capsys: pytest.CaptureFixture[str],
) -> None:
    """Also without its mntner, as of split files; not where an object gets it, having none."""
    own = obj("mntner: ROOT-MNT", "auth: X", "mnt-by: ROOT-MNT", "source: RIPE")
    lower = obj("as-set: AS-A", "mnt-by: A-MNT", "mnt-lower: root-mnt", "source: RIPE")
    for text in own + GOOD, GOOD.replace(b"A-MNT", b"ROOT-MNT"), GOOD + lower:
        Path("dump").write_bytes(text)
        assert run("dump", "-o", "full") == 0
        assert "ROOT-MNT was in a dump: its objects are the root" in capsys.readouterr().err
    Path("dump").write_bytes(GOOD + obj("aut-num: AS2", "source: RIPE"))
    assert run("dump", "-o", "full") == 0
    assert "was in a dump" not in capsys.readouterr().err


def test_scopes_are_kept_by_an_option() -> None:
    Path("dump").write_bytes(obj("as-set: AS-X", "members: RADB::AS-Y", "source: RIPE"))
    options: list[tuple[list[str], bool]] = [([], False), (["--keep-scoped"], True)]
    for more, kept in options:
        assert run("dump", "-o", "full", *more) == 0
        assert (b"members:        AS-Y\n" in Path("full").read_bytes()) is kept


def test_the_help_says_what_an_object_is(capsys: pytest.CaptureFixture[str]) -> None:
    assert main.main(["import", "--help"]) == 0
    words = " ".join(capsys.readouterr().out.split())
    for rule in (
        "A paragraph with a second class line, or a second `source`, is not a single object.",
        "An object is left out too if one of its lists can't be read, if two of its lines were"
        " joined, or if its file ends within it.",
    ):
        assert rule in words

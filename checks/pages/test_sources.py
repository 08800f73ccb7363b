"""How the sources are written: widths, imports, types, format, what linters find; versions,
subjects of commits, releases."""

import os
import re
import shutil
import subprocess
from pathlib import Path

import pytest

from checks.package.packages import record
from checks.running import TOP as FOLDER, Tell

TOP = Path(FOLDER)
COLUMNS, SUBJECT = 100, 72
# The imports of definitions and proofs in the two kinds of files, and what is a comment in them.
# Imports of the program are not looked at: of a trait the methods are used, not the name.
USES = {
    ".rt": (re.compile(r"^ *ghost use ([^;]*);", re.M), "//"),
    ".antt": (re.compile(r"^use ([^\s{]+(?:\{[^}]*\})?(?: as \S+)?)", re.M), "--"),
}
# Where programs of Python and of sh stand.
PLACES = [
    *("scripts", "checks", "tools", "bench", "units", "docs/drawings", "examples"),
    *("dist/debian", ".ci", "irrdesk"),
]
# What is bound to a width besides the crates and the programs.
WIDE = {
    *(".py", ".sh", ".js", ".css", ".html", ".c", ".drawing", ".svg"),
    *(".toml", ".conf", ".cfg", ".yml", ".json", ".service", ".socket", ".timer"),
}
# Folders that are not looked at: those of the crates, and of what is made.
PASSED = re.compile(r"crates|out|__pycache__|\.(?!ci$).*")
# Lines that may be long, by the kind of the file. HAProxy continues no line, so its comments alone
# are bound. In a file of nginx a text in quotation marks is one line.
UNBROKEN = {".cfg": re.compile(r" *[^# ]"), ".conf": re.compile(r'[^"]*"[^"]{80,}"')}
# Files of /etc in the package, whose old comments stay: where one of these files changed, and its
# operator changed it too, dpkg asks which one to keep.
AS_RELEASED = {"units/irr.toml", "units/door.toml"}
# A file of the rooms has fewer lines.
LINES = 600
# Packages of one version with several sets of bytes, from before a version was released once.
RELEASED_AGAIN = {"irrdesk_1.1.0_amd64.deb", "irrdesk_1.2.0_amd64.deb"}


def needed(command: str) -> str:
    """The path of a command; without it the check is skipped."""
    path = shutil.which(command)
    if path is None:
        pytest.skip(f"{command} is not here")
    return path


def printed(*command: str | Path) -> str:
    made = subprocess.run(command, stdout=subprocess.PIPE, text=True, cwd=TOP, check=True)
    return made.stdout.strip()


def long_lines(paths: list[Path]) -> list[str]:
    """The lines that are too long, by file and number."""
    return [
        f"{path.relative_to(TOP)}:{number}"
        for path in paths
        for number, line in enumerate(path.read_text(encoding="utf-8").split("\n"), 1)
        if len(line) > COLUMNS
        and not (path.suffix in UNBROKEN and UNBROKEN[path.suffix].match(line))
    ]


def imported(text: str) -> list[str]:
    """The names that an import brings: `A.b.c`, `A.b as c` and `A.{b, c as d}` are its forms."""
    head, _, names = text.partition("{")
    parts = (
        names.rstrip("} \n").split(",")
        if names
        else [re.split(r"[.:]+", head.strip())[-1] if " as " not in head else head]
    )
    return [part.split(" as ")[-1].strip() for part in parts if part.strip()]


def unused_imports() -> list[str]:
    """The names that a file of the crates imports for contracts or proofs and does not use, by
    file."""
    found = []
    for path in sorted(
        path
        for part in ("src", "specs", "proofs")
        for path in TOP.glob(f"crates/*/{part}/**/*")
        if path.suffix in USES
    ):
        uses, comment = USES[path.suffix]
        text = path.read_text(encoding="utf-8")
        # A text such as "--" begins no comment.
        rest = re.sub(rf"{comment}.*", "", re.sub(r'"[^"\n]*"', '""', uses.sub("", text)))
        for name in (name for use in uses.findall(text) for name in imported(use)):
            # An operator is used where all that stands between its places is.
            words = [word for word in name.split("◌") if word]
            if not all(
                re.search(
                    rf"(?<!\w){re.escape(word)}(?!\w)" if word[0].isalpha() else re.escape(word),
                    rest,
                )
                for word in words
            ):
                found.append(f"{path.relative_to(TOP)}:{name}")
    return found


def programs_of(language: str) -> list[Path]:
    """The files that name a language in their first line, and those whose name does."""
    found = []
    for place in PLACES:
        for path in [TOP / place, *sorted((TOP / place).rglob("*"))]:
            if not path.is_file() or "__pycache__" in path.parts:
                continue
            with open(path, "rb") as opened:
                first = opened.readline().rstrip()
            is_of = first.startswith(b"#!") and first.endswith(language.encode())
            if is_of or language == "python3" and path.suffix == ".py":
                found.append(path)
    return found


def judged(*command: str | Path) -> list[str]:
    """What a command finds in files, a line each."""
    # Where node is not Debian's, it does not look where Debian's modules are.
    environment = {**os.environ, "NODE_PATH": "/usr/share/nodejs"}
    made = subprocess.run(
        command,
        stdout=subprocess.PIPE,
        stderr=subprocess.STDOUT,
        text=True,
        cwd=TOP,
        env=environment,
        check=False,
    )
    lines = [line.replace(f"{TOP}/", "") for line in made.stdout.splitlines() if line.strip()]
    return (lines or [f"status {made.returncode}"]) if made.returncode else []


# The crates.


def test_no_line_of_the_crates_is_too_wide() -> None:
    parts = ("src", "specs")
    paths = [path for part in parts for path in TOP.glob(f"crates/*/{part}/**/*") if path.is_file()]
    assert not long_lines(sorted(paths))


def test_no_line_of_the_proofs_can_be_broken_to_be_narrower() -> None:
    assert not judged(TOP / "scripts/wrap", "--check")


def test_the_crates_use_what_they_import_for_contracts_and_proofs() -> None:
    assert not unused_imports()


# The rest.


def files_beside_the_crates() -> list[Path]:
    """All files of the repository but those of the crates, and what is made."""
    found = []
    for folder, folders, names in os.walk(TOP):
        folders[:] = [name for name in folders if not PASSED.fullmatch(name)]
        found += [Path(folder, name) for name in names]
    return sorted(found)


def test_no_line_beside_the_crates_is_too_wide(tell: Tell) -> None:
    """Of programs, styles, settings, units, configurations and drawings, not of pages."""
    paths = {path for path in files_beside_the_crates() if path.suffix in WIDE}
    paths |= {*programs_of("python3"), *programs_of("/bin/sh"), TOP / "dist/files"}
    tell(f"{len(paths)} files")
    assert not long_lines(sorted(paths - {TOP / name for name in AS_RELEASED}))


def test_no_file_of_the_rooms_is_too_long() -> None:
    """Nor a manual."""
    rooms = ("tools", "checks", "scripts", "web", "man", "units", "bench")
    assert not [
        f"{path.relative_to(TOP)}: {count} lines"
        for path in files_beside_the_crates()
        if path.relative_to(TOP).parts[0] in rooms
        and (count := path.read_bytes().count(b"\n")) >= LINES
    ]


def test_pyflakes_finds_nothing(tell: Tell) -> None:
    files = programs_of("python3")
    tell(f"{len(files)} files")
    assert not judged(needed("pyflakes3"), *files)


def test_mypy_finds_nothing_in_the_tool() -> None:
    assert not judged(needed("mypy"), "tools/irr")


def test_mypy_finds_nothing_in_the_checks() -> None:
    assert not judged(needed("mypy"), "checks")


def test_black_would_change_nothing(tell: Tell) -> None:
    files = programs_of("python3")
    tell(f"{len(files)} files")
    assert not judged(needed("black"), "--check", "-q", *files)


def test_what_mypy_passes_over_has_its_reason_beside_it() -> None:
    silent = re.compile(r"# type: ignore(?!\[[\w, -]+\]  ?# \S)")
    assert not [
        f"{path.relative_to(TOP)}:{number}"
        for path in programs_of("python3")
        if path != Path(__file__)
        for number, line in enumerate(path.read_text(encoding="utf-8").splitlines(), 1)
        if silent.search(line)
    ]


def test_shellcheck_finds_nothing(tell: Tell) -> None:
    files = programs_of("/bin/sh")
    tell(f"{len(files)} files")
    assert not judged(needed("shellcheck"), "-x", *files)


def test_eslint_finds_nothing() -> None:
    assert not judged(needed("eslint"), "web", "checks/web")


def test_the_programs_of_the_benchmarks_compile() -> None:
    """Over the crates as they are, without a proof."""
    needed("rt")
    assert not judged(TOP / "bench/try")


# Versions and commits.


def test_the_program_is_of_the_version_of_the_tool_or_unchanged_since_its_release() -> None:
    places = {
        "crates/rr_arguments/src/grammar.rt": r'^const VERSION: &str = "([^ "]+)',
        "tools/irr/__init__.py": r'^VERSION = "([^"]+)"$',
    }
    texts = {name: (TOP / name).read_text(encoding="utf-8") for name in places}
    program, tool = (re.search(places[name], text, re.M)[1] for name, text in texts.items())
    released = re.search(r"^Sources: (.*)$", (TOP / "dist/PROOF").read_text("utf-8"), re.M)[1]
    assert program == tool or released == printed(TOP / "scripts/sources")


def history() -> None:
    """Skips a check where there is no history to look at."""
    if shutil.which("git") is None or not (TOP / ".git").exists():
        pytest.skip("there is no history here")
    if printed("git", "rev-parse", "--is-shallow-repository") == "true":
        pytest.skip("the history here is cut off")


def test_the_crates_are_named_in_one_file() -> None:
    """`rt ci` takes each file of that name for a list of crates, and stops at a second one."""
    named = [path for path in printed("git", "ls-files").splitlines() if "crates.txt" in path]
    assert named == ["crates.txt"]


def test_the_subjects_of_commits_since_the_release_are_short() -> None:
    history()
    last = printed("git", "log", "-1", "--format=%H", "--", "dist/PROOF")
    subjects = printed("git", "log", "--no-merges", "--format=%s", f"{last}..HEAD").splitlines()
    assert not [subject for subject in subjects if len(subject) > SUBJECT]


def test_a_version_is_released_once() -> None:
    """A package of one version has had the same bytes in all of the history."""
    history()
    seen: dict[str, set[str]] = {}
    lines = printed("git", "log", "--format=", "--raw", "--no-abbrev", "--", "dist/*.deb")
    for line in lines.splitlines():
        *_, made, kind, path = line.split()
        if kind != "D":
            seen.setdefault(Path(path).name, set()).add(made)
    assert not [name for name in seen if len(seen[name]) > 1 and name not in RELEASED_AGAIN]


def test_the_release_is_whole_and_in_the_changelog() -> None:
    """dist/ has one package, its sums fit, and CHANGELOG has a section of its version. What no
    version has yet is above all of them."""
    proof = record(str(TOP / "dist/PROOF"))
    packages = [path.name for path in TOP.glob("dist/*.deb")]
    assert packages == [f"irrdesk_{proof['Version']}_amd64.deb"]
    assert not judged("sh", "-c", "cd dist && sha256sum --check --quiet SHA256SUMS")
    versions = re.findall(r"^## \[(.+?)\]", (TOP / "CHANGELOG.md").read_text("utf-8"), re.M)
    if versions[0] == "Unreleased":
        del versions[0]
    assert proof["Version"] in versions
    assert versions == sorted(versions, key=lambda one: [*map(int, one.split("."))], reverse=True)


def test_the_tag_of_the_release_is_that_of_its_commit() -> None:
    """A tag `vVERSION`, if it is there, names a commit whose dist/PROOF is of that version."""
    history()
    bad = []
    for tag in printed("git", "tag", "--list", "v*").splitlines():
        text = printed("git", "show", f"{tag}:dist/PROOF")
        if f"Version: {tag.removeprefix('v')}" not in text.splitlines():
            bad.append(tag)
    assert not bad

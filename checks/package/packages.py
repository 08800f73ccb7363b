"""Debian packages of the program: the one of dist/ if it is of these sources, or one that is made
for a trial."""

import os
import re
import shutil
import subprocess

from checks.running import TOP, Failure, Skipped, expect, short
from irr import VERSION

DIST = os.path.join(TOP, "dist")


def record(path: str) -> dict[str, str]:
    """What dist/PROOF says under each key; a line that begins with blanks continues another."""
    with open(path, encoding="utf-8") as opened:
        text = opened.read().replace("\n  ", " ")
    return dict(line.split(": ", 1) for line in text.splitlines())


def package_of(folder: str) -> str:
    return os.path.join(
        folder, f"irrdesk_{record(os.path.join(folder, 'PROOF'))['Version']}_amd64.deb"
    )


def is_released(program: str) -> bool:
    """Whether the release in dist/ has this program, and is of these sources and of this tool."""
    sources = subprocess.run(
        [f"{TOP}/scripts/sources"], stdout=subprocess.PIPE, text=True, check=True
    ).stdout.strip()
    digest = subprocess.run(
        ["sha256sum", program], stdout=subprocess.PIPE, text=True, check=True
    ).stdout.split()[0]
    proof = os.path.join(DIST, "PROOF")
    found = record(proof) if os.path.exists(proof) else {}
    wanted = {"Sources": sources, "Program": digest, "Version": VERSION}
    return {key: found.get(key) for key in wanted} == wanted


def make_release(program: str, folder: str) -> str:
    made = subprocess.run(
        [f"{TOP}/scripts/release", "--try", program, folder],
        capture_output=True,
        text=True,
        check=False,
    )
    if made.returncode:
        raise Failure(short(made.stderr))
    return made.stdout.strip()


def released(folder: str) -> list[str]:
    """The packages that were released, as git has them, written into a folder, by version."""
    git = ["git", "-C", TOP]
    log = [*git, "log", "--format=", "--raw", "--no-abbrev", "--diff-filter=d", "--", "dist/*.deb"]
    printed = subprocess.run(log, stdout=subprocess.PIPE, text=True, check=False).stdout
    found = []
    for blob, path in re.findall(r"(\w+) \w\tdist/(\S+\.deb)$", printed, re.MULTILINE):
        place = os.path.join(folder, f"{blob[:8]}-{path}")
        with open(place, "wb") as out:
            subprocess.run([*git, "cat-file", "blob", blob], stdout=out, check=True)
        found.append(place)
    return sorted(set(found), key=lambda place: place.rpartition("-")[2])


def older_package(package: str, folder: str) -> str:
    """The same package as of a version before, which differs in its program's file and in the
    description of a unit."""
    root = os.path.join(folder, "older")
    subprocess.run(["dpkg-deb", "-R", package, root], check=True)
    change(f"{root}/DEBIAN/control", r"(?m)^Version: (.*)$", r"Version: \1~before")
    change(
        f"{root}/usr/lib/systemd/system/irrdesk.service",
        r"(?m)^Description=.*$",
        "Description=as it was before",
    )
    with open(f"{root}/usr/bin/irrdesk", "ab") as out:
        out.write(b"\n")
    made = os.path.join(folder, "irrdesk_before_amd64.deb")
    subprocess.run(
        ["dpkg-deb", "--root-owner-group", "-Zgzip", "--build", root, made],
        stdout=subprocess.DEVNULL,
        check=True,
    )
    shutil.rmtree(root)
    return made


def change(path: str, pattern: str, words: str) -> None:
    with open(path, encoding="utf-8") as opened:
        text, count = re.subn(pattern, words, opened.read())
    expect(count, 1, f"how often {pattern} stands in {path}")
    with open(path, "w", encoding="utf-8") as out:
        out.write(text)


def lintian_is_silent(package: str) -> str:
    """That lintian, pedantic, has nothing to say of a package but what its overrides explain."""
    if shutil.which("lintian") is None:
        raise Skipped("lintian is not there")
    made = subprocess.run(
        ["lintian", "--allow-root", "--pedantic", "--display-info", package],
        capture_output=True,
        text=True,
        check=False,
    )
    expect((made.returncode, made.stdout), (0, ""), "what lintian finds")
    return "pedantic, and silent"

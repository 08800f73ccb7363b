"""New passwords for the maintainers of an import: a file each, which lets its holder in."""

import os
import stat
from pathlib import Path

import pytest

from checks.running import Trial, expect, write, write_settings
from checks.tool.importing import obj, texts_of
from checks.worlds import A_AUTH, Tool, expect_line
from irr.rpsl import hashes

ROOT = "SHA256-PW a:ba7816bf8f01cfea414140de5dae2223b00361a396177a9cb410ff61f20015ad"
# One of another scheme, one that can be taken, one that is given, one that gets another name, and
# one without a mntner.
DUMP = b"".join(
    [
        obj("mntner: MD5-MNT", "auth: MD5-PW $1$ab$cd", "auth: # Filtered", "source: RIPE"),
        obj("mntner: OWN-MNT", f"auth: {A_AUTH}", "mnt-by: OWN-MNT", "source: RIPE"),
        obj("mntner: SENT-MNT", "auth: CRYPT-PW ab", "mnt-by: SENT-MNT", "source: RIPE"),
        obj("mntner: 1-MNT", "auth: BCRYPT-PW $2a$12$", "mnt-by: 1-MNT", "source: RIPE"),
        obj("aut-num: AS64496", "mnt-by: MD5-MNT", "source: RIPE"),
        obj("aut-num: AS64497", "mnt-by: GONE-MNT", "source: RIPE"),
    ]
)
NEW = ["GONE-MNT", "MD5-MNT", "MNT-1-MNT"]
WORDS = ["import", "old.db", "--source", "TEST", "--root", "ROOT-MNT", "--auth", ROOT]
WORDS += ["--auth", f"SENT-MNT={A_AUTH}", "--passwords", "sent"]


@pytest.fixture
def folder(trial: Trial, request: pytest.FixtureRequest) -> str:
    place = trial.place(request.node.name)
    write(place, "old.db", DUMP)
    return place


def test_each_maintainer_without_a_password_gets_one_that_lets_it_in(
    trial: Trial, tool: Tool, folder: str
) -> None:
    """That a file is made for these and for no other, readable by its owner alone, and that what is
    in it signs for that maintainer."""
    ran = tool(*WORDS, "-o", "full.rpsl", "--check", folder=folder)
    expect(ran.status, 0, f"its end: {ran.reported!r}")
    is_reported = b"sent: 3 passwords, 3 of them new\n" in ran.reported
    expect(is_reported, True, f"what it says: {ran.reported!r}")
    sent = Path(folder, "sent")
    expect(stat.S_IMODE(sent.stat().st_mode), 0o700, "who may enter the folder")
    made = sorted(path for path in sent.iterdir() if path.name != ".lock")
    expect([path.name for path in made], [f"{name}.password" for name in NEW], "the files")
    dump = Path(folder, "full.rpsl").read_bytes()
    texts = {text.split()[1]: text for text in texts_of(dump, "mntner")}
    passwords = set()
    for name, path in zip(NEW, made):
        expect(stat.S_IMODE(path.stat().st_mode), 0o600, f"who reads that of {name}")
        password = hashes.password_in(path.read_bytes())
        expect(len(password.replace("-", "")), 20, "letters of 96 bits")
        auths = [line for line in texts[name].splitlines() if line.startswith("auth:")]
        expect(len(auths), 1, f"the lines of {name}: {auths}")
        value = auths[0].partition(":")[2].strip().encode()
        expect(hashes.fits(value, password.encode()), True, f"whether it is that of {name}")
        passwords.add(password)
    expect(len(passwords), 3, "different passwords")
    for name in "OWN-MNT", "SENT-MNT":
        expect(A_AUTH in texts[name], True, f"whether {name} keeps what it has")
    write_settings(folder)
    ran = trial.run(folder, "load", "s.toml", "full.rpsl")
    expect((ran.status, ran.reported), (0, b""), "the load")
    for name, path in zip(NEW, made):
        text = f"as-set: AS-{name}\nmnt-by: {name}\nsource: TEST\n".encode()
        given = write(folder, "own.rpsl", path.read_bytes() + b"\n" + text)
        ran = trial.run(folder, "submit", "s.toml", given)
        expect(b": added\n" in ran.printed, True, f"what {name} signs: {ran.printed!r}")


def test_the_same_files_give_the_same_dump(tool: Tool, folder: str) -> None:
    """That passwords which were made before stay, and those of new maintainers come."""
    tool(*WORDS, "-o", "first.rpsl", folder=folder)
    ran = tool(*WORDS, "-o", "second.rpsl", folder=folder)
    expect(b"sent: 3 passwords, 0 of them new\n" in ran.reported, True, f"again: {ran.reported!r}")
    first = Path(folder, "first.rpsl").read_bytes()
    expect(Path(folder, "second.rpsl").read_bytes() == first, True, "whether they are the same")
    write(folder, "old.db", DUMP + obj("aut-num: AS64498", "mnt-by: LATE-MNT", "source: RIPE"))
    ran = tool(*WORDS, "-o", "third.rpsl", folder=folder)
    is_reported = b"sent: 4 passwords, 1 of them new\n" in ran.reported
    expect(is_reported, True, f"with one: {ran.reported!r}")
    third = texts_of(Path(folder, "third.rpsl").read_bytes(), "mntner")
    expect(set(texts_of(first, "mntner")) - set(third), set(), "mntners that changed")


def test_a_folder_or_a_file_that_is_no_place_for_passwords_is_refused(
    tool: Tool, folder: str
) -> None:
    os.mkdir(os.path.join(folder, "sent"), 0o755)
    ran = tool(*WORDS, "-o", "full.rpsl", folder=folder)
    expect_line(ran, 5, "sent: others may enter the folder, .*; chmod 700 it", "an open folder")
    os.chmod(os.path.join(folder, "sent"), 0o700)
    for text in b"", b"password: one\npassword: two\n", b"password: \n":
        write(os.path.join(folder, "sent"), "MD5-MNT.password", text)
        ran = tool(*WORDS, "-o", "full.rpsl", folder=folder)
        expect_line(ran, 2, "sent/MD5-MNT.password: it has no password .*", repr(text))
    expect(os.path.exists(os.path.join(folder, "full.rpsl")), False, "whether a dump is written")

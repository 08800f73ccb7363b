"""What is seen in a submission before it is sent."""

from types import SimpleNamespace
from typing import Any, Iterator

import pytest

from irr.commands import submit
from irr.errors import DONE, REFUSED, Failure
from irr.local import dry_run
from irr.registry import cautions
from irr.registry.refusals import Reasons
from irr.registry.server import Server
from irr.registry.submissions import Gathered, Item
from irr.rpsl import grammar, hashes, syntax

HASH = hashes.auth_of(b"a secret", "ab")
OTHER = hashes.auth_of(b"another", "cd")


def mntner(*auths: str, by: str = "A-MNT", more: str = "") -> str:
    lines = "".join(f"auth: {auth}\n" for auth in auths)
    return f"mntner: A-MNT\n{lines}mnt-by: {by}\nsource: TEST\n{more}"


class Registry:
    """Has one maintainer, and counts what it is asked."""

    url = "the registry"
    is_excerpt = False

    def __init__(self, registered: str = "") -> None:
        self.registered, self.asked = registered, 0

    def query(self, *words: str) -> Any:
        self.asked += 1
        found = list(syntax.paragraphs([self.registered.encode()]))
        answer = SimpleNamespace(objects=lambda: found)
        answer.or_failure = lambda _: answer
        return answer

    def dump(self) -> Any:
        raise AssertionError("the dump is asked for")


def seen(text: str, registered: str = "") -> tuple[list[tuple[str, bool]], int]:
    """The cautions of a text, each with whether it is grave, and how many queries were asked."""
    items = [Item("f", block) for block in syntax.blocks([text.encode()], syntax.LARGEST + 1)]
    registry = Registry(registered)
    found = cautions.found([], Gathered(items), Reasons(registry))
    return [(caution.sentence(), caution.is_grave) for caution in found], registry.asked


@pytest.mark.parametrize(
    "text, place, words, is_grave",
    [
        (mntner("MD5-PW $1$x"), "f: line 2, `auth`", "SHA256-PW", True),
        (mntner("MD5-PW x", "PGPKEY-1", by="ROOT-MNT"), "f: line 2, `auth`", "no password", True),
        ("aut-num: AS1\npasword: x\n", "f: line 2, `pasword`", "shown to all", True),
        ("Passwrd: x\n", "f: line 1, `passwrd`", "shown to all", True),
        ("aut-num: AS1\npasswd: x\n", "f: line 2, `passwd`", "reads as a password", True),
        ("OVERRIDE : x\naut-num: AS1\n", "f: line 1, `override`", "reads as a password", True),
        *(
            (f"aut-num: AS1\n{name}: x\n", f"f: line 2, `{name}`", "write `password`", True)
            for name in grammar.SECRETS
        ),
        # A line that begins with a blank or `+` goes on with the attribute before it.
        *(
            (f"aut-num: AS1\ndescr: x\n{line}: y\n", "f: line 3, `descr`", "goes on with", True)
            for line in (" password", "+Password\t", "\t  pwd", "+ api-key ", "\rPASSWD")
        ),
        ("# x\nas-set: AS-A\n# x\n secret:\n", "f: line 4, `as-set`", "shown to all", True),
        ("aut-num: AS1\nmnt-lowr: B-MNT\n", "f: line 2, `mnt-lowr`", "`mnt-lower`", False),
        ("route: 192.0.2.1/24\n", "f: line 1, `route`", "192.0.2.0/24 is registered", False),
        ("# x\n\ninetnum: 192.0.2.1/24\n", "f: line 3, `inetnum`", "192.0.2.0/24", False),
        (
            "route-set: RS-A\nmembers: AS1,\n 10.0.0.1/8^24\n",
            "f: line 3, `members`",
            "10.0.0.0/8",
            False,
        ),
        (
            "aut-num: AS1\nmnt-routes: A-MNT{10.0.0.1/8}\n",
            "f: line 2, `mnt-routes`",
            "10.0.0.0/8",
            False,
        ),
        # Passwords, and `delete`, may stand above the class.
        ("password: x\n" + mntner("MD5-PW x"), "f: line 3, `auth`", "no password", True),
        ("PassWord: x\nroute: 192.0.2.1/24\n", "f: line 2, `route`", "192.0.2.0/24", False),
        (
            "password: x\npassword: y\nroute-set: RS-A\nmembers: 10.0.0.1/8\n",
            "f: line 4, `members`",
            "10.0.0.0/8",
            False,
        ),
        ("% nothing\n", "the text", "no object", True),
        ("password: x\n", "the text", "no object", True),
    ],
)
def test_seen(text: str, place: str, words: str, is_grave: bool) -> None:
    (found,), asked = seen(text)
    assert found[0].startswith(place + ": ") and words in found[0]
    assert (found[1], asked) == (is_grave, 0)


@pytest.mark.parametrize(
    "text",
    [
        mntner(HASH),
        mntner("MD5-PW x", HASH),
        # What the registry refuses locks nobody out.
        mntner("MD5-PW x", more="source: TEST\n"),
        mntner("SHA256-PW x"),
        "mntner: A-MNT\nauth: MD5-PW x\ndelete: x\n",
        "delete: x\nmntner: A-MNT\nauth: MD5-PW x\n",
        "route: 192.0.2.0/24\nremarks: 192.0.2.1/24\norigin: AS1\n",
        "as-set: AS-A\nmnt-routes: A-MNT {10.0.0.1/8}\n",
        "no colon 10.0.0.1/8\n",
        "person: X\nmnt-ref: A-MNT\nnotify: x\n",
        # Names that only begin so, and a name in a value.
        "aut-num: AS1\npassport: x\nauth-override: 20010101\nremarks: passwd: x\n",
        # What goes on with a text or with a password, and reads as no password, or isn't kept.
        "aut-num: AS1\ndescr: x\n my password: y\n passwords: y\n password\n+# password: y\n",
        "password: x\n password: y\naut-num: AS1\n",
        "aut-num: AS1\ndelete: x\n password: y\n",
    ],
)
def test_unseen(text: str) -> None:
    assert seen(text) == ([], 0)


def test_lock_out() -> None:
    """The password that is given fits no new `auth` of a maintainer that changes itself."""
    own, password = mntner("# filtered"), "password: a secret\n\n"
    (found,), asked = seen(password + mntner(OTHER), own)
    assert found[0].startswith("f: line 3: ") and found[1] and asked == 1
    # The new one is given too, one that fits stays, or somebody else changes it.
    assert seen(password + "password: another\n\n" + mntner(OTHER), own) == ([], 0)
    assert seen(mntner(OTHER) + "\npassword: another\n", own) == ([], 0)
    assert seen(password + mntner(OTHER, HASH), own) == ([], 0)
    assert seen(password + mntner(OTHER), mntner("# filtered", by="ROOT-MNT")) == ([], 1)
    assert seen(password + mntner(OTHER), "") == ([], 1)
    assert seen(mntner(OTHER), own) == ([], 0)
    # Others can mend it: it is told, and sent.
    (found,), _ = seen(password + mntner(OTHER, by="A-MNT, B-MNT"), own)
    assert "B-MNT alone" in found[0] and not found[1]


def test_what_was_not_read_is_not_called_empty() -> None:
    def broken() -> Iterator[Item]:
        yield from ()
        raise OSError(5, "Input/output error")

    assert cautions.found([], Gathered(broken()), Reasons(Registry())) == []


def test_lock_out_by_a_later_item() -> None:
    """What an item makes of a maintainer stands for those after it."""
    text = f"password: a secret\n\n{mntner(HASH)}\n{mntner(OTHER)}"
    for registered in "", mntner("# filtered", by="ROOT-MNT"):
        (found,), _ = seen(text, registered)
        assert found[0].startswith("f: line 8: ") and found[1]
    given = "password: another\n\n" + text
    assert [is_grave for _, is_grave in seen(given)[0]] == []


def test_lock_out_whatever_becomes_of_an_earlier_item() -> None:
    """It may be refused, and then what was registered stands."""
    own, password = mntner("# filtered"), "password: a secret\n\n"
    handed, back = mntner(HASH, by="NOPE-MNT"), mntner(OTHER)
    first, second = seen(f"{password}{handed}\n{back}", own)[0]
    assert first[0].startswith("f: line 8: ") and "no password" in first[0] and first[1]
    assert second[0].startswith("f: line 3: ") and "NOPE-MNT alone" in second[0] and not second[1]
    # What an item before it makes of the maintainer is enough.
    (found, *_), asked = seen(f"{password}{mntner(HASH)}\n{handed}\n{back}", mntner("", by="B-MNT"))
    assert found[0].startswith("f: line 13: ") and found[1] and asked == 0
    # Neither locks anybody out.
    assert seen(f"{password}{handed}\n{back}", mntner("", by="B-MNT"))[0] == []
    assert seen(f"{password}{handed}\n{mntner(HASH)}", own)[0] == [second]


def test_handed_to_others() -> None:
    """A maintainer that no longer maintains itself is told, and sent."""
    own, password = mntner("# filtered"), "password: a secret\n\n"
    for auth in HASH, OTHER:
        (found,), _ = seen(password + mntner(auth, by="B-MNT, C-MNT"), own)
        assert "B-MNT, C-MNT alone may change it" in found[0] and not found[1]
    assert seen(password + mntner(HASH, by="B-MNT"), mntner("# filtered", by="B-MNT"))[0] == []
    assert seen(password + mntner(HASH, by="B-MNT"))[0] == []


def test_grave_ones_come_first_and_refuse() -> None:
    found = [cautions.Caution("a", "x"), cautions.Caution("b", "y", True)]
    failure = cautions.grave(found, False)
    assert failure and failure.status == REFUSED and "--anyway" in str(failure)
    assert cautions.grave(found, True) is None
    assert cautions.grave(found[:1], False) is None
    (first, second), _ = seen("aut-num: AS1\nmnt-lowr: x\n\naut-num: AS2\npasword: x\n")
    assert (first[1], second[1]) == (True, False)


def test_many_are_reported_in_part(capsys: pytest.CaptureFixture[str]) -> None:
    cautions.report("submit", [cautions.Caution("a", "x")] * 25)
    lines = capsys.readouterr().err.split("\n")
    assert lines[:20] == ["irr submit: a: x"] * 20
    assert lines[20:] == ["irr submit: the text: there are 5 more of these", ""]


def test_a_dry_run_ends_as_what_would_not_be_sent(monkeypatch: pytest.MonkeyPatch) -> None:
    """Whatever the copy of the registry answers."""
    monkeypatch.setattr(dry_run, "run", lambda *_: DONE)
    text, place = Gathered([]), Server("http://127.0.0.1:1")
    refusal = cautions.grave([cautions.Caution("f", "x", True)], False)
    with pytest.raises(Failure, match="would not be sent; .*--anyway") as raised:
        submit.try_out(place, [], text, [], True, refusal)
    assert raised.value.status == REFUSED
    assert submit.try_out(place, [], text, [], True, None) == DONE

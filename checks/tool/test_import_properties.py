"""Imports of messy dumps beside a second reading: nothing is lost, nothing is merged, and `irrdesk`
takes what is written."""

import io
import os
import re
import subprocess
from typing import Any

from hypothesis import example, given, settings

from checks import rpsl
from checks.migrate import letters
from checks.rpsl import Registry
from checks.tool import second_reading
from checks.tool.importing import AUTH, made, obj
from checks.tool.second_reading import LISTS, NAME, RESERVED, Piece, key_of, meaning, tokens_of
from irr.migrate.report import Tally

IS_LONG = bool(os.environ.get("CHECKS_LONG"))
SETTINGS = f'source = "TEST"\nroot = "ROOT-MNT"\nauth = "{AUTH}"\nlimit = 1000\nstore = "irr.db"\n'


def imported(dump: bytes) -> tuple[bytes, Tally, list[list[str]]]:
    """What is written of a dump as pieces, the tally, and the lines of what is left out."""
    listed = io.BytesIO()
    text, tally = made(dump, left_out=listed)
    lines = [line.split("\t") for line in listed.getvalue().decode().splitlines()]
    return text, tally, lines


def line_of(place: str) -> int:
    return int(place.rpartition(":")[2])


def normal(piece: Piece, kind: str) -> list[tuple[str, list[str]]]:
    """An object as its attributes: the lines of each, or the items of a list."""
    return [
        (name, tokens_of(name, meaning(lines)) if kind in LISTS.get(name, []) else lines)
        for name, lines in piece.attributes
    ]


def is_name(name: str) -> bool:
    return bool(
        NAME.fullmatch(name)
        and name.lower() not in RESERVED
        and not name.upper().startswith(("AS-", "RS-"))
    )


def with_new_names(
    attributes: list[tuple[str, list[str]]], new: dict[Any, Any]
) -> list[tuple[str, list[str]]]:
    """The attributes with new names where names of maintainers are read."""
    kind, found = attributes[0][0], []
    for place, (name, items) in enumerate(attributes):
        if name in ("mnt-by", "mnt-lower", "mbrs-by-ref", "mnt-routes") and kind in LISTS[name]:
            is_any = name in ("mbrs-by-ref", "mnt-routes")
            items = [
                item if is_any and item.upper() == "ANY" else new.get(item.upper(), item)
                for item in items
            ]
        elif not place and kind == "mntner":
            items = [new.get(items[0].upper(), items[0])]
        found.append((name, items))
    return found


INSIDE = obj("as-set: AS-A", "mnt-by: A-MNT", "source: RIPE", "as-set: AS-B", "mnt-by: B-MNT")
AFTER = obj("aut-num: AS64496", "mnt-by: A-MNT", "source: RIPE")


@given(rpsl.dumps())
@example(INSIDE + AFTER)
@example(INSIDE.replace(b"as-set: AS-B", b"person: Jo") + AFTER)
@example(INSIDE.replace(b"B-MNT", b"B-MNT\nsource:") + AFTER)
@example(INSIDE)
def test_nothing_is_lost_and_nothing_is_merged(dump: bytes) -> None:
    compare(dump)


def compare(dump: bytes) -> None:
    """What an import makes of a dump, with what the second reading makes of it."""
    wanted = second_reading.Registry(dump, "TEST", "ROOT-MNT")
    text, tally, lines = imported(dump)
    # Each piece is taken or listed, with its own line and the reason.
    listed = {line_of(line[2]): line[1] for line in lines if line[0] == "left out"}
    assert sorted(listed) == sorted(wanted.causes)
    assert len(listed) + tally.taken == tally.read == len(wanted.pieces)
    for place, cause in wanted.causes.items():
        assert cause in listed[place], (cause, listed[place])
    # Each item that is gone is listed, and no other.
    gone = [(line_of(line[2]), *line[4:]) for line in lines if line[0] == "dropped from lists"]
    assert sorted(gone) == sorted(wanted.gone)
    # What is odd about what is taken is told, and nothing else.
    odd = [(line_of(line[2]), *line[4:5]) for line in lines if line[0] == "taken"]
    assert sorted(odd) == sorted(second_reading.odd(dump, wanted))
    # What is written is what was read, object by object, but for what was told.
    assert all(not is_name(old) and is_name(new) for old, new in tally.renamed.items())
    assert letters.is_utf8(text)
    found = {(piece.kind, key_of(piece)): piece for piece in second_reading.pieces(text)}
    for (kind, key), attributes in wanted.objects.items():
        piece = found.pop((kind, tally.renamed.get(key, key) if kind == "mntner" else key))
        own = with_new_names(attributes, tally.renamed)
        if (kind, key) == ("mntner", "ROOT-MNT"):
            own = [one for one in own if one[0] != "auth"]
            own.insert(1, ("auth", [AUTH]))
        own[0] = (own[0][0], [own[0][1][0]])
        first, *rest = normal(piece, kind)
        assert [(first[0], [meaning(first[1])]), *rest] == own
    # The rest was added.
    assert len(found) == tally.made
    for kind, key in found:
        assert kind in ("mntner", "as-block", "inetnum")


@given(rpsl.registries())
def test_a_registry_stays_as_it_is(registry: Registry) -> None:
    """If its text is UTF-8."""
    text, tally, lines = imported(registry.text().encode())
    own = re.sub(r"(ROOT-MNT\n)auth: .*", rf"\g<1>auth:           {AUTH}", registry.text(), 1)
    assert without_auths(text.decode()) == without_auths(own)
    assert (tally.taken, lines, +tally.mended) == (len(registry.objects), [], {})


def without_auths(text: str) -> str:
    return re.sub("(?m)^auth: .*\n", "", text)


@settings(max_examples=300 if IS_LONG else 12)
@given(rpsl.dumps(36))
def test_irrdesk_has_just_what_is_written(program: str, tmp_path_factory: Any, dump: bytes) -> None:
    """Its public dump is what was written, with each `auth` hidden."""
    folder = tmp_path_factory.mktemp("load")
    text, tally = made(dump)
    (folder / "irr.toml").write_text(SETTINGS)
    (folder / "full").write_bytes(text)
    loaded = subprocess.run([program, "load", "irr.toml", "full"], cwd=folder, capture_output=True)
    count = tally.taken + tally.made
    assert (loaded.returncode, loaded.stdout) == (0, b"loaded %d objects\n" % count), loaded.stderr
    dumped = subprocess.run([program, "dump", "irr.toml"], cwd=folder, capture_output=True)
    public = re.sub(rb"(?m)^auth:.*\n(?:[ \t+].*\n)*", b"auth:           # filtered\n", text)
    assert dumped.stdout == public

"""Views of three sources by chance, beside a merge and an expansion of the check's own."""
import functools
import json
import os
import re
import subprocess
import tempfile
import time
from collections.abc import Callable
from pathlib import Path
from typing import NamedTuple

import pytest
from hypothesis import Phase, given, settings

from checks import models, rpsl
from checks.models import Expansion
from checks.rpsl import until_seen
from checks.running import Trial
from checks.views import merged
from checks.views.merged import SOURCES, Roas, Several
from irr.errors import Failure
from irr.views.settings import read
from irr.views.view import View

LONG = bool(os.environ.get("CHECKS_LONG"))


def written(folder: Path, several: Several) -> View:
    """A view of registries in files."""
    lines = ['name = "ALL"', f'folder = "{folder}/view"', "limit = 1000000"]
    if several.roas:
        lines.append(f'roas = "{folder}/roas"')
        (folder / "roas").write_text(roas_text(several.roas))
    for name in SOURCES:
        (folder / name).write_text(several.registries[name].text())
        lines += ["[[source]]", f'name = "{name}"', f'dump = "{folder}/{name}"']
    (folder / "view.toml").write_text("\n".join(lines) + "\n")
    return View(read(str(folder / "view.toml")))


class Few(NamedTuple):
    """A view of a few objects, and the registry that is made of it."""

    view: View
    folder: Path
    program: str

    def asked(self, *words: str) -> str:
        return asked(self.program, self.folder, *words)


ViewOf = Callable[[dict[str, str]], Few]


def roas_text(roas: Roas) -> str:
    entries = [
        {"prefix": rpsl.prefix_text(prefix), "maxLength": most, "asn": number}
        for prefix, most, number in roas
    ]
    return json.dumps({"metadata": {"generated": int(time.time())}, "roas": entries})


def emptied(view: View) -> Path:
    """The folder in which a registry is made of a view, without that of before."""
    folder = view.folder / "made"
    folder.mkdir(parents=True, exist_ok=True)
    for path in folder.iterdir():
        path.unlink()
    return folder


def made(view: View) -> Path:
    """The folder of a registry that is made of a view."""
    folder = emptied(view)
    assert view.make(folder, "") is not None
    return folder


def asked(program: str, folder: Path, *words: str) -> str:
    done = subprocess.run(
        [program, "query", "irr.toml", *words], cwd=folder, capture_output=True, check=False
    )
    assert done.returncode <= 1 and not done.stderr, (words, done.stderr)
    return done.stdout.decode("latin-1")


def bits_of(answer: str) -> int:
    """The prefixes of an answer, as bits."""
    found = 0
    for line in answer.split("\n"):
        if line[:1] not in ("", "%"):
            prefix, hat, rest = line.partition("^")
            node = models.node_of(models.read_prefix(prefix))
            found |= models.operated(hat + rest, 1 << node)
    return found


def objects_in(text: str) -> dict[tuple[str, str], rpsl.Object]:
    """The objects of a dump whose attributes are a line each."""
    found = {}
    for block in text.split("\n\n"):
        if block and not block.startswith("%"):
            pairs = [line.partition(":") for line in block.strip("\n").split("\n")]
            held = rpsl.Object(tuple((name, value.strip()) for name, _, value in pairs))
            found[merged.key_of(held)] = held
    return found


def test_a_view_is_the_merge_of_its_sources(program: str, trial: Trial) -> None:
    """Its objects, with the source of each, and what each set stands for."""
    seen = {"sets": 0, "missing": 0, "scoped": 0, "apart": 0, "joined": 0, "invalid": 0}

    @settings(max_examples=1_000 if LONG else 50, deadline=None, phases=[Phase.generate])
    @given(merged.several())
    def holds(several: Several) -> None:
        wanted = merged.merged(several)
        with tempfile.TemporaryDirectory(prefix="irr-view-") as name:
            view = written(Path(name), several)
            folder = made(view)
            dump = subprocess.run(
                [program, "dump", "irr.toml"], cwd=folder, capture_output=True, check=True
            ).stdout.decode("latin-1")
            need_objects(objects_in(dump), wanted)
            model = Expansion(wanted)
            for name in merged.names(wanted):
                if not model.is_there(name):
                    continue
                answer = asked(program, folder, "prefixes", name)
                assert bits_of(answer) == model.prefixes(name), name
                missing = set(re.findall("^% missing (.*)$", answer, re.M))
                assert missing == model.missing(name), name
                seen["sets"] += 1
                seen["missing"] += bool(missing)
        seen["apart"] += sum("--" in held.key for held in wanted.objects)
        seen["joined"] += sum(
            model.joins(held, name)
            for name in merged.names(wanted)
            for held in wanted.objects
            if "--" in name and held.kind in ("aut-num", "route")
        )
        seen["scoped"] += "::" in "".join(one.text() for one in several.registries.values())
        seen["invalid"] += sum(one.invalid for one in view.outcomes.values())

    until_seen(holds, seen, 11, trial.seed)


@pytest.mark.parametrize("count", [1, 3_000])
def test_a_temporary_file_without_room_is_reported(
    view_of: ViewOf, monkeypatch: pytest.MonkeyPatch, count: int
) -> None:
    """Whether that is seen as it is written, or at its end."""
    full = functools.partial(open, "/dev/full", "w+b")
    monkeypatch.setattr("irr.migrate.conversion.tempfile.TemporaryFile", lambda prefix: full())
    lines = [f"aut-num: AS{number}|mnt-by: X-MNT" for number in range(1, count + 1)]
    with pytest.raises(Failure, match="^the temporary file: no space left on device; make room"):
        view_of({"TEST": "\n".join(lines)})


def test_a_set_taken_apart_has_its_members_by_reference(view_of: ViewOf) -> None:
    """Those of its own source, by a maintainer and by ANY, and no others."""
    sources = {
        "TEST": """
            route: 10.8.0.0/16|origin: AS8|member-of: AS1:RS-Y|mnt-by: R-MNT
            route-set: AS1:RS-Y|mbrs-by-ref: R-MNT|mnt-by: T-MNT
            route-set: AS1:RS-C|members: RADB::AS1:RS-Y|mnt-by: T-MNT
            as-set: AS1:AS-Y|members: AS8|mnt-by: T-MNT
            as-set: AS1:AS-C|members: RADB::AS1:AS-Y|mnt-by: T-MNT
        """,
        "RIPE": "route: 10.5.0.0/16|origin: AS5|member-of: AS1:RS-Y|mnt-by: X-MNT",
        "RADB": """
            aut-num: AS7|member-of: as1:as-y|mnt-by: X-MNT
            route: 10.6.0.0/16|origin: AS6|member-of: AS1:RS-Y|mnt-by: X-MNT
            route: 10.7.0.0/16|origin: AS7|member-of: AS1:RS-Y|mnt-by: R-MNT
            route: 10.9.0.0/16|origin: AS9|member-of: TEST::AS1:RS-Y|mnt-by: R-MNT
            route-set: AS1:RS-Y|mbrs-by-ref: R-MNT|mnt-by: R-MNT
            as-set: AS1:AS-Y|mbrs-by-ref: ANY|mnt-by: R-MNT
        """,
    }
    few = view_of(sources)
    for name, prefixes in (
        ("AS1:RS-C", ["10.7.0.0/16"]),
        ("AS1:AS-C", ["10.7.0.0/16"]),
        # A plain name is the first source's, also in the objects of later ones.
        ("AS1:RS-Y", ["10.7.0.0/16", "10.8.0.0/16", "10.9.0.0/16"]),
    ):
        assert few.asked("prefixes", name).split() == prefixes, name


def test_a_set_whose_name_ends_in_an_as_number_is_taken_apart(view_of: ViewOf) -> None:
    """What lists it by its own registry has its members, as of any other set."""
    sources = {
        "TEST": "as-set: AS-Y:AS2|members: AS8|mnt-by: T-MNT"
        "\nas-set: AS-C|members: RADB::as-y:as02, AS-D|mnt-by: T-MNT"
        "\nroute-set: RS-C|members: RADB::RS-Y:AS2^24|mnt-by: T-MNT"
        "\nroute-set: RS-Y:AS2|members: AS8|mnt-by: T-MNT",
        "RADB": "as-set: AS-Y:AS2|members: AS6|mnt-by: R-MNT"
        "\nroute-set: RS-Y:AS2|members: 10.6.0.0/24|mnt-by: R-MNT"
        "\nas-set: AS-D|mbrs-by-ref: ANY|mnt-by: R-MNT"
        "\nroute: 10.6.0.0/16|origin: AS6|mnt-by: R-MNT",
    }
    few = view_of(sources)
    assert few.asked("prefixes", "AS-C").split() == ["10.6.0.0/16"]
    assert few.asked("prefixes", "RS-C").split() == ["10.6.0.0/24"]
    assert not few.view.outcomes["TEST"].lost, few.view.outcomes
    for name in "AS-Y:AS2:AS---RADB", "RS-Y:AS2:RS---RADB":
        assert "# RADB" in few.asked(name)


def test_a_set_taken_apart_lacks_a_member_whose_text_has_no_room(view_of: ViewOf) -> None:
    """It is told then, and the view is made."""
    sources = {
        "TEST": "route-set: AS1:RS-Y|mnt-by: T-MNT"
        "\nroute-set: RS-C|members: RADB::AS1:RS-Y|mnt-by: T-MNT",
        "RADB": "route-set: AS1:RS-Y|mbrs-by-ref: ANY|mnt-by: R-MNT"
        "\nroute: 10.6.0.0/16|origin: AS6|member-of: AS1:RS-Y|mnt-by: R-MNT"
        f"\nroute: 10.7.0.0/16|origin: AS7|member-of: AS1:RS-Y|mnt-by: R-MNT|descr: {'x' * 65_440}",
    }
    few = view_of(sources)
    assert few.asked("prefixes", "RS-C").split() == ["10.6.0.0/16"]
    assert few.view.outcomes["RADB"].lost == {"above 65,536 bytes": 1}, few.view.outcomes
    assert not few.view.outcomes["RADB"].left, few.view.outcomes


def several_of(sources: dict[str, str]) -> Several:
    """Registries whose objects are a line each, with bars between the attributes; `source` is that
    of the registry, and one that nothing is said of has an object of its own."""
    found = {}
    for place, name in enumerate(SOURCES, 1):
        text = sources.get(name, f"as-block: AS{place} - AS{place}|mnt-by: X-MNT")
        lines = [line.strip() for line in text.strip().split("\n")]
        lines = [line if "|source: " in line else f"{line}|source: {name}" for line in lines]
        objects = [[part.split(": ") for part in line.split("|")] for line in lines]
        found[name] = rpsl.Registry(
            tuple(rpsl.Object(tuple((key, value) for key, value in pairs)) for pairs in objects)
        )
    return Several(found, [])


def need_objects(found: dict[tuple[str, str], rpsl.Object], wanted: rpsl.Registry) -> None:
    """That a dump has these objects, each of its source, and otherwise what a view adds."""
    for held in wanted.objects:
        own = found.pop(merged.key_of(held))
        source = held.values("source")[0]
        assert own.values("source") == [f"ALL # {source}"], own
        lists = [pair for pair in held.attributes if pair[0] not in ("source", "auth")]
        assert [pair for pair in own.attributes if pair[0] not in ("source", "auth")] == lists
        assert own.values("auth") == ["# filtered"] * (held.kind == "mntner")
    for held in found.values():
        assert held.values("source") == ["ALL"], held
        assert held.kind in ("mntner", "as-block", "inetnum"), held

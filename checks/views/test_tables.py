"""The database of a view is row by row the one that `irrdesk load` makes of its dump."""

import sqlite3
import subprocess
import tempfile
from contextlib import closing
from pathlib import Path

from hypothesis import Phase, given, settings

from checks.running import PATIENCE, Trial, expect
from checks.views import merged
from checks.views.merged import Several
from checks.views.test_merge import made, written
from irr.local.tables import Row, once
from irr.rpsl import syntax
from irr.views.view import View
from irr.views.settings import read

IN_MEMORY = True
# Objects that a registry of another kind may have: of all classes, whose maintainers are named here
# and there, whose keys begin and end the numbers, with a text above the bounds of a dump.
OBJECTS = [
    "mntner: 1-mnt\nmnt-by: 1-MNT\nauth: MD5-PW x",
    "mntner: B-MNT\nmnt-by: A-MNT, B-MNT\nmnt-by: A-MNT",
    "as-block: AS1 - AS10\nmnt-lower: B-MNT, A-MNT\nmnt-by: B-MNT",
    "aut-num: AS4294967295\nmnt-routes: C-MNT, A-MNT {10.0.0.0/8^+}, B-MNT ANY\nmnt-by: A-MNT",
    "inetnum: 0.0.0.0 - 0.255.255.255\nmnt-routes: D-MNT\nmnt-lower: A-MNT\nmnt-by: B-MNT, A-MNT",
    "inetnum: 10.0.0.0/8\nmnt-by: E-MNT",
    "route: 10/8\norigin: AS1\nmnt-routes: B-MNT\nmnt-by: 1-MNT, B-MNT",
    "route: 0.0.0.0/0\norigin: AS0\nmnt-by: A-MNT",
    "route: 255.255.255.255/32\norigin: AS4294967295\nmnt-by: A-MNT\n+ # a comment\n+\n  , B-MNT",
    "as-set: AS-Z\nmbrs-by-ref: ANY\nmnt-by: A-MNT",
    "as-set: as1:as-x\nmembers: AS1, AS-Z\nmbrs-by-ref: B-MNT, 1-MNT\nmnt-by: A-MNT",
    "route-set: RS-Y\nmembers: 10.0.0.0/8^16-24, AS-Z\nmbrs-by-ref: A-MNT\nmnt-by: B-MNT",
    "route-set: RS-LONG\nmnt-by: A-MNT\n" + "members: AS1\n" * 4_500 + "remarks: long",
]


def rows(store: Path) -> dict[str, list[tuple[object, ...]]]:
    """All that a database has, and the order of it."""
    with closing(sqlite3.connect(store)) as base:
        # SQLite's own library keeps no IF NOT EXISTS.
        sql = "SELECT name, type, rootpage, replace(sql, 'IF NOT EXISTS ', '') FROM sqlite_master"
        found = {"": base.execute(sql).fetchall()}
        expect(base.execute("PRAGMA integrity_check").fetchall(), [("ok",)], "the database")
        expect(base.execute("PRAGMA journal_mode").fetchall(), [("wal",)], "its log")
        for table in "meta", "object", "named":
            found[table] = base.execute(f"SELECT rowid, * FROM {table} ORDER BY rowid").fetchall()
    return found


def need_same(program: str, folder: Path) -> int:
    """That a made registry has the rows which a load of its dump has."""
    other = folder.parent / "loaded"
    other.mkdir()
    (other / "irr.toml").write_bytes((folder / "irr.toml").read_bytes())
    subprocess.run(
        [program, "load", "irr.toml", folder / "dump.rpsl"],
        cwd=other,
        check=True,
        capture_output=True,
        timeout=PATIENCE,
    )
    own, loaded = rows(folder / "irr.db"), rows(other / "irr.db")
    for table in loaded:
        for one, wanted in zip(own[table], loaded[table]):
            expect(one, wanted, f"a row of {table or 'the schema'}")
        expect(len(own[table]), len(loaded[table]), f"how many rows {table or 'the schema'} has")
    return len(own["object"])


def test_a_view_of_all_kinds_of_objects(trial: Trial) -> None:
    folder = Path(trial.place("kinds"))
    text = "".join(f"{one}\nsource: RIPE\n\n" for one in OBJECTS)
    (folder / "ripe.db").write_text(text, encoding="ascii")
    (folder / "view.toml").write_text(
        f'name = "ALL"\nfolder = "{folder}/view"\n[[source]]\nname = "RIPE"\n'
        f'dump = "{folder}/ripe.db"\n',
        encoding="ascii",
    )
    view = View(read(str(folder / "view.toml")))
    count = need_same(trial.program, made(view))
    expect(view.outcomes["RIPE"].taken, len(OBJECTS), f"what is taken: {view.outcomes['RIPE']}")
    # A-MNT, C-MNT, D-MNT, E-MNT and the root, and what covers everything.
    expect(count, len(OBJECTS) + 5 + 3, "the objects")
    with closing(sqlite3.connect(view.folder / "made" / "irr.db")) as base:
        bodies = base.execute("SELECT body FROM object WHERE okey = 'RS-LONG'").fetchone()
    expect(len(bodies[0]) > syntax.LARGEST, True, f"a text of {len(bodies[0])} bytes")


def test_a_view_of_registries_by_chance(program: str) -> None:
    @settings(max_examples=25, deadline=None, phases=[Phase.generate])
    @given(merged.several())
    def holds(several: Several) -> None:
        with tempfile.TemporaryDirectory(prefix="irr-view-") as name:
            need_same(program, made(written(Path(name), several)))

    holds()


def test_a_maintainer_has_a_row_where_it_is_last_named() -> None:
    expect(once(["A", "B", "A", "C", "B"]), ("A", "C", "B"), "the order")


def test_keys_are_stored_by_eight_digits() -> None:
    top = 0xFFFFFFFF
    stored: list[tuple[int, int | str, str]] = [
        (2, 1 << 32 | 10, "00000001-0000000a"),
        (3, top, "ffffffff"),
        (5, (10 << 24 << 6 | 8) << 32 | 1, "0a000000/08-00000001"),
        (5, (top << 6 | 32) << 32 | top, "ffffffff/32-ffffffff"),
        (6, "AS1:AS-X", "AS1:AS-X"),
    ]
    for number, key, wanted in stored:
        expect(Row(number, key, (), b"").okey(), wanted, f"{key} of class {number}")

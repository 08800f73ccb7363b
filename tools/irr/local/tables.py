"""The database of a registry, row by row as `irrdesk load` writes it, which holds every object in
memory at once."""
import contextlib
import os
from itertools import islice
from pathlib import Path
from typing import Iterable, NamedTuple

from irr.errors import DATABASE, Failure
from irr.rpsl import keys, syntax

VERSION = "2"
TABLES = (
    "meta (name TEXT NOT NULL PRIMARY KEY, value TEXT NOT NULL)",
    "object (class INTEGER NOT NULL CHECK (class >= 1 AND class <= 7), okey TEXT NOT NULL, "
    "body BLOB NOT NULL, PRIMARY KEY (class, okey))",
    "named (maintainer TEXT NOT NULL, class INTEGER NOT NULL, okey TEXT NOT NULL, "
    "PRIMARY KEY (maintainer, class, okey))",
)
# Kibibytes of pages that are held, and how many rows are written at once.
CACHE, TOGETHER = 32_768, 5_000


class Row(NamedTuple):
    """An object: the number of its class, its key as a value that orders those of the class, the
    maintainers that it names in the order of `once`, and its text."""

    number: int
    key: int | str
    names: tuple[str, ...]
    text: bytes

    def okey(self) -> str:
        """The key as it is stored."""
        if isinstance(self.key, str):
            return self.key
        if self.number == keys.CLASSES.index("aut-num") + 1:
            return f"{self.key:08x}"
        high, low = self.key >> 32, self.key & keys.TOP
        if self.number == keys.CLASSES.index("route") + 1:
            return f"{high >> 6:08x}/{high & 63:02}-{low:08x}"
        return f"{high:08x}-{low:08x}"

    def body(self) -> bytes:
        """The canonical text, also of an object that was written with as few blanks as can be."""
        if self.text[self.text.index(b":") + 1] == ord(" "):
            return self.text
        return syntax.Paragraph(syntax.read_any(self.text).attributes).text()


def once(names: Iterable[str]) -> tuple[str, ...]:
    """The maintainers of `mnt-by`, `mnt-lower`, `mnt-routes` and `mbrs-by-ref`, each where it is
    last named: rows in another order would be sorted in memory whenever they are read."""
    return tuple(reversed(dict.fromkeys(reversed(list(names)))))


def write(store: Path, rows: Iterable[Row]) -> None:
    """Makes a database of objects in their order. Who opens it looks whether it is a registry."""
    import sqlite3

    os.close(os.open(store, os.O_CREAT | os.O_EXCL | os.O_WRONLY, 0o600))
    try:
        with contextlib.closing(sqlite3.connect(store, isolation_level=None)) as out:
            out.execute("PRAGMA journal_mode = OFF")
            out.execute(f"PRAGMA cache_size = -{CACHE}")
            out.execute("BEGIN")
            for table in TABLES:
                out.execute(f"CREATE TABLE {table} STRICT")
            out.execute("INSERT INTO meta VALUES ('version', ?)", (VERSION,))
            left = iter(rows)
            while some := [(row, row.okey()) for row in islice(left, TOGETHER)]:
                out.executemany(
                    "INSERT INTO object VALUES (?, ?, ?)",
                    ((row.number, key, row.body()) for row, key in some),
                )
                out.executemany(
                    "INSERT INTO named VALUES (?, ?, ?)",
                    ((name, row.number, key) for row, key in some for name in row.names),
                )
            out.execute("COMMIT")
            # What irrdesk keeps beside it, from its first change on.
            out.execute("PRAGMA journal_mode = WAL")
    except sqlite3.Error as error:
        raise Failure(
            str(store), f"SQLite cannot write the database: {error}; make room", DATABASE
        ) from None

"""Tables of version 1, made by sqlite3: what a migration is given."""

import os
import random
import subprocess

from checks.model.objects import AS_BLOCK, AUT_NUM, ROUTE, Key
from checks.model.registry import Registry, Secrets
from checks.model.text import blocks, read
from checks.running import AUTH
from checks.texts import item

TABLES = """CREATE TABLE meta (name TEXT NOT NULL PRIMARY KEY, value TEXT NOT NULL) STRICT;
CREATE TABLE object (class INTEGER NOT NULL CHECK (class >= 1 AND class <= 7), okey TEXT NOT NULL,
    body BLOB NOT NULL, PRIMARY KEY (class, okey)) STRICT;
CREATE TABLE named (maintainer TEXT NOT NULL, class INTEGER NOT NULL, okey TEXT NOT NULL,
    PRIMARY KEY (maintainer, class, okey)) STRICT;
INSERT INTO meta VALUES ('version', '1');
"""


def old_key(key: Key) -> str:
    """The bytes of a key in version 1, where an AS number has four digits."""
    if key.number == AS_BLOCK:
        return "%04x-%04x" % key.value
    if key.number == AUT_NUM:
        return "%04x" % key.value
    if key.number == ROUTE:
        return key.bytes[:12] + "%04x" % key.value[1]
    return key.bytes


def version1(registry: Registry) -> str:
    """The SQL that makes tables of version 1 of a registry, less the block that only version 2
    has."""
    rows = []
    for held in registry.in_order():
        if held.key.number == AS_BLOCK and held.key.value[1] > 65_535:
            continue
        place = f"{held.key.number}, '{old_key(held.key)}'"
        rows.append(f"INSERT INTO object VALUES ({place}, x'{held.text.hex()}');")
        rows += [
            f"INSERT INTO named VALUES ('{name.decode()}', {place});"
            for name in sorted(held.named())
        ]
    return TABLES + "BEGIN;\n" + "\n".join(rows) + "\nCOMMIT;\n"


def old_items(chance: random.Random, count: int) -> Registry:
    """A registry that version 1 could have held."""
    registry, secrets = Registry(auth=AUTH.encode()), Secrets()
    secrets.add([b"bc"])
    for number in range(count):
        extra = b"descr: %s\n" % (b"x" * chance.choice([0, 40, 5_000]))
        made = [
            item(b"aut-num", b"AS%d" % number, extra),
            item(b"inetnum", b"10.%d.%d.0/24" % divmod(number, 256), extra),
            item(b"as-set", b"AS-S%d" % number, extra),
        ]
        registry.item(read(next(blocks(chance.choice(made)))), secrets)
    return registry


def write_old(folder: str, registry: Registry) -> bytes:
    """Writes a database of version 1, and gives what is in it."""
    subprocess.run(
        ["sqlite3", "-batch", "-bail", os.path.join(folder, "irr.db")],
        input=version1(registry),
        text=True,
        check=True,
    )
    return read_rows(folder)


def read_rows(folder: str) -> bytes:
    """All rows of a database, whatever its version, as sqlite3 writes them."""
    ask = (
        "SELECT * FROM meta; SELECT * FROM object ORDER BY 1, 2; SELECT * FROM named ORDER BY 1,"
        " 2, 3"
    )
    return subprocess.run(
        ["sqlite3", "-batch", "-bail", "irr.db", ask], cwd=folder, capture_output=True, check=True
    ).stdout

"""Registries as rows of databases: their texts, the programs that write the same rows by statements
alone, and their times."""
import os
import sqlite3
import subprocess
import sys

import building

STORE = os.path.join(building.TOP, "bench", "store")
DIGEST = "ba7816bf8f01cfea414140de5dae2223b00361a396177a9cb410ff61f20015ad"
REST = "mnt-by:         ROOT-MNT\nsource:         TEST\n\n"


def opening():
    """The objects that a registry opens with, in the order of their keys."""
    return [
        f"mntner:         ROOT-MNT\nauth:           SHA256-PW a:{DIGEST}\n" + REST,
        "as-block:       AS0 - AS65535\n" + REST,
        "as-block:       AS65536 - AS4294967295\n" + REST,
        "inetnum:        0.0.0.0 - 255.255.255.255\n" + REST,
    ]


def inetnum(n):
    """An inetnum of four addresses, the n-th of a scattered order of the first 2^20 of them."""
    place = n * 611_953 % (1 << 20) << 2
    first = f"10.{place >> 16 & 255}.{place >> 8 & 255}.{place & 255}"
    last = f"10.{place >> 16 & 255}.{place >> 8 & 255}.{place & 255 | 3}"
    return f"inetnum:        {first} - {last}\nnetname:        NETWORK{n}\n" + REST


def write(path, paragraphs):
    with open(path, "w", encoding="ascii") as out:
        out.writelines(paragraphs)
    return os.path.getsize(path)


def build_desk(folder):
    """The program that times a desk: its loads, openings, submissions, dumps and answers."""
    return building.build_ours(folder, "desk/main")


def build_plain(folder):
    """The programs that write rows by statements alone: over the port, and in C over SQLite's
    library."""
    port = building.build_ours(folder, "store/port")
    return {
        "the port alone": port,
        "C": building.build_c(folder, "rows", os.path.join(STORE, "rows.c"), "-lsqlite3"),
    }


def remove(database):
    for path in [database, f"{database}-wal", f"{database}-shm"]:
        if os.path.exists(path):
            os.remove(path)


def numbers(*words, text=None):
    """The numbers that a program prints."""
    with open(text or os.devnull, "rb") as given:
        made = subprocess.run(words, stdin=given, capture_output=True, text=True, check=False)
    if made.returncode:
        sys.exit(
            f"bench: {' '.join(words)} ended with {made.returncode}: {made.stdout}{made.stderr}"
        )
    return [int(word) for word in made.stdout.split()]


def content(database):
    """The rows of a database, by SQLite's own library, which also looks at its pages."""
    connection = sqlite3.connect(database)
    ((sound,),) = connection.execute("PRAGMA integrity_check")
    assert sound == "ok", sound
    found = [
        connection.execute(f"SELECT * FROM {table} ORDER BY 1, 2").fetchall()
        for table in ["meta", "object", "named"]
    ]
    connection.close()
    return found


def least(best, times):
    return [min(pair) for pair in zip(best, times)]

"""New passwords for the maintainers of an import, a file each, for its operator to send."""

import hashlib
import os
from typing import Iterable

from irr.errors import ARGUMENTS, Failure
from irr.rpsl import hashes
from irr.system import files

ENDING = ".password"


def lines_for(folder: str, names: Iterable[str]) -> tuple[dict[str, bytes], int]:
    """An `auth` line for each name, and how many of their passwords are new. A file that an earlier
    import left stays, and its password has the same line as then."""
    place = files.folder(folder, 0o700)
    if place.stat().st_mode & 0o077:
        raise Failure(folder, "others may enter the folder, and it is for passwords; chmod 700 it")
    found: dict[str, bytes] = {}
    count = 0
    with files.locked(place):
        for name in sorted(names):
            path = str(place / f"{name}{ENDING}")
            if not os.path.lexists(path):
                files.put_new(path, hashes.password_line(hashes.new_password()))
                count += 1
            found[name] = auth_of(path)
    return found, count


def auth_of(path: str) -> bytes:
    """The `auth` of the password in a file. Its salt is made of it, so that the same files give the
    same dump: no two passwords of 96 random bits have the same."""
    password = hashes.password_in(files.read(path))
    if not password:
        raise Failure(path, "it has no password of irr import; move it away", ARGUMENTS)
    digest = hashlib.sha256(b"irr import " + password.encode()).hexdigest()
    return hashes.auth_of(password.encode(), digest[: hashes.SALT_LENGTH]).encode()

"""The lines that the door wrote of who did what: of the files of its journal, or of systemd's."""

import os
import subprocess
from collections.abc import Iterator
from pathlib import Path

from irr.door import journal
from irr.errors import Failure, system_words
from irr.system import tomls

UNIT, SETTINGS = "irrdesk-door.service", "/etc/irrdesk/door.toml"


def lines(path: str | None) -> Iterator[bytes]:
    """The lines of the files of a journal: of this one, or of that which the settings of the
    service name; of systemd's where they name none."""
    place = path or str(tomls.parsed(SETTINGS, tomls.text_of(SETTINGS)).get("log", "-"))
    if place == "-":
        yield from lines_of_unit()
        return
    try:
        # Of a folder that nobody else may enter, no file is seen.
        os.listdir(os.path.dirname(place) or ".")
    except PermissionError as error:
        raise Failure(
            place, f"it cannot be read: {system_words(error)}; run this as root"
        ) from None
    except OSError:
        pass
    found = [one for one in journal.files_of(Path(place)) if one.exists()]
    if not found:
        raise Failure(place, "there is no such file; give that of the setting `log`")
    for one in found:
        with open(one, "rb") as file:
            yield from file


def lines_of_unit() -> Iterator[bytes]:
    words = ["journalctl", "--unit", UNIT, "--output", "cat", "--quiet", "--no-pager"]
    try:
        with subprocess.Popen(words, stdout=subprocess.PIPE, stdin=subprocess.DEVNULL) as process:
            assert process.stdout is not None
            yield from process.stdout
    except OSError as error:
        raise Failure(
            "journalctl", f"it cannot be run: {system_words(error)}; give the file by --file FILE"
        ) from None

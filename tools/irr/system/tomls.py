"""Settings in TOML: what a file has, and the same file with other values at some keys, its comments
and all else as they were."""

import json
import re
import tomllib
from typing import Any, Mapping

from irr.errors import SETTINGS, Failure, reading, system_words
from irr.system import files


@reading("a file")
def read(path: str) -> dict[str, Any]:
    """What a file has; a Failure where it is none of TOML."""
    return parsed(path, files.read(path))


def text_of(path: str) -> str:
    """The text of a file; nothing where there is none."""
    try:
        with open(path, encoding="utf-8") as file:
            return file.read()
    except FileNotFoundError:
        return ""
    except OSError as error:
        raise Failure(
            path, f"the settings cannot be read: {system_words(error)}; look at it", SETTINGS
        ) from None
    except ValueError:
        raise Failure(path, "the settings are not UTF-8; correct them", SETTINGS) from None


def written(value: Any) -> str:
    """A word, a number, `true` or `false`, or a list of these, as TOML writes it."""
    if isinstance(value, (list, tuple)):
        return f"[{', '.join(written(one) for one in value)}]"
    return json.dumps(value)


def changed(path: str, text: str, values: Mapping[str, Any]) -> str:
    """A file's text with these values: in the line that has a key now, otherwise in one of its own,
    before the first table."""
    made, found = text, parsed(path, text)
    wanted = {**found, **{key: plain(value) for key, value in values.items()}}
    differ = {key: value for key, value in values.items() if found.get(key) != wanted[key]}
    for key, value in differ.items():
        line = f"{key} = {written(value)}"
        made, count = re.subn(rf"^{re.escape(key)}[ \t]*=.*$", lambda _: line, made, 1, re.M)
        if not count:
            table = re.search(r"^[ \t]*\[", made, re.M)
            before, after = (made[: table.start()], made[table.start() :]) if table else (made, "")
            end = "" if before.endswith("\n") or not before else "\n"
            made = f"{before}{end}{line}\n" + ("\n" if after else "") + after
    if is_read_as(made, wanted):
        return made
    names = ", ".join(f"`{key} = {written(value)}`" for key, value in differ.items())
    raise Failure(path, f"{names} can't be put in; write it there by hand", SETTINGS)


def is_read_as(text: str, wanted: dict[str, Any]) -> bool:
    try:
        return tomllib.loads(text) == wanted
    except (ValueError, RecursionError):
        return False


def plain(value: Any) -> Any:
    return list(value) if isinstance(value, tuple) else value


def parsed(path: str, text: str | bytes) -> dict[str, Any]:
    try:
        return tomllib.loads(text.decode() if isinstance(text, bytes) else text)
    except (ValueError, RecursionError) as error:
        raise Failure(path, f"this is not TOML: {error}; correct it", SETTINGS) from None

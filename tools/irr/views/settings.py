"""The settings of a view, VIEW.toml: its sources in their order, and how it is served."""
import json
from typing import Any, NamedTuple
from urllib.parse import urlsplit

from irr.errors import SETTINGS, Failure
from irr.registry.server import Server
from irr.rpsl import keys
from irr.system import tomls

SCHEMES = ("https", "http", "ftp")
NRTM_PORT = 43


class Source(NamedTuple):
    """A registry that a view has the objects of: its name; the address of an irrdesk, or dumps,
    each a file or an address; where the serial of these stands, and who tells the changes after it
    by NRTM; or the notification file of NRTM, version 4, and its public key; the percentage of its
    objects that it may lose at once."""

    name: str
    registry: str
    dump: tuple[str, ...]
    serial: str
    nrtm: str
    nrtm4: str
    key: str
    plain: bool
    shrink: float

    def place(self) -> tuple[str, int]:
        """The host and the port of `nrtm`."""
        host, mark, port = self.nrtm.rpartition(":")
        if not mark or self.nrtm.endswith("]"):
            host, port = self.nrtm, str(NRTM_PORT)
        return host.strip("[]"), int(port)

    def origin(self) -> str:
        """Where its objects are taken from: what is taken elsewhere is another state."""
        places = [self.registry, self.dump, self.serial, self.nrtm]
        return json.dumps(places + [self.nrtm4] * bool(self.nrtm4))

    def nrtm_version(self) -> int | None:
        """The version of NRTM by which it is followed, if it is."""
        return 4 if self.nrtm4 else 3 if self.nrtm else None

    def is_apart(self) -> bool:
        """Whether it tells each object by itself, whatever stands in its text."""
        return bool(self.registry or self.nrtm4)


class Settings(NamedTuple):
    """A view: its name, which is the `source` of its objects; the folder, the ports and the agent
    of its replicas; ROAs by which invalid routes are left out."""

    name: str
    folder: str
    port: tuple[int, ...]
    agent: int
    every: float
    pause: float
    limit: int
    roas: str
    keep_invalid: bool
    sources: tuple[Source, ...]


# What a view and a source can have, and what is taken where they do not say it; None where they
# have to.
VIEW: dict[str, Any] = {
    "name": None,
    "folder": None,
    "port": [4445],
    "agent": 0,
    "every": 300.0,
    "pause": 12.0,
    "limit": 10_000,
    "roas": "",
    "keep_invalid": False,
}
SOURCE: dict[str, Any] = {
    "name": None,
    "registry": "",
    "dump": [],
    "serial": "",
    "nrtm": "",
    "nrtm4": "",
    "key": "",
    "plain": False,
    "shrink": 10.0,
}
BOUNDS = {
    "agent": (0, 65_535),
    "every": (1, 1e9),
    "pause": (0, 3_600),
    "limit": (1, 1_000_000),
    "shrink": (0, 100),
}


def read(path: str) -> Settings:
    """The settings of a file; a Failure for what is none."""
    found = tomls.read(path)
    listed = found.pop("source", None)
    if (
        not isinstance(listed, list)
        or not listed
        or not all(isinstance(one, dict) for one in listed)
    ):
        raise Failure(path, "it has no source; write a table [[source]] for each", SETTINGS)
    values = checked(path, found, VIEW)
    sources = tuple(
        read_source(f"{path}: source {place}", one) for place, one in enumerate(listed, 1)
    )
    values |= {"name": name_of(path, values["name"]), "sources": sources}
    view = Settings(**values)
    ports = [*view.port, view.agent]
    if not view.port or not all(0 < one < 65_536 for one in view.port):
        raise Failure(path, "`port` lists ports from 1 to 65535; correct it", SETTINGS)
    if len(set(ports)) < len(ports):
        raise Failure(path, "a port appears twice; give each another one", SETTINGS)
    names = [view.name, *(one.name for one in sources)]
    for name in names:
        if names.count(name) > 1:
            raise Failure(path, f"the name {name} appears twice; give each another one", SETTINGS)
    return view


def read_source(thing: str, table: dict[str, Any]) -> Source:
    values = checked(thing, table, SOURCE)
    values["name"] = name_of(thing, values["name"])
    one = Source(**values)
    if sum(map(bool, (one.registry, one.dump, one.nrtm4))) != 1:
        raise Failure(thing, "give it one of `registry`, `dump` and `nrtm4`", SETTINGS)
    if bool(one.nrtm4) != bool(one.key):
        raise Failure(
            thing,
            "`nrtm4` needs `key`, the file of the public key that verifies its signature",
            SETTINGS,
        )
    if one.nrtm4 and (one.serial or one.nrtm):
        raise Failure(thing, "`nrtm4` takes no `serial` and no `nrtm`; leave them out", SETTINGS)
    if one.nrtm and not one.serial:
        raise Failure(thing, "`nrtm` needs `serial`, where the serial of the dump is", SETTINGS)
    if one.nrtm:
        try:
            host, port = one.place()
        except ValueError:
            host, port = "", 0
        if not host or not 0 < port < 65_536:
            raise Failure(thing, "`nrtm` is HOST or HOST:PORT; correct it", SETTINGS)
    if one.registry:
        # It looks at the address, and asks nothing.
        Server(one.registry, True)
    for text in (one.registry, *one.dump, one.serial, one.nrtm4):
        if is_address(text) and not one.plain and not is_safe(text):
            raise Failure(
                thing,
                f"{text} can be changed on the way; take https, or write `plain = true`",
                SETTINGS,
            )
    if one.nrtm and not one.plain and not is_loopback(host):
        raise Failure(
            thing, "NRTM can be changed on the way; leave it out, or write `plain = true`", SETTINGS
        )
    return one


def followed_to(source: dict[str, Any]) -> str:
    """How far a source of a view was followed, in words; nothing where it was not."""
    word = "version" if source.get("nrtm") == 4 else "serial"
    return f"{word} {source['serial']}" if source.get("serial") is not None else ""


def is_address(text: str) -> bool:
    """Whether it is an address, and no file."""
    return text.partition("://")[0] in SCHEMES and "://" in text


def is_safe(url: str) -> bool:
    parts = urlsplit(url)
    return parts.scheme == "https" or is_loopback(parts.hostname or "")


def is_loopback(host: str) -> bool:
    return host in ("localhost", "::1") or (keys.read_address(host) or 0) >> 24 == 127


def name_of(thing: str, text: str) -> str:
    name = keys.read_source(text)
    if name is None:
        raise Failure(thing, f"{text} is not the name of a registry; correct `name`", SETTINGS)
    return name


def checked(thing: str, found: dict[str, Any], known: dict[str, Any]) -> dict[str, Any]:
    """The values of a table, each of the kind that its default has, within its bounds."""
    values: dict[str, Any] = {}
    for name in found:
        if name not in known:
            raise Failure(thing, f"there is no key {name}; see irr-copy(1)", SETTINGS)
    for name, default in known.items():
        if name not in found and default is None:
            raise Failure(thing, f"it has no `{name}`; write one", SETTINGS)
        values[name] = value(f"{thing}: {name}", name, found.get(name, default), default)
    return values


def value(thing: str, name: str, given: Any, default: Any) -> Any:
    if isinstance(default, list):
        listed = given if isinstance(given, list) else [given]
        kind = int if name == "port" else str
        if not all(type(one) is kind and one for one in listed):
            what = "ports, such as [4445, 4446]" if kind is int else "files or addresses"
            raise Failure(thing, f"it takes {what}; correct it", SETTINGS)
        return tuple(listed)
    if isinstance(default, bool):
        if type(given) is not bool:
            raise Failure(thing, "it takes true or false; correct it", SETTINGS)
        return given
    if default is None or isinstance(default, str):
        if not isinstance(given, str) or "\0" in given or default is None and not given:
            raise Failure(thing, "it takes a text; correct it", SETTINGS)
        return given
    low, high = BOUNDS[name]
    if type(given) not in (int, float) or not low <= given <= high:
        raise Failure(thing, f"it takes a number from {low:,} to {high:,.0f}; correct it", SETTINGS)
    return type(default)(given)

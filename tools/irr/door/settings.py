"""The settings of the door: those of `door.toml`, whose keys are the names of the fields, and over
them those of the command line."""

import contextlib
import dataclasses
import ipaddress
from typing import Any, NamedTuple, Union
from urllib.parse import urlsplit

from irr.errors import ARGUMENTS, SETTINGS, Failure
from irr.rpsl import keys
from irr.system import tomls

Network = Union[ipaddress.IPv4Network, ipaddress.IPv6Network]
MEBIBYTE = 1 << 20


class Place(NamedTuple):
    """A numeric address, of version 4 or 6, and a port."""

    host: str
    port: int

    def text(self) -> str:
        return f"[{self.host}]:{self.port}" if ":" in self.host else f"{self.host}:{self.port}"


@dataclasses.dataclass(frozen=True)
class Settings:
    """What an operator can set. Sizes are in bytes, times in seconds."""

    # Where whois, HTTP, and the status for this machine are answered.
    whois: tuple[str, ...] = ("[::]:43",)
    http: tuple[str, ...] = ("127.0.0.1:4380",)
    status: str = "127.0.0.1:4381"
    # The registry, its replicas, and the agent of `irr mirror`, which tells their states, and which
    # replicas there are if none is named.
    registry: str = "http://127.0.0.1:4343"
    replica: tuple[str, ...] = ()
    agent: str = "127.0.0.1:4340"
    # The agents of `irr view`, whose views are asked by their sources, and what is asked by those
    # who name none: the registry, or the view of a name.
    view: tuple[str, ...] = ()
    default: str = ""
    # Addresses of proxies that are believed who their client is, and whether they say it by the
    # PROXY protocol on whois.
    trusted: tuple[str, ...] = ("127.0.0.1/32", "::1/128")
    proxied: bool = False
    # What a client may use of the registry's time: seconds a second, and at once.
    refill: float = 0.5
    burst: float = 3.0
    # Seconds for a request to come, and for its answer to be taken.
    patience: float = 120.0
    connections: int = 1_000
    of_client: int = 50
    largest: int = 32 * MEBIBYTE
    cache: int = 64 * MEBIBYTE
    answers: int = 256 * MEBIBYTE
    keep: float = 60.0
    oldest: float = 600.0
    # A submission: its bytes, its items, and its lines of passwords.
    size: int = 262_144
    items: int = 1_000
    passwords: int = 32
    # Whether a set that reaches one that is not registered is refused by IRRd's questions; else
    # what is missing is skipped.
    strict: bool = False
    # Where a line goes for each item that was submitted: a file, or `-` for standard output. How
    # large the file grows, how many before it are kept, and for how many days.
    log: str = "-"
    log_size: int = 16 * MEBIBYTE
    log_files: int = 20
    log_days: float = 180.0
    # Who may follow the registry by NRTM, and the history whose serials they are told.
    mirrors: tuple[str, ...] = ()
    history: str = "/var/lib/irrdesk-history"


BOUNDS: dict[str, tuple[float, float]] = {
    "refill": (0.001, 1_000),
    "burst": (0.001, 10_000),
    "patience": (1, 3_600),
    "connections": (1, 100_000),
    "of_client": (1, 100_000),
    "largest": (65_536, 1 << 32),
    "cache": (0, 1 << 36),
    "answers": (1 << 20, 1 << 36),
    "keep": (0, 86_400),
    "oldest": (1, 1e9),
    "size": (1, MEBIBYTE),
    "items": (1, 1_000_000),
    "passwords": (1, 1_000_000),
    "log_size": (4_096, 1 << 40),
    "log_files": (0, 10_000),
    "log_days": (0.001, 100_000),
}


def read(path: str | None, given: dict[str, Any]) -> Settings:
    """The settings of a file, if one is named, with what is given beside it; a Failure for what is
    none."""
    values = {} if path is None else tomls.read(path)
    fields = {field.name: field for field in dataclasses.fields(Settings)}
    for name, value in values.items():
        if name not in fields:
            raise Failure(f"{path}: {name}", "there is no such setting; see irr-door(1)", SETTINGS)
        values[name] = checked(f"{path}: {name}", name, value, fields[name].default, SETTINGS)
    for name, value in given.items():
        if value not in (None, []):
            values[name] = checked(f"--{name}", name, value, fields[name].default, ARGUMENTS)
    settings = Settings(**values)
    for name in "whois", "http":
        for text in getattr(settings, name):
            place(text)
    for text in filter(None, (settings.status, settings.agent, *settings.view)):
        place(text)
    for text in (settings.registry, *settings.replica):
        upstream(text)
    networks(settings.trusted, "trusted")
    networks(settings.mirrors, "mirrors")
    return settings


def checked(thing: str, name: str, value: Any, default: Any, status: int) -> Any:
    """A value of the kind that the default has, within its bounds."""
    if isinstance(default, tuple):
        value = [value] if isinstance(value, str) else value
        is_good = isinstance(value, list) and all(isinstance(one, str) for one in value)
        if not is_good:
            raise Failure(thing, 'it takes a list of words, such as ["127.0.0.1:43"]', status)
        return tuple(value)
    if isinstance(default, bool) or isinstance(default, str):
        if type(value) is not type(default):
            wanted = "true or false" if isinstance(default, bool) else "a word"
            raise Failure(thing, f"it takes {wanted}; correct it", status)
        return value
    low, high = BOUNDS[name]
    is_number = isinstance(value, (int, float)) and not isinstance(value, bool)
    is_whole = isinstance(default, int)
    if not is_number or not low <= value <= high or is_whole and value % 1:
        kind = "a whole number" if is_whole else "a number"
        raise Failure(thing, f"it takes {kind} from {low:,g} to {high:,.0f}; correct it", status)
    return type(default)(value)


def place(text: str) -> Place:
    """The place that `ADDRESS:PORT` is; `*` and `localhost` are addresses too."""
    host, _, digits = text.rpartition(":")
    port = keys.read_number(digits, 0, 65_535)
    host = {"localhost": "127.0.0.1", "*": "::"}.get(host, host.strip("[]"))
    try:
        return Place(str(ipaddress.ip_address(host)), port if port is not None else bad_port())
    except ValueError:
        raise Failure(
            text, "this is not a place; write it as ADDRESS:PORT, such as 127.0.0.1:43", SETTINGS
        ) from None


def bad_port() -> int:
    raise ValueError("port")


def upstream(text: str) -> Place:
    """The place of a registry or replica on this machine, which is named as
    `http://ADDRESS:PORT`."""
    try:
        parts = urlsplit(text)
        is_good = parts.scheme == "http" and not parts.path.strip("/") and bool(parts.port)
    except ValueError:
        is_good = False
    if not is_good or "@" in parts.netloc or parts.query or parts.fragment:
        raise Failure(
            text,
            "this is not a registry of this machine; write it as http://127.0.0.1:4343",
            SETTINGS,
        )
    return place(
        f"{parts.hostname}:{parts.port}"
        if ":" not in str(parts.hostname)
        else f"[{parts.hostname}]:{parts.port}"
    )


def networks(texts: tuple[str, ...], name: str) -> tuple[Network, ...]:
    """The networks that these name, each an address or a prefix, of the setting of a name."""
    found: list[Network] = []
    for text in texts:
        try:
            found.append(ipaddress.ip_network(text))
        except ValueError:
            raise Failure(
                text, f"this is not an address or prefix; correct `{name}`", SETTINGS
            ) from None
    return tuple(found)


def is_in(text: str, found: tuple[Network, ...]) -> bool:
    """Whether an address is in one of the networks."""
    try:
        address = ipaddress.ip_address(plain(text).partition("%")[0])
    except ValueError:
        return False
    return any(address in one for one in found if one.version == address.version)


def plain(text: str) -> str:
    """An address as people write it: one of IPv4 may stand as IPv6, as at a socket for both."""
    if text.lower().startswith("::ffff:"):
        with contextlib.suppress(ValueError):
            return str(ipaddress.IPv6Address(text.partition("%")[0]).ipv4_mapped or text)
    return text

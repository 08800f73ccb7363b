"""Several registries by chance, and what a view of them is: from what MIRRORING and MOVING say of
it, and not from the code that is tried."""
import functools
from typing import NamedTuple

from hypothesis import strategies as st

from checks import models, rpsl
from checks.filters import registries
from checks.rpsl import Choices, Object, Prefix, Registry

SOURCES = ("TEST", "RIPE", "RADB")
SCOPES = (*SOURCES, "ARIN")
ANY = ("AS-ANY", "RS-ANY")
Roas = list[tuple[Prefix, int, int]]


class Several(NamedTuple):
    """Registries in their order, and ROAs; none where there are no ROAs. One of them may be an
    irrdesk, by which a route is a member of as-sets too."""

    registries: dict[str, Registry]
    roas: Roas
    irrdesk: str = ""


def several() -> st.SearchStrategy[Several]:
    """Registries of each source, which have keys in common, and ROAs for some of their routes."""
    each = [rpsl.drawn(functools.partial(any_of, name), 900) for name in SOURCES]
    return st.builds(with_roas, st.tuples(*each), rpsl.drawn(lambda chance: chance, 100))


def any_of(name: str, chance: Choices) -> Registry:
    """A registry of a source."""
    held = registries.any_registry(chance).objects
    return Registry(tuple(of_source(chance, name, one) for one in held))


def with_roas(found: tuple[Registry, ...], chance: Choices) -> Several:
    roas: Roas = []
    if chance.one_in(2):
        for one in (held for registry in found for held in registry.of("route")):
            if chance.one_in(3):
                prefix = models.read_prefix(one.values("route")[0])
                roas.append((prefix, prefix[1], int(chance.of(registries.NUMBERS)[2:])))
    return Several(dict(zip(SOURCES, found)), roas)


def of_source(chance: Choices, name: str, held: Object) -> Object:
    """An object as a registry has it, some of whose items name registries."""
    attributes = []
    for attribute, value in held.attributes:
        if attribute in ("members", "member-of"):
            value = ", ".join(scoped(chance, item) for item in value.split(", "))
        attributes.append((attribute, name if attribute == "source" else value))
    return Object((*attributes, ("descr", f"as {name} has it")))


def scoped(chance: Choices, item: str) -> str:
    """A set, of which half have a registry before them."""
    is_set = not models.is_number(item.partition("^")[0]) and not models.is_prefix(item)
    return f"{chance.of(SCOPES)}::{item}" if is_set and chance.one_in(2) else item


def key_of(held: Object) -> tuple[str, str]:
    return held.kind, held.key.upper()


def merged(several: Several) -> Registry:
    """The first object of each key, without routes that are invalid; each item that names a
    registry stands for the set that this registry has in the view, or for nothing."""
    first: dict[tuple[str, str], tuple[str, Object]] = {}
    for name, registry in several.registries.items():
        for held in registry.objects:
            if not is_invalid(held, several.roas):
                first.setdefault(key_of(held), (name, held))
    # A set that an earlier source has too is there by a name of its own, if it is named so.
    waiting, found, apart = [held for _, held in first.values()], [], set[tuple[str, str]]()
    while waiting:
        found.append(waiting.pop())
        _, wanted = unscoped(found[-1], several, first)
        for source, name in wanted - apart:
            apart.add((source, name))
            own = next(
                one
                for one in several.registries[source].objects
                if one.kind in rpsl.SETS and one.key == name
            )
            waiting.append(Object(((own.kind, apart_name(name, source)), *own.attributes[1:])))
    return Registry(tuple(unscoped(joined(held, apart), several, first)[0] for held in found))


def apart_name(name: str, source: str) -> str:
    """The name of a set of a source where an earlier one has it too, which is a set's name still:
    an AS number with letters after it is none."""
    is_number = models.is_number(name.split(":")[-1])
    return name + (":AS-" if "AS-" in name else ":RS-") * is_number + f"--{source}"


def joined(held: Object, apart: set[tuple[str, str]]) -> Object:
    """An object that is a member by reference of sets of its source, by their own names too."""
    source = held.values("source")[0]
    attributes = []
    for attribute, value in held.attributes:
        if attribute == "member-of":
            items = value.split(", ")
            value = ", ".join(
                f"{item}, {apart_name(item, source)}" if (source, item) in apart else item
                for item in items
            )
        attributes.append((attribute, value))
    return Object(tuple(attributes))


def is_invalid(held: Object, roas: Roas) -> bool:
    if held.kind != "route" or not roas:
        return False
    prefix = models.read_prefix(held.values("route")[0])
    return models.validity(prefix, int(held.values("origin")[0][2:]), roas) == "invalid"


def unscoped(
    held: Object, several: Several, first: dict[tuple[str, str], tuple[str, Object]]
) -> tuple[Object, set[tuple[str, str]]]:
    """An object without names of registries, and the sets that it names by their own source."""
    wanted = set()

    def kept(item: str) -> str | None:
        source, mark, name = item.partition("::")
        if not mark:
            return item
        front = name.partition("^")[0]
        if source not in SOURCES or front in ("AS-ANY", "RS-ANY"):
            return None
        owners = [first[kind, front][0] for kind in rpsl.SETS if (kind, front) in first]
        if not owners or owners == [source]:
            return name
        if any((front == one.key) for one in several.registries[source].objects):
            wanted.add((source, front))
            return apart_name(front, source) + name[len(front) :]
        return None

    attributes = []
    for attribute, value in held.attributes:
        is_of_others = held.kind == "route" and held.values("source")[0] != several.irrdesk
        if attribute == "member-of" and is_of_others:
            # Routes are members of route-sets (RFC 2622, 5.2).
            value = ", ".join(item for item in value.split(", ") if "RS-" in item)
        if attribute in ("members", "member-of"):
            value = ", ".join(filter(None, map(kept, value.split(", "))))
        if value:
            attributes.append((attribute, value))
    return Object(tuple(attributes)), wanted


def names(merged_one: Registry) -> list[str]:
    """The names of all sets."""
    return [held.key for held in merged_one.objects if held.kind in rpsl.SETS] + list(ANY)

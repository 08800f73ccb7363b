"""Submissions of chance for a registry of chance: new objects, changes, deletions, and mistakes."""
from hypothesis import strategies as st

from checks import rpsl
from checks.rpsl import Choices, Object, Registry

MOST_ITEMS = 8


def any_item(chance: Choices, registry: Registry) -> str:
    """A paragraph: mostly of an object that is registered, or near one."""
    turn, kind = chance.below(8), chance.of(rpsl.CLASSES)
    held = chance.of(registry.objects)
    if turn == 0:
        return deletion(held)
    if turn == 1:
        return held.text()
    if turn == 2:
        return held.with_last("remarks", chance.of(("changed", "caf\xe9", "a # b"))).text()
    if turn == 3:
        return rpsl.any_near(chance, kind).text()
    if turn == 4 and held.kind != "mntner":
        names = [one.attributes[0][1] for one in registry.of("mntner")]
        return held.without("mnt-by").with_last("mnt-by", chance.of(names)).text()
    if turn == 5:
        return deletion(rpsl.any_object(chance, rpsl.any_key(chance, kind)))
    return rpsl.any_object(chance, rpsl.any_key(chance, kind)).text()


def deletion(held: Object) -> str:
    key = [pair for pair in held.attributes if pair[0] in (held.kind, "origin")]
    return Object((*key, ("delete", "x"))).text()


def any_submission(chance: Choices, registry: Registry) -> tuple[list[str], bytes]:
    """The maintainers whose passwords stand first, and the text."""
    names = chance.distinct([*rpsl.MAINTAINERS, rpsl.ROOT, rpsl.ROOT], 4)
    front = [f"password: {rpsl.password(name)}\n" for name in names]
    items = [any_item(chance, registry) for _ in range(1 + chance.below(MOST_ITEMS))]
    return names, "\n".join([*front, *items]).encode("latin-1")


def any_case() -> st.SearchStrategy[tuple[Registry, list[str], bytes]]:
    """A registry, the maintainers whose passwords a text begins with, and the text."""

    def make(chance: Choices) -> tuple[Registry, list[str], bytes]:
        registry = rpsl.any_registry(chance, 5)
        return registry, *any_submission(chance, registry)

    return rpsl.drawn(make, 1_600)

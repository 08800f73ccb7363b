"""`irr why` by chance: it says yes exactly for what a set stands for, by chains that are there."""

import os
import random

import pytest
from hypothesis import given, settings
from hypothesis import strategies as st

from checks import models, rpsl
from checks.filters import registries
from checks.models import Expansion
from checks.rpsl import Object, Registry, until_seen
from checks.running import Trial
from irr.errors import Failure
from irr.registry.answers import Answer
from irr.registry.references import References, Step
from irr.registry.server import Server
from irr.rpsl import keys
from irr.rpsl.keys import Prefix

LONG = bool(os.environ.get("CHECKS_LONG"))


class Cached:
    """A registry, each of whose answers is asked for once."""

    def __init__(self, place: Server) -> None:
        self.place, self.url = place, place.url
        self.known: dict[tuple[str, ...], Answer] = {}

    def query(self, *words: str) -> Answer:
        if words not in self.known:
            self.known[words] = self.place.query(*words)
        return self.known[words]

    query_surely = query


class Judge:
    """Holds chains against the objects of a registry."""

    def __init__(self, registry: Registry) -> None:
        self.model = Expansion(registry)
        self.objects = {f"{held.kind} {held.key}": held for held in registry.objects}

    def need_real(self, chain: list[Step], prefix: Prefix) -> None:
        """That a chain is one by RFC 2622, with the ranges that it says, and takes the prefix."""
        for step in chain:
            held = self.objects.get(step.name)
            if step.name in ("AS-ANY", "RS-ANY"):
                assert step.maintainers == []
            elif held is None:
                assert step.name.startswith("aut-num ") and step.maintainers is None
            else:
                assert step.maintainers == list(dict.fromkeys(held.items("mnt-by")))
        for step, after in zip(chain, chain[1:]):
            operator = self.need_reference(step, after)
            assert bits(step) == models.operated(operator, bits(after))
        self.need_end(chain[-1])
        node = models.node_of((prefix.first, prefix.length))
        assert bits(chain[0]) >> node & 1

    def need_reference(self, step: Step, after: Step) -> str:
        """That one object refers to the next one as it is said; the operator by which it does."""
        held, next_one = self.objects.get(step.name), self.objects.get(after.name)
        if step.says == "every route":
            assert step.name == "RS-ANY" and after.name.startswith("route ")
        elif step.says == "every aut-num":
            assert step.name == "AS-ANY" and next_one and next_one.kind == "aut-num"
        elif step.says == "origin":
            assert next_one and f"aut-num {next_one.values('origin')[0]}" == step.name
        elif step.says.startswith("mbrs-by-ref: "):
            taker = step.says.split()[1].strip(",")
            assert held and next_one and self.model.joins(next_one, held.key)
            assert taker in held.items("mbrs-by-ref")
            assert taker == "ANY" or taker in next_one.items("mnt-by")
            assert next_one.kind == "route" or (held.kind, next_one.kind) == ("as-set", "aut-num")
        else:
            front, operator = self.listed(held, step)
            assert front == after.name.split(" ")[-1]
            return operator
        return ""

    def need_end(self, last: Step) -> None:
        """That the last object is a route, or a set that lists a range."""
        held = self.objects[last.name]
        if held.kind == "route":
            assert last.says == "" and bits(last) == 1 << route_node(held)
            return
        front, operator = self.listed(held, last)
        node = models.node_of(models.read_prefix(front))
        assert bits(last) == models.operated(operator, 1 << node)

    @staticmethod
    def listed(held: Object | None, step: Step) -> tuple[str, str]:
        """The item that a set lists, and its operator."""
        mark, _, item = step.says.partition(": ")
        assert mark == "members" and held and item in held.items("members")
        front, hat, rest = item.partition("^")
        return front, hat + rest


def route_node(held: Object) -> int:
    return models.node_of(models.read_prefix(held.values("route")[0]))


def bits(step: Step) -> int:
    """What a step's range takes."""
    if step.range is None:
        return 0
    prefix = step.range.prefix
    return models.bits_of([((prefix.first, prefix.length), step.range.low, step.range.high)])


def probes(bits_in: int, chance: random.Random, extra: list[int]) -> list[int]:
    """Prefixes that are in, and not in, and those that objects have."""
    inside = models.nodes_in(bits_in)
    outside = [node for node in models.all_nodes() if not bits_in >> node & 1]
    # The border is where it is decided: prefixes whose half, or whole, is on the other side.
    border = [node for node in inside if not bits_in >> (node // 2) & 1]
    border += [node for node in outside if bits_in >> (node // 2) & 1]
    found = [list_ for list_ in (inside, outside, border, border) if list_]
    return [chance.choice(list_) for list_ in found] + chance.sample(extra, min(2, len(extra)))


def test_yes_exactly_for_what_a_set_has(program: str, trial: Trial) -> None:
    seen = {True: 0, False: 0}

    @settings(max_examples=500 if LONG else 20, deadline=None)
    @given(registries.registries(), st.integers(0, 1 << 32))
    def holds(registry: Registry, seed: int) -> None:
        judge, chance = Judge(registry), random.Random(seed)
        own = [route_node(held) for held in registry.of("route")]
        with registries.served(program, registry) as place:
            cached = Cached(place)
            for name in [*judge.model.sets, "AS-ANY", "RS-ANY"]:
                answer = registries.answered(place.query("prefixes", name).lines())
                for node in probes(answer, chance, own):
                    prefix = Prefix(*models.prefix_of(node))
                    is_in = bool(answer >> node & 1)
                    seen[is_in] += 1
                    references = References(cached, prefix, name)
                    chains = references.chains(10)
                    assert bool(chains.first) == is_in, (prefix.text(), name)
                    for chain in chains.first:
                        judge.need_real(chain, prefix)
                    assert len({tuple(map(str, chain)) for chain in chains.first}) == len(
                        chains.first
                    )
                    assert set(references.missing) <= judge.model.missing(name)

    until_seen(holds, seen, 21, trial.seed)


def test_an_as_has_its_routes(program: str) -> None:
    registry = rpsl.Registry(
        (
            *registries.any_registry(rpsl.Choices(b"")).objects,
            Object(
                (
                    ("route", "10.0.0.0/24"),
                    ("origin", "AS9"),
                    ("mnt-by", "A-MNT"),
                    ("source", "TEST"),
                )
            ),
        )
    )
    with registries.served(program, registry) as place:
        for text, count in ("10.0.0.0/24", 1), ("10.0.0.0/25", 0), ("10.0.1.0/24", 0):
            prefix = keys.read_prefix(text)
            assert prefix
            assert len(References(place, prefix, 9).chains(10).first) == count
        assert prefix
        with pytest.raises(Failure, match="not registered"):
            References(place, prefix, "AS-NOWHERE")

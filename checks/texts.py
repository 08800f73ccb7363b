"""Submissions of chance whose every item changes the rows, and the rows that each front of them
gives."""

import collections
import hashlib
import random
from collections.abc import Iterator

from checks.model.objects import Object, key_of
from checks.model.registry import Registry, Secrets
from checks.model.text import blocks, read
from checks.running import AUTH
from checks.sums import value


def item(name: bytes, key: bytes, extra: bytes = b"", by: bytes = b"ROOT-MNT") -> bytes:
    return b"%s: %s\n%smnt-by: %s\nsource: TEST\n" % (name, key, extra, by)


def changing_items(chance: random.Random, count: int, sizes: list[int]) -> list[bytes]:
    """The paragraphs of a submission in which each item changes the rows, the first of which has
    the root's password. A `descr` of one of the sizes makes objects large and small."""
    texts: list[bytes] = []
    held: list[tuple[bytes, bytes]] = []
    for number in range(4):
        texts.append(item(b"mntner", b"M%d-MNT" % number, b"auth: %s\n" % AUTH.encode()))
    while len(texts) < count:
        number, roll = len(texts), chance.random()
        extra = b"descr: %d %s\n" % (number, b"x" * chance.choice(sizes))
        by = chance.choice([b"ROOT-MNT", b"M0-MNT", b"M1-MNT, M2-MNT", b"M3-MNT, ROOT-MNT"])
        if held and roll < 0.15:
            name, key = held.pop(chance.randrange(len(held)))
            texts.append(b"%s: %s\ndelete: x\n" % (name, key))
        elif held and roll < 0.4:
            name, key = chance.choice(held)
            texts.append(item(name, key, extra, by))
        else:
            held.append(chance.choice(new_keys(number)))
            texts.append(item(*held[-1], extra, by))
    return [b"password: bc\n" + texts[0]] + texts[1:]


def new_keys(number: int) -> list[tuple[bytes, bytes]]:
    return [
        (b"inetnum", b"10.%d.%d.0/24" % divmod(number, 256)),
        (b"aut-num", b"AS%d" % number),
        (b"as-set", b"AS-S%d" % number),
        (b"as-block", b"AS%d - AS%d" % (100_000 + 10 * number, 100_009 + 10 * number)),
    ]


def carried_out(texts: list[bytes]) -> Iterator[Registry]:
    """The registry after each item in turn, from the one that a registry opens with."""
    registry, secrets = Registry(auth=AUTH.encode()), Secrets()
    yield registry
    for text in texts:
        words = registry.item(read(next(blocks(text))), secrets)
        assert words is not None and words.endswith((": added", ": changed", ": deleted")), words
        yield registry


def last_of(texts: list[bytes]) -> Registry:
    """The registry after all items."""
    for registry in carried_out(texts):
        pass
    return registry


def fronts(texts: list[bytes]) -> dict[bytes, list[int]]:
    """The dumps after each front of the items, by their digests: how many items give them, of which
    there may be several."""
    found = collections.defaultdict(list)
    for number, registry in enumerate(carried_out(texts)):
        found[digest(registry.dump())].append(number)
    return dict(found)


def summed_fronts(texts: list[bytes]) -> dict[int, list[int]]:
    """The sums of the registry after each front of the items: how many items give them. Each item
    is taken as carried out, which is quick; that it is, `fronts` shows of fewer."""
    registry = Registry(auth=AUTH.encode())
    total, found = sum(value(held.text) for held in registry.in_order()), collections.defaultdict(
        list
    )
    found[total].append(0)
    for number, text in enumerate(texts, 1):
        attributes = read(next(blocks(text)))
        assert not isinstance(attributes, str), attributes
        own = [(name, lines) for name, lines in attributes if name not in (b"password", b"delete")]
        old = registry.objects.pop(key_of(own).order, None)
        total -= value(old.text) if old else 0
        if all(name != b"delete" for name, _ in attributes):
            new = Object(own, registry.source)
            registry.put(new)
            total += value(new.text)
        found[total].append(number)
    return dict(found)


def digest(text: bytes) -> bytes:
    return hashlib.sha256(text).digest()

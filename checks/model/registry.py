"""Who may register what (RFC 2725, 9), item by item of a submission, and dumps read again."""

from __future__ import annotations

import hashlib
from collections.abc import Iterable
from typing import Any

from .numbers import as_number, prefix_span, set_kind
from .objects import (
    AS_BLOCK,
    AS_SET,
    AUT_NUM,
    INETNUM,
    MNTNER,
    ROUTE,
    ROUTE_SET,
    Key,
    Object,
    Refused,
    key_of,
    read_object,
)
from .text import blocks, read


class Registry:
    """Objects by the order of their keys. It opens with the four objects of the root."""

    def __init__(
        self,
        source: bytes = b"TEST",
        root: bytes = b"ROOT-MNT",
        auth: bytes | None = None,
        empty: bool = False,
    ) -> None:
        self.source = source
        self.objects: dict[Any, Object] = {}
        if not empty:
            end = [(b"mnt-by", [root]), (b"source", [source])]
            for head in [
                [(b"mntner", [root]), (b"auth", [auth])],
                [(b"as-block", [b"AS0 - AS65535"])],
                [(b"as-block", [b"AS65536 - AS4294967295"])],
                [(b"inetnum", [b"0.0.0.0 - 255.255.255.255"])],
            ]:
                self.put(Object(head + end, source))

    def put(self, new: Object) -> None:
        self.objects[new.key.order] = new

    def get(self, number: int, value: bytes | int) -> Object | None:
        return self.objects.get(Key(number, value).order)

    def in_order(self) -> list[Object]:
        return [self.objects[order] for order in sorted(self.objects)]

    def of_class(self, number: int) -> list[Object]:
        return [held for order, held in self.objects.items() if order[0] == number]

    def dump(self, full: bool = True) -> bytes:
        texts = [held.text if full else held.public() for held in self.in_order()]
        return b"".join(text + b"\n" for text in texts) + b"%% end %d\n" % len(texts)

    # Submissions.

    def submit(self, text: bytes) -> list[str]:
        """The lines of the report."""
        lines: list[str] = []
        secrets = Secrets()
        for block in blocks(text):
            words = self.item(read(block), secrets)
            if words:
                lines.append(f"{len(lines) + 1} {words}")
        return lines + [f"% items {len(lines)}"]

    def item(
        self, attributes: list[tuple[bytes, list[bytes]]] | str, secrets: Secrets
    ) -> str | None:
        """What the report says of one paragraph behind its number, or nothing where it has
        passwords alone."""
        if isinstance(attributes, str):
            return f"-: refused {attributes}"
        secrets.add(b" ".join(lines) for name, lines in attributes if name == b"password")
        if all(name == b"password" for name, _ in attributes):
            return None
        own = [(name, lines) for name, lines in attributes if name not in (b"password", b"delete")]
        try:
            key = key_of(own)
        except Refused as refused:
            return f"-: refused {refused}"
        try:
            deleted = any(name == b"delete" for name, _ in attributes)
            outcome = (
                self.delete(key, secrets)
                if deleted
                else self.accept(Object(own, self.source), secrets)
            )
        except Refused as refused:
            outcome = f"refused {refused}"
        return f"{key.report()}: {outcome}"

    def accept(self, new: Object, secrets: Secrets) -> str:
        old = self.objects.get(new.key.order)
        known = {held.key.value for held in self.of_class(MNTNER)} | {
            new.key.value for _ in [0] if new.key.number == MNTNER
        }
        require(new.named() <= known, "E10")
        if old is None:
            self.check_addition(new, secrets)
        else:
            require(self.passes(old.mnt_by, secrets), "E11")
        if old is not None and old.text == new.text:
            return "unchanged"
        self.put(new)
        return "changed" if old else "added"

    def delete(self, key: Key, secrets: Secrets) -> str:
        old = self.objects.get(key.order)
        require(old is not None, "E18")
        require(self.passes(old.mnt_by, secrets), "E11")
        if key.number == MNTNER:
            require(
                not any(
                    key.value in held.named() for held in self.objects.values() if held is not old
                ),
                "E17",
            )
        del self.objects[key.order]
        return "deleted"

    # Authorisation of what is new.

    def passes(self, names: list[bytes], secrets: Secrets, new: Object | None = None) -> bool:
        """Whether a secret fits one of the maintainers; one that is being added counts too."""
        found = [
            new
            if new is not None and new.key.order == Key(MNTNER, name).order
            else self.get(MNTNER, name)
            for name in names
        ]
        return any(secrets.fit(held) for held in found if held)

    def check_addition(self, new: Object, secrets: Secrets) -> None:
        number, value = new.key.number, new.key.value
        require(self.passes(new.mnt_by, secrets, new), "E11")
        if number in (INETNUM, AS_BLOCK):
            require(
                not any(crosses(value, held.key.value) for held in self.of_class(number)), "E16"
            )
            self.require_lower(self.closest(number, value), secrets)
        elif number == AUT_NUM:
            self.require_lower(self.closest(AS_BLOCK, (value, value)), secrets)
        elif number == ROUTE:
            self.check_route(value, secrets)
        elif number in (AS_SET, ROUTE_SET) and b":" in value:
            self.require_lower(self.parent(value.rpartition(b":")[0]), secrets)

    def require_lower(self, cover: Object | None, secrets: Secrets) -> None:
        require(cover is not None, "E12")
        require(self.passes(cover.lower_names(), secrets), "E13")

    def check_route(self, value: tuple[tuple[int, int], int], secrets: Secrets) -> None:
        asked, origin = value
        holder = self.get(AUT_NUM, origin)
        require(holder is not None, "E14")
        require(self.passes(holder.route_names(asked), secrets), "E15")
        covers = self.closest_routes(prefix_span(asked)) or [
            self.closest(INETNUM, prefix_span(asked))
        ]
        require(covers != [None], "E12")
        require(any(self.passes(cover.route_names(asked), secrets) for cover in covers), "E13")

    def closest(self, number: int, span: tuple[int, int]) -> Object:
        """The object with the smallest span that covers this one."""
        covers = [held for held in self.of_class(number) if covers_span(held.key.value, span)]
        return min(covers, key=lambda held: held.key.value[1] - held.key.value[0], default=None)

    def closest_routes(self, span: tuple[int, int]) -> list[Object]:
        covers = [
            held
            for held in self.of_class(ROUTE)
            if covers_span(prefix_span(held.key.value[0]), span)
        ]
        longest = max((held.key.value[0][1] for held in covers), default=None)
        return [held for held in covers if held.key.value[0][1] == longest]

    def parent(self, name: bytes) -> Object | None:
        """What all parts of a set's name but the last name: an aut-num or a set."""
        number = as_number(name)
        if number is not None:
            return self.get(AUT_NUM, number)
        if all(as_number(part) is not None for part in name.split(b":")):
            return None
        return self.get(AS_SET if set_kind(name) == b"AS" else ROUTE_SET, name)


class Secrets:
    """The secrets of a submission so far. What was hashed once is remembered."""

    hashed: dict[bytes, str] = {}

    def __init__(self) -> None:
        self.held: set[bytes] = set()

    def add(self, secrets: Iterable[bytes]) -> None:
        self.held.update(secrets)

    def fit(self, maintainer: Object) -> bool:
        return any(
            self.digest(salt + secret) == digest
            for salt, digest in maintainer.auths
            for secret in self.held
        )

    def digest(self, text: bytes) -> str:
        if text not in self.hashed:
            self.hashed[text] = hashlib.sha256(text).hexdigest()
        return self.hashed[text]


def require(holds: bool, code: str) -> None:
    if not holds:
        raise Refused(code)


def covers_span(wide: tuple[int, int], narrow: tuple[int, int]) -> bool:
    return wide[0] <= narrow[0] and narrow[1] <= wide[1]


def crosses(one: tuple[int, int], other: tuple[int, int]) -> bool:
    meet = one[0] <= other[1] and other[0] <= one[1]
    return meet and not covers_span(one, other) and not covers_span(other, one)


def load(text: bytes, source: bytes) -> Any:
    """The registry of a dump, or the number of the paragraph that is at fault and what is wrong: a
    code, or a word."""
    registry, taken = Registry(source, empty=True), []
    for number, block in enumerate(blocks(text), 1):
        new = read_object(b"".join(block), source)
        if isinstance(new, str):
            return number, new
        taken.append(new)
    for number, new in enumerate(taken, 1):
        if new.key.order in registry.objects:
            return number, "duplicate"
        if new.key.number in (INETNUM, AS_BLOCK):
            if any(
                crosses(new.key.value, held.key.value) for held in registry.of_class(new.key.number)
            ):
                return number, "overlap"
        registry.put(new)
    known = {held.key.value for held in registry.of_class(MNTNER)}
    for number, new in enumerate(taken, 1):
        if not new.named() <= known:
            return number, "unnamed"
    return registry

"""What has to be submitted so that addresses and AS numbers go from one maintainer to another.

A new object is added in the name of the one that hands over, who lacks the other's password, and
then changed to the new maintainer. With each prefix goes the route of exactly it: the closest route
decides about routes inside (RFC 2725, 9.9), so without one the holder of a route above does.
"""
from typing import Iterator, NamedTuple

from irr.errors import ARGUMENTS, Failure
from irr.registry.refusals import Reasons, closest, listed, name_of, span_of
from irr.rpsl import holders, keys
from irr.rpsl.keys import Key, Prefix, Span
from irr.rpsl.syntax import Attribute, Paragraph


class Wanted(NamedTuple):
    """An object: its key, its text if it is registered, and whose password hands it over."""

    key: Key
    registered: Paragraph | None
    holder: str


class Grantor(NamedTuple):
    """What decides about a route: its key, who may add the route below it, and who holds it."""

    key: Key
    names: list[str]
    held_by: list[str]


class Handover:
    """The objects that go to a maintainer, with the password of `holder` alone if one is given."""

    def __init__(self, reasons: Reasons, name: str, holder: str | None) -> None:
        self.reasons, self.name, self.holder = reasons, name, holder
        self.objects: list[Wanted] = []
        # The prefixes whose routes the new maintainer has to register, with the AS number, if any.
        self.left: list[tuple[Prefix, Wanted | None]] = []
        self.noted: list[str] = []

    def add(self, key: Key) -> None:
        """Adds an inetnum or an aut-num; a Failure where it can't be handed over."""
        registered = next(iter(self.reasons.ask(key.query())), None)
        names = holders.by(registered) if registered else self.who_may_add(key)
        if self.name in names and registered:
            self.objects.append(Wanted(key, registered, self.name))
            return
        if self.holder and self.holder not in names:
            raise Failure(
                name_of(key),
                (
                    f"it is held by {', '.join(names)}; they hand it over themselves"
                    if registered
                    else f"what covers it lets only {', '.join(names)} add it"
                ),
                ARGUMENTS,
            )
        self.objects.append(Wanted(key, registered, self.one_of(names)))

    def one_of(self, names: list[str]) -> str:
        """Who hands over of those who may: the new maintainer's password is not at hand."""
        others = [name for name in names if name != self.name]
        return self.holder or (others or names)[0]

    def who_may_add(self, key: Key) -> list[str]:
        """Who may add a new object below the closest one that covers it; a Failure where there is
        none, or where another one crosses it."""
        if key.kind == "aut-num":
            number = keys.read_as(key.text) or 0
            covers = closest(self.reasons.as_blocks(), "as-block", Span(number, number), key)
        else:
            span = keys.read_span(key.text) or Span(0, 0)
            near = [
                other
                for end in span
                for other in self.reasons.ask(f"less {keys.address_text(end)}")
                if other.name == b"inetnum"
            ]
            crossing = [keys.key_of(other) for other in near if span.crosses(span_of(other))]
            if crossing and crossing[0]:
                raise Failure(
                    name_of(key),
                    f"{name_of(crossing[0])} overlaps it; take another range",
                    ARGUMENTS,
                )
            covers = closest(near, "inetnum", span, key)
        if not covers:
            raise Failure(
                name_of(key),
                "nothing covers it, so it can't be registered; register what covers it first",
                ARGUMENTS,
            )
        return holders.lower(covers[0])

    def check_overlaps(self) -> None:
        """A Failure where two of the ranges cross one another."""
        spans = [(thing, span_of_key(thing.key)) for thing in self.of("inetnum")]
        for place, (one, span) in enumerate(spans):
            for other, other_span in spans[:place]:
                if span.crosses(other_span):
                    raise Failure(
                        name_of(one.key),
                        f"it overlaps {name_of(other.key)}; give ranges of which none does",
                        ARGUMENTS,
                    )

    def of(self, kind: str) -> list[Wanted]:
        return [thing for thing in self.objects if thing.key.kind == kind]

    def add_routes(self) -> None:
        """Adds the routes of exactly the prefixes, with the first AS number that is handed over,
        and tells who has to do what for those that can't be added."""
        numbers = self.of("aut-num")
        found: list[Wanted] = []
        for thing in self.of("inetnum"):
            for prefix in span_of_key(thing.key).prefixes():
                exact = self.reasons.ask(f"exact {prefix.text()}")
                routes = [other for other in exact if other.name == b"route"]
                if any(self.name in holders.by(other) for other in routes):
                    continue
                if numbers:
                    found += self.route(prefix, numbers[0], thing, found)
                else:
                    self.left.append((prefix, None))
        self.objects += dict.fromkeys(found)
        for prefix, number in self.left:
            self.note_left(prefix, number)

    def route(
        self, prefix: Prefix, number: Wanted, space: Wanted, before: list[Wanted]
    ) -> list[Wanted]:
        """The route of a prefix, if the one that hands over can add or change it. Those before it
        are added first."""
        key = route_key(prefix, number)
        registered = next(iter(self.reasons.ask(key.query())), None)
        if registered:
            names = holders.by(registered)
            if self.holder and self.holder not in names:
                self.noted.append(f"{name_of(key)} is held by {listed(names)}, who hand it over")
                return []
            return [Wanted(key, registered, self.one_of(names))]
        givers = [self.holder] if self.holder else [space.holder, number.holder]
        given = [giver for giver in dict.fromkeys(givers) if giver != self.name]
        grantors = [self.of_space(prefix, before), self.of_number(prefix, number)]
        if given and all(set(given) & set(grantor.names) for grantor in grantors):
            return [Wanted(key, None, given[0])]
        self.left.append((prefix, number))
        return []

    def note_left(self, prefix: Prefix, number: Wanted | None) -> None:
        """Tells of a route that the new maintainer registers, once all of this is submitted."""
        grantors = [self.of_space(prefix, self.of("route"))]
        if number:
            what = name_of(route_key(prefix, number))
            grantors.append(self.of_number(prefix, number))
            self.noted.append(f"{what}: {self.name} registers it, once this is submitted")
        else:
            what = f"a route {prefix.text()}"
            self.noted.append(
                f"{prefix.text()}: no AS is given, so {self.name} has to register the route of"
                " exactly this prefix at once: until then the holder of a route above decides"
                " about routes inside"
            )
        self.note_grants(grantors, what, prefix)

    def of_space(self, prefix: Prefix, before: list[Wanted]) -> Grantor:
        """What decides about a new route of a prefix by its addresses: the closest route, otherwise
        the closest inetnum. Either may be one that is handed over."""
        near = self.reasons.ask(f"closest {prefix.text()}")
        routes = [other for other in near if other.name == b"route"]
        space = closest_new(self.of("inetnum"), prefix)
        names = [name for other in routes for name in holders.routes(other, prefix)]
        added = closest_new(before, prefix)
        if added and all(size_of(added) <= span_of(other).size for other in routes):
            # One of several of a prefix is enough.
            beside = names if routes and size_of(added) == span_of(routes[0]).size else []
            return Grantor(added.key, [added.holder, *beside], [added.holder])
        if routes:
            handed = {thing.key for thing in before}
            own = next((other for other in routes if self.holder in holders.by(other)), routes[0])
            own = next((other for other in routes if keys.key_of(other) in handed), own)
            return grantor(own, names)
        if space and all(size_of(space) < span_of(other).size for other in near):
            return Grantor(space.key, [space.holder], [space.holder])
        return grantor(near[0], holders.routes(near[0], prefix))

    def of_number(self, prefix: Prefix, number: Wanted) -> Grantor:
        """The same by its origin."""
        if number.registered is None:
            return Grantor(number.key, [number.holder], [number.holder])
        return grantor(number.registered, holders.routes(number.registered, prefix))

    def note_grants(self, grantors: list[Grantor], what: str, prefix: Prefix) -> None:
        """Tells what of it the new maintainer can't do alone, and what mends that."""
        handed = {thing.key for thing in self.objects if self.name not in by_of(thing)}
        for one in grantors:
            if one.key not in handed and self.name not in one.names:
                names = ", ".join(dict.fromkeys([*one.names, f"{self.name} {{{prefix.text()}^+}}"]))
                who = listed(one.held_by)
                who = who if len(one.held_by) == 1 else f"one of {who}"
                self.noted.append(
                    f"{name_of(one.key)} decides about {what}: {who} adds "
                    f"`mnt-routes: {names}` to it"
                )

    def inside(self) -> list[str]:
        """What stands inside already and is somebody else's."""
        found = []
        for thing in self.of("inetnum"):
            span = span_of_key(thing.key)
            for prefix in span.prefixes():
                # What begins before the prefix is in none of those that make up the range.
                across = self.reasons.ask(f"less {keys.address_text(prefix.first)}")
                across = [other for other in across if span.covers(span_of(other))]
                for other in [*across, *self.reasons.ask(f"more {prefix.text()}")]:
                    key, names = keys.key_of(other), holders.by(other)
                    is_handed = any(key == handed.key for handed in self.objects)
                    if key and not is_handed and self.name not in names:
                        found.append(
                            f"inside {thing.key.text}: {name_of(key)} of {', '.join(names)}, "
                            "who keeps it"
                        )
        return list(dict.fromkeys(found))

    def notes(self) -> list[str]:
        """What people have to know beside the text."""
        moved = [thing for thing in self.objects if self.name not in by_of(thing)]
        found = list(dict.fromkeys(self.noted))
        for thing in moved:
            if thing.registered and thing.registered.values(b"auth"):
                found.append(
                    f"{name_of(thing.key)}: its `auth` lines are hidden here; put them in again"
                )
        givers = list(dict.fromkeys(thing.holder for thing in moved))
        if len(givers) > 1:
            found.append(f"it takes a password of each of {', '.join(givers)}")
        elif givers == [self.name]:
            found.append(f"it takes a password of {self.name}, which may add it alone")
        if not moved:
            found.append(f"{self.name} has all of it already")
        return found


def by_of(thing: Wanted) -> list[str]:
    return holders.by(thing.registered) if thing.registered else []


def grantor(paragraph: Paragraph, names: list[str]) -> Grantor:
    key = keys.key_of(paragraph)
    if key is None:
        raise Failure("", "the answer has an object of no class or key of this irr", ARGUMENTS)
    return Grantor(key, list(dict.fromkeys(names)), holders.by(paragraph))


def route_key(prefix: Prefix, number: Wanted) -> Key:
    return Key("route", f"{prefix.text()} {number.key.text}")


def span_of_key(key: Key) -> Span:
    return keys.read_span(key.text.partition(" AS")[0]) or Span(0, 0)


def size_of(thing: Wanted) -> int:
    return span_of_key(thing.key).size


def closest_new(things: list[Wanted], prefix: Prefix) -> Wanted | None:
    """The smallest of those that are added which covers a prefix."""
    covers = [
        thing
        for thing in things
        if thing.registered is None and span_of_key(thing.key).covers(prefix.span())
    ]
    return min(covers, key=size_of) if covers else None


def text_of(handover: Handover, source: str) -> bytes:
    """What is to be submitted: first the new objects, then all in the new maintainer's name."""
    new = [thing for thing in handover.objects if not thing.registered]
    paragraphs = [made(thing.key, thing.holder, source) for thing in new]
    paragraphs += last_steps(handover, source)
    return b"\n".join(paragraph.fitting_text() for paragraph in paragraphs)


def last_steps(handover: Handover, source: str) -> Iterator[Paragraph]:
    """Each object in the name of the one that gets it; its other attributes stay."""
    for thing in handover.objects:
        if thing.registered is None and thing.holder != handover.name:
            yield made(thing.key, handover.name, source)
        elif thing.registered and handover.name not in holders.by(thing.registered):
            yield handed_over(thing.registered, handover.name)


def made(key: Key, name: str, source: str) -> Paragraph:
    """A new object with what it has to have."""
    head = [(key.kind, key.text)]
    if key.kind == "route":
        prefix, origin = key.text.split(" ")
        head = [("route", prefix), ("origin", origin)]
    elif key.kind == "inetnum" and len(span_of_key(key).prefixes()) == 1:
        head = [("inetnum", span_of_key(key).prefixes()[0].text())]
    pairs = [*head, ("mnt-by", name), ("source", source)]
    return Paragraph([Attribute(word.encode(), [value.encode()]) for word, value in pairs])


def handed_over(registered: Paragraph, name: str) -> Paragraph:
    """The registered object with the new maintainer alone in `mnt-by`, and nobody in `mnt-lower`
    and `mnt-routes`."""
    kept, has_new = [], False
    for attribute in registered.attributes:
        if attribute.name == b"mnt-by":
            if not has_new:
                kept.append(Attribute(b"mnt-by", [name.encode()]))
            has_new = True
        elif attribute.name not in (b"mnt-lower", b"mnt-routes"):
            kept.append(attribute)
    return Paragraph(kept)

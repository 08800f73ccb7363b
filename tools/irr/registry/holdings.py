"""Who holds which addresses: inetnums and routes with their maintainers."""
from typing import NamedTuple

from irr.registry.refusals import span_of
from irr.rpsl import holders, keys
from irr.rpsl.keys import Prefix, Span
from irr.rpsl.syntax import Paragraph


class Holding(NamedTuple):
    """An inetnum or a route: its addresses, its class, its key for people, and its maintainers."""

    span: Span
    kind: str
    text: str
    names: tuple[str, ...]

    def order(self) -> tuple[int, int, bool, str]:
        """What covers comes before what it covers, an inetnum before a route of the same
        addresses."""
        return self.span.first, -self.span.last, self.kind == "route", self.text


def holding(paragraph: Paragraph) -> Holding:
    span = span_of(paragraph)
    kind, names = holders.kind(paragraph), tuple(holders.by(paragraph))
    if kind == "route":
        key = keys.key_of(paragraph)
        return Holding(span, kind, key.text if key else "-", names)
    return Holding(span, kind, span_text(span), names)


def span_text(span: Span) -> str:
    """Addresses as a prefix, if they are one."""
    prefixes = span.prefixes()
    return prefixes[0].text() if len(prefixes) == 1 else span.text()


def as_prefixes(span: Span, prefix: Prefix) -> list[Prefix]:
    """The prefixes of a span that lie inside a prefix."""
    limits = prefix.span()
    first, last = max(span.first, limits.first), min(span.last, limits.last)
    return Span(first, last).prefixes() if first <= last else []

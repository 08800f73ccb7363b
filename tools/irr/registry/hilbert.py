"""A map of address space as a picture: a Hilbert curve, on which addresses near one another lie
near one another and each prefix is a square, or two of them."""
import colorsys
from collections import Counter
from html import escape
from typing import Iterator

from irr.registry.holdings import Holding, as_prefixes
from irr.rpsl.keys import Prefix
from irr.terminal import texts

SIDE, MARGIN, LEGEND, LINE = 1024, 40, 320, 22
# So many maintainers have a colour of their own; the others are grey.
MOST_COLOURS = 24
# Labels stand on rectangles of this width at least, in cells of a grid of this size; a place for
# one is looked for in these steps. A letter is so wide beside its height.
SMALLEST_LABEL, CELL, STEP, WIDE = 48, 4, 16, 0.6
GREY, GROUND, INK = "#b8b8b8", "#ffffff", "#1a1a1a"


def picture(top: Prefix, found: list[Holding]) -> str:
    """The map of a prefix, as SVG: each inetnum in the colour of its first maintainer, with routes
    as lines round them."""
    holdings = [one for one in found if one.kind == "inetnum"]
    routes = [one for one in found if one.kind == "route"]
    colours = palette(holdings + routes)
    shapes = [shape for one in holdings for shape in drawn(one, top, colours, False)]
    shapes += [shape for one in routes for shape in drawn(one, top, colours, True)]
    cells = innermost(holdings, top)
    labels = [
        label for number, one in enumerate(holdings) for label in labelled(one, number, top, cells)
    ]
    legend = legend_of(colours, holdings + routes)
    height = max(SIDE + 2 * MARGIN, MARGIN + LINE * (len(colours) + 6))
    width = SIDE + LEGEND + 3 * MARGIN
    return "\n".join(
        [
            (
                f'<svg xmlns="http://www.w3.org/2000/svg" viewBox="0 0 {width} {height}"\n'
                f'width="{width}" height="{height}" font-family="sans-serif" font-size="14">'
            ),
            f"<title>Who holds what below {top.text()}</title>",
            f'<rect width="{width}" height="{height}" fill="{GROUND}"/>',
            f'<text x="{MARGIN}" y="{MARGIN - 14}" font-size="18" fill="{INK}">{top.text()}</text>',
            f'<g transform="translate({MARGIN} {MARGIN})">',
            f'<rect width="{SIDE}" height="{SIDE}" fill="#f2f2f2" stroke="{INK}"/>',
            *shapes,
            *labels,
            "</g>",
            *legend,
            "</svg>",
            "",
        ]
    )


def palette(found: list[Holding]) -> dict[str, str]:
    """A colour for each of the maintainers with the most addresses, as far apart as can be."""
    sizes: Counter[str] = Counter()
    for one in found:
        sizes[one.names[0] if one.names else "-"] += one.span.size
    names = [name for name, _ in sizes.most_common(MOST_COLOURS)]
    colours = {}
    for number, name in enumerate(names):
        # Steps of the golden angle keep neighbours in the list apart; three shades keep hues that
        # meet apart.
        red, green, blue = colorsys.hls_to_rgb(
            number * 0.381966 % 1, (0.74, 0.65, 0.84)[number % 3], 0.62
        )
        colours[name] = f"#{round(red * 255):02x}{round(green * 255):02x}{round(blue * 255):02x}"
    return colours


def box(prefix: Prefix, top: Prefix) -> tuple[float, float, float, float]:
    """Where a prefix lies on the map: x, y, width and height."""
    depth = prefix.length - top.length
    order = (depth + 1) // 2
    cells = 1 << order
    step = SIDE / cells
    place = (
        (prefix.first - top.first) >> 32 - top.length - 2 * order
        if 32 - top.length >= 2 * order
        else (prefix.first - top.first) << 2 * order - 32 + top.length
    )
    corners = [point(order, place)]
    if depth % 2:
        corners.append(point(order, place + 1))
    left, upper = min(x for x, _ in corners), min(y for _, y in corners)
    right, lower = max(x for x, _ in corners) + 1, max(y for _, y in corners) + 1
    return left * step, upper * step, (right - left) * step, (lower - upper) * step


def point(order: int, place: int) -> tuple[int, int]:
    """The cell of the n-th step of a Hilbert curve on 2^order cells a side."""
    x = y = 0
    for level in range(order):
        pair = place >> 2 * level
        right, lower = 1 & pair >> 1, 1 & (pair ^ pair >> 1)
        if not lower:
            if right:
                x, y = (1 << level) - 1 - x, (1 << level) - 1 - y
            x, y = y, x
        x, y = x + (right << level), y + (lower << level)
    return x, y


def drawn(one: Holding, top: Prefix, colours: dict[str, str], is_line: bool) -> list[str]:
    """The rectangles of a holding, each with its words for whoever points at it."""
    colour = colours.get(one.names[0] if one.names else "-", GREY)
    words = escape(texts.shown_line(f"{one.kind} {one.text}: {', '.join(one.names)}"))
    found = []
    for prefix in as_prefixes(one.span, top):
        x, y, width, height = box(prefix, top)
        inset = min(3.0, width / 6) if is_line else 0
        paint = (
            f'fill="none" stroke="{INK}" stroke-width="{min(1.5, width / 8):.2f}"'
            ' stroke-dasharray="4 3"'
            if is_line
            else f'fill="{colour}" stroke="{INK}" stroke-width="{min(0.8, width / 10):.2f}"'
        )
        found.append(
            f'<rect x="{x + inset:.2f}" y="{y + inset:.2f}" width="{width - 2 * inset:.2f}"\n'
            f'height="{height - 2 * inset:.2f}" {paint}>\n<title>{words}</title></rect>'
        )
    return found


def innermost(holdings: list[Holding], top: Prefix) -> dict[tuple[int, int], int]:
    """The number of the holding that is drawn last in each cell of a grid: what has room for a
    label shows there."""
    found = {}
    for number, one in enumerate(holdings):
        for prefix in as_prefixes(one.span, top):
            for cell in cells_of(*box(prefix, top)):
                found[cell] = number
    return found


def cells_of(x: float, y: float, width: float, height: float) -> Iterator[tuple[int, int]]:
    """The cells of the grid that a rectangle meets."""
    for column in range(int(x // CELL), int((x + width - 0.01) // CELL) + 1):
        for row in range(int(y // CELL), int((y + height - 0.01) // CELL) + 1):
            yield column, row


def labelled(
    one: Holding, number: int, top: Prefix, cells: dict[tuple[int, int], int]
) -> list[str]:
    """The name of a holding on its largest rectangle, if that has room that nothing inside
    takes."""
    prefixes = as_prefixes(one.span, top)
    if not prefixes:
        return []
    x, y, width, height = box(min(prefixes, key=lambda prefix: prefix.length), top)
    if width < SMALLEST_LABEL or height < SMALLEST_LABEL / 2:
        return []
    size = max(8, min(13, width / 12))
    room = max(int((width - 12) / (size * WIDE)), 3)
    lines = [
        line if len(line) <= room else line[: room - 1] + "~"
        for line in (one.text, one.names[0] if one.names else "-")
    ]
    wide, high = 12 + size * WIDE * max(map(len, lines)), 8 + size * len(lines)
    for down in range(0, max(int(height - high), 0) + 1, STEP):
        for right in range(0, max(int(width - wide), 0) + 1, STEP):
            if all(
                cells.get(cell) == number
                for cell in cells_of(x + right, y + down, min(wide, width), min(high, height))
            ):
                return [
                    f'<text x="{x + right + 6:.1f}" y="{y + down + 3 + size * (place + 1):.1f}"'
                    f' font-size="{size:.1f}" fill="{INK}"'
                    f' pointer-events="none">{escape(texts.shown_line(line))}</text>'
                    for place, line in enumerate(lines)
                ]
    return []


def legend_of(colours: dict[str, str], found: list[Holding]) -> list[str]:
    """The colours with their maintainers, and what the lines are."""
    left, lines = SIDE + 2 * MARGIN, []
    others = {one.names[0] for one in found if one.names} - set(colours)
    rows = [(colour, name) for name, colour in colours.items()] + (
        [(GREY, f"{len(others)} others")] if others else []
    )
    for number, (colour, name) in enumerate(rows):
        y = MARGIN + LINE * number
        lines.append(
            f'<rect x="{left}" y="{y}" width="16" height="16" fill="{colour}" stroke="{INK}"\n'
            f'stroke-width="0.8"/>\n<text x="{left + 26}" y="{y + 13}"'
            f' fill="{INK}">{escape(texts.shown_line(name))}</text>'
        )
    y = MARGIN + LINE * (len(rows) + 1)
    lines.append(
        f'<rect x="{left}" y="{y}" width="16" height="16" fill="none" stroke="{INK}"\n'
        f'stroke-dasharray="4 3"/>\n<text x="{left + 26}" y="{y + 13}" fill="{INK}">a route</text>'
    )
    return lines

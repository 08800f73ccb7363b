"""Dumps of a view that lack the end which they had."""

import gzip
import shutil

import pytest

from checks.running import expect
from checks.views.test_sources import World, fault, route

ENDS = {
    "line": ("", -20, "ends without the line end that it had"),
    "line in a word": ("", -3, "ends without the line end that it had"),
    "EOF": ("\n# EOF\n", -8, "ends without the `# EOF` that it had"),
    "EOF and line": ("\n#  eof", -30, "ends without the `# EOF` that it had"),
}


@pytest.mark.parametrize("how", ENDS)
def test_a_dump_without_the_end_that_it_had_is_not_taken(world: World, how: str) -> None:
    """As one that is cut off, until it has its end or what it had is removed."""
    end, size, words = ENDS[how]
    name, whole = "/ripe.db.route.gz", "\n".join(world.routes.values()) + end
    world.files.texts[name] = whole.encode()
    expect((world.renew(), world.routes_seen()), (True, 40), "the first time")
    world.routes[40] = route(40)
    for texts in world.routes, {0: route(0, 2, "other")} | world.routes:
        whole = "\n".join(texts.values()) + end
        world.files.texts[name] = whole[:size].encode()
        for _ in range(2):
            expect(world.renew(), False, "a file that is cut")
            expect(words in fault(world), True, fault(world))
        world.files.texts[name] = whole.encode()
        world.renew()
        expect((world.routes_seen(), fault(world)), (41, ""), "once it is whole")
    world.files.texts[name] = "\n".join(world.routes.values()).encode()[:size]
    world.renew()
    shutil.rmtree(fault(world).partition("remove ")[2].partition(" if")[0])
    world.renew()
    expect((world.routes_seen(), fault(world)), (40, ""), "once that is removed")


def test_nothing_shows_that_a_plain_dump_lacks_its_last_lines(world: World) -> None:
    """As VIEWS says; one that is packed has an end."""
    name, whole = "/ripe.db.route.gz", "\n".join(world.routes.values()).encode()
    world.files.texts[name] = whole
    expect((world.renew(), world.routes_seen()), (True, 40), "the first time")
    world.files.texts[name] = gzip.compress(whole)[:-9]
    expect((world.renew(), "it is cut off" in fault(world)), (False, True), fault(world))
    world.files.texts[name] = whole[: whole.rindex(b"\nroute:")]
    expect((world.renew(), world.routes_seen(), fault(world)), (True, 39, ""), "as text")


@pytest.mark.parametrize(
    "ends", [("", "\n"), ("", "# EOF\n"), ("\n", "% EOF"), ("# EOF", "# EOF\n")]
)
def test_a_dump_may_have_an_end_that_it_did_not_have(world: World, ends: tuple[str, str]) -> None:
    """And one that never had an end is taken as it is."""
    for number, end in enumerate([ends[0], *ends], 40):
        world.routes[number] = route(number)
        text = "\n".join(world.routes.values()).removesuffix("\n")
        text += f"\n\n{end}" if "EOF" in end else end
        world.files.texts["/ripe.db.route.gz"] = text.encode()
        expect((world.renew(), fault(world)), (True, ""), f"with {end!r}")


def test_how_a_dump_of_before_ends_is_noted_where_it_was_not(world: World) -> None:
    """As by version 2.3.0."""
    expect(world.renew(), True, "the first time")
    world.view.states["RIPE"]._replace(ends=[]).put()
    expect((world.renew(), fault(world)), (False, ""), "as it was")
    world.files.texts["/ripe.db.route.gz"] = "\n".join(world.routes.values()).encode()[:-3]
    expect((world.renew(), "ends without the line" in fault(world)), (False, True), fault(world))

"""What the page asks goes through the proxies of the examples to the door, and nothing besides."""

import json

import pytest

from checks.door import worlds
from checks.door.opened import Registries
from checks.proxied import Haproxy, Nginx
from checks.running import Each, Trial, expect, needs

KINDS = [
    pytest.param(Nginx, id="nginx", marks=needs("nginx")),
    pytest.param(Haproxy, id="haproxy", marks=needs("haproxy")),
]


@pytest.mark.parametrize("kind", KINDS)
def test_the_door_gets_what_the_page_asks(
    trial: Trial, each: Each, kind: type[Nginx] | type[Haproxy]
) -> None:
    name = kind.__name__.lower()
    with Registries(trial, f"behind-{name}", worlds.DUMP, replicas=0) as registries:
        with kind(trial, name, registries.ports[0], None) as proxy:
            for path in "/why/10.1.2.0%2F24/AS-X", "/why/10.1.2.0/24/AS-X?view=":
                with each(path):
                    status, head, body = proxy.get(path)
                    expect(status, 200, f"{head}: {body!r}")
                    expect("application/json" in head, True, head)
                    expect(json.loads(body)["found"], True, path)
            with each("/about"):
                expect(json.loads(proxy.get("/about")[2])["name"], "TEST", "who it is")
            with each("a query by its source"):
                reply = proxy.get("/views/TEST/query/AS1")
                expect((reply[0], reply[2]), (200, worlds.AS1 + b"\n"), "the reply")
            with each("what the door refuses"):
                for path in "/history/person/X", "/why/10.0.0.0/8/AS-NONE", "/why/x/y":
                    status, _, body = proxy.get(path)
                    expect((status in (400, 404), body[:2]), (True, b"% "), f"{path}: {body!r}")
            with each("what is nobody's"):
                for path in "/abouts", "/why", "/history", "/views":
                    status, _, body = proxy.get(path)
                    expect((status, body[:2] == b"% "), (404, False), f"{path}: {body!r}")


@pytest.mark.parametrize("kind", KINDS)
def test_a_door_that_is_down_is_said_in_a_sentence(
    trial: Trial, each: Each, kind: type[Nginx] | type[Haproxy]
) -> None:
    """That it is no page of the proxy's own, which programs could not read. The page stays."""
    name = f"{kind.__name__.lower()}-down"
    with Registries(trial, f"behind-{name}", worlds.DUMP, replicas=0) as registries:
        with kind(trial, name, registries.ports[0], None) as proxy:
            proxy.door.kill()
            proxy.door.wait()
            replies = [("a query", proxy.get("/query/AS1")), ("a dump", proxy.get("/dump"))]
            replies += [("a submission", proxy.post(b"as-set: AS-X\n"))]
            for what, (status, head, body) in replies:
                with each(what):
                    wanted = (503, b"% the registry does not answer\n")
                    expect((status, body), wanted, f"the reply: {head}")
                    expect("text/plain" in head, True, head)
            with each("the page"):
                expect(proxy.get("/")[0], 200, "the status")

"""Views beside the registry: which of them answers whom who asks by sources."""
import dataclasses
import json
from typing import Any, Optional

from irr.door import upstreams
from irr.door.pool import Pool, Refused
from irr.door.settings import Settings
from irr.door.upstreams import Upstream

SILENT = "the view does not say what it is made of; ask again later"
CHANGING = "its sources change just now"
# Seconds after which it may.
ASK_AGAIN = 2


class ViewPool(Pool):
    """The replicas of a view, of which its agent tells. Clients and memory are those of all."""

    def __init__(self, main: Pool, agent: str) -> None:
        super().__init__(main.watch, dataclasses.replace(main.settings, replica=(), agent=agent))
        self.clients, self.turns.clients = main.clients, main.clients
        self.scheduler = main.scheduler
        self.ledger = main.ledger
        self.ledger.makers.append(self.cache.shrink)
        self.registry.is_up = False
        self.name, self.sources = "", ""

    def all(self) -> list[Upstream]:
        return list(self.replicas)

    def serving(self) -> list[Upstream]:
        """The replicas that answer; if the states of all are old, these."""
        found = [one for one in self.replicas if one.serves(self.settings.oldest)]
        return found or [one for one in self.replicas if one.answers]

    def heard(self, reported: dict[str, Any]) -> None:
        super().heard(reported)
        view = reported["view"]
        self.name = self.source = str(view["name"])
        self.sources = ",".join(str(one["name"]) for one in view["sources"])

    def faults(self) -> list[str]:
        """What is wrong, in lines for people."""
        name = f"view {self.name or (self.agent.text() if self.agent else '')}"
        found = [] if self.answers else [f"{name} does not answer"]
        view = self.reported.get("view", {})
        found += [f"{name}: {line}" for line in view.get("lines", [])]
        found += [f"{name}: {line}" for line in view.get("doubts", [])]
        found += [f"{name}: {line}" for line in upstreams.ahead(self.replicas)]
        return found + upstreams.not_renewed(f"{name} is", self.reported, self.replicas)

    def status(self) -> dict[str, Any]:
        """What is reported of it: its sources, each with its state, and its replicas."""
        return {"serves": self.answers, **self.reported.get("view", {"name": self.name or None})}

    def made_of(self) -> bytes:
        """What everybody may know of what it is made of: the states of its sources, and the ROAs;
        Refused while nobody says so."""
        view = self.reported.get("view", {})
        if not view.get("sources"):
            raise Refused("down", SILENT, ASK_AGAIN)
        sources = [
            {name: one.get(name) for name in ("name", "state", "nrtm", "serial")}
            for one in view.get("sources", [])
        ]
        about = {"name": self.name, "sources": sources, "roas": view.get("roas", "")}
        return json.dumps(about).encode() + b"\n"


class Views:
    """The registry, and the views that are served beside it."""

    def __init__(self, main: Pool, settings: Settings) -> None:
        self.main, self.wanted = main, settings.default.upper()
        self.pools = [ViewPool(main, agent) for agent in settings.view]
        # What nobody serves.
        self.nowhere = ViewPool(main, "")
        for one in (main, *self.pools, self.nowhere):
            one.views = self

    @property
    def all(self) -> list[ViewPool]:
        return [*self.pools, self.nowhere]

    def default(self) -> Pool:
        """What is asked by those who name no source."""
        if not self.wanted:
            return self.main
        return self.chosen(self.wanted) or self.nowhere

    def chosen(self, sources: str) -> Optional[Pool]:
        """What serves these sources in their order, or is the view of this name; None if nothing
        does."""
        words = [one.strip() for one in sources.upper().split(",")]
        names = ",".join(dict.fromkeys(filter(None, words)))
        # A view's name is first: the registry may be one of its ports.
        served: list[tuple[str, Pool]] = [(one.name, one) for one in self.pools]
        served += [(self.main.source, self.main), *((one.sources, one) for one in self.pools)]
        return next((pool for name, pool in served if names and names == name), None)

    def at(self, path: str) -> tuple[Pool, str]:
        """What answers a path of HTTP, and the path there: below `/views/NAME` are `/query/..` and
        `/state` alone."""
        if not path.startswith("/views/"):
            return self.main, path
        name, mark, rest = path[7:].partition("/")
        pool = self.chosen(name)
        is_known = rest.startswith("query/") or rest == "state" and isinstance(pool, ViewPool)
        return (pool, mark + rest) if pool and is_known else (self.nowhere, "")

    def known(self) -> str:
        """What there is, in words."""
        found = [self.main.source] if self.main.source else []
        found += [f"{one.name} ({one.sources or CHANGING})" for one in self.pools if one.name]
        return "there is " + " and ".join(found) if found else "the registry does not answer"

    def faults(self) -> list[str]:
        found = [line for one in self.pools for line in one.faults()]
        if self.wanted and self.default() is self.nowhere:
            found.append(f"`default` is {self.wanted}, and {self.known()}")
        return found


def sources_of(pool: Pool) -> str:
    """The names of what a pool serves."""
    return pool.sources if isinstance(pool, ViewPool) else pool.source


def made_with_roas(pool: Pool) -> str:
    """The name of a view that ROAs have made smaller; nothing for anything else."""
    view = pool.reported.get("view", {}) if isinstance(pool, ViewPool) else {}
    return str(view["name"]) if view.get("roas") else ""

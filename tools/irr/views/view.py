"""A view in a folder: its sources as they were last taken, and what is made of them."""
import json
import shutil
from pathlib import Path
from typing import Any

from irr.errors import Failure
from irr.local import program, tables
from irr.local.databases import Copy
from irr.local.replicas import Made
from irr.rpsl.holders import VIEW_ROOT
from irr.system import files
from irr.terminal import texts
from irr.views import merge, roas, sources
from irr.views.merge import Merge, Outcome
from irr.views.settings import Settings, Source, followed_to
from irr.views.sources import State

# The file that says what a registry is made of.
LABEL = "view.json"


class View:
    """The sources of a view, each with the state that it is in, and those that are tried."""

    def __init__(self, settings: Settings) -> None:
        self.settings, self.folder = settings, Path(settings.folder)
        self.states: dict[str, State] = {}
        # What is new of a source; what shrank too much, and how; why a source is not renewed.
        self.new: dict[str, State] = {}
        self.shrunk: dict[str, tuple[State, str]] = {}
        self.faults: dict[str, str] = {}
        self.outcomes: dict[str, Outcome] = {}
        self.roas: roas.Read | None = None
        # What a registry is made of stands beside it: of that which is served, and of the next one;
        # and of those that were made since, which a replica may have if another one did not start.
        self.label = label_in(self.folder / "made")
        self.next: dict[str, Any] | None = None
        self.others: list[dict[str, Any]] = []
        self.marks = ""
        for one in settings.sources:
            now, before = self.place(one, "now"), self.place(one, "before")
            if before.exists() and not now.exists():
                before.rename(now)
            if state := sources.state_in(now):
                self.states[one.name] = state

    def place(self, source: Source, name: str) -> Path:
        return self.folder / "sources" / source.name / name

    def make(self, work: Path, known: str) -> Made | None:
        """Takes what is new of each source, and makes a registry of all; None if it is as it was.
        Of a source that can't be read, or shrank, what was taken before stays."""
        self.next = None
        for one in self.settings.sources:
            self.renew(one)
        self.roas = self.read_roas()
        if known and self.mark() == self.marks:
            return None
        made = Made(work)
        while True:
            self.need_all()
            merge = Merge(self.settings, self.roas.table() if self.roas else None)
            try:
                merge.read_states(self.wanted())
                outcomes = merge.outcomes()
                if self.refuse_shrunk(outcomes):
                    continue
                with files.written(made.dump, files.PRIVATE) as out:
                    merge.write(out)
                is_new = made.digest() != known
                if is_new:
                    tables.write(made.store, merge.rows())
            finally:
                merge.spool.close()
            break
        self.outcomes, self.next = outcomes, self.label_of()
        if not is_new:
            put_label(self.folder / "made", self.next)
            self.keep()
            return None
        put_label(work, self.next)
        Copy(
            work,
            program.SETTINGS.format(
                source=self.settings.name,
                root=VIEW_ROOT,
                auth=program.AUTH,
                limit=self.settings.limit,
            ),
        )
        self.others.append(self.next)
        return made

    def need_all(self) -> None:
        """That each source was taken at least once."""
        for one in self.settings.sources:
            if one.name not in self.wanted():
                raise Failure(one.name, f"{self.faults[one.name]}; there is no view without it")

    def wanted(self) -> dict[str, State]:
        """The state of each source that is merged, in order."""
        found = self.states | self.new
        return {one.name: found[one.name] for one in self.settings.sources if one.name in found}

    def renew(self, source: Source) -> None:
        """Takes what is new of a source. What shrank before is looked at again once it is another
        one."""
        name = source.name
        old, (last, how) = self.states.get(name), self.shrunk.get(name, (None, ""))
        # What was noted of them, or removed by hand.
        old, last = sources.noted(old), sources.noted(last)
        if old:
            self.states[name] = old
        elif self.states.pop(name, None):
            # What it was too unlike is no longer there.
            self.shrunk.pop(name, None)
            last = None
        self.new.pop(name, None)
        work = self.place(source, "next")
        try:
            state = sources.renewed(source, last or old, work, is_refused=last is not None)
            if last and old and state and state.digests == old.digests:
                # What was there before is there again, and may lead on, unless serials went back.
                last = sources.noted(last)
                if last and last.back:
                    refused = sorted({*old.refused, *last.refused})
                    old.note(is_left=True, back=last.back, refused=refused)
                    old = sources.noted(old)
                self.forget(name)
                last, state = None, sources.renewed(source, old, work)
        except Failure as failure:
            self.faults[name] = str(failure)
            return
        if state is None and last:
            self.faults[name] = how
            return
        self.faults.pop(name, None)
        if state is None:
            if old:
                old.see()
            return
        if last:
            self.forget(name)
        if state.doubt:
            self.faults[name] = state.doubt
        self.new[name] = state._replace(counts=old.counts if old else [])

    def forget(self, name: str) -> None:
        """Removes what shrank too much."""
        last, _ = self.shrunk.pop(name)
        shutil.rmtree(last.folder, ignore_errors=True)

    def refuse_shrunk(self, outcomes: dict[str, Outcome]) -> bool:
        """Takes the old state again of each source that shrank too much, or has nothing. Whether
        there was one."""
        found = False
        for one in self.settings.sources:
            state, old = self.new.get(one.name), self.states.get(one.name)
            if state is None:
                continue
            words = merge.shrank(old.counts if old else [], outcomes[one.name].counts, one.shrink)
            if old and old.origin == state.origin:
                words = words or sources.cut(one, old, state)
            if words:
                kept = self.place(one, "shrunk")
                shutil.rmtree(kept, ignore_errors=True)
                self.new.pop(one.name).folder.rename(kept)
                state = state._replace(folder=kept)
                if old and old.is_left:
                    # What was refused of the source is so still.
                    state.note(is_left=True, refused=sorted({*old.refused, *state.refused}))
                self.shrunk[one.name] = state, words
                self.faults[one.name] = words
                found = True
        return found

    def commit(self) -> None:
        """Keeps what all replicas serve now."""
        self.keep()
        self.others.clear()

    def keep(self) -> None:
        """Keeps what was taken: from then on a source that fails stays so."""
        for one in self.settings.sources:
            state = self.new.pop(one.name, None)
            if state:
                now, before = self.place(one, "now"), self.place(one, "before")
                shutil.rmtree(before, ignore_errors=True)
                if now.exists():
                    now.rename(before)
                state.folder.rename(now)
                shutil.rmtree(before, ignore_errors=True)
                self.states[one.name] = state._replace(folder=now)
            # With what was noted of it since it was read.
            kept = sources.noted(self.states.get(one.name))
            if kept and self.next and one.name in self.outcomes:
                counts = self.outcomes[one.name].counts
                if counts != kept.counts:
                    kept.note(counts=counts)
                self.states[one.name] = kept._replace(counts=counts)
        files.sync_folder(self.folder)
        self.marks = self.mark()
        self.label, self.next = self.next or self.label, None

    def label_of(self) -> dict[str, Any]:
        """What is merged: the states of the sources in their order, and the ROAs by which routes
        are left out."""
        versions = {one.name: one.nrtm_version() for one in self.settings.sources}
        sources = [
            {"name": name, "nrtm": versions[name], "serial": state.serial, "state": state.digest()}
            for name, state in self.wanted().items()
        ]
        # What only counts leaves nothing out.
        made_by = self.roas.state() if self.roas and not self.settings.keep_invalid else ""
        return {"name": self.settings.name, "sources": sources, "roas": made_by}

    def mark(self) -> str:
        """What a merge is made of."""
        found = sorted(self.roas.roas) if self.roas else None
        return json.dumps([[name, one.mark()] for name, one in self.wanted().items()] + [found])

    def read_roas(self) -> roas.Read | None:
        path = self.settings.roas
        return roas.read(files.read(path), path) if path else None

    def status(self) -> dict[str, Any]:
        """What a door is told of what is served: its sources, since when each stands still, and
        why."""
        label = self.label or self.unknown()
        for other in self.others:
            label = between(label, other)
        return {
            "view": {
                **label,
                "doubts": self.roas.doubts if self.roas else [],
                "lines": self.lines(),
                "sources": [one | self.status_of(one) for one in label["sources"]],
            }
        }

    def unknown(self) -> dict[str, Any]:
        """What is told of what does not say what it is made of, as that of version 2.0.0, and
        before there is anything."""
        names = (one.name for one in self.settings.sources)
        sources = [
            {"name": name, "nrtm": None, "serial": None, "state": "unknown"} for name in names
        ]
        return {"name": self.settings.name, "sources": sources, "roas": ""}

    def status_of(self, source: dict[str, Any]) -> dict[str, Any]:
        """What else is told of a source of what is served, which has one state of it."""
        name = source["name"]
        found: dict[str, Any] = {"fault": self.faults.get(name, "")}
        state = self.states.get(name)
        if state and state.digest() == source["state"]:
            found["seen"] = state.seen()
        if name in self.outcomes:
            found |= self.outcomes[name]._asdict()
        return found

    def outcome(self) -> list[str]:
        """What became of each source, in lines for people."""
        made_of = {one["name"]: one for one in self.label["sources"]}
        return [outcome.line(name) + by(made_of[name]) for name, outcome in self.outcomes.items()]

    def lines(self) -> list[str]:
        """The sources that stand still, in lines for people."""
        return [
            f"{name} is not renewed{since(self.states.get(name))}: {texts.shown_line(fault)}"
            for name, fault in self.faults.items()
        ]


def label_in(made: Path) -> dict[str, Any]:
    """What a registry in a folder is made of; nothing where it does not say so."""
    try:
        found: dict[str, Any] = json.loads((made / LABEL).read_bytes())
    except FileNotFoundError:
        return {}
    return found


def between(old: dict[str, Any], new: dict[str, Any]) -> dict[str, Any]:
    """What is told while one replica after the other is started on what was made: an answer is of
    one of the two. It has no sources where these are of others, or in another order."""
    others = {one["name"]: one["state"] for one in new["sources"]}
    if [one["name"] for one in old["sources"]] != list(others):
        return {**old, "sources": []}

    def either(one: str, other: str) -> str:
        words = one or "none", other or "none"
        return one if words[1] in words[0].split(" or ") else " or ".join(words)

    sources = []
    for one in old["sources"]:
        state = either(one["state"], others[one["name"]])
        serial = one["serial"] if state == one["state"] else None
        sources.append({**one, "serial": serial, "state": state})
    return {**old, "sources": sources, "roas": either(old["roas"], new["roas"])}


def put_label(made: Path, label: dict[str, Any]) -> None:
    files.put(made / LABEL, json.dumps(label).encode(), files.PRIVATE)


def by(source: dict[str, Any]) -> str:
    """Words for how a source was followed, if it was."""
    count = followed_to(source)
    return f"; {count} of NRTM version {source['nrtm']}" if count and source.get("nrtm") else ""


def since(state: State | None) -> str:
    return texts.since([state.seen()]) if state else ""

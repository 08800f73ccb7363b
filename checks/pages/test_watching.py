"""What docs/WATCHING.md, the alerts and the dashboard name is what the code has, and all of it."""

import json
import re
from types import SimpleNamespace
from typing import Any

import pytest

from checks.pages.text import TOP, text_of
from irr.door.status import Counters, Status
from irr.local.health import CASES, REMEDIES, Bounds, Health, Places

PAGE, ALERTS, DASHBOARD = "docs/WATCHING.md", "examples/alerts.yml", "examples/dashboard.json"
FIGURE = re.compile(r"\birrdesk_[a-z_]+")
SELECTOR = re.compile(r"(irrdesk_[a-z_]+)\{([^}]*)\}")
# A rule: its lines, each once and in this order.
RULE = re.compile(
    r"      - alert: ([A-Z][A-Za-z]+)\n"
    r"        expr: (\S.*)\n"
    r"(?:        for: [0-9]+[mh]\n)?"
    r'        annotations: \{summary: "[^"\n]+"\}\n'
)
GROUP = re.compile(r"  - name: [a-z-]+\n    rules:\n")


def door_metrics() -> str:
    """The figures of a door that has counted one of each kind."""
    counters = Counters()
    counters.query("plain", "answered")
    counters.connection("whois")
    counters.submissions["added"] += 1
    one = SimpleNamespace(
        place=SimpleNamespace(text=lambda: "127.0.0.1:4343"),
        age=lambda: 1.0,
        is_up=True,
        seconds=1.0,
    )
    # What a pool tells of itself.
    pool: Any = SimpleNamespace(
        all=lambda: [one],
        seconds={"exact": 1.0},
        refused={"busy": 1},
        turns=SimpleNamespace(count=0),
        cache=SimpleNamespace(size=0, hits=0),
        ledger=SimpleNamespace(used=0),
        mirrors=SimpleNamespace(last=lambda: 0),
        reported={},
    )
    settings: Any = SimpleNamespace()
    return Status(settings, pool, counters, lambda: 0, lambda: 0).metrics().decode()


def figures() -> dict[str, set[str]]:
    """The figures that there are, each with its labels."""
    text = door_metrics() + Health(Places(), Bounds(), {}).metrics()
    found: dict[str, set[str]] = {name: set() for name in re.findall(r"^# TYPE (\S+)", text, re.M)}
    for name, labels in SELECTOR.findall(text):
        found[name].update(re.findall(r"(\w+)=", labels))
    return found


def rows(heading: str, cells: int) -> list[list[str]]:
    """The rows of the tables below a heading of the page, but for their heads."""
    section = text_of(PAGE).partition(f"\n## {heading}\n")[2].partition("\n## ")[0]
    lines = [line for line in section.splitlines() if line.startswith("| ")]
    parts = [[cell.strip() for cell in line.strip("|").split("|")] for line in lines]
    return [part for part in parts if len(part) == cells and part[0].startswith("`")]


def rules() -> dict[str, str]:
    """The alerts, each with its expression."""
    return dict(RULE.findall(text_of(ALERTS)))


def expressions() -> list[str]:
    """What alerts and the dashboard ask Prometheus."""
    shown = json.loads(text_of(DASHBOARD))
    asked = [target["expr"] for panel in shown["panels"] for target in panel["targets"]]
    return [*rules().values(), *asked]


def test_the_page_has_each_figure_with_its_labels_and_no_other() -> None:
    found = {
        row[0].strip("`"): set(re.findall(r"`(\w+)`", row[1]))
        for heading in ("irr check", "Figures of the door")
        for row in rows(heading, 3)
        if row[0].startswith("`irrdesk_")
    }
    assert found == figures()
    assert set(FIGURE.findall(text_of(PAGE))) == set(found)


def test_the_page_has_each_fault_of_the_check_with_its_remedy() -> None:
    found = {
        row[0].strip("`"): row[2] for row in rows("irr check", 3) if not FIGURE.match(row[0][1:])
    }
    cases = {word: f"; {case}, {remedy}" for word, (case, remedy) in CASES.items()}
    assert found == {word: remedy + cases.get(word, "") for word, remedy in REMEDIES.items()}


def test_the_page_names_only_bounds_that_there_are() -> None:
    named = {
        word
        for row in rows("irr check", 3)
        for word in re.findall(r"`([a-z_]+)`", row[1])
        if "_" in word
    }
    assert named <= set(vars(Bounds())), named


def test_the_page_has_each_alert_and_no_other() -> None:
    assert [row[0].strip("`") for row in rows("Alerts", 3)] == list(rules())


def test_the_page_has_each_unit_and_no_other() -> None:
    named = [word for row in rows("Units", 3) for word in re.findall(r"`([^`]+)`", row[0])]
    assert sorted(named) == sorted(path.name for path in (TOP / "units").glob("irrdesk*.*"))


def test_the_alerts_are_rules_and_nothing_else() -> None:
    """That the file is its groups and rules as they are written here, which is YAML."""
    text = re.sub(r"^#.*\n", "", text_of(ALERTS), flags=re.M)
    assert text.startswith("groups:\n")
    rest = GROUP.sub("", RULE.sub("", text.removeprefix("groups:\n")))
    assert not rest
    assert len(RULE.findall(text)) == len(rules()) > 5


@pytest.mark.parametrize("expression", expressions())
def test_an_expression_asks_for_figures_and_labels_that_there_are(expression: str) -> None:
    known = figures()
    named = FIGURE.findall(expression)
    assert named and not set(named) - set(known)
    for name, labels in SELECTOR.findall(expression):
        assert set(re.findall(r"(\w+)[=!]", labels)) <= known[name]
    of_all = set().union(*(known[name] for name in named))
    for labels in re.findall(r"\bby \(([^)]*)\)", expression):
        assert {label.strip() for label in labels.split(",")} <= of_all
    for opening, closing in ("(", ")"), ("[", "]"), ("{", "}"):
        assert expression.count(opening) == expression.count(closing)


def test_a_rate_is_of_what_only_grows() -> None:
    bad = [
        expression
        for expression in expressions()
        for name in re.findall(r"(?:rate|increase)\((irrdesk_[a-z_]+)", expression)
        if not name.endswith("_total")
    ]
    assert not bad


def test_legends_and_summaries_name_labels_that_there_are() -> None:
    shown = json.loads(text_of(DASHBOARD))
    known = figures()
    for panel in shown["panels"]:
        for target in panel["targets"]:
            labels = set().union(*(known[name] for name in FIGURE.findall(target["expr"])))
            assert set(re.findall(r"\{\{(\w+)\}\}", target["legendFormat"])) <= labels
    for rule in RULE.finditer(text_of(ALERTS)):
        labels = set().union(*(known[name] for name in FIGURE.findall(rule[2])))
        assert set(re.findall(r"\$labels\.(\w+)", rule[0])) <= labels, rule[1]


def test_alerts_look_for_words_that_the_door_counts() -> None:
    """That each reason of a refusal which an alert or the page names is one of the code."""
    code = "".join(path.read_text("utf-8") for path in (TOP / "tools/irr/door").glob("*.py"))
    # What the page asks wrongly is no query that is refused.
    words = set(re.findall(r'Refused\(\s*"(\w+)"', code)) - {"bad", "nothing"}
    named = re.findall(r'why=~"([^"]+)"', text_of(ALERTS))
    assert named and not {word for one in named for word in one.split("|")} - words
    row = next(row for row in rows("Figures of the door", 3) if "refused_total" in row[0])
    assert set(re.findall(r"`(\w+)`", row[2])) == words


def test_the_dashboard_shows_each_figure() -> None:
    shown = json.loads(text_of(DASHBOARD))
    asked = [target["expr"] for panel in shown["panels"] for target in panel["targets"]]
    assert {name for one in asked for name in FIGURE.findall(one)} == set(figures())
    numbers = [panel["id"] for panel in shown["panels"]]
    assert len(set(numbers)) == len(numbers)

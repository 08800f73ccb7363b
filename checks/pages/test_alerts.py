"""What Prometheus makes of the alerts and the dashboard: each alert comes of its fault, alone."""

import json
import re
import shutil
import subprocess
from pathlib import Path

import pytest

from checks.pages.test_watching import door_metrics, rules
from checks.pages.text import TOP, text_of
from checks.running import expect
from irr.local.health import Bounds, Health, Places

ALERTS, DASHBOARD = TOP / "examples/alerts.yml", "examples/dashboard.json"
MINUTES = 90
# What Prometheus reads from a registry to which nothing happens, minute by minute, at the bounds.
WELL = {
    'irrdesk_door_upstream_up{upstream="a"}': "1",
    'irrdesk_door_upstream_up{upstream="b"}': "1",
    'irrdesk_door_upstream_age_seconds{upstream="a"}': "600",
    "irrdesk_door_renewal_failed": "0",
    'irrdesk_door_refused_total{why="busy"}': "0+5",
    "irrdesk_door_waiting": "50",
    "irrdesk_door_submissions_waiting": "20",
    "irrdesk_door_connections": "900",
    'irrdesk_door_submissions_total{outcome="E91"}': "7",
    "irrdesk_door_faults_total": "7",
    'irrdesk_check_faults{check="port"}': "0",
    "irrdesk_check_time_seconds": "0+60",
}
# A fault: what is read otherwise (None: nothing is), and the alerts that come of it.
FAULTS: list[tuple[dict[str, str | None], set[str]]] = [
    ({}, set()),
    ({'irrdesk_door_upstream_up{upstream="a"}': "0"}, {"UpstreamDown"}),
    (
        {f'irrdesk_door_upstream_up{{upstream="{name}"}}': "0" for name in "ab"},
        {"RegistryDown", "UpstreamDown"},
    ),
    ({f'irrdesk_door_upstream_up{{upstream="{name}"}}': None for name in "ab"}, {"RegistryDown"}),
    ({'irrdesk_door_upstream_age_seconds{upstream="a"}': "601"}, {"ReplicaOld"}),
    ({"irrdesk_door_renewal_failed": "1"}, {"RenewalFailed"}),
    *(
        ({f'irrdesk_door_refused_total{{why="{why}"}}': "0+12"}, {"ClientsRefused"})
        for why in ("busy", "full", "down")
    ),
    ({'irrdesk_door_refused_total{why="budget"}': "0+12"}, set()),
    ({"irrdesk_door_waiting": "51"}, {"QueriesWait"}),
    ({"irrdesk_door_submissions_waiting": "21"}, {"SubmissionsWait"}),
    ({"irrdesk_door_connections": "901"}, {"DoorFull"}),
    ({'irrdesk_door_submissions_total{outcome="E91"}': "0+1"}, {"DatabaseFailed"}),
    ({'irrdesk_door_submissions_total{outcome="E13"}': "0+1"}, set()),
    ({"irrdesk_door_faults_total": "0+1"}, {"DoorFault"}),
    ({'irrdesk_check_faults{check="port"}': "1"}, {"CheckFault"}),
    ({"irrdesk_check_time_seconds": "0"}, {"CheckSilent"}),
    ({"irrdesk_check_time_seconds": None}, {"CheckSilent"}),
]


def promtool(*words: str | Path, given: str = "") -> None:
    """Runs Prometheus's tool, which says nothing on errors where all is well."""
    path = shutil.which("promtool")
    if path is None:
        pytest.skip("promtool is not here")
    made = subprocess.run([path, *words], input=given, capture_output=True, text=True, check=False)
    expect((made.returncode, made.stderr.strip()), (0, ""), f"{made.stdout}promtool {words}")


def story(changed: dict[str, str | None], alerts: set[str]) -> dict[str, object]:
    """What is read, and what has to come of it, in the words of `promtool test rules`."""
    read = {name: value for name, value in {**WELL, **changed}.items() if value is not None}
    return {
        "interval": "1m",
        "input_series": [
            {"series": name, "values": f"{value}x{MINUTES}"} for name, value in read.items()
        ],
        "promql_expr_test": [
            {
                "expr": 'group by (alertname) (ALERTS{alertstate="firing"})',
                "eval_time": f"{MINUTES}m",
                "exp_samples": [
                    {"labels": f'{{alertname="{name}"}}', "value": 1} for name in sorted(alerts)
                ],
            }
        ],
    }


def test_prometheus_reads_the_alerts() -> None:
    promtool("check", "rules", ALERTS)


def test_prometheus_reads_the_settings_of_the_page(tmp_path: Path) -> None:
    (tmp_path / "prometheus.yml").write_text(
        text_of("docs/WATCHING.md").partition("```yaml\n")[2].partition("```")[0], "utf-8"
    )
    shutil.copy(ALERTS, tmp_path)
    promtool("check", "config", tmp_path / "prometheus.yml")


def test_prometheus_reads_the_figures_of_the_door_and_of_the_check() -> None:
    promtool("check", "metrics", given=door_metrics())
    promtool("check", "metrics", given=Health(Places(), Bounds(), {}).metrics())


@pytest.mark.parametrize("changed, alerts", FAULTS)
def test_each_fault_raises_its_alerts_and_no_other(
    changed: dict[str, str | None], alerts: set[str], tmp_path: Path
) -> None:
    path = tmp_path / "story.yml"
    made = {"rule_files": [str(ALERTS)], "evaluation_interval": "1m"}
    path.write_text(json.dumps({**made, "tests": [story(changed, alerts)]}), "utf-8")
    promtool("test", "rules", path)


def test_each_alert_has_its_fault() -> None:
    assert set(rules()) == set().union(*(alerts for _, alerts in FAULTS))


def test_prometheus_reads_what_the_dashboard_asks(tmp_path: Path) -> None:
    panels = json.loads(text_of(DASHBOARD))["panels"]
    asked = [target["expr"] for panel in panels for target in panel["targets"]]
    read = [
        {"record": f"asked:{number}", "expr": re.sub(r"\$__rate_interval", "5m", one)}
        for number, one in enumerate(asked)
    ]
    path = tmp_path / "asked.yml"
    path.write_text(json.dumps({"groups": [{"name": "asked", "rules": read}]}), "utf-8")
    promtool("check", "rules", path)

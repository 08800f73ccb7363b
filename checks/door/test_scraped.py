"""The dashboard over a door that Prometheus scrapes, beside the file of `irr check`: each panel has
figures, and they are those of what was done."""

import contextlib
import json
import os
import subprocess
import time
import urllib.parse
import urllib.request
from pathlib import Path
from typing import Any

from checks.door import worlds
from checks.door.opened import PYTHON, Opened, Registries, wait_until
from checks.pages.test_alerts import ALERTS
from checks.pages.text import text_of
from checks.running import TOP, Failure, Tell, Trial, expect, needs
from checks.serving import free_port
from checks.worlds import answering

IN_MEMORY = True
pytestmark = needs("prometheus")
SETTINGS = """
global: {{scrape_interval: 1s, evaluation_interval: 1s}}
rule_files: [{rules}]
scrape_configs:
  - job_name: door
    static_configs: [{{targets: ["127.0.0.1:{door}"]}}]
  - job_name: node
    metrics_path: /irrdesk.prom
    static_configs: [{{targets: ["127.0.0.1:{node}"]}}]
"""
# Seconds for which it is scraped, over which rates are taken.
WINDOW = 15


class Prometheus:
    """A Prometheus that scrapes, and what it is asked."""

    def __init__(self, folder: str, door: int, node: int) -> None:
        self.port, self.folder = free_port(), folder
        path = Path(folder, "prometheus.yml")
        path.write_text(SETTINGS.format(rules=ALERTS, door=door, node=node), "utf-8")
        with open(Path(folder, "reported"), "wb") as reported:
            self.process = subprocess.Popen(
                [
                    "prometheus",
                    f"--config.file={path}",
                    f"--storage.tsdb.path={folder}/data",
                    f"--web.listen-address=127.0.0.1:{self.port}",
                ],
                stdin=subprocess.DEVNULL,
                stdout=reported,
                stderr=reported,
            )

    def ask(self, expression: str) -> list[dict[str, Any]]:
        """The rows of an answer."""
        query = urllib.parse.urlencode({"query": expression})
        plain = urllib.request.build_opener(urllib.request.ProxyHandler({}))
        with plain.open(f"http://127.0.0.1:{self.port}/api/v1/query?{query}", timeout=30) as reply:
            told = json.load(reply)
        if told["status"] != "success":
            raise Failure(f"{expression}: {told}")
        return list(told["data"]["result"])

    def value(self, expression: str) -> float:
        """That of an answer of one row."""
        rows = self.ask(expression)
        expect(len(rows), 1, f"rows of {expression}")
        return float(rows[0]["value"][1])

    def has(self, expression: str) -> bool:
        """Whether there is an answer by now, also while it is starting."""
        with contextlib.suppress(OSError):
            return bool(self.ask(expression))
        return False

    def end(self) -> None:
        self.process.terminate()
        self.process.wait()


def agent(port: int) -> bytes:
    """What the agent of a mirror tells of one replica."""
    one = {"port": port, "ready": True, "state": "0", "seen": time.time()}
    return json.dumps({"replicas": [one], "fault": ""}).encode() + b"\n"


def asked(door: Opened) -> None:
    """Queries of each dialect, and an item of each outcome."""
    for line in "AS1", "-T aut-num AS1", "!gAS1", "!a", "AS9", "prefixes AS-X", "prefixes AS-X":
        door.whois(line)
    text = "password: bc\n\nas-set: AS-{}\nmnt-by: ROOT-MNT\nsource: TEST\n"
    door.submit(text.format(f"NEW{time.monotonic_ns()}"))
    door.submit(text.replace("bc", "no").format("ELSE"))


def test_each_panel_of_the_dashboard_has_its_figures(trial: Trial, tell: Tell) -> None:
    folder = trial.place("prometheus")
    node = trial.place("prometheus/node")
    panels = json.loads(text_of("examples/dashboard.json"))["panels"]
    with contextlib.ExitStack() as stack:
        registries = stack.enter_context(Registries(trial, "dashboard", worlds.DUMP, replicas=1))
        told = stack.enter_context(answering(agent(registries.ports[1])))
        words = [registries.words[0], f"--agent={told.removeprefix('http://')}"]
        door = stack.enter_context(Opened(trial, "dashboard-door", words))
        # A check that finds a fault, and one by one the ports of this trial.
        closed = f"http://127.0.0.1:{free_port()}/query/ROOT-MNT"
        words = ["check", "--url", closed, "--door", f"127.0.0.1:{door.status_port}"]
        words += ["--backups", folder, "--history", folder, "--metrics", f"{node}/irrdesk.prom"]
        made = subprocess.run(
            [PYTHON, "-m", "irr", *words],
            env=os.environ | {"PYTHONPATH": os.path.join(TOP, "tools")},
            capture_output=True,
            check=False,
        )
        expect(made.returncode, 1, f"the status of the check: {made.stderr!r}")
        figures = Path(node, "irrdesk.prom").read_bytes()
        head = b"HTTP/1.1 200 OK\r\nContent-Type: text/plain\r\nContent-Length: %d\r\n\r\n"
        file = stack.enter_context(answering(head % len(figures) + figures))
        prometheus = Prometheus(folder, door.status_port, int(file.rpartition(":")[2]))
        stack.callback(prometheus.end)
        wait_until("a scrape", 60, lambda: prometheus.has('up{job="door"} == 1'))
        for number in 0, 1:
            registries.kill(number)
        refused = door.whois("AS1")
        expect(
            refused.startswith(b"%"), True, f"what is answered while nobody is there: {refused!r}"
        )
        for number in 0, 1:
            registries.start(number)
        end = time.monotonic() + WINDOW
        while time.monotonic() < end:
            asked(door)
            time.sleep(0.5)
        wait_until("a scrape", 60, lambda: prometheus.has('up{job="node"} == 1'))
        time.sleep(2)
        empty = []
        for panel in panels:
            for target in panel["targets"]:
                expression = target["expr"].replace("$__rate_interval", f"{2 * WINDOW}s")
                if not prometheus.ask(expression):
                    empty.append(f"{panel['title']}: {expression}")
        expect(empty, [], "panels without figures")
        rate = f"[{2 * WINDOW}s]"
        for expression in [
            f'sum(rate(irrdesk_door_queries_total{{outcome="answered"}}{rate}))',
            f'sum(rate(irrdesk_door_submissions_total{{outcome="added"}}{rate}))',
            f'sum(rate(irrdesk_door_submissions_total{{outcome="E11"}}{rate}))',
            f"sum(rate(irrdesk_door_upstream_seconds_total{rate}))",
            f'sum(increase(irrdesk_door_refused_total{{why="down"}}{rate}))',
            "sum(irrdesk_check_faults)",
        ]:
            expect(prometheus.value(expression) > 0, True, expression)
        expect(prometheus.value("sum(irrdesk_door_upstream_up)"), 2.0, "upstreams that answer")
        expect(prometheus.value("time() - irrdesk_check_time_seconds") < 900, True, "its age")
        names = {row["metric"]["alertname"] for row in prometheus.ask("ALERTS")}
        expect("CheckFault" in names, True, f"the alerts that begin: {names}")
    tell(f"{len(panels)} panels")

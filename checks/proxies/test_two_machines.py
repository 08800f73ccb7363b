"""A replica on another machine, reached through a door of its own."""

import contextlib
import functools
import json
import os
import shutil
import signal
import subprocess
import sys
import threading
import time
from pathlib import Path
from typing import Any, Self

from checks.keeping import PATIENCE, QUERIES, SLACK, VERSIONED, running, reported_by, wait_until
from checks.model.queries import answer
from checks.model.registry import Registry
from checks.proxied import HOST, example, replaced
from checks.running import AUTH, TOP, Failure, Skipped, Tell, Trial, expect, write
from checks.worlds import WORLD, Tool, World, certificate


# A namespace of mounts of one's own (unshare).
CLONE_NEWNS = 0x2_0000
HAPROXY = shutil.which("haproxy", path=os.environ["PATH"] + ":/usr/sbin")


class Machines:
    """Two network namespaces with an address each, and what runs in them. Each knows the other one
    as irr.example.net."""

    def __init__(self, trial: Trial, folder: str) -> None:
        self.trial, self.folder, self.names = (
            trial,
            folder,
            [f"irr{os.getpid()}{side}" for side in "ab"],
        )
        self.addresses = ["192.0.2.1", "192.0.2.2"]

    def __enter__(self) -> Self:
        if os.geteuid() != 0 or not shutil.which("ip") or not HAPROXY:
            raise Skipped("it needs root, ip and haproxy")
        self.stack = contextlib.ExitStack()
        with contextlib.ExitStack() as stack:
            for name in self.names:
                if subprocess.run(
                    ["ip", "netns", "add", name], capture_output=True, check=False
                ).returncode:
                    raise Skipped("no network namespace can be made here")
                delete = ["ip", "netns", "del", name]
                stack.callback(
                    functools.partial(subprocess.run, delete, capture_output=True, check=False)
                )
            first, second = self.names
            commands = [
                [
                    "ip",
                    "link",
                    "add",
                    first,
                    "netns",
                    first,
                    "type",
                    "veth",
                    "peer",
                    "name",
                    second,
                    "netns",
                    second,
                ]
            ]
            for name, address in zip(self.names, self.addresses):
                commands += [
                    ["ip", "-n", name, "addr", "add", f"{address}/24", "dev", name],
                    ["ip", "-n", name, "link", "set", name, "up"],
                    ["ip", "-n", name, "link", "set", "lo", "up"],
                ]
            for command in commands:
                made = subprocess.run(command, capture_output=True, text=True, check=False)
                expect((made.returncode, made.stderr), (0, ""), " ".join(command))
            self.stack.push(stack.pop_all())
        return self

    def __exit__(self, *_: object) -> None:
        self.stack.close()

    def words(self, side: int, *words: str) -> list[str]:
        hosts = write(
            self.folder,
            f"hosts{side}",
            f"127.0.0.1 localhost\n{self.addresses[1 - side]} {HOST}\n".encode(),
        )
        return [
            "ip",
            "netns",
            "exec",
            self.names[side],
            "sh",
            "-c",
            'mount --bind "$0" /etc/hosts && exec "$@"',
            hosts,
            *words,
        ]

    def start(
        self, side: int, name: str, *words: str, **options: Any
    ) -> tuple[subprocess.Popen[bytes], str]:
        """A process on a machine, which ends with the machines, and the file of what it says."""
        reported = os.path.join(self.folder, f"{name}.log")
        return (
            self.stack.enter_context(running(self.words(side, *words), reported, **options)),
            reported,
        )


def doors(trial: Trial, machines: Machines, tool: Tool) -> None:
    """A door on both machines, as docs/OPERATING.md has them, and HAProxy before the first, with
    the file of examples/; but without budgets, since one client stands for many, and on the second
    one with a port without TLS for it."""
    cert, key = certificate(trial.work, HOST)
    both = write(
        machines.folder, "both.pem", b"".join(Path(name).read_bytes() for name in (cert, key))
    )
    submits = "may_submit src 127.0.0.1"
    text = replaced(
        example("haproxy.cfg"),
        [
            ("    user haproxy\n    group haproxy\n", ""),
            ("log /dev/log local0", "log stdout format raw local0 warning"),
            ("/etc/haproxy/irr.example.net.pem", both),
            ("/usr/share/irrdesk/web", os.path.join(TOP, "web")),
            (submits, f"{submits} 192.0.2.2"),
        ],
    )
    config = write(machines.folder, "haproxy.cfg", text.encode())
    machines.start(0, "haproxy", HAPROXY, "-db", "-f", config)
    free = ["--refill=1000", "--burst=1000"]
    python = shutil.which("python3", path="/usr/bin") or sys.executable
    machines.start(0, "door0", python, tool.path, "door", *free, env=tool.environment)
    second = ["--registry=http://127.0.0.1:4345", "--whois=0.0.0.0:43", "--http=0.0.0.0:8080"]
    machines.start(1, "door1", python, tool.path, "door", *free, *second, env=tool.environment)


def test_a_replica_on_another_machine_outlives_the_network(
    trial: Trial, tool: Tool, tell: Tell
) -> None:
    """A client asks replicas on one machine while the registry on the other one changes, is killed,
    stands still, and is replaced by another program: no answer is wrong, cut or missing, and none
    is older than an interval and what it takes to make replicas."""
    world = World(trial, tool, "machines")
    with Machines(trial, world.folder) as machines:
        first = write(world.folder, "v.rpsl", VERSIONED.format(0).encode())
        expect(trial.run(world.folder, "submit", "s.toml", first).status, 0, "version 0")
        model = Registry(auth=AUTH.encode())
        model.submit(WORLD)
        model.submit(VERSIONED.format(0).encode())
        queries = ["198.51.100.1", *QUERIES[:6], "198.51.100.0/24", *QUERIES[6:]]
        lines = [
            json.dumps([query, answer(model, query.encode(), 10_000).decode("latin-1")])
            for query in queries
        ]
        wanted = write(world.folder, "wanted", "\n".join(lines).encode())
        doors(trial, machines, tool)
        environment = tool.environment | {"SSL_CERT_FILE": certificate(trial.work, HOST)[0]}
        program = os.path.join(world.folder, "irrdesk")
        shutil.copy(trial.program, program)

        def serve() -> subprocess.Popen[bytes]:
            return machines.start(
                0,
                "primary",
                program,
                "serve",
                "s.toml",
                "--port",
                "4343",
                "--count",
                "1000000",
                cwd=world.folder,
            )[0]

        primary = serve()
        words = [
            "-s",
            f"https://{HOST}",
            "--every",
            "1",
            "--pause",
            "4",
            "--port",
            "4345",
            "--port",
            "4346",
            "--agent",
            "4340",
        ]
        mirror, log = machines.start(
            1,
            "mirror",
            sys.executable,
            tool.path,
            "mirror",
            *words,
            os.path.join(world.folder, "m"),
            env=environment,
        )
        wait_until("replicas", PATIENCE, lambda: "the replicas have" in reported_by(log))
        time.sleep(3)
        count = trial.pick(4_000, 100_000)
        # Each turn of the client is over before the next change is.
        asker = [
            sys.executable,
            os.path.join(TOP, "checks", "proxies", "asker.py"),
            "192.0.2.2:8080",
            "192.0.2.2:43",
        ]
        told, changes = [], [(0, time.time())]
        is_over = threading.Event()

        def ask() -> None:
            part, asked = count // 8, 0
            while asked < count or not is_over.is_set():
                done = subprocess.run(
                    machines.words(0, *asker, str(part), "4", wanted),
                    capture_output=True,
                    text=True,
                    check=False,
                )
                told.extend(done.stdout.splitlines())
                asked += part
                if done.returncode:
                    told.append(f"0 0 - wrong: the client ended: {done.stderr[-300:]}")
                    return

        asking = threading.Thread(target=ask)
        asking.start()
        try:
            for number in range(1, trial.pick(4, 12)):
                change(tool, machines, world, number, changes, environment)
                wait_until(
                    f"version {number} with the replicas; {reported_by(log)[-200:]}",
                    SLACK,
                    lambda: reported_by(log).count("the replicas have") > number,
                )
                if number % 4 == 1:
                    primary.kill()
                    time.sleep(2)
                    primary = serve()
                elif number % 4 == 2:
                    primary.send_signal(signal.SIGSTOP)
                    time.sleep(2)
                    primary.send_signal(signal.SIGCONT)
                elif number % 4 == 3:
                    primary.terminate()
                    os.replace(shutil.copy(trial.program, program + ".new"), program)
                    time.sleep(1)
                    primary = serve()
                time.sleep(1)
        finally:
            is_over.set()
            asking.join()
        expect(mirror.poll(), None, "the mirror")
    tell(judged(told, changes, count))


def change(
    tool: Tool,
    machines: Machines,
    world: World,
    number: int,
    changes: list[tuple[int, float]],
    environment: dict[str, str],
) -> None:
    """Submits another version, from the second machine to the first, again where the registry is
    away."""
    path = write(world.folder, "v.rpsl", VERSIONED.format(number).encode())
    end = time.monotonic() + PATIENCE
    while True:
        words = machines.words(
            1, sys.executable, tool.path, "submit", "-s", f"https://{HOST}", path
        )
        done = subprocess.run(words, capture_output=True, text=True, env=environment, check=False)
        if done.returncode == 0:
            changes.append((number, time.time()))
            return
        if time.monotonic() > end:
            raise Failure(f"version {number}: {done.stdout} {done.stderr}")
        time.sleep(0.2)


def judged(told: list[str], changes: list[tuple[int, float]], count: int) -> str:
    """What the client's answers come to."""
    wrong = [line for line in told if " wrong" in line]
    expect(
        wrong[:2],
        [],
        f"{len(wrong)} of {len(told)} answers that are wrong, cut or missing; such as",
    )
    expect(len(told) >= count, True, f"whether {len(told)} answers are {count}")
    oldest, longest = 0.0, 0.0
    for line in told:
        start, end, _, version = line.split(" ", 3)
        longest = max(longest, float(end) - float(start))
        if version != "-":
            missed = [
                when for number, when in changes if number > int(version) and when <= float(start)
            ]
            oldest = max(oldest, float(start) - min(missed) if missed else 0.0)
    expect(oldest < SLACK + 1, True, f"whether an answer {oldest:.1f} s old is fresh")
    seen = {line.split(" ", 3)[3] for line in told} - {"-"}
    expect(
        {str(number) for number, _ in changes[1:-1]} - seen,
        set(),
        "versions that nobody was answered",
    )
    return (
        f"{len(told):,} answers, none wrong; the oldest {oldest:.1f} s old, the longest took"
        f" {longest:.1f} s"
    )

"""Replicas on this machine: what they answer beside the registry, and without it."""

import contextlib
import os
import re
import signal
import socket
import sys
import time

from checks.keeping import (
    PATIENCE,
    QUERIES,
    VERSIONED,
    is_served,
    running,
    reported_by,
    wait_until,
    whois_answer,
)
from checks.running import AUTH, Tell, Trial, expect
from checks.serving import free_port
from checks.worlds import Tool, World, expect_line


def test_replicas_answer_as_the_registry_does_while_it_changes(
    trial: Trial, tool: Tool, tell: Tell
) -> None:
    """Replicas answer as the registry does, byte by byte, follow it, and go on without it, also
    when they are started then."""
    with World(trial, tool, "replicas") as world:
        folder, log = os.path.join(world.folder, "m"), os.path.join(world.folder, "m.log")
        ports = [free_port(), free_port()]
        words = [
            sys.executable,
            tool.path,
            "mirror",
            "-s",
            world.url,
            "--every",
            "1",
            "--pause",
            "1",
            *(f"--port={port}" for port in ports),
            folder,
        ]
        tools = [tool.at(IRR_SERVER=f"http://127.0.0.1:{port}") for port in ports]
        with running(words, log, env=tool.environment) as mirror:
            wait_until("replicas", PATIENCE, lambda: "the replicas have" in reported_by(log))
            same_answers(world, ports, tools)
            before = reported_by(log)
            time.sleep(2.5)
            expect(reported_by(log), before, "what is reported while nothing changes")
            # Each second it is made anew and removed.
            wait_until(
                "that nothing is left",
                PATIENCE,
                lambda: not os.path.exists(os.path.join(folder, "made.next")),
            )
            wait_until("a look at all files", PATIENCE, lambda: are_private(folder))
            always(world, ports, log)
            same_answers(world, ports, tools)
            for tool in tools:
                ran = tool("submit", "-", stdin=VERSIONED.format(9).encode())
                expect(
                    b"refused E11" in ran.printed,
                    True,
                    f"a submission to a replica: {ran.printed!r}",
                )
            wanted = [whois_answer(ports[0], query.encode()) for query in QUERIES]
            # A replica that was killed comes back.
            numbers = children(mirror.pid)
            expect(len(numbers), 2, "replicas")
            os.kill(numbers[0], signal.SIGKILL)
            wait_until(
                "a replica that was killed",
                PATIENCE,
                lambda: len(children(mirror.pid)) == 2 and all(map(is_served, ports)),
            )
        expect([port for port in ports if is_served(port)], [], "replicas that go on alone")
        world.server.__exit__()
        notices = Notices(folder + ".socket")
        environment = tool.environment | {"NOTIFY_SOCKET": notices.path}
        with running(words, log, env=environment) as mirror:
            wait_until("replicas without a registry", PATIENCE, lambda: all(map(is_served, ports)))
            wait_until(
                "what systemd is told", 30, lambda: notices.last().startswith("STATUS=NOT RENEWED")
            )
            since = re.search(" since (\\S+Z): .*no server listens there", notices.last())
            expect(bool(since), True, notices.last())
            expect(all(map(is_served, ports)), True, "replicas that still answer")
            expect(
                [whois_answer(ports[1], query.encode()) for query in QUERIES],
                wanted,
                "answers without a registry",
            )
            wait_until("a word of it", 30, lambda: "no server listens there" in reported_by(log))
            second = tool("mirror", "-s", world.url, folder)
            expect_line(
                second, 5, ".*another irr works in this folder.*", "a second mirror in the folder"
            )
            mirror.kill()
            mirror.wait()
            wait_until(
                "replicas of a mirror that was killed", 10, lambda: not any(map(is_served, ports))
            )
    expect_line(tool("mirror", "--port", "1", "--port", "1", "x"), 2, ".*ports.*", "one port twice")
    tell(f"{len(QUERIES)} queries and the dump, 2 replicas")


def are_private(folder: str) -> bool:
    """That nobody else may read a file of the replicas, and none has a hash. False where one went
    meanwhile: each second they are made anew."""
    hashes = AUTH.split(":")[1].encode()
    for path, _, names in os.walk(folder):
        for name in names:
            try:
                with open(os.path.join(path, name), "rb") as file:
                    mode, text = os.fstat(file.fileno()).st_mode, file.read()
            except FileNotFoundError:
                return False
            expect(mode & 0o077, 0, f"the rights of {name}")
            expect(hashes in text, False, f"a hash in {name}")
    return True


class Notices:
    """What a unit tells systemd."""

    def __init__(self, path: str) -> None:
        self.path, self.text = path, ""
        self.socket = socket.socket(socket.AF_UNIX, socket.SOCK_DGRAM | socket.SOCK_NONBLOCK)
        self.socket.bind(path)

    def last(self) -> str:
        with contextlib.suppress(BlockingIOError):
            while True:
                self.text = self.socket.recv(4_096).decode()
        return self.text


def same_answers(world: World, ports: list[int], tools: list[Tool]) -> None:
    """That all replicas answer as the registry."""
    for query in [*QUERIES, "198.51.100.1"]:
        wanted = whois_answer(world.server.port, query.encode())
        expect(len(wanted) > 0, True, f"an answer to {query}")
        for port in ports:
            expect(whois_answer(port, query.encode()), wanted, query)
    wanted = world.tool("dump").printed
    for tool in tools:
        expect(tool("dump").printed, wanted, "the dump")


def always(world: World, ports: list[int], log: str) -> None:
    """That one replica answers at any time while both are made anew, and no answer is cut."""
    expect(world.tool("submit", "-", stdin=VERSIONED.format(1).encode()).status, 0, "a submission")
    end, asked = time.monotonic() + PATIENCE, 0
    seen: set[int] = set()
    while time.monotonic() < end and seen != set(ports):
        answers = {}
        for port in ports:
            came = whois_answer(port, b"198.51.100.1")
            if came:
                answers[port] = came
                expect(came.endswith(b"source:         TEST\n\n"), True, f"an answer: {came!r}")
                seen |= {port} if b"version 1" in came else set()
        expect(bool(answers), True, f"that a replica answers, after {asked} questions")
        asked += 1
        time.sleep(0.01)
    expect(seen, set(ports), f"replicas with what was submitted; {reported_by(log)[-300:]}")


def children(number: int) -> list[int]:
    with open(f"/proc/{number}/task/{number}/children", encoding="ascii") as file:
        return [int(word) for word in file.read().split()]

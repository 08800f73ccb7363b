"""The door's bounds on time, connections and memory: at their full values in the long form, scaled
in the short one."""

import contextlib
import socket
import threading
import time
from collections.abc import Iterator

import pytest

from checks.door import worlds
from checks.door.opened import HEAD, SPACE, Opened, Registries, wait_until
from checks.pace import pace
from checks.running import Tell, Trial, expect

SECONDS = 90
COUNT = 30_000
LATE = 'irrdesk_door_connections_total{what="late"}'


def dump(count: int) -> str:
    routes = "".join(
        f"route: {1 + (n >> 16)}.{n >> 8 & 255}.{n & 255}.0/24\norigin: AS1\n"
        "mnt-by: ROOT-MNT\nsource: TEST\n\n"
        for n in range(count)
    )
    return HEAD + SPACE + "aut-num: AS1\nmnt-by: ROOT-MNT\nsource: TEST\n\n" + routes


@pytest.fixture(scope="module")
def big(trial: Trial) -> Iterator[Registries]:
    with Registries(trial, "big", dump(COUNT), replicas=1) as made:
        yield made


def slow(door: Opened, last: int, line: bytes) -> socket.socket:
    """A client that asks, and has room for a few bytes of the answer."""
    peer = socket.socket()
    peer.setsockopt(socket.SOL_SOCKET, socket.SO_RCVBUF, 4_096)
    peer.bind((f"127.0.0.{last}", 0))
    peer.connect(("127.0.0.1", door.whois_port))
    peer.sendall(line)
    return peer


class Dripping(threading.Thread):
    """A client that sends a byte every half second, or takes some, until the door ends that."""

    def __init__(self, peer: socket.socket, text: bytes = b"") -> None:
        super().__init__(daemon=True)
        self.peer, self.text, self.begun, self.lasted = peer, text, time.monotonic(), 0.0
        self.start()

    def run(self) -> None:
        with contextlib.suppress(OSError):
            for place in range(4_000):
                if self.text:
                    self.peer.sendall(self.text[place % len(self.text) :][:1])
                elif not self.peer.recv(1_000):
                    break
                time.sleep(0.5)
        self.lasted = time.monotonic() - self.begun


def test_who_is_slow_is_gone_in_time(trial: Trial, big: Registries, tell: Tell) -> None:
    patience = trial.pick(6, 120)
    with Opened(trial, "slow", big.words, f"patience = {patience}\nburst = 100\n") as door:
        post = b"POST /submissions HTTP/1.1\r\nContent-Length: 5000\r\n\r\n"
        heads = [(door.whois_port, b"a"), (door.http_port, b"GET /query/"), (door.http_port, post)]
        drips = []
        for last, (port, text) in enumerate(heads, 2):
            peer = door.connect(port, last)
            peer.sendall(text)
            drips.append(Dripping(peer, b"aaaa"))
        drips.append(Dripping(slow(door, 5, b"inverse mnt ROOT-MNT\n")))
        peers = [slow(door, 6, b"inverse mnt ROOT-MNT\n"), door.connect(door.whois_port, 7)]
        waits = []
        for drip in drips:
            while drip.is_alive():
                begun = time.monotonic()
                expect(door.whois("AS1", 20)[:8], b"aut-num:", "another client's answer")
                waits.append(time.monotonic() - begun)
                drip.join(0.5)
        wait_until("all of them", patience + 20, lambda: door.metrics()[LATE] >= 6)
        slower = pace(time.perf_counter)
        times = [drip.lasted for drip in drips]
        tell(
            f"ended after {', '.join(f'{one:.1f}' for one in times)} s; others waited "
            f"at most {max(waits):.2f} s, pace {slower:.1f}"
        )
        expect(min(times) > patience - 1, True, f"whether {times} are {patience}")
        # Its answer may take as long as its request.
        expect(max(times) < patience + 4 + 2 * slower, True, f"whether {times} are {patience}")
        expect(door.status()["connections"], 1, "connections")
        for peer in peers:
            peer.close()


def test_all_answers_have_a_bound(trial: Trial, big: Registries, tell: Tell) -> None:
    """Who takes no answer fills the memory of answers; others have theirs all the while."""
    most = trial.pick(24, 256) << 20
    settings = f"answers = {most}\ncache = {most // 4}\nburst = 10000\nof_client = 50\n"
    with Opened(trial, "full", big.words, settings) as door:
        before, highest, refused, peers, waits = door.memory(), 0, 0, [], []
        answer = len(door.whois("-i mnt-by ROOT-MNT"))
        for number in range(most // answer * 2):
            peers.append(slow(door, 10 + number % 200, b"-i mnt-by ROOT-MNT\n"))
            begun = time.monotonic()
            mine = door.whois("AS1", 250)
            waits.append(time.monotonic() - begun)
            refused += not mine.startswith(b"aut-num:")
            used = door.status()["answers_bytes"]
            expect(used <= most, True, f"{used} bytes of answers")
            highest = max(highest, door.memory())
        for peer in peers:
            peer.close()
        wait_until("that memory is free", 60, lambda: door.status()["answers_bytes"] < most // 3)
        last = door.memory()
    tell(
        f"{len(peers)} answers of {answer >> 20} MiB, at most {most >> 20} MiB: the door has "
        f"{before >> 20}, {highest >> 20} and {last >> 20} MiB; others waited {max(waits):.2f} s"
    )
    expect(refused, 0, "how many of another client's short answers were refused")
    # The unit's bound is three times the bytes of answers.
    expect(highest < before + 2 * most + (64 << 20), True, f"{highest >> 20} MiB")


def test_an_answer_has_a_bound(trial: Trial, tell: Tell) -> None:
    """What is over it is told in each dialect, and /dump has it; it is not asked without end."""
    count, largest = trial.pick((30_000, 2 << 20), (380_000, 32 << 20))
    config = f"largest = {largest}\nburst = 10000\n"
    with Registries(trial, "above", dump(count), replicas=1) as registries:
        with Opened(trial, "above-door", registries.words, config) as door:
            for line in "inverse mnt ROOT-MNT", "!gAS1", "-i mnt-by ROOT-MNT", "more 0.0.0.0/0":
                answer = door.whois(line)
                named = b"%d KiB" % (largest >> 10) in answer and b"/dump" in answer
                expect((named, answer.count(b"route:")), (True, 0), f"{line}: {answer[:300]!r}")
            status, _, body = door.http("GET", "/query/inverse%20mnt%20ROOT-MNT")
            expect((status, b"/dump" in body), (422, True), f"{body!r}")
            expect(door.status()["answers_bytes"] < 1 << 20, True, "that nothing of it is kept")
            status, _, whole = door.http("GET", "/dump")
            expect(
                (status, whole.endswith(b"\n%% end %d\n" % (count + 3))), (200, True), "the dump"
            )
            wanted = door.whois("inverse mnt E-MNT")
            expect((wanted, door.whois("AS1")[:8]), (b"% no entries\n", b"aut-num:"), "others")
            tell(f"{len(whole) >> 20} MiB registered, answers of {largest >> 20} MiB at most")


def test_all_connections_have_a_bound(trial: Trial, tell: Tell) -> None:
    """Whether they are silent, or kept: one more client is answered."""
    count = trial.pick(120, 1_000)
    settings = f"connections = {count}\n"
    with Registries(trial, "many", worlds.DUMP, replicas=0) as registries:
        with Opened(trial, "many-door", registries.words, settings) as door:
            first = door.memory()
            for text in b"", b"!!\n!s-lc\n":
                peers = [door.connect(door.whois_port, 2 + n // 40) for n in range(count + 20)]
                for peer in peers:
                    with contextlib.suppress(OSError):
                        peer.sendall(text)
                wait_until("all", 30, lambda: door.status()["connections"] >= count)
                for last in range(100, 110):
                    expect(door.whois("AS1", last), worlds.AS1 + b"\n", "one more client")
                expect(door.status()["connections"] <= count + 1, True, "connections")
                highest = door.memory()
                for peer in peers:
                    peer.close()
                wait_until("none", 30, lambda: door.status()["connections"] <= 1)
            tell(f"{count} connections: {first >> 10} and {highest >> 10} KiB")

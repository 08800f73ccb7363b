"""What the door costs, and what others notice while strangers ask and submit what is dear, with the
bounds that OPEN.md tells."""

import contextlib
import socket
import socketserver
import statistics
import subprocess
import sys
import threading
import time
from collections.abc import Callable, Iterator

import pytest

from checks.door import attackers, worlds
from checks.door.opened import HEAD, PYTHON, SPACE, Opened, Registries, read_all, seconds_of
from checks.pace import pace
from checks.running import Failure, Tell, Trial, expect
from checks.serving import free_port
from irr.door.cache import DEAR
from irr.door.upstreams import PROBE

pytestmark = pytest.mark.alone
SECONDS = 120
# The program's settings say how many names an expansion may reach.
LIMIT = 10_000
VICTIM = 200


def at_most(found: float, most: float, what: str) -> None:
    if found > most:
        raise Failure(f"{what}: {found:.4g}, and at most {most:.4g} were to be")


def registered(count: int, maintainers: int, names: int, sets: int) -> str:
    """A dump of so many routes, with maintainers of many salts, names and a ring of sets."""
    routes = (
        f"route: {1 + (n >> 16)}.{n >> 8 & 255}.{n & 255}.0/24\n"
        f"origin: AS{1 if n % 100 else 2 + n // 100 % 900}\n"
        "mnt-by: ROOT-MNT\nsource: TEST\n\n"
        for n in range(count)
    )
    numbers = (f"aut-num: AS{n}\nmnt-by: ROOT-MNT\nsource: TEST\n\n" for n in range(1, 1_001))
    small = (
        "as-set: AS-SMALL\nmembers: AS2, AS3\nmnt-by: ROOT-MNT\nsource: TEST\n\n"
        "as-set: AS-BIG\nmembers: AS1, AS2\nmnt-by: ROOT-MNT\nsource: TEST\n\n"
    )
    made = [
        attackers.maintainer("E", "e"),
        attackers.salted(maintainers),
        attackers.named(names),
    ]
    return "".join([HEAD, *made, SPACE, *numbers, *routes, small, attackers.ring(sets)])


@pytest.fixture(scope="module")
def crowd(trial: Trial) -> Iterator[Registries]:
    """A registry with what attackers registered before: rings, salts and names."""
    count = trial.pick(30_000, 300_000)
    dump = registered(count, trial.pick(4, 64), trial.pick(500, 15_000), trial.pick(6, 16))
    with Registries(trial, "crowd", dump, replicas=2, limit=LIMIT) as made:
        yield made


class Victim:
    """A client of its own address: how long it waits, and what is refused."""

    def __init__(self, door: Opened, seconds: float) -> None:
        self.door, self.end = door, time.monotonic() + seconds
        self.waits: dict[str, list[float]] = {"cheap": [], "prefixes": [], "submissions": []}
        self.refused: list[tuple[str, bytes]] = []

    def run(self) -> None:
        works = [
            ("cheap", 0.05, self.cheap),
            ("prefixes", 0.5, self.prefixes),
            ("submissions", 1.0, self.submit),
        ]
        threads = [threading.Thread(target=self.again, args=words) for words in works]
        for thread in threads:
            thread.start()
        for thread in threads:
            thread.join()

    def again(self, name: str, pause: float, do: Callable[[], bytes | None]) -> None:
        while time.monotonic() < self.end:
            begun = time.monotonic()
            found = do()
            self.waits[name].append(time.monotonic() - begun)
            if found is not None:
                self.refused.append((name, found[:80]))
            time.sleep(pause)

    def cheap(self) -> bytes | None:
        answer = self.door.whois("AS7", VICTIM)
        return None if answer.startswith(b"aut-num:") else answer

    def prefixes(self) -> bytes | None:
        answer = self.door.whois("prefixes AS-SMALL", VICTIM)
        return None if answer[:1].isdigit() else answer

    def submit(self) -> bytes | None:
        status, _, report = self.door.submit(
            "password: bc\n\nas-set: AS-MINE\nmnt-by: ROOT-MNT\nsource: TEST\n", VICTIM
        )
        return None if status == 200 and b"refused" not in report else b"%d %s" % (status, report)


# What else the machine does makes each try slower: it is made again only while a bound is exceeded.
TRIES = 5


def test_another_client_notices_little_of_ten_that_ask_what_is_dear(
    trial: Trial, crowd: Registries, tell: Tell
) -> None:
    for number in range(TRIES):
        waits, words = noticed(trial, crowd, f"fair{number}")
        if all(found <= most for found, most, _ in waits):
            break
    tell(words)
    for found, most, what in waits:
        at_most(found, most, what)


def noticed(
    trial: Trial, crowd: Registries, name: str
) -> tuple[list[tuple[float, float, str]], str]:
    """What another client waits for, what it may, and words for it; and the same as a line."""
    seconds = trial.pick(12, 120)
    with Opened(trial, name, crowd.words, "size = 65536\n") as door:
        before = Victim(door, 3)
        before.run()
        words = [PYTHON, attackers.__file__, str(door.whois_port), str(door.http_port)]
        others = [
            subprocess.Popen(
                [*words, str(first), "5", str(trial.pick(4, 64)), str(seconds + 2)],
                stdout=subprocess.PIPE,
            )
            for first in (0, 5)
        ]
        time.sleep(1)
        slower = pace(time.perf_counter)
        victim = Victim(door, seconds)
        victim.run()
        slower = max(slower, pace(time.perf_counter))
        asked = 0
        for other in others:
            asked += int(other.communicate(timeout=300)[0] or 0)
        state = door.status()
    cheap = sorted(victim.waits["cheap"])
    middle, late = statistics.median(cheap), cheap[int(len(cheap) * 0.99) - 1]
    prefixes, submissions = max(victim.waits["prefixes"]), max(victim.waits["submissions"])
    line = (
        f"{asked} of the attackers; cheap: {len(cheap)}, median {middle * 1e3:.1f} ms (before: "
        f"{statistics.median(before.waits['cheap']) * 1e3:.1f}), 99 of 100 {late * 1e3:.0f} ms; "
        f"prefixes at most {prefixes:.2f} s; submissions at most {submissions:.2f} s; "
        f"pace {slower:.1f}; refused {state['refused']}"
    )
    expect(victim.refused, [], "what was refused")
    return [
        (middle, 0.02 * slower, "the median wait of cheap queries, in s"),
        (late, 0.2 * slower, "the wait of 99 of 100, in s"),
        (prefixes, 1 * slower, "the longest wait of `prefixes`, in s"),
        (submissions, 5 * slower, "the longest wait of a submission, in s"),
    ], line


# The door and the streams take turns, and the cheapest one of each counts: what else the machine
# does at a time makes both dearer, and none cheaper.
TURNS = 5


def test_a_connection_costs_little(trial: Trial, tell: Tell) -> None:
    count = trial.pick(800, 10_000) // TURNS
    # Nothing is kept: an answer that came late would cost nothing afterwards.
    config = "refill = 1000\nburst = 1000\nkeep = 0\n"
    with Registries(trial, "cost", worlds.DUMP, replicas=1) as registries:
        with (
            Opened(trial, "cost-door", registries.words, config) as door,
            streams(registries.ports[1]) as (number, port),
        ):
            idle, ones, others = idling(door), [], []
            for _ in range(TURNS):
                ones.append(cost(door, door.process.pid, door.whois_port, count, idle))
                others.append(cost(door, number, port, count))
            before, begun = door.seconds(), time.monotonic()
            silent = [door.connect(door.whois_port, 1 + number % 100) for number in range(400)]
            time.sleep(3)
            for peer in silent:
                peer.close()
            time.sleep(0.5)
            still = (door.seconds() - before - idle * (time.monotonic() - begun)) / 400
            slower = pace()
    one, other = min(ones), min(others)
    tell(
        f"{one * 1e3:.3f} ms for a connection, the streams of asyncio {other * 1e3:.3f}; "
        f"{still * 1e3:.3f} for a silent one; {idle * 1e3:.1f} ms a second idle; pace {slower:.1f}"
    )
    # The straightforward form takes 0.6 ms on the machine of the figures: what it takes here and
    # now says how slow this one is.
    at_most(one, max(0.4e-3, other * 0.4 / 0.6), "seconds for a connection")
    at_most(still, 1e-3 * slower, "seconds for a silent connection")


def cost(door: Opened, number: int, port: int, count: int, idle: float = 0.0) -> float:
    """The processor's seconds that a process takes for a connection at its port, beside those of
    each second in which nobody asks."""
    asked(door, port)
    before, begun = seconds_of(number), time.monotonic()
    for _ in range(count):
        expect(asked(door, port)[:8], b"aut-num:", "an answer")
    return (seconds_of(number) - before - idle * (time.monotonic() - begun)) / count


def asked(door: Opened, port: int) -> bytes:
    with contextlib.closing(door.connect(port)) as peer:
        peer.sendall(b"AS1\r\n")
        return read_all(peer)


def idling(door: Opened) -> float:
    """The processor's seconds that it takes in a second in which nobody asks."""
    before = door.seconds()
    time.sleep(3)
    return (door.seconds() - before) / 3


STREAMS = """
import asyncio
async def handle(reader, writer):
    line = await reader.readline()
    above, below = await asyncio.open_connection("127.0.0.1", %d)
    below.write(line)
    answer = await above.read(-1)
    below.close()
    writer.write(answer)
    await writer.drain()
    writer.close()
    await writer.wait_closed()
async def main():
    server = await asyncio.start_server(handle, "127.0.0.1", %d)
    print("open", flush=True)
    await server.serve_forever()
asyncio.run(main())
"""


@contextlib.contextmanager
def streams(above: int) -> Iterator[tuple[int, int]]:
    """A straightforward door over a port, by the streams of asyncio: its process, and its port."""
    port = free_port()
    process = subprocess.Popen([PYTHON, "-c", STREAMS % (above, port)], stdout=subprocess.PIPE)
    try:
        process.stdout.readline()
        yield process.pid, port
    finally:
        process.kill()
        process.wait()
        process.stdout.close()


# The seconds for which an answer is kept; a question whose answer is long, and another one.
KEEP = 60
LONG, SMALL = b"!iRS-0,1\n", b"!iAS-SMALL,1\n"


@contextlib.contextmanager
def slowed(above: int) -> Iterator[tuple[str, list[bytes]]]:
    """The address of a registry that lets whoever asks wait, so that on any machine each answer
    costs enough to be kept; and what it is asked."""
    asked: list[bytes] = []

    class Handler(socketserver.StreamRequestHandler):
        def handle(self) -> None:
            line = self.rfile.readline()
            if not line:
                # A look whether anybody listens.
                return
            if line != PROBE:
                asked.append(line)
                time.sleep(4 * DEAR)
            with socket.create_connection(("127.0.0.1", above)) as registry:
                registry.sendall(line)
                registry.shutdown(socket.SHUT_WR)
                self.wfile.write(read_all(registry))

    with socketserver.ThreadingTCPServer(("127.0.0.1", 0), Handler) as server:
        server.daemon_threads = True
        threading.Thread(target=server.serve_forever, daemon=True).start()
        try:
            yield f"http://127.0.0.1:{server.server_address[1]}", asked
        finally:
            server.shutdown()


def test_kept_answers_are_given_ten_thousand_times_a_second(
    trial: Trial, crowd: Registries, tell: Tell
) -> None:
    count, batch = trial.pick(10_000, 200_000), 50
    config = f"refill = 1000\nburst = 1000\nkeep = {KEEP}\n"
    with (
        slowed(crowd.ports[0]) as (url, asked),
        Opened(trial, "kept", [f"--registry={url}"], config) as door,
    ):
        begun = time.monotonic()

        def need_kept() -> None:
            """That the registry was asked once for each, and again when that had been kept."""
            most = 1 + (time.monotonic() - begun) // KEEP
            times = [asked.count(b"expand RS-0\r\n"), asked.count(b"expand AS-SMALL\r\n")]
            is_so = sum(times) == len(asked) and all(1 <= one <= most for one in times)
            expect(is_so, True, f"whether it was kept: {times} of {len(asked)}, at most {most:.0f}")

        long, small = door.whois(LONG), door.whois(SMALL)
        expect(small, b"A8\nAS2 AS3\nC\n", "a short answer")
        with contextlib.closing(door.connect(door.whois_port)) as peer:
            peer.sendall(b"!!\n")
            before = door.seconds()
            for _ in range(count // batch):
                peer.sendall(LONG * batch)
                came = read_exactly(peer, len(long) * batch)
                expect(came == long * batch, True, "whether all answers are the first one")
                need_kept()
            took = door.seconds() - before
        expect((door.whois(LONG), door.whois(SMALL)), (long, small), "the answers at the end")
        need_kept()
        hits = door.status()["cache"]["hits"]
    expect(hits, count + 4 - len(asked), "how many were kept")
    slower = pace()
    tell(f"{count / took:.0f} a second of the processor, {len(long)} bytes each, pace {slower:.1f}")
    at_most(took / count, 1e-4 * slower, "seconds for a kept answer")


def read_exactly(peer: socket.socket, size: int) -> bytes:
    """So many bytes, or all before the end."""
    came = bytearray()
    while len(came) < size and (part := peer.recv(min(size - len(came), 1 << 20))):
        came += part
    return bytes(came)


if __name__ == "__main__":
    sys.exit("run it by pytest")

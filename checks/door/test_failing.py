"""Replicas that stop, in the middle of an answer too; slow, silent and many clients; and what the
door tells of it all."""

import contextlib
import json
import os
import re
import signal
import socket
import threading
import time

import pytest

from checks.door import inside, worlds
from checks.door.opened import HEAD, SPACE, Opened, Registries, read_all, wait_until
from checks.running import Each, Trial, expect
from checks.serving import accepted, free_port

SECONDS = 60
COUNT = 30_000


@pytest.fixture(scope="module")
def big() -> str:
    routes = "".join(
        f"route: {1 + (n >> 16)}.{n >> 8 & 255}.{n & 255}.0/24\norigin: AS1\n"
        "mnt-by: ROOT-MNT\nsource: TEST\n\n"
        for n in range(COUNT)
    )
    return HEAD + SPACE + "aut-num: AS1\nmnt-by: ROOT-MNT\nsource: TEST\n\n" + routes


class Halves:
    """A replica that answers a few whole queries like any, and then stops in the middle of an
    answer, in one of these ways."""

    def __init__(self, way: str, whole: bytes = b"") -> None:
        self.way, self.whole = way, whole
        self.listener = socket.create_server(("127.0.0.1", 0))
        self.port = self.listener.getsockname()[1]
        self.held: list[socket.socket] = []
        self.asked = 0
        threading.Thread(target=self.serve, daemon=True).start()

    def serve(self) -> None:
        for peer in accepted(self.listener):
            line = peer.recv(4_096)
            if line == inside.LOOK:
                peer.sendall(worlds.ALL + b"\n")
                peer.close()
                continue
            self.asked += 1
            peer.sendall(self.whole[: len(self.whole) // 2])
            if self.way == "silent":
                self.held.append(peer)
            elif self.way == "killed":
                # As a process that is killed: nobody listens any more once the connection ends.
                self.listener.close()
                peer.close()
            else:
                peer.setsockopt(socket.SOL_SOCKET, socket.SO_LINGER, b"\1\0\0\0\0\0\0\0")
                peer.close()


@pytest.mark.parametrize("way", ["silent", "killed", "reset"])
def test_an_answer_that_stops_in_the_middle_is_asked_anew_within_a_second(
    trial: Trial, big: str, way: str
) -> None:
    with Registries(trial, f"way-{way}", big, replicas=1) as registries:
        wanted = direct(registries.ports[0], "inverse origin AS1")
        halves = Halves(way, wanted)
        words = [*registries.words, f"--replica=http://127.0.0.1:{halves.port}"]
        # Nothing is kept, so that each query asks one of both.
        with Opened(trial, f"door-{way}", words, "keep = 0\nburst = 100\n") as door:
            for _ in range(20):
                begun = time.monotonic()
                answer = door.whois("inverse origin AS1")
                took = time.monotonic() - begun
                expect(answer == wanted, True, f"{len(answer)} bytes of {len(wanted)}")
                if halves.asked:
                    break
            expect(halves.asked > 0, True, "whether it was asked")
            expect(took < 4, True, f"{took:.2f} s, beside other work")


def test_a_replica_that_is_stopped_before_its_first_byte_keeps_nobody_waiting(
    trial: Trial, big: str
) -> None:
    """Asked what is taken to cost a second, since nobody has asked it before."""
    with Registries(trial, "before", big, replicas=1) as registries:
        wanted = direct(registries.ports[0], "inverse origin AS1")
        with Opened(trial, "before-door", registries.words) as door:
            os.kill(registries.pid(1), signal.SIGSTOP)
            try:
                begun = time.monotonic()
                answer = door.whois("inverse origin AS1")
                took = time.monotonic() - begun
            finally:
                os.kill(registries.pid(1), signal.SIGCONT)
    expect(answer == wanted, True, f"{len(answer)} bytes of {len(wanted)}")
    expect(took < 6, True, f"{took:.2f} s, beside other work")


def direct(port: int, query: str) -> bytes:
    with socket.create_connection(("127.0.0.1", port), 30) as peer:
        peer.sendall(query.encode() + b"\r\n")
        return read_all(peer)


def test_queries_go_on_while_replicas_are_killed_stopped_and_started(trial: Trial) -> None:
    with Registries(trial, "some", worlds.DUMP, replicas=2) as registries:
        with Opened(trial, "some-door", registries.words, "keep = 0\n") as door:
            faults, stop = [], threading.Event()

            def asking(last: int) -> None:
                while not stop.is_set():
                    answer = door.whois("AS1", last)
                    if answer != worlds.AS1 + b"\n":
                        faults.append(answer)
                    time.sleep(0.01)

            threads = [threading.Thread(target=asking, args=(last,)) for last in (2, 3, 4)]
            for thread in threads:
                thread.start()
            registries.kill(1)
            time.sleep(1)
            os.kill(registries.pid(2), signal.SIGSTOP)
            time.sleep(3)
            wait_until(
                "that both are left out",
                20,
                lambda: [one["serves"] for one in door.status()["upstreams"]]
                == [True, False, False],
            )
            os.kill(registries.pid(2), signal.SIGCONT)
            registries.start(1)
            wait_until(
                "that both are back",
                20,
                lambda: all(one["serves"] for one in door.status()["upstreams"]),
            )
            registries.kill(0)
            time.sleep(1)
            stop.set()
            for thread in threads:
                thread.join()
            expect(faults, [], "faults")
            registries.kill(1)
            registries.kill(2)
            expect(door.whois("AS1"), b"% the registry does not answer\n", "with none left")
            expect(door.http("GET", "/query/AS1")[0], 503, "over HTTP")
            expect(door.http("GET", "/status", port=door.status_port)[0], 503, "the status")
            expect(door.whois("!gAS1")[:2], b"F ", "IRRd's")
            expect(b"%ERROR:301" in door.whois("-r AS1"), True, "RIPE's")


def test_a_long_answer_is_refused_in_the_dialect(trial: Trial, big: str) -> None:
    with Registries(trial, "long", big, replicas=1) as registries:
        with Opened(trial, "long-door", registries.words, "largest = 100000\n") as door:
            for line in "inverse mnt ROOT-MNT", "!gAS1", "-i origin AS1":
                answer = door.whois(line)
                expect(b"/dump" in answer and len(answer) < 500, True, f"{line}: {answer!r}")
            status, _, body = door.http("GET", "/query/more%200.0.0.0%2F0")
            expect((status, b"/dump" in body), (422, True), f"{body!r}")
            status, _, dump = door.http("GET", "/dump")
            expect((status, dump[-12:]), (200, b"%% end %d\n" % (COUNT + 3)), "the dump")
            expect(door.whois("AS1")[:8], b"aut-num:", "a short answer")


def test_who_takes_no_answer_holds_no_replica_and_is_gone(
    trial: Trial, big: str, monkeypatch: pytest.MonkeyPatch
) -> None:
    with Registries(trial, "slow", big, replicas=1) as registries:
        with Opened(trial, "slow-door", registries.words) as door:
            peers = []
            for last in range(2, 18):
                peer = socket.socket()
                peer.setsockopt(socket.SOL_SOCKET, socket.SO_RCVBUF, 4_096)
                peer.bind((f"127.0.0.{last}", 0))
                peer.connect(("127.0.0.1", door.whois_port))
                peer.sendall(b"inverse mnt ROOT-MNT\r\n")
                peers.append(peer)
            begun = time.monotonic()
            expect(door.whois("AS1")[:8], b"aut-num:", "another client's answer")
            expect(time.monotonic() - begun < 5, True, "how long it took")
            expect(door.status()["answers_bytes"] < 64 << 20, True, "memory of answers")
            for peer in peers:
                peer.close()


def test_too_many_are_refused_and_the_silent_make_room(trial: Trial) -> None:
    with Registries(trial, "many", worlds.DUMP, replicas=0) as registries:
        with Opened(
            trial, "many-door", registries.words, "connections = 20\nof_client = 8\n"
        ) as door:
            mine = [door.connect(door.whois_port, 2) for _ in range(8)]
            time.sleep(0.3)
            expect(
                door.whois("AS1", 2),
                b"% too many connections of yours; come again later\n",
                "a ninth",
            )
            others = [door.connect(door.whois_port, last) for last in range(3, 15)]
            time.sleep(0.3)
            expect(door.whois("AS1", 20), worlds.AS1 + b"\n", "one who asks")
            mine[0].settimeout(5)
            expect(mine[0].recv(10), b"", "the longest silent one")
            for peer in [*mine, *others]:
                peer.close()


def test_the_status_is_answered_while_all_connections_are_taken(trial: Trial) -> None:
    """By clients of one each, of whom none has more than another; and the status takes none of
    theirs."""
    with Registries(trial, "taken", worlds.DUMP, replicas=0) as registries:
        with Opened(trial, "taken-door", registries.words, "connections = 20\n") as door:
            held = [door.connect(door.status_port) for _ in range(10)]
            peers = [door.connect(door.whois_port, last) for last in range(2, 22)]
            for peer in peers:
                peer.sendall(b"!!\n!s-lc\n")
                expect(peer.recv(64), b"A5\nTEST\nC\n", "an answer")
            refusal = b"% too many connections; come again later\n"
            expect(door.whois("AS1", 30), refusal, "one more")
            expect(door.status()["connections"], 31, "the connections that the status tells")
            expect(door.http("GET", "/status", port=door.status_port)[0], 200, "the status")
            held += [door.connect(door.status_port) for _ in range(100)]
            wait_until("that the status has a bound", 60, lambda: is_refused(held[-1]))
            peers[0].sendall(b"!s-lc\n")
            expect(peers[0].recv(64), b"A5\nTEST\nC\n", "one who was let in")
            for peer in [*held, *peers]:
                peer.close()


def is_refused(peer: socket.socket) -> bool:
    """Whether something came."""
    peer.settimeout(1)
    with contextlib.suppress(TimeoutError):
        return b" 503 " in peer.recv(64)
    return False


def test_an_http_client_can_send_what_it_likes(trial: Trial, each: Each) -> None:
    with Registries(trial, "http", worlds.DUMP, replicas=0) as registries:
        with Opened(trial, "http-door", registries.words) as door:
            for text, status in [
                (b"GET /query/AS1 HTTP/1.1\r\n\r\n", 200),
                (b"GET /query/AS1 HTTP/1.0\r\n\r\n", 200),
                (b"GET /query/AS%31 HTTP/1.1\r\nConnection: close\r\n\r\n", 200),
                (b"GET /query/a%0Ab HTTP/1.0\r\n\r\n", 200),
                (b"HEAD /query/AS1 HTTP/1.1\r\n\r\n", 405),
                (b"GET /submissions HTTP/1.1\r\n\r\n", 405),
                (b"POST /submissions HTTP/1.1\r\n\r\n", 411),
                (b"POST /submissions HTTP/1.1\r\nTransfer-Encoding: chunked\r\n\r\n0\r\n\r\n", 501),
                (
                    b"POST /submissions HTTP/1.1\r\n" + b"Content-Length: 1\r\n" * 2 + b"\r\nx",
                    400,
                ),
                (b"POST /submissions HTTP/1.1\r\nContent-Length: x\r\n\r\nx", 400),
                (b"GET /nothing HTTP/1.1\r\n\r\n", 404),
                (b"nonsense\r\n\r\n", 400),
                (b"GET /query/AS1 HTTP/1.1\r\n" + b"A: b\r\n" * 65 + b"\r\n", 431),
                (b"GET /query/" + b"a" * 9_000 + b" HTTP/1.1\r\n\r\n", 431),
                (b"GET /query/AS1 HTTP/1.1\r\nfoo\r\n\r\n", 400),
                (b"PRI * HTTP/2.0\r\n\r\nSM\r\n\r\n", 400),
            ]:
                with each(text[:50].decode()):
                    with contextlib.closing(door.connect(door.http_port)) as peer:
                        peer.sendall(text)
                        peer.shutdown(socket.SHUT_WR)
                        reply = read_all(peer)
                        expect(
                            reply.split(b" ", 2)[1:2], [b"%d" % status], f"{text[:80]!r}: {reply!r}"
                        )
            with contextlib.closing(door.connect(door.http_port)) as peer:
                peer.sendall(b"GET /query/AS1 HTTP/1.1\r\nHost: x\r\n\r\n" * 3)
                peer.shutdown(socket.SHUT_WR)
                expect(read_all(peer).count(b"aut-num:"), 3, "three in one connection")


def test_replicas_are_found_by_the_agent_and_old_ones_left_out(trial: Trial) -> None:
    port, state = free_port(), {}
    with Registries(trial, "agent", worlds.DUMP, replicas=2) as registries:
        ports = registries.ports[1:]

        def report(ages: list[float], fault: str = "") -> None:
            entries = [
                {"port": at, "ready": True, "state": "a", "seen": time.time() - age}
                for at, age in zip(ports, ages)
            ]
            told = {"replicas": entries, "fault": fault, "view": {"name": "ALL", "sources": []}}
            state["text"] = json.dumps(told).encode() + b"\n"

        def serve(listener: socket.socket) -> None:
            for peer in accepted(listener):
                with peer:
                    if peer.recv(64) == b"state\n":
                        peer.sendall(state["text"])

        report([1, 2])
        with socket.create_server(("127.0.0.1", port)) as listener:
            threading.Thread(target=serve, args=(listener,), daemon=True).start()
            words = [registries.words[0], f"--agent=127.0.0.1:{port}"]
            config = f'oldest = 100\nview = ["127.0.0.1:{port}"]\n'
            with Opened(trial, "agent-door", words, config) as door:
                wait_until(
                    "two replicas",
                    20,
                    lambda: sum(one["serves"] for one in door.status()["upstreams"][1:]) == 2,
                )
                expect(door.status()["upstreams"][2]["age"] >= 2, True, "an age")
                report([1, 500])
                wait_until(
                    "that the old one is left out",
                    20,
                    lambda: not door.status()["upstreams"][2]["serves"],
                )
                expect(door.status()["well"], False, "whether all is well")
                expect("old" in door.status()["faults"][0], True, "the fault")
                expect(door.whois("AS1")[:8], b"aut-num:", "an answer")
                report([1, 1], "it has other objects")
                for what in "replicas are", "view ALL is":
                    wanted = rf"{what} not renewed since \d+-\d+-\d+T\S+Z: it has other objects"
                    wait_until(
                        "a fault",
                        20,
                        lambda: any(re.fullmatch(wanted, one) for one in door.status()["faults"]),
                    )
                expect(door.metrics()["irrdesk_door_renewal_failed"], 1.0, "the figure")
                report([500, 500], "no server listens there")
                wait_until(
                    "that both are old",
                    20,
                    lambda: not any(one["serves"] for one in door.status()["upstreams"][1:]),
                )
                expect(door.whois("AS1")[:8], b"aut-num:", "the registry's answer")
                registries.kill(0)
                wait_until(
                    "that the registry is down", 20, lambda: not door.status()["upstreams"][0]["up"]
                )
                expect(door.whois("AS2"), worlds.AS2 + b"\n", "an old answer in place of none")
                status, _, body = door.http("GET", "/status", port=door.status_port)
                expect((status, body[:7]), (200, b"in part"), "the status")
                first = body.splitlines()[0]
                expect(b" old" in first, False, f"an age of replicas that do not serve: {first!r}")


def test_nobody_pays_for_a_registry_that_stands_still(trial: Trial) -> None:
    """One that was stopped in mid-answer, and goes on: who had asked it is answered at once
    then."""
    with Registries(trial, "still", worlds.DUMP, replicas=0) as registries:
        with Opened(trial, "still-door", registries.words) as door:
            number = registries.pid(0)
            os.kill(number, signal.SIGSTOP)
            asking = threading.Thread(target=lambda: door.whois("AS1", 2, 100))
            asking.start()
            time.sleep(8)
            registries.kill(0)
            registries.start(0)
            asking.join()
            wait_until("that it answers", 20, lambda: door.status()["upstreams"][0]["up"])
            begun = time.monotonic()
            expect(door.whois("AS2", 2), worlds.AS2 + b"\n", "an answer")
            expect(time.monotonic() - begun < 5, True, "how long it took")
        expect("Task was destroyed" in door.words_reported(), False, door.words_reported())

"""A server and its peers, one by one: where it listens, what it says where nobody is accepted, in
how many calls it reads, how long a peer is given, by a clock that runs fast, and what it does while
it is held still."""

import contextlib
import ctypes
import os
import signal
import socket
import stat
import struct
import subprocess
import time
from collections.abc import Callable, Iterator

import pytest

from checks.failing import NONE, Failing, number_in
from checks.hostile.sweeping import made_registry
from checks.model.queries import answer
from checks.pace import pace
from checks.running import Failure, Ran, Trial, expect, write
from checks.serving import GIVEN, Serving, free_port, read_all
from checks.texts import item
from checks.worked import SUBMISSIONS, opened

# It looks at times.
pytestmark = pytest.mark.alone
MANY_FILES = (
    "the program has too many open files: raise the limit, as `ulimit -n` shows it (system error"
    " 24)"
)
ROOT = answer(opened(), b"ROOT-MNT", 10_000)
# The most seconds of a wait.
LONGEST = 60
# How many inetnums a long dump has, and how many bytes each of them.
LARGE, SIZE = 60, 60_000
# The call of Linux that gives a file of another process.
LIBC, PIDFD_GETFD = ctypes.CDLL(None), 438
# How many times as fast the clock runs: 60 seconds of it are two here, or three.
FAST, SLOWER = 30, 20
# A posted body of the greatest size, which has no item, and how many bytes a read takes.
BODY, BLOCK = (b"%%%s\n" % (b"x" * 62)) * 16_384, 4_096
# A reader that takes so many bytes at once, and then none for so many seconds, again and again. It
# takes 10 KiB a second, and is to take 16.
AT_ONCE, PAUSE = 410 * 1_024, 41


@pytest.fixture(scope="module")
def folder(trial: Trial) -> str:
    """A registry whose dump is of 3.6 MB."""
    made = made_registry(trial, "listening", SUBMISSIONS["an inetnum"])
    texts = [
        item(b"inetnum", b"11.%d.0.0/16" % number, b"descr: %s\n" % (b"x" * SIZE))
        for number in range(LARGE)
    ]
    write(made, "large.rpsl", b"password: bc\n\n" + b"\n".join(texts))
    expect(trial.run(made, "submit", "s.toml", "large.rpsl").status, 0, "the large inetnums")
    return made


def failing_words(
    failing: Failing, kind: str, how: str, number: int, counted: str = "/dev/null"
) -> list[str]:
    """The words that start the program under the library of failing calls."""
    given = failing.environment(kind, how, number, counted)
    named = [f"{name}={given[name]}" for name in ("LD_PRELOAD", "FAILING", "FAILING_COUNT")]
    return ["env", *named, failing.trial.program]


@contextlib.contextmanager
def connected(port: int, window: int | None = None) -> Iterator[socket.socket]:
    with socket.socket() as peer:
        peer.settimeout(LONGEST)
        if window:
            peer.setsockopt(socket.SOL_SOCKET, socket.SO_RCVBUF, window)
        peer.connect(("127.0.0.1", port))
        yield peer


def wait_until(ended: Callable[[], bool], most: float) -> None:
    """Waits until something holds, which is looked at again and again."""
    most, start = min(most * pace(time.monotonic), LONGEST), time.monotonic()
    while not ended():
        if time.monotonic() - start > most:
            raise Failure(f"it is not so within {most:.0f} s")
        time.sleep(0.02)


# Where it listens, and what it says where nobody is accepted.


def test_it_listens_on_one_address_alone(trial: Trial, folder: str) -> None:
    with Serving([trial.program], folder, 2) as server:
        with socket.socket() as stranger:
            found = stranger.connect_ex(("127.0.0.2", server.port))
        with connected(server.port) as peer:
            peer.sendall(b"root-mnt\n")
            expect(read_all(peer), ROOT, "the answer on 127.0.0.1")
    expect(os.strerror(found), "Connection refused", "a connection to 127.0.0.2")


def served(failing: Failing, folder: str, how: str, number: int, count: int, asked: int) -> Ran:
    """How serving ends where this accept fails, with so many peers that ask by half a line."""
    port = free_port()
    words = failing_words(failing, "accept", how, number)
    with Serving(words, folder, count, port) as server:
        for _ in range(asked):
            with connected(port) as peer:
                peer.sendall(b"root-")
                time.sleep(0.3)
                peer.setsockopt(socket.SOL_SOCKET, socket.SO_LINGER, b"\1\0\0\0\0\0\0\0")
        # The first line was read, and maybe more with it.
        printed, reported = server.process.stdout.read(), server.process.stderr.read()
        status = server.process.wait(LONGEST)
        return Ran(status, printed, reported.replace(b"%d" % port, b"PORT"), 0.0, 0)


@pytest.mark.parametrize(
    "how, number, count, asked, status, reported",
    [
        ("once", 1, 1, 0, 5, MANY_FILES),
        ("on", 1, 3, 0, 5, MANY_FILES),
        ("once", 2, 2, 1, 5, MANY_FILES),
        # In the last turn somebody was accepted, and reset the connection.
        ("once", 1, 2, 1, 0, None),
    ],
)
def test_serve_says_why_nobody_could_be_accepted_in_its_last_turn(
    failing: Failing,
    folder: str,
    how: str,
    number: int,
    count: int,
    asked: int,
    status: int,
    reported: str | None,
) -> None:
    ran = served(failing, folder, how, number, count, asked)
    head = "irrdesk: 127.0.0.1:PORT: no connection could be accepted: "
    line = f"{head}{reported}\n" if reported else ""
    expect(
        (ran.status, ran.printed, ran.reported.decode()),
        (status, b"served 0, failed %d\n" % count, line),
        "how serving ended",
    )


def test_probe_says_why_it_could_not_be_accepted(failing: Failing, folder: str) -> None:
    ran = failing.run(folder, ["probe", "s.toml"], failing.environment("accept", "once", 1))
    reported = f"irrdesk: the program's own listener cannot be asked: {MANY_FILES}\n"
    expect((ran.status, ran.printed, ran.reported.decode()), (5, b"", reported), "how it ended")


# How it reads.


@pytest.mark.parametrize(
    "sent, reply, least, most",
    [
        pytest.param(
            b"GET /query/root-mnt HTTP/1.1\r\nA: %s\r\n\r\n" % (b"x" * 8_000),
            GIVEN + ROOT,
            1,
            100,
            id="a head of 8,000 bytes",
        ),
        # Some reads give less than a block, since no more has come yet.
        pytest.param(
            b"POST /submissions HTTP/1.1\r\nContent-Length: %d\r\n\r\n%s" % (len(BODY), BODY),
            GIVEN + b"% items 0\n",
            len(BODY) // BLOCK,
            4 * len(BODY) // BLOCK,
            id="a body of 1 MiB",
        ),
    ],
)
def test_a_request_is_read_in_few_calls(
    trial: Trial,
    failing: Failing,
    folder: str,
    sent: bytes,
    reply: bytes,
    least: int,
    most: int,
) -> None:
    """Not a call for each byte: a request that is sent at once, and its reply."""
    counted = os.path.join(trial.work, "calls")
    words = failing_words(failing, "peer", "once", NONE, counted)
    with Serving(words, folder, 1) as server, connected(server.port) as peer:
        peer.sendall(sent)
        expect(read_all(peer), reply, "the reply")
        peer.close()
        expect(server.process.communicate(timeout=LONGEST)[0], b"served 1, failed 0\n", "its end")
    calls = number_in(counted)
    expect(least < calls < most, True, f"whether {calls} calls are few, above {least}")


# How long a peer is given.


def waited(process: subprocess.Popen[bytes]) -> set[int]:
    """How many seconds the system waits for a peer in a read, of each connection of a process."""
    opened = os.pidfd_open(process.pid)
    found = set()
    for name in os.listdir(f"/proc/{process.pid}/fd"):
        number = LIBC.syscall(PIDFD_GETFD, opened, int(name), 0)
        expect(number >= 0, True, f"whether its file {name} can be looked at")
        if not stat.S_ISSOCK(os.fstat(number).st_mode):
            os.close(number)
            continue
        with socket.socket(fileno=number) as peer:
            if not peer.getsockopt(socket.SOL_SOCKET, socket.SO_ACCEPTCONN):
                given = peer.getsockopt(socket.SOL_SOCKET, socket.SO_RCVTIMEO, 16)
                found.add(struct.unpack("qq", given)[0])
    os.close(opened)
    return found


def test_the_system_waits_10_seconds_for_a_peer_that_says_nothing(
    trial: Trial, folder: str
) -> None:
    """As the connection says, since a busy machine makes all times long."""
    with Serving([trial.program], folder, 1) as server, connected(server.port) as peer:
        peer.sendall(b"root-")
        wait_until(lambda: waited(server.process) not in (set(), {0}), 10)
        expect(waited(server.process), {10}, "the seconds of its waits")
        peer.sendall(b"mnt\n")
        expect(read_all(peer), ROOT, "its answer")


def test_a_request_that_drips_is_cut_off_after_its_time(failing: Failing, folder: str) -> None:
    """After 60 seconds of its clock, a byte at a time; test_peers takes them of the wall's."""
    words = failing_words(failing, "clock", "fast", FAST)
    with Serving(words, folder, 1) as server, connected(server.port) as peer:
        peer.setblocking(False)

        def is_cut_off() -> bool:
            try:
                peer.sendall(b"a")
                return peer.recv(1) == b""
            except BlockingIOError:
                return False
            except OSError:
                return True

        wait_until(is_cut_off, 6)
        expect(server.process.communicate(timeout=LONGEST)[0], b"served 0, failed 1\n", "its end")


def test_a_reader_that_drips_is_cut_off_after_its_time(failing: Failing, folder: str) -> None:
    """After 60 seconds and one more for each 16 KiB, of which so few bytes come that they are
    none."""
    words = failing_words(failing, "clock", "fast", FAST)
    with Serving(words, folder, 1) as server, connected(server.port, 4_096) as peer:
        peer.sendall(b"GET /dump HTTP/1.1\r\n\r\n")

        def is_cut_off() -> bool:
            peer.recv(512)
            return server.process.poll() is not None

        wait_until(is_cut_off, 6)
        expect(server.process.communicate()[0], b"served 0, failed 1\n", "its end")


def test_a_reader_of_10_kib_a_second_is_cut_off(failing: Failing, folder: str) -> None:
    """It is given 60 seconds and one for each 16 KiB: 160, in which it takes 1.6 MB of the dump.
    Most of them pass in calls that wait for 10 seconds in vain, and are made again."""
    words = failing_words(failing, "clock", "fast", FAST)
    with Serving(words, folder, 1) as server, connected(server.port, 65_536) as peer:
        peer.sendall(b"GET /dump HTTP/1.1\r\n\r\n")
        taken = 0
        while part := peer.recv(AT_ONCE - taken % AT_ONCE):
            taken += len(part)
            if taken % AT_ONCE == 0:
                time.sleep(PAUSE / FAST)
        expect(server.process.communicate(timeout=LONGEST)[0], b"served 0, failed 1\n", "its end")
    expect(taken < 3_000_000, True, f"whether the {taken} bytes that it took are a part of it")


def test_a_steady_reader_is_given_longer_for_a_long_reply(failing: Failing, folder: str) -> None:
    """A dump that takes more than 60 seconds, at more than 16 KiB in each."""
    words = failing_words(failing, "clock", "fast", SLOWER)
    with Serving(words, folder, 1) as server, connected(server.port, 65_536) as peer:
        peer.sendall(b"GET /dump HTTP/1.1\r\n\r\n")
        start, parts, pause = time.monotonic(), [], 4.5 / (LARGE * SIZE / 65_536)
        while part := peer.recv(65_536):
            parts.append(part)
            left = start + pause * sum(map(len, parts)) / 65_536 - time.monotonic()
            time.sleep(max(left, 0))
        took, reply = time.monotonic() - start, b"".join(parts)
        expect(
            (reply[: len(GIVEN)], reply[-11:]),
            (GIVEN, b"\n\n%% end %d\n" % (LARGE + 5)),
            f"how the dump begins and ends, of {len(reply)} bytes",
        )
        expect(took > 3.5, True, f"whether {took:.1f} s are more than 60 of its clock")
        expect(server.process.communicate(timeout=LONGEST)[0], b"served 1, failed 0\n", "its end")


def test_a_reply_ends_at_once(trial: Trial, folder: str) -> None:
    """Also for a peer that does not end its side, at which the program looks for a second."""
    took = []
    with Serving([trial.program], folder, 5) as server:
        for _ in range(5):
            with connected(server.port) as peer:
                start = time.monotonic()
                peer.sendall(b"root-mnt\n")
                expect(read_all(peer), ROOT, "its answer")
                took.append(time.monotonic() - start)
    expect(min(took) < 0.8, True, f"whether {min(took):.2f} s, the least of five, are few")


# Held still.


def hold_still(process: subprocess.Popen[bytes]) -> None:
    """Holds a process still, and lets it go on: a call that waits for a peer is interrupted."""
    os.kill(process.pid, signal.SIGSTOP)
    os.waitid(os.P_PID, process.pid, os.WSTOPPED | os.WNOWAIT)
    os.kill(process.pid, signal.SIGCONT)
    time.sleep(0.1)


def test_a_peer_does_not_see_that_the_program_was_held_still(trial: Trial, folder: str) -> None:
    with Serving([trial.program], folder, 2) as server:
        with connected(server.port) as peer:
            peer.sendall(b"root-")
            time.sleep(0.3)
            for _ in range(3):
                hold_still(server.process)
            peer.sendall(b"mnt\n")
            expect(read_all(peer), ROOT, "the answer to a line that was awaited meanwhile")
        with connected(server.port, 4_096) as peer:
            peer.sendall(b"GET /dump HTTP/1.1\r\n\r\n")
            time.sleep(0.5)
            for _ in range(3):
                hold_still(server.process)
            expect(
                read_all(peer)[-11:],
                b"\n\n%% end %d\n" % (LARGE + 5),
                "the end of a dump that waited for its reader meanwhile",
            )
        expect(server.process.communicate(timeout=LONGEST)[0], b"served 2, failed 0\n", "its end")

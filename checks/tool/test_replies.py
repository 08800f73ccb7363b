"""Replies that come too slowly, or are too long, or not as long as was announced."""

import contextlib
import os
import signal
import socket
import subprocess
import sys
import tempfile
import threading
import time
import unittest
from collections.abc import Callable, Iterator
from pathlib import Path
from typing import Any
from unittest import mock

from checks.running import PATIENCE
from irr.errors import FAILED, Failure
from irr.registry import replies, server
from irr.registry.replies import Bounds
from irr.registry.server import SENT, Busy, Lost, Server, TooLarge

TOOLS = str(Path(__file__).resolve().parents[2] / "tools")
HEAD = b"HTTP/1.1 200 OK\r\nContent-Type: text/plain\r\nConnection: close\r\n"
OBJECT = b"aut-num:        AS1\nmnt-by:         A-MNT\nsource:         TEST\n\n"
DUMP = OBJECT + b"% end 1\n"
# The most seconds that a quick reply takes, on a machine that does other things.
SOON = 60


@contextlib.contextmanager
def answering(
    *pieces: bytes | list[bytes], pause: float = 0.0, is_reset: bool = False
) -> Iterator[Any]:
    """A registry at a server that sends these pieces, with a pause before each, or the last one for
    ever if there is none after it."""
    listener = socket.create_server(("127.0.0.1", 0))
    ended = threading.Event()

    def serve() -> None:
        with contextlib.suppress(OSError):
            peer, _ = listener.accept()
            with peer:
                peer.recv(1 << 20)
                for piece in pieces:
                    while True:
                        if ended.wait(pause):
                            return
                        peer.sendall(piece if isinstance(piece, bytes) else piece[0])
                        if isinstance(piece, bytes):
                            break
                if is_reset:
                    peer.setsockopt(socket.SOL_SOCKET, socket.SO_LINGER, b"\1\0\0\0\0\0\0\0")

    thread = threading.Thread(target=serve, daemon=True)
    thread.start()
    try:
        yield Server(f"http://127.0.0.1:{listener.getsockname()[1]}")
    finally:
        ended.set()
        listener.close()
        thread.join(10)


class Replies(unittest.TestCase):
    def fails(self, call: Callable[..., Any], words: str, kind: type[Failure] = Failure) -> None:
        with self.assertRaises(kind) as raised:
            call()
        self.assertRegex(str(raised.exception), words)
        self.assertEqual((raised.exception.status, str(raised.exception).count("\n")), (FAILED, 0))

    def test_bounds_leave_room(self) -> None:
        self.assertGreaterEqual(replies.DUMP.most, 10_000_000 * 1_000)
        self.assertLess(replies.DUMP.rate, 128 * 1_024)

    def test_a_slow_reply_is_given_up(self) -> None:
        slow = Bounds(0.2, 1 << 20)
        with mock.patch.multiple(replies, ANSWER=slow, DUMP=slow, REPORT=slow):
            for call in (lambda place: place.query("AS1"), lambda place: list(place.dump())):
                # In the head, in a head that is announced again and again, and in the body.
                for front in b"", HEAD, HEAD + b"\r\n" + OBJECT:
                    for drip in b"x", b"HTTP/1.1 100 Continue\r\n\r\n":
                        start = time.monotonic()
                        with answering(front, [drip], pause=0.02) as place:
                            self.fails(
                                lambda: call(place),
                                (
                                    "was not whole after 0 seconds; ask again later|does not speak"
                                    " HTTP|no registry of irrdesk"
                                ),
                            )
                        self.assertLess(time.monotonic() - start, 2)
            with answering([b"x"], pause=0.02) as place:
                self.fails(lambda: list(place.submit(b"x")), "irr diff FILE.*`unchanged`$", Lost)
        with mock.patch.multiple(replies, ANSWER=Bounds(SOON, 1 << 20)):
            with answering(HEAD + b"\r\n" + OBJECT) as place:
                self.assertEqual(len(place.query("AS1").objects()), 1)

    def test_a_reply_may_take_long_while_it_is_fast(self) -> None:
        """What comes fast enough may take longer, and is ended once it does not."""
        # It takes over three seconds, and is ahead of its time by one always.
        fast, slow = Bounds(2, 1 << 30, 5_000), Bounds(2, 1 << 30)
        pieces = [HEAD + b"\r\n", *([OBJECT * 10] * 20), b"% end 200\n"]
        with mock.patch.multiple(replies, DUMP=fast), answering(*pieces, pause=0.15) as place:
            self.assertEqual(sum(map(len, place.dump())), len(OBJECT) * 200 + 10)
        with mock.patch.multiple(replies, DUMP=slow), answering(*pieces, pause=0.15) as place:
            self.fails(lambda: list(place.dump()), "was not whole after")
        with (
            mock.patch.multiple(replies, DUMP=fast),
            answering(*pieces[:5], [b""], pause=0.15) as place,
        ):
            self.fails(lambda: list(place.dump()), "was not whole after")

    def test_a_slow_reader_is_no_slow_reply(self) -> None:
        """Who takes the answer may take longer than who gives it."""
        pieces = [HEAD + b"\r\n", *([OBJECT * 10] * 20), b"% end 200\n"]
        with mock.patch.multiple(replies, DUMP=Bounds(2, 1 << 30)), answering(*pieces) as place:
            dump = place.dump()
            first = next(dump)
            time.sleep(2.2)
            self.assertEqual(first + b"".join(dump), OBJECT * 200 + b"% end 200\n")

    def test_an_endless_reply_is_given_up(self) -> None:
        small = Bounds(60, 100_000)
        with mock.patch.multiple(replies, ANSWER=small, DUMP=small):
            for front in b"", HEAD + b"\r\n":
                for call in (lambda place: place.query("AS1"), lambda place: list(place.dump())):
                    with answering(
                        front, [OBJECT * 100 if front else b"HTTP/1.1 100 Continue\r\n\r\n" * 100]
                    ) as place:
                        self.fails(lambda: call(place), "has over 100,000 bytes; ask for less.*")
            with answering(HEAD + b"\r\n", [OBJECT * 100]) as place:
                place.most = 5_000
                self.fails(lambda: place.query("AS1"), "has over 5,000 bytes; ask for less.*")

    @mock.patch.object(replies, "LINGERING", 0.3)
    def test_a_length_is_one_decimal_number(self) -> None:
        good = b"%d" % len(OBJECT)
        spelled: list[list[bytes]] = [[good], [good, good], [b" " + good + b" "], []]
        for lengths in spelled:
            fields = b"".join(b"Content-Length:%s\r\n" % length for length in lengths)
            with answering(HEAD + fields + b"\r\n" + OBJECT) as place:
                self.assertEqual(place.query("AS1").text, OBJECT)
        bad = [
            [b"-1"],
            [b"x"],
            [b""],
            [b"+" + good],
            [good + b"_0"],
            [b"9" * 5_000],
            [b"9" * 19],
            [good, b"5"],
            [b"5", good],
            [good + b", " + good],
            [b"0x41"],
            ["\u0661".encode()],
            [good + b"\r\nTransfer-Encoding: chunked"],
        ]
        for lengths in bad:
            fields = b"".join(b"Content-Length: %s\r\n" % length for length in lengths)
            for call in (
                lambda place: place.query("AS1"),
                lambda place: list(place.dump()),
                lambda place: list(place.submit(b"x")),
            ):
                with answering(HEAD + fields + b"\r\n" + OBJECT) as place:
                    self.fails(lambda: call(place), "is not as long as the server says; .*")
        for more, words in [
            (b"x", "not as long as the server says"),
            (OBJECT, "not as long as the server says"),
            (b"\n", "not as long"),
        ]:
            with answering(HEAD + b"Content-Length: %s\r\n\r\n" % good + OBJECT + more) as place:
                self.fails(lambda: place.query("AS1"), words)
            with answering(
                HEAD + b"Content-Length: %s\r\n\r\n" % good + OBJECT, more, pause=0.1
            ) as place:
                self.fails(lambda: place.query("AS1"), words)
        with answering(HEAD + b"Content-Length: %d\r\n\r\n" % (len(OBJECT) + 1) + OBJECT) as place:
            self.fails(lambda: place.query("AS1"), "cut off")
        # A server that leaves the connection open has not sent more.
        with answering(
            HEAD + b"Content-Length: %s\r\n\r\n" % good + OBJECT, [b""], pause=3
        ) as place:
            self.assertEqual(place.query("AS1").text, OBJECT)


class Submissions(unittest.TestCase):
    """Where the text was sent and no report came, that is reported; where it was not taken, it is
    not."""

    def test_what_was_lost_may_be_registered(self) -> None:
        for pieces, is_reset in [
            ((), True),
            ((), False),
            ((b"HTTP/1.1 502 Bad Gateway\r\n\r\n",), False),
            ((b"HTTP/1.1 504 Gateway Timeout\r\n\r\n",), False),
            ((b"220 mail.example ESMTP\r\n",), False),
        ]:
            with answering(*pieces, is_reset=is_reset) as place, self.assertRaises(Lost) as raised:
                list(place.submit(b"x"))
            self.assertRegex(
                str(raised.exception),
                (
                    "(cut off|status 50.*|not speak HTTP); the text was sent, and items of it may"
                    " be registered: look by"
                ),
            )
            with (
                answering(*pieces, is_reset=is_reset) as place,
                self.assertRaises(Failure) as failed,
            ):
                place.query("AS1")
            self.assertNotIn("irr diff", str(failed.exception))

    def test_a_report_that_nobody_reads_may_be_registered(self) -> None:
        """The same where nobody reads the report, or it finds no room."""
        unread, pipe = os.pipe()
        os.close(unread)
        with open(pipe, "wb") as closed, open("/dev/full", "wb") as full:
            for out, status, words in (closed, -signal.SIGPIPE, "nobody reads it"), (
                full,
                FAILED,
                "no space left on device; look where it goes to",
            ):
                with answering(HEAD + b"\r\n1 mntner A-MNT: added\n% items 1\n") as place:
                    made = subprocess.run(
                        [sys.executable, "-B", "-m", "irr", "submit", "-s", place.url, "-"],
                        cwd=TOOLS,
                        input=b"mntner: A-MNT\n",
                        stdout=out,
                        stderr=subprocess.PIPE,
                        timeout=PATIENCE,
                        check=False,
                    )
                self.assertEqual(
                    (made.returncode, made.stderr.decode()),
                    (status, f"irr submit: standard output: {words}; {SENT}\n"),
                )

    def test_a_refusal_says_what_to_do(self) -> None:
        refusals: list[tuple[bytes, type[Failure]]] = [
            (b"413 Too Large", TooLarge),
            (b"401 Unauthorized", Failure),
            (b"429 Too Many\r\nRetry-After: 9999", Busy),
        ]
        for status, kind in refusals:
            with (
                answering(b"HTTP/1.1 %s\r\n\r\n" % status) as place,
                self.assertRaises(kind) as raised,
            ):
                list(place.submit(b"x"))
            self.assertNotIsInstance(raised.exception, Lost)


class Later(unittest.TestCase):
    def test_a_wait_is_read_in_seconds_or_is_later(self) -> None:
        """A wait of over a day, or of no number, is just later."""
        for asked, seconds in [
            ("0", 1),
            ("120", 120),
            ("86400", 86_400),
            ("86401", None),
            ("9" * 5_000, None),
            ("\u0663", None),
            ("soon", None),
            ("Thu, 01 Jan 1970 00:00:00 GMT", 1),
            ("Thu, 01 Jan 2970 00:00:00 GMT", None),
            ("", None),
        ]:
            self.assertEqual(server.seconds_of(asked), seconds)
        with answering(b"HTTP/1.1 429 Too Many\r\nRetry-After: 999999999\r\n\r\n") as place:
            self.assertRaisesRegex(Failure, "status 429: .*; ask again later$", place.query, "AS1")


class Netrc(unittest.TestCase):
    def found(self, text: bytes, mode: int = 0o600) -> str | dict[str, str]:
        with tempfile.TemporaryDirectory() as folder:
            path = os.path.join(folder, "netrc")
            with open(path, "wb") as out:
                out.write(text)
            os.chmod(path, mode)
            with mock.patch.dict(os.environ, {"NETRC": path}):
                try:
                    return Server("http://127.0.0.1:1").credentials()
                except Failure as failure:
                    self.assertIn(path, str(failure))
                    self.assertNotIn("sesame", str(failure))
                    return failure.what

    def test_netrc_gives_the_password_of_its_host_alone(self) -> None:
        line = b"machine 127.0.0.1 login me password sesame\n"
        self.assertEqual(self.found(line), {"Authorization": "Basic bWU6c2VzYW1l"})
        self.assertEqual(self.found(line.replace(b"127", b"128")), {})
        for text in (
            line + b"sesame\n",
            b"machine",
            line[:-1] + b" sesame x\n",
            b"macdef x\nsesame",
            line.replace(b"me", b"\xff", 1) + b"\xff",
        ):
            self.assertIn("write lines `machine HOST", self.found(text), text)
        for mode in 0o640, 0o604, 0o620, 0o601:
            self.assertEqual(self.found(line, mode), "others can read it; chmod 600 it")

    def test_a_netrc_that_is_not_there_gives_none(self) -> None:
        with tempfile.TemporaryDirectory() as folder:
            for path in (
                folder,
                os.path.join(folder, "none"),
                os.path.join(folder, "none", "x"),
                "/dev/null/x",
            ):
                os.chmod(folder, 0o755)
                with mock.patch.dict(os.environ, {"NETRC": path}):
                    self.assertRaisesRegex(
                        Failure,
                        f"^{path}: it cannot be opened: .*; correct NETRC$",
                        Server("http://127.0.0.1:1").credentials,
                    )
            # Nobody writes into this one: who opens it waits.
            pipe = os.path.join(folder, ".netrc")
            os.mkfifo(pipe, 0o600)
            for given, words in (pipe, "correct NETRC"), ("", "look at it"):
                with mock.patch.dict(os.environ, {"NETRC": given, "HOME": folder}):
                    self.assertRaisesRegex(
                        Failure,
                        f"^{pipe}: it cannot be opened: not a file; {words}$",
                        Server("http://127.0.0.1:1").credentials,
                    )
            os.remove(pipe)
            with mock.patch.dict(os.environ, {"NETRC": "", "HOME": folder}):
                self.assertEqual(Server("http://127.0.0.1:1").credentials(), {})


if __name__ == "__main__":
    unittest.main()

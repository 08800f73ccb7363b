"""Answers whose end is missing: over TLS, and where a cut can't be told from an end."""

import contextlib
import socket
import ssl
import threading
from collections.abc import Callable, Iterator
from pathlib import Path

import pytest

from checks import worlds
from irr.errors import FAILED, Failure
from irr.registry import replies
from irr.registry.server import Server
from irr.views import downloads

HEAD = b"HTTP/1.1 200 OK\r\nContent-Type: text/plain\r\nConnection: close\r\n"
END = b"origin:         AS1\nmnt-by:         A-MNT\nsource:         T\n\n"
ONE = b"route:          10.%d.0.0/16\n" + END
TWO = ONE % 1 + ONE % 2


@pytest.fixture(name="certificate", scope="module")
def _certificate(tmp_path_factory: pytest.TempPathFactory) -> tuple[str, str]:
    """A certificate of 127.0.0.1, signed by itself, and its key."""
    return worlds.certificate(str(tmp_path_factory.mktemp("tls")))


@contextlib.contextmanager
def over_tls(
    certificate: tuple[str, str],
    reply: bytes | bytearray,
    has_end: bool,
    monkeypatch: pytest.MonkeyPatch,
) -> Iterator[Server]:
    """A server that gives a reply over TLS, and ends with close_notify or without."""
    context = ssl.SSLContext(ssl.PROTOCOL_TLS_SERVER)
    context.load_cert_chain(*certificate)
    listener = socket.create_server(("127.0.0.1", 0))

    def serve() -> None:
        with contextlib.suppress(OSError):
            while True:
                peer, _ = listener.accept()
                with contextlib.suppress(OSError):
                    held = context.wrap_socket(peer, server_side=True)
                    held.recv(65_536)
                    held.sendall(reply)
                    if has_end:
                        held.unwrap()
                    held.shutdown(socket.SHUT_RDWR)
                    held.close()

    threading.Thread(target=serve, daemon=True).start()
    monkeypatch.setenv("SSL_CERT_FILE", certificate[0])
    try:
        yield Server(f"https://127.0.0.1:{listener.getsockname()[1]}")
    finally:
        listener.close()


CALLS: list[Callable[[Server], object]] = [
    lambda place: place.query_surely("inverse origin AS1").text,
    lambda place: place.query("inverse origin AS1").text,
]


@pytest.mark.parametrize("call", CALLS)
@pytest.mark.parametrize("reply", [HEAD + b"\r\n" + TWO, HEAD + b"\r\n" + ONE % 1])
def test_end_without_close_notify_is_a_cut(
    certificate: tuple[str, str],
    monkeypatch: pytest.MonkeyPatch,
    call: Callable[[Server], object],
    reply: bytes,
) -> None:
    with over_tls(certificate, reply, True, monkeypatch) as place:
        assert call(place) == reply.partition(b"\r\n\r\n")[2]
    with over_tls(certificate, reply, False, monkeypatch) as place:
        with pytest.raises(Failure, match="the answer was cut off; ask again") as raised:
            call(place)
        assert raised.value.status == FAILED


LIST = b"10.1.0.0/16\n10.2.0.0/16^24\n% missing AS-X\n"
CHUNKS = b"10\r\n%s\r\n" % LIST[:16] + b"1a\r\n%s\r\n0\r\n\r\n" % LIST[16:]
FRAMED = {
    "without a length": HEAD + b"\r\n" + LIST,
    "with a length": HEAD + b"Content-Length: %d\r\n\r\n" % len(LIST) + LIST,
    "in chunks": HEAD + b"Transfer-Encoding: chunked\r\n\r\n" + CHUNKS,
}


@pytest.mark.parametrize("framed", FRAMED)
@pytest.mark.parametrize("has_end", [False, True])
def test_no_part_of_a_list_is_the_list(
    certificate: tuple[str, str], monkeypatch: pytest.MonkeyPatch, framed: str, has_end: bool
) -> None:
    """Wherever it is cut. One whose length nobody tells may end behind a line, with close_notify,
    as a shorter one would: then it is asked for again."""
    monkeypatch.setattr(replies, "LINGERING", 0.01)
    whole, part = FRAMED[framed], bytearray()
    begin = whole.index(LIST[:11])
    with over_tls(certificate, part, has_end, monkeypatch) as place:

        def answered() -> bytes | None:
            with contextlib.suppress(Failure):
                return place.query("prefixes", "RS-X").text
            return None

        for end in [0, 9, begin - 1, *range(begin, len(whole))]:
            part[:] = whole[:end]
            can_be: tuple[bytes | None, ...] = (None,)
            if framed == "without a length" and has_end and end > begin and part.endswith(b"\n"):
                can_be = (bytes(part[begin:]),)
            elif framed == "in chunks" and end > len(whole) - len(b"0\r\n\r\n"):
                # All of it is there, and a chunk of nothing has begun.
                can_be = None, LIST
            assert answered() in can_be, (end, bytes(part))
        part[:] = whole
        wanted = LIST if has_end or framed != "without a length" else None
        assert answered() == wanted


def test_python_takes_no_such_end_for_a_good_one(
    certificate: tuple[str, str], monkeypatch: pytest.MonkeyPatch
) -> None:
    """Some releases of Python name it SSLEOFError, which they suppress unless they are told."""
    with over_tls(certificate, HEAD, True, monkeypatch) as place:
        connection = place.connect(replies.ANSWER)
        with contextlib.closing(connection):
            assert isinstance(connection.sock, ssl.SSLSocket)
            assert getattr(connection.sock, "suppress_ragged_eofs") is False


def test_cut_dump_over_tls(certificate: tuple[str, str], monkeypatch: pytest.MonkeyPatch) -> None:
    reply = HEAD + b"\r\n" + TWO + b"% end 2\n"
    with over_tls(certificate, reply, False, monkeypatch) as place, pytest.raises(Failure):
        list(place.dump())


def test_cut_dump_of_a_view_over_tls(
    certificate: tuple[str, str], tmp_path: Path, monkeypatch: pytest.MonkeyPatch
) -> None:
    """Its sources tell no end of their own, and may announce no length."""
    for length in b"", b"Content-Length: %d\r\n" % len(TWO):
        for has_end in True, False:
            reply = HEAD + length + b"\r\n" + TWO
            with over_tls(certificate, reply, has_end, monkeypatch) as place:
                if has_end or length:
                    downloads.taken(place.url, False, "", tmp_path / "part")
                    assert (tmp_path / "part").read_bytes() == TWO
                    continue
                with pytest.raises(Failure, match="it cannot be fetched"):
                    downloads.taken(place.url, False, "", tmp_path / "part")


def test_a_view_asks_only_whom_it_knows(
    certificate: tuple[str, str], tmp_path: Path, monkeypatch: pytest.MonkeyPatch
) -> None:
    with over_tls(certificate, HEAD + b"\r\n" + TWO, True, monkeypatch) as place:
        monkeypatch.setenv("SSL_CERT_FILE", "/dev/null")
        with pytest.raises(Failure, match="certificate"):
            downloads.taken(place.url, False, "", tmp_path / "part")
        other = place.url.replace("127.0.0.1", "localhost")
        monkeypatch.setenv("SSL_CERT_FILE", certificate[0])
        with pytest.raises(Failure, match="localhost"):
            downloads.taken(other, False, "", tmp_path / "part")


def test_cut_head_over_tls(certificate: tuple[str, str], monkeypatch: pytest.MonkeyPatch) -> None:
    for reply in b"", HEAD[:20], HEAD:
        with over_tls(certificate, reply, False, monkeypatch) as place:
            with pytest.raises(Failure, match="cut off|does not speak HTTP|not a registry"):
                place.query("AS1")


def test_answer_of_its_length_is_whole(
    certificate: tuple[str, str], monkeypatch: pytest.MonkeyPatch
) -> None:
    """RFC 9112, 9.8: a message whose length was announced ends there, whatever the connection
    does."""
    monkeypatch.setattr(replies, "LINGERING", 0.3)
    length = b"Content-Length: %d\r\n\r\n"
    with over_tls(certificate, HEAD + length % len(TWO) + TWO, False, monkeypatch) as place:
        assert place.query("inverse origin AS1").text == TWO
    with over_tls(certificate, HEAD + length % (len(TWO) + 1) + TWO, False, monkeypatch) as place:
        with pytest.raises(Failure, match="cut off"):
            place.query("inverse origin AS1")


class Turns(Server):
    """A registry that gives these answers in turn, and then the last one."""

    def __init__(self, *texts: bytes) -> None:
        super().__init__("http://127.0.0.1:1")
        self.texts, self.count = list(texts), 0

    def ask(self, *_: object) -> bytes:  # type: ignore[override]  # it stands for a reply
        self.count += 1
        return self.texts[min(self.count, len(self.texts)) - 1]

    def body_of(self, reply: bytes) -> Iterator[bytes]:  # type: ignore[override]  # as above
        yield reply


LINES = [b"10.0.0.0/16\n", b"10.0.0.0/16\n10.1.0.0/16\n", b"10.2.0.0/16\n"]


@pytest.mark.parametrize(
    ("turns", "wanted", "count"),
    [
        ([1, 1], 1, 2),
        ([0, 1, 1], 1, 3),
        ([1, 0, 1, 1], 1, 4),
        ([2, 1, 1], 1, 3),
        ([1, 2, 2], 2, 3),
        # The first one went on where the two that agree end.
        ([1, 0, 0, 0], None, 4),
        ([1, 0, 0, 1, 1], None, 4),
        ([0, 1, 2, 0, 0], None, 4),
    ],
)
def test_two_in_a_row_have_to_agree(turns: list[int], wanted: int | None, count: int) -> None:
    place = Turns(*(LINES[turn] for turn in turns))
    if wanted is None:
        with pytest.raises(Failure, match="two answers differ"):
            place.query_surely("prefixes", "AS1:AS-X")
    else:
        assert place.query_surely("prefixes", "AS1:AS-X").text == LINES[wanted]
    assert place.count == count


@pytest.mark.parametrize("sign", ["\n", "\r", "\t", " ", "\x00", "\x1b", "\u2028", "\x85", "\xa0"])
def test_addresses_are_one_word(sign: str) -> None:
    for url in "http://127.0.0.1{}:4343", "http://127.0.0.1:4343/{}", "{}http://127.0.0.1:4343":
        for given in url.format(sign), url.format(sign + "x"):
            with pytest.raises(Failure, match="this is not an address"):
                Server(given)

"""HAProxy and nginx before whois: the door learns by the PROXY protocol whose connection it is."""

import contextlib
import os
import shutil
import socket
import struct
import subprocess
import time
from collections.abc import Iterator
from pathlib import Path

import pytest

from checks.door import worlds
from checks.door.opened import Opened, Registries, has_no_trace, read_all, wait_until
from checks.running import Each, Trial, expect, write
from checks.serving import free_port
from irr.door import proxy_protocol

STREAM = "/usr/lib/nginx/modules/ngx_stream_module.so"
HAPROXY = """defaults
    mode tcp
    timeout connect 5s
    timeout client 60s
    timeout server 60s
listen whois
    bind 127.0.0.1:{port}
    server door 127.0.0.1:{door} {send}
"""
NGINX = """{module}pid {folder}/pid;
error_log {folder}/log;
daemon off;
events {{ worker_connections 400; }}
stream {{
    server {{ listen 127.0.0.1:{port}; proxy_pass 127.0.0.1:{door}; proxy_protocol on; }}
}}
"""
PROXIES = {
    "haproxy send-proxy": (HAPROXY, "send-proxy"),
    "haproxy send-proxy-v2": (HAPROXY, "send-proxy-v2"),
    "nginx proxy_protocol": (NGINX, ""),
}
FIRST = b"PROXY TCP4 192.0.2.7 192.0.2.1 4000 43\r\n"


def second(address: str, command: int = 0x21, family: int = 0x11, more: bytes = b"") -> bytes:
    packed = ipv(address) * 2 + struct.pack(">HH", 4_000, 43) + more
    return (
        proxy_protocol.SECOND + bytes([command, family]) + struct.pack(">H", len(packed)) + packed
    )


def ipv(address: str) -> bytes:
    return socket.inet_pton(socket.AF_INET6 if ":" in address else socket.AF_INET, address)


@pytest.fixture(scope="module")
def registries(trial: Trial) -> Iterator[Registries]:
    with Registries(trial, "registries", worlds.DUMP, replicas=0) as made:
        yield made


@pytest.fixture(scope="module")
def door(trial: Trial, registries: Registries) -> Iterator[Opened]:
    settings = 'proxied = true\ntrusted = ["127.0.0.1"]\nof_client = 6\n'
    with Opened(trial, "door", registries.words, settings) as opened:
        yield opened


@contextlib.contextmanager
def proxy(trial: Trial, door: Opened, name: str) -> Iterator[int]:
    """The port of a proxy before the door."""
    config, send = PROXIES[name]
    kind = name.split()[0]
    if not shutil.which(kind) or (kind == "nginx" and not has_stream()):
        pytest.skip(f"{kind} is not here, or has no streams")
    folder, port = trial.place(name.replace(" ", "-")), free_port()
    module = f"load_module {STREAM};\n" if os.path.exists(STREAM) else ""
    words = {"port": port, "door": door.whois_port, "send": send, "folder": folder}
    path = write(folder, "config", config.format(module=module, **words).encode())
    command = ["haproxy", "-db", "-f", path] if kind == "haproxy" else ["nginx", "-c", path]
    with open(os.path.join(folder, "reported"), "wb") as reported:
        process = subprocess.Popen(command, stdout=reported, stderr=reported, cwd=folder)
    try:
        wait_until(name, 30, lambda: listens(port) or process.poll() is not None)
        expect(process.poll(), None, Path(folder, "reported").read_text(encoding="utf-8"))
        yield port
    finally:
        process.terminate()
        process.wait(20)


def has_stream() -> bool:
    reported = subprocess.run(["nginx", "-V"], capture_output=True, text=True, check=False).stderr
    return os.path.exists(STREAM) or "--with-stream " in reported


def listens(port: int) -> bool:
    with contextlib.suppress(OSError), socket.create_connection(("127.0.0.1", port), 1):
        return True
    return False


@pytest.mark.parametrize("name", PROXIES)
def test_a_client_behind_a_proxy_is_known_by_its_own_address(
    trial: Trial, door: Opened, name: str
) -> None:
    with proxy(trial, door, name) as port:
        peers = [door.connect(port, 50) for _ in range(6)]
        try:
            for peer in peers:
                peer.sendall(b"!!\n!s-lc\n")
                expect(peer.recv(64), b"A5\nTEST\nC\n", "an answer")
            with door.connect(port, 50) as peer:
                peer.sendall(b"AS1\n")
                expect(b"connections of yours" in read_all(peer), True, "a seventh")
            with door.connect(port, 51) as peer:
                peer.sendall(b"AS1\r\n")
                expect(read_all(peer), worlds.AS1 + b"\n", "another client")
        finally:
            for peer in peers:
                peer.close()
        if shutil.which("whois"):
            words = ["whois", "-h", "127.0.0.1", "-p", str(port), "AS1"]
            printed = subprocess.run(words, capture_output=True, timeout=60, check=False).stdout
            expect(worlds.AS1 in printed.replace(b"\r", b""), True, "Debian's whois")


def test_a_header_is_taken_of_trusted_addresses_alone(door: Opened, each: Each) -> None:
    for text, last, wanted in [
        (FIRST + b"AS1\r\n", 1, worlds.AS1 + b"\n"),
        (b"PROXY UNKNOWN\r\nAS1\r\n", 1, worlds.AS1 + b"\n"),
        (second("192.0.2.7") + b"AS1\r\n", 1, worlds.AS1 + b"\n"),
        (second("2001:db8::7", family=0x21, more=b"\4\0\1x") + b"AS1\n", 1, worlds.AS1 + b"\n"),
        (second("192.0.2.7", command=0x20) + b"AS1\r\n", 1, worlds.AS1 + b"\n"),
        (b"AS1\r\n", 1, b"% the proxy does not say"),
        (b"PROXY TCP4 nonsense\r\nAS1\r\n", 1, b"% the proxy does not say"),
        (second("192.0.2.7", command=0x31) + b"AS1\r\n", 1, b"% the proxy does not say"),
        (b"", 1, b""),
        (FIRST[:9], 1, b""),
        (b"AS1\r\n", 9, worlds.AS1 + b"\n"),
        (FIRST + b"AS1\r\n", 9, b"% This is the TEST registry"),
    ]:
        with each(f"{text[:40]!r} from 127.0.0.{last}"), door.connect(
            door.whois_port, last
        ) as peer:
            peer.sendall(text)
            peer.shutdown(socket.SHUT_WR)
            answer = read_all(peer)
            expect(answer[: len(wanted)] if wanted else answer, wanted, f"{text!r}")


def test_a_header_may_come_byte_by_byte() -> None:
    for text in FIRST, second("192.0.2.7", more=b"\4\0\1x"):
        for size in range(len(text)):
            expect(proxy_protocol.read(text[:size]), None, f"{size} bytes of {text!r}")
        header = proxy_protocol.read(text + b"AS1\r\n")
        expect(header, proxy_protocol.Header("192.0.2.7", len(text)), f"{text!r}")
    expect(
        proxy_protocol.read(second("2001:db8::7", family=0x21)).address, "2001:db8::7", "version 6"
    )


UNNAMED = b"% the proxy does not say"
LINE_FEED_ALONE = FIRST.replace(b"\r", b"")


def sent(door: Opened, *parts: bytes) -> bytes:
    """All that comes of a text that the proxy sends in parts, and ends."""
    with contextlib.closing(door.connect(door.whois_port)) as peer:
        peer.setsockopt(socket.IPPROTO_TCP, socket.TCP_NODELAY, 1)
        for number, part in enumerate(parts):
            time.sleep(0.002 if number else 0)
            peer.sendall(part)
        peer.shutdown(socket.SHUT_WR)
        return read_all(peer)


@pytest.mark.parametrize("header", [FIRST, second("192.0.2.7", more=b"\4\0\1x")])
def test_a_header_may_be_cut_anywhere(door: Opened, header: bytes) -> None:
    """Within it, before its query or with it; or for good, which is no query."""
    text = header + b"!!\nAS1\n!gAS1\n"
    wanted = sent(door, text)
    expect(worlds.AS1 in wanted, True, "the answers")
    for place in range(1, len(text)):
        expect(sent(door, text[:place], text[place:]), wanted, f"cut after {place} bytes")
    slow = [text[place : place + 1] for place in range(len(text))]
    expect(sent(door, *slow), wanted, "byte by byte")
    for place in range(len(header)):
        expect(sent(door, text[:place]), b"", f"the first {place} bytes alone")
    has_no_trace(door)


@pytest.mark.parametrize(
    "header,wanted",
    [
        (proxy_protocol.SECOND + b"\x21\x11\0\0", UNNAMED),
        (proxy_protocol.SECOND + b"\x21\x11\0\x0b" + bytes(11), UNNAMED),
        (proxy_protocol.SECOND + b"\x21\x21\0\x23" + bytes(35), UNNAMED),
        (proxy_protocol.SECOND + b"\x21\x11\x10\x01", UNNAMED),
        (proxy_protocol.SECOND + b"\x21\x11\xff\xff" + bytes(12), UNNAMED),
        (proxy_protocol.SECOND + b"\x11\x11\0\x0c" + bytes(12), UNNAMED),
        (proxy_protocol.SECOND + b"\x21\x11\0\xff" + bytes(12), b""),
        (proxy_protocol.SECOND + b"\x21\x31\0\x0c" + bytes(12), worlds.AS1 + b"\n"),
        (proxy_protocol.SECOND + b"\x20\0\0\0", worlds.AS1 + b"\n"),
        (FIRST[:-2] + b" " * 100, UNNAMED),
        (FIRST[:-2] + b" " * 10_000 + b"\r\n", UNNAMED),
        (LINE_FEED_ALONE, UNNAMED),
        (b"PROXY TCP4 192.0.2.7 192.0.2.1 4000 65536\r\n", UNNAMED),
        (LINE_FEED_ALONE * 3, UNNAMED),
        (b"PROXY  \r\n", UNNAMED),
        (b"PROXY TCP4 192.0.2.7\r\n", UNNAMED),
        (b"PROXY TCP6 192.0.2.7 192.0.2.1 1 43\r\n", UNNAMED),
        (b"PROXY TCP4 \xff\xfe 192.0.2.1 1 43\r\n", UNNAMED),
        (b"proxy TCP4 192.0.2.7 192.0.2.1 1 43\r\n", UNNAMED),
    ],
)
def test_a_header_of_false_length_or_form_names_nobody(
    door: Opened, header: bytes, wanted: bytes
) -> None:
    for text in header + b"AS1\r\n", header + b"AS1\r\n" + b"x" * 200:
        answer = sent(door, text)
        if wanted or len(text) < 100:
            expect(answer[: len(wanted)] if wanted else answer, wanted, f"{text[:60]!r}")
    has_no_trace(door)


def test_a_header_that_does_not_end_holds_no_connection(trial: Trial, each: Each) -> None:
    with Registries(trial, "half", worlds.DUMP, replicas=0) as registries:
        config = 'proxied = true\ntrusted = ["127.0.0.1"]\npatience = 1\n'
        with Opened(trial, "half-door", registries.words, config) as door:
            for header in FIRST, second("192.0.2.7"):
                for size in 0, 1, len(header) - 1, len(header):
                    with each(f"{size} bytes of {header[:20]!r}"):
                        with contextlib.closing(door.connect(door.whois_port, 1, 300)) as peer:
                            peer.sendall(header[:size])
                            expect(read_all(peer), b"", "what comes before it is ended")


def test_addresses_of_a_56_are_one_client(door: Opened) -> None:
    peers = []
    try:
        for number in range(6):
            peers.append(door.connect(door.whois_port))
            header = second(f"2001:db8:0:1{number}0::{number}", family=0x21)
            peers[-1].sendall(header + b"!!\n!s-lc\n")
            expect(peers[-1].recv(64), b"A5\nTEST\nC\n", "an answer")
        answer = sent(door, second("2001:db8:0:1ff::1", family=0x21) + b"AS1\n")
        expect(b"connections of yours" in answer, True, f"a seventh: {answer!r}")
        answer = sent(door, second("2001:db8:0:200::1", family=0x21) + b"AS1\n")
        expect(answer, worlds.AS1 + b"\n", "another client")
        for field, status in ("2001:db8:0:1a0::9", 429), ("2001:db8:0:2a0::9", 200):
            reply = door.http("GET", "/query/AS1", X_Forwarded_For=field)
            expect(reply[0], status, f"over HTTP, for {field}")
    finally:
        for peer in peers:
            peer.close()


def test_no_client_takes_all_that_a_proxy_of_http_has(door: Opened) -> None:
    """Six requests of one client are on their way through a proxy: another client's is answered."""
    body = b"POST /submissions HTTP/1.1\r\nX-Forwarded-For: 192.0.2.%d\r\nContent-Length: 9\r\n\r\n"
    peers = [door.connect(door.http_port) for _ in range(7)]
    try:
        for peer in peers:
            peer.sendall(body % 7)
        ended = [peer for peer in peers if is_answered(peer)]
        expect(len(ended), 1, "how many of seven are refused")
        expect(ended[0].recv(20).split(b" ")[1], b"429", "the status")
        expect(door.http("GET", "/query/AS1", X_Forwarded_For="192.0.2.8")[0], 200, "another's")
    finally:
        for peer in peers:
            peer.close()


def is_answered(peer: socket.socket) -> bool:
    peer.settimeout(0.5)
    with contextlib.suppress(TimeoutError):
        return bool(peer.recv(1, socket.MSG_PEEK))
    return False

"""A client that checks what it is answered: asker.py HTTP WHOIS COUNT LANES FILE, run in a network
of its own.

It asks over HTTP and by whois in turn. FILE has lines of JSON, `[query, answer]`; of an answer with
a line `version N` each N is taken. For each answer it prints its times, its way, and N, or `wrong`
and what came."""

import json
import re
import socket
import sys
import threading
import time
import urllib.parse

VERSION = re.compile(rb"version [0-9]+")


def read_all(peer: socket.socket) -> bytes:
    parts = []
    while part := peer.recv(65_536):
        parts.append(part)
    return b"".join(parts)


def ask_whois(place: tuple[str, int], query: bytes) -> bytes:
    with socket.create_connection(place, 60) as peer:
        peer.sendall(query + b"\r\n")
        return read_all(peer)


def ask_http(place: tuple[str, int], query: bytes) -> bytes:
    with socket.create_connection(place, 60) as peer:
        peer.sendall(
            b"GET /query/%s HTTP/1.1\r\nHost: irr.example.net\r\nConnection: close\r\n\r\n"
            % urllib.parse.quote(query, safe="").encode()
        )
        head, _, body = read_all(peer).partition(b"\r\n\r\n")
    return body if head.startswith(b"HTTP/1.1 200 ") else head + body


def place_of(text: str) -> tuple[str, int]:
    host, _, port = text.partition(":")
    return host, int(port)


def main() -> None:
    http, whois, count, lanes = (
        place_of(sys.argv[1]),
        place_of(sys.argv[2]),
        int(sys.argv[3]),
        int(sys.argv[4]),
    )
    with open(sys.argv[5], encoding="utf-8") as file:
        wanted = [
            (query.encode("latin-1"), answer.encode("latin-1"))
            for query, answer in map(json.loads, file)
        ]
    guard = threading.Lock()

    def lane(number: int) -> None:
        for turn in range(number, count, lanes):
            query, answer = wanted[turn // 2 % len(wanted)]
            way, ask, place = [("http", ask_http, http), ("whois", ask_whois, whois)][turn % 2]
            start = time.time()
            try:
                came = ask(place, query)
            except OSError as error:
                came = repr(error).encode()
            found = VERSION.search(came)
            is_right = VERSION.sub(b"version 0", came) == answer
            reported = (
                (found[0].split()[1].decode() if found else "-")
                if is_right
                else f"wrong {query!r} {came[:300]!r}"
            )
            with guard:
                print(f"{start:.3f} {time.time():.3f} {way} {reported}", flush=True)

    threads = [threading.Thread(target=lane, args=(number,)) for number in range(lanes)]
    for thread in threads:
        thread.start()
    for thread in threads:
        thread.join()


main()

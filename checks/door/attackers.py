"""What strangers do to a registry that is reached through a door: dear queries and submissions,
each from an address of its own."""

import contextlib
import hashlib
import itertools
import random
import socket
import string
import sys
import threading
import time

OPERATORS = ["", "^+", "^-"] + [f"^{low}-{high}" for low in range(33) for high in range(low, 33)]
# The bytes of one submission.
MOST = 65_000
LETTERS = string.ascii_letters + string.digits


def digest(salt: str, secret: str) -> str:
    return hashlib.sha256(f"{salt}{secret}".encode()).hexdigest()


def maintainer(name: str, secret: str, salt: str = "s") -> str:
    auth = f"SHA256-PW {salt}:{digest(salt, secret)}"
    return f"mntner: {name}\nauth: {auth}\nmnt-by: {name}\nsource: TEST\n\n"


def ring(count: int, size: int = MOST) -> str:
    """Route-sets, each of which lists each under as many operators as fit; one of them has a range
    that takes 561 forms."""
    chance = random.Random(1)
    names = [f"RS-{number:x}" for number in range(count)]
    made = []
    for place, name in enumerate(names):
        operators = OPERATORS[:]
        chance.shuffle(operators)
        listed, room = (["0.0.0.0/0"] if place == 0 else []), size
        for item in (other + operator for operator in operators for other in names):
            room -= len(item) + 1
            if room < 0:
                break
            listed.append(item)
        made.append(f"route-set: {name}\nmembers: {','.join(listed)}\nmnt-by: E\nsource: TEST\n\n")
    return "".join(made)


def salted(count: int) -> str:
    """Maintainers of some 700 salts each."""
    salts = map("".join, itertools.product(LETTERS, repeat=3))
    made = []
    for number in range(count):
        lines = [f"mntner: M{number}", f"mnt-by: M{number}", "source: TEST"]
        size = 60
        while size < MOST:
            lines.append(f"auth: SHA256-PW {next(salts)}:{size:064x}")
            size += len(lines[-1]) + 10
        made.append("\n".join(lines) + "\n\n")
    return "".join(made)


def guesses(count: int, passwords: int = 32) -> str:
    """A submission that names all of these, and tries so many passwords."""
    front = "".join(f"password: {number:05}\n" for number in range(passwords))
    names = ",".join(f"M{number}" for number in range(count))
    return f"{front}\nas-set: AS-GUESS\nmnt-by: {names}\nsource: TEST\n"


def named(count: int) -> str:
    """Names of maintainers, and a set that names all of them."""
    capitals, both = string.ascii_uppercase, string.ascii_uppercase + string.digits
    words = map("".join, itertools.product(capitals, both, both))
    names = list(
        itertools.islice(
            (word for word in words if word[:2] not in ("AS", "RS", "FL", "PR", "AN")), count
        )
    )
    own = "".join(
        f"mntner: {name}\nmnt-by: {name}\nsource: TEST\nauth: SHA256-PW s:{digest('s', 'e')}\n\n"
        for name in names
    )
    return own + f"as-set: AS-T\nmnt-by: {','.join(names)}\nsource: TEST\n\n"


DELETIONS = "password: x\n\n" + "as-set: AS-T\ndelete:\n\n" * 990


class Attack:
    """Strangers that ask and submit as fast as they are answered."""

    def __init__(self, whois: int, http: int, until: float) -> None:
        self.whois, self.http, self.until = whois, http, until
        self.asked = 0

    def run(self, number: int, maintainers: int) -> None:
        address = f"127.0.0.{10 + number}"
        chance = random.Random(number)
        body = (guesses(maintainers) if number % 2 else DELETIONS).encode()
        kind = number % 5
        while time.monotonic() < self.until:
            try:
                if kind == 0:
                    self.ask(address, f"prefixes RS-{chance.randrange(16):x}")
                elif kind == 1:
                    self.ask(
                        address,
                        chance.choice(
                            [
                                "inverse mnt ROOT-MNT",
                                "more 0.0.0.0/0",
                                f"more {chance.randrange(1, 6)}.0.0.0/8",
                            ]
                        ),
                    )
                elif kind == 2:
                    self.ask(address, "expand AS-NOPE")
                    time.sleep(0.1)
                elif kind == 3:
                    self.ask(
                        address,
                        chance.choice(
                            [
                                "!gAS1",
                                "!aAS-BIG",
                                "-i mnt-by ROOT-MNT",
                                f"prefixes RS-{chance.randrange(16):x}",
                            ]
                        ),
                    )
                else:
                    self.post(address, body)
                self.asked += 1
            except OSError:
                time.sleep(0.05)

    def talk(self, address: str, port: int, text: bytes) -> None:
        with contextlib.closing(socket.socket()) as peer:
            peer.settimeout(120)
            peer.bind((address, 0))
            peer.connect(("127.0.0.1", port))
            peer.sendall(text)
            while peer.recv(1 << 20):
                pass

    def ask(self, address: str, query: str) -> None:
        self.talk(address, self.whois, query.encode() + b"\r\n")

    def post(self, address: str, body: bytes) -> None:
        head = "POST /submissions HTTP/1.1\r\nHost: irr.example.net\r\nConnection: close\r\n"
        head += f"Content-Length: {len(body)}\r\n\r\n"
        self.talk(address, self.http, head.encode() + body)


def main() -> None:
    whois, http, first, count, maintainers, seconds = map(int, sys.argv[1:7])
    attack = Attack(whois, http, time.monotonic() + seconds)
    threads = [
        threading.Thread(target=attack.run, args=(number, maintainers), daemon=True)
        for number in range(first, first + count)
    ]
    for thread in threads:
        thread.start()
    for thread in threads:
        thread.join(seconds + 1)
    print(attack.asked)


if __name__ == "__main__":
    main()

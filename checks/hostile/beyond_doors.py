"""What the same attacks cost others through nginx and HAProxy, each before one process alone, and
what the two answer."""

import base64
import contextlib
import functools
import http.server
import json
import os
import re
import shutil
import socket
import ssl
import threading
import time
from collections.abc import Callable, Iterator
from typing import Any, Self

from checks.hostile import attacks
from checks.hostile.attacks import PASSWORD, Registry, made, owned
from checks.hostile.costs import ROOT, at_most
from checks.pace import pace
from checks.proxied import HOST, PAGE, USER, Haproxy, Nginx, parsed
from checks.proxied import PASSWORD as DOOR_PASSWORD
from checks.running import PATIENCE, Failure, Skipped, Trial, expect, write
from checks.serving import read_all

# The most seconds that a client's request may keep another's waiting, beside what that waits where
# nobody asks; as many times more where the machine is slower, or does other things.
MOST_WAIT = 1.0
TRIES = 3
LET_IN, STRANGER, VICTIM = 1, 50, 200
CASES = []


def needs(command: str) -> None:
    if shutil.which(command) is None:
        raise Skipped(f"{command} is not there")


def case(name: str, is_long: bool = False) -> Callable[..., Any]:
    """Registers a case for each of the two, which gets the kind of proxy."""

    def register(function: Callable[..., Any]) -> Callable[..., Any]:
        kinds: tuple[type[Nginx] | type[Haproxy], ...] = (Nginx, Haproxy)
        for kind in kinds:
            command = kind.__name__.lower()

            def tried(
                trial: Trial, kind: type[Nginx] | type[Haproxy] = kind, command: str = command
            ) -> str:
                needs(command)
                return function(trial, kind)

            CASES.append((f"{command}: {name}", tried, is_long))
        return function

    return register


def basic(user: str = USER, password: str = DOOR_PASSWORD) -> str:
    return f"Authorization: Basic {base64.b64encode(f'{user}:{password}'.encode()).decode()}\r\n"


def large() -> str:
    """A registry with the dearest expansion that its limit allows, an answer of 3 MB, and one of 12
    MB."""

    def described(count: int, maintainer: str, first: int) -> str:
        return "".join(
            owned(f"aut-num:AS{first + n}", "descr:" + "x" * 60_000, maintainer=maintainer)
            for n in range(count)
        )

    mine = "".join(
        owned(f"mntner:{name}", f"auth:{attacks.auth(attacks.SECRET)}", maintainer=name)
        for name in ("E-MNT", "F-MNT")
    )
    sets = "".join(
        body.removeprefix(PASSWORD) for body in attacks.ring(16, 10_000, attacks.OPERATORS)
    )
    return ROOT + mine + sets + described(50, "E-MNT", 65_000) + described(200, "F-MNT", 66_000)


@contextlib.contextmanager
def guarded(
    trial: Trial, kind: type[Nginx] | type[Haproxy], name: str, folder: str | None = None
) -> Iterator[tuple[Registry, Nginx | Haproxy]]:
    """A registry, new or in this folder, alone after a proxy."""
    folder = folder or made(trial, f"{name}-{kind.__name__}")
    with Registry(trial, folder) as registry, kind(trial, name, registry.port, None) as door:
        time.sleep(0.3)
        yield registry, door


class Victim:
    """Another client, which asks for a name over and over, and notes how long it waits at most."""

    def __init__(self, ask: Callable[..., Any]) -> None:
        self.ask, self.stop = ask, threading.Event()
        self.waits: list[float] = []
        self.bad: list[bytes] = []
        self.thread = threading.Thread(target=self.run, daemon=True)

    def run(self) -> None:
        while not self.stop.is_set():
            start = time.monotonic()
            try:
                answered = self.ask()
            except OSError as error:
                answered = repr(error).encode()
            self.waits.append(time.monotonic() - start)
            if not answered.startswith(b"mntner:"):
                self.bad.append(answered[:80])
            self.stop.wait(0.2)

    def __enter__(self) -> Self:
        self.thread.start()
        return self

    def __exit__(self, *_: object) -> None:
        self.stop.set()
        self.thread.join(60)


def waiting(
    door: Nginx | Haproxy, ask: Callable[..., Any], attack: Callable[..., Any]
) -> tuple[float, float]:
    """How much longer than before it another client waits during the attack, at most, and the bound
    of that; of some tries one that keeps to it, or the last one."""
    most = MOST_WAIT * pace(time.monotonic)
    for turn in range(TRIES):
        with Victim(ask) as victim:
            time.sleep(1.5)
            count = len(victim.waits)
            with contextlib.ExitStack() as held:
                attack(door, held, STRANGER + 10 * turn)
                time.sleep(2.5)
        if victim.bad:
            raise Failure(f"{attack.__name__}: another client was answered {victim.bad[0]!r}")
        waited = max(victim.waits[count:], default=0.0) - max(victim.waits[:count], default=0.0)
        if waited <= most:
            break
    return max(waited, 0.0), most


def over_https(door: Nginx | Haproxy) -> Callable[..., Any]:
    return lambda: door.get("/query/ROOT-MNT", VICTIM)[2]


def over_whois(door: Nginx | Haproxy) -> Callable[..., Any]:
    return lambda: door.whois("ROOT-MNT", VICTIM)


def request(path: str, fields: str = "") -> bytes:
    return f"GET {path} HTTP/1.1\r\nHost: {HOST}\r\n{fields}\r\n".encode()


# Attacks: each gets the proxy, a stack that closes its connections at the end, and the last byte of
# its first address.


def opened(
    door: Nginx | Haproxy,
    held: contextlib.ExitStack,
    last: int,
    text: bytes = b"",
    window: int | None = None,
) -> ssl.SSLSocket:
    peer = held.enter_context(contextlib.closing(door.connect(last, window=window)))
    # The proxy may answer and close before it has read all.
    with contextlib.suppress(OSError):
        peer.sendall(text)
    return peer


@functools.cache
def secrets_body(size: int) -> bytes:
    """Made once, and not while another client's wait is measured."""
    return attacks.secrets_times_salts(size)[0].encode()


def posts_secrets(door: Nginx | Haproxy, held: contextlib.ExitStack, last: int) -> None:
    """64 KB of passwords and salts from one who is let in and leaves, and from strangers."""
    body = secrets_body(65_000)
    for _ in range(3):
        opened(door, held, LET_IN, attacks.posted(body)).close()
    for number in range(4):
        opened(door, held, last + number, attacks.posted(body))


def posts_much(door: Nginx | Haproxy, held: contextlib.ExitStack, last: int) -> None:
    """1 MiB of them."""
    for _ in range(3):
        status, _, _ = door.post(secrets_body(attacks.MOST_BODY), LET_IN)
        # A proxy that closes before it has read all may take its answer along.
        if status:
            break
    expect(status, 413, "the status of 1 MiB from one who is let in")


def asks_dearly(door: Nginx | Haproxy, held: contextlib.ExitStack, last: int) -> None:
    """The dearest expansion from eight addresses, each several times, of which some leave at
    once."""
    for number in range(8):
        for turn in range(3):
            peer = opened(door, held, last + number, request("/query/prefixes%20RS-0"))
            if turn:
                peer.close()


def says_nothing(door: Nginx | Haproxy, held: contextlib.ExitStack, last: int) -> None:
    """Silence before TLS, after it, and in the midst of a head and of a submission."""
    for number in range(4):
        held.enter_context(contextlib.closing(door.raw(door.https, last + number)))
        opened(door, held, last + number)
        opened(door, held, last + number, request("/query/AS1")[:-4])
        opened(door, held, LET_IN, attacks.posted(b"x" * 1_000)[:-900])


def takes_slowly(door: Nginx | Haproxy, held: contextlib.ExitStack, last: int) -> None:
    """Answers of 3 MB and 12 MB, of which nothing is taken."""
    for number in range(4):
        name = "EF"[number % 2]
        opened(
            door, held, last + number, request(f"/query/inverse%20mnt%20{name}-MNT"), window=4_096
        )


def whois_asks_dearly(door: Nginx | Haproxy, held: contextlib.ExitStack, last: int) -> None:
    for number in range(4):
        for turn in range(3):
            peer = held.enter_context(contextlib.closing(door.raw(door.whois_port, last + number)))
            with contextlib.suppress(OSError):
                peer.sendall(b"prefixes RS-0\r\n")
            if turn:
                peer.close()


def whois_says_nothing(door: Nginx | Haproxy, held: contextlib.ExitStack, last: int) -> None:
    for number in range(4):
        for _ in range(4):
            held.enter_context(contextlib.closing(door.raw(door.whois_port, last + number)))


def whois_takes_slowly(door: Nginx | Haproxy, held: contextlib.ExitStack, last: int) -> None:
    """Answers of which nothing is taken, and peers that were answered and do not close."""
    for number in range(6):
        peer = held.enter_context(contextlib.closing(socket.socket()))
        peer.setsockopt(socket.SOL_SOCKET, socket.SO_RCVBUF, 4_096)
        peer.bind((f"127.0.0.{last + number}", 0))
        peer.connect(("127.0.0.1", door.whois_port))
        peer.sendall(
            [b"inverse mnt E-MNT\r\n", b"inverse mnt F-MNT\r\n", b"ROOT-MNT\r\n"][number % 3]
        )


def tried_all(
    trial: Trial,
    kind: type[Nginx] | type[Haproxy],
    ask: Callable[..., Any],
    tries: list[Callable[..., Any]],
) -> str:
    """How much longer another waits during each attack."""
    figures = []
    for size in (65_000, attacks.MOST_BODY):
        secrets_body(size)
    folder = made(trial, f"{kind.__name__}-{ask.__name__}", dump=large())
    for attack in tries:
        with guarded(trial, kind, attack.__name__, folder) as (_, door):
            waited, most = waiting(door, ask(door), attack)
            at_most(waited, most, f"{attack.__name__}: another client waits longer by")
            figures.append(f"{attack.__name__} {waited:.2f} s of {most:.1f}")
    return ", ".join(figures)


@case("no client keeps another waiting, over HTTPS")
def https_attacked(trial: Trial, kind: type[Nginx] | type[Haproxy]) -> str:
    return tried_all(
        trial,
        kind,
        over_https,
        [posts_secrets, posts_much, asks_dearly, says_nothing, takes_slowly],
    )


@case("no client keeps another waiting, by whois")
def whois_attacked(trial: Trial, kind: type[Nginx] | type[Haproxy]) -> str:
    return tried_all(
        trial, kind, over_whois, [whois_asks_dearly, whois_says_nothing, whois_takes_slowly]
    )


@case("300 connections to the whois port at once")
def whois_flooded(trial: Trial, kind: type[Nginx] | type[Haproxy]) -> str:
    with guarded(trial, kind, "flood") as (registry, door):
        with contextlib.ExitStack() as held:
            for _ in range(300):
                with contextlib.suppress(ConnectionResetError):
                    held.enter_context(contextlib.closing(door.raw(door.whois_port, STRANGER)))
            expect(
                door.whois("ROOT-MNT", VICTIM)[:7],
                b"mntner:",
                "what another address is answered meanwhile",
            )
        expect(door.whois("ROOT-MNT", VICTIM)[:7], b"mntner:", "what it is answered then")
    return "another address is answered, during and after"


@case("many requests over one connection")
def many_requests(trial: Trial, kind: type[Nginx] | type[Haproxy]) -> str:
    with guarded(trial, kind, "many") as (_, door):
        start = time.monotonic()
        requests = request("/query/ROOT-MNT") * 599 + request(
            "/query/ROOT-MNT", "Connection: close\r\n"
        )
        replies = door.ask(requests, STRANGER, patience=5)
        expect(replies.count(b"HTTP/1.1 200 "), 600, "how many are answered")
        expect(over_https(door)()[:7], b"mntner:", "what another client is answered")
    return f"all of 600 within {time.monotonic() - start:.1f} s"


@case("who may submit, and how much")
def submitted(trial: Trial, kind: type[Nginx] | type[Haproxy]) -> str:
    with guarded(trial, kind, "submitted") as (registry, door):
        body = (PASSWORD + owned("mntner:E-MNT", f"auth:{attacks.auth(attacks.SECRET)}")).encode()
        expect(door.post(body, STRANGER)[0], 401, "a stranger")
        expect(
            door.post(body, STRANGER + 1, basic(password="wrong"))[0],
            401,
            "a stranger with a wrong password",
        )
        expect(registry.whois("E-MNT"), b"% no entries\n", "what is registered then")
        status, _, report = door.post(body, STRANGER + 2, basic())
        expect(
            (status, report),
            (200, b"1 mntner E-MNT: added\n% items 1\n"),
            "a holder with the word of the door",
        )
        status, _, report = door.post(body, LET_IN)
        expect(
            (status, report),
            (200, b"1 mntner E-MNT: unchanged\n% items 1\n"),
            "an address that is let in",
        )
        expect(door.post(b"x" * 262_145, STRANGER + 3, basic())[0], 413, "262,145 bytes")
        expect(
            door.post(body, STRANGER + 4, basic() + "Origin: https://evil.example\r\n")[0],
            403,
            "from another site's page",
        )
        expect(
            door.post(body, STRANGER + 5, basic() + f"Origin: https://{HOST}\r\n")[0],
            200,
            "from the registry's own page",
        )
        expect(
            door.get("/submissions", STRANGER + 6)[0] in (401, 403, 405),
            True,
            "whether GET is refused",
        )
        # Guesses: strangers who may not submit take nothing of the number of all.
        for number in range(40):
            expect(
                door.post(body, 100 + number)[0] in (401, 429),
                True,
                "whether a stranger is refused",
            )
        expect(door.post(body, STRANGER + 7, basic())[0], 200, "a holder after them")
    return "strangers 401, holders 200, 256 KB at most, other sites 403"


@case("what is guessed in ten seconds")
def guessing(trial: Trial, kind: type[Nginx] | type[Haproxy]) -> str:
    """How many passwords of a root one client, who is let in, can try in ten seconds: 32 with each
    submission, and a quarter of a second of the sender's budget for each."""
    with guarded(trial, kind, "guessing") as (registry, door):
        tries = 32
        body, taken, end = attacks.guesses(tries).encode(), 0, time.monotonic() + 10
        while time.monotonic() < end:
            taken += door.post(body, LET_IN)[0] == 200
        # The burst, what refills in ten seconds, and one more.
        expect(0 < taken <= (3 + 0.5 * 12) / 0.25 + 1, True, f"whether {taken} submissions are few")
    return f"{taken * tries:,} passwords in ten seconds, in {taken} submissions"


@case("requests that could be two, other hosts, and what each path answers")
def answered(trial: Trial, kind: type[Nginx] | type[Haproxy]) -> str:
    with guarded(trial, kind, "answered") as (registry, door):
        hidden = attacks.posted(
            "password: bc\n\n" + owned("as-set:AS-HIDDEN", maintainer="ROOT-MNT")
        )
        head = f"POST /submissions HTTP/1.1\r\nHost: {HOST}\r\n"
        for fields in [
            "Content-Length: 4\r\nTransfer-Encoding: chunked\r\n",
            "Content-Length: 4\r\nContent-Length: 5\r\n",
            "Content-Length : 4\r\n",
            "Transfer-Encoding: chunked, x\r\n",
        ]:
            reply = door.ask(f"{head}{fields}\r\n0\r\n\r\n".encode() + hidden, STRANGER, patience=2)
            expect(
                reply.count(b"HTTP/1.1 200"), 0, f"how many are answered with 200 after {fields!r}"
            )
        fields = f"Content-Length: {len(hidden)}\r\nConnection: close\r\n"
        door.ask(request("/query/ROOT-MNT", fields) + hidden, STRANGER, patience=2)
        expect(registry.whois("AS-HIDDEN"), b"% no entries\n", "what was submitted so")
        status, reply_head, body = door.get("/query/exact%200.0.0.0%2F0", STRANGER + 1)
        expect((status, body[:8]), (200, b"inetnum:"), "a query with escapes")
        expect(
            "x-content-type-options: nosniff" in reply_head.lower(),
            True,
            "whether the reply says nosniff",
        )
        sized = re.search(r"(?i)\r\ncontent-length: ([0-9]+)", reply_head)
        expect(
            not sized or int(sized[1]) == len(body), True, "whether the length is that of the body"
        )
        for page, text in PAGE.items():
            path = "/" if page == "index.html" else f"/{page}"
            status, reply_head, body = door.get(path, STRANGER + 1)
            expect((status, body), (200, text), path)
            # A browser takes a script that says nosniff by its type alone.
            expect(
                "javascript" in reply_head.lower(),
                page.endswith(".js"),
                f"whether {path} has the type of a script",
            )
            expect(
                "content-security-policy: default-src 'none'" in reply_head.lower(),
                True,
                f"whether {path} has a policy",
            )
            expect(
                "cache-control: no-cache\r\n" in f"{reply_head.lower()}\r\n",
                True,
                f"whether a browser asks for {path} again",
            )
        expect(door.get("/nothing", STRANGER + 1)[0], 404, "another path")
        expect(
            door.get("/query/AS1", STRANGER + 1, method="POST")[0] in (403, 405),
            True,
            "whether POST to a query is refused",
        )
        for host in ["evil.example", "127.0.0.1"]:
            refused = door.get("/query/ROOT-MNT", STRANGER + 2, host=host)
            expect(refused[0] in (0, 421), True, f"whether the host {host} is refused")
        with contextlib.suppress(ssl.SSLError, OSError):
            door.connect(STRANGER + 2, host="evil.example")
            raise Failure("another host's certificate is shown")
        dump = door.get("/dump", STRANGER + 3)
        expect((dump[0], dump[2][-8:-2]), (200, b"% end "), "the dump")
    return "one reply for each, nothing hidden was submitted; other hosts are refused"


@case("readers, the primary where none is left, and what is answered then")
def replaced_readers(trial: Trial, kind: type[Nginx] | type[Haproxy]) -> str:
    names = ["primary", "one", "two"]
    dumps = [ROOT + owned(f"as-set:AS-{name.upper()}", maintainer="ROOT-MNT") for name in names]
    folders = [
        made(trial, f"{name}-{kind.__name__}", dump=dump) for name, dump in zip(names, dumps)
    ]
    with contextlib.ExitStack() as stack:
        registries = [stack.enter_context(Registry(trial, folder)) for folder in folders]
        ports = [registry.port for registry in registries]
        door = stack.enter_context(kind(trial, "readers", ports[0], ports[1:]))
        time.sleep(0.5)

        def seen(ask: bool | None = None) -> set[str]:
            """Which of the three answer: the set that only one of them has is asked for."""
            found = set()
            for turn in range(4):
                for name in names:
                    query = f"AS-{name.upper()}"
                    # a whois client whose server has just gone is reset
                    with contextlib.suppress(ConnectionResetError):
                        text = (
                            door.whois(query, 20 + turn)
                            if ask
                            else door.get(f"/query/{query}", 20 + turn)[2]
                        )
                        if text.startswith(b"as-set:"):
                            found.add(name)
            return found

        def comes_to(wanted: set[str], what: str) -> None:
            end = time.monotonic() + 90
            while (found := (seen(), seen(True))) != (wanted, wanted):
                if time.monotonic() > end:
                    raise Failure(f"{what}: answered by {found} and not {wanted}")
                # or these questions meet the door's own rates
                time.sleep(1)

        comes_to({"one", "two"}, "with both readers")
        registries[1].__exit__()
        comes_to({"two"}, "with one reader")
        report = door.post(b"password: bc\n\n", LET_IN)
        expect((report[0], report[2]), (200, b"% items 0\n"), "a submission meanwhile")
        registries[2].__exit__()
        comes_to({"primary"}, "with no reader")
        registries[0].__exit__()
        end = time.monotonic() + PATIENCE
        while (reply := door.get("/query/ROOT-MNT", 99))[0] != 503 and time.monotonic() < end:
            time.sleep(0.2)
        expect((reply[0], reply[2]), (503, b"% the registry does not answer\n"), "with none")
        expect(
            door.whois("ROOT-MNT", 99) in (b"", b"% the registry does not answer\n"),
            True,
            "by whois",
        )
    return "both, one, the primary; then 503"


@case("certificates by ACME, IPv6, and who is told apart")
def reached(trial: Trial, kind: type[Nginx] | type[Haproxy]) -> str:
    with guarded(trial, kind, "reached") as (registry, door):
        os.makedirs(os.path.join(door.folder, "acme/.well-known/acme-challenge"))
        write(os.path.join(door.folder, "acme/.well-known/acme-challenge"), "word", b"the word")
        path = "/.well-known/acme-challenge/word"

        def plainly(
            path: str, host: str = HOST, address: str = "127.0.0.1"
        ) -> tuple[int, str, bytes]:
            with contextlib.closing(socket.create_connection((address, door.http), 10)) as peer:
                peer.sendall(
                    f"GET {path} HTTP/1.1\r\nHost: {host}\r\nConnection: close\r\n\r\n".encode()
                )
                return parsed(read_all(peer))

        with contextlib.ExitStack() as stack:
            if isinstance(door, Haproxy):
                served = http.server.ThreadingHTTPServer(
                    ("127.0.0.1", door.acme_port),
                    functools.partial(Quiet, directory=os.path.join(door.folder, "acme")),
                )
                stack.callback(served.server_close)
                stack.callback(served.shutdown)
                threading.Thread(target=served.serve_forever, args=(0.05,), daemon=True).start()
            status, _, body = plainly(path)
            expect((status, body), (200, b"the word"), "what an authority asks for")
        status, head, _ = plainly("/query/AS1")
        expect((status, f"https://{HOST}/query/AS1" in head), (301, True), "all else over HTTP")
        if socket.has_ipv6:
            expect(plainly("/", address="::1")[0], 301, "over IPv6")
        body = (PASSWORD + owned("as-set:AS-T", maintainer="ROOT-MNT")).encode()
        forged = "X-Forwarded-For: 192.0.2.9\r\nX-Remote-User: root\r\n"
        expect(door.post(body, STRANGER, basic() + forged)[0], 200, "a holder")
        with open(os.path.join(door.folder, "items.log"), encoding="utf-8") as log:
            entry = json.loads(log.read().splitlines()[-1])
        expect(
            (entry["client"], entry["user"]), (f"127.0.0.{STRANGER}", USER), "who is written down"
        )
    return "the challenge, 301, IPv6, the client's address and user"


class Quiet(http.server.SimpleHTTPRequestHandler):
    protocol_version = "HTTP/1.1"

    def log_message(self, *_: str) -> None:
        pass

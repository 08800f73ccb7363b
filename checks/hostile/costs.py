"""What a stranger's text costs the program itself, in the processor's time and in memory, and what
else it does."""

import contextlib
import os
import socket
import stat
import statistics
import subprocess
import threading
import time
from collections.abc import Callable, Iterator
from typing import Any

from checks.hostile import attacks
from checks.hostile.attacks import PASSWORD, Registry, made, owned
from checks.pace import Work, digesting, pace, sorting
from checks.running import DIGEST, PATIENCE, TOP, Failure, Trial, expect, write, write_settings
from checks.serving import read_all

ROOT = f"mntner:ROOT-MNT\nauth:SHA256-PW a:{DIGEST}\nmnt-by:ROOT-MNT\nsource:TEST\n\n"
TRIES = 10
CASES = []


def case(name: str, is_long: bool = False) -> Callable[..., Any]:
    """Registers a case, which gives words for its line."""

    def register(function: Callable[..., Any]) -> Callable[..., Any]:
        CASES.append((name, function, is_long))
        return function

    return register


def at_most(found: float, most: float, what: str, unit: str = "s") -> None:
    if found > most:
        raise Failure(f"{what}: {found:.2f} {unit} and not at most {most:.2f}")


def judged(most: float, function: Callable[..., Any], work: Work = sorting) -> float:
    """The processor's seconds that a function gives, as they would be on the machine of
    docs/OPEN.md: those of the first call that is within the bound here, or else the mean of all
    over the mean pace of the machine between them. A least one would be chance where that pace
    changes within a call: the quickest call over the slowest pace."""
    found, paces = [], [pace(work=work)]
    for _ in range(TRIES):
        found.append(function())
        if found[-1] <= most:
            return found[-1]
        paces.append(pace(work=work))
    return statistics.mean(found) / statistics.mean(paces)


# The processor.


@case("secrets times salts")
def secrets_times_salts(trial: Trial) -> str:
    """The first trial of P secrets with S salts, which can't be cut: so a digest is to be no dearer
    than it is."""
    table = []
    with Registry(trial, made(trial, "salts")) as registry:
        for size in trial.pick([64], [64, 128, 256, 1024]):
            body, digests = attacks.secrets_times_salts(size << 10)

            def once(body: str = body) -> float:
                report, seconds = registry.cost(registry.post, body)
                expect(b"added" in report, False, "whether a stranger's mntner was added")
                return seconds

            most = 0.1 + digests * 0.6e-6
            seconds = judged(most, once, digesting)
            at_most(seconds, most, f"{size} KB")
            table.append(f"{size} KB {seconds:.2f} s")
    return ", ".join(table)


@case("items times lines of auth")
def items_times_lines(trial: Trial) -> str:
    """An item that names maintainers with many lines, once they were tried, takes a thirtieth of
    what it took in 1.0.0, as CHANGELOG.md says."""
    count, most = trial.pick(1_000, 4_000), 4.45 / 30

    def cost(name: str, lines: int) -> float:
        with Registry(trial, made(trial, name)) as registry:
            registry.register(*attacks.many_lined(15, lines))
            body = attacks.refused_items(count)

            def once() -> float:
                report, seconds = registry.cost(registry.post, body)
                expect(report.count(b"refused E11"), count, "how many items were refused")
                return seconds / count * 1e3

            return judged(most, once)

    one, many = cost("lines1", 1), cost("lines750", 750)
    at_most(
        many,
        most,
        f"an item with 15 maintainers of 750 lines, where it takes {one:.3f} ms with one",
        "ms",
    )
    return f"{many:.3f} ms an item at 15 maintainers of 750 lines, {one:.3f} at such of one"


def walk(trial: Trial, sets: int, limit: int, most: float) -> str:
    bodies = attacks.ring(sets, limit, attacks.OPERATORS)
    with Registry(trial, made(trial, f"ring{sets}-{limit}", limit=limit)) as registry:
        registry.register(attacks.stranger(), *bodies)

        def once() -> float:
            reply, seconds = registry.cost(registry.whois, "prefixes RS-0")
            expect(
                reply[:1] not in (b"", b"%"),
                True,
                f"whether ranges are answered, and not {reply[:30]!r}",
            )
            return seconds

        seconds = judged(most, once)
    at_most(
        seconds,
        most,
        (
            f"{sets} sets that name one another under {len(attacks.OPERATORS)} operators, limit"
            f" {limit}"
        ),
    )
    return f"{sum(map(len, bodies)):,} bytes make a query of 15 bytes take {seconds:.2f} s"


@case("references times pairs, limit 100,000")
def ring_of_16(trial: Trial) -> str:
    return walk(trial, 16, 100_000, 11.8 / 20)


@case("references times pairs, limit 10,000")
def ring_of_90(trial: Trial) -> str:
    return walk(trial, 90, 10_000, 5.4 / 20)


@case("peers that ask and go")
def gone(trial: Trial) -> str:
    """What was asked is computed all the same: the next peer waits for it."""
    with Registry(trial, made(trial, "gone")) as registry:
        registry.register(attacks.stranger(), *attacks.ring(16, 10_000, attacks.OPERATORS))

        def asked() -> None:
            for _ in range(5):
                with contextlib.closing(registry.connect()) as peer:
                    peer.sendall(b"prefixes RS-0\r\n")
            registry.whois("ROOT-MNT")

        worked = judged(0.5, lambda: registry.cost(asked)[1])
    at_most(worked, 0.5, "what the registry works before the next one is answered")
    return (
        f"after 5 peers that asked for the dearest expansion the registry works {worked:.2f} s"
        " before the next one is answered"
    )


@case("guesses at a password")
def guessed(trial: Trial) -> str:
    """Without the door: nothing is changed, and what is answered tells whether one of the passwords
    is right."""
    count = 74_000
    with Registry(trial, made(trial, "guesses")) as registry:
        before = registry.whois("inverse mnt ROOT-MNT")
        report, seconds = registry.cost(registry.post, attacks.guesses(count))
        expect(report, b"1 mntner ROOT-MNT: refused E11\n% items 1\n", "where none is right")
        report = registry.post(attacks.guesses(count, count - 5))
        expect(report, b"1 mntner ROOT-MNT: refused E17\n% items 1\n", "where one is right")
        expect(registry.whois("inverse mnt ROOT-MNT"), before, "what the root maintains")
    return f"{count:,} tries in {seconds:.2f} s of the processor"


# Memory.


@case("memory of a paragraph of short lines")
def crumbled(trial: Trial) -> str:
    """A stored paragraph of lines like `a:b` takes at most 10 times its bytes."""
    with Registry(trial, made(trial, "crumbs")) as registry:
        registry.register(attacks.stranger(), attacks.crumbs_in("A"))
        before, bodies = registry.resident(), [attacks.crumbs_in(mark) for mark in "BCD"]
        registry.register(*bodies)
        times = (registry.resident() - before) / sum(map(len, bodies))
    at_most(times, 10, "the bytes in memory for each byte stored", "times")
    return f"{times:.1f} times its bytes"


def mixed(count: int) -> str:
    """A dump of so many objects: of 100, 1 is a maintainer, 9 are aut-nums, 30 inetnums and 60
    routes."""
    parts = [ROOT]
    for hundred in range(count // 100):
        holder = f"H{hundred}-MNT"

        def add(first: str, *lines: str, holder: str = holder) -> None:
            parts.append(owned(first, *lines, maintainer=holder))

        add(f"mntner: {holder}", f"auth: SHA256-PW a:{DIGEST}")
        for n in range(9):
            add(f"aut-num: AS{100_000 + 9 * hundred + n}", f"as-name: NETWORK{n}")
        for n in range(30):
            at = 30 * hundred + n
            add(f"inetnum: 10.{at >> 8}.{at & 255}.0/24", f"netname: NETWORK{n}")
        for n in range(60):
            at = 60 * hundred + n
            add(
                f"route: 10.{at >> 9}.{at >> 1 & 255}.{(at & 1) << 7}/25",
                f"origin: AS{100_000 + 9 * hundred + n % 9}",
            )
    return "".join(parts)


@case("memory of an object")
def weighed(trial: Trial) -> str:
    """An object takes at most 900 bytes beside its canonical text."""
    sizes, texts = [], []
    counts = trial.pick([10_000, 30_000], [20_000, 200_000])
    for count in counts:
        folder = made(trial, f"objects{count}", dump=mixed(count))
        ran = trial.run(folder, "dump", "s.toml", "--full", timeout=attacks.LONGEST)
        texts.append(len(ran.printed))
        with Registry(trial, folder) as registry:
            sizes.append(registry.resident())
    beside = (sizes[1] - sizes[0] - texts[1] + texts[0]) / (counts[1] - counts[0])
    at_most(beside, 900, "the bytes of an object beside its text", "bytes")
    return f"{beside:.0f} bytes beside its text"


@case("opened within the memory that served it")
def reopened(trial: Trial) -> str:
    """Under each limit, a registry that took submissions until memory ran out is opened again
    within a tenth more."""
    figures = []
    for limit in trial.pick([64, 96], range(48, 400, 32)):
        folder, count = made(trial, f"filled{limit}"), 0
        with (
            contextlib.suppress(Failure, OSError),
            Registry(trial, folder, *within(limit << 20)) as registry,
        ):
            registry.register(attacks.stranger())
            while count < 1_000:
                registry.register(attacks.crumbs_in(f"{count}-", 200_000))
                count += 1
        expect(0 < count < 1_000, True, f"whether {count} submissions fill {limit} MB")
        needed = next(
            percent
            for percent in range(60, 400, 10)
            if opens(trial, folder, limit * percent << 20, count)
        )
        at_most(
            needed / 100,
            1.1,
            f"filled under {limit} MB by {count} submissions it is opened within",
            "times that",
        )
        figures.append(f"{limit} MB: {needed} %")
    return f"what opening takes of the limit under which it was filled: {', '.join(figures)}"


def within(memory: int) -> list[str]:
    return ["prlimit", f"--as={memory}"]


def opens(trial: Trial, folder: str, hundredths: int, count: int) -> bool:
    """Whether a registry is opened in this memory, with what the last submission that was taken put
    into it."""
    copy = os.path.join(trial.work, f"copy{time.monotonic_ns()}")
    subprocess.run(["cp", "-r", folder, copy], check=True)
    try:
        with Registry(trial, copy, *within(hundredths // 100)) as registry:
            return registry.whois(f"AS-T{count - 1}-X0")[:6] == b"as-set"
    except (Failure, OSError):
        return False


# What is stored.


@case("files are their owner's alone")
def modes(trial: Trial) -> str:
    """`init`, `load` and `migrate` make what nobody else can read, whatever the umask; the log of
    an older file is not widened."""
    folder = trial.place("modes")

    def run(*words: str, umask: int = 0) -> None:
        made_by = subprocess.run(
            [trial.program, *words],
            cwd=folder,
            capture_output=True,
            umask=umask,
            timeout=PATIENCE,
            check=False,
        )
        expect((made_by.returncode, made_by.stderr), (0, b""), " ".join(words))

    def others(name: str) -> list[Any]:
        paths = [os.path.join(folder, path) for path in os.listdir(folder) if path.startswith(name)]
        return [path for path in paths if stat.S_IMODE(os.stat(path).st_mode) & 0o77]

    write(folder, "dump.rpsl", ROOT.encode())
    for name in ["init.db", "load.db"]:
        write_settings(folder, store=name)
        run(name[:4], "s.toml", *(["dump.rpsl"] if name == "load.db" else []))
        expect(others(name), [], f"what others may read after {name[:4]}")
    subprocess.run(
        ["sqlite3", "old.db"],
        cwd=folder,
        stdin=open(os.path.join(TOP, "examples", "version1.sql"), "rb"),
        check=True,
    )
    os.chmod(os.path.join(folder, "old.db"), 0o600)
    write_settings(folder, store="old.db")
    run("migrate", "s.toml")
    expect(others("old.db"), [], "what others may read after migrate")
    return "init, load and migrate under umask 0"


PRESSED = r"LC_ALL=C sed -E 's/^([a-z][a-z0-9_-]*:) +/\1/; s/^ {16}/ /' full.rpsl > small.rpsl"


@case("a full dump that can't be loaded")
def pressed(trial: Trial) -> str:
    """One object whose canonical text is too long for a paragraph: `sed` takes out blanks that say
    nothing, and the dump is loaded. An object of 65,536 bytes without its last line feed stays too
    long by one."""
    folder = made(trial, "pressed")
    with Registry(trial, folder) as registry:
        registry.register(attacks.stranger(), PASSWORD + attacks.crumbs("AS-LONG"))
    loaded = load_pressed(trial, folder)
    expect(
        loaded,
        (5, 0, True),
        "load of the dump, of the pressed dump, and whether the registry is the same",
    )
    with Registry(trial, folder) as registry:
        text = attacks.crumbs("AS-EDGE").rstrip("\n")
        registry.register(PASSWORD + text + "b" * (attacks.MOST_PARAGRAPH - len(text)))
    expect(
        load_pressed(trial, folder)[:2], (5, 5), "load of both with an object of just 65,536 bytes"
    )
    return "loaded after sed; the object of just 65,536 bytes stays"


def load_pressed(trial: Trial, folder: str) -> tuple[int, int, bool]:
    """The statuses of `load` for a full dump, as it is and pressed, and whether what was loaded of
    the second is the registry."""
    full = trial.run(folder, "dump", "s.toml", "--full", timeout=PATIENCE).printed
    write(folder, "full.rpsl", full)
    subprocess.run(PRESSED, shell=True, cwd=folder, check=True)
    statuses = []
    for name in ["full", "small"]:
        with contextlib.suppress(FileNotFoundError):
            os.remove(os.path.join(folder, f"{name}.db"))
        write_settings(folder, store=f"{name}.db", name=f"{name}.toml")
        statuses.append(
            trial.run(folder, "load", f"{name}.toml", f"{name}.rpsl", timeout=PATIENCE).status
        )
    same = (
        statuses[1] == 0
        and trial.run(folder, "dump", "small.toml", "--full", timeout=PATIENCE).printed == full
    )
    return statuses[0], statuses[1], same


@case("members by reference, names of one component, and mnt-lower")
def joined(trial: Trial) -> str:
    """What anybody may do to a set of somebody else: the text of each set stays, what it expands to
    does not."""
    mine, holder = "password: mine\n\n", "A-MNT"
    objects = [
        owned("aut-num:AS64496", maintainer=holder),
        owned("aut-num:AS64511"),
        owned(
            "as-set:AS64496:AS-REFERRED",
            "members:AS64496",
            f"mbrs-by-ref:{holder}",
            maintainer=holder,
        ),
        owned("as-set:AS64496:AS-LISTED", "members:AS64496", maintainer=holder),
        owned("route-set:AS64496:RS-OUT", "members:RS-PARTNER", maintainer=holder),
    ]
    joins = [
        owned(
            "aut-num:AS64511",
            "member-of:AS64496:AS-REFERRED,AS64496:AS-LISTED",
            maintainer=f"E-MNT,{holder}",
        ),
        owned("route-set:RS-PARTNER", "members:0.0.0.0/0^0-32"),
        owned("as-set:AS-JUNK", f"mnt-lower:{holder}"),
    ]
    with Registry(trial, made(trial, "joined")) as registry:

        def texts() -> list[bytes]:
            return [
                registry.whois(name)
                for name in ("AS64496:AS-REFERRED", "AS64496:AS-LISTED", "AS64496:RS-OUT")
            ]

        registry.register(
            attacks.stranger(),
            mine + owned(f"mntner:{holder}", f"auth:{attacks.auth('mine')}", maintainer=holder),
            "password: bc\n\n" + mine + PASSWORD + "".join(objects),
        )
        before = texts()
        registry.register(*(PASSWORD + text for text in joins))
        expect(
            registry.whois("expand AS64496:AS-REFERRED"),
            b"AS64496\nAS64511\n",
            "a set that takes members by reference",
        )
        expect(
            registry.whois("expand AS64496:AS-LISTED"), b"AS64496\n", "a set that lists its members"
        )
        expect(
            registry.whois("prefixes AS64496:RS-OUT"),
            b"0.0.0.0/0^+\n",
            "a set that lists a name of one component",
        )
        expect(texts(), before, "the texts of the sets")
        refused = registry.post(mine + f"as-set:AS-JUNK\ndelete:x\n\nmntner:{holder}\ndelete:x\n")
        expect(
            refused,
            b"1 as-set AS-JUNK: refused E11\n2 mntner A-MNT: refused E17\n% items 2\n",
            "a mntner that others name",
        )
    return "joined by reference and by a name of one component; not by name"


# Peers that wait, asked directly: what a proxy in front is for.


def held(trial: Trial, text: bytes, most: float, closes: bool = False, drips: bool = False) -> str:
    """How long another peer waits after one that sent this, which has to be at most so long; a
    second of that is the machine's, and more where it is slower."""
    most += pace(time.monotonic) - 1
    with (
        Registry(trial, made(trial, f"held{time.monotonic_ns()}")) as registry,
        contextlib.closing(registry.connect()) as peer,
    ):
        peer.sendall(text)
        if closes:
            read_all(peer)
        stop = threading.Event()
        if drips:
            threading.Thread(target=drip, args=(peer, stop), daemon=True).start()
        time.sleep(0.2)
        start = time.monotonic()
        registry.whois("ROOT-MNT")
        waited = time.monotonic() - start
        stop.set()
    at_most(waited, most, f"after {text[:20]!r} the next peer waits")
    return f"the next peer waits {waited:.1f} s"


def drip(peer: socket.socket, stop: threading.Event) -> None:
    with contextlib.suppress(OSError):
        while not stop.wait(5):
            peer.sendall(b"a")


@case("a silent peer, directly")
def silent(trial: Trial) -> str:
    return held(trial, b"", 12)


@case("a peer that was answered and does not close, directly")
def lingering(trial: Trial) -> str:
    return held(trial, b"ROOT-MNT\r\n", 2, closes=True)


@case("a peer that begins TLS, directly", is_long=True)
def hello(trial: Trial) -> str:
    return held(trial, bytes.fromhex("1603010040") + b"\x01" * 64, 12)


@case("a dripping submission, directly", is_long=True)
def dripping(trial: Trial) -> str:
    return held(trial, b"POST /submissions HTTP/1.1\r\nContent-Length: 100\r\n\r\n", 65, drips=True)


# What stands round the program.


@case("the check restarts only what a restart mends")
def checked(trial: Trial) -> str:
    folder = made(trial, "checked")
    tool = os.path.join(folder, "irr")
    subprocess.run([os.path.join(TOP, "tools", "build"), tool], check=True)

    def status(url: str, door: str = "", seconds: str = "", agent: str = "") -> int:
        given = {"--url": url, "--door": door, "--seconds": seconds, "--agent": agent}
        words = [word for pair in given.items() if pair[1] for word in pair]
        ran = subprocess.run(
            ["/usr/bin/python3", tool, "check", "--restarts", *words],
            capture_output=True,
            text=True,
            timeout=PATIENCE,
            check=False,
        )
        expect(bool(ran.stdout), ran.returncode != 0, "whether it says what it saw")
        return ran.returncode

    with Registry(trial, folder) as registry:
        url, place = (
            f"http://127.0.0.1:{registry.port}/query/ROOT-MNT",
            f"127.0.0.1:{registry.port}",
        )
        expect(status(url), 0, "a registry that answers")
        expect(status(f"http://{place}/nothing"), 1, "another server's answer")
        expect(status(url, "127.0.0.1:1"), 11, "a door that does not listen")
        for word, wanted in ("well", 0), ("in part", 1), ("DOWN", 1):
            with answering(b"HTTP/1.0 200 OK\r\n\r\n%s: TEST\nwhy\n" % word.encode()) as door:
                expect(status(url, door), wanted, f"a door that says `{word}`")
        with answering(b"HTTP/1.0 200 OK\r\n\r\nwell: TEST\n") as door:
            for fault, wanted in ("", 0), ("x: other objects", 1):
                with answering(b'{"replicas": [], "fault": "%s"}\n' % fault.encode()) as agent:
                    expect(status(url, door, "5", agent), wanted, f"an agent that says `{fault}`")
            expect(status(url, door, "5", "127.0.0.1:1"), 1, "an agent that does not listen")
        with contextlib.closing(registry.connect()):
            expect(status(url, "", "2"), 10, "a registry that does not answer")
    expect(status(url), 1, "a refused connection")
    with Registry(trial, folder, "env", "--ignore-signal=XFSZ") as registry:
        registry.register(attacks.stranger())
        size = os.path.getsize(os.path.join(folder, "irr.db-wal"))
        subprocess.run(["prlimit", f"--pid={registry.process.pid}", f"--fsize={size}"], check=True)
        reply = registry.post(attacks.crumbs_in("X"))
        expect(b"refused E91" in reply, True, "whether the database failed")
        expect(
            status(f"http://127.0.0.1:{registry.port}/query/ROOT-MNT"),
            10,
            "a registry whose database failed",
        )
    return "13 states"


@contextlib.contextmanager
def answering(text: bytes) -> Iterator[str]:
    """The place of a server that says this to whoever asks, while the block runs."""
    listener = socket.create_server(("127.0.0.1", 0))

    def serve() -> None:
        with contextlib.suppress(OSError):
            while True:
                peer, _ = listener.accept()
                with peer:
                    peer.recv(4_096)
                    peer.sendall(text)

    threading.Thread(target=serve, daemon=True).start()
    with listener:
        yield f"127.0.0.1:{listener.getsockname()[1]}"

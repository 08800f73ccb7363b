"""What `irr delegate` writes is taken, and what it tells lets the new maintainer go on."""

import contextlib
import hashlib
import io
import os
import random
import re
import subprocess
import unittest
from pathlib import Path
from typing import Iterator
from unittest import mock
from urllib.request import Request, urlopen

import pytest

from checks.running import PATIENCE
from checks.serving import free_port
from irr.main import main

LONG = bool(os.environ.get("CHECKS_LONG"))
NESTS = 500 if LONG else 100
NAMES = ["A-MNT", "B-MNT", "C-MNT", "D-MNT"]
SOURCE = "TEST"


def auth_of(password: str) -> str:
    return f"SHA256-PW s:{hashlib.sha256(b's' + password.encode()).hexdigest()}"


def password_of(name: str) -> str:
    return f"the password of {name}"


def given(*names: str) -> str:
    return "".join(f"password: {password_of(name)}\n" for name in names) + "\n"


def text(kind: str, key: str, names: str, *more: str) -> str:
    head = [f"{kind}: {key}"] if kind != "route" else [f"route: {key.split()[0]}"]
    if kind == "route":
        head.append(f"origin: {key.split()[1]}")
    return "\n".join([*head, f"mnt-by: {names}", *more, f"source: {SOURCE}", ""])


class Registry:
    """A served registry whose maintainers' passwords are known."""

    def __init__(self, program: str, folder: Path) -> None:
        (folder / "irr.toml").write_text(
            f'source = "{SOURCE}"\nroot = "ROOT-MNT"\nauth = "{auth_of(password_of("ROOT-MNT"))}"\n'
            'limit = 10000\nstore = "irr.db"\n'
        )
        subprocess.run([program, "init", "irr.toml"], cwd=folder, check=True, capture_output=True)
        words = [program, "serve", "irr.toml", "--port", str(free_port()), "--count", "1000000"]
        self.process = subprocess.Popen(words, cwd=folder, stdout=subprocess.PIPE, text=True)
        assert self.process.stdout
        self.url = "http://" + self.process.stdout.readline().split()[-1]
        mntners = [
            f"mntner: {name}\nauth: {auth_of(password_of(name))}\nmnt-by: {name}\nsource: TEST\n"
            for name in NAMES
        ]
        self.take(given(*NAMES) + "\n".join(mntners))

    def submit(self, body: str) -> str:
        with urlopen(Request(f"{self.url}/submissions", body.encode()), timeout=PATIENCE) as reply:
            return str(reply.read().decode())

    def take(self, body: str) -> None:
        """Submits what has to be taken whole."""
        report = self.submit(body)
        assert "refused" not in report, (report, body)

    def delegate(self, *words: str) -> tuple[int, str, str]:
        """The status of `irr delegate`, its text, and its notes."""
        out, err = io.TextIOWrapper(io.BytesIO()), io.StringIO()
        with contextlib.redirect_stdout(out), contextlib.redirect_stderr(err):
            with mock.patch.dict(os.environ, IRR_SERVER=self.url):
                with mock.patch.object(err, "reconfigure", create=True):
                    status = main(["delegate", "--known", *words])
        out.flush()
        printed = out.buffer.getvalue()  # type: ignore[attr-defined]  # it is made above
        return status, printed.decode(), err.getvalue()

    def close(self) -> None:
        self.process.kill()
        self.process.communicate()


class Nest:
    """Objects of chance inside 10.NUMBER.0.0/16 and AS(NUMBER * 10) to AS(NUMBER * 10 + 9)."""

    def __init__(self, registry: Registry, number: int, chance: random.Random) -> None:
        self.registry, self.chance = registry, chance
        self.base, self.first = (10 << 24) + (number << 16), 100_000 + number * 10
        self.numbers = [f"AS{self.first + place}" for place in range(4)]
        block = f"AS{self.first} - AS{self.first + 9}"
        registry.take(
            given("ROOT-MNT")
            + "\n".join(
                [
                    text("as-block", block, "ROOT-MNT", *self.lower()),
                    text("inetnum", self.prefix(16), "ROOT-MNT", *self.lower()),
                ]
            )
        )
        for _ in range(chance.randrange(8)):
            kind = chance.choice(["aut-num", "inetnum", "inetnum", "route", "route"])
            key = self.key(kind)
            names = ", ".join(chance.sample(NAMES, chance.choice([1, 1, 2])))
            more = self.lower() + (self.routes() if kind != "as-block" else [])
            # Those that may not be added are refused, and not there.
            registry.submit(given("ROOT-MNT", *NAMES) + text(kind, key, names, *more))

    def lower(self) -> list[str]:
        some = ", ".join(["ROOT-MNT", *self.chance.sample(NAMES, self.chance.randrange(3))])
        return [f"mnt-lower: {some}"] if self.chance.random() < 0.6 else []

    def routes(self) -> list[str]:
        names = self.chance.sample(NAMES, self.chance.choice([1, 2]))
        ranges = [f"{name} {{{self.prefix(20)}^+}}" for name in names[1:]]
        some = ", ".join([names[0], *ranges])
        return [f"mnt-routes: {some}"] if self.chance.random() < 0.4 else []

    def prefix(self, length: int) -> str:
        place = self.chance.randrange(1 << (length - 16)) << (32 - length)
        return f"{'.'.join(str(byte) for byte in (self.base + place).to_bytes(4, 'big'))}/{length}"

    def key(self, kind: str) -> str:
        if kind == "aut-num":
            return self.chance.choice(self.numbers)
        prefix = self.prefix(self.chance.choice([17, 18, 18, 19, 20]))
        return prefix if kind == "inetnum" else f"{prefix} {self.chance.choice(self.numbers)}"


class Delegations(unittest.TestCase):
    """Over one registry, whose nests know nothing of one another."""

    @pytest.fixture(autouse=True)
    def served(self, program: str, tmp_path: Path) -> Iterator[None]:
        self.registry = Registry(program, tmp_path)
        yield
        self.registry.close()

    def test_texts_are_taken_and_their_notes_lead_on(self) -> None:
        """Of random nests what is written is refused nothing, with the passwords that it takes
        alone; and once what it tells is done, the new maintainer registers the routes that lack."""
        chance, written, granted = random.Random(1), 0, 0
        for number in range(NESTS):
            nest = Nest(self.registry, number % 250, chance)
            name = chance.choice(NAMES)
            holder = chance.choice(["ROOT-MNT", *NAMES, None, None])
            objects = [nest.key("inetnum") for _ in range(chance.choice([1, 1, 2]))]
            objects += [nest.key("aut-num")] if chance.random() < 0.8 else []
            words = [*(["--as", holder] if holder else []), name, *objects]
            status, body, notes = self.registry.delegate(*words)
            if status:
                self.assertEqual(status, 2, (words, notes))
                continue
            named = re.search(r"it takes a password of each of (.*)", notes)
            passwords = [other for other in ["ROOT-MNT", *NAMES] if other != name]
            passwords = [holder] if holder else named[1].split(", ") if named else passwords
            report = self.registry.submit(given(*passwords) + body)
            self.assertNotIn("refused", report, (words, passwords, body, notes))
            written += body.count("mnt-by")
            granted += self.go_on(name, notes)
        self.assertGreater(written, NESTS)
        self.assertGreater(granted, 0)

    def go_on(self, name: str, notes: str) -> int:
        """Does what the notes say, and has the new maintainer register the routes that they
        name."""
        routes = re.findall(rf"route (\S+ \S+): {name} registers it", notes)
        for key in routes:
            wanted = rf": (\S+) (.+) decides about route {key}: .+ adds `mnt-routes: (.+)` to"
            for kind, other, names in re.findall(wanted, notes):
                query = f"object {kind} {other}".replace(" ", "%20").replace("/", "%2F")
                with urlopen(f"{self.registry.url}/query/{query}") as reply:
                    found = reply.read().decode()
                kept = re.sub(r"^mnt-routes:.*\n", "", found, flags=re.M).strip()
                self.registry.take(given("ROOT-MNT", *NAMES) + f"{kept}\nmnt-routes: {names}\n")
            self.registry.take(given(name) + text("route", key, name))
        return len(routes)

    def test_the_holder_of_a_route_above_gets_instructions(self) -> None:
        """Where a route above decides, its holder is told what lets the new maintainer go on."""
        self.registry.take(
            given("ROOT-MNT", "A-MNT", "B-MNT")
            + "\n".join(
                [
                    text("as-block", "AS64496 - AS64511", "ROOT-MNT"),
                    text("inetnum", "192.0.2.0/24", "ROOT-MNT", "mnt-lower: A-MNT, ROOT-MNT"),
                    text("aut-num", "AS64496", "A-MNT, ROOT-MNT"),
                    text("aut-num", "AS64500", "B-MNT, ROOT-MNT"),
                    text("route", "192.0.2.128/25 AS64496", "A-MNT"),
                ]
            )
        )
        words = ["--as", "A-MNT", "B-MNT", "192.0.2.128/26", "AS64500"]
        status, body, notes = self.registry.delegate(*words)
        self.assertEqual(status, 0)
        self.assertIn(
            "route 192.0.2.128/25 AS64496 decides about route 192.0.2.128/26 AS64500: A-MNT adds"
            " `mnt-routes: A-MNT, B-MNT {192.0.2.128/26^+}` to it",
            notes,
        )
        self.registry.take(given("A-MNT") + body)
        self.assertEqual(self.go_on("B-MNT", notes), 1)

    def test_a_route_that_goes_with_it_takes_no_instructions(self) -> None:
        """The new maintainer holds the closest route by then, whatever is named first."""
        self.registry.take(
            given("ROOT-MNT", "A-MNT", "B-MNT", "D-MNT")
            + "\n".join(
                [
                    text("as-block", "AS1 - AS9", "ROOT-MNT", "mnt-lower: A-MNT"),
                    text("aut-num", "AS9", "A-MNT"),
                    text("inetnum", "10.0.0.0/8", "ROOT-MNT"),
                    text("route", "10.0.0.0/8 AS9", "D-MNT, ROOT-MNT"),
                    text("inetnum", "10.1.2.0/24", "B-MNT"),
                    text("inetnum", "10.2.2.0/24", "B-MNT"),
                    text("inetnum", "10.3.0.0/16", "D-MNT, ROOT-MNT"),
                    text("route", "10.3.0.0/16 AS9", "D-MNT, ROOT-MNT"),
                    text("inetnum", "10.3.2.0/24", "B-MNT"),
                ]
            )
        )
        for prefixes, number in [
            (["10.1.0.0/16", "10.1.2.0/24"], "AS1"),
            (["10.2.2.0/24", "10.2.0.0/16"], "AS2"),
            # It is as close as that of another AS.
            (["10.3.2.0/24", "10.3.0.0/16"], "AS3"),
        ]:
            status, body, notes = self.registry.delegate("B-MNT", *prefixes, number)
            self.assertEqual((status, "decides about" in notes), (0, False), notes)
            self.registry.take(given("ROOT-MNT", "A-MNT", "D-MNT") + body)
            self.assertEqual(self.go_on("B-MNT", notes), 1)

    def test_the_maintainer_that_was_asked_for_speaks(self) -> None:
        """The maintainer that was asked for speaks, where an object names several."""
        self.registry.take(
            given("ROOT-MNT")
            + "\n".join(
                [
                    text("as-block", "AS1 - AS9", "ROOT-MNT"),
                    text("inetnum", "10.0.0.0/8", "A-MNT, B-MNT, ROOT-MNT"),
                    text("aut-num", "AS1", "A-MNT, B-MNT, ROOT-MNT"),
                ]
            )
        )
        status, body, notes = self.registry.delegate("--as", "B-MNT", "C-MNT", "10.0.0.0/8", "AS1")
        self.assertEqual((status, notes), (0, ""))
        report = self.registry.submit(given("B-MNT") + body)
        self.assertEqual(report.count("added") + report.count("changed"), 4, report)

    def test_the_new_maintainer_may_add_it_too(self) -> None:
        """Another one hands it over, whose password is at hand; where there is none, it is told."""
        self.registry.take(
            given("ROOT-MNT")
            + "\n".join(
                [
                    text("as-block", "AS1 - AS9", "ROOT-MNT", "mnt-lower: B-MNT, A-MNT"),
                    text("inetnum", "10.0.0.0/8", "ROOT-MNT", "mnt-lower: B-MNT, A-MNT"),
                    text("inetnum", "11.0.0.0/8", "ROOT-MNT", "mnt-lower: B-MNT"),
                ]
            )
        )
        _, body, notes = self.registry.delegate("B-MNT", "10.1.0.0/16", "AS1")
        self.registry.take(given("A-MNT") + body)
        self.assertNotIn("password", notes)
        _, body, notes = self.registry.delegate("B-MNT", "11.1.0.0/16")
        self.assertIn("it takes a password of B-MNT", notes)
        self.assertEqual(body.count("inetnum:"), 1)
        self.registry.take(given("B-MNT") + body)

    def test_an_object_that_grows_when_it_is_printed_is_taken(self) -> None:
        """The registry prints more blanks than it was sent, and takes 65,536 bytes."""
        self.registry.take(given("ROOT-MNT") + text("as-block", "AS1 - AS9", "ROOT-MNT"))
        long = ["import:from AS2"] * 4_000
        self.registry.take(given("ROOT-MNT") + text("aut-num", "AS1", "ROOT-MNT", *long))
        status, body, _ = self.registry.delegate("--as", "ROOT-MNT", "A-MNT", "AS1")
        self.assertEqual((status, body.count("import:")), (0, len(long)))
        self.registry.take(given("ROOT-MNT") + body)

    def test_what_stands_across_the_prefixes_of_a_range_is_told(self) -> None:
        own = text("inetnum", "10.0.0.192 - 10.0.1.63", "C-MNT")
        self.registry.take(given("ROOT-MNT", "C-MNT") + own)
        _, body, _ = self.registry.delegate("A-MNT", "10.0.0.128 - 10.0.1.127")
        line = "% inside 10.0.0.128 - 10.0.1.127: inetnum 10.0.0.192 - 10.0.1.63 of C-MNT, who"
        self.assertEqual(body.count(line), 1, body)

    def test_bits_after_the_length_are_reported(self) -> None:
        status, body, notes = self.registry.delegate("A-MNT", "192.0.2.1/24")
        self.assertEqual((status, body), (2, ""))
        self.assertIn("it has bits after its length; write 192.0.2.0/24", notes)

"""What stands for all checks of the page: registries that the program serves, nginx with the page
in front of them, and a browser."""

import os
import re
import subprocess
from collections.abc import Sequence

from checks.running import AUTH, TOP, Failure, Trial, expect
from checks.serving import Server, Serving, free_port
from checks.web.browsing import HOST, BadServer, Browser, Nginx
from checks.web.doored import Doored
from checks.web.shown import LIMIT, REGISTRY, REPLIES, large_registry
from checks.web.tables import FILES

SETTINGS = (
    f'source = "TEST"\nroot = "ROOT-MNT"\nauth = "{AUTH}"\nlimit = {LIMIT}\nstore = "irr.db"\n'
)


class Stage:
    """What stands for all cases: the registries, nginx, a server that answers badly, and the
    browser."""

    def __init__(self, trial: Trial) -> None:
        self.trial, self.pictures, self.home = trial, os.path.join(TOP, "out", "web"), ""
        self.loading: subprocess.Popen[bytes] | None = None
        self.large_server: Serving | None = None
        self.small: Server | None = None
        self.bad: BadServer | None = None
        self.nginx: Nginx | None = None
        self.browser: Browser | None = None
        self.door: Doored | None = None
        self.large, self.large_port = self.place("large"), free_port()
        os.makedirs(self.pictures, exist_ok=True)

    def begin(self, large_count: int, has_door: bool = False) -> None:
        """Starts all; a large registry is loaded meanwhile, unless it is to have no objects."""
        trial = self.trial
        if large_count:
            with open(f"{self.large}/dump.rpsl", "w", encoding="ascii") as out:
                out.write(large_registry(large_count))
            self.loading = subprocess.Popen(
                [trial.program, "load", "s.toml", "dump.rpsl"],
                cwd=self.large,
                stdin=subprocess.DEVNULL,
                stdout=subprocess.DEVNULL,
            )
        small = self.place("small")
        text = REGISTRY.encode().replace("caf\u00e9".encode(), b"caf\xe9")
        for words, given in [
            (["init", "s.toml"], None),
            (["submit", "s.toml", "/dev/stdin"], text),
        ]:
            made = trial.run(small, *words, stdin=given, timeout=300)
            if made.status:
                raise Failure(
                    f"{words[0]} ended with {made.status}: {made.reported!r} {made.printed!r}"
                )
        self.small = Server(trial.program, small, 100_000)
        self.bad = BadServer(REPLIES)
        behind = {
            "small": self.small.port,
            "bad": self.bad.server_address[1],
            "large": self.large_port,
            "down": free_port(),
        }
        if has_door:
            self.door = Doored(trial, self.small.port)
            behind["door"] = self.door.port
        self.nginx = Nginx(trial.place("nginx"), behind)
        self.browser = Browser(trial.place("browser"), self.pictures)
        self.home = self.nginx.address("small")

    def place(self, name: str) -> str:
        folder = self.trial.place(name)
        with open(f"{folder}/s.toml", "w", encoding="ascii") as out:
            out.write(SETTINGS)
        return folder

    def serve_large(self) -> None:
        if self.loading.wait(240):
            raise Failure("the large registry was not loaded")
        self.large_server = Serving([self.trial.program], self.large, 1_000, self.large_port)

    def end(self) -> None:
        if self.browser:
            self.browser.end()
        if self.nginx:
            self.nginx.end()
        if self.bad:
            self.bad.shutdown()
        if self.door:
            self.door.end()
        if self.small:
            self.small.__exit__()
        if self.large_server:
            self.large_server.__exit__()
        if self.loading and self.loading.poll() is None:
            self.loading.kill()
            self.loading.wait()

    # What cases do over and over.

    def ask(self, query: str, name: str = "small") -> tuple[str, str]:
        """Looks up a query, and gives what the page says and shows."""
        browser = self.browser
        browser.go(self.nginx.address(name) + "#q=")
        browser.write("words", query)
        browser.click("#look-form button")
        browser.until(
            (
                "!!document.getElementById('look-said').textContent &&"
                " document.getElementById('look-stop').hidden"
            ),
            query,
        )
        return browser.text("look-said"), browser.text("answer")

    def form(self, kind: str, values: dict[str, str], passwords: Sequence[str]) -> None:
        browser = self.browser
        browser.go(self.home + "#submit")
        browser.choose("class", kind)
        browser.until(
            "document.getElementById('field-source').value === 'TEST'",
            "the source that the page finds out",
        )
        for name, text in values.items():
            browser.write(f"field-{name}", text)
        self.give(passwords)

    def give(self, passwords: Sequence[str]) -> None:
        for at, password in enumerate(passwords, 1):
            if at > 1:
                self.browser.click("#more-passwords")
            self.browser.write(f"password-{at}", password)

    def sent(self) -> str:
        """Presses Submit, and gives what is said once the report, or a trouble, is there."""
        browser = self.browser
        browser.js("document.getElementById('submit-said').textContent = ''")
        browser.click("#send")
        browser.until(
            (
                "!!document.getElementById('submit-said').textContent &&"
                " document.getElementById('submit-stop').hidden"
            ),
            "a report",
        )
        return browser.text("submit-said")

    def send_text(self, text: str, passwords: Sequence[str], name: str = "small") -> str:
        self.browser.go(self.nginx.address(name) + "#submit")
        self.browser.click("#by-text")
        self.browser.write("text", text)
        self.give(passwords)
        return self.sent()


# What else of the page's own origin is asked for.
ASKED = ("/submissions", "/dump", "/favicon.ico", "/about")


def own_origin(stage: Stage) -> str:
    """That the browser asked the page's own origin alone, for what the page is made of, and had
    nothing to complain of."""
    browser = stage.browser
    browser.look()
    homes = {
        stage.nginx.address(name, host)
        for name in stage.nginx.ports
        for host in ("127.0.0.1", HOST)
    }
    strange = {
        url
        for url in browser.requests
        if not url.startswith(("about:", "data:", "chrome:", *homes))
    }
    expect(strange, set(), "requests to elsewhere")
    paths = {
        re.split("/(?:query|why|history)/", re.sub(r"^https?://[^/]+", "", url).split("?")[0])[0]
        for url in browser.requests
        if url.startswith("http")
    }
    views = {"/views/ALL", "/views/NONE"} if stage.door else set()
    expect(
        paths - {"/", "", *(f"/{name}" for name in FILES), *ASKED, *views},
        set(),
        "what is asked for",
    )
    # The readings of pixels that willReadFrequently is about are those of these cases.
    known = r"(status of (4|5)\d\d|net::ERR_|willReadFrequently)"
    faults = [entry["message"] for entry in browser.said if not re.search(known, entry["message"])]
    expect(faults, [], "what the browser complains of")
    return f"{len(browser.requests)} requests, all to where the page came from"

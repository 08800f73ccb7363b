"""A registry behind nginx, with the page for people beside it, a server that answers badly, and a
browser that looks at them."""

import json
import os
import shutil
import socketserver
import subprocess
import threading
import time
from collections.abc import Callable, Iterable
from typing import Any

from selenium import webdriver
from selenium.common.exceptions import JavascriptException, WebDriverException
from selenium.webdriver.chrome.service import Service
from selenium.webdriver.common.by import By

from checks.running import TOP, Failure, expect
from checks.serving import free_port
from checks.worlds import certificate

HOST = "irr.example.net"
PATIENCE = 60
POLICY = (
    "default-src 'none'; script-src 'self'; style-src 'self'; connect-src 'self'; img-src data:;"
    " base-uri 'none'; form-action 'none'; frame-ancestors 'none'"
)
NGINX = """
daemon off;
user root;
worker_processes 2;
pid {folder}/nginx.pid;
error_log {folder}/error.log;
events {{ worker_connections 512; }}
http {{
    include /etc/nginx/mime.types;
    access_log {folder}/access.log;
    client_body_temp_path {folder}/body;
    proxy_temp_path {folder}/proxy;
    fastcgi_temp_path {folder}/fastcgi;
    uwsgi_temp_path {folder}/uwsgi;
    scgi_temp_path {folder}/scgi;
    add_header Content-Security-Policy "{policy}" always;
    add_header X-Content-Type-Options nosniff always;
    add_header Referrer-Policy no-referrer always;
    client_max_body_size 2m;
{servers}
}}
"""
SERVER = """
    server {{
        listen 127.0.0.1:{port}{ssl};
        server_name {host} 127.0.0.1;
        location / {{ root {web}; index index.html; }}
        location ~ ^/(query|views|why|history)/ {{ proxy_pass http://127.0.0.1:{behind}; }}
        location ~ ^/(dump|about)$ {{ proxy_pass http://127.0.0.1:{behind}; }}
        location = /submissions {{
            proxy_pass http://127.0.0.1:{behind};
            proxy_connect_timeout 2s;
        }}
    }}
"""


class Nginx:
    """nginx with the page at `/`, in front of several servers: by HTTP in front of each, and by
    HTTPS in front of the first."""

    def __init__(self, folder: str, behind: dict[str, int]) -> None:
        self.folder = folder
        cert, key = certificate(folder, HOST)
        self.ports = {name: free_port() for name in [*behind, "tls"]}
        web = os.path.join(TOP, "web")
        servers = [
            SERVER.format(port=self.ports[name], ssl="", host=HOST, web=web, behind=port)
            for name, port in behind.items()
        ]
        tls = f" ssl;\n        ssl_certificate {cert};\n        ssl_certificate_key {key}"
        servers.append(
            SERVER.format(
                port=self.ports["tls"],
                ssl=tls,
                host=HOST,
                web=web,
                behind=next(iter(behind.values())),
            )
        )
        with open(f"{folder}/nginx.conf", "w", encoding="ascii") as out:
            out.write(NGINX.format(folder=folder, policy=POLICY, servers="".join(servers)))
        command = shutil.which("nginx") or "/usr/sbin/nginx"
        self.process = subprocess.Popen(
            [command, "-p", folder, "-c", f"{folder}/nginx.conf"],
            stdout=subprocess.DEVNULL,
            stderr=subprocess.PIPE,
        )
        end = time.monotonic() + PATIENCE
        while not os.path.exists(f"{folder}/nginx.pid"):
            if time.monotonic() > end or self.process.poll() is not None:
                raise Failure(f"nginx did not start: {self.process.stderr.read()!r}")
            time.sleep(0.05)

    def address(self, name: str, host: str = "127.0.0.1") -> str:
        return f"{'https' if name == 'tls' else 'http'}://{host}:{self.ports[name]}/"

    def log(self) -> str:
        with open(f"{self.folder}/access.log", encoding="utf-8", errors="replace") as log:
            return log.read()

    def end(self) -> None:
        self.process.terminate()
        self.process.wait(PATIENCE)
        self.process.stderr.close()


Reply = bytes | Callable[[Any], None]


class BadServer(socketserver.ThreadingTCPServer):
    """A server whose replies are given by the first word of the query, or by a line of the
    submission: bytes, or a function that sends them."""

    allow_reuse_address = daemon_threads = True

    def __init__(self, replies: dict[str, Reply]) -> None:
        super().__init__(("127.0.0.1", 0), BadHandler)
        self.replies = replies
        self.asked: list[str] = []
        threading.Thread(target=self.serve_forever, daemon=True).start()


class BadHandler(socketserver.StreamRequestHandler):
    server: BadServer

    def handle(self) -> None:
        line, length = self.rfile.readline().decode(), 0
        while (head := self.rfile.readline()) not in (b"\r\n", b"\n", b""):
            if head.lower().startswith(b"content-length:"):
                length = int(head.split(b":")[1])
        body = self.rfile.read(length).decode()
        name = next(
            (
                word
                for word in self.server.replies
                if f"/{word} " in line or f"descr: {word}\n" in body
            ),
            None,
        )
        self.server.asked.append(line)
        reply = self.server.replies.get(name, b"HTTP/1.1 404 Not Found\r\n\r\n")
        try:
            if callable(reply):
                reply(self.wfile)
            else:
                self.wfile.write(reply)
        except OSError:
            pass


def started(options: Any, tries: int = 3) -> Any:
    """A browser, which on a busy machine may not be there in time."""
    for left in reversed(range(tries)):
        try:
            return webdriver.Chrome(service=Service("/usr/bin/chromedriver"), options=options)
        except WebDriverException:
            if not left:
                raise


class Browser:
    """Chromium without a window. Names are ids of the page. Calls wait until a page has loaded,
    unless the strategy is `none`."""

    def __init__(self, folder: str, pictures: str, strategy: str = "normal") -> None:
        options = webdriver.ChromeOptions()
        options.page_load_strategy = strategy
        options.binary_location = shutil.which("chromium") or "/usr/bin/chromium"
        options.accept_insecure_certs = True
        for word in [
            "--headless=new",
            "--no-sandbox",
            "--disable-dev-shm-usage",
            "--window-size=1200,950",
            "--disable-background-networking",
            "--no-first-run",
            "--hide-scrollbars",
            f"--user-data-dir={folder}/profile",
            "--disable-gpu",
            # No process is started for a page that may come, or kept for one that was
            # left.
            "--process-per-site",
            "--disable-features=SpareRendererForSitePerProcess,BackForwardCache",
            f"--host-resolver-rules=MAP {HOST} 127.0.0.1",
        ]:
            options.add_argument(word)
        options.set_capability("goog:loggingPrefs", {"browser": "ALL", "performance": "ALL"})
        self.driver = started(options)
        self.driver.set_script_timeout(PATIENCE)
        self.driver.set_page_load_timeout(PATIENCE)
        self.pictures = pictures
        self.requests: list[str] = []
        self.said: list[dict[str, Any]] = []

    def call(self, method: str, **words: Any) -> Any:
        return self.driver.execute_cdp_cmd(method, words)

    def go(self, address: str) -> None:
        """Loads a page anew, also where only what stands after `#` is another."""
        self.driver.get("about:blank")
        self.driver.get(address)

    def js(self, text: str, *given: Any) -> Any:
        return self.driver.execute_script(text, *given)

    def find(self, name: str) -> Any:
        return self.driver.find_element(By.ID, name)

    def all(self, selector: str) -> Any:
        return self.driver.find_elements(By.CSS_SELECTOR, selector)

    def text(self, name: str) -> str:
        return self.js("return document.getElementById(arguments[0]).innerText", name)

    def until(self, text: str, what: str, patience: float = PATIENCE) -> Any:
        """Waits until an expression is true, and gives it."""
        end = time.monotonic() + patience
        while True:
            try:
                if found := self.js(f"return {text}"):
                    return found
            except JavascriptException:
                pass
            if time.monotonic() > end:
                raise Failure(f"{what}: not within {patience} s")
            time.sleep(0.03)

    def write(self, name: str, text: str) -> None:
        """Puts a text into a field as one who pastes it does."""
        self.js(
            (
                "const f = document.getElementById(arguments[0]); f.value = arguments[1];"
                "f.dispatchEvent(new Event('input', {bubbles: true}))"
            ),
            name,
            text,
        )

    def choose(self, name: str, value: str) -> None:
        self.js(
            (
                "const f = document.getElementById(arguments[0]); f.value = arguments[1];"
                "f.dispatchEvent(new Event('change', {bubbles: true}))"
            ),
            name,
            value,
        )

    def click(self, selector: str) -> None:
        self.driver.find_element(By.CSS_SELECTOR, selector).click()

    def picture(self, name: str) -> None:
        """Keeps what is seen, of the whole page."""
        size = self.call("Page.getLayoutMetrics")["cssContentSize"]
        clip = {
            "x": 0,
            "y": 0,
            "width": size["width"],
            "height": min(size["height"], 4000),
            "scale": 1,
        }
        made = self.call("Page.captureScreenshot", captureBeyondViewport=True, clip=clip)["data"]
        import base64

        with open(os.path.join(self.pictures, f"{name}.png"), "wb") as out:
            out.write(base64.b64decode(made))

    def look(self) -> None:
        """Takes in what the browser has logged so far: requests, and messages of the page."""
        for entry in self.driver.get_log("performance"):
            message = json.loads(entry["message"])["message"]
            if message["method"] == "Network.requestWillBeSent":
                self.requests.append(message["params"]["request"]["url"])
        self.said += [
            entry
            for entry in self.driver.get_log("browser")
            if entry["level"] not in ("DEBUG", "INFO")
        ]

    def nodes(self) -> list[tuple[str, str, dict[str, Any]]]:
        """The nodes that a screen reader is given: role, name, and properties."""
        found = []
        for node in self.call("Accessibility.getFullAXTree")["nodes"]:
            if not node.get("ignored"):
                properties = {
                    given["name"]: given["value"].get("value")
                    for given in node.get("properties", [])
                }
                found.append(
                    (node["role"]["value"], (node.get("name") or {}).get("value", ""), properties)
                )
        return found

    def end(self) -> None:
        try:
            self.driver.quit()
        except WebDriverException:
            pass


def expect_in(part: Any, whole: Any, what: str) -> None:
    if part not in whole:
        raise Failure(f"{what}: {part!r} is not in {whole[:600]!r}")


def expect_all(parts: Iterable[Any], whole: Any, what: str) -> None:
    for part in parts:
        expect_in(part, whole, what)


__all__ = [
    "BadServer",
    "Browser",
    "HOST",
    "Nginx",
    "POLICY",
    "expect",
    "expect_all",
    "expect_in",
]

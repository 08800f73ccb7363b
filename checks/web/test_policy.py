"""What the page may do, and the tables that it has of the tool."""

import os
import re

from checks.running import TOP, Skipped, Tell, expect
from checks.web.browsing import POLICY, expect_in
from checks.web.staging import Stage
from checks.web.tables import FILES, TABLES, WEB, tables
from irr.registry.codes import TABLE

IN_MEMORY = True


def test_the_tables_are_those_of_the_tool(tell: Tell) -> None:
    found = TABLES.read_text(encoding="utf-8")
    expect(found, tables(), "web/lib/tables.js (python3 -m checks.web.tables writes it)")
    text = "".join(
        (WEB / name).read_text(encoding="utf-8") for name in FILES if name.endswith(".js")
    )
    expect(
        re.findall(
            (
                r"innerHTML|outerHTML|insertAdjacent|document\.write|\beval\b|new"
                r" Function|localStorage|sessionStorage|document\.cookie|indexedDB|import\("
            ),
            text,
        ),
        [],
        "calls that read markup, run text or keep things",
    )
    tell(f"{len(TABLE)} codes as in tools/irr/registry/codes.py")


def test_its_policy_refuses_what_comes_from_elsewhere(stage: Stage, tell: Tell) -> None:
    browser = stage.browser
    browser.go(stage.home)
    browser.until("document.querySelector('#queries').open", "the page")
    meta = browser.js("return document.querySelector('meta[http-equiv]').content")
    for part in [
        "default-src 'none'",
        "script-src 'self'",
        "style-src 'self'",
        "connect-src 'self'",
        "base-uri 'none'",
        "require-trusted-types-for 'script'",
    ]:
        expect_in(part, meta, "the policy of the page")
    expect(
        [word for word in ("unsafe", "http:", "https:", "*") if word in meta],
        [],
        "what the policy lets in",
    )
    browser.js(
        """window.hits = [];
        addEventListener('securitypolicyviolation',
            event => window.hits.push(event.effectiveDirective));
        const tag = document.createElement('script');
        try { tag.textContent = 'window.hit = 7'; } catch (e) { window.hits.push('trusted'); }
        document.body.append(tag);
        const style = document.createElement('div');
        style.setAttribute('style', 'color: red');
        document.body.append(style);
        const image = new Image();
        image.src = 'http://127.0.0.1:9/x.png';
        document.body.append(image);
        fetch('http://127.0.0.1:9/').catch(() => {});"""
    )
    browser.until(
        (
            "['trusted', 'style-src-attr', 'img-src', 'connect-src'].every(name =>"
            " window.hits.includes(name))"
        ),
        "refusals of what the policy forbids",
    )
    expect(browser.js("return window.hit ?? null"), None, "whether a script in the page ran")
    browser.look()
    browser.said.clear()
    browser.requests = [url for url in browser.requests if ":9/" not in url]
    tell("a script, a style, a picture and a request from elsewhere are refused")


def test_haproxy_serves_each_file_of_the_page() -> None:
    """It reads no folder: the example has a line for each."""
    with open(os.path.join(TOP, "examples/haproxy.cfg"), encoding="utf-8") as text:
        lines = re.findall(r'file "\$WEB/(\S+)" if \{ path /(\S*) \}', text.read())
    expect(
        sorted(lines),
        sorted((name, "" if name == "index.html" else name) for name in FILES),
        "the files in examples/haproxy.cfg, and their paths",
    )


def test_the_proxies_of_the_examples_send_the_policy(tell: Tell) -> None:
    told = []
    for name in ["nginx.conf", "haproxy.cfg"]:
        path = os.path.join(TOP, "examples", name)
        if not os.path.exists(path):
            raise Skipped(f"examples/{name} is not there")
        with open(path, encoding="utf-8") as text:
            found = re.search(r"Content-Security-Policy \"([^\"]+)\"", text.read())
        expect(
            found and found[1],
            POLICY,
            f"the policy in examples/{name}, which is that of these cases",
        )
        told.append(name)
    tell(f"{' and '.join(told)} send the policy that these cases ran with")

"""Answers that are no good: words, and none that looks whole."""

import time

from checks.running import Tell, expect
from checks.web.browsing import expect_in
from checks.web.staging import Stage, own_origin

IN_MEMORY = True


def test_bad_answers_end_in_words_and_none_looks_whole(stage: Stage, tell: Tell) -> None:
    browser = stage.browser
    for query, wanted in [
        ("cut", "was cut off after"),
        ("torn", "was cut off"),
        ("lineless", "was cut off"),
        ("empty", "was cut off"),
        ("halfway", "was cut off"),
        ("differ", "Two answers differ"),
        ("stopped", "The registry is stopped"),
        ("html", "is not a registry"),
        ("strange", "no registry of this kind"),
        ("closed", "does not answer"),
        ("many", "Too many requests"),
        ("errs", "The registry is stopped"),
        ("huge", "more than 32 MB"),
    ]:
        said, shown = stage.ask(query, "bad")
        expect_in(wanted, said, query)
        expect(
            (shown, browser.js("return document.getElementById('look-said').className")),
            ("", "said bad"),
            f"what stands below it at {query}",
        )
    said, shown = stage.ask("AS64496", "down")
    expect_in("does not answer", said, "a registry that is down")
    browser.go(stage.nginx.address("bad") + "#map=10.0.0.0/8")
    browser.until("document.getElementById('map-said').textContent", "the map of a bad server")
    browser.go(stage.nginx.address("bad") + "#q=slow")
    time.sleep(0.2)
    browser.click("#look-stop")
    browser.until(
        "document.getElementById('look-said').textContent.startsWith('Stopped')", "words after Stop"
    )
    browser.go(stage.nginx.address("bad") + "#q=slow")
    browser.until(
        "document.getElementById('look-said').textContent.startsWith('Waiting for the registry')",
        "words of waiting",
    )
    browser.until(
        "document.getElementById('look-said').textContent === '1 object: 1 mntner.'",
        "the answer in the end",
    )
    for name, wanted, heading in [
        ("post-cut", "was cut off after 1 item", True),
        ("post-short", "was cut off after 1 item", True),
        ("post-stopped", "database failed", True),
        ("post-read", "did not arrive", True),
        ("post-memory", "ran out of memory", True),
        ("post-503", "is not known", False),
        ("post-closed", "is not known", False),
        ("post-strange", "not a registry", False),
        ("post-413", "longer than the server accepts", False),
    ]:
        said = stage.send_text(f"mntner: A-MNT\ndescr: {name}\n", [], "bad")
        expect_in(wanted, said, name)
        expect(
            browser.text("report").startswith("Report"),
            heading,
            f"whether a report is shown at {name}",
        )
    expect(browser.js("return window.hit ?? null"), None, "whether a script of an answer ran")
    tell("22 replies that are no good, in words, and none that looks whole")


def test_it_asks_its_own_origin_alone(stage: Stage, tell: Tell) -> None:
    tell(own_origin(stage))

"""Readers of each kind: without scripts, without a mouse."""

from selenium.webdriver.common.action_chains import ActionChains
from selenium.webdriver.common.keys import Keys

from checks.running import Tell, expect
from checks.web.browsing import expect_all
from checks.web.staging import Stage, own_origin

IN_MEMORY, SECONDS = True, 40


def test_without_scripts_it_says_what_it_needs(stage: Stage, tell: Tell) -> None:
    browser = stage.browser
    browser.call("Emulation.setScriptExecutionDisabled", value=True)
    try:
        browser.go(stage.home)
        nodes = browser.nodes()
        texts = " ".join(name for role, name, _ in nodes if role == "StaticText")
        browser.picture("scripts-off")
    finally:
        browser.call("Emulation.setScriptExecutionDisabled", value=False)
    expect_all(["This page needs scripts", "whois", "/query/AS64496"], texts, "what is said")
    tell("what it needs is said")


def test_it_is_used_without_a_mouse(stage: Stage, tell: Tell) -> None:
    browser = stage.browser
    browser.go(stage.home)
    press = lambda *keys: ActionChains(browser.driver).send_keys(*keys).perform()
    links = browser.js(
        "return [...document.querySelectorAll('header a')]"
        ".map(a => [a.dataset.view, a.textContent])"
    )
    views = browser.js("return [...document.querySelectorAll('main > section')].map(at => at.id)")
    expect([view for view, _ in links], views, "the links, one to each view")
    browser.until("document.getElementById('source').value", "what the server says of itself")
    links = browser.js(
        "return [...document.querySelectorAll('header a')].filter(a => a.checkVisibility())"
        ".map(a => [a.dataset.view, a.textContent])"
    )
    has = [view for view in views if view not in ("why", "history")]
    expect([view for view, _ in links], has, "the links to what a registry without a door has")
    reached = []
    for _ in range(len(links) + 2):
        press(Keys.TAB)
        reached.append(
            browser.js("return document.activeElement.id || document.activeElement.textContent")
        )
    texts = [text for _, text in links]
    expect(reached, [*texts, "words", "Look up"], "what Tab reaches")
    browser.go(stage.home)
    press(*[Keys.TAB] * (len(links) + 1), "10.1.2.3", Keys.ENTER)
    browser.until("document.querySelectorAll('#answer .object').length === 2", "the answer")
    outline = browser.js(
        "document.querySelector('#answer a').focus({focusVisible: true}); return"
        " getComputedStyle(document.activeElement).outlineStyle"
    )
    expect(outline, "solid", "the mark of where the reader is")
    browser.go(stage.home + "#map=10.0.0.0/8")
    browser.until("document.getElementById('canvas').dataset.drawn", "the map")
    browser.js("document.getElementById('canvas').focus()")
    press(Keys.ARROW_RIGHT, Keys.ARROW_RIGHT)
    expect(
        browser.text("pointed"),
        "inetnum 10.1.0.0/16, A-MNT; route 10.1.0.0/16 AS64496, A-MNT",
        "the box that the arrows reach",
    )
    browser.picture("map-keyboard")
    press(Keys.ENTER)
    browser.until(
        "document.getElementById('canvas').dataset.drawn === '10.1.0.0/16'", "the map after Enter"
    )
    press(Keys.ESCAPE)
    browser.until(
        "document.getElementById('canvas').dataset.drawn === '10.0.0.0/8'", "the map after Escape"
    )
    browser.go(stage.home + "#submit")
    browser.until("document.getElementById('field-source').value", "the form")
    browser.js("document.getElementById('class').focus()")
    press("aut", Keys.TAB)
    expect(
        browser.js("return [document.getElementById('class').value, document.activeElement.id]"),
        ["aut-num", "field-aut-num"],
        "the class that is typed",
    )
    press(
        "AS64496",
        Keys.TAB,
        "as-name: EXAMPLE",
        Keys.ENTER,
        Keys.BACKSPACE,
        *[Keys.TAB] * 4,
        "A-MNT",
    )
    browser.js("document.getElementById('password-1').focus()")
    press("c", Keys.ENTER)
    browser.until(
        "document.querySelector('#report .word')?.textContent === 'unchanged'", "the report"
    )
    tell("look up, map and submit without a mouse")


def test_it_asks_its_own_origin_alone(stage: Stage, tell: Tell) -> None:
    tell(own_origin(stage))

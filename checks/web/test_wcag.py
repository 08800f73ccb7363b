"""WCAG 2.2, levels A and AA: each view, in each state that it has, by computed styles, by what a
screen reader is given, by the keyboard and at 320 points. What no program sees is read by people:
words of errors, links and alternatives."""

from pathlib import Path

import pytest
from selenium.webdriver.common.action_chains import ActionChains
from selenium.webdriver.common.keys import Keys

from checks.running import Tell, expect
from checks.web.browsing import Browser
from checks.web.shown import MISTAKES
from checks.web.staging import Stage, own_origin

IN_MEMORY, SECONDS, DOOR = True, 60, True
WALK = Path(__file__).with_name("wcag.js").read_text(encoding="utf-8")
# An element that has the focus, with the mark of it.
FOCUSED = r"""
const one = document.activeElement, style = getComputedStyle(one);
const light = text => text.match(/[\d.]+/g).slice(0, 3).map(part => part / 255)
    .map(part => part <= .03928 ? part / 12.92 : ((part + .055) / 1.055) ** 2.4)
    .reduce((sum, part, at) => sum + part * [.2126, .7152, .0722][at], .05);
const [low, high] = [style.outlineColor, getComputedStyle(document.body).backgroundColor]
    .map(light).sort((one, other) => one - other);
return [one.id || (one.closest('label') ?? one).textContent.trim(), style.outlineStyle,
    parseFloat(style.outlineWidth), high / low];
"""
# What Tab is to reach, in the order of the page. Of several radio buttons it is the chosen one.
REACHED = """
return [...document.querySelectorAll('a[href], button:enabled, input:enabled, select, textarea,' +
    'summary, [tabindex="0"]')]
    .filter(one => one.checkVisibility() && (one.type !== 'radio' || one.checked))
    .map(one => one.id || (one.closest('label') ?? one).textContent.trim());
"""
# How wide the page is, and what of it reaches out of 320 points, but for the table of a map.
WIDE = """
return [document.documentElement.scrollWidth, ...[...document.querySelectorAll('body *')]
    .filter(one => one.checkVisibility() && one.getBoundingClientRect().right > 321 &&
        !one.closest('#listed'))
    .map(one => one.tagName + one.id).slice(0, 5)];
"""
# The space in texts that a reader may ask for.
SPACED = """
const sheet = new CSSStyleSheet();
sheet.replaceSync('* { line-height: 1.5 !important; letter-spacing: .12em !important;' +
    'word-spacing: .16em !important } p { margin-bottom: 2em !important }');
document.adoptedStyleSheets = [sheet];
"""
VIEWS = {
    "the front": ("#q=", "document.querySelector('#queries').open"),
    "objects": ("#q=A-MNT", "document.querySelector('#answer .object')"),
    "many objects": (
        "#q=inverse%20mnt%20A-MNT",
        "document.querySelectorAll('#answer .object').length > 9",
    ),
    "an expansion": ("#q=prefixes%20AS64496:RS-HALF", "document.querySelector('.warn label')"),
    "no query": ("#q=what%20is%20this", "document.querySelector('#look-said.bad')"),
    "the map": ("#map=10.0.0.0/8", "document.getElementById('canvas').dataset.drawn"),
    "no prefix": ("#map=10/8", "document.querySelector('#map-said.bad')"),
    "the form": ("#submit", "document.getElementById('field-source').value"),
    "no set": ("#set=10/8", "document.querySelector('#tree-said.bad')"),
}
# Those of what a door has.
DOORED = {
    "objects of a view": ("?view=ALL#q=exact%2010.1.0.0/16", "document.querySelector('.source')"),
    "a tree": (
        "?view=ALL#set=AS64496:AS-CUSTOMERS",
        "document.querySelector('.lacking') && document.querySelectorAll('#source option')[1]",
    ),
    "a large tree": ("?view=ALL#set=AS64496:AS-BIG", "document.querySelector('.branch .branch')"),
    "chains": (
        "?view=ALL#why=10.1.2.0/24%20AS64496:AS-RING",
        "document.querySelector('.chain') && document.querySelectorAll('#source option')[1]",
    ),
    "what is nearest": (
        "?view=ALL#why=10.1.2.0/25%20AS64496:AS-CUSTOMERS",
        "document.querySelectorAll('.chain')[1]",
    ),
    "no prefix to ask why": ("#why=10/8%20AS1", "document.querySelector('#why-said.bad')"),
    "a history": (
        "#history=route%2010.1.0.0/16%20AS64496",
        "document.querySelector('#states ins') && document.querySelectorAll('#source option')[1]",
    ),
    "no key": ("#history=AS1", "document.querySelector('#history-said.bad')"),
}
OTHER_STATES = [
    "faults of fields",
    "a report",
    "a password in the text",
    "a bad password",
    "a bad new password",
    "cautions",
]
# Texts that are held back, and their passwords.
GIVEN: dict[str, tuple[str, list[str]]] = {
    "a report": (MISTAKES, ["c"]),
    "a password in the text": ("password: x\n\naut-num: AS1\n", []),
    "a bad password": ("aut-num: AS1\n", ["c", " a blank"]),
    "cautions": ("mntner: Z-MNT\nauth: MD5-PW x\nmnt-by: Z-MNT\nsource: TEST\n", ["c"]),
}


def show(stage: Stage, state: str) -> None:
    """Brings the page into a state."""
    browser = stage.browser
    if state in VIEWS or state in DOORED:
        view, ready = VIEWS[state] if state in VIEWS else DOORED[state]
        browser.go((stage.home if state in VIEWS else stage.nginx.address("door")) + view)
        browser.until(ready, state)
    elif state in GIVEN:
        stage.send_text(*GIVEN[state])
    elif state == "faults of fields":
        stage.form("route", {"route": "10/8"}, [])
        stage.sent()
    else:
        stage.form("mntner", {}, [])
        browser.write("new-password", " a blank")
        browser.click("#attributes fieldset button")


def press(browser: Browser, *keys: str) -> None:
    ActionChains(browser.driver).send_keys(*keys).perform()


def scheme(browser: Browser, name: str) -> None:
    browser.call(
        "Emulation.setEmulatedMedia", features=[{"name": "prefers-color-scheme", "value": name}]
    )


@pytest.mark.parametrize("state", [*VIEWS, *DOORED, *OTHER_STATES])
def test_it_meets_what_a_program_can_see(stage: Stage, tell: Tell, state: str) -> None:
    """Contrast, light and dark; targets; headings, labels, names and roles; errors tied to their
    fields; reflow at 320 points."""
    browser = stage.browser
    show(stage, state)
    texts, bad = 0, []
    try:
        for name in ["light", "dark"]:
            scheme(browser, name)
            found, count, targets = browser.js(WALK)
            bad += [f"{one}, {name}" for one in found]
            texts += count
        nodes = browser.nodes()
        bad += [
            f"4.1.2: a {role} has no name"
            for role, name, _ in nodes
            if role in USED and not name.strip()
        ]
        roles = {role for role, _, _ in nodes}
        bad += [f"1.3.1: no {role}" for role in LANDMARKS if role not in roles]
        browser.picture("wcag-" + state.replace(" ", "-"))
        browser.call(
            "Emulation.setDeviceMetricsOverride",
            width=320,
            height=640,
            deviceScaleFactor=2,
            mobile=True,
        )
        wide = browser.js(WIDE)
        bad += [f"1.4.10: {wide} at 320 points"] if wide != [320] else []
        bad += [f"{one}, at 320 points" for one in browser.js(WALK)[0]]
        browser.js(SPACED)
        wide = browser.js(WIDE)
        bad += [f"1.4.12: {wide} with more space in texts"] if wide != [320] else []
    finally:
        scheme(browser, "light")
        browser.call("Emulation.clearDeviceMetricsOverride")
    expect(bad, [], f"what is wrong with {state}")
    tell(f"{texts} texts, light and dark; {targets} targets")


USED = {
    "link",
    "button",
    "textbox",
    "searchbox",
    "checkbox",
    "radio",
    "combobox",
    "listbox",
    "table",
    "form",
    "search",
    "article",
    "region",
}
LANDMARKS = ["banner", "main", "contentinfo", "navigation", "status"]


@pytest.mark.parametrize(
    "state",
    [
        "objects",
        "an expansion",
        "the map",
        "the form",
        "cautions",
        "objects of a view",
        "a tree",
        "chains",
        "a history",
    ],
)
def test_the_keyboard_reaches_all_in_order_and_shows_where(
    stage: Stage, tell: Tell, state: str
) -> None:
    """2.1.1, 2.1.2, 2.4.3, 2.4.7."""
    browser = stage.browser
    show(stage, state)
    browser.js("document.querySelector('header a').focus()")
    # A script's focus has no mark where no key was pressed before.
    ActionChains(browser.driver).send_keys(Keys.TAB).key_down(Keys.SHIFT).send_keys(
        Keys.TAB
    ).key_up(Keys.SHIFT).perform()
    wanted, reached, unmarked = browser.js(REACHED), [], []
    for _ in wanted:
        name, style, width, ratio = browser.js(FOCUSED)
        reached.append(name)
        if style == "none" or width < 2 or ratio < 3:
            unmarked.append((name, style, width, ratio))
        press(browser, Keys.TAB)
    expect(reached, wanted, "what Tab reaches")
    is_left = browser.js("return document.activeElement === document.body")
    expect(is_left, True, "whether Tab leaves the page")
    expect(unmarked, [], "places without a mark of where the reader is")
    tell(f"{len(wanted)} places")


def test_the_focus_is_never_lost(stage: Stage, tell: Tell) -> None:
    """2.4.3: what takes away or hides where the reader is puts them at what came instead."""
    browser = stage.browser
    focus = "return document.activeElement.id || document.activeElement.tagName"
    show(stage, "objects")
    browser.click("[aria-label='Change mntner A-MNT']")
    browser.until("document.getElementById('submit').checkVisibility()", "the form")
    expect(browser.js(focus), "submit-title", "after Change")
    browser.driver.back()
    browser.until(
        "document.activeElement.textContent === 'Answer to A-MNT'", "the answer after Back"
    )
    show(stage, "the map")
    browser.js("document.querySelector('#listed tbody tr:nth-child(2) a').focus()")
    press(browser, Keys.ENTER)
    drawn = "document.getElementById('canvas').dataset.drawn"
    browser.until(f"{drawn} === '10.1.0.0/16'", "the map of a row")
    expect(browser.js(focus), "listed", "after a row")
    browser.js("document.querySelector('#above a').focus()")
    press(browser, Keys.ENTER)
    browser.until("document.activeElement !== document.body", "a place after a prefix around")
    stage.ask("10.1.2.3")
    browser.js("document.querySelector('#answer a[href^=\"#map\"]').focus()")
    press(browser, Keys.ENTER)
    browser.until(drawn, "the map of an object")
    expect(browser.js(focus), "map-title", "after a link to the map")
    browser.go(stage.nginx.address("bad") + "#q=slow")
    browser.until("!document.getElementById('look-stop').hidden", "what can be stopped")
    browser.js("document.getElementById('look-stop').focus()")
    press(browser, Keys.ENTER)
    browser.until("document.getElementById('look-stop').hidden", "the end of waiting")
    expect(browser.js(focus), "look-said", "after Stop")
    said = stage.send_text("mntner: A-MNT\ndescr: post-closed\n", [], "bad")
    expect(("is not known" in said, browser.js(focus)), (True, "send"), "after a failure")
    tell("eight ways to lose it")


def test_a_screen_reader_hears_where_the_map_is(stage: Stage) -> None:
    """4.1.2, 1.1.1: the map is a list of boxes with an active one, and names what it shows."""
    browser = stage.browser
    show(stage, "the map")
    browser.js("document.getElementById('canvas').focus()")
    press(browser, Keys.ARROW_RIGHT, Keys.ARROW_RIGHT)
    (name,) = [name for role, name, _ in browser.nodes() if role == "listbox"]
    expect(name, "Map of 10.0.0.0/8: 4 inetnums and 3 routes", "the name of the map")
    active = browser.js(
        "const one = document.getElementById(document.getElementById('canvas')"
        ".getAttribute('aria-activedescendant')); return [one.role, one.ariaSelected,"
        " one.ariaPosInSet, one.ariaSetSize, one.textContent]"
    )
    words = "inetnum 10.1.0.0/16, A-MNT; route 10.1.0.0/16 AS64496, A-MNT"
    expect(active, ["option", "true", "2", "6", words], "the active box")
    options = [name for role, name, _ in browser.nodes() if role == "option"]
    expect(options, [words], "what a screen reader is given of it")


def test_motion_is_left_out_where_it_is_not_wanted(stage: Stage) -> None:
    """2.3.3, and the system's setting."""
    browser = stage.browser
    counts = []
    for wanted in ["reduce", "no-preference"]:
        browser.call(
            "Emulation.setEmulatedMedia",
            features=[{"name": "prefers-reduced-motion", "value": wanted}],
        )
        browser.go(stage.home + "#q=A-MNT")
        browser.until("document.querySelector('#answer .object')", "an answer")
        counts.append(
            browser.js(
                "const one = document.getElementById('queries'); one.open = true;"
                " return document.getAnimations().length"
            )
        )
    scheme(browser, "light")
    expect(counts, [0, 1], "what moves as a part opens")


def test_it_asks_its_own_origin_alone(stage: Stage, tell: Tell) -> None:
    tell(own_origin(stage))

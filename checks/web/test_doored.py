"""What the page shows of a door: the sources of objects, a set as a tree, why a prefix is in a set,
and what an object was."""

from selenium.webdriver.common.action_chains import ActionChains
from selenium.webdriver.common.keys import Keys

from checks.running import Each, Tell, expect
from checks.web.browsing import Browser, expect_all, expect_in
from checks.web.doored import NUMBERS, REGISTERED, SETS
from checks.web.staging import Stage, own_origin

IN_MEMORY, SECONDS, DOOR = True, 40, True
VIEW = "?view=ALL"


def shown(stage: Stage, address: str, ready: str, name: str = "door") -> Browser:
    """Loads an address, and waits until what it has is there."""
    browser = stage.browser
    browser.go(stage.nginx.address(name) + address)
    browser.until(ready, address)
    return browser


def said(name: str) -> str:
    return (
        f"document.getElementById('{name}-stop').hidden &&"
        f" document.getElementById('{name}-said').textContent"
    )


def summaries(browser: Browser) -> list[str]:
    return [one.text for one in browser.all("#branches summary") if one.is_displayed()]


def press(browser: Browser, *keys: str) -> None:
    ActionChains(browser.driver).send_keys(*keys).perform()


def test_what_is_served_is_chosen_and_each_object_has_its_source(stage: Stage) -> None:
    browser = shown(stage, "#q=exact 10.1.0.0/16", "!document.getElementById('sources').hidden")
    options = browser.js("return [...document.querySelectorAll('#source option')].map(o => o.text)")
    expect(options, ["TEST", "ALL: TEST, RADB", "TEST of ALL", "RADB of ALL"], "what there is")
    browser.until("document.querySelectorAll('#answer .object').length === 2", "the registry's")
    expect(browser.all("#answer .source"), [], "sources of a registry")
    browser.choose("source", "ALL/")
    browser.until("document.querySelectorAll('#answer .source').length === 2", "the view's")
    expect(browser.text("look-said"), "2 objects: 2 route. 1 of TEST, 1 of RADB.", "what is said")
    expect(
        browser.js("return location.search + location.hash"), f"{VIEW}#q=exact%2010.1.0.0/16", ""
    )
    expect_all(
        ["ALL has, in this order: TEST, seen", "RADB, seen 10 minutes ago, which is not renewed"],
        browser.text("source-said"),
        "its sources",
    )
    expect(browser.all("#answer [aria-label^=Change]"), [], "buttons to change what is a view's")
    browser.choose("source", "ALL/RADB")
    browser.until("document.querySelectorAll('#answer .object').length === 1", "those of RADB")
    expect(
        browser.text("look-said"),
        "1 object: 1 route. 1 of RADB. 1 of other sources left out.",
        "what is said of those",
    )
    browser.driver.back()
    browser.until("document.querySelectorAll('#answer .object').length === 2", "both again")
    expect(browser.js("return document.getElementById('source').value"), "ALL/", "the choice")
    browser = shown(
        stage, f"{VIEW}#map=10.0.0.0/8", "document.getElementById('canvas').dataset.drawn"
    )
    expect(browser.text("map-said"), "0 inetnums and 3 routes inside 10.0.0.0/8.", "a map of it")


def test_what_is_not_there_is_not_shown(stage: Stage, each: Each) -> None:
    for name in "small", "bad", "down":
        with each(name):
            browser = shown(stage, "", "document.getElementById('source').value", name)
            texts = [one.text for one in browser.all("header a") if one.is_displayed()]
            expect(texts, ["Look up", "Set", "Map", "Submit"], "the links")
            expect(browser.find("sources").is_displayed(), False, "the choice of sources")
    with each("an address of what is not there"):
        browser = shown(stage, "#why=10.1.0.0/16 AS64496", said("why"), "small")
        expect_in("has no such page", browser.text("why-said"), "what is said")
        browser = shown(stage, "?view=NONE#q=AS64496", said("look"))
        expect_in("has no such page", browser.text("look-said"), "a view that is none")


def test_a_set_is_a_tree_that_is_opened_step_by_step(stage: Stage, tell: Tell) -> None:
    browser = shown(stage, f"{VIEW}#set=AS64496:AS-CUSTOMERS", said("tree"))
    expect(
        browser.text("tree-said"),
        "AS64496:AS-CUSTOMERS: 4 members, 3 sets of them, 1 not registered.",
        "what is said",
    )
    expect_all(
        [
            "It comes to 2 AS numbers, and 1 set not registered.",
            "AS64496:AS-GONE is not registered, and adds nothing",
            "Maintained by A-MNT, of TEST.",
            "AS64497",
        ],
        browser.text("branches"),
        "the first step",
    )
    wanted = ["AS64496:AS-CUSTOMERS", "AS64496:AS-JOINED", "AS64496:AS-RING"]
    expect(summaries(browser), wanted, "what can be opened")
    # By the keyboard alone.
    browser.js("document.querySelectorAll('#branches summary')[2].focus()")
    press(browser, Keys.ENTER)
    browser.until(f"({said('tree')}).startsWith('AS64496:AS-RING: 2 members')", "a ring")
    expect_all(
        ["AS64496:AS-CUSTOMERS is in the tree already", "AS64496:AS-JOINED is in the tree already"],
        browser.text("branches"),
        "sets that are there",
    )
    browser.click("#branches details details button")
    expect(
        browser.js("return document.activeElement.textContent"),
        "AS64496:AS-CUSTOMERS",
        "where its button leads",
    )
    browser.all("#branches summary")[1].click()
    browser.until(
        f"({said('tree')}).startsWith('AS64496:AS-JOINED: 0 members')", "a set by reference"
    )
    next(one for one in browser.all("#branches summary") if "By reference" in one.text).click()
    browser.until(f"({said('tree')}).includes('by reference')", "members by reference")
    expect_in("aut-num AS64496", browser.text("branches"), "the member")
    browser = shown(stage, f"{VIEW}#set=AS64496:AS-OPEN", said("tree"))
    expect_in("each object that names it in member-of", browser.text("branches"), "one of anybody")
    for name, words in [
        ("AS-NONE", "Nothing is registered there."),
        ("10.0.0.0/8", "This is not a set"),
        ("<img src=x onerror=window.hit=9>", "This is not a set"),
    ]:
        browser = shown(stage, f"#set={name}", said("tree"))
        expect_in(words, browser.text("tree-said"), name)
    browser = shown(stage, "#set=AS64496:AS-MANY", said("tree"), "small")
    expect_all(
        ["more members than this registry expands", "60 members, 60 sets of them"],
        browser.text("branches"),
        "a set over the limit",
    )
    expect(browser.js("return window.hit ?? null"), None, "whether a script of an address ran")
    tell("rings, sets that are missing, members by reference, and one over the limit")


def test_a_set_of_2000_members_is_shown_in_parts(stage: Stage, tell: Tell) -> None:
    browser = shown(stage, f"{VIEW}#set=AS64496:AS-BIG", said("tree"))
    expect(
        browser.text("tree-said"),
        f"AS64496:AS-BIG: {SETS + NUMBERS:,} members, {SETS} sets of them,"
        f" {SETS - REGISTERED} not registered.",
        "what is said",
    )
    count = "return document.querySelectorAll('#branches .branch .branch > li').length"
    expect(browser.js(count), 100, "how many are shown at first")
    for _ in range(4):
        browser.js("document.querySelector('#branches .inside > button').click()")
    expect(browser.js(count), 500, "how many are shown then")
    expect(len(summaries(browser)), 1 + REGISTERED, "how many of them can be opened")
    browser.js("document.querySelectorAll('#branches summary')[1].click()")
    browser.until(f"({said('tree')}).startsWith('AS64496:AS-B0: 1 member.')", "one of them")
    tell(f"{SETS + NUMBERS:,} members, a hundred at a time")


def test_why_has_the_chains_or_what_is_nearest(stage: Stage) -> None:
    browser = shown(stage, f"{VIEW}#why=", "document.getElementById('source').value")
    browser.js("document.getElementById('why-prefix').focus()")
    press(browser, "10.1.2.0/24", Keys.TAB, "as64496:as-ring", Keys.ENTER)
    browser.until("document.querySelectorAll('#chains li').length === 4", "the chain")
    expect(
        browser.text("why-said"), "10.1.2.0/24 is in AS64496:AS-RING, by 1 chain.", "what is said"
    )
    expect(
        [line for line in browser.text("chains").split("\n") if line],
        [
            "Chain 1 of 1",
            "as-set AS64496:AS-RING of RADB",
            "maintained by A-MNT; members: AS64496:AS-CUSTOMERS; gives 10.1.2.0/24",
            "as-set AS64496:AS-CUSTOMERS of TEST",
            "maintained by A-MNT; members: AS64497; gives 10.1.2.0/24",
            "aut-num AS64497 of RADB",
            "maintained by A-MNT; origin; gives 10.1.2.0/24",
            "route 10.1.2.0/24 AS64497 of RADB",
            "maintained by A-MNT; gives 10.1.2.0/24",
        ],
        "the chain",
    )
    wanted = f"{VIEW}#why=10.1.2.0/24%20as64496:as-ring"
    expect(browser.js("return location.search + location.hash"), wanted, "its address")
    browser = shown(stage, "#why=10.1.2.0/25 AS64496:AS-CUSTOMERS", said("why"))
    expect_in("is not in AS64496:AS-CUSTOMERS.", browser.text("why-said"), "what is not in it")
    expect_in("The nearest that the set has: 10.1.0.0/16", browser.text("chains"), "the nearest")
    for words, wanted in [
        ("10/8 AS64496", "This is not a prefix"),
        ("10.0.0.0/8", "This is not a set"),
        ("10.0.0.0/8 A-MNT", "This is not a set"),
        ("10.0.0.0/8 AS-NONE", "the set is not registered"),
        ("192.0.2.0/24 AS64496", "192.0.2.0/24 is not in AS64496."),
    ]:
        browser = shown(stage, f"#why={words}", said("why"))
        expect_in(wanted, browser.text("why-said"), words)


def test_a_history_has_its_states_and_what_changed(stage: Stage) -> None:
    browser = shown(
        stage, "#q=object route 10.1.0.0/16 AS64496", "document.querySelector('.object')"
    )
    browser.until("document.querySelector('.object .of-history').checkVisibility()", "a link to it")
    browser.click(".object .of-history")
    browser.until(said("history"), "the history")
    expect_in(
        "5 states of route 10.1.0.0/16 AS64496.", browser.text("history-said"), "what is said"
    )
    times = [f"2023-11-14 22:13:2{n} UTC" for n in range(5, 0, -1)]
    words = ["added", "deleted", "changed", "changed", "added"]
    expect(
        [one.text for one in browser.all("#states li")],
        [f"{time}: {word} what changed" for time, word in zip(times, words)],
        "the states",
    )
    browser.all("#states li a")[3].click()
    browser.until("document.querySelector('#states ins')?.textContent.includes('<b>')", "a change")
    expect_in("+ descr:          <b>office</b>", browser.text("states"), "what changed")
    expect(
        browser.js("return document.activeElement.textContent"),
        "What changed by 2023-11-14 22:13:22 UTC",
        "where the reader is",
    )
    expect(browser.all("#states b"), [], "markup of an object")
    first = browser.js("return document.querySelector('#history-from').options[5].value")
    browser.choose("history-from", first)
    browser.choose(
        "history-to", browser.js("return document.querySelector('#history-to').options[2].value")
    )
    browser.click("#states form button")
    browser.until(
        "document.querySelector('#states ins')?.textContent.includes('two')", "two states"
    )
    expect(len(browser.all("#states del")), 0, "lines that went")
    shared = browser.js("return location.href")
    browser.go(shared)
    browser.until(
        "document.querySelector('#states ins')?.textContent.includes('two')", "a shared one"
    )
    for key, wanted in [
        ("mntner NO-MNT", "was never seen"),
        ("AS64496", "Write a class and a key"),
        ("route 10.0.0.0/8", "The server says: write /history/CLASS/KEY"),
        ("mntner ..", "The server says: write /history/CLASS/KEY"),
    ]:
        browser = shown(stage, f"#history={key}", said("history"))
        expect_in(wanted, browser.text("history-said"), key)


def test_it_asks_its_own_origin_alone(stage: Stage, tell: Tell) -> None:
    tell(own_origin(stage))

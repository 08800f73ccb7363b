"""Looking up: answers and links, copies for routers, words for bad queries, parts that do not
load."""

import subprocess

from checks.filters.filtering import program
from checks.running import Tell, expect
from checks.web.browsing import Browser, expect_all, expect_in
from checks.web.shown import HOSTILE
from checks.web.staging import Stage, own_origin

IN_MEMORY = True


def pressed_copy(browser: Browser, name: str) -> str:
    """What a button of an expansion copies."""
    next(button for button in browser.all("#answer .buttons button") if button.text == name).click()
    browser.until("document.getElementById('look-said').textContent.includes('copied')", name)
    browser.js("document.getElementById('look-said').textContent = ''")
    return browser.driver.execute_async_script(
        "navigator.clipboard.readText().then(arguments[0], e => arguments[0](String(e)))"
    )


def read_by_routers(folder: str, bird: str, frr: str) -> str:
    """Has BIRD and FRR read what was copied, where they are installed."""
    readers = []
    for name, text, command in [
        (
            "bird",
            f"router id 192.0.2.9;\nprotocol device {{ }}\n{bird}",
            ["bird", "-p", "-c", "bird"],
        ),
        ("bgpd", frr, ["/usr/lib/frr/bgpd", "-C", "-S", "-f", f"{folder}/bgpd"]),
    ]:
        with open(f"{folder}/{name}", "w", encoding="utf-8") as out:
            out.write(text)
        if path := program(command[0]):
            made = subprocess.run(
                [path, *command[1:]], cwd=folder, capture_output=True, text=True, check=False
            )
            expect(made.returncode, 0, f"{name} reading what was copied: {made.stderr}")
            readers.append(name)
    return f"read by {' and '.join(readers) or 'no router, since none is installed'}"


def test_look_up_leads_through_links_and_back(stage: Stage, tell: Tell) -> None:
    browser = stage.browser
    said, shown = stage.ask("10.1.2.3")
    expect(said, "2 objects: 1 inetnum, 1 route.", "what is said")
    expect_all(
        ["inetnum (1)", "route (1)", "OFFICE", "AS64496", "A-MNT, B-MNT {10.1.8.0/22^22-24}"],
        shown,
        "what is shown",
    )
    expect(browser.js("return location.hash"), "#q=10.1.2.3", "the address")
    browser.picture("look-up")
    for click, query, wanted in [
        (".object dd a[href='#q=AS64496']", "AS64496", "aut-num (1)"),
        ("a[href='#q=inverse%20origin%20AS64496']", "inverse origin AS64496", "route (1)"),
        ("a[href='#q=A-MNT']", "A-MNT", "mntner (1)"),
        ("a[href='#q=inverse%20mnt%20A-MNT']", "inverse mnt A-MNT", "as-set (2)"),
        ("a[href='#q=expand%20AS64496:AS-CUSTOMERS']", "expand AS64496:AS-CUSTOMERS", "AS64497"),
    ]:
        browser.click(click)
        browser.until(
            f"document.querySelector('#answer h2')?.textContent === 'Answer to {query}'", query
        )
        expect_in(wanted, browser.text("answer"), query)
        expect(
            browser.js(
                "return [document.getElementById('words').value,"
                " document.activeElement.textContent]"
            ),
            [query, f"Answer to {query}"],
            "the field, and where the reader is",
        )
    shared = browser.js("return location.href")
    browser.go(shared)
    browser.until(
        "document.querySelectorAll('#answer .list li').length === 2",
        "the answer of an address that was sent on",
    )
    browser.driver.back()
    browser.driver.back()
    tell("from an address through five links and back, each with its address")


def test_ranges_are_copied_for_routers_which_read_them(stage: Stage, tell: Tell) -> None:
    browser = stage.browser
    browser.call(
        "Browser.grantPermissions",
        permissions=["clipboardReadWrite", "clipboardSanitizedWrite"],
        origin=stage.home.rstrip("/"),
    )
    said, shown = stage.ask("prefixes AS64496:RS-CUSTOMERS")
    expect(said, "8 ranges.", "what is said")
    browser.picture("expansion")
    copied = {
        name: pressed_copy(browser, name) for name in ["Copy as BIRD", "Copy as FRR", "Copy plain"]
    }
    ranges = [
        "10.1.0.0/16",
        "10.2.0.0/16",
        "10.16.0.0/16^+",
        "10.17.0.0/16^-",
        "10.18.0.0/16^24",
        "10.19.0.0/16^20-24",
        "10.192.0.0/11",
        "192.0.2.0/31^-",
    ]
    expect(copied["Copy plain"].split(), ranges, "what is copied plain")
    expect_all(
        [
            "define AS64496_RS_CUSTOMERS = [",
            "10.16.0.0/16{16,32},",
            "10.17.0.0/16{17,32},",
            "10.18.0.0/16{24,24},",
            "10.19.0.0/16{20,24},",
            "192.0.2.0/31{32,32}\n];",
        ],
        copied["Copy as BIRD"],
        "BIRD's",
    )
    expect_all(
        [
            "seq 5 permit 10.1.0.0/16\n",
            "10.16.0.0/16 le 32\n",
            "10.17.0.0/16 ge 17 le 32\n",
            "10.18.0.0/16 ge 24 le 24\n",
            "192.0.2.0/31 ge 32 le 32\n",
            "seq 45 deny any\n",
        ],
        copied["Copy as FRR"],
        "FRR's",
    )
    said, shown = stage.ask("expand AS64496:AS-CUSTOMERS")
    expect(said, "2 AS numbers.", "what is said of an as-set")
    numbers = {name: pressed_copy(browser, name) for name in ["Copy as BIRD", "Copy as FRR"]}
    read = read_by_routers(
        stage.trial.place("routers"),
        copied["Copy as BIRD"] + numbers["Copy as BIRD"],
        copied["Copy as FRR"] + numbers["Copy as FRR"],
    )
    said, shown = stage.ask("prefixes AS64496:RS-HALF")
    expect(said, "1 range, 1 set not registered.", "what is said of a set that lacks one")
    expect_in("AS64496:RS-GONE", shown, "the missing set")
    expect(
        [button.is_enabled() for button in browser.all("#answer .buttons button")],
        [False] * 3,
        "whether it can be copied",
    )
    browser.click("#answer .warn input")
    expect(
        [button.is_enabled() for button in browser.all("#answer .buttons button")],
        [True] * 3,
        "whether it can be copied once that is allowed",
    )
    said, shown = stage.ask("prefixes AS64496:RS-WIDE")
    expect_in("wider than a /8: 0.0.0.0/0^+", shown, "a range of all addresses")
    expect(
        browser.all("#answer .buttons button")[0].is_enabled(), False, "whether it can be copied"
    )
    tell(read)


def test_bad_queries_end_in_words(stage: Stage, tell: Tell) -> None:
    for query, wanted in [
        ("what is this", "This is not a query"),
        ("AS64511", "Nothing is registered there."),
        (".", "This is not a query"),
        ("..", "This is not a query"),
        ("expand AS64496:AS-MANY", "more members than this registry expands"),
        ("expand AS64496:RS-NOTHING", "it has no members"),
        ("object route 10.0.0.0/8", "This is not a query"),
        ("x" * 1000 + "\u00e4" * 24, "The query is too long"),
        ("\ud83d\ude00 \u00e4", "This is not a query"),
        ("<img src=x onerror=window.hit=5>", "This is not a query"),
    ]:
        said, shown = stage.ask(query)
        expect_in(wanted, said, query[:40])
        expect(shown, "", f"what stands below it at {query[:40]}")
    expect(stage.browser.js("return window.hit ?? null"), None, "whether a script of the query ran")
    tell("queries that are none, too long, and over the limit")


def test_hostile_objects_are_text(stage: Stage, tell: Tell) -> None:
    browser = stage.browser
    _, shown = stage.ask("A-MNT")
    expect_all(
        [
            HOSTILE[0],
            r"bell \x9b31m turn \u202eback\u202c zero\u200bwidth",
            r"good\x0dmnt-by: EVIL-MNT\x0dsource: X",
            "caf\u00e9",
        ],
        shown,
        "what is shown",
    )
    browser.picture("hostile")
    expect(
        browser.js(
            "return [window.hit ?? null, document.querySelectorAll('#answer script, #answer img,"
            " #answer b').length, [...document.querySelectorAll('#answer a')].every(a =>"
            " a.getAttribute('href').startsWith('#'))]"
        ),
        [None, 0, True],
        "what the page has of it",
    )
    browser.go(stage.home + "#q=%3Cimg%20src%3Dx%20onerror%3Dwindow.hit%3D6%3E%1B%E2%80%AE")
    browser.until(
        "document.getElementById('look-said').textContent", "an answer to a hostile address"
    )
    expect(browser.js("return window.hit ?? null"), None, "whether a script of the address ran")
    browser.go(stage.home + "#q=%E0%A4%A")
    browser.until(
        "document.getElementById('look-said').textContent",
        "an answer to an address that is badly escaped",
    )
    tell("markup, scripts and control characters are text")


def test_a_part_that_is_missing_says_so(stage: Stage, tell: Tell) -> None:
    browser = stage.browser
    browser.call("Network.setBlockedURLs", urls=["*/map.js", "*/submit.js"])
    try:
        expect(stage.ask("A-MNT")[0], "1 object: 1 mntner.", "a look-up all the same")
        browser.picture("part-missing")
        for view in ["map", "submit"]:
            browser.click(f"nav a[data-view={view}]")
            browser.until(f"document.getElementById('{view}').checkVisibility()", view)
            expect_all(
                [view.title(), "This part of the page did not load."], browser.text(view), view
            )
        browser.driver.back()
        browser.driver.back()
        browser.until("document.querySelector('#answer .object')", "the answer again")
        browser.click("[aria-label='Change mntner A-MNT']")
        browser.until("document.getElementById('submit').checkVisibility()", "what comes of Change")
    finally:
        browser.call("Network.setBlockedURLs", urls=[])
    tell("what did not load says so, and objects are looked up without it")


def test_a_part_that_is_late_keeps_nobody_waiting(stage: Stage, tell: Tell) -> None:
    """A part that stalls: looking up does not wait for it, and it is shown once it is there."""
    browser, said = (
        Browser(stage.trial.place("late"), stage.pictures, "none"),
        "document.getElementById('map-said').textContent",
    )
    try:
        browser.call("Fetch.enable", patterns=[{"urlPattern": "*/map.js"}])
        browser.driver.get(stage.home + "#q=10.1.2.3")
        browser.until(
            "document.querySelectorAll('#answer .object').length === 2", "the answer of an address"
        )
        browser.click("nav a[data-view=map]")
        browser.until(
            f"{said} === 'This part of the page is still loading.'",
            "words of a map that is still to come",
        )
        # A form that is sent by the browser itself would end the loading.
        expect(browser.find("send").is_enabled(), False, "whether Submit can be pressed")
        browser.write("prefix", "10.0.0.0/8")
        browser.click("#map-form button")
        browser.click("nav a[data-view=look]")
        # What is typed before the view is there is another view's.
        browser.until("!document.getElementById('look').hidden", "the view of answers")
        browser.write("words", "A-MNT")
        browser.click("#look-form button")
        browser.until("document.querySelectorAll('#answer .object').length === 1", "an answer")
        browser.picture("part-late")
        browser.driver.back()
        browser.driver.back()
        browser.call("Fetch.disable")
        browser.until(
            "document.getElementById('canvas').dataset.drawn === '10.0.0.0/8'", "the map in the end"
        )
        expect_in("routes inside 10.0.0.0/8.", browser.text("map-said"), "what is said then")
    finally:
        browser.end()
    tell("objects are looked up meanwhile, and it is shown once it is there")


def test_it_asks_its_own_origin_alone(stage: Stage, tell: Tell) -> None:
    tell(own_origin(stage))


def test_a_server_that_is_gone_ends_in_words(stage: Stage, tell: Tell) -> None:
    browser = stage.browser
    browser.go(stage.home + "#q=")
    stage.nginx.end()
    browser.write("words", "AS64496")
    browser.click("#look-form button")
    browser.until(
        "document.getElementById('look-said').textContent.includes('reached')",
        "words without a server",
    )
    browser.picture("server-gone")
    tell("words where nothing answers at all")

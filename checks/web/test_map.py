"""The map: names, zoom and table."""

from selenium.webdriver.common.action_chains import ActionChains

from checks.running import Tell, expect
from checks.web.staging import Stage, own_origin

IN_MEMORY = True


def test_the_map_is_named_zoomed_and_shown_as_a_table(stage: Stage, tell: Tell) -> None:
    browser = stage.browser
    browser.go(stage.home + "#map=")
    browser.write("prefix", "10.0.0.0/8")
    browser.click("#map-form button")
    browser.until("document.getElementById('canvas').dataset.drawn === '10.0.0.0/8'", "the map")
    expect(browser.text("map-said"), "4 inetnums and 3 routes inside 10.0.0.0/8.", "what is said")
    rows = browser.js(
        "return [...document.querySelectorAll('#listed tbody tr')].map(row =>"
        " [...row.children].map(cell => cell.innerText.trim()).join('|'))"
    )
    expect(
        rows,
        [
            "10.0.0.0/8|inetnum||ROOT-MNT|16,777,216",
            "10.1.0.0/16|inetnum||A-MNT|65,536",
            "10.1.0.0/16|route|AS64496|A-MNT|65,536",
            "10.1.4.0 - 10.1.6.255|inetnum||A-MNT|768",
            "10.2.0.0/16|route|AS64497|A-MNT|65,536",
            "10.192.0.0/10|inetnum||B-MNT|4,194,304",
            "10.192.0.0/11|route|AS64497|A-MNT|2,097,152",
        ],
        "the table",
    )
    browser.picture("map")
    # 10.192.0.0/10 is the lower right quarter; pointing at it names it, a click zooms.
    canvas = browser.find("canvas")
    browser.js("arguments[0].scrollIntoView({block: 'center'})", canvas)
    side = canvas.size["width"]
    ActionChains(browser.driver).move_to_element_with_offset(canvas, side // 4, side // 3).perform()
    browser.until(
        "document.getElementById('pointed').textContent.includes('inetnum 10.192.0.0/10, B-MNT')",
        "the name of what is pointed at",
    )
    ActionChains(browser.driver).move_to_element_with_offset(
        canvas, side // 4, side // 3
    ).click().perform()
    browser.until(
        "document.getElementById('canvas').dataset.drawn === '10.192.0.0/10'", "the zoomed map"
    )
    expect(
        browser.js("return [location.hash, document.getElementById('prefix').value]"),
        ["#map=10.192.0.0/10"] * 1 + ["10.192.0.0/10"],
        "the address and the field",
    )
    expect(
        browser.text("map-said"), "1 inetnum and 1 route inside 10.192.0.0/10.", "what is said then"
    )
    browser.driver.back()
    browser.until(
        "document.getElementById('canvas').dataset.drawn === '10.0.0.0/8'", "the map again"
    )
    colours = browser.js(
        """const c = document.getElementById('canvas'), p = c.getContext('2d'), n = c.width;
        const at = (x, y) =>
            [...p.getImageData(Math.floor(x * n), Math.floor(y * n), 1, 1).data].join();
        return [at(.4, .4), at(.9, .9), at(.6, .9)]"""
    )
    expect(len(set(colours[:2])), 2, f"the colours of two maintainers, {colours}")
    browser.click("#with-routes")
    browser.until(
        "document.querySelectorAll('#listed tbody tr').length === 4", "the table without routes"
    )
    for given, wanted in [
        ("10.3.0.0/16", "Nothing is registered inside 10.3.0.0/16."),
        ("10/8", "This is not a prefix"),
        ("10.1.4.1", "Nothing is registered"),
    ]:
        browser.write("prefix", given)
        browser.click("#map-form button")
        browser.until(
            f"document.getElementById('map-said').textContent.startsWith('{wanted}')", given
        )
    tell("named, zoomed by a click, and told in a table")


def test_it_asks_its_own_origin_alone(stage: Stage, tell: Tell) -> None:
    tell(own_origin(stage))

"""A map of many objects, which is drawn in time."""

import time

import pytest

from checks.pace import pace
from checks.running import Failure, Tell, expect
from checks.web.browsing import Browser
from checks.web.staging import Stage, own_origin

# It looks at times.
pytestmark = pytest.mark.alone
IN_MEMORY = True


LARGE = 100_000
# Seconds within which the map of so many objects is to be drawn, and for how long the page may not
# answer meanwhile.
DRAWN, FROZEN, TRIES = 2.0, 0.25, 5


def page_seconds(browser: Browser) -> float:
    """The processor's time of the page so far."""
    return next(
        one["value"]
        for one in browser.call("Performance.getMetrics")["metrics"]
        if one["name"] == "ThreadTime"
    )


def test_a_map_of_100000_objects_is_drawn_in_time(stage: Stage, tell: Tell) -> None:
    browser = stage.browser
    stage.serve_large()
    browser.call("Performance.enable")
    # The machine may be slow, or busy with other things: then there is as much more time, and one
    # of some tries has to be in time.
    for turn in range(TRIES):
        slow = pace(time.monotonic)
        browser.go(stage.nginx.address("large") + "#map=")
        browser.js(
            """window.gap = 0; let last = performance.now();
            const tick = () => {
                const now = performance.now();
                window.gap = Math.max(window.gap, now - last);
                last = now;
                setTimeout(tick);
            };
            tick();
            new MutationObserver(() => { window.ended ??= performance.now(); })
                .observe(document.getElementById('canvas'), {attributeFilter: ['data-drawn']});"""
        )
        browser.write("prefix", "10.0.0.0/8")
        worked = page_seconds(browser)
        browser.js(
            "window.began = performance.now(); document.querySelector('#map-form button').click()"
        )
        browser.until("window.ended", "the map", 120)
        worked = page_seconds(browser) - worked
        seconds, gap = browser.js(
            "return [(window.ended - window.began) / 1000, window.gap / 1000]"
        )
        told = (
            f"{LARGE:,} objects within {seconds:.2f} s, of which the page works {worked:.2f} s, at"
            f" most {gap:.2f} s without an answer, at try {turn + 1} on a machine that is"
            f" {slow:.1f} times as slow"
        )
        if seconds <= DRAWN * slow and gap <= FROZEN * slow:
            break
    else:
        raise Failure(f"{told}: more than {DRAWN} s or {FROZEN} s, times that")
    expect(
        browser.text("map-said"),
        (
            f"{(LARGE - 1) // 3 + 1:,} inetnums and {LARGE - 1 - (LARGE - 1) // 3:,} routes inside"
            " 10.0.0.0/8."
        ),
        "what is said",
    )
    colours = browser.js(
        """const c = document.getElementById('canvas'), p = c.getContext('2d'), n = c.width;
        const found = new Set();
        for (let k = 0; k < 2500; k += 1) {
            const x = k % 50 / 50 * n, y = Math.floor(k / 50) / 50 * n;
            found.add([...p.getImageData(x, y, 1, 1).data].join());
        }
        return found.size"""
    )
    expect(colours > 50, True, f"whether the map has the colours of many maintainers: {colours}")
    browser.picture("map-large")
    browser.js("location.hash = '#map=10.64.0.0/14'")
    browser.until(
        "document.getElementById('canvas').dataset.drawn === '10.64.0.0/14'", "the zoomed map"
    )
    tell(told)


def test_it_asks_its_own_origin_alone(stage: Stage, tell: Tell) -> None:
    tell(own_origin(stage))

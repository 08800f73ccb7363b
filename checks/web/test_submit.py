"""Submitting: forms, reports, passwords, TLS."""

import time

from selenium.webdriver.common.keys import Keys

from checks.running import Tell, expect
from checks.web.browsing import HOST, expect_all, expect_in
from checks.web.shown import BAD, FORMS, MISTAKES, WANTED
from checks.web.staging import Stage, own_origin
from irr.registry.codes import TABLE
from irr.rpsl.hashes import auth_of

IN_MEMORY = True


def test_forms_add_each_class_and_send_no_bad_value(stage: Stage, tell: Tell) -> None:
    browser = stage.browser
    for kind, values, passwords in FORMS:
        stage.form(kind, values, passwords)
        if kind == "mntner":
            browser.write("new-password", "a third secret, longer")
            browser.click("#attributes fieldset button")
            browser.until(
                "document.getElementById('field-auth').value.startsWith('SHA256-PW ')",
                "the auth line",
            )
        said = stage.sent()
        expect(said, "1 item: 1 added.", f"what is said of {kind}: {browser.text('report')}")
    browser.picture("submit-report")
    stage.form("route", {"route": "10.1.2.0/24", "origin": "AS64496"}, ["c"])
    browser.click("#delete")
    expect(stage.sent(), "1 item: 1 deleted.", "what is said of a deletion")
    posts = stage.nginx.log().count("POST /submissions")
    for kind, name, text in BAD:
        good = next(values for name_of, values, _ in FORMS if name_of == kind)
        stage.form(
            kind,
            {
                **good,
                **({"auth": f"SHA256-PW a:{'0' * 64}"} if kind == "mntner" else {}),
                name: text,
            },
            [],
        )
        expect_in("A field has a fault", stage.sent(), f"{name} of {kind}: {text!r}")
        expect(
            browser.js(
                "return [document.activeElement.id,"
                " document.activeElement.getAttribute('aria-invalid')]"
            ),
            [f"field-{name}", "true"],
            f"where the reader is at {text!r}",
        )
    stage.form("route", {}, [])
    stage.sent()
    expect(
        [element.text for element in browser.all(".fault") if element.is_displayed()],
        ["route is needed.", "origin is needed.", "mnt-by is needed."],
        "what is missing",
    )
    browser.picture("submit-faults")
    expect(stage.nginx.log().count("POST /submissions"), posts, "the submissions that were sent")
    tell(f"each of the seven classes added, one deleted; {len(BAD)} bad values are not sent")


def test_a_short_password_has_to_be_meant(stage: Stage) -> None:
    browser, auth = stage.browser, "return document.getElementById('field-auth').value"
    stage.form("mntner", {"mntner": "SHORT-MNT", "mnt-by": "SHORT-MNT"}, [])
    for password in "x", "fourteen chars":
        browser.write("new-password", password)
        browser.click("#attributes fieldset button")
        said = browser.text("fault-new-password")
        expect_in("fewer than 15 characters", said, f"what is said of {password}")
        expect(browser.js(auth), "", f"the auth line of {password}")
    browser.click("#attributes fieldset button")
    browser.until(
        "document.getElementById('field-auth').value.startsWith('SHA256-PW ')", "one that is meant"
    )


def test_reports_have_words_colours_and_remedies(stage: Stage, tell: Tell) -> None:
    browser = stage.browser
    said = stage.send_text(MISTAKES, ["c"])
    words = browser.js(
        "return [...document.querySelectorAll('#report .word')].map(one => one.textContent)"
    )
    expect(words, WANTED, "the items")
    expect(
        said, "19 items: 1 added, 1 changed, 1 unchanged, 1 deleted, 15 refused.", "what is said"
    )
    shown, table = browser.text("report"), {code.code: code for code in TABLE}
    for code in {word.split()[1] for word in WANTED if word.startswith("refused")}:
        expect_all(
            [table[code].sentence.replace("`", ""), table[code].remedy.replace("`", "")],
            shown,
            code,
        )
    expect_all(
        [
            "aut-num AS64496",
            "person: Jo Example",
            "closest 11.2.0.0/16",
            "less 10.1.128.0",
            "less 10.2.127.255",
            "inverse mnt A-MNT",
        ],
        shown,
        "what is shown of it",
    )
    colours = browser.js(
        "return ['added', 'changed', 'refused'].map(name =>"
        " getComputedStyle(document.querySelector(`#report .${name} .word`)).color)"
    )
    expect(len(set(colours)), 3, "the colours of the words")
    browser.picture("report")
    tell("19 items in words, colours and remedies")


REFUSED = """# A remark, which is skipped.
as-set: AS64496:AS-N
members: AS1,
 64497
mnt-by: A-MNT
source: TEST

route: 10.1.16.0/24
origin: AS64497
mnt-by: B-MNT
source: TEST

inetnum: 10.1.4.0 - 10.1.4.255
mnt-by: B-MNT
source: TEST

as-set: AS64496:AS-Q
mnt-by: B-MNT
source: TEST

route: 10.192.1.0/24
origin: AS64496
mnt-by: B-MNT
source: TEST

aut-num: AS64496
mnt-by: B-MNT
source: RIPE
"""


def test_refusals_name_the_line_or_what_decides(stage: Stage, tell: Tell) -> None:
    browser = stage.browser
    told = "[...document.querySelectorAll('#report .decides')].map(one => one.textContent)"
    stage.send_text(REFUSED, ["bc"])
    browser.until(f"{told}.length === 4", "what decides")
    expect(
        browser.js(f"return {told}"),
        [
            "route 10.1.0.0/16 AS64496 decides: A-MNT may add a route 10.1.16.0/24.",
            "inetnum 10.1.4.0 - 10.1.6.255 decides: A-MNT may add below it.",
            "aut-num AS64496 decides: A-MNT may add below it.",
            "aut-num AS64496 decides: A-MNT may add a route 10.192.1.0/24 of it.",
        ],
        "what decides",
    )
    lines = "[...document.querySelectorAll('#report .fault')].map(one => one.textContent)"
    expect(
        browser.js(f"return {lines}"),
        [
            "Line 4, members: 64497 is not an AS number or an as-set; write AS64497.",
            "Line 28, source: RIPE is not this registry, which is TEST.",
        ],
        "the lines at fault",
    )
    stage.send_text("aut-num: AS70000\nmnt-by: A-MNT\nsource: TEST\n", ["c"])
    browser.until(f"{told}.length === 1", "what decides about an aut-num")
    expect(
        browser.js(f"return {told}"),
        ["as-block AS65536 - AS4294967295 decides: ROOT-MNT may add below it."],
        "what decides about an aut-num",
    )
    browser.picture("decides")
    tell("two lines, and five objects that decide")


def test_nothing_that_locks_out_is_sent_unless_it_is_meant(stage: Stage, tell: Tell) -> None:
    browser = stage.browser
    posts = stage.nginx.log().count("POST /submissions")
    own = "mnt-by: Z-MNT\nsource: TEST\n"
    other = f"SHA256-PW x:{'0' * 64}"
    cases: list[tuple[str, list[str], str]] = [
        (f"mntner: Z-MNT\nauth: MD5-PW x\n{own}", ["c"], "Line 2, auth: no password would fit"),
        (f"aut-num: AS1\npasword: x\n{own}", [], "Line 2, pasword: it is one letter off"),
        (f"aut-num: AS1\nPasswd: x\n{own}", [], "Line 2, passwd: it reads as a password"),
        (f"aut-num: AS1\ndescr: x\n password: y\n{own}", [], "Line 3, descr: its line reads as a"),
        (
            f"mntner: B-MNT\nauth: {other}\nmnt-by: B-MNT\nsource: TEST\n",
            ["bc"],
            "Line 1, mntner: no password that is given here fits the new auth",
        ),
        (
            f"mntner: Z-MNT\nauth: {auth_of(b'c', 'x')}\n{own}\n"
            f"mntner: Z-MNT\nauth: {other}\n{own}",
            ["c"],
            "Line 6, mntner: no password that is given here fits the new auth",
        ),
        # The first one is refused, so that the registered one is changed.
        (
            f"mntner: B-MNT\nauth: {other}\nmnt-by: NOPE-MNT\nsource: TEST\n\n"
            f"mntner: B-MNT\nauth: {other}\nmnt-by: B-MNT\nsource: TEST\n",
            ["bc"],
            "Line 6, mntner: no password that is given here fits the new auth",
        ),
    ]
    for text, passwords, words in cases:
        expect_in("Nothing was sent", stage.send_text(text, passwords), text)
        expect_in(words, browser.text("cautions"), text)
        expect(browser.js("return document.activeElement.id"), "anyway", "where the reader is")
    expect(stage.nginx.log().count("POST /submissions"), posts, "the submissions that were sent")
    browser.picture("cautions")
    stage.send_text(f"mntner: Z-MNT\nauth: MD5-PW x\n{own}", ["c"])
    browser.click("#anyway")
    expect_in("1 refused", stage.sent(), "what is meant so")
    said = stage.send_text(
        "aut-num: AS64496\nmnt-lowr: B-MNT\nmnt-by: A-MNT\nsource: TEST\n\n"
        "route: 10.1.0.1/24\norigin: AS64496\nmnt-by: A-MNT\nsource: TEST\n",
        [],
    )
    expect_in("2 refused", said, "what is sent with a warning")
    expect_all(
        ["Line 2, mnt-lowr: it is one letter off mnt-lower", "10.1.0.0/24 is registered"],
        browser.text("cautions"),
        "the warnings",
    )
    tell("seven texts held back, one of them sent once that is asked for; two warnings")


def test_change_replaces_what_was_left(stage: Stage, tell: Tell) -> None:
    browser = stage.browser
    stage.send_text("left: over\n", [])
    for query in "AS64496", "AS64497":
        stage.ask(query)
        browser.click(f"[aria-label='Change aut-num {query}']")
        browser.until("document.getElementById('submit').checkVisibility()", "the form")
    text = browser.js("return document.getElementById('text').value")
    expect(
        [text.count("aut-num:"), "AS64497" in text, "left" in text],
        [1, True, False],
        f"what the text has: {text!r}",
    )
    tell("one object")


def test_passwords_are_sent_once_and_kept_nowhere(stage: Stage, tell: Tell) -> None:
    browser, secret = stage.browser, "correct horse 4711"
    stage.form(
        "aut-num", {"aut-num": "AS64496", "other": "as-name: EXAMPLE", "mnt-by": "A-MNT"}, [secret]
    )
    expect_in("1 refused", stage.sent(), "a wrong password")
    expect(
        browser.js(
            "return [...document.querySelectorAll('#passwords input')].map(one => one.type +"
            " one.value)"
        ),
        ["password"],
        "the fields",
    )
    kept = browser.js(
        "return JSON.stringify([localStorage.length, sessionStorage.length, document.cookie,"
        " location.href, document.body.innerHTML])"
    )
    expect(
        secret in kept or secret in stage.nginx.log(),
        False,
        "whether the password is kept or logged",
    )
    expect(kept.startswith('[0,0,"",'), True, "whether anything is stored")
    posts = stage.nginx.log().count("POST /submissions")
    said = stage.send_text(
        f"password: {secret}\n\naut-num: AS64496\nmnt-by: A-MNT\nsource: TEST\n", []
    )
    expect_in("The text has 1 password in it", said, "a password in the text")
    expect(stage.nginx.log().count("POST /submissions"), posts, "the submissions that were sent")
    browser.click("#move-passwords")
    expect(
        browser.js(
            "return [document.getElementById('text').value.includes('horse'),"
            " document.getElementById('password-1').value]"
        ),
        [False, secret],
        "where the password is now",
    )
    browser.write("password-1", " blank at its start")
    expect_in("must not begin or end with a space", stage.sent(), "a password with a blank")
    browser.write("text", "descr: x" * 140_000)
    browser.write("password-1", "")
    expect_in("1,048,576 bytes", stage.sent(), "a text that is too long")
    tell("in their own fields, sent once, and nowhere after")


def test_without_tls_nothing_is_submitted_from_elsewhere(stage: Stage, tell: Tell) -> None:
    browser = stage.browser
    posts = stage.nginx.log().count("POST /submissions")
    browser.go(stage.nginx.address("small", HOST) + "#submit")
    expect_in("without TLS from another machine", browser.text("without-tls"), "the warning")
    expect(browser.find("send").is_enabled(), False, "whether Submit can be pressed")
    browser.write("field-mntner", "D-MNT")
    browser.find("field-mntner").send_keys(Keys.ENTER)
    browser.js("document.getElementById('submit-form').requestSubmit()")
    browser.picture("without-tls")
    time.sleep(0.5)
    expect(stage.nginx.log().count("POST /submissions"), posts, "the submissions that were sent")
    expect(stage.ask("AS64496")[0], "1 object: 1 aut-num.", "a look-up all the same")
    browser.go(stage.nginx.address("tls", HOST) + "#submit")
    expect(
        browser.js("return document.getElementById('without-tls').hidden"),
        True,
        "the warning where there is TLS",
    )
    browser.click("#by-text")
    browser.write("text", "aut-num: AS64496\nas-name: EXAMPLE\nmnt-by: A-MNT\nsource: TEST\n")
    stage.give(["c"])
    expect(stage.sent(), "1 item: 1 unchanged.", "a submission by TLS")
    tell("from another name nothing is submitted but by TLS")


def test_it_asks_its_own_origin_alone(stage: Stage, tell: Tell) -> None:
    tell(own_origin(stage))

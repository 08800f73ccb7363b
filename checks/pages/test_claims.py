"""What pages claim. README of its example: what was handed over there answers to its holder alone,
and a route needs both holders. PROOF of the sources: what it quotes stands there word for word."""

import re

import pytest

from checks.pages.text import PAGES, text_of
from checks.running import Trial, expect, write, write_settings

QUOTED = re.compile(r"^<!-- quoted: (\S+) -->\n```\n(.*?)^```$", re.M | re.S)
ROOT, HOLDER = "password: bc", "password: one good password"
OF_ROOT, OF_HOLDER = (f"mnt-by: {name}-MNT\nsource: TEST" for name in ("ROOT", "HOLDER"))
# What takes the holder's own password, by a word for it, with the code for all others.
HELD = {
    "the route again": (f"route: 192.0.2.0/24\norigin: AS64496\n{OF_ROOT}", "E11"),
    "a route of another AS": (f"route: 192.0.2.0/24\norigin: AS64497\n{OF_ROOT}", "E13"),
    "a route inside of the holder's AS": (
        f"route: 192.0.2.128/25\norigin: AS64496\n{OF_ROOT}",
        "E15",
    ),
    "a route inside of another AS": (f"route: 192.0.2.128/25\norigin: AS64497\n{OF_ROOT}", "E13"),
    "an inetnum inside": (f"inetnum: 192.0.2.128/25\n{OF_ROOT}", "E13"),
    "the inetnum taken back": (f"inetnum: 192.0.2.0/24\n{OF_ROOT}", "E11"),
    "the aut-num taken back": (f"aut-num: AS64496\n{OF_ROOT}", "E11"),
    "the mntner with another password": (
        f"mntner: HOLDER-MNT\nauth: SHA256-PW a:{64 * '0'}\n{OF_ROOT}",
        "E11",
    ),
    "the inetnum deleted": ("inetnum: 192.0.2.0/24\ndelete: now", "E11"),
    "the route deleted": ("route: 192.0.2.0/24\norigin: AS64496\ndelete: now", "E11"),
}


@pytest.fixture(scope="module")
def example(trial: Trial) -> str:
    """A folder with the registry of README's example, as it is at its end."""
    folder = trial.place("example")
    write_settings(folder)
    write(folder, "first.rpsl", text_of("examples/first.rpsl").encode())
    expect(trial.run(folder, "init", "s.toml").status, 0, "the status of init")
    printed = trial.run(folder, "submit", "s.toml", "first.rpsl").printed.decode()
    expect(
        f"```text\n{printed}```\n" in text_of("README.md"), True, "whether README prints the report"
    )
    return folder


def verdicts(trial: Trial, folder: str, *paragraphs: str) -> list[str]:
    """What a submission of these paragraphs is answered, a line each without its key."""
    write(folder, "tried.rpsl", "\n\n".join([*paragraphs, ""]).encode())
    lines = trial.run(folder, "submit", "s.toml", "tried.rpsl").printed.decode().splitlines()
    return [line.rpartition(": ")[2] for line in lines[:-1]]


def test_the_roots_password_alone_opens_nothing_that_was_handed_over(
    trial: Trial, example: str
) -> None:
    """Also one after the other, each beside what those before it might have opened."""
    texts, codes = zip(*HELD.values())
    found = verdicts(trial, example, ROOT, *texts)
    expect(found, [f"refused {code}" for code in codes], "all of them in one submission")


@pytest.mark.parametrize("what", HELD)
def test_each_of_them_is_refused_by_itself(trial: Trial, example: str, what: str) -> None:
    text, code = HELD[what]
    expect(verdicts(trial, example, ROOT, text), [f"refused {code}"], what)


def test_a_route_needs_the_addresses_and_the_as(trial: Trial, example: str) -> None:
    """The holder's password opens the addresses, the root's another AS: either alone is not
    enough, and both are."""
    route = f"route: 192.0.2.0/24\norigin: AS64497\n{OF_HOLDER}"
    expect(verdicts(trial, example, HOLDER, route), ["refused E15"], "the addresses alone")
    added = f"route: 192.0.2.0/24\norigin: AS64497\n{OF_ROOT}"
    expect(verdicts(trial, example, ROOT, added), ["refused E13"], "the AS alone")
    removed = "route: 192.0.2.0/24\norigin: AS64497\ndelete: now"
    expect(
        verdicts(trial, example, ROOT, HOLDER, route, removed), ["added", "deleted"], "both of them"
    )


def test_what_a_page_quotes_stands_in_the_sources_word_for_word() -> None:
    quotes = [(name, *found) for name in PAGES for found in QUOTED.findall(text_of(name))]
    assert not [
        f"{name}: {source}: {text}" for name, source, text in quotes if text not in text_of(source)
    ]
    marks = sum(text_of(name).count("<!-- quoted: ") for name in PAGES)
    expect((len(quotes), "docs/PROOF.md" in {name for name, *_ in quotes}), (marks, True), "quotes")
    of_proof = {source.split("/")[2] for name, source, _ in quotes if name == "docs/PROOF.md"}
    expect(of_proof >= {"specs", "src"}, True, "a definition and code")

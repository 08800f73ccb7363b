"""Keys that holders spell over several lines, with comments and odd blanks: each dialect answers as
if each stood on one line."""

import re
from collections.abc import Iterator

import pytest

from checks.door import worlds
from checks.door.opened import Opened, Registries
from checks.door.test_irrd import REPLIES
from checks.running import Trial, expect

KEY = re.compile(r"^(route|origin|aut-num|inetnum): (.*)$", re.M)
SPELLINGS = {
    "on the next line": r"\1:\n \2",
    "after a comment": r"\1: # once ours\n \2 # now",
    "after empty lines": r"\1:\n+\n+\t\2\n+",
    "before a tab": "\\1: \\2\t# ours",
    "before a CR": "\\1:\t\\2\r# ours",
}
ANSWERED = [
    *(one for one in REPLIES if one[1:2] in ("g", "a", "i") and REPLIES[one][:1] == b"A"),
    "!r10.0.0.0/16,o",
]
# The objects that a line of RIPE's, or IRRd's, has.
COUNTED = {
    "!r10.0.0.0/16": 2,
    "!r10.1.2.0/24,l": 1,
    "!r10.1.2.0/24,L": 2,
    "!r10.1.0.0/16,M": 1,
    "-T route -x 10.0.0.0/16": 2,
    "-T inetnum -x 10.1.0.0/16": 1,
    "-T route 10.1.2.5": 1,
    "-T route -M 10.1.0.0/16": 1,
    "-T inetnum -m 0.0.0.0/0": 1,
    "-i origin AS1": 2,
}


@pytest.fixture(scope="module", params=SPELLINGS)
def spelled(request: pytest.FixtureRequest, trial: Trial) -> Iterator[Opened]:
    name = "spelled " + request.param
    dump = KEY.sub(SPELLINGS[request.param], worlds.DUMP)
    with Registries(trial, name, dump, 1) as made, Opened(trial, f"{name} door", made.words) as one:
        yield one


def test_keys_over_several_lines_are_those_of_one(spelled: Opened) -> None:
    for question in ANSWERED:
        wanted = REPLIES.get(question, b"A8\nAS1 AS2\nC\n")
        expect(spelled.whois(question), wanted, question)
    for line, count in COUNTED.items():
        expect(spelled.whois(line).count(b"\nsource: "), count, line)

"""The lines and words of what is wrong with an object."""

import re

import pytest

from irr.registry import codes
from irr.rpsl import grammar, keys

CAUSES = [
    # What people write, the code, and the line with its words.
    (
        "as-set: AS-A\nmembers: AS1,\n 64497\nmnt-by: A-MNT\nsource: TEST\n",
        ["E05 line 3, `members`: `64497` is not an AS number or an as-set; write AS64497"],
    ),
    (
        "as-set: AS-A\nmembers: RIPE::AS-FOO\nmnt-by: A-MNT\nsource: TEST\n",
        [
            "E05 line 2, `members`: `RIPE::AS-FOO` is not an AS number or an as-set; "
            "leave out `RIPE::`"
        ],
    ),
    (
        "mntner: A-MNT\nauth: # filtered\nmnt-by: A-MNT\nsource: TEST\n",
        [
            "E05 line 2, `auth`: `# filtered` is what answers show in its place; "
            "write the line itself"
        ],
    ),
    (
        "aut-num: AS1\n# a remark\nmnt-by: A-MNT\xa0B-MNT\nsource: TEST\n",
        [
            "E05 line 3, `mnt-by`: `A-MNT\xa0B-MNT` is not a maintainer's name; "
            "it has a no-break space; write plain blanks"
        ],
    ),
    (
        "aut-num: AS1\nmnt-by:: A-MNT\nsource: TEST\n",
        ["E05 line 2, `mnt-by`: `:` is not a maintainer's name; a colon is too many"],
    ),
    (
        "route-set: RS-A\nmembers: 2001:db8::/32, 192.0.2.1\nmnt-by: A-MNT\nsource: TEST\n",
        [
            "E05 line 2, `members`: `2001:db8::/32` is not a prefix, an AS number or a set; "
            "this registry has no IPv6",
            "E05 line 2, `members`: `192.0.2.1` is not a prefix, an AS number or a set; "
            "write its length too, as 192.0.2.1/32",
        ],
    ),
    (
        "route: 10.0.0.0/8\norigin: AS1\nmnt-by: A-MNT\nmnt-routes: A-MNT {10.0.0.0/8\n"
        "source: TEST\n",
        ["E05 line 4, `mnt-routes`: the brace `{` is not closed by `}`"],
    ),
    # What stands after a bad name is of the same entry, and is not told as nameless.
    (
        "aut-num: AS1\nmnt-by: A-MNT\nmnt-routes: A!MNT {10.0.0.0/8, 10.0.0.0}\n"
        "mnt-routes: B!MNT\nmnt-routes: ANY\nmnt-routes: ANY\nsource: TEST\n",
        [
            "E05 line 3, `mnt-routes`: `A!MNT` is not a maintainer's name",
            "E05 line 3, `mnt-routes`: `10.0.0.0` is not a prefix; "
            "write its length too, as 10.0.0.0/32",
            "E05 line 4, `mnt-routes`: `B!MNT` is not a maintainer's name",
            "E05 line 6, `mnt-routes`: no maintainer's name is before `ANY`",
        ],
    ),
    (
        "aut-num: AS1\nmnt-by: A-MNT\nsource: TEST\ndescr: x\nsource: TEST\n",
        [
            "E04 line 5, `source`: it is here again; is a blank line missing above, "
            "between two objects?"
        ],
    ),
    (
        "mntner: A-MNT\nsource: TEST\n",
        [
            "E04 line 1, `mntner`: `auth` is missing",
            "E04 line 1, `mntner`: `mnt-by` is missing",
        ],
    ),
    (
        "aut-num: AS1\nmnt-by: # nobody\nsource: TEST\n",
        ["E04 line 2, `mnt-by`: it has not a maintainer's name"],
    ),
    (
        "route: 10/8\norigin: 1\nmnt-by: A-MNT\nsource: TEST\n",
        [
            "E03 line 1, `route`: `10/8` is not a prefix; write a prefix, as 192.0.2.0/24",
            "E03 line 2, `origin`: `1` is not an AS number; write AS1",
        ],
    ),
    ("rout: 10.0.0.0/8\n", ["E02 line 1, `rout`: this is not a class; did you mean `route`?"]),
    (
        "descr: x\nroute: 10.0.0.0/8\n",
        [
            "E02 line 1, `descr`: this is not a class; if the object is of class `route`, "
            "put that first"
        ],
    ),
    (
        "aut-num: AS1\nmnt-by: A-MNT\nsource: RIPE\n",
        ["E06 line 3, `source`: `RIPE` is not this registry, which is TEST"],
    ),
    ("aut-num: AS1\ndelete: x\n", []),
    ("aut-num: AS1\nmnt-by: A-MNT\nsource: test\n", []),
    ("no colon\n", []),
]


@pytest.mark.parametrize("text, wanted", CAUSES)
def test_causes(text: str, wanted: list[str]) -> None:
    found = grammar.faults(text.encode(), "TEST")
    assert [f"{fault.code} {fault.sentence('', 1)}" for fault in found] == wanted


def test_an_auth_is_not_shown() -> None:
    """A password may stand where its hash has to."""
    text = b"mntner: A-MNT\nauth: SHA256-PW my secret\nmnt-by: A-MNT\nsource: TEST\n"
    (fault,) = grammar.faults(text)
    assert "secret" not in fault.words and fault.line == 1


NAMED = re.compile("`([a-z-]+)`")
KNOWN = """abuse-c admin-c aggr-bndry aggr-mtd as-name assignment-size author certif changed
components country created cross-mnt cross-nfy default descr export export-comps fingerpr
geofeed geoloc holes import inject key language last-modified local-as member-of method
mnt-domains mnt-irt mnt-nfy mnt-ref mp-default mp-export mp-import mp-members mp-peer netname
notify org org-name owner peer phone pingable ping-hdl remarks roa-uri role sponsoring-org
status tech-c upd-to zone-c""".split()


def test_misspelt() -> None:
    for name, meant in [
        ("mnt-lowr", "mnt-lower"),
        ("pasword", "password"),
        ("passwrod", "password"),
        ("member", "members"),
        ("mnt-byy", "mnt-by"),
        ("sourcf", "source"),
    ]:
        assert grammar.misspelt(name.encode()) == meant
    for name in [*KNOWN, *grammar.INTERPRETED, *keys.CLASSES, "x", "mnt", "passwd1"]:
        assert grammar.misspelt(name.encode()) is None


def test_one_off_is_what_edits_make() -> None:
    """Every letter left out, put in, changed, or exchanged with the next one, and nothing else."""
    for word in ("auth", "mnt-by", "password"):
        near = {word[:at] + word[at + 1 :] for at in range(len(word))}
        near |= {word[:at] + "x" + word[at:] for at in range(len(word) + 1)}
        near |= {word[:at] + "x" + word[at + 1 :] for at in range(len(word))}
        near |= {
            word[:at] + word[at + 1] + word[at] + word[at + 2 :] for at in range(len(word) - 1)
        } - {word}
        assert all(grammar.is_one_off(other, word) for other in near)
        assert all(grammar.is_one_off(word, other) for other in near)
        assert not any(
            grammar.is_one_off(other, word) for other in (word, word + "xx", "xy" + word[2:], "")
        )


def test_each_code_of_the_grammar_is_explained() -> None:
    assert {"E02", "E03", "E04", "E05", "E06"} <= set(codes.BY_CODE)


def test_the_table_of_the_page_for_holders(pytestconfig: pytest.Config) -> None:
    """The table in docs/SUBMITTING.md is this one."""
    text = (pytestconfig.rootpath / "docs/SUBMITTING.md").read_text(encoding="utf-8")
    lines = text[text.index("| attribute | mntner") :].split("\n\n")[0].split("\n")
    head, _, *rows = [[cell.strip() for cell in line[1:-1].split("|")] for line in lines]
    assert head[1:] == list(grammar.TABLE)
    told: dict[str, dict[str, str]] = {kind: {} for kind in head[1:]}
    for row in rows:
        for kind, cell in zip(head[1:], row[1:], strict=True):
            if cell:
                told[kind][NAMED.findall(row[0].partition(":")[0])[-1]] = cell
    assert told == {
        kind: {name: rule.occurs for name, rule in rules.items()}
        for kind, rules in grammar.TABLE.items()
    }

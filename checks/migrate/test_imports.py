"""Dumps of other registries, made registries by `irr import`, beside a plain second reading of the
dumps."""

import gzip
import io
import os
import re
import sys
from collections import Counter
from collections.abc import Sequence
from pathlib import Path
from typing import Any

import pytest

from checks.migrate.chance import any_dump, damaged
from checks.migrate.dumps import DUMPS, messy_objects
from checks.migrate.letters import is_utf8
from checks.migrate.moving import SOURCE, Second, normal
from checks.model.registry import Registry, load
from checks.running import (
    AUTH,
    Failure,
    Ran,
    Tell,
    Trial,
    expect,
    run,
    short,
    write,
    write_settings,
)
from checks.serving import Server
from checks.worlds import A_AUTH, COUNT, Tool, answering, expect_line
from irr.errors import Failure as ToolFailure
from irr.migrate import conversion
from irr.migrate.kinds import KINDS as MENDED
from irr.migrate.normalisation import Mender
from irr.migrate.report import Tally

WORDS = ["--source", "TEST", "--root", "ROOT-MNT", "--auth", AUTH]
# The causes that have the attribute and the item too.
OF_LISTS = ("a list that can't be read", "an item with a colon, as of two lines that were joined")
AUTHS = re.compile(rb"^auth: .*\n(?:[ +].*\n)*", re.M)
REPORT = re.compile(
    rb"^([0-9,]+) paragraphs of 1 file: ([0-9,]+) taken, ([0-9,]+) left out\n"
    rb"([0-9,]+) objects written: [0-9,]+ taken, ([0-9,]+) added$",
    re.M,
)
# What an import of 1,000,000 objects may take: the time of their load, so many times, and memory in
# KiB.
LOAD_TIMES, MOST_MEMORY = 3, 1_000_000
# So many seconds a run may take where others use the machine, and one of 1,000,000 objects.
WAIT, LONGEST = 600, 3_600


def irr(tool: Tool, *words: str, **more: Any) -> Ran:
    """A run of the tool."""
    return tool(*words, timeout=WAIT, **more)


# Dumps in the manner of the registries that there are.


@pytest.mark.parametrize("name", DUMPS)
def test_a_dump_of_another_registry_is_loaded_as_its_rules_say(
    trial: Trial, tool: Tool, name: str, tell: Tell
) -> None:
    """A dump as a registry has it: what is taken, mended and left out, and that the program makes
    of it what was taken."""
    dump, folder = DUMPS[name], trial.place(name)
    paths = [
        write(
            folder,
            file,
            (
                gzip.compress(text.encode("latin-1"))
                if file.endswith(".gz")
                else text.encode("latin-1")
            ),
        )
        for file, text in dump.files.items()
    ]
    ran = irr(
        tool,
        "import",
        *paths,
        *WORDS,
        "--check",
        "--left-out",
        "left-out",
        "--renamed",
        "renamed",
        folder=folder,
    )
    expect(
        (ran.status, ran.reported[:8]),
        (0, b"checked:"),
        f"status, and the first line of {ran.reported!r}",
    )
    report = ran.reported.decode()
    read, taken, left = map(
        int,
        re.search(
            r"^(\d+) paragraphs of \d+ files?: (\d+) taken, (\d+) left out$", report, re.M
        ).groups(),
    )
    expect(
        (read, taken, left),
        (dump.taken + sum(dump.left_out.values()), dump.taken, sum(dump.left_out.values())),
        "paragraphs",
    )
    causes = {
        cause: int(count)
        for cause, count in re.findall(
            r"^left out, (.*): ([0-9]+)(?:, and with them .*)?$", report, re.M
        )
    }
    expect(causes, dump.left_out, "causes")
    mended = {
        kind: int(count) for count, kind in re.findall(r"^ +([0-9]+) +--no-(\S+) ", report, re.M)
    }
    expect(mended, dump.mended, "what was mended")
    dropped = {
        cause: int(count)
        for cause, count in re.findall(r"^dropped from lists, (.*): ([0-9]+)$", report, re.M)
    }
    expect(dropped, dump.dropped, "what is dropped from lists")
    odd = {
        cause: int(count) for cause, count in re.findall(r"^taken, (.*): ([0-9]+)$", report, re.M)
    }
    expect(odd, dump.odd, "what is told of what is taken")
    with open(os.path.join(folder, "left-out"), encoding="latin-1") as listed:
        entries = [line.rstrip("\n").split("\t") for line in listed]
    for what, wanted in ("left out", causes), ("dropped from lists", dropped), ("taken", odd):
        expect(
            Counter(cause for found, cause, *_ in entries if found == what),
            wanted,
            f"the list of what is {what}",
        )
    columns = {"left out": 4, "left out with it": 4, "dropped from lists": 6}
    expect(
        [
            entry
            for entry in entries
            if len(entry) != columns.get(entry[0], len(entry)) + 2 * (entry[1] in OF_LISTS)
        ],
        [],
        "entries of the list of other columns",
    )
    with open(os.path.join(folder, "renamed"), encoding="latin-1") as listed:
        expect(dict(line.rstrip("\n").split("\t") for line in listed), dump.renamed, "new names")
    for text in dump.texts:
        expect(text.encode() in ran.printed, True, f"{text!r} in {short(ran.printed)}")
    expect(is_utf8(ran.printed), True, "whether the result is UTF-8")
    judged = load(ran.printed, SOURCE)
    expect(
        isinstance(judged, Registry) and judged.dump() == ran.printed,
        True,
        f"whether the model loads it: {judged!r}",
    )
    tell(f"{taken} taken, {left} left out")


# Dumps of chance.


def imported(paths: list[str], off: Sequence[str] = ()) -> tuple[bytes, Tally]:
    """What an import of files writes, and its tally."""
    tally, out = Tally(), io.BytesIO()
    made = conversion.Import(
        Mender("TEST", "ROOT-MNT", frozenset(off)), {"ROOT-MNT": [AUTH.encode()]}, tally
    )
    with made.spool:
        made.read(paths)
        made.write(out)
    return out.getvalue(), tally


def registry_of(result: bytes, what: str) -> Registry:
    """The model's registry of what an import wrote, which is to be a dump of that."""
    judged = load(result, SOURCE)
    expect(isinstance(judged, Registry), True, f"{what}: whether the model loads it: {judged!r}")
    expect(judged.dump() == result, True, f"{what}: whether it is in the order and form of a dump")
    return judged


def test_dumps_of_chance_are_as_a_second_reading_has_them(
    trial: Trial, tool: Tool, tell: Tell
) -> None:
    """Dumps of chance, in one to three files, as a second reading has them."""
    count, chance, taken, left = trial.count or trial.pick(25, 300), trial.chance("dumps"), 0, 0
    for number in range(count):
        folder = trial.place(f"chance-{number}")
        texts = [
            any_dump(chance, chance.choice([2, 10, 40])) for _ in range(chance.choice([1, 1, 2, 3]))
        ]
        paths = [
            write(folder, str(place), gzip.compress(text) if chance.random() < 0.3 else text)
            for place, text in enumerate(texts)
        ]
        second, what = (
            Second([text.removeprefix(b"\xef\xbb\xbf") for text in texts], AUTH.encode()),
            f"dump {number}",
        )
        try:
            result, tally = imported(paths)
        except ToolFailure as failure:
            raise Failure(f"{what}: {failure}") from None
        causes = "duplicate", "a name of another registry", "crossing"
        left_out = {name: tally.causes[name] for name in causes}
        expect(
            (tally.read, tally.taken, tally.causes.total()),
            (second.read, second.taken, second.read - second.taken),
            f"{what}: counts",
        )
        expect(
            left_out,
            {name: second.causes.get(name, 0) for name in left_out},
            f"{what}: duplicates and crossing ranges",
        )
        expect(
            {old.encode("latin-1"): new.encode() for old, new in tally.renamed.items()},
            second.new,
            f"{what}: new names",
        )
        judged = registry_of(result, what)
        found = dict(map(normal, judged.in_order()))
        expect(sorted(found), sorted(second.objects), f"{what}: keys")
        for order, one in second.objects.items():
            expect(found[order], one, f"{what}: {order}")
        if not number % trial.pick(8, 4):
            ran = irr(tool, "import", *paths, *WORDS, "--check")
            expect(
                (ran.status, ran.printed),
                (0, result) if tally.taken else (1, b""),
                f"{what}: by the program, {ran.reported!r}",
            )
        taken, left = taken + tally.taken, left + tally.causes.total()
    tell(f"{count} dumps: {taken} taken, {left} left out")


@pytest.mark.parametrize(
    "lines, taken",
    [
        (["aut-num: AS1", "source: RIPE", "AUT-NUM : AS2", "source: RIPE"], 2),
        (["aut-num: AS1", "source: RIPE", " # x", "% x", "aut-num: AS2", "source: RIPE"], 2),
        (["aut-num: AS1", "source: RIPE", "aut-num: AS2", "mnt-by: A-MNT"], 1),
        (["aut-num: AS1", "source: RIPE", "descr: x", "aut-num: AS2", "source: RIPE"], 0),
        (["aut-num: AS1", "source: RIPE", "aut-num: AS2", "mntner: A-MNT", "source: RIPE"], 1),
    ],
)
def test_a_paragraph_is_parted_as_a_second_reading_has_it(
    tmp_path: Path, lines: list[str], taken: int
) -> None:
    """Where a class directly follows `source`, and nowhere else."""
    text = "\n".join([*lines, "", "aut-num: AS9", "source: RIPE", ""]).encode()
    second = Second([text], AUTH.encode())
    result, tally = imported([write(str(tmp_path), "dump", text)])
    expect(second.taken, taken + 1, "what the second reading takes")
    expect((tally.read, tally.taken), (second.read, second.taken), "counts")
    found = dict(map(normal, registry_of(result, "parted").in_order()))
    expect(found, second.objects, "objects")


def test_what_is_written_of_a_damaged_dump_is_a_dump(trial: Trial, tell: Tell) -> None:
    """Damaged dumps, with some of what is mended turned off: what is written is always a registry's
    dump."""
    count, chance, taken, ended = trial.pick(60, 2_000), trial.chance("damage"), 0, 0
    folder = trial.place("damage")
    for number in range(count):
        path, off = write(folder, "dump", damaged(chance, any_dump(chance, 12))), [
            kind for kind in MENDED if chance.random() < 0.1
        ]
        try:
            result, tally = imported([path], off)
        except ToolFailure as failure:
            expect(
                (failure.status, bool({"duplicate", "crossing"} & set(off))),
                (1, True),
                f"dump {number}: {failure}",
            )
            ended += 1
            continue
        registry_of(result, f"dump {number} without {off}")
        expect(is_utf8(result), True, f"dump {number} without {off}: whether the result is UTF-8")
        expect(
            {kind for kind, times in tally.mended.items() if times} & set(off),
            set(),
            f"dump {number}: what is turned off and mended",
        )
        taken += tally.taken
    tell(f"{count} dumps: {taken} taken; {ended} ended at a duplicate or overlap")


def test_an_import_of_a_dump_gives_the_same_bytes_again(
    trial: Trial, tool: Tool, tell: Tell
) -> None:
    """Import, load, serve, dump, import: the same registry, and from then on the same bytes; so
    through the split form."""
    folder, chance = trial.place("round"), trial.chance("round")
    first = write(
        folder,
        "first",
        b"\n\n".join(any_dump(chance, 60).removeprefix(b"\xef\xbb\xbf") for _ in range(3)),
    )
    made = irr(tool, "import", first, *WORDS).printed
    # What a public dump hides is hidden from then on.
    hidden = AUTHS.sub(
        lambda found: found[0] if AUTH.encode() in found[0] else b"auth:           FILTERED\n", made
    )
    dumps = []
    for number in range(2):
        path = write(folder, f"full-{number}", made)
        write_settings(folder, store=f"{number}.db")
        ran = trial.run(folder, "load", "s.toml", path)
        expect((ran.status, ran.reported), (0, b""), "load")
        with Server(trial.program, folder, COUNT) as server:
            tool = tool.at(IRR_SERVER=f"http://127.0.0.1:{server.port}")
            dump = tool("dump", timeout=WAIT).printed
            dumps.append(dump)
            for words in ["export", "split"], ["export", "again"]:
                expect(tool(*words, timeout=WAIT, folder=folder).status, 0, "the status of export")
        split = sorted(os.listdir(os.path.join(folder, "split")))
        expect(
            split, [".lock", *sorted(f"test.db.{kind}.gz" for kind in KINDS)], "the files of export"
        )
        parts = {}
        for name in split[1:]:
            texts = [
                open(os.path.join(folder, place, name), "rb").read() for place in ("split", "again")
            ]
            expect(texts[0] == texts[1], True, f"whether {name} has the same bytes again")
            parts[name] = gzip.decompress(texts[0])
        joined = b"".join(parts[f"test.db.{kind}.gz"] for kind in KINDS)
        expect(joined, dump.rpartition(b"% end")[0], "the objects of the split form")
        again = irr(tool, "import", write(folder, "public", dump), *WORDS)
        expect(
            (again.status, again.printed == hidden),
            (0, True),
            f"the import of a public dump, {again.reported!r}",
        )
        pieces = [os.path.join(folder, "split", name) for name in split[1:]]
        expect(
            irr(tool, "import", *pieces, *WORDS).printed == hidden,
            True,
            "the import of the split form",
        )
        expect(
            irr(tool, "import", "-", *WORDS, stdin=made).printed == made,
            True,
            "the import of a full dump",
        )
        made = again.printed
    expect(dumps[0] == dumps[1], True, "the dump of the second registry")
    tell(f"{made.count(b'source:')} objects")


KINDS = ["mntner", "as-block", "aut-num", "inetnum", "route", "as-set", "route-set"]


def test_texts_as_long_as_they_may_be_and_longer(trial: Trial, tool: Tool, tell: Tell) -> None:
    """Canonical texts of as many bytes as a paragraph may have, one more, and many more, which are
    written with fewer blanks."""
    folder, made = trial.place("sizes"), []
    for number, size in enumerate([65_535, 65_536, 65_537, 200_000]):
        spare = size - len("as-set:         AS-0\nmnt-by:         ROOT-MNT\nsource:         TEST\n")
        count, rest = divmod(spare - 100, len("a:              b\n"))
        made.append(
            f"as-set:AS-{number}\nmnt-by:ROOT-MNT\nsource:TEST\n"
            + "a:b\n" * count
            + f"x:{'y' * (rest + 100 - 17)}\n"
        )
    ran = irr(tool, "import", write(folder, "long", "\n".join(made).encode()), *WORDS, "--check")
    texts = [text + b"\n" for text in ran.printed.split(b"\n\n") if text[:7] == b"as-set:"]
    expect(
        (ran.status, [len(text) for text in texts[:2]]),
        (0, [65_535, 65_536]),
        f"texts that fit, {ran.reported!r}",
    )
    expect(texts[2:], [text.encode() for text in made[2:]], "texts that do not")
    tell(f"{len(texts)} sizes")


# What goes wrong.


def test_bad_files_and_words_end_as_one_line_and_leave_nothing(
    trial: Trial, tool: Tool, tell: Tell
) -> None:
    """Bad files and words end as one line; nothing is left of what fails."""
    folder = trial.place("bad")
    good = write(folder, "good", b"mntner: A-MNT\nauth: x\nmnt-by: A-MNT\nsource: X\n")
    cut = write(folder, "cut.gz", gzip.compress(os.urandom(50_000).hex().encode())[:-5_000])
    os.mkdir(os.path.join(folder, "folder"))
    tries = [
        (
            ["import", cut, *WORDS, "-o", "out", "--left-out", "list"],
            5,
            "cut.gz: it is cut off.*; fetch it again",
        ),
        (["import", "none", *WORDS], 5, "none: .*; correct the path"),
        (["import", "folder", *WORDS], 5, "folder: .*; .*"),
        (
            ["import", good, "--source", "TEST", "--root", "AS-X", "--auth", AUTH],
            2,
            "AS-X: this is not a maintainer's name; .*",
        ),
        (
            ["import", good, "--source", "1", "--root", "R", "--auth", AUTH],
            2,
            "1: this is not a name; .*",
        ),
        (
            ["import", good, "--source", "TEST", "--root", "R"],
            2,
            "--auth: the root maintainer has no line; .*",
        ),
        (
            ["import", good, *WORDS, "--auth", "A-MNT=MD5-PW x"],
            2,
            "--auth: the line for A-MNT .*; .*",
        ),
        (
            ["import", good, *WORDS, "--auth", f"B-MNT={A_AUTH}"],
            2,
            "B-MNT: no object names this maintainer; .*",
        ),
        (["import", "-", "-", *WORDS], 2, "-: standard input .*; .*"),
        (["import", good], 2, ".*required.*; .*"),
        (
            ["import", good, good, *WORDS, "--no-duplicate"],
            1,
            "good:1: its key was there before; .*",
        ),
        (["export", "-s", "http://127.0.0.1:1", "out"], 5, ".*no server listens there; .*"),
    ]
    for words, status, pattern in tries:
        ran = irr(tool, *words, folder=folder)
        ran.reported = ran.reported.replace(folder.encode() + b"/", b"")
        expect_line(ran, status, pattern, " ".join(words))
    with answering(
        b"HTTP/1.1 200 OK\r\nContent-Type: text/plain\r\n\r\naut-num:        AS1\nmnt-by:        "
        b" A-MNT\nsource:         TEST\n\n"
    ) as url:
        expect_line(
            irr(tool, "export", "-s", url, "out", folder=folder),
            5,
            ".*cut off.*",
            "a dump that is cut off",
        )
    expect(os.listdir(os.path.join(folder, "out")), [".lock"], "what is left of an export")
    expect(
        sorted(os.listdir(folder)), ["cut.gz", "folder", "good", "out"], "what is left of imports"
    )
    expect(
        os.listdir(tool.environment["TMPDIR"]), [], "what is left in the folder for temporary files"
    )
    lines = write(folder, "auths", f"# the root's\n{AUTH}\n\na-mnt={A_AUTH}\n".encode())
    ran = irr(tool, "import", good, *WORDS[:4], "--auth", f"@{lines}", "-o", "full", folder=folder)
    expect(
        (ran.status, os.stat(os.path.join(folder, "full")).st_mode & 0o777),
        (0, 0o600),
        f"a file of lines, {ran.reported!r}",
    )
    with open(os.path.join(folder, "full"), "rb") as made:
        expect(
            made.read().startswith(
                b"mntner:         A-MNT\nauth:           %s\nmnt-by" % A_AUTH.encode()
            ),
            True,
            "a new password",
        )
    ran = tool.on_terminal("import", good, *WORDS, "-o", "full", folder=folder)
    expect(
        (ran.status, b"\r1 paragraphs, 0 MB" in ran.printed),
        (0, True),
        f"what is shown on a terminal, {ran.printed!r}",
    )
    tell(f"{len(tries) + 1} of them")


# Figures.


def test_a_large_dump_is_served_after_two_commands(trial: Trial, tool: Tool, tell: Tell) -> None:
    """A messy dump becomes a served registry by two commands: its report adds up, and time and
    memory are bounded."""
    count, folder = trial.pick(4_000, 1_000_000), trial.place("large")
    with gzip.open(os.path.join(folder, "dump.gz"), "wb", 1) as out:
        for text in messy_objects(count):
            out.write(text)
    write_settings(folder)
    words = [sys.executable, tool.path, "import", "dump.gz", *WORDS]
    with open(os.path.join(folder, "full"), "wb") as out:
        made = run(words, folder, timeout=LONGEST, output=out, environment=tool.environment)
    expect(made.status, 0, f"the status of the import, {made.reported!r}")
    found = REPORT.search(made.reported)
    expect(bool(found), True, f"the report, {made.reported[:300]!r}")
    read, taken, left, written, added = (
        int(number.replace(b",", b"")) for number in found.groups()
    )
    expect((taken + left, taken + added), (read, written), "the sums")
    expect(taken >= count, True, f"whether {count} objects are taken: {taken}")
    loaded = trial.run(folder, "load", "s.toml", "full", timeout=LONGEST)
    expect(
        (loaded.status, loaded.printed),
        (0, b"loaded %d objects\n" % written),
        f"load, {loaded.reported!r}",
    )
    with Server(trial.program, folder, COUNT, patience=LONGEST) as server:
        answer = server.page(b"/query/closest%2010.0.0.1")
        expect(
            answer.startswith(b"inetnum:        10.0.0.0 - 10.0.0.3\n"),
            True,
            f"an answer: {answer[:200]!r}",
        )
    figures = (
        f"import {made.seconds:.1f} s of the processor, load {loaded.seconds:.1f} s;"
        f" {made.memory:,} KiB"
    )
    if trial.long:
        expect(
            made.seconds <= LOAD_TIMES * loaded.seconds,
            True,
            f"whether that is within {LOAD_TIMES} times: {figures}",
        )
    expect(
        made.memory <= MOST_MEMORY, True, f"whether memory is below {MOST_MEMORY:,} KiB: {figures}"
    )
    tell(f"{read:,} paragraphs, {taken:,} taken, {left:,} left out; {figures}")

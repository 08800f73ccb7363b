"""Texts, queries, requests, dumps and words of chance, and what the program does with them beside
the model. Many of the first kinds share a run of the program; one of the others takes a run of its
own, or some."""

import itertools
import os
import random
import re
from collections.abc import Iterator

from checks.chances import any_query, any_spanned, any_submission, any_words, escaped, mutated
from checks.heads import Request, any_bytes, is_http, is_reply, refusal, whois_answer
from checks.hostile.runs import Worst, is_text, kept
from checks.model.objects import Refused, key_of
from checks.model.queries import answer
from checks.model.registry import Registry, load
from checks.model.text import BLANKS, blocks, is_skipped, lines_of, read
from checks.running import (
    AUTH,
    TOP,
    Failure,
    Tell,
    Trial,
    difference,
    expect,
    expect_ended,
    run,
    run_in_pieces,
    short,
    write,
    write_settings,
)
from checks.serving import Listening, Server

IN_MEMORY, SECONDS = True, 20


LIMIT = 8


def opened() -> Registry:
    return Registry(auth=AUTH.encode())


# The model.


def test_the_model_says_what_the_pages_say(trial: Trial, tell: Tell) -> None:
    """The model itself gives what docs/SUBMITTING.md prints below its commands."""
    with open(os.path.join(TOP, "docs", "SUBMITTING.md"), encoding="utf-8") as page:
        parts = re.findall(r"```(sh|text)\n(.*?)```", page.read(), re.DOTALL)
    registry, tried = opened(), 0
    files: dict[str, str] = {}
    for (kind, commands), (_, printed) in zip(parts, parts[1:]):
        if kind != "sh" or "irrdesk serve" in commands:
            continue
        files.update(re.findall(r"cat > (\S+) <<'END'\n(.*?)END\n", commands, re.DOTALL))
        found = "".join(modelled(trial, registry, files, line) for line in commands.splitlines())
        if found:
            expect(found, printed, f"what the model gives for {short(commands)}")
            tried += 1
    tell(f"{tried} blocks of docs/SUBMITTING.md")


def modelled(trial: Trial, registry: Registry, files: dict[str, str], line: str) -> str:
    """What the model prints for a line of commands, one of which may add to a file."""
    words = line.split()
    if words[:1] == ["printf"] and words[-2:-1] == [">>"]:
        added = run(["sh", "-c", line.rpartition(">>")[0]], trial.work)
        expect((added.status, added.reported), (0, b""), f"how {short(line)} ended")
        files[words[-1]] += added.printed.decode()
    if words[:2] == ["irrdesk", "submit"]:
        return "".join(reported + "\n" for reported in registry.submit(files[words[3]].encode()))
    if words[:2] == ["irrdesk", "query"]:
        return answer(registry, " ".join(words[3:]).encode(), 10_000).decode()
    return ""


# Submissions.


def test_texts_of_chance_get_the_reports_of_the_model(trial: Trial, tell: Tell) -> None:
    """Texts in submissions of 20 to a registry in memory, each read whole and in pieces of chance:
    the model's report."""
    count = trial.count or trial.pick(400, 100_000)
    chance, worst, turns = trial.chance("texts"), Worst(), count // 20
    for turn in range(turns):
        text = any_submission(chance, 20)
        wanted = "".join(line + "\n" for line in opened().submit(text)).encode()
        sizes = chance.choice(
            [[1], [2, 1], [4_096], [4_095, 1], [chance.randrange(1, 300) for _ in range(20)]]
        )
        for ran in [
            trial.run(trial.work, stdin=text),
            run_in_pieces([trial.program], trial.work, text, sizes),
        ]:
            worst.note(ran)
            if ran.printed != wanted:
                raise Failure(
                    f"turn {turn}, {kept('text.rpsl', text)}: {difference(ran.printed, wanted)}"
                )
            expect(
                (ran.status, ran.reported),
                (1 if b": refused" in wanted else 0, b""),
                f"turn {turn}: how it ended",
            )
    tell(f"{turns * 20} texts in {turns} submissions, each whole and in pieces; {worst.figures()}")


def test_texts_of_chance_leave_what_the_model_has(trial: Trial, tell: Tell) -> None:
    """Submissions to a database: the model's rows behind the model's report, and a dump that loads
    as itself."""
    count = trial.count or trial.pick(200, 100_000)
    chance, worst, turns = trial.chance("stored"), Worst(), count // 20
    folder = trial.place("stored")
    write_settings(folder)
    write_settings(folder, store="copy.db", name="copy.toml")
    for turn in range(turns):
        text, registry = any_submission(chance, 20), opened()
        wanted = "".join(line + "\n" for line in registry.submit(text)).encode()
        write(folder, "text.rpsl", text)
        remove_databases(folder)
        expect(trial.run(folder, "init", "s.toml").status, 0, "init")
        ran = worst.note(trial.run(folder, "submit", "s.toml", "text.rpsl"))
        if ran.printed != wanted:
            raise Failure(
                f"turn {turn}, {kept('text.rpsl', text)}: {difference(ran.printed, wanted)}"
            )
        expect_dump(trial, folder, "s.toml", registry.dump(), f"turn {turn}, {short(text)}", worst)
        write(folder, "dump.rpsl", registry.dump())
        ran = worst.note(trial.run(folder, "load", "copy.toml", "dump.rpsl"))
        expect(
            ran.printed, b"loaded %d objects\n" % len(registry.objects), f"turn {turn}: the load"
        )
        expect_dump(
            trial,
            folder,
            "copy.toml",
            registry.dump(),
            f"turn {turn}: the dump of what was loaded",
            worst,
        )
    tell(
        f"{turns * 20} texts in {turns} submissions, their rows, dumps and loads; {worst.figures()}"
    )


def remove_databases(folder: str) -> None:
    for name in os.listdir(folder):
        if ".db" in name:
            os.remove(os.path.join(folder, name))


def expect_dump(
    trial: Trial, folder: str, settings: str, wanted: bytes, what: str, worst: Worst | None = None
) -> None:
    ran = trial.run(folder, "dump", settings, "--full")
    if worst:
        worst.note(ran)
    if ran.printed != wanted or ran.status != 0:
        raise Failure(f"{what}: status {ran.status}, {difference(ran.printed, wanted)}")


# Queries and requests.


def served_registry(trial: Trial, chance: random.Random, name: str) -> tuple[str, Registry]:
    """A folder with a registry of chance, and the model's."""
    folder, registry = trial.place(name), opened()
    write_settings(folder, limit=LIMIT)
    text = any_submission(chance, chance.choice([40, 120, 400]))
    write(folder, "text.rpsl", text)
    expect(trial.run(folder, "init", "s.toml").status, 0, "init")
    trial.run(folder, "submit", "s.toml", "text.rpsl")
    registry.submit(text)
    expect_dump(trial, folder, "s.toml", registry.dump(), name)
    return folder, registry


# A path that leaves room for the rest of a head of 8,192 bytes.
LONGEST_PATH = 8_000


def test_queries_of_chance_are_answered_as_by_the_model(trial: Trial, tell: Tell) -> None:
    """Queries by whois and by HTTP, and now and then by `query`: the model's answer each time."""
    count = trial.count or trial.pick(400, 100_000)
    chance, each, asked, worst = trial.chance("queries"), min(count // 2, 5_000), 0, Worst()
    for turn in range(count // each):
        folder, registry = served_registry(trial, chance, f"queries-{turn}")
        listed = list(itertools.islice(any_queries(chance), each))
        with Server(trial.program, folder, len(listed) * 2) as server:
            for query in listed:
                ask_both(chance, server, registry, query)
                server.look()
            server.expect_end()
            worst.seconds, worst.memory = max(worst.seconds, server.slowest), max(
                worst.memory, server.memory
            )
        for query in listed[::25]:
            ask_command(trial, folder, registry, query)
        asked += len(listed)
    tell(f"{asked} queries; {worst.figures()}")


def any_queries(chance: random.Random) -> Iterator[bytes]:
    """Queries of chance, none of which a server takes for a request."""
    while True:
        query = any_query(chance)
        if not is_http(query + b"\n"):
            yield query


def ask_both(chance: random.Random, server: Server, registry: Registry, query: bytes) -> None:
    line, end, _ = query.partition(b"\n")
    text = line + chance.choice([b"\n", b"\r\n"])
    found, wanted = server.ask(text, any_cuts(chance, text)), whois_answer(text, registry, LIMIT)
    if found != wanted:
        raise Failure(f"whois {query!r}: {difference(found, wanted)}")
    path = b"/query/" + escaped(chance, query)
    if not query:
        found, wanted = server.ask(b"GET /query/ HTTP/1.1\r\n\r\n"), refusal(404)
    elif len(path) <= LONGEST_PATH:
        found, wanted = server.page(path), answer(registry, query, LIMIT)
    else:
        found = server.ask(text)
    if found != wanted:
        raise Failure(f"HTTP {query!r}: {difference(found, wanted)}")


def ask_command(trial: Trial, folder: str, registry: Registry, query: bytes) -> None:
    """The same by `query`, where the query can be a word that is not one of the program's own."""
    if b"\0" in query or not is_text(query) or query.strip() in (b"--help", b"-h", b"--version"):
        return
    ran, wanted = trial.run(folder, "query", "s.toml", os.fsdecode(query)), answer(
        registry, query, LIMIT
    )
    if ran.printed != wanted:
        raise Failure(
            f"query {query!r}: {difference(ran.printed, wanted)}, saying {short(ran.reported)}"
        )
    expect(
        (ran.status, ran.reported),
        (1 if wanted.startswith(b"% error") else 0, b""),
        f"query {query!r}",
    )


def any_cuts(chance: random.Random, text: bytes) -> list[int]:
    return (
        [chance.randrange(1, len(text)) for _ in range(chance.choice([0, 0, 0, 1, 3]))]
        if len(text) > 1
        else []
    )


def test_requests_of_chance_are_answered_by_the_rules(trial: Trial, tell: Tell) -> None:
    """Requests and other bytes on connections: the reply that the rules say, or one of the
    replies."""
    count = trial.count or trial.pick(400, 100_000)
    chance, each, worst = trial.chance("requests"), min(count, 5_000), Worst()
    for turn in range(count // each):
        folder, registry = served_registry(trial, chance, f"requests-{turn}")
        with Server(trial.program, folder, each) as server:
            for _ in range(each):
                send_one(chance, server, registry)
                server.look()
            server.expect_end()
            worst.seconds, worst.memory = max(worst.seconds, server.slowest), max(
                worst.memory, server.memory
            )
        expect_dump(
            trial, folder, "s.toml", registry.dump(), f"turn {turn}: the rows after all submissions"
        )
    tell(f"{count} connections; {worst.figures()}")


def send_one(chance: random.Random, server: Server, registry: Registry) -> None:
    if chance.random() < 0.5:
        request = Request(chance)
        head = request.head()
        text, wanted = head + request.body, request.reply(head, registry, LIMIT)
    else:
        text = any_bytes(chance)
        wanted = None if is_http(text) else whois_answer(text, registry, LIMIT)
    reply = server.ask(text, any_cuts(chance, text))
    if wanted is None and not is_reply(reply):
        raise Failure(f"{kept('sent', text)}: {short(reply)}")
    if wanted is not None and reply != wanted:
        raise Failure(f"{kept('sent', text)}: {difference(reply, wanted)}")


# Dumps.

# How many dumps are made of one registry of chance.
CHANGED = 8


def any_dumps(chance: random.Random, turns: int) -> Iterator[bytes]:
    """Full dumps of registries of chance, of each some, each with other changes."""
    for _ in range(turns):
        registry = opened()
        registry.submit(any_submission(chance, 30))
        whole = registry.dump()
        for _ in range(CHANGED):
            yield changed_dump(chance, whole)


def changed_dump(chance: random.Random, text: bytes) -> bytes:
    parts = text.split(b"\n\n")
    for _ in range(chance.choice([0, 0, 1, 1, 2])):
        place = chance.randrange(len(parts))
        kind = chance.randrange(6)
        if kind == 0:
            parts.pop(place)
        elif kind == 1:
            parts.insert(chance.randrange(len(parts)), parts[place])
        elif kind == 2:
            parts[place] = parts[place].replace(b"mnt-by:         ", b"mnt-by: GONE-MNT,")
        elif kind == 3:
            parts.insert(place, any_spanned(chance))
        else:
            parts[place] = mutated(chance, parts[place])
        if not parts:
            return b""
    if chance.random() < 0.2:
        chance.shuffle(parts)
    return b"\n\n".join(parts)


DUMP_WORDS = {
    "text": "is not RPSL, or over 65536 bytes",
    "duplicate": "has the key of one before it",
    "overlap": "has a range that overlaps one before it",
    "unnamed": "names a maintainer who is not in the dump",
}


def place_of(text: bytes, number: int) -> tuple[int, str]:
    """The line on which a paragraph begins, and its class and key where they can be read."""
    place, at, found = 0, 0, 0
    for at, line in enumerate(lines_of(text), 1):
        if not line.strip(BLANKS + b"\n"):
            place = 0
        elif not place and not is_skipped(line):
            place, found = at, found + 1
            if found == number:
                break
    attributes = read(list(blocks(text))[number - 1])
    try:
        return at, "" if isinstance(attributes, str) else ", " + key_of(attributes).report()
    except Refused:
        return at, ""


def test_dumps_of_chance_are_loaded_or_their_fault_is_reported(trial: Trial, tell: Tell) -> None:
    """Dumps that were changed: the registry that the model makes of one, or its first fault with
    the line and the key."""
    count = trial.count or trial.pick(200, 100_000)
    chance, worst, turns, loaded = trial.chance("dumps"), Worst(), count // CHANGED, 0
    folder = trial.place("dumps")
    write_settings(folder)
    for turn, text in enumerate(any_dumps(chance, turns)):
        write(folder, "d.rpsl", text)
        remove_databases(folder)
        ran, wanted = worst.note(trial.run(folder, "load", "s.toml", "d.rpsl")), load(text, b"TEST")
        if isinstance(wanted, Registry):
            if (ran.status, ran.printed) != (0, b"loaded %d objects\n" % len(wanted.objects)):
                raise Failure(
                    f"turn {turn}, {kept('d.rpsl', text)}: it is to be loaded, and it reported"
                    f" {short(ran.reported)}"
                )
            expect_dump(trial, folder, "s.toml", wanted.dump(), f"turn {turn}", worst)
            loaded += 1
            continue
        number, fault = wanted
        line, key = place_of(text, number)
        wrong = DUMP_WORDS.get(fault, f"is not an object: {fault}")
        reported = (
            f"irrdesk: d.rpsl, line {line}{key}: nothing is loaded, because paragraph"
            f" {number} {wrong}"
        )
        if (
            ran.status != 5
            or ran.printed
            or not ran.reported.decode(errors="replace").startswith(reported)
        ):
            raise Failure(
                f"turn {turn}, {kept('d.rpsl', text)}: status {ran.status},"
                f" {short(ran.reported)} and"
                f" not {reported}"
            )
        if turn % 10 == 0:
            expect(
                trial.run(folder, "query", "s.toml", "AS1").status,
                4,
                f"turn {turn}: a query of what was not loaded",
            )
    tell(
        f"{turns * CHANGED} dumps of {turns} registries, {loaded} of which are loaded;"
        f" {worst.figures()}"
    )


# Words.


def test_words_of_chance_end_with_an_answer_or_a_fault(trial: Trial, tell: Tell) -> None:
    """Words for the program: it ends with an answer or a fault, and wrong words touch nothing."""
    count = trial.count or trial.pick(200, 100_000)
    chance, worst, wrong = trial.chance("words"), Worst(), 0
    folder = trial.place("words")
    write_settings(folder)
    write(
        folder,
        "a.rpsl",
        b"password: bc\n\nmntner: A-MNT\nauth: x\nmnt-by: ROOT-MNT\nsource: TEST\n",
    )
    expect(trial.run(folder, "init", "s.toml").status, 0, "init")
    files = [b"s.toml", b"s.toml", b"a.rpsl", b"none", b".", b"irr.db", b"/dev/null"]
    with Listening() as port:
        for turn in range(count):
            given = any_words(chance, files, port)
            before = sorted(os.listdir(folder))
            ran = worst.note(trial.run(folder, *given))
            expect_ended(ran, f"turn {turn}, {given}")
            if ran.status == 2:
                wrong += 1
                expect(
                    (sorted(os.listdir(folder)), ran.printed),
                    (before, b""),
                    f"turn {turn}, {given}: files and output",
                )
    tell(f"{count} lists of words, {wrong} of which are wrong; {worst.figures()}")

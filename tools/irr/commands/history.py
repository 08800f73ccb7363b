"""`irr history FOLDER`, `irr history show KEY` and `irr history at TIME WORD..`: what a registry
had, and what it answered."""
import argparse
import hashlib
import os
import time
from pathlib import Path
from typing import Iterator

from irr.errors import ARGUMENTS, DONE, REFUSED, Failure
from irr.local.temporary_registry import TemporaryRegistry
from irr.local.history import Repository, note_of_age, printed, read_keys, read_time, shown_time
from irr.local.serials import Serials
from irr.registry import answers, server
from irr.rpsl import keys, syntax
from irr.system import files
from irr.terminal import texts

DEFAULT = "/var/lib/irrdesk-history"
# What the path of a new folder begins with.
NEW = ("/", "./", "../")
EXAMPLES = """
irr history /var/lib/irrdesk-history                   fetch the public dump, commit what changed
irr history show route 192.0.2.0/24 AS64496            the versions of an object, with their times
irr history at 2026-11-26T12:00Z closest 192.0.2.1     what the registry answered then
git -C /var/lib/irrdesk-history log --stat             the commits, with a file for each object

`show` and `at` read the folder of --folder, or of IRR_HISTORY, or /var/lib/irrdesk-history. A
change has the time of the fetch that saw it. Of several changes of an object between two fetches
only the last is seen. New passwords are not seen, because hashes are not public. `irr log` says who
changed what.
"""


def arguments(parser: argparse.ArgumentParser) -> None:
    server.add_options(parser)
    parser.add_argument("--folder", metavar="FOLDER", help="read this folder for `show` and `at`")
    parser.add_argument(
        "--limit",
        metavar="COUNT",
        type=keys.number,
        default=10_000,
        help="use this `limit` of the registry's settings for `at`, by default 10000",
    )
    parser.add_argument(
        "words",
        nargs="+",
        metavar="WORD",
        help="a folder, as a path with / or ./ before it if it is new; or `show` and a key; or"
        " `at`, a time and a query",
    )


def run(options: argparse.Namespace) -> int:
    if not 1 <= options.limit <= 1_000_000:
        raise Failure("--limit", "it takes a number from 1 to 1000000; correct it", ARGUMENTS)
    first, *rest = options.words
    if first in ("show", "at"):
        repository = Repository(Path(options.folder or os.environ.get("IRR_HISTORY") or DEFAULT))
        if not repository.is_there:
            raise Failure(
                str(repository.folder),
                (
                    "there is no history; give its folder by --folder, or begin one by `irr history"
                    " FOLDER`"
                ),
                ARGUMENTS,
            )
        if len(rest) < (1 if first == "show" else 2):
            raise Failure(first, "a word is missing; see `irr history --help`", ARGUMENTS)
        return (
            show(repository, rest)
            if first == "show"
            else answer_at(repository, rest[0], rest[1:], options.limit)
        )
    if rest or options.folder:
        raise Failure(
            first,
            "take one FOLDER, or the word `show` or `at`; see `irr history --help`",
            ARGUMENTS,
        )
    need_folder(first)
    return record(Path(first), server.Server.from_options(options.server, options.plain))


def need_folder(word: str) -> None:
    """That a word is a folder, or says plainly that one is to be made: it may be the key of an
    object that somebody looks for."""
    if not word.startswith(NEW) and not os.path.isdir(word):
        raise Failure(
            word,
            "there is no such folder; look up an object by `irr history show KEY`, or write"
            f" ./{word} to begin a history in a new folder",
            ARGUMENTS,
        )


def record(place: Path, source: server.Server) -> int:
    files.folder(place)
    with files.locked(place) as lock:
        # The dump comes whole or not at all, before anything is looked at.
        dump, now = place / "fetched", int(time.time())
        files.put(dump, source.dump())
        try:
            with open(dump, "rb") as file:
                digest = hashlib.file_digest(file, "sha256").hexdigest()
                file.seek(0)
                repository = Repository(place, [lock])
                blocks = syntax.blocks(syntax.chunks(file))
                counts = repository.record(blocks, digest, now, source.url)
            Serials(place).update(repository, now)
        finally:
            dump.unlink()
    if counts:
        print(texts.shown_line(f"{place}: {counts}"))
    return DONE


def show(repository: Repository, words: list[str]) -> int:
    spelled = read_keys(words)
    found = {key: list(repository.versions(key)) for key in spelled}
    seen = [key for key in spelled if found[key]]
    if len(seen) > 1:
        raise Failure(
            " ".join(words),
            (
                f"{' and '.join(f'{key.kind} {key.text}' for key in seen)} were seen; put the class"
                " before it"
            ),
            ARGUMENTS,
        )
    for version in found[seen[0]] if seen else []:
        texts.put(printed(version))
    if not seen:
        texts.note(
            f"irr history: {' or '.join(f'{key.kind} {key.text}' for key in spelled)}: it was never"
            " seen"
        )
    return DONE if seen else REFUSED


def answer_at(repository: Repository, when: str, words: list[str], limit: int) -> int:
    """Makes the registry of then in a temporary folder, and asks it."""
    asked = read_time(when)
    state = repository.state(asked)
    if state is None:
        began = (
            f"the history begins at {shown_time(repository.first())}"
            if repository.state()
            else "the history is empty"
        )
        raise Failure(when, f"{began}; ask for a later time", ARGUMENTS)
    objects = repository.objects(state)
    first = next(objects)
    source = answers.source_of(first[:-1], str(repository.folder))

    def pieces() -> Iterator[bytes]:
        yield first
        yield from objects

    with TemporaryRegistry(source, limit=limit) as then:
        then.fill(pieces(), f"{repository.folder} at {when}")
        if hashlib.sha256(then.dump()).hexdigest() != state.dump:
            raise Failure(
                str(repository.folder),
                (
                    f"commit {state.commit} does not give the dump that it was made of; the"
                    " repository was changed, or irrdesk is another one"
                ),
            )
        answer = answers.Answer(then.query(*words), os.fsencode(" ".join(words)), when)
    note_of_age(repository, asked)
    texts.put(answer.text)
    if answer.error:
        texts.note(f"irr history: {' '.join(words)}: {answer.words()}")
    return REFUSED if answer.error else DONE

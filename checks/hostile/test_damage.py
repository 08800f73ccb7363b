"""Databases that can't be written, that are cut short, or whose bytes were changed, and what the
program answers then."""

import collections
import os
import random
import shutil
import subprocess
from collections.abc import Callable
from typing import Any

from checks.model.queries import answer
from checks.model.registry import Registry, load
from checks.running import (
    AUTH,
    Failure,
    Ran,
    Skipped,
    Tell,
    Trial,
    expect,
    expect_ended,
    is_answer,
    is_fault,
    needs,
    short,
    write,
    write_settings,
)
from checks.texts import changing_items, digest, fronts, item, last_of
from checks.worked import STORE_FAILED, STORE_FULL

pytestmark = needs("sqlite3")
SECONDS = 65


LIMIT = 10_000
NOBODY = 65_534
QUERIES = [
    b"inverse mnt ROOT-MNT",
    b"inverse mnt M1-MNT",
    b"closest 10.0.77.1",
    b"more 10.0.0.0/8",
    b"AS-ANY",
    b"M2-MNT",
]
NEW = b"password: bc\n\n" + item(b"inetnum", b"10.255.1.0/24")


def new_registry() -> Registry:
    return Registry(auth=AUTH.encode())


def dump(trial: Trial, folder: str, **options: dict[str, int]) -> Ran:
    return trial.run(folder, "dump", "s.toml", "--full", **options)


def made(trial: Trial, name: str, texts: list[bytes]) -> str:
    """A registry to which these items were submitted, in a folder of its own."""
    folder = trial.place(name)
    write_settings(folder, limit=LIMIT)
    expect(trial.run(folder, "init", "s.toml").status, 0, "init")
    if texts:
        write(folder, "items.rpsl", b"\n".join(texts))
        ran = trial.run(folder, "submit", "s.toml", "items.rpsl", timeout=120)
        expect((ran.status, ran.reported), (0, b""), "submit")
    return folder


def copied(trial: Trial, base: str, name: str) -> str:
    folder = os.path.join(trial.work, name)
    shutil.copytree(base, folder)
    return folder


# A disk that is full.


def over_pipe(trial: Trial, folder: str, most: int, *words: str) -> Ran:
    """A run whose files may have so many bytes, and whose report goes to a pipe; what it
    printed."""
    reader, writer = os.pipe()
    with os.fdopen(reader, "rb") as printed:
        ran = trial.run(folder, *words, output=writer, limits={"most_bytes": most})
        os.close(writer)
        ran.printed = printed.read()
    return ran


def test_what_was_reported_of_a_submission_stands_on_a_full_disk(trial: Trial, tell: Tell) -> None:
    """A submission at file sizes of chance: what was told stands, and no more."""
    count, tries = trial.pick(80, 400), trial.pick(12, 200)
    chance = trial.chance("full")
    texts = changing_items(chance, count, [0, 300, 3_000])
    found = fronts(texts)
    base = made(trial, "full", [])
    write(base, "items.rpsl", b"\n".join(texts))
    whole = copied(trial, base, "full-whole")
    trial.run(whole, "submit", "s.toml", "items.rpsl")
    # The log of a submission gets some six pages for each item.
    largest = 30_000 * count
    stopped = 0
    for turn in range(tries):
        folder = copied(trial, base, f"full-{turn}")
        most = chance.randrange(4_096, largest) if turn % 4 else chance.randrange(8, 40) * 4_096
        stopped += reported_stands(
            trial,
            over_pipe(trial, folder, most, "submit", "s.toml", "items.rpsl"),
            folder,
            found,
            f"{most} bytes",
        )
        shutil.rmtree(folder)
    tell(f"{tries} sizes of files, {stopped} of which stopped a submission of {count} items")


def reported_stands(
    trial: Trial,
    ran: Ran,
    folder: str,
    found: dict[bytes, list[int]],
    what: str,
    failed: str = STORE_FAILED,
) -> int:
    """Whether a submission was stopped; what was told before that stands, and no more."""
    expect_ended(ran, what)
    lines = ran.printed.decode().splitlines()
    reported = sum(line.endswith((": added", ": changed", ": deleted")) for line in lines)
    after = dump(trial, folder)
    expect((after.status, after.reported), (0, b""), f"{what}: the dump afterwards")
    expect(
        reported in found.get(digest(after.printed), []),
        True,
        f"{what}: whether the rows of {reported} items stand",
    )
    if ran.status == 0:
        return 0
    expect(ran.status, 4, f"{what}: the status, saying {short(ran.reported)}")
    if lines:
        number = reported + 1
        expect(
            (lines[-2].split()[0], lines[-2][-11:]),
            (str(number), "refused E91"),
            f"{what}: the item at which it stopped",
        )
        expect(lines[-1], f"% stopped after {reported} items", f"{what}: the last line")
        expect(
            ran.reported.decode(),
            f"irrdesk: irr.db: {failed}; items decided before that: {reported}\n",
            what,
        )
    return 1


def test_loads_and_new_registries_are_whole_or_nothing_on_a_full_disk(
    trial: Trial, tell: Tell
) -> None:
    """Loads and new registries at file sizes of chance: all of it stands or nothing, and then it
    can be made."""
    tries = trial.pick(12, 200)
    chance = trial.chance("all")
    text = last_of(changing_items(chance, 120, [0, 300, 3_000])).dump()
    whole = 0
    for turn in range(tries):
        folder = trial.place(f"all-{turn}")
        write_settings(folder, limit=LIMIT)
        write(folder, "dump.rpsl", text)
        words = ["load", "s.toml", "dump.rpsl"] if turn % 3 else ["init", "s.toml"]
        wanted = text if turn % 3 else new_registry().dump()
        most = chance.choice([chance.randrange(200, 40_000), chance.randrange(200, 2_000_000)])
        ran = over_pipe(trial, folder, most, *words)
        expect_ended(ran, f"{words[0]} within {most} bytes")
        after = dump(trial, folder)
        if after.status == 0:
            expect(
                after.printed == wanted, True, f"{words[0]} within {most} bytes: whether all stands"
            )
            whole += 1
        else:
            expect(
                (ran.status, is_fault(after)),
                (4, True),
                f"{words[0]} within {most} bytes: nothing stands, {short(ran.reported)}",
            )
            expect(trial.run(folder, *words).status, 0, f"{words[0]} again")
            expect(
                dump(trial, folder).printed == wanted, True, f"{words[0]} again: whether all stands"
            )
        shutil.rmtree(folder)
    tell(f"{tries} sizes of files; {whole} stood whole, the others not at all")


def test_what_was_reported_stands_on_a_full_file_system(trial: Trial, tell: Tell) -> None:
    """The same on a small file system of its own, where one can be mounted."""
    sizes = trial.pick([400, 800, 32_000], [*range(320, 1_200, 40), *range(1_500, 32_000, 3_000)])
    chance = trial.chance("tmpfs")
    texts = changing_items(chance, 300, [300, 3_000])
    found, stopped = fronts(texts), 0
    for size in sizes:
        folder = trial.place(f"tmpfs-{size}")
        mount = ["mount", "-t", "tmpfs", "-o", f"size={size}k", "tmpfs", folder]
        if subprocess.run(mount, capture_output=True, check=False).returncode:
            raise Skipped("no file system can be mounted here")
        try:
            write_settings(folder, limit=LIMIT)
            write(trial.work, "items.rpsl", b"\n".join(texts))
            expect(trial.run(folder, "init", "s.toml").status, 0, "init")
            ran = trial.run(folder, "submit", "s.toml", "../items.rpsl")
            subprocess.run(["mount", "-o", "remount,size=128m", folder], check=True)
            stopped += reported_stands(
                trial, ran, folder, found, f"a file system of {size} KiB", STORE_FULL
            )
        finally:
            subprocess.run(["umount", folder], check=True)
    tell(f"{len(sizes)} sizes, {stopped} of which stopped a submission of 300 items")


# A database that may not be written, and what is none.


def test_a_database_that_may_not_be_written_is_read(trial: Trial, tell: Tell) -> None:
    """A file, and a folder, that the user may only read: an answer or a fault, and nothing
    changes."""
    user = NOBODY if os.geteuid() == 0 else None
    program = shutil.copy(trial.program, os.path.join(trial.work, "program"))
    os.chmod(program, 0o755)
    texts = changing_items(trial.chance("read"), 40, [20])
    base, registry, usable = made(trial, "read", texts), last_of(texts), []
    for folder_mode, file_mode in [
        (0o755, 0o444),
        (0o555, 0o644),
        (0o555, 0o444),
        (0o755, 0o000),
        (0o000, 0o644),
    ]:
        folder = copied(trial, base, f"read-{folder_mode:o}-{file_mode:o}")
        settings = trial.place(f"read-{folder_mode:o}-{file_mode:o}-settings")
        write_settings(settings, store=os.path.join(folder, "irr.db"), limit=LIMIT)
        write(settings, "new.rpsl", NEW)
        for path in [os.path.join(folder, name) for name in os.listdir(folder)] + [folder]:
            if user is not None:
                os.chown(path, user, user)
        for path, mode in [(os.path.join(folder, "irr.db"), file_mode), (folder, folder_mode)]:
            os.chmod(path, mode)
        what = f"folder {folder_mode:o}, file {file_mode:o}"
        can_be_asked, is_added = tried_read_only(trial, settings, program, user, registry, what)
        usable.append(can_be_asked)
        os.chmod(folder, 0o755)
        os.chmod(os.path.join(folder, "irr.db"), 0o644)
        shown = dump(trial, settings)
        expect(
            (shown.status, shown.reported),
            (0, b""),
            f"{what}: the dump once it may be written again",
        )
        expect(
            shown.printed == (with_new(registry) if is_added else registry).dump(),
            True,
            f"{what}: whether its rows are right",
        )
    tell(f"5 modes of file and folder, of which {sum(usable)} can still be asked")


def with_new(registry: Registry) -> Registry:
    """The registry after one more item."""
    grown = load(registry.dump(), b"TEST")
    expect(grown.submit(NEW)[0].endswith(": added"), True, "whether the model adds the item")
    return grown


def tried_read_only(
    trial: Trial, settings: str, program: str, user: int, registry: Registry, what: str
) -> tuple[bool, bool]:
    """Whether a database that may not be written can be asked, and whether an item was told as
    added; else its rows stay."""
    kept, trial.program = trial.program, program
    try:
        limits = {"user": user}
        asked = trial.run(settings, "query", "s.toml", "M2-MNT", limits=limits)
        sent = trial.run(settings, "submit", "s.toml", "new.rpsl", limits=limits)
        shown = dump(trial, settings, limits=limits)
    finally:
        trial.program = kept
    for ran in [asked, sent, shown]:
        expect_ended(ran, what)
    if is_answer(asked):
        expect(asked.printed, answer(registry, b"M2-MNT", LIMIT), f"{what}: the answer")
    is_added = b": added" in sent.printed
    if is_answer(shown) and not is_added:
        expect(shown.printed == registry.dump(), True, f"{what}: whether the dump is the same")
    return is_answer(asked), is_added


def test_what_is_no_database_is_reported(trial: Trial, tell: Tell) -> None:
    """Folders, devices, links and other files in the places of a database, of its log, and of each
    file that is named."""
    tried = 0
    for number, (place, make) in enumerate(PLACES.items()):
        folder = made(trial, f"place-{number}", [])
        write(folder, "items.rpsl", NEW)
        make(os.path.join(folder, "irr.db"))
        for line in [
            "query s.toml ROOT-MNT",
            "dump s.toml",
            "submit s.toml items.rpsl",
            "migrate s.toml",
            "load s.toml items.rpsl",
            "init s.toml",
            "probe s.toml",
            "serve s.toml --port 1 --count 1",
        ]:
            words = line.split()
            ran = trial.run(folder, *words)
            right = is_answer(ran) and ran.printed == RIGHT.get(words[0]) and place in STILL_READ
            if not is_fault(ran) and not right:
                raise Failure(
                    f"{place}: {words[0]}: status {ran.status},"
                    f" {short(ran.reported)} {short(ran.printed)}"
                )
            tried += 1
    tell(f"{tried} commands over {len(PLACES)} kinds of places")


# What a new registry answers, and the places in which it stands.
RIGHT = {
    "query": answer(new_registry(), b"ROOT-MNT", LIMIT),
    "dump": new_registry().dump(full=False),
}
STILL_READ = ["a folder for its log"]


def instead(make: Callable[..., Any]) -> Callable[..., Any]:
    """Takes the database away, and makes something else in its place."""

    def place(path: str) -> None:
        os.remove(path)
        make(path)

    return place


PLACES: dict[str, Callable[[str], None]] = {
    "a folder": instead(os.mkdir),
    "a device that is empty": instead(lambda path: os.symlink("/dev/null", path)),
    "a device that is full": instead(lambda path: os.symlink("/dev/full", path)),
    "a device of zeros": instead(lambda path: os.symlink("/dev/zero", path)),
    "a link to itself": instead(lambda path: os.symlink("irr.db", path)),
    "a pipe": instead(os.mkfifo),
    "a text": instead(lambda path: write(os.path.dirname(path), "irr.db", NEW * 99)),
    "a folder for its log": lambda path: instead(os.mkdir)(path + "-wal"),
    "a database of other tables": instead(
        lambda path: subprocess.run(["sqlite3", path, "CREATE TABLE meta (x)"], check=True)
    ),
}


def test_no_file_takes_the_place_of_a_closed_stream(trial: Trial, tell: Tell) -> None:
    """Standard streams that are closed: nothing of a report gets into the database that is opened
    then."""
    texts = changing_items(trial.chance("closed"), 20, [20])
    before, after, tried = new_registry().dump(), last_of(texts).dump(), 0
    base = made(trial, "closed", [])
    write(base, "items.rpsl", b"\n".join(texts))
    for streams in [(0,), (1,), (2,), (0, 1), (0, 2), (1, 2), (0, 1, 2)]:
        for words in [
            ["submit", "s.toml", "items.rpsl"],
            ["query", "s.toml", "AS1"],
            ["query", "s.toml", "("],
            ["dump", "s.toml"],
            ["init", "s.toml"],
            ["submit", "none.toml", "items.rpsl"],
        ]:
            folder, what = (
                copied(trial, base, f"closed-{tried}"),
                f"{' '.join(words)} without the streams {streams}",
            )
            ran = trial.run(folder, *words, limits={"closed": streams})
            if not 0 <= ran.status <= 5:
                raise Failure(f"{what}: status {ran.status}")
            shown = dump(trial, folder)
            if shown.printed != before and (words[0] != "submit" or shown.printed != after):
                # A submission stops where its first line cannot be written.
                expect(
                    fronts(texts).get(digest(shown.printed)),
                    [1],
                    f"{what}: the items whose rows stand, {short(shown.reported)}",
                )
            tried += 1
            shutil.rmtree(folder)
    tell(f"{tried} runs")


# Bytes that are changed.


class Damaged:
    """What became of changed files: how many of each kind."""

    def __init__(self, trial: Trial, registry: Registry, earlier: dict[bytes, list[int]]) -> None:
        self.trial = trial
        self.registry, self.whole, self.earlier = registry, registry.dump(), earlier
        self.kinds: collections.Counter[str] = collections.Counter()

    def judge(self, folder: str, what: str) -> None:
        """Judges all that is answered from a changed database."""
        ran = dump(self.trial, folder)
        expect_ended(ran, f"{what}: dump")
        kind, stands = self.kind_of(ran, what)
        self.kinds[kind] += 1
        for query in QUERIES:
            asked = self.trial.run(folder, "query", "s.toml", os.fsdecode(query))
            expect_ended(asked, f"{what}: {query.decode()}")
            wanted = answer(stands, query, LIMIT)
            if is_answer(asked) and asked.printed != wanted:
                raise Failure(
                    f"{what}: {kind}: {query.decode()} is answered {short(asked.printed)} and not"
                    f" {short(wanted)}"
                )
        self.submit(folder, f"{what}: {kind}", stands)

    def kind_of(self, ran: Ran, what: str) -> tuple[str, Registry]:
        """How a dump of a changed database is to be taken, and the registry that it shows."""
        if is_fault(ran):
            return "fault", self.registry
        if ran.printed == self.whole:
            return "same", self.registry
        stands = load(ran.printed, b"TEST")
        if not isinstance(stands, Registry) or stands.dump() != ran.printed:
            raise Failure(f"{what}: what is dumped is no registry: {short(stands)}")
        if digest(ran.printed) in self.earlier:
            return "fewer items", stands
        changed = sum(
            held.text != ours.text
            for held, ours in zip(stands.in_order(), self.registry.in_order())
        )
        if len(stands.objects) != len(self.registry.objects) or changed > 1:
            raise Failure(
                f"{what}: {len(stands.objects)} objects stand, {changed} of which are others"
            )
        return "another valid object", stands

    def submit(self, folder: str, what: str, stands: Registry) -> None:
        """One more item: what is told of it stands, as far as the database can be read again."""
        sent = self.trial.run(folder, "submit", "s.toml", "new.rpsl")
        expect_ended(sent, f"{what}: submit")
        after = dump(self.trial, folder)
        expect_ended(after, f"{what}: dump of what was submitted")
        if sent.status == 0 and is_answer(after):
            expected = load(stands.dump(), b"TEST")
            expect(sent.printed.decode().splitlines(), expected.submit(NEW), f"{what}: the report")
            if after.printed != expected.dump():
                raise Failure(f"{what}: the dump of what was submitted")

    def figures(self) -> str:
        return ", ".join(f"{kind} {count}" for kind, count in sorted(self.kinds.items()))


def changed_copy(trial: Trial, base: str, name: str, file: str, place: int, byte: bytes) -> str:
    folder = copied(trial, base, name)
    with open(os.path.join(folder, file), "r+b") as opened:
        opened.seek(place)
        opened.write(byte)
    return folder


def before_damage(trial: Trial, name: str) -> tuple[random.Random, str, Damaged]:
    """Chance, the folder of a registry by it, and what is reported of damage to that."""
    chance = trial.chance(name)
    texts = changing_items(chance, 300, [0, 20, 20, 300, 6_000])
    base = made(trial, name, texts)
    write(base, "new.rpsl", NEW)
    return chance, base, Damaged(trial, last_of(texts), {})


def test_of_a_changed_byte_nothing_wrong_is_answered(trial: Trial, tell: Tell) -> None:
    """Single bytes of the database: anywhere, in the heads of pages, and in the texts of
    objects."""
    count = trial.pick(60, 500)
    chance, base, damaged = before_damage(trial, "bytes")
    content = read_file(base, "irr.db")
    page = int.from_bytes(content[16:18], "big")
    digits = [
        place
        for place in range(len(content))
        if content[place : place + 1].isdigit() and content[place - 3 : place].isalnum()
    ]
    for turn in range(count):
        place = [
            chance.randrange(len(content)),
            chance.randrange(len(content) // page) * page + chance.randrange(24),
            chance.choice(digits),
            chance.randrange(page),
        ][turn % 4]
        byte = changed_byte(chance, content[place], turn)
        folder = changed_copy(trial, base, f"bytes-{turn}", "irr.db", place, bytes([byte]))
        damaged.judge(folder, f"byte {place} from {content[place]} to {byte}")
        shutil.rmtree(folder)
    tell(f"{count} bytes of {len(content)}: {damaged.figures()}")


def changed_byte(chance: random.Random, old: int, turn: int) -> int:
    if turn % 4 == 2:
        return chance.choice([byte for byte in b"0123456789" if byte != old])
    return (
        old ^ 1 << chance.randrange(8)
        if turn % 2
        else chance.choice([byte for byte in range(256) if byte != old])
    )


def read_file(folder: str, name: str) -> bytes:
    with open(os.path.join(folder, name), "rb") as opened:
        return opened.read()


def test_of_a_changed_log_nothing_wrong_is_answered(trial: Trial, tell: Tell) -> None:
    """Single bytes of the log of a submission that was killed, and logs cut short."""
    count = trial.pick(12, 200)
    chance = trial.chance("log")
    texts = changing_items(chance, 60, [0, 20, 300])
    base = made(trial, "log", [])
    write(base, "items.rpsl", b"\n".join(texts))
    write(base, "new.rpsl", NEW)
    killed_before_end(trial, base, len(texts))
    content = read_file(base, "irr.db-wal")
    damaged = Damaged(trial, last_of(texts), fronts(texts))
    for turn in range(count):
        place = chance.randrange(len(content)) if turn % 3 else chance.randrange(64)
        if turn % 5 == 4:
            folder, what = copied(trial, base, f"log-{turn}"), f"the log cut at {place}"
            os.truncate(os.path.join(folder, "irr.db-wal"), place)
        else:
            byte = content[place] ^ 1 << chance.randrange(8)
            folder = changed_copy(trial, base, f"log-{turn}", "irr.db-wal", place, bytes([byte]))
            what = f"byte {place} of the log from {content[place]} to {byte}"
        damaged.judge(folder, what)
        shutil.rmtree(folder)
    tell(f"{count} changes in {len(content)} bytes: {damaged.figures()}")


def killed_before_end(trial: Trial, folder: str, count: int) -> None:
    """Submits the items, and kills the program behind the last one, so that its log stays."""
    reader, writer = os.pipe()
    process = subprocess.Popen(
        [trial.program, "submit", "s.toml", "/dev/stdin"],
        cwd=folder,
        stdin=subprocess.PIPE,
        stdout=writer,
    )
    os.close(writer)
    process.stdin.write(read_file(folder, "items.rpsl") + b"\n\n")
    process.stdin.flush()
    printed = b""
    while printed.count(b"\n") < count:
        part = os.read(reader, 65_536)
        if not part:
            raise Failure(f"the submission ended early: {short(printed[-200:])}")
        printed += part
    process.kill()
    process.wait()
    process.stdin.close()
    os.close(reader)


def test_of_a_file_cut_short_nothing_wrong_is_answered(trial: Trial, tell: Tell) -> None:
    """Files cut short, with bytes behind their end, and with a page of zeros."""
    count = trial.pick(9, 100)
    chance, base, damaged = before_damage(trial, "cut")
    size = len(read_file(base, "irr.db"))
    for turn in range(count):
        place = [
            chance.randrange(size),
            chance.randrange(size) // 4_096 * 4_096,
            size - 1 - chance.randrange(100),
        ][turn % 3]
        folder = copied(trial, base, f"cut-{turn}")
        if turn % 7 == 6:
            with open(os.path.join(folder, "irr.db"), "ab") as opened:
                opened.write(chance.randbytes(chance.choice([1, 100, 4_096, 10_000])))
        elif turn % 7 == 5:
            with open(os.path.join(folder, "irr.db"), "r+b") as opened:
                opened.seek(place // 4_096 * 4_096)
                opened.write(bytes(4_096))
        else:
            os.truncate(os.path.join(folder, "irr.db"), place)
        damaged.judge(folder, f"{place} of {size} bytes, turn {turn}")
        shutil.rmtree(folder)
    tell(f"{count} files: {damaged.figures()}")

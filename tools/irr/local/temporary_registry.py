"""A registry of its own, in a temporary folder that nobody else can read, run by the installed
`irrdesk`."""
import contextlib
import os
import re
import subprocess
import tempfile
from pathlib import Path
from typing import TYPE_CHECKING, Any, Iterable, Iterator, Mapping

from irr.errors import DATABASE, Failure, system_words
from irr.local import program
from irr.registry import answers
from irr.rpsl import keys, syntax
from irr.rpsl.syntax import Attribute
from irr.system import files

if TYPE_CHECKING:
    import sqlite3

# What a public dump shows of an `auth`, and one that lets nobody in.
HIDDEN, NOBODY = re.compile(rb"^auth:           # filtered$", re.M), b"auth:           FILTERED"
UNKNOWN = Attribute(b"auth", [b"FILTERED"])
TEMPORARY, ROOM = "the temporary folder", "make room, or give another folder by TMPDIR"
# The number of a class in the program's tables, and the names that it has there.
MNTNER = 1
MAINTAINERS = f"SELECT okey FROM object WHERE class = {MNTNER}"
# A maintainer that stands for another one, in as few bytes as can be.
STAND_IN = "mntner:{0}\nmnt-by:{0}\nauth:x\nsource:{1}\n\n"
OPENING = 600
# Of ports that were free, and then taken by another program.
TRIES = 5
IN_USE = "the address is in use"


class TemporaryRegistry:
    """A registry in a temporary folder, which goes with the `with` block. Its commands are those of
    `irrdesk`."""

    def __init__(
        self,
        source: str,
        root: str = "ROOT-MNT",
        auth: str = program.AUTH,
        limit: int = 1_000_000,
    ) -> None:
        self.program = program.find()
        self.settings = program.SETTINGS.format(source=source, root=root, auth=auth, limit=limit)

    def __enter__(self) -> "TemporaryRegistry":
        try:
            self.temporary = tempfile.TemporaryDirectory(prefix="irr-")
        except OSError as error:
            raise Failure(TEMPORARY, f"it cannot be made: {system_words(error)}; {ROOM}") from None
        self.folder = Path(self.temporary.name)
        self.put("irr.toml", self.settings.encode("ascii"))
        return self

    def __exit__(self, *_: object) -> None:
        self.temporary.cleanup()

    def run(
        self, command: str, *words: str, stdin: bytes | None = None
    ) -> "subprocess.CompletedProcess[bytes]":
        """Runs a command of `irrdesk` on the registry, and gives its status and what it printed and
        said."""
        given: dict[str, Any] = (
            {"input": stdin} if stdin is not None else {"stdin": subprocess.DEVNULL}
        )
        return subprocess.run(
            [self.program, command, "irr.toml", *words],
            cwd=self.folder,
            capture_output=True,
            check=False,
            preexec_fn=program.bound(),
            **given,
        )

    def put(self, name: str, pieces: bytes | Iterable[bytes]) -> Path:
        """A new file in the folder, which nobody knows by its path."""
        path = self.folder / name
        try:
            files.put(path, pieces, files.PRIVATE)
        except Failure as failure:
            if failure.thing != str(path):
                raise
            raise Failure(TEMPORARY, f"{failure.what.partition(';')[0]}; {ROOM}") from None
        return path

    def load(self, dump: str | os.PathLike[str], name: str) -> None:
        """Makes the registry from a full dump; a Failure with the program's words and the name that
        people have for it if it is refused."""
        path = os.path.abspath(dump)
        done = self.run("load", path)
        if done.returncode:
            raise trouble(done, name, path, "irrdesk does not load it")

    def fill(
        self, pieces: Iterable[bytes], name: str, auths: Mapping[str, list[bytes]] | None = None
    ) -> None:
        """Makes the registry from a public dump in pieces, with these values of `auth`."""
        made = Loadable(pieces, auths, name)
        self.load(self.put("dump.rpsl", made), name)
        made.add_rest(self.folder / "irr.db")

    def submit(self, text: bytes) -> bytes:
        """The report of a submission. Its text, which has passwords, is on no disk."""
        done = self.run("submit", "/dev/stdin", stdin=text)
        if done.returncode > 1:
            raise trouble(done, "the temporary registry", "/dev/stdin", "the submission")
        if not answers.END.fullmatch(
            done.stdout.decode("latin-1").removesuffix("\n").rpartition("\n")[2]
        ):
            raise Failure(
                self.program, "the program answers no report; give the path of irrdesk by IRRDESK"
            )
        return done.stdout

    def query(self, *words: str) -> bytes:
        """The answer to a query."""
        done = self.run("query", *words)
        if done.returncode > 1:
            raise trouble(done, "the temporary registry")
        return done.stdout

    def dump(self, full: bool = False) -> bytes:
        """The public dump, or the full one."""
        done = self.run("dump", *(["--full"] if full else []))
        if done.returncode:
            raise trouble(done, "the temporary registry")
        return done.stdout

    @contextlib.contextmanager
    def serve(self) -> Iterator[str]:
        """The address at which the registry is served while the block runs."""
        for tries in range(TRIES):
            port = program.free_port()
            process = self.start(port)
            try:
                program.wait_for_line(process, OPENING)
                break
            except Failure as failure:
                process.kill()
                process.communicate()
                # Another program may have taken the port since it was found free.
                if IN_USE not in str(failure) or tries == TRIES - 1:
                    raise
        try:
            yield f"http://127.0.0.1:{port}"
        finally:
            process.kill()
            process.communicate()

    def start(self, port: int) -> "subprocess.Popen[bytes]":
        """The program, serving the registry at this port."""
        words = ["serve", "irr.toml", "--port", str(port), "--count", str(program.MOST_CONNECTIONS)]
        return subprocess.Popen(
            [self.program, *words],
            cwd=self.folder,
            stdin=subprocess.DEVNULL,
            stdout=subprocess.PIPE,
            stderr=subprocess.PIPE,
            preexec_fn=program.bound(),
        )


class Loadable:
    """A dump that `irrdesk load` takes, made of a public one in pieces. The registry of it answers
    each query as the one that was dumped does, once it has the `rest`. The maintainers of `auths`
    have these values of `auth`; the others have one that lets nobody in.

    An object may have a byte more than a paragraph: it was sent as the last of its text, without
    the end of its last line. A dump has one such object, as its last; the others are the rest."""

    def __init__(
        self,
        pieces: Iterable[bytes],
        auths: Mapping[str, list[bytes]] | None = None,
        place: str = "the dump",
    ) -> None:
        self.pieces, self.auths, self.place = pieces, auths or {}, place
        self.rest: list[bytes] = []

    def __iter__(self) -> Iterator[bytes]:
        last = b""
        for block in syntax.blocks(self.pieces):
            text = block.text
            if b"auth:" in text:
                text = with_auths(text, self.auths, self.place)
            if len(text) > syntax.LARGEST:
                text = short_text(text, self.place)
            if len(text) <= syntax.LARGEST:
                yield text + b"\n"
                continue
            if last:
                self.rest.append(last)
                if last.startswith(b"mntner:"):
                    # Others may name it.
                    yield stand_in(name_of(last), answers.source_of(last, self.place))
            last = text.removesuffix(b"\n")
        if last:
            yield last

    def add_rest(self, store: Path) -> None:
        """Puts the rest into the database that was made: the rows of each, as the program makes
        them in a registry of its own."""
        import sqlite3

        try:
            for text in self.rest:
                with contextlib.closing(sqlite3.connect(store)) as into:
                    self.add(text, into)
        except sqlite3.Error as error:
            raise Failure(
                str(store), f"SQLite can't add an object to it: {error}; make room", DATABASE
            ) from None

    def add(self, text: bytes, into: "sqlite3.Connection") -> None:
        import sqlite3

        source = answers.source_of(text, self.place)
        names = {name for (name,) in into.execute(MAINTAINERS)} - {name_of(text)}
        pieces = [*(stand_in(name, source) for name in sorted(names)), text]
        with TemporaryRegistry(source) as own:
            own.load(own.put("dump.rpsl", pieces), self.place)
            with contextlib.closing(sqlite3.connect(own.folder / "irr.db")) as made:
                objects = made.execute("SELECT class, okey, body FROM object").fetchall()
                named = made.execute("SELECT maintainer, class, okey FROM named").fetchall()
        with into:
            for row in objects:
                if row[0] != MNTNER or row[1] not in names:
                    into.execute("INSERT OR REPLACE INTO object VALUES (?, ?, ?)", row)
                    into.execute("DELETE FROM named WHERE class = ? AND okey = ?", row[:2])
                    mine = [one for one in named if one[1:] == row[:2]]
                    into.executemany("INSERT INTO named VALUES (?, ?, ?)", mine)


def stand_in(name: str, source: str) -> bytes:
    return STAND_IN.format(name, source).encode("ascii")


def name_of(text: bytes) -> str:
    """The key of an object; nothing of what is none."""
    key = keys.key_of(syntax.read_any(text))
    return key.text if key else ""


def with_auths(text: bytes, auths: Mapping[str, list[bytes]], place: str) -> bytes:
    """A public object with an `auth` for each one that is hidden."""
    if auths and text.startswith(b"mntner:"):
        values = auths.get(keys.read_maintainer(answers.read(text, place).value(b"mntner")) or "")
        if values:
            lines = b"\n".join(b"auth:           " + value for value in values)
            text = HIDDEN.sub(lambda _: lines, text, 1)
    return HIDDEN.sub(NOBODY, text)


def short_text(text: bytes, place: str) -> bytes:
    """An object in as few bytes as can be. It came to the registry in one paragraph, so it fits
    into one again: each `auth` that nobody knows is the shortest that its class can have."""
    paragraph = answers.read(text, place)
    nobody = [b"x" if paragraph.name == b"mntner" else b""]
    return b"".join(
        (Attribute(b"auth", nobody) if attribute == UNKNOWN else attribute).short_text()
        for attribute in paragraph.attributes
    )


def trouble(
    done: "subprocess.CompletedProcess[bytes]", name: str, path: str = "", known: str = ""
) -> Failure:
    """What the program reported, in the names that people know: of the thing that it read, in place
    of its path, and of the folder, where the database failed."""
    words = program.reported(done)
    if done.returncode == DATABASE:
        return Failure(TEMPORARY, f"{words.removeprefix('irr.db: ').partition(': ')[0]}; {ROOM}")
    return Failure(name, f"{known}: {words.removeprefix(path).lstrip(',: ')}" if known else words)

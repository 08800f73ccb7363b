"""`irr export FOLDER`: the public dump in RIPE's split form, a gzip'd file a class; with
`--history` also in one file, with the serial from which a mirror follows it, or as the files of
NRTM, version 4."""
import argparse
import contextlib
import gzip
import hashlib
from pathlib import Path
from typing import BinaryIO, Iterable

from irr.errors import ARGUMENTS, DONE, Failure
from irr.local.nrtm4 import Publisher
from irr.local.serials import Serials
from irr.migrate import dumps
from irr.registry import answers, server
from irr.rpsl import keys, syntax
from irr.system import files
from irr.system.signing import Keys
from irr.terminal import texts

EXAMPLES = """
irr export /srv/ftp/irr                     /srv/ftp/irr/example.db.route.gz and six more
irr export -s https://irr.example.net .     of another registry, into this folder
irr export --history /var/lib/irrdesk-history /srv/ftp/irr
                                            also example.db.gz and EXAMPLE.CURRENTSERIAL
irr export --history /var/lib/irrdesk-history --nrtm4 keys /srv/ftp/irr
                                            the files of NRTM, version 4, below nrtmv4/
"""
# The folder of the files of NRTM, version 4.
BELOW = "nrtmv4"


def arguments(parser: argparse.ArgumentParser) -> None:
    server.add_options(parser)
    parser.add_argument(
        "--history",
        metavar="FOLDER",
        help="write the last state that `irr history` gave serials in this folder; also write it"
        " into one file, SOURCE.db.gz, and its serial into SOURCE.CURRENTSERIAL",
    )
    parser.add_argument(
        "--nrtm4",
        metavar="KEYS",
        help=f"write the files of NRTM, version 4, into {BELOW}/ in place of these; sign them with"
        " the key in this folder (see `irr nrtm4`)",
    )
    parser.add_argument(
        "folder",
        metavar="FOLDER",
        help="where to put the files SOURCE.db.CLASS.gz, with SOURCE in small letters",
    )


def run(options: argparse.Namespace) -> int:
    if options.history and options.server:
        raise Failure("--history", "it takes no server; leave one of them out", ARGUMENTS)
    if options.nrtm4:
        return published(options)
    folder = files.folder(options.folder)
    with files.locked(folder):
        if options.history:
            counts = of_history(Path(options.history), folder)
        else:
            place = server.Server.from_options(options.server, options.plain)
            counts = written(place.dump(), place.url, folder, False)
    if counts:
        texts.note("; ".join(f"{kind} {count:,}" for kind, count in counts.items()))
    return DONE


def published(options: argparse.Namespace) -> int:
    """Writes what changed since the last time, and nothing where nothing did."""
    if not options.history:
        raise Failure("--nrtm4", "it needs --history; give the folder of it", ARGUMENTS)
    keys_in = files.folder(options.nrtm4, 0o700)
    out = files.folder(Path(options.folder) / BELOW)
    with files.locked(keys_in), files.locked(out):
        Publisher(Path(options.history), out, Keys(keys_in)).publish()
    return DONE


def of_history(history: Path, folder: Path) -> dict[str, int]:
    """Writes the last state that has serials, and after it its serial: who reads the serial first
    never has one that is ahead of the dump. Nothing where it was written before."""
    serials = Serials(history)
    last = serials.range()
    if last is None:
        raise Failure(str(history), "it has no serials; let `irr history` fetch a state", ARGUMENTS)
    path, one = folder / f"{last.source}.CURRENTSERIAL", folder / f"{last.source.lower()}.db.gz"
    before = serial_of(path)
    if before is not None:
        is_kept = (
            before < last.first if before not in serials.kept() else was_of(serials, before, one)
        )
        if is_kept is False:
            raise Failure(
                str(path),
                f"it has serial {before} of another state than the history, whose last serial is"
                f" {last.last}: serials went back; remove {serials.folder}, and run `irr history`"
                " and this again, so that mirrors begin anew",
            )
        if is_kept and before == last.last:
            return {}
    counts = written(serials.dump(last), str(history), folder, True)
    files.put(path, f"{last.last}\n".encode())
    return counts


def was_of(serials: Serials, serial: int, dump: Path) -> bool | None:
    """Whether a dump that was written before its serial is of states that are kept, as a mirror is
    that began with both; None where it can't be read, or is not there."""
    digest, count = hashlib.sha256(), 0
    try:
        for block in syntax.blocks(dumps.pieces_of(str(dump))):
            digest.update(block.text + b"\n")
            count += 1
    except Failure:
        return None
    if not count:
        return None
    digest.update(b"%% end %d\n" % count)
    kept = (one for one in serials.kept() if one >= serial)
    return any(serials.at(one).dump == digest.hexdigest() for one in kept)


def serial_of(path: Path) -> int | None:
    """The serial that a file has; None where there is no file."""
    if not path.exists():
        return None
    serial = keys.read_number(keys.as_text(files.read(str(path)).strip()), 0, 10**18 - 1)
    if serial is None:
        raise Failure(str(path), "it has no serial; remove it if mirrors do not follow this folder")
    return serial


def written(dump: Iterable[bytes], name: str, folder: Path, is_one: bool) -> dict[str, int]:
    """Writes the files of a dump, and counts its objects by class. All are put in place after the
    last piece, if the dump is whole and there is room for each of them."""
    counts = dict.fromkeys(keys.CLASSES, 0)
    with contextlib.ExitStack() as put, contextlib.ExitStack() as packed:
        outs: dict[str, gzip.GzipFile] = {}
        one: gzip.GzipFile | None = None
        for key, paragraph in answers.dumped(dump, name):
            if not outs:
                source = keys.as_text(paragraph.value(b"source")).lower()
                outs = {
                    kind: opened(put, packed, folder / f"{source}.db.{kind}.gz")
                    for kind in keys.CLASSES
                }
                one = opened(put, packed, folder / f"{source}.db.gz") if is_one else None
            text = paragraph.text() + b"\n"
            outs[key.kind].write(text)
            if one:
                one.write(text)
            counts[key.kind] += 1
        if one:
            # As IRRd ends its files.
            one.write(b"# EOF\n")
    return counts


def opened(put: contextlib.ExitStack, packed: contextlib.ExitStack, path: Path) -> gzip.GzipFile:
    """A gzip'd file that is whole when one stack is left, and put in place when the other one is
    left without a fault. The same objects give the same bytes."""
    out: BinaryIO = put.enter_context(files.written(path))
    packed.callback(out.flush)
    return packed.enter_context(gzip.GzipFile(filename="", mode="wb", fileobj=out, mtime=0))

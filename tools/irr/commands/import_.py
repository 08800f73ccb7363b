"""`irr import FILE..`: makes of dumps of other registries one that `irrdesk load` takes."""
import argparse
import contextlib
import os
import re
import shutil
import sys
import tempfile
from pathlib import Path
from typing import Iterable, Iterator

from irr.errors import ARGUMENTS, DONE, REFUSED, Failure
from irr.migrate import conversion, passwords, verification
from irr.migrate.kinds import KINDS
from irr.migrate.normalisation import PASSWORD, Mender
from irr.migrate.report import Tally
from irr.rpsl import keys
from irr.system import files
from irr.terminal import texts

GIVEN = re.compile(r"([^ \t=]+)=(.*)", re.S)
EXAMPLES = """
irr import ripe.db.*.gz --source EXAMPLE --root ROOT-MNT --auth 'SHA256-PW salt:..' > full.rpsl
irrdesk load irr.toml full.rpsl             make a registry of the result
irr import radb.db --source EXAMPLE --root ROOT-MNT --auth @holders.auth --check -o full.rpsl
                                            holders.auth has the root's line and lines
                                            A-MNT=SHA256-PW ...
irr import old.db --source EXAMPLE --root ROOT-MNT --auth @root.auth --passwords sent -o full.rpsl
                                            a new password for each other maintainer, in the folder
                                            sent
"""
RULE = """Each object is written as it was read, except for corrections, which are reported. A
paragraph with a second class line, or a second `source`, is not a single object. It is split
where a class line directly follows `source`, and a part without a `source` is left out.
Without such a place the whole paragraph is left out. An object is left out too if one of
its lists can't be read, if two of its lines were joined, or if its file ends within it. An
item that can't be read is dropped from its list if it is a word. A word begins and ends
with a letter or a digit, and has only letters, digits and _ . : / - ^ in between. EXCEPT
and other words of expressions don't count as words here."""


def arguments(parser: argparse.ArgumentParser) -> None:
    parser.add_argument(
        "files", nargs="+", metavar="FILE", help="a dump, plain or gzip'd; `-` for standard input"
    )
    parser.add_argument(
        "--source", required=True, metavar="NAME", help="give the registry this name"
    )
    parser.add_argument(
        "--root", required=True, metavar="MNT", help="give the registry this root maintainer"
    )
    parser.add_argument(
        "--auth",
        action="append",
        default=[],
        metavar="[MNT=]LINE",
        help="give the root this `auth`, as `irr auth` makes it, or with MNT= another maintainer; "
        "@FILE is a file of such lines; may be given several times",
    )
    parser.add_argument(
        "--passwords",
        metavar="FOLDER",
        help="give each maintainer without a usable password a new one, in a file NAME.password in"
        " this folder; an existing file keeps its password",
    )
    parser.add_argument(
        "-o",
        "--output",
        metavar="FILE",
        help="put the result into a file, in one step once it is complete",
    )
    parser.add_argument(
        "--check",
        action="store_true",
        help="load the result into a temporary registry and compare its dump, object by object, "
        "before anything is printed",
    )
    parser.add_argument(
        "--left-out",
        metavar="FILE",
        help="list all that is left out, dropped from a list, or odd about an object that is taken,"
        " with its cause, place and text, and with tabs between the fields",
    )
    parser.add_argument(
        "--renamed",
        metavar="FILE",
        help="list all maintainers that got another name: old and new, with a tab between them",
    )
    parser.add_argument(
        "--keep-scoped",
        action="store_true",
        help="turn each `RIPE::AS-X` into `AS-X`, even if no objects of RIPE are imported",
    )
    parser.add_argument_group("what is an object", RULE)
    mended = parser.add_argument_group(
        "what is corrected",
        "Each option turns one correction off; objects that need it are then left out.",
    )
    for kind in KINDS.values():
        mended.add_argument(
            f"--no-{kind.name}", dest="off", action="append_const", const=kind.name, help=kind.words
        )
    parser.set_defaults(off=[])


def run(options: argparse.Namespace) -> int:
    root, source = keys.need_maintainer(options.root), keys.read_source(options.source)
    if source is None:
        raise Failure(options.source, "this is not a name; correct --source", ARGUMENTS)
    if options.files.count("-") > 1:
        raise Failure("-", "standard input can be read once; give it once", ARGUMENTS)
    need_several(options)
    auths = read_auths(options.auth, root)
    if not auths.get(root):
        raise Failure(
            "--auth", "the root maintainer has no line; give one, as `irr auth` makes it", ARGUMENTS
        )
    with contextlib.ExitStack() as stack:
        tally = Tally(
            stack.enter_context(files.written(options.left_out)) if options.left_out else None
        )
        mender = Mender(source, root, frozenset(options.off))
        made = conversion.Import(mender, auths, tally, options.keep_scoped)
        stack.callback(made.spool.close)
        made.read(options.files)
        need_some(tally)
        if options.passwords is not None:
            lines, new = passwords.lines_for(options.passwords, made.locked_out())
            made.auths |= {name: [line] for name, line in lines.items()}
        if options.check:
            checked(made, options, root, auths[root][0])
        elif options.output is not None:
            with files.written(options.output, files.PRIVATE) as out:
                made.write(out)
        else:
            sys.stdout.flush()
            made.write(sys.stdout.buffer)
            sys.stdout.buffer.flush()
        if options.renamed:
            files.put(
                options.renamed,
                (f"{old}\t{new}\n".encode("latin-1") for old, new in sorted(tally.renamed.items())),
            )
    for line in [*tally.lines(), *notes(made, root)]:
        texts.note(line)
    if options.passwords is not None:
        texts.note(
            f"{options.passwords}: {texts.counted(len(lines), 'password')}, {new} of them new"
        )
    return DONE


def need_several(options: argparse.Namespace) -> None:
    """That the files to write are several, also through links: the last one would replace the
    others."""
    found: set[str] = set()
    named: list[str | None] = [options.output, options.left_out, options.renamed]
    for path in filter(None, named):
        target = os.path.realpath(path)
        if target in found:
            raise Failure(
                path,
                "two of --output, --left-out and --renamed are this file; give each its own",
                ARGUMENTS,
            )
        found.add(target)


def need_some(tally: Tally) -> None:
    """That anything was taken: nothing is put in the place of what is there otherwise."""
    if tally.taken:
        return
    for line in tally.lines():
        texts.note(line)
    raise Failure(
        "",
        "no object was taken, so nothing is written; give dumps that have objects of the classes "
        + ", ".join(keys.CLASSES),
        REFUSED,
    )


def notes(made: conversion.Import, root: str) -> Iterator[str]:
    """What an operator has to know of the registry that is made."""
    if made.tally.made and made.names_root():
        yield (
            f"{root} was in a dump: its objects are the root maintainer's now; take another --root "
            "if that is not yours"
        )
    count = made.routes_beside()
    if count:
        yield (
            f"{texts.counted(count, 'route has', 'routes have')} an origin without an aut-num: "
            "`AS-ANY`, which is the registered aut-nums, does not have them"
        )


def read_auths(given: Iterable[str], root: str) -> dict[str, list[bytes]]:
    """The values of `auth` of each maintainer that has some."""
    found: dict[str, list[bytes]] = {}
    for words in unfolded(given):
        named = GIVEN.fullmatch(words)
        name, line = (named[1].upper(), named[2]) if named else (root, words)
        line = " ".join(re.sub("^auth:", "", line.strip()).split())
        if not PASSWORD.fullmatch(line.encode("utf-8", "surrogateescape")):
            raise Failure(
                "--auth",
                f"the line for {name} is not what `irr auth` makes; write SHA256-PW and salt:hash",
                ARGUMENTS,
            )
        found.setdefault(name, []).append(line.encode())
    return found


def unfolded(given: Iterable[str]) -> Iterator[str]:
    """What was given, with the lines of each file in place of its name; comments and blank lines
    are passed over."""
    for words in given:
        if not words.startswith("@"):
            yield words
            continue
        lines = files.read(words[1:]).decode("latin-1").split("\n")
        yield from (line.strip() for line in lines if line.strip() and not line.startswith("#"))


def checked(made: conversion.Import, options: argparse.Namespace, root: str, auth: bytes) -> None:
    """Writes the result once a registry was made of it that shows just that."""
    with tempfile.TemporaryDirectory(prefix="irr-") as folder:
        path = Path(folder) / "full.rpsl"
        with open(path, "wb") as out:
            made.write(out)
        verification.check(
            path, options.source, root, auth.decode(), made.tally.taken + made.tally.made
        )
        with open(path, "rb") as whole:
            if options.output is not None:
                with files.written(options.output, files.PRIVATE) as out:
                    shutil.copyfileobj(whole, out)
            else:
                sys.stdout.flush()
                shutil.copyfileobj(whole, sys.stdout.buffer)
                sys.stdout.buffer.flush()
    count = made.tally.taken + made.tally.made
    texts.note(f"checked: irrdesk loads it, and its dump has these {count:,} objects")

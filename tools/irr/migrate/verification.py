"""Whether `irrdesk` makes of a dump the registry that it is to be."""
import os
import subprocess
from itertools import zip_longest
from pathlib import Path
from typing import BinaryIO, Iterator

from irr.errors import Failure
from irr.local.program import bound
from irr.local.temporary_registry import TemporaryRegistry, trouble
from irr.rpsl import syntax
from irr.rpsl.syntax import Attribute, Paragraph


def public(source: BinaryIO) -> Iterator[bytes]:
    """The texts that a public dump has of the objects of a full one."""
    for paragraph in syntax.paragraphs(syntax.chunks(source)):
        yield Paragraph(
            [
                Attribute(b"auth", [b"# filtered"]) if attribute.name == b"auth" else attribute
                for attribute in paragraph.attributes
            ]
        ).text()


def check(path: str | Path, source: str, root: str, auth: str, count: int) -> None:
    """Loads a dump into a temporary registry and compares its public dump, object by object;
    a Failure at the first difference."""
    with TemporaryRegistry(source, root, auth) as scratch:
        scratch.load(path, "the result")
        dumped = scratch.folder / "public.rpsl"
        with open(dumped, "wb") as out:
            done = subprocess.run(
                [scratch.program, "dump", "irr.toml"],
                cwd=scratch.folder,
                stdin=subprocess.DEVNULL,
                stdout=out,
                stderr=subprocess.PIPE,
                check=False,
                preexec_fn=bound(),
            )
        if done.returncode:
            raise trouble(done, "the temporary registry")
        with open(path, "rb") as wanted, open(dumped, "rb") as found:
            place = 0
            texts = (block.text for block in syntax.blocks(syntax.chunks(found)))
            for place, (own, other) in enumerate(zip_longest(public(wanted), texts), 1):
                if own != other:
                    first = (own or other or b"").partition(b"\n")[0].decode("utf-8", "replace")
                    raise Failure(
                        "--check",
                        f"object {place} of the registry differs from that of the result, "
                        f"`{first}`; this is a fault of irr: report it",
                    )
            if place != count:
                raise Failure(
                    "--check",
                    f"the registry has {place:,} objects and not {count:,}; this is a fault of "
                    "irr: report it",
                )
            end = b"%% end %d\n" % count
            found.seek(max(0, found.seek(0, os.SEEK_END) - len(end)))
            if found.read() != end:
                raise Failure(
                    "--check",
                    f"the dump of the registry does not end by `{end.decode().strip()}`; this is a "
                    "fault of irr: report it",
                )

"""Imports of dumps in a test: what a paragraph becomes, and what files become."""

import io
import os
import tempfile
from collections.abc import Iterable
from typing import Any

from irr.migrate import conversion, paragraphs
from irr.migrate.normalisation import LeftOut, Mender
from irr.migrate.report import Tally
from irr.rpsl import syntax

AUTH = "SHA256-PW a:" + "0" * 64


def mended(text: bytes, off: Iterable[str] = ()) -> Any:
    """The text that a paragraph becomes and the kinds of what was mended, as a pair, or why it is
    left out."""
    (block,) = syntax.blocks([text])
    (part,) = paragraphs.parts(block)
    try:
        found = Mender("TEST", "ROOT-MNT", frozenset(off)).mend(part)
    except LeftOut as cause:
        return str(cause)
    return found.text, set(found.kinds)


def made(
    *texts: bytes,
    off: Iterable[str] = (),
    auths: dict[str, list[bytes]] | None = None,
    left_out: io.BytesIO | None = None,
    keeps_scoped: bool = False,
) -> tuple[bytes, Tally]:
    """What an import of files with these texts writes, and its tally."""
    with tempfile.TemporaryDirectory() as folder:
        paths = []
        for number, text in enumerate(texts):
            paths.append(os.path.join(folder, str(number)))
            with open(paths[-1], "wb") as file:
                file.write(text)
        tally = Tally(left_out)
        found = conversion.Import(
            Mender("TEST", "ROOT-MNT", frozenset(off)),
            {"ROOT-MNT": [AUTH.encode()]} | (auths or {}),
            tally,
            keeps_scoped,
        )
        out = io.BytesIO()
        with found.spool:
            found.read(paths)
            found.write(out)
        return out.getvalue(), tally


def obj(*lines: str) -> bytes:
    return "".join(line + "\n" for line in lines).encode("latin-1") + b"\n"


def keys_of(dump: bytes) -> list[str]:
    return [
        block.text.partition(b"\n")[0].partition(b":")[2].strip().decode("latin-1")
        for block in syntax.blocks([dump])
    ]


def listed(*texts: bytes, **more: Any) -> list[str]:
    """The lines of the list of what is left out, dropped, or odd about what is taken."""
    out = io.BytesIO()
    made(*texts, left_out=out, **more)
    return out.getvalue().decode().splitlines()


def left_out(*texts: bytes, **more: Any) -> list[str]:
    """What is left out or dropped, without the words which of them it is."""
    lines = [line.partition("\t") for line in listed(*texts, **more)]
    return [rest for what, _, rest in lines if what in ("left out", "dropped from lists")]


def texts_of(dump: bytes, *kinds: str) -> list[str]:
    """The texts of the objects of some classes."""
    return [
        block.text.decode("latin-1")
        for block in syntax.blocks([dump])
        if block.text.decode("latin-1").partition(":")[0] in kinds
    ]

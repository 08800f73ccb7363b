"""Files of dumps, plain or gzip'd, as the bytes of their text."""
import gzip
import re
import zlib
from typing import BinaryIO, Iterator, cast

from irr.errors import Failure, system_words
from irr.rpsl import syntax
from irr.system import files

MARK, ZIPPED = b"\xef\xbb\xbf", b"\x1f\x8b"
# What other packers begin a file with.
PACKED = {
    b"BZh": "bzip2",
    b"\xfd7zXZ\x00": "xz",
    b"\x28\xb5\x2f\xfd": "zstd",
    b"PK\x03\x04": "zip",
    b"7z\xbc\xaf\x27\x1c": "7-Zip",
    b"\x1f\x9d": "compress",
}
# So many bytes tell whether a file is text: then of them few are control characters, and at most
# one in twenty.
HEAD, FEW, EACH = 8_192, 4, 20
CONTROL = re.compile(rb"[\x00-\x08\x0b\x0c\x0e-\x1f\x7f]")


class Replayed:
    """A file whose first bytes were read before, from its beginning."""

    def __init__(self, head: bytes, rest: BinaryIO) -> None:
        self.head, self.rest = head, rest

    def read(self, size: int) -> bytes:
        found, self.head = self.head[:size], self.head[size:]
        return found or self.rest.read(size)


def pieces_of(path: str) -> Iterator[bytes]:
    """A file in pieces, unpacked if it is gzip'd, without a byte order mark. A Failure if it can't
    be read to its end, or is no text."""
    name = files.name_of(path)
    try:
        with files.opened(path) as plain:
            # What a pipe has at first may be one byte: this waits for more.
            head, source = plain.read(HEAD), plain
            if head.startswith(ZIPPED):
                whole = cast(BinaryIO, Replayed(head, plain))
                source = cast(BinaryIO, gzip.GzipFile(fileobj=whole, mode="rb"))
                head = source.read(HEAD)
            need_text(head, name)
            yield head.removeprefix(MARK)
            yield from syntax.chunks(source)
    except (EOFError, zlib.error, gzip.BadGzipFile):
        raise Failure(name, "it is cut off, or not what gzip makes; fetch it again") from None
    except OSError as error:
        raise Failure(
            name, f"it cannot be read: {system_words(error)}; correct the path, or fetch it again"
        ) from None


def need_text(head: bytes, name: str) -> None:
    """That a file which begins so is text."""
    for mark, packer in PACKED.items():
        if head.startswith(mark):
            raise Failure(name, f"it is packed by {packer}; unpack it, or pack it by gzip")
    if len(CONTROL.findall(head)) > max(FEW, len(head) // EACH):
        raise Failure(name, "it is not text; give a dump of RPSL, plain or packed by gzip")

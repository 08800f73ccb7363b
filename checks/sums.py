"""What tells one registry from another at little cost: the sum of the digests of its objects. Run
as a program it sums a dump."""

import hashlib
import sys


def value(text: bytes) -> int:
    return int.from_bytes(hashlib.sha256(text).digest(), "little")


def sum_of(dump: bytes) -> int | None:
    """The sum of a full dump, whose last line has to count its objects; nothing of one that is not
    whole."""
    *texts, end = dump.split(b"\n\n")
    return (
        sum(value(text + b"\n") for text in texts) if end == b"%% end %d\n" % len(texts) else None
    )


if __name__ == "__main__":
    print(sum_of(sys.stdin.buffer.read()))

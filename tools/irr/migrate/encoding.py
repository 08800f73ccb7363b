"""The letters of an object in UTF-8, whatever encoding its registry has them in."""
from irr.rpsl.syntax import Attribute

# Where Latin-1 has control characters windows-1252 has letters, but for five of them.
WINDOWS = {
    byte: bytes([byte]).decode("cp1252", "ignore") or chr(byte) for byte in range(0x80, 0xA0)
}


def is_utf8(text: bytes) -> bool:
    try:
        text.decode("utf-8")
    except UnicodeDecodeError:
        return False
    return True


def in_utf8(attribute: Attribute) -> Attribute:
    """An attribute of an object that is not UTF-8."""
    lines = [line.decode("latin-1").translate(WINDOWS).encode("utf-8") for line in attribute.lines]
    return attribute._replace(lines=lines)

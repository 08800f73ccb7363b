"""The registry that `sizes` and `scale` time. Of 100 objects 1 is a maintainer, 9 are aut-nums, 30
inetnums of a /24 and 60 routes of half a /24."""

from collections.abc import Iterator

DIGEST = "ba7816bf8f01cfea414140de5dae2223b00361a396177a9cb410ff61f20015ad"
SETTINGS = f"""source = "TEST"
root = "ROOT-MNT"
auth = "SHA256-PW a:{DIGEST}"
limit = 10000
store = "{{store}}"
"""
PASSWORD = "password: bc\n\n"
# The first AS number of the holders, of which each has nine.
FIRST = 100_000


def prefix(number: int, length: int) -> str:
    """The prefix of this length with this number among those from 10.0.0.0 on."""
    first = (10 << 24) + (number << (32 - length))
    return f"{first >> 24}.{first >> 16 & 255}.{first >> 8 & 255}.{first & 255}/{length}"


def maintained(lines: list[tuple[str, str]], maintainer: str) -> str:
    rest = [("mnt-by", maintainer), ("source", "TEST")]
    return "".join(f"{name + ':':16}{value}\n" for name, value in lines + rest) + "\n"


def route(number: int, length: int, origin: int, maintainer: str) -> str:
    return maintained(
        [("route", prefix(number, length)), ("origin", f"AS{FIRST + origin}")], maintainer
    )


def objects(count: int) -> Iterator[str]:
    """The texts of so many objects, in hundreds that one maintainer holds."""
    for hundred in range(count // 100):
        holder = f"HOLDER{hundred}-MNT"
        yield maintained([("mntner", holder), ("auth", f"SHA256-PW a:{DIGEST}")], holder)
        for n in range(9):
            name = ("as-name", f"NETWORK{n}")
            yield maintained([("aut-num", f"AS{FIRST + 9 * hundred + n}"), name], holder)
        for n in range(30):
            name = ("netname", f"NETWORK{n}")
            yield maintained([("inetnum", prefix(30 * hundred + n, 24)), name], holder)
        for n in range(60):
            yield route(60 * hundred + n, 25, 9 * hundred + n % 9, holder)


def opening() -> Iterator[str]:
    """The objects that a registry begins with."""
    root = "ROOT-MNT"
    yield maintained([("mntner", root), ("auth", f"SHA256-PW a:{DIGEST}")], root)
    for line in [
        ("as-block", "AS0 - AS65535"),
        ("as-block", "AS65536 - AS4294967295"),
        ("inetnum", "0.0.0.0 - 255.255.255.255"),
    ]:
        yield maintained([line], root)

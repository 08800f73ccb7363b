"""The registry that the checks of the door ask, small enough to be known by heart."""

from checks.door.opened import HEAD, SPACE


def objects(*texts: str) -> str:
    return "".join(text.strip().replace("    ", "") + "\nsource: TEST\n\n" for text in texts)


DUMP = (
    HEAD
    + "mntner: A-MNT\nauth: SHA256-PW x:"
    + "0" * 64
    + "\nmnt-by: A-MNT\nsource: TEST\n\n"
    + objects(
        "aut-num: AS1\nmember-of: AS-REF\nmnt-by: A-MNT",
        "aut-num: AS2\nmember-of: AS-OPEN\nmnt-by: ROOT-MNT",
    )
    + SPACE
    + objects(
        "inetnum: 10.0.0.0 - 10.255.255.255\nmnt-by: A-MNT\nmnt-routes: A-MNT",
        "inetnum: 10.1.0.0 - 10.1.255.255\nmnt-by: A-MNT",
        "route: 10.0.0.0/16\norigin: AS1\nmnt-by: A-MNT",
        "route: 10.0.0.0/16\norigin: AS2\nmnt-by: ROOT-MNT",
        "route: 10.1.0.0/16\norigin: AS1\nmember-of: RS-REF\nmnt-by: A-MNT",
        "route: 10.1.2.0/24\norigin: AS2\nmember-of: RS-OPEN\nmnt-by: ROOT-MNT",
        "as-set: AS-EMPTY\nmnt-by: A-MNT",
        "as-set: AS-OPEN\nmembers: AS1\nmbrs-by-ref: ANY\nmnt-by: A-MNT",
        "as-set: AS-REF\nmbrs-by-ref: A-MNT\nmnt-by: A-MNT",
        "as-set: AS-X\nmembers: AS1, AS-Y, AS-GONE\nmnt-by: A-MNT",
        "as-set: AS-Y\nmembers: AS2\nmnt-by: A-MNT",
        "route-set: RS-OPEN\nmbrs-by-ref: ANY\nmnt-by: A-MNT",
        "route-set: RS-REF\nmbrs-by-ref: A-MNT\nmnt-by: A-MNT",
        "route-set: RS-X\nmembers: 10.0.0.0/16^24, 10.1.0.0/16^+, 192.0.2.1/32^-\nmnt-by: A-MNT",
    )
)


def canonical(text: str) -> bytes:
    """An object as the registry prints it."""
    lines = (line.partition(":") for line in [*text.split("\n"), "source: TEST"])
    return "".join(f"{name + ':':15} {value.strip()}\n" for name, _, value in lines).encode()


AS1 = canonical("aut-num: AS1\nmember-of: AS-REF\nmnt-by: A-MNT")
AS2 = canonical("aut-num: AS2\nmember-of: AS-OPEN\nmnt-by: ROOT-MNT")
ALL = canonical("inetnum: 0.0.0.0 - 255.255.255.255\nmnt-by: ROOT-MNT")
TEN = canonical("inetnum: 10.0.0.0 - 10.255.255.255\nmnt-by: A-MNT\nmnt-routes: A-MNT")
TEN_ONE = canonical("inetnum: 10.1.0.0 - 10.1.255.255\nmnt-by: A-MNT")
ZERO_1 = canonical("route: 10.0.0.0/16\norigin: AS1\nmnt-by: A-MNT")
ZERO_2 = canonical("route: 10.0.0.0/16\norigin: AS2\nmnt-by: ROOT-MNT")
ONE = canonical("route: 10.1.0.0/16\norigin: AS1\nmember-of: RS-REF\nmnt-by: A-MNT")
LONG = canonical("route: 10.1.2.0/24\norigin: AS2\nmember-of: RS-OPEN\nmnt-by: ROOT-MNT")
Y = canonical("as-set: AS-Y\nmembers: AS2\nmnt-by: A-MNT")
A_MNT = canonical("mntner: A-MNT\nauth: # filtered\nmnt-by: A-MNT")

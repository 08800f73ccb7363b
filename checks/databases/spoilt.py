"""Databases that cannot be used, and what is reported of them."""

from checks.commands import Commands

# Ten items of 60,000 bytes.
LARGE = "password: bc\n" + "".join(
    f"\ninetnum: 10.{number}.0.0/16\nmnt-by: ROOT-MNT\nsource: TEST\ndescr: {'0' * 60_000}\n"
    for number in range(10)
)


def dumped(case: Commands) -> None:
    """A registry with an inetnum and two sets, and its full dump."""
    case.settings("irr.db")
    case.run("init", "s.toml")
    case.run("submit", "s.toml", "added.rpsl")
    case.run("submit", "s.toml", "sets.rpsl")
    case.run("dump", "s.toml", "--full", to="full.rpsl")

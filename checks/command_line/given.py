"""What stands before a check of the command line begins."""

from checks.commands import ADDRESSES, BLOCK, OTHERS, OWNED, ROOT, TEN, Commands

SETS_OF_DUMP = (
    f"as-set:         AS-A\nmembers:        AS1, AS-A:AS-B, AS-NONE\n{OWNED}\n\nas-set:        "
    f" AS-A:AS-B\nmembers:        AS2\n{OWNED}"
)
# The full dump of the registry with the inetnum and the sets.
FULL = f"{ROOT}\n{BLOCK}\n\n{OTHERS}\n\n{ADDRESSES}\n\n{TEN}\n\n{SETS_OF_DUMP}\n\n% end 7\n"


# What stands before a check begins.


def fresh(case: Commands) -> None:
    """A new registry."""
    case.settings("irr.db")
    case.run("init", "s.toml")


def added(case: Commands) -> None:
    """One with an inetnum."""
    fresh(case)
    case.run("submit", "s.toml", "added.rpsl")


def sets(case: Commands) -> None:
    """One with two sets too."""
    added(case)
    case.run("submit", "s.toml", "sets.rpsl")

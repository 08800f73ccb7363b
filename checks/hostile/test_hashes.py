"""How often passwords are hashed: a debugger counts the calls of SHA-256 in the program."""

import re

import pytest

from checks.hostile import attacks
from checks.hostile.attacks import PASSWORD, made, owned
from checks.running import Tell, Trial, expect, needs, run, write

pytestmark = needs("gdb")

MAINTAINERS, SALTS, PASSWORDS = 3, 20, 4
COUNTED = ["break sha2::block256::compress", "ignore 1 1000000", "run", "info breakpoints"]


def mntner(name: str) -> str:
    """One with each of its salts in two lines, and one that the stranger's password fits."""
    again = attacks.lined(name, SALTS, SALTS).split("TEST\n")[1].strip()
    mine = f"auth:{attacks.auth(attacks.SECRET)}\n"
    return attacks.lined(name, SALTS, more=f"{mine}{again}\n")


@pytest.mark.parametrize("items", [1, 40])
def test_a_password_is_hashed_once_with_each_salt_of_a_maintainer(
    trial: Trial, tell: Tell, items: int
) -> None:
    folder = made(trial, f"hashes{items}")
    names = [f"M{number}" for number in range(MAINTAINERS)]
    item = owned("as-set:AS-T", maintainer=",".join(names))
    text = PASSWORD + "".join(map(mntner, names)) + item
    added = trial.run(folder, "submit", "s.toml", write(folder, "new.rpsl", text.encode()))
    expect(added.printed.count(b": added\n"), MAINTAINERS + 1, "how many objects were added")

    text = "".join(f"password: p{number}\n" for number in range(PASSWORDS)) + f"\n{item * items}"
    path = write(folder, "items.rpsl", text.encode())
    words = [word for command in COUNTED for word in ("-ex", command)]
    words += ["--args", trial.program, "submit", "s.toml", path]
    ran = run(["gdb", "-nx", "-batch", *words], folder)
    expect(ran.printed.count(b" refused "), items, "how many items were refused")
    found = re.search(rb"already hit (\d+) time", ran.printed)
    count = int(found[1]) if found else 0
    expect(count, PASSWORDS * (SALTS + 1) * MAINTAINERS, "how often a password was hashed")
    tell(f"{count} times")

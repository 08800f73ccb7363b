"""What no line of a log has: a password, a hash, or a text that was sent, wherever it stands."""

import os
import subprocess

import pytest

from checks.door.opened import PYTHON, Opened, wait_until
from checks.running import TOP, expect

SECRET = "Hunter2-secret"
MORE = "mnt-by: ROOT-MNT\nsource: TEST\n"
ITEMS = [
    f"as-set: AS-S1\n password: {SECRET}\n{MORE}",
    f"as-set: password: {SECRET}\n{MORE}",
    f"as-set: AS-S2\nmnt-by: ROOT-MNT\n password: {SECRET}\nsource: TEST\n",
    f"as-set: AS-S3\nmnt-by: ROOT-MNT\n+password:{SECRET}\nsource: TEST\n",
    f"as-set: AS-S4\nmnt-by: ROOT-MNT, password: {SECRET}\nsource: TEST\n",
    f"as-set: AS-S5\nmnt-by: ROOT-MNT password {SECRET}\nsource: TEST\n",
    f"as-set: AS-S6\nmnt-by: ROOT-MNT\n# a comment\n\tpassword :\n {SECRET}\nsource: TEST\n",
    f"as-set: AS-S7\nPassword : {SECRET}\n{MORE}",
    f"as-set: AS-S8\nmembers: AS1\n password: {SECRET}\n{MORE}",
    f"route: 10.0.0.0/16\n password: {SECRET}\norigin: AS1\n{MORE}",
    f"route: 10.0.0.0/16\norigin: AS1\n password: {SECRET}\n{MORE}",
    f"inetnum: 10.0.0.0 - 10.0.0.255 password: {SECRET}\n{MORE}",
    f"aut-num: AS1\nsource: TEST\n password: {SECRET}\nmnt-by: ROOT-MNT\n",
    f"mntner: S-MNT\nauth: SHA256-PW {SECRET}:{'0' * 64}\n password: {SECRET}\n{MORE}",
    f"mntner: T-MNT\nauth: {SECRET}\nmnt-by: T-MNT\n password: {SECRET}\nsource: TEST\n",
    f"foo: {SECRET}\n",
    f"{SECRET}\n",
]


@pytest.mark.parametrize("size", [len(ITEMS), 200])
def test_no_line_of_a_log_has_a_secret(door: Opened, size: int) -> None:
    """Of a submission at once, and of one in parts."""
    count = len(door.items())
    text = "\n".join(ITEMS[number % len(ITEMS)] for number in range(size))
    # Each of them is an item, but for passwords in bounds.
    text = text if size == len(ITEMS) else text.replace("Password : ", "remarks: ")
    status, _, report = door.submit(text)
    expect((status, report.count(b"\n")), (200, size + 1), f"the report {report[-200:]!r}")
    wait_until("lines", 60, lambda: len(door.items()) == count + size)
    door.submit(f"password: {SECRET}\n" * 33)
    door.submit(f"password: {SECRET}\n", Origin=f"http://[{SECRET}", Host="x")
    door.whois(f"-x password: {SECRET}")
    door.whois(f"!m{SECRET},{SECRET}")
    with open(door.log, encoding="utf-8") as file:
        logged = file.read() + door.words_reported() + log_of(door)
    for word in SECRET, "PASSWORD", "password:", "0" * 64:
        found = [line for line in logged.splitlines() if word.lower() in line.lower()]
        expect([line for line in found if "413 passwords" not in line], [], f"lines with {word}")
    expect('"mnt-by": ["ROOT-MNT"]' in logged, True, "the maintainers of others")


def log_of(door: Opened) -> str:
    words = [PYTHON, "-m", "irr", "log", "--file", door.log]
    environment = {**os.environ, "PYTHONPATH": os.path.join(TOP, "tools")}
    return subprocess.run(words, capture_output=True, env=environment, check=True).stdout.decode()

"""What a stranger's few bytes make the program do: bounds of the processor's seconds, as they would
be on the machine of docs/OPEN.md, and of memory. The long form has the figures of that page."""

import itertools
import random
import string
from collections.abc import Callable, Iterator

import pytest

from checks.hostile import attacks
from checks.hostile.attacks import PASSWORD, Registry, made, owned
from checks.hostile.costs import at_most, judged
from checks.pace import Work, digesting, sorting
from checks.running import Tell, Trial, expect

# It looks at times.
pytestmark = pytest.mark.alone

MEGABYTE = 1 << 20
# Every operator that a range can have.
OPERATORS = ["", "^+", "^-"]
OPERATORS += [f"^{first}-{last}" for first in range(33) for last in range(first, 33)]


def cost_of(
    registry: Registry, most: float, query: str, answered: Callable[[bytes], None]
) -> float:
    """The processor's seconds of a query, whose answer this looks at."""

    def once() -> float:
        reply, seconds = registry.cost(registry.whois, query)
        answered(reply)
        return seconds

    return judged(most, once)


def cost_of_refused(
    registry: Registry, most: float, items: int, text: str, work: Work = sorting
) -> float:
    """The processor's seconds of a submission, each of whose items is refused with E11."""

    def once() -> float:
        report, seconds = registry.cost(registry.post, text)
        expect(report.count(b"refused E11"), items, "how many items were refused")
        return seconds

    return judged(most, once, work)


def is_answered(reply: bytes) -> None:
    expect(reply[:1] not in (b"", b"%"), True, f"whether {reply[:40]!r} is an answer")


def ring(count: int, size: int = 65_200) -> Iterator[str]:
    """So many route-sets, a text of this size each, which list one another under every operator as
    far as there is room; one has the range that each operator makes another one of."""
    names, order = [f"RS-{number:x}" for number in range(count)], random.Random(1)
    for number, name in enumerate(names):
        operators = order.sample(OPERATORS, len(OPERATORS))
        values, room = ["0.0.0.0/0"] if number == 0 else [], size
        for value in (name + operator for operator in operators for name in names):
            room -= len(value) + 1
            if room < 0:
                break
            values.append(value)
        yield owned(f"route-set:{name}", f"members:{','.join(values)}")


@pytest.mark.parametrize(
    ("sets", "limit", "most", "room"),
    [
        (4, 10_000, 0.05, 60),
        (8, 10_000, 0.2, 60),
        pytest.param(16, 10_000, 0.4, 60, marks=pytest.mark.long),
        pytest.param(90, 100_000, 4, 250, marks=pytest.mark.long),
    ],
)
def test_sets_that_list_one_another_under_every_operator(
    trial: Trial, tell: Tell, sets: int, limit: int, most: float, room: float
) -> None:
    with Registry(trial, made(trial, f"ring{sets}", limit=limit)) as registry:
        registry.register(attacks.stranger(), *(PASSWORD + text for text in ring(sets)))
        before = registry.peak()
        seconds = cost_of(registry, most, "prefixes RS-0", is_answered)
        memory = registry.peak() - before
    at_most(seconds, most, f"`prefixes` of {sets} sets, limit {limit}")
    at_most(memory / MEGABYTE, room, f"memory for `prefixes` of {sets} sets", "MiB")
    tell(f"{seconds:.2f} s and {memory / MEGABYTE:.0f} MiB")


def maintainers(count: int) -> tuple[list[str], list[str]]:
    """Names of maintainers of three letters, and submissions of them all."""
    letters = itertools.product(
        string.ascii_uppercase, *[string.ascii_uppercase + string.digits] * 2
    )
    names = [name for name in map("".join, letters) if name[:2] not in ("AS", "RS", "FL", "PR")]
    names = [name for name in names if name not in ("AND", "ANY", "NOT")][:count]
    mntners = [
        owned(f"mntner:{name}", f"auth:{attacks.auth(attacks.SECRET)}", maintainer=name)
        for name in names
    ]
    return names, [
        PASSWORD + "".join(mntners[first : first + 1_000]) for first in range(0, count, 1_000)
    ]


@pytest.mark.parametrize(
    ("count", "items", "most"),
    [(1_000, 3_000, 0.05), pytest.param(15_000, 2_300, 0.2, marks=pytest.mark.long)],
)
def test_items_of_an_object_that_names_many_maintainers(
    trial: Trial, tell: Tell, count: int, items: int, most: float
) -> None:
    names, bodies = maintainers(count)
    with Registry(trial, made(trial, f"named{count}")) as registry:
        registry.register(*bodies, PASSWORD + owned("as-set:AS-T", maintainer=",".join(names)))
        seconds = cost_of_refused(registry, most, items, attacks.refused_items(items))
    at_most(seconds, most, f"{items} items of an object with {count} maintainers")
    tell(f"{seconds:.2f} s")


def test_an_object_that_repeats_one_maintainer(trial: Trial, tell: Tell) -> None:
    count, most = 3_000, 0.05
    with Registry(trial, made(trial, "repeated")) as registry:
        repeated = ",".join(["E-MNT"] * (attacks.MOST_PARAGRAPH // 6 - 20))
        registry.register(attacks.stranger(), PASSWORD + owned("as-set:AS-T", maintainer=repeated))
        seconds = cost_of_refused(registry, most, count, attacks.refused_items(count))
    at_most(seconds, most, f"{count} items of an object that names one maintainer many times")
    tell(f"{seconds:.2f} s")


def test_passwords_and_salts_at_the_bound_of_the_door(trial: Trial, tell: Tell) -> None:
    """32 passwords are tried once with each of 770 salts of so many maintainers, however many items
    name them."""
    count = trial.pick(8, 64)
    mntners = [
        attacks.lined(f"M{n}", 770, n * 770, f"auth:{attacks.auth(attacks.SECRET)}\n")
        for n in range(count)
    ]
    names = ",".join(f"M{number}" for number in range(count))
    passwords = "".join(f"password: p{number}\n" for number in range(32))
    most = 0.01 + 32 * 770 * count * 0.6e-6
    with Registry(trial, made(trial, "salts")) as registry:
        registry.register(*(PASSWORD + text for text in mntners))

        item = f"as-set:AS-T\nmnt-by:{names}\nsource:TEST\n\n"
        one, many = (
            cost_of_refused(registry, most, items, f"{passwords}\n{item * items}", digesting)
            for items in (1, 100)
        )
    at_most(one, most, f"32 passwords with {count} maintainers of 770 salts")
    at_most(many, most, "the same for 100 items")
    tell(f"{one:.2f} s, for 100 items {many:.2f} s")

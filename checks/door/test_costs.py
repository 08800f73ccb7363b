"""Budgets, turns, kept answers and what queries are taken to cost, by themselves."""

import pytest

from irr.door import budget, cache
from irr.door.budget import Clients, Turn, Turns, client_name


def test_a_budget_refills_and_is_paid_by_who_asks() -> None:
    clients = Clients(0.5, 3.0)
    one, other = clients.of("192.0.2.1", 0.0), clients.of("192.0.2.2", 0.0)
    clients.charge(one, 5.0, 0.0)
    assert (clients.left(one, 0.0), clients.left(other, 0.0)) == (-2.0, 3.0)
    assert clients.wait(one, 0.0) == 4.0
    assert clients.wait(one, 4.0) == 0.0
    assert clients.left(one, 100.0) == 3.0


def test_turns_go_to_who_has_most_left_and_round() -> None:
    clients = Clients(0.5, 3.0)
    names = ["a", "b", "c"]
    turns: Turns[Turn] = Turns(clients)
    for name in names * 2:
        turns.add(Turn(clients.of(name, 0.0)))
    clients.charge(clients.of("a", 0.0), 1.0, 0.0)
    clients.charge(clients.of("c", 0.0), 4.0, 0.0)
    order = []
    while (one := turns.next(0.0)) is not None:
        order.append(one.client.name)
        clients.charge(one.client, 0.6, 0.0)
    assert order == ["b", "b", "a", "a"]
    assert turns.count == 2 and turns.soonest(0.0) == 2.0
    assert turns.next(2.1) is not None


def test_one_who_waits_can_leave() -> None:
    clients = Clients(0.5, 3.0)
    turns: Turns[Turn] = Turns(clients)
    one = Turn(clients.of("a", 0.0))
    turns.add(one)
    assert turns.remove(one) and not turns.remove(one) and turns.next(0.0) is None


def test_what_goes_on_comes_before_what_its_client_has_not_begun() -> None:
    """As the second part of a submission does."""
    clients = Clients(0.5, 3.0)
    turns: Turns[Turn] = Turns(clients)
    first, second = Turn(clients.of("a", 0.0)), Turn(clients.of("a", 0.0))
    turns.add(first)
    turns.add(second)
    assert turns.next(0.0) is first
    turns.again(first)
    assert [turns.next(0.0), turns.next(0.0)] == [first, second]


@pytest.mark.parametrize(
    "address,name",
    [
        ("192.0.2.1", "192.0.2.1"),
        ("::ffff:192.0.2.1", "192.0.2.1"),
        ("2001:db8:0:1ff::7", "2001:db8:0:100::/56"),
        ("fe80::1%eth0", "fe80::/56"),
        ("nonsense", "nonsense"),
    ],
)
def test_a_client_is_an_address_or_a_56(address: str, name: str) -> None:
    assert client_name(address) == name


def test_clients_are_forgotten_once_nothing_is_to_be_remembered() -> None:
    clients = Clients(0.5, 3.0)
    for number in range(budget.REMEMBERED):
        clients.of(str(number), 0.0)
    clients.charge(clients.of("7", 0.0), 2.0, 0.0)
    clients.of("8", 0.0).connections = 1
    clients.of("new", 0.0)
    assert set(clients.known) == {"7", "8", "new"}


def test_kept_answers_are_of_one_state_and_counted() -> None:
    ledger = cache.Ledger(1_000)
    kept = cache.Cache(500, 60.0)
    kept.put(b"a", cache.Answer(b"x" * 300, 1.0, ledger), 0, 0.0)
    kept.put(b"b", cache.Answer(b"y" * 300, 1.0, ledger), 0, 0.0)
    assert kept.get(b"a", 1.0) is None and kept.get(b"b", 1.0) is not None
    assert (kept.size, ledger.used) == (300, 300)
    assert kept.get(b"b", 61.0) is None and ledger.used == 0
    late = cache.Answer(b"z", 1.0, ledger)
    kept.renew()
    kept.put(b"c", late, 0, 0.0)
    assert kept.get(b"c", 0.0) is None
    with pytest.raises(cache.Full):
        cache.Answer(b"x" * 1_001, 1.0, ledger)
    assert ledger.used == 1


def test_an_eighth_of_the_answers_is_left_to_short_ones() -> None:
    """However many long ones there are; and what is kept makes room for either."""
    most = 16 * cache.SHORT
    ledger = cache.Ledger(most)
    long = [cache.Answer(b"x" * 2 * cache.SHORT, 1.0, ledger) for _ in range(7)]
    with pytest.raises(cache.Full):
        cache.Answer(b"x" * 2 * cache.SHORT, 1.0, ledger)
    short = [cache.Answer(b"x" * cache.SHORT, 1.0, ledger) for _ in range(2)]
    with pytest.raises(cache.Full):
        cache.Answer(b"x", 1.0, ledger)
    assert (len(long), len(short), ledger.used) == (7, 2, most)
    ledger.makers.append(lambda: bool(long) and long.pop() is not None)
    cache.Answer(b"x", 1.0, ledger)
    assert len(long) == 6


def test_a_query_is_dear_if_it_was_so_twice() -> None:
    costs = cache.Costs()
    assert costs.expected(b"PREFIXES A", "prefixes") >= cache.DEAR
    assert costs.expected(b"A-MNT", "word") < cache.DEAR
    costs.learn(b"PREFIXES A", "prefixes", 0.3)
    assert costs.known(b"PREFIXES A") is None
    costs.learn(b"PREFIXES A", "prefixes", 0.001)
    assert costs.known(b"PREFIXES A") == 0.001
    costs.learn(b"PREFIXES A", "prefixes", 0.4)
    assert costs.known(b"PREFIXES A") == 0.001
    costs.learn(b"PREFIXES A", "prefixes", 0.2)
    assert costs.known(b"PREFIXES A") == 0.2
    for number in range(200):
        costs.learn(b"PREFIXES B%d" % number, "prefixes", 0.001)
    assert costs.expected(b"PREFIXES C", "prefixes") < cache.DEAR

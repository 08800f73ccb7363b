"""A registry attacked as one stranger can, directly and through nginx and HAProxy with the files of
examples/. Each attack has a short form and a bound, and registries, proxies, folders and ports of
its own. Directly, the bounds are of the processor's time and of memory; through a proxy, of how
long another client waits. The long form has the figures of docs/OPEN.md."""

from collections.abc import Callable
from typing import Any

import pytest

from checks.hostile import beyond_doors, costs
from checks.running import Tell, Trial, cases_of

# It looks at times.
pytestmark = pytest.mark.alone


@pytest.mark.parametrize("attack", cases_of(costs.CASES))
def test_an_attack_costs_no_more_than_its_bound(
    trial: Trial, attack: Callable[..., Any], tell: Tell
) -> None:
    tell(attack(trial))


@pytest.mark.parametrize("attack", cases_of(beyond_doors.CASES))
def test_an_attack_through_a_proxy_keeps_others_no_longer_than_its_bound(
    trial: Trial, attack: Callable[..., Any], tell: Tell
) -> None:
    tell(attack(trial))

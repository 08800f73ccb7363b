"""Which of many spans cross an earlier one that stays."""

from hypothesis import given
from hypothesis import strategies as st

from irr.rpsl import spans
from irr.rpsl.keys import Span

SPANS = st.tuples(st.integers(0, 12), st.integers(0, 12)).map(lambda one: (min(one), max(one)))


def test_those_that_begin_or_end_together_cross_none() -> None:
    assert spans.crossing([(0, 9), (0, 5), (6, 9), (3, 5), (9, 9), (0, 9)]) == []
    assert spans.crossing([(0, 5), (5, 9), (4, 4), (4, 6), (6, 7)]) == [1, 3]
    assert spans.crossing([(5, 9), (0, 5), (4, 6)]) == [1, 2]


@given(st.lists(SPANS, max_size=14))
def test_the_first_of_two_that_cross_stays(held: list[tuple[int, int]]) -> None:
    kept: list[Span] = []
    gone = []
    for place, one in enumerate(held):
        if any(Span(*one).crosses(other) for other in kept):
            gone.append(place)
        else:
            kept.append(Span(*one))
    assert spans.crossing(held) == gone

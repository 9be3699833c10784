"""Between which states the operations of a numeric type are legal, and which of them may block one another."""
from itertools import chain
from typing import Callable, NamedTuple, Optional


class Bounds(NamedTuple):
    """An operation of a numeric type: it is legal from `low` to `high`, and moves each of these as far."""

    low: int
    high: int
    moves: int

    def is_legal(self, low: int, high: int) -> bool:
        """Whether it is legal from one number to another."""
        return self.low <= low and high <= self.high

    def is_legal_behind(self, other: "Bounds", low: int, high: int) -> bool:
        """Whether it is legal after another operation, from one number to another."""
        return self.is_legal(low + other.moves, high + other.moves)


def bounds_of(states: int, step: Callable[[int], Optional[int]]) -> Optional[Bounds]:
    """Those of the operation that has these steps; None where it is legal nowhere.

    Each operation of a number without a table is legal at 0 or at its greatest state, so only a table's states, of which
    there are few, are gone through.
    """
    greatest = states - 1
    for state in chain((0, greatest), range(1, greatest)):
        to = step(state)
        if to is not None:
            return Bounds(_farthest(state, 0, step), _farthest(state, greatest, step), to - state)
    return None


def _farthest(legal: int, end: int, step: Callable[[int], Optional[int]]) -> int:
    """The last state, from a legal one towards an end, that is legal: all between two such are."""
    if step(end) is not None:
        return end
    illegal = end
    while abs(legal - illegal) > 1:
        middle = (legal + illegal) // 2
        if step(middle) is None:
            illegal = middle
        else:
            legal = middle
    return legal


def may_block(one: Optional[Bounds], other: Optional[Bounds]) -> bool:
    """Whether there is a number at which both are legal, and one of them isn't legal after the other."""
    if one is None or other is None:
        return False
    low, high = max(one.low, other.low), min(one.high, other.high)
    return low <= high and not (one.is_legal_behind(other, low, high) and other.is_legal_behind(one, low, high))

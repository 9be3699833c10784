"""What was seen of what is committed, and when."""
from typing import NamedTuple, Tuple

from ._replies import Operation


class Moment(NamedTuple):
    """How many transactions had committed. Of two moments of a store the later one is the greater one."""

    epoch: int
    """In memory how often the store began anew; in a file the number of its life."""
    commits: int
    """How many transactions had committed in this epoch."""


class Seen(NamedTuple):
    """What calls are replied to a transaction that only reads, all at one moment."""

    at: Moment
    replies: Tuple[Operation, ...]
    """An operation for each call, in their order."""


class States(NamedTuple):
    """Committed states of objects, all at one moment."""

    at: Moment
    states: Tuple[int, ...]
    """The state of each object that was asked for, in their order."""

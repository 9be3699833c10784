"""What a client counts."""
from typing import List, NamedTuple, Tuple


class Stats(NamedTuple):
    """What was counted of this client since it opened the store."""

    commits: int
    """Commits, attempts and decisions to commit that came through, those under a key that had committed before among them."""
    aborts: int
    """Aborts, those of victims, of decisions, and of what the end of an epoch aborted among them: of each when something is asked of it."""
    busy: Tuple[int, ...]
    """By object: how often a call was answered `Busy`, and how often one went to sleep."""
    waits: int
    """How many sleeps there were."""
    waited: float
    """How many seconds they slept in all."""
    deadlocks: int
    """How many victims there were."""
    timeouts: int
    """How many waits ended at their limit."""


class Counts:
    """The same, as it grows."""

    def __init__(self) -> None:
        self.commits = self.aborts = self.waits = self.deadlocks = self.timeouts = 0
        self.busy: List[int] = []
        self.waited = 0.0

    def begin_at(self, first: int, objects: int) -> None:
        """There are so many objects from this one on, of which nothing is counted. It may be done twice."""
        self.busy[first:] = [0] * objects

    def told(self) -> Stats:
        """What was counted up to now."""
        return Stats(self.commits, self.aborts, tuple(self.busy), self.waits, self.waited, self.deadlocks, self.timeouts)

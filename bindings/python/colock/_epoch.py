"""How a store in memory counts on where the library begins anew while transactions are open, so that nobody can tell it."""
import ctypes
from bisect import bisect_left
from typing import List, Sequence

from ._backend import NOBODY


class Epoch:
    """An epoch of the library, in which transactions, events and commits count from 0 once more.

    Those that were open were carried into it. The library numbers them 0, 1, 2, .. in the order of their numbers, and goes on
    from there.
    """

    __slots__ = ("first", "shift", "carried", "events", "commits", "carried_events", "begun", "numbered")

    def __init__(self, first: int = 0, carried: Sequence[int] = (), commits: int = 0) -> None:
        # the number of the first transaction that began in it, and how much greater its number is than in the library
        self.first, self.shift = first, first - len(carried)
        # the numbers of those that were carried, ascending
        self.carried: List[int] = list(carried)
        # how many commits came before
        self.commits = commits
        # how many events came before the library's first one; and how many it began with, which happened before, too
        self.events = self.carried_events = 0
        # the number in the library of the one that was begun last, and how many were numbered at least
        self.begun = ctypes.c_uint64(NOBODY)
        self.numbered = len(carried)

    def in_library(self, number: int) -> int:
        """The number of a transaction in the library; `NOBODY` where it ended before the epoch."""
        if number >= self.first:
            return number - self.shift
        place = bisect_left(self.carried, number)
        return place if self.carried[place : place + 1] == [number] else NOBODY

    def number(self, in_library: int) -> int:
        """The number of the transaction that the library gives this one."""
        return self.carried[in_library] if in_library < len(self.carried) else in_library + self.shift

    def next_in_library(self) -> int:
        """The number that the library gives the next one that begins."""
        begun = self.begun.value
        return self.numbered if begun == NOBODY else max(self.numbered, begun + 1)

    def next(self, carried: Sequence[int], commits: int) -> "Epoch":
        """The one after it, into which these transactions are carried. There were so many commits before."""
        return Epoch(self.next_in_library() + self.shift, carried, commits)

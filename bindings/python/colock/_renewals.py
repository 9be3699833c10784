"""How a store in memory begins anew: by itself, or because it was told to."""
import ctypes
from functools import partial
from itertools import chain
from typing import List, NamedTuple, Set

from . import _library
from ._backend import Backend
from ._epoch import Epoch
from ._errors import done, error_of
from ._library import functions, quick
from ._sleepers import Blocker

_WOULD_OP = quick["would_op"]
# What is no call's number, and as many events as there are.
NO_CALL = ALL = (1 << 64) - 1


class Counts(NamedTuple):
    """How many events the library has counted in its epoch, and how many of them it has forgotten."""

    all: int
    forgotten: int


class Renewing(Backend):
    """A store over the library, which begins anew while transactions are open, and nobody can tell."""

    def __init__(self, blocker: Blocker, most_events: int) -> None:
        super().__init__(blocker)
        self.life = 0
        self.epoch = Epoch()
        # whether it forgets its events where its history is full, and its limit of events
        self.forgets, self._most_events = False, most_events
        # whether the library has said that some yes is one-way
        self._is_one_way = False
        self._handle = _library.Handle()
        # what a call writes into is used again: all of it is under the lock
        self._answer, self._number, self._commits = _library.Answer(), ctypes.c_uint64(), ctypes.c_uint64()

    # ---- what the library says

    def is_open(self, life: int, number: int) -> bool:
        return life == self.life and self._is_open_in_library(self.epoch.in_library(number))

    def _is_open_in_library(self, number: int) -> bool:
        return self._code_of(number) == _library.NO_CALL

    def _code_of(self, number: int) -> int:
        """The code of a call that isn't there: `NO_CALL` where the transaction is open, which is looked at before."""
        return _WOULD_OP(self._handle, number, 0, NO_CALL, self._answer)

    def open_count(self) -> int:
        done(functions["open_count"](self._handle, self._number))
        return self._number.value

    def commit_count(self) -> int:
        """How many transactions have committed in this life."""
        done(quick["commit_count"](self._handle, self._number))
        return self.epoch.commits + self._number.value

    def counts_in_library(self) -> Counts:
        """How many events there are in the epoch, and how many are forgotten."""
        count, forgotten = ctypes.c_uint64(), ctypes.c_uint64()
        done(functions["event_count"](self._handle, count, forgotten))
        return Counts(count.value, forgotten.value)

    def open_numbers(self) -> List[int]:
        """The numbers of all transactions that are open, ascending."""
        count, epoch = self.open_count(), self.epoch
        found: Set[int] = set()
        held = chain(list(self.holders), (one.number for one in self.undecided.values()), epoch.carried)
        # those that were made by `follow` are held by nobody
        others = range(epoch.next_in_library() + epoch.shift - 1, epoch.first - 1, -1)
        for number in chain(held, others):
            if len(found) == count:
                break
            if self._is_open_in_library(epoch.in_library(number)):
                found.add(number)
        return sorted(found)

    # ---- renewals

    def make_room(self, code: int) -> None:
        """Begins anew by itself, where the history is full and was forgotten, or is to be. Else this code's error is raised."""
        counts = self.counts_in_library() if code == _library.HISTORY_FULL else None
        # where nothing has changed since the last time it doesn't help
        if counts is None or not (counts.all == counts.forgotten or self.forgets) or counts.all == self.epoch.carried_events:
            raise error_of(code)
        self.put_right()
        told = self._go_over()
        if told:
            raise error_of(code if told == _library.STILL_OPEN else told)

    def make_room_early(self) -> None:
        """Begins anew before the history is full, where all events were forgotten and half of its room was used since the last time."""
        counts, carried = self.counts_in_library(), self.epoch.carried_events
        if counts.all == counts.forgotten and 2 * (counts.all - carried) >= self._most_events - carried:
            self.put_right()
            # where it can't it goes on as it is
            self._go_over()

    def is_full(self) -> bool:
        """Whether its history has no room for every next event: a begin needs two, its end among them."""
        return self.counts_in_library().all + self.open_count() + 2 > self._most_events

    def forget(self, events: int) -> None:
        done(functions["forget"](self._handle, events))
        self.make_room_early()

    def forget_when_full(self) -> None:
        self.moment()  # where it is closed this raises
        self.forgets = True

    def renew(self) -> None:
        self.put_right()
        if self.open_count():
            done(self._go_over())
            return
        life = self.life + 1
        self.doing = lambda: self._put_renewal_right(life)
        code = functions["renew"](self._handle)
        if not code:
            self.has_renewed(life)
        self.doing = None
        done(code)

    def _put_renewal_right(self, life: int) -> None:
        """A renewal was interrupted: where it was done there are no events."""
        if not self.counts_in_library().all:
            self.has_renewed(life)

    def has_renewed(self, life: int) -> None:
        """What follows from a renewal that ends a life. It may be done twice, and a signal handler may have gone on in this life
        meanwhile."""
        if self.life != life:
            self.holders.clear()
            self.epoch = Epoch()
            self.life = life

    def _go_over(self) -> int:
        """Begins another epoch of the library, in which all that is open goes on, and all events are forgotten. The code of that."""
        # it isn't looked for who is open where that is of no use
        if self._is_one_way and self.open_count():
            return _library.STILL_OPEN
        counts, before = self.counts_in_library(), self.epoch
        after = before.next(self.open_numbers(), self.commit_count())
        self.doing = partial(self._put_going_right, counts, before, after)
        code = functions["renew"](self._handle)
        if not code:
            self._has_gone_over(counts, before, after)
        self.doing = None
        self._is_one_way = self._is_one_way or code == _library.STILL_OPEN
        return code

    def _put_going_right(self, counts: Counts, before: Epoch, after: Epoch) -> None:
        """It was interrupted: where it was done nothing is forgotten yet, and fewer events are there, unless all of them were carried."""
        if self.epoch is before and self.counts_in_library() != counts:
            self._has_gone_over(counts, before, after)

    def _has_gone_over(self, counts: Counts, before: Epoch, after: Epoch) -> None:
        """What follows from it. It may be done twice."""
        if self.epoch is before:
            carried = self.counts_in_library().all
            functions["forget"](self._handle, ALL)
            after.carried_events, after.events = carried, before.events + counts.all - carried
            self.epoch = after

"""Prepared transactions of a store in memory. The library doesn't know of them: all is kept here, under the lock of the store."""
from functools import partial
from typing import TYPE_CHECKING, Iterable, List, Sequence

from ._backend import Finish
from ._errors import KeyCommitted, PreparedError, StillOpenError, done
from ._events import Event
from ._keys import Aborted, Committed, Decision, End, Unknown, refuse_work
from ._memory import ABORT, COMMIT, Memory, let_others_run
from ._objects import Given
from ._outcomes import held_at
from ._prepared import PreparedTransaction, Undecided

if TYPE_CHECKING:
    from ._transaction import Transaction


class PreparingMemory(Memory):
    """A store in memory, whose transactions may be prepared."""

    def prepare(self, t: "Transaction", key: str, until: int) -> Finish:
        outcome = self.outcome(key)
        if t._key == key:
            return None
        self.check(t)
        refuse_work(key, outcome)
        if isinstance(outcome, Committed):
            raise KeyCommitted(key)
        self.doing = partial(self.has_prepared, t, key, until, self._held_by(t))
        self.doing()
        self.doing = None
        return None

    def _held_by(self, t: "Transaction") -> Sequence[int]:
        """The objects at which a transaction holds operations; or did so, where the events that say it are forgotten."""
        held = held_at(self.events(self.forgotten_count())(), t._number) if t._took_back else None
        return sorted(t._touched if held is None else held)

    def decide(self, key: str, decision: Decision) -> Finish:
        outcome, one, is_commit = self.outcome(key), self.undecided.get(key), decision is Decision.COMMIT
        decision.refuse(key, outcome)
        end: End = Committed(()) if is_commit else Aborted()
        commits, aborts = self.counts.commits + is_commit, self.counts.aborts + (not is_commit)
        self.sleepers.has_woken = False
        if one is not None:
            self.doing = partial(self._put_decision_right, key, one, end, commits, aborts)
            code = (COMMIT if is_commit else ABORT)(self._handle, one.worker, self.epoch.in_library(one.number))
            if not code:
                self._has_decided(key, one, end, commits, aborts)
            self.doing = None
            done(code)
            return let_others_run if self.sleepers.has_woken else None
        if isinstance(outcome, Unknown):
            self._keys.keep(key, end)
        self.counts.commits, self.counts.aborts = commits, aborts
        return None

    def _put_decision_right(self, key: str, one: Undecided, end: End, commits: int, aborts: int) -> None:
        """A decision was interrupted."""
        if not self.is_open(one.life, one.number):
            self._has_decided(key, one, end, commits, aborts)

    def _has_decided(self, key: str, one: Undecided, end: End, commits: int, aborts: int) -> None:
        """What follows from a decision. It may be done twice."""
        self._keys.keep(key, end)
        self.counts.commits, self.counts.aborts = commits, aborts
        self.ends += 1
        self.has_decided(key)
        if not self.sleepers.is_empty():
            self.sleepers.ended(one.number, one.objects)

    def prepared(self) -> List[PreparedTransaction]:
        self.put_right()
        # where it is closed this raises
        self.moment()
        return [self._told_of(key, one) for key, one in self.undecided.items()]

    def _told_of(self, key: str, one: Undecided) -> PreparedTransaction:
        return PreparedTransaction(key, f"{one.life}.{one.number}", one.until, tuple(map(self.name_of_object, one.objects)))

    # ---- what would end what is prepared

    def abort_all(self) -> int:
        self.put_right()
        return self._abort_others() if self.undecided else super().abort_all()

    def follow(self, events: Iterable[Event]) -> None:
        made = list(events)
        self.put_right()
        numbers = {event.transaction for event in made}
        for key, one in self.undecided.items():
            if one.number in numbers:
                raise PreparedError(key)
        super().follow(made)

    def _extend(self, added: List[Given]) -> int:
        self.put_right()
        if self.undecided:
            raise StillOpenError(StillOpenError.__doc__)
        return super()._extend(added)

    def close(self) -> Finish:
        finish = super().close()
        self.undecided.clear()
        return finish

    def _abort_others(self) -> int:
        """Aborts each transaction that isn't prepared, in ascending order, and returns how many there were."""
        kept = {one.number for one in self.undecided.values()}
        others = [number for number in self.open_numbers() if number not in kept]
        self.doing = self.sleepers.begin_anew
        for number in others:
            done(ABORT(self._handle, self._worker_of(number), self.epoch.in_library(number)))
        self.ends += 1
        self.sleepers.begin_anew()
        self.doing = None
        return len(others)

    def _worker_of(self, number: int) -> int:
        """The worker of an open transaction, as far as anybody has it."""
        t = self.holders[number]() if number in self.holders else None
        return 0 if t is None else t._worker

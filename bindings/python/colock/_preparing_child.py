"""Prepared transactions of a durable store. The program keeps them; what this client prepared itself is known here too."""
from functools import partial
from typing import TYPE_CHECKING, Callable, Optional

from ._backend import Finish
from ._child import Child
from ._connection import Slot
from ._errors import ConnectionLost, OutcomeUnknown, PreparedError
from ._keys import REFUSED_DECISIONS, REFUSED_PREPARES, Decision, refusal_of

if TYPE_CHECKING:
    from ._transaction import Transaction


class PreparingChild(Child):
    """A durable store, whose transactions may be prepared."""

    def prepare(self, t: "Transaction", key: str, until: int) -> Finish:
        self.put_right()
        if t._key == key:
            self._check_connection()
        else:
            self.check(t)
        slot = self._connection.made(f"prepare {t._life}.{t._number} {key} {until}")
        booked = partial(self.has_prepared, t, key, until, t._touched)
        # where the key is taken it will be refused, and whoever has the key keeps it here
        is_new = key not in self.undecided
        if is_new:
            self._put_with(slot, partial(self._prepares, slot, booked))
        else:
            self._connection.put(slot)
        return lambda: self._finish_prepare(t, slot, key, is_new, booked)

    def _prepares(self, slot: Slot, booked: Callable[[], None]) -> None:
        """A prepare was asked for, where it was written. What is asked from now on is done after it."""
        if slot.written:
            booked()

    def _finish_prepare(self, t: "Transaction", slot: Slot, key: str, is_new: bool, booked: Callable[[], None]) -> None:
        """The end of a prepare, outside the lock. From when it was written it isn't known what becomes of it."""
        try:
            answer = self._connection.wait(slot)
            if answer != b"ok":
                self._refuse_prepare(t, slot, key, is_new, answer)
        except ConnectionLost as lost:
            if not slot.written:
                raise
            raise OutcomeUnknown.of_prepare(t.id, key) from lost
        with self.lock:
            # whoever had the key was refused meanwhile
            if not (is_new or t._ended or t._key == key):
                self._together(booked)

    def _refuse_prepare(self, t: "Transaction", slot: Slot, key: str, is_new: bool, answer: bytes) -> None:
        """Raises why a transaction wasn't prepared. It is open then, if it was."""
        if is_new:
            with self.lock:
                self._together(partial(self._is_unprepared, t, slot, key))
        if answer == b"refused Prepared":
            raise PreparedError(key)
        refusal = refusal_of(key, answer, REFUSED_PREPARES)
        if refusal is not None:
            raise refusal
        self._refuse_end(t, answer, not t._ended)

    def _is_unprepared(self, t: "Transaction", slot: Slot, key: str) -> None:
        """A transaction that counted as prepared isn't. It may be done twice."""
        t._key = None
        one = self.undecided.get(key)
        if one is not None and one.holder() is t:
            self.undecided.pop(key)
        self._opens_again(t, slot)

    def abort_behind(self, t: "Transaction") -> None:
        if t._key is None or self.is_lost():
            super().abort_behind(t)
            return
        # one that is prepared stays so, and who sleeps behind one that isn't may be free
        slot = self._connection.made(f"abort {t._life}.{t._number}")
        self._put_with(slot, partial(self._lets_go_anywhere, slot))

    # ---- decisions

    def decide(self, key: str, decision: Decision) -> Finish:
        self.put_right()
        self._check_connection()
        one = self.undecided.get(key)
        # of one of an earlier opening isn't known here what it holds
        known = None if one is None else self.known(one.life, one.number)
        slot = self._connection.made(f"decide {key} {decision.value}")
        self._put_with(slot, partial(self._decides, slot, key, known))
        return lambda: self._finish_decision(slot, key, decision)

    def _decides(self, slot: Slot, key: str, known: Optional[int]) -> None:
        """A decision was asked for, where it was written: who sleeps may be free behind it."""
        if not slot.written:
            return
        one = self.undecided.get(key)
        if known is None:
            self._lets_go_anywhere(slot)
        elif one is not None:
            self._has_ended(slot, known, one.objects, self.counts.aborts)
        self.has_decided(key)

    def _lets_go_anywhere(self, slot: Slot) -> None:
        """A transaction was asked to end, where that was written, of which isn't known at which objects it let go."""
        if slot.written:
            self._let_go_until(slot.number)

    def _finish_decision(self, slot: Slot, key: str, decision: Decision) -> None:
        """The end of a decision, outside the lock. From when it was written it isn't known what becomes of it."""
        try:
            answer = self._connection.wait(slot)
            if answer != b"ok":
                self._refuse_decision(key, answer)
        except ConnectionLost as lost:
            if not slot.written:
                raise
            raise OutcomeUnknown.of_decision(key) from lost
        with self.lock:
            self.counts.commits += decision is Decision.COMMIT
            self.counts.aborts += decision is Decision.ABORT

    def _refuse_decision(self, key: str, answer: bytes) -> None:
        """Raises why a decision wasn't made."""
        refusal = refusal_of(key, answer, REFUSED_DECISIONS)
        if refusal is not None:
            raise refusal
        self._refuse(answer)

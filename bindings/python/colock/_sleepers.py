"""The threads that wait at a store, and the engine that says for whom.

All of it is used under the lock of the store, but for `Sleepers.ring_all`, and for the sleep itself.
"""
from functools import wraps
from typing import TYPE_CHECKING, Any, Callable, Collection, Dict, Optional, Sequence, TypeVar, cast

from ._bell import Bell
from ._decisions import Abort, Ask, Asker, Decision, End, OnlookerFree
from ._engine import Engine
from ._operations import PLACES

if TYPE_CHECKING:
    from ._types import Type

F = TypeVar("F", bound=Callable[..., None])


def event(act: F) -> F:
    """An event, of which what is decided is done too. Where a signal handler raises in the middle, the engine is torn."""

    @wraps(act)
    def whole(self: "Sleepers", *words: Any) -> None:
        if self.is_torn:
            self.begin_anew()
        engine, self.is_torn = self._engine, True
        act(self, *words)
        self._settle()
        if self._engine is not engine:
            self.begin_anew()  # a signal handler used the store in the middle
        self.is_torn = False

    return cast(F, whole)


class Sleeper:
    """A call of a transaction that waits, from its first sleep until it is answered."""

    __slots__ = ("asker", "call", "bell", "is_asleep", "waited_for")

    def __init__(self, number: int, age: int, object: int, call: int) -> None:
        self.asker, self.call = Asker(number, age, object, call % PLACES), call
        self.bell = Bell()
        # whether its thread sleeps, or is about to, and nobody has woken it
        self.is_asleep = False
        # of a victim: for whom it waited
        self.waited_for: Optional[int] = None

    def wake(self) -> None:
        """Its sleep is over."""
        self.is_asleep = False
        self.bell.ring()


# Says who is in the way of the call of a sleeper, if anyone.
Blocker = Callable[[Sleeper], Optional[int]]


class Watch:
    """Somebody who waits for the end of a transaction, or of any."""

    __slots__ = ("id", "bell")

    def __init__(self) -> None:
        self.id = -1
        self.bell = Bell()


class Sleepers:
    """All that wait at a store.

    In memory the store is asked for them here, so that nobody is woken who can't go. Over a child nobody is asked here:
    each is woken, and asks by itself.
    """

    def __init__(self, types: "Sequence[Type]", blocker: Optional[Blocker]) -> None:
        """Nobody waits."""
        # whether an event was interrupted, so that nothing is certain any more about who waits for whom
        self.is_torn = False
        # whether somebody was woken since this was said to be false
        self.has_woken = False
        # the calls that wait, by their transactions
        self.calls: Dict[int, Sleeper] = {}
        self._types, self._blocker = types, blocker
        self.bells: Dict[int, Bell] = {}
        self._engine = self._new_engine()

    def _new_engine(self) -> Engine:
        types = self._types
        return Engine(lambda x, call, other: (call, other) in types[x]._blocks())

    def take_gate_out(self) -> None:
        """Takes the gate out, for a test of what it is for."""
        self._engine.has_gate = False

    def is_empty(self) -> bool:
        """Whether nobody waits, and nobody looks on."""
        return not self.calls and not self.bells

    def is_bare(self) -> bool:
        """Whether nothing is left of those that waited."""
        return self.is_empty() and self._engine.is_bare()

    def waits_for(self, number: int) -> Optional[int]:
        """For whom a transaction waits, if it does."""
        edge = self._engine.edge(number)
        return None if edge is None else edge.to

    def at_gate(self, asker: Asker) -> Optional[int]:
        """Whom the gate puts before a call."""
        if self.is_torn:
            self.begin_anew()
        return self._engine.gate(asker)

    def begin_anew(self) -> None:
        """Nobody is known to wait any more: all are woken, look again and lie down again."""
        self.ring_all()
        has_gate, self._engine = self._engine.has_gate, self._new_engine()
        self._engine.has_gate = has_gate
        self.calls.clear()
        self.bells.clear()
        self.is_torn = False

    def ring_all(self) -> None:
        """Wakes all. It needs no lock: a copy is made in one step, and whoever comes later sees by itself why."""
        for sleeper in self.calls.copy().values():
            sleeper.wake()
        for bell in self.bells.copy().values():
            bell.ring()

    # ---- a call that waits

    @event
    def look_again(self, sleeper: Sleeper) -> None:
        """Who looks again goes on waiting: younger ones go after it."""
        self._look_again(sleeper)

    def _look_again(self, sleeper: Sleeper) -> None:
        asker = sleeper.asker
        if self.calls.get(asker.number) is sleeper:
            self._engine.again(asker.number)
        else:
            self.calls[asker.number] = sleeper
            self._engine.enter(asker)

    @event
    def lie_down(self, sleeper: Sleeper, blocker: int, by_gate: bool) -> None:
        """A call waits for another transaction: its thread is about to sleep until it is woken."""
        sleeper.is_asleep = True
        self._look_again(sleeper)
        if not by_gate:
            self._engine.busy(sleeper.asker.number, blocker)

    @event
    def leave(self, sleeper: Sleeper) -> None:
        """A call waits no more: it was answered, or is given up. A second time does nothing."""
        number = sleeper.asker.number
        # in memory its number may be that of another one of a later life by now
        if self.calls.get(number) is sleeper:
            self.calls.pop(number, None)
            self._engine.leave(number)

    # ---- what others do

    @event
    def ended(self, number: int, touched: Collection[int]) -> None:
        """A transaction has ended, which had touched some objects."""
        self._engine.ended(number, touched)
        self._end(number)

    def _end(self, number: int) -> None:
        """The transaction itself waits no more."""
        if number in self.calls:
            self.calls[number].wake()
            self.calls.pop(number, None)

    @event
    def took_back(self, number: int, touched: Collection[int]) -> None:
        """A transaction has taken back operations of its own."""
        self._engine.took_back(number, touched)

    @event
    def all_ended(self) -> None:
        """Each transaction has ended, with the store."""
        self._engine.epoch_ended()
        for number in list(self.calls):
            self._end(number)

    # ---- who waits for the end of a transaction

    @event
    def look_on(self, watch: Watch, number: Optional[int]) -> None:
        """Somebody waits for the end of this transaction, or of any."""
        watch.id = self._engine.look_on_any() if number is None else self._engine.look_on(number)
        self.bells[watch.id] = watch.bell

    @event
    def look_away(self, watch: Watch) -> None:
        """It isn't waited for any more. A second time does nothing."""
        # its number may be that of another one by now
        if self.bells.get(watch.id) is watch.bell:
            self.bells.pop(watch.id, None)
            self._engine.look_away(watch.id)

    # ---- what was decided

    def _settle(self) -> None:
        """Does what was decided."""
        while (decision := self._engine.next_decision()) is not None:
            self._do(decision)

    def _do(self, decision: Decision) -> None:
        if isinstance(decision, OnlookerFree):
            bell = self.bells.pop(decision.id, None)
            if bell is not None:
                bell.ring()
            return
        sleeper = self.calls.get(decision.asker.number if isinstance(decision, Ask) else decision.number)
        if sleeper is None or isinstance(decision, End):
            return  # it was woken as it ended
        if isinstance(decision, Ask):
            self._ask_for(sleeper)
            return
        if isinstance(decision, Abort):
            sleeper.waited_for = decision.waited_for
        sleeper.wake()
        self.has_woken = True

    def _ask_for(self, sleeper: Sleeper) -> None:
        """The store is asked for a sleeper. Who isn't asleep is about to ask by itself."""
        if not sleeper.is_asleep:
            return
        if self._blocker is None:
            sleeper.wake()
            return
        blocker = self._blocker(sleeper)
        if blocker is None:
            self._engine.may_go(sleeper.asker.number)
        else:
            self._engine.busy(sleeper.asker.number, blocker)

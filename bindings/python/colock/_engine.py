"""Who waits for whom at a store, and who may go first: events in, decisions out.

There are no threads here, no time and no store. A driver tells what happened, and drains the decisions under the lock of
its store. It is the crate `colock-waiting` once more, and bindings/schedules says what must come out of both.

A call that waits is behind one other transaction at most. The store says so where the other one has done something that
keeps it out. The gate of the object says so where the call would keep out an older one that waits there. So that nobody
looks through all that wait, they stand in lanes, by their calls: who goes behind a lane goes behind whoever is its
oldest. Where that one leaves, the others go behind the next one, and nothing is done about them.

A circle is broken as soon as it is there: one in it whom the gate keeps passes, else the youngest is the victim.
"""
from collections import deque
from typing import Collection, Deque, Iterable, Optional, Set

from ._decisions import Abort, Ask, Asker, Conflicts, Decision, End, OnlookerFree, Rank, Verdict, Wake
from ._edges import Edge, Graph, Waiter
from ._lanes import ASKING, CONDEMNED, STORE, State
from ._onlookers import Onlookers


class Engine:
    """All that wait at a store."""

    def __init__(self, blocks: Conflicts) -> None:
        """Nobody waits."""
        # tests of what the gate is for take it out
        self.has_gate = True
        self._blocks = blocks
        self._graph = Graph(blocks)
        # those that are to look at the gate, until the event is over
        self._looking: Set[Rank] = set()
        self._onlookers = Onlookers()
        self._decisions: Deque[Decision] = deque()

    # ---- what may be asked

    def is_empty(self) -> bool:
        """Whether nobody waits, and nobody looks on."""
        return not self._graph.waiters and self._onlookers.is_empty()

    def is_bare(self) -> bool:
        """Whether nothing is left of those that waited or looked on."""
        return self._graph.is_bare() and self._onlookers.is_empty()

    def waits(self, number: int) -> bool:
        """Whether a call of this transaction waits."""
        return number in self._graph.waiters

    def edge(self, number: int) -> Optional[Edge]:
        """For whom a transaction waits."""
        return self._graph.edge(number)

    def gate(self, asker: Asker) -> Optional[int]:
        """Whom the gate puts before a call, of a transaction that waits or doesn't."""
        ahead = self._graph.ahead(asker) if self.has_gate else None
        return None if ahead is None else ahead[0][1]

    def _behind(self, asker: Asker) -> Optional[State]:
        """What an asker is that waits, where the gate puts somebody before it."""
        return self._graph.behind(asker) if self.has_gate else None

    def next_decision(self) -> Optional[Decision]:
        """What is to be done next, if anything."""
        while self._decisions:
            decision = self._decisions.popleft()
            if not isinstance(decision, Ask):
                return decision
            waiter = self._graph.waiters.get(decision.asker.number)
            if waiter is not None and waiter.is_due:
                waiter.is_due = False
                return Ask(waiter.asker)
        return None

    # ---- the events of one that waits

    def enter(self, asker: Asker) -> None:
        """A call waits from now on. It is asked for, unless the gate puts somebody before it."""
        self._take_out(asker.number)
        # before it is the head of its lane, and is waited for
        behind = self._behind(asker)
        self._graph.add(asker)
        if behind is None:
            self._is_due(asker.number)
        else:
            self._graph.put(asker.number, behind)
            self._break_circle(asker.number)
        self._settle()

    def busy(self, number: int, blocker: int) -> None:
        """The store answered that somebody is in the way of a call that was asked for."""
        if self._is_asking(number):
            self._graph.put(number, State(STORE, blocker))
            self._break_circle(number)
            self._settle()

    def may_go(self, number: int) -> None:
        """The store answered that it would do a call that was asked for.

        It goes, unless the gate puts somebody before it by now.
        """
        if self._is_asking(number) and not self._goes_behind(number):
            self._graph.put(number, ASKING)
            self._decisions.append(Wake(number))

    def again(self, number: int) -> None:
        """The answer about a call is out of date, or the gate may put somebody before it by now: it looks again."""
        if self._is_asking(number):
            self._release(number)
            self._settle()

    def leave(self, number: int) -> None:
        """A call waits no more: it was answered, or is given up."""
        self._take_out(number)
        self._settle()

    def _is_asking(self, number: int) -> bool:
        waiter = self._graph.waiters.get(number)
        return waiter is not None and waiter.state == ASKING

    # ---- the events of others

    def ended(self, number: int, touched: Collection[int]) -> None:
        """A transaction has ended, which had touched some objects."""
        gone = self._take_out(number)
        if gone is not None:
            self._end(gone, Verdict.GONE)
        self.took_back(number, touched)
        self._free([*self._onlookers.take(number), *self._onlookers.take_of_any()])

    def took_back(self, number: int, touched: Collection[int]) -> None:
        """A transaction has taken something back, which had touched some objects.

        Whoever waits for it may be free by now, and whoever waits for others at such an object.
        """
        self._release_each(self._graph.freed(number, touched))
        self._settle()

    def all_again(self) -> None:
        """Any transaction may have ended: whoever isn't kept by the gate is asked for, and nobody looks on any more."""
        self._release_each(self._graph.all_stored())
        self._settle()
        self._free(self._onlookers.take_all())

    def epoch_ended(self) -> None:
        """The epoch has ended, and all that wait with it."""
        self._end_all(Verdict.EPOCH_ENDED)

    def lost(self) -> None:
        """The store is lost, and all that wait with it."""
        self._end_all(Verdict.LOST)

    def _end_all(self, verdict: Verdict) -> None:
        gone, self._graph = self._graph, Graph(self._blocks)
        for _, waiter in sorted(gone.waiters.items()):
            self._end(waiter, verdict)
        self._free(self._onlookers.take_all())

    def _end(self, gone: Waiter, verdict: Verdict) -> None:
        """Tells a waiter that was taken out why. A victim knows it already."""
        if gone.state != CONDEMNED:
            self._decisions.append(End(gone.asker.number, verdict))

    # ---- onlookers

    def look_on(self, number: int) -> int:
        """Somebody waits for the end of a transaction that is open."""
        return self._onlookers.add(number)

    def look_on_any(self) -> int:
        """Somebody waits for the end of any transaction. Each end is for one of them, in their order."""
        return self._onlookers.add_of_any()

    def looks_on(self, id: int) -> bool:
        """Whether the end that was waited for isn't there yet."""
        return self._onlookers.has(id)

    def look_away(self, id: int) -> None:
        """It isn't waited for any more."""
        self._onlookers.remove(id)

    def _free(self, ids: Iterable[int]) -> None:
        self._decisions.extend(OnlookerFree(id) for id in ids)

    # ---- what follows from events

    def _take_out(self, number: int) -> Optional[Waiter]:
        """Takes a waiter out. Whoever went behind it by the gate goes behind the next one of its lane, or looks again."""
        if not self.waits(number):
            return None
        asker = self._graph.waiters[number].asker
        was_head = self._graph.head(asker.object, asker.call) == number
        waiter = self._graph.remove(number)
        self._release_each(self._graph.behind_member(number))
        if was_head:
            self._release_each(self._graph.overtakers(asker.object, asker.call))
            head = self._graph.head(asker.object, asker.call)
            if head is not None:
                self._break_circle(head)
        return waiter

    def _release_each(self, ranks: Iterable[Rank]) -> None:
        for _, number in ranks:
            self._release(number)

    def _release(self, number: int) -> None:
        """Takes the edge of a waiter out, which is to look at the gate."""
        self._graph.put(number, ASKING)
        self._looking.add(self._graph.waiters[number].asker.rank)

    def _break_circle(self, number: int) -> None:
        """Breaks the circle through a transaction, if there is one.

        Who is in it by the gate, and holds what another one in it waits for, passes, the oldest of them; else the
        youngest is the victim.
        """
        circle = self._graph.circle(number)
        in_front = [*circle[1:], *circle[:1]]
        passing = [next.asker.rank for one, next in zip(circle, in_front) if next.state.is_by_gate and not one.state.is_by_gate]
        if passing:
            self._release(min(passing)[1])
        elif circle:
            self._condemn(max(circle, key=lambda waiter: waiter.asker.rank))

    def _condemn(self, victim: Waiter) -> None:
        if victim.state.how == STORE:
            number, waited_for = victim.asker.number, victim.state.of
            self._graph.put(number, CONDEMNED)
            self._decisions.append(Abort(number, waited_for))

    def _settle(self) -> None:
        """Those that are to look at the gate do so, the oldest first: each goes behind somebody, or is asked for."""
        if not self._looking:
            return
        looking, self._looking = sorted(self._looking), set()
        for _, number in looking:
            if self.waits(number) and not self._goes_behind(number):
                self._is_due(number)

    def _is_due(self, number: int) -> None:
        """The store is to be asked for a call."""
        waiter = self._graph.waiters[number]
        waiter.is_due = True
        self._decisions.append(Ask(waiter.asker))

    def _goes_behind(self, number: int) -> bool:
        """Puts a waiter behind whom the gate puts before it, if anyone."""
        behind = self._behind(self._graph.waiters[number].asker)
        if behind is None:
            return False
        self._graph.put(number, behind)
        return True

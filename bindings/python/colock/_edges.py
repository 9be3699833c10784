"""The waiters, and for whom each of them waits. There is no circle while it is walked."""
from typing import Collection, Dict, List, NamedTuple, Optional, Set, Tuple

from ._decisions import Asker, Conflicts, Rank
from ._lanes import ASKING, LANE, MEMBER, STORE, Lane, Lanes, State


class Edge(NamedTuple):
    """For whom a transaction waits, and whether the gate says so, and not the store."""

    to: int
    by_gate: bool


class Waiter:
    """A call that waits, and behind whom it is."""

    __slots__ = ("asker", "state", "is_due")

    def __init__(self, asker: Asker, state: State) -> None:
        self.asker, self.state = asker, state
        # whether the driver is to be told to ask for it
        self.is_due = False


class Graph:
    """All that wait, each with one edge at most."""

    def __init__(self, blocks: Conflicts) -> None:
        self.waiters: Dict[int, Waiter] = {}
        self._blocks = blocks
        self._lanes = Lanes()
        # those behind the store, by whom they are behind, and by the object; and those behind a member of a lane, by that
        self._blocked: Dict[int, Set[Rank]] = {}
        self._stored: Dict[int, Set[Rank]] = {}
        self._named: Dict[int, Set[Rank]] = {}

    # ---- the waiters

    def add(self, asker: Asker) -> None:
        """A call waits from now on."""
        self.waiters[asker.number] = Waiter(asker, ASKING)
        self._lanes.insert(asker, ASKING)

    def remove(self, number: int) -> Waiter:
        """A call waits no more."""
        waiter = self.waiters.pop(number)
        self._lanes.remove(waiter.asker, waiter.state)
        self._unlist(waiter.asker, waiter.state)
        return waiter

    def put(self, number: int, state: State) -> None:
        """Puts a waiter behind somebody, or behind nobody."""
        waiter = self.waiters[number]
        asker, former = waiter.asker, waiter.state
        waiter.state, waiter.is_due = state, False
        if state == former:
            return
        self._lanes.regroup(asker, former, state)
        self._unlist(asker, former)
        self._list(asker, state)

    def _list(self, asker: Asker, state: State) -> None:
        if state.how == STORE:
            self._blocked.setdefault(state.of, set()).add(asker.rank)
            self._stored.setdefault(asker.object, set()).add(asker.rank)
        elif state.how == LANE:
            self._lanes.follow(asker, state.of)
        elif state.how == MEMBER:
            self._named.setdefault(state.of, set()).add(asker.rank)

    def _unlist(self, asker: Asker, state: State) -> None:
        if state.how == STORE:
            _discard(self._blocked, state.of, asker.rank)
            _discard(self._stored, asker.object, asker.rank)
        elif state.how == LANE:
            self._lanes.unfollow(asker, state.of)
        elif state.how == MEMBER:
            _discard(self._named, state.of, asker.rank)

    def is_bare(self) -> bool:
        """Whether nothing is left of those that waited."""
        return self._lanes.is_empty() and not (self.waiters or self._blocked or self._stored or self._named)

    # ---- groups of waiters

    def head(self, object: int, call: int) -> Optional[int]:
        """The oldest of a lane."""
        lane = self._lanes.get(object, call)
        head = None if lane is None else lane.head()
        return None if head is None else head[1]

    def overtakers(self, object: int, call: int) -> List[Rank]:
        """Those behind a lane that aren't younger than its head."""
        lane = self._lanes.get(object, call)
        return [] if lane is None else lane.overtakers()

    def behind_member(self, number: int) -> List[Rank]:
        """Those behind a transaction as a member of its lane."""
        return list(self._named.get(number, ()))

    def freed(self, number: int, touched: Collection[int]) -> Set[Rank]:
        """Those behind the store who may be free where a transaction lets go of what it touched."""
        # it may have touched thousands of objects, and those who wait may be at a few, or the other way round
        few, many = (touched, self._stored) if len(touched) < len(self._stored) else (self._stored, touched)
        return set().union(self._blocked.get(number, ()), *(self._stored[x] for x in few if x in many))

    def all_stored(self) -> Set[Rank]:
        """All behind the store."""
        return set().union(*self._stored.values())

    # ---- walks

    def edge(self, number: int) -> Optional[Edge]:
        """For whom a transaction waits."""
        to = self._to(number)
        return None if to is None else Edge(to, self.waiters[number].state.is_by_gate)

    def _to(self, number: int) -> Optional[int]:
        waiter = self.waiters.get(number)
        if waiter is None or waiter.state.how < STORE:
            return None
        state = waiter.state
        return self.head(waiter.asker.object, state.of) if state.how == LANE else state.of

    def _waits(self, number: int, other: int) -> bool:
        """Whether a transaction waits for another one, directly or along edges."""
        at = self._to(number)
        while at is not None and at != other:
            at = self._to(at)
        return at is not None

    def circle(self, number: int) -> List[Waiter]:
        """Those in the circle through a transaction, if there is one. There is no circle elsewhere."""
        members: List[Waiter] = []
        at, to = number, self._to(number)
        while to is not None:
            members.append(self.waiters[at])
            if to == number:
                return members
            at, to = to, self._to(to)
        return []

    def ahead(self, asker: Asker) -> Optional[Tuple[Rank, State]]:
        """The oldest who waits at the object and whom this call would keep out, and what the asker is behind that one.

        It is older than the asker, and doesn't wait for it.
        """
        first: Optional[Tuple[Rank, State]] = None
        for call, lane in self._lanes.before(asker.object, asker.rank):
            # whoever is in this lane or a later one is younger
            if first is not None and first[0] < lane.members[0]:
                break
            if self._blocks(asker.object, asker.call, call):
                found = self._ahead_in(call, lane, asker)
                if found is not None and (first is None or found[0] < first[0]):
                    first = found
        return first

    def behind(self, asker: Asker) -> Optional[State]:
        """What an asker is that goes behind somebody.

        Where that may be the head of its own lane, it is: so it looks again as the head, and not each time that others
        let go.
        """
        own = self._lanes.get(asker.object, asker.call)
        head = None if own is None or not self._blocks(asker.object, asker.call, asker.call) else own.head()
        if head is not None and self._is_ahead(head, asker):
            return State(LANE, asker.call)
        ahead = self.ahead(asker)
        return None if ahead is None else ahead[1]

    def _is_ahead(self, rank: Rank, asker: Asker) -> bool:
        return rank < asker.rank and not self._waits(rank[1], asker.number)

    def _ahead_in(self, call: int, lane: Lane, asker: Asker) -> Optional[Tuple[Rank, State]]:
        head = lane.members[0]
        if self._is_ahead(head, asker):
            return head, State(LANE, call)
        member = min((rank for rank in lane.group_heads() if self._is_ahead(rank, asker)), default=None)
        return None if member is None else (member, State(MEMBER, member[1]))


def _discard(groups: Dict[int, Set[Rank]], key: int, rank: Rank) -> None:
    """Takes a rank out of a group, which goes with the last one."""
    group = groups[key]
    group.discard(rank)
    if not group:
        del groups[key]

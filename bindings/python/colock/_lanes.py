"""The lanes of the objects, which spare the gate a look at each who waits."""
from bisect import bisect_left, bisect_right
from typing import Dict, Iterator, List, NamedTuple, Optional, Tuple

from ._decisions import Asker, Rank


class State(NamedTuple):
    """Behind whom a call is: how, and the number of a transaction, or the call of a lane."""

    how: int
    of: int = 0

    @property
    def is_by_gate(self) -> bool:
        """Whether the gate says so, and not the store."""
        return self.how >= LANE


# Behind a transaction that has done something that keeps it out.
STORE = 2
# By the gate, behind whoever is the oldest of a lane at the object.
LANE = 3
# By the gate, behind one that isn't the oldest of its lane.
MEMBER = 4
# Behind nobody: the store is to be asked, or the call is to be made.
ASKING = State(0)
# Behind nobody: it is the victim of a circle, and its transaction is to end.
CONDEMNED = State(1)


def put_in(ranks: List[Rank], rank: Rank) -> None:
    """Puts a rank where it belongs in ascending order, once."""
    place = bisect_left(ranks, rank)
    if ranks[place : place + 1] != [rank]:
        ranks.insert(place, rank)


def take_out(ranks: List[Rank], rank: Rank) -> None:
    """Takes a rank out, if it is there."""
    place = bisect_left(ranks, rank)
    if ranks[place : place + 1] == [rank]:
        del ranks[place]


class Lane:
    """Those that wait at an object with calls of one place, and those that go behind the oldest of them."""

    __slots__ = ("members", "groups", "followers")

    def __init__(self) -> None:
        self.members: List[Rank] = []
        # the members, by whom they are behind
        self.groups: Dict[State, List[Rank]] = {}
        # each is younger than the head
        self.followers: List[Rank] = []

    def head(self) -> Optional[Rank]:
        """The oldest member."""
        return self.members[0] if self.members else None

    def group_heads(self) -> Iterator[Rank]:
        """The oldest of the members behind each one that is in front of members."""
        return (group[0] for group in self.groups.values())

    def join(self, rank: Rank, state: State) -> None:
        """A member is behind somebody."""
        put_in(self.groups.setdefault(state, []), rank)

    def part(self, rank: Rank, state: State) -> None:
        """A member isn't behind somebody any more."""
        group = self.groups.get(state, [])
        take_out(group, rank)
        if not group:
            self.groups.pop(state, None)

    def overtakers(self) -> List[Rank]:
        """The followers that aren't younger than the head, all where there is none."""
        head = self.head()
        return self.followers[: None if head is None else bisect_right(self.followers, head)]


class Lanes:
    """All lanes where somebody waits."""

    def __init__(self) -> None:
        self._lanes: Dict[Tuple[int, int], Lane] = {}
        # of each object the heads, the oldest first, each with the call of its lane
        self._heads: Dict[int, List[Tuple[Rank, int]]] = {}

    def get(self, object: int, call: int) -> Optional[Lane]:
        """The lane of a call at an object, where somebody is in it or behind it."""
        return self._lanes.get((object, call))

    def before(self, object: int, rank: Rank) -> Iterator[Tuple[int, Lane]]:
        """Those at an object whose heads are older than somebody, that of the oldest first."""
        for head, call in self._heads.get(object, ()):
            if head >= rank:
                return
            yield call, self._lanes[object, call]

    def insert(self, asker: Asker, state: State) -> None:
        """Somebody waits in the lane of its call."""
        lane = self._lanes.setdefault((asker.object, asker.call), Lane())
        former = lane.head()
        put_in(lane.members, asker.rank)
        lane.join(asker.rank, state)
        self._put_head(asker, former, lane.head())

    def remove(self, asker: Asker, state: State) -> None:
        """Somebody waits no more."""
        lane = self._lanes[asker.object, asker.call]
        former = lane.head()
        take_out(lane.members, asker.rank)
        lane.part(asker.rank, state)
        self._put_head(asker, former, lane.head())
        self._clear(asker.object, asker.call)

    def _put_head(self, asker: Asker, former: Optional[Rank], head: Optional[Rank]) -> None:
        """The lane of a call may have another head."""
        if former == head:
            return
        heads = self._heads.setdefault(asker.object, [])
        if former is not None:
            heads.remove((former, asker.call))
        if head is not None:
            heads.insert(bisect_left(heads, (head, asker.call)), (head, asker.call))
        if not heads:
            del self._heads[asker.object]

    def regroup(self, asker: Asker, former: State, state: State) -> None:
        """A member is behind somebody else."""
        lane = self._lanes[asker.object, asker.call]
        lane.part(asker.rank, former)
        lane.join(asker.rank, state)

    def follow(self, asker: Asker, call: int) -> None:
        """Somebody goes behind the head of a lane."""
        put_in(self._lanes.setdefault((asker.object, call), Lane()).followers, asker.rank)

    def unfollow(self, asker: Asker, call: int) -> None:
        """Somebody goes behind the head of a lane no more."""
        take_out(self._lanes[asker.object, call].followers, asker.rank)
        self._clear(asker.object, call)

    def _clear(self, object: int, call: int) -> None:
        """A lane goes where nobody is in it or behind it."""
        lane = self._lanes[object, call]
        if not lane.members and not lane.followers:
            del self._lanes[object, call]

    def is_empty(self) -> bool:
        """Whether nobody waits."""
        return not self._lanes and not self._heads

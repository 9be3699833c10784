"""Who asks, and what the driver of the engine of waiting is to do."""
import enum
from dataclasses import dataclass
from typing import Callable, Tuple, Union

# The place of a transaction in the order of ages: its age, and its number, which decides between equal ages.
Rank = Tuple[int, int]
# Whether a call at an object, once done, would keep another one out: the object, the call and the other one.
Conflicts = Callable[[int, int, int], bool]


class Asker:
    """A transaction with its call, which stays as it is."""

    __slots__ = ("number", "age", "object", "call", "rank")

    def __init__(self, number: int, age: int, object: int, call: int) -> None:
        # the less the age is, the older; and a call is for conflicts its place in its type
        self.number, self.age, self.object, self.call = number, age, object, call
        self.rank: Rank = (age, number)

    def __eq__(self, other: object) -> bool:
        return isinstance(other, Asker) and (self.rank, self.object, self.call) == (other.rank, other.object, other.call)

    def __repr__(self) -> str:
        return f"Asker(number={self.number}, age={self.age}, object={self.object}, call={self.call})"


class Verdict(enum.Enum):
    """Why a wait ends for good."""

    # the transaction itself has ended
    GONE = "gone"
    # the transaction is one of an epoch that has ended
    EPOCH_ENDED = "epoch"
    # the store is lost
    LOST = "lost"


@dataclass
class Ask:
    """The store is to be asked what this call would be answered now.

    The answer is told by `busy` or `may_go`, or the call is made, and `leave` is told.
    """

    __slots__ = ("asker",)
    asker: Asker


@dataclass
class Wake:
    """The sleeper is to be woken, and makes its call."""

    __slots__ = ("number",)
    number: int


@dataclass
class Abort:
    """The sleeper is the victim of a circle: its transaction is to be aborted."""

    __slots__ = ("number", "waited_for")
    number: int
    # for whom it waited
    waited_for: int


@dataclass
class End:
    """The sleeper waits no more, for good."""

    __slots__ = ("number", "verdict")
    number: int
    verdict: Verdict


@dataclass
class OnlookerFree:
    """What was looked on for is there."""

    __slots__ = ("id",)
    id: int


Decision = Union[Ask, Wake, Abort, End, OnlookerFree]

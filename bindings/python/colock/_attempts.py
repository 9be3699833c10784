"""What comes of a whole transaction in one call."""
from dataclasses import dataclass
from typing import Tuple, Union

from ._errors import Error
from ._replies import Busy, Illegal, Operation


@dataclass(frozen=True)
class Done:
    """It committed: `replies` has the operation of each call, in their order."""

    # for `match`; dataclasses have it only from Python 3.10 on
    __match_args__ = ("replies",)

    replies: Tuple[Operation, ...]

    def executed(self) -> Tuple[Operation, ...]:
        """The operations."""
        return self.replies


@dataclass(frozen=True)
class Ended:
    """One of its calls wasn't executed, and it aborted: nothing stays of it.

    `index` is the place of that call among those that were given, from 0. `how` says why: `Busy` with the transaction that
    was in the way, `Illegal`, or the error by which the call was refused, as `NoCall` or `NoMemory`.
    """

    __match_args__ = ("index", "how")

    index: int
    how: Union[Busy, Illegal, Error]

    def executed(self) -> Tuple[Operation, ...]:
        """Raises `BusyError`, `IllegalError`, or the error of the call."""
        if isinstance(self.how, Error):
            raise self.how
        return (self.how.executed(),)


# What comes of an attempt. Each has `executed`, and is matched by its class.
Attempt = Union[Done, Ended]

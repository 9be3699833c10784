"""What a call is answered."""
from dataclasses import dataclass
from typing import Optional, Union

from ._errors import BusyError, IllegalError, UnexpectedError
from ._operations import number_of


@dataclass(frozen=True, repr=False)
class Operation:
    """An operation that was executed, or seen by a peek, in words: its call and its reply.

    `place` is where its type lists it. It has an amount where its call may have any, and where a value was asked for,
    which is the amount.
    """

    # for `match`; dataclasses have it only from Python 3.10 on
    __match_args__ = ("call", "reply", "place", "amount")

    call: str
    reply: str
    place: int
    amount: Optional[int] = None

    @property
    def number(self) -> int:
        """The number by which a type knows it: the place, and with the amount n 256 * (n + 1) more."""
        return number_of(self.place, self.amount)

    def executed(self) -> "Operation":
        """The operation itself."""
        return self

    def expected(self, reply: str) -> "Operation":
        """The operation, where this is its reply. Raises `UnexpectedError`."""
        if self.reply != reply:
            raise UnexpectedError(self.call, self.reply)
        return self

    def __repr__(self) -> str:
        amount = "" if self.amount is None else f", amount={self.amount}"
        return f"Operation({self.call!r}, {self.reply!r}, place={self.place}{amount})"


@dataclass(frozen=True, repr=False)
class Busy:
    """What another transaction, the blocker, did is in its way. Nothing was executed.

    Where somebody older waits at the object the blocker may be that one, who is first in turn. `life` is None, but where the
    blocker began in another life than the transaction that asks, of an attempt than the present one: then it is that life.
    """

    __match_args__ = ("blocker", "life")

    blocker: int
    life: Optional[int] = None

    def executed(self) -> Operation:
        """Raises `BusyError`."""
        raise BusyError(self.blocker, self.life)

    def expected(self, reply: str) -> Operation:
        """Raises `BusyError`."""
        raise BusyError(self.blocker, self.life)

    def __repr__(self) -> str:
        return f"Busy(blocker={self.blocker})" if self.life is None else f"Busy(blocker={self.blocker}, life={self.life})"


@dataclass(frozen=True)
class Illegal:
    """No operation of the call is legal. Nothing was executed."""

    __match_args__ = ()

    def executed(self) -> Operation:
        """Raises `IllegalError`."""
        raise IllegalError("no operation of the call is legal")

    def expected(self, reply: str) -> Operation:
        """Raises `IllegalError`."""
        raise IllegalError("no operation of the call is legal")


# What a call is answered. Each has `executed` and `expected`, and is matched by its class.
Reply = Union[Operation, Busy, Illegal]
# The same for `isinstance`, which takes no union before Python 3.10.
REPLIES = (Operation, Busy, Illegal)

"""The events of a store."""
import enum
from typing import Callable, NamedTuple, Optional, Sequence

from . import _library
from ._operations import number_of, parts_of


class EventKind(enum.IntEnum):
    """What happened."""

    BEGIN = 0
    OP = 1
    BUSY = 2
    NONE = 3
    COMMIT = 4
    ABORT = 5
    ROLLBACK = 6


_OF_OBJECTS = (EventKind.OP, EventKind.BUSY, EventKind.NONE)
_WITH_OTHER = (EventKind.BUSY, EventKind.ROLLBACK)
_KINDS = {kind.name.lower(): kind for kind in EventKind}


class Event(NamedTuple):
    """An event, whose text is its line in a history.

    `op` is the place of the operation of an `OP`, whose `amount` is None where it has none, and the place of the call of a
    `BUSY` or `NONE`. `other` is the blocker of a `BUSY`, and the number of operations that a `ROLLBACK` took back. What a
    kind doesn't have is 0.
    """

    kind: EventKind
    worker: int
    transaction: int
    object: int = 0
    op: int = 0
    other: int = 0
    amount: Optional[int] = None

    def __str__(self) -> str:
        words = [self.kind.name.lower(), self.worker, self.transaction]
        if self.kind in _OF_OBJECTS:
            words += [self.object, self.op]
        if self.amount is not None:
            words.append(self.amount)
        if self.kind in _WITH_OTHER:
            words.append(self.other)
        return " ".join(map(str, words))


def event_of(words: _library.Event, number: Callable[[int], int]) -> Event:
    """The event as it came over, with the numbers of its transactions out of those that the library gave them."""
    place, amount = parts_of(words.op)
    kind = EventKind(words.kind)
    other = number(words.other) if kind is EventKind.BUSY else words.other
    return Event(kind, words.worker, number(words.transaction), words.object, place, other, amount)


def read_event(words: Sequence[str]) -> Event:
    """The event of the words of a line in a history. Raises `ValueError` where it isn't one."""
    kind = _KINDS.get(words[0])
    has_amount = kind is EventKind.OP and len(words) == 6
    if kind is None or len(words) != 3 + 2 * (kind in _OF_OBJECTS) + (kind in _WITH_OTHER) + has_amount:
        raise ValueError(f"{' '.join(words)!r} isn't an event")
    worker, transaction, *rest = map(int, words[1:])
    amount = rest.pop() if has_amount else None
    other = rest.pop() if kind in _WITH_OTHER else 0
    x, op = rest if kind in _OF_OBJECTS else (0, 0)
    return Event(kind, worker, transaction, x, op, other, amount)


def words_of(event: Event, in_library: Callable[[int], int]) -> _library.Event:
    """The event as it goes over, with the numbers of its transactions in the library."""
    unsigned = _library.unsigned
    transaction, other = unsigned("the transaction", event.transaction, 64), unsigned("the other number", event.other, 64)
    amount = None if event.amount is None else unsigned("the amount", event.amount, 32)
    return _library.Event(
        transaction=in_library(transaction),
        other=in_library(other) if event.kind == EventKind.BUSY else other,
        object=unsigned("the object", event.object, 32),
        op=number_of(unsigned("the place of the operation", event.op, 8), amount),
        kind=unsigned("the kind", event.kind, 32),
        worker=unsigned("the worker", event.worker, 32),
    )

"""The calls of a type by their names and numbers, also those that may have any amount.

A call has the number of the first operation that has its name. What a type lists is at places from 0 on. At a place that
has no operation without an amount there is one for each amount: of `take any` those from 1 to the greatest that no other
line lists, whose calls are take:1, take:2 and so on; of `value` those from 0 on, which are its replies.
"""
import re
from typing import Dict, List, NamedTuple, Optional, Sequence, Tuple

from ._operations import PLACES, number_of, parts_of
from ._replies import Illegal, Operation, Reply

ANY = "any"
# How many operations a type keeps, so that they needn't be made again.
MOST_KEPT = 4096
NUMBER = re.compile(r"0|[1-9][0-9]{0,9}")
ILLEGAL = Illegal()


class Row(NamedTuple):
    """What a type lists at a place."""

    call: str
    reply: str
    # the first place of its call
    first: int
    # whether its operations have amounts, and what comes before an amount in the names of their calls
    has_amounts: bool
    stem: Optional[str]

    @property
    def has_values(self) -> bool:
        """Whether its operations have values, which are replies."""
        return self.has_amounts and self.stem is None


class Calls:
    """The calls of a type."""

    def __init__(self, operations: Sequence[Tuple[str, str]], with_amounts: Sequence[bool], greatest: int) -> None:
        """Those of the operations that are listed. `with_amounts` says at which places they have amounts."""
        self._greatest = greatest
        first: Dict[str, int] = {}
        for place, (call, _) in enumerate(operations):
            first.setdefault(call, place)
        self.rows = [_row(call, reply, first[call], has) for (call, reply), has in zip(operations, with_amounts)]
        # the listed calls; `value` is that of the value 0
        self._listed = {call: number_of(place, 0 if self.rows[place].has_values else None) for call, place in first.items() if self.rows[place].stem is None}
        self._names = {number: name for name, number in self._listed.items()}
        # what comes before an amount, and the first place
        self._any = {row.stem: row.first for row in self.rows if row.stem is not None}
        self.replies = _Replies(self)
        # by the number of a listed call what its answers say
        self._answers = {number: self._answers_of(number) for number in self._names if number < PLACES}

    @property
    def names(self) -> List[str]:
        """The names of the calls that are listed."""
        return list(self._listed)

    def number(self, name: str) -> Optional[int]:
        """The number of the call of this name; None where there is none."""
        number = self._listed.get(name)
        if number is not None:
            return number
        for stem, first in self._any.items():
            amount = number_in(name[len(stem) :]) if name.startswith(stem) else None
            if amount is not None and 1 <= amount <= self._greatest:
                return number_of(first, amount)
        return None

    def name(self, number: int) -> Optional[str]:
        """The name of the call of this number; None where there is none."""
        name = self._names.get(number)
        if name is not None or not self._any:
            return name
        place, amount = parts_of(number)
        stem = self.rows[place].stem if place < len(self.rows) else None
        name = None if stem is None or amount is None else f"{stem}{amount}"
        return name if name is not None and self.number(name) == number else None

    def operation(self, number: int) -> Operation:
        """The operation of this number, which the type has."""
        place, amount = parts_of(number)
        row = self.rows[place]
        reply = str(amount) if row.has_values else row.reply
        return Operation(row.call if row.stem is None else f"{row.stem}{amount}", reply, place, amount)

    def replied(self, call: int, reply: str) -> Optional[Operation]:
        """The operation of a call that has this reply; None where there is none."""
        first, amount = parts_of(call)
        for place, row in enumerate(self.rows):
            if row.first != first:
                continue
            if row.has_values:
                value = number_in(reply)
                if value is not None and value <= self._greatest:
                    return Operation(row.call, reply, place, value)
            elif row.reply == reply:
                return self.operation(number_of(place, amount))
        return None

    def found(self, names: Tuple[str, ...]) -> Optional[Operation]:
        """The operation of a call and a reply; None where there is none."""
        call = self.number(names[0]) if len(names) == 2 else None
        return None if call is None else self.replied(call, names[1])

    def answered(self, call: int, answer: bytes) -> Optional[Reply]:
        """What a line says that answers a call; None where nothing was executed and something was in the way, or it is none."""
        answers = self._answers.get(call)
        if answers is not None:
            return answers.get(answer)
        if answer == b"none":
            return ILLEGAL
        return self.replied(call, answer[6:].decode("ascii", "replace")) if answer.startswith(b"reply ") else None

    def _answers_of(self, call: int) -> Dict[bytes, Reply]:
        """The same for each answer to a call that is listed."""
        replies = [Operation(row.call, row.reply, place) for place, row in enumerate(self.rows) if row.first == call]
        return {b"none": ILLEGAL, **{b"reply " + of.reply.encode("ascii"): of for of in replies}}


class _Replies(Dict[int, Operation]):
    """The operations by their numbers: those without an amount are made once, and of the others the first that are met."""

    def __init__(self, calls: Calls) -> None:
        super().__init__((place, Operation(row.call, row.reply, place)) for place, row in enumerate(calls.rows) if not row.has_amounts)
        self._calls = calls

    def __missing__(self, number: int) -> Operation:
        operation = self._calls.operation(number)
        if len(self) < MOST_KEPT:
            self[number] = operation
        return operation


def _row(call: str, reply: str, first: int, has_amounts: bool) -> Row:
    stem = call[: -len(ANY)] if has_amounts and call.endswith(ANY) else None
    return Row(call, reply, first, has_amounts, stem)


def number_in(word: str) -> Optional[int]:
    """A number as names have it: in digits, without a zero before others."""
    return int(word) if NUMBER.fullmatch(word) else None

"""Transactions that are prepared: nothing but a decision under their keys ends them."""
import re
from typing import TYPE_CHECKING, Collection, NamedTuple, Optional, Tuple
from weakref import ref

from ._objects import ObjectRef

if TYPE_CHECKING:
    from ._transaction import Transaction

# A line of an answer that tells one: its key, its life and number, until when, and its objects.
LINE = re.compile(r"([a-zA-Z0-9_:.-]{1,64}) ([0-9]+\.[0-9]+) ([0-9]+)((?: [0-9]+)*)")


class PreparedTransaction(NamedTuple):
    """A transaction that is prepared, and not decided."""

    key: str
    id: str
    """The life that began it and its number, `S.N`, as of `Transaction.id`."""
    until: int
    """The number that its `prepare` was given, which the store only keeps."""
    objects: Tuple[ObjectRef, ...]
    """The objects at which it holds operations, ascending: each by its name, where it has one, else by its number."""


class Undecided(NamedTuple):
    """What a client knows of a transaction that it prepared, until that is decided."""

    life: int
    number: int
    worker: int
    until: int
    # those at which it holds operations, or did so
    objects: Collection[int]
    # who has it, as long as anybody does
    holder: "ref[Transaction]"


class Told(NamedTuple):
    """What a line tells, with the objects by their numbers."""

    key: str
    id: str
    until: int
    objects: Tuple[int, ...]


def told_in(line: bytes) -> Optional[Told]:
    """What a line tells of a transaction that is prepared; None where it is none."""
    words = LINE.fullmatch(line.decode("ascii", "replace"))
    return None if words is None else Told(words[1], words[2], int(words[3]), tuple(map(int, words[4].split())))

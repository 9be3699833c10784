"""What became of a transaction, by the history of its epoch."""
import os
import re
from typing import Iterable, List, NamedTuple, Optional, Sequence, Set, Tuple

from ._events import Event, EventKind

ENDS = {EventKind.COMMIT: True, EventKind.ABORT: False}
# The begins and the ends in the lines of events of a store in a file.
BEGUN, ENDED = (re.compile(rb"^(?:%s) 0 ([0-9]+)$" % kinds, re.MULTILINE) for kinds in (b"begin", b"commit|abort"))


def read_id(id: str) -> Tuple[int, int]:
    """The life and the number of the text `S.N`. Raises `ValueError` where it isn't one."""
    life, point, number = id.partition(".")
    if not (point and life.isdecimal() and number.isdecimal() and id.isascii()):
        raise ValueError(f"{id!r} isn't the id of a transaction")
    return int(life), int(number)


def outcome_among(events: Iterable[Event], number: int) -> Optional[bool]:
    """Whether a transaction was committed, True, or aborted, False; None where no event says."""
    return next((ENDS[event.kind] for event in events if event.transaction == number and event.kind in ENDS), None)


def outcome_in(lines: Optional[Sequence[bytes]], number: int) -> Optional[bool]:
    """The same by the lines of events of a store in a file, which are worker 0's. There may be a million of them."""
    if lines is None:
        return None
    for kind, is_committed in ENDS.items():
        if f"{kind.name.lower()} 0 {number}".encode("ascii") in lines:
            return is_committed
    return None


def _begins(number: int) -> bytes:
    """The line of the begin of a transaction of a store in a file."""
    return f"begin 0 {number}".encode("ascii")


def open_in(lines: Sequence[bytes]) -> List[int]:
    """The numbers of the transactions that are open behind these events, ascending."""
    text = b"\n".join(lines)
    return sorted(set(map(int, BEGUN.findall(text))) - set(map(int, ENDED.findall(text))))


class Opened(NamedTuple):
    """What the program found as it opened a store: how many events, and how many aborts it added."""

    found: int
    aborted: int

    def has(self, lines: Sequence[bytes], number: int) -> bool:
        """Whether a transaction is among what was found, by the lines of the epoch."""
        return _begins(number) in lines[: self.found]


class History(NamedTuple):
    """The lines of the events of an epoch, and its last life; of the present epoch the present life."""

    life: int
    lines: List[bytes]

    def number_after(self, number: int, lines: Optional[List[bytes]], may_go_on: bool) -> Optional[int]:
        """The number in the next epoch, of which these are the lines, of one that is open at the end of this one.

        It is how many of those that are open there have a smaller number: an epoch begins with the begins of all that went over. None
        where that isn't certain. Where the program stopped between archive and new epoch the same epoch `may_go_on` in the
        next opening, with the same events and numbers.
        """
        numbers = open_in(self.lines)
        if lines is None or number not in numbers or lines[: len(numbers)] != list(map(_begins, range(len(numbers)))):
            return None
        place = numbers.index(number)
        goes_on = may_go_on and lines[: len(self.lines)] == self.lines
        return None if goes_on and place != number else place


def held_at(events: Iterable[Event], number: int) -> Optional[Set[int]]:
    """The objects at which a transaction holds operations; None where its begin isn't among the events."""
    objects: Optional[List[int]] = None
    for event in events:
        if event.transaction != number:
            continue
        if event.kind is EventKind.BEGIN:
            objects = []
        elif event.kind is EventKind.OP and objects is not None:
            objects.append(event.object)
        elif event.kind is EventKind.ROLLBACK and objects is not None:
            del objects[-event.other :]
    return None if objects is None else set(objects)


class Archive(NamedTuple):
    """The histories that a store keeps of epochs that ended."""

    folder: str
    # the store's id, by which it knows its own where several keep theirs in the folder
    store: str

    def _path(self, life: int) -> str:
        """Where the history is of the epoch whose last life this was."""
        return os.path.join(self.folder, f"{self.store}-{life}.history")

    def has(self, life: int) -> bool:
        """Whether there is a history of this life."""
        return os.path.exists(self._path(life))

    def lines(self, life: int) -> Optional[List[bytes]]:
        """The lines of events of the epoch whose last life this was; None where the archive hasn't all of them.

        Raises `OSError` where the file can't be read.
        """
        try:
            with open(self._path(life), "rb") as file:
                lines = file.read().split(b"\n")
        except FileNotFoundError:
            return None
        if b"end" not in lines:
            return None
        first = next(place for place, line in enumerate(lines) if not line.startswith(b"object"))
        return lines[first : lines.index(b"end")]

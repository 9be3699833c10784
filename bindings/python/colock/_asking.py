"""What is asked of a program that serves a store, and changes nothing."""
import re
from abc import abstractmethod
from typing import Callable, Dict, List, NoReturn, Optional, Sequence, Set, Tuple
from typing import Type as Class

from ._backend import Backend, Pairs, Steps
from ._calls import Calls
from ._connection import Connection, Slot
from ._errors import (
    BadRollback,
    Changes,
    ClosedError,
    ConnectionLost,
    EpochEndedError,
    Error,
    HistoryFullError,
    IllegalError,
    NoCall,
    NoMemory,
    NoObject,
    TimedOut,
    TooManyOpenError,
)
from ._events import Event, read_event
from ._keys import PREPARED, UNKNOWN, Aborted, Committed, Outcome
from ._objects import Given
from ._outcomes import Archive, History, outcome_in
from ._prepared import PreparedTransaction, told_in
from ._reads import Moment, Seen, States
from ._replies import Operation

# A request for events is answered with at most this many.
MOST_TOLD = 65_536
MOST_EVENTS = 1 << 32
REFUSALS: Dict[str, Class[Error]] = {
    "NotOpen": EpochEndedError,
    "NoObject": NoObject,
    "NoCall": NoCall,
    "Changes": Changes,
    "TooManyOpen": TooManyOpenError,
    "HistoryFull": HistoryFullError,
    "NoMemory": NoMemory,
    "BadRollback": BadRollback,
}
STATS = re.compile(rb"ok events ([0-9]+) begun [0-9]+ open ([0-9]+) prepared [0-9]+")
# What is seen: at which moment, and a word for each that was asked for; or of which of them no operation is legal.
SEEN = re.compile(r"seen ([0-9]+)\.([0-9]+)((?: [^ ]+)*)")
NONE = re.compile(rb"none ([0-9]+)")
# What became of a key: with a word for each reply where it committed.
OUTCOME = re.compile(r"committed((?: [a-z0-9_:-]{1,32})*)")
OTHER_OUTCOMES: Dict[bytes, Outcome] = {b"aborted": Aborted(), b"prepared": PREPARED, b"unknown": UNKNOWN}
# A request has at most this many calls, or objects; and how often several of them are asked that aren't of one moment.
MOST_ASKED = 64
MOST_TRIES = 10


class Asking(Backend):
    """Questions over a connection, which is asked under the lock. Answers are awaited without it."""

    def __init__(self, connection: Connection, life: int, archive: Optional[Archive]) -> None:
        """The store that was opened in this life."""
        self._connection, self._is_closed, self._has_finished = connection, False, False
        super().__init__()
        self.life = self._first_life = life
        self._archive = archive
        self._found = connection.found()
        self._calls: List[Calls] = []
        self.put, self.answer = connection.put, connection.wait

    def know(self, first: int, added: List[Given]) -> None:
        super().know(first, added)
        self._calls[first:] = [of._calls for of, _ in added]

    def is_lost(self) -> bool:
        return self._is_closed or self._connection.lost is not None

    @abstractmethod
    def _is_in(self, life: int) -> None:
        """The store was in this life."""

    # ---- requests

    def _check_connection(self) -> None:
        if self._is_closed:
            raise ClosedError(ClosedError.__doc__)
        if self._connection.lost is not None:
            raise ConnectionLost(self._connection.lost)

    def _request(self, words: str, then: Callable[[bytes], object], cut: Optional[Callable[[], None]] = None) -> Slot:
        """A request, with what is made of its answer."""
        slot = self._connection.made(words)
        slot.then, slot.cut = then, cut
        return slot

    def _break(self, answer: bytes) -> NoReturn:
        """The answer is none."""
        self._connection.lose(f"the program answered {answer[:80]!r}")
        raise ConnectionLost(self._connection.lost or "")

    def _refuse(self, answer: bytes) -> NoReturn:
        """Raises what an answer says that isn't what was asked for."""
        words = answer.decode("ascii", "replace").split(" ")
        kind = REFUSALS.get(words[1]) if words[0] == "refused" and len(words) == 2 else None
        if kind is None:
            self._break(answer)
        raise kind(kind.__doc__)

    def _named(self, answer: bytes, name: bytes) -> Tuple[int, int]:
        """The life and the number of a transaction."""
        life, _, number = name.partition(b".")
        if not (life.isdigit() and number.isdigit()):
            self._break(answer)
        return int(life), int(number)

    # ---- the store

    def call_number(self, x: int, name: str) -> int:
        self._check_connection()
        if x >= len(self._calls):
            raise NoObject(NoObject.__doc__)
        call = self._calls[x].number(name)
        if call is None:
            raise NoCall(NoCall.__doc__)
        return call

    def kept(self, x: int) -> Slot:
        self._check_connection()
        if x >= len(self.types):
            raise NoObject(NoObject.__doc__)
        return self._request(f"kept {x}", self._state_in)

    def _state_in(self, answer: bytes) -> int:
        if not (answer.startswith(b"ok ") and answer[3:].isdigit()):
            self._refuse(answer)
        return int(answer[3:])

    def _counts_in(self, answer: bytes) -> Tuple[int, int]:
        """How many events there are, and how many transactions are open."""
        told = STATS.fullmatch(answer)
        if told is None:
            self._refuse(answer)
        return int(told[1]), int(told[2])

    def open_count(self) -> Slot:
        self._check_connection()
        return self._request("stats", lambda answer: self._counts_in(answer)[1])

    def event_count(self) -> Slot:
        self._check_connection()
        return self._request("stats", lambda answer: self._counts_in(answer)[0])

    def events(self, start: int) -> Steps[Callable[[], List[Event]]]:
        lines: Optional[List[bytes]] = None
        while lines is None:
            lines = yield from self._event_lines(start)
        told = lines
        return lambda: self._read_events(told)

    def _read_events(self, lines: List[bytes]) -> List[Event]:
        """The events of these lines."""
        try:
            return [read_event(line.decode("ascii").split(" ")) for line in lines]
        except ValueError as error:
            self._connection.lose(f"the program told what is no event: {error}")
            raise ConnectionLost(self._connection.lost or "") from error

    def _event_lines(self, start: int) -> Steps[Optional[List[bytes]]]:
        """The lines of the events from a place on; None where another epoch has begun meanwhile."""
        lines: List[bytes] = []
        life = self.life
        while start + len(lines) < MOST_EVENTS:
            # it may have been closed while an answer was awaited, and then the pipe's number may be a stranger's
            self._check_connection()
            slot = self._connection.send(f"events {start + len(lines)} {MOST_TOLD}", True)
            answer = yield from self.answer_to(slot)
            if answer != b"ok":
                self._refuse(answer)
            lines += slot.lines
            if len(slot.lines) < MOST_TOLD:
                break
        return lines if self.life == life else None

    def _lines_of_this_life(self, start: int) -> Steps[Optional[List[bytes]]]:
        """The lines of the events from a place on; None where the present epoch isn't that of the life that is known.

        In another one the same numbers are others'.
        """
        life = self.life
        lines = yield from self._event_lines(start)
        return lines if (yield from self.moment()).epoch == life else None

    def committed(self, life: int, number: int) -> Steps[Optional[bool]]:
        self._check_connection()
        # by which the present life is known
        yield from self.moment()
        present = self.life
        if life == present:
            return (yield from self._of_this_life(number))
        if life + 1 == self._first_life:
            return (yield from self._of_the_life_before(number, present))
        # An archived history is named by the store and the last life of its epoch. Of an earlier life of the epoch it
        # isn't certain: what was lost by a crash left its number to a later transaction. So only the file of this very
        # life says it.
        lines = self._archived(life)
        return None if lines is None else (yield from self._since(History(life, lines), number, present))

    def _of_this_life(self, number: int) -> Steps[Optional[bool]]:
        """By the events of this life: those after what was found and aborted as the store was opened."""
        if self.life != self._first_life:
            return outcome_in((yield from self._lines_of_this_life(0)), number)
        return None if self._found is None else outcome_in((yield from self._lines_of_this_life(sum(self._found))), number)

    def _of_the_life_before(self, number: int, present: int) -> Steps[Optional[bool]]:
        """By the events that were found when this opening began, in the life that followed.

        Each opening and each new epoch is a life of its own, so the file was last in that life, and all that was
        durable of it was found. What isn't among them is gone for ever, and its number may be another's now. What was open was
        aborted then, but for what was prepared, which ends later.
        """
        if self._found is None:
            return None
        # none of them are asked for where there are none
        lines = [] if self._found == (0, 0) else (yield from self._lines_in(self._first_life, present))
        if lines is None or len(lines) < self._found.found:
            return None
        return (yield from self._since(History(self._first_life, lines), number, present)) if self._found.has(lines, number) else False

    def _since(self, history: History, number: int, present: int) -> Steps[Optional[bool]]:
        """By the history of an epoch in which it has this number, or by those of the epochs into which it went over."""
        while history.life != present and outcome_in(history.lines, number) is None:
            life = self._life_after(history.life, present)
            lines = None if life is None else (yield from self._lines_in(life, present))
            # no epoch goes on that was archived in this opening
            place = history.number_after(number, lines, history.life < self._first_life)
            if life is None or lines is None or place is None:
                return None
            history, number = History(life, lines), place
        return outcome_in(history.lines, number)

    def _life_after(self, life: int, present: int) -> Optional[int]:
        """The last life of the epoch that followed one that ended in this life. None where an epoch may be missing.

        An epoch begins in the next life, and each opening in it is one more. One that isn't in the archive ended in an opening
        without it, and what was archived later had an opening of its own. So where there was one opening none is missing.
        """
        if life + 1 == present or (self._archive is not None and self._archive.has(life + 1)):
            return life + 1
        # each life after that of this opening is an epoch
        return life + 2 if life + 1 < self._first_life else None

    def _lines_in(self, life: int, present: int) -> Steps[Optional[List[bytes]]]:
        """The lines of the events of the epoch that ended in this life, or of the present one."""
        return (yield from self._lines_of_this_life(0)) if life == present else self._archived(life)

    def _archived(self, life: int) -> Optional[List[bytes]]:
        """The lines of the events of the epoch whose last life this was, by the archive, if there is one."""
        return None if self._archive is None else self._archive.lines(life)

    def outcome(self, key: str) -> Slot:
        self._check_connection()
        return self._request(f"outcome {key}", self._outcome_in)

    def _outcome_in(self, answer: bytes) -> Outcome:
        committed = OUTCOME.fullmatch(answer.decode("ascii", "replace"))
        if committed is not None:
            return Committed(tuple(committed[1].split()))
        other = OTHER_OUTCOMES.get(answer)
        if other is None:
            self._refuse(answer)
        return other

    def prepared(self) -> Steps[List[PreparedTransaction]]:
        self._check_connection()
        slot = self._connection.send("prepared", True)
        answer = yield from self.answer_to(slot)
        if answer != b"ok":
            self._refuse(answer)
        return list(map(self._prepared_in, slot.lines))

    def _prepared_in(self, line: bytes) -> PreparedTransaction:
        """What a line tells of a transaction that is prepared."""
        told = told_in(line)
        if told is None:
            self._break(line)
        return PreparedTransaction(told.key, told.id, told.until, tuple(map(self.name_of_object, told.objects)))

    # ---- what is committed

    def moment(self) -> Steps[Moment]:
        return (yield from self._seen("committed", []))[0]

    def peek(self, pairs: Pairs) -> Steps[Seen]:
        self._check_connection()
        calls = self.calls_at(pairs)
        at, words = yield from self._seen("peek", [f"{x} {name}" for x, _, name in calls])
        return Seen(at, tuple(self._peeked(x, call, word) for (x, call, _), word in zip(calls, words)))

    def _peeked(self, x: int, call: int, reply: str) -> Operation:
        """The operation of a call that has this reply."""
        operation = self._calls[x].replied(call, reply)
        if operation is None:
            self._break(reply.encode("ascii", "replace"))
        return operation

    def states(self, objects: Sequence[int]) -> Steps[States]:
        self._check_connection()
        if any(x >= len(self.types) for x in objects):
            raise NoObject(NoObject.__doc__)
        at, words = yield from self._seen("committed", list(map(str, objects)))
        return States(at, tuple(map(self._state_of, words)))

    def _state_of(self, word: str) -> int:
        if not word.isdigit():
            self._break(word.encode("ascii", "replace"))
        return int(word)

    def snapshot(self) -> Steps[States]:
        return (yield from self.states(range(len(self.types))))

    def _seen(self, verb: str, asked: List[str]) -> Steps[Tuple[Moment, List[str]]]:
        """A word for each that is asked for, all of one moment.

        Where there are many the requests are put in a row, and nothing of this client comes between. Only an epoch may end
        there, and then all is asked anew. Raises `TimedOut` where that happens again and again.
        """
        if not asked:
            return (yield from self._seen("committed", ["0"]))[0], []
        for _ in range(MOST_TRIES):
            self._check_connection()
            parts = [asked[first : first + MOST_ASKED] for first in range(0, len(asked), MOST_ASKED)]
            slots = [self._connection.send(" ".join([verb, *part])) for part in parts]
            moments: Set[Moment] = set()
            words: List[str] = []
            for slot, part in zip(slots, parts):
                at, told = self._seen_in((yield from self.answer_to(slot)), len(words), len(part))
                self._is_in(at.epoch)
                moments.add(at)
                words += told
            if len(moments) == 1:
                return moments.pop(), words
        raise TimedOut("an epoch ended each time that was asked, so not all was of one moment")

    def _seen_in(self, answer: bytes, first: int, count: int) -> Tuple[Moment, List[str]]:
        """What an answer says was seen: so many words, those of what was asked for from this place on."""
        seen = SEEN.fullmatch(answer.decode("ascii", "replace"))
        if seen is not None and len(words := seen[3].split()) == count:
            return Moment(int(seen[1]), int(seen[2])), words
        none = NONE.fullmatch(answer)
        if none is not None and int(none[1]) < count:
            raise IllegalError.at(first + int(none[1]))
        self._refuse(answer)

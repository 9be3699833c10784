"""A durable store, over a child process `colock serve`."""
import re
import threading
import time
from contextlib import suppress
from functools import partial
from typing import TYPE_CHECKING, Callable, Collection, Dict, List, NoReturn, Optional, Sequence, Tuple, Union

from ._asking import MOST_ASKED, MOST_EVENTS, REFUSALS, Asking
from ._attempts import Attempt, Done, Ended
from ._backend import NOBODY, Finish, Pairs
from ._connection import Connection, Slot
from ._errors import (
    BadRollback,
    CannotExtend,
    ClosedError,
    ConnectionLost,
    EpochEndedError,
    Error,
    InMemoryOnly,
    NoCall,
    NoObject,
    NotOpenError,
    OtherCalls,
    OutcomeUnknown,
    PreparedError,
    TimedOut,
)
from ._extensions import Extending, Work, check_addition, refuse_objects
from ._keys import refusal_of
from ._object_files import room_for_words, write_objects
from ._objects import Given
from ._outcomes import Archive
from ._replies import Busy, Illegal, Operation, Reply

if TYPE_CHECKING:
    from ._transaction import Transaction

# The numbers of the transactions of a life are below.
LIVES = 1 << 32
# The most bytes of a request, and how long it is waited before one is made again that was answered `busy drain`.
LONGEST_REQUEST = 4_096
SECONDS_OF_DRAIN = 0.01
# That a whole transaction is done, with the reply of each call.
DONE = re.compile(r"done((?: [a-z0-9_:-]{1,32})*)")


class Child(Asking):
    """Transactions behind a pipe. Requests are put under the lock, so their order is that of the decisions here.

    Answers are awaited without the lock.
    """

    def __init__(self, connection: Connection, life: int, objects: List[Given], archive: Optional[Archive], extending: Extending) -> None:
        """The store that was opened in this life."""
        super().__init__(connection, life, archive)
        # one extension goes on at a time, in a thread of its own, which no signal handler interrupts
        self._extending, self._one_extension = extending, threading.Lock()
        # who is open, of whatever life, as far as is known, each with the number of the request by which it last rolled back
        self._open: Dict[int, int] = {}
        # the number of the last end or rollback, for each object of the last one that let go there, and of the last request
        # up to which somebody may have let go anywhere
        self._last_end = self._let_go_anywhere = 0
        self._let_go: Dict[int, int] = {}
        self.know(0, objects)
        # the request for the end
        self._last: Optional[Slot] = None
        connection.on_loss = self.sleepers.ring_all

    # ---- objects

    def extend(self, added: List[Given]) -> int:
        self.run(self._check_connection)
        for of, _ in added:
            of._use()
        work = Work(partial(self._extend, added))
        work.start()
        return work.result()

    def _extend(self, added: List[Given]) -> int:
        """Adds objects, after those that others add."""
        with self._one_extension:
            self.run(partial(check_addition, added, self.types, self.numbers))
            with room_for_words() as folder:
                try:
                    files = write_objects(self._extending.program, folder, added, self._extending.limit)
                except OSError as error:
                    raise CannotExtend(str(error)) from error
                return self._extend_by(files, added)

    def _extend_by(self, files: Sequence[str], added: List[Given]) -> int:
        """Adds the objects of these files, which are asked for again where the program adds others, within the limit."""
        deadline = time.monotonic() + self._extending.limit
        while True:
            first: Optional[int] = self.run(partial(self._extension, files, added))
            if first is not None:
                return first
            if time.monotonic() >= deadline:
                raise TimedOut("objects are added, and the next epoch doesn't begin")
            time.sleep(SECONDS_OF_DRAIN)

    def _extension(self, files: Sequence[str], added: List[Given]) -> Slot:
        """The request for more objects."""
        self._check_connection()
        slot = self._connection.made_late(" ".join(["extend", *files]), self._look)
        if len(slot.line) > LONGEST_REQUEST:
            raise CannotExtend(f"a request has {LONGEST_REQUEST} bytes, in which {len(files) - 1} types have no room")
        slot.then = partial(self._extended, added, self.life)
        return slot

    def _look(self) -> None:
        """Lets the program look at its clock, so that it ends an epoch whose time is over."""
        with suppress(ClosedError, ConnectionLost):
            self.run(self.open_count)

    def _extended(self, added: List[Given], life: int, answer: bytes) -> Optional[int]:
        """The number of the first new object, by the answer to what was asked in a life; None where others are added."""
        if answer == b"busy drain":
            return None
        if answer.startswith(b"no "):
            refuse_objects(answer[3:].decode("ascii", "replace"))
        first = len(self.types)
        if answer != b"ok %d" % first:
            self._refuse(answer)
        self.know(first, added)
        self._is_in(life + 1)
        return first

    # ---- transactions

    def begin(self, t: "Transaction") -> Slot:
        self._check_connection()
        if t._worker != 0:
            raise InMemoryOnly("a worker other than 0 begins a transaction only in memory")
        slot = self._connection.made("begin")
        slot.then, slot.cut = partial(self._begins, t), partial(self._leave, t, slot)
        return slot

    def _begins(self, t: "Transaction", answer: bytes) -> bool:
        """Whether a transaction has begun, by the answer."""
        if answer == b"busy drain":
            return False
        if not answer.startswith(b"ok "):
            self._refuse(answer)
        t._life, t._number = self._begun(answer)
        self.hold(t, self.known(t._life, t._number))
        return True

    def _leave(self, t: "Transaction", slot: Slot) -> None:
        """Nobody will have what begins by this request."""
        if t._number < 0:
            self.left.append(slot)

    def _begun(self, answer: bytes) -> Tuple[int, int]:
        """The life and the number of a transaction that has begun."""
        life, number = self._named(answer, answer[3:])
        self._is_in(life)
        self._open[self.known(life, number)] = 0
        return life, number

    def end_left(self) -> None:
        for slot in self.left.copy():
            try:
                answer = self._connection.wait(slot) if slot.written else b""
            except ConnectionLost:
                answer = b""
            with self.lock:
                if slot not in self.left:
                    continue  # another thread was here
                self.put_right()
                if answer.startswith(b"ok "):
                    self.abort_forsaken(self.known(*self._begun(answer)))
                self.left.remove(slot)

    def known(self, life: int, number: int) -> int:
        """No other transaction of whatever life is known by it."""
        return life * LIVES + number

    def named(self, known: int) -> Tuple[int, int]:
        return divmod(known, LIVES)

    def abort_forsaken(self, known: int) -> None:
        life, number = self.named(known)
        if self.is_open(life, number):
            slot, aborts = self._connection.made(f"abort {life}.{number}"), self.counts.aborts + 1
            # at which objects it let go isn't known
            self._put_with(slot, lambda: self._has_ended(slot, known, range(len(self.types)), aborts))

    def _is_in(self, life: int) -> None:
        """The store was in this life. Where it is a new one, an epoch has ended, and it isn't known whether that aborted what was open."""
        if life > self.life:
            self._together(lambda: self._begins_life(life))

    def _begins_life(self, life: int) -> None:
        """Another epoch has begun. It may be done twice."""
        self._let_go_until(self._connection.count)
        self.life = life

    def _epoch_ended(self, t: "Transaction") -> None:
        """The end of an epoch has aborted a transaction, which hasn't ended here, and maybe others."""
        known = self.known(t._life, t._number)
        aborts = self.counts.aborts + (known in self._open)
        self._together(lambda: self._was_aborted(known, aborts))

    def _was_aborted(self, known: int, aborts: int) -> None:
        """A transaction is open no more, and this many aborts are counted. It may be done twice."""
        self.counts.aborts = aborts
        self._open.pop(known, None)
        self.holders.pop(known, None)
        self._let_go_until(self._connection.count)

    def _let_go_until(self, number: int) -> None:
        """Somebody may have let go at whatever object, when this request was answered: who sleeps looks again. It may be done twice."""
        self._last_end = self._let_go_anywhere = number
        self.ends += 1
        if not self.sleepers.is_empty():
            self.sleepers.begin_anew()

    def _put_with(self, slot: Slot, book: Callable[[], None]) -> None:
        """Puts a request, and books where it was written what it does. That may be done twice."""
        self.doing = book
        self._connection.put(slot)
        book()
        self.doing = None

    def _together(self, act: Callable[[], None]) -> None:
        """Does all of it, also where a signal handler raises meanwhile. It may be done twice."""
        self.put_right()
        self.doing = act
        act()
        self.doing = None

    def check(self, t: "Transaction") -> None:
        if self._is_closed or self._connection.lost is not None:
            self._check_connection()
        if t._key is not None:
            raise PreparedError(t._key)
        if t._ended:
            raise NotOpenError(NotOpenError.__doc__)
        if self.known(t._life, t._number) not in self._open:
            raise EpochEndedError(EpochEndedError.__doc__)

    def is_open(self, life: int, number: int) -> bool:
        return not self.is_lost() and self.known(life, number) in self._open

    def may_be_open(self, life: int, number: int) -> bool:
        # one of an earlier opening is prepared, as far as is known
        return self.is_open(life, number) or (life < self._first_life and not self.is_lost())

    def is_stale(self, x: int, blocker: int) -> bool:
        # an end or a rollback that was asked after the call, while its answer was awaited; of one of an earlier opening only a decision
        is_own = blocker >= self.known(self._first_life, 0)
        rolled_back = self._open.get(blocker) if is_own else self._let_go_anywhere
        return rolled_back is None or max(rolled_back, self._let_go.get(x, 0), self._let_go_anywhere) > self.answered

    def call(self, t: "Transaction", x: int, name: str) -> Slot:
        return self._called(t, x, self._call_here(t, x, name), name)

    def call_op(self, t: "Transaction", x: int, call: int) -> Slot:
        return self._called(t, x, call, self._name_here(t, x, call))

    def would(self, t: "Transaction", x: int, name: str) -> Slot:
        return self._asked(t, x, self._call_here(t, x, name), name)

    def would_op(self, t: "Transaction", x: int, call: int) -> Slot:
        return self._asked(t, x, call, self._name_here(t, x, call))

    def _call_here(self, t: "Transaction", x: int, name: str) -> int:
        """The number of a call. Only a name that is one goes over, so it can't break a line."""
        self.check(t)
        call = self._calls[x].number(name) if x < len(self._calls) else None
        return self.call_number(x, name) if call is None else call

    def _name_here(self, t: "Transaction", x: int, call: int) -> str:
        self.check(t)
        if x >= len(self._calls):
            raise NoObject(NoObject.__doc__)
        name = self._calls[x].name(call)
        if name is None:
            raise NoCall(NoCall.__doc__)
        return name

    def _called(self, t: "Transaction", x: int, call: int, name: str) -> Slot:
        """A call. Where its answer isn't seen, by an interrupt, it may have been executed."""
        slot = self._connection.made(f"call {t._life}.{t._number} {x} {name}")
        slot.then, slot.cut = partial(self._executed, t, x, call), partial(self._touches, t, x)
        return slot

    def _executed(self, t: "Transaction", x: int, call: int, answer: bytes) -> Reply:
        done = self._calls[x].answered(call, answer)
        if done is None:
            return self._refused(t, answer)
        if done.__class__ is Operation:
            self._touches(t, x)
        return done

    def _touches(self, t: "Transaction", x: int) -> None:
        """The transaction has touched an object. Another thread may have asked it to let go, while the answer was awaited."""
        t._touched.add(x)
        known = self.known(t._life, t._number)
        if self._open.get(known, self._last_end) > self.answered:
            self._let_go[x] = self._last_end
            self.sleepers.took_back(known, (x,))

    def _asked(self, t: "Transaction", x: int, call: int, name: str) -> Slot:
        """What a call would be answered."""
        return self._request(f"would {t._life}.{t._number} {x} {name}", lambda answer: self._reply(t, x, call, answer))

    def _reply(self, t: "Transaction", x: int, call: int, answer: bytes) -> Reply:
        """The reply that answers a call."""
        return self._calls[x].answered(call, answer) or self._refused(t, answer)

    def _refused(self, t: "Transaction", answer: bytes) -> Reply:
        """The reply that is no operation."""
        if answer.startswith(b"busy "):
            return self._behind(answer, answer[5:], t._life)
        return self._refuse_transaction(t, answer)

    def _behind(self, answer: bytes, name: bytes, life: int) -> Busy:
        """Who is in the way, of a transaction of this life."""
        of, number = self._named(answer, name)
        return Busy(number) if of == life else Busy(number, of)

    def _refuse_transaction(self, t: "Transaction", answer: bytes) -> NoReturn:
        """As `_refuse`. The end of an epoch has aborted a transaction that hasn't ended here and isn't open there."""
        if answer == b"refused NotOpen":
            # another thread may have ended it, while this one waited for the answer
            if t._ended:
                raise NotOpenError(NotOpenError.__doc__)
            self._epoch_ended(t)
            raise EpochEndedError(EpochEndedError.__doc__)
        self._refuse(answer)

    def rollback(self, t: "Transaction", operations: int) -> Finish:
        self.put_right()
        self.check(t)
        if operations >= MOST_EVENTS:
            raise BadRollback(BadRollback.__doc__)
        slot = self._connection.made(f"rollback {t._life}.{t._number} {operations}")
        self._put_with(slot, lambda: self._has_rolled_back(slot, self.known(t._life, t._number), t._touched))
        return lambda: self._finish(t, slot)

    def _has_rolled_back(self, slot: Slot, known: int, touched: Collection[int]) -> None:
        """A rollback was asked for, where it was written."""
        if not slot.written:
            return
        self._open[known] = self._last_end = slot.number
        for x in touched:
            self._let_go[x] = slot.number
        self.sleepers.took_back(known, touched)

    def commit(self, t: "Transaction", key: Optional[str] = None) -> Finish:
        if key is not None:
            return self._commit_under(t, key)
        slot = self._put_end(t, "commit", self.counts.aborts)
        return lambda: self._finish_commit(t, slot)

    def _commit_under(self, t: "Transaction", key: str) -> Finish:
        """Asks for a commit under a key, also of a transaction that has ended: another one may have committed under it."""
        self.put_right()
        self._check_connection()
        if t._key is not None:
            raise PreparedError(t._key)
        was_open = not t._ended and self.is_open(t._life, t._number)
        slot = self._connection.made(f"commit {t._life}.{t._number} {key}")
        if was_open:
            self._put_with(slot, partial(self._ends, t, slot, self.counts.aborts))
        else:
            self._connection.put(slot)
        return lambda: self._finish_commit(t, slot, key, was_open)

    def abort_behind(self, t: "Transaction") -> None:
        # one that ended otherwise isn't open there, and nothing is done
        if t._ended and not self.is_lost():
            self._connection.send(f"abort {t._life}.{t._number}")

    def abort(self, t: "Transaction") -> Finish:
        slot = self._put_end(t, "abort", self.counts.aborts + 1)
        return lambda: self._finish(t, slot)

    def _put_end(self, t: "Transaction", verb: str, aborts: int) -> Slot:
        """Asks for the end of a transaction. What is asked from now on is done after it, so it counts as ended."""
        if self.is_half_done():
            self.put_right()
        self.check(t)
        slot = self._connection.made(f"{verb} {t._life}.{t._number}")
        self._put_with(slot, partial(self._ends, t, slot, aborts))
        return slot

    def _ends(self, t: "Transaction", slot: Slot, aborts: int) -> None:
        if slot.written:
            t._ended = True
            self._has_ended(slot, self.known(t._life, t._number), t._touched, aborts)

    def _has_ended(self, slot: Slot, known: int, touched: Collection[int], aborts: int) -> None:
        """An end was asked for, where it was written."""
        if not slot.written:
            return
        self._open.pop(known, None)
        self.holders.pop(known, None)
        self._last_end = slot.number
        for x in touched:
            self._let_go[x] = slot.number
        self.ends += 1
        if self.sleepers.calls or self.sleepers.bells:
            self.sleepers.ended(known, touched)
        self.counts.aborts = aborts

    def _finish(self, t: "Transaction", slot: Slot) -> None:
        """The end of an abort or a rollback, outside the lock."""
        answer = self._connection.wait(slot)
        if answer != b"ok":
            self._refuse_end(t, answer)

    def _finish_commit(self, t: "Transaction", slot: Slot, key: Optional[str] = None, was_open: bool = True) -> None:
        """The end of a commit, outside the lock. From when it was written it isn't known what becomes of it."""
        try:
            answer = self._connection.wait(slot)
            if answer != b"ok":
                self._refuse_key(t, slot, key, was_open, answer)
                self._refuse_end(t, answer, was_open)
        except ConnectionLost as lost:
            if not slot.written:
                raise
            raise OutcomeUnknown(f"{t._life}.{t._number}") from lost
        except EpochEndedError:
            with self.lock:
                self.counts.aborts += was_open
            raise
        with self.lock:
            self.counts.commits += 1

    def _refuse_key(self, t: "Transaction", slot: Slot, key: Optional[str], was_open: bool, answer: bytes) -> None:
        """Raises where the answer to a commit refuses its key. The transaction is open then, if it was."""
        refusal = refusal_of(key, answer)
        if refusal is None:
            return
        with self.lock:
            if was_open:
                self._together(partial(self._opens_again, t, slot))
        raise refusal

    def _opens_again(self, t: "Transaction", slot: Slot) -> None:
        """A transaction that counted as ended from this request on is open. It may be done twice."""
        known = self.known(t._life, t._number)
        self._open[known] = slot.number
        self.hold(t, known)
        t._ended = False

    def _refuse_end(self, t: "Transaction", answer: bytes, was_open: bool = True) -> NoReturn:
        with self.lock:
            self.put_right()
            if answer == b"refused NotOpen":
                if t._ended and not was_open:
                    raise NotOpenError(NotOpenError.__doc__)
                self._epoch_ended(t)
                raise EpochEndedError(EpochEndedError.__doc__)
            self._refuse(answer)

    # ---- whole transactions

    def attempt(self, pairs: Pairs, worker: int, key: Optional[str] = None) -> Callable[[], Optional[Attempt]]:
        self._check_connection()
        if worker != 0:
            raise InMemoryOnly("a worker other than 0 attempts a transaction only in memory")
        if len(pairs) > MOST_ASKED:
            raise ValueError(f"an attempt of a store in a file has {MOST_ASKED} calls at most, and not {len(pairs)}")
        missing = self.first_missing(pairs)
        if missing is not None:
            return (lambda: missing) if key is None else self._missing_under(key, pairs, missing)
        slot = self._connection.made(" ".join(["do", *([] if key is None else [f"={key}"]), *(f"{x} {name}" for x, name in pairs)]))
        self._put_with(slot, lambda: self._lets_go(slot, {x for x, _ in pairs}))
        return lambda: self._finish_attempt(slot, pairs, key)

    def _missing_under(self, key: str, pairs: Pairs, missing: Ended) -> Callable[[], Attempt]:
        """An attempt of which a call isn't there, so that nothing may have been done under its key before."""
        slot = self._connection.send(f"outcome {key}")
        return lambda: self.told_before(self._outcome_in(self._connection.wait(slot)), pairs, key) or missing

    def _lets_go(self, slot: Slot, touched: Collection[int]) -> None:
        """A whole transaction was asked for, where it was written: who sleeps at one of its objects may be free behind it."""
        if not slot.written:
            return
        for x in touched:
            self._let_go[x] = slot.number
        if self.sleepers.calls:
            self.sleepers.took_back(NOBODY, touched)

    def _finish_attempt(self, slot: Slot, pairs: Pairs, key: Optional[str]) -> Optional[Attempt]:
        """What came of it, outside the lock. From when it was written it isn't known what becomes of it."""
        try:
            answer = self._connection.wait(slot)
        except ConnectionLost as lost:
            if not slot.written:
                raise
            raise OutcomeUnknown("") from lost
        with self.lock:
            self.put_right()
            if answer == b"busy drain":
                return None
            told = self._done(pairs, answer, key)
            if told is not None:
                self.counts.commits += 1
                return told
            ended = self._ended_at(pairs, answer, key)
            self.counts.aborts += 1
            if isinstance(ended.how, Busy):
                self.counts.busy[pairs[ended.index][0]] += 1
            return ended

    def _done(self, pairs: Pairs, answer: bytes, key: Optional[str]) -> Optional[Done]:
        """The operations of its calls, where it was committed. Raises `OtherCalls` where the key is of other work."""
        done = DONE.fullmatch(answer.decode("ascii", "replace"))
        if done is None:
            return None
        told = self.done_with(pairs, done[1].split())
        if told is None:
            if key is None:
                self._break(answer)
            raise OtherCalls(key)
        return told

    def _ended_at(self, pairs: Pairs, answer: bytes, key: Optional[str]) -> Ended:
        """Which of its calls ended it, and how. Raises why it wasn't begun."""
        refusal = refusal_of(key, answer)
        if refusal is not None:
            raise refusal
        verb, *words = answer.split(b" ")
        if len(words) + (verb == b"none") != 2:
            self._refuse(answer)
        if not (words[0].isdigit() and int(words[0]) < len(pairs)):
            self._break(answer)
        return Ended(int(words[0]), self._how(answer, verb, words[-1]))

    def _how(self, answer: bytes, verb: bytes, word: bytes) -> Union[Busy, Illegal, Error]:
        """How a call ended it."""
        if verb == b"none":
            return Illegal()
        if verb == b"busy":
            self._is_in(self._named(answer, word)[0])
            return self._behind(answer, word, self.life)
        kind = REFUSALS.get(word.decode("ascii", "replace")) if verb == b"refused" else None
        if kind is None:
            self._break(answer)
        return kind(kind.__doc__)

    # ---- the end

    def close(self) -> Finish:
        if self._has_finished:
            return None
        self._is_closed = True
        self._together(self._put_close)
        return self._finish_close

    def _put_close(self) -> None:
        """Asks for the end. It may be done twice."""
        if self._last is None and self._connection.lost is None:
            self._last = self._connection.end()
        if self._last is not None:
            self._connection.put(self._last)
        self.ends += 1
        self.sleepers.all_ended()
        self._open.clear()
        self.holders.clear()

    def _finish_close(self) -> None:
        """Waits for the end, outside the lock, and for the process. Raises `ConnectionLost`, also where it was lost before."""
        try:
            is_told = self._last is not None and self._connection.wait(self._last) == b"ok"
        except ConnectionLost:
            is_told = False
        if not is_told:
            self._connection.lose("the program didn't answer the end")
        self._connection.finish()
        self._has_finished = True
        if not is_told:
            raise ConnectionLost(self._connection.lost or "")

    def after_fork(self) -> None:
        super().after_fork()
        self._one_extension = threading.Lock()
        self._is_closed = self._has_finished = True
        self.left.clear()
        self._connection.after_fork()

    def __del__(self) -> None:
        if not self._has_finished:
            self._connection.let_go()

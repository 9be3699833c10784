"""What a store asks of where its transactions run."""
import threading
from abc import ABC, abstractmethod
from collections import deque
from types import GeneratorType
from typing import TYPE_CHECKING, Callable, Collection, Deque, Dict, Generator, Iterable, List, NamedTuple, Optional, Sequence, Tuple, TypeVar, Union, cast
from weakref import ref

from ._attempts import Attempt, Done, Ended
from ._connection import Slot
from ._errors import Error, InMemoryOnly, NoCall, NoObject, OtherCalls
from ._events import Event
from ._keys import Committed, Decision, Outcome, refuse_work
from ._let_go import warn_of_transaction
from ._library import unsigned
from ._objects import Given, ObjectRef
from ._prepared import PreparedTransaction, Undecided
from ._reads import Moment, Seen, States
from ._replies import Operation, Reply
from ._sleepers import Blocker, Sleepers
from ._stats import Counts
from ._types import Type

if TYPE_CHECKING:
    from ._transaction import Transaction

T = TypeVar("T")
# How long a call that was interrupted waits for the lock, to put right what it left.
SECONDS_TO_MEND = 1.0
# An object's number is below.
NUMBERS = 1 << 32
# The number of no transaction.
NOBODY = (1 << 64) - 1
# What is left to do, once the lock is free, of what was begun under it.
Finish = Optional[Callable[[], None]]


# Calls that are asked for: each at the object of this number, by its name.
Pairs = Sequence[Tuple[int, str]]


class CallAt(NamedTuple):
    """A call that is there: the number of its object, its own, and its name."""

    object: int
    call: int
    name: str


class Holder(ref["Transaction"]):
    """Who has an open transaction, as long as anybody does, and by which number that is known, as soon as that is noted."""

    __slots__ = ("known",)

    known: int


# Several requests, one after another: each is put and given out, and then has its answer.
Steps = Generator[Slot, None, T]
# An answer, or what is to be asked for it where it isn't here.
Asked = Union[T, Slot, Steps[T]]


def _keeping(steps: Steps[T], told: List[T]) -> Steps[None]:
    """The same steps, whose outcome is kept."""
    told.append((yield from steps))


class Backend(ABC):
    """Where the transactions of a store run, with the lock and the sleepers of the store.

    Each method is called under the lock, but for `run`, `extend`, `interrupted`, and what is given back as a `Finish`.

    A signal handler may raise at any place in the main thread: it ends the call, and the store is to hold. So what a call
    has to do together is noted in `doing` first; and what the call left there is put right before the next one.
    """

    # how often the store began anew while nobody was open, or the number of its life: a transaction is of one life
    life: int
    # puts a request, and waits for its answer, outside the lock
    put: Callable[[Slot], None]
    answer: Callable[[Slot], bytes]

    def __init__(self, blocker: Optional[Blocker] = None) -> None:
        self.lock = threading.RLock()
        # the thread that is in a turn of `transact`, and has the lock meanwhile
        self.turn_of = 0
        # whether a call in it was interrupted, which may have left the lock
        self.is_turn_cut = False
        # those of the objects, which become more at their end
        self.types: List[Type] = []
        # the numbers of the objects that have names, and their names
        self.numbers: Dict[str, int] = {}
        self.names: Dict[int, str] = {}
        self.sleepers = Sleepers(self.types, blocker)
        self.counts = Counts()
        # how often a transaction has ended, or all of them; or more
        self.ends = 0
        # what puts right what was begun under the lock and isn't through; it may be done twice
        self.doing: Optional[Callable[[], None]] = None
        # who has each open transaction, by the number by which it is known, and those that are gone. A deque notes that, and so no bytecode,
        # in which a handler might raise what Python would drop.
        self.holders: Dict[int, Holder] = {}
        self.gone: Deque[Holder] = deque()
        # the transactions that were prepared here and aren't decided, by their keys, in the order in which they were prepared
        self.undecided: Dict[str, Undecided] = {}
        # the number of the request that was answered last
        self.answered = 0
        self._goes = cast(Callable[["ref[Transaction]"], None], self.gone.append)
        # the requests of transactions that began for calls which were interrupted
        self.left: Deque[Slot] = deque()

    # ---- what an exception leaves that came at any place

    def is_in_turn(self) -> bool:
        """Whether this thread is in a turn of `transact`."""
        return self.turn_of != 0 and self.turn_of == threading.get_ident()

    def put_right(self) -> None:
        """Puts right what an interrupted call left. It may be done twice."""
        if self.sleepers.is_torn:
            self.sleepers.begin_anew()
        if self.doing is not None:
            self.doing()
            self.doing = None
        while self.gone:
            known = getattr(self.gone[0], "known", -1)
            # in memory it may be that of another one by now
            if self.holders.get(known) is self.gone[0]:
                life, number = self.named(known)
                is_open = self.is_open(life, number)
                self.abort_forsaken(known)
                self.holders.pop(known, None)
                if is_open:
                    warn_of_transaction(life, number)
            self.gone.popleft()

    def known(self, life: int, number: int) -> int:
        """The number by which a transaction is known here, to those that wait, too.

        In memory it is its own: who is open or waits is of the present life.
        """
        return number

    def named(self, known: int) -> Tuple[int, int]:
        """The life and the number of the transaction that is known by a number."""
        return self.life, known

    def hold(self, t: "Transaction", known: int) -> None:
        """A transaction is aborted where it is open and nobody has it any more."""
        holder = Holder(t, self._goes)
        holder.known = known
        self.holders[known] = holder

    @abstractmethod
    def abort_forsaken(self, known: int) -> None:
        """Aborts a transaction that nobody has, where it is open. It may be done twice."""

    def interrupted(self, error: BaseException, under_key: "Optional[Transaction]" = None) -> None:
        """A call ends with this exception, which may have come at any place: the lock may be held, or something half done.

        `under_key` is the transaction where the call is its commit or its prepare under a key.
        """
        if isinstance(error, Error):
            return
        try:
            self._give_back()
            # who comes next does it where another thread keeps the lock
            if (under_key is not None or self.is_half_done()) and self.lock.acquire(timeout=SECONDS_TO_MEND):
                self.put_right()
                if under_key is not None:
                    self.abort_behind(under_key)
        finally:
            self._give_back()

    def abort_behind(self, t: "Transaction") -> None:
        """Aborts a transaction behind its commit or its prepare under a key, whose answer nobody will see, where that is refused."""

    def is_half_done(self) -> bool:
        """Whether there is something to put right."""
        return self.sleepers.is_torn or self.doing is not None or bool(self.gone)

    def _give_back(self) -> None:
        """This thread hasn't the lock any more, or not after its turn."""
        if self.is_in_turn():
            self.is_turn_cut = True  # it has more of it than its own
        else:
            self._release()

    def end_turn(self) -> None:
        """The turn of this thread is over, if it is in one. The lock of the turn was given back."""
        if self.is_in_turn():
            self.turn_of = 0
            if self.is_turn_cut:
                self.is_turn_cut = False
                self._release()

    def _release(self) -> None:
        """This thread hasn't the lock any more."""
        while self.lock._is_owned():  # type: ignore[attr-defined]
            self.lock.release()

    # ---- questions

    def run(self, ask: Callable[[], Asked[T]]) -> T:
        """What is asked under the lock, and answered perhaps after waits without it."""
        slot: Optional[Slot] = None
        if self.left:
            self.end_left()
        try:
            with self.lock:
                if self.doing is not None or self.gone or self.sleepers.is_torn:
                    self.put_right()
                asked = ask()
                if isinstance(asked, Slot):
                    slot = asked
                    self.put(slot)
            if slot is not None:
                answer = self.answer(slot)
                with self.lock:
                    self.answered = slot.number
                    told: T = slot.then(answer)
                    slot.forget()
                    return told
        except BaseException:
            if slot is not None:
                with self.lock:
                    if slot.cut is not None:
                        slot.cut()
                    slot.forget()
            raise
        return cast(T, self._through(asked)) if isinstance(asked, GeneratorType) else cast(T, asked)

    def _through(self, steps: Steps[T]) -> T:
        """What comes out of several requests."""
        told: List[T] = []
        each = _keeping(steps, told)
        try:
            while True:
                with self.lock:
                    slot = next(each, None)
                if slot is None:
                    return told[0]
                self.answer(slot)
        except BaseException:
            with self.lock:
                each.close()
            raise

    def steps_to(self, ask: Callable[[], Asked[T]]) -> Steps[T]:
        """The steps to an answer, as parts of others."""
        asked = ask()
        if isinstance(asked, GeneratorType):
            return cast(T, (yield from asked))
        if not isinstance(asked, Slot):
            return cast(T, asked)
        try:
            self.put(asked)
            return cast(T, asked.then((yield from self.answer_to(asked))))
        except BaseException:
            if asked.cut is not None:
                asked.cut()
            raise
        finally:
            asked.forget()

    def answer_to(self, slot: Slot) -> Steps[bytes]:
        """The answer to a request that was put, as a part of others."""
        yield slot
        self.answered = slot.number
        return slot.answer or b""

    def end_left(self) -> None:
        """Aborts what began for calls that were interrupted. The lock isn't held."""

    # ---- objects

    def know(self, first: int, added: List[Given]) -> None:
        """There are these objects from this number on. It may be done twice."""
        self.types[first:] = [of for of, _ in added]
        self.counts.begin_at(first, len(added))
        for x, (_, name) in enumerate(added, first):
            if name is not None:
                self.numbers[name], self.names[x] = x, name

    def number_of(self, object: ObjectRef) -> int:
        """The number of an object. It needs no lock."""
        if object.__class__ is int and 0 <= object < NUMBERS:  # type: ignore[operator]
            return object  # type: ignore[return-value]
        if not isinstance(object, str):
            return unsigned("the object", object, 32)
        number = self.numbers.get(object)
        if number is None:
            raise NoObject.named(object)
        return number

    # ---- transactions

    def call_of(self, x: int, name: str) -> Optional[int]:
        """The number of the call of this name at an object; None where it isn't there."""
        return self.types[x]._calls.number(name) if x < len(self.types) else None

    def calls_at(self, pairs: Pairs) -> List[CallAt]:
        """The calls with their numbers. Raises `NoObject` or `NoCall` of the first that isn't there."""
        return [CallAt(x, self._number_at(x, name), name) for x, name in pairs]

    def _number_at(self, x: int, name: str) -> int:
        call = self.call_of(x, name)
        return self.call_number(x, name) if call is None else call

    def first_missing(self, pairs: Pairs) -> Optional[Ended]:
        """How the first call that isn't there ends an attempt; None where all are there."""
        for index, (x, name) in enumerate(pairs):
            if self.call_of(x, name) is None:
                kind = NoCall if x < len(self.types) else NoObject
                return Ended(index, kind(kind.__doc__))
        return None

    def told_before(self, outcome: Outcome, pairs: Pairs, key: str) -> Optional[Done]:
        """What comes of an attempt of these calls whose key has this outcome; None where the key is free.

        Raises `KeyAborted`, `KeyPrepared`, or `OtherCalls` where the replies aren't those of such calls.
        """
        refuse_work(key, outcome)
        if not isinstance(outcome, Committed):
            return None
        done = self.done_with(pairs, outcome.replies)
        if done is None:
            raise OtherCalls(key)
        return done

    def done_with(self, pairs: Pairs, replies: Sequence[str]) -> Optional[Done]:
        """The operations of these calls, by their replies; None where these aren't those of such calls."""
        replied = [self._replied(x, name, reply) for (x, name), reply in zip(pairs, replies)]
        operations = tuple(operation for operation in replied if operation is not None)
        return Done(operations) if len(operations) == len(pairs) == len(replies) else None

    def _replied(self, x: int, name: str, reply: str) -> Optional[Operation]:
        """The operation of a call that has this reply; None where there is none."""
        call = self.call_of(x, name)
        return None if call is None else self.types[x]._calls.replied(call, reply)

    @abstractmethod
    def begin(self, t: "Transaction") -> Asked[bool]:
        """Begins a transaction, which has a life and a number then. False where none begins now, but soon."""

    @abstractmethod
    def check(self, t: "Transaction") -> None:
        """Raises what a call of the transaction would raise where it isn't open."""

    @abstractmethod
    def call(self, t: "Transaction", x: int, name: str) -> Asked[Reply]:
        """Calls the call of this name. Where it is executed, the transaction has touched the object."""

    @abstractmethod
    def call_op(self, t: "Transaction", x: int, call: int) -> Asked[Reply]:
        """Calls the call of this number, as `call`."""

    @abstractmethod
    def would(self, t: "Transaction", x: int, name: str) -> Asked[Reply]:
        """What `call` would be answered."""

    @abstractmethod
    def would_op(self, t: "Transaction", x: int, call: int) -> Asked[Reply]:
        """What `call_op` would be answered."""

    @abstractmethod
    def is_stale(self, x: int, blocker: int) -> bool:
        """Whether the last answer, that the blocker is in the way at an object, may be so no more."""

    @abstractmethod
    def is_open(self, life: int, number: int) -> bool:
        """Whether a transaction is open, in a file as far as is known."""

    def may_be_open(self, life: int, number: int) -> bool:
        """Whether a transaction may be open, also one of which isn't known here."""
        return self.is_open(life, number)

    def is_lost(self) -> bool:
        """Whether no end will come any more."""
        return False

    @abstractmethod
    def rollback(self, t: "Transaction", operations: int) -> Finish:
        """Takes back the last operations."""

    @abstractmethod
    def commit(self, t: "Transaction", key: Optional[str] = None) -> Finish:
        """Commits it: for all others it has ended after this.

        Under a key one that has ended is no fault where another one committed under it before; and one that is open is aborted
        then.
        """

    @abstractmethod
    def abort(self, t: "Transaction") -> Finish:
        """Aborts it: for all others it has ended after this."""

    @abstractmethod
    def attempt(self, pairs: Pairs, worker: int, key: Optional[str] = None) -> Callable[[], Optional[Attempt]]:
        """Does a whole transaction, under a key once: for all others it has ended after this. What it gives says, outside the
        lock, what came of it; None where none begins now, but soon."""

    @abstractmethod
    def prepare(self, t: "Transaction", key: str, until: int) -> Finish:
        """Prepares it under a key: from now on its calls and its ends are refused here, and nobody has to have it."""

    @abstractmethod
    def decide(self, key: str, decision: Decision) -> Finish:
        """Ends the transaction that is prepared under a key: for all others it has ended after this."""

    @abstractmethod
    def prepared(self) -> Asked[List[PreparedTransaction]]:
        """The transactions that are prepared and not decided, in the order in which they were prepared."""

    def name_of_object(self, x: int) -> ObjectRef:
        """The name of an object, or its number where it has none."""
        return self.names.get(x, x)

    def has_prepared(self, t: "Transaction", key: str, until: int, objects: Collection[int]) -> None:
        """What follows from a prepare. It may be done twice."""
        t._key = key
        self.undecided[key] = Undecided(t._life, t._number, t._worker, until, objects, ref(t))
        known = self.known(t._life, t._number)
        self.holders.pop(known, None)
        # a call of its own may wait, in another thread, and is refused now
        if known in self.sleepers.calls:
            self.sleepers.begin_anew()

    def has_decided(self, key: str) -> None:
        """Whoever has the transaction under a key sees that it has ended. It may be done twice."""
        one = self.undecided.get(key)
        t = None if one is None else one.holder()
        if t is not None:
            t._ended, t._key = True, None
        self.undecided.pop(key, None)

    @abstractmethod
    def outcome(self, key: str) -> Asked[Outcome]:
        """What became of a key."""

    @abstractmethod
    def moment(self) -> Asked[Moment]:
        """How many transactions have committed."""

    @abstractmethod
    def peek(self, pairs: Pairs) -> Asked[Seen]:
        """What these calls are replied to a transaction that only reads what is committed."""

    @abstractmethod
    def states(self, objects: Sequence[int]) -> Asked[States]:
        """The committed states of these objects."""

    @abstractmethod
    def snapshot(self) -> Asked[States]:
        """The committed states of all objects."""

    @abstractmethod
    def call_number(self, x: int, name: str) -> int:
        """The number of a call."""

    @abstractmethod
    def kept(self, x: int) -> Asked[int]:
        """The kept state of an object."""

    @abstractmethod
    def open_count(self) -> Asked[int]:
        """How many transactions are open."""

    @abstractmethod
    def events(self, start: int) -> Asked[Callable[[], List[Event]]]:
        """What reads the events from a place on, outside the lock: here only their words are taken."""

    @abstractmethod
    def event_count(self) -> Asked[int]:
        """How many events there are."""

    @abstractmethod
    def committed(self, life: int, number: int) -> Asked[Optional[bool]]:
        """What became of a transaction."""

    @abstractmethod
    def close(self) -> Finish:
        """Closes it. Where that was interrupted it is gone on with."""

    def after_fork(self) -> None:
        """The process is a fork: the store is closed here, and the threads that held the lock or slept aren't there."""
        self.lock = threading.RLock()
        self.turn_of, self.doing = 0, None
        self.holders.clear()
        self.undecided.clear()
        self.gone.clear()
        self.sleepers.begin_anew()

    def abort_all(self) -> int:
        """Aborts each open transaction, and returns how many there were."""
        raise InMemoryOnly(InMemoryOnly.__doc__)

    def forgotten_count(self) -> int:
        """How many of the first events were forgotten."""
        raise InMemoryOnly(InMemoryOnly.__doc__)

    def forget(self, events: int) -> None:
        """Forgets the first events, this many."""
        raise InMemoryOnly(InMemoryOnly.__doc__)

    def take_events(self) -> Callable[[], List[Event]]:
        """As `events` of those that weren't forgotten, which are forgotten now."""
        raise InMemoryOnly(InMemoryOnly.__doc__)

    def forget_when_full(self) -> None:
        """From now on all events are forgotten where the history is full."""
        raise InMemoryOnly(InMemoryOnly.__doc__)

    def follow(self, events: Iterable[Event]) -> None:
        """Makes events again."""
        raise InMemoryOnly(InMemoryOnly.__doc__)

    def renew(self) -> None:
        """Begins anew."""
        raise InMemoryOnly(InMemoryOnly.__doc__)

    @abstractmethod
    def extend(self, added: List[Given]) -> int:
        """Begins anew with more objects, and returns the number of the first of them. It is called without the lock."""

"""Stores."""
import itertools
import os
import threading
import time
import weakref
from functools import partial
from types import TracebackType
from typing import Callable, Iterable, List, Optional, Tuple, TypeVar, Union, overload
from typing import Type as Class

from ._attempts import Attempt, Done, Ended
from ._backend import Backend, Finish, Pairs
from ._errors import ConnectionLost, OutcomeUnknown, Retryable, TimedOut
from ._events import Event
from ._keys import Committed, check_key, refuse_work
from ._let_go import warn_of_store
from ._library import unsigned
from ._limits import Limits
from ._objects import ObjectRef, Objects, given
from ._opening import Opening, open_child
from ._preparing_memory import PreparingMemory
from ._questions import CallsOf, Questions
from ._replies import Busy
from ._stats import Stats
from ._transaction import Transaction
from ._waiting import Waiting, deadline_of, finished

T = TypeVar("T")
Path = Union[str, "os.PathLike[str]"]

# How long a try waits for room, where too many transactions are open.
SECONDS_FOR_ROOM = 10.0
# How long it waits for the next epoch, each time, and what is said where that doesn't come.
SECONDS_OF_DRAIN = 0.01
NO_EPOCH = "the epoch is full, or objects are added, and the next one doesn't begin"


class Store(Questions):
    """A store of objects, which are numbered from 0: in memory, or by `Store.open` in a file. A `with` closes it.

    An object may have a name too, of 1 to 64 bytes of a-z, A-Z, 0-9, `_`, `:`, `-`, `.` and `/`, which no other object of the
    store has. Each method takes an object by its number or its name, and raises `NoObject` where there is none.

    Each call takes the lock of the store, so threads may share it. In a fork of the process it is closed.
    """

    def __init__(self, types: Objects, max_events: int) -> None:
        """A store in memory of an object of each of these types, each in its initial state.

        In place of a type there may be a pair of a name and a type, and in place of all a dict of types by names. Its
        history will have at most `max_events` events, those that were forgotten among them, until it begins anew
        (`forget_when_full`); the other limits are those of `Limits()`. Raises `BadName`, `NameTaken`, `NoObjects`, `TooManyObjects`, `BadMax`, `NoMemory`, or `ClosedError` of
        a type.
        """
        self._start(PreparingMemory(given(types), Limits(max_events)), 0.0)

    @classmethod
    def with_limits(cls, types: Objects, limits: Limits) -> "Store":
        """A store in memory of an object of each of these types, with limits of its own.

        The objects are given as to `Store`. Raises what `Store` raises, `BadMax` where any limit is out of its range.
        """
        store = cls.__new__(cls)
        store._start(PreparingMemory(given(types), limits), 0.0)
        return store

    @classmethod
    def open(
        cls,
        path: Path,
        objects: Optional[Objects] = None,
        *,
        create: bool = False,
        archive: Optional[Path] = None,
        fast: bool = False,
        drain: Optional[int] = None,
        outcomes: Optional[int] = None,
        program: Optional[Path] = None,
        limit: float = 60.0,
    ) -> "Store":
        """Opens the store in the file at a path, for this client alone.

        A child process `colock serve` has it open: what a commit answers is durable, and survives that process and
        this one. The objects are those of the file, with their names. Where `objects` are given, as to `Store`, they are
        compared with these; and where nothing is at the path and `create`, the file is made of them.

        `archive` is a folder that keeps the history of each epoch, made where it isn't there; several stores may
        share it. `fast` supposes that the disk tears no write apart. `drain` is how many seconds what is open may go
        on where an epoch has to end and a yes of the checker is one-way, 5 where it isn't given: where each is strong, it goes on in
        the next epoch. `outcomes` is how many of the last outcomes of keys stay at least, in this opening, 1,000,000 where it isn't given:
        older ones go where an epoch ends, and their keys are `Unknown` then. `program` is the program; else `COLOCK` of the environment names
        it, or it is a file `colock` beside the package, or on PATH. `limit` is how many seconds an answer may take.

        Raises `CannotOpen`, `OtherObjects`, `BadName`, `NameTaken`, `TooManyObjects`, `ValueError` where `create` comes without
        objects or `limit` isn't above 0, or `OverflowError` where `drain` or `outcomes` isn't a number of 32 bits.
        """
        opening = Opening(
            os.path.abspath(os.fspath(path)),
            None if objects is None else given(objects),
            create,
            None if archive is None else os.path.abspath(os.fspath(archive)),
            fast,
            drain,
            outcomes,
            None if program is None else os.fspath(program),
            limit,
        )
        store = cls.__new__(cls)
        store._start(open_child(opening), limit)
        return store

    def _start(self, backend: Backend, limit: float) -> None:
        self._backend, self._lock, self._limit = backend, backend.lock, limit
        self._sleepers, self._counts = backend.sleepers.calls, backend.counts
        self._waiting = Waiting(backend)
        self._number_of = backend.number_of
        # the backend, where it answers at once
        self._memory = backend if isinstance(backend, PreparingMemory) else None
        self._ages = itertools.count()
        _stores.add(self)

    def _after_fork(self) -> None:
        self._backend.after_fork()
        self._lock = self._backend.lock

    # ---- transactions

    def begin(self, worker: int = 0) -> Transaction:
        """Begins a transaction, as a worker, which is a number below 256 that its events have.

        It is open until it commits or aborts, nobody has it any more, or the store is closed, unless it is prepared. In a file in which
        a yes of the checker is one-way, where an epoch is full or objects are added, it waits for the next one. Raises `TooManyOpenError`, `HistoryFullError` where events are kept (`forget_when_full`),
        `NoMemory` or `ClosedError`; of a store in a file `ConnectionLost`, `TimedOut` where the next epoch doesn't come, or `InMemoryOnly` of a worker other than 0.
        """
        t = Transaction(self, unsigned("the worker", worker, 8), next(self._ages))
        if self._backend.turn_of:
            self._check_no_turn()
        try:
            if self._memory is not None:
                with self._lock:
                    self._memory.begin(t)
            elif not self._backend.run(partial(self._backend.begin, t)):
                self._begin_later(t)
            return t
        except BaseException as error:
            self._give_up(t, error)
            raise

    def _begin(self, t: Transaction) -> None:
        """Begins a transaction, where an epoch is full one of the next."""
        if not self._begins_now(t):
            self._begin_later(t)

    def _begin_later(self, t: Transaction) -> None:
        """Begins a transaction of the next epoch."""
        deadline = time.monotonic() + self._limit
        while time.monotonic() < deadline:
            time.sleep(SECONDS_OF_DRAIN)
            if self._begins_now(t):
                return
        raise TimedOut(NO_EPOCH)

    def _begin_in_room(self, t: Transaction) -> None:
        """Begins a transaction, where too many are open when one has ended."""
        self._waiting.in_room(lambda: self._begin(t), SECONDS_FOR_ROOM)

    def _begins_now(self, t: Transaction) -> bool:
        """Begins a transaction, and returns whether it has begun."""
        if self._memory is not None:
            with self._lock:
                return self._memory.begin(t)
        return self._backend.run(lambda: self._backend.begin(t))

    def _give_up(self, t: Transaction, error: BaseException) -> None:
        """Nobody will have this transaction, since its `begin`, or its turn, ends with an exception."""
        self._backend.interrupted(error)
        t._abort_quietly()

    @overload
    def retry(self, f: Callable[[Transaction], T], tries: int = 10, backoff: float = 0.001, worker: int = 0, *, key: None = None) -> T: ...

    @overload
    def retry(
        self, f: Callable[[Transaction], T], tries: int = 10, backoff: float = 0.001, worker: int = 0, *, key: Optional[str]
    ) -> Union[T, Committed]: ...

    def retry(
        self, f: Callable[[Transaction], T], tries: int = 10, backoff: float = 0.001, worker: int = 0, *, key: Optional[str] = None
    ) -> Union[T, Committed]:
        """Runs a function in a transaction, commits it where the function hasn't ended it, and returns its value.

        **The function may run again**: at a `Retryable`, as `BusyError` and `DeadlockError` are, what it did is aborted
        and it is tried anew, `tries` times in all, 1 or more. So it is to do nothing that the store doesn't take
        back. A victim of a deadlock first waits for the end of whom it waited for; else it sleeps a random time,
        at most `backoff` seconds the first time, and up to twice as long each further time, and a second at most.
        A deadlock of which the function says nothing counts as raised. It keeps the age of its first try, so it
        becomes the oldest in the end. Where too many transactions are open, a try waits for the end of one, 10 seconds
        at most. The last error is raised. Any other exception, `OutcomeUnknown` too, aborts what is open and is handed on.

        With a `key` it is asked first what became of that. Where it committed before, the function isn't run, and `Committed` is
        returned. Else it is committed under the key, as by `Transaction.commit`: of two threads with one key at once both may run
        their functions and return the values, and one of the two is committed.

        Raises what the function and a commit raise, `ValueError` where `tries` is below 1, `backoff` negative or
        it is used inside of `transact`, what `begin` raises, and with a key `BadKey`, `KeyAborted`, or `KeyPrepared` where a
        transaction is prepared under it. One that the function prepares is neither committed nor aborted here.
        """
        if tries < 1 or not backoff >= 0:
            raise ValueError(f"{tries} tries with a backoff of {backoff} seconds")
        if key is not None:
            check_key(key)
        who, age = unsigned("the worker", worker, 8), next(self._ages)
        self._check_no_turn()
        before = None if key is None else self._committed_under(key)
        return self._retried(Transaction(self, who, age), f, tries, backoff, key) if before is None else before

    def _committed_under(self, key: str) -> Optional[Committed]:
        """How a transaction committed under this key, if one did. Raises `KeyAborted` or `KeyPrepared`."""
        told = self.outcome(key)
        refuse_work(key, told)
        return told if isinstance(told, Committed) else None

    def _retried(self, t: Transaction, f: Callable[[Transaction], T], tries: int, backoff: float, key: Optional[str]) -> T:
        """The value of the function, in this transaction or in a later one of its age."""
        try:
            for behind in range(1, tries):
                self._begin_in_room(t)
                try:
                    return self._run(t, f, key)
                except Retryable as error:
                    reason = error
                self._waiting.before_next(t, reason, behind, backoff)
                t = Transaction(self, t._worker, t._age)
            self._begin_in_room(t)
            return self._run(t, f, key)
        except BaseException as error:
            self._give_up(t, error)
            raise

    def _run(self, t: Transaction, f: Callable[[Transaction], T], key: Optional[str]) -> T:
        """A try: the transaction has ended after it."""
        try:
            value = f(t)
            t._commit_at_end(key)
            return value
        except BaseException:
            t._abort_quietly()
            raise

    def transact(self, f: Callable[[Transaction], T], worker: int = 0) -> T:
        """Runs a function in a transaction, in one turn of the lock: no call of another thread comes between.

        It is committed after the function where that hasn't ended or prepared it, and the function's value is returned. Calls
        can't wait there, and the store can't be asked: both raise `ValueError`. An exception of the function aborts it
        and is handed on. Raises what the function, `begin` and `commit` raise.
        """
        who, age = unsigned("the worker", worker, 8), next(self._ages)
        self._check_no_turn()
        deadline, t = time.monotonic() + self._limit, Transaction(self, who, age)
        try:
            while True:
                with self._lock:
                    done = self._turn(t, f)
                self._backend.end_turn()
                if done is not None:
                    finished(done[1])
                    return done[0]
                if time.monotonic() >= deadline:
                    raise TimedOut(NO_EPOCH)
                time.sleep(SECONDS_OF_DRAIN)
        except BaseException as error:
            self._backend.end_turn()
            self._give_up(t, error)
            raise

    def _turn(self, t: Transaction, f: Callable[[Transaction], T]) -> Optional[Tuple[T, Finish]]:
        """A turn, under the lock: its value, and what is left to do after it; None where the transaction can't begin now.

        Each call in it takes the lock once more, so what gives that up for an answer keeps the lock of the turn.
        """
        self._backend.turn_of = threading.get_ident()
        return self._run_in_turn(t, f) if self._begins_now(t) else None

    def _run_in_turn(self, t: Transaction, f: Callable[[Transaction], T]) -> Tuple[T, Finish]:
        try:
            value = f(t)
            return value, None if t._ended or t._key is not None else self._backend.commit(t)
        except BaseException:
            t._abort_quietly()
            raise

    def attempt(self, calls: CallsOf, wait: Optional[float] = None, worker: int = 0, *, key: Optional[str] = None) -> Attempt:
        """A whole transaction: it begins, makes these calls in their order, and commits.

        `Done` has their operations. At the first call that isn't executed it aborts, and is `Ended`, with the place of that call
        and `Busy`, `Illegal` or an error. It commits whatever is replied: who wants to look first takes `transact`. Nobody comes
        between its calls, so nobody waits for it, and it needn't go behind those that wait.

        With `wait`, 0 or more seconds, it isn't ended by `Busy`: it is tried again when the transaction that was in the way has
        ended, and each second. It holds nothing while it sleeps, and has no turn among those that wait.

        With a `key`, as of `Transaction.commit`, it is done once: where it committed before, of a file in whichever life, `Done`
        has the operations of these calls by the replies of the first time. An attempt that is `Ended` leaves the key free.

        `calls` are 1 or more pairs of an object and the name of a call, in a file at most 64; under a key there may be none, and
        then a transaction that does nothing is committed. A call that isn't there ends it by
        `NoObject` or `NoCall`. Raises `NoObject` of a name that no object has, `TooManyOpenError`, `HistoryFullError`, `NoMemory`,
        `ClosedError`, and `ValueError` of no calls, a negative `wait` or inside of `transact`; with `wait` `TimedOut`. Nothing has
        changed then. Of a store in a file also `ConnectionLost`, `OutcomeUnknown`
        where the program was lost before it answered, `TimedOut` where the next epoch doesn't come, and `InMemoryOnly` of a
        worker other than 0. With a key also `BadKey`, `KeyAborted`, `KeyPrepared`, `KeyTaken`, and `OtherCalls` where the key is of
        other work.
        Where a signal handler raises in it, it may have committed: under a key it may be asked again.
        """
        who, deadline = unsigned("the worker", worker, 8), None if wait is None else deadline_of(wait)
        if key is not None:
            check_key(key)
        pairs = self._pairs(calls)
        self._check_no_turn()
        if not pairs:
            return self._nothing_done(who, key)
        while True:
            told = self._attempted(pairs, who, key)
            if deadline is None or not (isinstance(told, Ended) and isinstance(told.how, Busy)):
                return told
            try:
                self._waiting.out_of_the_way(told.how, deadline)
            except BaseException as error:
                self._backend.interrupted(error)
                raise

    def _nothing_done(self, worker: int, key: Optional[str]) -> Attempt:
        """What comes of an attempt of no calls: a transaction that does nothing is committed under its key."""
        if key is None:
            raise ValueError("an attempt has 1 call or more, or a key")
        before = self.retry(lambda t: None, worker=worker, key=key)
        try:
            # another thread may have done other work under the key meanwhile
            told = self.outcome(key) if before is None else before
        except ConnectionLost as lost:
            raise OutcomeUnknown("") from lost
        return self._backend.told_before(told, [], key) or Done(())

    def _attempted(self, pairs: Pairs, worker: int, key: Optional[str]) -> Attempt:
        """What comes of an attempt, where an epoch is full of one in the next."""
        deadline = time.monotonic() + self._limit
        while True:
            try:
                told: Optional[Attempt] = self._backend.run(lambda: self._backend.attempt(pairs, worker, key))()
            except BaseException as error:
                self._backend.interrupted(error)
                raise
            if told is not None:
                return told
            if time.monotonic() >= deadline:
                raise TimedOut(NO_EPOCH)
            time.sleep(SECONDS_OF_DRAIN)

    # ---- what is there

    def stats(self) -> Stats:
        """What was counted of this client since it opened the store."""
        return self._told(self._counts.told)

    def find(self, name: str) -> int:
        """The number of the object of this name. Raises `NoObject`, with the name."""
        if not isinstance(name, str):
            raise TypeError(f"the name is {name!r}, which is no str")
        return self._number_of(name)

    def name_of(self, object: int) -> Optional[str]:
        """The name of an object, where it has one."""
        return self._backend.names.get(unsigned("the object", object, 32))

    def call_number(self, object: ObjectRef, name: str) -> int:
        """The number of the call of this name at an object, for `Transaction.call_op`.

        It is that of the first operation that has the name: below 256 its place, and with the amount n 256 * (n + 1) more.
                Raises `NoObject`, `NoCall`, `ClosedError` or `ConnectionLost`.
        """
        x = self._number_of(object)
        return self._told(lambda: self._backend.call_number(x, name))

    def kept(self, object: ObjectRef) -> int:
        """The state that is kept of an object: of `Kind.UNDO` with what open transactions did, else without it.

        Raises `NoObject`, `ClosedError` or `ConnectionLost`.
        """
        x = self._number_of(object)
        self._check_no_turn()
        return self._told(lambda: self._backend.kept(x))

    def open_count(self) -> int:
        """How many transactions are open, those that are prepared among them. Raises `ClosedError` or `ConnectionLost`."""
        self._check_no_turn()
        return self._told(lambda: self._backend.open_count())

    def abort_all(self) -> None:
        """Aborts each open transaction that isn't prepared, in ascending order, as the worker that began it.

        Raises `ClosedError` or `InMemoryOnly`.
        """
        self._check_no_turn()
        self._told(self._abort_all)

    def _abort_all(self) -> None:
        self._counts.aborts += self._backend.abort_all()

    def events(self, start: int = 0) -> List[Event]:
        """The events from a place on, oldest first. Events count from 0; those of a file are of the present epoch.

        Its first ones are those of what went over into it, by other numbers.

        Raises `Forgotten`, `ClosedError` or `ConnectionLost`.
        """
        first = unsigned("the place", start, 64)
        self._check_no_turn()
        return self._told(lambda: self._backend.events(first))()

    def event_count(self) -> int:
        """How many events there were, those that were forgotten among them. Raises `ClosedError` or `ConnectionLost`."""
        self._check_no_turn()
        return self._told(lambda: self._backend.event_count())

    def forgotten_count(self) -> int:
        """How many of the first events were forgotten. Raises `ClosedError` or `InMemoryOnly`."""
        self._check_no_turn()
        return self._told(lambda: self._backend.forgotten_count())

    def forget(self, events: int) -> None:
        """Forgets the first events, this many of those that are in memory, or all of them.

        A store whose events are all forgotten has no end: where its history would be full it begins anew by itself, as
        `forget_when_full` says. It does so here too, where half of its room is used. So who forgets all events before the next
        half is used never meets `HistoryFullError`, but where open transactions hold nearly all of the limit. Raises
        `ClosedError` or `InMemoryOnly`.
        """
        count = unsigned("the number of events", events, 64)
        self._check_no_turn()
        self._told(lambda: self._backend.forget(count))

    def take_events(self) -> List[Event]:
        """The events that weren't forgotten, oldest first, which are forgotten now: what is read so is read once.

        No event of another thread comes between. So a store that is asked now and then, before half of its limit was used, has
        no end, and no event of it is lost; but where a signal handler raises in it they may be forgotten. Raises `ClosedError`,
        `MemoryError` or `InMemoryOnly`.
        """
        self._check_no_turn()
        return self._told(self._backend.take_events)()

    def forget_when_full(self) -> None:
        """Where its history is full, it is to forget all events and to go on, by itself.

        Else it does so only where they were forgotten before: who keeps a history doesn't lose it. What is open goes on, and
        nothing tells that the store began anew: neither numbers of transactions and of events, nor moments. Where a yes of the
        checker is one-way, it goes on only while no transaction is open. Raises `ClosedError` or `InMemoryOnly`.
        """
        self._check_no_turn()
        self._told(self._backend.forget_when_full)

    def follow(self, events: Iterable[Event]) -> None:
        """Makes events again, one after another, each as its worker: a store becomes what another was.

        Raises `NotFollowedError`, with how many were made, `PreparedError` where one is of a transaction that is prepared here, and
        none was made, `ClosedError` or `InMemoryOnly`.
        """
        all_of_them = list(events)
        self._check_no_turn()
        self._told(lambda: self._backend.follow(all_of_them))

    def renew(self) -> None:
        """Begins anew, at the states that are kept.

        Where no transaction is open it has no event then, and transactions and events count from 0 again. Where some are open, or
        prepared, and each yes of the checker is strong, all of them go on, also those that wait, and only the events are
        forgotten: numbers count on, so that nothing else can be told.

        Raises `StillOpenError` where one is open and some yes is one-way, `NoMemory`, `ClosedError` or `InMemoryOnly`.
        """
        self._check_no_turn()
        self._told(self._backend.renew)

    def extend(self, types: Objects) -> int:
        """Begins anew, as `renew` while nobody is open, with more objects, and returns the number of the first of them.

        They come after those that there are, each in its initial state, and are given as to `Store`. In a file it is durable then, and
        what is open goes on, where each yes of the checker is strong. Where one is one-way, it waits, and no transaction begins
        meanwhile, until all that are open have ended or the `drain` of `open` is over, which aborts them. Where it is interrupted,
        the objects may still be added.

        Raises `BadName`, `NameTaken`, `TooManyObjects`, `NoMemory`, or `ClosedError` of the store or a type; in memory
        `StillOpenError`; of a store in a file `NoObjects`, `CannotExtend`, `TimedOut` where others go on adding objects, or
        `ConnectionLost`, after which the file has all of the objects or none of them.
        """
        added = given(types)
        self._check_no_turn()
        try:
            return self._backend.extend(added)
        except BaseException as error:
            self._backend.interrupted(error)
            raise

    # ---- the end

    def close(self) -> None:
        """Aborts what is open, and gives the memory back, or ends the epoch of the file, which keeps what is prepared. A second time
        does nothing.

        Raises `ConnectionLost` where the program that serves a file didn't end in order, or was gone before; what
        was committed is in the file.
        """
        self._check_no_turn()
        try:
            finished(self._told(self._backend.close))
        except BaseException as error:
            self._backend.interrupted(error)
            raise

    def __del__(self) -> None:
        warn_of_store(self)

    def __enter__(self) -> "Store":
        return self

    def __exit__(self, kind: Optional[Class[BaseException]], value: Optional[BaseException], trace: Optional[TracebackType]) -> None:
        try:
            self.close()
        except ConnectionLost:
            # what leaves the `with` may say it already, and more
            if not isinstance(value, (ConnectionLost, OutcomeUnknown)):
                raise


_stores: "weakref.WeakSet[Store]" = weakref.WeakSet()


def _close_in_fork() -> None:
    """A fork would sell what its parent sells, with a copy of each store and of each pipe."""
    for store in list(_stores):
        store._after_fork()


if hasattr(os, "register_at_fork"):
    os.register_at_fork(after_in_child=_close_in_fork)

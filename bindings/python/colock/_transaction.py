"""Transactions."""
from types import TracebackType
from typing import TYPE_CHECKING, Callable, Optional, Set, cast
from typing import Type as Class

from ._backend import Asked, Finish
from ._epoch import Epoch
from ._errors import DeadlockError, Error
from ._keys import check_key
from ._library import unsigned
from ._objects import ObjectRef
from ._replies import Busy, Operation, Reply
from ._waiting import finished

if TYPE_CHECKING:
    from ._store import Store


class Transaction:
    """A transaction. A `with` commits it, without a key, or aborts it where an exception leaves it.

    Where it ended in the `with` already, or is prepared, nothing more is done; but where a deadlock ended it and nothing was
    said of that, `DeadlockError` is raised after the `with`, so that nobody takes it for committed. `Store.begin` makes it.
    """

    __slots__ = ("_store", "_life", "_worker", "_number", "_age", "_touched", "_took_back", "_key", "_ended", "_deadlock", "_epoch", "_in_library", "__weakref__")

    def __init__(self, store: "Store", worker: int, age: int) -> None:
        """One that hasn't begun, whose number is -1: it is there before, so that nothing begins that nobody has."""
        self._store, self._life, self._worker, self._number, self._age = store, -1, worker, -1, age
        # the objects at which it has executed operations, under the lock
        self._touched: Set[int] = set()
        # whether it may have rolled back some of them
        self._took_back = False
        # the key under which it is prepared, until it is decided
        self._key: Optional[str] = None
        self._ended = False
        # the deadlock whose victim it was
        self._deadlock: Optional[DeadlockError] = None
        # of a store in memory: the epoch of the library in which it was used last, and its number there
        self._epoch: Optional[Epoch] = None
        self._in_library = -1

    @property
    def number(self) -> int:
        """Its number: that of the transactions before it."""
        return self._number

    @property
    def id(self) -> str:
        """Its life and its number, `S.N`, by which `Store.committed` says what became of it.

        Of a store in memory the life is how often it was renewed while no transaction was open.
        """
        return f"{self._life}.{self._number}"

    def call(self, object: ObjectRef, name: str, wait: Optional[float] = None) -> Reply:
        """Calls the call of this name at an object, which is given by its number or its name.

        With `wait`, 0 or more seconds, it waits where another transaction is in the way, and isn't answered `Busy`.
        It sleeps until that one, or another one that executed something at the object, has ended or rolled back and it
        may go, and is executed or illegal then. It goes after an older transaction that waits at the object and that it
        would hold up; without `wait` it is then answered `Busy`, too.

        Raises `NotOpenError`, `PreparedError`, `NoObject`, `NoCall`, `HistoryFullError`, `NoMemory` or `ClosedError`; of a store in
        a file `EpochEndedError` or `ConnectionLost`. With `wait` also `TimedOut` where the time is over, and nothing was
        executed; `DeadlockError` where transactions wait for each other in a circle and this is the youngest, which is
        aborted then; and `ValueError` where `wait` is negative, inside of `Store.transact`, or where the
        transaction waits in another thread.
        """
        store = self._store
        x = store._number_of(object)
        try:
            memory = store._memory
            if wait is not None:
                call = store._backend.call_of(x, name)
                if call is not None:
                    return store._waiting.call(self, x, call, wait)
            if memory is not None:
                with store._lock:
                    if not store._sleepers:
                        reply = memory.call(self, x, name)
                        if reply.__class__ is Busy:
                            store._counts.busy[x] += 1
                        return reply
            return store._waiting.at_once(x, lambda: self._call_now(x, name))
        except BaseException as error:
            store._backend.interrupted(error)
            raise

    def expect(self, object: ObjectRef, name: str, reply: str, wait: Optional[float] = None) -> Operation:
        """The operation of a call that is executed with this reply. As `call`.

        Raises as `call`, and where nothing was executed `BusyError` or `IllegalError`. Where the reply is another one it
        raises `UnexpectedError`: the operation was executed, and stays in the transaction.
        """
        return self.call(object, name, wait).expected(reply)

    def call_op(self, object: ObjectRef, call: int, wait: Optional[float] = None) -> Reply:
        """Calls the call of this number, for which `Store.call_number` is asked once. As `call`."""
        store = self._store
        x, c = store._number_of(object), unsigned("the call", call, 64)
        try:
            if wait is not None and self._is_call(x, c):
                return store._waiting.call(self, x, c, wait)
            if store._memory is not None:
                with store._lock:
                    if not store._sleepers:
                        reply = store._memory.call_op(self, x, c)
                        if reply.__class__ is Busy:
                            store._counts.busy[x] += 1
                        return reply
            return store._waiting.at_once(x, lambda: self._call_op_now(x, c))
        except BaseException as error:
            store._backend.interrupted(error)
            raise

    def would(self, object: ObjectRef, name: str) -> Reply:
        """What `call` would be answered now, without `wait`. Nothing is executed, and it is no event. Raises as `call`."""
        x = self._store._number_of(object)
        return cast(Reply, self._store._told(lambda: self._would_now(x, name)))

    def would_op(self, object: ObjectRef, call: int) -> Reply:
        """What `call_op` would be answered now, without `wait`. Raises as `call`."""
        x, c = self._store._number_of(object), unsigned("the call", call, 64)
        return cast(Reply, self._store._told(lambda: self._would_op_now(x, c)))

    def _call_now(self, x: int, name: str) -> Asked[Reply]:
        """A call that doesn't wait, under the lock. Where somebody sleeps the gate is looked at."""
        store = self._store
        call = store._backend.call_of(x, name) if store._sleepers else None
        return store._backend.call(self, x, name) if call is None else store._waiting.call_now(self, x, call)

    def _call_op_now(self, x: int, call: int) -> Asked[Reply]:
        """The same by its number."""
        store = self._store
        is_alone = not store._sleepers or not self._is_call(x, call)
        return store._backend.call_op(self, x, call) if is_alone else store._waiting.call_now(self, x, call)

    def _would_now(self, x: int, name: str) -> Asked[Reply]:
        """What a call would be answered, under the lock. Where somebody sleeps the gate is looked at."""
        store = self._store
        call = store._backend.call_of(x, name) if store._sleepers else None
        return store._backend.would(self, x, name) if call is None else store._waiting.would_now(self, x, call)

    def _would_op_now(self, x: int, call: int) -> Asked[Reply]:
        """The same by its number."""
        store = self._store
        is_alone = not store._sleepers or not self._is_call(x, call)
        return store._backend.would_op(self, x, call) if is_alone else store._waiting.would_now(self, x, call)

    def _is_call(self, x: int, call: int) -> bool:
        """Whether the object has a call of this number."""
        types = self._store._backend.types
        return x < len(types) and types[x]._calls.name(call) is not None

    def rollback(self, operations: int) -> None:
        """Takes back its last operations, over all objects together. It stays open, and who waits for it or at one of its
        objects may go.

        Raises `NotOpenError`, `PreparedError`, `BadRollback`, `HistoryFullError`, `NoMemory` or `ClosedError`; of a store in a file
        `EpochEndedError` or `ConnectionLost`.
        """
        count = unsigned("the number of operations", operations, 64)
        self._do(lambda: self._store._backend.rollback(self, count))

    def commit(self, *, key: Optional[str] = None) -> None:
        """Commits it. Of a store in a file it is durable after this.

        A `key`, of 1 to 64 bytes of a-z, A-Z, 0-9, `_`, `:`, `-` and `.`, is of one transaction of the store at most, as long as its
        `Store.outcome` stays. Where one has committed under it before, of a file in whichever life, this returns too, also where this
        transaction has ended; where it is open it is aborted. So whoever wasn't answered does the work again under the same key. Where
        two threads commit under one key at once, one of the two is committed, and neither learns which.

        Where a signal handler raises in it, `Store.committed` says what became of it, unless it is still open, and
        `Store.outcome` what became of the key. Raises `BadKey`, and `KeyAborted`, `KeyPrepared` or `KeyTaken`, after which it is open
        as before; `NotOpenError`, `PreparedError` or `ClosedError`; of a store in a file `EpochEndedError`, `ConnectionLost` where it
        can't be committed, or `OutcomeUnknown` where the program was lost before it answered.
        """
        if key is not None:
            check_key(key)
        backend = self._store._backend
        try:
            with backend.lock:
                finish = backend.commit(self, key)
            if finish is not None:
                finish()
        except BaseException as error:
            backend.interrupted(error, None if key is None else self)
            raise

    def prepare(self, key: str, *, until: int = 0) -> None:
        """Prepares it under a key: it keeps its operations until `Store.decide` ends it. Of a store in a file it is durable after this.

        From then on its calls and its own ends raise `PreparedError`. It stays open where a `with` ends, where nobody has it any
        more, and in a file where the store is closed or its program is lost, in whichever life. The key is as of `commit`. `until` is
        a number below 2^32 that the store only keeps, for whoever decides: say a deadline, in seconds since 1970. Under the same
        key it may be prepared twice, which changes nothing.

        Raises, and it is open as before: `BadKey`, `KeyPrepared`, `KeyCommitted`, `KeyAborted` or `KeyTaken`, `OverflowError` of
        `until`, `PreparedError` where it is prepared under another key, `NotOpenError` or `ClosedError`; of a store in a file
        `EpochEndedError` or `ConnectionLost`. Where the program was lost before it answered it is `OutcomeUnknown`; then, and where a
        signal handler raises in it, `Store.outcome` says whether it is prepared.
        """
        check_key(key)
        seconds = unsigned("the number until", until, 32)
        self._do(lambda: self._store._backend.prepare(self, key, seconds), self)

    def abort(self) -> None:
        """Aborts it: nothing stays of its operations.

        Raises `NotOpenError`, `PreparedError`, `ClosedError`, `EpochEndedError` or `ConnectionLost`.
        """
        self._do(lambda: self._store._backend.abort(self))

    def _do(self, begin: Callable[[], Finish], under_key: "Optional[Transaction]" = None) -> None:
        """Begins an end, a prepare or a rollback under the lock, and finishes it without."""
        backend = self._store._backend
        try:
            with backend.lock:
                finish = begin()
            finished(finish)
        except BaseException as error:
            backend.interrupted(error, under_key)
            raise

    def _abort_quietly(self) -> None:
        """Aborts it where it is open and not prepared, at an exception that says more than that it isn't."""
        if self._ended or self._key is not None or self._number < 0:
            return
        try:
            self.abort()
        except Error:
            pass  # it has ended, or nobody is there who could abort it

    def _commit_at_end(self, key: Optional[str] = None) -> None:
        """Commits it where it is open and not prepared. Raises the `DeadlockError` that ended it, if one did."""
        if self._deadlock is not None:
            raise self._deadlock
        if not self._ended and self._key is None:
            self.commit(key=key)

    def __enter__(self) -> "Transaction":
        return self

    def __exit__(self, kind: Optional[Class[BaseException]], value: Optional[BaseException], trace: Optional[TracebackType]) -> None:
        try:
            if kind is None:
                self._commit_at_end()
                return
        except BaseException:
            self._abort_quietly()  # where the commit was interrupted before it was begun
            raise
        self._abort_quietly()

    def __repr__(self) -> str:
        return f"<colock.Transaction {self._number} of worker {self._worker}>"
